#!/usr/bin/env bash
# Renews bags, and replays the calls that the program made over disks that lose what wasn't synced, with the power cut after each call:
# there is a valid bag with the payload that it had, of which the same command makes the renewed one, and once `renewed` was written
# only that may be left. Then each kind of sync is left out of the calls in turn, and something must be wrong. Then the program is
# killed after each call and the same command is given again, with the power cut after each call of that; without the sync with
# which it begins something must be wrong. The disks stand in power_cut.py, and what is wrong in power_cut_renewals.py. It needs
# strace and Python 3.
#
# usage: tests/power_cut_renewals.sh [BAGIT [BAGIT_RENEW]]
#
# BAGIT is crates/bagit/out/bagit by default, and BAGIT_RENEW what stands in crates/bagit_renew/out.
set -euo pipefail
source "$(dirname "$0")/common.sh"
take_renew "${2:-}"
take_program bagit "${1:-}"
needs strace
needs python3
export PYTHONDONTWRITEBYTECODE=1
enter power
python3 "$tests/power_cut_renewals.py" "$program" "$renew"
