#!/usr/bin/env bash
# Replays the calls of `bagit-keep receive`, `edit`, `repack` and `restore` over a disk that loses what wasn't synced, with the power cut
# after each call: nothing that was there is lost, and no bag is there but the old one or the new one, each whole. The disk and the losses
# stand in power_cut_keep.py. It needs strace and Python 3.
#
# usage: tests/power_cut_keep.sh [PROGRAM]
#
# PROGRAM is crates/bagit/out/bagit by default.
set -euo pipefail
source "$(dirname "$0")/common.sh"
needs strace
needs python3
take_program bagit "${1:-}"
export BAGIT=$program PYTHONDONTWRITEBYTECODE=1
enter keep-power
mkdir disk
cd disk
python3 "$tests/power_cut_keep.py" "$root/companions/bagit-keep"
