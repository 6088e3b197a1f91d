#!/usr/bin/env bash
# Programs that call `bagitkeep.bagit`, over the built programs: bags that are made, checked, damaged and saved; odd names; checks that
# are killed, starved or not heard; and several processes that save one bag. What isn't checked is never valid, and no save loses a value.
#
# usage: tests/pipelines.sh [PROGRAM [RENEW]]
#
# PROGRAM is crates/bagit/out/bagit by default, and RENEW what stands in crates/bagit_renew/out. It needs Python.
set -euo pipefail
source "$(dirname "$0")/common.sh"
needs python3
take_program bagit "${1:-}"
take_renew "${2:-}"
enter pipelines
export BAGIT=$program BAGIT_RENEW=$renew PYTHONDONTWRITEBYTECODE=1 TMPDIR=$work
python3 -W error "$root/tests/pipelines.py" >said 2>&1 || { cat said; give_up 'pipelines get another answer'; }
count=$(sed -n 's/^Ran \([0-9]*\) tests .*/\1/p' said)
((count > 10)) || give_up "$count tests were found"
echo "$count programs over bags got the right answers"
