#!/usr/bin/env bash
# Joins reports of parts of generated bags, of 1, 2 and 8 parts in any order: what is written, and the status, must be those of one check.
# Then a report is left out, given twice, taken from another check or another number of parts, cut off at each byte, stopped, resumed, or
# has another byte: whatever is changed, nothing may be written that one check wouldn't write, and where it can be seen, nothing at all;
# the status is 3 then, and one line on standard error names the report. A report that is altered between two readings, a folder, a pipe
# and a file that can't be read are no reports. 65,536 reports are joined, and the memory doesn't grow with what the reports hold.
#
# usage: tests/joins.sh [PROGRAM] [BAGS]
#
# PROGRAM is crates/bagit/out/bagit by default, which `rt run` and `rt ci` leave there; BAGS is 24. It needs Python.
set -euo pipefail
source "$(dirname "$0")/common.sh"
take_program bagit "${1:-}"
needs python3
enter joins
LC_ALL=C.UTF-8 python3 -B "$tests/joins.py" "$program" "${2:-24}" >counted ||
    { cat counted; give_up 'reports are joined that do not belong together, or not joined as one check'; }
grep -qE '^[0-9]+ joined as one check, [0-9]+ refused' counted || give_up "it says: $(<counted)"
cat counted
