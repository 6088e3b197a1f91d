#!/usr/bin/env bash
# Checks generated bags in parts, in any order: the lines of all parts, one after the other, must be those of one check; each part ends
# with status 1 and a line that tells which it is, and the files and bytes that the system counts; after one of its faults it goes on
# with the others; and a file that is added between two parts is seen. What is generated is the same each time.
#
# Then `bagit-keep check` has such bags checked in parts, is killed at any time and goes on, and has them joined to the report of one
# check, byte for byte; a part that is done isn't checked again. None are joined if the bag was altered between two parts, a part's file
# is cut off, edited or of another check, the options, the folder or the program are others, or a part isn't done.
#
# usage: tests/parts.sh [PROGRAM] [BAGS]
#
# PROGRAM is crates/bagit/out/bagit by default, which `rt run` and `rt ci` leave there; BAGS is 60. It needs Python.
set -euo pipefail
source "$(dirname "$0")/common.sh"
take_program bagit "${1:-}"
needs python3
enter parts
quick_python
LC_ALL=C.UTF-8 python3 -B "$tests/parts.py" "$program" "${2:-60}" >counted || { cat counted; give_up 'a check in parts is another than one check'; }
[[ $(<counted) == "${2:-60} bags, "* ]] || give_up "it says: $(<counted)"
cat counted
PYTHONPATH=$tests python3 -B "$tests/joined_parts.py" "$program" "$root/companions/bagit-keep" 3 >counted ||
    { cat counted; give_up 'parts are joined that do not belong together, or not joined as one check'; }
grep -qE '^[0-9]+ joined, [0-9]+ killed' counted || give_up "it says: $(<counted)"
cat counted
