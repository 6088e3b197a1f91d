#!/usr/bin/env bash
# Compares reports with those of a second check, which is plain and slow, and written by RFC 8493 and the pages alone (plain_tags.py,
# plain_faults.py). Generated are: all short texts of bagit.txt, bag-info.txt and Payload-Oxum, of fetch.txt and of manifests, some of
# thousands of lines, and a long path, in both versions; bags with most faults that there are, at all depths, by profiles, and resumed
# after each line; two thousand elements under five hundred rules. What is generated is the same each time.
#
# usage: tests/plain.sh [PROGRAM] [BAGS]
#
# PROGRAM is crates/bagit/out/bagit by default, which `rt run` and `rt ci` leave there; BAGS is 320. It needs Python.
set -euo pipefail
source "$(dirname "$0")/common.sh"
take_program bagit "${1:-}"
needs python3
enter plain
LC_ALL=C.UTF-8 python3 -B "$tests/plain.py" "$program" "${2:-320}" >counted || give_up 'a report is another than that of a plain reader'
grep -qE '^[0-9]+ texts of .* all [0-9]+ reports are those of a plain reader$' counted || give_up "it says: $(<counted)"
cat counted
