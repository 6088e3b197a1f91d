#!/usr/bin/env bash
# Changes one digit in what ten case files want, one file after the other, and sees that the program which follows them reports the file
# and the line, where without the change it reports nothing.
#
# usage: tests/changed_digits.sh [PROGRAM [SEED]]
#
# PROGRAM is crates/test_cases/out/test_cases by default, which `rt run` and `rt ci` leave there. Another SEED, a number, chooses other
# files and digits.
set -euo pipefail
source "$(dirname "$0")/common.sh"
take_program test_cases "${1:-}"
enter digits
cp -r "$root"/crates/test_cases/data/. .
RANDOM=${2:-1}

# The lines of a file that are wanted, with a digit: lines and statuses of an answer, and right sides of rows; not those that belong to a
# text or a file.
wanted_lines() {
    awk '/^[a-z$-]/ { answers = /^\$/ } (answers && /^[|!?] .*[0-9]/) || /^- .*=> .*[0-9]/ { print NR }' "$1"
}

# Writes a file with the last digit of a line changed.
change() {
    awk -v line="$2" '
        NR == line { at = match($0, /[0-9][^0-9]*$/); digit = (substr($0, at, 1) + 1) % 10
            $0 = substr($0, 1, at - 1) digit substr($0, at + 1) }
        { print }' "$1"
}

tried=0 reported=0
mapfile -t files < <(ls ./*.cases | grep -v broken | shuf --random-source=<(yes "$RANDOM"))
for file in "${files[@]#./}"; do
    mapfile -t lines < <(wanted_lines "$file")
    if ((${#lines[@]} == 0 || tried == 10)); then continue; fi
    tried=$((tried + 1))
    line=${lines[RANDOM % ${#lines[@]}]}
    "$program" "$file" >report 2>&1 || give_up "$file differs as it is: $(<report)"
    cp "$file" kept
    change kept "$line" >"$file"
    # (A digit in the name of a text makes it a name that nobody gave, which stops the program at the entry.)
    if ! "$program" "$file" >report 2>&1 && grep -qE "^$file:($line: |[0-9]+: nothing has this name)" report; then
        reported=$((reported + 1))
    else
        echo "not reported: $file:$line: $(sed -n "${line}p" "$file")"
    fi
    mv kept "$file"
done
echo "$reported of 10 changed digits reported, with their lines"
((reported == 10))
