#!/usr/bin/env bash
# How long fault lines take to be read and written again, row by row, by the program that follows case files: how much longer for twice
# as many lines, and for lines that are twice as long. The lines are of faults with escaped paths, and of texts that are refused at
# their first field. Counted is the processor time that the program takes, its own and the system's, the reading of the file included,
# and the least of several runs. Beside it stands `wc -l` on the same file.
#
# usage: bench/lines.sh [PROGRAM] [RUNS]
#
# PROGRAM is crates/test_cases/out/test_cases by default, which `rt run` and `rt ci` leave there.
set -euo pipefail
source "$(dirname "$0")/common.sh"

take_program test_cases "${1:-}"
runs=${2:-5}
lines=500000
size=60

make_room lines

# Writes so many lines with names of so many bytes, an escape in every sixth.
fault_lines() {
    awk -v lines="$1" -v size="$2" 'BEGIN {
        while (length(name) < size) name = name "pp%20q"
        for (line = 1; line <= lines; line++) {
            text = sprintf("601 payload-file-missing data/%s%d md5 - -", name, line)
            print "- " text " => " text
        }
    }'
}

other_lines() {
    awk -v lines="$1" -v size="$2" 'BEGIN {
        while (length(name) < size) name = name "notes_"
        for (line = 1; line <= lines; line++) printf "- %s%d => not a fault line\n", name, line
    }'
}

# Rows of a kind, after the line that says what reads them.
rows() {
    echo 'read line'
    "$@"
}

measure() {
    local kind=$1 counted= once= more= longer= file run
    rows "${kind}_lines" "$lines" "$size" >"$work/once"
    rows "${kind}_lines" $((2 * lines)) "$size" >"$work/more"
    rows "${kind}_lines" "$lines" $((2 * size)) >"$work/longer"
    for file in once more longer; do
        "$program" "$work/$file" >"$work/output" || give_up "the program of cases doesn't follow $kind lines: $(head -c 300 "$work/output")"
    done
    for ((run = 0; run < runs; run++)); do
        counted=$(least "$counted" "$(milliseconds wc -l "$work/once")")
        once=$(least "$once" "$(milliseconds "$program" "$work/once")")
        more=$(least "$more" "$(milliseconds "$program" "$work/more")")
        longer=$(least "$longer" "$(milliseconds "$program" "$work/longer")")
    done
    echo "$kind lines: $once ms, wc -l: $counted ms"
    ratio "twice as many $kind lines" "$more" "$once" 2.30
    ratio "$kind lines that are twice as long" "$longer" "$once" 2.30
}

measure fault
measure other
