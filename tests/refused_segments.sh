#!/usr/bin/env bash
# Runs a program that calls `run` and `run_segments` over a real folder, again and again, each time with another growth
# refused: the first, the second, and so on, until none is left to refuse. What is written must be the report's first lines, as many as
# the outcome says, and the outcome one that is possible with one limit lost. If a refusal can change the outcome, at least one must.
# With a limit more than the report needs all of it is written, whichever growth was refused. It needs a C compiler.
#
# usage: tests/refused_segments.sh [PROGRAM]
#
# PROGRAM is crates/test_cases/out/test_cases by default, which `rt ci` leaves there: with the word `segments` it calls them.
set -euo pipefail
source "$(dirname "$0")/common.sh"
source "$(dirname "$0")/growths.sh"
needs cc
enter segments
build_refuser

take_program test_cases "${1:-}"

all_own=0 own=0

# Whether an answer has the report's first lines, as many as its outcome says, and an outcome that is wanted. A run's closing line
# stands after them. (The program ends with 1 where there was no memory for what it does around the calls.)
is_right() {
    local outcome=${errors%$'\n'} front
    if [[ $status == 1 && ! $output ]]; then
        own=$((own + 1))
        return
    fi
    [[ $status == 0 && -n $outcome && " $wanted " == *" ${outcome/ /:} "* ]] || return
    [[ ${outcome/ /:} == "${wanted%% *}" ]] || others=$((others + 1))
    printf -v front '%s' "${report[@]:0:${outcome#* }}"
    [[ $limits != run ]] || case $outcome in
        memory*) front+="d unread - memory, faults: ${outcome#* }"$'\n' ;;
        *) front+="d has faults: ${outcome#* }"$'\n' ;;
    esac
    [[ $output == "$front" ]]
}

# Refuses each growth of a check of the bag with the faults of the file `report`. Its arguments are the limits, or `run`, how it ends
# where no growth is refused, and how else it may end where one is.
in_turn() {
    limits=$1 wanted=$2 others=0
    mapfile report <report
    refusing_none "$program" segments "$limits"
    is_right && ((own == 0)) || give_up "$limits: $output$errors"
    wanted=${*:2}
    refusing_each : is_right "$program" segments "$limits"
    (($# == 2 || others > 0)) || give_up "$limits: no refusal gives another outcome"
    all_own=$((all_own + own)) own=0
}

# A file that one of three manifests names.
bag; put data/a a; put manifest-md5.txt "$ma  data/a\n"; put manifest-sha1.txt ''; put manifest-sha256.txt ''
cat >report <<'END'
603 payload-file-not-listed data/a sha1 - -
603 payload-file-not-listed data/a sha256 - -
END
in_turn run faults:2 memory:0 memory:1 memory:2
in_turn 1,1 stopped:2 stopped:1 memory:1
in_turn 1,1,1,1 faults:2

# A changed file that two manifests name: with two limits more than it has faults, one may be lost.
bag; put data/x a; put manifest-md5.txt "$mabc  data/x\n"; put manifest-sha1.txt "$sabc  data/x\n"
cat >report <<END
701 payload-sum-differs data/x md5 - $mabc:$ma
701 payload-sum-differs data/x sha1 - $sabc:$sa
END
in_turn run faults:2 memory:0 memory:1 memory:2
in_turn 1,1 stopped:2 stopped:1 memory:1
in_turn 1,1,1,1 faults:2

# A manifest of which no line can be read. The last limit may be lost, where no further one follows.
bag; put manifest-md5.txt "$m0  data/%%41\n$m0  data/../x\n$m0  /etc/x\n$m0  data\n"
cat >report <<'END'
503 manifest-escape manifest-md5.txt md5 1 data/%2541
504 manifest-unsafe-path manifest-md5.txt md5 2 data/../x
504 manifest-unsafe-path manifest-md5.txt md5 3 /etc/x
505 manifest-outside-payload manifest-md5.txt md5 4 data
END
in_turn 2,0,1,9 faults:4 memory:3 memory:4
in_turn 2,0,9,9 faults:4

# Three changed files that two manifests name.
bag; for file in a b c; do put "data/$file" a; done
put manifest-md5.txt "$mb  data/a\n$mb  data/b\n$mb  data/c\n"
put manifest-sha1.txt "$s0  data/a\n$s0  data/b\n$s0  data/c\n"
for file in a b c; do
    echo "701 payload-sum-differs data/$file md5 - $mb:$ma"
    echo "701 payload-sum-differs data/$file sha1 - $s0:$sa"
done >report
in_turn 3,3,3,3 faults:6

echo "$all_own were of the program around the calls"
conclude
