#!/usr/bin/env bash
# How long a bag takes to be checked against a profile, beyond a check without it: metadata of 50,000 elements and 100 tag files,
# beside a profile of 1,000 labels with 100 values each and of 1,000 patterns, of which each file's is among the last. Of the elements
# none has a fault, or each has one, which is written. Beside it stands how much longer twice as many elements take, and what the
# profile takes beside a bag without elements. Counted is the processor time that `bagit --validate --fast` takes, its own and the
# system's, the least of several runs.
#
# usage: bench/profile.sh [PROGRAM] [RUNS]
#
# PROGRAM is crates/bagit/out/bagit by default, which `rt run` and `rt ci` leave there.
set -euo pipefail
source "$(dirname "$0")/common.sh"

take_program bagit "${1:-}"
runs=${2:-5}
elements=50000
labels=1000
values=100
patterns=1000
files=100

make_room profile

# A profile: none of its labels may be lacking, and all may stand again.
profile() {
    awk -v labels="$labels" -v values="$values" -v patterns="$patterns" 'BEGIN {
        print "{\"BagIt-Profile-Info\":{\"BagIt-Profile-Identifier\":\"urn:p\"},\"Bag-Info\":{"
        for (value = 0; value < values; value++) list = list (value ? "," : "") sprintf("\"value %04d\"", value)
        for (label = 0; label < labels; label++)
            printf "%s\"Label-%04d\":{\"required\":true,\"values\":[%s]}\n", label ? "," : "", label, list
        print "},\"Tag-Files-Allowed\":["
        for (pattern = 0; pattern < patterns; pattern++)
            printf "%s\"notes/*/page-%04d-*.txt\"\n", pattern ? "," : "", pattern
        print "]}"
    }'
}

# So many elements whose values are allowed, or all others; each label stands far from itself.
metadata() {
    awk -v elements="$1" -v word="$2" -v labels="$labels" -v values="$values" 'BEGIN {
        print "BagIt-Profile-Identifier: urn:p"
        print "Payload-Oxum: 0.0"
        for (element = 0; element < elements; element++)
            printf "%s-%04d: %s %04d\n", element % 2 ? "label" : "LABEL", element * 617 % labels, word, element % values
    }'
}

# A bag with so many elements, and the profile beside it.
make_bag() {
    local bag=$work/$1 file
    mkdir -p "$bag/data" "$bag/notes/a/b"
    printf 'BagIt-Version: 1.0\nTag-File-Character-Encoding: UTF-8\n' >"$bag/bagit.txt"
    touch "$bag/manifest-sha256.txt"
    for ((file = 0; file < files; file++)); do
        touch "$(printf '%s/notes/a/b/page-%04d-x.txt' "$bag" $((patterns - 1 - file)))"
    done
    metadata "$2" "$3" >"$bag/bag-info.txt"
    profile >"$bag.json"
}

# Checks a bag; a check that finds faults ends with 1.
check() { "$program" --validate --fast "$@" || [[ $? == 1 ]]; }

# How much longer a bag takes with its profile than without, each the least of several runs.
judged() {
    local read= whole= run
    for ((run = 0; run < runs; run++)); do
        read=$(least "$read" "$(milliseconds check "$work/$1")")
        whole=$(least "$whole" "$(milliseconds check --profile "$work/$1.json" "$work/$1")")
    done
    echo "$((whole - read))"
}

make_bag none 0 value
none=$(judged none)

measure() {
    local kind=$1 word=$2 faults=$3 once= twice=
    make_bag once "$elements" "$word"
    make_bag twice $((2 * elements)) "$word"
    diff <(check --profile "$work/once.json" "$work/once" | grep -c ^804) <(echo "$faults")
    diff <(check --profile "$work/twice.json" "$work/twice" | grep -c ^804) <(echo $((2 * faults)))
    once=$(judged once)
    twice=$(judged twice)
    ratio "$kind values ($none ms without elements), twice the elements" "$twice" "$once" 2.30
}

measure allowed value 0
measure other other "$elements"
