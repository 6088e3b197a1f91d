#!/usr/bin/env bash
# How long `bagit --validate --fast` takes for a bag with a manifest of 1,000,000 lines, against `sort -u` on their paths, and how much longer it takes for
# twice as many lines. The lines are of SHA-256 and have paths of 60 bytes: random ones, the same in ascending order, and
# ones of folders that begin alike, scattered. Counted is the processor time that the programs take, their own and the
# system's, the reading of the file included, and the least of several runs.
#
# usage: bench/manifest.sh [PROGRAM] [RUNS]
#
# PROGRAM is crates/bagit/out/bagit by default, which `rt run` and `rt ci` leave there.
set -euo pipefail
source "$(dirname "$0")/common.sh"

take_program bagit "${1:-}"
runs=${2:-5}
lines=1000000

make_room manifest

# Writes a manifest of so many lines with random paths.
random_manifest() {
    awk -v lines="$1" '
        function random_text(size,   text) {
            while (length(text) < size) text = text sprintf("%04x", int(rand() * 65536))
            return substr(text, 1, size)
        }
        BEGIN {
            srand(1)
            for (line = 0; line < lines; line++) printf "%064d  data/%s\n", line, random_text(55)
        }'
}

ascending_manifest() {
    random_manifest "$1" | LC_ALL=C sort -k 2
}

# Each line is of a place far from that of the line before it.
scattered_manifest() {
    awk -v lines="$1" '
        BEGIN {
            for (line = 0; line < lines; line++) {
                place = line * 620363 % lines
                printf "%064d  data/collections/2021/boxes/box-%04d/images/image-%05d.tiff\n", line, place / 1000, place % 1000
            }
        }'
}

# Bags that agree with their oxum, so that a check reads their manifest and looks for nothing in it.
for bag in once twice; do
    mkdir -p "$work/$bag/data"
    printf 'BagIt-Version: 1.0\nTag-File-Character-Encoding: UTF-8\n' >"$work/$bag/bagit.txt"
    echo 'Payload-Oxum: 0.0' >"$work/$bag/bag-info.txt"
done

# Prints both ratios for a kind of manifest.
measure() {
    local kind=$1 sorted= read= read_twice= run
    "${kind}_manifest" "$lines" >"$work/once/manifest-sha256.txt"
    "${kind}_manifest" $((2 * lines)) >"$work/twice/manifest-sha256.txt"
    cut -c 67- "$work/once/manifest-sha256.txt" >"$work/paths"
    diff <("$program" --validate --fast "$work/twice") <(echo "$work/twice agrees with its oxum")
    for ((run = 0; run < runs; run++)); do
        sorted=$(least "$sorted" "$(milliseconds env LC_ALL=C sort -u "$work/paths")")
        read=$(least "$read" "$(milliseconds "$program" --validate --fast "$work/once")")
        read_twice=$(least "$read_twice" "$(milliseconds "$program" --validate --fast "$work/twice")")
    done
    ratio "$kind paths, beside sort -u" "$read" "$sorted" 4.00
    ratio "twice the lines of $kind paths" "$read_twice" "$read" 2.30
}

measure random
measure ascending
measure scattered
