#!/usr/bin/env bash
# How long `bagit --validate` takes: of a bag with one large file, for each algorithm beside its program of coreutils, and for
# SHA-256 and SHA-512 beside both programs; of a bag of 100,000 files of 1 KiB with manifests of both, beside both programs over
# the same list through `xargs`. Of these the processor time is counted, the programs' own and the system's, and the least of
# several runs, with the files in the page cache. Then: how long the program takes to start, over an empty bag, and how long it
# takes to write 1,000,000 faults to a pipe, beside `cat` of the report, both by the clock; and how much more memory twice as
# many faults take.
#
# usage: bench/validate.sh [PROGRAM] [RUNS] [MEBIBYTES]
#
# PROGRAM is crates/bagit/out/bagit by default, which `rt run` and `rt ci` leave there.
set -euo pipefail
source "$(dirname "$0")/common.sh"
source "$(dirname "$0")/small_files.sh"

take_program bagit "${1:-}"
runs=${2:-5}
mebibytes=${3:-500}

make_room validate

# Makes a bag with an empty payload folder and no manifest.
make_bag() {
    mkdir -p "$work/$1/data"
    printf 'BagIt-Version: 1.0\nTag-File-Character-Encoding: UTF-8\n' >"$work/$1/bagit.txt"
}

validate() { "$program" --validate "$work/$1"; }

make_bag large
head -c "${mebibytes}M" /dev/urandom >"$work/large/data/file"
for alg in md5 sha1 sha224 sha256 sha384 sha512; do
    rm -f "$work/large"/manifest-*
    (cd "$work/large" && "${alg}sum" data/file >"manifest-$alg.txt")
    diff <(validate large) <(echo "$work/large is valid")
    ratio "$alg" "$(least_of validate large)" "$(least_of "${alg}sum" "$work/large/data/file")" 1.20
done
(cd "$work/large" && sha256sum data/file >manifest-sha256.txt)
ratio "sha256 and sha512" "$(least_of validate large)" "$(least_of both_programs "$work/large/data/file")" 1.00
rm -r "$work/large"

make_small_files
diff <(validate bag) <(echo "$work/bag is valid")
ratio "100,000 files" "$(least_of validate bag)" "$(least_of both_through_xargs)" 0.80
cd "$work"
rm -r "$work/bag"

# Starts of the program, a hundred in a run.
make_bag empty
: >"$work/empty/manifest-sha256.txt"
starts() {
    local start
    for ((start = 0; start < 100; start++)); do validate empty; done
}
started=
for ((run = 0; run < runs; run++)); do started=$(least "$started" "$(elapsed starts)"); done
at_most "start over an empty bag" "$started/100" 10 ms

# A bag whose manifest names so many files that aren't there.
make_faulty() {
    make_bag "$1"
    seq -f 'd41d8cd98f00b204e9800998ecf8427e  data/folder/image-%07.0f.tiff' "$2" >"$work/$1/manifest-md5.txt"
}

through_pipe() { "$@" | cat; }

# A check that finds faults ends with 1.
faults_of() { validate "$1" || [[ $? == 1 ]]; }

make_faulty half 500000
make_faulty whole 1000000
faults_of whole >"$work/report"
diff <(tail -n 1 "$work/report") <(echo "$work/whole has faults: 1000000")
written= copied=
for ((run = 0; run < runs; run++)); do
    written=$(least "$written" "$(elapsed through_pipe faults_of whole)")
    copied=$(least "$copied" "$(elapsed through_pipe cat "$work/report")")
done
at_most "1,000,000 faults: $written ms, cat of the report: $copied ms, more for a fault by" "$((written - copied))/1000" 10 µs
empty=$(peak "$program" --validate "$work/empty")
half=$(($(peak "$program" --validate "$work/half") - empty))
whole=$(($(peak "$program" --validate "$work/whole") - empty))
echo "memory: $((whole * 1024 / 1000000)) bytes a fault"
at_most "memory of 1,000,000 faults, beside 500,000" "$whole/$half" 2.20
