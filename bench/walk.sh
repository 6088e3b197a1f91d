#!/usr/bin/env bash
# How long checks take, and how much memory, beside another build of the program, as one of an earlier commit: of 100,000 empty
# files whether the bag is complete; of 100,000 files of 1 KiB with all digests; of one file of 200 MB by MD5, SHA-1, SHA-256 and
# SHA-512; of 250,000 files to which four manifests give other digests, so that there are 1,000,000 faults. Then, of this program
# alone: how long the first fault takes where the first of 100,000 files is wrong, beside a check whether that bag is complete; and
# the memory that a bag takes in which each digest is wrong, beside the same bag with none. Counted is processor time, the least of
# several runs of both in turn.
#
# usage: bench/walk.sh OTHER [PROGRAM] [RUNS]
#
# PROGRAM is crates/bagit/out/bagit by default, which `rt run` and `rt ci` leave there.
set -euo pipefail
source "$(dirname "$0")/common.sh"
source "$(dirname "$0")/small_files.sh"

other=$(realpath "$1")
take_program bagit "${2:-}"
runs=${3:-5}

make_room walk

# A check by a program that may find faults.
check() { "$@" || [[ $? == 1 ]]; }

# Both programs with the same words, in turn. Its arguments are what is measured, the most that the ratio may be, and the words.
beside_other() {
    local what=$1 bar=$2 ours= peer= run
    shift 2
    diff <(check "$program" "$@") <(check "$other" "$@")
    for ((run = 0; run < runs; run++)); do
        ours=$(least "$ours" "$(milliseconds check "$program" "$@")")
        peer=$(least "$peer" "$(milliseconds check "$other" "$@")")
    done
    ratio "$what" "$ours" "$peer" "$bar"
    echo "$what: $(peak "$program" "$@") KiB, the other: $(peak "$other" "$@") KiB"
}

declare_bag() {
    mkdir -p "$1/data"
    printf 'BagIt-Version: 1.0\nTag-File-Character-Encoding: UTF-8\n' >"$1/bagit.txt"
}

# A bag of so many empty files, a thousand a folder, and the list of their paths beside it.
make_empty_files() {
    local bag=$work/$1 count=$2
    declare_bag "$bag"
    (cd "$bag" && seq -f 'data/folder-%04.0f' 0 $((count / 1000 - 1)) | xargs mkdir
        seq 0 $((count - 1)) | awk '{ printf "data/folder-%04d/image-%07d.tiff\n", $1 / 1000, $1 }' | tee "$bag.paths" | xargs touch)
}

# A manifest that gives each file of a bag this digest.
give() { awk -v digest="$3" '{ print digest "  " $0 }' "$work/$1.paths" >"$work/$1/manifest-$2.txt"; }

sum() { printf '%s' "$1" | "$2sum" | cut -d' ' -f1; }

make_empty_files complete 100000
give complete sha256 "$(sum '' sha256)"
give complete sha512 "$(sum '' sha512)"
beside_other "completeness of 100,000 files" 1.05 --validate --completeness-only "$work/complete"

# The first file of the bag is wrong.
awk -v digest="$(sum a sha256)" 'NR == 1 { $1 = digest; print $1 "  " $2; next } { print }' "$work/complete/manifest-sha256.txt" >"$work/manifest"
mv "$work/manifest" "$work/complete/manifest-sha256.txt"
first= complete=
for ((run = 0; run < runs; run++)); do
    first=$(least "$first" "$(milliseconds check "$program" --validate --max-faults 1 "$work/complete")")
    complete=$(least "$complete" "$(milliseconds check "$program" --validate --completeness-only "$work/complete")")
done
ratio "the first fault, beside completeness" "$first" "$complete" 1.20
rm -r "$work/complete"

make_small_files
cd "$work"
beside_other "100,000 files of 1 KiB" 1.03 --validate "$work/bag"
rm -r "$work/bag"

declare_bag "$work/large"
head -c 200M /dev/urandom >"$work/large/data/file"
for alg in md5 sha1 sha256 sha512; do (cd "$work/large" && "${alg}sum" data/file >"manifest-$alg.txt"); done
beside_other "one file of 200 MB by four algorithms" 1.02 --validate "$work/large"
rm -r "$work/large"

make_empty_files right 250000
for alg in md5 sha1 sha256 sha512; do give right "$alg" "$(sum '' "$alg")"; done
right=$(peak "$program" --validate "$work/right")
for alg in md5 sha1 sha256 sha512; do give right "$alg" "$(sum a "$alg")"; done
beside_other "1,000,000 faults of digests" 1.10 --validate "$work/right"
wrong=$(peak "$program" --validate "$work/right")
echo "memory of 250,000 files in four manifests: $right KiB where all digests are right, $wrong KiB where none is; $((right * 1024 / 250000)) bytes a file"
