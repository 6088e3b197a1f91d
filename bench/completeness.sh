#!/usr/bin/env bash
# How long a check takes whether a bag is complete: a folder of 100,000 empty payload files in 1,000 folders, with right
# manifests of SHA-256 and SHA-512. Beside it stand `find | sort` of the folder and `sort` of the paths of each manifest, all
# three together. Then: how much longer twice as many files take, how much memory a file takes, and how much longer the
# check takes where clashes of names are looked for, with names that are all ASCII and with names of which none is. Those
# have a letter with its mark composed, and one with its mark apart. Counted is the processor time that the programs take,
# their own and the system's, and the least of several runs.
#
# usage: bench/completeness.sh [PROGRAM] [RUNS]
#
# PROGRAM is crates/bagit/out/bagit by default, which `rt run` and `rt ci` leave there.
set -euo pipefail
source "$(dirname "$0")/common.sh"

take_program bagit "${1:-}"
runs=${2:-5}
folders=1000
files_in_each=100
empty_sha256=e3b0c44298fc1c149afbf4c8996fb92427ae41e4649b934ca495991b7852b855
empty_sha512=cf83e1357eefb8bdf1542850d66d8007d620e4050b5715dc83f4a921d36ce9ce47d0d13c5d85f2b0ff8318d2877eec2f63b931bd47417a81a538327af927da3e

make_room completeness

# A bag with so many folders of files, whose names begin so. Beside it stands the list of their paths, in the order in which
# the system gives them.
make_bag() {
    local bag=$work/$1 count=$2 folder_name=$3 file_name=$4 folder
    mkdir -p "$bag/data"
    printf 'BagIt-Version: 1.0\nTag-File-Character-Encoding: UTF-8\n' >"$bag/bagit.txt"
    for ((folder = 0; folder < count; folder++)); do
        mkdir "$bag/data/$folder_name-$folder"
        (cd "$bag/data/$folder_name-$folder" && seq -f "$file_name-%05g.tiff" "$files_in_each" | xargs touch)
    done
    (cd "$bag" && find data -type f) >"$bag.paths"
    sed "s|^|$empty_sha256  |" "$bag.paths" >"$bag/manifest-sha256.txt"
    sed "s|^|$empty_sha512  |" "$bag.paths" >"$bag/manifest-sha512.txt"
}

# `find | sort` of a bag, and `sort` of the paths of both manifests.
find_and_sort() {
    find "$work/$1" -printf '%P\n' | LC_ALL=C sort
    LC_ALL=C sort "$work/$1.paths"
    LC_ALL=C sort "$work/$1.paths"
}

# Says whether a bag is complete, and without clashes of names.
complete() { "$program" --validate --completeness-only "$work/$1"; }
clashes() { "$program" --validate --completeness-only --clashes "$work/$1"; }

# How much longer a check takes where clashes are looked for. Its arguments are what the names are, the bag, and the most that it may be.
compare_clashes() {
    local kind=$1 bag=$2 bar=$3 complete= clashes= run
    for ((run = 0; run < runs; run++)); do
        complete=$(least "$complete" "$(milliseconds complete "$bag")")
        clashes=$(least "$clashes" "$(milliseconds clashes "$bag")")
    done
    at_most "$kind names: complete: $complete ms, clashes too: $clashes ms, more by" "$((clashes - complete))/$complete" "$bar"
}

make_bag empty 0 folder image
make_bag once "$folders" folder image
make_bag twice $((2 * folders)) folder image
make_bag marked "$folders" $'recue\u0301' $'num\u00e9ro'
for bag in once twice marked; do
    diff <(complete "$bag") <(echo "$work/$bag is complete")
    diff <(clashes "$bag") <(echo "$work/$bag is complete")
done

peer= complete= complete_twice=
for ((run = 0; run < runs; run++)); do
    peer=$(least "$peer" "$(milliseconds find_and_sort once)")
    complete=$(least "$complete" "$(milliseconds complete once)")
    complete_twice=$(least "$complete_twice" "$(milliseconds complete twice)")
done
ratio "complete, beside find and sort" "$complete" "$peer" 2.00
ratio "twice the files, beside them once" "$complete_twice" "$complete" 2.30

compare_clashes ASCII once 0.50
compare_clashes other marked 2.00

files=$(wc -l <"$work/once.paths")
path_bytes=$(($(wc -c <"$work/once.paths") - files))
for option in '' --clashes; do
    more=$(($(peak "$program" --validate --completeness-only $option "$work/once") -
        $(peak "$program" --validate --completeness-only $option "$work/empty")))
    at_most "complete${option:+, clashes too}, memory for each file" "$((more * 1024))/$files" $((1000 + 6 * path_bytes / files)) bytes
done
