#!/usr/bin/env bash
# How long `bagit --validate --declaration-only` takes for a folder of 100,000 files, against `find | sort` on the same
# folder, and how much memory it takes for each file and folder.
#
# usage: bench/listing.sh [PROGRAM] [RUNS]
#
# PROGRAM is crates/bagit/out/bagit by default, which `rt run` and `rt ci` leave there.
set -euo pipefail
source "$(dirname "$0")/common.sh"

take_program bagit "${1:-}"
runs=${2:-10}
folders=200
files_in_each=500

make_room listing
bag=$work/bag
empty=$work/empty

make_bag() {
    mkdir -p "$1/data"
    printf 'BagIt-Version: 1.0\nTag-File-Character-Encoding: UTF-8\n' >"$1/bagit.txt"
}

fill_bag() {
    local folder
    for ((folder = 0; folder < folders; folder++)); do
        mkdir "$bag/data/folder-$folder"
        (cd "$bag/data/folder-$folder" && seq -f 'file-%05g.txt' "$files_in_each" | xargs touch)
    done
}

check() {
    "$program" --validate --declaration-only "$1"
}

find_and_sort() {
    find "$bag" -printf '%y %s %p\n' | LC_ALL=C sort
}

make_bag "$bag"
make_bag "$empty"
fill_bag

diff <(check "$bag") <(echo "$bag has a good declaration")
checked= found=
for ((run = 0; run < runs; run++)); do
    checked=$(least "$checked" "$(elapsed check "$bag")")
    found=$(least "$found" "$(elapsed find_and_sort)")
done
ratio "declaration of 100,000 files, beside find and sort, by the clock" "$checked" "$found" 1.50

entries=$(find "$bag" -mindepth 1 | wc -l)
path_bytes=$(find "$bag" -mindepth 1 -printf '%P' | wc -c)
more=$(($(peak "$program" --validate --declaration-only "$bag") - $(peak "$program" --validate --declaration-only "$empty")))
at_most "memory for each entry" "$((more * 1024))/$entries" $((250 + 2 * path_bytes / entries)) bytes
