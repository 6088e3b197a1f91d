#!/usr/bin/env bash
# What a check of a bag in a tar file takes, beside its folder. Of a bag of 500,000 empty files, whose archive has a header for each: the
# processor time of a check of the declaration alone, which reads each header and one file, beside `tar -tf`; and the memory for each file,
# beyond what an archive of no payload file takes, beside what the same check of the folder takes. Of a bag with one file of 1 GiB: the
# processor time of a full check by MD5, beside that of the folder. Times are the programs' own and the system's, the least of several runs
# in turn, with the files in the page cache. No figure counts before both have the same report.
#
# usage: bench/tar.sh [PROGRAM] [FILES] [MEBIBYTES] [RUNS]
#
# PROGRAM is crates/bagit/out/bagit by default, which `rt run` and `rt ci` leave there; FILES is 500000, a multiple of 1000, MEBIBYTES
# 1024, and RUNS 5.
set -euo pipefail
source "$(dirname "$0")/common.sh"

take_program bagit "${1:-}"
files=${2:-500000}
mebibytes=${3:-1024}
runs=${4:-5}
((files > 0 && files % 1000 == 0)) || give_up 'FILES is a multiple of 1000'

make_room tar
cd "$work"

# A new bag without payload files.
make_bag() {
    mkdir -p "$1/data"
    declare_bag >"$1/bagit.txt"
    : >"$1/manifest-md5.txt"
}

# Packs a bag, and sees that the archive has the folder's report.
pack() {
    tar -cf "$1.tar" "$1"
    diff <("$program" --validate "${@:2}" --tar "$1.tar") <("$program" --validate "${@:2}" "$1" | sed "\$s/^$1 /$1.tar /") ||
        give_up "$1.tar has another report than $1"
}

# The least times of two commands, in turn.
in_turn() {
    first= second=
    for ((run = 0; run < runs; run++)); do
        first=$(least "$first" "$(milliseconds $1)")
        second=$(least "$second" "$(milliseconds $2)")
    done
}

make_bag empty
make_bag many
(cd many && seq -f 'data/folder-%04.0f-of-an-archive' 0 $((files / 1000 - 1)) | xargs mkdir
    seq 0 $((files - 1)) | awk '{ printf "data/folder-%04d-of-an-archive/image-%06d.tif\n", $1 / 1000, $1 }' | xargs touch)
pack empty --declaration-only
pack many --declaration-only
in_turn "$program --validate --declaration-only --tar many.tar" 'tar -tf many.tar'
ratio "headers of $files members" "$first" "$second" 1.20

# The bytes of memory that a check takes for each file.
each_file() { echo $((($(peak "$program" --validate --declaration-only "${@:2}" "many$1") - $(peak "$program" --validate --declaration-only "${@:2}" "empty$1")) * 1024 / files)); }

folder=$(each_file '')
archive=$(each_file .tar --tar)
at_most "memory for each file: $archive bytes, of the folder $folder bytes, more by" "$((archive - folder))" 24 bytes
rm -r many many.tar

make_bag large
head -c "${mebibytes}M" /dev/urandom >large/data/file
(cd large && md5sum data/file >manifest-md5.txt)
pack large
in_turn "$program --validate --tar large.tar" "$program --validate large"
ratio "$mebibytes MiB in one file, beside the folder" "$first" "$second" 1.02
