#!/usr/bin/env bash
# How long renewing a bag takes: adding SHA-512 to a bag with an MD5 manifest, of 16 large files, beside a full check of a bag of the same
# files with both manifests; and correcting an element of a bag of many small files, with a manifest and a tag manifest of MD5, and then
# of SHA-512, beside a check of it with --completeness-only. Counted is the processor time, the programs' own and the system's, the least
# of several runs in turn, with the files in the page cache; how long it takes by the clock, with the syncs, is printed and has no bar.
# Each renewal is of a new copy by hard links, and no figure counts before bagit has found what was renewed valid, with the manifest that
# sha512sum makes and the element, and with a byte changed in a file has refused to add.
#
# usage: bench/renew.sh [BAGIT [BAGIT_RENEW [MEBIBYTES [FILES [RUNS]]]]]
#
# BAGIT is crates/bagit/out/bagit by default, and BAGIT_RENEW crates/bagit_renew/out/bagit_renew, which `rt run` and `rt ci` leave there;
# MEBIBYTES is 2048, what the large files have together, a multiple of 16; FILES is 100000, how many small files there are, a multiple
# of 200. It needs room below /tmp for the files of one bag. The machine is to have nothing else to do.
set -euo pipefail
shopt -s inherit_errexit
source "$(dirname "$0")/common.sh"

take_program bagit_renew "${2:-}"
renew=$program
take_program bagit "${1:-}"
mebibytes=${3:-2048}
files=${4:-100000}
runs=${5:-5}
((mebibytes > 0 && mebibytes % 16 == 0)) || give_up 'MEBIBYTES is a multiple of 16'
((files > 0 && files % 200 == 0)) || give_up 'FILES is a multiple of 200'

make_room renew
cd "$work"

declare_bag() {
    mkdir -p "$1/data"
    printf 'BagIt-Version: 1.0\nTag-File-Character-Encoding: UTF-8\n' >"$1/bagit.txt"
}

# A bag's manifest, in path order.
manifest() { (cd "$1" && find data -type f -print0 | sort -z | xargs -0 "$2sum"); }

# Renews the copy of the bag by these words.
renewed() { "$renew" "$@" renewed; }

new_copy() {
    rm -rf renewed
    cp -al bag renewed
}

# Keeps the least processor time and the least by the clock of a command in the variables of these names.
take_least() {
    local -n of_processor=$1 by_clock=$2
    local TIMEFORMAT='%3R %3U %3S' times
    { time "${@:3}" >"$work/output"; } 2>"$work/time"
    read -ra times <"$work/time"
    of_processor=$(least "$of_processor" "$(awk -v a="${times[1]}" -v b="${times[2]}" 'BEGIN { printf "%d", (a + b) * 1000 }')")
    by_clock=$(least "$by_clock" "$(awk -v a="${times[0]}" 'BEGIN { printf "%d", a * 1000 }')")
}

# Measures a renewal of a new copy beside a check. Its arguments are what it is, the most that it may be, the check's words and the
# bag that it is of, and the renewal's words.
measure() {
    local what=$1 bar=$2 checked_by=$3 checked_bag=$4 run ours='' theirs='' clock='' check_clock=''
    shift 4
    for ((run = 0; run < runs; run++)); do
        new_copy
        take_least ours clock renewed "$@"
        diff output - <<<'renewed renewed'
        # shellcheck disable=SC2086
        take_least theirs check_clock "$program" --validate $checked_by "$checked_bag"
        grep -qE ' is (valid|complete)$' output
    done
    echo "$what, by the clock: $clock ms, the check: $check_clock ms"
    at_most "$what: $ours ms, the check: $theirs ms, ratio" "$ours/$theirs" "$bar"
}

valid() { diff <("$program" --validate "$1") <(echo "$1 is valid"); }

# Large files, with MD5; beside them a bag of the same files with both manifests.
declare_bag bag
head -c "${mebibytes}M" /dev/urandom | split -b "$((mebibytes / 16))M" -a 2 - bag/data/file-
manifest bag md5 >bag/manifest-md5.txt
new_copy
renewed --add sha512 >output
valid renewed
manifest bag sha512 | diff - renewed/manifest-sha512.txt
cp -al renewed both
new_copy
rm renewed/data/file-ab
{ head -c -1 bag/data/file-ab && tail -c 1 bag/data/file-ab | tr '\0-\377' '\1-\377\0'; } >renewed/data/file-ab
status=0
renewed --add sha512 >output || status=$?
[[ $status == 1 && ! -e renewed/manifest-sha512.txt ]] || give_up "with a changed byte it ends with $status: $(<output)"
measure "SHA-512 beside MD5, $mebibytes MiB" 1.05 '' both --add sha512
rm -rf bag both renewed

# Small files.
declare_bag bag
for folder in {100..299}; do
    mkdir "bag/data/folder-$folder"
    head -c $((1024 * files / 200)) /dev/urandom | split -b 1024 -a 3 - "bag/data/folder-$folder/file-"
done
printf 'Contact-Name: Ann\nPayload-Oxum: %d.%d\n' $((1024 * files)) "$files" >bag/bag-info.txt
for algorithm in md5 sha512; do
    rm -f bag/*manifest-*.txt
    manifest bag "$algorithm" >"bag/manifest-$algorithm.txt"
    (cd bag && "${algorithm}sum" -- *.txt >"tagmanifest-$algorithm.txt")
    valid bag
    new_copy
    renewed --set Contact-Name=Bob >output
    valid renewed
    diff renewed/bag-info.txt <(sed s/Ann/Bob/ bag/bag-info.txt)
    measure "an element, $files files, $algorithm" 1.10 --completeness-only bag --set Contact-Name=Bob
done
