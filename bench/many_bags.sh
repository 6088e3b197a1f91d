#!/usr/bin/env bash
# How long `bagit-keep round` takes over 200 bags, by one, two and four processes at a time: by the clock, the least of
# several runs, with the files in the page cache. Each bag has 20 files of 256 KiB, with manifests of SHA-256 and
# SHA-512.
#
# usage: bench/many_bags.sh [PROGRAM] [RUNS]
#
# PROGRAM is crates/bagit/out/bagit by default, which `rt run` and `rt ci` leave there. It needs Python.
set -euo pipefail
source "$(dirname "$0")/common.sh"

take_program bagit "${1:-}"
runs=${2:-3}

make_room many
cd "$work"
mkdir bags

for ((bag = 100; bag < 300; bag++)); do
    mkdir -p "bags/$bag/data"
    printf 'BagIt-Version: 1.0\nTag-File-Character-Encoding: UTF-8\n' >"bags/$bag/bagit.txt"
    head -c $((20 * 256 * 1024)) /dev/urandom | split -b 256K -a 2 - "bags/$bag/data/file-"
    (cd "bags/$bag" && sha256sum data/* >manifest-sha256.txt && sha512sum data/* >manifest-sha512.txt)
done

# A new round each time, by so many processes.
check_all() {
    rm -rf round
    find bags -mindepth 1 -maxdepth 1 -type d -print0 |
        BAGIT=$program "$root/companions/bagit-keep" round round --list - --jobs "$1"
}

one=
for processes in 1 2 4; do
    took=
    for ((run = 0; run < runs; run++)); do took=$(least "$took" "$(elapsed check_all "$processes")"); done
    [[ $("$root/companions/bagit-keep" round round --table | grep -c $'^0\t') == 200 ]]
    one=${one:-$took}
    awk -v processes="$processes" -v took="$took" -v one="$one" 'BEGIN {
        printf "200 bags, %d at a time: %d ms, %.2f times as fast as one at a time\n", processes, took, one / took
    }'
done
