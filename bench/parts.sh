#!/usr/bin/env bash
# How much faster a bag is checked in four parts by four processes than by one: a bag of 16 large files, and one of
# small files of 4 KiB, each with one manifest, of SHA-512. Beside it stand, in the same runs: what the machine can
# give, which is how much faster four whole checks of four bags with a quarter of the files each are side by side than
# one after the other; and a plain validator in Python (validate_in_parallel.py) by four processes. All by the clock,
# the least of several runs in turn, with the files in the page cache. No figure counts before the parts, one check and
# Python have found the same: of the bag as it is, and with a byte changed in one file of each quarter.
#
# usage: bench/parts.sh [PROGRAM] [MEBIBYTES] [FILES] [RUNS]
#
# PROGRAM is crates/bagit/out/bagit by default, which `rt run` and `rt ci` leave there; MEBIBYTES is 2048, what the
# large files have together, a multiple of 16; FILES is 100000, how many small files there are, a multiple of 200. It
# needs Python, and room below /tmp for the files of one bag. The machine is to have four processors, and nothing else
# to do.
set -euo pipefail
shopt -s inherit_errexit
source "$(dirname "$0")/common.sh"

take_program bagit "${1:-}"
mebibytes=${2:-2048}
files=${3:-100000}
runs=${4:-5}
((mebibytes > 0 && mebibytes % 16 == 0)) || give_up 'MEBIBYTES is a multiple of 16'
((files > 0 && files % 200 == 0)) || give_up 'FILES is a multiple of 200'

make_room parts
cd "$work"

declare_bag() {
    mkdir -p "$1/data"
    printf 'BagIt-Version: 1.0\nTag-File-Character-Encoding: UTF-8\n' >"$1/bagit.txt"
}

make_large() {
    declare_bag bag
    head -c "${mebibytes}M" /dev/urandom | split -b "$((mebibytes / 16))M" -a 2 - bag/data/file-
}

make_small() {
    local folder
    declare_bag bag
    for folder in {100..299}; do
        mkdir "bag/data/folder-$folder"
        head -c $((4096 * files / 200)) /dev/urandom | split -b 4096 -a 3 - "bag/data/folder-$folder/file-"
    done
}

# Gives the bag its manifest, and makes four bags of the same files, a quarter each.
make_quarters() {
    local quarter entries=(bag/data/*) first last lines
    (cd bag && find data -type f -print0 | sort -z | xargs -0 sha512sum >manifest-sha512.txt)
    lines=$(wc -l <bag/manifest-sha512.txt)
    for quarter in {0..3}; do
        declare_bag "quarter-$quarter"
        cp -al "${entries[@]:quarter * ${#entries[@]} / 4:${#entries[@]} / 4}" "quarter-$quarter/data"
        first=$((quarter * lines / 4 + 1)) last=$(((quarter + 1) * lines / 4))
        sed -n "$first,${last}p" bag/manifest-sha512.txt >"quarter-$quarter/manifest-sha512.txt"
    done
}

whole() { "$program" --validate bag; }

# Each part must end with 1, whatever it finds.
in_parts() {
    seq 4 | xargs -P 4 -I NUMBER sh -c '"$0" --validate --part NUMBER/4 bag >part-NUMBER; test $? = 1' "$program" ||
        { echo 'a part ended otherwise than with 1' >&2; return 1; }
    head -q -n -1 part-{1..4}
}

by_python() { python3 -B "$root/bench/validate_in_parallel.py" bag 4; }

# The four bags of a quarter, so many at a time.
quarters() { printf '%s\n' quarter-{0..3} | xargs -P "$1" -I BAG "$program" --validate BAG; }

# A check that finds faults ends with 1.
check() { "$@" || [[ $? == 1 ]]; }

# The parts must find what one check finds, which are so many faults, and say how many files and bytes the system
# counts; and Python must find the same files.
compare() {
    local counts number verdict='bag is valid'
    check whole >one
    in_parts >joined
    diff <(head -n -1 one) joined
    counts=$(find bag -type f -printf '%s\n' | awk '{ bytes += $1 } END { printf "files: %d, bytes: %.0f", NR, bytes }')
    for number in {1..4}; do
        echo "bag part $number of 4 done, $counts, faults: $(head -n -1 "part-$number" | wc -l)"
    done >wanted
    diff <(tail -q -n 1 part-{1..4}) wanted
    diff <(check by_python) <(cut -d' ' -f3 joined)
    [[ $1 == 0 ]] || verdict="bag has faults: $1"
    diff <(tail -n 1 one) <(echo "$verdict")
    [[ $(wc -l <joined) == "$1" ]]
}

# Changes the last byte of a file, or changes it back.
flip() {
    local last=$(($(stat -c %s "$1") - 1)) byte
    byte=$(od -A n -t u1 -j "$last" "$1")
    printf "\\x$(printf %x $((255 - byte)))" | dd of="$1" bs=1 seek="$last" conv=notrunc status=none
}

# One file of each quarter.
flip_four() {
    local line
    while read -r line; do flip "bag/$line"; done < <(awk -v each="$(($(wc -l <bag/manifest-sha512.txt) / 4))" \
        'NR % each == 2 { print $2 }' bag/manifest-sha512.txt)
}

# Keeps the least time of a command in the variable of this name.
take_least() {
    local -n best=$1
    local took
    took=$(elapsed "${@:2}")
    best=$(least "$best" "$took")
}

# Measures what stands in `bag`. Its arguments are what it is, and the least that the parts may reach of what the
# machine can give.
measure() {
    local one= parts= python= after= beside= run
    make_quarters
    flip_four
    compare 4
    flip_four
    compare 0
    diff <(quarters 1) <(printf '%s is valid\n' quarter-{0..3})
    for ((run = 0; run < runs; run++)); do
        take_least one whole
        take_least parts in_parts
        take_least python by_python
        take_least after quarters 1
        take_least beside quarters 4
    done
    awk -v what="$1" -v one="$one" -v parts="$parts" -v after="$after" -v beside="$beside" 'BEGIN {
        printf "%s: one process %d ms, four parts %d ms, %.2f times as fast\n", what, one, parts, one / parts
        printf "%s, four bags: one after the other %d ms, side by side %d ms, %.2f times as fast\n",
            what, after, beside, after / beside
    }'
    at_least "$1, parts, of what the machine can give" "$((one * beside * 1000 / parts))/$((after * 1000))" "$2"
    if $bars_python; then
        ratio "$1, parts, to Python" "$parts" "$python" 1.20
    else
        echo "$1, parts: $parts ms, Python: $python ms"
    fi
    rm -r bag quarter-*
}

# The processor, and whether it has instructions for SHA-512, for which there is no bar.
bars_python=true
if grep -q -w -m 1 sha512 /proc/cpuinfo; then bars_python=false; fi
echo "$(sed -n 's/^model name\s*: //p' /proc/cpuinfo | head -n 1), $(nproc) processors," \
    "SHA-512 by instructions: $($bars_python && echo no || echo yes)," \
    "$(python3 -c 'import ssl; print(ssl.OPENSSL_VERSION)')"

make_large
measure "$mebibytes MiB in 16 files" 0.92
make_small
measure "$files files of 4 KiB" 0.75
