#!/usr/bin/env bash
# How long `bagit --validate --fast` takes to read `bag-info.txt` and `fetch.txt`, and how much longer for twice as many lines:
# metadata of 1,000,000 lines, of which each second is a continuation; one value that goes on over 1,000,000 lines; a list of
# 1,000,000 files to fetch. Beside it stands a reader in Python. Counted is the processor time that the programs take, their own
# and the system's, and the least of several runs.
#
# Then: how long 100,000 files to fetch take to be looked up in two manifests of 100,000 entries, which name each of the files, or
# none: a check whether the bag is complete, which stops at its first fault, against one that only reads the three files.
#
# usage: bench/tag_files.sh [PROGRAM] [RUNS]
#
# PROGRAM is crates/bagit/out/bagit by default, which `rt run` and `rt ci` leave there.
set -euo pipefail
source "$(dirname "$0")/common.sh"

take_program bagit "${1:-}"
runs=${2:-9}

make_room tag-files

# Metadata of so many lines, of which each second is a continuation.
elements() {
    awk -v lines="$1" 'BEGIN {
        for (line = 0; line < lines; line += 2) printf "External-Description: item %d of the collection\n\tfound in box %d\n", line, line
    }'
}

# One element of so many lines.
continued() {
    awk -v lines="$1" 'BEGIN {
        print "External-Description: items"
        for (line = 1; line < lines; line++) printf "  item %d of the collection\n", line
    }'
}

# A list of so many files to fetch.
fetched() {
    awk -v lines="$1" 'BEGIN {
        for (line = 0; line < lines; line++) printf "https://example.org/collections/%d - data/images/image-%d.tiff\n", line, line
    }'
}

# Makes a bag that agrees with its oxum, so that a check reads its tag files and finds no fault.
make_bag() {
    mkdir -p "$work/$1/data"
    printf 'BagIt-Version: 1.0\nTag-File-Character-Encoding: UTF-8\n' >"$work/$1/bagit.txt"
    echo 'Payload-Oxum: 0.0' >"$work/$1/bag-info.txt"
    : >"$work/$1/manifest-md5.txt"
}

# Adds a list of so many files to fetch to a bag, and two manifests of so many other files where a third word is there. Each line is
# of a place far from that of the line before it.
add_fetched() {
    awk -v lines="$2" -v folder="$work/$1" -v other="${3:-}" 'BEGIN {
        for (line = 0; line < lines; line++) {
            place = line * 62039 % lines
            printf "https://example.org/%d - data/image-%d.tiff\n", line, place >(folder "/fetch.txt")
            printf "%032d  data/image-%d%s.tiff\n", line, line, other >(folder "/manifest-md5.txt")
            printf "%040d  data/image-%d%s.tiff\n", line, place, other >(folder "/manifest-sha1.txt")
        }
    }'
}

# Reads metadata or a list of files to fetch, and counts what it says.
cat >"$work/peer.py" <<'PYTHON'
import re, sys

def elements(text):
    items, faults, parts = [], 0, None
    for number, line in enumerate(text.splitlines(), 1):
        if not line.strip(" \t"):
            continue
        if line[0] in " \t":
            if parts is not None:
                parts.append(line.strip(" \t"))
            continue
        label, colon, part = line.partition(":")
        if colon and label and label[-1] not in " \t" and (not part or part[0] in " \t"):
            parts = [part.strip(" \t")]
            items.append((number, label, parts))
        else:
            parts, faults = None, faults + 1
    return [(number, label, "\n".join(parts)) for number, label, parts in items], faults

def fetched(text):
    items, faults = [], 0
    for number, line in enumerate(text.splitlines(), 1):
        fields = re.split("[ \t]+", line, maxsplit=2)
        if len(fields) == 3 and (fields[1] == "-" or fields[1].isdigit()) and fields[2].startswith("data/"):
            items.append((number, *fields))
        elif line.strip(" \t"):
            faults += 1
    return items, faults

def text_of(path):
    with open(path, encoding="utf-8", newline="") as file:
        return file.read()

reader, path = sys.argv[1:]
items, faults = (elements if reader == "bag-info.txt" else fetched)(text_of(path))
print(f"items: {len(items)}, faults: {faults}")
PYTHON

peer() {
    python3 "$work/peer.py" "$@"
}

read_bag() { "$program" --validate --fast "$work/$1"; }

# Stops at the first fault, which is of a file that no manifest names, or that is missing.
look_up() { "$program" --validate --completeness-only --max-faults 1 "$work/$1" || [[ $? == 1 ]]; }

# Prints both ratios for a kind of file: its name, and how many lines.
measure() {
    local kind=$1 file=$2 lines=$3 peer= once= twice=
    rm -rf "$work/once" "$work/twice"
    make_bag once
    make_bag twice
    "$kind" "$lines" >>"$work/once/$file"
    "$kind" $((2 * lines)) >>"$work/twice/$file"
    diff <(read_bag once) <(echo "$work/once agrees with its oxum")
    peer=$(least_of peer "$file" "$work/once/$file")
    once=$(least_of read_bag once)
    twice=$(least_of read_bag twice)
    echo "$kind, $lines lines: $once ms, Python: $peer ms"
    ratio "$kind, twice the lines" "$twice" "$once" 2.30
}

# Prints the ratio for a bag.
judge() {
    local bag=$1 fault=$2 read= judged=
    look_up "$bag" >"$work/output"
    diff <(head -n 1 "$work/output" | cut -d' ' -f1) <(echo "$fault")
    read=$(least_of read_bag "$bag")
    judged=$(least_of look_up "$bag")
    awk -v bag="$bag" -v read="$read" -v judged="$judged" 'BEGIN {
        printf "manifests that name %s: read: %d ms; looked up: %d ms, ratio: %.2f\n", bag, read, judged, judged / read
    }'
}

measure elements bag-info.txt 1000000
measure continued bag-info.txt 1000000
measure fetched fetch.txt 1000000
make_bag each
make_bag none
add_fetched each 100000
add_fetched none 100000 -2
judge each 601
judge none 405
