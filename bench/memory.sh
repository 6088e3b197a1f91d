#!/usr/bin/env bash
# How much memory a check takes for each file, and how long checks of many files take. Bags of 65,000, 130,000 and 500,000 empty
# files with paths of 47 bytes and right manifests of MD5 and SHA-256: whether they are complete, beside a plain validator in Python,
# and with all digests; then 250,000 files with manifests of MD5, SHA-1, SHA-256 and SHA-512. From each the memory of an empty bag is
# taken away. Then the processor time of completeness of the 500,000 files, beside `find | sort` of their sizes and paths; and, where
# another build of the program is given, as one of an earlier commit, that of 100,000 files of 1 KiB with all digests beside it. Times
# are the programs' own and the system's, the least of several runs in turn.
#
# usage: bench/memory.sh [PROGRAM] [OTHER] [RUNS]
#
# PROGRAM is crates/bagit/out/bagit by default, which `rt run` and `rt ci` leave there.
set -euo pipefail
source "$(dirname "$0")/common.sh"
source "$(dirname "$0")/small_files.sh"

take_program bagit "${1:-}"
other=${2:+$(realpath "$2")}
runs=${3:-5}

make_room memory

# A validator as a plain program in Python would be: a set of the files, a dictionary for each manifest, and one pass for all digests.
cat >"$work/plain.py" <<'END'
import hashlib, os, sys

only_complete, bag = sys.argv[1] == "complete", sys.argv[2]
manifests = {}
for name in os.listdir(bag):
    if name.startswith("manifest-") and name.endswith(".txt"):
        entries = manifests[name[9:-4]] = {}
        with open(os.path.join(bag, name), encoding="utf-8") as lines:
            for line in lines:
                digest, path = line.rstrip("\n").split(None, 1)
                entries[path] = digest.lower()
files = set()
for folder, _, names in os.walk(os.path.join(bag, "data")):
    for name in names:
        files.add(os.path.relpath(os.path.join(folder, name), bag))
faults = []
for entries in manifests.values():
    faults += sorted(files.symmetric_difference(entries))
if not only_complete:
    for path in sorted(files):
        hashers = {alg: hashlib.new(alg) for alg in manifests}
        with open(os.path.join(bag, path), "rb") as file:
            while piece := file.read(65536):
                for hasher in hashers.values():
                    hasher.update(piece)
        faults += [path for alg, hasher in hashers.items() if hasher.hexdigest() != manifests[alg].get(path)]
print("valid" if not faults else len(faults))
END

# A bag of so many empty files, a thousand a folder, with right manifests of these algorithms.
make_bag() {
    local bag=$work/$1 count=$2 alg
    shift 2
    mkdir -p "$bag/data"
    printf 'BagIt-Version: 1.0\nTag-File-Character-Encoding: UTF-8\n' >"$bag/bagit.txt"
    (cd "$bag" && seq -f 'data/folder-%04.0f-of-an-archive' 0 $((count / 1000 - 1)) | xargs -r mkdir
        seq 0 $((count - 1)) | awk '{ printf "data/folder-%04d-of-an-archive/image-%06d.tif\n", $1 / 1000, $1 }' | tee "$bag.paths" | xargs -r touch)
    for alg; do
        sed "s|^|$("${alg}sum" </dev/null | cut -d' ' -f1)  |" "$bag.paths" >"$bag/manifest-$alg.txt"
    done
}

# The bytes of memory that a command takes for each file of a bag, beyond what it takes over an empty one. Its arguments are the bag,
# the number of its files, and the command, to which the bag is the next word.
each_file() {
    local bag=$1 files=$2
    shift 2
    echo $((($(peak "$@" "$work/$bag") - $(peak "$@" "$work/empty")) * 1024 / files))
}

make_bag empty 0

for count in 65000 130000 500000; do
    make_bag "files-$count" "$count" md5 sha256
    diff <("$program" --validate "$work/files-$count") <(echo "$work/files-$count is valid")
    [[ $(python3 "$work/plain.py" complete "$work/files-$count") == valid ]] || give_up "the plain validator finds faults"
    complete=$(each_file "files-$count" "$count" "$program" --validate --completeness-only)
    beside=$(each_file "files-$count" "$count" python3 "$work/plain.py" complete)
    at_most "$count files, completeness, memory for each" "$complete" 430 bytes
    at_most "the same, beside $beside bytes of the plain validator" "$complete/$beside" 0.65
    at_most "$count files, all digests, memory for each" "$(each_file "files-$count" "$count" "$program" --validate)" 470 bytes
done

# The sizes and paths of the bag's files, sorted.
find_and_sort() { find "$work/files-500000" -printf '%s %P\n' | sort; }
complete= peer=
for ((run = 0; run < runs; run++)); do
    complete=$(least "$complete" "$(milliseconds "$program" --validate --completeness-only "$work/files-500000")")
    peer=$(least "$peer" "$(milliseconds find_and_sort)")
done
ratio "completeness of 500,000 files, beside find and sort" "$complete" "$peer" 1.05
rm -r "$work"/files-*

make_bag four 250000 md5 sha1 sha256 sha512
at_most "250,000 files in four manifests, all digests, memory for each" "$(each_file four 250000 "$program" --validate)" 750 bytes
rm -r "$work/four"

if [[ -n $other ]]; then
    make_small_files
    cd "$work"
    ours= theirs=
    for ((run = 0; run < runs; run++)); do
        ours=$(least "$ours" "$(milliseconds "$program" --validate "$work/bag")")
        theirs=$(least "$theirs" "$(milliseconds "$other" --validate "$work/bag")")
    done
    ratio "100,000 files of 1 KiB, all digests, beside the other program" "$ours" "$theirs" 0.97
fi
