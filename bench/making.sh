#!/usr/bin/env bash
# How long making a bag of 100,000 files of 1 KiB takes, with manifests of SHA-256 and SHA-512, beside a whole check of the bag
# that was made, by the same program; and that the programs of coreutils accept its manifests, and those of bags by each algorithm,
# whose names have blanks and other characters that no manifest escapes. Counted is the processor time, the
# program's own and the system's, and the least of several runs, in each of which a bag is made of a fresh folder and then
# checked, with the files in the page cache.
#
# usage: bench/making.sh [PROGRAM] [RUNS [OLDER]]
#
# PROGRAM is crates/bagit/out/bagit by default, which `rt run` and `rt ci` leave there. With an OLDER program, as one that was built of an
# earlier commit, two makings by both are compared too: of 10,000 entries of one folder, and of 10,000 files in 20 folders.
set -euo pipefail
source "$(dirname "$0")/common.sh"

take_program bagit "${1:-}"
runs=${2:-3}
folders=200
files_in_each=500

make_room making

mkdir "$work/folder"
for ((folder = 0; folder < folders; folder++)); do
    mkdir "$work/folder/folder-$folder"
    head -c $((1024 * files_in_each)) /dev/urandom | split -b 1024 -a 3 - "$work/folder/folder-$folder/file-"
done

make_bag() { "$program" "${@:2}" "$work/$1"; }

made= checked=
for ((run = 0; run < runs; run++)); do
    rm -rf "$work/bag"
    cp -r "$work/folder" "$work/bag"
    find "$work/bag" -type f -size +1M
    made=$(least "$made" "$(milliseconds make_bag bag --sha256 --sha512)")
    diff <(echo "$work/bag made") "$work/output"
    checked=$(least "$checked" "$(milliseconds "$program" --validate "$work/bag")")
    diff <(echo "$work/bag is valid") "$work/output"
done
ratio "making a bag, beside a check of it" "$made" "$checked" 1.10

cd "$work/bag"
sha256sum --check --quiet manifest-sha256.txt tagmanifest-sha256.txt
sha512sum --check --quiet manifest-sha512.txt tagmanifest-sha512.txt
echo "accepted by sha256sum and sha512sum: $(cat manifest-sha256.txt tagmanifest-sha256.txt | wc -l) and $(cat manifest-sha512.txt tagmanifest-sha512.txt | wc -l) lines"

# Bags by each algorithm, with names that a shell or a manifest might take for something else, but none that a manifest escapes.
mkdir -p "$work/named/ with blanks "
for name in 'a b' ' front' 'back ' '*star' 'back\slash' 'tab'$'\t''inside' '-' 'é' ' with blanks /.hidden' ' with blanks /\\'; do
    printf '%s' "$name" >"$work/named/$name"
done
for alg in md5 sha1 sha224 sha256 sha384 sha512; do
    cp -r "$work/named" "$work/named-$alg"
    diff <(make_bag "named-$alg" "--$alg") <(echo "$work/named-$alg made")
    cd "$work/named-$alg"
    "${alg}sum" --check --quiet "manifest-$alg.txt" "tagmanifest-$alg.txt"
    echo "accepted by ${alg}sum: $(cat "manifest-$alg.txt" "tagmanifest-$alg.txt" | wc -l) lines"
done

# One rename for each entry of the base folder, and one for the folder that holds them.
if command -v strace >"$work/output"; then
    rm -rf "$work/bag"
    cp -r "$work/folder" "$work/bag"
    strace -f -c -e trace=rename,renameat,renameat2 -o "$work/calls" "$program" --sha256 --sha512 "$work/bag" >"$work/output"
    renames=$(awk '$NF ~ /^rename/ { sum += $4 } END { print sum + 0 }' "$work/calls")
    at_most "renames for $folders entries" "$renames" $((folders + 1))
fi

# The syncs of a making.
syncs_of() {
    rm -rf "$work/bag"
    cp -r "$work/$2" "$work/bag"
    strace -f -c -e trace=fsync,fdatasync -o "$work/calls" "$1" "$work/bag" >"$work/output"
    awk '$NF ~ /sync$/ { sum += $4 } END { print sum + 0 }' "$work/calls"
}

# Beside an older program.
older=${3:-}
if [[ $older ]]; then
    mkdir "$work/flat" "$work/deep"
    for ((file = 0; file < 10000; file++)); do
        mkdir -p "$work/deep/folder-$((file % 20))"
        echo "$file" | tee "$work/flat/file-$file" >"$work/deep/folder-$((file % 20))/file-$file"
    done
    for kind in flat deep; do
        ours= theirs=
        for ((run = 0; run < runs; run++)); do
            for one in "$program" "$older"; do
                rm -rf "$work/bag"
                cp -r "$work/$kind" "$work/bag"
                took=$(milliseconds "$one" "$work/bag")
                diff <(echo "$work/bag made") "$work/output"
                if [[ $one == "$program" ]]; then ours=$(least "$ours" "$took"); else theirs=$(least "$theirs" "$took"); fi
            done
        done
        ratio "10,000 files, $kind, beside the older program" "$ours" "$theirs" 1.03
        at_most "syncs more, $kind" $(($(syncs_of "$program" $kind) - $(syncs_of "$older" $kind))) 1
    done
fi
