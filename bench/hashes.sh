#!/usr/bin/env bash
# How long a whole check takes of a bag with one large file and manifests of SHA-256 and SHA-512, beside the hash functions alone over
# as many bytes in memory: what is more is our own part, which lists, reads and hands the bytes on. The other program is written here,
# into a folder of its own, and built by `rt`. Counted is the processor time, the programs' own and the system's, the least of several
# runs of both in turn, with the file in the page cache.
#
# usage: bench/hashes.sh [PROGRAM] [RUNS] [MEBIBYTES]
#
# PROGRAM is crates/bagit/out/bagit by default, which `rt run` and `rt ci` leave there.
set -euo pipefail
source "$(dirname "$0")/common.sh"

take_program bagit "${1:-}"
runs=${2:-5}
mebibytes=${3:-500}

make_room hashes

mkdir -p "$work/alone/crates/hashes/src"
echo 'hashes: sha2' >"$work/alone/crates.txt"
cat >"$work/alone/crates/hashes/src/main.rt" <<'END'
//! Hashes so many mebibytes by SHA-256 and by SHA-512, a buffer at a time.
#![tactic(auto)]

use sha2::{Digest, Sha256, Sha512};
use std::{env, io};

/// How many bytes are hashed at once.
const BUFFER_BYTES: usize = 65_536;

fn main(rt: HostRuntime) -> io::Result<()> {
    let words: Vec<String> = env::args(&rt)?.skip(1).collect(rt.alloc())?;
    let mut mebibytes = 0u64;
    if let Some(word) = words.first() {
        mebibytes = word.parse().unwrap_or(0);
    }
    let bytes = Vec::from_elem(rt.alloc(), 0, BUFFER_BYTES)?;
    let mut sha256: Sha256 = Digest::new();
    let mut sha512: Sha512 = Digest::new();
    for _ in 0..mebibytes.saturating_mul(16) {
        sha2::Digest::update(&mut sha256, &bytes);
        sha2::Digest::update(&mut sha512, &bytes);
    }
    let (first, second) = (sha2::Digest::finalize(sha256)[0], sha2::Digest::finalize(sha512)[0]);
    println!(rt; "{first} {second}")
}
END
(cd "$work/alone/crates/hashes" && rt run -- 0 >"$work/built")
alone=$work/alone/crates/hashes/out/hashes

bag=$work/bag
mkdir -p "$bag/data"
printf 'BagIt-Version: 1.0\nTag-File-Character-Encoding: UTF-8\n' >"$bag/bagit.txt"
head -c "${mebibytes}M" /dev/urandom >"$bag/data/file"
for alg in sha256 sha512; do (cd "$bag" && "${alg}sum" data/file >"manifest-$alg.txt"); done
diff <("$program" --validate "$bag") <(echo "$bag is valid")
ours= peer=
for ((run = 0; run < runs; run++)); do
    ours=$(least "$ours" "$(milliseconds "$program" --validate "$bag")")
    peer=$(least "$peer" "$(milliseconds "$alone" "$mebibytes")")
done
ratio "beside the hash functions alone" "$ours" "$peer" 1.03
