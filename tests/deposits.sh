#!/usr/bin/env bash
# Deposits by `bagit-keep receive`, `fetch` and `send`: archive files of GNU tar, bsdtar and zip, and as Windows writes them; hostile ones,
# and a .tar cut off at each block; what a web server gives; commands that are killed at any of their moments and asked again; a full disk,
# another user, several at once. Never is anything but a valid bag in a store, and never is what was there altered.
#
# usage: tests/deposits.sh [PROGRAM [SEED]]
#
# PROGRAM is crates/bagit/out/bagit by default. It needs Python, zip, xz and curl; bsdtar and zstd are tried where they are. As root it fills
# a small disk too, where one can be mounted, and does as another user does. SEED chooses the moments.
set -euo pipefail
source "$(dirname "$0")/common.sh"
take_program bagit "${1:-}"
for tool in python3 zip xz bzip2 curl; do needs "$tool"; done
enter deposits
trap 'umount "$work/work/disk" 2>/dev/null || true; rm -rf "$work"' EXIT
chmod 755 "$work"
cp "$program" bagit
mkdir work
cd work
export BAGIT=$work/bagit PYTHONDONTWRITEBYTECODE=1
python3 "$tests/deposits.py" "$root" "${2:-$RANDOM}"
