#!/usr/bin/env bash
# `bagit-keep make`, `edit`, `repack` and `restore`, over the built programs: what each does and refuses; each killed, at random and before
# each step, and asked again; on a full disk; as another user; with odd names; and two at once. Nothing that was there is lost or passes
# for good, whatever happens, and the same command comes to the same end.
#
# usage: tests/bag_life.sh [PROGRAM [RENEW]]
#
# PROGRAM is crates/bagit/out/bagit by default, and RENEW what stands in crates/bagit_renew/out. It needs Python. As root it works as
# another user too, and fills a small disk where one can be mounted.
set -euo pipefail
source "$(dirname "$0")/common.sh"
needs python3
take_program bagit "${1:-}"
take_renew "${2:-}"
enter life
trap 'umount "$work/disk" 2>/dev/null || true; rm -rf "$work"' EXIT
chmod 755 .
install -m755 "$program" bagit
install -m755 "$renew" bagit-renew
mkdir disk
mount -t tmpfs -o size=1m tmpfs disk 2>/dev/null && small=yes || small=
export BAGIT=$work/bagit BAGIT_RENEW=$work/bagit-renew SMALL_DISK=${small:+$work/disk} PYTHONDONTWRITEBYTECODE=1 TMPDIR=$work
python3 -W error "$root/tests/bag_life.py" >said 2>&1 || { cat said; give_up 'the life of a bag goes wrong'; }
count=$(sed -n 's/^Ran \([0-9]*\) tests .*/\1/p' said)
((count > 20)) || give_up "$count tests were found"
echo "$count tests: $(grep -E '^[0-9]+ kills' said)${small:+, with a full disk}"
