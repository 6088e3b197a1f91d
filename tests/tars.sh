#!/usr/bin/env bash
# Packs generated bags into tar files by GNU tar, bsdtar, Python, busybox and cpio: what bagit says of each must be what it says of the
# folder, at each depth, after a fault, up to some, and in parts; so of a file of 8 GiB, if a hole of that size can be made here. An archive
# that is cut off anywhere is no bag. One with a bit of a header flipped, or changed otherwise, may only be valid if GNU tar and Python
# unpack the same valid bag. Archives that hold no bag, or that readers don't read alike, are refused, each for its cause. What is generated
# is the same each time.
#
# usage: tests/tars.sh [PROGRAM]
#
# PROGRAM is crates/bagit/out/bagit by default, which `rt run` and `rt ci` leave there. It needs GNU tar and Python; the other writers are
# tried where they are.
set -euo pipefail
source "$(dirname "$0")/common.sh"
take_program bagit "${1:-}"
needs python3
[[ $(tar --version 2>/dev/null) == *'GNU tar'* ]] || { echo 'skipped: there is no GNU tar here'; exit 77; }
enter tars
LC_ALL=C.UTF-8 python3 -B "$tests/tars.py" "$program" >counted 2>&1 || { cat counted; give_up 'an archive is read otherwise than its folder'; }
[[ $(wc -l <counted) == 8 ]] || give_up "it says: $(<counted)"
cat counted
