#!/usr/bin/env bash
# Cuts the power of real Linux file systems while a folder is made a bag, or a bag is renewed, mounts what each cut may
# leave, and looks for what is lost. It is run by hand, with `bash`, since the gate runs the scripts that are executable: it takes minutes or
# hours, and virtual machines of user-mode Linux, without root. `--help` says what it shows and what it doesn't.
#
# usage: bash tests/real_disks.sh [PROGRAM] [--quick] [OPTIONS]
#
# PROGRAM is crates/bagit/out/bagit by default, which `rt run` and `rt ci` leave there.
set -euo pipefail
source "$(dirname "$0")/common.sh"
needs python3
exec python3 -B "$(dirname "$0")/real_disks" "$@"
