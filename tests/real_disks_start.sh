#!/usr/bin/env bash
# Where user-mode Linux doesn't run even its first process, tests/real_disks.sh is skipped, and says why. A stand-in
# writes what such a machine has on its console.
#
# usage: tests/real_disks_start.sh [PROGRAM]
#
# PROGRAM is crates/bagit/out/bagit by default.
set -euo pipefail
source "$(dirname "$0")/common.sh"
take_program bagit "${1:-}"
needs python3
enter real-disks-start
mkdir bin
for tool in modprobe strace mkfs.ext4; do ln -s "$(type -P true)" "bin/$tool"; done
printf '#!/bin/sh\ncat "%s/console"\n' "$work" >bin/linux.uml
chmod +x bin/linux.uml
export PATH=$work/bin:$PATH
init='Kernel panic - not syncing: Attempted to kill init! exitcode=0x000000'
registers='userspace - ptrace set fp regs failed (put_fp_registers), errno = 22'
tried=0

# Runs it over a console, and looks for its status and for a text in what it says.
ends_with() { # STATUS TEXT CONSOLE
    local status=0
    printf '%s\n' "${@:3}" >console
    bash "$tests/real_disks.sh" "$program" --file-systems ext4 --states 1 >printed 2>&1 || status=$?
    [[ $status == "$1" && $(<printed) == *"$2"* ]] || give_up "with '${*:3}' it ends with $status: $(<printed)"
    tried=$((tried + 1))
}
ends_with 77 "skipped: user-mode Linux doesn't start here: $registers; ${init}0b" "$registers" "${init}0b" 'Call Trace:'
ends_with 77 "doesn't start here: ${init}0b" "${init}0b"
ends_with 77 "doesn't start here: no memory" 'no memory'
ends_with 77 "doesn't start here: " ''
ends_with 2 'ext4: failed' "${init}00"

echo "$tried consoles of user-mode Linux are understood"
