#!/usr/bin/env bash
# Makes folders bags and checks bags, and each time has the system refuse another of the program's calls: the first, the second, and so
# on, each by EIO, EACCES, ENOSPC, EINTR and ENOMEM; and kills the program at each. Calls of the loader, before the program begins, are left
# alone. Whatever is refused, no run hangs, statuses are 0, 1 and 3, and no file is lost:
#
# - of a making: the bytes of each file stand once, at the file's own path, in `.bagit-new` or in `data`; status 0 and `made` come only
#   where a whole bag stands there, which the programs of coreutils accept; and moved back as docs/RECOVERY.md says it, the folder is as it
#   was;
# - of a check, also of a tar file: what is written is the whole report, or its first lines and a closing line that counts them and says
#   that something couldn't be read; or why nothing could be begun; or a first part of all that, where the output itself was refused or the
#   program was killed. The folder is as it was;
# - of joining: what is written is the whole report, or a first part of it without its closing line, and one line says which report
#   isn't joined, and why.
#
# Where the cause is `device`, standard error names what the system refused, and says why, as the system's error has it; nowhere else.
#
# It also counts which folders are synced by a making, and how often: at most ten times, the base folder last; and sees that the line of a
# fault is written before the next file is opened. It needs strace and Python.
#
# usage: tests/refused_calls.sh [PROGRAM]
#
# PROGRAM is crates/bagit/out/bagit by default, which `rt run` and `rt ci` leave there.
set -euo pipefail
source "$(dirname "$0")/common.sh"
needs strace
needs python3
take_program bagit "${1:-}"
enter calls
python3 -B "$tests/refused_calls.py" "$program"
