#!/usr/bin/env bash
# Renews bags, and each time has the system refuse another of the program's calls: the first, the second, and so on, each by EIO,
# EACCES, ENOSPC, EINTR and ENOMEM; and kills the program at each. Calls of the loader, before the program begins, are left alone.
# Whatever is refused, no run hangs, and afterwards, by bagit and by the reference of renew.py, there is a valid bag: each file of it
# is the old or the renewed one, payload files are the very files that they were, and the same command makes the renewed bag.
# A file has the mode of the one in whose place it is, and before that nobody else can open it.
# Status 0 and `renewed` come only with the renewed bag; `read` and `out of memory` only where nothing was changed.
#
# It also sees that each payload file is opened once where an algorithm is added, and none where none is. It needs strace and Python.
#
# usage: tests/refused_renewals.sh [BAGIT [BAGIT_RENEW]]
#
# BAGIT is crates/bagit/out/bagit by default, and BAGIT_RENEW what stands in crates/bagit_renew/out.
set -euo pipefail
source "$(dirname "$0")/common.sh"
take_renew "${2:-}"
take_program bagit "${1:-}"
needs strace
needs python3
export PYTHONDONTWRITEBYTECODE=1
enter renewals
python3 "$tests/refused_renewals.py" "$program" "$renew" >counted || { cat counted; give_up 'a refused call leaves what it must not'; }
cat counted
