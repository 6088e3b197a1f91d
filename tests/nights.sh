#!/usr/bin/env bash
# Nights of `bagit-keep audit` over a register of twenty bags: bags that are new, damaged, restored, removed, renewed, replaced, swapped
# or moved; a full disk; tasks of a job array; audits that are killed; two at once; bits that change in the register. What happens is
# news on its night, by name, and a night on which nothing happens ends with 0.
#
# usage: tests/nights.sh [PROGRAM [RENEWING]]
#
# PROGRAM is crates/bagit/out/bagit by default, and RENEWING crates/bagit_renew/out/bagit_renew. It needs Python.
set -euo pipefail
source "$(dirname "$0")/common.sh"
take_program bagit_renew "${2:-}"
export BAGIT_RENEW=$program
take_program bagit "${1:-}"
export BAGIT=$program PYTHONDONTWRITEBYTECODE=1
needs python3
enter nights
python3 "$root/tests/nights.py" "$root" "$work"
