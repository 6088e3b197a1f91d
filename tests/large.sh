#!/usr/bin/env bash
# Checks, makes and renews bags of thousands of lines, files and elements, also by profiles of thousands of labels, patterns and stars:
# what is written must be what large.py says, line by line, and for four times as much it may take less than eight times as long of a
# processor, where the square would be sixteen times. So are bags whose folders stand as deep as the system allows, and deeper.
#
# usage: tests/large.sh [BAGIT [BAGIT_RENEW]]
#
# BAGIT is crates/bagit/out/bagit by default, and BAGIT_RENEW what stands in crates/bagit_renew/out. It needs Python.
set -euo pipefail
source "$(dirname "$0")/common.sh"
take_renew "${2:-}"
take_program bagit "${1:-}"
needs python3
enter large
LC_ALL=C.UTF-8 python3 -B "$tests/large.py" "$program" "$renew" >counted || { cat counted; give_up 'a large bag is not checked, made or renewed as it should be'; }
cat counted
