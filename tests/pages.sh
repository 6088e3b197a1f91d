#!/usr/bin/env bash
# Pages of `bagit-keep page` in headless Chromium: what their documents say of a register with odd names, of a round and of a report, and
# that no name acts. It needs Python with Jinja2, and Chromium.
#
# usage: tests/pages.sh [PROGRAM]
#
# PROGRAM is crates/bagit/out/bagit by default.
set -euo pipefail
source "$(dirname "$0")/common.sh"
needs python3
needs chromium
if ! python3 -c 'import jinja2' 2>/dev/null; then
    echo 'skipped: there is no Jinja2 here'
    exit 77
fi
take_program bagit "${1:-}"
export BAGIT=$program PYTHONDONTWRITEBYTECODE=1
enter pages
python3 "$tests/pages.py" "$root/companions/bagit-keep" "$work"
