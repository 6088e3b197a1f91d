#!/usr/bin/env bash
# Runs the unit tests of the Python package companions/bagitkeep, by each Python of 3.9 or newer that is found; has mypy and flake8 look
# at it, where they are there; and installs it by pip, where that is there, without a network.
#
# usage: tests/companions.sh
#
# It needs Python.
set -euo pipefail
source "$(dirname "$0")/common.sh"
needs python3
enter companions
export PYTHONDONTWRITEBYTECODE=1
cd "$root/companions"

[[ $(sed -n 's/^__version__ = "\(.*\)"$/\1/p' bagitkeep/__init__.py) == "$(<../VERSION)" ]] || give_up 'the package has another version'

# Pythons, each version once.
declare -A pythons
for python in python3 python3.{9..14} /usr/bin/python3; do
    version=$("$python" -c 'import sys; print("%d.%d" % sys.version_info[:2])' 2>/dev/null) || continue
    pythons[$version]=$python
done
for version in "${!pythons[@]}"; do
    "${pythons[$version]}" -W error -m unittest discover -s tests -t . >"$work/said" 2>&1 ||
        { cat "$work/said"; give_up "unit tests fail by Python $version"; }
done
count=$(sed -n 's/^Ran \([0-9]*\) tests .*/\1/p' "$work/said")
((count > 20)) || give_up "$count unit tests were found"

# What Debian's mypy and flake8 say, which is nothing.
looked=
for words in 'mypy --strict --python-version 3.9 --cache-dir /dev/null bagitkeep' 'flake8 bagitkeep tests wheel_of.py'; do
    tool=${words%% *}
    PATH=/usr/bin:$PATH type -P "$tool" >/dev/null || continue
    # shellcheck disable=SC2086
    PATH=/usr/bin:$PATH $words >"$work/said" 2>&1 || { cat "$work/said"; give_up "$tool finds something"; }
    looked+=" and $tool"
done

# Installed from a copy, with no index to ask.
installed='not installed, as there is no pip'
if python3 -m pip --version >/dev/null 2>&1; then
    cp -r . "$work/copy"
    python3 -m pip install --quiet --disable-pip-version-check --no-index --no-compile --target "$work/installed" "$work/copy" \
        >"$work/said" 2>&1 || { cat "$work/said"; give_up 'pip does not install it'; }
    diff <(cd "$work/installed/bagitkeep" && ls *.py* templates) <(cd bagitkeep && ls *.py* templates) ||
        give_up 'what pip has installed lacks a file'
    installed='installed by pip without a network'
fi

echo "$count unit tests by Python$(printf ' %s' "${!pythons[@]}")$looked: nothing to say; $installed"
