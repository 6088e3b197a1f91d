#!/usr/bin/env bash
# Makes a folder a bag, and replays the calls that the program made over disks that lose what wasn't synced, with the power cut after each
# call: no file of the folder is lost, no check calls a bag valid that lacks one, and once `made` is written only the whole bag may be
# left. Then each kind of sync is left out of the calls in turn, and something must be lost. The disks and the losses stand in
# power_cut.py. It needs strace and Python 3.
#
# usage: tests/power_cut.sh [PROGRAM [CALLS]]
#
# PROGRAM is crates/bagit/out/bagit by default, which `rt run` and `rt ci` leave there. CALLS is a file of the calls of such a making, one
# a line, as strace writes them: they are replayed in place of the program's own, which are written to it where it isn't there.
set -euo pipefail
source "$(dirname "$0")/common.sh"
needs strace
needs python3
take_program bagit "${1:-}"
calls=$(realpath -m "${2:-/dev/null}")
enter power

# A folder with a `data` and a `bagit.txt` of its own, folders in one another and an empty file. No two files have the same bytes.
mkdir -p before/data before/letters/inner
printf 'one' >before/bagit.txt
printf 'two' >before/data/two
printf 'three' >before/letters/three
printf 'four' >before/letters/inner/four
: >before/letters/empty

cp -r before d
strace -f -y -s 100000 -o own "$program" --sha256 --contact-name Ann d >output
diff - output <<<'d made'
sed -i "s|$(pwd -P)/||g" own
if [[ -f $calls ]]; then cp "$calls" own; else cat own >"$calls"; fi
python3 "$tests/power_cut.py" before d own "$program"
