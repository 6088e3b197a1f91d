# Functions of the other scripts, beside those of tests/: a folder of their own, the time that a command takes, and bars.
source "$(dirname "${BASH_SOURCE[0]}")/../tests/common.sh"

# Makes a new folder, `work`, which is removed at the end. The status is 1 then where a bar was missed.
make_room() {
    work=$(mktemp -d "/tmp/bagit-$1.XXXXXX")
    trap 'rm -rf "$work"; [[ $missed == 0 ]] || give_up "bars missed: $missed"' EXIT
}

# The milliseconds of processor time that a command takes, its own and the system's.
milliseconds() {
    local TIMEFORMAT='%3U %3S'
    { time "$@" >"$work/output"; } 2>"$work/time"
    awk '{ printf "%d\n", ($1 + $2) * 1000 }' "$work/time"
}

# The milliseconds by the clock that a command takes.
elapsed() {
    local TIMEFORMAT='%3R'
    { time "$@" >"$work/output"; } 2>"$work/time"
    awk '{ printf "%d\n", $1 * 1000 }' "$work/time"
}

# The smaller of two numbers, of which the first may be missing.
least() {
    if [[ -z $1 || $2 -lt $1 ]]; then echo "$2"; else echo "$1"; fi
}

# The least time of a command, over several runs.
least_of() {
    local best= run
    for ((run = 0; run < runs; run++)); do
        best=$(least "$best" "$(milliseconds "$@")")
    done
    echo "$best"
}

# The most memory that a command takes, in KiB. A check that finds faults ends with 1.
peak() {
    /usr/bin/time -q -f %M -o "$work/peak" "$@" >"$work/output" || [[ $? == 1 ]]
    cat "$work/peak"
}

# How many bars were missed.
missed=0

# Says how a figure, which is a number or one divided by another, stands beside its bar, the most or the least that it
# may be. Its arguments are what was measured, the figure, the bar and the unit, which may be missing.
at_most() { beside_bar most "$@"; }
at_least() { beside_bar least "$@"; }

beside_bar() {
    awk -v which="$1" -v what="$2" -v figure="$3" -v bar="$4" -v unit="${5:+ $5}" 'BEGIN {
        if (split(figure, part, "/") == 2) figure = part[1] / part[2]
        beyond = which == "most" ? figure - bar : bar - figure
        by = beyond > 0 ? sprintf(", %s the bar by %.2f", which == "most" ? "over" : "under", beyond) : ""
        printf "%s: %.2f%s (at %s %.2f%s)\n", what, figure, unit, which, bar, by
        exit by != ""
    }' || missed=$((missed + 1))
}

# Says how our time stands beside a peer's. Its arguments are what took it, both times, and the most that their ratio may be.
ratio() { at_most "$1: $2 ms, peer: $3 ms, ratio" "$2/$3" "$4"; }
