# Functions of the scripts of this folder: the program that they run, a folder of their own, and small bags.
export LC_ALL=C
tests=$(realpath "$(dirname "${BASH_SOURCE[0]}")")
root=${tests%/*}

# Ends the script where a tool isn't there, by the status of a test that is skipped (the one that automake takes for it). A machine may
# have strace, and not allow it.
needs() {
    case $1 in
        strace) strace -o /dev/null true ;;
        *) command -v "$1" ;;
    esac >/dev/null 2>&1 && return
    echo "skipped: there is no $1 here"
    exit 77
}

# Ends the script, since what it is to show isn't so.
give_up() {
    echo "$*"
    exit 1
}

# Takes the program to run: the one of this path, or where none is given what stands in a crate's `out`.
take_program() {
    program=$(realpath "${2:-$root/crates/$1/out/$1}")
    [[ -x $program ]] || give_up "there is no program $program"
}

# Takes the program that renews bags, `renew`: the one of this path, or where none is given what stands in its crate's `out`. Where that
# isn't built, the script is skipped.
take_renew() {
    local built
    renew=${1:-}
    for built in "$root"/crates/bagit_renew/out/bagit{-,_}renew; do
        if [[ ! $renew && -f $built && -x $built ]]; then renew=$built; fi
    done
    if [[ ! $renew ]]; then
        echo 'skipped: bagit-renew is not built'
        exit 77
    fi
    renew=$(realpath "$renew")
    [[ -x $renew ]] || give_up "there is no program $renew"
}

# A line that says what the system refused, and why.
refusal_line='^bagit(-renew)?: [^ ]+: (not there|not a folder|permission denied|.+ \(os error [0-9]+\))$'

# Gives up unless a command takes a time in proportion: for MANY, its last word, which is four times
# as much as FEW, less than eight times as long of a processor, where the square would be sixteen
# times. One of three tries has to, since others may be at work on the machine.
takes_in_proportion() { # FEW MANY COMMAND..
    local TIMEFORMAT='%U %S' words=("${@:3}") number
    for _ in 1 2 3; do
        : >took
        for number in "$1" "$2"; do { time "${words[@]}" "$number"; } 2>>took; done
        awk '{ took[NR] = $1 + $2 } END { exit took[2] >= 8 * took[1] }' took && return
    done
    give_up "${words[*]}: for $1 and for $2 it takes these seconds of a processor: $(paste -s took)"
}

# Goes into a new folder, `work`, which is removed at the end.
enter() {
    work=$(mktemp -d "/tmp/bagit-$1.XXXXXX")
    trap 'rm -rf "$work"' EXIT
    cd "$work"
}

# Puts a `python3` in front of all others: the interpreter itself, where that name is of a script that looks for one, without what is
# installed beside its own library, which no script needs that calls this; and what it compiles is kept in the folder `work`. Where it
# is started again and again, that is most of the time.
quick_python() {
    local found
    found=$(python3 -c 'import os, sys; print(os.path.realpath(sys.executable))')
    mkdir -p "$work/python/bin"
    ln -s "$found" "$work/python/bin/python3"
    printf 'home = %s\ninclude-system-site-packages = false\n' "${found%/*}" >"$work/python/pyvenv.cfg"
    export PATH=$work/python/bin:$PATH PYTHONPYCACHEPREFIX=$work/python/compiled
    unset PYTHONDONTWRITEBYTECODE
}

# Digests of no byte, `a`, `b` and `abc`.
sum() { printf '%s' "$1" | "$2sum" | cut -d' ' -f1; }
m0=$(sum '' md5) ma=$(sum a md5) mb=$(sum b md5) mabc=$(sum abc md5)
s0=$(sum '' sha1) sa=$(sum a sha1) sabc=$(sum abc sha1)

# A declaration that is right (RFC 8493, 2.1.1).
declare_bag() { printf 'BagIt-Version: 1.0\nTag-File-Character-Encoding: UTF-8\n'; }

# A new bag d: its declaration and an empty folder data.
bag() {
    rm -rf d
    mkdir -p d/data
    declare_bag >d/bagit.txt
}

# Puts a text, with printf's escapes, into a file of the bag.
put() { printf "$2" >"d/$1"; }
