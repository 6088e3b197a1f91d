# Functions of the scripts that refuse a program's growths, as the calls are named here by which it takes memory from the C library. They
# need common.sh, a folder `work`, and a C compiler.

# How many growths were refused, of each kind and in all, and of how many the answer was wrong.
declare -A refused=()
from=1 growths=0 wrong=0

# Builds what stands between a program and the C library: it writes each growth, and refuses one, by its number.
build_refuser() {
    cc -shared -fPIC -O1 -fno-builtin-malloc -o "$work/refuse.so" "$tests/refuse.c" -ldl
}

# Takes the text of a file into a variable, whole, as the shell does it alone: there are thousands of files to look at.
take() { # VARIABLE FILE
    ! IFS= read -rd '' "$1" <"$2" || give_up "$2 has a byte of 0"
}

# Runs a program of which the growth of a number is refused, from 1, or none for 0. Its output, its errors and its status stand in
# `output`, `errors` and `status` then, and its growths in `grown`: KIND BYTES, with `refused` after the one.
refusing() {
    status=0
    REFUSED=$1 LD_PRELOAD=$work/refuse.so "${@:2}" >"$work/output" 2>"$work/errors" 9>"$work/growths" || status=$?
    mapfile -t grown <"$work/growths"
    take output "$work/output"
    take errors "$work/errors"
}

# Runs a program of which no growth is refused, and finds out how many it has, and what the largest asks for.
refusing_none() {
    refusing 0 "$@"
    last=${#grown[@]}
    ((last > 0)) || give_up "$*: no growth of it is seen, so none can be refused"
    largest=$(sort -k 2n "$work/growths" | tail -n 1 | cut -d' ' -f2)
}

# Refuses each growth of a program in turn, as many as `refusing_none` found, or those from the number `from`, and sees that it was
# refused, and that there is none above. Its first arguments are a call that goes before each run, and one that says whether what came of
# it is right.
refusing_each() {
    local before=$1 is_right=$2 number
    shift 2
    for ((number = from; number <= last; number++)); do
        "$before"
        refusing "$number" "$@"
        [[ ${grown[number - 1]:-} == *' refused' ]] || give_up "$*: growth $number of $last wasn't refused"
        growths=$((growths + 1))
        count_refused "${grown[number - 1]%% *}"
        if ! "$is_right"; then
            echo "$*: growth $number is refused, and the status is $status: $output$errors"
            wrong=$((wrong + 1))
        fi
    done
    "$before"
    refusing "$number" "$@"
    [[ ${#grown[@]} == "$last" && ${grown[*]} != *refused* ]] || give_up "$*: there are growths above the $last that were refused"
}

count_refused() { refused[$1]=$((${refused[$1]:-0} + 1)); }

# Whether nothing is reported but that memory ran out, where errors are.
is_out_of_memory() { [[ $status == 3 && $errors == $'bagit: out of memory\n' ]]; }

# Compares the growths of the last program, where a payload file has 1,000,000 bytes, with their number and the largest where it has 1.
compare_sizes() {
    echo "a payload file of 1 byte, and of 1,000,000: the least number for which no growth is refused is $(($1 + 1)) and $((last + 1))," \
        "the most bytes that a growth asks for are $2 and $largest"
    [[ $1 == "$last" && $2 == "$largest" ]] || give_up 'these must be the same'
}

# Says what was refused, and ends with 1 where something was wrong, or where no growth of a kind was refused that the program has.
conclude() {
    local kind
    for kind in malloc realloc; do
        ((${refused[$kind]:-0} > 0)) || give_up "no $kind was refused"
    done
    for kind in "${!refused[@]}"; do echo "$kind: ${refused[$kind]}"; done | sort
    echo "$growths growths refused, $wrong wrong"
    [[ $wrong == 0 ]]
}
