#!/usr/bin/env bash
# Makes a bag of a small folder again and again, and each time refuses another of the program's growths: the first, the second, and
# so on, until none is left to refuse. What is reported and the folder, compared whole, must be one of these:
#
# - `made`, and the bag that is made of the folder, put together by coreutils;
# - out of memory, on the output or, where there was no memory for the words, on the error output, and the folder as it was;
# - a step that was refused, and the folder as the steps before it leave it (docs/RECOVERY.md); where the step writes a tag file, that
#   file may stand there too, with the first of its bytes.
#
# One file of the folder has 1 byte, and then 1,000,000: the least number for which no growth is refused must be the same for both, and
# so must be the most bytes that a growth asks for, since contents are read through one buffer. It needs a C compiler.
#
# usage: tests/refused_memory.sh [PROGRAM]
#
# PROGRAM is crates/bagit/out/bagit by default, which `rt run` and `rt ci` leave there.
set -euo pipefail
source "$(dirname "$0")/common.sh"
source "$(dirname "$0")/growths.sh"
needs cc
take_program bagit "${1:-}"
enter memory
build_refuser

tag_files=(bagit.txt bag-info.txt {manifest,tagmanifest}-sha{256,512}.txt)

# Puts together in `composed` what a bag of these entries of the folder has: its payload, and its tag files.
compose() {
    local bits
    rm -rf composed
    mkdir -p composed/data
    (cd folder && cp -r "$@" ../composed/data)
    (
        cd composed
        declare_bag >bagit.txt
        echo "Payload-Oxum: $(find data -type f -exec cat {} + | wc -c).$(find data -type f | wc -l)" >bag-info.txt
        for bits in 256 512; do find data -type f -print0 | sort -z | xargs -0 "sha${bits}sum" >"manifest-sha$bits.txt"; done
        for bits in 256 512; do "sha${bits}sum" bag-info.txt bagit.txt manifest-*.txt >"tagmanifest-sha$bits.txt"; done
    )
}

# The steps of a making of these entries, each a command in the folder.
plan() {
    local name
    steps=('mkdir .bagit-new')
    for name; do steps+=("mv $name .bagit-new"); done
    steps+=('mv .bagit-new data' "${tag_files[@]/#/write }")
}
write() { cp "../composed/$1" .; }

# Makes folders `after-0`, `after-1`, and so on, of the folder as its first steps leave it, so many of them; and `whole` after all.
take_steps() {
    local number
    rm -rf after-* whole
    cp -r folder after-0
    for ((number = 1; number <= ${#steps[@]}; number++)); do
        cp -r "after-$((number - 1))" "after-$number"
        (cd "after-$number" && ${steps[number - 1]})
    done
    cp -r "after-${#steps[@]}" whole
}

# Whether the bag is as the steps before this one leave it, with a first part of the tag file that this one writes, if it writes one.
is_stopped_at() {
    local step=${steps[$1 - 1]:-} file
    file=${step#write }
    if [[ $step == 'write '* && -e bag/$file ]]; then
        cmp -s -n "$(stat -c %s "bag/$file")" "composed/$file" "bag/$file" || return
        rm "bag/$file"
    fi
    [[ -n $step ]] && diff -r "after-$(($1 - 1))" bag
}

# Whether what is reported and the folder agree; counts the answer by its kind.
is_right() {
    local answer=${output%$'\n'}
    if [[ $errors ]]; then
        is_out_of_memory && [[ -z $answer ]] && diff -r folder bag && words=$((words + 1))
    elif [[ $answer == 'bag made' ]]; then
        [[ $status == 0 ]] && diff -r whole bag && made=$((made + 1))
    elif [[ $answer == 'bag not made: out of memory' ]]; then
        [[ $status == 3 ]] && diff -r folder bag && untouched=$((untouched + 1))
    elif [[ $status == 3 && $answer =~ ^'bag not made: step '([1-9][0-9]*)' memory'$ ]]; then
        is_stopped_at "${BASH_REMATCH[1]}" && stopped=$((stopped + 1))
    else
        return 1
    fi
}

fresh() {
    rm -rf bag
    cp -r folder bag
}

# Refuses each growth of a making of the folder, of which these entries become the payload.
in_turn() {
    compose "$@"
    plan "$@"
    take_steps
    fresh
    refusing_none "$program" bag
    [[ $status == 0 && ! $errors && $output == $'bag made\n' ]] && diff -r whole bag || give_up "not made: $output$errors"
    refusing_each fresh is_right "$program" bag
}

words=0 untouched=0 stopped=0 made=0

# A folder with a `data` of its own, and with one without files, which stays where it is.
mkdir -p folder/{data,inner,none}
printf a >folder/a
printf bc >'folder/inner/b c'
printf d >folder/data/d
for ((file = 0; file < 20; file++)); do printf '%s' "$file" >"folder/inner/file-$file"; done
in_turn a data inner

# One file has 1 byte, and then 1,000,000. (The others have so many that `Payload-Oxum` has as many digits both times.)
for ((file = 0; file < 20; file++)); do printf '%050000d' "$file" >"folder/inner/file-$file"; done
from=last
in_turn a data inner
small=$last most=$largest
head -c 1000000 /dev/zero >folder/a
in_turn a data inner
compare_sizes "$small" "$most"

echo "$untouched left the folder as it was, $stopped stopped at a step, $words were of the words, $made were done without"
((untouched > 0 && stopped > 0 && words > 0)) || give_up 'no refusal of one of these kinds is reported'
conclude
