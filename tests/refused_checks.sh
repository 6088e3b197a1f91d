#!/usr/bin/env bash
# Checks small bags again and again, at each depth, above a cursor, up to a limit and by a profile, and joins reports of parts, and each
# time refuses another of the program's growths: the first, the second, and so on, until none is left to refuse. What is written must be
# the whole report; or its first lines, and a closing line that counts them and says that memory ran out; or that alone, where there was
# no memory for the words, for the profile or to begin a check, and of joined reports its first lines and that. Of each check at least
# one growth must be reported as refused, and the bag must be as it was.
#
# Then the least number is sought for which no growth is refused while a bag is checked whose payload file has one byte, and one whose
# payload file has 1,000,000: it must be the same, and so must be the most bytes that a growth asks for. It needs a C compiler.
#
# usage: tests/refused_checks.sh [PROGRAM]
#
# PROGRAM is crates/bagit/out/bagit by default, which `rt run` and `rt ci` leave there.
set -euo pipefail
source "$(dirname "$0")/common.sh"
source "$(dirname "$0")/growths.sh"
needs cc
take_program bagit "${1:-}"
enter checks
build_refuser

# Whether an answer is one that a refused growth may have: the whole report, with its status; its first lines and the closing line;
# or that memory ran out, after the keys that aren't checked, where they were written.
is_right() {
    local front
    if [[ $status == "$wanted" && ! $errors && $output == "$whole" ]]; then return; fi
    reported=$((reported + 1))
    if [[ $errors ]]; then
        count_faults "$output"
        is_out_of_memory && [[ $lines == "$output"* ]] && ((faults == 0))
        return
    fi
    front=${output%"$name unread - memory, faults: "*}
    count_faults "$front"
    [[ $status == 3 && $lines == "$front"* && $output == "$front$name unread - memory, faults: $faults"$'\n' ]]
}

# Counts the lines of a text that aren't of a key that isn't checked.
count_faults() {
    local line
    faults=0
    [[ ! $1 ]] || while IFS= read -r line; do [[ $line == 'unchecked '* ]] || faults=$((faults + 1)); done <<<"${1%$'\n'}"
}

# Whether an answer of joined reports is: the whole report; or its first lines, and that memory ran out.
is_right_joined() {
    if [[ $status == "$wanted" && ! $errors && $output == "$whole" ]]; then return; fi
    reported=$((reported + 1))
    is_out_of_memory && [[ $lines == "$output"* ]]
}

# Refuses each growth of a check. Its arguments are the status and the words; standard input is what is written where no growth is
# refused.
in_turn() {
    wanted=$1 reported=0
    shift
    cat >whole
    take whole whole
    lines=${whole%$'\n'}
    lines=${lines%"${lines##*$'\n'}"}
    rm -rf kept
    [[ ! -e d ]] || cp -r d kept
    refusing_none "$program" "$@"
    [[ $status == "$wanted" && ! $errors ]] && diff whole output || give_up "$*: something else is written, with the status $status"
    refusing_each : "$right" "$program" "$@"
    ((reported > 0)) || give_up "$*: no refusal is reported"
    [[ ! -e d ]] || diff -r kept d
}

right=is_right
name=sample
in_turn 0 <<<'sample has a good declaration'
name=d

# A file that one of three manifests names, at each depth.
bag; put data/a a; put manifest-md5.txt "$ma  data/a\n"; put manifest-sha1.txt ''; put manifest-sha256.txt ''
two='603 payload-file-not-listed data/a sha1 - -
603 payload-file-not-listed data/a sha256 - -
d has faults: 2'
in_turn 1 --validate d <<<"$two"
in_turn 1 --validate --completeness-only --clashes d <<<"$two"
in_turn 1 --validate --fast d <<'END'
305 no-oxum bag-info.txt - - -
d has faults: 1
END
in_turn 0 --validate --declaration-only d <<<'d has a good declaration'

# A changed file that two manifests name; above each of its faults, and up to the first.
bag; put data/x a; put manifest-md5.txt "$mabc  data/x\n"; put manifest-sha1.txt "$sabc  data/x\n"
first="701 payload-sum-differs data/x md5 - $mabc:$ma"
second="701 payload-sum-differs data/x sha1 - $sabc:$sa"
in_turn 1 --validate d <<<"$first"$'\n'"$second"$'\nd has faults: 2'
in_turn 1 --validate --quiet --after "$first" d <<<"$second"$'\nd rest done, faults: 1'
in_turn 1 --validate --after "$second" d <<<'d rest done, faults: 0'
in_turn 1 --validate --max-faults 1 d <<<"$first"$'\nd stopped, faults: 1'

# Three changed files, of which each is read when the lines of those before it are written.
bag; for file in a b c; do put "data/$file" a; done
put manifest-md5.txt "$mb  data/a\n$mb  data/b\n$mb  data/c\n"
put manifest-sha1.txt "$s0  data/a\n$s0  data/b\n$s0  data/c\n"
for file in a b c; do
    echo "701 payload-sum-differs data/$file md5 - $mb:$ma"
    echo "701 payload-sum-differs data/$file sha1 - $s0:$sa"
done >six
echo 'd has faults: 6' >>six
in_turn 1 --validate d <six

# The reports of its parts, joined.
for part in 1 2 3; do
    status=0
    "$program" --validate --part "$part/3" d >"p$part" || status=$?
    [[ $status == 1 ]]
done
right=is_right_joined
in_turn 1 --validate --join p3 p1 p2 <six
right=is_right

# Rules of a profile.
bag; put manifest-md5.txt ''; put fetch.txt ''
put bag-info.txt 'BagIt-Profile-Identifier: urn:p\nContact-Name: Ann\nContact-Name: Bo\nBag-Count: 9 of 9\n'
cat >profile.json <<'END'
{"BagIt-Profile-Info":{"BagIt-Profile-Identifier":"urn:p"},"Bag-Info":{"Source-Organization":{"required":true},"Contact-Name":{"repeatable":false},"Bag-Count":{"values":["1 of 1"]}},"Manifests-Required":["md5","sha512"],"Allow-Fetch.txt":false,"Data-Empty":true}
END
in_turn 1 --validate --profile profile.json d <<'END'
unchecked Data-Empty
802 label-required bag-info.txt - - Source-Organization
803 label-repeated bag-info.txt - 3 Contact-Name
804 value-not-allowed bag-info.txt - 4 Bag-Count:9%20of%209
811 fetch-not-allowed fetch.txt - - -
805 manifest-required manifest-sha512.txt - - -
d has faults: 5
END

# Faults of each kind of tag file.
bag; put data/a ''; put manifest-md5.txt "$m0  data/a\n$m0  data/a\n$m0  data/%%41\n"; put tagmanifest-md5.txt "$m0  notes.txt\n"
put fetch.txt 'http://h/b 3\n'; put bag-info.txt ' orphan\nPayload-Oxum: 3.1\n'
in_turn 1 --validate d <<'END'
301 info-line bag-info.txt - 1 -
304 oxum-differs bag-info.txt - 2 3.1:0.1
401 fetch-line fetch.txt - 1 -
508 named-again manifest-md5.txt md5 2 data/a
503 manifest-escape manifest-md5.txt md5 3 data/%2541
509 payload-manifest-not-listed tagmanifest-md5.txt md5 - manifest-md5.txt
602 tag-file-missing notes.txt md5 - -
d has faults: 7
END

# Two names of one normal form.
bag; put $'data/\xC3\xA9' ''; put $'data/e\xCC\x81' ''; put manifest-md5.txt "$m0  data/\xC3\xA9\n$m0  data/e\xCC\x81\n"
in_turn 1 --validate --clashes d <<'END'
604 name-clash data/%C3%A9 - - data/e%CC%81
d has faults: 1
END

# A valid bag with a payload file of this size.
sized() {
    bag
    head -c "$1" /dev/zero >d/data/a
    (cd d && sha256sum data/a >manifest-sha256.txt)
    in_turn 0 --validate d <<<'d is valid'
}
sized 1
small=$last most=$largest
sized 1000000
compare_sizes "$small" "$most"
conclude
