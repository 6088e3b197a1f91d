#!/usr/bin/env bash
# Runs the built program over real folders, and compares what it writes and its status with what must come: its words, its outputs, folders
# and links of the disk, and bags that other programs read. All rows about what a fault is stand in crates/test_cases.
#
# usage: tests/program.sh [PROGRAM]
#
# PROGRAM is crates/bagit/out/bagit by default, which `rt run` and `rt ci` leave there. The last line says how many examples there were.
set -euo pipefail
source "$(dirname "$0")/common.sh"
take_program bagit "${1:-}"
enter program

examples=0

# Runs the program with the words after the status, and compares its status, and its output with standard input.
run() {
    local status=0 expected=$1
    shift
    "$program" "$@" >output 2>errors || status=$?
    diff - output || give_up "$* wrote something else"
    [[ $status == "$expected" ]] || give_up "$* ended with $status, and not $expected: $(<errors)"
    examples=$((examples + 1))
}

# The same, with nothing on standard error.
wanted() {
    run "$@"
    [[ ! -s errors ]] || give_up "${*:2} complains: $(<errors)"
}

# The same, with nothing on the output, and with a text on standard error.
refused() {
    run "${@:2}" </dev/null
    diff <(printf '%s\n' "$1") errors || give_up "${*:3} complains of something else"
}

wanted 0 <<<'sample has a good declaration'

bag; put manifest-sha256.txt ''
wanted 0 --validate d <<<'d is valid'
wanted 0 --validate --completeness-only d <<<'d is complete'
wanted 0 --validate --declaration-only d <<<'d has a good declaration'
wanted 0 --validate --quiet d </dev/null
wanted 0 d --validate <<<'d is valid'

# An empty folder.
rm -rf d e; mkdir d e
wanted 1 --validate d <<'END'
101 no-declaration bagit.txt - - -
201 no-payload-folder - - - -
202 no-payload-manifest - - - -
d has faults: 3
END
wanted 1 --validate --quiet d <<'END'
101 no-declaration bagit.txt - - -
201 no-payload-folder - - - -
202 no-payload-manifest - - - -
d has faults: 3
END

# Two algorithms; right, then wrong, then cut in two by a cursor.
bag; put data/x abc; put manifest-md5.txt "$mabc  data/x\n"; put manifest-sha1.txt "$sabc  data/x\n"
wanted 0 --validate d <<<'d is valid'
wanted 0 --validate --completeness-only d <<<'d is complete'
wanted 1 --validate --fast d <<'END'
305 no-oxum bag-info.txt - - -
d has faults: 1
END
put bag-info.txt 'Payload-Oxum: 3.1\n'
wanted 0 --validate --fast d <<<'d agrees with its oxum'
rm d/bag-info.txt
put data/x a
wanted 1 --validate d <<END
701 payload-sum-differs data/x md5 - $mabc:$ma
701 payload-sum-differs data/x sha1 - $sabc:$sa
d has faults: 2
END
wanted 1 --validate --after "701 payload-sum-differs data/x md5 - $mabc:$ma" d <<END
701 payload-sum-differs data/x sha1 - $sabc:$sa
d rest done, faults: 1
END
wanted 1 --validate --after "701 payload-sum-differs data/x sha1 - $sabc:$sa" d <<<'d rest done, faults: 0'
wanted 1 --validate --max-faults 1 d <<END
701 payload-sum-differs data/x md5 - $mabc:$ma
d stopped, faults: 1
END

# A profile, and files that are none.
bag; put manifest-md5.txt ''; put bag-info.txt 'BagIt-Profile-Identifier: urn:p\n'
profile='"BagIt-Profile-Info":{"BagIt-Profile-Identifier":"urn:p"}'
printf '{%s,"Data-Empty":true,"Manifests-Required":["sha512"]}' "$profile" >profile.json
wanted 1 --validate --profile profile.json d <<'END'
unchecked Data-Empty
805 manifest-required manifest-sha512.txt - - -
d has faults: 1
END
printf '{%s,"Bag-Info":[]}' "$profile" >bad.json
refused 'bagit: profile: wrong shape: Bag-Info' 2 --validate --profile bad.json d
for file in missing.json . /dev/zero; do
    refused 'bagit: profile unread' 3 --validate --profile "$file" d
done

# Several folders: the greatest status.
bag; put manifest-sha256.txt ''
wanted 1 --validate --declaration-only d e <<'END'
d has a good declaration
101 no-declaration bagit.txt - - -
e has faults: 1
END
run 3 --validate --declaration-only e 'not there' d <<'END'
101 no-declaration bagit.txt - - -
e has faults: 1
not%20there unread - device, faults: 0
d has a good declaration
END
diff <(echo 'bagit: not%20there: not there') errors || give_up 'it says something else of what is not there'

# Two folders and a limit: one bag is complete, and of the other, which is damaged, the first faults are written.
rm -rf letters damaged
mkdir letters
printf 'Dear Ann,\n' >letters/first.txt
printf 'Dear Bob,\n' >letters/second.txt
wanted 0 --sha256 --contact-name Ann letters <<<'letters made'
cp -r letters damaged
echo x >>damaged/data/first.txt
mv damaged/data/second.txt damaged/data/third.txt
echo more >damaged/data/third.txt
wanted 1 --validate --completeness-only --max-faults 2 letters damaged <<'END'
letters is complete
304 oxum-differs bag-info.txt - 2 20.2:17.2
601 payload-file-missing data/second.txt sha256 - -
damaged stopped, faults: 2
END

# Words that are refused.
refused 'bagit: --fast needs --validate' 2 --fast d
refused 'bagit: --max-faults needs --validate' 2 --max-faults 1 d
refused 'bagit: more than one of --declaration-only, --fast, --completeness-only' 2 --validate --fast --completeness-only d
refused 'bagit: more than one of --declaration-only, --fast, --completeness-only' 2 --validate --fast --declaration-only --after x a b
refused 'bagit: --after takes one directory' 2 --validate --after 701 a b
refused 'bagit: --after is not a fault line' 2 --validate --after 701 d
for words in '--validate --max-faults 0 d' '--validate' '--md5 --md5 d' '--unknown d' '--val d'; do
    run 2 $words </dev/null
    [[ -s errors ]] || give_up "$words is refused without a word"
done
"$program" --help >output
grep -q -- '--completeness-only' output
awk 'length($0) > 100 { print; exit 1 }' output
status=0
"$program" --help >/dev/full 2>errors || status=$?
[[ $status == 3 ]]
diff <(echo 'bagit: output refused') errors

# A bag is made, and has no fault; then it is changed.
rm -rf d; mkdir -p d/inner; put a abc; put 'inner/b c' ''
wanted 0 --md5 --bag-count ' 1 of 2 ' --contact-name Ann d <<<'d made'
diff - d/bag-info.txt <<<$'Contact-Name: Ann\nBag-Count: 1 of 2\nPayload-Oxum: 3.2'
diff - d/manifest-md5.txt <<<"$mabc  data/a"$'\n'"$m0  data/inner/b c"
(cd d; md5sum --check --quiet manifest-md5.txt tagmanifest-md5.txt)
wanted 0 --validate d <<<'d is valid'
mkdir d/.bagit-new; put .bagit-new/x ''
wanted 3 d <<<'d not made: .bagit-new is there'
rm -rf d/.bagit-new
wanted 3 --contact-name $'two\nlines' d <<<'d not made: bad value'
wanted 0 --validate d <<<'d is valid'
ln -s nowhere d/link
wanted 3 d <<<'d not made: read - special'
wanted 3 --validate d <<<'d unread - special, faults: 0'
rm d/link
put data/extra x
wanted 1 --validate d <<'END'
304 oxum-differs bag-info.txt - 3 3.2:4.3
603 payload-file-not-listed data/extra md5 - -
d has faults: 2
END
wanted 0 --quiet d </dev/null
test -f d/data/data/extra
wanted 0 --validate d <<<'d is valid'

# Bags by several algorithms, which their programs accept.
rm -rf d; mkdir -p d/inner; put a abc; put 'inner/b c' ''
wanted 0 --sha384 --sha224 --sha512 --sha256 d <<<'d made'
for alg in sha224 sha256 sha384 sha512; do
    (cd d; "${alg}sum" --check --quiet "manifest-$alg.txt" "tagmanifest-$alg.txt")
done
wanted 0 --validate d <<<'d is valid'
: >d/manifest-sha224.txt
: >d/manifest-sha384.txt
wanted 1 --validate --completeness-only d <<'END'
603 payload-file-not-listed data/a sha224 - -
603 payload-file-not-listed data/a sha384 - -
603 payload-file-not-listed data/inner/b%20c sha224 - -
603 payload-file-not-listed data/inner/b%20c sha384 - -
d has faults: 4
END

echo "$examples examples, each as it must be"
