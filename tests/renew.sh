#!/usr/bin/env bash
# Renews bags, and compares what is left with a reference of its own kind (renew.py): generated bags, byte for byte, where the files
# that aren't written are the very files they were, payload files all of them; then what archivists do and meet, one by one: SHA-512
# beside MD5, elements, a bag of 0.97, a copy by hard links, damage, each refusal with its line and status, dry runs, a manifest that is
# printed, several bags, an output that refuses. A bag that isn't renewed is as it was, to the byte and the time of each file.
#
# usage: tests/renew.sh [BAGIT [BAGIT_RENEW [BAGS]]]
#
# BAGIT is crates/bagit/out/bagit by default, BAGIT_RENEW what stands in crates/bagit_renew/out, and BAGS is 150. It needs Python.
set -euo pipefail
source "$(dirname "$0")/common.sh"
take_renew "${2:-}"
take_program bagit "${1:-}"
needs python3
export PYTHONDONTWRITEBYTECODE=1
enter renew
seen=0

# Runs bagit-renew, which has to end with this status, write what standard input says, and complain of nothing, or of this.
complaint=
renews() {
    local wanted=$1 status=0
    shift
    "$renew" "$@" >said 2>complaints || status=$?
    [[ $status == "$wanted" ]] || { cat said complaints; give_up "it ends with $status, not with $wanted: $*"; }
    diff - said || give_up "it says something else: $*"
    [[ $(<complaints) == "${complaint:+bagit-renew: $complaint}" ]] || { cat complaints; give_up "it complains: $*"; }
    seen=$((seen + 1))
}

# All of a folder: each file with its bytes, its inode, its mode and the time when it was written.
look() {
    (cd "$1" && find . -printf '%p %i %m %T@ %y\n' | sort && find . -type f -exec sha256sum {} + | sort -k 2)
}

# What must not touch the bag d.
leaves() {
    look d >before
    "$@"
    look d | diff before - || give_up "the bag was touched: $*"
}

valid() { diff <("$program" --validate "$1") <(echo "$1 is valid") || give_up "$1 isn't valid"; }

# The first fault of a bag, as `fault`.
first_fault() {
    "$program" --validate "$1" >report && give_up "$1 has no fault"
    fault=$(head -n 1 report)
}

# A valid bag d with MD5 manifests, two files, elements and a tag file in a folder.
md5_bag() {
    bag
    mkdir d/data/letters d/metadata
    put data/first.txt 'Dear Ann,\n'
    put data/letters/50%.txt 'Dear Bob\n'
    put metadata/dc.xml '<dc/>'
    put bag-info.txt 'Contact-Name: Ann\nPayload-Oxum: 19.2\nBag-Size: 1 KB\n'
    (cd d && md5sum data/first.txt data/letters/50%.txt | sed s/%/%25/ >manifest-md5.txt &&
        md5sum bagit.txt bag-info.txt manifest-md5.txt metadata/dc.xml >tagmanifest-md5.txt)
    valid d
}

python3 "$tests/renewals.py" "$program" "$renew" "${3:-150}" >counted || { cat counted; give_up 'a renewed bag is another than the reference says'; }
cat counted

# SHA-512 beside MD5. The old manifest and the payload are the files that they were, and coreutils agree.
stays() { look d | grep -E '(^| )\./(data|metadata|bagit\.txt|bag-info\.txt|manifest-md5\.txt)'; }
md5_bag
stays >before_renewal
renews 0 --add sha512 d <<<'d renewed'
stays | diff before_renewal - || give_up 'a file was touched that stays'
valid d
(cd d && sed 's/%25/%/' manifest-sha512.txt | sha512sum --check --strict --quiet && sha512sum --check --strict --quiet tagmanifest-sha512.txt)
diff <(cut -d ' ' -f 3- d/manifest-sha512.txt) <(printf '%s\n' data/first.txt data/letters/50%25.txt)
diff <(cut -d ' ' -f 3- d/tagmanifest-sha512.txt) <(printf '%s\n' bag-info.txt bagit.txt manifest-{md5,sha512}.txt metadata/dc.xml)
diff <(cd d && ls -A) <(printf '%s\n' bag-info.txt bagit.txt data manifest-{md5,sha512}.txt metadata tagmanifest-{md5,sha512}.txt)
renews 0 --drop md5 d <<<'d renewed'
valid d
diff <(cd d && ls -A) <(printf '%s\n' bag-info.txt bagit.txt data manifest-sha512.txt metadata tagmanifest-sha512.txt)
renews 0 --add sha256,sha1 --drop sha512,md5 d <<<'d renewed'
valid d
diff <(cd d && ls -A) <(printf '%s\n' bag-info.txt bagit.txt data manifest-sha{1,256}.txt metadata tagmanifest-sha{1,256}.txt)

# Damage that was there before is never given a new digest.
md5_bag
printf X | dd of=d/data/first.txt conv=notrunc status=none
first_fault d
[[ $fault == '701 payload-sum-differs data/first.txt md5 - '* ]] || give_up "the damaged bag has another fault: $fault"
leaves renews 1 --add sha512 d <<<"d not renewed: fault $fault"
leaves renews 1 --add sha512 --drop md5 d <<<"d not renewed: fault $fault"
# (MD5 alone tells it where SHA-256 came after it, and isn't dropped, unless that is asked for unchecked.)
cp -a d damaged
rm d/tagmanifest-md5.txt
(cd d && sha256sum data/first.txt data/letters/50%.txt | sed s/%/%25/ >manifest-sha256.txt)
for words in '--drop md5' '--drop sha256' '--add sha256 --drop md5' '--add sha512 --drop md5 --unchecked'; do
    # shellcheck disable=SC2086
    leaves renews 1 $words d <<<"d not renewed: fault $fault"
done
renews 0 --drop md5 --unchecked d <<<'d renewed'
valid d
rm -r d
mv damaged d
leaves renews 1 --dry-run --add sha512 d <<<"d not renewed: fault $fault"
# (An element is corrected without reading the payload; the fault stays one.)
renews 0 --set Contact-Name=Bob d <<<'d renewed'
diff <("$program" --validate d) <(printf '%s\n' "$fault" 'd has faults: 1')
rm d/data/first.txt
first_fault d
leaves renews 1 --set Contact-Name=Eve d <<<"d not renewed: fault $fault"
md5_bag
put metadata/dc.xml '<dC/>'
first_fault d
[[ $fault == '702 tag-sum-differs metadata/dc.xml md5 - '* ]] || give_up "the damaged bag has another fault: $fault"
leaves renews 1 d <<<"d not renewed: fault $fault"

# Elements: set, appended, unset, written over several lines, and repeated in another case.
md5_bag
renews 0 --set contact-NAME=Bob --append 'Bag-size= two ' --set 'External-Identifier=A 2026/17 = x' d <<<'d renewed'
cp d/bag-info.txt first
diff first - <<'END'
contact-NAME: Bob
External-Identifier: A 2026/17 = x
Bag-size: two
Payload-Oxum: 19.2
Bag-Size: 1 KB
END
renews 0 --set contact-NAME=Bob --append 'BAG-SIZE=two' --set 'External-Identifier=A 2026/17 = x' d <<<'d renewed'
diff first d/bag-info.txt || give_up 'what is appended stands there twice'
renews 0 --unset CONTACT-name --unset nothing --set 'bag-size=2 KB' --set 'Bag-Size=in words: two' d <<<'d renewed'
diff d/bag-info.txt - <<'END'
External-Identifier: A 2026/17 = x
bag-size: 2 KB
Bag-Size: in words: two
Payload-Oxum: 19.2
END
valid d
put bag-info.txt 'First: one\r\n   two\r\n\r\n\tthree \r\npayload-oxum: 19.2\r\nLast:\r\n x\r\nfirst: again\r\n'
rm d/tagmanifest-md5.txt
valid d
renews 0 --set Other= d <<<'d renewed'
printf 'First: one\n\ttwo\n\tthree\nOther: \nPayload-Oxum: 19.2\nLast: \n\tx\nfirst: again\n' | diff d/bag-info.txt -
renews 0 --set $'FIRST=over\nlines' d <<<'d renewed'
printf 'FIRST: over\n\tlines\nOther: \nPayload-Oxum: 19.2\nLast: \n\tx\n' | diff d/bag-info.txt -
valid d
rm d/bag-info.txt d/tagmanifest-md5.txt
renews 0 --append A=b d <<<'d renewed'
printf 'A: b\nPayload-Oxum: 19.2\n' | diff d/bag-info.txt -
valid d

# Without a request tag manifests are written anew, and nothing else: a bag that has none, one whose tag manifest doesn't name all, and
# one with what a renewal that was cut off has left.
md5_bag
stays >before_renewal
rm d/tagmanifest-md5.txt
renews 0 d <<<'d renewed'
(cd d && md5sum bag-info.txt bagit.txt manifest-md5.txt metadata/dc.xml) | diff d/tagmanifest-md5.txt -
(cd d && sha1sum manifest-md5.txt >tagmanifest-sha1.txt)
put notes.txt notes
put .bagit-begun 'BagIt-Ver'
valid d
renews 0 d <<<'d renewed'
(cd d && md5sum bag-info.txt bagit.txt manifest-md5.txt metadata/dc.xml notes.txt) | diff d/tagmanifest-md5.txt -
[[ ! -e d/.bagit-begun && ! -e d/tagmanifest-sha1.txt ]] || give_up 'what a renewal removes is there'
stays | diff before_renewal - || give_up 'a file was touched that stays'
valid d

# A bag of 0.97, of which each payload file is named by one manifest.
old_bag() {
    md5_bag
    rm d/tagmanifest-md5.txt
    mv d/data/letters/50%.txt d/data/letters/50.txt
    put bagit.txt 'BagIt-Version: 0.97\nTag-File-Character-Encoding: UTF-8\n'
    put bag-info.txt 'Contact-Name : Ann\nBag-Size:1 KB\n'
    (cd d && md5sum data/first.txt >manifest-md5.txt && sha1sum data/letters/50.txt >manifest-sha1.txt)
    valid d
}
old_bag
cp -r d again
renews 0 --to-1.0 d <<<'d renewed'
declare_bag | diff d/bagit.txt -
printf 'Contact-Name: Ann\nBag-Size: 1 KB\nPayload-Oxum: 19.2\n' | diff d/bag-info.txt -
for name in md5 sha1; do (cd d && "${name}sum" data/first.txt data/letters/50.txt) | diff "d/manifest-$name.txt" -; done
valid d
rm -r d
mv again d
renews 0 --to-1.0 --add sha256 --drop md5,sha1 --set Bag-Size= d <<<'d renewed'
diff <(cd d && ls -A) <(printf '%s\n' bag-info.txt bagit.txt data manifest-sha256.txt metadata tagmanifest-sha256.txt)
valid d
renews 0 --to-1.0 d <<<'d renewed'

# One that stays so: a percent sign is itself, as coreutils write and read it. Each of its manifests names one file alone.
old_bag
mv d/data/letters/50.txt d/data/letters/50%.txt
sed -i 's/50/50%/' d/manifest-sha1.txt
valid d
leaves renews 3 --to-1.0 d <<<"d not renewed: data/letters/50%25.txt can't be named"
printf 'http://example.org/ - data/letters/50%%.txt\n' >d/fetch.txt
valid d
leaves renews 3 --to-1.0 d <<<'d not renewed: fetch.txt'
leaves renews 3 --drop md5 d <<<'d not renewed: data/first.txt would be in no manifest'
leaves renews 3 --drop sha1 --unchecked d <<<'d not renewed: data/letters/50%25.txt would be in no manifest'
leaves renews 0 --print sha512 d < <(cd d && sha512sum data/first.txt data/letters/50%.txt)
fetched() { look d | grep -E '(^| )\./(fetch|manifest-sha1)\.txt'; }
fetched >before_fetched
stays >before_renewal
renews 0 --add sha512 d <<<'d renewed'
stays | diff before_renewal - || give_up 'a file was touched that stays'
(cd d && sha512sum --check --strict --quiet manifest-sha512.txt tagmanifest-sha512.txt)
diff <(cut -d ' ' -f 3- d/manifest-sha512.txt) <(printf '%s\n' data/first.txt data/letters/50%.txt)
valid d
stays | grep -v bag-info.txt >before_renewal
renews 0 --set Contact-Name=Bob d <<<'d renewed'
printf 'Contact-Name: Bob\nBag-Size: 1 KB\nPayload-Oxum: 19.2\n' | diff d/bag-info.txt -
stays | grep -v bag-info.txt | diff before_renewal - || give_up 'a file was touched that stays'
fetched | diff before_fetched - || give_up 'a list or a manifest was touched that stays'
valid d
renews 0 --drop md5,sha1 d <<<'d renewed'
diff <(cd d && ls -A) <(printf '%s\n' bag-info.txt bagit.txt data fetch.txt manifest-sha512.txt metadata tagmanifest-sha512.txt)
valid d
printf X | dd of=d/data/first.txt conv=notrunc status=none
first_fault d
leaves renews 1 --add sha256 d <<<"d not renewed: fault $fault"
leaves renews 1 --add sha256 --drop sha512 d <<<"d not renewed: fault $fault"

# A copy by hard links is renewed, and the old bag isn't touched.
md5_bag
look d | grep -v ' d$' >before_copy
cp -al d copy
renews 0 --add sha512 --set Contact-Name=Bob copy <<<'copy renewed'
look d | grep -v ' d$' | diff before_copy - || give_up 'the old bag was touched by the renewal of its copy'
valid copy
valid d
[[ $(stat -c %i d/data/first.txt d/manifest-md5.txt d/bagit.txt) == "$(stat -c %i copy/data/first.txt copy/manifest-md5.txt copy/bagit.txt)" ]] ||
    give_up 'the copy has other files than it must'

# Each refusal, of a bag that could be renewed otherwise.
md5_bag
for element in =x a:b=x 'a =x' ' a=x' $'a\nb=x' $'a=x\ry' $'a=x\n\ny' $'a=x\n y' Payload-Oxum=19.2 PAYLOAD-OXUM=; do
    leaves renews 3 --set "$element" d <<<'d not renewed: bad value'
    leaves renews 3 --append "$element" --add sha512 d <<<'d not renewed: bad value'
done
leaves renews 3 --append A=b --set a=c d <<<'d not renewed: bad value'
leaves renews 3 --append A=b --unset a d <<<'d not renewed: bad value'
leaves renews 3 --drop md5 d <<<'d not renewed: no algorithm'
leaves renews 3 --add sha1 --drop sha1,md5 d <<<'d not renewed: no algorithm'
for name in .bagit-begun manifest-sha512.txt tagmanifest-sha1.txt; do
    mkdir "d/$name"
    touch "d/$name/a"
    leaves renews 3 --add sha512 d <<<"d not renewed: $name in the way"
    rm -r "d/$name"
done
# (A begun file that a tag manifest names is somebody's own.)
put .bagit-begun mine
(cd d && md5sum bagit.txt manifest-md5.txt .bagit-begun >tagmanifest-md5.txt)
valid d
leaves renews 3 --add sha512 d <<<'d not renewed: .bagit-begun in the way'
# (Folders without files, which no listing shows, are looked for; a dry run says the same.)
md5_bag
for name in .bagit-begun manifest-sha512.txt tagmanifest-sha512.txt; do
    mkdir "d/$name"
    leaves renews 3 --add sha512 d <<<"d not renewed: $name in the way"
    leaves renews 3 --dry-run --add sha512 d <<<"d not renewed: $name in the way"
    rmdir "d/$name"
done
mkdir d/fetch.txt
renews 0 --add sha512 d <<<'d renewed'
rmdir d/fetch.txt
valid d
md5_bag
for name in '*star' ' blank' $'\ttab'; do
    echo x >"d/$name"
    leaves renews 3 d < <(printf "d not renewed: %s can't be named\n" "$(sed 's/ /%20/; s/\t/%09/' <<<"$name")")
    rm "d/$name"
done
ln -s first.txt d/data/link
leaves renews 3 d <<<'d not renewed: read - special'
rm d/data/link
echo x >"d/data/$(printf '\xe9')"
leaves renews 3 d <<<'d not renewed: read - name'
rm d/data/?
for why in nowhere:\ not\ there d/data/first.txt:\ not\ a\ folder -:\ not\ there; do
    name=${why%%:*} name=${name#-}
    complaint=$why renews 3 "$name" < <(echo "${name:--} not renewed: read - device")
done
valid d

# Words that are refused, with nothing looked at.
refuses() {
    local status=0 line=$1
    shift
    leaves run_refused "$@"
    diff complaints <(echo "bagit-renew: $line") || give_up "it complains otherwise of: $*"
}
run_refused() {
    local status=0
    "$renew" "$@" >said 2>complaints || status=$?
    [[ $status == 2 && ! -s said ]] || { cat said complaints; give_up "it ends with $status: $*"; }
    seen=$((seen + 1))
}
refuses '--add takes algorithms, as sha256,sha512' --add sha3 d
refuses '--add takes algorithms, as sha256,sha512' --add sha512, d
refuses '--drop takes algorithms, as sha256,sha512' --drop MD5 d
refuses '--set takes LABEL=VALUE' --set Contact-Name d
refuses '--append takes LABEL=VALUE' --append '' d
refuses '--print takes an algorithm, as sha512' --print sha d
refuses '--print takes one directory' --print sha512 d d
refuses "a word isn't UTF-8" $'\xff' d
for words in '--add sha512' '--drop md5' --unchecked '--set a=b' '--unset a' '--append a=b' --to-1.0 --dry-run; do
    # shellcheck disable=SC2086
    refuses '--print takes no other option but --quiet' --print sha512 $words d
done
for words in '--validate d' '--add' '--add sha512 --add sha256 d' '--ad sha512 d'; do
    # shellcheck disable=SC2086
    leaves run_refused $words
done

# A manifest that is printed, of a bag without a fault.
leaves renews 0 --print sha256 d < <(cd d && sha256sum data/first.txt data/letters/50%.txt | sed 's/50%/50%25/')
leaves renews 0 --print md5 --quiet d < <(cat d/manifest-md5.txt)
cp -r d damaged
echo X >>damaged/data/first.txt
status=0
"$renew" --print sha512 damaged >said 2>complaints || status=$?
[[ $status == 1 && ! $(grep -E '^[0-9a-f]{128} ' said) ]] || { cat said; give_up "a manifest of a damaged bag is printed, with $status"; }
status=0
"$renew" --print sha512 d >/dev/full 2>complaints || status=$?
[[ $status == 3 ]] || give_up "a manifest that can't be written ends with $status"

# Several bags, each with its line, in their order; of the statuses the greatest.
cp -r d 'a bag'
first_fault damaged
complaint='nowhere: not there' renews 3 --add sha1 'a bag' damaged nowhere d/ < <(
    printf '%s\n' 'a%20bag renewed' "damaged not renewed: fault $fault" 'nowhere not renewed: read - device' 'd/ renewed')
renews 1 --quiet --add sha1 'a bag' damaged d <<<"damaged not renewed: fault $fault"
renews 0 --quiet --add sha1 'a bag' d </dev/null
ln -s d link
renews 0 link <<<'link renewed'
(cd d && "$renew" .) | diff - <(echo '. renewed')
"$program" --validate --quiet d 'a bag'

# An output that refuses ends it: the bag of the line is whole, and the next one is as it was.
cp -r d next
look next >before_next
status=0
"$renew" --set Contact-Name=Eve d next >/dev/full 2>complaints || status=$?
[[ $status == 3 ]] || give_up "with an output that refuses it ends with $status"
valid d
look next | diff before_next - || give_up 'it went on after its output refused'

# Help.
"$renew" --help >said
for option in --add --drop --unchecked --set --append --unset --to-1.0 --dry-run --print --quiet --help; do
    grep -q -- "$option" said || give_up "--help doesn't name $option"
done

echo "bagit-renew ended $seen times as it should"
