#!/usr/bin/env bash
# Rounds of `bagit-keep round`: nights over good, damaged, altered and missing bags; odd names; a bagit that ends in any wrong way; a
# full disk of reports; rounds that are killed and gone on with; what is altered in a round; 200 bags by several processes and by eight
# tasks. Never is a bag that wasn't read to its end in a round good in its table, and never is the status of the round 0 then.
#
# usage: tests/rounds.sh [PROGRAM]
#
# PROGRAM is crates/bagit/out/bagit by default. It needs Python. As root it fills a small disk too, where one can be mounted.
set -euo pipefail
source "$(dirname "$0")/common.sh"
take_program bagit "${1:-}"
needs python3
enter rounds
quick_python
trap 'umount "$work/disk" 2>/dev/null || true; rm -rf "$work"' EXIT
export BAGIT=$program
keep=$root/companions/bagit-keep
version=$(<"$root/VERSION")
seen=0

# A new bag with a payload of one file.
new_bag() {
    mkdir -p "$1/data"
    declare_bag >"$1/bagit.txt"
    printf '%s' "$2" >"$1/data/file"
    printf '%s  data/file\n' "$(printf '%s' "$2" | sha256sum | cut -d ' ' -f 1)" >"$1/manifest-sha256.txt"
}

# Runs `bagit-keep round`, which has to end with this status.
ends() {
    local wanted=$1 status=0
    shift
    "$keep" round "$@" >printed 2>messages || status=$?
    [[ $status == "$wanted" ]] || { cat printed messages; give_up "it ends with $status, not with $wanted: $*"; }
    ! grep Traceback messages || { cat messages; give_up "it went wrong: $*"; }
    seen=$((seen + 1))
}

# The table of a round: its status, and status, result, number of faults and bag of each row, which are the lines of standard input.
has_table() {
    local round=$1 wanted=$2
    shift 2
    ends "$wanted" "$round" --table "$@"
    diff <(sed 1d printed | cut -f 1-4) - || give_up "the table of $round says something else"
}

# The seal of a bag that has no folder but `data`, by the system's tools.
seal() { (cd "$1" && find . -maxdepth 1 -type f -printf '%P\0' | sort -z | xargs -0 sha512sum -z -- | sha512sum | cut -d ' ' -f 1); }

# Rows of a table: of a good bag, of one with faults, of one that isn't there.
good() { printf '0\t%s is valid\t0\t%s\n' "$1" "$1"; }
bad() { printf '1\t%s has faults: %s\t%s\t%s\n' "$1" "$2" "$2" "$1"; }
missing() { printf '3\t%s is not there\t-\t%s\n' "$1" "$1"; }

said() { grep -qF -- "$1" messages || { cat messages; give_up "it doesn't say: $1"; }; }

# Three nights: all good; one byte changed in each; the disk of the bags not mounted. And the morning after.
bags=$work/bags
for name in a b c; do new_bag "bags/$name" "$name"; done
printf 'Payload-Oxum: 1.1\n' >bags/a/bag-info.txt
ends 0 night1 bags/a bags/b bags/c
[[ $(<printed) == "$work/night1: 3 bags, 3 without faults, 0 with faults, 0 not finished" ]] || give_up "it says: $(<printed)"
ends 0 night1 --table
{
    printf 'status\tresult\tfaults\tbag\tdepth\tversion\tbagit_sha256\tfiles\tbytes\tseal\n'
    for name in a b c; do
        printf '0\t%s is valid\t0\t%s\tfull\t%s\t%s\t1\t1\t%s\n' "$bags/$name" "$bags/$name" "$version" \
            "$(sha256sum "$program" | cut -d ' ' -f 1)" "$(seal "$bags/$name")"
    done
} | diff <(cut -f 1-4,7- printed) - || give_up 'the table of the first night says something else'
[[ $(sed 1d printed | cut -f 5,6 | grep -cxP '(20\d\d-\d\d-\d\dT\d\d:\d\d:\d\dZ)\t20\d\d-\d\d-\d\dT\d\d:\d\d:\d\dZ') == 3 ]] ||
    give_up 'begun and ended are no times'
for name in a b c; do diff night1/reports/*-$name.txt <(echo "$bags/$name is valid"); done

for name in a b c; do printf X >"bags/$name/data/file"; done
before=$(find night1 -printf '%p %T@\n' | sort)
ends 2 night1 bags/a bags/b bags/c
said "$work/night1 is finished, and nothing was checked"
[[ $before == "$(find night1 -printf '%p %T@\n' | sort)" ]] || give_up 'a finished round was written to'
ends 1 night2 bags/a bags/b bags/c
said "$bags/b has faults: 1 ($work/night2/reports/000002-b.txt)"
has_table night2 1 < <(for name in a b c; do bad "$bags/$name" 1; done)
diff night2/reports/000001-a.txt - <<END_OF_REPORT
701 payload-sum-differs data/file sha256 - $(printf a | sha256sum | cut -d ' ' -f 1):$(printf X | sha256sum | cut -d ' ' -f 1)
$bags/a has faults: 1
END_OF_REPORT
ends 1 night2 --table --since night1
sed 1d printed | cut -f 4,13- | diff - <(for name in a b c; do printf '%s\tworse\t0\t%s is valid\n' "$bags/$name" "$bags/$name"; done) ||
    give_up 'the second night says something else of the first'

mv bags away
mkdir bags
ends 3 night3 bags/a bags/b bags/c
said "$bags/c is not there"
has_table night3 3 < <(for name in a b c; do missing "$bags/$name"; done)
ends 3 night3 bags/a bags/b bags/c
find bags -mindepth 1 -maxdepth 1 -type d -print0 >list
ends 2 night4 --list list
said 'the list is empty'
[[ ! -e night4 ]] || give_up 'a round of no bags was begun'
rmdir bags
mv away bags
ends 1 night3 bags/a bags/b bags/c
has_table night3 1 --since night2 < <(for name in a b c; do bad "$bags/$name" 1; done)
[[ $(sed 1d printed | cut -f 13 | sort -u) == same ]] || give_up 'the morning differs from the second night'

# A bag that the round lacks; one that is new; one that has fewer faults, of which one is new; one that is restored.
printf a >bags/a/data/file
rm bags/b/data/file
new_bag bags/d d
mkdir bags/c/data/inner
printf 'more' | tee bags/c/data/more1 >bags/c/data/more2
ends 1 night5 bags/b bags/c bags/a
ends 1 night5 --table --since night1
rm bags/c/data/more? bags/c/data/file
ends 1 night6 bags/d bags/c bags/a
ends 3 night6 --table --since night5
sed 1d printed | cut -f 1,4,13,14 | diff - <(
    printf '3\t%s\tgone\t1\n1\t%s\tworse\t1\n' "$bags/b" "$bags/c"
    printf '0\t%s\tnew\t-\n0\t%s\tsame\t0\n' "$bags/d" "$bags/a"
) || give_up 'the sixth night says something else of the fifth'
has_table night6 3 --since night5 < <(
    printf '3\tnot in this round\t-\t%s\n' "$bags/b"
    bad "$bags/c" 1
    good "$bags/d"
    good "$bags/a"
)
ends 1 night6 --table
rm -r bags

# What is refused, with nothing begun.
for name in a b; do new_bag "bags/$name" "$name"; done
refused() { ends 2 "$@" && [[ ! -e round ]] || give_up "it has begun: $*"; }
refused
refused round
refused round --list /dev/null
refused round --list nowhere
printf 'bags/a\nbags/b\n' >lines
refused round --list lines
refused round --list lines bags/a
refused round ''
refused round bags/a --fast --completeness-only
refused round bags/a --list lines --list list
for words in '--jobs 0' '--jobs 1025' '--timeout 0' '--task 0/2' '--task 3/2' '--task 1' '--max-faults 1' '--quiet' '--format csv' '--since night1'; do
    # shellcheck disable=SC2086
    refused round bags/a $words
done
echo '{}' >wrong.json
refused round bags/a --profile wrong.json
said 'bagit: profile: no identifier'
refused round --table
refused round --table bags/a
ln -s bags/a link
mkdir -p bags/a/data/here
for inside in bags/a/round bags/a/data/here bags/a/data/here/round link/data/round "$work/bags/../bags/a/round"; do
    ends 2 "$inside" bags/b bags/a
    said "lies in $bags/a, which is to be checked"
    [[ ! -e $inside || ! $(ls "$inside") ]] || give_up "a round was begun in a bag: $inside"
done
ends 2 round round/bag
ends 2 bags bags/a
ends 3 nowhere/round bags/a
rmdir bags/a/data/here
[[ ! -e round ]] || give_up 'a round was begun'

# Begun again it is the same round, in whichever order the same directories come; with others or other options it is refused.
cat >asks.json <<'JSON'
{"BagIt-Profile-Info": {"BagIt-Profile-Identifier": "x"}, "Bag-Info": {"Contact-Name": {"required": true}}, "Other": 1}
JSON
cp asks.json asked.json
ends 3 round --profile asked.json bags/b bags/away bags/a --clashes
has_table round 3 < <(missing "$bags/away" && bad "$bags/b" 2 && bad "$bags/a" 2)
diff round/reports/000001-b.txt - <<END_OF_REPORT
unchecked Other
801 profile-identifier bag-info.txt - - x
802 label-required bag-info.txt - - Contact-Name
$bags/b has faults: 2
END_OF_REPORT
before=$(find round -type f -exec sha256sum {} + | sort)
for words in 'bags/b bags/a' 'bags/b bags/away bags/a bags/c' 'bags/b bags/away bags/a --fast'; do
    # shellcheck disable=SC2086
    ends 2 round --profile asked.json --clashes $words
done
ends 2 round --profile asked.json bags/b bags/away bags/a
ends 2 round --clashes bags/b bags/away bags/a
echo '{"BagIt-Profile-Info": {"BagIt-Profile-Identifier": "y"}}' >asked.json
ends 2 round --profile asked.json bags/b bags/away bags/a --clashes
[[ $before == "$(find round -type f -exec sha256sum {} + | sort)" ]] || give_up 'a round was altered by one that is refused'
new_bag bags/away away
ends 1 round "$bags/a" bags/../bags/b --profile asks.json ./bags/away/ --clashes bags//b
has_table round 1 < <(for name in b away a; do bad "$bags/$name" 2; done)

# Each depth has its own closing line.
rm -r round
printf 'Payload-Oxum: 1.1\n' >bags/a/bag-info.txt
for depth in 'fast agrees with its oxum' 'completeness-only is complete' 'declaration-only has a good declaration'; do
    ends 0 "round-${depth%% *}" bags/a "--${depth%% *}"
    ends 0 "round-${depth%% *}" --table
    [[ $(sed 1d printed | cut -f 2,7) == "$bags/a ${depth#* }"$'\t'"${depth%% *}" ]] || give_up "the table of $depth: $(<printed)"
done

# Two bags of one name, of which one is damaged.
for place in x y; do new_bag "$place/letters" "$place"; done
printf z >y/letters/data/file
ends 1 letters x/letters y/letters
has_table letters 1 < <(bad "$work/y/letters" 1 && good "$work/x/letters")

# Names with line ends, quotes, per cents, a leading hyphen, and bytes that aren't UTF-8; in each format, decoded by other programs.
mkdir odd
names=($'line\nend' $'carriage\rreturn' $'tab\t' "it's" '50%' '%0A' '-x' '--table' '"quoted", or' "\$(touch $work/pwned)" $'caf\xc3\xa9' $'caf\xe9')
for name in "${names[@]}"; do new_bag "odd/$name" good; done
printf 'damaged' >"odd/it's/data/file"
(cd odd && BAGIT=$program "$keep" round ../oddities -- "${names[@]}") >printed 2>messages && give_up 'damage in an odd name is certified'
printf '%s\0' "${names[@]}" >list
(cd odd && ends 2 ../oddities --list ../list)
(cd odd && ends 2 --list - ../oddities <../list)
for format in tsv csv json; do
    status=0
    "$keep" round oddities --table --format "$format" >"oddities.$format" || status=$?
    [[ $status == 1 ]] || give_up "the table as $format ends with $status"
done
python3 - "$work/odd" <<'PYTHON' || give_up 'odd names come out of the table as other names'
import csv
import json
import os
import sys
from urllib.parse import unquote_to_bytes

names = open("list", "rb").read().split(b"\0")[:-1]
names.insert(0, names.pop(names.index(b"it's")))
wanted = [os.fsencode(sys.argv[1]) + b"/" + name for name in names]
with open("oddities.csv", newline="", encoding="utf-8", errors="surrogateescape") as file:
    rows = list(csv.DictReader(file))
assert open("oddities.csv", "rb").read().count(b"\r\n") == len(wanted) + 1
lines = open("oddities.tsv", "rb").read().split(b"\n")
assert lines.pop() == b"" and all(line.isascii() and line.count(b"\t") == 11 for line in lines)
fields = [line.split(b"\t") for line in lines[1:]]
objects = json.load(open("oddities.json", encoding="ascii"))
assert [os.fsencode(row["bag"]) for row in rows] == wanted
assert [unquote_to_bytes(row[3]) for row in fields] == wanted
assert [os.fsencode(row["bag"]) for row in objects] == wanted
statuses = [1] + [0] * (len(wanted) - 1)
assert [row["status"] for row in objects] == [int(row["status"]) for row in rows] == [int(row[0]) for row in fields] == statuses
PYTHON
[[ ! -e pwned ]] || give_up 'a name was run'

# A bagit that ends in any wrong way is no answer, and the round goes on with one that is right. Each line of ways is a way, and the
# number of a bag.
cat >wrong <<'SCRIPT'
#!/bin/bash
name=${!#} line='701 payload-sum-differs data/file sha256 - 0:1'
eval "$(sed -n "${name##*/}p" ways)"
SCRIPT
chmod +x wrong
cat >ways <<'WAYS'
exit 0
exit 1
exit 2
exit 3
exit 126
exit 127
exit 137
kill -9 $$
kill $$
echo "$name is valid"; kill -9 $$
echo "$name is valid"; exit 1
echo "$name is valid"; exit 3
printf '%s is valid' "$name"
printf '%s is vali\n' "$name"
echo "$name is complete"
echo "$name agrees with its oxum"
echo "$name/b is valid"
echo "other is valid"
echo "$line"; echo "$name is valid"
echo "$name is valid"; echo "$name is valid"
echo "$name is valid"; echo
echo "what is this?"; echo "$name is valid"
echo "$name has faults: 0"; exit 1
echo "$line"; echo "$name has faults: 2"; exit 1
echo "$line"; echo "$name has faults: 1"
echo "$line"; echo "$name has faults: 1"; exit 3
echo "$line"; printf '%s has faults: 1' "$name"; exit 1
echo "$line"; echo "unchecked X"; echo "$name has faults: 1"; exit 1
echo "$line"; echo "$name stopped, faults: 1"; exit 1
echo "$line"; echo "$name rest done, faults: 1"; exit 1
echo "$name unread data/file device, faults: 0"; exit 0
echo "$name unread data/file device, faults: 0"; exit 3
WAYS
ways=$(wc -l <ways)
((ways == 32)) || give_up "$ways ways to end wrong were tried"
mapfile -t numbers < <(seq -f 'wrongs/%.0f' "$ways")
for bag in "${numbers[@]}"; do new_bag "$bag" "$bag"; done
rm -rf round
BAGIT=$work/wrong ends 3 round "${numbers[@]}"
ends 3 round --table
[[ $(cut -f 1 printed | sort | uniq -c) == *"$ways 3"*status ]] || { cut -f 1-4 printed; give_up 'a wrong end is taken for an answer'; }
ends 0 round "${numbers[@]}"
has_table round 0 < <(for bag in "${numbers[@]}"; do good "$work/$bag"; done)
rm -rf round
BAGIT=$work/nowhere ends 3 round bags/a bags/b
said "$bags/a was not checked: there is no program $work/nowhere"
printf '#!/bin/sh\necho "bagit: out of memory" >&2\nexit 3\n' >wrong
BAGIT=$work/wrong ends 3 round bags/a bags/b
has_table round 3 < <(for name in a b; do printf '3\tbagit ended with 3: bagit: out of memory\t0\t%s\n' "$bags/$name"; done)
BAGIT=$work/nowhere ends 3 round --table
ends 0 round bags/a bags/b

# A result that was altered afterwards is none.
echo "$bags/a has faults: 1" >>round/reports/000001-a.txt
ends 3 round --table
ends 3 round bags/a bags/b
said 'its record or report was altered: remove it'
rm round/reports/000001-a.txt
ends 0 round bags/a bags/b
status=0
"$keep" round round --table >/dev/full 2>messages || status=$?
[[ $status == 3 ]] || give_up "a table that can't be written ends with $status"

# What is written in a record makes no bag good, and a report without its record is none.
printf X >bags/b/data/file
ends 1 forged bags/a bags/b
cp forged/records/*.jsonl kept
sed -i 's/"why": null/"why": null, "status": 0/' forged/records/*.jsonl
ends 3 forged --table
sed 's/"number": 2/"number": 1/' kept >"$(echo forged/records/*.jsonl)"
ends 3 forged --table
digest() { sha256sum <"forged/reports/$1.txt" | cut -c 1-64; }
sed "s/$(digest 000002-b)/$(digest 000001-a)/" kept >"$(echo forged/records/*.jsonl)"
ends 3 forged --table
cp kept "$(echo forged/records/*.jsonl)"
ends 1 forged --table
echo "$bags/b is valid" >forged/reports/000002-b.txt
ends 3 forged --table
rm -r forged/records
ends 3 forged --table
[[ $(grep -c 'its record or report was altered' printed) == 2 ]] || give_up 'a report without a record counts'
printf b >bags/b/data/file

# Only rounds that looked at the same are compared.
ends 0 full_round bags/a bags/b
ends 0 quick bags/a bags/b --declaration-only
ends 0 clashing bags/a bags/b --clashes
for pair in 'quick full_round' 'full_round quick' 'clashing full_round' 'full_round clashing'; do
    ends 2 ${pair% *} --table --since "${pair#* }"
    said "can't be compared"
done
ends 0 full_round --table --since full_round

# A bag that lost a file and its line in the manifest meanwhile is altered, and so is one with another tag file.
new_bag halved halved
printf 'more' >halved/data/more
printf '%s  data/more\n' "$(sha256sum <halved/data/more | cut -c 1-64)" >>halved/manifest-sha256.txt
new_bag noted noted
new_bag moved moved
ends 0 before halved noted bags/a moved
rm halved/data/more
sed -i '/more$/d' halved/manifest-sha256.txt
echo 'Contact-Name: A' >noted/bag-info.txt
mv moved/data/file moved/file && cp moved/file moved/data/file && rm moved/file
ends 0 after halved noted bags/a moved
ends 1 after --table --since before
sed 1d printed | cut -f 1,4,13 | diff - <(
    printf '0\t%s\taltered\n' "$work/halved" "$work/noted"
    printf '0\t%s\tsame\n' "$bags/a" "$work/moved"
) || give_up 'a bag that was altered is the same'
ends 0 after --table

# A link that names another folder by now is checked again.
new_bag damaged file
printf X >damaged/data/file
mkdir links
ln -s ../bags/a links/current
ends 3 linked links/current away
ln -sfn ../damaged links/current
new_bag away away
ends 1 linked links/current away
said "$work/links/current names another folder now"
has_table linked 1 < <(bad "$work/links/current" 1 && good "$work/away")
rm -r away
ln -sfn ../bags/a links/current
cp -r bags/a bags/turned
printf X >>"$(find bags/turned/data -type f | head -n 1)"
printf '#!/bin/bash\n"%s" "$@"; status=$?; ln -sfn ../bags/turned "%s/links/current"; exit $status\n' "$program" "$work" >turning
chmod +x turning
BAGIT=$work/turning ends 3 turned links/current
said 'it names another folder than when its check began'
ends 1 turned links/current
rm -r bags/turned links/current

# What an earlier try found isn't lost before the next has come to its end.
printf '#!/bin/bash\n"%s" "$@" | sed "\$d"; echo "%s unread data/g device, faults: 1"; exit 3\n' "$program" "$work/damaged" >failing
printf '#!/bin/sh\nkill -9 $$\n' >killing
chmod +x failing killing
BAGIT=$work/failing ends 3 tried damaged
has_table tried 3 < <(printf '3\t%s unread data/g device, faults: 1\t1\t%s\n' "$work/damaged" "$work/damaged")
BAGIT=$work/killing ends 3 tried damaged
grep -qr ^701 tried || give_up 'what an earlier try found is lost'
ends 1 tried damaged
[[ ! $(ls tried/tries) ]] || give_up "there is left $(ls tried/tries)"

# A check that hangs is killed at the end of its time, and is no result.
printf '#!/bin/bash\n[[ ${!#} != */a ]] || sleep 100\nexec "%s" "$@"\n' "$program" >hanging
chmod +x hanging
BAGIT=$work/hanging ends 3 hung bags/a bags/b --timeout 3
has_table hung 3 < <(printf '3\tbagit was killed after 3 seconds\t0\t%s\n' "$bags/a" && good "$bags/b")
ends 0 hung bags/a bags/b --progress

# A bag whose tag files are altered while it is checked has no result.
printf '#!/bin/bash\n"%s" "$@"; status=$?; echo >>"${!#}/note"; exit $status\n' "$program" >writing
chmod +x writing
BAGIT=$work/writing ends 3 written moved
said 'its tag files were altered while it was checked'

# Streams that are closed are not taken by another file, and a good round stays good.
"$keep" round closed bags/a <&- >&- 2>&- || give_up 'with closed streams a good round is none'
has_table closed 0 < <(good "$bags/a")
"$keep" round closed --table >&- 2>/dev/null && give_up 'a table that goes nowhere is no failure' || [[ $? == 3 ]]

# No name commands a terminal.
if type -P script >/dev/null; then
    new_bag $'red\e[31m\a' red
    ends 0 reds $'red\e[31m\a'
    for format in tsv csv json; do
        script -qc "$keep round reds --table --format $format" /dev/null </dev/null >shown
        grep -q red shown && ! grep -q $'[\e\a]' shown || give_up "a terminal obeys a name in the table as $format"
    done
fi

# After TERM or KILL of the one process no check goes on, whatever the program has started in its turn.
printf '#!/bin/bash\nsleep 1000 & echo $! >>"%s/sleeping"\nwait\n' "$work" >sleeping_bagit
chmod +x sleeping_bagit
for signal in TERM HUP KILL; do
    rm -f sleeping
    rm -rf stopped
    BAGIT=$work/sleeping_bagit "$keep" round stopped bags/a bags/b moved --jobs 2 >printed 2>messages &
    until [[ -e sleeping && $(wc -l <sleeping) == 2 ]]; do sleep 0.1; done
    kill "-$signal" "$!"
    status=0
    { wait "$!" || status=$?; } 2>/dev/null
    [[ $status == "$([[ $signal == KILL ]] && echo 137 || echo 3)" ]] || give_up "after $signal it ends with $status"
    for process in $(<sleeping); do
        for ((tries = 0; tries < 200; tries++)); do
            [[ -e /proc/$process ]] || break
            sleep 0.1
        done
        [[ ! -e /proc/$process ]] || give_up "after $signal a process goes on"
    done
    ends 3 stopped --table
    ends 0 stopped bags/a bags/b moved
done

# Reports of a round: each bag is counted, also one without a report.
ends 3 reported bags/a damaged nowhere
status=0
"$keep" report --summary --round reported >printed || status=$?
[[ $status == 3 ]] || give_up "the summary of a round with a missing bag ends with $status"
diff printed - <<END_OF_SUMMARY || give_up 'the summary of a round is another'
reports by how they end:
        1 is valid
        1 has faults
        1 no result
files by fault:
        1 701 payload-sum-differs
files by bag, first folder and fault:
        1 $work/damaged: data/ 701 payload-sum-differs
END_OF_SUMMARY
"$keep" report --round reported >printed || status=$?
wanted="{\"bag\": \"$work/nowhere\", \"ended\": \"no result\", \"detail\": \"$work/nowhere is not there\"}"
[[ $(tail -n 1 printed) == "$wanted" ]] ||
    give_up "the reports of a round end with $(tail -n 1 printed)"

# A Python that is too old says so at once.
for python in python3.{6,7,8}; do
    "$python" -c '' 2>/dev/null || continue
    "$python" "$keep" --version >printed 2>&1 && give_up "$python runs it" || [[ $? == 3 ]]
    [[ $(<printed) == *'needs Python 3.9 or newer'* ]] || give_up "$python says: $(<printed)"
done

# Two at once over one round: both end with what is true, and none harms the other.
for ((bag = 10; bag < 30; bag++)); do new_bag "some/$bag" "$bag"; done
rm some/20/data/file
printf '#!/bin/bash\nsleep 0.1\nexec "%s" "$@"\n' "$program" >slow
chmod +x slow
export BAGIT=$work/slow
"$keep" round twice some/* >first 2>&1 &
status=0
"$keep" round twice some/* >second 2>&1 || status=$?
first=0
wait "$!" || first=$?
[[ $first == [13] && $status == [13] ]] || { cat first second; give_up "two at once end with $first and $status"; }
some=$work/some
wanted() { bad "$some/20" 1 && for ((bag = 10; bag < 30; bag++)); do ((bag == 20)) || good "$some/$bag"; done; }
has_table twice 1 < <(wanted)

# Killed at a random moment, with all its processes, ten times, and gone on with. No row is an answer that isn't true.
cut_off=0
for ((kill = 0; kill < 10; kill++)); do
    setsid "$keep" round killed some/* --jobs 2 >printed 2>&1 &
    sleep "0.$((RANDOM % 7))$((RANDOM % 10))"
    kill -9 -- "-$!" 2>/dev/null || true
    { wait "$!" || true; } 2>/dev/null
    status=0
    "$keep" round killed --table >table 2>messages || status=$?
    [[ $status != 0 ]] || give_up 'a round that was killed is good'
    ! sed 1d table | cut -f 1-4 | grep -v '^3' | grep -vxF -f <(wanted) || give_up 'a row of a round that was killed is wrong'
    [[ $status == 1 ]] || cut_off=$((cut_off + 1))
done
((cut_off > 2)) || give_up "the round was cut off $cut_off times alone"
export BAGIT=$program
"$keep" round killed some/* >printed 2>&1 && give_up 'damage is certified after kills' || [[ $? == [12] ]]
has_table killed 1 < <(wanted)
(($(ls killed/reports | wc -l) == 20 && $(ls killed/tries | wc -l) <= 10)) || give_up "kills left $(ls killed/tries)"

# A disk of reports that is full: files of 4096 bytes at most, where the report of a bag with 160 faults has more.
new_bag faulty faulty
for ((file = 100; file < 260; file++)); do printf x >"faulty/data/$file"; done
status=0
(ulimit -f 4 && PYTHONDONTWRITEBYTECODE=1 "$keep" round full bags/a faulty bags/b) >printed 2>&1 || status=$?
[[ $status == 3 ]] || give_up "a report that can't be written whole ends with $status"
ends 3 full --table
sed 1d printed | cut -f 1,4 | diff - <(printf '%s\t%s\n' 3 "$work/faulty" 0 "$bags/a" 0 "$bags/b") ||
    give_up 'the table with files of a limited size is wrong'
ends 1 full bags/a faulty bags/b
has_table full 1 < <(bad "$work/faulty" 160 && good "$bags/a" && good "$bags/b")

# The same by a small disk: with no room for the list, for some of the reports, and with room again.
mkdir disk
small_disk=no
if mount -t tmpfs -o size=64k tmpfs disk 2>/dev/null; then
    small_disk=yes
    head -c 1M /dev/zero >disk/filler 2>/dev/null || true
    ends 3 disk/round some/*
    said 'No space left on device'
    [[ ! -e disk/round ]] || give_up 'a round without a whole list was begun'
    rm disk/filler
    ends 3 disk/round some/*
    grep -qE "^bagit-keep: $some/[0-9]+: $work/disk/round/.*: No space left on device$" messages ||
        { cat messages; give_up 'it does not say which bag, and which file, had no room'; }
    "$keep" round disk/round --table >table || [[ $? == 3 ]]
    [[ $(sed 1d table | wc -l) == 20 && $(grep -c $'^3\t' table) -gt 5 && $(grep -c $'^0\t' table) -gt 2 ]] ||
        give_up "the table with a full disk: $(<table)"
    ! sed 1d table | cut -f 1-4 | grep -v '^3' | grep -vxF -f <(wanted) || give_up 'a row with a full disk is wrong'
    mount -o remount,size=1m disk
    ends 1 disk/round some/*
    has_table disk/round 1 < <(wanted)
fi

# Two hundred bags, of which five are damaged, unreadable or missing.
mkdir two
for ((bag = 101; bag < 301; bag++)); do new_bag "two/$bag" "$bag"; done
printf XXX >two/117/data/file
rm two/158/data/file
rm -r two/199
ln -s file two/240/data/link
rm two/281/bagit.txt
find "$work/two" -mindepth 1 -maxdepth 1 -type d -print0 | LC_ALL=C sort -z >list
(printf '%s\0' "$work/two/199" && cat list) | LC_ALL=C sort -z >all
ends 3 by_jobs --list all --jobs 4
has_table by_jobs 3 < <(
    missing "$work/two/199"
    printf '3\t%s unread - special, faults: 0\t0\t%s\n' "$work/two/240" "$work/two/240"
    for name in 117 158 281; do bad "$work/two/$name" 1; done
    for ((bag = 101; bag < 301; bag++)); do [[ $bag =~ ^(117|158|199|240|281)$ ]] || good "$work/two/$bag"; done
)
cp printed jobs_table
for task in 1 2 3 4 5 6 7 8; do "$keep" round by_tasks --list all --task "$task/8" --jobs 1 >"said-$task" 2>"messages-$task" & done
statuses=
for process in $(jobs -p); do
    status=0
    wait "$process" || status=$?
    statuses+=$status
done
# Bag 117 is the 17th, and so of task 1; 158 of task 2, 199 of 3, 240 of 4 and 281 of 5.
[[ $statuses == 11331000 ]] || { cat messages-*; give_up "eight tasks end with $statuses"; }
ends 3 by_tasks --table
diff <(cut -f 1-4,7- jobs_table) <(cut -f 1-4,7- printed) || give_up 'eight tasks give another table than four processes'
diff -r by_jobs/list by_tasks/list
ends 2 by_tasks --list all --task 6/8
said "task 6/8 of $work/by_tasks is finished"
ends 2 by_tasks --list list --task 3/8
ends 0 alone bags/a --task 2/2

echo "bagit-keep round ended $seen times as it should, and with $ways wrong ends of bagit; it was cut off $cut_off times of 10;" \
    "a small disk: $small_disk; 200 bags by 4 processes and by 8 tasks have one table"
