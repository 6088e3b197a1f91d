#!/usr/bin/env bash
# Reads reports by `bagit-keep report`. Each line of a fault in the case files, decoded and encoded again, is that line, by
# JSON, CSV and tab-separated values, and each line that they call none is rejected; reports end with the status that
# the cases want of bagit. Files of a bag that are damaged are restored from a copy, whatever their names are, and no
# name runs a command.
#
# usage: tests/report.sh [PROGRAM]
#
# PROGRAM is crates/bagit/out/bagit by default. It needs Python. The last line says how many lines were compared.
set -euo pipefail
source "$(dirname "$0")/common.sh"
take_program bagit "${1:-}"
needs python3
enter report
quick_python
export PATH=$root/companions:$PATH
data=$root/crates/test_cases/data

# Runs bagit-keep report, sees its status, and leaves what it printed.
ends_with() {
    local wanted=$1 status=0
    shift
    bagit-keep report "$@" >printed 2>errors || status=$?
    ((status == wanted)) || { cat errors; give_up "bagit-keep report $* ends with $status in place of $wanted"; }
}

# The data of a report, by each form, say what stands in it.
comes_back() {
    local form
    for form in json csv tsv; do
        ends_with "$1" "--$form" "$2"
        python3 "$tests/report.py" "$form" <printed | diff "$2" - || give_up "--$form says something else than $2"
    done
}

# Each line of a file is rejected, and nothing is written.
rejects_each_line() {
    ends_with 2 "$1"
    [[ ! -s printed ]] || give_up "something is written of $1"
    sed -n "s/^bagit-keep: $1: line \([0-9]*\) is no line of a report: .*/\1/p" errors |
        diff <(seq "$(wc -l <"$1")") - || give_up "a line of $1 is taken"
}

# The codes and words are those of FAULTS.
sed -n 's/^| *\([1-8][0-9][0-9]\) *| *`\([a-z0-9-]*\)`.*/\1 \2/p' "$root/docs/FAULTS.md" >codes
(($(wc -l <codes) > 40)) || give_up 'docs/FAULTS.md has no codes'
python3 -c 'import json, sys; [print(code, row[0]) for code, row in json.load(sys.stdin).items()]' \
    <"$root/companions/bagitkeep/templates/faults.json" | diff codes - ||
    give_up 'bagit-keep report has other codes or words than docs/FAULTS.md'

# The case files: their faults, the lines that are none, and whole reports.
python3 "$tests/report.py" cases "$data" "$root/docs/FAULTS.md" .
sed 's/.*/^\\| & .*[^\\]$\n^- & .* => &/' codes >forms
# What is given to a command isn't what is wanted of it.
listed=$(awk '!/^\|/ { is_given = /^(text|beside) / } !is_given' "$data"/*.cases "$data"/broken/*.cases | grep -cEf forms)
faults=$(wc -l <faults)
((faults == listed && faults > 1000)) || give_up "of $listed lines of faults $faults were found"
echo "d has faults: $faults" | cat faults - >all
comes_back 1 all
(($(wc -l <no-faults) > 50)) || give_up 'the case files call no line none of a fault'
rejects_each_line no-faults
for status in 0 1 3; do
    comes_back "$status" "status-$status"
done

# The last lines of reports (bagit(1), 'OUTPUT'), each with the status that bagit ends with.
cat >endings <<'END'
0 a is valid
0 a%20b is complete
0 - agrees with its oxum
0 %2D has a good declaration
0 %C3%A9 made
1 d rest done, faults: 0
1 d part 2 of 8 done, files: 0, bytes: 0, faults: 0
1 d part 65536 of 65536 rest done, files: 9, bytes: 36893488147419103230, faults: 0
1 d part 1 of 1 rest done, files: 1, bytes: 0, clashes, faults: 0
1 d part 1 of 1 rest done, files: 1, bytes: 0, clashes, profile: 0123456789abcdef0123456789abcdef0123456789abcdef0123456789abcdef, faults: 0
3 d not made: no algorithm
3 d not made: .bagit-new is there
3 d not made: bad value
3 d not made: out of memory
3 d not made: read a%20b special
3 d not made: read - device
3 d not made: step 12 exists
END
for cause in device special name not-found too-many changed none-open memory exists; do
    echo "3 d unread data/x%0A $cause, faults: 0" >>endings
done
for status in 0 1 3; do
    sed -n "s/^$status //p" endings >ending
    comes_back "$status" ending
    for end in head tail; do
        "$end" -n 1 ending >alone
        ends_with "$status" alone
    done
done
two=$'601 payload-file-missing data/a md5 - -\n601 payload-file-missing data/b md5 - -'
for line in 'd has faults: 2' 'd stopped, faults: 2' 'd rest done, faults: 2'; do
    printf 'unchecked Bag-Info%%20x\n%s\n%s\n' "$two" "$line" >ending
    comes_back 1 ending
done

# Lines that bagit doesn't write, beside those of tests/report.py.
cat >wrong <<'END'
d is Valid
d is valid 
d  is valid
a b is valid
d%2f is valid
d has faults: 02
d has faults: 2, faults: 2
d has faults
d unread data/x broken, faults: 0
d not made: step 0 device
d not made: no reason
unchecked
unchecked a b
bagit: output refused
601 payload-file-missing data/a md5 - -	
999 no-fault data/a md5 - -
END
rejects_each_line wrong

# Several reports in one: each fault has the bag of the closing line below it. One that isn't finished names none.
printf '%s\n' "$two" 'a has faults: 2' 'b is valid' >several
printf '%s\n' '702 tag-sum-differs x sha1 - 0:1' 'c%20c unread y device, faults: 1' >>several
ends_with 3 several
python3 -c 'import json, sys; print(*(json.loads(line)["bag"] for line in sys.stdin), sep="|")' <printed |
    diff - <(echo 'a|a|a|b|c c|c c') || give_up 'faults have another bag'
printf '%s\n' "$two" >killed
ends_with 3 killed several
[[ $(head -n 1 printed) == '{"bag": null, "code": 601, '* && $(wc -l <printed) == 8 ]] ||
    give_up 'a report that was killed is left out'
grep -qx "bagit-keep: killed isn't finished: after 2 faults there is no closing line" errors ||
    give_up 'it says nothing of a killed report'
printf '%s\nd has faults: 2' "$two" >part
ends_with 3 part
[[ $(wc -l <printed) == 2 ]] && grep -q "part: line 3 is cut off: 'd has faults: 2'" errors ||
    give_up 'it says nothing of a line that was cut off'
ends_with 3 /dev/null
ends_with 3 nowhere several
[[ ! -s printed ]] || give_up 'something is written, though a report is missing'
bagit-keep report several 2>/dev/null >/dev/full && give_up 'an output that is full is no failure'
(($? == 3)) || give_up 'an output that is full has another status'

# A line is missing, or those of another report are among them: a killed one in front of a good one, say.
for line in 'd is valid' 'd has faults: 1' 'd has faults: 3' 'd made'; do
    printf '%s\n%s\n' "$two" "$line" >wrong
    ends_with 2 wrong
    [[ ! -s printed ]] && grep -q 'wrong: line 3 closes a report of [013] faults, and 2 are above it' errors ||
        give_up "it takes '$line'"
done

# The summary.
{
    for name in data/x/a data/x/b/c data/x data/%C3%A9%1B/a notes/a bagit.txt data/x/a; do
        echo "603 payload-file-not-listed $name md5 - -"
    done
    printf '%s\n' '201 no-payload-folder - - - -' 'd has faults: 8' "$two" 'e is valid' | sed "/data/d"
    printf '%s\n' "$two"
} >long
ends_with 3 --summary long
diff printed - <<'END' || give_up 'the summary is another'
reports by how they end:
        1 isn't finished
        1 has faults
        1 is valid
files by fault:
        1 201 no-payload-folder
        2 601 payload-file-missing
        7 603 payload-file-not-listed
files by bag, first folder and fault:
        3 d: data/x/ 603 payload-file-not-listed
        2 (no closing line): data/ 601 payload-file-missing
        1 d: data/ 603 payload-file-not-listed
        1 d: data/é\x1b/ 603 payload-file-not-listed
        1 d: notes/ 603 payload-file-not-listed
        1 d: ./ 603 payload-file-not-listed
        1 d: - 201 no-payload-folder
END

# A file that has several faults of one code, by several algorithms or in several lines, is one file.
{
    for line in 1 2 7; do echo "501 manifest-line manifest-md5.txt md5 $line -"; done
    for name in a b; do for algorithm in md5 sha1 sha512; do echo "601 payload-file-missing data/$name $algorithm - -"; done; done
    echo "701 payload-sum-differs data/a sha256 - $ma:$mb"
    echo 'd has faults: 10'
} >long
ends_with 1 --summary long long
diff printed - <<'END' || give_up 'the summary counts lines'
reports by how they end:
        2 has faults
files by fault:
        2 501 manifest-line
        4 601 payload-file-missing
        2 701 payload-sum-differs
files by bag, first folder and fault:
        4 d: data/ 601 payload-file-missing
        2 d: ./ 501 manifest-line
        2 d: data/ 701 payload-sum-differs
END

# `unchecked made` is of a bag of that name where bags are made, and of a profile's key above a check.
printf 'unchecked made\n' >made
printf 'unchecked made\nd not made: bad value\n' >not_made
printf 'unchecked made\nd is valid\n' >key
ends_with 0 made
diff printed <(echo '{"bag": "unchecked", "ended": "made"}')
ends_with 3 not_made
[[ $(head -n 1 printed) == '{"bag": "unchecked", "ended": "made"}' ]] || give_up 'a bag of the name unchecked is a key'
ends_with 0 key made
diff printed - <<'END' || give_up 'a key is a bag'
{"word": "unchecked", "detail": "made"}
{"bag": "d", "ended": "is valid"}
{"bag": "unchecked", "ended": "made"}
END

# No cell is a formula, and each text comes back (tests/report.py takes the mark away, and finds none without).
printf '809 tag-file-required %s - - -\n' =1+1 @SUM -1 +1 %09x %0Dx "'=1" "''=1" "'a" >formulas
echo '=d has faults: 9' >>formulas
comes_back 1 formulas

# Streams that are closed, or full; a line of 20 MB; a process that is interrupted.
bagit-keep report several >&- 2>errors && give_up 'an output that is closed is no failure'
grep -q 'standard output is closed' errors || give_up 'it says nothing of a closed output'
for way in '2>&-' '2>/dev/full'; do
    status=0
    eval "bagit-keep report wrong >printed $way" || status=$?
    ((status == 2)) && [[ ! -s printed ]] || give_up "with $way a line of no report ends with $status"
done
head -c 20000000 /dev/zero | tr '\0' x >long
ends_with 3 long
(($(wc -c <errors) < 1000)) || give_up 'a long line is said whole'
mkfifo pipe
bagit-keep report pipe >printed 2>errors &
exec 3>pipe
kill -TERM "$!"
status=0
wait "$!" || status=$?
exec 3>&-
((status == 3)) && ! grep Traceback errors || { cat errors; give_up "interrupted it ends with $status"; }

# On a terminal no name is obeyed.
printf '802 label-required bag-info.txt - - %%1B[31m%%07\nd has faults: 1\n' >red
printf '\033[31m\n' >redder
if type -P script >/dev/null; then
    for words in '--csv red' '--tsv red' '--summary red' '--json red' redder; do
        script -qc "bagit-keep report $words" /dev/null </dev/null >shown || true
        [[ -s shown ]] && ! grep -q $'[\033\007]' shown || give_up "a terminal obeys what bagit-keep report $words shows"
    done
fi

# Paths that no file of a bag has are passed over; reports of two bags aren't mixed.
printf '809 tag-file-required %s - - -\n' - %00 /etc/x a/../b a//b data/a%00/etc/x ./-x -- -x data/- >paths
ends_with 3 --files 809 paths
printf '%s\0' ./-- ./-x data/- | cmp - printed
(($(grep -c 'is passed over' errors) == 7)) || give_up 'it says nothing of the paths that are passed over'
for bag in a b; do printf '%s\n%s has faults: 2\n' "$two" "$bag" >"of-$bag"; done
ends_with 2 --files 601 of-a of-b
[[ ! -s printed ]] || give_up 'paths of two bags are mixed'
ends_with 1 --files 601 of-a of-a
for codes in '' '601,' '601,601' 600 payload-file-missing; do ends_with 2 --files "$codes" of-a; done

# Restored from a copy, with names that a shell, a list of lines or a terminal would take for something else.
mkdir archive
while IFS= read -r name; do
    printf -v name %b "$name"
    echo "$name" >"archive/$name"
done <<'END'
plain
a b
-rf
--help
$(touch ran)
`touch ran`
a';touch ran;'
a";touch ran;"
a\nb
\n
\033[31m
a\tb
back\\\\slash
%41
,";=1+1
é
END
mkdir archive/folder
cp archive/plain archive/folder/-n
"$program" --md5 --sha256 archive >made
echo tag >archive/-rf
(cd archive && for alg in md5 sha256; do "${alg}sum" -- -rf >>"tagmanifest-$alg.txt"; done)
"$program" --validate archive >report
diff report - <<<'archive is valid'
cp -a archive copy
find archive/data -type f ! -name plain -exec sh -c 'for file; do echo x >>"$file"; done' sh {} +
rm archive/data/a* archive/data/folder/-n
echo x >>archive/-rf
! "$program" --validate archive >report || give_up 'the bag is not damaged'
comes_back 1 report
grep -c . report >before
damaged=$(find copy/data -type f ! -name plain -printf . | wc -c)
restore() (
    set +o pipefail
    cd copy
    bagit-keep report --files "$1" ../report | xargs -0 -r cp -a --parents -t ../archive
)
ends_with 1 --files 601,701 report
(($(tr -cd '\0' <printed | wc -c) == damaged && damaged > 15)) || give_up 'not each damaged file is named once'
restore 601,701
! "$program" --validate archive >report || give_up 'a damaged tag file is overlooked'
restore 602,702
restore 201
"$program" --validate archive >report || give_up 'the bag is not restored'
diff report - <<<'archive is valid'
diff -r archive copy
[[ ! $(find . -name ran) ]] || give_up 'the name of a file was run'

# Millions of lines take no more memory than a few.
seq -f "701 payload-sum-differs data/%.0f md5 - $ma:$mb" 100000 >many
echo 'd has faults: 100000' >>many
status=0
(ulimit -v 60000 && bagit-keep report --csv many >printed) || status=$?
((status == 1 && $(wc -l <printed) == 100002)) || give_up "many lines end with $status"

# Four times as many reports don't take sixteen times as long.
sums_up() {
    seq -f '/srv/bags/%.0f is valid' "$1" >reports
    ends_with 0 --summary reports
    printf 'reports by how they end:\n%9d is valid\n' "$1" | cmp - <(head -n 2 printed) ||
        give_up "of $1 reports it counts others"
}
takes_in_proportion 5000 20000 sums_up

echo "$faults lines of faults, $(cat status-* | wc -l) lines of whole reports and $(wc -l <endings) endings come back" \
    "from JSON, CSV and tab-separated values; $(wc -l <no-faults) lines are rejected; $damaged files of odd names" \
    "were restored"
