#!/usr/bin/env bash
# Follows the pages for users as they are written: the sessions of README, GUIDE and PROFILES, with what they say that
# is printed, and README's commands; the ways back of docs/RECOVERY.md, over folders as a making leaves them, and in
# others; the commands of docs/UPDATING.md, of good bags and damaged ones; those of docs/OPERATIONS.md over deposits, over
# 40 bags of which five are bad, and night by night; the commands of docs/FAULTS.md, which mend no damage away, replace no
# better file and run no name; the keys of docs/PROFILES.md; the example of docs/FAQ.md; what docs/LIBRARY.md quotes.
#
# usage: tests/readme.sh [PROGRAM [RENEWING]]
#
# PROGRAM is crates/bagit/out/bagit by default, and RENEWING crates/bagit_renew/out/bagit_renew. It needs Python, and rt
# for README's first look. The last line says how much was followed.
set -euo pipefail
source "$(dirname "$0")/common.sh"
take_program bagit_renew "${2:-}"
renewing=$program
take_program bagit "${1:-}"
needs python3
needs rt
enter pages
mkdir bin
ln -s "$program" bin/bagit
ln -s "$renewing" bin/bagit-renew
ln -s "$root/companions/bagit-keep" bin/
export PATH=$work/bin:$PATH
quick_python
followed=0

# The indented blocks of a section of a page, without their indentation; each ends with a line that has a form feed.
blocks() {
    sed -n "/^#* *$2\$/,/^## /p" "$root/$1" | awk '
        /^```/ { fenced = !fenced }
        fenced { next }
        /^ *$/ { gap = gap "\n"; next }
        match($0, /^ +/) && RLENGTH >= 4 {
            if (!inside) width = RLENGTH
            if (inside && gap != "") printf "%s", gap
            inside = 1; gap = ""; print substr($0, width + 1); next
        }
        { if (inside) print "\f"; inside = 0; gap = "" }
        END { if (inside) print "\f" }'
}

# The block of a number.
block() { blocks "$1" "$2" | awk -v RS='\n?\f\n' -v n="$3" 'NR == n'; }

# Follows a block of a page in a shell of its own, with other texts in the place of some of its own.
follow() { # PAGE HEADING NUMBER [TEXT OTHER]..
    local way
    way=$(block "$1" "$2" "$3")
    [[ $way ]] || give_up "$1: no block $3 below $2"
    shift 3
    while (($#)); do
        [[ $way == *"$1"* ]] || give_up "no block has $1: $way"
        way=${way//"$1"/"$2"}
        shift 2
    done
    bash <<<"$way"
}

# Ends the script with what was printed last.
wrong() {
    cat "$work/printed"
    give_up "$*"
}

# Runs a command that has to fail; what it prints is in `printed`.
fails() { # WHAT COMMAND..
    ! "${@:2}" >printed 2>&1 || give_up "$1: ${*:2} ends with 0"
}

# README's first look builds the program without its proofs, which takes a while: that is done beside all else.
mkdir -p look installed/bin
echo a >look/a
bagit --quiet look
(cd "$root" && follow README.md Install 4 /path/to/a/bag "$work/look") >looked 2>&1 &
looks=$!
trap 'wait; rm -rf "$work"' EXIT

# Sessions: what is below a line "$ COMMAND" is what it prints. A file that a command shows, and that isn't there, is made
# first; `ls` writes in columns to a terminal alone. The sessions are in a folder `/home/ann`.
follow_sessions() { # PAGE HEADING..
    local page=$1 line command='' wanted='' status=0
    compare() {
        local ended=0
        [[ $command ]] || return 0
        [[ $command != cat\ * || -e ${command#cat } ]] || printf '%s' "$wanted" >"${command#cat }"
        eval "${command/'$?'/$status}" >"$work/printed" 2>&1 || ended=$?
        status=$ended
        printf '%s' "${wanted//'/home/ann'/$PWD}" | diff - "$work/printed" || give_up "$page: $command prints something else"
        followed=$((followed + 1))
    }
    while IFS= read -r line; do
        case $line in
            '$ '*) compare; command=${line#'$ '} wanted='' ;;
            $'\f') compare; command='' wanted='' ;;
            '') ;;
            *) [[ ! $command ]] || wanted+=$line$'\n' ;;
        esac
    done < <(for heading in "${@:2}"; do blocks "$page" "$heading"; done)
}
for way in 'README.md|bagit' 'docs/GUIDE.md|1. Create a bag|2. Check it' 'docs/PROFILES.md|Checking by a profile'; do
    rm -rf session
    mkdir session
    IFS='|' read -r -a headings <<<"$way"
    (
        cd session
        if [[ ${headings[0]} == *PROFILES* ]]; then
            mkdir letters
            echo a >letters/a
            bagit --quiet letters
        fi
        followed=0
        follow_sessions "${headings[@]}"
        if [[ ${headings[0]} == *GUIDE* ]]; then
            follow "${headings[0]}" '3. Read the report' 1 >"$work/printed" 2>&1 && diff -r letters backup || wrong 'docs/GUIDE.md: nothing is restored'
        fi
        echo "$followed" >"$work/followed"
    )
    (($(<followed) > 1)) || give_up "${headings[0]}: its session was not found"
    followed=$((followed + $(<followed)))
done
((followed > 12)) || give_up 'the sessions were not found'

# A bag with a file whose name would run `touch pwned`.
hostile=$'it\'s;touch${IFS}pwned;$(touch pwned)`touch pwned`"\\x41 50%'
new_hostile() {
    rm -rf "$1"
    mkdir "$1"
    echo a >"$1/a"
    echo b >"$1/$hostile"
    bagit --quiet --md5 --sha512 "$1"
}
runs_nothing() { [[ ! $(find . -name pwned) ]] || give_up "$1: a name ran a command"; }

# A check goes on after a line of its report.
new_hostile letters
rm "letters/data/$hostile"
fails GUIDE bagit --validate --max-faults 2 letters
mv printed report
goes_on=$(blocks docs/GUIDE.md '2. Check it' | sed -n 's/^\$ \(.* --after .*\) >rest.*/\1/p')
fails GUIDE eval "$goes_on"
[[ $(tail -n 1 printed) == 'letters rest done, faults: 1' ]] || give_up "GUIDE: $goes_on says $(<printed)"
runs_nothing GUIDE
rm -r letters report

# README's commands that build, by a stand-in for rt; then what is installed runs.
[[ $(block README.md Install 1) == "apt install ./bagit_$(<"$root/VERSION")_amd64.deb" ]] || give_up 'README: the package has another name'
way=$(block README.md Install 2)
[[ $way == packaging/build && -x $root/$way ]] || give_up "README: there is no $way"
cat >rt <<'END'
#!/usr/bin/env bash
[[ "$1 $2 $3 $4 $5" == 'run --jobs 2 -- --help' ]] && echo "${PWD##*/}" >>"$BUILT"
END
chmod +x rt
way=$(block README.md Install 3)
way=${way//"/usr/local/"/"$work/installed/"}
way=${way/"crates/bagit/out/bagit "/"$work/bin/bagit "} way=${way/"crates/bagit_renew/out/bagit_renew "/"$work/bin/bagit-renew "}
(cd "$root" && BUILT=$work/built PATH=$work:$PATH bash -e <<<"$way") >printed 2>&1 || { cat printed; give_up 'README: nothing is installed'; }
[[ $(<built) == $'bagit\nbagit_renew' ]] || give_up "README: these are built: $(<built)"
rm rt
for installed in bagit-renew bagit-keep; do
    "installed/bin/$installed" --help >printed && [[ -s printed ]] || give_up "README: $installed is not installed"
done
[[ $(installed/bin/bagit) == 'sample has a good declaration' ]] || give_up 'README: bagit is not installed'
followed=$((followed + 6))

# A folder, and what a making that was cut off leaves of it.
new_folder() {
    rm -rf photographs* whole
    mkdir -p photographs/inner photographs/data
    echo a >photographs/a
    echo b >photographs/inner/b
    echo c >photographs/data/c
    echo d >photographs/.hidden
    cp -a photographs whole
}

# Follows a way back in a shell of its own, and sees that the folder is again what it was, with the tag files beside it;
# followed once more, or in a bag where no folder has the name, it changes nothing.
goes_back() { # NUMBER WHAT-IS-THERE
    local count=$(ls photographs | grep -c 'txt$')
    block docs/RECOVERY.md "A bag wasn't created" "$1" >way
    [[ -s way ]] || give_up "docs/RECOVERY.md: no way back $1"
    bash way >printed 2>&1 || wrong "docs/RECOVERY.md: way back $1 ended with an error"
    diff -r whole photographs || give_up "docs/RECOVERY.md: way back $1 leaves something else ($2)"
    [[ $1 == 1 || $(ls photographs.kept | wc -l) == "$count" ]] || give_up "docs/RECOVERY.md: tag files are lost ($2)"
    fails "docs/RECOVERY.md: way back $1, once more" bash way
    diff -r whole photographs || give_up "docs/RECOVERY.md: way back $1, once more, changes the folder ($2)"
    fails "docs/RECOVERY.md: way back $1, elsewhere" env -C letters bash ../way
    diff -r letters other || give_up "docs/RECOVERY.md: way back $1, in a bag, changes it"
    followed=$((followed + 1))
}
mkdir -p letters/data
echo letter >letters/data/a
bagit --quiet letters
cp -a letters other

for moved in '' a 'a inner' 'a inner data .hidden'; do
    new_folder
    mkdir photographs/.bagit-new
    for name in $moved; do mv "photographs/$name" photographs/.bagit-new/; done
    goes_back 1 "moved: $moved"
done
for written in 0 1 3 6; do
    new_folder
    bagit photographs >printed
    (cd photographs && ls ./*.txt | tail -n +$((written + 1)) | xargs -r rm)
    goes_back 2 "$written tag files"
done
new_folder
bagit photographs >printed
rm -rf whole
cp -a photographs whole
bagit photographs >printed
goes_back 2 'a bag'
(cd photographs && [[ $(bagit --validate .) == '. is valid' ]]) || give_up 'the inner bag is not what it was'
rm -r letters other

# The picture: stopped at the step of a tag file, a folder is as the row above says.
pictured() { # TAG-FILE ANSWER ROW
    local names name
    rm -rf pictured
    mkdir -p pictured/b ${1:+"pictured/$1"}
    touch pictured/a.txt pictured/b/c.txt
    [[ $(bagit pictured || true) == "pictured $2" ]] || give_up "docs/RECOVERY.md: the step of $1 has another number"
    read -r -a names < <(sed -n "s/^$3  //p" "$root/docs/RECOVERY.md") || true
    ((${#names[@]} > 2)) || give_up "docs/RECOVERY.md: its picture has no row $3"
    for name in "${names[@]}"; do
        [[ $name != */* || -e pictured/$name ]] || give_up "docs/RECOVERY.md: in the row $3 there is no $name"
    done
    followed=$((followed + 1))
}
pictured bagit.txt 'not made: step 5 exists' 4
pictured bag-info.txt 'not made: step 6 exists' '5, 6, \.\.'
pictured '' made made

# `sync` waits for all that a machine writes, which a test needn't.
ln -s "$(type -P true)" bin/sync

# Puts a program into `meanwhile` that runs a command before or after its Nth call: damage that comes meanwhile.
between() { # PROGRAM N before|after COMMAND
    rm -rf meanwhile
    mkdir meanwhile
    cat >"meanwhile/$1" <<END
#!/usr/bin/env bash
echo >>"$work/meanwhile/calls"
came() { if [[ \$(wc -l <"$work/meanwhile/calls") == $2 && \$1 == $3 ]]; then (cd "$work" && $4); fi }
came before
status=0
"$(type -P "$1")" "\$@" || status=\$?
came after
exit \$status
END
    chmod +x "meanwhile/$1"
}
flip() { printf X | dd of="$1" bs=1 seek=1 conv=notrunc status=none; }
export -f flip

# Follows a block among such programs: with the damage `true` it has to succeed, and else to fail.
tells_damage() { # WHAT DAMAGE BLOCK
    local status=0 wanted=1
    [[ $3 ]] || give_up "$1: there is no such block"
    [[ $2 != true ]] || wanted=0
    PATH=$work/meanwhile:$PATH bash <<<"$3" >printed 2>&1 || status=1
    ((status == wanted)) || wrong "$1 ends with $status after '$2'"
    followed=$((followed + 1))
}

# A bag with a name that must not run, a tag file of its own and elements that no option has; and what is added.
odd=$'-b/it\'s $(touch pwned) 100%\n"x" '
new_bag() {
    rm -rf photographs* letters scans whole
    mkdir -p photographs/{2023,2024,drafts,b,-b} letters scans/2025
    for name in 2023/a.txt 2024/a drafts/d b/c.txt "$odd"; do echo "$name" >"photographs/$name"; done
    cp -a photographs whole
    echo letter >'letters/a letter'
    echo scan >scans/2025/s
    bagit --quiet photographs letters
    printf 'X-Own: 1\r\n x\r\nX-Own: 2\r\n%s' "$(<photographs/bag-info.txt)" >elements
    mv elements photographs/bag-info.txt
    mkdir photographs/own
    echo note >'photographs/own/100%'
    sed -i /bag-info/d photographs/tagmanifest-*.txt
    for sum in sha256 sha512; do
        (cd photographs && "${sum}sum" bag-info.txt own/* | sed s/%/%25/ >>"tagmanifest-$sum.txt")
    done
    bagit --validate photographs >printed || wrong 'the bag that is to be changed is not valid'
}
mapfile -t changes < <(block docs/UPDATING.md 'Add, remove or rename payload files' 1)
((${#changes[@]} == 4)) || give_up "docs/UPDATING.md: ${#changes[@]} ways to change a bag"

# Changes the bag; it is valid then, with its elements and tag files and the payload that it should have, and the old one is kept.
is_changed_by() { # CHANGE
    local page="docs/UPDATING.md: '$1'" others
    bash <<<"$1" >printed 2>&1 || wrong "$page fails"
    bagit --validate --quiet photographs photographs.kept.* >printed || wrong "$page leaves no valid bag"
    diff -r whole photographs/data || give_up "$page makes another payload"
    grep -v ^Payload-Oxum photographs/bag-info.txt >elements
    [[ $(<elements) == $'X-Own: 1\r\n x\r\nX-Own: 2\r' ]] || give_up "$page loses elements"
    grep -q 'own/100%' photographs/tagmanifest-sha256.txt || give_up "$page loses a tag file"
    others=$(find . -name pwned -o -name '*.new')
    [[ ! $others ]] || give_up "$page leaves $others"
    rm -r photographs.kept.*
    followed=$((followed + 1))
}
new_bag
cp -a scans/. whole/
is_changed_by "${changes[0]}"
mkdir whole/2024/letters
cp -a letters/data/. whole/2024/letters/
is_changed_by "${changes[1]}"
rm -r whole/drafts whole/b/c.txt
is_changed_by "${changes[2]}"
mv whole/2023 whole/2022
is_changed_by "${changes[3]}"

# No path leads out of the bag.
new_bag
bagit --quiet scans
mkdir held
cp -a photographs letters scans held/
for path in 'remove ../letters' 'remove ../photographs/data/2024/a' 'remove data/2024/..' 'add letters --to ../scans/data' \
    'add letters --to data/2024/../../../scans/data/' 'rename data/2024 ../scans/data/2024' "rename data/2024 $work/scans/data/x"; do
    fails docs/UPDATING.md bagit-keep repack photographs $path
    for name in photographs letters scans; do
        diff -r "$name" "held/$name" || give_up "docs/UPDATING.md: $path changes $name"
    done
    [[ ! -e photographs.new ]] || give_up "docs/UPDATING.md: $path is begun"
    followed=$((followed + 1))
done
rm -r held

# Damage that comes at the Nth call of bagit stops the change, and the bag stays where it is.
stops() { # CHANGE MESSAGE N before|after COMMAND
    local page="docs/UPDATING.md: '$1', with '${*:5}' $4 call $3"
    between bagit "$3" "$4" "${*:5}"
    tells_damage "$page" damage "$1"
    [[ -d photographs && ! $(compgen -G 'photographs.kept.*') ]] || wrong "$page goes on"
    grep -qE "$2" printed || wrong "$page does not say $2"
}
damaged=data/2023/a.txt
for change in "${changes[@]}"; do
    call=1
    [[ $change != *make* ]] || call=3
    for moment in before after; do
        new_bag
        stops "$change" "^701 payload-sum-differs .*a.txt sha256 " $call $moment flip photographs/$damaged
    done
done
while read -r call moment damage; do
    read -r message
    new_bag
    stops "${changes[2]}" "$message" "$call" "$moment" "$damage"
done <<'END'
1 after rm photographs/data/2024/a
^601 payload-file-missing data/2024/a sha256
1 after echo more >photographs/data/more
^603 payload-file-not-listed data/more sha512
1 after flip photographs/bag-info.txt
^702 tag-sum-differs bag-info.txt sha256
1 after flip photographs/own/100%
^702 tag-sum-differs own/100%25 sha512
1 after flip photographs/manifest-sha256.txt
^702 tag-sum-differs manifest-sha256.txt sha256
2 before flip photographs.new/bag/manifest-sha256.txt
^702 tag-sum-differs manifest-sha256.txt sha256
2 before kill -9 $PPID $$
Killed
END
rm -r whole/drafts whole/b/c.txt
is_changed_by "${changes[2]}"
new_bag
stops "${changes[1]}" '^701 payload-sum-differs data/2024/letters/a%20letter sha512 ' 2 after 'flip "letters/data/a letter"'

# What other tools write, by version 0.97, is compared too, and stays as they spell it.
for spelling in 's/  / */' 's/$/\r/' 's/^[0-9a-f]*/\U&/; s/  / \t.\//' '1s/^/\xef\xbb\xbf/'; do
    for damage in '' "flip photographs/$damaged"; do
        new_bag
        sed -i s/1.0/0.97/ photographs/bagit.txt
        sed -i "s/%25/%/; $spelling" photographs/*manifest-sha*.txt
        sed -i '/bagit.txt/d; /manifest-/d' photographs/tagmanifest-sha*.txt
        if [[ $damage ]]; then
            stops "${changes[2]}" "^701 payload-sum-differs $damaged sha256 " 1 after "$damage"
        else
            grep -v -e '/drafts/' -e '/b/c' photographs/manifest-sha256.txt >lines
            rm -r whole/drafts whole/b/c.txt
            is_changed_by "${changes[2]}"
            cmp <(sed '1s/^\xef\xbb\xbf//' lines) <(sed '1s/^\xef\xbb\xbf//' photographs/manifest-sha256.txt)
        fi
    done
done

# One bag becomes two; what is in both, or in none, is named.
split=$(block docs/UPDATING.md 'Add, remove or rename payload files' 2)
for damage in true 'photographs data/2023/a' 'drafts data/drafts/d'; do
    rm -rf photographs* drafts*
    mkdir -p photographs/{2023,2024,drafts}
    for name in 2023/a 2023/b 2024/a drafts/d drafts/e; do echo "$name" >"photographs/$name"; done
    bagit --quiet --sha256 photographs
    gone=true
    [[ $damage == true ]] || gone="bagit-keep repack ${damage/ / remove } 2>&1 | sed -n 's/.*the old bag is //p' | xargs rm -r"
    tells_damage 'docs/UPDATING.md: a bag that is split' "$damage" "${split/$'\nsort'/$'\n'"$gone"$'\nsort'}"
done

# A bag elsewhere is one of the folder; what copying flips or loses, and a name that is there, is found.
elsewhere() { # BLOCK DAMAGE: of the copy
    local way
    way=$(block docs/GUIDE.md '4. Store it' "$1")
    between cp 1 after "$2"
    tells_damage "docs/GUIDE.md: elsewhere, block $1" "$2" "${way//"/archive/"/$work/archive/}"
}
for copied in '1 data/a' '3 a'; do
    read -r number file <<<"$copied"
    for damage in "flip archive/photographs/$file" "rm archive/photographs/$file" true; do
        new_folder
        rm -rf archive
        mkdir archive
        elsewhere "$number" "$damage"
    done
    diff -r whole archive/photographs/data || give_up "docs/GUIDE.md: elsewhere, block $number makes another bag"
    new_folder
    rm -rf there
    cp -a archive/photographs there
    elsewhere "$number" 'echo the name is there'
    diff -r there archive/photographs || give_up "docs/GUIDE.md: elsewhere, block $number copies into a bag"
done
new_folder
elsewhere 2 true
diff -r whole photographs
diff -r whole photographs.bag/data
bagit --validate --quiet photographs.bag

# OPERATIONS: the commands take a bag in, once, and pack one, without replacing a file.
pack() { # KIND FOLDER
    rm -f "deposit.$1"
    if [[ $1 == tar ]]; then tar -cf deposit.tar "$2"; else python3 -m zipfile -c deposit.zip "$2"; fi
}
new_deposit() {
    rm -rf deposit again meanwhile
    mkdir deposit
    echo 'kept as it is' >deposit/a
    bagit --quiet deposit
}
new_deposit
for kind in tar zip; do
    mkdir -p srv/bags
    pack "$kind" deposit
    receive=(follow docs/OPERATIONS.md 'Receive a deposit' 1 deposit.zip "deposit.$kind" /srv/bags "$work/srv/bags")
    "${receive[@]}" >printed 2>&1 || wrong "docs/OPERATIONS.md: a .$kind isn't received"
    diff -r deposit srv/bags/deposit || give_up "docs/OPERATIONS.md: another bag is received of a .$kind"
    fails docs/OPERATIONS.md "${receive[@]}"
    rm -r srv
done
rm deposit.tar
send=(follow docs/OPERATIONS.md 'Send a bag' 1)
"${send[@]}" >printed 2>&1 || wrong 'docs/OPERATIONS.md: a bag is not sent'
[[ $(tail -n 1 printed) == "$(sha256sum "$PWD/deposit.tar")" ]] || wrong 'docs/OPERATIONS.md: another digest is said'
fails docs/OPERATIONS.md "${send[@]}"
followed=$((followed + 6))

# OPERATIONS: files are fetched to the paths that fetch.txt spells, and nothing of it is run or written elsewhere.
new_holey() { # fetch.txt, with @ in place of the server
    rm -rf holey
    mkdir -p holey/data
    declare_bag >holey/bagit.txt
    printf '%s  %s\n' "$ma" 'data/x/%250A$(touch pwned) {1,2}' "$mb" 'data/line%0Aend ' >holey/manifest-md5.txt
    printf "${1//@/http://127.0.0.1:$port}" >holey/fetch.txt
}
fetches() { # true, or WHAT-IS-WRONG
    tells_damage 'docs/OPERATIONS.md: fetching' "$1" "timeout 30 $fetch"
    [[ ! $(find . -name pwned -o -name evil) ]] || give_up "docs/OPERATIONS.md: $1 in fetch.txt does harm"
}
follow_fetching() {
    local port hosts fetch good='@/{1,2}[a] - data/x/%%250A$(touch pwned) {1,2}\r\n\n@/b\t1 \t./data/line%%0aend '
    mkdir served
    printf a >'served/{1,2}[a]'
    printf b >served/b
    timeout 100 python3 -u -c 'import functools, http.server as s
server = s.ThreadingHTTPServer(("127.0.0.1", 0), functools.partial(s.SimpleHTTPRequestHandler, directory="served"))
print(server.server_port)
server.serve_forever()' >port 2>>requests &
    server=$!
    trap 'kill "$server"' EXIT
    until [[ -s port ]]; do sleep 0.1; done
    port=$(<port)
    hosts=$(grep -o 'cut [^`]*fetch.txt[^`]*' "$root/docs/OPERATIONS.md")
    fetch=$(block docs/OPERATIONS.md 'Receive a deposit' 2)
    fetch=${fetch/www.example.org/127.0.0.1} fetch=${fetch/deposit/holey}
    new_holey "$good"
    bash <<<"${hosts/deposit/holey}" | grep -qx "127.0.0.1:$port" || give_up "docs/OPERATIONS.md: $hosts lacks it"
    fetches true
    fetches true
    [[ $(grep -c GET requests) == 2 ]] || give_up 'docs/OPERATIONS.md: what is there is fetched again'
    new_holey "${good/'/b\t'/'/{1,2}[a]\t'}"
    echo mine >holey.part
    fetches 'another file'
    [[ $(find holey/data -type f) == *'{1,2}' && $(<holey.part) == mine ]] || give_up 'docs/OPERATIONS.md: other bytes are kept'
    rm holey.part
    new_holey "@/b 1 data/x/%%250A\$(touch pwned) {1,2}\n@/none 1 data/line%%0Aend \n"
    fetches 'other bytes, and no file'
    printf "${good//@/http://127.0.0.1:$port}" >holey/fetch.txt
    fetches true
    [[ ! $(compgen -G 'holey.*') ]] || give_up 'docs/OPERATIONS.md: fetching leaves something'
    new_holey "$good"
    sed -i 's/1\.0/0.97/' holey/bagit.txt
    fetches true
    [[ -e holey/data/x/'%250A$(touch pwned) {1,2}' ]] || give_up 'docs/OPERATIONS.md: by 0.97 %25 is read otherwise'
    : >requests
    for bad in '@/b 1 data/../../evil' '@/b 1 /evil' '@/b 1 data/evil' '@/b?\xff 1 data/line%%0Aend ' '@/b'; do
        new_holey "$bad\n$good"
        fetches "$bad"
    done
    new_holey '@/b 1 data/\0../\0../\0../evil\n'
    printf '%s  data/\0../\0../\0../evil\n' "$mb" >>holey/manifest-md5.txt
    fetches 'a byte of 0'
    [[ ! -s requests ]] || give_up "docs/OPERATIONS.md: something is fetched by a bad fetch.txt: $(<requests)"
    new_holey 'file:///proc/version - data/x/%%250A$(touch pwned) {1,2}'
    fetches 'a file of this machine'
    [[ ! -e holey/data/x ]] || give_up 'docs/OPERATIONS.md: a file of this machine is fetched'
    echo "$followed" >followed
}
if type -P curl >/dev/null; then
    (follow_fetching)
    followed=$(<followed)
else
    echo 'there is no curl here, so nothing is fetched'
fi

# GUIDE: a bag has what links name, and what copying flips is found.
for damage in 'flip copy/to' true; do
    rm -rf photographs copy
    mkdir photographs
    echo named >photographs/file
    ln -s file photographs/to
    between cp 1 after "$damage"
    tells_damage 'docs/GUIDE.md: links' "$damage" "$(block docs/GUIDE.md '1. Create a bag' 2)"
done
[[ ! -L copy/data/to && $(<copy/data/to) == named ]] || give_up 'docs/GUIDE.md: links are not followed'
rm -rf photographs* whole letters scans drafts* archive there deposit* unpacked again holey served copy meanwhile

# UPDATING: what it does by a renewal, of a good bag and of one with a damaged byte, which no block passes over.
new_deposit() {
    rm -rf deposit* renewed not-renewed bags
    mkdir -p deposit bags/{a,b}
    echo 'Dear Ann,' | tee deposit/first.txt bags/a/f >bags/b/f
    bagit --quiet --md5 deposit bags/*
}
renewing_block() { follow docs/UPDATING.md "$1" "$2" >printed 2>&1; }
first='Updating a bag: algorithms, metadata, files' drops='How damage is kept out' keeps='Keep the old bag'
new_deposit
renewing_block "$first" 1 || wrong 'docs/UPDATING.md: its first commands fail'
diff printed <(printf '%s renewed\n' deposit deposit)
bagit --validate --quiet deposit
grep -qx 'External-Identifier: A 2026/17' deposit/bag-info.txt || give_up 'docs/UPDATING.md: the element is not set'
new_deposit
bagit-renew --dry-run --add sha512 --set A=b deposit | diff - <(block docs/UPDATING.md 'What is changed, and in which order' 1)
renewing_block "$drops" 2 || wrong 'docs/UPDATING.md: an algorithm is not dropped'
[[ -e deposit/manifest-sha256.txt && ! -e deposit/manifest-md5.txt ]] || give_up 'docs/UPDATING.md: another algorithm is dropped'
new_deposit
bagit-renew --quiet --add sha256 deposit
renewing_block "$drops" 3 || wrong 'docs/UPDATING.md: an algorithm is not dropped unchecked'
[[ -e deposit/manifest-sha256.txt && ! -e deposit/manifest-md5.txt ]] || give_up 'docs/UPDATING.md: unchecked another is dropped'
for number in 1 2; do
    new_deposit
    renewing_block "$keeps" "$number" || wrong "docs/UPDATING.md: keeping, block $number fails"
done
(cd deposit && sha512sum data/first.txt) | diff - deposit.sha512
renewing_block "$keeps" 3 && [[ $(<printed) == 'greatest status: 0' && ! -s not-renewed ]] || wrong 'docs/UPDATING.md: many bags'
followed=$((followed + 7))
for damaged in "$first 1" "$drops 2" "$keeps 1" "$keeps 2" "$keeps 3"; do
    new_deposit
    flip deposit/data/first.txt
    flip bags/a/data/f
    renewing_block "${damaged% *}" "${damaged##* }" || true
    cat printed not-renewed deposit.sha512 2>/dev/null >said || true
    grep -qE '(deposit|renewed|bags/a) not renewed: fault 701 ' said || wrong "docs/UPDATING.md: '$damaged' passes over damage"
    [[ ! -s deposit.sha512 || $(<deposit.sha512) == *'not renewed'* ]] || wrong "docs/UPDATING.md: '$damaged' gives damage a digest"
    ! grep -qs . {deposit,renewed,bags/a}/manifest-sha*.txt || wrong "docs/UPDATING.md: '$damaged' gives damage a digest"
    [[ -s deposit/manifest-md5.txt ]] || wrong "docs/UPDATING.md: '$damaged' drops what tells damage"
    followed=$((followed + 1))
done
rm -rf deposit* renewed not-renewed bags said

# OPERATIONS: forty bags, of which five are bad, by one command and by a job array, whose Slurm is played here.
for ((bag = 10; bag < 50; bag++)); do
    mkdir -p "bags/bag $bag"
    echo "$bag" >"bags/bag $bag/file"
done
bagit --sha256 bags/* >printed
echo x >>'bags/bag 11/data/file'
rm 'bags/bag 22/data/file'
rm 'bags/bag 33/bagit.txt'
ln -s file 'bags/bag 44/data/link'
mv 'bags/bag 45' $'bags/bag\n45'
echo y >>$'bags/bag\n45/data/file'
wanted="1 $work/bags/bag%0A45 has faults: 2
1 $work/bags/bag%2011 has faults: 2
1 $work/bags/bag%2022 has faults: 2
1 $work/bags/bag%2033 has faults: 2
3 $work/bags/bag%2044 unread - special, faults: 0"
cat >bin/sbatch <<'SBATCH'
#!/bin/bash
for word; do [[ $word != --array=1-* ]] || count=${word##*-}; done
[[ " $* " != *' --parsable '* ]] || echo 1
exec >>slurm.out
[[ $count ]] || exec sh -c "${!#}"
for ((task = 1; task <= count; task++)); do
    SLURM_ARRAY_TASK_ID=$task SLURM_ARRAY_TASK_COUNT=$count sh -c "${!#}" &
done
wait
SBATCH
chmod +x bin/sbatch
follows() {
    local status=0
    bash "$2" >printed 2>messages || status=$?
    [[ $status == "$1" ]] || { cat printed messages; give_up "docs/OPERATIONS.md: this ends with $status: $(<"$2")"; }
    followed=$((followed + 1))
}
# What a disk has beside them, and what a command left beside a bag, are no bags of a round.
mkdir bags/lost+found
cp -a 'bags/bag 10' 'bags/bag 10.kept.0a1b2c'
for way in 1 3; do
    block docs/OPERATIONS.md 'Check many bags' "$way" >way
    follows 3 way
    [[ $(grep -c $'^0\t' printed) == 35 ]] || give_up "docs/OPERATIONS.md: not 35 bags are valid (way $way)"
    diff <(grep -P '^[1-3]\t' printed | cut -f 1,2 --output-delimiter ' ' | sort) - <<<"$wanted" ||
        give_up "docs/OPERATIONS.md: the table of many bags says something else (way $way)"
    # The round goes on by the lines below the first one, and its reports are summed up.
    rm 'bags/bag 44/data/link'
    { echo "export round=$(echo 20??-??-??-??????)" && sed 1d way; } >goes_on
    follows 1 goes_on
    [[ $(grep -c $'^0\t' printed) == 36 ]] || give_up "docs/OPERATIONS.md: the round didn't go on (way $way)"
    { sed 1q goes_on && block docs/OPERATIONS.md 'Check many bags' 2; } >sums_up
    follows 1 sums_up
    grep -q payload-sum-differs printed || give_up 'docs/OPERATIONS.md: the summary lacks a fault'
    ln -s file 'bags/bag 44/data/link'
    rm -r 20??-??-??-??????
done

# The nights: the commands of the page, and what the timer runs, with a letter box.
printf '#!/bin/bash\n{ printf "%%s\\n" "$*"; cat; } >"%s/mailed"\n' "$work" >bin/mail
chmod +x bin/mail
mkdir -p srv/bags
for bag in one 'the other' "it's"; do
    mkdir -p "srv/bags/$bag"
    echo "$bag" >"srv/bags/$bag/file"
done
bagit --quiet srv/bags/*
night() { # STATUS FIRST_LINE BLOCK [TEXT OTHER]..
    local wanted=$1 first=$2 block=$3 status=0
    shift 3
    follow docs/OPERATIONS.md 'Audit every night' "$block" /srv/ "$work/srv/" "$@" >printed 2>messages || status=$?
    [[ $status == "$wanted" && $(head -n 1 printed) == $first ]] ||
        { cat printed messages; give_up "docs/OPERATIONS.md: a night ends with $status: $(head -n 1 printed)"; }
}
night 0 '*/register is a register of no bag yet: see adopt' 1
grep -q '^3 of 3 bags were adopted' printed || { cat printed; give_up 'the bags are not adopted'; }
night 0 'no news: 3 bags, each read whole since 20*' 2
printf X | dd of="srv/bags/it's/data/file" conv=notrunc status=none
night 1 'news of 1 bag: 1 with faults' 2
grep -q "^fault .*/bags/it's 701 payload-sum-differs data/file sha512 - " printed || { cat printed; give_up 'the fault is not named'; }
night 0 "*/bags/it's: 2 findings are known until 9999-12-31" 3 NAME "it\'s" 2027-01-31 9999-12-31
night 0 'no news: 3 bags, each *, 2 known findings' 2
mv srv/bags away
mkdir srv/bags
nightly=(env OPTIONS= REGISTER="$work/srv/register" MAILTO=archivist@example.org "$root/packaging/lib/night")
! "${nightly[@]}" || give_up 'bags that are gone are no news'
[[ $(head -n 1 mailed) == '-s news of 3 bags: 3 missing archivist@example.org' && $(grep -c '^missing ' mailed) == 3 ]] ||
    { cat mailed; give_up 'bags that are gone are not mailed'; }
rmdir srv/bags
mv away srv/bags
printf i | dd of="srv/bags/it's/data/file" conv=notrunc status=none
"${nightly[@]}" || give_up 'a night without news ends otherwise'
[[ $(head -n 1 mailed) == '-s no news: 3 bags, '* ]] || { cat mailed; give_up 'a night without news is not mailed'; }
cron=$(block docs/OPERATIONS.md 'Audit every night' 6 | sed -nE 's/^([0-9*]+ ){5}//p')
[[ $cron == 'bagit-keep audit '* ]] || give_up "docs/OPERATIONS.md: cron runs '$cron'"
env -i HOME="$HOME" PATH="$PATH" sh -c "${cron//"/srv/"/"$work/srv/"}" >printed 2>messages && [[ $(head -n 1 printed) == 'no news: 3 bags, '* ]] ||
    { cat printed messages; give_up 'docs/OPERATIONS.md: what cron runs ends otherwise'; }
mv srv/register/register.sqlite away
status=0
"${nightly[@]}" || status=$?
[[ $status == 2 && $(head -n 1 mailed) == '-s bags were not audited (status 2) '* ]] || { cat mailed; give_up 'a register that is gone is not mailed'; }
mv away srv/register/register.sqlite
rm bin/mail
hash -r
followed=$((followed + 4))

# OPERATIONS: a bag in parts, by one command, by a job array, and by loops on two machines, has the report of one check.
cp -a 'bags/bag 11' deposit
for way in 1 2 3; do
    rm -f deposit.txt
    block docs/OPERATIONS.md 'Check a large bag' "$way" >way
    follows 1 way
    diff deposit.txt <(bagit --validate deposit) || give_up "docs/OPERATIONS.md: the report in parts is another (way $way)"
done

# FAULTS: of a path of 4,085 bytes in a folder `long` nothing is said, and it can be checked once it is in `data`; not so one byte more.
for last in 69 70; do
    rm -rf long
    python3 - "$last" <<'END'
import os, sys
for folder in ["long", *["a" * 250] * 16]:
    os.mkdir(folder)
    os.chdir(folder)
open("f" * int(sys.argv[1]), "w").close()
END
    named=$(block docs/FAULTS.md 'Paths that are too long' 1 | sed 's/DIR/long/g' | bash -e | wc -l)
    bagit --quiet long
    status=0
    bagit --validate long >printed 2>errors || status=$?
    [[ "$named $status" == "$((last - 69)) $(((last - 69) * 3))" ]] ||
        give_up "docs/FAULTS.md: $named paths are named, where the check says: $(<printed)"
done
followed=$((followed + 1))

# FAULTS: after a file that can't be read the check goes on by the line that the page gives, and the file's path is read
# from the report. Root may read each file.
mkdir closed
for name in a "$hostile" z; do echo "$name" >"closed/$name"; done
bagit --quiet --sha256 closed
echo x >>closed/data/z
cp "$program" bagit
chmod 755 closed closed/data bagit
chmod 644 closed/*.txt closed/data/*
chmod 000 "closed/data/$hostile"
chmod 777 .
reads() { if ((EUID)); then "$@"; else setpriv --reuid 65534 --regid 65534 --clear-groups "$@"; fi; }
! reads ./bagit --validate closed >report 2>errors || give_up 'a file of mode 000 is read'
[[ $(<errors) == 'bagit: closed/data/'*': permission denied' ]] || give_up "docs/FAULTS.md: it says why: $(<errors)"
way=$(block docs/FAULTS.md "\`unread\`: what couldn't be read" 2 | sed 's/^bagit/.\/&/; s/DIR/closed/')
fails docs/FAULTS.md reads bash -c "$way"
[[ $(cut -d ' ' -f 1-3 printed) == $'701 payload-sum-differs data/z\nclosed rest done,' ]] ||
    give_up "docs/FAULTS.md: $way says: $(<printed)"
way=$(block docs/FAULTS.md "\`unread\`: what couldn't be read" 1)
[[ $(reads bash -c "$way"$'\nprintf %s "$path"') == "data/$hostile" ]] ||
    give_up "docs/FAULTS.md: $way gives another path"
runs_nothing docs/FAULTS.md
followed=$((followed + 2))

# RECOVERY: a file comes back only if the copy's has the right digests, and what was there is kept, whatever the names are.
new_lost() {
    rm -rf lost* copy
    mkdir -p lost/-s lost/sub
    for name in "$hostile" -s/$'a\nb' sub/-n 'two words' better gone; do echo "$name" >"lost/$name"; done
    bagit --quiet --md5 --sha512 lost
    echo tag >lost/-t
    for algorithm in md5 sha512; do (cd lost && "${algorithm}sum" -- -t >>"tagmanifest-$algorithm.txt"); done
    cp -a lost copy
}
restores() { # ANSWER COPY: by the page's last line
    follow docs/RECOVERY.md 'Restore files from a copy' 1 DIR lost COPY "$2" >printed 2>&1 || true
    [[ $(tail -n 1 printed) == "$work/lost $1" ]] || wrong "docs/RECOVERY.md: a bag isn't restored: $1"
    runs_nothing docs/RECOVERY.md
    followed=$((followed + 1))
}
new_lost
find lost/data -type f -exec sh -c 'for file; do echo x >>"$file"; done' sh {} +
rm lost/data/gone lost/manifest-md5.txt
echo x | tee -a lost/-t >>lost/bag-info.txt
cp -a lost before
restores 'is valid' copy
diff -r lost copy
kept=$(cd lost.kept.* && find . -type f -exec cmp {} ../before/{} \; -printf .)
[[ $kept == ....... ]] || give_up "docs/RECOVERY.md: of 7 files that were replaced ${#kept} are kept"
restores 'is valid' copy
rm -r before
new_lost
echo bettex >lost/data/better
: >copy/data/better
rm lost/data/gone
cp -a lost before
restores 'has faults: 2' copy
diff <(diff -rq before lost) - <<<'Only in lost/data: gone' || give_up 'docs/RECOVERY.md: a better file is replaced'
ln -sf /proc/version copy/data/better
for names in 'lost copy' 'lost nowhere' 'nowhere copy' 'lost lost'; do
    fails docs/RECOVERY.md follow docs/RECOVERY.md 'Restore files from a copy' 1 DIR "${names% *}" COPY "${names#* }"
done
diff <(diff -rq before lost) - <<<'Only in lost/data: gone' || give_up 'docs/RECOVERY.md: a bag is restored from nowhere'
[[ ! $(compgen -G 'nowhere*') ]] || give_up 'docs/RECOVERY.md: something is made where no bag is'
rm -r lost* copy before
new_lost
mkdir elsewhere
mv copy elsewhere/
for bag in lost elsewhere/copy; do
    rm $bag/tagmanifest-*.txt
    printf '%s  data/../../evil\n' "$ma" | tee -a $bag/manifest-md5.txt >>$bag/manifest-sha512.txt
done
printf a >elsewhere/evil
restores 'has faults: 2' elsewhere/copy
[[ ! -e evil ]] || give_up 'docs/RECOVERY.md: a file is restored outside the bag'
rm -r lost* elsewhere

# UPDATING: a tag file is changed or removed together with its lines, also one whose name is spelled otherwise in them.
note=$'notes/-'$hostile$'\nend'
spelled_note="*./$(sed 's/%/%25/' <<<"${note%$'\n'*}")%0A${note#*$'\n'}"
new_mended() {
    rm -rf mended mended.kept.*
    new_hostile mended
    mkdir mended/notes
    echo note >"mended/$note"
    for algorithm in md5 sha512; do
        echo "$("${algorithm}sum" <"mended/$note" | cut -d ' ' -f 1) $spelled_note" \
            >>"mended/tagmanifest-$algorithm.txt"
    done
    [[ $(bagit --validate mended) == 'mended is valid' ]] || give_up "a bag with the tag file $note isn't valid"
}
mends() { # FILE CHANGE ANSWER: by the page's first command, whose editor makes the change; or by that which removes
    local way number=1 checked=$work/mended.new/bag
    [[ $2 != remove ]] || number=3
    [[ $3 != 'is valid' ]] || checked=$work/mended
    way=$(block docs/UPDATING.md 'Change a tag file' 1 | sed -n "${number}p; s/notes.txt/\"\$FILE\"/; s/DIR/mended/" | head -n 1)
    way=${way/DIR/mended} way=${way/bag-info.txt fetch.txt/\"\$FILE\"} way=${way/notes.txt/\"\$FILE\"}
    printf '#!/bin/bash\nfile=$1\n%s\n' "$2" >editor
    chmod +x editor
    cp -a mended untouched
    FILE=$1 EDITOR=$work/editor VISUAL='' bash <<<"$way" >printed 2>complaints || true
    [[ $(tail -n 1 printed) == "$checked $3" ]] ||
        { cat printed complaints; give_up "docs/UPDATING.md: after '$2' of $1 the last check says something else"; }
    [[ $3 == 'is valid' ]] || diff -r untouched mended || give_up "docs/UPDATING.md: '$2' of $1 changes a bag with faults"
    rm -r untouched
    followed=$((followed + 1))
}
adds='echo Bag-Software-Agent: us >>"$file"'
new_mended
mends bag-info.txt "$adds" 'is valid'
grep -v '^Bag-Software-Agent: us$' mended/bag-info.txt | cmp - mended.kept.*/bag-info.txt
for change in "$adds" remove; do
    new_mended
    mends "$note" "$change" 'is valid'
done
[[ ! -e mended/$note && $(sort mended/tagmanifest-*.txt | wc -l) == 8 ]] ||
    give_up "docs/UPDATING.md: a tag file isn't removed from the tag manifests alone"
new_mended
mends manifest-md5.txt remove 'is valid'
new_mended
{ cat mended/bag-info.txt && echo Bag-Software-Agent: us; } >new.txt
sed -n 2p <(block docs/UPDATING.md 'Change a tag file' 1) | sed s/DIR/mended/ | bash >printed 2>&1 || wrong 'docs/UPDATING.md: no file is taken'
cmp new.txt mended/bag-info.txt
rm new.txt

# What was damaged or removed before stays a fault, and so does a damaged byte of another file.
damages() { # DAMAGE FAULT
    new_mended
    (cd mended && eval "$1")
    mends bag-info.txt "$adds" 'has faults: 2'
    [[ $(cut -d ' ' -f 1-3 printed | sort | uniq -c) == *" 2 $2"* ]] || wrong "docs/UPDATING.md: after $1 it does not say $2"
}
damages 'sed -i s/Oxum/Oxun/ bag-info.txt' '702 tag-sum-differs bag-info.txt'
damages "sed -i '1s/[a-f]/\U&/' manifest-md5.txt" '702 tag-sum-differs manifest-md5.txt'
damages 'sed -i s/a/e/ data/a' '701 payload-sum-differs data/a'
damages 'rm bag-info.txt' '702 tag-sum-differs bag-info.txt'
new_mended
printf '#!/bin/bash\nrm "$1"\n' >editor
fails docs/UPDATING.md env EDITOR="$work/editor" bagit-keep edit mended bag-info.txt
bagit --validate --quiet mended
runs_nothing docs/UPDATING.md

# FAULTS: tag files in Latin-1 or UTF-16 are converted beside the bag, which stays as it is.
new_encoded() { # ENCODING
    rm -rf encoded unconverted utf8*
    mkdir -p encoded/data
    echo e >encoded/data/é
    printf 'BagIt-Version: 1.0\nTag-File-Character-Encoding: %s\n' "$1" >encoded/bagit.txt
    printf 'Contact-Name: André\nPayload-Oxum: 2.1\n' | iconv -f UTF-8 -t "$1" >encoded/bag-info.txt
    (cd encoded && sha256sum data/é | iconv -f UTF-8 -t "$1" >manifest-sha256.txt)
    (cd encoded && sha256sum -- *.txt) | iconv -f UTF-8 -t "$1" >tagmanifest
    mv tagmanifest encoded/tagmanifest-sha256.txt
}
converts() { follow docs/FAULTS.md 'Tag files in another encoding' "$1" DIR encoded ISO-8859-1 "$encoding"; }
for encoding in ISO-8859-1 UTF-16; do
    new_encoded "$encoding"
    cp -a encoded unconverted
    [[ $(converts 1) == 'utf8 is valid' && ! -e utf8.new ]] && diff -r unconverted encoded && converts 2 ||
        give_up "docs/FAULTS.md: a bag in $encoding is converted otherwise"
    new_encoded "$encoding"
    echo x >encoded/data/é
    fails "a bag in $encoding with a changed file" converts 1
    [[ $(<printed) == '701 payload-sum-differs data/%C3%A9 sha256 - '* ]] || give_up "docs/FAULTS.md: it says $(<printed)"
    echo >>encoded/bag-info.txt
    fails "a bag in $encoding with a changed tag file" converts 2
    followed=$((followed + 2))
done

# GUIDE: what is kept elsewhere tells a bag that was altered so that it is valid.
title='4. Store it'
for alters in true 'rm kept/tagmanifest-*.txt; echo X: y >>kept/bag-info.txt' \
    'rm -r kept/tagmanifest-*.txt kept/data/* kept/bag-info.txt; truncate -s 0 kept/manifest-*.txt'; do
    new_hostile kept
    rm -f kept.sha256
    follow docs/GUIDE.md "$title" 4 letters kept
    eval "$alters"
    [[ $(bagit --validate kept) == 'kept is valid' ]] || give_up "a bag isn't valid after $alters"
    status=0
    follow docs/GUIDE.md "$title" 5 letters kept >printed 2>&1 || status=$?
    [[ $status == 0 && $alters == true || $status != 0 && $alters != true ]] ||
        give_up "docs/GUIDE.md: what is kept elsewhere ends with $status after $alters"
    followed=$((followed + 1))
done
cp kept.sha256 written
echo X: y >>kept/bag-info.txt
for gone in true 'mv kept elsewhere' 'mkdir kept'; do # written again, the bag gone, an empty folder in its place
    $gone
    fails "$title" follow docs/GUIDE.md "$title" 4 letters kept
    cmp kept.sha256 written || give_up "docs/GUIDE.md: digests that were kept are lost after $gone"
done
rm kept.sha256
fails "$title" follow docs/GUIDE.md "$title" 4 letters kept
[[ ! -e kept.sha256 ]] || give_up 'docs/GUIDE.md: no digests are kept'

# FAULTS: a % is spelled anew in a bag of version 1.0, and not in an older one, which has a 105, as the row of 503 says.
row=$(grep '^|503|' "$root/docs/FAULTS.md")
for version in 1.0 0.96 0.93; do
    rm -rf older
    mkdir -p older/data
    declare_bag | sed "s/1\.0/$version/" >older/bagit.txt
    printf a >older/data/100%
    printf '%s  data/100%%\n' "$ma" >older/manifest-md5.txt
    fails "a bag of $version" bagit --validate older
    grep -q '^503 ' printed || wrong "a bag of $version has no 503"
    ! grep -q '^105 ' printed || [[ $row == *'With a 105 of 0.93 to 0.96 leave it'* ]] || wrong 'docs/FAULTS.md: 503 in an old bag'
done
compares=$(grep -o '(cd DIR && md5sum [^`]*' <<<"$row")
bash <<<"${compares/DIR/older}" || give_up "docs/FAULTS.md: '$compares' finds a fault in an old bag"
echo >>older/data/100%
fails docs/FAULTS.md bash <<<"${compares/DIR/older}"
printf a >older/data/100%
declare_bag >older/bagit.txt
[[ $row == *'Write `%25` for a `%`'* ]] && sed -i 's/%/%25/' older/manifest-md5.txt
[[ $(bagit --validate older) == 'older is valid' ]] || give_up 'docs/FAULTS.md: what 503 says does not help'
followed=$((followed + 4))

# PROFILES: of the keys with a wrong value the first of its table is named, and the archive file's way round lets a bag pass.
mapfile -t keys < <(sed -n '/^## The keys$/,/^## /s/^| *`\([^`]*\)` *|.*/\1/p' "$root/docs/PROFILES.md")
((${#keys[@]} == 11)) || give_up "docs/PROFILES.md: its table has ${#keys[@]} keys"
for ((first = 1; first < ${#keys[@]}; first++)); do
    printf '{"BagIt-Profile-Info": {"BagIt-Profile-Identifier": "x"}%s}' "$(printf ', "%s": 5' "${keys[@]:first}")" >wrong.json
    status=0
    bagit --validate --profile wrong.json deposit 2>printed || status=$?
    [[ $status == 2 && $(<printed) == "bagit: profile: wrong shape: ${keys[first]}" ]] ||
        give_up "docs/PROFILES.md: ${keys[first]} should be named, not: $(<printed)"
done
mkdir -p asks/deposit
echo a >asks/deposit/a
bagit --quiet --bagit-profile-identifier x asks/deposit
echo '{"BagIt-Profile-Info": {"BagIt-Profile-Identifier": "x"}, "Serialization": "required"}' >asks/profile.json
! bagit --validate --profile asks/profile.json asks/deposit >printed || give_up 'docs/PROFILES.md: a folder is taken for an archive file'
(cd asks && block docs/PROFILES.md 'Serialised bags' 1 | bash -e) >printed
[[ $(<printed) == 'deposit is valid' ]] || give_up "docs/PROFILES.md: by the copy of a profile: $(<printed)"
followed=$((followed + ${#keys[@]}))

# PROFILES: an element that no making writes is added as FAULTS says; `?` in a pattern is itself, and a folded value is
# another one.
new_mended
cat >asks.json <<'END'
{"BagIt-Profile-Info": {"BagIt-Profile-Identifier": "x"}, "Tag-Files-Allowed": ["notes/*", "?"],
 "Bag-Info": {"Bag-Software-Agent": {"required": true, "values": ["us and them"]}}}
END
asks() { bagit --validate --profile asks.json mended; }
finds() { # CODE-AND-PATH: the only fault
    fails docs/PROFILES.md asks
    [[ $(wc -l <printed) == 2 && $(<printed) == "$1"* ]] || give_up "docs/PROFILES.md: not $1 but $(<printed)"
}
mends bag-info.txt 'printf "BagIt-Profile-Identifier: x\nBag-Software-Agent: us and them\n" >>"$file"' 'is valid'
[[ $(asks) == 'mended is valid' ]] || give_up 'docs/PROFILES.md: an element that was added is not found'
echo >mended/x
finds '810 tag-file-not-allowed x '
rm mended/x
mends bag-info.txt 'sed -i "s/us and/us\n and/" "$file"' 'is valid'
finds '804 value-not-allowed bag-info.txt '

# FAQ: its example in Python, of a bag that is created, and of one with a fault.
rm -rf photographs
mkdir photographs
echo a >photographs/a
{ block docs/FAQ.md 'In a Python program' 1 && block docs/FAQ.md 'In a Python program' 2; } >example.py
example() { PYTHONPATH=$root/companions python3 example.py >printed 2>&1; }
example && bagit --validate --quiet photographs || wrong 'docs/FAQ.md: its example fails'
[[ $(grep -c '^Contact-Name: ' photographs/bag-info.txt) == 2 ]] || give_up 'docs/FAQ.md: its example loses a value'
flip photographs/data/a
sed -i s/^bag.=.*/'bag = bagit.Bag("photographs")'/ example.py
example || wrong 'docs/FAQ.md: its example fails over a fault'
grep -q '^data/a ' printed || wrong 'docs/FAQ.md: its example does not print the fault'
followed=$((followed + 2))

# LIBRARY: the crates that its commands copy are all that these need of this repository (they are linked here, as what is made of them
# is large), and what it quotes stands in the crates of its examples, line by line.
mkdir own
block docs/LIBRARY.md 'Into a repository of your own' 1 | sed "s#cp -r \.\./bagit#ln -s $root#; s#\.\./bagit#$root#" >way
(cd own && bash -e ../way)
[[ $(wc -l <own/crates.txt) -gt 10 && $(cd own/crates && ls -d -- */src | wc -l) == "$(wc -l <own/crates.txt)" ]] ||
    give_up 'docs/LIBRARY.md: its commands copy other crates than they name'
cut -d : -f 2 own/crates.txt | tr ' ' '\n' | sort -u | while IFS= read -r needed; do
    [[ ! -d $root/crates/$needed || ! $needed || -d own/crates/$needed ]] || give_up "docs/LIBRARY.md: its commands leave out $needed"
done
awk '/^```rust$/ { n++; inside = 1; next } /^```$/ { inside = 0 } inside { print > ("quoted" n) }' "$root/docs/LIBRARY.md"
for quoted in quoted*; do
    for file in "$root"/crates/{example_calls,example_deposits}/src/*.rt; do
        awk -v wanted="$quoted" '
            BEGIN { while ((getline line < wanted) > 0) lines[++count] = line }
            { at = $0 == lines[at + 1] ? at + 1 : $0 == lines[1]; if (at == count) found = 1 }
            END { exit !found }' "$file" && continue 2
    done
    cat "$quoted"
    give_up 'docs/LIBRARY.md: this stands nowhere in crates/example_calls and crates/example_deposits'
done
followed=$((followed + 1 + $(ls quoted* | wc -l)))

wait "$looks" && grep -qxF "$work/look is valid" looked || { cat looked; give_up 'README: the first look fails'; }
followed=$((followed + 1))

echo "followed $followed parts of the pages as they are written"
