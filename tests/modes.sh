#!/usr/bin/env bash
# Makes bags of folders of several modes, owners and groups, with several umasks: `data` has the mode, the owner and the group of the
# folder that was made a bag, and tag files have its owner and group, as far as the system lets it; who may read the folder may read the
# bag. Where the system refuses that, the bag is made all the same. A folder that somebody links in the place of the new one keeps its own.
#
# Then it renews bags: a tag file that is put has the mode, the owner and the group of the file in whose place it comes, a new one those of
# bagit.txt, and until it has its name nobody else can open it. Where the system refuses a mode, nothing is put; where it refuses an owner or
# a group, nobody can read what he couldn't before.
#
# usage: tests/modes.sh [BAGIT [BAGIT_RENEW]]
#
# BAGIT is crates/bagit/out/bagit by default, and BAGIT_RENEW what stands in crates/bagit_renew/out; `rt run` and `rt ci` leave them there.
# It needs strace. Only root can give owners, and work as several users (by setpriv): without root that is left out, and said.
set -euo pipefail
source "$(dirname "$0")/common.sh"
take_renew "${2:-}"
take_program bagit "${1:-}"
needs strace
enter modes
umask 022

# A folder that is to be made a bag, of a mode, and of an owner and a group if they are given.
new_folder() {
    rm -rf folder
    mkdir folder
    echo a >folder/file
    [[ -z ${2:-} ]] || chown -R "$2" folder
    chmod "$1" folder
}

# Runs a command as a user with groups, of which the first is the user's own.
as() {
    setpriv --reuid "$1" --regid "${2%%,*}" --groups "$2" "${@:3}"
}

folders=0
for mode in 755 2770 700 1777; do
    for mask in 022 077 002; do
        new_folder "$mode"
        (umask "$mask" && "$program" --md5 folder >output)
        [[ $(<output) == 'folder made' && $(stat -c %a folder/data) == "$mode" && $(stat -c %a folder) == "$mode" ]] ||
            give_up "of mode $mode, with umask $mask: $(<output), and data has mode $(stat -c %a folder/data)"
        folders=$((folders + 1))
    done
done
for group in $(id -G); do
    new_folder 770 ":$group"
    "$program" --md5 folder >output
    [[ $(stat -c %g folder/data folder/*.txt | sort -u) == "$group" ]] || give_up "of group $group: $(<output), $(stat -c '%g %n' folder/*)"
    folders=$((folders + 1))
done
echo "data has the folder's mode and group in $folders bags"

# Where the system refuses to give a mode, an owner and a group.
new_folder 750
strace -qq -o calls -e trace=fchmod,fchown -e inject=fchmod,fchown:error=EPERM "$program" --md5 folder >output
for call in fchmod fchown; do
    grep -q "^$call.*INJECTED" calls || give_up "there was no $call to refuse"
done
[[ $(<output) == 'folder made' && $("$program" --validate folder) == 'folder is valid' ]] || give_up "refused a mode: $(<output)"

is_root=no
if [[ $(id -u) == 0 ]] && chown 1234:2000 . && as 1234 1234,2000 true && chown 0:0 .; then is_root=yes; fi 2>/dev/null

# While the program waits after it made the new folder, a link to another one is put in its place.
new_folder 750 "$([[ $is_root == no ]] || echo 1234:2000)"
mkdir -m 711 other
before=$(stat -c '%a %u:%g' other)
strace -qq -o calls -e trace=mkdir,mkdirat -e inject=mkdir,mkdirat:delay_exit=2000000 "$program" --md5 folder >output &
for _ in {1..200}; do
    [[ ! -d folder/.bagit-new ]] || break
    sleep 0.05
done
rmdir folder/.bagit-new
ln -s ../other folder/.bagit-new
status=0
wait $! || status=$?
[[ $status == 3 && $(<output) == 'folder not made: '* ]] || give_up "with a link in its place: status $status, $(<output)"
[[ $(stat -c '%a %u:%g' other) == "$before" && -z $(ls other) && -f folder/file ]] ||
    give_up "the folder that was linked was $before, and is $(stat -c '%a %u:%g' other)"
echo "a bag is made where a mode can't be given, and a folder that is linked in the place of data keeps its own"

# A bag, of whose tag files each has another mode; that of bagit.txt is given.
new_bag() {
    new_folder 755
    "$program" --md5 --sha1 --contact-name Ann folder >output
    chmod "$1" folder/bagit.txt
    chmod 600 folder/bag-info.txt
    chmod 640 folder/manifest-md5.txt
    chmod 400 folder/tagmanifest-md5.txt
    chmod 664 folder/tagmanifest-sha1.txt
}

for mask in 022 077 000; do
    for mode in 644 600; do
        new_bag "$mode"
        (umask "$mask" && "$renew" --add sha512 --set Contact-Name=Bob folder >output) || give_up "umask $mask: $(<output)"
        diff - <(stat -c '%n %a' folder/*.txt) <<END || give_up "renewed with umask $mask: tag files have other modes"
folder/bag-info.txt 600
folder/bagit.txt $mode
folder/manifest-md5.txt 640
folder/manifest-sha1.txt 644
folder/manifest-sha512.txt $mode
folder/tagmanifest-md5.txt 400
folder/tagmanifest-sha1.txt 664
folder/tagmanifest-sha512.txt $mode
END
        [[ $("$program" --validate folder) == 'folder is valid' ]] || give_up "renewed with umask $mask: it isn't valid"
    done
done

# Each file is begun with mode 600, and another one is given, and synced, before it gets its name.
new_bag 644
strace -qq -y -o calls -e trace=openat,fchmod,fsync,rename "$renew" --set Contact-Name=Bob folder >output
grep -F .bagit-begun calls >begun
[[ $(grep -c 'O_CREAT.*, 0600)' begun) == 3 ]] || give_up "a file isn't begun with mode 600: $(<begun)"
awk '/^fchmod/ { given++; unsynced = 1 } /^fsync/ { unsynced = 0 } /^rename/ { wrong += unsynced } END { exit wrong || given != 2 }' begun ||
    give_up "a mode isn't synced before the name: $(<begun)"
echo 'tag files of renewed bags have the modes that they had, and new ones that of bagit.txt'

# Where the system refuses a mode, nothing is put, and nothing is open to others; the same command renews the bag then.
for error in EPERM EACCES EIO ENOSPC; do
    new_bag 644
    status=0
    strace -qq -o calls -e trace=fchmod -e inject=fchmod:error=$error:when=1 "$renew" --set Contact-Name=Bob folder >output 2>errors || status=$?
    grep -q INJECTED calls || give_up 'there was no fchmod to refuse'
    [[ $status == 3 && $(<output) == 'folder not renewed: put tagmanifest-md5.txt device' ]] || give_up "$error of a mode: $status, $(<output)"
    [[ $(stat -c %a folder/bag-info.txt folder/.bagit-begun | sort -u) == 600 ]] || give_up "$error of a mode: what was put is open to others"
    [[ $("$program" --validate folder) == 'folder is valid' ]] || give_up "$error of a mode: no valid bag is left"
    "$renew" --set Contact-Name=Bob folder >output || give_up "after $error of a mode: $(<output)"
done
echo 'where a mode is refused, nothing is put'

if [[ $is_root == no ]]; then
    echo "skipped: owners, and other users, since this isn't root"
    exit
fi

# Each line: who makes the bag, with which groups and umask; the folder's owner, group and mode; the owner and the group that `data` and
# the tag files must have; and who else must be able to read the bag.
install -m 755 "$program" bagit
chmod 755 .
bags=0
while read -r user groups mask owner mode wanted reader reader_groups; do
    what="of $owner $mode, made by $user of $groups with umask $mask"
    new_folder "$mode" "$owner"
    (umask "$mask" && as "$user" "$groups" ./bagit --md5 folder >output) || give_up "$what: $(<output)"
    found=$(stat -c %u:%g folder/data folder/*.txt | sort -u)
    [[ $found == "$wanted" ]] || give_up "$what: not $wanted, but $found"
    [[ $(stat -c %a folder/data) == "$mode" ]] || give_up "$what: data has mode $(stat -c %a folder/data)"
    [[ $(stat -c %u:%g folder/data/file) == "$owner" ]] || give_up "$what: the file has another owner"
    [[ $(as "$reader" "$reader_groups" cat folder/data/file) == a ]] || give_up "$what: $reader can't read a file"
    [[ $(as "$reader" "$reader_groups" ./bagit --validate folder) == 'folder is valid' ]] || give_up "$what: $reader can't check it"
    bags=$((bags + 1))
done <<'END'
1234 1234,2000 022 1234:2000 770 1234:2000 1235 1235,2000
1235 1235,2000 002 1234:2000 770 1235:2000 1234 1234,2000
1235 1235,2000 027 1234:2000 2770 1235:2000 1236 1236,2000
1235 1235 022 1234:2000 777 1235:1235 1234 1234
0 0 077 1234:1234 700 1234:1234 1234 1234
0 0 022 1234:2000 2750 1234:2000 1235 1235,2000
END
((bags == 6)) || give_up "only $bags bags of other users"
echo "data and tag files have the owner and the group that the maker of the bag may give, in $bags bags"

# Root renews a bag whose tag files have several owners and groups: they keep them.
new_bag 604
chown 1234:2000 folder folder/bagit.txt
chown 1235:2001 folder/bag-info.txt folder/tagmanifest-md5.txt
"$renew" --add sha512 --set Contact-Name=Bob folder >output || give_up "renewed by root: $(<output)"
diff - <(stat -c '%n %a %u:%g' folder/*.txt) <<END || give_up 'renewed by root: tag files have other modes or owners'
folder/bag-info.txt 600 1235:2001
folder/bagit.txt 604 1234:2000
folder/manifest-md5.txt 640 0:0
folder/manifest-sha1.txt 644 0:0
folder/manifest-sha512.txt 604 1234:2000
folder/tagmanifest-md5.txt 400 1235:2001
folder/tagmanifest-sha1.txt 664 0:0
folder/tagmanifest-sha512.txt 604 1234:2000
END

# Each line: the groups of a user who renews a bag of another one and of the group 2000; the mode of its tag files; and the group and the
# mode of those that he puts. If he may not give the group, his file is open to no group and to no others but those who could all open it.
install -m 755 "$renew" bagit-renew
renewed=0
while read -r groups mode wanted; do
    what="of mode $mode, renewed by 1235 of $groups"
    new_bag 644
    chown -R 1234:2000 folder
    chmod 777 folder
    chmod "$mode" folder/*.txt
    as 1235 "$groups" ./bagit-renew --set Contact-Name=Bob folder >output || give_up "$what: $(<output)"
    found=$(stat -c '%u %g %a' folder/bag-info.txt folder/tagmanifest-*.txt | sort -u)
    [[ $found == "1235 $wanted" ]] || give_up "$what: not 1235 $wanted, but $found"
    [[ $(stat -c '%u %g %a' folder/bagit.txt folder/manifest-*.txt | sort -u) == "1234 2000 $mode" ]] || give_up "$what: others were touched"
    [[ $("$program" --validate folder) == 'folder is valid' ]] || give_up "$what: it isn't valid"
    renewed=$((renewed + 1))
done <<'END'
1235,2000 640 2000 640
1235,2000 664 2000 664
1235 644 1235 644
1235 664 1235 644
1235 604 1235 600
1235 666 1235 666
END
((renewed == 6)) || give_up "only $renewed renewed bags of another user"
echo "tag files that another user puts have their group, if he may give it, and are open to nobody else, in $renewed bags"
