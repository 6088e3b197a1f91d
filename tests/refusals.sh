#!/usr/bin/env bash
# Sees that standard error names what the system refused, and says why, of checks, makings and renewals: a folder that isn't there, a file in
# its place, a folder and a file without permission, a full disk, and a disk that fails; also of tar files. The report has its closing
# line, and the status is 3.
#
# usage: tests/refusals.sh [BAGIT [BAGIT_RENEW]]
#
# BAGIT is crates/bagit/out/bagit by default, and BAGIT_RENEW what stands in crates/bagit_renew/out. It needs strace, and of root setpriv.
set -euo pipefail
source "$(dirname "$0")/common.sh"
take_renew "${2:-}"
take_program bagit "${1:-}"
needs strace
((EUID)) || needs setpriv
enter refusals
cp "$program" bagit
cp "$renew" bagit-renew
chmod 755 bagit bagit-renew
chmod 777 .

answers=0
user=() disk=()
((EUID)) || user=(setpriv --reuid 65534 --regid 65534 --clear-groups)

# Runs a command as somebody who isn't root, and compares its output and standard error with one line each.
says() { # OUTPUT ERRORS COMMAND..
    local status=0
    "${user[@]}" "${disk[@]}" "${@:3}" >output 2>errors || status=$?
    diff <(echo "$1") output || give_up "${*:3}: it writes something else"
    diff <(echo "$2") errors || give_up "${*:3}: it says something else"
    [[ $status == 3 ]] || give_up "${*:3}: it ends with $status"
    answers=$((answers + 1))
}

# The same for a folder that can't be listed, of a check, a making and a renewal.
unlisted() { # FOLDER PATH WHY
    says "${1:--} unread - device, faults: 0" "bagit: $2: $3" ./bagit --validate "$1"
    says "${1:--} not made: read - device" "bagit: $2: $3" ./bagit "$1"
    says "${1:--} not renewed: read - device" "bagit-renew: $2: $3" ./bagit-renew --set Contact-Name=Ann "$1"
}

# A folder of two files, and a bag of them; nobody writes their files but to make a bag.
new_folders() {
    rm -rf letters deposit
    mkdir -p letters/inner
    echo one >letters/first
    echo two >letters/inner/second
    cp -r letters deposit
    ./bagit --quiet --sha256 deposit
    chmod -R a+rwX letters deposit
}

unlisted absent absent 'not there'
unlisted '' - 'not there'
echo a >file
unlisted file file 'not a folder'
unlisted file/below file/below 'not a folder'
mkdir -m 000 closed
unlisted closed closed 'permission denied'

# Below the folder it is what is there that is named.
new_folders
chmod 000 letters/inner deposit/data/inner
says 'deposit unread - device, faults: 0' 'bagit: deposit/data/inner: permission denied' ./bagit --validate deposit
says 'letters not made: read - device' 'bagit: letters/inner: permission denied' ./bagit letters
says 'deposit not renewed: read - device' 'bagit-renew: deposit/data/inner: permission denied' ./bagit-renew --add md5 deposit
new_folders
chmod 000 letters/first deposit/data/first
says 'deposit unread data/first device, faults: 0' 'bagit: deposit/data/first: permission denied' ./bagit --validate deposit
says 'letters not made: read first device' 'bagit: letters/first: permission denied' ./bagit letters
says 'deposit not renewed: read data/first device' 'bagit-renew: deposit/data/first: permission denied' ./bagit-renew --add md5 deposit

# A disk that fails or is full, where a call would read or write what stands at a path.
refuses() { # PATH CALL ERROR
    disk=(strace -qq -o calls -P "$work/$1" -e inject="$2:error=$3")
}
new_folders
why='Input/output error (os error 5)'
refuses deposit/data/first read EIO
says 'deposit unread data/first device, faults: 0' "bagit: deposit/data/first: $why" ./bagit --validate deposit
says 'deposit not renewed: read data/first device' "bagit-renew: deposit/data/first: $why" ./bagit-renew --add md5 deposit
refuses letters/first read EIO
says 'letters not made: read first device' "bagit: letters/first: $why" ./bagit letters
refuses deposit/data/inner getdents64 EIO
says 'deposit unread - device, faults: 0' "bagit: deposit/data/inner: $why" ./bagit --validate deposit
why='No space left on device (os error 28)'
refuses deposit/.bagit-begun write ENOSPC
says 'deposit not renewed: put manifest-md5.txt device' "bagit-renew: deposit/.bagit-begun: $why" ./bagit-renew --add md5 deposit
refuses letters/bagit.txt write ENOSPC
says 'letters not made: step 5 device' "bagit: letters/bagit.txt: $why" ./bagit letters

# A tar file whose first folder is called as a packed file begins is no packed file, and nothing is said of it; a read of it is refused.
disk=()
new_folders
mv deposit BZh9
tar -cf BZh9.tar BZh9
[[ $(./bagit --validate --tar BZh9.tar 2>&1) == 'BZh9.tar is valid' ]] || give_up 'BZh9.tar: something else is said'
gzip -k BZh9.tar
packed=$(./bagit --validate --tar BZh9.tar.gz 2>&1 >/dev/null) || true
[[ $packed == 'bagit: BZh9.tar.gz: gzip, unpack it first' ]] || give_up "BZh9.tar.gz: $packed"
refuses BZh9.tar read EIO
says 'BZh9.tar unread - device, faults: 0' 'bagit: BZh9.tar: Input/output error (os error 5)' ./bagit --validate --tar BZh9.tar

echo "standard error says what was refused, and why, $answers times"
