#!/usr/bin/env bash
# Checks bags by `bagit-keep check`, over a disk that fails now and then. The report must be that of one check of the bag, byte for byte,
# whichever calls fail, and also if it is killed and goes on: a part that is done is never read again. A bag that wasn't read to its end,
# or was altered in between, is never called valid. No clock, lock, stream or user changes that.
#
# usage: tests/segments.sh [PROGRAM]
#
# PROGRAM is crates/bagit/out/bagit by default, which `rt run` and `rt ci` leave there. As root it mounts disks, where that is allowed.
set -euo pipefail
source "$(dirname "$0")/common.sh"
for tool in cc python3; do needs "$tool"; done
take_program bagit "${1:-}"
enter segments
trap 'umount "$work"/{disk,d/data/x} 2>/dev/null || true; rm -rf "$work"' EXIT
quick_python
mkdir bin
export PATH=$work/bin:$PATH
keep=$root/companions/bagit-keep

# Runs `bagit-keep check`: what it writes is in `end` and `errors`.
check() {
    status=0
    "$keep" check --wait 0 "$@" >end 2>errors || status=$?
    ! grep Traceback errors || { cat errors; give_up "it went wrong: $*"; }
}

# What is left of a check that came to its end: the report, as in this file or of this line, and nothing beside it.
has_report() {
    [[ -e $1 ]] || { echo "$1" >line && set -- line "${@:2}"; }
    [[ $status == "$2" && $(<end) == "$(tail -n 1 "$1")" ]] || give_up "$3: it ends with $status: $(cat end; tail -n 3 errors)"
    diff "$1" report
    [[ $(echo report*) == report ]] || give_up "$3: it leaves $(echo report*)"
    rm report
}

# What is left of a check that didn't come to its end: no report.
has_no_report() {
    [[ $status == 3 && ! -s end && ! -e report ]] || give_up "$1: it ends with $status: $(cat end errors)"
}
says() { grep -qF -- "$1" errors || give_up "it doesn't say '$1', but: $(<errors)"; }
altered() { has_no_report "$1" && says "$2 was altered since the check began; remove report.parts to begin anew"; }

# Calls of the program fail by EIO: each so-many-th opening of a payload file, or reading of one. Openings take some time if that is asked
# for. And a system without locks.
cat >failing.c <<'END'
#define _GNU_SOURCE
#include <dlfcn.h>
#include <errno.h>
#include <fcntl.h>
#include <stdarg.h>
#include <stdlib.h>
#include <string.h>
#include <sys/stat.h>
#include <unistd.h>

static int payload_fd = -1;

/* Counts a call by a byte of a file, and says whether it fails. */
static int fails(const char *counter, const char *every) {
    const char *path = getenv(counter), *number = getenv(every);
    struct stat state;
    if (!path) return 0;
    int (*next_open)(const char *, int, ...) = dlsym(RTLD_NEXT, "open");
    int fd = next_open(path, O_WRONLY | O_APPEND | O_CREAT, 0666);
    if (fd < 0 || write(fd, "x", 1) != 1 || fstat(fd, &state) != 0) abort();
    close(fd);
    return number && state.st_size % atol(number) == 0;
}

static int open_by(const char *name, const char *path, int flags, mode_t mode) {
    int (*next_open)(const char *, int, ...) = dlsym(RTLD_NEXT, name);
    const char *pause = getenv("PAUSE"), *bad = getenv("BAD_FILE");
    int is_payload = strstr(path, "/data/") && !(flags & O_DIRECTORY);
    if (is_payload) {
        if (fails("OPENINGS", "FAILING_OPENING") || (bad && strstr(path, bad))) {
            errno = EIO;
            return -1;
        }
    }
    int fd = next_open(path, flags, mode);
    if (is_payload && pause) usleep(atoi(pause));
    if (is_payload) payload_fd = fd;
    else if (fd == payload_fd) payload_fd = -1;
    return fd;
}

#define OPEN(name) \
    int name(const char *path, int flags, ...) { \
        va_list rest; \
        va_start(rest, flags); \
        mode_t mode = flags & O_CREAT ? va_arg(rest, mode_t) : 0; \
        va_end(rest); \
        return open_by(#name, path, flags, mode); \
    }
OPEN(open)
OPEN(open64)

ssize_t read(int fd, void *to, size_t most) {
    ssize_t (*next_read)(int, void *, size_t) = dlsym(RTLD_NEXT, "read");
    if (fd == payload_fd && fails("READINGS", "FAILING_READING")) {
        errno = EIO;
        return -1;
    }
    return next_read(fd, to, most);
}
END
cc -O1 -shared -fPIC -o failing.so failing.c -ldl
cat >no_locks.c <<'END'
#define _GNU_SOURCE
#include <dlfcn.h>
#include <errno.h>
#include <fcntl.h>
#include <stdarg.h>
#include <stdlib.h>

static int no_lock(void) {
    errno = getenv("NO_LOCKS")[0] == 'S' ? ENOSYS : ENOLCK;
    return -1;
}
int flock(int fd, int how) { return no_lock(); }
#define FCNTL(name) \
    int name(int fd, int command, ...) { \
        va_list rest; \
        va_start(rest, command); \
        void *argument = va_arg(rest, void *); \
        va_end(rest); \
        if (command == F_SETLK || command == F_SETLKW || command == F_OFD_SETLK) return no_lock(); \
        int (*next)(int, int, ...) = dlsym(RTLD_NEXT, #name); \
        return next(fd, command, argument); \
    }
FCNTL(fcntl)
FCNTL(fcntl64)
END
cc -O1 -shared -fPIC -o no_locks.so no_locks.c -ldl
cat >bin/bagit <<END
#!/bin/sh
echo "\$*" >>"$work/calls"
echo "\$\$" >"$work/pid"
LD_PRELOAD=$work/failing.so exec "$program" "\$@"
END
chmod +x bin/bagit
export OPENINGS=$work/openings READINGS=$work/readings

# Damaged bags, whose names are what they may be: the same report, whichever openings and readings fail, in any number of parts.
mkdir -p d/x 'd/x y' d/é
for name in plain 'two words' '100%' '%25' "it's" '"quoted"' $'two\nlines' $'tab\tand\rreturn' - '$(touch ran)' \
    'a;touch ran' x/1 x/2 'x y/1' é/1 $'\e[2J' ' unread data' 'z device, faults: 0'; do
    printf '%s' "$name" >"d/$name"
done
"$program" --md5 --sha1 --sha512 d >made
cp -a d pristine
damage() {
    rm -rf d
    cp -a pristine d
    find d/data -type f -print0 | sort -z >files
    local number=0
    while IFS= read -rd '' file; do
        number=$((number + 1))
        case $((number % $1)) in
            0) echo more >>"$file" ;;
            1) [[ $1 == 2 ]] || rm "$file" ;;
        esac
    done <files
    echo more >>d/tagmanifest-md5.txt
    [[ $1 == 2 ]] || : >d/data/unlisted
}
checks=0
for every in 2 3; do
    damage "$every"
    bagit --validate d >wanted || [[ $? == 1 ]]
    (($(wc -l <wanted) > 10)) || give_up 'too little is damaged'
    for failing in OPENING=20 READING=40; do
        for parts in 1 6; do
            head -c 15 /dev/zero >openings
            head -c 31 /dev/zero >readings
            export "FAILING_$failing"
            check --parts "$parts" d report
            export -n "FAILING_${failing%=*}"
            has_report wanted 1 "$failing, $parts parts"
            says ' unread data/'
            checks=$((checks + 1))
        done
    done
done
[[ ! -e ran && ! -e d/ran ]] || give_up 'a name runs a command'
echo "damaged bags: $checks checks give the report of one"

# A bag whose folder isn't there in each third call.
cat >coming <<END
#!/usr/bin/env bash
calls=\$((\$(cat "$work/turns") + 1))
echo "\$calls" >"$work/turns"
if ((calls % 3 == 0)); then mv d away; mkdir d; fi
bagit "\$@"
status=\$?
if ((calls % 3 == 0)); then rmdir d; mv away d; fi
exit "\$status"
END
chmod +x coming
echo 0 >turns
BAGIT=$work/coming check --parts 4 d report
has_no_report 'another folder was there for a while'
rm -rf report.parts

# One file that can't be read, however often it is tried: no report, and what was found is named. With --go-past, what comes after it is
# checked too. Then it can be read, and only its part is.
damage 3
bagit --validate d >wanted || [[ $? == 1 ]]
BAD_FILE=/data/x/ check --tries 4 --parts 5 d report
has_no_report 'a file that is bad'
[[ $(grep -c ' unread data/x/.* device, ' errors) == 4 ]] || give_up "it tries $(grep -c unread errors) times"
bad=$(sed -n 's/.*part \([1-5]\) of 5: .*unread.*/\1/p' errors | head -n 1)
says "of 5 parts these aren't done: $bad"
BAD_FILE=/data/x/ check --tries 1 --go-past d report
has_no_report 'a file that is passed by'
says "part $bad of 5: d unread data/x/1 device, faults: "
says "part $bad of 5: d part $bad of 5 rest done, "
says "of 5 parts these aren't done: $bad"
cat report.parts/*.part report.parts/"$bad".*.{try,past} | grep '^[1-8]' | sort -u >found
diff <(grep -v ' data/x/' wanted | grep '^[1-8]' | sort) <(grep -v ' data/x/' found) || give_up 'beyond a bad file it finds others'
: >calls
check d report
has_report wanted 1 'a file that was bad'
[[ $(grep -c -- --part calls) == 1 ]] || give_up 'parts that were done are read again'
for cause in 'mkfifo d/data/pipe' 'rm d/data/pipe; chmod 0 d/data/x'; do
    eval "$cause"
    if [[ $cause == *chmod* && $(id -u) == 0 ]]; then
        # Another user than root: what it may not read is never taken for read, and once it may the check is made.
        chmod 777 . && chmod -R a+rwX d bin failing.so && chmod 0 d/data/x
        as_nobody() { setpriv --reuid 65534 --regid 65534 --clear-groups "$@"; }
        as_nobody test -x "$program" && as_nobody test -r "$keep" || continue
        status=0
        as_nobody env BAGIT="$program" "$keep" check --wait 0 --tries 2 d report >end 2>errors || status=$?
        has_no_report 'what nobody may read'
        chmod 755 d/data/x
        rm -rf report.parts
        as_nobody env BAGIT="$program" "$keep" check --wait 0 --tries 2 d report >end 2>errors || status=$?
        [[ $status == 1 && $(<end) == "$(tail -n 1 report)" ]] || give_up "as nobody it ends with $status: $(<errors)"
        rm -f report
    elif [[ $cause == mkfifo* ]]; then
        : >calls
        check --tries 4 d report
        has_no_report "$cause"
        [[ $(wc -l <calls) == 1 ]] || give_up 'a pipe is tried again'
    fi
    rm -rf report.parts
done
chmod -R u+rwX d
echo "a file that can't be read: no report until it can be"

# Killed after any number of openings, it goes on: a part that is done isn't read again. No process is left.
rm -rf d
mkdir d
for file in {10..49}; do echo "$file" >"d/$file"; done
"$program" --md5 d >made
for end in KILL TERM INT HUP child guard; do
    killed=0
    : >openings
    until [[ -e report ]]; do
        : >calls
        done_parts=$(ls report.parts 2>/dev/null | grep -c 'part$' || true)
        most=$(($(stat -c %s openings) + 3 + RANDOM % 12))
        (trap - INT; PAUSE=20000 exec setsid "$keep" check --wait 0 --tries 3 --parts 10 --jobs 2 d report) >end 2>errors &
        until (($(stat -c %s openings) >= most)) || [[ ! -e /proc/$! ]]; do sleep 0.01; done
        case $end in
            child) kill -KILL "$(<pid)" 2>/dev/null || true ;;
            guard) for guard in $(pgrep -P $! -f BAGIT_KEEP_GUARD); do kill -KILL "$guard" 2>/dev/null || true; done ;;
            *) kill -"$end" "$!" 2>/dev/null || true ;;
        esac
        status=0
        wait "$!" 2>/dev/null || status=$?
        case $end in
            KILL) [[ $status == 137 || -e report ]] || give_up "killed it ends with $status" ;;
            TERM | INT | HUP) [[ $status == 3 || -e report ]] || give_up "ended by $end it ends with $status: $(<errors)" ;;
            *) [[ $status == 0 && -e report ]] || give_up "a $end was killed, and it ends with $status: $(<errors)" ;;
        esac
        for _ in {1..100}; do
            pgrep -f "$program --validate .* -- d\$" >/dev/null || break
            sleep 0.05
        done
        ! pgrep -f "$program --validate .* -- d\$" || give_up "$end leaves a process"
        killed=$((killed + 1))
        ((killed < 60)) || give_up 'killed again and again, a good bag does not come to its end'
        (($(grep -c -- --part calls || true) <= 10 - done_parts + 3)) || give_up "done parts are read again: $done_parts, $(<calls)"
    done
    diff report <(echo 'd is valid')
    [[ $(echo report*) == report ]] || give_up "$end: it leaves $(echo report*)"
    rm report
    echo "$end, $killed times: $(stat -c %s openings) openings of 40 files, and the report of one check"
done

# Two at once are refused, by locks and without them; what a killed one has left there says whose it was.
printf '#!/bin/sh\ntouch "%s/held"\nuntil [ -e "%s/go" ]; do sleep 0.1; done\nexec bagit "$@"\n' "$work" "$work" >holding
chmod +x holding
for locks in '' SYS LCK; do
    preload=$([[ ! $locks ]] || echo "$work/no_locks.so")
    for words in '--parts 2' '--task 1/2'; do
        rm -f held go
        # shellcheck disable=SC2086
        BAGIT=$work/holding NO_LOCKS=$locks LD_PRELOAD=$preload "$keep" check --wait 0 $words d report >first 2>&1 &
        until [[ -e held ]]; do sleep 0.05; done
        for others in '--parts 2' '--task 1/2'; do
            # shellcheck disable=SC2086
            BAGIT=$work/holding NO_LOCKS=$locks LD_PRELOAD=$preload check $others d report
            has_no_report "two at once, with $words and $others"
            says 'another process is at work in report.parts'
            [[ ! $locks ]] || says "$(hostname) $!. If it isn't, remove that file"
        done
        kill -KILL $!
        wait $! 2>/dev/null || true
        rm -f report.parts/*.locked
    done
    touch go
    BAGIT=$work/holding NO_LOCKS=$locks LD_PRELOAD=$preload check --jobs 2 d report
    has_report 'd is valid' 0 'one after the other'
done
echo 'two at once are refused, with locks and without'

# What is altered between two parts is seen, whatever the clocks say.
goes_on_after() {
    check --task 1/3 d report
    (eval "$1") 2>said
    check "${@:3}" --parts 3 d report
    altered "$1" "$2"
    check --join d report
    has_no_report "$1"
    rm -rf report.parts away
}
goes_on_after 'touch -r d/data/20 kept; printf X | dd conv=notrunc of=d/data/20; touch -r kept d/data/20' d/data/20
goes_on_after 'rm d/data/20; echo 20 >d/data/20' d/data/20
goes_on_after 'cp -p d/data/20 d/data/200; mv d/data/200 d/data/20' d/data/20
goes_on_after 'touch d/data/late; rm d/data/late' d/data
goes_on_after 'touch d/late' d/late
goes_on_after 'cp -a d away; rm -r d; mv away d' d/bag-info.txt
goes_on_after 'mv d away; mkdir d' d/bag-info.txt
rm -rf d
mkdir d
for file in {10..29}; do echo "$file" >"d/$file"; done
"$program" --md5 d >made
looked='clocks as they are'
if type -P faketime >/dev/null; then
    for hours in +1h -1h; do
        faketime -f "$hours" "$keep" check --wait 0 --task 1/2 d report >end 2>errors
        faketime -f "-30m" "$keep" check --wait 0 --task 2/2 d report >end 2>errors
        check --join d report
        has_report 'd is valid' 0 "clocks of two machines, one $hours"
        faketime -f "$hours" "$keep" check --wait 0 --task 1/2 d report >end 2>errors
        printf X | dd conv=notrunc of=d/data/10 2>said
        check --jobs 2 d report
        altered "the clock was $hours" d/data/10
        status=0
        faketime -f +2h "$keep" check --wait 0 d report >end 2>errors || status=$?
        altered 'the time has come' d/data/10
        printf 1 | dd conv=notrunc of=d/data/10 2>said
        rm -r report.parts
    done
    looked='clocks that are ahead or back'
fi

# A folder that is mounted in between, and a disk that keeps whole seconds.
mkdir -p other d/data/x disk
echo 10 >other/10
if mount --bind other d/data/x 2>/dev/null; then
    umount d/data/x
    check --task 2/2 d report
    mount --bind other d/data/x
    check --task 1/2 d report
    altered 'a mounted folder' d/data/x/10
    umount d/data/x
    rm -r report.parts
    looked+=', a folder that is mounted'
fi
rmdir d/data/x
if truncate -s 8M image && mkfs.ext4 -q -I 128 image 2>/dev/null && mount -o loop image disk 2>/dev/null; then
    cp -r d disk/d
    for _ in 1 2 3; do
        python3 -c 'import time; time.sleep(1.02 - time.time() % 1)'
        echo 10 >disk/d/data/10
        check --task 1/2 disk/d report
        touch -r disk/d/data/10 kept
        printf X | dd conv=notrunc of=disk/d/data/10 2>said
        touch -r kept disk/d/data/10
        check --task 2/2 disk/d report
        altered 'a disk of whole seconds' disk/d/data/10
        rm -r report.parts
    done
    umount disk
    looked+=', a disk of whole seconds'
fi
echo "what is altered between two parts is seen: $looked"

# What isn't of this check is left as it is, and nothing is overwritten.
mkdir report.parts
touch report.parts/{mine,joined}
check d report
[[ $status == 2 && $(ls report.parts) == $'joined\nmine' ]] || give_up "a folder of mine: it ends with $status"
rm -r report.parts
for report in d/report d/data/report ./d/../d/report; do
    check d "$report"
    [[ $status == 2 ]] || give_up "it writes $report into the bag"
done
[[ $(find d -name 'report*' | wc -l) == 0 ]] || give_up 'it leaves a file in the bag'
ln -s d link
check link link/report
[[ $status == 2 ]] || give_up 'it writes the report into the bag by a link'
cp -a d e
check --task 1/2 link report
ln -sfn e link
check --task 2/2 link report
[[ $status == 2 ]] && says 'is of a check of another bag' || give_up 'a link names another bag'
rm -r report.parts link e
for words in '--piece 1' '--parts 0' '--parts 65537' '--tries x' '--wait -1' '--unknown' '--profile' '--fast' '--jobs 0' '--task 3/2' \
    '--task 1/70000' '--join --jobs 2' '--task 1/2 --parts 2'; do
    check d report $words
    [[ $status == 2 && $(<errors) == 'bagit-keep: '* && ! -e report && ! -e report.parts ]] || give_up "it takes $words"
done
check d report extra
[[ $status == 2 ]] || give_up 'it takes three operands'
echo mine >report
check d report
[[ $status == 2 && $(<report) == mine ]] || give_up 'a report that is there is written again'
rm report
printf '#!/bin/sh\ncase "$*" in *--join*) echo mine >"%s/report";; esac\nexec "%s" "$@"\n' "$work" "$program" >late
chmod +x late
BAGIT=$work/late check d report
[[ $status == 3 && $(<report) == mine ]] || give_up "what came meanwhile is overwritten: $status"
rm -r report report.parts
check nowhere report
has_no_report 'a folder that is not there'
check d nowhere/report
has_no_report 'no folder for the report'
BAGIT=nowhere check d report
has_no_report 'no program'
mv d ./-d
check --clashes -- -d report
has_report '-d is valid' 0 'a name like an option'
mv ./-d d
for closed in '2>&-' '<&-'; do
    status=0
    eval '"$keep" check d report >end '"$closed" || status=$?
    : >errors
    has_report 'd is valid' 0 "with $closed"
done
status=0
"$keep" check d report >&- 2>errors || status=$?
[[ $status == 0 && $(<report) == 'd is valid' && ! -e report.parts ]] || give_up "with a closed output it ends with $status: $(<errors)"
rm report
bytes=$(printf 'd\xff')
mv d "$bytes"
check "$bytes" report
has_report '. is valid' 0 'a name that is no UTF-8'
mv "$bytes" d
tar -cf d.tar d
check --parts 3 d.tar report
has_report 'd.tar is valid' 0 'a bag in a .tar'

# Four times as many faults don't take sixteen times as long.
finds_missing() {
    bag
    seq -f "$(printf '0%.0s' {1..64})  data/%.0f" "$1" >d/manifest-sha256.txt
    check d report
    [[ $status == 1 && $(<end) == "d has faults: $1" && $(wc -l <report) == $(($1 + 1)) ]] ||
        give_up "of $1 missing files: it ends with $status: $(cat end errors)"
    rm report
}
mv d kept_bag
takes_in_proportion 20000 80000 finds_missing
rm -r d && mv kept_bag d

# The disk of the report is full: no report; then there is room, and it goes on.
for blocks in 0 1; do
    status=0
    (
        trap '' XFSZ
        ulimit -f "$blocks"
        PYTHONDONTWRITEBYTECODE=1 exec "$keep" check --wait 0 --tries 2 --parts 3 d report
    ) >end 2>errors || status=$?
    has_no_report "a disk of $blocks blocks"
done
check --parts 3 d report
has_report 'd is valid' 0 'there is room again'

# How far it is, on a terminal: no name controls that.
rm -rf d
mkdir d
for number in {10..40}; do head -c 100000 /dev/zero >d/$'\e[2J\n'"$number"; done
"$program" --md5 d >made
[[ $(python3 - "$keep" 2>&1 <<'END'
import os, pty, re, sys
os.environ["PAUSE"] = "100000"
pid, fd = pty.fork()
if pid == 0:
    os.execv(sys.argv[1], [sys.argv[1], "check", "--parts", "3", "d", "report"])
text = b""
try:
    while chunk := os.read(fd, 4096):
        text += chunk
except OSError:
    pass
status = os.waitstatus_to_exitcode(os.waitpid(pid, 0)[1])
shown = re.findall(rb"\r[0-3] of 3 parts, [0-9.]+ \w+ of 3\.1 MB, [0-9:?]+ left, at work: part [1-3] *\r", text)
print(status, len(shown) >= 2, b"\x1b" in text)
END
) == '0 True False' ]] || give_up 'on a terminal it says otherwise how far it is'
echo 'how far it is, is said each second'
