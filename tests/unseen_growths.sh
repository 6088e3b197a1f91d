#!/usr/bin/env bash
# Runs the scripts that refuse growths over programs whose growths they can't see, so that nothing is refused: one that starts the
# program without what stands between it and the C library (LD_PRELOAD), and one that has a `malloc` of its own. Each script must fail,
# and say that it saw no growth. It needs a C compiler.
#
# usage: tests/unseen_growths.sh [PROGRAM]
#
# PROGRAM is crates/bagit/out/bagit by default, which `rt run` and `rt ci` leave there.
set -euo pipefail
source "$(dirname "$0")/common.sh"
needs cc
take_program bagit "${1:-}"
enter unseen

cat >dropping.c <<C
#include <stdlib.h>
#include <unistd.h>

int main(int count, char **words) {
    unsetenv("LD_PRELOAD");
    words[0] = "$program";
    return execv(words[0], words);
}
C

cat >own.c <<'C'
#include <stddef.h>

static char room[1 << 20];
static size_t taken;

void *malloc(size_t size) {
    taken += size + 15 & ~15ul;
    return taken <= sizeof room ? room + taken - (size + 15 & ~15ul) : NULL;
}

void *realloc(void *old, size_t size) { return malloc(size); }

void free(void *old) {}

int main(void) { return realloc(malloc(1), 2) == NULL; }
C

for unseen in dropping own; do
    cc -w -fno-builtin -o $unseen $unseen.c
    for script in refused_memory refused_checks refused_segments; do
        status=0
        "$tests/$script.sh" "$work/$unseen" >output 2>&1 || status=$?
        [[ $status == 1 && $(<output) == *'no growth of it is seen, so none can be refused' ]] ||
            give_up "$script.sh over $unseen ends with $status: $(<output)"
    done
done
echo 'three scripts fail over two programs whose growths they cannot see'
