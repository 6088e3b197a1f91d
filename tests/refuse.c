/* Stands between a program and the C library: writes each growth, KIND BYTES, to descriptor 9, and refuses the one whose number REFUSED
 * says. The scripts that use growths.sh build it, and load it before the program's libraries. */
#define _GNU_SOURCE
#include <dlfcn.h>
#include <errno.h>
#include <stdio.h>
#include <stdlib.h>
#include <string.h>
#include <unistd.h>

static long number, wanted = -1;

__attribute__((constructor)) static void start(void) {
    const char *text = getenv("REFUSED");
    wanted = text ? atol(text) : 0;
}

static int refused(const char *kind, size_t size) {
    char line[64];
    if (wanted < 0) return 0;
    int is_refused = ++number == wanted;
    int length = snprintf(line, sizeof line, "%s %zu%s\n", kind, size, is_refused ? " refused" : "");
    if (write(9, line, length) != length) _exit(99);
    return is_refused;
}

static void *fresh(const char *kind, size_t size) {
    static void *(*next)(size_t);
    if (!next) next = dlsym(RTLD_NEXT, "malloc");
    return refused(kind, size) ? NULL : next(size);
}

static void *aligned(const char *kind, size_t alignment, size_t size) {
    static void *(*next)(size_t, size_t);
    if (!next) next = dlsym(RTLD_NEXT, "aligned_alloc");
    return refused(kind, size) ? NULL : next(alignment, size);
}

void *malloc(size_t size) { return fresh("malloc", size); }

void *calloc(size_t count, size_t size) {
    size_t all;
    void *made = __builtin_mul_overflow(count, size, &all) ? NULL : fresh("calloc", all);
    return made ? memset(made, 0, all) : NULL;
}

void *realloc(void *old, size_t size) {
    static void *(*next)(void *, size_t);
    if (!next) next = dlsym(RTLD_NEXT, "realloc");
    return refused("realloc", size) ? NULL : next(old, size);
}

void *aligned_alloc(size_t alignment, size_t size) { return aligned("aligned_alloc", alignment, size); }

int posix_memalign(void **made, size_t alignment, size_t size) {
    void *found = aligned("posix_memalign", alignment, size);
    if (!found) return ENOMEM;
    *made = found;
    return 0;
}
