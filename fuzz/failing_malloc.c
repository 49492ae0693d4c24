// Counts the calls of malloc and realloc, and lets the one of the number FAIL_AT fail. Loaded before the C library
// by fuzz/allocations.py; no crate has it.
#define _GNU_SOURCE
#include <dlfcn.h>
#include <errno.h>
#include <stdio.h>
#include <stdlib.h>

static long calls;
static long failing = -1;

static int fails(void) {
    if (failing == -1) {
        const char *number = getenv("FAIL_AT");
        failing = number ? atol(number) : 0;
    }
    calls += 1;
    return calls == failing;
}

void *malloc(size_t size) {
    static void *(*real)(size_t);
    if (!real) {
        real = dlsym(RTLD_NEXT, "malloc");
    }
    if (fails()) {
        errno = ENOMEM;
        return NULL;
    }
    return real(size);
}

void *realloc(void *old, size_t size) {
    static void *(*real)(void *, size_t);
    if (!real) {
        real = dlsym(RTLD_NEXT, "realloc");
    }
    if (fails()) {
        errno = ENOMEM;
        return NULL;
    }
    return real(old, size);
}

// The count goes to the file that COUNT_TO names.
__attribute__((destructor)) static void tell(void) {
    const char *path = getenv("COUNT_TO");
    long counted = calls;
    FILE *file = path ? fopen(path, "w") : NULL;
    if (file) {
        fprintf(file, "%ld\n", counted);
        fclose(file);
    }
}
