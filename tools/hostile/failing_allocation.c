/* Makes one allocation of a program fail: the one whose number FAIL_ALLOCATION gives, counted from 1; none where it is 0 or isn't set.
   At its end the program writes a line to standard error: how many allocations it asked for, and whether that one failed.
   Built and put in front of the C library's allocator by ./fail-alloc, which no crate knows of:
   cc -shared -fPIC -o failing_allocation.so failing_allocation.c -ldl; LD_PRELOAD=./failing_allocation.so FAIL_ALLOCATION=7 program */
#define _GNU_SOURCE
#include <dlfcn.h>
#include <errno.h>
#include <stdio.h>
#include <stdlib.h>
#include <unistd.h>

static long count = 0;
static long failing = -1;
static int has_failed = 0;

static int fails(void) {
    if (failing < 0) {
        const char *text = getenv("FAIL_ALLOCATION");
        failing = text ? atol(text) : 0;
    }
    count++;
    if (count != failing) return 0;
    has_failed = 1;
    return 1;
}

static void *next(const char *name) { return dlsym(RTLD_NEXT, name); }

void *malloc(size_t size) {
    static void *(*real)(size_t);
    if (!real) real = next("malloc");
    return fails() ? NULL : real(size);
}

void *realloc(void *old, size_t size) {
    static void *(*real)(void *, size_t);
    if (!real) real = next("realloc");
    return fails() ? NULL : real(old, size);
}

int posix_memalign(void **place, size_t alignment, size_t size) {
    static int (*real)(void **, size_t, size_t);
    if (!real) real = next("posix_memalign");
    return fails() ? ENOMEM : real(place, alignment, size);
}

void *aligned_alloc(size_t alignment, size_t size) {
    static void *(*real)(size_t, size_t);
    if (!real) real = next("aligned_alloc");
    return fails() ? NULL : real(alignment, size);
}

__attribute__((destructor)) static void report(void) {
    char line[64];
    int length = snprintf(line, sizeof line, "allocations=%ld failed=%d\n", count, has_failed);
    if (write(2, line, (size_t)length) < 0) { /* nobody is left to be told */ }
}
