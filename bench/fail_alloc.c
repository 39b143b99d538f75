// Refuses one allocation of the program that it is preloaded into: the one whose number stands in
// FAIL_ALLOC, counted from 1. The number of allocations that were asked for is written to the file
// that ALLOC_COUNT names.
#define _GNU_SOURCE
#include <dlfcn.h>
#include <errno.h>
#include <stddef.h>
#include <stdio.h>
#include <stdlib.h>

static unsigned long count;
static unsigned long refused;
static int is_ready;

__attribute__((constructor)) static void start(void) {
    const char *number = getenv("FAIL_ALLOC");
    refused = number ? strtoul(number, NULL, 10) : 0;
    is_ready = 1;
}

__attribute__((destructor)) static void stop(void) {
    unsigned long total = count;
    const char *name = getenv("ALLOC_COUNT");
    is_ready = 0;
    FILE *file = name ? fopen(name, "w") : NULL;
    if (file) {
        fprintf(file, "%lu\n", total);
        fclose(file);
    }
}

static int is_refused(void) {
    if (!is_ready) {
        return 0;
    }
    count += 1;
    return count == refused;
}

static void *next(const char *name) { return dlsym(RTLD_NEXT, name); }

void *malloc(size_t size) {
    static void *(*real)(size_t);
    if (!real) {
        real = (void *(*)(size_t))next("malloc");
    }
    return is_refused() ? NULL : real(size);
}

void *realloc(void *old, size_t size) {
    static void *(*real)(void *, size_t);
    if (!real) {
        real = (void *(*)(void *, size_t))next("realloc");
    }
    return is_refused() ? NULL : real(old, size);
}

void *aligned_alloc(size_t alignment, size_t size) {
    static void *(*real)(size_t, size_t);
    if (!real) {
        real = (void *(*)(size_t, size_t))next("aligned_alloc");
    }
    return is_refused() ? NULL : real(alignment, size);
}

int posix_memalign(void **to, size_t alignment, size_t size) {
    static int (*real)(void **, size_t, size_t);
    if (!real) {
        real = (int (*)(void **, size_t, size_t))next("posix_memalign");
    }
    return is_refused() ? ENOMEM : real(to, alignment, size);
}
