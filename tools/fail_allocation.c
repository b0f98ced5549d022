/* Preloaded into a program: the allocation whose number is in FAIL_ALLOCATION, from 1, fails, and no other.
   With COUNT_ALLOCATIONS set, the number of allocations is written to that file at the end. */
#define _GNU_SOURCE
#include <dlfcn.h>
#include <errno.h>
#include <stdio.h>
#include <stdlib.h>

static unsigned long made;
static unsigned long failing;
static int ready;

static void *(*real_malloc)(size_t);
static void *(*real_calloc)(size_t, size_t);
static void *(*real_realloc)(void *, size_t);
static int (*real_posix_memalign)(void **, size_t, size_t);
static void *(*real_aligned_alloc)(size_t, size_t);

/* dlsym itself may ask for memory before the real functions are known. */
static char early[4096];
static size_t early_used;

static void find_real(void) {
    static int finding;
    if (ready || finding) {
        return;
    }
    finding = 1;
    real_malloc = dlsym(RTLD_NEXT, "malloc");
    real_calloc = dlsym(RTLD_NEXT, "calloc");
    real_realloc = dlsym(RTLD_NEXT, "realloc");
    real_posix_memalign = dlsym(RTLD_NEXT, "posix_memalign");
    real_aligned_alloc = dlsym(RTLD_NEXT, "aligned_alloc");
    const char *number = getenv("FAIL_ALLOCATION");
    failing = number ? strtoul(number, NULL, 10) : 0;
    ready = 1;
}

static int fails(void) {
    made++;
    return made == failing;
}

static void *early_block(size_t size) {
    size_t from = (early_used + 15) & ~(size_t)15;
    if (from + size > sizeof early) {
        return NULL;
    }
    early_used = from + size;
    return early + from;
}

void *malloc(size_t size) {
    find_real();
    if (!ready) {
        return early_block(size);
    }
    return fails() ? (errno = ENOMEM, NULL) : real_malloc(size);
}

void *calloc(size_t count, size_t size) {
    find_real();
    if (!ready) {
        return early_block(count * size);
    }
    return fails() ? (errno = ENOMEM, NULL) : real_calloc(count, size);
}

void *realloc(void *block, size_t size) {
    find_real();
    return fails() ? (errno = ENOMEM, NULL) : real_realloc(block, size);
}

int posix_memalign(void **block, size_t alignment, size_t size) {
    find_real();
    return fails() ? ENOMEM : real_posix_memalign(block, alignment, size);
}

void *aligned_alloc(size_t alignment, size_t size) {
    find_real();
    return fails() ? (errno = ENOMEM, NULL) : real_aligned_alloc(alignment, size);
}

__attribute__((destructor)) static void tell(void) {
    const char *path = getenv("COUNT_ALLOCATIONS");
    if (path) {
        FILE *out = fopen(path, "w");
        if (out) {
            fprintf(out, "%lu\n", made);
            fclose(out);
        }
    }
}
