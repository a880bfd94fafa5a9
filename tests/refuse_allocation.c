/* Loaded before the C library: refuses one allocation of each run, that of its number, counted from 1; of number 0 none is.
   Counts how many allocations were asked for. Threads may ask side by side. */
#define _GNU_SOURCE
#include "runs.h"
#include <dlfcn.h>

static void *(*real_malloc)(size_t);
static void *(*real_realloc)(void *, size_t);

__attribute__((constructor)) static void begin(void) {
    real_malloc = (void *(*)(size_t))dlsym(RTLD_NEXT, "malloc");
    real_realloc = (void *(*)(void *, size_t))dlsym(RTLD_NEXT, "realloc");
    begin_runs();
}

static int is_refused(void) {
    return is_to_fail(__atomic_add_fetch(counted, 1, __ATOMIC_SEQ_CST));
}

void *malloc(size_t size) {
    if (!real_malloc)
        real_malloc = (void *(*)(size_t))dlsym(RTLD_NEXT, "malloc");
    if (is_refused()) {
        errno = ENOMEM;
        return NULL;
    }
    return real_malloc(size);
}

void *realloc(void *old, size_t size) {
    if (!real_realloc)
        real_realloc = (void *(*)(void *, size_t))dlsym(RTLD_NEXT, "realloc");
    if (is_refused()) {
        errno = ENOMEM;
        return NULL;
    }
    return real_realloc(old, size);
}
