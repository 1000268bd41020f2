/* For misuse/memory: refuses one call for memory, that of the number in REFUSED, counted from 1. Writes how many there
   were to the file that COUNTED names. */
#define _GNU_SOURCE
#include <dlfcn.h>
#include <stdio.h>
#include <stdlib.h>

static long count, refused = -1;

static int is_refused(void) {
    if (refused < 0) {
        const char *text = getenv("REFUSED");
        refused = text ? atol(text) : 0;
    }
    return ++count == refused;
}

void *malloc(size_t size) {
    static void *(*next)(size_t);
    if (!next)
        next = dlsym(RTLD_NEXT, "malloc");
    return is_refused() ? NULL : next(size);
}

void *realloc(void *old, size_t size) {
    static void *(*next)(void *, size_t);
    if (!next)
        next = dlsym(RTLD_NEXT, "realloc");
    return is_refused() ? NULL : next(old, size);
}

__attribute__((destructor)) static void tell(void) {
    long made = count;
    const char *name = getenv("COUNTED");
    FILE *file = name ? fopen(name, "w") : NULL;
    if (file) {
        fprintf(file, "%ld\n", made);
        fclose(file);
    }
}
