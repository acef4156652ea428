/* Refuses one allocation of a program: that of the number in REFUSE, counted from 1. How many there were goes into the file
   that REFUSE_OUT names. For LD_PRELOAD; see refused.sh. */
#define _GNU_SOURCE
#include <dlfcn.h>
#include <errno.h>
#include <stdio.h>
#include <stdlib.h>

static long refused = -1, count;

__attribute__((constructor)) static void begin(void) {
    const char *number = getenv("REFUSE");
    if (number)
        refused = atol(number);
}

static int is_refused(void) {
    if (++count != refused)
        return 0;
    errno = ENOMEM;
    return 1;
}

void *malloc(size_t size) {
    void *(*real)(size_t) = dlsym(RTLD_NEXT, "malloc");
    return is_refused() ? NULL : real(size);
}

void *realloc(void *old, size_t size) {
    void *(*real)(void *, size_t) = dlsym(RTLD_NEXT, "realloc");
    return is_refused() ? NULL : real(old, size);
}

void *aligned_alloc(size_t alignment, size_t size) {
    void *(*real)(size_t, size_t) = dlsym(RTLD_NEXT, "aligned_alloc");
    return is_refused() ? NULL : real(alignment, size);
}

int posix_memalign(void **out, size_t alignment, size_t size) {
    int (*real)(void **, size_t, size_t) = dlsym(RTLD_NEXT, "posix_memalign");
    return is_refused() ? ENOMEM : real(out, alignment, size);
}

__attribute__((destructor)) static void end(void) {
    const char *name = getenv("REFUSE_OUT");
    FILE *file = name ? fopen(name, "w") : NULL;
    if (file) {
        fprintf(file, "%ld\n", count);
        fclose(file);
    }
}
