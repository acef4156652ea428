/* Put before the C library by LD_PRELOAD: the call of malloc, calloc or realloc that REFUSE numbers gets no memory, counted from where
 * `main` begins. */
#define _GNU_SOURCE
#include <dlfcn.h>
#include <stdlib.h>
#include <string.h>

static long left = -1;
extern void *__libc_malloc(size_t);
extern void *__libc_calloc(size_t, size_t);
extern void *__libc_realloc(void *, size_t);

__attribute__((constructor)) static void begin(void) {
    const char *number = getenv("REFUSE");
    left = number ? atol(number) : -1;
}
static int is_refused(void) { return left > 0 && --left == 0; }
void *malloc(size_t size) { return is_refused() ? NULL : __libc_malloc(size); }
void *calloc(size_t count, size_t size) { return is_refused() ? NULL : __libc_calloc(count, size); }
void *realloc(void *at, size_t size) { return is_refused() ? NULL : __libc_realloc(at, size); }
