/* Where the library gets its memory: the three calls that its code asks for, over malloc. This is also where a call can be ended from
 * outside: once a limit is met no more memory is given, and the proved call answers `no memory`, as its contract allows at any time.
 * A block of no bytes is asked for as one of its alignment, which malloc's own is never below. */
#include "stopping.h"
#include <malloc.h>
#include <stdint.h>
#include <stdlib.h>
#include <time.h>

struct block {
    uint64_t is_there;
    void *at;
};

static char none;
_Thread_local struct celdrinn_limits *celdrinn_current;

double celdrinn_now(void) {
    struct timespec t;
    clock_gettime(CLOCK_MONOTONIC, &t);
    return (double)t.tv_sec + 1e-9 * (double)t.tv_nsec;
}

static int is_over(struct celdrinn_limits *l, size_t more) {
    l->calls++;
    if (l->is_over) return 1;
    if (atomic_load_explicit(&l->stop, memory_order_relaxed)) return l->by = 1, l->is_over = 1;
    if (l->most_bytes && l->bytes + more > l->most_bytes) return l->by = 3, l->is_over = 1;
    /* the clock costs 20 ns or so; a call of the library takes memory some 10,000 times a second */
    double now = celdrinn_now();
    if (now - l->last > l->pause) l->pause = now - l->last;
    l->last = now;
    if (l->deadline != 0 && now > l->deadline) return l->by = 2, l->is_over = 1;
    if (l->terminate && (l->tick++ & 63) == 0 && l->terminate(l->state)) return l->by = 1, l->is_over = 1;
    return 0;
}

static struct block as_block(void *at) {
    struct block block = {at != NULL, at != NULL ? at : &none};
    return block;
}

static void count(struct celdrinn_limits *l, size_t before, size_t after) {
    l->bytes += after - before;
    if (l->bytes > l->peak) l->peak = l->bytes;
}

struct block rattle_alloc(size_t size, size_t align) {
    struct celdrinn_limits *l = celdrinn_current;
    if (l == NULL) return as_block(malloc(size != 0 ? size : align));
    if (is_over(l, size)) return as_block(NULL);
    void *at = malloc(size != 0 ? size : align);
    if (at != NULL) count(l, 0, malloc_usable_size(at));
    return as_block(at);
}

struct block rattle_realloc(void *at, size_t old_size, size_t size, size_t align) {
    struct celdrinn_limits *l = celdrinn_current;
    if (l == NULL) return as_block(realloc(at, size != 0 ? size : align));
    if (is_over(l, size > old_size ? size - old_size : 0)) return as_block(NULL);
    size_t before = malloc_usable_size(at);
    void *to = realloc(at, size != 0 ? size : align);
    if (to != NULL) count(l, before, malloc_usable_size(to));
    return as_block(to);
}

void rattle_dealloc(void *at) {
    struct celdrinn_limits *l = celdrinn_current;
    if (l != NULL) count(l, malloc_usable_size(at), 0);
    free(at);
}
