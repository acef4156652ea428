/* Where the library for C gets its memory: the three calls that its code asks for, over malloc. A block of no bytes is asked for as one of
 * its alignment, which malloc's own is never below. Where there is no memory the first word says so. */
#include <stddef.h>
#include <stdint.h>
#include <stdlib.h>

struct block {
    uint64_t is_there;
    void *at;
};

static char none;

static struct block as_block(void *at) {
    struct block block = {at != NULL, at != NULL ? at : &none};
    return block;
}

struct block rattle_alloc(size_t size, size_t align) { return as_block(malloc(size != 0 ? size : align)); }

struct block rattle_realloc(void *at, size_t old_size, size_t size, size_t align) {
    (void)old_size;
    return as_block(realloc(at, size != 0 ? size : align));
}

void rattle_dealloc(void *at) { free(at); }
