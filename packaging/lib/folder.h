/* What a `celdrinn` is inside: a folder of files in memory, the options and limits of its calls, and what the last call said. */
#ifndef CELDRINN_FOLDER_H
#define CELDRINN_FOLDER_H
#include "celdrinn2.h"
#include "stopping.h"

/* `at` is NULL where there is none; a 0 stands behind the last byte */
struct text {
    char *at;
    size_t size;
};
struct ints {
    int *at;
    size_t size, room;
};

/* the files of the commands; the names of celdrinn_put and celdrinn_get, in this order */
enum file_name { NO_FILE, IN, OUT, LOG, SKOLEM, HERBRAND, CERT, HINTED, TRACE, PROOF, MITER, FILE_NAMES };
extern const char *const celdrinn_file_names[FILE_NAMES];

struct celdrinn {
    struct celdrinn_limits limits;
    struct celdrinn_options options;
    struct text moves; /* those of the options */
    double seconds;
    struct text files[FILE_NAMES];
    struct ints blocks, clauses; /* IN, where it is given by arrays */
    int largest, last_block_is, clause_is_open;
    struct ints out_blocks, out_clauses; /* OUT as arrays, once it is asked for */
    size_t out_count;
    int out_largest, is_read;
    const char *said; /* what a refused argument says, in place of the line */
    struct text line;
    struct celdrinn_costs costs;
};

int celdrinn_room_for(void **at, size_t *room, size_t wanted, size_t each);
int celdrinn_push(struct ints *v, int x);
int celdrinn_misuse(celdrinn *c, const char *why);
/* whether there was memory for these bytes; what was there before goes */
int celdrinn_keep(struct text *t, const void *bytes, size_t size);
void celdrinn_drop(struct text *t);
/* what hangs on a file that changes is forgotten */
int celdrinn_keep_file(celdrinn *c, enum file_name name, const void *bytes, size_t size);
void celdrinn_drop_file(celdrinn *c, enum file_name name);
/* the text of IN, where it was given by arrays */
int celdrinn_write_in(celdrinn *c);
char *celdrinn_put_int(char *p, int x);
#endif
