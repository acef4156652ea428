/* Celdrinn, a proved preprocessor for quantified Boolean formulas, for programs in C.
 *
 * Each call is one run of the command of its name over files in memory, and answers its exit status: 0 done, 10 true, 20 false, 1 LOG
 * refused, 3 IN or OUT refused, 6 memory was wanting, 7 circuits refused. What it makes is copied to the front of the caller's
 * buffers, each where it fits; `lengths` says how many bytes each has, also where its buffer was too short, and 0 for what the call
 * does not make. `line` is what the command would print. No pointer may be null, also where a length is 0; buffers don't overlap.
 * Memory comes from malloc, and all of it is given back before a call ends. */
#ifndef CELDRINN_H
#define CELDRINN_H
#include <stddef.h>
#include <stdint.h>
#ifdef __cplusplus
extern "C" {
#endif

struct celdrinn_lengths {
    size_t output, log, line;
};

/* simplify IN OUT LOG */
uint8_t celdrinn_simplify(const uint8_t *in, size_t in_len, uint8_t *out, size_t out_room, uint8_t *log, size_t log_room,
                          uint8_t *line, size_t line_room, struct celdrinn_lengths *lengths);

/* check IN OUT LOG */
uint8_t celdrinn_check(const uint8_t *in, size_t in_len, const uint8_t *out, size_t out_len, const uint8_t *log, size_t log_len,
                       uint8_t *line, size_t line_room, struct celdrinn_lengths *lengths);

/* rebuild IN OUT LOG SKOLEM CERT; the length of CERT is `lengths->output` */
uint8_t celdrinn_rebuild(const uint8_t *in, size_t in_len, const uint8_t *out, size_t out_len, const uint8_t *log, size_t log_len,
                         const uint8_t *skolem, size_t skolem_len, uint8_t *cert, size_t cert_room, uint8_t *line, size_t line_room,
                         struct celdrinn_lengths *lengths);

/* Any command: its words, as the program takes them, over files in memory. A word of a file that is given has the file's bytes and
 * `is_given` 1; the files of all other names do not exist. */
struct celdrinn_word {
    const uint8_t *text;
    size_t text_len;
    const uint8_t *file;
    size_t file_len;
    uint8_t is_given;
};

/* There are as many lengths as words: each is that of the file which its word names, and 0 where that was given or was not made. The
 * bytes of all these files go to `made`, one behind the other in the order of the words, where there is room for all of them. 64 also
 * where a word is no text in UTF-8, or the numbers of words and lengths differ. No alarm stops a call: `--time` and `--plain` of `simplify`
 * change nothing here. */
uint8_t celdrinn_run(const struct celdrinn_word *words, size_t words_count, size_t *lengths, size_t lengths_count, uint8_t *made,
                     size_t made_room, uint8_t *line, size_t line_room, size_t *line_len);

/* The same under a list of moves, a text with a line for each as `eliminate 3` (docs/FORMATS.md, "Lists of moves"): `simplify` and `solve` try
 * them first, in their order, and pass over what does not apply. 64 with nothing made also where a line is no move; `wrong_line` is then
 * the number of the first such line, counted from 1, and else 0. No bytes: no moves, and then this is celdrinn_run. */
uint8_t celdrinn_run_listed(const struct celdrinn_word *words, size_t words_count, const uint8_t *moves, size_t moves_len, size_t *lengths,
                            size_t lengths_count, uint8_t *made, size_t made_room, uint8_t *line, size_t line_room, size_t *line_len,
                            size_t *wrong_line);

#ifdef __cplusplus
}
#endif
#endif
