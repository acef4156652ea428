/* Celdrinn for programs in C: a layer over the proved calls of celdrinn.h (ABI 1). The layer itself is not proved: it turns arrays into
 * texts and back, holds the results, and ends calls at a limit.
 *
 * A `celdrinn` is one formula with its options, limits and results. A function is called on one `celdrinn` by one thread at a time;
 * different ones may be used at once by as many threads as you like. Only celdrinn_stop may be called from another thread, or from
 * a signal handler, while a call runs. No function writes to a file, to the terminal or to anything global.
 *
 * Whatever the library hands out (`const` pointers) belongs to the `celdrinn` and stays until the next call that makes such a result
 * anew, or celdrinn_free. */
#ifndef CELDRINN2_H
#define CELDRINN2_H
#include <stddef.h>
#include <stdint.h>
#ifdef __cplusplus
extern "C" {
#endif

typedef struct celdrinn celdrinn;

/* Answers of the calls that work: the exit statuses of the command of the same name. */
enum celdrinn_status {
    CELDRINN_DONE = 0,      /* simplify: settled; check: verified; rebuild: CERT is there */
    CELDRINN_REFUSED = 1,   /* check, rebuild: the log is none of these formulas */
    CELDRINN_STOPPED = 2,   /* simplify: a limit came first. OUT and LOG are there and belong together */
    CELDRINN_INPUT = 3,     /* a file is no formula */
    CELDRINN_NO_MEMORY = 6, /* or a limit came before there was anything to hand out */
    CELDRINN_CIRCUITS = 7,  /* rebuild, refute, validate, miter: the circuits don't fit */
    CELDRINN_EXTENDED = 8,  /* refute: a step can't be carried back */
    CELDRINN_INVALID = 9,   /* validate: the circuits are wrong; the line has values of the universals */
    CELDRINN_TRUE = 10,     /* simplify: no clause is left; solve: there are Skolem functions */
    CELDRINN_UNKNOWN = 12,  /* solve, validate: the budget was too small; extract: the trace says so */
    CELDRINN_FALSE = 20,    /* simplify: the empty clause is left; solve, disprove */
    CELDRINN_USAGE = 64     /* a call out of order, or an argument out of range */
};

const char *celdrinn_version(void); /* as "celdrinn 0.2.0 abi 1" */
const char *celdrinn_status_text(int status);

celdrinn *celdrinn_new(void); /* NULL: no memory */
void celdrinn_free(celdrinn *);

/* What commands are asked for besides their files; a command looks at those that it takes. `size` is that of the struct, so that later
 * versions can have more behind: set all with CELDRINN_OPTIONS, and then what is wanted. */
struct celdrinn_options {
    size_t size;
    uint32_t grow, expand;   /* simplify: at most 10000 */
    uint64_t budget;         /* simplify, solve, validate; UINT64_MAX: none */
    uint32_t part, parts;    /* check, annotate, disprove: the part of this number, from 1, of so many; 0 parts: all */
    uint32_t herbrand;       /* miter, 1: the circuits are those of the universals */
    uint32_t binary;         /* disprove, annotate of PROOF, 1: what could be a text is read as a binary proof */
    uint64_t seed;           /* gen */
    uint32_t clauses;        /* gen: 1 to 100000 */
    const char *moves;       /* simplify, solve: what is tried first, a line for each move, as `eliminate 3`; a copy is kept. NULL: none */
    size_t moves_length;     /* bytes of `moves` */
};
#define CELDRINN_OPTIONS {sizeof(struct celdrinn_options), 0, 16, UINT64_MAX, 0, 0, 0, 0, 1, 1, NULL, 0}
int celdrinn_set_options(celdrinn *, const struct celdrinn_options *); /* 64: one is out of range, or not known here */
/* one of them by its name, but `part`, `parts` and `moves` */
int celdrinn_set(celdrinn *, const char *option, uint64_t value);

/* --- limits; they hold for each call that works, from its start --- */
void celdrinn_limit_seconds(celdrinn *, double seconds);  /* 0: none */
void celdrinn_limit_memory(celdrinn *, size_t bytes);     /* 0: none */
/* asked now and then while a call runs, as ipasir_set_terminate: another value than 0 ends the call. It calls no function of this
 * `celdrinn`, and takes no lock that whoever waits for the call holds */
void celdrinn_set_terminate(celdrinn *, void *state, int (*terminate)(void *state));
void celdrinn_stop(celdrinn *);                           /* from any thread, or a signal handler; later calls on it end at once */

/* --- IN: blocks from the outermost in, then clauses as ipasir_add takes them; or the text. Once a command has read it nothing is added --- */
int celdrinn_block(celdrinn *, int quantifier /* 'e' or 'a' */, const int *variables, size_t count);
int celdrinn_add(celdrinn *, int literal_or_0);
int celdrinn_clauses(celdrinn *, const int *literals, size_t count); /* many at once, each ended by 0 */
int celdrinn_text(celdrinn *, const void *qdimacs, size_t length);

/* --- files: each `celdrinn` is a folder in memory, whose files have the names of the commands' operands ---
 *
 *   simplify  IN -> OUT LOG               validate  IN CERT
 *   check     IN OUT LOG                  solve     IN -> OUT LOG CERT
 *   rebuild   IN OUT LOG SKOLEM -> CERT   extract   IN TRACE -> CERT
 *   refute    IN OUT LOG HERBRAND -> CERT miter     IN CERT -> MITER
 *   annotate  IN OUT LOG -> HINTED        disprove  IN PROOF
 *   annotate  IN PROOF -> HINTED          (where OUT or LOG is not there)
 *   apply     IN LOG -> OUT               gen       -> IN
 *
 * A command reads those before the arrow, and makes those behind it; what it does not make is taken away. */
int celdrinn_put(celdrinn *, const char *name, const void *bytes, size_t length); /* a copy; NULL takes the file away */
const char *celdrinn_get(celdrinn *, const char *name, size_t *length);           /* NULL: no such file; a 0 stands behind the last byte */
/* its exit status; 64 where a file is missing, or a line of `moves` is none: the line is then `moves line N`, N counted from 1 */
int celdrinn_do(celdrinn *, const char *command);

/* --- the same by calls of their own --- */
int celdrinn_do_simplify(celdrinn *); /* 2: the budget is spent, or a limit came first, and then the line begins with `stopped` */
/* takes OUT and LOG of an earlier run as the results, so that the calls below speak of them */
int celdrinn_results(celdrinn *, const void *out, size_t out_length, const void *log, size_t log_length);
int celdrinn_do_check(celdrinn *);                                       /* IN, OUT and LOG as they stand */
int celdrinn_do_rebuild(celdrinn *, const void *aag, size_t length);     /* SKOLEM as ASCII AIGER */
/* the same where each variable of OUT is existential and gets a value: literals, as a SAT solver's model; a variable that is not
 * named gets 0 */
int celdrinn_do_rebuild_model(celdrinn *, const int *literals, size_t count);

/* --- results --- */
struct celdrinn_formula {
    const int *blocks;  /* 'e' or 'a', its variables, 0, and so on */
    size_t blocks_count;
    const int *literals; /* clauses, each ended by 0 */
    size_t literals_count, clauses;
    int largest;
};
int celdrinn_out(celdrinn *, struct celdrinn_formula *);
const char *celdrinn_out_text(celdrinn *, size_t *length);
const char *celdrinn_log_text(celdrinn *, size_t *length);
const char *celdrinn_cert_text(celdrinn *, size_t *length);
const char *celdrinn_line(celdrinn *); /* what the command would print, or why an argument was refused */
int celdrinn_offence(celdrinn *, uint64_t *line, unsigned *cause); /* of a refusal, as numbers, a wrong line of moves has cause 0; 64: the last call was not refused so */

struct celdrinn_costs {
    double seconds, longest_pause; /* of the last call; the longest time in which no limit could be noticed */
    size_t peak_bytes, allocations;
};
void celdrinn_costs(const celdrinn *, struct celdrinn_costs *);

#ifdef __cplusplus
}
#endif
#endif
