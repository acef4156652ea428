/* Plays the library for C: `ok NAME` or `wrong NAME: why` for each row, and status 1 where one is wrong. What is wanted is found by brute
 * force, or by hand. Usage: test [small | once]: `small` leaves out what takes long, `once` makes one call and says its status. */
#include "celdrinn2.h"
#include "rows.h"
#include <pthread.h>
#include <stdio.h>
#include <stdlib.h>
#include <string.h>

const char *row;
int wrong;

static unsigned long seed = 1;
static int below(int n) { return seed = seed * 6364136223846793005u + 1442695040888963407u, (int)((seed >> 33) % (unsigned)n); }

/* so many clauses of three literals over variables from 1 on */
static int *random_clauses(int vars, int count) {
    int *lits = malloc((size_t)count * 4 * sizeof *lits), *p = lits;
    for (int i = 0; i < count; i++) {
        int a = below(vars) + 1, b = below(vars) + 1, c = below(vars) + 1;
        if (a == b || b == c || a == c) {
            i--;
            continue;
        }
        *p++ = below(2) ? a : -a, *p++ = below(2) ? b : -b, *p++ = below(2) ? c : -c, *p++ = 0;
    }
    return lits;
}
int holds(const int *lits, size_t size, const char *value) {
    int is_true = 0;
    for (size_t i = 0; i < size; i++) {
        if (lits[i] == 0) {
            if (!is_true) return 0;
            is_true = 0;
        } else if ((lits[i] > 0) == (value[abs(lits[i])] != 0))
            is_true = 1;
    }
    return 1;
}
/* a model by brute force, over at most twenty variables */
int find_model(const int *lits, size_t size, int vars, char *value) {
    for (unsigned bits = 0; bits < 1u << vars; bits++) {
        for (int v = 1; v <= vars; v++) value[v] = (char)(bits >> (v - 1) & 1);
        if (holds(lits, size, value)) return 1;
    }
    return 0;
}
/* the values of circuits without inputs */
int read_constants(const char *text, char *value) {
    int inputs, latches, outputs, gates, top, root[64], named = 0;
    if (sscanf(text, "aag %d %d %d %d %d", &top, &inputs, &latches, &outputs, &gates) != 5 || inputs || latches || gates || outputs > 64) return 0;
    for (int i = 0; i < outputs; i++) {
        text = strchr(text, '\n') + 1;
        root[i] = atoi(text);
    }
    while ((text = strchr(text, '\n')) && *++text == 'o') {
        int k, v;
        if (sscanf(text, "o%d %d", &k, &v) != 2) return 0;
        value[v] = (char)(root[k] == 1), named++;
    }
    return named == outputs;
}

static void play_version(void) {
    row = "the version tells the ABI";
    WANT(strncmp(celdrinn_version(), "celdrinn ", 9) == 0 && strstr(celdrinn_version(), " abi 1"));
    PASS();
}

/* for each 1 there is a 2 that differs from it: no clause is left */
static void play_arrays(void) {
    row = "arrays in, arrays out, a certificate";
    const int one[] = {1}, two[] = {2}, clauses[] = {1, 2, 0, -1, -2, 0};
    size_t size;
    struct celdrinn_formula left;
    celdrinn *c = celdrinn_new();
    WANT(c != NULL);
    WANT(celdrinn_block(c, 'a', one, 1) == 0 && celdrinn_block(c, 'e', two, 1) == 0 && celdrinn_clauses(c, clauses, 6) == 0);
    WANT(celdrinn_do_simplify(c) == CELDRINN_TRUE && strncmp(celdrinn_line(c), "true ", 5) == 0);
    WANT(celdrinn_out(c, &left) == 0 && left.clauses == 0 && left.literals_count == 0);
    WANT(celdrinn_do_check(c) == 0 && strncmp(celdrinn_line(c), "verified ", 9) == 0);
    WANT(celdrinn_do_rebuild(c, "aag 0 0 0 0 0\n", 14) == 0);
    const char *cert = celdrinn_cert_text(c, &size);
    /* 2 is not 1, by one input and no gate */
    WANT(size == strlen("aag 1 1 0 1 0\n2\n3\ni0 1\no0 2\n") && memcmp(cert, "aag 1 1 0 1 0\n2\n3\ni0 1\no0 2\n", size) == 0);
    celdrinn_free(c);
    PASS();
}

static void play_text(void) {
    row = "a text and its arrays make the same";
    const int outer[] = {1, 2}, middle[] = {3}, inner[] = {4, 5}, clauses[] = {1, 3, 4, 0, -1, -3, 5, 0, 2, -4, -5, 0, -2, 4, 0};
    const char text[] = "p cnf 5 4\ne 1 2 0\na 3 0\ne 4 5 0\n1 3 4 0\n-1 -3 5 0\n2 -4 -5 0\n-2 4 0\n";
    size_t n, m;
    celdrinn *a = celdrinn_new(), *b = celdrinn_new();
    WANT(celdrinn_block(a, 'e', outer, 2) == 0 && celdrinn_block(a, 'a', middle, 1) == 0 && celdrinn_block(a, 'e', inner, 2) == 0);
    for (size_t i = 0; i < sizeof clauses / sizeof *clauses; i++) WANT(celdrinn_add(a, clauses[i]) == 0);
    WANT(celdrinn_text(b, text, sizeof text - 1) == 0);
    WANT(celdrinn_do_simplify(a) == celdrinn_do_simplify(b) && strcmp(celdrinn_line(a), celdrinn_line(b)) == 0);
    const char *out = celdrinn_out_text(a, &n), *other = celdrinn_out_text(b, &m);
    WANT(n == m && memcmp(out, other, n) == 0);
    const char *log = celdrinn_log_text(a, &n);
    other = celdrinn_log_text(b, &m);
    WANT(n == m && memcmp(log, other, n) == 0);
    celdrinn_free(a), celdrinn_free(b);
    PASS();
}

static void play_misuse(void) {
    row = "calls out of order are refused, and say why";
    const int one[] = {1}, none[] = {0};
    uint64_t line;
    unsigned cause;
    celdrinn *c = celdrinn_new();
    WANT(celdrinn_do_check(c) == CELDRINN_USAGE && celdrinn_line(c)[0] != 0);
    WANT(celdrinn_block(c, 'x', one, 1) == CELDRINN_USAGE && celdrinn_block(c, 'e', none, 1) == CELDRINN_USAGE);
    WANT(celdrinn_add(c, 1) == 0 && celdrinn_do_simplify(c) == CELDRINN_USAGE);
    WANT(celdrinn_block(c, 'e', one, 1) == CELDRINN_USAGE && celdrinn_text(c, "p", 1) == CELDRINN_USAGE);
    WANT(celdrinn_set(c, "no such option", 1) == CELDRINN_USAGE && celdrinn_offence(c, &line, &cause) == CELDRINN_USAGE);
    WANT(celdrinn_add(c, 0) == 0 && celdrinn_do_simplify(c) == CELDRINN_TRUE);
    celdrinn_free(c), celdrinn_free(NULL);
    PASS();
}

static void play_refusal(void) {
    row = "a refusal has its line and cause";
    uint64_t line = 0;
    unsigned cause = 0;
    celdrinn *c = celdrinn_new();
    WANT(celdrinn_text(c, "p cnf 1 1\n1 x 0\n", 16) == 0 && celdrinn_do_simplify(c) == CELDRINN_INPUT);
    WANT(strcmp(celdrinn_line(c), "input IN line 2 cause 2") == 0);
    WANT(celdrinn_offence(c, &line, &cause) == 0 && line == 2 && cause == 2);
    celdrinn_free(c);
    PASS();
}

/* what is left has a model exactly where the formula has one, and the model comes back */
static void play_models(int count) {
    row = "models of what is left are carried back";
    for (int k = 0; k < count; k++) {
        int vars = 6 + below(6), size = vars * 4, some = 0;
        int *lits = random_clauses(vars, size);
        char value[32] = {0}, left_value[32] = {0};
        int model[32], known = 0;
        struct celdrinn_formula left;
        celdrinn *c = celdrinn_new();
        WANT(celdrinn_clauses(c, lits, (size_t)size * 4) == 0);
        int status = celdrinn_do_simplify(c), is_true = find_model(lits, (size_t)size * 4, vars, value);
        WANT(celdrinn_out(c, &left) == 0 && celdrinn_do_check(c) == 0);
        WANT(status == CELDRINN_DONE || status == (is_true ? CELDRINN_TRUE : CELDRINN_FALSE));
        if (status == CELDRINN_DONE) {
            WANT(left.largest <= 20);
            some = find_model(left.literals, left.literals_count, left.largest, left_value);
            WANT(some == is_true);
        }
        if (is_true) {
            for (int v = 1; v <= left.largest; v++) model[known++] = left_value[v] ? v : -v;
            WANT(celdrinn_do_rebuild_model(c, model, (size_t)known) == 0);
            size_t n;
            memset(value, 0, sizeof value);
            WANT(read_constants(celdrinn_cert_text(c, &n), value) && holds(lits, (size_t)size * 4, value));
        }
        celdrinn_free(c), free(lits);
    }
    PASS();
}

/* a stopped call has a formula that belongs to its log, or says that it has none */
static void play_stop(const char *name, double seconds, size_t bytes, int (*terminate)(void *)) {
    row = name;
    int vars = 30000, count = 90000, calls = 0;
    int *lits = random_clauses(vars, count);
    celdrinn *c = celdrinn_new();
    WANT(celdrinn_clauses(c, lits, (size_t)count * 4) == 0);
    celdrinn_limit_seconds(c, seconds), celdrinn_limit_memory(c, bytes);
    celdrinn_set_terminate(c, &calls, terminate);
    int status = celdrinn_do_simplify(c);
    WANT(strncmp(celdrinn_line(c), "stopped: ", 9) == 0);
    WANT(status == CELDRINN_STOPPED || status == CELDRINN_NO_MEMORY);
    celdrinn_limit_seconds(c, 0), celdrinn_limit_memory(c, 0), celdrinn_set_terminate(c, NULL, NULL);
    if (status == CELDRINN_STOPPED) WANT(celdrinn_do_check(c) == 0);
    celdrinn_free(c), free(lits);
    PASS();
}
static int after_some(void *calls) { return ++*(int *)calls > 200; }

struct job {
    const int *lits;
    size_t size;
    char *out;
    size_t out_size;
    int status;
};
static void *work(void *at) {
    struct job *j = at;
    celdrinn *c = celdrinn_new();
    celdrinn_clauses(c, j->lits, j->size);
    j->status = celdrinn_do_simplify(c);
    const char *out = celdrinn_out_text(c, &j->out_size);
    j->out = malloc(j->out_size + 1);
    memcpy(j->out, out, j->out_size);
    celdrinn_free(c);
    return NULL;
}
static void play_threads(void) {
    row = "calls of several threads at once";
    int *lits = random_clauses(300, 900);
    struct job jobs[5];
    pthread_t threads[5];
    for (int i = 0; i < 5; i++) jobs[i] = (struct job){.lits = lits, .size = 3600};
    work(&jobs[0]);
    for (int i = 1; i < 5; i++) WANT(pthread_create(&threads[i], NULL, work, &jobs[i]) == 0);
    for (int i = 1; i < 5; i++) pthread_join(threads[i], NULL);
    for (int i = 1; i < 5; i++) WANT(jobs[i].status == jobs[0].status && jobs[i].out_size == jobs[0].out_size && memcmp(jobs[i].out, jobs[0].out, jobs[0].out_size) == 0);
    for (int i = 0; i < 5; i++) free(jobs[i].out);
    free(lits);
    PASS();
}

/* one call, for a run in which some memory is refused */
static int play_once(void) {
    const int one[] = {1}, two[] = {2, 3}, clauses[] = {1, 2, 0, -1, -2, 3, 0, -3, 2, 0};
    celdrinn *c = celdrinn_new();
    if (c == NULL) return CELDRINN_NO_MEMORY;
    int status = celdrinn_block(c, 'a', one, 1);
    if (!status) status = celdrinn_block(c, 'e', two, 2);
    if (!status) status = celdrinn_clauses(c, clauses, 10);
    if (!status) status = celdrinn_do_simplify(c);
    if (status == CELDRINN_TRUE) status = celdrinn_do_check(c);
    if (!status) status = celdrinn_do_rebuild(c, "aag 0 0 0 0 0\n", 14);
    celdrinn_free(c);
    return status ? status : play_each_once();
}

int main(int argc, char **argv) {
    const char *part = argc > 1 ? argv[1] : "all";
    int is_small = strcmp(part, "small") == 0;
    if (strcmp(part, "once") == 0) return play_once();
    play_version();
    play_arrays();
    play_text();
    play_misuse();
    play_refusal();
    play_models(is_small ? 20 : 400);
    play_commands();
    play_threads();
    if (!is_small) {
        play_stop("a limit of seconds", 0.3, 0, NULL);
        play_stop("a limit of bytes", 0, 30000000, NULL);
        play_stop("a caller who ends the call", 0, 0, after_some);
    }
    return wrong;
}
