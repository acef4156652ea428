/* Rows of all commands by the files of a `celdrinn`, and of the proved call below them. What is wanted is known by hand: 1 and 2 are the same,
 * they differ, no value does. */
#include "celdrinn2.h"
#include "celdrinn.h"
#include "rows.h"
#include <pthread.h>
#include <stdlib.h>
#include <string.h>

#define SAME "p cnf 2 2\na 1 0\ne 2 0\n1 -2 0\n-1 2 0\n"
#define DIFFER "p cnf 2 2\na 1 0\ne 2 0\n1 2 0\n-1 -2 0\n"
#define IS_NOT "aag 1 1 0 1 0\n2\n3\ni0 1\no0 2\n" /* 2 is not 1 */
#define IS "aag 1 1 0 1 0\n2\n2\ni0 1\no0 2\n"     /* 2 is 1 */
#define FALSE_1 "p cnf 2 2\na 1 0\ne 2 0\n1 2 0\n-2 0\n" /* where 1 is 0 nothing serves */
#define NOTHING "aag 0 0 0 0 0\n"

static int put(celdrinn *c, const char *name, const char *text) { return celdrinn_put(c, name, text, strlen(text)); }
static celdrinn *with(const char *in) {
    celdrinn *c = celdrinn_new();
    if (c != NULL && put(c, "IN", in) != 0) celdrinn_free(c), c = NULL;
    return c;
}
static int says(celdrinn *c, const char *front) { return strncmp(celdrinn_line(c), front, strlen(front)) == 0; }
static int is_there(celdrinn *c, const char *name) {
    size_t n;
    return celdrinn_get(c, name, &n) != NULL;
}
static int holds_text(celdrinn *c, const char *name, const char *text) {
    size_t n;
    const char *at = celdrinn_get(c, name, &n);
    return at != NULL && n == strlen(text) && memcmp(at, text, n) == 0;
}

static void play_files(void) {
    row = "files are put, taken away and missed by their names";
    celdrinn *c = celdrinn_new();
    WANT(c != NULL && celdrinn_put(c, "FILE", "", 0) == CELDRINN_USAGE && !is_there(c, "FILE") && !is_there(c, "CERT"));
    WANT(put(c, "CERT", IS) == 0 && holds_text(c, "CERT", IS));
    WANT(celdrinn_put(c, "CERT", NULL, 0) == 0 && !is_there(c, "CERT"));
    WANT(put(c, "IN", DIFFER) == 0 && celdrinn_do(c, "validate") == CELDRINN_USAGE && celdrinn_do(c, "simplest") == CELDRINN_USAGE);
    WANT(celdrinn_line(c)[0] != 0);
    celdrinn_free(c);
    PASS();
}

static void play_judges(void) {
    row = "validate: circuits that are right, wrong, and none";
    celdrinn *c = with(DIFFER);
    WANT(c != NULL && put(c, "CERT", IS_NOT) == 0 && celdrinn_do(c, "validate") == 0 && strcmp(celdrinn_line(c), "valid") == 0);
    WANT(put(c, "CERT", IS) == 0 && celdrinn_do(c, "validate") == CELDRINN_INVALID);
    WANT(strcmp(celdrinn_line(c), "invalid 1") == 0 || strcmp(celdrinn_line(c), "invalid -1") == 0);
    WANT(put(c, "CERT", NOTHING) == 0 && celdrinn_do(c, "validate") == CELDRINN_CIRCUITS && strcmp(celdrinn_line(c), "circuits missing 2") == 0);
    WANT(put(c, "CERT", IS_NOT) == 0 && celdrinn_set(c, "budget", 0) == 0 && celdrinn_do(c, "validate") == CELDRINN_UNKNOWN);
    celdrinn_free(c);
    PASS();
}

static void play_solve(void) {
    row = "solve: circuits of a true formula, none of a false one";
    celdrinn *c = with(SAME), *d = with(FALSE_1);
    WANT(c != NULL && d != NULL);
    WANT(celdrinn_do(c, "solve") == CELDRINN_TRUE && is_there(c, "OUT") && is_there(c, "LOG") && celdrinn_do(c, "validate") == 0);
    WANT(put(d, "CERT", IS) == 0 && celdrinn_do(d, "solve") == CELDRINN_FALSE && !is_there(d, "CERT"));
    celdrinn_free(c), celdrinn_free(d);
    PASS();
}

static void play_annotate(void) {
    row = "annotate: hints are checked as the log is, and in parts";
    unsigned long whole, first, second;
    struct celdrinn_options half = CELDRINN_OPTIONS;
    size_t n;
    celdrinn *c = with(DIFFER);
    WANT(c != NULL && celdrinn_do(c, "simplify") == CELDRINN_TRUE && celdrinn_do(c, "check") == 0);
    WANT(sscanf(celdrinn_line(c), "verified %lu", &whole) == 1 && whole > 0);
    WANT(celdrinn_do(c, "annotate") == 0 && is_there(c, "HINTED"));
    const char *hinted = celdrinn_get(c, "HINTED", &n);
    WANT(strncmp(hinted, "p qrat", 6) == 0 && celdrinn_put(c, "LOG", hinted, n) == 0 && celdrinn_do(c, "check") == 0);
    WANT(sscanf(celdrinn_line(c), "verified %lu", &first) == 1 && first == whole);
    half.part = 1, half.parts = 2;
    WANT(celdrinn_set_options(c, &half) == 0 && celdrinn_do(c, "check") == 0 && sscanf(celdrinn_line(c), "verified %lu", &first) == 1);
    half.part = 2;
    WANT(celdrinn_set_options(c, &half) == 0 && celdrinn_do(c, "check") == 0 && sscanf(celdrinn_line(c), "verified %lu", &second) == 1);
    WANT(first + second == whole);
    celdrinn_free(c);
    PASS();
}

static void play_apply(void) {
    row = "apply: the formula behind a log, behind its whole steps, and none";
    celdrinn *c = with(DIFFER);
    WANT(c != NULL && put(c, "LOG", "d 2 1 0\n") == 0 && celdrinn_do(c, "apply") == 0 && strcmp(celdrinn_line(c), "applied 1") == 0);
    WANT(holds_text(c, "OUT", "p cnf 2 1\na 1 0\ne 2 0\n-1 -2 0\n"));
    WANT(put(c, "LOG", "d 2 1 0\nd -1") == 0 && celdrinn_do(c, "apply") == 0 && strcmp(celdrinn_line(c), "applied 1 broken line 2") == 0);
    WANT(put(c, "LOG", "d 1 0\n") == 0 && celdrinn_do(c, "apply") == CELDRINN_REFUSED && !is_there(c, "OUT"));
    celdrinn_free(c);
    PASS();
}

static void play_proofs(void) {
    row = "disprove: a proof, none, and a part of one";
    celdrinn *c = with("p cnf 1 2\n1 0\n-1 0\n");
    WANT(c != NULL && put(c, "PROOF", "0\n") == 0 && celdrinn_do(c, "disprove") == CELDRINN_FALSE && strcmp(celdrinn_line(c), "false 1") == 0);
    WANT(put(c, "PROOF", "") == 0 && celdrinn_do(c, "disprove") == CELDRINN_REFUSED && strcmp(celdrinn_line(c), "refused end cause 11") == 0);
    WANT(celdrinn_put(c, "PROOF", "a\0", 2) == 0 && celdrinn_set(c, "binary", 1) == 0 && celdrinn_do(c, "disprove") == CELDRINN_FALSE);
    celdrinn_free(c);
    PASS();
}

static void play_hints_of_proofs(void) {
    row = "annotate: a proof with hints, and none";
    size_t n;
    celdrinn *c = with("p cnf 3 2\na 1 0\ne 2 3 0\n1 0\n2 3 0\n");
    WANT(c != NULL && celdrinn_do(c, "annotate") == CELDRINN_USAGE);
    WANT(put(c, "PROOF", "d 2 3 0\nu 1 0\nx\n") == 0 && celdrinn_do(c, "annotate") == 0 && strcmp(celdrinn_line(c), "annotated 2") == 0);
    WANT(holds_text(c, "HINTED", "p qrat 2\nd 2 3 0 2 1 0\nu 1 0 1 3 0\n"));
    const char *hinted = celdrinn_get(c, "HINTED", &n);
    WANT(celdrinn_put(c, "PROOF", hinted, n) == 0 && celdrinn_do(c, "disprove") == CELDRINN_FALSE && strcmp(celdrinn_line(c), "false 2") == 0);
    WANT(put(c, "PROOF", "d 2 3 0\n") == 0 && celdrinn_do(c, "annotate") == CELDRINN_REFUSED && !is_there(c, "HINTED"));
    WANT(strcmp(celdrinn_line(c), "refused end cause 11") == 0);
    celdrinn_free(c);
    PASS();
}

static void play_traces(void) {
    row = "extract: circuits of a trace, or that it says nothing";
    celdrinn *c = with(SAME);
    WANT(c != NULL && put(c, "TRACE", "p qrp 2 2\na 1 0\ne 2 0\n1 1 2 0 0\n2 1 0 1 0\n3 -1 -2 0 0\n4 -1 0 3 0\n5 0 2 4 0\nr SAT\n") == 0);
    WANT(celdrinn_do(c, "extract") == CELDRINN_TRUE && strcmp(celdrinn_line(c), "true 0") == 0 && holds_text(c, "CERT", IS));
    WANT(put(c, "TRACE", "p qrp 2 2\na 1 0\ne 2 0\nr UNKNOWN\n") == 0 && celdrinn_do(c, "extract") == CELDRINN_UNKNOWN && !is_there(c, "CERT"));
    celdrinn_free(c);
    PASS();
}

/* whether the miter of IN and CERT has a model, by brute force; 0 where none is made */
static int is_miter(celdrinn *c, int *has_model) {
    struct celdrinn_formula m;
    char value[32];
    size_t n;
    if (celdrinn_do(c, "miter") != 0 || !says(c, "written ")) return 0;
    const char *text = celdrinn_get(c, "MITER", &n);
    celdrinn *d = celdrinn_new();
    int is_right = d != NULL && celdrinn_put(d, "OUT", text, n) == 0 && celdrinn_out(d, &m) == 0 && m.largest <= 20;
    if (is_right) *has_model = find_model(m.literals, m.literals_count, m.largest, value);
    celdrinn_free(d);
    return is_right;
}
static int has_model(const char *in, const char *cert, unsigned herbrand) {
    int answer = -1;
    celdrinn *c = with(in);
    if (c != NULL && put(c, "CERT", cert) == 0 && celdrinn_set(c, "herbrand", herbrand) == 0 && !is_miter(c, &answer)) answer = -1;
    celdrinn_free(c);
    return answer;
}
static void play_miter(void) {
    row = "miter: no model where the circuits are right";
    WANT(has_model(DIFFER, IS_NOT, 0) == 0 && has_model(DIFFER, IS, 0) == 1);
    WANT(has_model(FALSE_1, "aag 0 0 0 1 0\n0\no0 1\n", 1) == 0 && has_model(FALSE_1, "aag 0 0 0 1 0\n1\no0 1\n", 1) == 1);
    PASS();
}

static void play_refute(void) {
    row = "refute: values that nothing serves";
    int models = -1;
    celdrinn *c = with(FALSE_1);
    WANT(c != NULL && celdrinn_do(c, "simplify") == CELDRINN_FALSE && put(c, "HERBRAND", NOTHING) == 0);
    WANT(celdrinn_do(c, "refute") == 0 && says(c, "refuted "));
    WANT(celdrinn_set(c, "herbrand", 1) == 0 && is_miter(c, &models) && models == 0);
    celdrinn_free(c);
    PASS();
}

static void play_generate(void) {
    row = "gen: a formula of so many clauses";
    size_t n, count = 0;
    celdrinn *c = celdrinn_new(), *d = celdrinn_new();
    WANT(celdrinn_set(c, "seed", 7) == 0 && celdrinn_set(c, "clauses", 30) == 0 && celdrinn_do(c, "gen") == 0);
    WANT(strcmp(celdrinn_line(c), "generated 30") == 0);
    const char *text = celdrinn_get(c, "IN", &n);
    WANT(text != NULL && celdrinn_put(d, "OUT", text, n) == 0);
    struct celdrinn_formula f;
    WANT(celdrinn_out(d, &f) == 0 && f.clauses == 30);
    for (size_t i = 0; i < f.literals_count; i++) count += f.literals[i] == 0;
    WANT(count == 30 && celdrinn_do(c, "simplify") != CELDRINN_INPUT);
    celdrinn_free(c), celdrinn_free(d);
    PASS();
}

static void play_options(void) {
    row = "options: their range, their size, and what they do";
    struct {
        struct celdrinn_options known;
        uint64_t later;
    } o = {CELDRINN_OPTIONS, 0};
    struct celdrinn_formula left;
    size_t n;
    celdrinn *c = with(DIFFER);
    WANT(c != NULL && celdrinn_set(c, "grow", 10001) == CELDRINN_USAGE && celdrinn_set(c, "grow", 10000) == 0);
    WANT(celdrinn_set(c, "no such option", 1) == CELDRINN_USAGE && celdrinn_line(c)[0] != 0);
    o.known.size = sizeof o;
    WANT(celdrinn_set_options(c, &o.known) == 0);
    o.later = 1;
    WANT(celdrinn_set_options(c, &o.known) == CELDRINN_USAGE);
    o.known.size = 0;
    WANT(celdrinn_set_options(c, &o.known) == CELDRINN_USAGE);
    /* of an earlier version, which ended behind `expand`: the budget is none, whatever stands there */
    o.known.size = offsetof(struct celdrinn_options, budget), o.known.budget = 0;
    WANT(celdrinn_set_options(c, &o.known) == 0 && celdrinn_do(c, "simplify") == CELDRINN_TRUE);
    /* nothing is spent: OUT is IN, by a log without steps */
    WANT(celdrinn_set(c, "budget", 0) == 0 && celdrinn_do(c, "simplify") == CELDRINN_STOPPED && says(c, "spent "));
    WANT(celdrinn_get(c, "LOG", &n) != NULL && n == 0 && celdrinn_out(c, &left) == 0 && left.clauses == 2 && left.literals_count == 6);
    WANT(celdrinn_do(c, "check") == 0 && strcmp(celdrinn_line(c), "verified 0") == 0);
    celdrinn_free(c);
    PASS();
}

/* one clause of two goes, and the list says which */
#define EITHER "p cnf 2 2\ne 1 2 0\n1 0\n2 0\n"
static int list(celdrinn *c, const char *moves) {
    struct celdrinn_options o = CELDRINN_OPTIONS;
    o.budget = 1, o.moves = moves, o.moves_length = moves ? strlen(moves) : 0;
    return celdrinn_set_options(c, &o);
}
static int leads_to(celdrinn *c, const char *moves, const char *out) {
    if (list(c, moves) != 0 || celdrinn_do(c, "simplify") != CELDRINN_STOPPED || strcmp(celdrinn_line(c), "spent 6 3") != 0) return 0;
    return holds_text(c, "OUT", out) && celdrinn_do(c, "check") == 0;
}
static void play_moves(void) {
    row = "moves: the first that applies goes first, and a wrong line is told";
    uint64_t line;
    unsigned cause;
    char short_lived[] = "eliminate 2";
    celdrinn *c = with(EITHER);
    WANT(c != NULL && leads_to(c, "eliminate 1\n", "p cnf 2 1\ne 2 0\n2 0\n") && leads_to(c, "eliminate 2\n", "p cnf 1 1\ne 1 0\n1 0\n"));
    WANT(leads_to(c, "eliminate 7\n\neliminate 2", "p cnf 1 1\ne 1 0\n1 0\n") && leads_to(c, "eliminate 1\neliminate 2\n", "p cnf 2 1\ne 2 0\n2 0\n"));
    WANT(list(c, short_lived) == 0);
    memset(short_lived, 'x', sizeof short_lived); /* a copy was kept, also where another option is set */
    WANT(celdrinn_set(c, "grow", 1) == 0 && celdrinn_do(c, "simplify") == CELDRINN_STOPPED && holds_text(c, "OUT", "p cnf 1 1\ne 1 0\n1 0\n"));
    WANT(list(c, "eliminate 1\n\nunit 1x\ncut 0\n") == 0 && celdrinn_do(c, "simplify") == CELDRINN_USAGE);
    WANT(strcmp(celdrinn_line(c), "moves line 3") == 0 && celdrinn_offence(c, &line, &cause) == 0 && line == 3 && cause == 0);
    WANT(!is_there(c, "OUT") && !is_there(c, "LOG") && celdrinn_do(c, "solve") == CELDRINN_USAGE && says(c, "moves line 3"));
    WANT(put(c, "OUT", EITHER) == 0 && put(c, "LOG", "") == 0 && celdrinn_do(c, "check") == 0); /* it takes no moves */
    WANT(list(c, NULL) == 0 && celdrinn_do(c, "simplify") == CELDRINN_STOPPED);
    celdrinn_free(c);
    PASS();
}

/* the proved call by itself */
static struct celdrinn_word word(const char *text) {
    struct celdrinn_word w = {(const uint8_t *)text, strlen(text), (const uint8_t *)"", 0, 0};
    return w;
}
static struct celdrinn_word given(const char *name, const char *text) {
    struct celdrinn_word w = {(const uint8_t *)name, strlen(name), (const uint8_t *)text, strlen(text), 1};
    return w;
}
static void play_proved(void) {
    row = "the proved call: lengths, short of room, what was given is not told";
    struct celdrinn_word words[] = {word("rebuild"), given("I", DIFFER), given("O", DIFFER), given("L", ""), given("S", IS_NOT), word("C")};
    size_t lengths[6], line_len, size = strlen(IS_NOT);
    uint8_t made[64], line[64];
    memset(made, 'x', sizeof made);
    WANT(celdrinn_run(words, 6, lengths, 6, made, size - 1, line, sizeof line, &line_len) == 0);
    WANT(lengths[0] == 0 && lengths[1] == 0 && lengths[2] == 0 && lengths[3] == 0 && lengths[4] == 0 && lengths[5] == size);
    WANT(made[0] == 'x' && made[size - 1] == 'x' && line_len == strlen("rebuilt 0\n") && memcmp(line, "rebuilt 0\n", line_len) == 0);
    WANT(celdrinn_run(words, 6, lengths, 6, made, size, line, 3, &line_len) == 0 && lengths[5] == size && line_len == 10);
    WANT(memcmp(made, IS_NOT, size) == 0 && made[size] == 'x');
    words[5] = word("S"); /* two names are the same */
    WANT(celdrinn_run(words, 6, lengths, 6, made, size, line, sizeof line, &line_len) == CELDRINN_USAGE && lengths[5] == 0);
    WANT(line_len == 6 && memcmp(line, "usage\n", 6) == 0);
    words[5] = word("\xff");
    WANT(celdrinn_run(words, 6, lengths, 6, made, size, line, sizeof line, &line_len) == CELDRINN_USAGE && line_len == 0);
    words[5] = word("C");
    WANT(celdrinn_run(words, 6, lengths, 5, made, size, line, sizeof line, &line_len) == CELDRINN_USAGE && line_len == 0 && lengths[4] == 0);
    PASS();
}
static void play_proved_moves(void) {
    row = "the proved call under a list of moves: the number of the first line that is none";
    struct celdrinn_word words[] = {word("simplify"), given("I", EITHER), word("O"), word("L"), word("--budget=1")};
    size_t lengths[5], line_len, wrong_line = 7;
    uint8_t made[64], line[64];
    const char *moves = "eliminate 2", *out = "p cnf 1 1\ne 1 0\n1 0\n";
    WANT(celdrinn_run_listed(words, 5, (const uint8_t *)moves, strlen(moves), lengths, 5, made, sizeof made, line, sizeof line, &line_len, &wrong_line) == 2);
    WANT(wrong_line == 0 && line_len == 10 && memcmp(line, "spent 6 3\n", 10) == 0 && lengths[2] == strlen(out) && memcmp(made, out, lengths[2]) == 0);
    moves = "\neliminate  2\nx\n"; /* with two spaces */
    WANT(celdrinn_run_listed(words, 5, (const uint8_t *)moves, strlen(moves), lengths, 5, made, sizeof made, line, sizeof line, &line_len, &wrong_line) == CELDRINN_USAGE);
    WANT(wrong_line == 2 && line_len == 0 && lengths[2] == 0 && lengths[3] == 0 && memcmp(made, out, strlen(out)) == 0);
    WANT(celdrinn_run_listed(words, 5, (const uint8_t *)moves, 0, lengths, 4, made, sizeof made, line, sizeof line, &line_len, &wrong_line) == CELDRINN_USAGE);
    WANT(wrong_line == 0 && line_len == 0);
    PASS();
}

static int at_once(void *asked) { return ++*(int *)asked; }
static int is_stopped(celdrinn *c, const char *command, int wanted, const char *line) {
    return celdrinn_do(c, command) == wanted && strcmp(celdrinn_line(c), line) == 0;
}
static void play_limits(void) {
    row = "limits end each command: the line says which, and what was done stands";
    const char *const others[] = {"check", "rebuild", "annotate", "validate", "solve", "disprove", "miter"};
    const char *const memory = "stopped: the memory allowed is used", *const caller = "stopped: by the caller";
    int asked = 0;
    celdrinn *c = with(DIFFER);
    WANT(c != NULL && put(c, "OUT", DIFFER) == 0 && put(c, "LOG", "") == 0 && put(c, "SKOLEM", IS_NOT) == 0 && put(c, "PROOF", "0\n") == 0);
    celdrinn_limit_memory(c, 1);
    for (size_t i = 0; i < sizeof others / sizeof *others; i++)
        WANT(put(c, "CERT", IS_NOT) == 0 && is_stopped(c, others[i], CELDRINN_NO_MEMORY, memory) && put(c, "OUT", DIFFER) == 0 && put(c, "LOG", "") == 0);
    WANT(is_stopped(c, "simplify", CELDRINN_STOPPED, memory));
    celdrinn_limit_memory(c, 0), celdrinn_set_terminate(c, &asked, at_once);
    WANT(is_stopped(c, "solve", CELDRINN_NO_MEMORY, caller) && asked > 0 && is_stopped(c, "simplify", CELDRINN_STOPPED, caller));
    celdrinn_set_terminate(c, NULL, NULL);
    /* OUT of the call that was ended belongs to its log */
    WANT(celdrinn_do(c, "check") == 0 && strcmp(celdrinn_line(c), "verified 0") == 0 && celdrinn_do(c, "simplify") == CELDRINN_TRUE);
    celdrinn_stop(c);
    WANT(is_stopped(c, "check", CELDRINN_NO_MEMORY, caller));
    celdrinn_free(c);
    PASS();
}

static void *once(void *status) {
    *(int *)status = play_each_once();
    return NULL;
}
static void play_together(void) {
    row = "all commands in four threads at once";
    int status[4];
    pthread_t threads[4];
    for (int i = 0; i < 4; i++) WANT(pthread_create(&threads[i], NULL, once, &status[i]) == 0);
    for (int i = 0; i < 4; i++) pthread_join(threads[i], NULL);
    for (int i = 0; i < 4; i++) WANT(status[i] == 0);
    PASS();
}

void play_commands(void) {
    play_files();
    play_judges();
    play_solve();
    play_annotate();
    play_apply();
    play_proofs();
    play_hints_of_proofs();
    play_traces();
    play_miter();
    play_refute();
    play_generate();
    play_options();
    play_moves();
    play_proved();
    play_proved_moves();
    play_limits();
    play_together();
}

/* the first status that is not the one wanted, and 0 where there is none */
static int step(celdrinn *c, const char *command, int wanted) {
    int status = celdrinn_do(c, command);
    return status == wanted ? 0 : status;
}
static int on_true(celdrinn *c) {
    struct celdrinn_options o = CELDRINN_OPTIONS;
    int status = put(c, "SKOLEM", NOTHING);
    o.grow = 8, o.moves = "eliminate 2\n", o.moves_length = strlen(o.moves);
    if (!status) status = celdrinn_set_options(c, &o);
    if (!status) status = step(c, "simplify", CELDRINN_TRUE);
    if (!status) status = step(c, "check", 0);
    if (!status) status = step(c, "apply", 0);
    if (!status) status = step(c, "annotate", 0);
    if (!status) status = step(c, "rebuild", 0);
    if (!status) status = step(c, "validate", 0);
    if (!status) status = step(c, "miter", 0);
    return status ? status : step(c, "solve", CELDRINN_TRUE);
}
static int on_false(celdrinn *c) {
    size_t n;
    int status = put(c, "HERBRAND", NOTHING);
    if (!status) status = step(c, "simplify", CELDRINN_FALSE);
    if (!status) status = step(c, "refute", 0);
    if (!status) {
        const char *log = celdrinn_get(c, "LOG", &n);
        status = celdrinn_put(c, "PROOF", log, n);
    }
    return status ? status : step(c, "disprove", CELDRINN_FALSE);
}
int play_each_once(void) {
    celdrinn *c = with(DIFFER), *d = with(FALSE_1);
    int status = c != NULL && d != NULL ? on_true(c) : CELDRINN_NO_MEMORY;
    if (!status) status = on_false(d);
    celdrinn_free(c), celdrinn_free(d);
    return status;
}
