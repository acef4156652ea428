/* All commands by one way: the words that the program takes, and the files of the folder, go to the proved call; the files that it made
 * come into the folder. */
#define _GNU_SOURCE
#include "celdrinn.h"
#include "folder.h"
#include "replay.h"
#include <stdio.h>
#include <stdlib.h>
#include <string.h>
#include <sys/mman.h>

/* the options of a command */
enum { GROW = 1, EXPAND = 2, BUDGET = 4, PART = 8, FLAG_HERBRAND = 16, FLAG_BINARY = 32, SCALE = 64, MOVES = 128 };

static const struct command {
    const char *word;
    enum file_name reads[5], makes[4]; /* up to NO_FILE, in the order of the words */
    int takes;
} commands[] = {
    {"simplify", {IN}, {OUT, LOG}, GROW | EXPAND | BUDGET | MOVES},
    {"check", {IN, OUT, LOG}, {NO_FILE}, PART},
    {"rebuild", {IN, OUT, LOG, SKOLEM}, {CERT}, 0},
    {"refute", {IN, OUT, LOG, HERBRAND}, {CERT}, 0},
    {"annotate", {IN, OUT, LOG}, {HINTED}, PART},
    {"annotate", {IN, PROOF}, {HINTED}, FLAG_BINARY | PART},
    {"validate", {IN, CERT}, {NO_FILE}, BUDGET},
    {"solve", {IN}, {OUT, LOG, CERT}, BUDGET | MOVES},
    {"extract", {IN, TRACE}, {CERT}, 0},
    {"miter", {IN, CERT}, {MITER}, FLAG_HERBRAND},
    {"disprove", {IN, PROOF}, {NO_FILE}, FLAG_BINARY | PART},
    {"apply", {IN, LOG}, {OUT}, 0},
    {"gen", {NO_FILE}, {IN}, SCALE},
};

/* --- options --- */
static const struct celdrinn_options defaults = CELDRINN_OPTIONS;

static int are_right(const struct celdrinn_options *o) {
    return o->grow <= 10000 && o->expand <= 10000 && (o->parts == 0 || (o->part >= 1 && o->part <= o->parts)) && o->herbrand <= 1 &&
           o->binary <= 1 && o->clauses >= 1 && o->clauses <= 100000;
}
/* a copy of the moves stays; they may be that copy */
static int keep_moves(celdrinn *c, struct celdrinn_options *o) {
    if (o->moves == NULL) {
        celdrinn_drop(&c->moves);
        o->moves_length = 0;
        return 1;
    }
    if (o->moves != c->moves.at && !celdrinn_keep(&c->moves, o->moves, o->moves_length)) return 0;
    o->moves = c->moves.at;
    return 1;
}
int celdrinn_set_options(celdrinn *c, const struct celdrinn_options *given) {
    struct celdrinn_options o = defaults;
    size_t known = given->size < sizeof o ? given->size : sizeof o;
    if (given->size < sizeof o.size) return celdrinn_misuse(c, "options without a size");
    for (size_t i = sizeof o; i < given->size; i++) /* of a later version */
        if (((const char *)given)[i] != 0) return celdrinn_misuse(c, "an option that this library has not");
    memcpy(&o, given, known);
    o.size = sizeof o;
    if (!are_right(&o)) return celdrinn_misuse(c, "an option is out of range");
    if (!keep_moves(c, &o)) return CELDRINN_NO_MEMORY;
    c->options = o;
    return 0;
}
static void set(struct celdrinn_options *o, const char *name, uint64_t value) {
    uint32_t most = value < UINT32_MAX ? (uint32_t)value : UINT32_MAX;
    if (!strcmp(name, "budget")) o->budget = value;
    else if (!strcmp(name, "seed")) o->seed = value;
    else if (!strcmp(name, "grow")) o->grow = most;
    else if (!strcmp(name, "expand")) o->expand = most;
    else if (!strcmp(name, "herbrand")) o->herbrand = most;
    else if (!strcmp(name, "binary")) o->binary = most;
    else if (!strcmp(name, "clauses")) o->clauses = most;
    else o->size = 0;
}
int celdrinn_set(celdrinn *c, const char *option, uint64_t value) {
    struct celdrinn_options o = c->options;
    set(&o, option, value);
    if (o.size == 0) return celdrinn_misuse(c, "no such option");
    return celdrinn_set_options(c, &o);
}

/* --- words --- */
enum { MOST_WORDS = 16, LONGEST_OPTION = 48 };
struct job {
    struct celdrinn_word words[MOST_WORDS];
    size_t lengths[MOST_WORDS], count;
    enum file_name makes[MOST_WORDS]; /* by the words; NO_FILE: none */
    char options[4][LONGEST_OPTION];
    int options_count;
    const uint8_t *moves; /* no pointer is null */
    size_t moves_len, wrong_move; /* the number of a line, from 1; 0: none */
};
static struct celdrinn_word *add_word(struct job *j, const char *text) {
    struct celdrinn_word *w = &j->words[j->count];
    j->makes[j->count++] = NO_FILE;
    w->text = (const uint8_t *)text, w->text_len = strlen(text);
    w->file = w->text, w->file_len = 0; /* no pointer is null */
    w->is_given = 0;
    return w;
}
static char *option_room(struct job *j) { return j->options[j->options_count++]; }
static void add_number(struct job *j, const char *front, unsigned long long number) {
    char *text = option_room(j);
    snprintf(text, LONGEST_OPTION, "%s%llu", front, number);
    add_word(j, text);
}
static void add_options(struct job *j, int takes, const struct celdrinn_options *o) {
    if (takes & GROW && o->grow != defaults.grow) add_number(j, "--grow=", o->grow);
    if (takes & EXPAND && o->expand != defaults.expand) add_number(j, "--expand=", o->expand);
    if (takes & BUDGET && o->budget != defaults.budget) add_number(j, "--budget=", o->budget);
    if (takes & FLAG_HERBRAND && o->herbrand) add_word(j, "--herbrand");
    if (takes & FLAG_BINARY && o->binary) add_word(j, "--binary");
    if (takes & PART && o->parts) {
        char *text = option_room(j);
        snprintf(text, LONGEST_OPTION, "--part=%u/%u", (unsigned)o->part, (unsigned)o->parts);
        add_word(j, text);
    }
}
/* whether each file is there that the command reads; IN is written where it was given by arrays */
static int are_there(const struct command *k, const celdrinn *c) {
    for (const enum file_name *name = k->reads; *name != NO_FILE; name++)
        if (*name != IN && c->files[*name].at == NULL) return 0;
    return 1;
}
static void fill(struct job *j, const struct command *k, const celdrinn *c) {
    int has_moves = k->takes & MOVES && c->options.moves != NULL;
    j->count = 0, j->options_count = 0, j->wrong_move = 0;
    j->moves = (const uint8_t *)(has_moves ? c->options.moves : ""), j->moves_len = has_moves ? c->options.moves_length : 0;
    add_word(j, k->word);
    if (k->takes & SCALE) add_number(j, "", c->options.seed), add_number(j, "", c->options.clauses);
    for (const enum file_name *name = k->reads; *name != NO_FILE; name++) {
        const struct text *t = &c->files[*name];
        struct celdrinn_word *w = add_word(j, celdrinn_file_names[*name]);
        w->file = (const uint8_t *)t->at, w->file_len = t->size, w->is_given = 1;
    }
    for (const enum file_name *name = k->makes; *name != NO_FILE; name++) {
        add_word(j, celdrinn_file_names[*name]);
        j->makes[j->count - 1] = *name;
    }
    add_options(j, k->takes, &c->options);
}

/* --- room for results: pages are there once they are written to, so it costs nothing --- */
#ifndef CELDRINN_ROOM
#define CELDRINN_ROOM ((size_t)1 << 38)
#endif
struct pages {
    uint8_t *at;
    size_t room;
};
/* as much as the system lets us name, but at least `least` */
static int open_pages(struct pages *p, size_t least) {
    if (least < 4096) least = 4096;
    for (size_t room = CELDRINN_ROOM > least ? CELDRINN_ROOM : least; room >= least; room = room > least && room / 2 < least ? least : room / 2) {
        void *at = mmap(NULL, room, PROT_READ | PROT_WRITE, MAP_PRIVATE | MAP_ANONYMOUS | MAP_NORESERVE, -1, 0);
        if (at == MAP_FAILED) continue;
        p->at = at, p->room = room;
        return 1;
    }
    return 0;
}
static void close_pages(struct pages *p) {
    if (p->at) munmap(p->at, p->room);
    memset(p, 0, sizeof *p);
}

/* --- the call --- */
static void begin(celdrinn *c) {
    struct celdrinn_limits *l = &c->limits;
    l->is_over = l->by = 0, l->bytes = l->peak = l->calls = 0, l->pause = 0, l->tick = 0;
    l->last = celdrinn_now();
    c->costs.seconds = l->last;
    l->deadline = c->seconds > 0 ? l->last + c->seconds : 0;
    celdrinn_current = l;
}
static void end(celdrinn *c) {
    struct celdrinn_limits *l = &c->limits;
    celdrinn_current = NULL;
    double now = celdrinn_now();
    if (now - l->last > l->pause) l->pause = now - l->last;
    c->costs.seconds = now - c->costs.seconds;
    c->costs.longest_pause = l->pause, c->costs.peak_bytes = l->peak, c->costs.allocations = l->calls;
}

/* the files that were made, and the line */
static int take_files(celdrinn *c, const struct job *j, const uint8_t *made) {
    for (size_t i = 0; i < j->count; made += j->lengths[i], i++)
        if (j->makes[i] != NO_FILE && j->lengths[i] != 0 && !celdrinn_keep_file(c, j->makes[i], made, j->lengths[i])) return 0;
    return 1;
}
static int take_line(celdrinn *c, const uint8_t *line, size_t size) {
    while (size && line[size - 1] == '\n') size--;
    c->said = size != 0 ? NULL : "no memory"; /* the proved call has a line but for that */
    return celdrinn_keep(&c->line, line, size);
}
static int take_wrong_move(celdrinn *c, size_t number) {
    char text[48];
    int size = snprintf(text, sizeof text, "moves line %zu", number);
    return take_line(c, (const uint8_t *)text, (size_t)size);
}
static size_t sum(const struct job *j) {
    size_t all = 0;
    for (size_t i = 0; i < j->count; i++) all += j->lengths[i];
    return all;
}
static int call(celdrinn *c, struct job *j) {
    struct pages made = {NULL, 0}, line = {NULL, 0};
    size_t made_len = 0, line_len = 0;
    int status, is_kept;
    do { /* once, but where the system gives little room */
        close_pages(&made), close_pages(&line);
        if (!open_pages(&made, made_len) || !open_pages(&line, line_len)) return close_pages(&made), CELDRINN_NO_MEMORY;
        begin(c);
        status = celdrinn_run_listed(j->words, j->count, j->moves, j->moves_len, j->lengths, j->count, made.at, made.room, line.at,
                                     line.room, &line_len, &j->wrong_move);
        end(c);
        made_len = sum(j);
    } while (made_len > made.room || line_len > line.room);
    is_kept = take_files(c, j, made.at) && (j->wrong_move ? take_wrong_move(c, j->wrong_move) : take_line(c, line.at, line_len));
    close_pages(&made), close_pages(&line);
    return is_kept ? status : CELDRINN_NO_MEMORY;
}

static const char *const stopped_by[] = {"", "stopped: by the caller", "stopped: time is over", "stopped: the memory allowed is used"};

/* the formula behind the steps of the log of a call of `simplify` that a limit ended */
static int replay(celdrinn *c) {
    struct text out = {NULL, 0};
    const struct text *in = &c->files[IN], *log = &c->files[LOG];
    if (log->at == NULL && !celdrinn_keep_file(c, LOG, "", 0)) return 0;
    if (!celdrinn_replay(in->at, in->size, log->at, log->size, &out.at, &out.size)) return 0;
    c->is_read = 0;
    c->files[OUT] = out;
    return 1;
}
/* a call that a limit ended has no answer of its own */
static int when_stopped(celdrinn *c, const struct command *k) {
    int is_made = k == &commands[0] && replay(c);
    c->said = stopped_by[c->limits.by];
    return is_made ? CELDRINN_STOPPED : CELDRINN_NO_MEMORY;
}

static int is_answer(int status) { return status == 0 || status == 2 || status == 10 || status == 20; }
/* a log may have no steps */
static int with_empty_log(celdrinn *c, const struct command *k, int status) {
    if (k->makes[1] != LOG || !is_answer(status) || c->files[OUT].at == NULL || c->files[LOG].at != NULL) return status;
    return celdrinn_keep_file(c, LOG, "", 0) ? status : CELDRINN_NO_MEMORY;
}
static int run(celdrinn *c, const struct command *k) {
    struct job j;
    if (c->clause_is_open) return celdrinn_misuse(c, "the last clause has no end");
    if (k->makes[0] == IN && (c->clauses.size || c->blocks.size)) return celdrinn_misuse(c, "a formula is there already");
    if (!are_there(k, c)) return celdrinn_misuse(c, "a file is missing that this command reads");
    if (k->reads[0] == IN && !celdrinn_write_in(c)) return CELDRINN_NO_MEMORY;
    fill(&j, k, c);
    for (const enum file_name *name = k->makes; *name != NO_FILE; name++) celdrinn_drop_file(c, *name);
    c->limits.by = 0;
    int status = call(c, &j);
    if (status == CELDRINN_NO_MEMORY && c->limits.by) return when_stopped(c, k);
    return with_empty_log(c, k, status);
}
/* of a command that takes other files as well, the first whose files are there */
int celdrinn_do(celdrinn *c, const char *command) {
    const struct command *found = NULL;
    for (size_t i = 0; i < sizeof commands / sizeof *commands; i++)
        if (!strcmp(commands[i].word, command) && (found == NULL || !are_there(found, c))) found = &commands[i];
    return found != NULL ? run(c, found) : celdrinn_misuse(c, "no such command");
}
