/* The calls of celdrinn2.h but `celdrinn_do` and the files: a formula from arrays, limits, OUT as arrays, the commands by names of their own. */
#include "folder.h"
#include <limits.h>
#include <stdio.h>
#include <stdlib.h>
#include <string.h>

const char *celdrinn_version(void) { return "celdrinn " CELDRINN_VERSION " abi 1"; }

const char *celdrinn_status_text(int status) {
    switch (status) {
    case 0: return "done";
    case 1: return "the log is refused";
    case 2: return "stopped by a limit";
    case 3: return "no formula";
    case 6: return "no memory, or stopped before there was a result";
    case 7: return "the circuits don't fit";
    case 8: return "a step that can't be carried back";
    case 9: return "the circuits are wrong";
    case 10: return "true";
    case 12: return "not known";
    case 20: return "false";
    case 64: return "a call out of order, or an argument out of range";
    default: return "unknown";
    }
}

celdrinn *celdrinn_new(void) {
    static const struct celdrinn_options defaults = CELDRINN_OPTIONS;
    celdrinn *c = calloc(1, sizeof *c);
    if (c) c->options = defaults;
    return c;
}
void celdrinn_free(celdrinn *c) {
    if (c == NULL) return;
    free(c->blocks.at), free(c->clauses.at), free(c->out_blocks.at), free(c->out_clauses.at);
    for (int i = 0; i < FILE_NAMES; i++) celdrinn_drop(&c->files[i]);
    celdrinn_drop(&c->line), celdrinn_drop(&c->moves);
    free(c);
}
void celdrinn_limit_seconds(celdrinn *c, double s) { c->seconds = s; }
void celdrinn_limit_memory(celdrinn *c, size_t b) { c->limits.most_bytes = b; }
void celdrinn_set_terminate(celdrinn *c, void *state, int (*f)(void *)) { c->limits.state = state, c->limits.terminate = f; }
void celdrinn_stop(celdrinn *c) { atomic_store(&c->limits.stop, 1); }
void celdrinn_costs(const celdrinn *c, struct celdrinn_costs *k) { *k = c->costs; }
const char *celdrinn_line(celdrinn *c) { return c->said ? c->said : c->line.at ? c->line.at : ""; }
int celdrinn_offence(celdrinn *c, uint64_t *line, unsigned *cause) {
    const char *at = strstr(celdrinn_line(c), "line ");
    unsigned long long place = 0;
    *cause = 0;
    if (sscanf(celdrinn_line(c), "moves line %llu", &place) == 1) return *line = place, 0;
    if (at == NULL || sscanf(at, "line %llu cause %u", &place, cause) != 2) return CELDRINN_USAGE;
    *line = place;
    return 0;
}

/* --- IN --- */
int celdrinn_block(celdrinn *c, int q, const int *vars, size_t n) {
    if (c->files[IN].at || c->clauses.size) return celdrinn_misuse(c, "blocks come before clauses");
    if (q != 'e' && q != 'a') return celdrinn_misuse(c, "a quantifier is 'e' or 'a'");
    for (size_t i = 0; i < n; i++)
        if (vars[i] <= 0) return celdrinn_misuse(c, "a variable is above 0");
    if (n == 0) return 0;
    if (c->last_block_is != q) {
        if (c->blocks.size && !celdrinn_push(&c->blocks, 0)) return CELDRINN_NO_MEMORY;
        if (!celdrinn_push(&c->blocks, q)) return CELDRINN_NO_MEMORY;
        c->last_block_is = q;
    }
    for (size_t i = 0; i < n; i++) {
        if (!celdrinn_push(&c->blocks, vars[i])) return CELDRINN_NO_MEMORY;
        if (vars[i] > c->largest) c->largest = vars[i];
    }
    return 0;
}
int celdrinn_clauses(celdrinn *c, const int *lits, size_t n) {
    if (c->files[IN].at) return celdrinn_misuse(c, "a formula is there already");
    if (!celdrinn_room_for((void **)&c->clauses.at, &c->clauses.room, c->clauses.size + n, sizeof(int))) return CELDRINN_NO_MEMORY;
    int most = c->largest;
    for (size_t i = 0; i < n; i++) {
        int x = lits[i] < 0 ? -(lits[i] + 1) + 1 : lits[i];
        if (lits[i] == INT_MIN) return celdrinn_misuse(c, "a literal is out of range");
        if (x > most) most = x;
    }
    memcpy(c->clauses.at + c->clauses.size, lits, n * sizeof(int));
    c->clauses.size += n;
    c->largest = most;
    if (n) c->clause_is_open = lits[n - 1] != 0;
    return 0;
}
int celdrinn_add(celdrinn *c, int lit) { return celdrinn_clauses(c, &lit, 1); }
int celdrinn_text(celdrinn *c, const void *t, size_t n) {
    if (c->files[IN].at) return celdrinn_misuse(c, "a formula is there already");
    return celdrinn_put(c, "IN", t, n);
}

char *celdrinn_put_int(char *p, int x) {
    char digits[12];
    int n = 0;
    unsigned u = x < 0 ? 0u - (unsigned)x : (unsigned)x;
    if (x < 0) *p++ = '-';
    do digits[n++] = (char)('0' + u % 10), u /= 10;
    while (u);
    while (n) *p++ = digits[--n];
    return p;
}
int celdrinn_write_in(celdrinn *c) {
    struct text *in = &c->files[IN];
    size_t count = 0;
    if (in->at != NULL) return 1;
    for (size_t i = 0; i < c->clauses.size; i++) count += c->clauses.at[i] == 0;
    char *at = malloc(64 + 12 * (c->blocks.size + c->clauses.size + 2)), *p = at;
    if (at == NULL) return 0;
    p += sprintf(p, "p cnf %d %zu\n", c->largest, count);
    for (size_t i = 0; i < c->blocks.size; i++) {
        if (i == 0 || c->blocks.at[i - 1] == 0) {
            *p++ = (char)c->blocks.at[i];
            continue;
        }
        if (c->blocks.at[i] == 0) {
            p = memcpy(p, " 0\n", 3), p += 3;
            continue;
        }
        *p++ = ' ';
        p = celdrinn_put_int(p, c->blocks.at[i]);
    }
    if (c->blocks.size) p = memcpy(p, " 0\n", 3), p += 3;
    for (size_t i = 0; i < c->clauses.size; i++) {
        p = celdrinn_put_int(p, c->clauses.at[i]);
        *p++ = c->clauses.at[i] ? ' ' : '\n';
    }
    *p = 0;
    in->at = at, in->size = (size_t)(p - at);
    return 1;
}

/* --- the commands by names of their own --- */
int celdrinn_do_simplify(celdrinn *c) { return celdrinn_do(c, "simplify"); }
int celdrinn_results(celdrinn *c, const void *out, size_t out_length, const void *log, size_t log_length) {
    if (!celdrinn_keep_file(c, OUT, out, out_length) || !celdrinn_keep_file(c, LOG, log, log_length)) return CELDRINN_NO_MEMORY;
    return 0;
}
static int has_out(celdrinn *c) { return c->files[OUT].at != NULL && c->files[LOG].at != NULL; }
int celdrinn_do_check(celdrinn *c) {
    if (!has_out(c)) return celdrinn_misuse(c, "nothing was simplified");
    return celdrinn_do(c, "check");
}
int celdrinn_do_rebuild(celdrinn *c, const void *aag, size_t size) {
    if (!has_out(c)) return celdrinn_misuse(c, "nothing was simplified");
    if (!celdrinn_keep_file(c, SKOLEM, aag, size)) return CELDRINN_NO_MEMORY;
    return celdrinn_do(c, "rebuild");
}

/* --- OUT as arrays --- */
/* a text that the caller put may be none: a number that is too large counts as the largest */
static int read_number(const char **p) {
    long long x = 0;
    for (; **p >= '0' && **p <= '9'; ++*p)
        if (x <= INT_MAX) x = 10 * x + (**p - '0');
    return x <= INT_MAX ? (int)x : INT_MAX;
}
static int read_out(celdrinn *c) {
    if (c->is_read) return 1;
    c->out_blocks.size = c->out_clauses.size = 0;
    c->out_count = 0, c->out_largest = 0;
    const char *p = c->files[OUT].at, *stop = p + c->files[OUT].size;
    while (p < stop) {
        if (*p == 'p' || *p == 'c') {
            while (p < stop && *p != '\n') p++;
        } else if (*p == 'e' || *p == 'a') {
            if (c->out_blocks.size && !celdrinn_push(&c->out_blocks, 0)) return 0;
            if (!celdrinn_push(&c->out_blocks, *p++)) return 0;
            for (;;) {
                while (*p == ' ') p++;
                int x = read_number(&p);
                if (x == 0) break;
                if (x > c->out_largest) c->out_largest = x;
                if (!celdrinn_push(&c->out_blocks, x)) return 0;
            }
        } else if (*p == '-' || (*p >= '0' && *p <= '9')) {
            int minus = *p == '-';
            p += minus;
            int x = read_number(&p);
            if (x > c->out_largest) c->out_largest = x;
            c->out_count += x == 0;
            if (!celdrinn_push(&c->out_clauses, minus ? -x : x)) return 0;
        } else
            p++;
    }
    return c->is_read = 1;
}
int celdrinn_out(celdrinn *c, struct celdrinn_formula *f) {
    if (c->files[OUT].at == NULL) return celdrinn_misuse(c, "nothing was simplified");
    if (!read_out(c)) return CELDRINN_NO_MEMORY;
    f->blocks = c->out_blocks.at, f->blocks_count = c->out_blocks.size;
    f->literals = c->out_clauses.at, f->literals_count = c->out_clauses.size;
    f->clauses = c->out_count, f->largest = c->out_largest;
    return 0;
}
static const char *text_of(const struct text *t, size_t *n) {
    *n = t->size;
    return t->at ? t->at : "";
}
const char *celdrinn_out_text(celdrinn *c, size_t *n) { return text_of(&c->files[OUT], n); }
const char *celdrinn_log_text(celdrinn *c, size_t *n) { return text_of(&c->files[LOG], n); }
const char *celdrinn_cert_text(celdrinn *c, size_t *n) { return text_of(&c->files[CERT], n); }

int celdrinn_do_rebuild_model(celdrinn *c, const int *lits, size_t n) {
    struct celdrinn_formula f;
    int status = celdrinn_out(c, &f);
    if (status) return status;
    size_t vars = 0;
    for (size_t i = 0; i < f.blocks_count; i++) {
        int begins = i == 0 || f.blocks[i - 1] == 0;
        if (begins && f.blocks[i] == 'a') return celdrinn_misuse(c, "a model serves where no universal is left");
        vars += !begins && f.blocks[i] != 0;
    }
    char *value = calloc((size_t)f.largest + 1, 1), *aag = malloc(64 + 32 * vars), *p = aag;
    if (!value || !aag) return free(value), free(aag), CELDRINN_NO_MEMORY;
    for (size_t i = 0; i < n; i++)
        if (lits[i] > 0 && lits[i] <= f.largest) value[lits[i]] = 1;
    p += sprintf(p, "aag 0 0 0 %zu 0\n", vars);
    for (size_t i = 0; i < f.blocks_count; i++)
        if (i != 0 && f.blocks[i - 1] != 0 && f.blocks[i] != 0) p += sprintf(p, "%d\n", value[f.blocks[i]]);
    size_t k = 0;
    for (size_t i = 0; i < f.blocks_count; i++)
        if (i != 0 && f.blocks[i - 1] != 0 && f.blocks[i] != 0) p += sprintf(p, "o%zu %d\n", k++, f.blocks[i]);
    status = celdrinn_do_rebuild(c, aag, (size_t)(p - aag));
    free(value), free(aag);
    return status;
}
