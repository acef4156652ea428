/* OUT of a stopped run: the steps of its log are made on IN, one after the other. Nothing here is proved, and nothing is judged:
 * celdrinn_check says whether LOG leads to what this makes. */
#include "replay.h"
#include "folder.h"
#include <limits.h>
#include <stdint.h>
#include <stdio.h>
#include <stdlib.h>
#include <string.h>

struct clauses {
    struct ints lits;                     /* each clause: its length, then its literals in order */
    size_t *table, *next, room, count, live; /* by hash: 1 + the clause's number; `at` says where it stands */
    size_t *at;
    size_t at_room;
};
static uint64_t hash_of(const int *l, int n) {
    uint64_t h = 0x9e3779b97f4a7c15u + (uint64_t)n;
    for (int i = 0; i < n; i++) h = (h ^ (uint32_t)l[i]) * 0xff51afd7ed558ccdu, h ^= h >> 29;
    return h;
}
static int by_size(const void *a, const void *b) {
    int x = *(const int *)a, y = *(const int *)b, u = abs(x), v = abs(y);
    return u != v ? (u > v) - (u < v) : (x > y) - (x < y);
}
static int in_order(int *l, int n) {
    for (int i = 1; i < n; i++) /* short clauses mostly */
        if (n < 16) {
            int x = l[i], j = i;
            while (j > 0 && by_size(&l[j - 1], &x) > 0) l[j] = l[j - 1], j--;
            l[j] = x;
        }
    if (n >= 16) qsort(l, (size_t)n, sizeof(int), by_size);
    int k = 0;
    for (int i = 0; i < n; i++)
        if (i == 0 || l[i] != l[i - 1]) l[k++] = l[i];
    return k;
}
static int enlarge(struct clauses *s) {
    if (s->count < s->room) return 1;
    size_t room = s->room ? 2 * s->room : 1024;
    size_t *table = calloc(room, sizeof *table), *next = realloc(s->next, room * sizeof *next), *at = realloc(s->at, room * sizeof *at);
    if (next) s->next = next;
    if (at) s->at = at;
    if (!table || !next || !at) return free(table), 0;
    for (size_t i = 0; i < s->count; i++) {
        int *l = s->lits.at + s->at[i];
        if (l[0] < 0) continue; /* taken away */
        size_t h = hash_of(l + 1, l[0]) & (room - 1);
        s->next[i] = table[h], table[h] = i + 1;
    }
    free(s->table);
    s->table = table, s->room = room;
    return 1;
}
static int keep(struct clauses *s, int *l, int n) {
    n = in_order(l, n);
    if (!enlarge(s) || !celdrinn_room_for((void **)&s->lits.at, &s->lits.room, s->lits.size + (size_t)n + 1, sizeof(int))) return 0;
    size_t h = hash_of(l, n) & (s->room - 1), i = s->count++;
    s->at[i] = s->lits.size;
    s->lits.at[s->lits.size++] = n;
    memcpy(s->lits.at + s->lits.size, l, (size_t)n * sizeof(int));
    s->lits.size += (size_t)n;
    s->next[i] = s->table[h], s->table[h] = i + 1;
    s->live++;
    return 1;
}
static int take(struct clauses *s, int *l, int n) {
    n = in_order(l, n);
    if (!s->room) return 0;
    for (size_t *at = &s->table[hash_of(l, n) & (s->room - 1)]; *at; at = &s->next[*at - 1]) {
        int *k = s->lits.at + s->at[*at - 1];
        if (k[0] != n || memcmp(k + 1, l, (size_t)n * sizeof(int))) continue;
        k[0] = -1 - n;
        *at = s->next[*at - 1];
        s->live--;
        return 1;
    }
    return 0;
}
/* the prefix as a ring through 0 */
struct ring {
    int *after, *before;
    char *q;
    size_t room;
};
static int ring_room(struct ring *r, int v) {
    if ((size_t)v < r->room) return 1;
    size_t room = r->room ? r->room : 64;
    while (room <= (size_t)v) room *= 2;
    int *after = realloc(r->after, room * sizeof(int)), *before = realloc(r->before, room * sizeof(int));
    char *q = realloc(r->q, room);
    if (after) r->after = after;
    if (before) r->before = before;
    if (q) r->q = q;
    if (!after || !before || !q) return 0;
    memset(r->q + r->room, 0, room - r->room);
    if (r->room == 0) r->after[0] = r->before[0] = 0;
    r->room = room;
    return 1;
}
static int insert(struct ring *r, int v, int place, char q) {
    if (!ring_room(r, v) || !ring_room(r, place)) return 0;
    r->after[v] = r->after[place], r->before[v] = place;
    r->before[r->after[v]] = v, r->after[place] = v;
    r->q[v] = q;
    return 1;
}
static void remove_var(struct ring *r, int v) {
    r->after[r->before[v]] = r->after[v], r->before[r->after[v]] = r->before[v];
    r->q[v] = 0;
}

/* the tokens of a text: a number, or a letter, as 'c' + INT_MAX/2 */
struct tokens {
    const char *p, *stop;
};
enum { LETTER = 1 << 30 };
static int next_token(struct tokens *t, int *x) {
    for (;;) {
        while (t->p < t->stop && (*t->p == ' ' || *t->p == '\n' || *t->p == '\t' || *t->p == '\r')) t->p++;
        if (t->p == t->stop) return 0;
        if (*t->p != 'c') break;
        while (t->p < t->stop && *t->p != '\n') t->p++;
    }
    if (*t->p != '-' && (*t->p < '0' || *t->p > '9')) {
        *x = LETTER + *t->p++;
        while (t->p < t->stop && *t->p > ' ') t->p++;
        return 1;
    }
    int minus = *t->p == '-';
    t->p += minus;
    long v = 0;
    while (t->p < t->stop && *t->p >= '0' && *t->p <= '9') v = 10 * v + (*t->p++ - '0');
    *x = (int)(minus ? -v : v);
    return 1;
}

/* behind `p cnf`: two numbers; `cnf` would be taken for a comment */
static void read_header(struct tokens *t) {
    int x;
    while (t->p < t->stop && *t->p <= ' ') t->p++;
    while (t->p < t->stop && *t->p > ' ') t->p++;
    next_token(t, &x), next_token(t, &x);
}

static int read_in(const char *in, size_t in_size, struct clauses *s, struct ring *r, struct ints *row) {
    struct tokens t = {in, in + in_size};
    struct ints bound = {0, 0, 0};
    char *used = NULL;
    size_t used_room = 0;
    int x, set = 0, ok = ring_room(r, 0), largest = 0;
    row->size = 0;
    while (ok && next_token(&t, &x)) {
        if (x == LETTER + 'p') read_header(&t);
        else if (x >= LETTER) set = x - LETTER;
        else if (set && x == 0) set = 0;
        else if (set) ok = celdrinn_push(&bound, set) && celdrinn_push(&bound, x);
        else if (x == 0) ok = keep(s, row->at, (int)row->size), row->size = 0;
        else {
            int v = abs(x);
            if (v > largest) largest = v;
            size_t was = used_room;
            ok = celdrinn_room_for((void **)&used, &used_room, (size_t)v + 1, 1);
            if (ok && used_room > was) memset(used + was, 0, used_room - was);
            if (ok) used[v] |= 1, ok = celdrinn_push(row, x);
        }
    }
    /* variables of no set come first, existential */
    for (size_t i = 0; i < bound.size; i += 2)
        if ((size_t)bound.at[i + 1] < used_room) used[bound.at[i + 1]] |= 2;
    int place = 0;
    for (int v = 1; ok && v <= largest; v++)
        if (used[v] == 1) ok = insert(r, v, place, 'e'), place = v;
    for (size_t i = 0; ok && i < bound.size; i += 2) ok = insert(r, bound.at[i + 1], place, (char)bound.at[i]), place = bound.at[i + 1];
    free(bound.at), free(used);
    return ok;
}
static int step(struct clauses *s, struct ring *r, struct ints *row, int kind) {
    int *l = row->at, n = (int)row->size;
    switch (kind) {
    case 'd': return take(s, l, n);
    case 'u': {
        int *copy = malloc(((size_t)n + 1) * sizeof(int));
        if (!copy) return 0;
        memcpy(copy, l, (size_t)n * sizeof(int));
        int ok = take(s, copy, n) && keep(s, l + 1, n - 1);
        free(copy);
        return ok;
    }
    case 'e': return n == 2 && insert(r, l[0], l[1], 'e');
    case 'r': return n == 1 && (size_t)l[0] < r->room && r->q[l[0]] && (remove_var(r, l[0]), 1);
    default: return keep(s, l, n);
    }
}

/* the text of what is there */
static char *put_formula(char *p, const struct clauses *s, const struct ring *r) {
    int most = 0;
    char last = 0;
    for (int v = r->after[0]; v; v = r->after[v]) most = v > most ? v : most;
    p += sprintf(p, "p cnf %d %zu\n", most, s->live);
    for (int v = r->after[0]; v; v = r->after[v]) {
        if (r->q[v] != last) {
            if (last) p = memcpy(p, " 0\n", 3), p += 3;
            *p++ = last = r->q[v];
        }
        *p++ = ' ', p = celdrinn_put_int(p, v);
    }
    if (last) p = memcpy(p, " 0\n", 3), p += 3;
    for (size_t i = 0; i < s->count; i++) {
        const int *l = s->lits.at + s->at[i];
        for (int k = 1; k <= l[0]; k++) p = celdrinn_put_int(p, l[k]), *p++ = ' ';
        if (l[0] >= 0) *p++ = '0', *p++ = '\n';
    }
    return p;
}

int celdrinn_replay(const char *in, size_t in_size, const char *log, size_t log_size, char **out, size_t *size) {
    struct clauses s = {0};
    struct ring r = {0};
    struct ints row = {0};
    struct tokens t = {log, log + log_size};
    int ok = read_in(in, in_size, &s, &r, &row), x, kind = 0;
    row.size = 0;
    while (ok && next_token(&t, &x)) {
        if (x >= LETTER) kind = x - LETTER;
        else if (x == 0 && !(kind == 'e' && row.size == 1)) ok = step(&s, &r, &row, kind), kind = 0, row.size = 0;
        else ok = celdrinn_push(&row, x);
    }
    char *at = ok ? malloc(64 + 12 * s.lits.size + 16 * r.room) : NULL; /* the most that the text may take */
    ok = at != NULL;
    if (ok) {
        char *stop = put_formula(at, &s, &r);
        *stop = 0;
        *out = at, *size = (size_t)(stop - at);
    }
    free(s.lits.at), free(s.table), free(s.next), free(s.at), free(r.after), free(r.before), free(r.q), free(row.at);
    return ok;
}
