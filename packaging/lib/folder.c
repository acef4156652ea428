/* The files of a `celdrinn`, by their names. */
#include "folder.h"
#include <stdlib.h>
#include <string.h>

const char *const celdrinn_file_names[FILE_NAMES] = {"", "IN", "OUT", "LOG", "SKOLEM", "HERBRAND", "CERT", "HINTED", "TRACE", "PROOF", "MITER"};

int celdrinn_room_for(void **at, size_t *room, size_t wanted, size_t each) {
    if (wanted <= *room) return 1;
    size_t next = *room < 64 ? 64 : *room;
    while (next < wanted) next += next / 2;
    void *to = realloc(*at, next * each);
    if (to == NULL) return 0;
    *at = to;
    *room = next;
    return 1;
}
int celdrinn_push(struct ints *v, int x) {
    if (v->size == v->room && !celdrinn_room_for((void **)&v->at, &v->room, v->size + 1, sizeof(int))) return 0;
    v->at[v->size++] = x;
    return 1;
}
int celdrinn_misuse(celdrinn *c, const char *why) {
    c->said = why;
    return CELDRINN_USAGE;
}

void celdrinn_drop(struct text *t) {
    free(t->at);
    memset(t, 0, sizeof *t);
}
int celdrinn_keep(struct text *t, const void *bytes, size_t size) {
    char *at = malloc(size + 1);
    if (at == NULL) return 0;
    if (size != 0) memcpy(at, bytes, size);
    at[size] = 0;
    celdrinn_drop(t);
    t->at = at, t->size = size;
    return 1;
}
void celdrinn_drop_file(celdrinn *c, enum file_name name) {
    celdrinn_drop(&c->files[name]);
    if (name == OUT) c->is_read = 0;
}
int celdrinn_keep_file(celdrinn *c, enum file_name name, const void *bytes, size_t size) {
    if (name == OUT) c->is_read = 0;
    return celdrinn_keep(&c->files[name], bytes, size);
}

static enum file_name by_name(const char *name) {
    for (int i = 1; i < FILE_NAMES; i++)
        if (!strcmp(celdrinn_file_names[i], name)) return (enum file_name)i;
    return NO_FILE;
}
int celdrinn_put(celdrinn *c, const char *name, const void *bytes, size_t length) {
    enum file_name file = by_name(name);
    if (file == NO_FILE) return celdrinn_misuse(c, "no such file");
    if (file == IN && (c->clauses.size || c->blocks.size)) return celdrinn_misuse(c, "a formula is there already");
    if (bytes == NULL) return celdrinn_drop_file(c, file), 0;
    return celdrinn_keep_file(c, file, bytes, length) ? 0 : CELDRINN_NO_MEMORY;
}
const char *celdrinn_get(celdrinn *c, const char *name, size_t *length) {
    enum file_name file = by_name(name);
    *length = 0;
    if (file == NO_FILE || (file == IN && (c->clause_is_open || !celdrinn_write_in(c)))) return NULL;
    *length = c->files[file].size;
    return c->files[file].at;
}
