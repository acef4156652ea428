/* Celdrinn's library in front of DepQBF's: the formula of IN is simplified within ten seconds, the log of that is checked, and what is left
 * goes to DepQBF by arrays. docs/PIPELINES.md, "From a program in C", says how it is compiled. Usage: with-depqbf IN; 10 true, 20 false */
#include "celdrinn2.h"
#include "qdpll.h"
#include <stdio.h>
#include <stdlib.h>

static char *read_file(const char *name, size_t *size) {
    FILE *f = fopen(name, "rb");
    if (f == NULL) return NULL;
    fseek(f, 0, SEEK_END);
    *size = (size_t)ftell(f);
    rewind(f);
    char *text = malloc(*size + 1);
    if (text != NULL && fread(text, 1, *size, f) != *size) *size = 0;
    fclose(f);
    return text;
}

static int decide(const struct celdrinn_formula *f) {
    QDPLL *q = qdpll_create();
    qdpll_configure(q, "--dep-man=simple");
    for (size_t i = 0; i < f->blocks_count; i++) {
        if (i == 0 || f->blocks[i - 1] == 0)
            qdpll_new_scope(q, f->blocks[i] == 'e' ? QDPLL_QTYPE_EXISTS : QDPLL_QTYPE_FORALL);
        else
            qdpll_add(q, f->blocks[i]);
    }
    if (f->blocks_count != 0) qdpll_add(q, 0);
    for (size_t i = 0; i < f->literals_count; i++) qdpll_add(q, f->literals[i]);
    int answer = qdpll_sat(q);
    qdpll_delete(q);
    return answer;
}

int main(int argc, char **argv) {
    struct celdrinn_formula left;
    size_t n;
    char *text;
    if (argc != 2) return 64;
    if ((text = read_file(argv[1], &n)) == NULL) return 4;
    celdrinn *c = celdrinn_new();
    if (c == NULL || celdrinn_text(c, text, n) != 0) return 6;
    free(text);
    celdrinn_limit_seconds(c, 10);
    int status = celdrinn_do_simplify(c);
    printf("simplify: %s\n", celdrinn_line(c));
    if (celdrinn_out(c, &left) != 0) return status; /* refused, or no memory */
    celdrinn_limit_seconds(c, 0);
    int checked = celdrinn_do_check(c);
    printf("check: %s\n", celdrinn_line(c));
    if (checked != 0) return checked;
    if (status != CELDRINN_TRUE && status != CELDRINN_FALSE) {
        printf("%zu clauses go to DepQBF\n", left.clauses);
        status = decide(&left);
    }
    printf("%s\n", status == 10 ? "true" : status == 20 ? "false" : "not known");
    celdrinn_free(c);
    return status;
}
