/* A formula from arrays, simplified by the shared library: for each value of 1 there is one of 2 that differs from it, so nothing is left,
 * and a Skolem function comes back. docs/PIPELINES.md, "From a program in C", says how it is compiled. */
#include "celdrinn2.h"
#include <stdio.h>

int main(void) {
    struct celdrinn_options options = CELDRINN_OPTIONS;
    const int outer[] = {1}, inner[] = {2}, clauses[] = {1, 2, 0, -1, -2, 0};
    struct celdrinn_formula left;
    size_t length;
    celdrinn *c = celdrinn_new();
    if (c == NULL) return 6;
    celdrinn_block(c, 'a', outer, 1);
    celdrinn_block(c, 'e', inner, 1);
    celdrinn_clauses(c, clauses, 6);
    celdrinn_limit_seconds(c, 10);
    options.grow = 8;
    celdrinn_set_options(c, &options);

    int status = celdrinn_do_simplify(c);
    printf("%s\n", celdrinn_line(c));
    if (celdrinn_out(c, &left) == 0) printf("%zu clauses are left\n", left.clauses);
    if (celdrinn_do_check(c) == 0) printf("the log is %s\n", celdrinn_line(c));
    if (status == CELDRINN_TRUE && celdrinn_do_rebuild(c, "aag 0 0 0 0 0\n", 14) == 0)
        printf("a certificate:\n%s", celdrinn_cert_text(c, &length));
    if (celdrinn_do(c, "validate") == 0) printf("it is %s\n", celdrinn_line(c));
    celdrinn_free(c);
    return status;
}
