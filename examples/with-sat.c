/* Celdrinn's library in front of a SAT solver's: the formula of IN is simplified, and where one block of existentials is left, PicoSAT (or
 * CaDiCaL, with -DCADICAL) decides it. Its model is carried back to Skolem functions of IN, which go to CERT.
 * docs/PIPELINES.md, "From a program in C", says how it is compiled. Usage: with-sat IN CERT */
#include "celdrinn2.h"
#include <stdio.h>
#include <stdlib.h>
#ifdef CADICAL
#include "ccadical.h"
#define NEW() ccadical_init()
#define ADD ccadical_add
#define SOLVE ccadical_solve
#define VALUE(s, v) ccadical_val(s, v)
#define FREE ccadical_release
#else
#include "picosat.h"
#define NEW() picosat_init()
#define ADD picosat_add
#define SOLVE(s) picosat_sat(s, -1)
#define VALUE(s, v) (picosat_deref(s, v) < 0 ? -(v) : (v))
#define FREE picosat_reset
#endif

static char *read_file(const char *name, size_t *size) {
    FILE *f = fopen(name, "rb");
    if (f == NULL) return NULL;
    fseek(f, 0, SEEK_END);
    *size = (size_t)ftell(f);
    rewind(f);
    char *text = malloc(*size + 1);
    if (text != NULL && fread(text, 1, *size, f) != *size) *size = 0;
    fclose(f);
    return text;
}

int main(int argc, char **argv) {
    size_t n;
    char *text;
    if (argc != 3) return 64;
    if ((text = read_file(argv[1], &n)) == NULL) return 4;
    celdrinn *c = celdrinn_new();
    celdrinn_text(c, text, n);
    free(text);
    int status = celdrinn_do_simplify(c);
    printf("%s\n", celdrinn_line(c));
    if (status != 0 && status != 10) return status;
    struct celdrinn_formula g;
    celdrinn_out(c, &g);
    for (size_t i = 0; i < g.blocks_count; i++)
        if (g.blocks[i] == 'a' && (i == 0 || g.blocks[i - 1] == 0)) return printf("universals are left\n"), 12;
    int *model = calloc(g.largest + 1, sizeof(int)), count = 0, answer = 10;
    if (status == 0) {
        void *s = NEW();
        for (size_t i = 0; i < g.literals_count; i++) ADD(s, g.literals[i]);
        answer = SOLVE(s);
        if (answer == 10)
            for (int v = 1; v <= g.largest; v++) model[count++] = VALUE(s, v);
        FREE(s);
    }
    if (answer != 10) return printf("answer %d\n", answer), answer;
    int built = celdrinn_do_rebuild_model(c, model, count);
    printf("%s\n", celdrinn_line(c));
    if (built != 0) return built;
    size_t len;
    const char *cert = celdrinn_cert_text(c, &len);
    FILE *f = fopen(argv[2], "wb");
    if (f == NULL || fwrite(cert, 1, len, f) != len || fclose(f) != 0) return 5;
    free(model);
    celdrinn_free(c);
    return 10;
}
