/* Simplifies the formula on standard input, checks the log, and writes what is left to standard output. */
#include "celdrinn.h"
#include <stdio.h>
#include <stdlib.h>

enum { ROOM = 1 << 24 };
static uint8_t in[ROOM], out[ROOM], log_[ROOM], line[256];

int main(void) {
    struct celdrinn_lengths made, said;
    size_t count = fread(in, 1, ROOM, stdin);
    int status = celdrinn_simplify(in, count, out, ROOM, log_, ROOM, line, sizeof line, &made);
    fwrite(line, 1, made.line, stderr);
    if (status != 0 && status != 10 && status != 20) return status;
    if (made.output > ROOM || made.log > ROOM) return 1;
    int checked = celdrinn_check(in, count, out, made.output, log_, made.log, line, sizeof line, &said);
    fwrite(line, 1, said.line, stderr);
    fwrite(out, 1, made.output, stdout);
    return checked == 0 ? status : checked;
}
