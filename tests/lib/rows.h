/* A row says `ok NAME`, or `wrong NAME: why`. */
#ifndef ROWS_H
#define ROWS_H
#include <stddef.h>
#include <stdio.h>

extern const char *row;
extern int wrong;
#define WANT(what) \
    do { \
        if (!(what)) return printf("wrong %s: line %d, %s\n", row, __LINE__, #what), wrong = 1, (void)0; \
    } while (0)
#define PASS() ((void)printf("ok %s\n", row))

int holds(const int *literals, size_t size, const char *value);
int find_model(const int *literals, size_t size, int vars, char *value);
int read_constants(const char *text, char *value);

void play_commands(void);
/* all commands, for a run in which some memory is refused: 6, or 0 where all went well */
int play_each_once(void);
#endif
