/* The formula behind the steps of a log, as text in memory of malloc, with a 0 behind its end. 0 where a step can't be made, or memory is
 * wanting. */
#ifndef CELDRINN_REPLAY_H
#define CELDRINN_REPLAY_H
#include <stddef.h>

int celdrinn_replay(const char *in, size_t in_size, const char *log, size_t log_size, char **out, size_t *size);
#endif
