/* What the memory calls know of the call that runs in this thread. */
#ifndef CELDRINN_STOPPING_H
#define CELDRINN_STOPPING_H
#include <stdatomic.h>
#include <stddef.h>

struct celdrinn_limits {
    atomic_int stop;
    double deadline;                 /* CLOCK_MONOTONIC; 0: none */
    size_t most_bytes;               /* 0: none */
    int (*terminate)(void *state);
    void *state;
    int is_over;                     /* a limit was met: no more memory is given in this call */
    int by;                          /* 1 stop or terminate, 2 time, 3 memory */
    unsigned tick;
    size_t bytes, peak, calls;
    double last, pause;
};
extern _Thread_local struct celdrinn_limits *celdrinn_current;
double celdrinn_now(void);
#endif
