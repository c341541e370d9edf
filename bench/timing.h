/* How long a call takes, in nanoseconds of this process's time. */
#ifndef TIMING_H
#define TIMING_H
#include <stdio.h>
#include <time.h>

static double nanoseconds(void) {
    struct timespec now;
    clock_gettime(CLOCK_PROCESS_CPUTIME_ID, &now);
    return now.tv_sec * 1e9 + now.tv_nsec;
}

/* Makes the call in rows that double, until the window is full, and prints the time of one operation, of
 * which the call makes so many. */
#define TIME(window, name, operations, call)                     \
    do {                                                         \
        double start = nanoseconds(), taken = 0;                 \
        long done = 0, row = 1;                                  \
        while (taken < (window)) {                               \
            for (long turn = 0; turn < row; turn++) {            \
                call;                                            \
            }                                                    \
            done += row;                                         \
            row *= 2;                                            \
            taken = nanoseconds() - start;                       \
        }                                                        \
        printf("%s\t%.1f\n", name, taken / done / (operations)); \
    } while (0)
#endif
