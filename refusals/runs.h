/* Runs of a program within this process, with its allocations failing. */
#ifndef RUNS_H
#define RUNS_H
#include "octets.h"

/* How a run ended, what it wrote, how many requests it made, and how many blocks it holds. */
struct answer {
    int status;
    struct octets octets;
    long requests, held;
};

/* Puts files in place of the streams of this process. The lines of a report go to the standard
 * output that it had. */
void start_runs(void);

/* Runs the program on these octets undisturbed, which is to end with this status, and then with
 * each allocation failing in turn: that one alone, and that one with all after it. Each of these
 * runs ends as the undisturbed one, or with status 1 and nothing written. None holds a block when
 * it ends. Reports a line: the name, how many requests the undisturbed run makes, and how many
 * runs there were. Ends this process with status 1 at the first run that ends otherwise. Returns
 * the undisturbed run's. */
struct answer try_runs(const char *name, const struct octets *octets, int status);

/* Says of what ends the process with status 1. */
void fail(const char *name, const char *why) __attribute__((noreturn));

/* Reports how many calls passed. Ends this process with status 1 where none of them made a
 * request. */
void end_runs(void);
#endif
