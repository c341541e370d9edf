/* The program that this object is preloaded to (LD_PRELOAD): its main, and its allocations. */
#ifndef PROGRAM_H
#define PROGRAM_H

/* How a run of the program ended, how many requests it made, and how many blocks it holds. */
struct ended {
    int status;
    long requests, held;
};

/* Calls the program's main on these words, in which the allocation of this number fails (from 1; 0
 * for none), and where `on` holds each one after it. */
struct ended run_main(int count, char **words, long refused, int on);

/* Stands in for the program's main: each object has one. */
int try_program(int count, char **words);
#endif
