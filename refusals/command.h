/* A command of a program, and its result. */
#ifndef COMMAND_H
#define COMMAND_H
#include "c_library.h"

/* The most arguments of a command. */
enum { WORDS = 12 };

/* The file that arguments name, and its place among the open files of a process: after its three
 * streams and what reports its allocations. */
enum { NAMED = 4 };
#define NAMED_FILE "/proc/self/fd/4"

/* A command's arguments, the digits of its input, whether it is read, and its result: the status,
 * what stands on standard error (the line of an error; with status 0 the lines of notes, or
 * nothing), and the digits of its output. Last the digits of the file NAMED_FILE, if it has
 * some. */
struct command {
    const char *words[WORDS], *input;
    int reads, status;
    const char *lines, *output, *file;
};
#endif
