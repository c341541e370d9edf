/* Counts and refuses the allocations of calls: a program with it is linked with the static library and --wrap=malloc, realloc and free. */
#ifndef ALLOCATIONS_H
#define ALLOCATIONS_H

/* From here on allocations are counted, and the one of this number is refused, 1 the first; all behind it too where `on`; none where it is 0. */
void begin_allocations(long at, int on);

/* How many there were since then, and how many blocks are left. */
struct allocations {
    long requests, held;
};
struct allocations end_allocations(void);
#endif
