/* Preloaded to a program, counts what it asks for of malloc, realloc and free as counter.c does, and writes to file 3 at its end, with a tab between,
 * how many requests it made, and the most octets that it held. */
#include "counter.h"
#include <stdio.h>

__attribute__((destructor)) static void tell(void) {
    struct counted counted = stop_counting();
    dprintf(3, "%ld\t%ld\n", counted.requests, counted.peak);
}
