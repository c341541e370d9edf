/* Octets, their digits, and where a check ends that failed. */
#ifndef OCTETS_H
#define OCTETS_H
#include "c_library.h"

/* The most octets of an input, and of what a program writes. */
enum { ROOM = 16384 };

struct octets {
    uint8_t at[ROOM];
    size_t count;
};

/* Says why, and ends with status 1. */
void die(const char *why) __attribute__((noreturn));

struct octets octets_of(const char *digits);

/* What is in a file. */
struct octets octets_in(int descriptor);

/* Makes a file hold these alone, and sets it back to its start. */
void hold(int descriptor, const struct octets *octets);

int are_equal(const struct octets *one, const struct octets *other);
#endif
