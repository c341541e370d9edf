/* Octets for comparisons, and how often two ciphers are compared. */
#ifndef OCTETS_H
#define OCTETS_H
#include <stddef.h>
#include <stdint.h>

enum { TRIES = 20000 };

/* The next octet of a sequence that is the same in each run (xorshift64*). */
static uint8_t next_octet(void) {
    static uint64_t state = 0x9e3779b97f4a7c15;
    state ^= state >> 12;
    state ^= state << 25;
    state ^= state >> 27;
    return state * 0x2545f4914f6cdd1d >> 56;
}

static void draw_any(uint8_t *to, size_t count) {
    for (size_t i = 0; i < count; i++) {
        to[i] = next_octet();
    }
}
#endif
