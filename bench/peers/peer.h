/* What the peers' programs share: suites, octets, and the comparison of a peer's answers with the library's. */
#ifndef PEER_H
#define PEER_H
#include "library.h"
#include "timing.h"
#include <stdlib.h>
#include <string.h>

enum { LARGE = 65536, FRAME = 64, USAGE = 2 };

static const struct suite {
    size_t etype, key_size;
} suites[] = {{17, 16}, {18, 32}, {19, 16}, {20, 32}};

static const size_t sizes[] = {64, 1024, LARGE};

#define COUNT(array) (sizeof(array) / sizeof *(array))
#define PASSWORD "5hYYSAfFJp"
#define SALT "EXAMPLE.COMtest1"

static char name[96];
static uint8_t key[32], payload[LARGE], ours[LARGE + FRAME], theirs[LARGE + FRAME];

static void fill_octets(void) {
    for (size_t i = 0; i < sizeof key; i++) {
        key[i] = 2 * i + 1;
    }
    for (size_t i = 0; i < sizeof payload; i++) {
        payload[i] = 7 * i + i / 256;
    }
}

/* The confounder that the peers are made to draw. */
static void draw(uint8_t *to, size_t count) {
    for (size_t i = 0; i < count; i++) {
        to[i] = 0xc0 + i;
    }
}

/* Ends the program unless the octets are the same. */
static void expect_same(const char *call, const void *one, size_t count, const void *other, size_t other_count) {
    if (count == 0 || count != other_count || memcmp(one, other, count) != 0) {
        fprintf(stderr, "%s: the peer answers otherwise\n", call);
        exit(1);
    }
}

/* Ends the program where a peer's call fails. */
static void expect_success(const char *call, long error) {
    if (error != 0) {
        fprintf(stderr, "%s: the peer fails, %ld\n", call, error);
        exit(1);
    }
}

/* The name of a call on so many octets under a suite; with a key that is kept. */
static const char *name_of(const char *call, size_t size, size_t etype, const char *kept) {
    snprintf(name, sizeof name, "%s %zu octets, suite %zu%s", call, size, etype, kept);
    return name;
}
#endif
