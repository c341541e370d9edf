/* Prints the allocations and the peak of octets of each call, a line a call: its name, the two numbers, and
 * how many octets it is given, with tabs between. */
#include "answers.h"
#include "counter.h"
#include "element.h"

enum { LARGE = 1 << 20, FRAME = 64 };

static const size_t sizes[] = {64, 1024, 65536, LARGE}, growths[] = {1024, 65536, LARGE};
static char name[96];
static uint8_t key[32], confounder[16], payload[LARGE], sealed[LARGE + FRAME];

static void print(struct counted counted, size_t given) {
    printf("%s\t%ld\t%ld\t%zu\n", name, counted.requests, counted.peak, given);
}

/* Counts a call that is given so many octets, and makes a number, 0 where it fails. */
#define COUNT(given, call)                              \
    do {                                                \
        start_counting();                               \
        size_t made = call;                             \
        struct counted counted = stop_counting();       \
        if (!made) {                                    \
            fprintf(stderr, "bench: %s: refused\n", name); \
            exit(1);                                    \
        }                                               \
        print(counted, given);                          \
    } while (0)

/* What the call makes beyond the value that it reads first: of two of them less of one. The peak is that of
 * one. */
#define COUNT_SECOND(given, one, two)                               \
    do {                                                            \
        start_counting();                                           \
        one;                                                        \
        struct counted first = stop_counting();                     \
        start_counting();                                           \
        two;                                                        \
        first.requests = stop_counting().requests - first.requests; \
        print(first, given);                                        \
    } while (0)

static void count_messages(size_t etype, size_t key_size, size_t confounder_size, size_t size) {
    size_t total = 0, sum;
    static uint8_t checksum[32];
    snprintf(name, sizeof name, "seal %zu octets, suite %zu", size, etype);
    COUNT(size, total = bench_seal(etype, key, key_size, 2, confounder, confounder_size, payload, size, ARRAY(sealed)));
    snprintf(name, sizeof name, "open %zu octets, suite %zu", size, etype);
    COUNT(total, bench_open(etype, key, key_size, 2, sealed, total, NO_ROOM));
    snprintf(name, sizeof name, "make a checksum of %zu octets, suite %zu", size, etype);
    COUNT(size, sum = bench_checksum(etype, key, key_size, 2, payload, size, ARRAY(checksum)));
    if (bench_kept_seal) {
        snprintf(name, sizeof name, "seal %zu octets, suite %zu, key kept", size, etype);
        COUNT(size, bench_kept_seal(etype, key, key_size, 2, confounder, confounder_size, payload, size, 1, NO_ROOM));
        snprintf(name, sizeof name, "open %zu octets, suite %zu, key kept", size, etype);
        COUNT(total, bench_kept_open(etype, key, key_size, 2, sealed, total, 1, NO_ROOM));
        snprintf(name, sizeof name, "make a checksum of %zu octets, suite %zu, key kept", size, etype);
        COUNT(size, sum = bench_kept_checksum(etype, key, key_size, 2, payload, size, 1, ARRAY(checksum)));
        snprintf(name, sizeof name, "verify a checksum of %zu octets, suite %zu, key kept", size, etype);
        COUNT(size, bench_kept_verify(etype, key, key_size, 2, payload, size, checksum, sum, 1));
    }
}

/* What is done with a part under a suite; `what` says what it is made of. */
static void count_part(size_t etype, const struct octets_of_part *it, octets plain, size_t size, const char *what) {
    static uint8_t out[LARGE + LARGE];
    snprintf(name, sizeof name, "read a part of %zu octets%s", size, what);
    COUNT(size, bench_read_part(plain, size));
    snprintf(name, sizeof name, "write a part of %zu octets%s", size, what);
    COUNT_SECOND(size, bench_write_part(plain, size, 1, NO_ROOM), bench_write_part(plain, size, 2, NO_ROOM));
    snprintf(name, sizeof name, "seal a part of %zu octets%s, suite %zu", size, what, etype);
    COUNT_SECOND(size,
                 bench_seal_part(etype, it->key, it->key_size, 2, it->confounder, it->confounder_size, plain, size, 1, NO_ROOM),
                 bench_seal_part(etype, it->key, it->key_size, 2, it->confounder, it->confounder_size, plain, size, 2, NO_ROOM));
    size_t total =
        bench_seal_part(etype, it->key, it->key_size, 2, it->confounder, it->confounder_size, plain, size, 1, ARRAY(out));
    snprintf(name, sizeof name, "open a part of %zu octets%s, suite %zu", size, what, etype);
    COUNT(total, bench_open_part(etype, it->key, it->key_size, 2, out, total));
}

/* Counts what is done with a part that is made of a field with these octets before it and after it. */
static void count_grown(const char *what, octets before, size_t before_size, octets behind, size_t behind_size,
                        uint8_t *front, uint8_t *end) {
    static const struct part *const suite = &parts[2];
    struct octets_of_part it = read_digits(suite);
    memcpy(end, behind, behind_size);
    end += behind_size;
    front -= before_size;
    memcpy(front, before, before_size);
    front = close_element(0x30, end, front);
    front = close_element(0x63, end, front);
    count_part(suite->etype, &it, front, end - front, what);
}

/* The small part's fields before its client's name, that name, and those after it. */
enum { CONTENT = 6, NAME = 59, NAME_SIZE = 20 };

/* Parts with more and more authorization data in one entry, and parts whose client has more and more names of no
 * octet, which are the elements that take the most memory an octet. Each has nearly so many octets. */
static void count_growth(const uint8_t *small, size_t size) {
    static uint8_t room[2 * LARGE];
    for (size_t i = 0; i < sizeof growths / sizeof *growths; i++) {
        size_t count = growths[i] - size - FRAME / 2;
        uint8_t *front = room + FRAME * 8, *end = front + count;
        memset(front, 0x5a, count);
        static const uint8_t type[] = {0xa0, 0x03, 0x02, 0x01, 0x01};
        front = close_element(0xa1, end, close_element(0x04, end, front)) - sizeof type;
        memcpy(front, type, sizeof type);
        front = close_element(0xaa, end, close_element(0x30, end, close_element(0x30, end, front)));
        count_grown(", an entry of authorization data", small + CONTENT, size - CONTENT, small, 0, front, end);
        front = room + FRAME * 8, end = front;
        for (size_t k = 0; k + 1 < count; k += 2) {
            *end++ = 0x1b;
            *end++ = 0x00;
        }
        static const uint8_t kind[] = {0xa0, 0x03, 0x02, 0x01, 0x01};
        front = close_element(0xa1, end, close_element(0x30, end, front)) - sizeof kind;
        memcpy(front, kind, sizeof kind);
        front = close_element(0xa3, end, close_element(0x30, end, front));
        count_grown(", names of no octet", small + CONTENT, NAME - CONTENT, small + NAME + NAME_SIZE,
                    size - NAME - NAME_SIZE, front, end);
    }
}

/* Puts a number of so many octets in little-endian order, and returns the place behind it. */
static uint8_t *put(uint8_t *to, uint64_t number, int octets) {
    for (int i = 0; i < octets; i++) {
        to[i] = number >> 8 * i & 0xff;
    }
    return to + octets;
}

/* Reads a PAC (MS-PAC, 2.3 and 2.4) of so many octets and entries: of one buffer, or of entries that all name all octets. */
static void count_pac(size_t size, size_t entries) {
    static uint8_t pac[LARGE];
    size_t from = entries == 1 ? 24 : 0;
    uint8_t *end = put(put(pac, entries, 4), 0, 4);
    for (size_t i = 0; i < entries; i++) {
        end = put(put(put(end, 1, 4), size - from, 4), from, 8);
    }
    snprintf(name, sizeof name, "read a PAC of %zu octets, %s", size, entries == 1 ? "one buffer" : "each entry of all octets");
    COUNT(size, bench_read_pac(pac, size));
}

int main(void) {
    uint8_t small[256], out[32];
    size_t size = octets_of(small_part, small);
    expect_parts();
    snprintf(name, sizeof name, "read a part of 149 octets");
    COUNT(size, bench_read_part(small, size));
    snprintf(name, sizeof name, "write a part of 149 octets");
    COUNT_SECOND(size, bench_write_part(small, size, 1, NO_ROOM), bench_write_part(small, size, 2, NO_ROOM));
    count_growth(small, size);
    for (size_t i = 0; i < sizeof growths / sizeof *growths; i++) {
        count_pac(growths[i], 1);
        if (growths[i] < LARGE) { /* else the square is 2^36 octets */
            count_pac(growths[i], (growths[i] - 8) / 16);
        }
    }
    for (size_t i = 0; i < sizeof parts / sizeof *parts; i++) {
        struct octets_of_part it = read_digits(&parts[i]);
        count_part(parts[i].etype, &it, it.plain, it.plain_size, "");
    }
    for (size_t etype = 16; etype <= 20; etype++) {
        snprintf(name, sizeof name, "string to key, suite %zu", etype);
        COUNT(26, bench_string_to_key(etype, TEXT("5hYYSAfFJp"), TEXT("EXAMPLE.COMtest1"), ARRAY(out)));
    }
    snprintf(name, sizeof name, "n-fold, 8 octets to 168 bits");
    COUNT(8, bench_n_fold(TEXT("kerberos"), 21, ARRAY(out)));
    for (size_t i = 0; i < sizeof sizes / sizeof *sizes; i++) {
        count_messages(16, 24, 8, sizes[i]);
        count_messages(17, 16, 16, sizes[i]);
        count_messages(18, 32, 16, sizes[i]);
        count_messages(19, 16, 16, sizes[i]);
        count_messages(20, 32, 16, sizes[i]);
    }
    return 0;
}
