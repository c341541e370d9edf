#include "counts.h"
#include <stdarg.h>
#include <stdio.h>
#include <stdlib.h>
#include <string.h>

enum { UNTOUCHED = 0xA5, MOST_COLUMNS = 16 };

static long passed, failed;

int expect(int right, const char *file, int line, const char *words, ...) {
    if (right) {
        passed++;
        return 1;
    }
    failed++;
    va_list rest;
    va_start(rest, words);
    printf("%s:%d: ", file, line);
    vprintf(words, rest);
    printf("\n");
    va_end(rest);
    return 0;
}

int counted(void) {
    printf("%ld passed, %ld failed\n", passed, failed);
    return failed != 0;
}

void die(const char *words) {
    fprintf(stderr, "%s\n", words);
    exit(2);
}

struct octets octets_of(const uint8_t *from, size_t count) {
    struct octets made = {NULL, count};
    if (count) {
        made.at = malloc(count);
        if (!made.at) die("no memory");
        memcpy(made.at, from, count);
    }
    return made;
}

struct octets octets_of_text(const char *digits) {
    struct octets made = {NULL, strlen(digits) / 2};
    if (made.count) {
        made.at = malloc(made.count);
        if (!made.at) die("no memory");
    }
    for (size_t k = 0; k < made.count; k++) {
        unsigned octet;
        if (sscanf(digits + 2 * k, "%2x", &octet) != 1) die("a table has no hexadecimal digits");
        made.at[k] = (uint8_t)octet;
    }
    return made;
}

void drop(struct octets *octets) {
    free(octets->at);
    octets->at = NULL;
    octets->count = 0;
}

struct octets room_of(size_t count) {
    struct octets made = {NULL, count};
    if (count) {
        made.at = malloc(count);
        if (!made.at) die("no memory");
        memset(made.at, UNTOUCHED, count);
    }
    return made;
}

int is_untouched(const struct octets *room, size_t from) {
    for (size_t k = from; k < room->count; k++)
        if (room->at[k] != UNTOUCHED) return 0;
    return 1;
}

int next_row(void *file, char **columns, int count) {
    static char *line;
    static size_t size;
    static char nothing[1];
    do {
        if (getline(&line, &size, file) < 0) {
            free(line);
            line = NULL;
            return 0;
        }
        line[strcspn(line, "\n")] = 0;
    } while (line[0] == '#' || line[0] == 0);
    char *rest = line;
    for (int k = 0; k < count; k++) {
        columns[k] = rest ? strsep(&rest, "\t") : nothing;
    }
    return 1;
}

void each_row(const char *name, int count, void (*to)(char **columns)) {
    FILE *file = fopen(name, "r");
    char *columns[MOST_COLUMNS];
    if (!file || count > MOST_COLUMNS) die("a table is not there");
    while (next_row(file, columns, count)) to(columns);
    fclose(file);
}

uint32_t drawn(uint32_t below) {
    static uint64_t state = 88172645463325252u; /* xorshift64: G. Marsaglia, Journal of Statistical Software 8 (14), 2003 */
    state ^= state << 13;
    state ^= state >> 7;
    state ^= state << 17;
    return (uint32_t)(state >> 32) % below;
}

void draw(uint8_t *to, size_t count) {
    for (size_t k = 0; k < count; k++) to[k] = (uint8_t)drawn(256);
}
