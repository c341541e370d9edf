/* Counts what passed and what failed, and prints what failed; octets in hexadecimal. */
#ifndef COUNTS_H
#define COUNTS_H

#include <stddef.h>
#include <stdint.h>

/* Counts one comparison, and prints these words and where they stand where it failed. Returns whether it passed. */
#define EXPECT(right, ...) expect(right, __FILE__, __LINE__, __VA_ARGS__)
int expect(int right, const char *file, int line, const char *words, ...) __attribute__((format(printf, 4, 5)));

/* Prints `N passed, N failed`, and returns the status to end with. */
int counted(void);

/* Ends the program, which cannot go on. */
void die(const char *words) __attribute__((noreturn));

/* Octets in a block of just their number, so that a tool sees a read behind them; null where there are none. */
struct octets {
    uint8_t *at;
    size_t count;
};
struct octets octets_of(const uint8_t *from, size_t count);
struct octets octets_of_text(const char *digits);
void drop(struct octets *octets);

/* Room of so many octets, each 0xA5, and whether they are still so from a place on. */
struct octets room_of(size_t count);
int is_untouched(const struct octets *room, size_t from);

/* The next line of a table, cut at its tabs into so many columns, of which those that are not there are empty; 0 at its end. Comments and
   empty lines are left out. The columns stand till the next call. */
int next_row(void *file, char **columns, int count);

/* The rows of a table, each handed on with its columns. */
void each_row(const char *name, int count, void (*to)(char **columns));

/* A number that is drawn by a generator of a fixed seed, below a limit; octets of it. */
uint32_t drawn(uint32_t below);
void draw(uint8_t *to, size_t count);
#endif
