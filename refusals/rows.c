/* Hands rows of the tables of test_rows to it, with its allocations failing. The argument is the file
 * of the tables. Rows of `crypto` are handed over as they stand; of those of `READ` the program reads,
 * copies and writes the octets, and of a PAC its first buffer alone too. */
#include "program.h"
#include "runs.h"

/* The statuses of the program on a row of the origin `once`: it was read and all held, or it was
 * rejected. */
enum { HELD, REFUSED };

static char line[4 * ROOM];

/* The line that begins the table which is read. */
static char table[64];

/* The tables of octets that are read. */
static const char *const READ[] = {"types", "messages", "frames", "tokens", "negoex", "pacs"};

/* Whether the table that is read has this name. */
static int is_table(const char *name) {
    size_t size = strlen(name);
    return !memcmp(table + 3, name, size) && table[3 + size] == '\n';
}

/* Whether it is one of octets that are read. */
static int is_read(void) {
    for (size_t i = 0; i < sizeof READ / sizeof *READ; i++) {
        if (is_table(READ[i])) {
            return 1;
        }
    }
    return 0;
}

/* Whether an error's name is in the origin's place: one word that begins with a capital. */
static int is_refusal(const char *origin) {
    size_t letters = 0;
    while (('A' <= origin[letters] && origin[letters] <= 'Z') ||
           ('a' <= origin[letters] && origin[letters] <= 'z')) {
        letters++;
    }
    return 'A' <= *origin && *origin <= 'Z' && letters == strlen(origin);
}

/* Tries the row of these columns. Where an error's name is in the origin's place, the octets are
 * rejected. */
static void try_row(const char *origin, const char *name, const char *digits) {
    struct octets input;
    int count = snprintf((char *)input.at, ROOM, "%sonce\t%s\t%s\n", table, name, digits);
    if (count >= ROOM) {
        fail(name, "too many octets");
    }
    input.count = count;
    try_runs(name, &input, is_refusal(origin) ? REFUSED : HELD);
}

/* Tries the row that the line has, with what its table's program prints of it. */
static void try_line(void) {
    struct octets input;
    int count = snprintf((char *)input.at, ROOM, "%s%s", table, line);
    char *call = strtok(line, "\t\n");
    if (!strcmp(call, "text")) { /* the texts of errors */
        return;
    }
    if (count >= ROOM) {
        fail(call, "too many octets");
    }
    input.count = count;
    try_runs(call, &input, HELD);
}

int try_program(int count, char **words) {
    FILE *rows = count == 2 ? fopen(words[1], "r") : 0;
    if (!rows) {
        die("no such file of tables");
    }
    start_runs();
    while (fgets(line, sizeof line, rows)) {
        if (!memcmp(line, "== ", 3)) {
            snprintf(table, sizeof table, "%s", line);
            continue;
        }
        if (*line == '#' || (!is_table("crypto") && !is_read())) {
            continue;
        }
        if (is_table("crypto")) {
            try_line();
            continue;
        }
        char *origin = strtok(line, "\t\n"), *name = strtok(0, "\t\n"), *digits = strtok(0, "\t\n");
        if (digits && memcmp(origin, "large", 5)) {
            try_row(origin, name, digits);
            if (strlen(name) == 3 && !memcmp(name, "Pac", 3)) {
                try_row(origin, "PacBuffer", digits);
            }
        }
    }
    fclose(rows);
    end_runs();
    return 0;
}
