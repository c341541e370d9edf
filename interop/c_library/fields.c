/* Finds fields of messages of other implementations by their paths: fields FILE, whose rows expect_fields.py makes. */
#include "calls.h"
#include <stdio.h>
#include <stdlib.h>
#include <string.h>

enum { COLUMNS = 10, TICKET = 22 };

struct answer {
    krb_item item;
    int64_t number;
    krb_status place, value;
};

static struct answer answer_of(const char *type, const char *path, const struct octets *octets) {
    struct answer it = {{7, 7, 7, 7, 7, 7, 7, 7, 7, 7}, 99999, 0, 0};
    it.place = krb_find_text(type, path, octets->at, octets->count, &it.item);
    it.value = krb_find_number_text(type, path, octets->at, octets->count, &it.number);
    return it;
}

static int is_refused(const struct answer *it, krb_status status) {
    static const krb_item none = {0, 0, 0, 0, 0, 0, 0, 0, 0, 0};
    return it->place == status && it->value == status && !memcmp(&it->item, &none, sizeof none) && it->number == 0;
}

static void expect_refused(const char *type, const char *path, const struct octets *octets, krb_status status) {
    struct answer it = answer_of(type, path, octets);
    EXPECT(is_refused(&it, status), "%s of %s in %zu octets: %u and %u in place of %u", path, type, octets->count, it.place, it.value, status);
}

/* Each cut is refused, and so are octets behind, names of no type and texts that are no path; the octets stay as they were. */
static void try_refusals(const char *type, const char *path, const struct octets *whole) {
    struct octets same = octets_of(whole->at, whole->count);
    for (size_t count = 0; count < whole->count; count += 1 + whole->count / 50) {
        struct octets cut = octets_of(whole->at, count);
        expect_refused(type, path, &cut, KRB_TRUNCATED);
        drop(&cut);
    }
    struct octets more = room_of(whole->count + 1);
    memcpy(more.at, whole->at, whole->count);
    expect_refused(type, path, &more, KRB_INVALID);
    drop(&more);
    static const char *const types[] = {"", "as-req", "AS-REQ ", "Tickets", "KRB-SAFE"};
    for (unsigned k = 0; k < sizeof types / sizeof *types; k++) expect_refused(types[k], path, whole, KRB_NUMBER);
    static const char *const paths[] = {".", "a.", ".a", "a..b", "[", "[]", "[1", "[a]", "[-1]", "a[1]b", "a]", "]"};
    for (unsigned k = 0; k < sizeof paths / sizeof *paths; k++) expect_refused(type, paths[k], whole, KRB_NUMBER);
    expect_refused(type, "no-such-field", whole, KRB_ABSENT);
    expect_refused(type, "[99999999999999999999999999]", whole, KRB_ABSENT);
    EXPECT(same.count == whole->count && !memcmp(same.at, whole->at, same.count), "octets are touched");
    drop(&same);
}

/* All items: the whole, and each field that was found, is among them; with one less of room they are counted alone. */
static void try_items(const char *type, const struct octets *whole, const krb_item *one) {
    size_t count = 77777, offset = 77777, found = 0;
    krb_item *items = calloc(whole->count + 1, sizeof *items);
    const uint8_t *name = (const uint8_t *)type;
    if (!items) die("out of memory");
    krb_status status = krb_items(name, strlen(type), whole->at, whole->count, items, whole->count, &count, &offset);
    EXPECT(status == KRB_DONE && offset == 0 && count > 0 && count <= whole->count, "items of %s: %u", type, status);
    for (size_t n = 0; n < count; n++) found += !memcmp(&items[n], one, sizeof *one);
    EXPECT(found == 1, "an item of %s stands %zu times among all", type, found);
    size_t all = count;
    memset(items, 7, (whole->count + 1) * sizeof *items);
    status = krb_items(name, strlen(type), whole->at, whole->count, items, all - 1, &count, &offset);
    EXPECT(status == KRB_ROOM && count == all && ((uint8_t *)items)[0] == 7, "items of %s in too little room: %u", type, status);
    free(items);
}

/* A ticket that is found is a message again, with its [APPLICATION 1]. */
static void whole_ticket(krb_item *it) {
    for (int n = 0; n < 2; n++) {
        size_t header = krb_header_size(it->size);
        it->offset -= header;
        it->size += header;
    }
}

static void try_found(char **columns, const struct octets *octets) {
    const char *type = columns[8], *path = columns[9];
    struct answer it = answer_of(type, path, octets);
    try_items(type, octets, &it.item);
    if (atoi(columns[2]) == TICKET) {
        whole_ticket(&it.item);
        EXPECT(krb_check(KRB_MESSAGE_TICKET, octets->at + it.item.offset, it.item.size) == KRB_DONE, "a ticket that is found is none");
    }
    EXPECT(it.place == KRB_DONE && it.item.offset == strtoull(columns[5], NULL, 10) && it.item.size == strtoull(columns[6], NULL, 10), "%s of %s: %u, %zu octets behind %zu", path, type, it.place, it.item.size, it.item.offset);
    if (!strcmp(columns[7], "TOO_LARGE"))
        EXPECT(it.value == KRB_TOO_LARGE && it.number == 0, "%s of %s is too large: %u", path, type, it.value);
    else if (*columns[7])
        EXPECT(it.value == KRB_DONE && it.number == strtoll(columns[7], NULL, 10), "%s of %s: %u, %lld", path, type, it.value, (long long)it.number);
    else
        EXPECT(it.value == KRB_NUMBER && it.number == 0, "%s of %s as a number: %u", path, type, it.value);
}

int main(int count, char **words) {
    FILE *file = count == 2 ? fopen(words[1], "r") : NULL;
    if (!file) die("fields FILE: the table is not there");
    char *columns[COLUMNS];
    struct octets octets = {NULL, 0};
    size_t rows = 0, messages = 0;
    while (next_row(file, columns, COLUMNS)) {
        const char *type = columns[8], *path = columns[9];
        drop(&octets);
        octets = octets_of_text(columns[1]);
        if (!strcmp(columns[2], "1") && !strcmp(columns[3], "0")) {
            try_refusals(type, "", &octets);
            messages++;
        }
        if (!strcmp(path, "-")) continue;
        if (strcmp(columns[4], "DONE")) expect_refused(type, path, &octets, KRB_ABSENT);
        else try_found(columns, &octets);
        rows++;
    }
    drop(&octets);
    fclose(file);
    EXPECT(messages >= 10 && rows > 3000, "%zu rows of %zu messages", rows, messages);
    return counted();
}
