/* Checks, seals and opens messages of other implementations: messages FILE, whose rows have a message's number and its octets in hexadecimal. */
#include "calls.h"
#include <stdio.h>
#include <stdlib.h>
#include <string.h>

static const int32_t numbers[] = {1, 2, 3, 10, 11, 12, 13, 14, 15, 21, 22, 25, 26, 27, 28, 29, 30};
static const int32_t no_numbers[] = {0, -1, INT32_MIN, INT32_MAX, 4, 9, 16, 20, 23, 24, 31, 97, 0x61, 256 + 1};

/* Each cut is refused as cut short, an octet behind is refused, and so are the octets under the number of another message. */
static void try_check(int32_t number, const struct octets *whole) {
    EXPECT(krb_check(number, whole->at, whole->count) == KRB_DONE, "message %d is refused", number);
    for (size_t count = 0; count < whole->count; count++) {
        struct octets cut = octets_of(whole->at, count);
        krb_status status = krb_check(number, cut.at, count);
        EXPECT(status == KRB_TRUNCATED, "message %d cut to %zu octets: status %u", number, count, status);
        drop(&cut);
    }
    struct octets more = room_of(whole->count + 1);
    memcpy(more.at, whole->at, whole->count);
    EXPECT(krb_check(number, more.at, more.count) == KRB_INVALID, "message %d with an octet behind", number);
    memcpy(more.at, whole->at, whole->count);
    more.at[1] = 0x80;
    EXPECT(krb_check(number, more.at, whole->count) == KRB_UNSUPPORTED, "message %d of indefinite length", number);
    drop(&more);
    for (unsigned k = 0; k < sizeof numbers / sizeof *numbers; k++) {
        if (numbers[k] == number) continue;
        krb_status status = krb_check(numbers[k], whole->at, whole->count);
        EXPECT(status == KRB_INVALID, "message %d as %d: status %u", number, numbers[k], status);
    }
    for (unsigned k = 0; k < sizeof no_numbers / sizeof *no_numbers; k++)
        EXPECT(krb_check(no_numbers[k], whole->at, whole->count) == KRB_NUMBER, "message of the number %d", no_numbers[k]);
}

struct sealing {
    const struct suite *suite;
    uint8_t key[32], confounder[16];
    int32_t usage;
};

static krb_status seal(const struct sealing *it, const struct part *part, const struct octets *octets, struct octets *room, size_t *size) {
    return part->seal(it->suite->etype, it->key, it->suite->key, it->usage, it->confounder, it->suite->confounder, octets->at, octets->count, room->at, room->count, size);
}

static krb_status open_sealed(const struct sealing *it, open_call *call, const struct octets *sealed, struct octets *room, size_t *size) {
    return call(it->suite->etype, it->key, it->suite->key, it->usage, sealed->at, sealed->count, room->at, room->count, size);
}

static void expect_refused(const struct sealing *it, open_call *call, const struct octets *sealed, krb_status wanted, const char *what) {
    struct octets room = room_of(sealed->count + 3);
    size_t size = 77777;
    krb_status status = open_sealed(it, call, sealed, &room, &size);
    EXPECT(status == wanted && size == 0 && is_untouched(&room, 0), "etype %d, %s: status %u, size %zu", it->suite->etype, what, status, size);
    drop(&room);
}

/* Each cut and a bit turned in each octet: never opened, and nothing written. */
static void try_changed(const struct sealing *it, const struct part *part, const struct octets *sealed) {
    const struct suite *suite = it->suite;
    size_t least = suite->confounder + suite->checksum;
    for (size_t count = 0; count < sealed->count; count++) {
        struct octets cut = octets_of(sealed->at, count);
        krb_status wanted = count < least ? KRB_SEALED_SIZE : (count - suite->checksum) % suite->fill ? KRB_PADDING : KRB_INTEGRITY;
        expect_refused(it, part->open, &cut, wanted, "cut");
        expect_refused(it, krb_decrypt, &cut, wanted, "cut, decrypted");
        drop(&cut);
    }
    for (size_t place = 0; place < sealed->count; place++) {
        struct octets turned = octets_of(sealed->at, sealed->count);
        turned.at[place] ^= (uint8_t)(1u << drawn(8));
        expect_refused(it, part->open, &turned, KRB_INTEGRITY, "turned");
        drop(&turned);
    }
}

/* What the calls of this part refuse, whatever the octets are: numbers, then the sizes of confounder and key. */
static void try_arguments(const struct sealing *it, const struct part *part, const struct octets *octets, const struct octets *sealed) {
    struct octets room = room_of(sealed->count + 1);
    for (unsigned k = 0; k < sizeof no_numbers / sizeof *no_numbers; k++) {
        int32_t etype = no_numbers[k] == 16 || no_numbers[k] == 20 ? 23 : no_numbers[k];
        size_t size = 77777;
        krb_status status = part->seal(etype, it->key, it->suite->key, it->usage, it->confounder, it->suite->confounder, octets->at, octets->count, room.at, room.count, &size);
        EXPECT(status == KRB_NUMBER && size == 0, "sealed under etype %d: status %u", etype, status);
        size = 77777;
        status = part->open(etype, it->key, it->suite->key, it->usage, sealed->at, sealed->count, room.at, room.count, &size);
        EXPECT(status == KRB_NUMBER && size == 0, "opened under etype %d: status %u", etype, status);
    }
    for (size_t other = 0; other < 40; other++) {
        uint8_t longer[40] = {0};
        size_t size = 77777;
        if (other != it->suite->confounder) {
            krb_status status = part->seal(it->suite->etype, it->key, it->suite->key, it->usage, other ? longer : NULL, other, octets->at, octets->count, room.at, room.count, &size);
            EXPECT(status == KRB_CONFOUNDER_SIZE && size == 0, "a confounder of %zu octets: status %u", other, status);
        }
        if (other != it->suite->key) {
            krb_status status = part->seal(it->suite->etype, other ? longer : NULL, other, it->usage, it->confounder, it->suite->confounder, octets->at, octets->count, room.at, room.count, &size);
            EXPECT(status == KRB_KEY_SIZE && size == 0, "sealed under a key of %zu octets: status %u", other, status);
            status = part->open(it->suite->etype, other ? longer : NULL, other, it->usage, sealed->at, sealed->count, room.at, room.count, &size);
            EXPECT(status == KRB_KEY_SIZE && size == 0, "opened under a key of %zu octets: status %u", other, status);
        }
    }
    EXPECT(is_untouched(&room, 0), "octets are touched");
    drop(&room);
}

static void try_no_part(const struct sealing *it, const struct part *part, const struct octets *octets) {
    struct octets room = room_of(octets->count + 99);
    for (size_t count = 0; count < octets->count; count += 1 + octets->count / 17) {
        struct octets cut = octets_of(octets->at, count);
        size_t size = 77777;
        krb_status status = seal(it, part, &cut, &room, &size);
        EXPECT(status == KRB_TRUNCATED && size == 0, "%s cut to %zu octets: sealed with status %u", part->name, count, status);
        drop(&cut);
    }
    for (int k = 0; k < PARTS; k++) {
        size_t size = 77777;
        if (&parts[k] == part) continue;
        krb_status status = seal(it, &parts[k], octets, &room, &size);
        EXPECT(status == KRB_INVALID && size == 0, "%s is sealed as %s: status %u", part->name, parts[k].name, status);
    }
    EXPECT(is_untouched(&room, 0), "octets are touched");
    drop(&room);
}

static void try_part(const struct sealing *it, const struct part *part, const struct octets *octets, int is_first) {
    const struct suite *suite = it->suite;
    size_t filled = (octets->count + suite->fill - 1) / suite->fill * suite->fill, size = 0, right = suite->confounder + filled + suite->checksum;
    struct octets sealed = room_of(right), opened = room_of(filled + 5), none = {NULL, 0};
    EXPECT(seal(it, part, octets, &none, &size) == KRB_ROOM && size == right, "the size of %s, sealed: %zu", part->name, size);
    EXPECT(krb_encrypted_size(suite->etype, octets->count) == right, "krb_encrypted_size of %zu", octets->count);
    EXPECT(seal(it, part, octets, &sealed, &size) == KRB_DONE && size == right, "%s is not sealed", part->name);
    EXPECT(open_sealed(it, part->open, &sealed, &opened, &size) == KRB_DONE && size == octets->count && !memcmp(opened.at, octets->at, size) && is_untouched(&opened, size), "%s is not opened", part->name);
    struct octets small = room_of(octets->count - 1);
    EXPECT(open_sealed(it, part->open, &sealed, &small, &size) == KRB_ROOM && size == octets->count && is_untouched(&small, 0), "%s in too little room", part->name);
    drop(&small);
    drop(&opened);
    opened = room_of(filled + 5);
    EXPECT(open_sealed(it, krb_decrypt, &sealed, &opened, &size) == KRB_DONE && size == filled && !memcmp(opened.at, octets->at, octets->count) && is_untouched(&opened, filled), "%s is not decrypted", part->name);
    for (size_t k = octets->count; k < filled; k++) EXPECT(opened.at[k] == 0, "the fill is no zero");
    for (int k = 0; k < PARTS; k++)
        if (&parts[k] != part) expect_refused(it, parts[k].open, &sealed, KRB_INVALID, parts[k].name);
    struct sealing other = *it;
    other.usage++;
    expect_refused(&other, part->open, &sealed, KRB_INTEGRITY, "another usage");
    if (is_first) {
        try_changed(it, part, &sealed);
        try_arguments(it, part, octets, &sealed);
        try_no_part(it, part, octets);
    }
    drop(&sealed);
    drop(&opened);
}

/* A part with octets behind it, encrypted: etype 16 takes as many zeros as fill its blocks, and no more. */
static void try_behind(const struct sealing *it, const struct part *part, const struct octets *octets) {
    for (size_t behind = 1; behind <= 17; behind++)
        for (int last = 0; last < 2; last++) {
            size_t fill = it->suite->fill, filled = (octets->count + fill - 1) / fill * fill, size = 0;
            struct octets longer = room_of(octets->count + behind), sealed = room_of(octets->count + 99);
            memcpy(longer.at, octets->at, octets->count);
            memset(longer.at + octets->count, 0, behind);
            longer.at[longer.count - 1] = (uint8_t)last;
            krb_encrypt(it->suite->etype, it->key, it->suite->key, it->usage, it->confounder, it->suite->confounder, longer.at, longer.count, sealed.at, sealed.count, &size);
            struct octets whole = octets_of(sealed.at, size), room = room_of(longer.count);
            krb_status status = open_sealed(it, part->open, &whole, &room, &size);
            int is_fill = !last && longer.count <= filled;
            EXPECT(status == (is_fill ? KRB_DONE : KRB_INVALID) && is_untouched(&room, is_fill ? octets->count : 0), "%s, %zu octets behind, etype %d: status %u", part->name, behind, it->suite->etype, status);
            drop(&longer);
            drop(&sealed);
            drop(&whole);
            drop(&room);
        }
}

int main(int count, char **words) {
    FILE *file = count == 2 ? fopen(words[1], "r") : NULL;
    if (!file) die("messages FILE: the table is not there");
    char *columns[2];
    int seen[PARTS] = {0};
    while (next_row(file, columns, 2)) {
        int32_t number = (int32_t)strtol(columns[0], NULL, 10);
        struct octets octets = octets_of_text(columns[1]);
        try_check(number, &octets);
        for (int k = 0; k < PARTS; k++) {
            if (parts[k].number != number) continue;
            for (int s = 0; s < SUITES; s++) {
                struct sealing it = {.suite = &suites[s], .usage = (int32_t)drawn(2000) - 1000};
                draw(it.key, sizeof it.key);
                draw(it.confounder, sizeof it.confounder);
                try_part(&it, &parts[k], &octets, !seen[k]);
                if (!seen[k]) try_behind(&it, &parts[k], &octets);
            }
            seen[k] = 1;
        }
        drop(&octets);
    }
    for (int k = 0; k < PARTS; k++) EXPECT(seen[k], "the table has no %s", parts[k].name);
    fclose(file);
    return counted();
}
