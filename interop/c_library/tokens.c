/* MIC and Wrap tokens that MIT Kerberos made, made again, verified and opened: tokens FILE, whose rows have an encryption type, a key, 1 where the
   acceptor sent the token, 1 where the key is the acceptor's subkey, a sequence number, a kind (mic, clear, sealed), a message and the token. */
#include "counts.h"
#include "krb.h"
#include <stdio.h>
#include <stdlib.h>
#include <string.h>

/* The octets before what a token holds, and where its rotation stands (RFC 4121, 4.2.6). */
enum { HEADER = 16, ROTATION = 6, MOST_ROTATION = 65535 };

struct token {
    int32_t etype;
    struct octets key, message, octets;
    bool by_acceptor, subkey;
    uint64_t number;
    const char *kind;
};

static const uint8_t confounder[16] = {1, 2, 3, 4, 5, 6, 7, 8, 9, 10, 11, 12, 13, 14, 15, 16};

/* A token of the row's kind. */
static krb_status made(const struct token *it, uint16_t rotation, struct octets *room, size_t *size) {
    const struct octets *key = &it->key, *text = &it->message;
    if (!strcmp(it->kind, "mic"))
        return krb_make_mic(it->etype, key->at, key->count, it->by_acceptor, it->subkey, it->number, text->at, text->count, room->at, room->count, size);
    if (!strcmp(it->kind, "clear"))
        return krb_wrap_in_clear(it->etype, key->at, key->count, it->by_acceptor, it->subkey, it->number, rotation, text->at, text->count,
                room->at, room->count, size);
    return krb_wrap(it->etype, key->at, key->count, it->by_acceptor, it->subkey, it->number, rotation, confounder, sizeof confounder, text->at,
            text->count, room->at, room->count, size);
}

struct answer {
    krb_status status;
    uint64_t number;
    bool sealed;
    size_t size;
};

/* What is said of these octets as a token of the row's kind, and what they hold. */
static struct answer taken(const struct token *it, const struct octets *octets, struct octets *room) {
    const struct octets *key = &it->key, *text = &it->message;
    struct answer answer = {77777, 77777, false, 0};
    if (!strcmp(it->kind, "mic")) {
        answer.status = krb_verify_mic(it->etype, key->at, key->count, it->by_acceptor, it->subkey, text->at, text->count, octets->at,
                octets->count, &answer.number);
        return answer;
    }
    answer.sealed = true, answer.size = 77777;
    answer.status = krb_unwrap(it->etype, key->at, key->count, it->by_acceptor, it->subkey, octets->at, octets->count, &answer.number,
            &answer.sealed, room->at, room->count, &answer.size);
    return answer;
}

/* The octets are a token of the row's message and number; also in too little room. */
static void try_held(const struct token *it, const struct octets *octets) {
    const size_t rooms[] = {it->message.count + 9, it->message.count, it->message.count - 1, 0};
    bool is_sealed = !strcmp(it->kind, "sealed"), is_mic = !strcmp(it->kind, "mic");
    for (unsigned k = 0; k < (is_mic ? 1 : sizeof rooms / sizeof *rooms); k++) {
        if (rooms[k] > it->message.count + 9) continue; /* one octet less than none */
        struct octets room = room_of(rooms[k]);
        struct answer answer = taken(it, octets, &room);
        bool fits = is_mic || rooms[k] >= it->message.count;
        EXPECT(answer.status == (fits ? KRB_DONE : KRB_ROOM) && answer.number == it->number, "%s %d: status %u", it->kind, it->etype, answer.status);
        EXPECT(is_mic || (answer.sealed == is_sealed && answer.size == it->message.count), "%s %d: %zu octets", it->kind, it->etype, answer.size);
        EXPECT(is_mic || !fits || !answer.size || !memcmp(room.at, it->message.at, answer.size), "%s %d: another message", it->kind, it->etype);
        EXPECT(is_untouched(&room, !is_mic && fits ? answer.size : 0), "%s %d: octets are touched", it->kind, it->etype);
        drop(&room);
    }
}

/* They are none: nothing is told. The status is `wanted`, or any but KRB_DONE and KRB_ROOM where this is 0. */
static void try_refused(const struct token *it, const struct octets *octets, krb_status wanted, const char *what) {
    struct octets room = room_of(octets->count + 9);
    struct answer answer = taken(it, octets, &room);
    EXPECT(wanted ? answer.status == wanted : answer.status > KRB_ROOM, "%s %d, %s: status %u", it->kind, it->etype, what, answer.status);
    EXPECT(!answer.number && !answer.sealed && !answer.size && is_untouched(&room, 0), "%s %d, %s: something is told", it->kind, it->etype, what);
    drop(&room);
}

/* Made in room of each size: of the row's own octets where these are known, which they are but for a confounder. */
static void try_made(const struct token *it, uint16_t rotation, const struct octets *right) {
    struct octets whole = room_of(it->octets.count);
    size_t size = 77777;
    krb_status status = made(it, rotation, &whole, &size);
    EXPECT(status == KRB_DONE && size == it->octets.count, "%s %d is made of %zu octets, status %u", it->kind, it->etype, size, status);
    EXPECT(!right || !memcmp(whole.at, right->at, size), "%s %d is made otherwise", it->kind, it->etype);
    if (strcmp(it->kind, "mic")) EXPECT(whole.at[ROTATION] == rotation >> 8 && whole.at[ROTATION + 1] == (rotation & 255),
            "%s %d: another rotation", it->kind, it->etype);
    try_held(it, &whole);
    for (size_t less = 1; less <= size; less += less < 3 ? 1 : size - less ? size - less : 1) {
        struct octets room = room_of(size - less);
        size_t wanted = 77777;
        status = made(it, rotation, &room, &wanted);
        EXPECT(status == KRB_ROOM && wanted == size && is_untouched(&room, 0), "%s %d in %zu octets: status %u", it->kind, it->etype, room.count, status);
        drop(&room);
    }
    drop(&whole);
}

/* Each cut, a bit of each octet another, the other side, the other key, another message. */
static void try_refusals(const struct token *it) {
    struct token other = *it;
    for (size_t count = 0; count < it->octets.count; count++) {
        struct octets cut = octets_of(it->octets.at, count);
        try_refused(it, &cut, count < HEADER ? KRB_TOKEN : 0, "cut");
        drop(&cut);
    }
    for (size_t k = 0; k < it->octets.count; k++) {
        struct octets turned = octets_of(it->octets.at, it->octets.count);
        turned.at[k] ^= 1 << k % 8;
        /* A rotation by another multiple of what is rotated is the same, and not of these sizes. */
        try_refused(it, &turned, 0, "a bit is another");
        drop(&turned);
    }
    other.by_acceptor = !it->by_acceptor;
    try_refused(&other, &it->octets, KRB_DIRECTION, "of the other side");
    other.by_acceptor = it->by_acceptor, other.subkey = !it->subkey;
    try_refused(&other, &it->octets, KRB_SUBKEY, "under the other key");
    other.subkey = it->subkey, other.key = octets_of(it->key.at, it->key.count);
    other.key.at[0] ^= 1;
    try_refused(&other, &it->octets, KRB_INTEGRITY, "under another key");
    other.key.count--;
    try_refused(&other, &it->octets, KRB_KEY_SIZE, "under a short key");
    drop(&other.key);
    other.key = it->key, other.etype = 16;
    try_refused(&other, &it->octets, KRB_NUMBER, "under etype 16");
    if (!strcmp(it->kind, "mic")) {
        other.etype = it->etype, other.message = room_of(it->message.count + 1);
        try_refused(&other, &it->octets, KRB_INTEGRITY, "of another message");
        drop(&other.message);
    }
}

static void try_row(char **columns) {
    struct token it = {(int32_t)strtol(columns[0], NULL, 10), octets_of_text(columns[1]), octets_of_text(columns[6]), octets_of_text(columns[7]),
            columns[2][0] == '1', columns[3][0] == '1', strtoull(columns[4], NULL, 10), columns[5]};
    uint16_t rotation = (uint16_t)(it.octets.at[ROTATION] << 8 | it.octets.at[ROTATION + 1]);
    try_held(&it, &it.octets);
    try_refusals(&it);
    bool is_mic = !strcmp(it.kind, "mic");
    try_made(&it, rotation, !strcmp(it.kind, "sealed") ? NULL : &it.octets);
    static const uint16_t rotations[] = {0, 1, 12, 28, 29, 4096, MOST_ROTATION};
    for (unsigned k = 0; !is_mic && k < sizeof rotations / sizeof *rotations; k++) try_made(&it, rotations[k], NULL);
    drop(&it.key), drop(&it.message), drop(&it.octets);
}

int main(int count, char **words) {
    FILE *table = count == 2 ? fopen(words[1], "r") : NULL;
    char *columns[8];
    int rows = 0;
    if (!table) die("tokens FILE: the table is not there");
    while (next_row(table, columns, 8)) {
        try_row(columns);
        rows++;
    }
    fclose(table);
    EXPECT(rows >= 24, "%d rows", rows);
    return counted();
}
