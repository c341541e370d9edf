/* Reads frames of messages by places, cuts them, and makes them again: frames FILE, whose rows have a kind and octets in hexadecimal. */
#include "calls.h"
#include <stdio.h>
#include <string.h>

enum { NUMBERS = 6 };

/* What a call told: a place is two numbers. */
struct told {
    krb_status status;
    uint32_t kind;
    size_t at[NUMBERS];
};

static const char INIT[] = "NegotiationToken (negTokenInit)", RESP[] = "NegotiationToken (negTokenResp)", PROXY[] = "KDC-PROXY-MESSAGE";

/* Tells the place of a field of octets that stand behind so many of the whole: 0 and 0 of one that is absent. */
static krb_status tell(const char *type, const char *path, const uint8_t *octets, size_t count, size_t behind, size_t *at) {
    krb_item item = {77777, 77777, 7, 7, 7, 7, 7, 7, 7, 7};
    krb_status status = krb_find_text(type, path, octets, count, &item);
    at[0] = status == KRB_DONE ? behind + item.offset : 0;
    at[1] = item.size;
    EXPECT(status == KRB_DONE || item.size == 0, "%s of %s is told with status %u", path, type, status);
    return status;
}

/* The places of some fields; the status of the whole. */
static krb_status tell_all(const char *type, const char *const *paths, size_t many, const uint8_t *octets, size_t count, size_t behind, size_t *at) {
    size_t whole[2];
    krb_status status = tell(type, "", octets, count, behind, whole);
    for (size_t k = 0; k < many; k++) {
        krb_status one = tell(type, paths[k], octets, count, behind, &at[2 * k]);
        EXPECT(one == status || (status == KRB_DONE && one == KRB_ABSENT), "%s of %s: status %u and %u", paths[k], type, one, status);
    }
    return status;
}

/* negState as a number: KRB_NEG_STATE_ABSENT, or past that of another element than an ENUMERATED in one octet below 128. */
static uint32_t state_of(const struct octets *it) {
    krb_item item;
    if (krb_find_text(RESP, "negState", it->at, it->count, &item) != KRB_DONE) return KRB_NEG_STATE_ABSENT;
    return item.tag == 0x0a && item.size == 1 && it->at[item.offset] < 128 ? it->at[item.offset] : KRB_NEG_STATE_ABSENT + 1;
}

/* Those of a token that begins a negotiation, in its frame. */
static krb_status tell_init(const struct octets *it, size_t *at) {
    static const char *const paths[] = {"mechTypes", "mechToken", "mechListMIC"};
    size_t frame[4];
    krb_status status = krb_gss_token(it->at, it->count, &frame[0], &frame[1], &frame[2], &frame[3]);
    memset(at, 0, NUMBERS * sizeof *at);
    return status == KRB_DONE ? tell_all(INIT, paths, 3, it->at + frame[2], frame[3], frame[2], at) : status;
}

static struct told told_of(const char *kind, const struct octets *it) {
    static const char *const answer[] = {"supportedMech", "responseToken", "mechListMIC"}, *const proxy[] = {"kerb-message", "target-domain"};
    struct told told = {77777, 77777, {77777, 77777, 77777, 77777, 77777, 77777}};
    size_t *at = told.at;
    if (!strcmp(kind, "pac")) {
        told.status = krb_pac_buffer(it->at, it->count, 0, &told.kind, &at[0], &at[1]);
        at[2] = at[3] = at[4] = at[5] = 0;
    } else if (!strcmp(kind, "token")) {
        told.status = krb_gss_token(it->at, it->count, &at[0], &at[1], &at[2], &at[3]);
        at[4] = at[5] = 0;
    } else if (!strcmp(kind, "init")) {
        told.status = tell_init(it, at);
    } else if (!strcmp(kind, "resp")) {
        told.status = tell_all(RESP, answer, 3, it->at, it->count, 0, at);
        told.kind = state_of(it);
    } else if (!strcmp(kind, "password")) {
        told.status = krb_password_frame(it->at, it->count, &at[0], &at[1], &at[2], &at[3]);
        at[4] = at[5] = 0;
    } else if (!strcmp(kind, "proxy")) {
        int64_t hint = 77777;
        krb_status status = krb_find_number_text(PROXY, "dclocator-hint", it->at, it->count, &hint);
        told.status = tell_all(PROXY, proxy, 2, it->at, it->count, 0, at);
        at[4] = at[5] = 0;
        EXPECT(status == told.status || (told.status == KRB_DONE && (status == KRB_ABSENT || status == KRB_TOO_LARGE)), "the hint: status %u and %u", status, told.status);
        EXPECT(status == KRB_DONE || hint == 0, "a hint is told with status %u", status);
    } else {
        die("a table has a kind that is none");
    }
    return told;
}

/* All buffers of a PAC in one look are those that krb_pac_buffer tells, in any room that holds them; else no place is written. */
static void try_buffers(const struct octets *pac) {
    size_t right = 77777, most;
    krb_status status = krb_pac_count(pac->at, pac->count, &right);
    most = right < 40 ? right + 2 : right;
    for (size_t room = right < 40 ? 0 : right - 1; room <= most; room++) {
        struct octets places = room_of(room * sizeof(krb_pac_place));
        krb_pac_place *place = (krb_pac_place *)(void *)places.at;
        krb_status wanted = status == KRB_DONE && right > room ? KRB_ROOM : status;
        size_t count = 77777;
        krb_status told = krb_pac_buffers(pac->at, pac->count, place, room, &count);
        EXPECT(told == wanted && count == right, "%zu places for %zu buffers: status %u, count %zu", room, right, told, count);
        EXPECT(is_untouched(&places, told == KRB_DONE ? right * sizeof *place : 0), "%zu places for %zu buffers: one more is written", room, right);
        for (size_t n = 0; told == KRB_DONE && n < right; n++) {
            uint32_t kind = 77777;
            size_t offset = 77777, size = 77777;
            EXPECT(krb_pac_buffer(pac->at, pac->count, n, &kind, &offset, &size) == KRB_DONE && place[n].ul_type == kind && place[n].offset == offset && place[n].size == size,
                   "buffer %zu of %zu is told otherwise", n, right);
        }
        drop(&places);
    }
}

/* A PAC whose entries each name all its octets. */
static void try_hostile_pac(size_t count) {
    struct octets pac = room_of(8 + 16 * count);
    for (size_t k = 0; k < 8; k++) pac.at[k] = k < 4 ? (uint8_t)(count >> 8 * k) : 0;
    for (size_t n = 0; n < count; n++)
        for (size_t k = 0; k < 16; k++) pac.at[8 + 16 * n + k] = k == 0 ? (uint8_t)(10 + n % 10) : k < 4 || k > 7 ? 0 : (uint8_t)(pac.count >> 8 * (k - 4));
    try_buffers(&pac);
    pac.at[8 + 16 * (count - 1)] = 3; /* the last is of a number that no type has */
    try_buffers(&pac);
    drop(&pac);
}

static void try_refused(const char *kind, const struct octets *it, krb_status wanted, const char *what) {
    struct told told = told_of(kind, it);
    EXPECT(told.status == wanted, "%s, %s at %zu octets: status %u", kind, what, it->count, told.status);
    for (int k = 0; k < NUMBERS; k++) EXPECT(told.at[k] == 0, "%s, %s: a place is told", kind, what);
    if (!strcmp(kind, "pac")) {
        EXPECT(told.kind == 0, "a type is told");
        try_buffers(it);
    }
    if (!strcmp(kind, "resp")) EXPECT(told.kind == KRB_NEG_STATE_ABSENT, "a state is told");
}

/* The least octets of a PAC that has the buffers of this one: all up to the last that a buffer names. */
static size_t least_of(const struct octets *pac) {
    size_t count = 0, least = 8;
    EXPECT(krb_pac_count(pac->at, pac->count, &count) == KRB_DONE, "a PAC is refused");
    least += 16 * count;
    for (size_t n = 0; n < count; n++) {
        uint32_t kind = 0;
        size_t offset = 0, size = 0;
        EXPECT(krb_pac_buffer(pac->at, pac->count, n, &kind, &offset, &size) == KRB_DONE && kind && offset + size <= pac->count, "buffer %zu", n);
        if (offset + size > least) least = offset + size;
    }
    uint32_t kind = 1;
    size_t offset = 1, size = 1;
    EXPECT(krb_pac_buffer(pac->at, pac->count, count, &kind, &offset, &size) == KRB_ABSENT && !kind && !offset && !size, "one buffer more");
    EXPECT(krb_pac_buffer(pac->at, pac->count, SIZE_MAX, &kind, &offset, &size) == KRB_ABSENT, "the last number");
    return least;
}

static void try_cuts(const char *kind, const struct octets *whole, size_t least) {
    for (size_t count = 0; count < least; count += 1 + count / 700) {
        struct octets cut = octets_of(whole->at, count);
        krb_status wanted = KRB_TRUNCATED;
        if (!strcmp(kind, "pac")) { /* a cut may leave out octets that an early entry names */
            struct told told = told_of(kind, &cut);
            wanted = told.status == KRB_PAC_RANGE ? KRB_PAC_RANGE : KRB_TRUNCATED;
        }
        try_refused(kind, &cut, wanted, "cut");
        drop(&cut);
    }
}

static int is_place(const struct octets *it, size_t offset, size_t size) { return offset <= it->count && size <= it->count - offset; }

/* What was read is made again, also in too little room. */
static void try_made(const char *kind, const struct octets *whole, const struct told *told) {
    const uint8_t *first = whole->at + told->at[0], *second = whole->at + told->at[2];
    int is_token = !strcmp(kind, "token");
    size_t size = 77777, end = is_token ? whole->count : told->at[2] + told->at[3];
    for (size_t less = 0; less <= end; less += less < 3 ? 1 : end - less ? end - less : 1) {
        struct octets room = room_of(end - less);
        krb_status status = is_token ? krb_make_gss_token(first, told->at[1], second, told->at[3], room.at, room.count, &size)
                                     : krb_make_password_frame(first, told->at[1], second, told->at[3], room.at, room.count, &size);
        EXPECT(status == (less ? KRB_ROOM : KRB_DONE) && size == end, "%s, made in %zu octets: status %u", kind, room.count, status);
        EXPECT(less ? is_untouched(&room, 0) : is_token ? !memcmp(room.at, whole->at, end) : !memcmp(room.at + 6, whole->at + 6, end - 6), "%s is made otherwise", kind);
        drop(&room);
    }
    struct octets room = room_of(end + 7), none = {NULL, 0};
    krb_status status = is_token ? krb_make_gss_token(none.at, 0, second, told->at[3], room.at, room.count, &size)
                                 : krb_make_password_frame(first, told->at[1] - 1, second, told->at[3], room.at, room.count, &size);
    EXPECT(status == (is_token ? KRB_INVALID : KRB_TRUNCATED) && size == 0 && is_untouched(&room, 0), "%s of no message: status %u", kind, status);
    if (!is_token) {
        status = krb_make_password_frame(first, told->at[1], none.at, 0, room.at, room.count, &size);
        EXPECT(status == KRB_TRUNCATED && size == 0 && is_untouched(&room, 0), "a frame of no KRB-PRIV: status %u", status);
    }
    drop(&room);
}

/* Each mechanism stands behind the one before it, and the last ends the list. */
static void try_mechanisms(const struct octets *whole, const struct told *told) {
    size_t frame[4], place[2], end = told->at[0], n = 0;
    char path[64] = "mechTypes[0]";
    EXPECT(krb_gss_token(whole->at, whole->count, &frame[0], &frame[1], &frame[2], &frame[3]) == KRB_DONE, "a token");
    while (tell(INIT, path, whole->at + frame[2], frame[3], frame[2], place) == KRB_DONE) {
        EXPECT(whole->at[end] == 6 && whole->at[end + 1] == place[1] && place[0] == end + 2, "mechanism %zu", n);
        end = place[0] + place[1];
        n++;
        snprintf(path, sizeof path, "mechTypes[%zu]", n);
    }
    EXPECT(end == told->at[0] + told->at[1], "%zu mechanisms", n);
    EXPECT(tell(INIT, "mechTypes[18446744073709551615]", whole->at + frame[2], frame[3], frame[2], place) == KRB_ABSENT, "the last number");
}

/* A negTokenResp is made of what was read of it, also in too little room. */
static void try_made_answer(const struct octets *whole, const struct told *told) {
    const size_t *at = told->at;
    const uint8_t *mechanism = whole->at + at[0], *token = whole->at + at[2], *mic = whole->at + at[4];
    int is_state = told->kind <= KRB_NEG_STATE_REQUEST_MIC || told->kind == KRB_NEG_STATE_ABSENT; /* others are read, and not made */
    size_t size = 77777;
    for (size_t less = 0; is_state && less <= whole->count; less += less < 3 ? 1 : whole->count - less ? whole->count - less : 1) {
        struct octets room = room_of(whole->count - less);
        krb_status status = krb_make_neg_token_resp(told->kind, mechanism, at[1], token, at[3], mic, at[5], room.at, room.count, &size);
        EXPECT(status == (less ? KRB_ROOM : KRB_DONE) && size == whole->count, "a negTokenResp in %zu octets: status %u", room.count, status);
        EXPECT(less ? is_untouched(&room, 0) : !memcmp(room.at, whole->at, whole->count), "a negTokenResp is made otherwise");
        drop(&room);
    }
    struct octets room = room_of(whole->count + 7);
    const uint32_t states[] = {4, 127, 128, 255, KRB_NEG_STATE_ABSENT + 1, UINT32_MAX, is_state ? 5 : told->kind};
    for (unsigned k = 0; k < sizeof states / sizeof *states; k++) {
        krb_status status = krb_make_neg_token_resp(states[k], mechanism, at[1], token, at[3], mic, at[5], room.at, room.count, &size);
        EXPECT(status == KRB_NUMBER && size == 0 && is_untouched(&room, 0), "the state %u: status %u", states[k], status);
    }
    krb_status status = krb_make_neg_token_resp(0, (const uint8_t *)"\x80", 1, token, at[3], mic, at[5], room.at, room.count, &size);
    EXPECT(status == KRB_INVALID && size == 0 && is_untouched(&room, 0), "a mechanism that is none: status %u", status);
    drop(&room);
}

static void try_row(const char *kind, const struct octets *whole) {
    if (!strcmp(kind, "unlisted")) {
        size_t buffers = 7;
        try_refused("pac", whole, KRB_PAC_TYPE, "with a type that nothing lists");
        EXPECT(krb_pac_count(whole->at, whole->count, &buffers) == KRB_PAC_TYPE && buffers == 0, "buffers of a type that nothing lists are counted");
        return;
    }
    struct told told = told_of(kind, whole);
    size_t count = 0;
    int is_empty = !strcmp(kind, "pac") && krb_pac_count(whole->at, whole->count, &count) == KRB_DONE && count == 0;
    EXPECT(told.status == (is_empty ? KRB_ABSENT : KRB_DONE), "%s is refused: status %u", kind, told.status);
    for (int k = 0; k < NUMBERS; k += 2) EXPECT(is_place(whole, told.at[k], told.at[k + 1]), "%s: a place outside", kind);
    if (!strcmp(kind, "pac")) {
        size_t least = least_of(whole);
        try_buffers(whole);
        try_cuts(kind, whole, least);
        return;
    }
    try_cuts(kind, whole, !strcmp(kind, "password") ? told.at[2] + told.at[3] : whole->count);
    struct octets other = room_of(whole->count + 1);
    memcpy(other.at, whole->at, whole->count);
    if (strcmp(kind, "password")) {
        try_refused(kind, &other, KRB_INVALID, "with an octet behind");
        other.count--;
        other.at[1] = 0x80;
        try_refused(kind, &other, KRB_UNSUPPORTED, "of indefinite length");
        other.at[0] ^= 1;
        try_refused(kind, &other, KRB_INVALID, "under another tag");
    } else {
        other.at[3] = 2;
        try_refused(kind, &other, KRB_OTHER_VERSION, "of another version");
    }
    other.count = whole->count + 1;
    drop(&other);
    if (!strcmp(kind, "token") || !strcmp(kind, "password")) try_made(kind, whole, &told);
    if (!strcmp(kind, "init")) try_mechanisms(whole, &told);
    if (!strcmp(kind, "resp")) try_made_answer(whole, &told);
}

int main(int count, char **words) {
    FILE *table = count == 2 ? fopen(words[1], "r") : NULL;
    char *columns[2];
    if (!table) die("usage: frames FILE");
    while (next_row(table, columns, 2)) {
        struct octets octets = octets_of_text(columns[1]);
        char kind[16];
        snprintf(kind, sizeof kind, "%s", columns[0]);
        try_row(kind, &octets);
        drop(&octets);
    }
    static const char *const kinds[] = {"pac", "token", "init", "resp", "password", "proxy"};
    for (unsigned k = 0; k < sizeof kinds / sizeof *kinds; k++) {
        struct octets none = {NULL, 0};
        try_refused(kinds[k], &none, KRB_TRUNCATED, "nothing");
    }
    for (size_t count = 1; count < 2000; count += count < 40 ? 1 : count) try_hostile_pac(count);
    fclose(table);
    return counted();
}
