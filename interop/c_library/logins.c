/* Makes the calls of an acceptor and of a client: logins FILE [STEP], whose rows expect_logins.py writes. Each with just enough room, with too little and with none;
   each token and reply cut, and with a bit of each octet another: of every STEP-th octet, of each row others, where STEP is given. */
#include "login_calls.h"
#include <stddef.h>
#include <stdio.h>
#include <stdlib.h>
#include <string.h>

/* The key usage of the part of an AP-REP (RFC 4120, 7.5.1). */
enum { OWN_SUBKEY = 16, TIME_SIZE = 12, YEAR = 31536000, AP_REP_PART = 12 };

static size_t step = 1, row_number;

static const uint8_t mechanism[] = {0x2a, 0x86, 0x48, 0x86, 0xf7, 0x12, 1, 2, 2};

static struct login_answer called_in(const struct login *it, struct octets *room) {
    *room = room_of(LOGIN_ROOM);
    return login_called(it, room);
}

static uint64_t wanted_number(const char *text) { return strtoull(text, NULL, 10); }

static int is_octets(const uint8_t *out, krb_place place, const struct octets *wanted) {
    return place.size == wanted->count && (!wanted->count || !memcmp(out + place.offset, wanted->at, wanted->count));
}

/* The octets of a text of a table. */
static int is_hex(const uint8_t *out, krb_place place, const char *digits) {
    struct octets wanted = octets_of_text(digits);
    int is = is_octets(out, place, &wanted);
    drop(&wanted);
    return is;
}

/* The same answer in just enough room; KRB_ROOM in less, which touches nothing and tells the size alone. */
static void try_rooms(const struct login *it, const struct login_answer *whole, const struct octets *octets) {
    size_t size = whole->size, rooms[] = {size, size - 1, size / 2, 0};
    for (size_t k = 0; size && k < sizeof rooms / sizeof *rooms; k++) {
        struct octets room = room_of(rooms[k]);
        struct login_answer answer = login_called(it, &room);
        if (rooms[k] == size) {
            EXPECT(is_same_answer(&answer, whole) && !memcmp(room.at, octets->at, size), "%s: another answer in just enough room, status %u", it->name, answer.status);
        } else {
            EXPECT(answer.status == KRB_ROOM && answer.size == size, "%s in %zu octets: status %u, size %zu", it->name, rooms[k], answer.status, answer.size);
            EXPECT(is_told_nothing(it, &answer) && is_untouched(&room, 0), "%s in %zu octets: something is told", it->name, rooms[k]);
        }
        drop(&room);
    }
}

/* A refusal: by this rule, or by any where it is 0. */
static void try_refused(const struct login *it, uint32_t rule, const char *what, size_t at) {
    struct octets room;
    struct login_answer answer = called_in(it, &room);
    krb_status wanted = it->kind == ACCEPT ? KRB_NOT_ACCEPTED : KRB_NOT_GRANTED;
    EXPECT(answer.status == wanted && rule_of(it, &answer) && (!rule || rule_of(it, &answer) == rule), "%s, %s %zu: status %u, rule %u", it->name, what, at, answer.status,
            rule_of(it, &answer));
    EXPECT(is_told_nothing(it, &answer) && is_untouched(&room, 0), "%s, %s %zu: something is told", it->name, what, at);
    drop(&room);
}

/* A call that is not as it should be: this status, and nothing is told. */
static void try_status(const struct login *it, krb_status wanted, const char *what) {
    struct octets room;
    struct login_answer answer = called_in(it, &room);
    EXPECT(answer.status == wanted, "%s, %s: status %u, and not %u", it->name, what, answer.status, wanted);
    EXPECT(is_told_nothing(it, &answer) && is_untouched(&room, 0), "%s, %s: something is told", it->name, what);
    drop(&room);
}

/* Each prefix is refused: one of no octets by an exchange as another message than it waits for. */
static void try_cuts(const struct login *it, uint32_t rule) {
    struct login cut = *it;
    for (size_t count = row_number % step; count < it->octets.count; count += step) {
        cut.octets = octets_of(it->octets.at, count);
        try_refused(&cut, !count && (it->kind == INITIAL || it->kind == TICKET) ? KRB_CLIENT_RULE_OTHER_MESSAGE : rule, "cut", count);
        drop(&cut.octets);
    }
}

/* ---- the acceptor */

/* The bits of an octet that are under no key: OCTET:MASK, blanks between. */
static unsigned free_bits(const char *bits, size_t octet) {
    char *end;
    for (const char *at = bits; *at; at = end + (*end == ' ')) {
        size_t place = (size_t)strtoul(at, &end, 10);
        unsigned mask = (unsigned)strtoul(end + 1, &end, 10);
        if (place == octet) return mask;
    }
    return 0;
}

/* A client is let in by a token with a bit turned exactly where this bit is under no key. */
static void try_turned_token(const struct login *it, const char *bits) {
    struct login turned = *it;
    for (size_t k = row_number % step; k < it->octets.count; k += step) {
        turned.octets = octets_of(it->octets.at, it->octets.count);
        turned.octets.at[k] ^= 1 << k % 8;
        if (free_bits(bits, k) >> k % 8 & 1) {
            struct octets room;
            struct login_answer answer = called_in(&turned, &room);
            EXPECT(answer.status == KRB_UNLESS_REPEATED, "%s, a bit of octet %zu: status %u", it->name, k, answer.status);
            drop(&room);
        } else {
            try_refused(&turned, 0, "a bit of octet", k);
        }
        drop(&turned.octets);
    }
}

/* The AP-REP in an answer, behind the frame and the two octets of RFC 4121, 4.1, where it has these. */
static struct octets ap_reply_in(const uint8_t *out, krb_place reply) {
    size_t at, size, inner = reply.offset, inner_size = reply.size;
    if (reply.size && out[reply.offset] == 0x60) {
        krb_status status = krb_gss_token(out + reply.offset, reply.size, &at, &size, &inner, &inner_size);
        EXPECT(status == KRB_DONE && inner_size > 2 && out[reply.offset + inner] == 2 && out[reply.offset + inner + 1] == 0, "the frame of an answer: %u", status);
        inner += reply.offset + 2, inner_size -= 2;
    }
    return octets_of(out + inner, inner_size);
}

/* The time that stands in an entry: 8 octets of seconds, highest first, and 4 of microseconds. */
static void time_of(const uint8_t *entry, krb_ap_terms *to) {
    uint64_t seconds = 0;
    for (int k = 0; k < 8; k++) seconds = seconds << 8 | entry[k];
    to->seconds = (int64_t)seconds;
    to->microseconds = (uint32_t)entry[8] << 24 | (uint32_t)entry[9] << 16 | (uint32_t)entry[10] << 8 | entry[11];
}

/* What krb_confirm says of a client's message, after the service's own one: this status. */
static void try_confirmed(const struct login *it, const struct login *own, const struct octets *message, krb_status wanted, const char *what, size_t at) {
    krb_status status = krb_confirm((uint32_t)own->etype, own->key.at, own->key.count, own->octets.at, own->octets.count, it->acceptor.sequence_number, message->at,
            message->count);
    EXPECT(status == wanted, "%s, a third message, %s %zu: status %u, and not %u", it->name, what, at, status, wanted);
}

/* The client's last message in DCE style has the service's number, under another confounder; it is refused where it is the service's own, cut, changed, or under another
   key, and where the number is another. */
static void try_third_leg(const struct login *it, const struct login *own) {
    struct octets cipher = field_of("AP-REP", "enc-part.cipher", &own->octets), part = room_of(cipher.count), third = octets_of(own->octets.at, own->octets.count);
    size_t at = third.count - cipher.count, size;
    krb_status status = krb_decrypt(own->etype, own->key.at, own->key.count, AP_REP_PART, cipher.at, cipher.count, part.at, part.count, &part.count);
    EXPECT(status == KRB_DONE, "%s: the answer is not opened: %u", it->name, status);
    status = krb_encrypt(own->etype, own->key.at, own->key.count, AP_REP_PART, login_random + 1, krb_confounder_size(own->etype), part.at, part.count, third.at + at,
            cipher.count, &size);
    EXPECT(status == KRB_DONE && size == cipher.count, "%s: no third message is made: %u", it->name, status);
    try_confirmed(it, own, &third, KRB_DONE, "as it should be", 0);
    try_confirmed(it, own, &own->octets, KRB_DIRECTION, "the service's own", 0);
    struct login other = *it, under = *own;
    other.acceptor.sequence_number ^= 1;
    try_confirmed(&other, own, &third, KRB_NOT_ACCEPTED, "of another number", 0);
    under.etype = 23;
    try_confirmed(it, &under, &third, KRB_INTEGRITY, "under etype", 23);
    under = *own, under.key = octets_of(own->key.at, own->key.count);
    under.key.at[0] ^= 2;
    try_confirmed(it, &under, &third, KRB_INTEGRITY, "under another key", 0);
    for (size_t k = row_number % step; k < third.count; k += step) {
        struct octets cut = octets_of(third.at, k);
        try_confirmed(it, own, &cut, KRB_INVALID, "cut", k);
        drop(&cut);
        if (k < at) continue;
        third.at[k] ^= 1 << k % 8;
        try_confirmed(it, own, &third, KRB_INTEGRITY, "a bit of octet", k);
        third.at[k] ^= 1 << k % 8;
    }
    drop(&cipher), drop(&part), drop(&third), drop(&under.key);
}

/* The answer confirms the service to the client: it has the client's time, the service's number and, where one is asked for, its subkey, of random octets. */
static void try_answer(const struct login *it, const struct login_answer *answer, const uint8_t *out) {
    const krb_accepted *told = &answer->accepted;
    struct login reply = {.kind = AP_REPLY, .etype = (int32_t)told->session_etype, .octets = ap_reply_in(out, told->reply)};
    struct octets room, number, wanted = octets_of(login_random + OWN_SUBKEY, told->own_subkey.size);
    memcpy(reply.name, it->name, sizeof reply.name);
    reply.key = octets_of(out + told->session_key.offset, told->session_key.size);
    time_of(out + told->entry.offset, &reply.ap);
    struct login_answer confirmed = called_in(&reply, &room);
    EXPECT(confirmed.status == KRB_DONE && confirmed.rule == 0, "%s: the answer is refused: status %u, rule %u", it->name, confirmed.status, confirmed.rule);
    struct octets part = octets_of(room.at, confirmed.size);
    int64_t sequence = 0;
    EXPECT(krb_find_number_text("EncAPRepPart", "seq-number", part.at, part.count, &sequence) == KRB_DONE && sequence == it->acceptor.sequence_number, "%s: another number",
            it->name);
    EXPECT(is_octets(out, told->own_subkey, &wanted), "%s: another subkey of the service", it->name);
    EXPECT((it->acceptor.options & KRB_ACCEPT_SUBKEY ? told->session_key.size : 0) == wanted.count, "%s: a subkey of %zu octets", it->name, wanted.count);
    if (wanted.count) {
        number = field_of("EncAPRepPart", "subkey.keyvalue", &part);
        EXPECT(number.count == wanted.count && !memcmp(number.at, wanted.at, wanted.count), "%s: another subkey in the answer", it->name);
        drop(&number);
    }
    try_third_leg(it, &reply);
    reply.ap.microseconds ^= 1;
    try_refused(&reply, KRB_CLIENT_RULE_TIME, "another time", 0);
    reply.ap.microseconds ^= 1, reply.key.at[0] ^= 2;
    try_refused(&reply, KRB_CLIENT_RULE_OPENING, "another key", 0);
    drop_login(&reply), drop(&part), drop(&room), drop(&wanted);
}

/* What is told of a client that is let in. */
static void try_client(const struct login *it, const struct login_answer *answer, const uint8_t *out, char **row) {
    const krb_accepted *told = &answer->accepted;
    EXPECT(told->flags == wanted_number(row[9]) && (uint64_t)told->end_time == wanted_number(row[10]), "%s: flags %u, until %ld", it->name, told->flags, (long)told->end_time);
    if (row[11][0]) {
        EXPECT(told->session_etype == wanted_number(row[11]) && is_hex(out, told->session_key, row[12]), "%s: another session key", it->name);
        EXPECT(told->subkey_etype == wanted_number(row[13]) && is_hex(out, told->subkey, row[14]), "%s: another subkey", it->name);
    }
    if (row[15][0]) {
        krb_place names = {told->entry.offset + TIME_SIZE, told->entry.size - TIME_SIZE};
        EXPECT(told->entry.size > TIME_SIZE && is_hex(out, names, row[15]), "%s: other names in the entry", it->name);
    }
    EXPECT(told->rule == 0 && told->code == 0 && told->has_seen == 0 && told->seen == 0, "%s: a refusal is told", it->name);
    if (told->reply.size) try_answer(it, answer, out);
    EXPECT(told->reply.size || !(told->flags & 2), "%s: no answer", it->name);
}

/* A service that asks for this name and this realm, and the rule by which it refuses; 0 of one that lets the client in. */
static void try_asked(const struct login *it, struct octets server, struct octets realm, uint32_t rule, const char *what) {
    struct login other = *it;
    other.server = server, other.realm = realm;
    if (rule) {
        try_refused(&other, rule, what, 0);
    } else {
        struct octets room;
        struct login_answer answer = called_in(&other, &room);
        EXPECT(answer.status == KRB_UNLESS_REPEATED, "%s, %s: status %u, rule %u", it->name, what, answer.status, answer.accepted.rule);
        drop(&room);
    }
    drop(&server), drop(&realm);
}

/* A service of a name, and of clients of a realm: those of an entry, which are each a realm and components, with ff behind each, and fe behind these. */
static void try_named(const struct login *it, const char *names) {
    struct octets entry = octets_of_text(names), none = {NULL, 0};
    uint8_t *realm = entry.at, *first = (uint8_t *)memchr(realm, 0xff, entry.count) + 1, *end = memchr(first, 0xfe, entry.count - (size_t)(first - entry.at));
    uint8_t *client = end + 1, *client_end = memchr(client, 0xff, entry.count - (size_t)(client - entry.at));
    char text[512];
    int size = snprintf(text, sizeof text, "%.*s", (int)(end - 1 - first), (const char *)first);
    int parts = 1;
    for (int k = 0; k < size; k++)
        if ((uint8_t)text[k] == 0xff) text[k] = '/', parts++;
    try_asked(it, text_octets(text), none, 0, "a service of its name");
    snprintf(text + size, sizeof text - (size_t)size, "@%.*s", (int)(first - 1 - realm), (const char *)realm);
    try_asked(it, text_octets(text), none, 0, "a service of its name and realm");
    try_asked(it, none, octets_of(client, (size_t)(client_end - client)), 0, "clients of its realm");
    strcat(text, "X");
    try_asked(it, text_octets(text), none, KRB_RULE_NOT_US, "a service of another realm");
    if (parts == 2) {
        *strchr(text, '/') = 0;
        try_asked(it, text_octets(text), none, 0, "a service of its name at any host");
    }
    try_asked(it, text_octets("nobody/nowhere"), none, KRB_RULE_NOT_US, "another service");
    try_asked(it, none, text_octets("NOWHERE.TEST"), KRB_RULE_CLIENT_REALM, "clients of another realm");
    struct login wrong = *it;
    wrong.server = text_octets("a@b@c");
    try_status(&wrong, KRB_INVALID, "what is no name of a service");
    drop(&wrong.server);
    wrong.server = none, wrong.realm = text_octets("\xc3\xa9");
    try_status(&wrong, KRB_INVALID, "a realm that is not of ASCII");
    drop(&wrong.realm), drop(&entry);
}

/* Options that there are not, or that contradict what else is asked; and since when the replay cache is whole. */
static void try_options(const struct login *it) {
    static const struct {
        uint32_t added;
        const char *what;
    } wrong[] = {{2048, "an option that there is not"}, {0x80000000, "the last option"}, {KRB_ACCEPT_PAC_IGNORED | KRB_ACCEPT_PAC_REQUIRED, "both options of PACs"},
                 {KRB_ACCEPT_ADDRESSES_REQUIRED, "addresses, and none"}};
    struct login other = *it;
    for (size_t k = 0; k < sizeof wrong / sizeof *wrong; k++) {
        other.acceptor.options = it->acceptor.options | wrong[k].added;
        try_status(&other, KRB_NUMBER, wrong[k].what);
    }
    other.acceptor.options = it->acceptor.options ^ KRB_ACCEPT_BOUND;
    try_status(&other, KRB_NUMBER, it->bindings.count ? "bindings that are not asked for" : "no bindings, and they are asked for");
    other.acceptor.options = it->acceptor.options, other.acceptor.whole_since = 1;
    try_status(&other, KRB_NUMBER, "whole since ever, and since a time");
    other.acceptor.options = it->acceptor.options & ~(uint32_t)KRB_ACCEPT_WHOLE_EVER;
    try_asked(&other, (struct octets){NULL, 0}, (struct octets){NULL, 0}, 0, "whole since long ago");
    other.acceptor.whole_since = it->acceptor.clock + 1;
    try_refused(&other, KRB_RULE_UNREMEMBERED, "whole since now", 0);
    for (int since = -1; since <= 0; since++) {
        other.acceptor.whole_since = since;
        try_status(&other, KRB_NUMBER, "whole since no time");
    }
}

/* A service whose keytab, bindings or clock are others. */
static void try_other_service(const struct login *it) {
    struct login other = *it;
    other.keytab.count = 1;
    try_status(&other, KRB_KEYTAB, "no keytab");
    other.keytab = it->keytab, other.bindings = octets_of(login_random, 15);
    try_status(&other, KRB_SEED_SIZE, "15 octets of bindings");
    drop(&other.bindings);
    other.bindings = it->bindings, other.acceptor.clock += YEAR;
    try_refused(&other, 0, "a year later", 0);
    other.acceptor.clock -= 2 * YEAR;
    try_refused(&other, KRB_RULE_SKEW, "a year before", 0);
    other.acceptor = it->acceptor;
    /* The last octet of a key, where the keytab has one entry. */
    if (it->keytab.count != 6u + (size_t)(it->keytab.at[4] << 8 | it->keytab.at[5])) return;
    other.keytab = octets_of(it->keytab.at, it->keytab.count);
    other.keytab.at[other.keytab.count - 1] ^= 2;
    try_refused(&other, KRB_RULE_TICKET, "under another key", 0);
    drop(&other.keytab);
}

static void try_accept(const struct login *it, char **row) {
    struct octets room;
    struct login_answer answer = called_in(it, &room);
    if (strcmp(row[7], "0")) {
        EXPECT(answer.status == KRB_NOT_ACCEPTED && answer.accepted.rule == wanted_number(row[7]) && answer.accepted.code == wanted_number(row[8]),
                "%s: status %u, rule %u, code %u", it->name, answer.status, answer.accepted.rule, answer.accepted.code);
        EXPECT(is_told_nothing(it, &answer) && is_untouched(&room, 0), "%s is refused, and something is told", it->name);
        drop(&room);
        return;
    }
    EXPECT(answer.status == KRB_UNLESS_REPEATED, "%s: status %u, rule %u", it->name, answer.status, answer.accepted.rule);
    if (answer.status == KRB_UNLESS_REPEATED) {
        EXPECT(is_untouched(&room, answer.size), "%s touches more of its room", it->name);
        try_client(it, &answer, room.at, row);
        try_rooms(it, &answer, &room);
        try_cuts(it, 0);
        try_turned_token(it, row[17]);
        try_other_service(it);
        try_options(it);
        if (row[15][0]) try_named(it, row[15]);
    }
    drop(&room);
    if (it->acceptor.options & KRB_ACCEPT_SUBKEY) return;
    struct login with_subkey = *it;
    with_subkey.acceptor.options |= KRB_ACCEPT_SUBKEY;
    answer = called_in(&with_subkey, &room);
    size_t own = answer.accepted.reply.size ? answer.accepted.session_key.size : 0; /* it stands in the answer */
    EXPECT(answer.status == KRB_UNLESS_REPEATED && answer.accepted.own_subkey.size == own, "%s with a subkey: status %u", it->name, answer.status);
    if (answer.accepted.reply.size) try_answer(&with_subkey, &answer, room.at);
    drop(&room);
}

/* ---- a client and an acceptor */

/* The token of an AP-REQ (RFC 4121, 4.1). */
static struct octets framed(const uint8_t *request, size_t count) {
    struct octets inner = room_of(count + 2), token = room_of(count + 64);
    inner.at[0] = 1, inner.at[1] = 0;
    memcpy(inner.at + 2, request, count);
    krb_status status = krb_make_gss_token(mechanism, sizeof mechanism, inner.at, inner.count, token.at, token.count, &token.count);
    EXPECT(status == KRB_DONE, "no token is made: %u", status);
    drop(&inner);
    return token;
}

/* The acceptor of the row lets in the client that sends this ticket by the library's AP-REQ: with the row's names, and what the client said. */
static void try_ap_request(const struct login *it, const struct login *row, const char *names) {
    struct octets room, out, wanted = octets_of(login_random + 16, it->key.count);
    struct login_answer made = called_in(it, &room);
    EXPECT(made.status == KRB_DONE && made.rule == 0 && krb_check(KRB_MESSAGE_AP_REQ, room.at, made.size) == KRB_DONE, "%s: an AP-REQ: status %u, rule %u", it->name,
            made.status, made.rule);
    EXPECT(is_untouched(&room, made.size), "%s: an AP-REQ touches more of its room", it->name);
    try_rooms(it, &made, &room);
    struct login accept = *row;
    accept.octets = framed(room.at, made.size);
    struct login_answer answer = called_in(&accept, &out);
    const krb_accepted *told = &answer.accepted;
    EXPECT(answer.status == KRB_UNLESS_REPEATED, "%s: an AP-REQ is not taken: status %u, rule %u", it->name, answer.status, told->rule);
    if (answer.status == KRB_UNLESS_REPEATED) {
        krb_place place = {told->entry.offset + TIME_SIZE, told->entry.size - TIME_SIZE};
        krb_ap_terms seen;
        time_of(out.at + told->entry.offset, &seen);
        EXPECT(is_hex(out.at, place, names) && seen.seconds == it->ap.seconds && seen.microseconds == it->ap.microseconds, "%s: another entry of an AP-REQ", it->name);
        EXPECT(told->flags == it->ap.gss_flags && told->sequence_number == it->ap.sequence_number, "%s: flags %u, number %ld", it->name, told->flags,
                (long)told->sequence_number);
        EXPECT(told->subkey_etype == (uint32_t)it->etype && is_octets(out.at, told->subkey, &wanted), "%s: another subkey of an AP-REQ", it->name);
        try_answer(&accept, &answer, out.at);
    }
    drop(&accept.octets), drop(&room), drop(&out), drop(&wanted);
    struct login wrong = *it;
    wrong.ap.microseconds = 1000000;
    try_refused(&wrong, KRB_CLIENT_RULE_REQUEST_MICROSECONDS, "microseconds", 1000000);
    wrong.ap.microseconds = 0, wrong.octets.count--;
    try_status(&wrong, KRB_TRUNCATED, "a cut ticket");
    wrong.octets.count++, wrong.ap.session_etype = 23;
    try_status(&wrong, KRB_NUMBER, "etype 23");
    wrong.ap = it->ap, wrong.client.count = 0;
    try_status(&wrong, KRB_INVALID, "no client");
    wrong.client = it->client, wrong.bindings = octets_of(login_random, 15);
    try_status(&wrong, KRB_SEED_SIZE, "15 octets of bindings");
    drop(&wrong.bindings);
}

/* ---- a client and a KDC */

/* Whether an octet stands where a client compares nothing: FROM-TO, blanks between. */
static int is_free(const char *places, size_t octet) {
    char *end;
    for (const char *at = places; *at; at = end + (*end == ' ')) {
        size_t from = (size_t)strtoul(at, &end, 10), to = (size_t)strtoul(end + 1, &end, 10);
        if (from <= octet && octet < to) return 1;
    }
    return 0;
}

/* With a bit turned a reply is refused; where nothing is compared it may be granted, and then tells the same part and the changed ticket. */
static void try_turned_reply(const struct login *it, const struct login_answer *whole, const struct octets *out, const char *places, size_t ticket) {
    struct login turned = *it;
    for (size_t k = row_number % step; k < it->octets.count; k += step) {
        struct octets room;
        turned.octets = octets_of(it->octets.at, it->octets.count);
        turned.octets.at[k] ^= 1 << k % 8;
        struct login_answer answer = called_in(&turned, &room);
        if (is_free(places, k) && answer.status == KRB_DONE) {
            int is_ap_reply = it->kind == AP_REPLY;
            krb_place part = is_ap_reply ? (krb_place){0, answer.size} : answer.followed.part, old = is_ap_reply ? (krb_place){0, whole->size} : whole->followed.part;
            struct octets octets = {turned.octets.at + ticket, whole->followed.ticket.size};
            EXPECT(part.size == old.size && !memcmp(room.at + part.offset, out->at + old.offset, old.size), "%s, a bit of octet %zu: another part", it->name, k);
            EXPECT(is_ap_reply || is_octets(room.at, answer.followed.ticket, &octets), "%s, a bit of octet %zu: another ticket", it->name, k);
        } else {
            EXPECT(answer.status == KRB_NOT_GRANTED && rule_of(it, &answer), "%s, a bit of octet %zu: status %u", it->name, k, answer.status);
            EXPECT(is_told_nothing(&turned, &answer) && is_untouched(&room, 0), "%s, a bit of octet %zu: something is told", it->name, k);
        }
        drop(&room), drop(&turned.octets);
    }
}

/* The ticket and the part of a reply that is granted. */
static void try_granted(const struct login *it, const struct login_answer *answer, const uint8_t *out, char **row) {
    const krb_followed *told = &answer->followed;
    EXPECT(answer->status == KRB_DONE && told->follows == KRB_FOLLOWS_GRANTED && !told->rule && !told->code, "%s: status %u, rule %u", it->name, answer->status, told->rule);
    if (answer->status != KRB_DONE || told->follows != KRB_FOLLOWS_GRANTED) return;
    struct octets part = octets_of(out + told->part.offset, told->part.size), ticket = octets_of(it->octets.at + wanted_number(row[17]), wanted_number(row[18]));
    struct octets key = field_of("EncTGSRepPart", "key.keyvalue", &part);
    int64_t number = 0, etype = 0;
    krb_status nonce = krb_find_number_text("EncTGSRepPart", "nonce", part.at, part.count, &number);
    krb_status type = krb_find_number_text("EncTGSRepPart", "key.keytype", part.at, part.count, &etype);
    EXPECT(is_octets(out, told->ticket, &ticket), "%s: another ticket", it->name);
    EXPECT(is_hex(key.at, (krb_place){0, key.count}, row[16]) && type == KRB_DONE && (uint64_t)etype == wanted_number(row[15]), "%s: another session key", it->name);
    EXPECT(nonce == KRB_DONE && number == it->terms.nonce, "%s: another nonce", it->name);
    drop(&part), drop(&ticket), drop(&key);
}

/* A client under another name, under another key, of another nonce, that asks for no encryption type that there is, or in no realm. */
static void try_other_client(const struct login *it) {
    struct login other = *it;
    other.client = text_octets("mallory@PEER.TEST");
    try_refused(&other, KRB_CLIENT_RULE_CLIENT, "another client", 0);
    other.client.count = 7;
    try_status(&other, KRB_INVALID, "a client without a realm");
    drop(&other.client);
    other.client = it->client, other.server.count = 0;
    try_status(&other, KRB_INVALID, "no server");
    other.server = it->server, other.etypes[0] = 23;
    try_status(&other, KRB_NUMBER, "etype 23");
    other.etypes[0] = it->etypes[0], other.exchange.nonce ^= 1;
    try_refused(&other, KRB_CLIENT_RULE_NONCE, "another nonce", 0);
    other.terms.settings |= KRB_CLIENT_DATAGRAMS;
    struct octets room;
    struct login_answer answer = called_in(&other, &room);
    EXPECT(answer.status == KRB_DONE && answer.followed.follows == KRB_FOLLOWS_WAITS && !answer.size && is_untouched(&room, 0), "%s, of another request: status %u", it->name,
            answer.status);
    drop(&room);
    other.exchange = it->exchange, other.terms = it->terms;
    if (it->kind != INITIAL) other.key = octets_of(it->key.at, it->key.count);
    *(it->kind == INITIAL ? other.exchange.key : other.key.at) ^= 2;
    try_refused(&other, KRB_CLIENT_RULE_OPENING, "another key", 0);
    if (it->kind != INITIAL) drop(&other.key);
}

/* An exchange begins where it is all zeros, for a further ticket but for the KDC's time, and takes octets once it has begun: whatever octet of it is not 0. */
static void try_turns(const struct login *it) {
    struct login other = *it;
    other.exchange.begun = 0;
    try_refused(&other, KRB_CLIENT_RULE_OTHER_MESSAGE, "a reply, and it has not begun", 0);
    memset(&other.exchange, 0, sizeof other.exchange);
    try_refused(&other, KRB_CLIENT_RULE_OTHER_MESSAGE, "a reply to zeros", 0);
    other.octets = (struct octets){NULL, 0};
    for (size_t k = 0; k < sizeof other.exchange; k++) {
        struct octets room;
        memset(&other.exchange, 0, sizeof other.exchange);
        ((uint8_t *)&other.exchange)[k] = 1;
        if (it->kind == INITIAL || k >= offsetof(krb_exchange, nonce)) {
            try_refused(&other, KRB_CLIENT_RULE_OTHER_MESSAGE, "no message, and one octet is not 0", k);
            continue;
        }
        struct login_answer answer = called_in(&other, &room);
        EXPECT(answer.status == KRB_DONE && answer.followed.follows == KRB_FOLLOWS_SENDS && answer.exchange.begun == 1, "%s, with octet %zu of a time: status %u, rule %u",
                it->name, k, answer.status, answer.followed.rule);
        drop(&room);
    }
}

static void try_reply(const struct login *it, char **row) {
    struct octets room;
    struct login_answer answer = called_in(it, &room);
    if (strcmp(row[14], "0")) {
        EXPECT(answer.status == KRB_NOT_GRANTED && answer.followed.rule == wanted_number(row[14]), "%s: status %u, rule %u", it->name, answer.status, answer.followed.rule);
        EXPECT(is_told_nothing(it, &answer) && is_untouched(&room, 0), "%s is refused, and something is told", it->name);
    } else {
        EXPECT(is_untouched(&room, answer.size), "%s touches more of its room", it->name);
        try_granted(it, &answer, room.at, row);
        try_rooms(it, &answer, &room);
        try_cuts(it, KRB_CLIENT_RULE_MESSAGE);
        try_turned_reply(it, &answer, &room, row[19], wanted_number(row[17]));
        try_other_client(it);
        try_turns(it);
    }
    drop(&room);
}

/* A step of an exchange that sends a request: it is one, with the nonce; in any room. */
static struct octets sent(const struct login *it, krb_exchange *after) {
    const char *type = it->kind == INITIAL ? "AS-REQ" : "TGS-REQ";
    struct octets room;
    struct login_answer answer = called_in(it, &room);
    int64_t nonce = 0;
    EXPECT(answer.status == KRB_DONE && answer.followed.follows == KRB_FOLLOWS_SENDS, "%s: status %u, rule %u, nothing is sent", it->name, answer.status, answer.followed.rule);
    EXPECT(krb_check(it->kind == INITIAL ? KRB_MESSAGE_AS_REQ : KRB_MESSAGE_TGS_REQ, room.at, answer.size) == KRB_DONE && is_untouched(&room, answer.size),
            "%s: what is sent is no %s", it->name, type);
    EXPECT(krb_find_number_text(type, "req-body.nonce", room.at, answer.size, &nonce) == KRB_DONE && nonce == it->terms.nonce, "%s: another nonce is sent", it->name);
    EXPECT(answer.exchange.nonce == it->terms.nonce && !answer.exchange.has_offset && answer.exchange.begun == 1, "%s: another nonce is kept", it->name);
    try_rooms(it, &answer, &room);
    *after = answer.exchange;
    struct login again = *it;
    again.exchange = answer.exchange, again.octets = (struct octets){NULL, 0};
    try_refused(&again, KRB_CLIENT_RULE_OTHER_MESSAGE, "no message once more", 0);
    struct octets request = octets_of(room.at, answer.size);
    drop(&room);
    return request;
}

/* From no message to a ticket, by a keytab, through what a KDC answered: the error of the row and its reply. The time is sent under the row's key (RFC 4120, 5.2.7.2). */
static void try_exchange(const struct login *it, char **row) {
    struct login step = *it;
    krb_item padata;
    memset(&step.exchange, 0, sizeof step.exchange);
    step.octets = (struct octets){NULL, 0}, step.keytab = octets_of_text(row[20]);
    struct octets first = sent(&step, &step.exchange);
    EXPECT(step.exchange.etype == 0 && krb_find_text("AS-REQ", "padata", first.at, first.count, &padata) == KRB_ABSENT, "%s: the time is sent at once", it->name);
    step.octets = octets_of_text(row[21]);
    struct octets second = sent(&step, &step.exchange), cipher = field_of("AS-REQ", "padata[0].padata-value.cipher", &second), time = room_of(cipher.count);
    EXPECT(step.exchange.etype == it->etype && !memcmp(step.exchange.key, it->exchange.key, sizeof it->exchange.key), "%s: another key is kept", it->name);
    krb_status status = krb_decrypt(it->etype, it->key.at, it->key.count, 1, cipher.at, cipher.count, time.at, time.count, &time.count);
    EXPECT(status == KRB_DONE && krb_find_text("PA-ENC-TS-ENC", "patimestamp", time.at, time.count, &padata) == KRB_DONE, "%s: no time under the key: %u", it->name, status);
    drop(&step.octets);
    step.octets = it->octets;
    struct octets room;
    struct login_answer answer = called_in(&step, &room);
    try_granted(&step, &answer, room.at, row);
    drop(&room), drop(&step.keytab), drop(&first), drop(&second), drop(&cipher), drop(&time);
}

/* A TGS-REQ begins an exchange: its authenticator, under the session key, has the client's time, the subkey, and the checksum of the very body (RFC 4120, 5.5.1 and 7.5.1). */
static void try_ticket_request(const struct login *it, char **row) {
    enum { AUTHENTICATOR_USAGE = 7, BODY_USAGE = 6 };
    struct login begun = *it;
    krb_item body = {0};
    int64_t cksumtype = 0;
    memset(&begun.exchange, 0, sizeof begun.exchange);
    begun.octets = (struct octets){NULL, 0};
    struct octets request = sent(&begun, &begun.exchange), cipher = field_of("TGS-REQ", "padata[0].padata-value.authenticator.cipher", &request), part = room_of(cipher.count);
    krb_status status = krb_open_authenticator(it->etype, it->key.at, it->key.count, AUTHENTICATOR_USAGE, cipher.at, cipher.count, part.at, part.count, &part.count);
    EXPECT(status == KRB_DONE, "%s: the authenticator of a request is not opened: %u", it->name, status);
    struct octets sum = field_of("Authenticator", "cksum.checksum", &part), subkey = field_of("Authenticator", "subkey.keyvalue", &part);
    status = krb_find_number_text("Authenticator", "cksum.cksumtype", part.at, part.count, &cksumtype);
    krb_status found = krb_find_text("TGS-REQ", "req-body", request.at, request.count, &body);
    size_t header = krb_header_size(body.size);
    EXPECT(status == KRB_DONE && found == KRB_DONE, "%s: no checksum or no body of a request", it->name);
    status = krb_verify_checksum((int32_t)cksumtype, it->key.at, it->key.count, BODY_USAGE, request.at + body.offset - header, body.size + header, sum.at, sum.count);
    EXPECT(status == KRB_DONE, "%s: the checksum of the body of a request: status %u", it->name, status);
    EXPECT(subkey.count == it->key.count && !memcmp(subkey.at, it->key.at, subkey.count), "%s: another subkey of a request", it->name);
    begun.octets = it->octets;
    struct octets room;
    struct login_answer answer = called_in(&begun, &room);
    try_granted(&begun, &answer, room.at, row);
    drop(&room), drop(&request), drop(&cipher), drop(&part), drop(&sum), drop(&subkey);
}

/* A reply that renames the client is taken with the checksum of the request, and with nothing else. */
static void try_renamed(const struct login *it) {
    struct octets room;
    struct login_answer answer = called_in(it, &room);
    EXPECT(answer.status == KRB_DONE && answer.followed.follows == KRB_FOLLOWS_GRANTED && is_untouched(&room, answer.size), "%s, renamed: status %u, rule %u", it->name,
            answer.status, answer.followed.rule);
    try_rooms(it, &answer, &room);
    drop(&room);
    try_cuts(it, 0);
    struct login other = *it;
    other.exchange.etype = 0;
    try_refused(&other, KRB_CLIENT_RULE_UNAUTHENTICATED, "no time was sent", 0);
    other.exchange = it->exchange;
    for (size_t k = 0; k < it->request.count; k++) {
        other.request.at[k] ^= 1 << k % 8;
        try_refused(&other, KRB_CLIENT_RULE_CHECKSUM, "another request", k);
        other.request.at[k] ^= 1 << k % 8;
    }
    other.client = text_octets("alice@PEER.TEST");
    try_refused(&other, KRB_CLIENT_RULE_CLIENT, "not renamed", 0);
    drop(&other.client);
}

/* ---- errors, answers, what is made */

static void try_kdc_error(const struct login *it, char **row) {
    struct octets room;
    struct login_answer answer = called_in(it, &room);
    EXPECT(answer.status == KRB_NOT_GRANTED && answer.followed.rule == KRB_CLIENT_RULE_KDC && answer.followed.code == wanted_number(row[3]), "%s: status %u, rule %u, code %u",
            it->name, answer.status, answer.followed.rule, answer.followed.code);
    EXPECT(is_told_nothing(it, &answer) && is_untouched(&room, 0), "%s: something is told", it->name);
    try_cuts(it, KRB_CLIENT_RULE_MESSAGE);
    drop(&room);
}

static void try_password(const struct login *it, char **row) {
    krb_exchange after;
    struct login strict = *it;
    strict.terms.least = 4096;
    try_refused(&strict, KRB_CLIENT_RULE_ITERATIONS, "too few iterations", 0);
    struct octets key = octets_of_text(row[5]), second = sent(it, &after);
    EXPECT(after.etype == (int32_t)wanted_number(row[4]) && !memcmp(after.key, key.at, key.count), "%s: another key of a password", it->name);
    drop(&key), drop(&second);
}

static void try_ap_reply(const struct login *it, char **row) {
    struct octets room;
    struct login_answer answer = called_in(it, &room);
    if (strcmp(row[7], "0")) {
        EXPECT(answer.status == KRB_NOT_GRANTED && answer.rule == wanted_number(row[7]), "%s: status %u, rule %u", it->name, answer.status, answer.rule);
        EXPECT(is_told_nothing(it, &answer) && is_untouched(&room, 0), "%s is refused, and something is told", it->name);
        drop(&room);
        return;
    }
    int64_t microseconds = -1;
    EXPECT(answer.status == KRB_DONE && is_untouched(&room, answer.size), "%s: status %u, rule %u", it->name, answer.status, answer.rule);
    krb_status found = krb_find_number_text("EncAPRepPart", "cusec", room.at, answer.size, &microseconds);
    EXPECT(found == KRB_DONE && microseconds == it->ap.microseconds, "%s: another time: status %u", it->name, found);
    try_rooms(it, &answer, &room);
    try_cuts(it, KRB_CLIENT_RULE_MESSAGE);
    try_turned_reply(it, &answer, &room, row[8], 0);
    struct login other = *it;
    other.etype = 23;
    try_status(&other, KRB_NUMBER, "etype 23");
    drop(&room);
}

/* Octets that are made are those of the row. */
static void try_made(const struct login *it, const char *digits) {
    struct octets room, wanted = octets_of_text(digits);
    struct login_answer answer = called_in(it, &room);
    EXPECT(answer.status == KRB_DONE && answer.size == wanted.count && !memcmp(room.at, wanted.at, wanted.count), "%s: status %u, other octets", it->name, answer.status);
    EXPECT(is_untouched(&room, answer.size), "%s touches more of its room", it->name);
    try_rooms(it, &answer, &room);
    if (it->kind == MAKE_ERROR) {
        struct login wrong = *it;
        wrong.microseconds = 1000000;
        try_status(&wrong, KRB_NUMBER, "1000000 microseconds");
        wrong.microseconds = 0, wrong.acceptor.clock = 253402300800;
        try_status(&wrong, KRB_NUMBER, "the year 10000");
        wrong.acceptor = it->acceptor, wrong.keytab.count = 2;
        try_status(&wrong, KRB_ABSENT, "a keytab of no entry");
        wrong.keytab.count = 1;
        try_status(&wrong, KRB_KEYTAB, "no keytab");
    }
    drop(&room), drop(&wanted);
}

/* ---- rows */

static void try_row(const struct login *it, char **row) {
    struct login made;
    switch (it->kind) {
    case ACCEPT: try_accept(it, row); break;
    case AP_REPLY: try_ap_reply(it, row); break;
    case MAKE_ERROR: try_made(it, row[7]); break;
    case CHANNEL_BINDINGS: try_made(it, row[7]); break;
    default:
        if (!strcmp(row[0], "kdc_error")) try_kdc_error(it, row);
        else if (!strcmp(row[0], "password")) try_password(it, row);
        else try_reply(it, row);
        if (!strcmp(row[0], "as") && row[21][0]) try_exchange(it, row);
        if (!strcmp(row[0], "tgs") && !strcmp(row[14], "0")) try_ticket_request(it, row);
    }
    if (!login_made(row, it, &made)) return;
    if (made.kind == RENAMED) try_renamed(&made);
    else try_ap_request(&made, it, row[15]);
    drop_login(&made);
}

int main(int count, char **words) {
    FILE *file = count == 2 || count == 3 ? fopen(words[1], "r") : NULL;
    char *row[LOGIN_COLUMNS];
    struct login it;
    long kinds[CHANNEL_BINDINGS + 1] = {0};
    step = count == 3 ? (size_t)strtoul(words[2], NULL, 10) : 1;
    if (!file || !step) die("usage: logins FILE [STEP]");
    while (next_row(file, row, LOGIN_COLUMNS)) {
        if (!login_of(row, &it)) die("a table has a call that is none");
        try_row(&it, row);
        kinds[it.kind]++, row_number++;
        drop_login(&it);
    }
    fclose(file);
    EXPECT(kinds[ACCEPT] >= 110 && kinds[INITIAL] >= 44 && kinds[TICKET] >= 38 && kinds[AP_REPLY] >= 18 && kinds[MAKE_ERROR] >= 6 && kinds[CHANNEL_BINDINGS] >= 5, "rows are missing");
    return counted();
}
