#include "login_calls.h"
#include <stdio.h>
#include <stdlib.h>
#include <string.h>

enum { UNTOLD = 0x5a };

const uint8_t login_random[48] = {3, 1, 4, 1, 5, 9, 2, 6, 5, 3, 5, 8, 9, 7, 9, 3, 2, 3, 8, 4, 6, 2, 6, 4, 3, 3, 8, 3, 2, 7, 9, 5, 0, 2, 8, 8, 4, 1, 9, 7, 1, 6, 9, 3, 9, 9, 3, 7};

/* ---- rows */

struct octets text_octets(const char *text) { return octets_of((const uint8_t *)text, strlen(text)); }

static int64_t number_of(const char *text) { return strtoll(text, NULL, 10); }

/* Numbers with blanks between, `-` of none. */
static size_t numbers_of(const char *text, size_t *to) {
    size_t count = 0;
    char *end;
    if (!strcmp(text, "-")) return 0;
    for (const char *at = text; *at && count < MOST_NUMBERS; at = end) {
        to[count] = (size_t)strtoul(at, &end, 10);
        if (end == at) die("a table has no numbers where they should be");
        count++;
    }
    return count;
}

static void accept_of(char **columns, struct login *it) {
    it->keytab = octets_of_text(columns[2]), it->bindings = octets_of_text(columns[4]), it->octets = octets_of_text(columns[6]);
    it->acceptor.clock = number_of(columns[3]), it->acceptor.skew = 300, it->acceptor.sequence_number = 4711;
    it->acceptor.options = (uint32_t)number_of(columns[5]) | KRB_ACCEPT_WHOLE_EVER | (it->bindings.count ? KRB_ACCEPT_BOUND : 0);
}

/* The exchange of a row is as after the request of its nonce, which had the time under the client's key. */
static void reply_of(char **columns, struct login *it) {
    size_t etypes[MOST_NUMBERS];
    it->etype = (int32_t)number_of(columns[2]), it->key = octets_of_text(columns[3]), it->octets = octets_of_text(columns[4]);
    it->client = text_octets(columns[6]), it->server = text_octets(columns[7]);
    krb_client_terms *terms = &it->terms;
    terms->seconds = number_of(columns[5]), terms->skew = 300, terms->least = 4096, terms->most = 1 << 20, terms->client_type = 1, terms->server_type = 2;
    if (strcmp(columns[8], "-")) terms->settings |= KRB_CLIENT_FROM, terms->from = number_of(columns[8]);
    terms->till = number_of(columns[9]);
    if (strcmp(columns[10], "-")) terms->settings |= KRB_CLIENT_RTIME, terms->rtime = number_of(columns[10]);
    terms->nonce = it->exchange.nonce = (uint32_t)number_of(columns[11]);
    it->flags_count = numbers_of(columns[12], it->flags), it->etypes_count = numbers_of(columns[13], etypes);
    for (size_t k = 0; k < it->etypes_count; k++) it->etypes[k] = (int32_t)etypes[k];
    it->exchange.begun = 1;
    if (it->kind != INITIAL) return;
    it->exchange.etype = it->etype;
    memcpy(it->exchange.key, it->key.at, it->key.count);
}

/* An exchange by a password that has sent a request without the time, and got an error. */
static void error_of(char **columns, struct login *it) {
    it->octets = octets_of_text(columns[2]), it->client = text_octets("alice@PEER.TEST"), it->server = text_octets("krbtgt/PEER.TEST@PEER.TEST");
    it->password = !strcmp(columns[0], "password") ? octets_of_text(columns[3]) : text_octets("password");
    it->terms = (krb_client_terms){.seconds = 1795763470, .till = 1795799470, .nonce = 77, .skew = 300, .least = 1, .most = 1 << 20, .client_type = 1, .server_type = 2};
    it->exchange.nonce = 76, it->exchange.begun = 1;
    it->etypes[0] = 20, it->etypes[1] = 18, it->etypes[2] = 19, it->etypes_count = 3;
}

static void ap_reply_of(char **columns, struct login *it) {
    it->etype = (int32_t)number_of(columns[2]), it->key = octets_of_text(columns[3]), it->octets = octets_of_text(columns[4]);
    it->ap.seconds = number_of(columns[5]), it->ap.microseconds = (uint32_t)number_of(columns[6]);
}

static void make_error_of(char **columns, struct login *it) {
    it->keytab = octets_of_text(columns[2]), it->acceptor.clock = number_of(columns[3]), it->microseconds = (uint32_t)number_of(columns[4]);
    it->code = (uint32_t)number_of(columns[5]), it->in_frame = columns[6][0] == '1';
}

static void bindings_of(char **columns, struct login *it) {
    for (int k = 0; k < 2; k++) it->address_types[k] = (uint32_t)number_of(columns[2 + 2 * k]), it->addresses[k] = octets_of_text(columns[3 + 2 * k]);
    it->octets = octets_of_text(columns[6]);
}

int login_of(char **columns, struct login *it) {
    static const struct {
        const char *word;
        enum login_kind kind;
        void (*read)(char **columns, struct login *it);
    } kinds[] = {{"accept", ACCEPT, accept_of},     {"as", INITIAL, reply_of},          {"tgs", TICKET, reply_of},           {"kdc_error", INITIAL, error_of},
                 {"password", INITIAL, error_of},   {"ap_rep", AP_REPLY, ap_reply_of},  {"make_error", MAKE_ERROR, make_error_of}, {"bindings", CHANNEL_BINDINGS, bindings_of}};
    memset(it, 0, sizeof *it);
    for (size_t k = 0; k < sizeof kinds / sizeof *kinds; k++) {
        if (strcmp(columns[0], kinds[k].word)) continue;
        it->kind = kinds[k].kind;
        snprintf(it->name, sizeof it->name, "%s", columns[1]);
        kinds[k].read(columns, it);
        return 1;
    }
    return 0;
}

void drop_login(struct login *it) {
    drop(&it->octets), drop(&it->key), drop(&it->keytab), drop(&it->bindings), drop(&it->client), drop(&it->server), drop(&it->realm), drop(&it->request), drop(&it->password);
    drop(&it->addresses[0]), drop(&it->addresses[1]);
}

/* ---- calls */

/* A ticket of the realm R for its own KDC (RFC 4120, 5.3), whose part nobody opens. */
static const uint8_t any_ticket[] = {0x61, 0x32, 0x30, 0x30, 0xa0, 3,   2,   1,   5,   0xa1, 3,    0x1b, 1, 'R',  0xa2, 0x16, 0x30, 0x14, 0xa0, 3,    2, 1,  2,    0xa1, 0xd, 0x30,
                                     0xb,  0x1b, 6,    'k',  'r',  'b', 't', 'g', 't', 0x1b, 1,    'R',  0xa3, 0xc, 0x30, 0xa,  0xa0, 3,    2,    1, 18, 0xa2, 3,    4,   1, 0};

static krb_status accept_called(const struct login *it, struct octets *room, struct login_answer *to) {
    return krb_accept(&it->acceptor, it->keytab.at, it->keytab.count, NULL, 0, it->server.at, it->server.count, it->realm.at, it->realm.count, it->bindings.at,
            it->bindings.count, NULL, 0, login_random, sizeof login_random, it->octets.at, it->octets.count, &to->accepted, room->at, room->count, &to->size);
}

static krb_status initial_called(const struct login *it, struct octets *room, struct login_answer *to) {
    return krb_client_initial(&it->terms, NULL, 0, it->flags, it->flags_count, it->etypes, it->etypes_count, it->client.at, it->client.count, it->server.at,
            it->server.count, it->password.at, it->password.count, it->keytab.at, it->keytab.count, login_random, 16, it->octets.at, it->octets.count, &to->exchange,
            &to->followed, room->at, room->count, &to->size);
}

static krb_status ticket_called(const struct login *it, struct octets *room, struct login_answer *to) {
    return krb_client_ticket(&it->terms, NULL, 0, it->flags, it->flags_count, it->etypes, it->etypes_count, it->client.at, it->client.count, it->server.at,
            it->server.count, any_ticket, sizeof any_ticket, it->etype, it->key.at, it->key.count, it->key.at, it->key.count, login_random, 16, it->octets.at,
            it->octets.count, &to->exchange, &to->followed, room->at, room->count, &to->size);
}

static krb_status renamed_called(const struct login *it, struct octets *room, struct login_answer *to) {
    return krb_client_renamed(&it->terms, it->flags, it->flags_count, it->etypes, it->etypes_count, it->client.at, it->client.count, it->server.at, it->server.count,
            it->request.at, it->request.count, it->octets.at, it->octets.count, &to->exchange, &to->followed, room->at, room->count, &to->size);
}

static krb_status ap_request_called(const struct login *it, struct octets *room, struct login_answer *to) {
    size_t subkey = it->key.count <= sizeof login_random - 16 ? it->key.count : 0;
    return krb_client_ap_request(&it->ap, it->client.at, it->client.count, it->octets.at, it->octets.count, it->key.at, it->key.count, login_random + 16, subkey,
            it->bindings.at, it->bindings.count, login_random, 16, &to->rule, room->at, room->count, &to->size);
}

struct login_answer login_called(const struct login *it, struct octets *room) {
    struct login_answer to;
    memset(&to, UNTOLD, sizeof to);
    to.exchange = it->exchange;
    switch (it->kind) {
    case ACCEPT: to.status = accept_called(it, room, &to); break;
    case INITIAL: to.status = initial_called(it, room, &to); break;
    case TICKET: to.status = ticket_called(it, room, &to); break;
    case RENAMED: to.status = renamed_called(it, room, &to); break;
    case AP_REQUEST: to.status = ap_request_called(it, room, &to); break;
    case AP_REPLY:
        to.status = krb_client_ap_reply(it->etype, it->key.at, it->key.count, it->ap.seconds, it->ap.microseconds, it->octets.at, it->octets.count, &to.rule, room->at,
                room->count, &to.size);
        break;
    case MAKE_ERROR:
        to.status = krb_make_error(it->keytab.at, it->keytab.count, it->acceptor.clock, it->microseconds, it->code, it->in_frame, room->at, room->count, &to.size);
        break;
    case CHANNEL_BINDINGS:
        to.status = krb_channel_bindings(it->address_types[0], it->addresses[0].at, it->addresses[0].count, it->address_types[1], it->addresses[1].at,
                it->addresses[1].count, it->octets.at, it->octets.count, room->at, room->count, &to.size);
        break;
    }
    return to;
}

/* ---- answers */

static int is_same_exchange(const krb_exchange *one, const krb_exchange *other) {
    return one->offset == other->offset && one->has_offset == other->has_offset && one->nonce == other->nonce && one->etype == other->etype &&
           one->begun == other->begun && !memcmp(one->key, other->key, sizeof one->key);
}

static int is_same_place(krb_place one, krb_place other) { return one.offset == other.offset && one.size == other.size; }

static int is_same_followed(const krb_followed *one, const krb_followed *other) {
    return is_same_place(one->ticket, other->ticket) && is_same_place(one->part, other->part) && one->follows == other->follows && one->rule == other->rule &&
           one->code == other->code;
}

int is_same_answer(const struct login_answer *one, const struct login_answer *other) {
    return one->status == other->status && one->size == other->size && !memcmp(&one->accepted, &other->accepted, sizeof one->accepted) &&
           is_same_exchange(&one->exchange, &other->exchange) && is_same_followed(&one->followed, &other->followed) && one->rule == other->rule;
}

uint32_t rule_of(const struct login *it, const struct login_answer *answer) {
    return it->kind == ACCEPT ? answer->accepted.rule : it->kind < AP_REQUEST ? answer->followed.rule : answer->rule;
}

int is_told_nothing(const struct login *it, const struct login_answer *answer) {
    krb_accepted accepted;
    krb_followed followed;
    memset(&accepted, it->kind == ACCEPT ? 0 : UNTOLD, sizeof accepted);
    memset(&followed, INITIAL <= it->kind && it->kind <= RENAMED ? 0 : UNTOLD, sizeof followed);
    uint32_t rule = 0;
    if (it->kind != AP_REQUEST && it->kind != AP_REPLY) memset(&rule, UNTOLD, sizeof rule);
    if (answer->status == KRB_NOT_ACCEPTED && it->kind == ACCEPT) {
        const krb_accepted *told = &answer->accepted;
        accepted.rule = told->rule, accepted.code = told->code, accepted.has_seen = told->has_seen, accepted.seen = told->seen;
    }
    if (answer->status == KRB_NOT_GRANTED) {
        if (it->kind >= AP_REQUEST) rule = answer->rule;
        else followed.rule = answer->followed.rule, followed.code = answer->followed.code;
    }
    return (answer->status == KRB_ROOM || answer->size == 0) && !memcmp(&answer->accepted, &accepted, sizeof accepted) && is_same_followed(&answer->followed, &followed) &&
           is_same_exchange(&answer->exchange, &it->exchange) && answer->rule == rule;
}
