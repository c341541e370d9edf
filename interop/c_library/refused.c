/* Refuses each allocation of the calls in turn: refused ROWS MESSAGES FIELDS FRAMES TOKENS. Linked with the static library and --wrap=malloc,
   realloc and free. A call whose allocation is refused answers KRB_MEMORY and touches nothing, or answers as it does else; no block is left. */
#include "allocations.h"
#include "calls.h"
#include <stdio.h>
#include <stdlib.h>
#include <string.h>

enum { NUMBERS = 7 };

/* What a call answered: octets in the room, so many; or numbers, all of them 0 where it refused. */
struct answer {
    krb_status status;
    size_t size;
    uint64_t told[NUMBERS];
    long requests, held;
};

/* ---- calls that tell numbers, or make messages of more than two things */

/* Numbers that a call tells are put here before it, and read after it. */
struct cells {
    size_t at[6];
    uint32_t word;
    int64_t number;
    uint64_t sequence;
    bool sealed;
};

static bool by_acceptor(const struct row *row) { return row->usage & 1; }

static bool is_subkey(const struct row *row) { return row->usage & 2; }

enum { SEQUENCE = 4711, ROTATION = 28 };

static krb_status proxy_call(const struct row *row, struct octets *room, size_t *size, struct cells *to) {
    const struct octets *beside = &row->beside, *input = &row->input;
    const char *call = row->call;
    size_t *at = to->at;
    if (!strcmp(call, "request")) {
        krb_proxy_posted posted;
        krb_status status = krb_proxy_request(input->at, input->count, &posted);
        at[0] = posted.message_offset, at[1] = posted.domain_offset, at[2] = posted.service, at[3] = posted.names_one_realm;
        return status;
    }
    if (!strcmp(call, "request_items")) {
        krb_proxy_posted posted;
        krb_item items[2048];
        memset(items, 0, sizeof items);
        krb_status status = krb_proxy_request_items(input->at, input->count, &posted, items, sizeof items / sizeof *items, &at[0]);
        at[1] = items[0].size, at[2] = items[0].kind, at[3] = status == KRB_DONE ? posted.service : 0; /* a request may be told of whose items are not */
        return status;
    }
    if (!strcmp(call, "lenient")) {
        krb_proxy_posted posted;
        krb_status status = krb_proxy_request_lenient(input->at, input->count, &posted);
        at[0] = posted.message_offset, at[1] = posted.domain_offset, at[2] = posted.service, at[3] = 0;
        return status;
    }
    if (!strcmp(call, "read")) {
        at[2] = at[3] = 0;
        return krb_read_proxy_reply(input->at, input->count, &at[0], &at[1]);
    }
    if (!strcmp(call, "make_reply")) return krb_proxy_reply(input->at, input->count, room->at, room->count, size);
    if (!strcmp(call, "make_datagram")) return krb_proxy_reply_datagram(input->at, input->count, room->at, room->count, size);
    if (!strcmp(call, "make_client")) return krb_make_proxy_request(input->at, input->count, beside->at, beside->count, room->at, room->count, size);
    die("a call that is none");
}

/* The places of fields, 0 and 0 of those that are absent; where the whole is refused all are. */
static krb_status fields_of(const char *type, const char *const *paths, size_t many, const uint8_t *octets, size_t count, size_t behind, size_t *at) {
    for (size_t k = 0; k < many; k++) {
        krb_item item;
        krb_status status = krb_find_text(type, paths[k], octets, count, &item);
        at[2 * k] = status == KRB_DONE ? behind + item.offset : 0, at[2 * k + 1] = item.size;
        if (status == KRB_DONE || status == KRB_ABSENT) continue;
        memset(at, 0, 2 * many * sizeof *at);
        return status;
    }
    return KRB_DONE;
}

static const char INIT[] = "NegotiationToken (negTokenInit)", RESP[] = "NegotiationToken (negTokenResp)", PROXY[] = "KDC-PROXY-MESSAGE";

static krb_status init_call(const struct octets *input, size_t *at) {
    static const char *const paths[] = {"mechTypes", "mechToken", "mechListMIC"};
    size_t frame[4];
    krb_status status = krb_gss_token(input->at, input->count, &frame[0], &frame[1], &frame[2], &frame[3]);
    memset(at, 0, 6 * sizeof *at);
    return status == KRB_DONE ? fields_of(INIT, paths, 3, input->at + frame[2], frame[3], frame[2], at) : status;
}

/* Calls over items, of a type (as the key), a path (as what stands beside) and octets. */
static krb_status item_call(const struct row *row, struct cells *to) {
    static const char *const answer[] = {"supportedMech", "responseToken", "mechListMIC"}, *const proxy[] = {"kerb-message", "target-domain"};
    const struct octets *type = &row->key, *path = &row->beside, *input = &row->input;
    size_t *at = to->at;
    if (!strcmp(row->call, "init")) return init_call(input, at);
    if (!strcmp(row->call, "resp")) {
        krb_item item;
        krb_status status = fields_of(RESP, answer, 3, input->at, input->count, 0, at);
        to->word = KRB_NEG_STATE_ABSENT;
        if (status != KRB_DONE) return status;
        status = krb_find_text(RESP, "negState", input->at, input->count, &item);
        if (status == KRB_DONE) to->word = item.size == 1 ? input->at[item.offset] : KRB_NEG_STATE_ABSENT + 1;
        if (status == KRB_MEMORY) memset(at, 0, 6 * sizeof *at);
        return status == KRB_ABSENT ? KRB_DONE : status;
    }
    if (!strcmp(row->call, "proxy")) return fields_of(PROXY, proxy, 2, input->at, input->count, 0, at);
    if (!strcmp(row->call, "hint")) return krb_find_number_text(PROXY, "dclocator-hint", input->at, input->count, &to->number);
    if (!strcmp(row->call, "find_number"))
        return krb_find_number(type->at, type->count, path->at, path->count, input->at, input->count, &to->number);
    krb_item items[2048];
    memset(items, 0, sizeof items);
    krb_status status = !strcmp(row->call, "find")
            ? krb_find(type->at, type->count, path->at, path->count, input->at, input->count, items)
            : krb_items(type->at, type->count, input->at, input->count, items, sizeof items / sizeof *items, &at[0], &at[1]);
    if (row->call[0] == 'f') at[0] = items[0].offset, at[1] = items[0].size;
    return status;
}

/* The counts, and of what is handed out the first item, the first part's outcome and usage, and the first of its octets. */
static krb_status decode_call(const struct row *row, uint64_t *told) {
    krb_item items[2048];
    krb_part parts[8];
    uint8_t out[8192];
    krb_decoded counts = {7, 7, 7, 7};
    memset(items, 7, sizeof items), memset(parts, 7, sizeof parts), memset(out, 7, sizeof out);
    krb_status status = krb_decode(row->key.at, row->key.count, row->input.at, row->input.count, row->beside.at, row->beside.count, items, sizeof items / sizeof *items,
            parts, sizeof parts / sizeof *parts, out, sizeof out, &counts);
    told[0] = counts.items, told[1] = counts.parts, told[2] = counts.octets, told[3] = counts.offset;
    if (status != KRB_DONE) {
        if (items[0].kind != 0x07070707 || parts[0].outcome != 0x07070707 || out[0] != 7) told[0] |= 1;
        return status;
    }
    told[4] = parts[0].outcome, told[5] = counts.octets ? out[parts[0].offset] : 0;
    return status;
}

/* The counts; of what is handed out the first form, the first octet of the first name, and the last octet of all. */
static krb_status listed_call(const struct row *row, uint64_t *told) {
    krb_page_item items[2048];
    uint8_t out[65536];
    krb_page_counts counts = {7, 7};
    memset(items, 7, sizeof items), memset(out, 7, sizeof out);
    krb_status status = krb_page_items(row->key.at, row->key.count, row->input.at, row->input.count, row->beside.at, row->beside.count, row->number != 0, items,
            sizeof items / sizeof *items, out, sizeof out, &counts);
    told[0] = counts.items, told[1] = counts.octets;
    if (status != KRB_DONE) {
        if (items[0].form != 0x07070707 || out[0] != 7) told[0] |= 1;
        return status;
    }
    told[2] = items[0].form, told[3] = out[items[0].name_offset], told[4] = out[counts.octets - 1];
    return status;
}

static int is_of_items(const char *call) {
    static const char *const calls[] = {"find", "find_number", "items", "init", "resp", "proxy", "hint"};
    for (size_t k = 0; k < sizeof calls / sizeof *calls; k++)
        if (!strcmp(call, calls[k])) return 1;
    return 0;
}

static int is_page(const char *call) { return !strcmp(call, "page_text") || !strcmp(call, "page_json"); }

static int is_shown(const char *call) { return !strcmp(call, "show_text") || !strcmp(call, "show_json") || is_page(call); }

static krb_status other_call(const struct row *row, struct octets *room, size_t *size, struct cells *to) {
    const struct octets *key = &row->key, *beside = &row->beside, *input = &row->input;
    const char *call = row->call;
    size_t *at = to->at;
    if (is_of_items(call)) return item_call(row, to);
    if (is_page(call)) return krb_show_page(key->at, key->count, input->at, input->count, beside->at, beside->count, !strcmp(call, "page_json"),
            row->number != 0, room->at, room->count, size);
    if (is_shown(call)) return krb_show(key->at, key->count, input->at, input->count, !strcmp(call, "show_json"), row->number != 0, room->at, room->count, size);
    if (!strcmp(call, "token")) return krb_gss_token(input->at, input->count, &at[0], &at[1], &at[2], &at[3]);
    if (!strcmp(call, "password")) return krb_password_frame(input->at, input->count, &at[0], &at[1], &at[2], &at[3]);
    if (!strcmp(call, "make_token")) return krb_make_gss_token(beside->at, beside->count, input->at, input->count, room->at, room->count, size);
    if (!strcmp(call, "make_init")) return krb_make_neg_token_init(beside->at, beside->count, input->at, input->count, key->at, key->count,
            room->at, room->count, size);
    if (!strcmp(call, "make_resp")) return krb_make_neg_token_resp((uint32_t)row->number, beside->at, beside->count, input->at, input->count,
            key->at, key->count, room->at, room->count, size);
    if (!strcmp(call, "make_password")) return krb_make_password_frame(beside->at, beside->count, input->at, input->count, room->at, room->count, size);
    if (!strcmp(call, "make_proxy")) return krb_make_kdc_proxy_message(input->at, input->count, beside->at, beside->count, room->at, room->count, size);
    if (!strcmp(call, "make_mic")) return krb_make_mic(row->number, key->at, key->count, by_acceptor(row), is_subkey(row), SEQUENCE, input->at,
            input->count, room->at, room->count, size);
    if (!strcmp(call, "verify_mic")) return krb_verify_mic(row->number, key->at, key->count, by_acceptor(row), is_subkey(row), input->at,
            input->count, beside->at, beside->count, &to->sequence);
    if (!strcmp(call, "wrap")) return krb_wrap(row->number, key->at, key->count, by_acceptor(row), is_subkey(row), SEQUENCE, ROTATION, beside->at,
            beside->count, input->at, input->count, room->at, room->count, size);
    if (!strcmp(call, "wrap_in_clear")) return krb_wrap_in_clear(row->number, key->at, key->count, by_acceptor(row), is_subkey(row), SEQUENCE,
            ROTATION, input->at, input->count, room->at, room->count, size);
    if (!strcmp(call, "unwrap")) return krb_unwrap(row->number, key->at, key->count, by_acceptor(row), is_subkey(row), input->at, input->count,
            &to->sequence, &to->sealed, room->at, room->count, size);
    return proxy_call(row, room, size, to);
}

/* Whether it answers octets in the room. */
static int has_answer(const char *call) { return is_answering(call) || !strncmp(call, "make_", 5) || strstr(call, "wrap") || is_shown(call); }

static krb_status told_of(const struct row *row, struct octets *room, struct answer *it) {
    struct cells to = {{77777, 77777, 77777, 77777, 77777, 77777}, 77777, 77777, 77777, true};
    int is_resp = !strcmp(row->call, "resp"), places = !strcmp(row->call, "init") || is_resp ? 6 : !strcmp(row->call,
            "find") || !strcmp(row->call, "items") ? 2 : 4;
    if (!strcmp(row->call, "decode")) return decode_call(row, it->told);
    if (!strcmp(row->call, "page_items")) return listed_call(row, it->told);
    krb_status status = other_call(row, room, &it->size, &to);
    if (!strcmp(row->call, "unwrap") || !strcmp(row->call, "verify_mic"))
        it->told[0] = to.sequence, it->told[1] = !strcmp(row->call, "unwrap") && to.sealed;
    else if (!strcmp(row->call, "find_number") || !strcmp(row->call, "hint"))
        it->told[0] = (uint64_t)to.number;
    else if (!has_answer(row->call))
        for (int k = 0; k < places; k++) it->told[k] = to.at[k];
    if (is_resp) it->told[6] = to.word ^ KRB_NEG_STATE_ABSENT;
    return status;
}

static int is_other(const char *call) { return !is_answering(call) && strcmp(call, "check") && strncmp(call, "verify_checksum", 15); }

/* The calls with no octets to answer are made without room. */
static struct answer run(const struct row *row, struct octets *room, long at, int on) {
    struct answer it = {.size = 77777};
    begin_allocations(at, on);
    if (is_answering(row->call))
        it.status = answered(row, room, &it.size);
    else if (is_other(row->call))
        it.status = told_of(row, room, &it);
    else if (!strcmp(row->call, "check"))
        it.status = krb_check(row->number, row->input.at, row->input.count);
    else
        it.status = verified(row);
    struct allocations seen = end_allocations();
    it.requests = seen.requests;
    it.held = seen.held;
    return it;
}

static long most, refusals;

static void try_call(const struct row *row) {
    size_t ample = has_answer(row->call) ? row->input.count + row->beside.count + row->key.count + 99 : 1;
    if (is_shown(row->call)) ample = is_page(row->call) ? 32 * row->input.count + 4096 : 8 * row->input.count + 1024;
    struct octets right = room_of(ample);
    struct answer whole = run(row, &right, 0, 0);
    EXPECT(whole.held == 0, "%s %d: %ld blocks are left", row->call, row->number, whole.held);
    EXPECT(!is_other(row->call) || whole.status == KRB_DONE || whole.status == KRB_ABSENT, "%s %d: status %u", row->call, row->number, whole.status);
    most = whole.requests > most ? whole.requests : most;
    for (int on = 0; on < 2; on++)
        for (long at = 1; at <= whole.requests; at++) {
            struct octets room = room_of(ample);
            struct answer it = run(row, &room, at, on);
            static const uint64_t none[NUMBERS];
            int is_memory = it.status == KRB_MEMORY && is_untouched(&room, 0) && (!has_answer(row->call) || it.size == 0) && !memcmp(it.told, none,
                    sizeof none);
            int is_same = it.status == whole.status && it.size == whole.size && !memcmp(room.at, right.at, ample) && !memcmp(it.told, whole.told,
                    sizeof whole.told);
            EXPECT((is_memory || is_same) && it.held == 0, "%s %d, request %ld of %ld refused: status %u, size %zu, %ld blocks left", row->call, row->number, at, whole.requests, it.status, it.size, it.held);
            refusals++;
            drop(&room);
        }
    drop(&right);
}

/* The call under a kept key that goes with a call. */
static const char *kept_of(const char *call) {
    static const char *const pairs[][2] = {{"encrypt", "encrypt_kept"}, {"decrypt", "decrypt_kept"}, {"checksum", "checksum_kept"}, {"verify_checksum", "verify_checksum_kept"}};
    for (unsigned k = 0; k < sizeof pairs / sizeof *pairs; k++)
        if (!strcmp(call, pairs[k][0])) return pairs[k][1];
    return NULL;
}

static void try_row(char **columns) {
    if (strstr(columns[0], "_size") || !strcmp(columns[0], "n_fold") || strstr(columns[0], "string_to_key")) return;
    struct row row = {columns[0], (int32_t)strtol(columns[1], NULL, 10), (int32_t)strtol(columns[3], NULL, 10), octets_of_text(columns[2]), octets_of_text(columns[4]), octets_of_text(columns[5])};
    try_call(&row);
    if ((row.call = kept_of(columns[0]))) try_call(&row);
    drop(&row.key), drop(&row.beside), drop(&row.input);
}

static struct octets text_of(const char *text) { return octets_of((const uint8_t *)text, strlen(text)); }

/* A keytab of one key of suite 17, that of a principal `s` of the realm `R` (MIT Kerberos, "Keytab file format"). */
static const uint8_t KEYTAB[] = {5, 2, 0, 0, 0, 37, 0, 1, 0, 1, 'R', 0, 1, 's', 0, 0, 0, 1, 0, 0, 0, 0, 1, 0, 17, 0, 16, 1, 2, 3, 4, 5, 6, 7, 8, 9, 10, 11, 12, 13, 14, 15, 16};

/* An element of this tag and content (X.690, 8.1.3), which it takes. */
static struct octets element(uint8_t tag, struct octets content) {
    struct octets whole = room_of(content.count + 4);
    size_t header = krb_header_size(content.count), count = content.count;
    whole.count = header + count;
    whole.at[0] = tag, whole.at[1] = (uint8_t)(header == 2 ? count : 0x80 | (header - 2));
    for (size_t k = header - 1; k > 1; k--, count >>= 8) whole.at[k] = (uint8_t)count;
    memcpy(whole.at + header, content.at, content.count);
    drop(&content);
    return whole;
}

/* An EncryptedData (RFC 4120, 5.2.9) of this part of a ticket, decoded with the keytab whose key decrypts it, and as octets that it does not decrypt. */
static void try_decoded(const struct octets *part) {
    static const uint8_t ETYPE[] = {0xa0, 3, 2, 1, 17};
    struct octets sealed = room_of(part->count + 99), confounder = room_of(16);
    EXPECT(krb_seal_ticket_part(17, KEYTAB + sizeof KEYTAB - 16, 16, 2, confounder.at, confounder.count, part->at, part->count, sealed.at, sealed.count,
                   &sealed.count) == KRB_DONE, "a part is not sealed");
    for (int changes = 0; changes < 2; changes++) {
        struct octets cipher = element(0xa2, element(4, octets_of(sealed.at, sealed.count))), both = room_of(sizeof ETYPE + cipher.count);
        memcpy(both.at, ETYPE, sizeof ETYPE), memcpy(both.at + sizeof ETYPE, cipher.at, cipher.count);
        struct row row = {"decode", 0, 0, text_of("EncryptedData"), octets_of(KEYTAB, sizeof KEYTAB), element(48, both)};
        struct octets none = {NULL, 0};
        struct answer it = run(&row, &none, 0, 0);
        EXPECT(it.status == KRB_DONE && it.told[1] == 1 && it.told[4] == (changes ? KRB_PART_NO_KEY_FITS : KRB_PART_DECRYPTED), "outcome %d", (int)it.told[4]);
        EXPECT(changes || it.told[5] == part->at[0], "the part is another");
        try_call(&row);
        drop(&row.key), drop(&row.beside), drop(&row.input), drop(&cipher);
        sealed.at[0] ^= 1;
    }
    drop(&sealed), drop(&confounder);
}

/* Each message is checked, each part sealed and opened under each suite. */
static void try_message(char **columns) {
    char call[64];
    struct octets octets = octets_of_text(columns[1]);
    int32_t number = (int32_t)strtol(columns[0], NULL, 10);
    struct row check = {"check", number, 0, {NULL, 0}, {NULL, 0}, octets};
    try_call(&check);
    if (number == KRB_MESSAGE_ENC_TICKET_PART) try_decoded(&octets);
    for (int p = 0; p < PARTS; p++)
        for (int s = 0; s < SUITES && parts[p].number == number; s++) {
            struct octets key = room_of(suites[s].key), confounder = room_of(suites[s].confounder), sealed = room_of(octets.count + 99);
            struct row seal = {call, suites[s].etype, 2, key, confounder, octets};
            size_t size;
            snprintf(call, sizeof call, "seal_%s", parts[p].name);
            try_call(&seal);
            EXPECT(answered(&seal, &sealed, &size) == KRB_DONE, "%s", call);
            struct row opened = {call, suites[s].etype, 2, key, confounder, octets_of(sealed.at, size)};
            snprintf(call, sizeof call, "open_%s", parts[p].name);
            try_call(&opened);
            drop(&opened.input), drop(&key), drop(&confounder), drop(&sealed);
        }
    drop(&octets);
}

/* Keys of passwords take long, so one of each suite. */
static void try_passwords(void) {
    for (int s = 0; s < SUITES; s++) {
        struct row row = {"string_to_key", suites[s].etype, 0, {NULL, 0}, octets_of((const uint8_t *)"salt", 4), octets_of((const uint8_t *)"password", 8)};
        try_call(&row);
        drop(&row.beside), drop(&row.input);
    }
}

/* A message as `jolmurig show` writes it, in the one form or the other, and as items. */
static void try_page(const struct octets *message, int number) {
    struct octets none = {NULL, 0}, keytab = octets_of(KEYTAB, sizeof KEYTAB);
    struct row row = {number % 2 ? "page_text" : "page_json", number % 2, 0, none, keytab, *message};
    try_call(&row);
    row.call = "page_items";
    try_call(&row);
    drop(&row.beside);
}

/* Fields that are found in messages, and all items of these, also as text and as JSON: rows that expect_fields.py makes. */
static void try_field(char **columns) {
    static int pages = 0;
    if (strcmp(columns[4], "DONE")) return;
    struct row row = {"find", 0, 0, text_of(columns[8]), text_of(columns[9]), octets_of_text(columns[1])};
    try_call(&row);
    row.call = "find_number";
    if (columns[7][0] && strcmp(columns[7], "TOO_LARGE")) try_call(&row);
    row.call = "items";
    if (!strcmp(columns[3], "0")) {
        try_call(&row);
        row.call = "show_text";
        try_call(&row);
        row.call = "show_json", row.number = 1;
        try_call(&row);
        try_page(&row.input, pages++);
    }
    drop(&row.key), drop(&row.beside), drop(&row.input);
}

static struct octets part_of(const struct octets *whole, const uint64_t *place) { return octets_of(whole->at + place[0], place[1]); }

/* What frames hold, and the frames made of it. */
static void try_frame(const char *kind, const struct octets *octets) {
    struct octets none = {NULL, 0};
    struct row row = {kind, 0, 0, none, none, *octets};
    struct answer it = run(&row, &none, 0, 0);
    const uint64_t *told = it.told;
    try_call(&row);
    struct octets first = part_of(octets, told), second = part_of(octets, told + 2), third = part_of(octets, told + 4);
    struct row made = {"make_token", 0, 0, none, first, second};
    if (!strcmp(kind, "init")) {
        made.call = "make_init", made.key = third;
    } else if (!strcmp(kind, "resp")) {
        made.call = "make_resp", made.key = third, made.number = (int32_t)(told[6] ^ KRB_NEG_STATE_ABSENT);
    } else if (!strcmp(kind, "password")) {
        made.call = "make_password";
    } else if (!strcmp(kind, "proxy")) {
        row.call = "hint";
        try_call(&row);
        made.call = "make_proxy", made.beside = second, made.input = first;
    }
    if (made.number <= KRB_NEG_STATE_REQUEST_MIC || made.number == KRB_NEG_STATE_ABSENT) try_call(&made);
    drop(&first), drop(&second), drop(&third);
}

/* The calls of PACs ask for no memory. */
static void try_pac(const struct octets *pac) {
    krb_pac_place places[64];
    size_t count = 0, offset = 0, size = 0;
    uint32_t kind = 0;
    begin_allocations(1, 1);
    krb_status statuses[] = {krb_pac_count(pac->at, pac->count, &count), krb_pac_buffer(pac->at, pac->count, 0, &kind, &offset, &size),
            krb_pac_buffers(pac->at, pac->count, places, sizeof places / sizeof *places, &count)};
    struct allocations seen = end_allocations();
    for (size_t k = 0; k < sizeof statuses / sizeof *statuses; k++)
        EXPECT(seen.requests == 0 && statuses[k] != KRB_MEMORY, "call %zu of a PAC: status %u, %ld requests", k, statuses[k], seen.requests);
}

static void try_frame_row(char **columns) {
    struct octets octets = octets_of_text(columns[1]);
    if (!strcmp(columns[0], "pac") || !strcmp(columns[0], "unlisted"))
        try_pac(&octets);
    else
        try_frame(columns[0], &octets);
    drop(&octets);
}

/* Tokens verified and opened, and made of their messages: rows of an etype, a key, two flags, a number, a kind, a message and a token. */
static void try_token(char **columns) {
    struct octets message = octets_of_text(columns[6]), token = octets_of_text(columns[7]), confounder = room_of(16), none = {NULL, 0};
    int is_mic = !strcmp(columns[5], "mic"), is_sealed = !strcmp(columns[5], "sealed");
    struct row row = {is_mic ? "make_mic" : is_sealed ? "wrap" : "wrap_in_clear", (int32_t)strtol(columns[0], NULL, 10),
            (columns[2][0] == '1') | (columns[3][0] == '1') << 1, octets_of_text(columns[1]), is_sealed ? confounder : none, message};
    try_call(&row);
    row.call = is_mic ? "verify_mic" : "unwrap", row.beside = is_mic ? token : none, row.input = is_mic ? message : token;
    try_call(&row);
    drop(&message), drop(&token), drop(&confounder), drop(&row.key);
}

/* The calls of a KDC proxy, of rows that are taken: a call, octets, what else it takes, and the status. */
static void try_proxied(char **columns) {
    static const char *const calls[][2] = {{"request", "request"}, {"request", "request_items"}, {"lenient", "lenient"}, {"read", "read"},
            {"reply", "make_reply"}, {"datagram", "make_datagram"}, {"client", "make_client"}};
    for (size_t k = 0; k < sizeof calls / sizeof *calls; k++) {
        if (strcmp(columns[3], "DONE") || strcmp(columns[0], calls[k][0])) continue;
        struct octets none = {NULL, 0};
        struct row row = {calls[k][1], 0, 0, none, octets_of_text(columns[2]), octets_of_text(columns[1])};
        try_call(&row);
        drop(&row.beside), drop(&row.input);
    }
}

int main(int count, char **words) {
    if (count != 7) die("refused ROWS MESSAGES FIELDS FRAMES TOKENS PROXIES");
    each_row(words[1], 8, try_row);
    each_row(words[2], 2, try_message);
    try_passwords();
    each_row(words[3], 10, try_field);
    each_row(words[4], 2, try_frame_row);
    each_row(words[5], 8, try_token);
    each_row(words[6], 4, try_proxied);
    printf("%ld allocations were refused, at most %ld a call\n", refusals, most);
    return counted();
}
