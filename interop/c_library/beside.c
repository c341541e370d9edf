/* The library and libkrb5 in one process: beside MESSAGES [COUNT]. COUNT (1000) messages a suite, sealed by each and opened by the other, checksums made by
   each and verified by the other, keys of passwords and of seeds, sizes; the parts of MESSAGES, sealed by each and opened by the other; and how many
   of its tickets and parts of tickets, changed, each takes. */
#include "calls.h"
#include <krb5/krb5.h>
#include <stdio.h>
#include <stdlib.h>
#include <string.h>

enum { LARGEST = 70000 };

struct readings {
    long both, here, there, neither;
};

static krb5_context context;
static uint8_t plain[LARGEST], ours[LARGEST + 99], theirs[LARGEST + 99], back[LARGEST + 99];

/* Exported by libkrb5 and declared by no header of it. */
krb5_error_code decode_krb5_enc_tkt_part(const krb5_data *octets, krb5_enc_tkt_part **part);
void krb5_free_enc_tkt_part(krb5_context context, krb5_enc_tkt_part *part);
krb5_error_code decode_krb5_ticket(const krb5_data *octets, krb5_ticket **ticket);

static krb5_data data_of(const uint8_t *at, size_t count) {
    krb5_data made = {.length = (unsigned)count, .data = (char *)at};
    return made;
}

static krb5_keyblock drawn_key(const struct suite *suite) {
    krb5_keyblock key;
    if (krb5_c_make_random_key(context, suite->etype, &key) || key.length != suite->key) die("libkrb5 makes no key");
    return key;
}

static size_t drawn_length(int turn) {
    static const size_t lengths[] = {0, 1, 7, 8, 9, 15, 16, 17, 31, 32, 33, 4096, 65535, 65536, 65537};
    return (unsigned)turn < sizeof lengths / sizeof *lengths ? lengths[turn] : drawn(turn % 50 ? 400 : 20000);
}

static void seal_here(const struct suite *suite, const krb5_keyblock *key, int32_t usage, size_t length) {
    uint8_t confounder[16];
    size_t size, told, filled = (length + suite->fill - 1) / suite->fill * suite->fill;
    draw(confounder, sizeof confounder);
    krb_status status = krb_encrypt(suite->etype, key->contents, key->length, usage, confounder, suite->confounder, plain, length, ours, sizeof ours, &size);
    EXPECT(status == KRB_DONE && size == krb_encrypted_size(suite->etype, length), "etype %d: status %u", suite->etype, status);
    krb_key kept;
    status = krb_keep_key(suite->etype, key->contents, key->length, usage, &kept);
    EXPECT(status == KRB_DONE, "etype %d: no key is kept, status %u", suite->etype, status);
    status = krb_encrypt_kept(&kept, confounder, suite->confounder, plain, length, back, sizeof back, &told);
    EXPECT(status == KRB_DONE && told == size && !memcmp(back, ours, size), "etype %d: otherwise under a kept key", suite->etype);
    EXPECT(!krb5_c_encrypt_length(context, suite->etype, length, &told) && told == size, "etype %d: %zu octets, and %zu by libkrb5", suite->etype, size, told);
    krb5_enc_data sealed = {.enctype = suite->etype, .ciphertext = data_of(ours, size)};
    krb5_data opened = data_of(back, sizeof back);
    EXPECT(!krb5_c_decrypt(context, key, usage, NULL, &sealed, &opened) && opened.length == filled && !memcmp(back, plain, length), "etype %d, %zu octets: libkrb5 opens ours otherwise", suite->etype, length);
}

static void open_here(const struct suite *suite, const krb5_keyblock *key, int32_t usage, size_t length) {
    size_t size, filled = (length + suite->fill - 1) / suite->fill * suite->fill;
    krb5_data in = data_of(plain, length);
    krb5_enc_data sealed = {.ciphertext = data_of(theirs, sizeof theirs)};
    if (krb5_c_encrypt(context, key, usage, NULL, &in, &sealed)) die("libkrb5 seals nothing");
    krb_status status = krb_decrypt(suite->etype, key->contents, key->length, usage, theirs, sealed.ciphertext.length, back, sizeof back, &size);
    EXPECT(status == KRB_DONE && size == filled && !memcmp(back, plain, length), "etype %d, %zu octets: ours opens libkrb5's otherwise, status %u", suite->etype, length, status);
    krb_key kept;
    status = krb_keep_key(suite->etype, key->contents, key->length, usage, &kept);
    EXPECT(status == KRB_DONE, "etype %d: no key is kept, status %u", suite->etype, status);
    memset(back, 0, length);
    status = krb_decrypt_kept(&kept, theirs, sealed.ciphertext.length, back, sizeof back, &size);
    EXPECT(status == KRB_DONE && size == filled && !memcmp(back, plain, length), "etype %d, %zu octets: a kept key opens libkrb5's otherwise, status %u", suite->etype, length, status);
    theirs[drawn(sealed.ciphertext.length)] ^= (uint8_t)(1u << drawn(8));
    memset(back, 0x5a, 256);
    status = krb_decrypt(suite->etype, key->contents, key->length, usage, theirs, sealed.ciphertext.length, back, sizeof back, &size);
    int written = 0;
    for (int k = 0; k < 256; k++) written |= back[k] != 0x5a;
    krb5_data opened = data_of(ours, sizeof ours);
    EXPECT(status == KRB_INTEGRITY && size == 0 && !written, "etype %d: a turned bit, status %u", suite->etype, status);
    EXPECT(krb5_c_decrypt(context, key, usage, NULL, &sealed, &opened) == KRB5KRB_AP_ERR_BAD_INTEGRITY, "etype %d: libkrb5 opens a turned bit", suite->etype);
}

static void sum_both(const struct suite *suite, const krb5_keyblock *key, int32_t usage, size_t length) {
    size_t size, told;
    krb5_data in = data_of(plain, length);
    krb5_checksum sum;
    krb5_boolean holds = 0;
    if (krb5_c_make_checksum(context, suite->cksumtype, key, usage, &in, &sum)) die("libkrb5 makes no checksum");
    krb_status status = krb_checksum(suite->cksumtype, key->contents, key->length, usage, plain, length, back, sizeof back, &size);
    EXPECT(status == KRB_DONE && size == sum.length && !memcmp(back, sum.contents, size), "checksum type %d differs, status %u", suite->cksumtype, status);
    EXPECT(!krb5_c_checksum_length(context, suite->cksumtype, &told) && told == krb_checksum_size(suite->cksumtype), "checksum type %d: the size", suite->cksumtype);
    EXPECT(krb_verify_checksum(suite->cksumtype, key->contents, key->length, usage, plain, length, sum.contents, sum.length) == KRB_DONE, "checksum type %d of libkrb5 is refused", suite->cksumtype);
    krb_checksum_key kept;
    status = krb_keep_checksum_key(suite->cksumtype, key->contents, key->length, usage, &kept);
    EXPECT(status == KRB_DONE, "checksum type %d: no key is kept, status %u", suite->cksumtype, status);
    memset(back, 0, size);
    status = krb_checksum_kept(&kept, plain, length, back, sizeof back, &size);
    EXPECT(status == KRB_DONE && size == sum.length && !memcmp(back, sum.contents, size), "checksum type %d differs under a kept key, status %u", suite->cksumtype, status);
    EXPECT(krb_verify_checksum_kept(&kept, plain, length, sum.contents, sum.length) == KRB_DONE, "checksum type %d of libkrb5 is refused under a kept key", suite->cksumtype);
    krb5_checksum here = {.checksum_type = suite->cksumtype, .length = (unsigned)size, .contents = back};
    EXPECT(!krb5_c_verify_checksum(context, key, usage, &in, &here, &holds) && holds, "checksum type %d of ours is refused by libkrb5", suite->cksumtype);
    sum.contents[drawn(sum.length)] ^= (uint8_t)(1u << drawn(8));
    EXPECT(krb_verify_checksum(suite->cksumtype, key->contents, key->length, usage, plain, length, sum.contents, sum.length) == KRB_INTEGRITY, "checksum type %d with a turned bit", suite->cksumtype);
    EXPECT(krb_verify_checksum_kept(&kept, plain, length, sum.contents, sum.length) == KRB_INTEGRITY, "checksum type %d with a turned bit under a kept key", suite->cksumtype);
    krb5_free_checksum_contents(context, &sum);
}

static void keys_both(const struct suite *suite, int passwords) {
    for (int turn = 0; turn < passwords; turn++) {
        uint8_t words[80];
        size_t p = drawn(40), s = drawn(40), size;
        if (p + s == 0) p = 1;
        for (size_t k = 0; k < p + s; k++) words[k] = (uint8_t)(1 + drawn(255));
        krb5_data password = data_of(words, p), salt = data_of(words + p, s);
        krb5_keyblock key;
        if (krb5_c_string_to_key(context, suite->etype, &password, &salt, &key)) die("libkrb5 makes no key of a password");
        krb_status status = krb_string_to_key(suite->etype, words, p, words + p, s, back, sizeof back, &size);
        EXPECT(status == KRB_DONE && size == key.length && !memcmp(back, key.contents, size), "etype %d: keys of a password differ, status %u", suite->etype, status);
        krb5_free_keyblock_contents(context, &key);
    }
    for (int turn = 0; turn < 200; turn++) {
        uint8_t seed[32], contents[32];
        size_t size, keybytes, keylength;
        draw(seed, sizeof seed);
        if (krb5_c_keylengths(context, suite->etype, &keybytes, &keylength)) die("libkrb5 tells no sizes");
        krb5_data in = data_of(seed, keybytes);
        krb5_keyblock key = {.enctype = suite->etype, .length = (unsigned)keylength, .contents = contents};
        if (krb5_c_random_to_key(context, suite->etype, &in, &key)) die("libkrb5 makes no key of a seed");
        krb_status status = krb_random_to_key(suite->etype, seed, keybytes, back, sizeof back, &size);
        EXPECT(keybytes == krb_seed_size(suite->etype) && keylength == krb_key_size(suite->etype), "etype %d: the sizes", suite->etype);
        EXPECT(status == KRB_DONE && size == keylength && !memcmp(back, contents, size), "etype %d: keys of a seed differ, status %u", suite->etype, status);
    }
}

static void part_both(const struct part *part, const struct octets *octets) {
    for (int s = 0; s < SUITES; s++) {
        const struct suite *suite = &suites[s];
        krb5_keyblock key = drawn_key(suite);
        int32_t usage = 1 + (int32_t)drawn(100);
        size_t size, filled = (octets->count + suite->fill - 1) / suite->fill * suite->fill;
        krb5_data in = data_of(octets->at, octets->count), opened = data_of(back, sizeof back);
        krb5_enc_data sealed = {.ciphertext = data_of(theirs, sizeof theirs)};
        if (krb5_c_encrypt(context, &key, usage, NULL, &in, &sealed)) die("libkrb5 seals nothing");
        krb_status status = part->open(suite->etype, key.contents, key.length, usage, theirs, sealed.ciphertext.length, back, sizeof back, &size);
        EXPECT(status == KRB_DONE && size == octets->count && !memcmp(back, octets->at, size), "%s of libkrb5, etype %d: status %u", part->name, suite->etype, status);
        uint8_t confounder[16];
        draw(confounder, sizeof confounder);
        status = part->seal(suite->etype, key.contents, key.length, usage, confounder, suite->confounder, octets->at, octets->count, ours, sizeof ours, &size);
        EXPECT(status == KRB_DONE, "%s, etype %d: status %u", part->name, suite->etype, status);
        sealed.enctype = suite->etype;
        sealed.ciphertext = data_of(ours, size);
        EXPECT(!krb5_c_decrypt(context, &key, usage, NULL, &sealed, &opened) && opened.length == filled && !memcmp(back, octets->at, octets->count), "%s, etype %d: libkrb5 opens it otherwise", part->name, suite->etype);
        krb5_free_keyblock_contents(context, &key);
    }
}

/* Octets with some changed: how many each takes. libkrb5 reads longer forms than DER has, and looks at versions, types and times, which krb_check leaves
   to its caller; so neither takes all that the other does. */
static void read_both(int32_t number, const struct octets *octets, struct readings *seen) {
    for (int turn = 0; turn < 2000; turn++) {
        struct octets changed = octets_of(octets->at, octets->count);
        for (uint32_t k = 1 + drawn(2); k; k--) changed.at[drawn((uint32_t)changed.count)] ^= (uint8_t)(1u << drawn(8));
        krb5_data in = data_of(changed.at, changed.count);
        krb5_ticket *ticket = NULL;
        krb5_enc_tkt_part *part = NULL;
        int is_read = number == KRB_MESSAGE_TICKET ? !decode_krb5_ticket(&in, &ticket) : !decode_krb5_enc_tkt_part(&in, &part);
        krb_status status = krb_check(number, changed.at, changed.count);
        EXPECT(status == KRB_DONE || (KRB_INVALID <= status && status <= KRB_UNSUPPORTED), "message %d, changed: status %u", number, status);
        seen->both += is_read && !status;
        seen->here += !is_read && !status;
        seen->there += is_read && status;
        seen->neither += !is_read && status;
        if (is_read && ticket) krb5_free_ticket(context, ticket);
        if (is_read && part) krb5_free_enc_tkt_part(context, part);
        drop(&changed);
    }
}

int main(int count, char **words) {
    FILE *file = count >= 2 ? fopen(words[1], "r") : NULL;
    int turns = count == 3 ? atoi(words[2]) : 1000;
    if (!file) die("beside MESSAGES [COUNT]");
    if (krb5_init_context(&context)) die("libkrb5 does not begin");
    for (int s = 0; s < SUITES; s++)
        for (int turn = 0; turn < turns; turn++) {
            size_t length = drawn_length(turn);
            int32_t usage = turn == 0 ? 1024 : 1 + (int32_t)drawn(60);
            krb5_keyblock key = drawn_key(&suites[s]);
            draw(plain, length);
            seal_here(&suites[s], &key, usage, length);
            open_here(&suites[s], &key, usage, length);
            sum_both(&suites[s], &key, usage, length);
            krb5_free_keyblock_contents(context, &key);
        }
    for (int s = 0; s < SUITES; s++) keys_both(&suites[s], suites[s].etype < 19 ? 20 : 5);
    char *columns[2];
    struct readings seen = {0};
    while (next_row(file, columns, 2)) {
        struct octets octets = octets_of_text(columns[1]);
        int32_t number = atoi(columns[0]);
        for (int p = 0; p < PARTS; p++)
            if (parts[p].number == number) part_both(&parts[p], &octets);
        if (number == KRB_MESSAGE_TICKET || number == KRB_MESSAGE_ENC_TICKET_PART) read_both(number, &octets, &seen);
        drop(&octets);
    }
    printf("%d messages a suite each way; changed tickets and parts: both take %ld, krb_check alone %ld, libkrb5 alone %ld, neither %ld\n", turns, seen.both, seen.here, seen.there, seen.neither);
    krb5_free_context(context);
    fclose(file);
    return counted();
}
