/* The calls of the library for C that keep a key, and those that make and take MIC and Wrap tokens, as calls of secrets.c. Each
 * makes what it needs of the secret key itself. Public are statuses, sizes, a token's header and its sequence number. */
#ifndef SECRETS_OF_C_H
#define SECRETS_OF_C_H
#include "krb.h"

/* A context's key, its tokens' sender and subkey, and their sequence number; how far a Wrap token is rotated (RFC 4121, 4.2.5). */
#define CONTEXT call->etype, KEY, false, true
enum { NUMBER = 7, ROTATION = 28 };

static krb_status told(krb_status status) {
    VALGRIND_MAKE_MEM_DEFINED(&status, sizeof status);
    return status;
}

/* The answer of a call that gives octets, and a secret octet behind it: so it depends on the secrets, and is not empty where it is given. */
static size_t given(krb_status status, uint8_t *out, size_t count) {
    VALGRIND_MAKE_MEM_DEFINED(&count, sizeof count);
    if (told(status) != KRB_DONE) {
        return 0;
    }
    out[count] = *key;
    return count + 1;
}

/* A secret octet where the status is the one that is wanted. */
static size_t one_if(krb_status status, krb_status wanted_status, uint8_t *out) {
    *out = *key;
    return told(status) == wanted_status;
}

/* Kept keys. What is kept is octets that depend on the key, and so the calls under it are made with secrets. */
static size_t keep(const struct call *call, uint8_t *out) {
    krb_key kept;
    if (told(krb_keep_key(call->etype, KEY, USAGE, &kept)) != KRB_DONE) {
        return 0;
    }
    memcpy(out, &kept, sizeof kept);
    return sizeof kept;
}

static size_t encrypt_kept(const struct call *call, uint8_t *out) {
    krb_key kept;
    size_t count = 0;
    if (told(krb_keep_key(call->etype, KEY, USAGE, &kept)) != KRB_DONE ||
        told(krb_encrypt_kept(&kept, CONFOUNDER, payload, size, out, ROOM, &count)) != KRB_DONE) {
        return 0;
    }
    return count;
}

static krb_status decrypted_kept(const struct call *call, uint8_t *out, size_t *count) {
    krb_key kept;
    if (told(krb_keep_key(call->etype, KEY, USAGE, &kept)) != KRB_DONE) {
        return KRB_NUMBER;
    }
    return krb_decrypt_kept(&kept, sealed, sealed_size, out, ROOM - 1, count);
}

static size_t decrypt_kept(const struct call *call, uint8_t *out) {
    size_t count = 0;
    krb_status status = decrypted_kept(call, out, &count);
    return given(status, out, count);
}

static size_t reject_kept(const struct call *call, uint8_t *out) {
    size_t count = 0;
    return one_if(decrypted_kept(call, out, &count), KRB_INTEGRITY, out);
}

/* Kept keys of checksums, of the checksum type that goes with the suite. */
static krb_status sum_key_kept(const struct call *call, krb_checksum_key *kept) {
    int32_t cksumtype = call->etype == 16 ? 12 : call->etype <= 18 ? (int32_t)call->etype - 2 : (int32_t)call->etype;
    return told(krb_keep_checksum_key(cksumtype, KEY, USAGE, kept));
}

static size_t keep_sum_key(const struct call *call, uint8_t *out) {
    krb_checksum_key kept;
    if (sum_key_kept(call, &kept) != KRB_DONE) {
        return 0;
    }
    memcpy(out, &kept, sizeof kept);
    return sizeof kept;
}

static size_t sum_kept(const struct call *call, uint8_t *out) {
    krb_checksum_key kept;
    size_t count = 0;
    if (sum_key_kept(call, &kept) != KRB_DONE || told(krb_checksum_kept(&kept, payload, size, out, ROOM, &count)) != KRB_DONE) {
        return 0;
    }
    return count;
}

static krb_status sum_verified(const struct call *call) {
    krb_checksum_key kept;
    return sum_key_kept(call, &kept) != KRB_DONE ? KRB_NUMBER : krb_verify_checksum_kept(&kept, payload, size, sealed, sealed_size);
}

CALL(verify_sum, one_if(sum_verified(call), KRB_DONE, out))
CALL(reject_sum, one_if(sum_verified(call), KRB_INTEGRITY, out))

/* MIC tokens. */
static size_t make_mic(const struct call *call, uint8_t *out) {
    size_t count = 0;
    return told(krb_make_mic(CONTEXT, NUMBER, payload, size, out, ROOM, &count)) == KRB_DONE ? count : 0;
}

static krb_status verified_mic(const struct call *call) {
    uint64_t number = 0;
    krb_status status = told(krb_verify_mic(CONTEXT, payload, size, sealed, sealed_size, &number));
    VALGRIND_MAKE_MEM_DEFINED(&number, sizeof number);
    return status == KRB_DONE && number != NUMBER ? KRB_NEVER : status;
}

CALL(verify_mic, one_if(verified_mic(call), KRB_DONE, out))
CALL(reject_mic, one_if(verified_mic(call), KRB_INTEGRITY, out))

/* Wrap tokens, encrypted and in the clear. */
static size_t wrap(const struct call *call, uint8_t *out) {
    size_t count = 0;
    krb_status status = krb_wrap(CONTEXT, NUMBER, ROTATION, CONFOUNDER, payload, size, out, ROOM, &count);
    return told(status) == KRB_DONE ? count : 0;
}

static size_t wrap_in_clear(const struct call *call, uint8_t *out) {
    size_t count = 0;
    krb_status status = krb_wrap_in_clear(CONTEXT, NUMBER, ROTATION, payload, size, out, ROOM, &count);
    return told(status) == KRB_DONE ? count : 0;
}

static krb_status unwrapped(const struct call *call, uint8_t *out, size_t *count) {
    uint64_t number = 0;
    bool was_sealed = false;
    return krb_unwrap(CONTEXT, sealed, sealed_size, &number, &was_sealed, out, ROOM - 1, count);
}

static size_t unwrap(const struct call *call, uint8_t *out) {
    size_t count = 0;
    krb_status status = unwrapped(call, out, &count);
    return given(status, out, count);
}

static size_t reject_wrap(const struct call *call, uint8_t *out) {
    size_t count = 0;
    return one_if(unwrapped(call, out, &count), KRB_INTEGRITY, out);
}

/* What is made first, with known octets: sealed octets or a token, and such whose last octet is another. */
#define FIRST(name, made)                               \
    static void name##_first(const struct call *call) { \
        sealed_size = made(call, sealed);               \
    }                                                   \
    static void spoil_##name(const struct call *call) { \
        name##_first(call);                             \
        sealed[sealed_size - 1] ^= 1;                   \
    }
FIRST(kept, encrypt_kept)
FIRST(kept_sum, sum_kept)
FIRST(mic, make_mic)
FIRST(wrap, wrap)
FIRST(clear, wrap_in_clear)

#define C_KEPT(number)                                                          \
    {"C: keep a key, suite " #number, keep, number, 0},                         \
    {"C: encrypt, kept key, suite " #number, encrypt_kept, number, 0},          \
    {"C: decrypt, kept key, suite " #number, decrypt_kept, number, kept_first}, \
    {"C: reject, kept key, suite " #number, reject_kept, number, spoil_kept},   \
    {"C: keep a key of checksums, suite " #number, keep_sum_key, number, 0},    \
    {"C: checksum, kept key, suite " #number, sum_kept, number, 0},             \
    {"C: verify, kept key, suite " #number, verify_sum, number, kept_sum_first}, \
    {"C: reject a checksum, kept key, suite " #number, reject_sum, number, spoil_kept_sum}
#define C_TOKENS(number)                                                        \
    {"C: make a MIC, suite " #number, make_mic, number, 0},                     \
    {"C: verify a MIC, suite " #number, verify_mic, number, mic_first},         \
    {"C: reject a MIC, suite " #number, reject_mic, number, spoil_mic},         \
    {"C: wrap, suite " #number, wrap, number, 0},                               \
    {"C: unwrap, suite " #number, unwrap, number, wrap_first},                  \
    {"C: reject a wrapped message, suite " #number, reject_wrap, number, spoil_wrap}, \
    {"C: wrap in the clear, suite " #number, wrap_in_clear, number, 0},         \
    {"C: unwrap in the clear, suite " #number, unwrap, number, clear_first},    \
    {"C: reject in the clear, suite " #number, reject_wrap, number, spoil_clear}
#endif
