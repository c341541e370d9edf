/* AES, HMAC and PBKDF2 of a peer that has no messages of Kerberos. */
#ifndef PRIMITIVES_H
#define PRIMITIVES_H
#include "octets.h"
#include "peer.h"

enum { CBC_SIZE = 4096, CHAIN = 1000 };

/* The suites' salts for PBKDF2 (RFC 3962, 4; RFC 8009, 4), the sizes of their digests, and the rounds. */
static const struct {
    const char *salt;
    size_t salt_size, digest_size;
    unsigned rounds;
} stretched[] = {
    {SALT, sizeof SALT - 1, 20, 4096},
    {SALT, sizeof SALT - 1, 20, 4096},
    {"aes128-cts-hmac-sha256-128\0" SALT, 27 + sizeof SALT - 1, 32, 32768},
    {"aes256-cts-hmac-sha384-192\0" SALT, 27 + sizeof SALT - 1, 48, 32768},
};

/* Compares the peer's AES with the library's: both sizes of keys, both directions. */
static void expect_blocks_of(void (*crypt)(const uint8_t *key, size_t size, int sealing, uint8_t *block)) {
    uint8_t any[32], block[16], mine[16], other[16];
    for (int turn = 0; turn < TRIES; turn++) {
        for (size_t size = 16; size <= 32; size += 16) {
            draw_any(any, size);
            draw_any(ARRAY(block));
            memcpy(mine, block, 16);
            memcpy(other, block, 16);
            bench_aes_encrypt(any, size, 1, ARRAY(mine));
            crypt(any, size, 1, other);
            expect_same("AES block, encrypt", ARRAY(mine), ARRAY(other));
            memcpy(mine, block, 16);
            memcpy(other, block, 16);
            bench_aes_decrypt(any, size, 1, ARRAY(mine));
            crypt(any, size, 0, other);
            expect_same("AES block, decrypt", ARRAY(mine), ARRAY(other));
        }
    }
}

/* Compares what the peer makes of a password, once the suite's key is derived of it, with the library's key. */
static void expect_key_of(size_t n, const uint8_t *seed) {
    size_t wanted = bench_string_to_key(suites[n].etype, TEXT(PASSWORD), TEXT(SALT), ARRAY(ours));
    size_t made = bench_derive_key(suites[n].etype, seed, suites[n].key_size, TEXT("kerberos"), ARRAY(theirs));
    expect_same("PBKDF2", ours, wanted, theirs, made);
}

static const char *name_of_block(size_t size, const char *call) {
    snprintf(name, sizeof name, "AES%zu %s", 8 * size, call);
    return name;
}

static const char *name_of_hash(size_t digest_size, size_t size) {
    snprintf(name, sizeof name, "SHA%zu, %zu octets", digest_size == 20 ? 1 : 8 * digest_size, size);
    return name;
}

static const char *name_of_hmac(size_t digest_size, size_t size) {
    snprintf(name, sizeof name, "HMAC-SHA%zu, %zu octets", digest_size == 20 ? 1 : 8 * digest_size, size);
    return name;
}
#endif
