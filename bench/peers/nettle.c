/* Nettle: AES by its assembler tables, where NETTLE_FAT_OVERRIDE keeps it from AES instructions; SHA and PBKDF2. */
#include <nettle/aes.h>
#include <nettle/cbc.h>
#include <nettle/hmac.h>
#include <nettle/pbkdf2.h>

#include "primitives.h"

/* Both sizes of keys behind one face. */
static struct {
    struct aes128_ctx small;
    struct aes256_ctx large;
} sealing_key, opening_key;

static void make_keys(const uint8_t *from, size_t size, int sealing, int opening) {
    if (size == 16) {
        if (sealing) aes128_set_encrypt_key(&sealing_key.small, from);
        if (opening) aes128_set_decrypt_key(&opening_key.small, from);
    } else {
        if (sealing) aes256_set_encrypt_key(&sealing_key.large, from);
        if (opening) aes256_set_decrypt_key(&opening_key.large, from);
    }
}

static void crypt_once(size_t size, int sealing, uint8_t *block) {
    if (size == 16) {
        if (sealing) aes128_encrypt(&sealing_key.small, 16, block, block);
        else aes128_decrypt(&opening_key.small, 16, block, block);
    } else {
        if (sealing) aes256_encrypt(&sealing_key.large, 16, block, block);
        else aes256_decrypt(&opening_key.large, 16, block, block);
    }
}

static void crypt_block(const uint8_t *any, size_t size, int sealing, uint8_t *block) {
    make_keys(any, size, 1, 1);
    crypt_once(size, sealing, block);
}

static void chain_blocks(size_t size, int sealing, uint8_t *block) {
    for (int turn = 0; turn < CHAIN; turn++) {
        crypt_once(size, sealing, block);
    }
}

static void crypt_cbc(size_t size, int sealing, const uint8_t *from, uint8_t *to) {
    uint8_t before[16] = {0};
    make_keys(key, size, sealing, !sealing);
    if (size == 16) {
        if (sealing) cbc_encrypt(&sealing_key.small, (nettle_cipher_func *)aes128_encrypt, 16, before, CBC_SIZE, to, from);
        else cbc_decrypt(&opening_key.small, (nettle_cipher_func *)aes128_decrypt, 16, before, CBC_SIZE, to, from);
    } else {
        if (sealing) cbc_encrypt(&sealing_key.large, (nettle_cipher_func *)aes256_encrypt, 16, before, CBC_SIZE, to, from);
        else cbc_decrypt(&opening_key.large, (nettle_cipher_func *)aes256_decrypt, 16, before, CBC_SIZE, to, from);
    }
}

static void time_aes(double window, size_t size) {
    uint8_t block[16] = {0};
    TIME(window, name_of_block(size, "key schedule"), 1, make_keys(key, size, 1, 1));
    TIME(window, name_of_block(size, "key schedule, sealing"), 1, make_keys(key, size, 1, 0));
    TIME(window, name_of_block(size, "key schedule, opening"), 1, make_keys(key, size, 0, 1));
    make_keys(key, size, 1, 1);
    TIME(window, name_of_block(size, "block, encrypt"), CHAIN, chain_blocks(size, 1, block));
    TIME(window, name_of_block(size, "block, decrypt"), CHAIN, chain_blocks(size, 0, block));
    size_t total = bench_encrypt_cbc(key, size, payload, CBC_SIZE, ARRAY(ours));
    crypt_cbc(size, 1, payload, theirs);
    expect_same("AES CBC, encrypt", ours, total, theirs, CBC_SIZE);
    crypt_cbc(size, 0, theirs, ours);
    expect_same("AES CBC, decrypt", ours, CBC_SIZE, payload, CBC_SIZE);
    TIME(window, name_of_block(size, "CBC, encrypt 4096 octets"), 1, crypt_cbc(size, 1, payload, theirs));
    TIME(window, name_of_block(size, "CBC, decrypt 4096 octets"), 1, crypt_cbc(size, 0, theirs, ours));
}

static void hmac(size_t digest_size, const uint8_t *from, size_t count, uint8_t *to) {
    struct hmac_sha1_ctx sha1;
    struct hmac_sha256_ctx sha256;
    struct hmac_sha384_ctx sha384;
    if (digest_size == 20) {
        hmac_sha1_set_key(&sha1, 16, key);
        hmac_sha1_update(&sha1, count, from);
        hmac_sha1_digest(&sha1, digest_size, to);
    } else if (digest_size == 32) {
        hmac_sha256_set_key(&sha256, 16, key);
        hmac_sha256_update(&sha256, count, from);
        hmac_sha256_digest(&sha256, digest_size, to);
    } else {
        hmac_sha384_set_key(&sha384, 16, key);
        hmac_sha384_update(&sha384, count, from);
        hmac_sha384_digest(&sha384, digest_size, to);
    }
}

static void hash(size_t digest_size, const uint8_t *from, size_t count, uint8_t *to) {
    struct sha1_ctx sha1;
    struct sha256_ctx sha256;
    struct sha384_ctx sha384;
    if (digest_size == 20) {
        sha1_init(&sha1);
        sha1_update(&sha1, count, from);
        sha1_digest(&sha1, digest_size, to);
    } else if (digest_size == 32) {
        sha256_init(&sha256);
        sha256_update(&sha256, count, from);
        sha256_digest(&sha256, digest_size, to);
    } else {
        sha384_init(&sha384);
        sha384_update(&sha384, count, from);
        sha384_digest(&sha384, digest_size, to);
    }
}

static void time_hash(double window, size_t digest_size) {
    for (size_t n = 0; n < COUNT(sizes); n++) {
        hash(digest_size, payload, sizes[n], theirs);
        size_t made = bench_hash(digest_size, payload, sizes[n], ARRAY(ours));
        expect_same("a hash", ours, made, theirs, digest_size);
        TIME(window, name_of_hash(digest_size, sizes[n]), 1, hash(digest_size, payload, sizes[n], theirs));
    }
}

static void time_hmac(double window, size_t digest_size) {
    for (size_t n = 0; n < COUNT(sizes); n++) {
        hmac(digest_size, payload, sizes[n], theirs);
        size_t made = bench_hmac(digest_size, key, 16, payload, sizes[n], ARRAY(ours));
        expect_same("HMAC", ours, made, theirs, digest_size);
        TIME(window, name_of_hmac(digest_size, sizes[n]), 1, hmac(digest_size, payload, sizes[n], theirs));
    }
}

static void stretch(size_t n, uint8_t *seed) {
    octets password = (octets)PASSWORD, salt = (octets)stretched[n].salt;
    size_t count = sizeof PASSWORD - 1, size = suites[n].key_size, salt_size = stretched[n].salt_size;
    unsigned rounds = stretched[n].rounds;
    if (stretched[n].digest_size == 20) pbkdf2_hmac_sha1(count, password, rounds, salt_size, salt, size, seed);
    else if (stretched[n].digest_size == 32) pbkdf2_hmac_sha256(count, password, rounds, salt_size, salt, size, seed);
    else pbkdf2_hmac_sha384(count, password, rounds, salt_size, salt, size, seed);
}

int main(int count, char **arguments) {
    double window = (count > 1 ? atof(arguments[1]) : 20) * 1e6;
    uint8_t seed[32];
    fill_octets();
    expect_blocks_of(crypt_block);
    time_aes(window, 16);
    time_aes(window, 32);
    time_hash(window, 20);
    time_hash(window, 32);
    time_hash(window, 48);
    time_hmac(window, 20);
    time_hmac(window, 32);
    time_hmac(window, 48);
    for (size_t n = 0; n < COUNT(suites); n++) {
        stretch(n, seed);
        expect_key_of(n, seed);
        snprintf(name, sizeof name, "string to key, suite %zu", suites[n].etype);
        TIME(window, name, 1, stretch(n, seed));
    }
    return 0;
}
