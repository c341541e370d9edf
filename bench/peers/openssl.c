/* OpenSSL's AES by vector permutes, or by its assembler tables where the environment hides SSSE3 (OPENSSL_ia32cap); its SHA and PBKDF2.
 * With a second argument, `vpaes` or `tables`, which of the two. Its functions for blocks are called as they are. */
#define OPENSSL_SUPPRESS_DEPRECATED
#include <openssl/aes.h>
#include <openssl/evp.h>
#include <openssl/sha.h>

#include "primitives.h"

/* In the static library, with no header: the processor as OpenSSL sees it (CPUID 1, edx and ecx, and 7, ebx and ecx), and vpaes. */
extern unsigned OPENSSL_ia32cap_P[4];
enum { AES_NI = 1 << 25, SSSE3 = 1 << 9, SHA_NI = 1 << 29 };
int vpaes_set_encrypt_key(const uint8_t *key, int bits, AES_KEY *to);
int vpaes_set_decrypt_key(const uint8_t *key, int bits, AES_KEY *to);
void vpaes_encrypt(const uint8_t *from, uint8_t *to, const AES_KEY *key);
void vpaes_decrypt(const uint8_t *from, uint8_t *to, const AES_KEY *key);

static const struct aes {
    int (*sealing_key)(const uint8_t *key, int bits, AES_KEY *to);
    int (*opening_key)(const uint8_t *key, int bits, AES_KEY *to);
    void (*seal)(const uint8_t *from, uint8_t *to, const AES_KEY *key);
    void (*open)(const uint8_t *from, uint8_t *to, const AES_KEY *key);
} vpaes = {vpaes_set_encrypt_key, vpaes_set_decrypt_key, vpaes_encrypt, vpaes_decrypt},
  tables = {AES_set_encrypt_key, AES_set_decrypt_key, AES_encrypt, AES_decrypt};
static const struct aes *aes = &vpaes;
static EVP_CIPHER_CTX *context;
static const EVP_CIPHER *ciphers[2];

static void crypt_block(const uint8_t *any, size_t size, int sealing, uint8_t *block) {
    AES_KEY made;
    (sealing ? aes->sealing_key : aes->opening_key)(any, 8 * size, &made);
    (sealing ? aes->seal : aes->open)(block, block, &made);
}

static void chain_blocks(int sealing, const AES_KEY *made, uint8_t *block) {
    void (*crypt)(const uint8_t *, uint8_t *, const AES_KEY *) = sealing ? aes->seal : aes->open;
    for (int turn = 0; turn < CHAIN; turn++) {
        crypt(block, block, made);
    }
}

static void crypt_cbc(size_t size, int sealing, const uint8_t *from, uint8_t *to) {
    static const uint8_t zeros[16];
    int count;
    EVP_CipherInit_ex(context, ciphers[size / 16 - 1], 0, key, zeros, sealing);
    EVP_CIPHER_CTX_set_padding(context, 0);
    EVP_CipherUpdate(context, to, &count, from, CBC_SIZE);
}

static void time_aes(double window, size_t size) {
    AES_KEY made;
    uint8_t block[16] = {0};
    TIME(window, name_of_block(size, "key schedule"), 1,
         (aes->sealing_key(key, 8 * size, &made), aes->opening_key(key, 8 * size, &made)));
    TIME(window, name_of_block(size, "key schedule, sealing"), 1, aes->sealing_key(key, 8 * size, &made));
    TIME(window, name_of_block(size, "key schedule, opening"), 1, aes->opening_key(key, 8 * size, &made));
    aes->sealing_key(key, 8 * size, &made);
    TIME(window, name_of_block(size, "block, encrypt"), CHAIN, chain_blocks(1, &made, block));
    aes->opening_key(key, 8 * size, &made);
    TIME(window, name_of_block(size, "block, decrypt"), CHAIN, chain_blocks(0, &made, block));
    size_t total = bench_encrypt_cbc(key, size, payload, CBC_SIZE, ARRAY(ours));
    crypt_cbc(size, 1, payload, theirs);
    expect_same("AES CBC, encrypt", ours, total, theirs, CBC_SIZE);
    crypt_cbc(size, 0, theirs, ours);
    expect_same("AES CBC, decrypt", ours, CBC_SIZE, payload, CBC_SIZE);
    TIME(window, name_of_block(size, "CBC, encrypt 4096 octets"), 1, crypt_cbc(size, 1, payload, theirs));
    TIME(window, name_of_block(size, "CBC, decrypt 4096 octets"), 1, crypt_cbc(size, 0, theirs, ours));
}

/* HMAC (RFC 2104) over the hash functions as they are: a call of HMAC() looks its algorithm up first. */
#define DEFINE_HMAC(hmac, CONTEXT, init, update, final, BLOCK, SIZE)             \
    static void hmac(const uint8_t *of, size_t of_size, const uint8_t *from, size_t count, uint8_t *to) { \
        uint8_t inner[BLOCK], outer[BLOCK];                                      \
        CONTEXT state;                                                           \
        for (size_t i = 0; i < BLOCK; i++) {                                     \
            uint8_t octet = i < of_size ? of[i] : 0;                             \
            inner[i] = octet ^ 0x36;                                             \
            outer[i] = octet ^ 0x5c;                                             \
        }                                                                        \
        init(&state);                                                            \
        update(&state, inner, BLOCK);                                            \
        update(&state, from, count);                                             \
        final(to, &state);                                                       \
        init(&state);                                                            \
        update(&state, outer, BLOCK);                                            \
        update(&state, to, SIZE);                                                \
        final(to, &state);                                                       \
    }
DEFINE_HMAC(hmac_sha1, SHA_CTX, SHA1_Init, SHA1_Update, SHA1_Final, 64, 20)
DEFINE_HMAC(hmac_sha256, SHA256_CTX, SHA256_Init, SHA256_Update, SHA256_Final, 64, 32)
DEFINE_HMAC(hmac_sha384, SHA512_CTX, SHA384_Init, SHA384_Update, SHA384_Final, 128, 48)

/* The hash functions themselves: what HMAC cannot be faster than. */
#define DEFINE_HASH(hash, CONTEXT, init, update, final)                \
    static void hash(const uint8_t *from, size_t count, uint8_t *to) { \
        CONTEXT state;                                                 \
        init(&state);                                                  \
        update(&state, from, count);                                   \
        final(to, &state);                                             \
    }
DEFINE_HASH(hash_sha1, SHA_CTX, SHA1_Init, SHA1_Update, SHA1_Final)
DEFINE_HASH(hash_sha256, SHA256_CTX, SHA256_Init, SHA256_Update, SHA256_Final)
DEFINE_HASH(hash_sha384, SHA512_CTX, SHA384_Init, SHA384_Update, SHA384_Final)

static void time_hash(double window, size_t digest_size, void (*hash)(const uint8_t *, size_t, uint8_t *)) {
    for (size_t n = 0; n < COUNT(sizes); n++) {
        hash(payload, sizes[n], theirs);
        size_t made = bench_hash(digest_size, payload, sizes[n], ARRAY(ours));
        expect_same("a hash", ours, made, theirs, digest_size);
        TIME(window, name_of_hash(digest_size, sizes[n]), 1, hash(payload, sizes[n], theirs));
    }
}

static void time_hmac(double window, size_t digest_size, void (*hmac)(const uint8_t *, size_t, const uint8_t *, size_t, uint8_t *)) {
    for (size_t n = 0; n < COUNT(sizes); n++) {
        hmac(key, 16, payload, sizes[n], theirs);
        size_t made = bench_hmac(digest_size, key, 16, payload, sizes[n], ARRAY(ours));
        expect_same("HMAC", ours, made, theirs, digest_size);
        TIME(window, name_of_hmac(digest_size, sizes[n]), 1, hmac(key, 16, payload, sizes[n], theirs));
    }
}

static void time_password(double window, size_t n) {
    uint8_t seed[32];
    const EVP_MD *digest = n < 2 ? EVP_sha1() : n == 2 ? EVP_sha256() : EVP_sha384();
    snprintf(name, sizeof name, "string to key, suite %zu", suites[n].etype);
#define STRETCH                                                                                                      \
    PKCS5_PBKDF2_HMAC(PASSWORD, sizeof PASSWORD - 1, (octets)stretched[n].salt, stretched[n].salt_size,              \
                      stretched[n].rounds, digest, suites[n].key_size, seed)
    STRETCH;
    expect_key_of(n, seed);
    TIME(window, name, 1, STRETCH);
}

int main(int count, char **arguments) {
    double window = (count > 1 ? atof(arguments[1]) : 20) * 1e6;
    int is_tables = count > 2 && strcmp(arguments[2], "tables") == 0;
    aes = is_tables ? &tables : &vpaes;
    if (OPENSSL_ia32cap_P[1] & AES_NI || OPENSSL_ia32cap_P[2] & SHA_NI || is_tables == !!(OPENSSL_ia32cap_P[1] & SSSE3)) {
        fprintf(stderr, "OpenSSL sees instructions that are to be hidden, or no SSSE3\n");
        return 1;
    }
    fill_octets();
    context = EVP_CIPHER_CTX_new();
    ciphers[0] = EVP_CIPHER_fetch(0, "AES-128-CBC", 0);
    ciphers[1] = EVP_CIPHER_fetch(0, "AES-256-CBC", 0);
    expect_blocks_of(crypt_block);
    time_aes(window, 16);
    time_aes(window, 32);
    if (is_tables) {
        return 0;
    }
    time_hash(window, 20, hash_sha1);
    time_hash(window, 32, hash_sha256);
    time_hash(window, 48, hash_sha384);
    time_hmac(window, 20, hmac_sha1);
    time_hmac(window, 32, hmac_sha256);
    time_hmac(window, 48, hmac_sha384);
    for (size_t n = 0; n < COUNT(suites); n++) {
        time_password(window, n);
    }
    return 0;
}
