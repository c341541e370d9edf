/* Known results. A library that returns another is reported, and nothing is printed of it. */
#ifndef ANSWERS_H
#define ANSWERS_H
#include "octets.h"
#include "part.h"
#include <stdlib.h>
#include <string.h>

/* Ends the program unless this call made the octets of these digits. */
static void expect(const char *call, size_t made, octets out, const char *digits) {
    uint8_t wanted[4096];
    size_t count = octets_of(digits, wanted);
    if (made != count || memcmp(out, wanted, count) != 0) {
        fprintf(stderr, "%s: not the known answer\n", call);
        exit(1);
    }
}

/* FIPS 197, C.1 and C.3; NIST SP 800-67, B. */
static void expect_blocks(void) {
    static const char *const plain = "00112233445566778899aabbccddeeff";
    static const char *const small = "69c4e0d86a7b0430d8cdb78070b4c55a";
    static const char *const large = "8ea2b7ca516745bfeafc49904b496089";
    static const char *const word = "5468652071756663", *const hidden = "a826fd8ce53b855f";
    uint8_t key[32], keys[24], block[16], half[8];
    for (int i = 0; i < 32; i++) {
        key[i] = i;
    }
    octets_of("0123456789abcdef23456789abcdef01456789abcdef0123", keys);
    octets_of(plain, block);
    octets_of(word, half);
    expect("AES128, encrypt", bench_aes_encrypt(key, 16, 1, ARRAY(block)), block, small);
    expect("AES128, decrypt", bench_aes_decrypt(key, 16, 1, ARRAY(block)), block, plain);
    expect("AES256, encrypt", bench_aes_encrypt(key, 32, 1, ARRAY(block)), block, large);
    expect("AES256, decrypt", bench_aes_decrypt(key, 32, 1, ARRAY(block)), block, plain);
    expect("triple DES, encrypt", bench_des_encrypt(ARRAY(keys), 1, ARRAY(half)), half, hidden);
    expect("triple DES, decrypt", bench_des_decrypt(ARRAY(keys), 1, ARRAY(half)), half, word);
}

/* n-fold: RFC 3961, A.1, and one by Python. Keys: RFC 3961, A.4, and four by Python. */
static void expect_keys(void) {
    uint8_t out[32];
    expect("n-fold to 128 bits", bench_n_fold(TEXT("kerberos"), 16, ARRAY(out)), out,
           "6b65726265726f737b9b5b2b93132b93");
    expect("n-fold to 168 bits", bench_n_fold(TEXT("kerberos"), 21, ARRAY(out)), out,
           "8372c236344e5f1550cd0747e15d62ca7a5a3bcea4");
    expect("n-fold of 5 octets", bench_n_fold(TEXT("\0\0\0\2\xaa"), 16, ARRAY(out)), out,
           "b5b0582c14b6500aad56ab55aa80556a");
    expect("string to key, suite 16",
           bench_string_to_key(16, TEXT("password"), TEXT("ATHENA.MIT.EDUraeburn"), ARRAY(out)), out,
           "850bb51358548cd05e86768c313e3bfef7511937dcf72c3e");
    static const char *const keys[] = {
        "bb43d002e37743161256aec90681cfdc",
        "daded1cc15ae17deaa63a490f7678944758f3b255a542569cb20eba761eeabac",
        "78c98f9d0b74b9b57195be0fd553a71c",
        "ce84d695a69c689855158579fe1dfc4150f4cc2ffa0f21662ee8818a9d87c178",
    };
    for (size_t i = 0; i < sizeof keys / sizeof *keys; i++) {
        expect("string to key, a suite of AES",
               bench_string_to_key(17 + i, TEXT("5hYYSAfFJp"), TEXT("EXAMPLE.COMtest1"), ARRAY(out)), out, keys[i]);
    }
}

/* AES by permutes and AES by word tables, which are proved to be the same, under random keys: both sizes, both directions. */
static void expect_tables(void) {
    uint8_t key[32], block[16], one[16], other[16];
    for (int turn = 0; turn < 2 * TRIES; turn++) {
        size_t size = turn % 2 ? 32 : 16;
        draw_any(key, size);
        draw_any(ARRAY(block));
        memcpy(one, block, 16);
        memcpy(other, block, 16);
        if (bench_aes_encrypt(key, size, 1, ARRAY(one)) != 16 || bench_table_encrypt(key, size, 1, ARRAY(other)) != 16 ||
            memcmp(one, other, 16) != 0 || bench_table_decrypt(key, size, 1, ARRAY(one)) != 16 ||
            bench_aes_decrypt(key, size, 1, ARRAY(other)) != 16 || memcmp(one, other, 16) != 0 ||
            memcmp(one, block, 16) != 0) {
            fprintf(stderr, "AES by word tables answers otherwise\n");
            exit(1);
        }
    }
}

/* A part's octets. */
struct octets_of_part {
    uint8_t key[32], confounder[16], plain[1024], sealed[1024];
    size_t key_size, confounder_size, plain_size, sealed_size;
};

static struct octets_of_part read_digits(const struct part *part) {
    struct octets_of_part to;
    to.key_size = octets_of(part->key, to.key);
    to.confounder_size = octets_of(part->confounder, to.confounder);
    to.plain_size = octets_of(part->plain, to.plain);
    to.sealed_size = octets_of(part->sealed, to.sealed);
    return to;
}

/* Each part is read and written, sealed to what its server sealed it to, and opened. */
static void expect_parts(void) {
    static uint8_t out[1024];
    for (size_t i = 0; i < sizeof parts / sizeof *parts; i++) {
        struct octets_of_part it = read_digits(&parts[i]);
        expect("write", bench_write_part(it.plain, it.plain_size, 1, ARRAY(out)), out, parts[i].plain);
        expect("seal",
               bench_seal_part(parts[i].etype, it.key, it.key_size, 2, it.confounder, it.confounder_size,
                               it.plain, it.plain_size, 1, ARRAY(out)),
               out, parts[i].sealed);
        if (bench_open_part(parts[i].etype, it.key, it.key_size, 2, it.sealed, it.sealed_size) == 0) {
            fprintf(stderr, "open: refused\n");
            exit(1);
        }
    }
}
#endif
