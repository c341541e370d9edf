/* Prints the time of each call, in nanoseconds, a line a call: its name, a tab, the number.
 * The argument is the window of a measurement in milliseconds. */
#include "answers.h"
#include "timing.h"

enum { LARGE = 65536, FRAME = 64, CBC_SIZE = 4096 };

static const struct {
    size_t etype, key_size, confounder_size;
} suites[] = {{16, 24, 8}, {17, 16, 16}, {18, 32, 16}, {19, 16, 16}, {20, 32, 16}};

static const size_t sizes[] = {64, 1024, LARGE};
static double window;
static char name[96];
static uint8_t key[32], confounder[16], payload[LARGE], sealed[LARGE + FRAME], opened[LARGE + FRAME];

static void time_blocks(void) {
    uint8_t block[16] = {0};
    for (size_t size = 16; size <= 32; size += 16) {
        snprintf(name, sizeof name, "AES%zu block, encrypt", 8 * size);
        TIME(window, name, 1000, bench_aes_encrypt(key, size, 1000, ARRAY(block)));
        snprintf(name, sizeof name, "AES%zu block, decrypt", 8 * size);
        TIME(window, name, 1000, bench_aes_decrypt(key, size, 1000, ARRAY(block)));
        snprintf(name, sizeof name, "AES%zu key schedule", 8 * size);
        TIME(window, name, 1, bench_aes_encrypt(key, size, 0, ARRAY(block)));
    }
    for (size_t size = 16; size <= 32 && bench_encryption_key; size += 16) {
        snprintf(name, sizeof name, "AES%zu key schedule, sealing", 8 * size);
        TIME(window, name, 1, bench_encryption_key(key, size, 0, ARRAY(block)));
        snprintf(name, sizeof name, "AES%zu key schedule, opening", 8 * size);
        TIME(window, name, 1, bench_decryption_key(key, size, 0, ARRAY(block)));
        snprintf(name, sizeof name, "AES%zu block by word tables, encrypt", 8 * size);
        TIME(window, name, 1000, bench_table_encrypt(key, size, 1000, ARRAY(block)));
        snprintf(name, sizeof name, "AES%zu block by word tables, decrypt", 8 * size);
        TIME(window, name, 1000, bench_table_decrypt(key, size, 1000, ARRAY(block)));
    }
    for (size_t size = 16; size <= 32; size += 16) {
        snprintf(name, sizeof name, "AES%zu CBC, encrypt 4096 octets", 8 * size);
        TIME(window, name, 1, bench_encrypt_cbc(key, size, payload, CBC_SIZE, NO_ROOM));
        snprintf(name, sizeof name, "AES%zu CBC, decrypt 4096 octets", 8 * size);
        TIME(window, name, 1, bench_decrypt_cbc(key, size, payload, CBC_SIZE, NO_ROOM));
    }
    TIME(window, "triple DES block, encrypt", 100, bench_des_encrypt(key, 24, 100, block, 8));
    TIME(window, "triple DES block, decrypt", 100, bench_des_decrypt(key, 24, 100, block, 8));
    TIME(window, "triple DES key schedule", 1, bench_des_encrypt(key, 24, 0, block, 8));
}

static void time_hmac(void) {
    static const size_t digests[] = {20, 32, 48};
    for (size_t i = 0; i < 3; i++) {
        for (size_t n = 0; n < sizeof sizes / sizeof *sizes; n++) {
            snprintf(name, sizeof name, "SHA%zu, %zu octets", digests[i] == 20 ? 1 : 8 * digests[i], sizes[n]);
            TIME(window, name, 1, bench_hash(digests[i], payload, sizes[n], NO_ROOM));
        }
        for (size_t n = 0; n < sizeof sizes / sizeof *sizes; n++) {
            snprintf(name, sizeof name, "HMAC-SHA%zu, %zu octets", digests[i] == 20 ? 1 : 8 * digests[i], sizes[n]);
            TIME(window, name, 1, bench_hmac(digests[i], key, 16, payload, sizes[n], NO_ROOM));
        }
    }
}

static void time_messages(size_t etype, size_t key_size, size_t confounder_size) {
    for (size_t i = 0; i < sizeof sizes / sizeof *sizes; i++) {
        size_t total = bench_seal(etype, key, key_size, 2, confounder, confounder_size, payload, sizes[i],
                                  ARRAY(sealed));
        snprintf(name, sizeof name, "seal %zu octets, suite %zu", sizes[i], etype);
        TIME(window, name, 1,
             bench_seal(etype, key, key_size, 2, confounder, confounder_size, payload, sizes[i], NO_ROOM));
        snprintf(name, sizeof name, "open %zu octets, suite %zu", sizes[i], etype);
        if (bench_open(etype, key, key_size, 2, sealed, total, ARRAY(opened)) < sizes[i] ||
            memcmp(opened, payload, sizes[i]) != 0) {
            fprintf(stderr, "%s: not what was sealed\n", name);
            exit(1);
        }
        TIME(window, name, 1, bench_open(etype, key, key_size, 2, sealed, total, NO_ROOM));
    }
}

/* Each call makes the key once and uses it often: for a hundred microseconds or more, so that making it is a hundredth at most. */
static void time_kept(size_t etype, size_t key_size, size_t confounder_size) {
    static const uint64_t counts[] = {1000, 200, 10};
    static uint8_t checksum[32];
    for (size_t i = 0; i < sizeof sizes / sizeof *sizes; i++) {
        uint64_t times = counts[i];
        size_t total = bench_kept_seal(etype, key, key_size, 2, confounder, confounder_size, payload, sizes[i], 1,
                                       ARRAY(sealed));
        size_t wanted = bench_seal(etype, key, key_size, 2, confounder, confounder_size, payload, sizes[i], ARRAY(opened));
        if (total == 0 || total != wanted || memcmp(sealed, opened, total) != 0 ||
            bench_kept_open(etype, key, key_size, 2, sealed, total, 1, ARRAY(opened)) < sizes[i] ||
            memcmp(opened, payload, sizes[i]) != 0) {
            fprintf(stderr, "suite %zu: a kept key answers otherwise\n", etype);
            exit(1);
        }
        snprintf(name, sizeof name, "seal %zu octets, suite %zu, key kept", sizes[i], etype);
        TIME(window, name, times,
             bench_kept_seal(etype, key, key_size, 2, confounder, confounder_size, payload, sizes[i], times, NO_ROOM));
        snprintf(name, sizeof name, "open %zu octets, suite %zu, key kept", sizes[i], etype);
        TIME(window, name, times, bench_kept_open(etype, key, key_size, 2, sealed, total, times, NO_ROOM));
    }
    snprintf(name, sizeof name, "make a key to seal, suite %zu", etype);
    TIME(window, name, 1, bench_kept_seal(etype, key, key_size, 2, confounder, confounder_size, payload, 64, 0, NO_ROOM));
    snprintf(name, sizeof name, "make a key to open, suite %zu", etype);
    TIME(window, name, 1, bench_kept_open(etype, key, key_size, 2, sealed, 0, 0, NO_ROOM));
    size_t size = bench_kept_checksum(etype, key, key_size, 2, payload, 64, 1, ARRAY(checksum));
    if (bench_kept_verify(etype, key, key_size, 2, payload, 64, checksum, size, 1) != 1) {
        fprintf(stderr, "suite %zu: a checksum is not verified\n", etype);
        exit(1);
    }
    snprintf(name, sizeof name, "verify a checksum of 64 octets, suite %zu, key kept", etype);
    TIME(window, name, 1000, bench_kept_verify(etype, key, key_size, 2, payload, 64, checksum, size, 1000));
}

static void time_keys(void) {
    uint8_t out[32];
    for (size_t etype = 16; etype <= 20; etype++) {
        snprintf(name, sizeof name, "string to key, suite %zu", etype);
        TIME(window, name, 1,
             bench_string_to_key(etype, TEXT("5hYYSAfFJp"), TEXT("EXAMPLE.COMtest1"), ARRAY(out)));
    }
    TIME(window, "n-fold, 8 octets to 128 bits", 1, bench_n_fold(TEXT("kerberos"), 16, ARRAY(out)));
    TIME(window, "n-fold, 8 octets to 168 bits", 1, bench_n_fold(TEXT("kerberos"), 21, ARRAY(out)));
    TIME(window, "n-fold, 5 octets to 128 bits", 1, bench_n_fold(TEXT("\0\0\0\2\xaa"), 16, ARRAY(out)));
}

static void time_kept_part(size_t etype, const struct octets_of_part *it) {
    static uint8_t made[1024];
    size_t total = bench_kept_seal_part(etype, it->key, it->key_size, 2, it->confounder, it->confounder_size, it->plain,
                                        it->plain_size, 1, ARRAY(made));
    if (total != it->sealed_size || memcmp(made, it->sealed, total) != 0 ||
        bench_kept_open_part(etype, it->key, it->key_size, 2, made, total, 1) == 0) {
        fprintf(stderr, "suite %zu: a part under a kept key is another\n", etype);
        exit(1);
    }
    snprintf(name, sizeof name, "seal a part of %zu octets, suite %zu, key kept", it->plain_size, etype);
    TIME(window, name, 1000,
         bench_kept_seal_part(etype, it->key, it->key_size, 2, it->confounder, it->confounder_size, it->plain,
                              it->plain_size, 1000, NO_ROOM));
    snprintf(name, sizeof name, "open a part of %zu octets, suite %zu, key kept", it->plain_size, etype);
    TIME(window, name, 1000, bench_kept_open_part(etype, it->key, it->key_size, 2, made, total, 1000));
}

static void time_part(const struct part *part) {
    struct octets_of_part it = read_digits(part);
    snprintf(name, sizeof name, "seal a part of %zu octets, suite %zu", it.plain_size, part->etype);
    TIME(window, name, 100,
         bench_seal_part(part->etype, it.key, it.key_size, 2, it.confounder, it.confounder_size, it.plain,
                         it.plain_size, 100, NO_ROOM));
    snprintf(name, sizeof name, "open a part of %zu octets, suite %zu", it.plain_size, part->etype);
    TIME(window, name, 1, bench_open_part(part->etype, it.key, it.key_size, 2, it.sealed, it.sealed_size));
    if (bench_kept_seal_part) {
        time_kept_part(part->etype, &it);
    }
}

int main(int count, char **arguments) {
    uint8_t small[256];
    size_t size = octets_of(small_part, small);
    window = (count > 1 ? atof(arguments[1]) : 20) * 1e6;
    expect_blocks();
    expect_keys();
    expect_parts();
    if (bench_table_encrypt) {
        expect_tables();
    }
    for (size_t i = 0; i < sizeof key; i++) {
        key[i] = 2 * i + 1;
    }
    memset(payload, 0x5a, sizeof payload);
    time_blocks();
    time_hmac();
    for (size_t i = 0; i < sizeof suites / sizeof *suites; i++) {
        time_messages(suites[i].etype, suites[i].key_size, suites[i].confounder_size);
        if (bench_kept_seal) {
            time_kept(suites[i].etype, suites[i].key_size, suites[i].confounder_size);
        }
    }
    time_keys();
    TIME(window, "read a part of 149 octets", 1, bench_read_part(small, size));
    TIME(window, "write a part of 149 octets", 1000, bench_write_part(small, size, 1000, NO_ROOM));
    for (size_t i = 0; i < sizeof parts / sizeof *parts; i++) {
        time_part(&parts[i]);
    }
    return 0;
}
