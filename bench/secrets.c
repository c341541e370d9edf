/* Makes one call on octets that valgrind is told are undefined: keys, confounders, payloads, passwords, seeds. It reports each branch and
 * each address that depends on them. The argument is the call's name, or --list. Prints whether the answer depends on the secrets.
 *
 * Public are lengths, constants, salts, what was sealed, and each answer once the call has returned. */
#include "library.h"
#include "part.h"
#include <stdlib.h>
#include <string.h>
#include <valgrind/memcheck.h>

enum { LONG = 100, ROOM = 1024, USAGE = 2 };

static uint8_t key[32], long_key[200], confounder[16], payload[LONG], block[16], password[10], small[ROOM];
static uint8_t sealed[ROOM], wanted[ROOM], made[ROOM];
static size_t size, small_size, sealed_size;

/* The payloads' sizes: `size` goes through them. With a confounder they are one block, two, and a last block that is not whole. */
static const size_t sizes[] = {0, 16, 33, LONG};

struct call {
    const char *name;
    size_t (*make)(const struct call *call, uint8_t *out);
    size_t etype; /* or the size of a key or of a digest */
    void (*prepare)(const struct call *call);
};

static size_t key_size_of(size_t etype) {
    return etype == 16 ? 24 : etype == 17 || etype == 19 ? 16 : 32;
}

/* A key, and a confounder, of the call's suite; an answer's room. */
#define KEY key, key_size_of(call->etype)
#define CONFOUNDER confounder, call->etype == 16 ? 8 : 16
#define OUT out, ROOM

#define CALL(name, expression)                                         \
    static size_t name(const struct call *call, uint8_t *out) {        \
        (void)call;                                                    \
        return expression;                                             \
    }
CALL(encrypt_block, (memcpy(out, block, 16), bench_aes_encrypt(key, call->etype, 1, out, 16)))
CALL(decrypt_block, (memcpy(out, block, 16), bench_aes_decrypt(key, call->etype, 1, out, 16)))
CALL(encrypt_des, (memcpy(out, block, 8), bench_des_encrypt(key, 24, 1, out, 8)))
CALL(decrypt_des, (memcpy(out, block, 8), bench_des_decrypt(key, 24, 1, out, 8)))
CALL(encrypt_cbc, bench_encrypt_cbc(key, call->etype, payload, 96, OUT))
CALL(decrypt_cbc, bench_decrypt_cbc(key, call->etype, payload, 96, OUT))
CALL(encrypt_cts, bench_encrypt_cts(key, call->etype, payload, size < 16 ? 16 : size, OUT))
CALL(decrypt_cts, bench_decrypt_cts(key, call->etype, payload, size < 16 ? 16 : size, OUT))
CALL(hmac, bench_hmac(call->etype, key, 16, payload, size, OUT))
CALL(hmac_long, bench_hmac(call->etype, ARRAY(long_key), payload, size, OUT))
CALL(seal, bench_seal(call->etype, KEY, USAGE, CONFOUNDER, payload, size, OUT))
static size_t open_octets(const struct call *call, uint8_t *out) {
    return bench_open(call->etype, KEY, USAGE, sealed, sealed_size, out, ROOM);
}
CALL(open_sealed, size ? open_octets(call, out) : open_octets(call, out) == 0 ? (*out = *key, 1) : 0)
CALL(reject, open_octets(call, out) == 0 ? (*out = *key, 1) : 0)
CALL(checksum, bench_checksum(call->etype, KEY, USAGE, payload, size, OUT))
CALL(derive, bench_derive_key(call->etype, KEY, TEXT("\0\0\0\2\x99"), OUT))
CALL(fold, bench_n_fold(ARRAY(password), 16, OUT))
CALL(string_to_key, bench_string_to_key(call->etype, ARRAY(password), TEXT("EXAMPLE.COMtest1"), OUT))
CALL(open_part, bench_open_part(call->etype, KEY, USAGE, sealed, sealed_size) ? (memcpy(out, key, 16), 16) : 0)

/* Controls: what has to be reported, and what must not be. */
static const uint8_t squares[256] = {1, 4, 9, 16, 25, 36, 49, 64, 81, 100};
CALL(bad_address, (out[0] = squares[key[0]], out[1] = key[1], 2))
CALL(bad_branch, ({
    out[0] = key[1];
    if (key[0] % 2) {
        __asm__ volatile(""); /* keeps the branch a branch */
        out[0] += 1;
    }
    1;
}))
__attribute__((target("ssse3"))) CALL(good_permute, ({
    typedef char vector __attribute__((vector_size(16)));
    vector table, place;
    memcpy(&table, squares, 16);
    memcpy(&place, key, 16);
    table = __builtin_ia32_pshufb128(table, place & 15);
    memcpy(out, &table, 16);
    16;
}))
CALL(good_arithmetic, (out[0] = (key[0] ^ key[1]) * key[2] + (key[3] >> 3), 1))

/* With a key that is made once, and AES by word tables, which looks octets up. */
CALL(kept_seal, bench_kept_seal(call->etype, KEY, USAGE, CONFOUNDER, payload, size, 1, OUT))
CALL(kept_checksum, bench_kept_checksum(call->etype, KEY, USAGE, payload, size, 1, OUT))
CALL(encrypt_by_tables, (memcpy(out, block, 16), bench_table_encrypt(key, call->etype, 1, out, 16)))
CALL(decrypt_by_tables, (memcpy(out, block, 16), bench_table_decrypt(key, call->etype, 1, out, 16)))
static size_t kept_octets(const struct call *call, uint8_t *out) {
    return bench_kept_open(call->etype, KEY, USAGE, sealed, sealed_size, 1, out, ROOM);
}
CALL(kept_open, size ? kept_octets(call, out) : kept_octets(call, out) == 0 ? (*out = *key, 1) : 0)
CALL(kept_verify, ({
    uint64_t found = bench_kept_verify(call->etype, KEY, USAGE, payload, size, sealed, sealed_size, 1);
    VALGRIND_MAKE_MEM_DEFINED(&found, sizeof found);
    *out = *key;
    found;
}))

static void seal_first(const struct call *call) {
    sealed_size = seal(call, sealed);
}

static void spoil_first(const struct call *call) {
    seal_first(call);
    sealed[sealed_size - 1] ^= 1;
}

static void sum_first(const struct call *call) {
    sealed_size = checksum(call, sealed);
}

static void seal_part_first(const struct call *call) {
    sealed_size = bench_seal(call->etype, KEY, USAGE, CONFOUNDER, small, small_size, sealed, ROOM);
}

#include "secrets_of_c.h"

#define SUITE(number)                                                      \
    {"seal, suite " #number, seal, number, 0},                             \
    {"open, suite " #number, open_sealed, number, seal_first},             \
    {"reject, suite " #number, reject, number, spoil_first},               \
    {"checksum, suite " #number, checksum, number, 0},                     \
    {"derive a key, suite " #number, derive, number, 0},                   \
    {"string to key, suite " #number, string_to_key, number, 0},           \
    {"open a part, suite " #number, open_part, number, seal_part_first}
#define KEPT(number)                                                       \
    {"kept key: seal, suite " #number, kept_seal, number, 0},              \
    {"kept key: open, suite " #number, kept_open, number, seal_first},     \
    {"kept key: checksum, suite " #number, kept_checksum, number, 0},      \
    {"kept key: verify, suite " #number, kept_verify, number, sum_first}
#define SIZE(bits, octets)                                                 \
    {"AES" #bits " block, encrypt", encrypt_block, octets, 0},             \
    {"AES" #bits " block, decrypt", decrypt_block, octets, 0},             \
    {"AES" #bits " CBC, encrypt", encrypt_cbc, octets, 0},                 \
    {"AES" #bits " CBC, decrypt", decrypt_cbc, octets, 0},                 \
    {"AES" #bits " stealing, encrypt", encrypt_cts, octets, 0},            \
    {"AES" #bits " stealing, decrypt", decrypt_cts, octets, 0}

static const struct call calls[] = {
    {"control: an address", bad_address, 0, 0},
    {"control: a branch", bad_branch, 0, 0},
    {"control: a permute", good_permute, 0, 0},
    {"control: arithmetic", good_arithmetic, 0, 0},
    SIZE(128, 16),
    SIZE(256, 32),
    {"HMAC-SHA1", hmac, 20, 0},
    {"HMAC-SHA1, long key", hmac_long, 20, 0},
    {"HMAC-SHA256", hmac, 32, 0},
    {"HMAC-SHA256, long key", hmac_long, 32, 0},
    {"HMAC-SHA384", hmac, 48, 0},
    {"HMAC-SHA384, long key", hmac_long, 48, 0},
    {"n-fold", fold, 0, 0},
    SUITE(17),
    SUITE(18),
    SUITE(19),
    SUITE(20),
    {"triple DES block, encrypt", encrypt_des, 0, 0},
    {"triple DES block, decrypt", decrypt_des, 0, 0},
    SUITE(16),
    KEPT(17),
    KEPT(18),
    KEPT(19),
    KEPT(20),
    KEPT(16),
    {"AES128 block by word tables, encrypt", encrypt_by_tables, 16, 0},
    {"AES128 block by word tables, decrypt", decrypt_by_tables, 16, 0},
    C_KEPT(17),
    C_KEPT(18),
    C_KEPT(19),
    C_KEPT(20),
    C_KEPT(16),
    C_TOKENS(17),
    C_TOKENS(18),
    C_TOKENS(19),
    C_TOKENS(20),
};

/* Whether the copy of the library has what the call is made of. */
static int is_there(const struct call *call) {
    return bench_kept_seal || (strncmp(call->name, "kept key", 8) != 0 && strstr(call->name, "word tables") == 0);
}

static void fill_octets(void) {
    for (size_t i = 0; i < sizeof key; i++) {
        key[i] = 2 * i + 1;
    }
    memset(long_key, 0x4b, sizeof long_key);
    memset(confounder, 0xc5, sizeof confounder);
    memset(payload, 0x5a, sizeof payload);
    memset(block, 0xb1, sizeof block);
    memcpy(password, "5hYYSAfFJp", sizeof password);
    small_size = octets_of(small_part, small);
}

/* The secrets become unknown to valgrind, or known again. Their octets stay as they are. */
static void hide(int hidden) {
    static const struct {
        uint8_t *at;
        size_t count;
    } secrets[] = {{ARRAY(key)}, {ARRAY(long_key)}, {ARRAY(confounder)}, {ARRAY(payload)}, {ARRAY(block)}, {ARRAY(password)}};
    for (size_t i = 0; i < sizeof secrets / sizeof *secrets; i++) {
        if (hidden) {
            VALGRIND_MAKE_MEM_UNDEFINED(secrets[i].at, secrets[i].count);
        } else {
            VALGRIND_MAKE_MEM_DEFINED(secrets[i].at, secrets[i].count);
        }
    }
}

/* Whether valgrind takes some bit of the answer for undefined. */
static int depends(const uint8_t *answer, size_t count) {
    static uint8_t bits[ROOM];
    VALGRIND_GET_VBITS(answer, bits, count);
    for (size_t i = 0; i < count; i++) {
        if (bits[i] != 0) {
            return 1;
        }
    }
    return 0;
}

/* Makes the call with the secrets known and then unknown, and returns whether its answer depends on them. The answers are to be the same. */
static int make(const struct call *call) {
    if (call->prepare) {
        call->prepare(call);
    }
    size_t count = call->make(call, wanted);
    hide(1);
    size_t other = call->make(call, made);
    hide(0);
    VALGRIND_MAKE_MEM_DEFINED(&other, sizeof other);
    int hidden = depends(made, other);
    VALGRIND_MAKE_MEM_DEFINED(made, sizeof made);
    if (count == 0 || count > ROOM || other != count || memcmp(made, wanted, count) != 0) {
        fprintf(stderr, "%s: refused, or another answer\n", call->name);
        exit(1);
    }
    return hidden;
}

static int varies(const struct call *call) {
    return call->make != string_to_key && call->make != open_part;
}

static int make_all(const struct call *call) {
    int hidden = 1;
    for (size_t i = varies(call) ? 0 : sizeof sizes / sizeof *sizes - 1; i < sizeof sizes / sizeof *sizes; i++) {
        size = sizes[i];
        hidden &= make(call);
    }
    puts(hidden ? "depends" : "does not depend");
    return 0;
}

int main(int count, char **arguments) {
    fill_octets();
    for (size_t i = 0; i < sizeof calls / sizeof *calls; i++) {
        if (!is_there(&calls[i])) {
            continue;
        }
        if (count < 2 || strcmp(arguments[1], "--list") == 0) {
            puts(calls[i].name);
        } else if (strcmp(arguments[1], calls[i].name) == 0) {
            return RUNNING_ON_VALGRIND ? make_all(&calls[i]) : 2;
        }
    }
    return count < 2 || strcmp(arguments[1], "--list") == 0 ? 0 : 2;
}
