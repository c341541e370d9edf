/* Heimdal: a krb5_crypto is a key that is kept, with what was derived from it; AES of its hcrypto. */
#include <krb5.h>
#include <hcrypto/aes.h>

#include "primitives.h"

static krb5_context context;

/* Found before the library's own: a drawn confounder is no part of what is compared or timed. */
void krb5_generate_random_block(void *to, size_t count) {
    draw(to, count);
}

static void crypt_block(const uint8_t *any, size_t size, int sealing, uint8_t *block) {
    AES_KEY made;
    if (sealing) {
        AES_set_encrypt_key(any, 8 * size, &made);
        AES_encrypt(block, block, &made);
    } else {
        AES_set_decrypt_key(any, 8 * size, &made);
        AES_decrypt(block, block, &made);
    }
}

static void chain_blocks(int sealing, const AES_KEY *made, uint8_t *block) {
    for (int turn = 0; turn < CHAIN; turn++) {
        if (sealing) AES_encrypt(block, block, made);
        else AES_decrypt(block, block, made);
    }
}

static void time_aes(double window, size_t size) {
    AES_KEY made;
    uint8_t block[16] = {0};
    TIME(window, name_of_block(size, "key schedule"), 1,
         (AES_set_encrypt_key(key, 8 * size, &made), AES_set_decrypt_key(key, 8 * size, &made)));
    TIME(window, name_of_block(size, "key schedule, sealing"), 1, AES_set_encrypt_key(key, 8 * size, &made));
    TIME(window, name_of_block(size, "key schedule, opening"), 1, AES_set_decrypt_key(key, 8 * size, &made));
    AES_set_encrypt_key(key, 8 * size, &made);
    TIME(window, name_of_block(size, "block, encrypt"), CHAIN, chain_blocks(1, &made, block));
    AES_set_decrypt_key(key, 8 * size, &made);
    TIME(window, name_of_block(size, "block, decrypt"), CHAIN, chain_blocks(0, &made, block));
}

static krb5_crypto ready(const struct suite *suite) {
    krb5_crypto crypto;
    krb5_keyblock block = {.keytype = suite->etype, .keyvalue = {.length = suite->key_size, .data = key}};
    expect_success("krb5_crypto_init", krb5_crypto_init(context, &block, suite->etype, &crypto));
    return crypto;
}

static void seal(krb5_crypto crypto, size_t size, krb5_data *sealed) {
    expect_success("krb5_encrypt", krb5_encrypt(context, crypto, USAGE, payload, size, sealed));
}

static void open_octets(krb5_crypto crypto, krb5_data *sealed, krb5_data *opened) {
    expect_success("krb5_decrypt", krb5_decrypt(context, crypto, USAGE, sealed->data, sealed->length, opened));
}

static void seal_once(krb5_crypto crypto, size_t size) {
    krb5_data made;
    seal(crypto, size, &made);
    krb5_data_free(&made);
}

static void open_once(krb5_crypto crypto, krb5_data *sealed) {
    krb5_data made;
    open_octets(crypto, sealed, &made);
    krb5_data_free(&made);
}

static void time_suite(double window, const struct suite *suite, size_t size) {
    uint8_t confounder[16];
    draw(ARRAY(confounder));
    krb5_crypto kept = ready(suite), other;
    krb5_data sealed, opened;
    size_t total = bench_seal(suite->etype, key, suite->key_size, USAGE, ARRAY(confounder), payload, size, ARRAY(ours));
    seal(kept, size, &sealed);
    expect_same("krb5_encrypt", ours, total, sealed.data, sealed.length);
    open_octets(kept, &sealed, &opened);
    expect_same("krb5_decrypt", payload, size, opened.data, opened.length);
    krb5_data_free(&opened);
    TIME(window, name_of("seal", size, suite->etype, ", key kept"), 1, seal_once(kept, size));
    TIME(window, name_of("open", size, suite->etype, ", key kept"), 1, open_once(kept, &sealed));
    TIME(window, name_of("seal", size, suite->etype, ""), 1,
         (other = ready(suite), seal_once(other, size), krb5_crypto_destroy(context, other)));
    TIME(window, name_of("open", size, suite->etype, ""), 1,
         (other = ready(suite), open_once(other, &sealed), krb5_crypto_destroy(context, other)));
    krb5_data_free(&sealed);
    krb5_crypto_destroy(context, kept);
}

static void derive(const struct suite *suite, krb5_keyblock *made) {
    krb5_data password = {.length = strlen(PASSWORD), .data = PASSWORD};
    krb5_salt salt = {.salttype = KRB5_PW_SALT, .saltvalue = {.length = strlen(SALT), .data = SALT}};
    expect_success("krb5_string_to_key_data_salt",
                   krb5_string_to_key_data_salt(context, suite->etype, password, salt, made));
}

static void time_password(double window, const struct suite *suite) {
    krb5_keyblock made;
    derive(suite, &made);
    size_t count = bench_string_to_key(suite->etype, TEXT(PASSWORD), TEXT(SALT), ARRAY(ours));
    expect_same("krb5_string_to_key_data_salt", ours, count, made.keyvalue.data, made.keyvalue.length);
    krb5_free_keyblock_contents(context, &made);
    snprintf(name, sizeof name, "string to key, suite %zu", suite->etype);
    TIME(window, name, 1, (derive(suite, &made), krb5_free_keyblock_contents(context, &made)));
}

int main(int count, char **arguments) {
    double window = (count > 1 ? atof(arguments[1]) : 20) * 1e6;
    fill_octets();
    expect_success("krb5_init_context", krb5_init_context(&context));
    expect_blocks_of(crypt_block);
    time_aes(window, 16);
    time_aes(window, 32);
    for (size_t i = 0; i < COUNT(suites); i++) {
        for (size_t n = 0; n < COUNT(sizes); n++) {
            time_suite(window, &suites[i], sizes[n]);
        }
        time_password(window, &suites[i]);
    }
    return 0;
}
