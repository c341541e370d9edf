/* MIT Kerberos: krb5_c_* take a key's octets, krb5_k_* a key that is kept, with what was derived from it. */
#include <krb5.h>

#include "peer.h"

/* Found before the library's own: a drawn confounder is no part of what is compared or timed. */
krb5_error_code krb5_c_random_make_octets(krb5_context context, krb5_data *data) {
    (void)context;
    draw((uint8_t *)data->data, data->length);
    return 0;
}

static krb5_data data_of(const void *octets, size_t count) {
    return (krb5_data){.magic = KV5M_DATA, .length = count, .data = (char *)octets};
}

/* Both sides' messages are the same octets, and each opens the other's. */
static void compare(const struct suite *suite, size_t size, krb5_keyblock *block, krb5_key kept) {
    static uint8_t opened[LARGE + FRAME];
    uint8_t confounder[16];
    draw(ARRAY(confounder));
    krb5_data plain = data_of(payload, size), out = data_of(ARRAY(opened));
    krb5_enc_data sealed = {.magic = KV5M_ENC_DATA, .enctype = suite->etype, .ciphertext = data_of(ARRAY(theirs))};
    size_t total = bench_seal(suite->etype, key, suite->key_size, USAGE, ARRAY(confounder), payload, size, ARRAY(ours));
    expect_success("krb5_c_encrypt", krb5_c_encrypt(0, block, USAGE, 0, &plain, &sealed));
    expect_same("krb5_c_encrypt", ours, total, theirs, sealed.ciphertext.length);
    size_t made = bench_open(suite->etype, key, suite->key_size, USAGE, theirs, total, ARRAY(opened));
    expect_same("what krb5_c_encrypt made, opened", payload, size, opened, made);
    sealed.ciphertext = data_of(ARRAY(theirs));
    expect_success("krb5_k_encrypt", krb5_k_encrypt(0, kept, USAGE, 0, &plain, &sealed));
    expect_same("krb5_k_encrypt", ours, total, theirs, sealed.ciphertext.length);
    sealed.ciphertext = data_of(ours, total);
    expect_success("krb5_c_decrypt", krb5_c_decrypt(0, block, USAGE, 0, &sealed, &out));
    expect_same("krb5_c_decrypt", payload, size, opened, out.length);
    out = data_of(ARRAY(opened));
    expect_success("krb5_k_decrypt", krb5_k_decrypt(0, kept, USAGE, 0, &sealed, &out));
    expect_same("krb5_k_decrypt", payload, size, opened, out.length);
}

static void time_suite(double window, const struct suite *suite, size_t size, krb5_keyblock *block, krb5_key kept) {
    krb5_data plain = data_of(payload, size), out = data_of(ARRAY(ours));
    krb5_enc_data sealed = {.magic = KV5M_ENC_DATA, .enctype = suite->etype, .ciphertext = data_of(ARRAY(theirs))};
    TIME(window, name_of("seal", size, suite->etype, ""), 1, krb5_c_encrypt(0, block, USAGE, 0, &plain, &sealed));
    TIME(window, name_of("seal", size, suite->etype, ", key kept"), 1, krb5_k_encrypt(0, kept, USAGE, 0, &plain, &sealed));
    size_t total;
    expect_success("krb5_c_encrypt_length", krb5_c_encrypt_length(0, suite->etype, size, &total));
    sealed.ciphertext.length = total;
    TIME(window, name_of("open", size, suite->etype, ""), 1, krb5_c_decrypt(0, block, USAGE, 0, &sealed, &out));
    TIME(window, name_of("open", size, suite->etype, ", key kept"), 1, krb5_k_decrypt(0, kept, USAGE, 0, &sealed, &out));
}

static void derive(const struct suite *suite, krb5_keyblock *made) {
    krb5_data password = data_of(PASSWORD, strlen(PASSWORD)), salt = data_of(SALT, strlen(SALT));
    expect_success("krb5_c_string_to_key", krb5_c_string_to_key(0, suite->etype, &password, &salt, made));
}

static void time_password(double window, const struct suite *suite) {
    krb5_keyblock made;
    derive(suite, &made);
    size_t count = bench_string_to_key(suite->etype, TEXT(PASSWORD), TEXT(SALT), ARRAY(ours));
    expect_same("krb5_c_string_to_key", ours, count, made.contents, made.length);
    krb5_free_keyblock_contents(0, &made);
    snprintf(name, sizeof name, "string to key, suite %zu", suite->etype);
    TIME(window, name, 1, (derive(suite, &made), krb5_free_keyblock_contents(0, &made)));
}

int main(int count, char **arguments) {
    double window = (count > 1 ? atof(arguments[1]) : 20) * 1e6;
    fill_octets();
    for (size_t i = 0; i < COUNT(suites); i++) {
        krb5_keyblock block = {.magic = KV5M_KEYBLOCK, .enctype = suites[i].etype, .length = suites[i].key_size, .contents = key};
        krb5_key kept;
        expect_success("krb5_k_create_key", krb5_k_create_key(0, &block, &kept));
        for (size_t n = 0; n < COUNT(sizes); n++) {
            compare(&suites[i], sizes[n], &block, kept);
            time_suite(window, &suites[i], sizes[n], &block, kept);
        }
        krb5_k_free_key(0, kept);
        time_password(window, &suites[i]);
    }
    return 0;
}
