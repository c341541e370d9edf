/* Times beside libkrb5, in microseconds of processor time a call, the least of many windows: speed MESSAGES. `krb5_c_*` takes the key each time, as ours
   does without a kept key; `krb5_k_*` keeps what is derived of it. */
#include "calls.h"
#include <krb5/krb5.h>
#include <stdio.h>
#include <stdlib.h>
#include <string.h>
#include <time.h>

enum { LARGEST = 65536, WINDOWS = 40 };

krb5_error_code decode_krb5_enc_tkt_part(const krb5_data *octets, krb5_enc_tkt_part **part);
void krb5_free_enc_tkt_part(krb5_context context, krb5_enc_tkt_part *part);

static krb5_context context;
static uint8_t plain[LARGEST], ours[LARGEST + 99], theirs[LARGEST + 99], back[LARGEST + 99];

static double now(void) {
    struct timespec t;
    clock_gettime(CLOCK_THREAD_CPUTIME_ID, &t);
    return (double)t.tv_sec * 1e6 + (double)t.tv_nsec / 1e3;
}

/* Calls of a kind, which are timed in turn, so that what disturbs the machine disturbs all: the least of windows of at least 4 ms. */
typedef void timed(void *what);
static void time_all(timed *const *calls, int count, void *what, double *least) {
    for (int k = 0; k < count; k++) least[k] = 1e18;
    for (int window = 0; window < WINDOWS; window++)
        for (int k = 0; k < count; k++) {
            long made = 0;
            double start = now(), took;
            do {
                calls[k](what);
                made++;
                took = now() - start;
            } while (took < 4e3);
            if (took / (double)made < least[k]) least[k] = took / (double)made;
        }
}

struct turn {
    const struct suite *suite;
    krb5_keyblock key;
    krb5_key kept;
    krb_key ours_kept;
    krb_checksum_key ours_kept_sum;
    krb5_checksum sum;
    size_t length, ours_size;
    uint8_t confounder[16];
    krb5_data in;
    krb5_enc_data sealed;
    struct octets part;
};

static void need(int right) {
    if (!right) die("a timed call fails");
}

static void seal_ours(void *what) {
    struct turn *it = what;
    size_t size;
    need(krb_encrypt(it->suite->etype, it->key.contents, it->key.length, 2, it->confounder, it->suite->confounder, plain, it->length, ours, sizeof ours, &size) == KRB_DONE);
}
static void seal_kept(void *what) {
    struct turn *it = what;
    size_t size;
    need(krb_encrypt_kept(&it->ours_kept, it->confounder, it->suite->confounder, plain, it->length, ours, sizeof ours, &size) == KRB_DONE);
}
static void seal_c(void *what) {
    struct turn *it = what;
    it->sealed.ciphertext.length = sizeof theirs;
    need(!krb5_c_encrypt(context, &it->key, 2, NULL, &it->in, &it->sealed));
}
static void seal_k(void *what) {
    struct turn *it = what;
    it->sealed.ciphertext.length = sizeof theirs;
    need(!krb5_k_encrypt(context, it->kept, 2, NULL, &it->in, &it->sealed));
}
static void open_ours(void *what) {
    struct turn *it = what;
    size_t size;
    need(krb_decrypt(it->suite->etype, it->key.contents, it->key.length, 2, theirs, it->sealed.ciphertext.length, back, sizeof back, &size) == KRB_DONE);
}
static void open_kept(void *what) {
    struct turn *it = what;
    size_t size;
    need(krb_decrypt_kept(&it->ours_kept, theirs, it->sealed.ciphertext.length, back, sizeof back, &size) == KRB_DONE);
}
static void open_c(void *what) {
    struct turn *it = what;
    krb5_data opened = {.length = sizeof back, .data = (char *)back};
    need(!krb5_c_decrypt(context, &it->key, 2, NULL, &it->sealed, &opened));
}
static void open_k(void *what) {
    struct turn *it = what;
    krb5_data opened = {.length = sizeof back, .data = (char *)back};
    need(!krb5_k_decrypt(context, it->kept, 2, NULL, &it->sealed, &opened));
}
static void sum_ours(void *what) {
    struct turn *it = what;
    size_t size;
    need(krb_checksum(it->suite->cksumtype, it->key.contents, it->key.length, 2, plain, it->length, back, sizeof back, &size) == KRB_DONE);
}
static void sum_c(void *what) {
    struct turn *it = what;
    krb5_checksum sum;
    need(!krb5_c_make_checksum(context, it->suite->cksumtype, &it->key, 2, &it->in, &sum));
    krb5_free_checksum_contents(context, &sum);
}
static void sum_k(void *what) {
    struct turn *it = what;
    krb5_checksum sum;
    need(!krb5_k_make_checksum(context, it->suite->cksumtype, it->kept, 2, &it->in, &sum));
    krb5_free_checksum_contents(context, &sum);
}
static void sum_kept(void *what) {
    struct turn *it = what;
    size_t size;
    need(krb_checksum_kept(&it->ours_kept_sum, plain, it->length, back, sizeof back, &size) == KRB_DONE);
}
static void verify_ours(void *what) {
    struct turn *it = what;
    need(krb_verify_checksum(it->suite->cksumtype, it->key.contents, it->key.length, 2, plain, it->length, it->sum.contents, it->sum.length) == KRB_DONE);
}
static void verify_c(void *what) {
    struct turn *it = what;
    krb5_boolean holds = 0;
    need(!krb5_c_verify_checksum(context, &it->key, 2, &it->in, &it->sum, &holds) && holds);
}
static void verify_k(void *what) {
    struct turn *it = what;
    krb5_boolean holds = 0;
    need(!krb5_k_verify_checksum(context, it->kept, 2, &it->in, &it->sum, &holds) && holds);
}
static void verify_kept(void *what) {
    struct turn *it = what;
    need(krb_verify_checksum_kept(&it->ours_kept_sum, plain, it->length, it->sum.contents, it->sum.length) == KRB_DONE);
}
static void password_ours(void *what) {
    struct turn *it = what;
    size_t size;
    need(krb_string_to_key(it->suite->etype, (const uint8_t *)"password", 8, (const uint8_t *)"ATHENA.MIT.EDUraeburn", 21, back, sizeof back, &size) == KRB_DONE);
}
static void password_c(void *what) {
    struct turn *it = what;
    krb5_data password = {.length = 8, .data = "password"}, salt = {.length = 21, .data = "ATHENA.MIT.EDUraeburn"};
    krb5_keyblock key;
    need(!krb5_c_string_to_key(context, it->suite->etype, &password, &salt, &key));
    krb5_free_keyblock_contents(context, &key);
}
static void check_ours(void *what) {
    struct turn *it = what;
    need(krb_check(KRB_MESSAGE_ENC_TICKET_PART, it->part.at, it->part.count) == KRB_DONE);
}
static void decode_theirs(void *what) {
    struct turn *it = what;
    krb5_data in = {.length = (unsigned)it->part.count, .data = (char *)it->part.at};
    krb5_enc_tkt_part *part;
    need(!decode_krb5_enc_tkt_part(&in, &part));
    krb5_free_enc_tkt_part(context, part);
}

/* Ours, then those of libkrb5, and behind them ours under a kept key. */
static void time_messages(const char *name, timed *const *calls) {
    static const size_t lengths[] = {64, 1024, 65536};
    printf("\n%-9s %6s %7s %10s %10s %10s %10s %8s %8s\n", name, "etype", "octets", "ours", "krb5_c_", "kept", "krb5_k_", "to c", "kept/k");
    for (int s = 0; s < SUITES; s++)
        for (int n = 0; n < 3; n++) {
            struct turn it = {.suite = &suites[s], .length = lengths[n]};
            double least[4];
            need(!krb5_c_make_random_key(context, it.suite->etype, &it.key) && !krb5_k_create_key(context, &it.key, &it.kept));
            need(krb_keep_key(it.suite->etype, it.key.contents, it.key.length, 2, &it.ours_kept) == KRB_DONE);
            draw(it.confounder, sizeof it.confounder);
            draw(plain, it.length);
            it.in.data = (char *)plain, it.in.length = (unsigned)it.length;
            it.sealed.ciphertext.data = (char *)theirs;
            seal_c(&it);
            need(krb_keep_checksum_key(it.suite->cksumtype, it.key.contents, it.key.length, 2, &it.ours_kept_sum) == KRB_DONE);
            need(!krb5_c_make_checksum(context, it.suite->cksumtype, &it.key, 2, &it.in, &it.sum));
            time_all(calls, 4, &it, least);
            printf("%-9s %6d %7zu %10.2f %10.2f %10.2f %10.2f %8.2f %8.2f\n", name, it.suite->etype, it.length, least[0], least[1], least[3], least[2], least[0] / least[1], least[3] / least[2]);
            krb5_free_checksum_contents(context, &it.sum);
            krb5_k_free_key(context, it.kept);
            krb5_free_keyblock_contents(context, &it.key);
        }
}

static void time_passwords(void) {
    timed *const calls[] = {password_ours, password_c};
    printf("\n%-9s %6s %7s %10s %10s %10s %8s\n", "password", "etype", "", "ours", "krb5_c_", "", "to c");
    for (int s = 0; s < SUITES; s++) {
        struct turn it = {.suite = &suites[s]};
        double least[2];
        time_all(calls, 2, &it, least);
        printf("%-9s %6d %7s %10.1f %10.1f %10s %8.2f\n", "password", it.suite->etype, "", least[0], least[1], "", least[0] / least[1]);
    }
}

static void time_parts(const char *name) {
    timed *const calls[] = {check_ours, decode_theirs};
    FILE *file = fopen(name, "r");
    char *columns[2];
    if (!file) die("speed MESSAGES: the table is not there");
    printf("\n%-9s %6s %7s %10s %10s %10s %8s\n", "part", "", "octets", "krb_check", "decode_", "", "ratio");
    while (next_row(file, columns, 2)) {
        if (atoi(columns[0]) != KRB_MESSAGE_ENC_TICKET_PART) continue;
        struct turn it = {.part = octets_of_text(columns[1])};
        krb5_data in = {.length = (unsigned)it.part.count, .data = (char *)it.part.at};
        krb5_enc_tkt_part *part;
        double least[2];
        if (decode_krb5_enc_tkt_part(&in, &part)) continue; /* one that libkrb5 does not read */
        krb5_free_enc_tkt_part(context, part);
        time_all(calls, 2, &it, least);
        printf("%-9s %6s %7zu %10.2f %10.2f %10s %8.2f\n", "part", "", it.part.count, least[0], least[1], "", least[0] / least[1]);
        drop(&it.part);
    }
    fclose(file);
}

int main(int count, char **words) {
    timed *const seals[] = {seal_ours, seal_c, seal_k, seal_kept}, *const opens[] = {open_ours, open_c, open_k, open_kept}, *const sums[] = {sum_ours, sum_c, sum_k, sum_kept};
    timed *const verifications[] = {verify_ours, verify_c, verify_k, verify_kept};
    if (count != 2) die("speed MESSAGES");
    if (krb5_init_context(&context)) die("libkrb5 does not begin");
    printf("microseconds of processor time a call, the least of %d windows of 4 ms and more\n", WINDOWS);
    time_messages("encrypt", seals);
    time_messages("decrypt", opens);
    time_messages("checksum", sums);
    time_messages("verify", verifications);
    time_passwords();
    time_parts(words[1]);
    krb5_free_context(context);
    return 0;
}
