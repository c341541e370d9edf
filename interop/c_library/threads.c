/* Sixteen threads make all calls at once, each with its own octets; each answer is the one that the thread got alone before: threads [LOGINS], whose rows
   expect_logins.py writes. */
#include "calls.h"
#include "login_calls.h"
#include "negotiating.h"
#include <pthread.h>
#include <stdio.h>
#include <stdlib.h>
#include <string.h>

enum { THREADS = 16, TURNS = 150, PAYLOAD = 1500 };

struct task {
    const struct suite *suite;
    uint8_t key[32], confounder[16], payload[PAYLOAD], sealed[PAYLOAD + 64], sum[24], made[32];
    size_t length, sealed_size, sum_size, made_size;
    long wrong;
};
static struct task tasks[THREADS];
static krb_key shared[SUITES]; /* kept keys that all threads of a suite use at once */
static krb_checksum_key shared_sums[SUITES];
static pthread_barrier_t all;

/* What is sealed under the shared key is opened by it, and not by the key of the thread. */
static int is_same_kept(const struct task *it, const uint8_t *sealed_alone, size_t size_alone) {
    const krb_key *kept = &shared[it->suite - suites];
    uint8_t sealed[PAYLOAD + 64], opened[PAYLOAD + 64];
    size_t size, opened_size;
    int well = krb_encrypt_kept(kept, it->confounder, it->suite->confounder, it->payload, it->length, sealed, sizeof sealed, &size) == KRB_DONE;
    well = well && size == size_alone && memcmp(sealed, sealed_alone, size);
    well = well && krb_decrypt_kept(kept, sealed, size, opened, sizeof opened, &opened_size) == KRB_DONE;
    well = well && opened_size >= it->length && !memcmp(opened, it->payload, it->length);
    return well && krb_decrypt_kept(kept, sealed_alone, size_alone, opened, sizeof opened, &opened_size) == KRB_INTEGRITY;
}

/* So of checksums; a key of the thread that is kept makes what the key makes. */
static int is_same_kept_sum(const struct task *it, const uint8_t *sum_alone, size_t size_alone) {
    const krb_checksum_key *kept = &shared_sums[it->suite - suites];
    krb_checksum_key mine;
    uint8_t sum[24];
    size_t size;
    int well = krb_checksum_kept(kept, it->payload, it->length, sum, sizeof sum, &size) == KRB_DONE;
    well = well && size == size_alone && memcmp(sum, sum_alone, size);
    well = well && krb_verify_checksum_kept(kept, it->payload, it->length, sum, size) == KRB_DONE;
    well = well && krb_verify_checksum_kept(kept, it->payload, it->length, sum_alone, size_alone) == KRB_INTEGRITY;
    well = well && krb_keep_checksum_key(it->suite->cksumtype, it->key, it->suite->key, 7, &mine) == KRB_DONE;
    well = well && krb_checksum_kept(&mine, it->payload, it->length, sum, sizeof sum, &size) == KRB_DONE;
    return well && size == size_alone && !memcmp(sum, sum_alone, size);
}

static int is_same(const struct task *it, int first) {
    const struct suite *suite = it->suite;
    uint8_t sealed[PAYLOAD + 64], opened[PAYLOAD + 64], sum[24], made[32];
    size_t size, opened_size, sum_size, made_size;
    int well = krb_encrypt(suite->etype, it->key, suite->key, 7, it->confounder, suite->confounder, it->payload, it->length, sealed, sizeof sealed, &size) == KRB_DONE;
    well = well && krb_decrypt(suite->etype, it->key, suite->key, 7, sealed, size, opened, sizeof opened, &opened_size) == KRB_DONE;
    well = well && opened_size >= it->length && !memcmp(opened, it->payload, it->length);
    well = well && krb_checksum(suite->cksumtype, it->key, suite->key, 7, it->payload, it->length, sum, sizeof sum, &sum_size) == KRB_DONE;
    well = well && krb_verify_checksum(suite->cksumtype, it->key, suite->key, 7, it->payload, it->length, sum, sum_size) == KRB_DONE;
    well = well && krb_verify_checksum(suite->cksumtype, it->key, suite->key, 8, it->payload, it->length, sum, sum_size) == KRB_INTEGRITY;
    well = well && krb_random_to_key(suite->etype, it->payload, suite->seed, made, sizeof made, &made_size) == KRB_DONE;
    well = well && is_same_kept(it, sealed, size) && is_same_kept_sum(it, sum, sum_size);
    sealed[size - 1] ^= 1;
    well = well && krb_decrypt(suite->etype, it->key, suite->key, 7, sealed, size, opened, sizeof opened, &opened_size) == KRB_INTEGRITY;
    sealed[size - 1] ^= 1;
    if (first && well) {
        struct task *kept = (struct task *)it;
        memcpy(kept->sealed, sealed, size);
        memcpy(kept->sum, sum, sum_size);
        memcpy(kept->made, made, made_size);
        kept->sealed_size = size, kept->sum_size = sum_size, kept->made_size = made_size;
    }
    return well && size == it->sealed_size && sum_size == it->sum_size && made_size == it->made_size && !memcmp(sealed, it->sealed, size) &&
           !memcmp(sum, it->sum, sum_size) && !memcmp(made, it->made, made_size);
}

static void *work(void *argument) {
    struct task *it = argument;
    pthread_barrier_wait(&all);
    for (int turn = 0; turn < TURNS; turn++) it->wrong += !is_same(it, 0);
    return NULL;
}

/* ---- the calls of an acceptor and of a client */

enum { MOST_LOGINS = 512, STRIDE = 4 };

/* Calls that threads make of the same octets, each thread every fourth of them from another one on, and what each answers alone. */
static struct {
    struct login call;
    struct login_answer answer;
    struct octets out;
} logins[MOST_LOGINS];
static size_t logins_count;

static void keep_login(const struct login *it) {
    if (logins_count == MOST_LOGINS) die("more rows than there is room for");
    logins[logins_count].call = *it;
    logins[logins_count].out = room_of(LOGIN_ROOM);
    logins[logins_count].answer = login_called(it, &logins[logins_count].out);
    logins_count++;
}

static void read_logins(const char *name) {
    FILE *file = fopen(name, "r");
    char *row[LOGIN_COLUMNS];
    struct login it, made;
    if (!file) die("a table is not there");
    while (next_row(file, row, LOGIN_COLUMNS)) {
        if (!login_of(row, &it)) die("a table has a call that is none");
        if (login_made(row, &it, &made)) keep_login(&made);
        keep_login(&it);
    }
    fclose(file);
}

/* A negotiation of this thread's own: an offer of another mechanism than the first is answered by its name and request-mic (RFC 4178, 5). */
static int is_negotiated(void) {
    krb_negotiation side = {.role = KRB_ACCEPTOR};
    const struct said offer = {.state = KRB_NEG_STATE_ABSENT, .choice = CHOICE_OTHER, .integrity = 1, .has_token = 1};
    krb_negotiation_question question = {0};
    struct sent sent = {0};
    bool is_read = false;
    int well = step_asked(&side, &offer, &question) == KRB_DONE && !question.rule && !question.steps && step_made(&side, &offer, 0, KRB_PROGRESS_RESTS, false, &is_read, &sent) == KRB_DONE;
    return well && is_read && side.stage == KRB_STAGE_WAITS && sent.sends && sent.names && sent.state == KRB_NEG_STATE_REQUEST_MIC && !sent.has_token && !sent.has_mic;
}

static void *log_in(void *argument) {
    struct task *it = argument;
    size_t first = (size_t)(it - tasks) * logins_count / THREADS + (size_t)(it - tasks);
    struct octets out = room_of(LOGIN_ROOM);
    pthread_barrier_wait(&all);
    for (size_t n = 0; n < logins_count; n += STRIDE) {
        size_t k = (first + n) % logins_count;
        memset(out.at, logins[k].out.at[LOGIN_ROOM - 1], LOGIN_ROOM); /* untouched */
        struct login_answer answer = login_called(&logins[k].call, &out);
        it->wrong += !is_same_answer(&answer, &logins[k].answer) || memcmp(out.at, logins[k].out.at, LOGIN_ROOM) || !is_negotiated();
    }
    drop(&out);
    return NULL;
}

/* Sixteen threads at this, and how often each was wrong. */
static void run_all(void *(*work_of)(void *), const char *what) {
    pthread_t threads[THREADS];
    for (int k = 0; k < THREADS; k++) tasks[k].wrong = 0;
    for (int k = 0; k < THREADS; k++)
        if (pthread_create(&threads[k], NULL, work_of, &tasks[k])) die("no thread");
    for (int k = 0; k < THREADS; k++) {
        pthread_join(threads[k], NULL);
        EXPECT(tasks[k].wrong == 0, "thread %d, %s: %ld turns are wrong", k, what, tasks[k].wrong);
    }
}

int main(int count, char **words) {
    pthread_barrier_init(&all, NULL, THREADS);
    for (int k = 0; k < SUITES; k++) {
        uint8_t key[32];
        draw(key, sizeof key);
        if (krb_keep_key(suites[k].etype, key, suites[k].key, 7, &shared[k]) != KRB_DONE) die("no key is kept");
        if (krb_keep_checksum_key(suites[k].cksumtype, key, suites[k].key, 7, &shared_sums[k]) != KRB_DONE) die("no key of checksums is kept");
    }
    for (int k = 0; k < THREADS; k++) {
        struct task *it = &tasks[k];
        it->suite = &suites[k % SUITES];
        it->length = 40 + (size_t)drawn(PAYLOAD - 40);
        draw(it->key, sizeof it->key);
        draw(it->confounder, sizeof it->confounder);
        draw(it->payload, sizeof it->payload);
        EXPECT(is_same(it, 1), "thread %d, before the others", k);
    }
    run_all(work, "cryptography");
    if (count == 2) {
        read_logins(words[1]);
        run_all(log_in, "logins");
        for (size_t k = 0; k < logins_count; k++) drop_login(&logins[k].call), drop(&logins[k].out);
    }
    return counted();
}
