/* Makes the calls of tables: rows FILE.. Each row has, with tabs between: call, number, key, usage, what stands beside (a confounder, a salt or a
   checksum), input, status, answer; octets in hexadecimal. A row that is answered is called again with just its room, with one octet less and with
   none, a refused one with room to spare: what is not to be touched is looked at. */
#include "calls.h"
#include <stdio.h>
#include <stdlib.h>
#include <string.h>

static void try_rooms(const struct row *row, const struct octets *answer) {
    const size_t rooms[] = {answer->count + 9, answer->count, answer->count - 1, answer->count / 2, 0};
    for (unsigned k = 0; k < sizeof rooms / sizeof *rooms; k++) {
        if (rooms[k] > answer->count + 9) continue; /* one octet less than none */
        struct octets room = room_of(rooms[k]);
        size_t size = 77777;
        krb_status status = answered(row, &room, &size);
        int fits = rooms[k] >= answer->count;
        EXPECT(status == (fits ? KRB_DONE : KRB_ROOM) && size == answer->count, "%s %d: status %u, size %zu in room for %zu", row->call, row->number, status, size, rooms[k]);
        EXPECT(!fits || !answer->count || !memcmp(room.at, answer->at, answer->count), "%s %d: another answer", row->call, row->number);
        EXPECT(is_untouched(&room, fits ? answer->count : 0), "%s %d: octets are touched", row->call, row->number);
        drop(&room);
    }
}

static void try_refusal(const struct row *row, krb_status wanted) {
    const size_t rooms[] = {row->input.count + 99, 1, 0};
    for (unsigned k = 0; k < sizeof rooms / sizeof *rooms; k++) {
        struct octets room = room_of(rooms[k]);
        size_t size = 77777;
        krb_status status = answered(row, &room, &size);
        EXPECT(status == wanted && size == 0, "%s %d: status %u, size %zu, and not status %u", row->call, row->number, status, size, wanted);
        EXPECT(is_untouched(&room, 0), "%s %d: octets are touched", row->call, row->number);
        drop(&room);
    }
}

static void try_fold(const struct row *row, krb_status wanted, const struct octets *answer) {
    struct octets room = room_of((size_t)row->number + 9);
    krb_status status = krb_n_fold(row->input.at, row->input.count, room.at, (size_t)row->number);
    EXPECT(status == wanted, "n_fold %d: status %u", row->number, status);
    EXPECT(!answer->count || !memcmp(room.at, answer->at, answer->count), "n_fold %d: another answer", row->number);
    EXPECT(is_untouched(&room, answer->count), "n_fold %d: octets are touched", row->number);
    drop(&room);
}

static size_t size_of(const struct row *row) {
    if (!strcmp(row->call, "key_size")) return krb_key_size(row->number);
    if (!strcmp(row->call, "seed_size")) return krb_seed_size(row->number);
    if (!strcmp(row->call, "confounder_size")) return krb_confounder_size(row->number);
    if (!strcmp(row->call, "checksum_size")) return krb_checksum_size(row->number);
    if (!strcmp(row->call, "checksum_key_size")) return krb_checksum_key_size(row->number);
    if (!strcmp(row->call, "encrypted_size")) return krb_encrypted_size(row->number, (size_t)strtoull((char *)row->input.at, NULL, 10));
    die("a table has a call that is none");
}

/* An answer or a refusal; the same under the key that was kept, of which a wrong size is refused before a confounder's. */
static void try_answer(struct row *row, krb_status wanted, const struct octets *answer) {
    const char *call = row->call;
    const char *kept = !strcmp(call, "encrypt") ? "encrypt_kept" : !strcmp(call, "decrypt") ? "decrypt_kept" : !strcmp(call, "checksum") ? "checksum_kept" : NULL;
    if (is_answering(row->call) && wanted == KRB_DONE)
        try_rooms(row, answer);
    else
        try_refusal(row, wanted);
    if (!kept) return;
    row->call = kept;
    try_answer(row, wanted == KRB_CONFOUNDER_SIZE && row->key.count != krb_key_size(row->number) ? KRB_KEY_SIZE : wanted, answer);
}

/* Whether octets are a checksum; the same under the key that was kept. */
static void try_verification(struct row *row, krb_status wanted) {
    krb_status status = verified(row);
    EXPECT(status == wanted, "%s %d: status %u", row->call, row->number, status);
    row->call = "verify_checksum_kept";
    status = verified(row);
    EXPECT(status == wanted, "%s %d: status %u", row->call, row->number, status);
}

/* Kept keys that no call made: a number of no checksum type is refused, and nothing is touched. */
static void try_unmade(void) {
    static const int32_t numbers[] = {-1, 0, 1, 13, 14, 17, 18, 21, 32771, INT32_MAX, INT32_MIN};
    for (unsigned k = 0; k < sizeof numbers / sizeof *numbers; k++) {
        krb_checksum_key kept = {.cksumtype = numbers[k]};
        struct octets room = room_of(40);
        size_t size = 77777;
        krb_status status = krb_checksum_kept(&kept, NULL, 0, room.at, room.count, &size);
        EXPECT(status == KRB_NUMBER && size == 0 && is_untouched(&room, 0), "checksum_kept %d: status %u, size %zu", numbers[k], status, size);
        status = krb_verify_checksum_kept(&kept, NULL, 0, room.at, 12);
        EXPECT(status == KRB_NUMBER, "verify_checksum_kept %d: status %u", numbers[k], status);
        drop(&room);
    }
}

static void try_row(char **columns) {
    struct row row = {columns[0], (int32_t)strtol(columns[1], NULL, 10), (int32_t)strtol(columns[3], NULL, 10), octets_of_text(columns[2]), octets_of_text(columns[4]), {NULL, 0}};
    if (strstr(row.call, "_size")) {
        row.input = octets_of((const uint8_t *)columns[5], strlen(columns[5]) + 1);
        size_t wanted = (size_t)strtoull(columns[7], NULL, 10), size = size_of(&row);
        EXPECT(size == wanted, "%s %d %s: %zu", row.call, row.number, columns[5], size);
    } else {
        row.input = octets_of_text(columns[5]);
        krb_status wanted = status_of(columns[6]);
        struct octets answer = octets_of_text(columns[7]);
        if (!strcmp(row.call, "n_fold")) {
            try_fold(&row, wanted, &answer);
        } else if (!strcmp(row.call, "check")) {
            krb_status status = krb_check(row.number, row.input.at, row.input.count);
            EXPECT(status == wanted, "check %d: status %u", row.number, status);
        } else if (!strcmp(row.call, "verify_checksum")) {
            try_verification(&row, wanted);
        } else {
            try_answer(&row, wanted, &answer);
        }
        drop(&answer);
    }
    drop(&row.key);
    drop(&row.beside);
    drop(&row.input);
}

int main(int count, char **words) {
    for (int k = 1; k < count; k++) each_row(words[k], 8, try_row);
    try_unmade();
    return counted();
}
