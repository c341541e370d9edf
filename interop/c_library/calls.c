#include "calls.h"
#include <string.h>

const struct part parts[PARTS] = {
    {"ticket_part", KRB_MESSAGE_ENC_TICKET_PART, krb_seal_ticket_part, krb_open_ticket_part},
    {"authenticator", KRB_MESSAGE_AUTHENTICATOR, krb_seal_authenticator, krb_open_authenticator},
    {"as_rep_part", KRB_MESSAGE_ENC_AS_REP_PART, krb_seal_as_rep_part, krb_open_as_rep_part},
    {"tgs_rep_part", KRB_MESSAGE_ENC_TGS_REP_PART, krb_seal_tgs_rep_part, krb_open_tgs_rep_part},
    {"ap_rep_part", KRB_MESSAGE_ENC_AP_REP_PART, krb_seal_ap_rep_part, krb_open_ap_rep_part},
    {"priv_part", KRB_MESSAGE_ENC_KRB_PRIV_PART, krb_seal_priv_part, krb_open_priv_part},
    {"cred_part", KRB_MESSAGE_ENC_KRB_CRED_PART, krb_seal_cred_part, krb_open_cred_part},
};

const struct suite suites[SUITES] = {
    {16, 12, 24, 21, 8, 20, 8}, {17, 15, 16, 16, 16, 12, 1}, {18, 16, 32, 32, 16, 12, 1}, {19, 19, 16, 16, 16, 16, 1}, {20, 20, 32, 32, 16, 24, 1},
};

static const struct part *part_of(const char *call, const char *verb) {
    size_t begins = strlen(verb);
    if (strncmp(call, verb, begins)) return NULL;
    for (int k = 0; k < PARTS; k++)
        if (!strcmp(call + begins, parts[k].name)) return &parts[k];
    return NULL;
}

/* The kept key of a row; it is untouched where it is refused. */
static krb_status keep(const struct row *it, krb_key *kept) {
    krb_key before;
    memset(kept, 0x5a, sizeof *kept);
    memset(&before, 0x5a, sizeof before);
    krb_status status = krb_keep_key(it->number, it->key.at, it->key.count, it->usage, kept);
    EXPECT(status == KRB_DONE ? kept->etype == it->number : !memcmp(kept, &before, sizeof before), "keep_key %d, status %u: another kept key", it->number, status);
    return status;
}

static krb_status answered_kept(const struct row *it, struct octets *room, size_t *size) {
    const struct octets *beside = &it->beside, *input = &it->input;
    krb_key kept;
    krb_status status = keep(it, &kept);
    *size = 0;
    if (status != KRB_DONE) return status;
    if (!strcmp(it->call, "encrypt_kept")) return krb_encrypt_kept(&kept, beside->at, beside->count, input->at, input->count, room->at, room->count, size);
    return krb_decrypt_kept(&kept, input->at, input->count, room->at, room->count, size);
}

/* The kept key of checksums of a row; it is untouched where it is refused. */
static krb_status keep_checksum(const struct row *it, krb_checksum_key *kept) {
    krb_checksum_key before;
    memset(kept, 0x5a, sizeof *kept);
    memset(&before, 0x5a, sizeof before);
    krb_status status = krb_keep_checksum_key(it->number, it->key.at, it->key.count, it->usage, kept);
    EXPECT(status == KRB_DONE ? kept->cksumtype == it->number : !memcmp(kept, &before, sizeof before), "keep_checksum_key %d, status %u: another kept key", it->number, status);
    return status;
}

static krb_status summed_kept(const struct row *it, struct octets *room, size_t *size) {
    krb_checksum_key kept;
    krb_status status = keep_checksum(it, &kept);
    *size = 0;
    return status != KRB_DONE ? status : krb_checksum_kept(&kept, it->input.at, it->input.count, room->at, room->count, size);
}

krb_status verified(const struct row *it) {
    const struct octets *key = &it->key, *beside = &it->beside, *input = &it->input;
    krb_checksum_key kept;
    if (!strcmp(it->call, "verify_checksum"))
        return krb_verify_checksum(it->number, key->at, key->count, it->usage, input->at, input->count, beside->at, beside->count);
    krb_status status = keep_checksum(it, &kept);
    return status != KRB_DONE ? status : krb_verify_checksum_kept(&kept, input->at, input->count, beside->at, beside->count);
}

int is_answering(const char *call) {
    static const char *const names[] = {"encrypt", "encrypt_kept", "decrypt", "decrypt_kept", "string_to_key", "random_to_key", "checksum", "checksum_kept"};
    for (unsigned k = 0; k < sizeof names / sizeof *names; k++)
        if (!strcmp(call, names[k])) return 1;
    return part_of(call, "seal_") || part_of(call, "open_");
}

krb_status answered(const struct row *it, struct octets *room, size_t *size) {
    const struct octets *key = &it->key, *beside = &it->beside, *input = &it->input;
    const struct part *part;
    if (!strcmp(it->call, "encrypt"))
        return krb_encrypt(it->number, key->at, key->count, it->usage, beside->at, beside->count, input->at, input->count, room->at, room->count, size);
    if (!strcmp(it->call, "decrypt"))
        return krb_decrypt(it->number, key->at, key->count, it->usage, input->at, input->count, room->at, room->count, size);
    if (!strcmp(it->call, "encrypt_kept") || !strcmp(it->call, "decrypt_kept")) return answered_kept(it, room, size);
    if (!strcmp(it->call, "string_to_key"))
        return krb_string_to_key(it->number, input->at, input->count, beside->at, beside->count, room->at, room->count, size);
    if (!strcmp(it->call, "random_to_key")) return krb_random_to_key(it->number, input->at, input->count, room->at, room->count, size);
    if (!strcmp(it->call, "checksum"))
        return krb_checksum(it->number, key->at, key->count, it->usage, input->at, input->count, room->at, room->count, size);
    if (!strcmp(it->call, "checksum_kept")) return summed_kept(it, room, size);
    if ((part = part_of(it->call, "seal_")))
        return part->seal(it->number, key->at, key->count, it->usage, beside->at, beside->count, input->at, input->count, room->at, room->count, size);
    if ((part = part_of(it->call, "open_")))
        return part->open(it->number, key->at, key->count, it->usage, input->at, input->count, room->at, room->count, size);
    die("a table has a call that is none");
}

krb_status status_of(const char *name) {
    static const char *const names[] = {"DONE", "ROOM", "MEMORY", "NUMBER", "CONFOUNDER_SIZE", "KEY_SIZE", "SEALED_SIZE", "INTEGRITY",
                                        "PADDING", "INVALID", "TRUNCATED", "UNSUPPORTED", "NEVER", "SEED_SIZE", "EMPTY",
                                        "DIRECTION", "TOKEN", "SUBKEY", "SEALED_MIC", "SEALED_HEADER"};
    for (unsigned k = 0; k < sizeof names / sizeof *names; k++)
        if (!strcmp(name, names[k])) return k;
    die("a table has a status that is none");
}
