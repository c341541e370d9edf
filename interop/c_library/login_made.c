/* Calls that are made of rows. */
#include "calls.h"
#include "login_calls.h"
#include <stdio.h>
#include <stdlib.h>
#include <string.h>

/* The key usages of the part of an AS-REP (RFC 4120, 7.5.1) and of the checksum of its request (RFC 6806, 11). */
enum { AS_REP_PART = 3, REQUEST_CHECKSUM = 56, RULE_COLUMN = 14, FRAME = 13 };

struct octets field_of(const char *type, const char *path, const struct octets *of) {
    krb_item item;
    krb_status status = krb_find_text(type, path, of->at, of->count, &item);
    EXPECT(status == KRB_DONE, "no %s in a %s: status %u", path, type, status);
    return status == KRB_DONE ? octets_of(of->at + item.offset, item.size) : (struct octets){NULL, 0};
}

/* Both, one behind the other; they are dropped. */
static struct octets joined(struct octets one, struct octets other) {
    struct octets made = room_of(one.count + other.count);
    if (one.count) memcpy(made.at, one.at, one.count);
    if (other.count) memcpy(made.at + one.count, other.at, other.count);
    drop(&one), drop(&other);
    return made;
}

/* An element of this tag and content (X.690, 8.1.3), which is dropped. */
static struct octets element(uint8_t tag, struct octets content) {
    uint8_t header[10] = {tag};
    size_t size = krb_header_size(content.count);
    header[1] = (uint8_t)(size == 2 ? content.count : 0x80 | (size - 2));
    for (size_t k = 2; k < size; k++) header[k] = (uint8_t)(content.count >> 8 * (size - 1 - k));
    return joined(octets_of(header, size), content);
}

static struct octets number(uint8_t it) { return element(2, octets_of(&it, 1)); }

/* Where the content of an element begins, and where the next one does. */
static size_t content_at(const struct octets *of, size_t at) { return at + (of->at[at + 1] < 0x80 ? 2 : 2 + (of->at[at + 1] & 0x7f)); }

static size_t behind(const struct octets *of, size_t at) {
    size_t size = of->at[at + 1];
    if (size >= 0x80) {
        size = 0;
        for (size_t k = at + 2; k < content_at(of, at); k++) size = size << 8 | of->at[k];
    }
    return content_at(of, at) + size;
}

/* The SEQUENCE in an element with the field of this tag in the place of the one that it has, or behind all. */
static struct octets with_field(const struct octets *of, uint8_t tag, struct octets field) {
    size_t sequence = content_at(of, 0), at = content_at(of, sequence);
    struct octets fields = {NULL, 0};
    for (; at < of->count; at = behind(of, at))
        if (of->at[at] != tag) fields = joined(fields, octets_of(of->at + at, behind(of, at) - at));
    return element(of->at[0], element(0x30, joined(fields, element(tag, field))));
}

/* PA-REQ-ENC-PA-REP (149) with the checksum of a request, as the encrypted-pa-data of a part. */
static struct octets padata_of(const struct login *it) {
    static const uint8_t kind[] = {0xa1, 4, 2, 2, 0, 149};
    struct octets sum = room_of(24);
    int s = 0;
    while (suites[s].etype != it->etype) s++;
    krb_status status = krb_checksum(suites[s].cksumtype, it->key.at, it->key.count, REQUEST_CHECKSUM, it->request.at, it->request.count, sum.at, sum.count, &sum.count);
    EXPECT(status == KRB_DONE, "no checksum: %u", status);
    struct octets checksum = element(0x30, joined(element(0xa0, number((uint8_t)suites[s].cksumtype)), element(0xa1, element(4, sum))));
    return element(0x30, element(0x30, joined(octets_of(kind, sizeof kind), element(0xa2, element(4, checksum)))));
}

/* The reply with that in its part, which is sealed anew. */
static void seal_renamed(struct login *it) {
    struct octets cipher = field_of("AS-REP", "enc-part.cipher", &it->octets), part = room_of(cipher.count);
    krb_status status = krb_decrypt(it->etype, it->key.at, it->key.count, AS_REP_PART, cipher.at, cipher.count, part.at, part.count, &part.count);
    EXPECT(status == KRB_DONE, "%s: its part is not opened: %u", it->name, status);
    struct octets made = with_field(&part, 0xac, padata_of(it)), sealed = room_of(made.count + 99);
    status = krb_encrypt(it->etype, it->key.at, it->key.count, AS_REP_PART, login_random, krb_confounder_size(it->etype), made.at, made.count, sealed.at, sealed.count,
            &sealed.count);
    EXPECT(status == KRB_DONE, "%s: its part is not sealed: %u", it->name, status);
    struct octets enc_part = element(0x30, joined(element(0xa0, number((uint8_t)it->etype)), element(0xa2, element(4, sealed))));
    struct octets whole = with_field(&it->octets, 0xa6, enc_part);
    drop(&it->octets), drop(&cipher), drop(&part), drop(&made);
    it->octets = whole;
}

/* The client that a reply names, of one component. */
static struct octets client_of(const struct octets *reply) {
    struct octets name = field_of("AS-REP", "cname.name-string[0]", reply), realm = field_of("AS-REP", "crealm", reply);
    return joined(joined(name, text_octets("@")), realm);
}

static int renamed_of(char **columns, const struct login *it, struct login *made) {
    krb_item realm;
    if (it->kind != INITIAL || strcmp(columns[0], "as") || strtoul(columns[RULE_COLUMN], NULL, 10) != KRB_CLIENT_RULE_CLIENT) return 0;
    if (krb_find_text("AS-REP", "crealm", it->octets.at, it->octets.count, &realm) != KRB_DONE || !realm.size) return 0;
    *made = *it;
    made->kind = RENAMED;
    made->octets = octets_of(it->octets.at, it->octets.count), made->key = octets_of(it->key.at, it->key.count);
    made->client = client_of(&it->octets), made->server = octets_of(it->server.at, it->server.count);
    made->keytab = made->password = made->bindings = (struct octets){NULL, 0};
    made->request = text_octets("the octets of a request");
    seal_renamed(made);
    return 1;
}

static int ap_request_of(char **columns, const struct login *it, struct login *made) {
    if (it->kind != ACCEPT || strcmp(columns[7], "0") || !columns[12][0]) return 0;
    size_t frame = it->octets.at[0] == 0x60 ? content_at(&it->octets, 0) + FRAME : 0;
    struct octets request = octets_of(it->octets.at + frame, it->octets.count - frame);
    krb_item ticket;
    memset(made, 0, sizeof *made);
    made->kind = AP_REQUEST;
    memcpy(made->name, it->name, sizeof made->name);
    krb_status status = krb_find_text("AP-REQ", "ticket", request.at, request.count, &ticket);
    EXPECT(status == KRB_DONE, "%s: no ticket: %u", it->name, status);
    made->octets = element(0x61, element(0x30, octets_of(request.at + ticket.offset, ticket.size)));
    made->etype = made->ap.session_etype = (int32_t)strtol(columns[11], NULL, 10);
    made->key = octets_of_text(columns[12]), made->client = text_octets(columns[16]), made->bindings = octets_of(it->bindings.at, it->bindings.count);
    made->ap.seconds = it->acceptor.clock - 7, made->ap.microseconds = 123456, made->ap.client_type = 1, made->ap.sequence_number = 0x80000001;
    made->ap.gss_flags = 2 + 4 + 8 + 16 + 32, made->ap.settings = KRB_AP_SEQUENCE | KRB_AP_GSS | KRB_AP_MUTUAL;
    drop(&request);
    return 1;
}

int login_made(char **columns, const struct login *it, struct login *made) { return renamed_of(columns, it, made) || ap_request_of(columns, it, made); }
