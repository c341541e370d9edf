/* Makes the calls of a KDC proxy of a table: proxies FILE, whose rows expect_proxies.py writes. */
#include "calls.h"
#include <stdio.h>
#include <stdlib.h>
#include <string.h>

enum { COLUMNS = 8, OTHER = 77777 };

static krb_status number_of(const char *name) {
    static const struct {
        const char *name;
        krb_status number;
    } own[] = {
        {"PROXY_TOO_LARGE", KRB_PROXY_TOO_LARGE}, {"PROXY_NO_LENGTH", KRB_PROXY_NO_LENGTH}, {"PROXY_OTHER_LENGTH", KRB_PROXY_OTHER_LENGTH},
        {"PROXY_NO_DOMAIN", KRB_PROXY_NO_DOMAIN}, {"PROXY_OTHER_KIND", KRB_PROXY_OTHER_KIND}, {"PROXY_FRAME_LENGTH", KRB_PROXY_FRAME_LENGTH},
        {"PROXY_INVALID", KRB_PROXY_INVALID},     {"PROXY_TRUNCATED", KRB_PROXY_TRUNCATED}, {"PROXY_UNSUPPORTED", KRB_PROXY_UNSUPPORTED},
        {"PROXY_PVNO", KRB_PROXY_PVNO},           {"PROXY_MSG_TYPE", KRB_PROXY_MSG_TYPE},
    };
    for (size_t k = 0; k < sizeof own / sizeof *own; k++)
        if (!strcmp(name, own[k].name)) return own[k].number;
    return status_of(name);
}

/* Whether a status is one of those that a row names. */
static int is_named(krb_status status, const char *names) {
    char *all = strdup(names), *rest = all;
    int found = 0;
    if (!all) die("no memory");
    for (const char *name = strsep(&rest, "|"); name; name = strsep(&rest, "|")) found |= status == number_of(name);
    free(all);
    return found;
}

/* The status of HTTP that a server answers where a request is refused (krb_proxy_http_status). */
static void try_http_status(krb_status status) {
    int wanted = status == KRB_PROXY_TOO_LARGE ? 413 : status == KRB_MEMORY ? 503 : 400;
    EXPECT(krb_proxy_http_status(status) == wanted, "the status of HTTP of %u", status);
}

/* The items of a message, as krb_items tells them: of an AS-REQ or a TGS-REQ, by its first octet; of a frame (RFC 3244, 2) of its AP-REQ. */
static size_t items_of(const uint8_t *message, size_t size, int is_frame, krb_item *items) {
    const char *type = is_frame ? "AP-REQ" : message[0] == 0x6a ? "AS-REQ" : "TGS-REQ";
    size_t count = OTHER, offset = OTHER, room = size;
    if (is_frame) size = message[4] << 8 | message[5], message += 6;
    krb_status status = krb_items((const uint8_t *)type, strlen(type), message, size, items, room, &count, &offset);
    EXPECT(status == KRB_DONE && count > 0, "items of the %s of a request: status %u", type, status);
    return status == KRB_DONE ? count : 0;
}

/* A request with its items, in just enough room, more, less and none: what krb_proxy_request tells of it in any room; its items, or their number alone; and of
   octets that are refused nothing, and no room is touched. */
static void try_request_items(const struct octets *it, krb_status wanted, const krb_proxy_posted *posted) {
    krb_item *items = calloc(posted->message_size + 1, sizeof *items);
    if (!items) die("no memory");
    size_t all = 0;
    if (wanted == KRB_DONE) all = items_of(it->at + posted->message_offset, posted->message_size, posted->service == KRB_PROXY_KPASSWD, items);
    size_t rooms[] = {all, all + 3, all ? all - 1 : 0, 0};
    for (size_t k = 0; k < sizeof rooms / sizeof *rooms; k++) {
        struct octets room = room_of(rooms[k] * sizeof *items);
        krb_proxy_posted told;
        memset(&told, 7, sizeof told);
        size_t count = OTHER, filled = wanted == KRB_DONE && rooms[k] >= all ? all : 0;
        krb_status status = krb_proxy_request_items(it->at, it->count, &told, (krb_item *)room.at, rooms[k], &count);
        EXPECT(status == (wanted == KRB_DONE && rooms[k] < all ? KRB_ROOM : wanted), "room for %zu of %zu items: status %u", rooms[k], all, status);
        EXPECT(count == all, "%zu items of a request, and not %zu", count, all);
        EXPECT(!memcmp(&told, posted, offsetof(krb_proxy_posted, names_one_realm) + sizeof told.names_one_realm), "with its items another request is told");
        EXPECT(!filled || !memcmp(room.at, items, filled * sizeof *items), "other items of a request are told");
        EXPECT(is_untouched(&room, filled * sizeof *items), "a request's items touch more of their room");
        drop(&room);
    }
    free(items);
}

/* What is told of a request: its service, whether it names one realm, the place of its message. */
static void try_request(const struct octets *it, char **row, int is_lenient) {
    krb_proxy_posted told = {OTHER, OTHER, OTHER, OTHER, OTHER, OTHER, OTHER, OTHER};
    krb_status status = is_lenient ? krb_proxy_request_lenient(it->at, it->count, &told) : krb_proxy_request(it->at, it->count, &told);
    EXPECT(is_named(status, row[3]), "%s: status %u, and not %s, of %s", row[0], status, row[3], row[1]);
    EXPECT(told.service == strtoul(row[4], NULL, 10) && told.names_one_realm == (row[5][0] == '1'), "%s: another service or realm is told of %s", row[0], row[1]);
    EXPECT(told.message_offset == strtoul(row[6], NULL, 10) && told.message_size == strtoul(row[7], NULL, 10), "%s: another place is told of %s", row[0], row[1]);
    if (status == KRB_DONE) {
        krb_item domain;
        int64_t hint = 0;
        krb_status found = krb_find_text("KDC-PROXY-MESSAGE", "target-domain", it->at, it->count, &domain);
        EXPECT(found == KRB_DONE && domain.offset == told.domain_offset && domain.size == told.domain_size, "%s: another target-domain is told of %s", row[0], row[1]);
        found = krb_find_number_text("KDC-PROXY-MESSAGE", "dclocator-hint", it->at, it->count, &hint);
        EXPECT(found == told.hint_status && hint == told.hint, "%s: another hint is told of %s", row[0], row[1]);
    } else {
        EXPECT(told.domain_offset == 0 && told.domain_size == 0 && told.hint == 0 && told.hint_status == 0, "%s: something is told of %s", row[0], row[1]);
    }
    if (status != KRB_DONE) try_http_status(status);
    if (!is_lenient) try_request_items(it, status, &told);
}

static void try_read(const struct octets *it, char **row) {
    size_t offset = OTHER, size = OTHER;
    krb_status status = krb_read_proxy_reply(it->at, it->count, &offset, &size);
    EXPECT(is_named(status, row[3]), "read: status %u, and not %s, of %s", status, row[3], row[1]);
    EXPECT(offset == strtoul(row[6], NULL, 10) && size == strtoul(row[7], NULL, 10), "another place is told of the reply %s", row[1]);
}

static void try_whole(const struct octets *it, char **row) {
    krb_status status = krb_proxy_is_whole(it->at, it->count, strtoull(row[2], NULL, 10));
    EXPECT(is_named(status, row[3]), "whole, up to %s: status %u, and not %s, of %s", row[2], status, row[3], row[1]);
}

static krb_status made(const char *call, const struct octets *it, const struct octets *beside, struct octets *room, size_t *size) {
    if (!strcmp(call, "reply")) return krb_proxy_reply(it->at, it->count, room->at, room->count, size);
    if (!strcmp(call, "datagram")) return krb_proxy_reply_datagram(it->at, it->count, room->at, room->count, size);
    return krb_make_proxy_request(it->at, it->count, beside->at, beside->count, room->at, room->count, size);
}

/* Octets that are answered: with just enough room, more, less and none; a refusal touches none of it. */
static void try_made(const struct octets *it, char **row) {
    struct octets wanted = octets_of_text(row[4]), beside = {NULL, 0};
    if (!strcmp(row[0], "client")) beside = octets_of_text(row[2]);
    size_t rooms[] = {wanted.count, wanted.count + 7, wanted.count ? wanted.count - 1 : 0, 0};
    for (size_t k = 0; k < sizeof rooms / sizeof *rooms; k++) {
        struct octets room = room_of(rooms[k]);
        size_t size = OTHER;
        krb_status status = made(row[0], it, &beside, &room, &size);
        int is_done = !strcmp(row[3], "DONE"), has_room = rooms[k] >= wanted.count;
        int is_right = is_done ? status == (has_room ? KRB_DONE : KRB_ROOM) : is_named(status, row[3]);
        EXPECT(is_right, "%s: status %u, and not %s, of %s", row[0], status, row[3], row[1]);
        EXPECT(size == wanted.count, "%s: %zu octets of %s", row[0], size, row[1]);
        EXPECT(is_untouched(&room, is_done && has_room ? wanted.count : 0), "%s touches more of its room, of %s", row[0], row[1]);
        EXPECT(!is_done || !has_room || !memcmp(room.at, wanted.at, wanted.count), "%s answers other octets to %s", row[0], row[1]);
        drop(&room);
    }
    drop(&wanted);
    drop(&beside);
}

int main(int count, char **arguments) {
    FILE *file = count == 2 ? fopen(arguments[1], "r") : NULL;
    if (!file) die("usage: proxies FILE");
    char *row[COLUMNS];
    long rows = 0;
    while (next_row(file, row, COLUMNS)) {
        struct octets it = octets_of_text(row[1]);
        if (!strcmp(row[0], "request") || !strcmp(row[0], "lenient")) try_request(&it, row, row[0][0] == 'l');
        else if (!strcmp(row[0], "read")) try_read(&it, row);
        else if (!strcmp(row[0], "whole")) try_whole(&it, row);
        else try_made(&it, row);
        drop(&it);
        rows++;
    }
    fclose(file);
    EXPECT(rows > 1000, "%ld rows", rows);
    return counted();
}
