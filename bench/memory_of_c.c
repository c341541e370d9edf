/* Prints the allocations of the calls for C and the most octets that the library holds: memory_of_c < LINES. A line of the input has a call, what
 * it is given in words, and the octets in hexadecimal, with tabs between. A line of the output has the call with the words, how many octets it is
 * given, how many requests it makes, and the most octets held. The room for an answer is the caller's, and not counted. */
#include "counter.h"
#include "krb.h"
#include <stdio.h>
#include <stdlib.h>
#include <string.h>

enum { LARGEST = 1 << 21, ROOM = 1 << 27, ETYPE = 18, CKSUMTYPE = 16, USAGE = 2, KEY = 32, CONFOUNDER = 16 };

static uint8_t in[LARGEST], made[LARGEST], out[ROOM];
static const uint8_t key[KEY], confounder[CONFOUNDER];
static const char PART[] = "EncTicketPart", PATH[] = "cname.name-string[0]", REALM[] = "EXAMPLE.COM";
static const uint8_t MECHANISM[] = {0x2a, 0x86, 0x48, 0x86, 0xf7, 0x12, 0x01, 0x02, 0x02}; /* Kerberos (RFC 4121, 4.1) */
static size_t count, given, size;

#define TEXT(text) (const uint8_t *)(text), sizeof(text) - 1
#define KEYS key, sizeof key
#define ANSWER out, sizeof out, &size

/* What a call needs is made before these octets are its input and the counting starts. */
static void begin(size_t octets) {
    given = octets;
    start_counting();
}

/* Makes what a call that reads is given. */
static size_t make(krb_status status) {
    if (status != KRB_DONE) {
        fprintf(stderr, "memory_of_c: status %u\n", status);
        exit(1);
    }
    return size;
}

static krb_status of_encrypt(void) {
    begin(count);
    return krb_encrypt(ETYPE, KEYS, USAGE, confounder, sizeof confounder, in, count, ANSWER);
}
static krb_status of_decrypt(void) {
    size_t total = make(krb_encrypt(ETYPE, KEYS, USAGE, confounder, sizeof confounder, in, count, made, sizeof made, &size));
    begin(total);
    return krb_decrypt(ETYPE, KEYS, USAGE, made, total, ANSWER);
}
static krb_status of_encrypt_kept(void) {
    krb_key kept;
    make(krb_keep_key(ETYPE, KEYS, USAGE, &kept));
    begin(count);
    return krb_encrypt_kept(&kept, confounder, sizeof confounder, in, count, ANSWER);
}
static krb_status of_decrypt_kept(void) {
    krb_key kept;
    make(krb_keep_key(ETYPE, KEYS, USAGE, &kept));
    size_t total = make(krb_encrypt_kept(&kept, confounder, sizeof confounder, in, count, made, sizeof made, &size));
    begin(total);
    return krb_decrypt_kept(&kept, made, total, ANSWER);
}
static krb_status of_checksum(void) {
    begin(count);
    return krb_checksum(CKSUMTYPE, KEYS, USAGE, in, count, ANSWER);
}
static krb_status of_verify_checksum(void) {
    size_t total = make(krb_checksum(CKSUMTYPE, KEYS, USAGE, in, count, made, sizeof made, &size));
    begin(count);
    return krb_verify_checksum(CKSUMTYPE, KEYS, USAGE, in, count, made, total);
}
static krb_status of_seal_ticket_part(void) {
    begin(count);
    return krb_seal_ticket_part(ETYPE, KEYS, USAGE, confounder, sizeof confounder, in, count, ANSWER);
}
static krb_status of_open_ticket_part(void) {
    size_t total = make(krb_seal_ticket_part(ETYPE, KEYS, USAGE, confounder, sizeof confounder, in, count, made, sizeof made, &size));
    begin(total);
    return krb_open_ticket_part(ETYPE, KEYS, USAGE, made, total, ANSWER);
}
static krb_status of_check(void) {
    begin(count);
    return krb_check(KRB_MESSAGE_ENC_TICKET_PART, in, count);
}
static krb_status of_items(void) {
    size_t offset;
    begin(count);
    return krb_items(TEXT(PART), in, count, (krb_item *)out, sizeof out / sizeof(krb_item), &size, &offset);
}
static krb_status of_decode(void) {
    krb_decoded decoded;
    krb_part parts[4];
    begin(count);
    return krb_decode(TEXT(PART), in, count, NULL, 0, (krb_item *)out, sizeof out / sizeof(krb_item), parts, 4, made, sizeof made, &decoded);
}
static krb_status of_find(void) {
    krb_item item;
    begin(count);
    return krb_find(TEXT(PART), TEXT(PATH), in, count, &item);
}
static krb_status of_show(void) {
    begin(count);
    return krb_show(TEXT(PART), in, count, false, false, ANSWER);
}
static krb_status of_show_json(void) {
    begin(count);
    return krb_show(TEXT(PART), in, count, true, false, ANSWER);
}
static krb_status of_show_page(void) {
    begin(count);
    return krb_show_page(TEXT(PART), in, count, NULL, 0, false, false, ANSWER);
}
static krb_status of_page_items(void) {
    krb_page_counts counts;
    begin(count);
    return krb_page_items(TEXT(PART), in, count, NULL, 0, false, (krb_page_item *)out, ROOM / 2 / sizeof(krb_page_item), out + ROOM / 2, ROOM / 2, &counts);
}
static krb_status of_make_mic(void) {
    begin(count);
    return krb_make_mic(ETYPE, KEYS, false, false, 1, in, count, ANSWER);
}
static krb_status of_verify_mic(void) {
    uint64_t number;
    size_t total = make(krb_make_mic(ETYPE, KEYS, false, false, 1, in, count, made, sizeof made, &size));
    begin(count);
    return krb_verify_mic(ETYPE, KEYS, false, false, in, count, made, total, &number);
}
static krb_status of_wrap(void) {
    begin(count);
    return krb_wrap(ETYPE, KEYS, false, false, 1, 0, confounder, sizeof confounder, in, count, ANSWER);
}
static krb_status of_wrap_in_clear(void) {
    begin(count);
    return krb_wrap_in_clear(ETYPE, KEYS, false, false, 1, 0, in, count, ANSWER);
}
static krb_status of_unwrap(void) {
    uint64_t number;
    bool sealed;
    size_t total = make(krb_wrap(ETYPE, KEYS, false, false, 1, 28, confounder, sizeof confounder, in, count, made, sizeof made, &size));
    begin(total);
    return krb_unwrap(ETYPE, KEYS, false, false, made, total, &number, &sealed, ANSWER);
}
static krb_status of_make_gss_token(void) {
    begin(count);
    return krb_make_gss_token(MECHANISM, sizeof MECHANISM, in, count, ANSWER);
}
static krb_status of_gss_token(void) {
    size_t at[4], total = make(krb_make_gss_token(MECHANISM, sizeof MECHANISM, in, count, made, sizeof made, &size));
    begin(total);
    return krb_gss_token(made, total, &at[0], &at[1], &at[2], &at[3]);
}
static krb_status of_make_neg_token_resp(void) {
    begin(count);
    return krb_make_neg_token_resp(1, MECHANISM, sizeof MECHANISM, in, count, NULL, 0, ANSWER);
}
static krb_status of_make_proxy_request(void) {
    begin(count);
    return krb_make_proxy_request(in, count, TEXT(REALM), ANSWER);
}
static krb_status of_proxy_request(void) {
    krb_proxy_posted posted;
    size_t total = make(krb_make_proxy_request(in, count, TEXT(REALM), made, sizeof made, &size));
    begin(total);
    return krb_proxy_request(made, total, &posted);
}
static krb_status of_proxy_reply(void) {
    begin(count);
    return krb_proxy_reply_datagram(in, count, ANSWER);
}
static krb_status of_read_proxy_reply(void) {
    size_t offset, total = make(krb_proxy_reply_datagram(in, count, made, sizeof made, &size));
    begin(total);
    return krb_read_proxy_reply(made, total, &offset, &size);
}

static const struct {
    const char *name;
    krb_status (*call)(void);
} calls[] = {
    {"krb_encrypt", of_encrypt}, {"krb_decrypt", of_decrypt}, {"krb_encrypt_kept", of_encrypt_kept}, {"krb_decrypt_kept", of_decrypt_kept},
    {"krb_checksum", of_checksum}, {"krb_verify_checksum", of_verify_checksum}, {"krb_seal_ticket_part", of_seal_ticket_part},
    {"krb_open_ticket_part", of_open_ticket_part}, {"krb_check", of_check}, {"krb_items", of_items}, {"krb_decode", of_decode}, {"krb_find", of_find},
    {"krb_show", of_show}, {"krb_show, JSON", of_show_json}, {"krb_show_page", of_show_page}, {"krb_page_items", of_page_items}, {"krb_make_mic", of_make_mic},
    {"krb_verify_mic", of_verify_mic}, {"krb_wrap", of_wrap}, {"krb_wrap_in_clear", of_wrap_in_clear}, {"krb_unwrap", of_unwrap},
    {"krb_make_gss_token", of_make_gss_token}, {"krb_gss_token", of_gss_token}, {"krb_make_neg_token_resp", of_make_neg_token_resp},
    {"krb_make_proxy_request", of_make_proxy_request}, {"krb_proxy_request", of_proxy_request}, {"krb_proxy_reply_datagram", of_proxy_reply},
    {"krb_read_proxy_reply", of_read_proxy_reply},
};

/* Makes a call, and prints what it took. */
static void count_call(const char *name, const char *words) {
    for (size_t k = 0; k < sizeof calls / sizeof *calls; k++) {
        if (strcmp(name, calls[k].name)) continue;
        krb_status status = calls[k].call();
        struct counted counted = stop_counting();
        if (status != KRB_DONE) fprintf(stderr, "memory_of_c: %s of %s: status %u\n", name, words, status), exit(1);
        printf("%s, %s\t%zu\t%ld\t%ld\n", name, words, given, counted.requests, counted.peak);
        return;
    }
    fprintf(stderr, "memory_of_c: no call %s\n", name);
    exit(1);
}

static uint8_t value(char digit) { return digit <= '9' ? digit - '0' : digit - 'a' + 10; }

/* Reads the octets of digits. */
static void read_digits(const char *digits) {
    count = strspn(digits, "0123456789abcdef") / 2;
    if (count > sizeof in) count = sizeof in;
    for (size_t k = 0; k < count; k++) in[k] = (uint8_t)(value(digits[2 * k]) << 4 | value(digits[2 * k + 1]));
}

int main(void) {
    char *line = NULL, *rest;
    for (size_t room = 0; getline(&line, &room, stdin) > 0;) {
        rest = line;
        const char *name = strsep(&rest, "\t"), *words = strsep(&rest, "\t");
        read_digits(rest);
        count_call(name, words);
    }
    free(line);
    return 0;
}
