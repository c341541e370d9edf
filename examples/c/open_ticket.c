/* Decrypts a ticket: open_ticket KEYFILE <TICKET. Prints its encryption type, its client, and
   until when it is good.

   cc open_ticket.c $(pkg-config --cflags --libs krbc) -o open_ticket

   KEYFILE has one line, ETYPE:KEYHEX, with two hexadecimal digits for each octet of the key. The
   key does not stand in the arguments, since other users of the machine see those. TICKET is the
   DER encoding of a Ticket (RFC 4120, 5.3), of at most 65536 octets.

   In the names of the client and its realm a backslash stands before a slash, an at sign and a
   backslash, and what is not printable ASCII is \xHH: names hold any ASCII, and a terminal obeys
   control characters.

   Exit statuses: 0 if the ticket is decrypted and printed; 1 if it is not, for a reason that a line
   on standard error says; 2 if the arguments or the key file are wrong.

   krb_find and krb_find_number hand out fields by their paths, and only of octets that are one
   element of the type, strictly DER: of the ticket, and of the part that was opened. */
#include <inttypes.h>
#include <krb.h>
#include <stdio.h>
#include <string.h>

enum {
    LONGEST_TICKET = 65536,
    LONGEST_KEY = 32,
    LONGEST_LINE = 2 + 1 + 2 * LONGEST_KEY + 1, /* digits, a colon, digits, a line feed */
    TICKET_USAGE = 2,  /* the key usage of a ticket's part (RFC 4120, 7.5.1) */
    FAILED = 1,
    WRONG_ARGUMENTS = 2
};

struct key {
    int32_t etype;
    uint8_t octets[LONGEST_KEY];
    size_t size;
};

static int stop(int status, const char *what, const char *why) {
    fprintf(stderr, "open_ticket: %s: %s\n", what, why);
    return status;
}

/* Reads a file to its end, if it has at most `room` octets; `size` becomes their number. Returns
   why it did not, or a null pointer. */
static const char *read_whole(FILE *file, void *octets, size_t room, const char *too_many,
                              size_t *size) {
    *size = fread(octets, 1, room, file);
    if (*size == room && fgetc(file) != EOF) return too_many;
    return ferror(file) ? "it cannot be read" : NULL;
}

/* The value of a hexadecimal digit; -1 of any other character. */
static int digit(char letter) {
    static const char digits[] = "0123456789abcdef", capitals[] = "0123456789ABCDEF";
    const char *at;
    if (letter == '\0') return -1;
    if ((at = strchr(digits, letter)) != NULL) return (int)(at - digits);
    return (at = strchr(capitals, letter)) != NULL ? (int)(at - capitals) : -1;
}

/* Reads ETYPE:KEYHEX, with or without a line feed behind it, and nothing else. Returns why it did
   not, or a null pointer. */
static const char *read_key(const char *line, size_t size, struct key *key) {
    size_t at = 0;
    if (size > 0 && line[size - 1] == '\n') size--;
    key->etype = 0;
    for (; at < size && at < 2 && line[at] >= '0' && line[at] <= '9'; at++)
        key->etype = key->etype * 10 + (line[at] - '0');
    if (at == 0 || at == size || line[at] != ':') return "its line is not ETYPE:KEYHEX";
    at++;
    key->size = krb_key_size(key->etype);
    if (key->size == 0 || key->size > sizeof key->octets) return "its encryption type is not known";
    if (size - at != 2 * key->size) return "its key has another length than its encryption type";
    for (size_t n = 0; n < key->size; n++, at += 2) {
        int high = digit(line[at]), low = digit(line[at + 1]);
        if (high < 0 || low < 0) return "its key has a character that is not a hexadecimal digit";
        key->octets[n] = (uint8_t)(high << 4 | low);
    }
    return NULL;
}

/* The key that a file has. Returns why there is none, or a null pointer. */
static const char *read_key_file(const char *path, struct key *key) {
    char line[LONGEST_LINE];
    size_t size;
    const char *why;
    FILE *file = fopen(path, "rb");
    if (file == NULL) return "it cannot be opened";
    why = read_whole(file, line, sizeof line, "it has more than one line ETYPE:KEYHEX", &size);
    fclose(file);
    return why != NULL ? why : read_key(line, size, key);
}

static void print_text(const uint8_t *text, size_t size) {
    for (size_t n = 0; n < size; n++) {
        int octet = text[n];
        if (octet == '/' || octet == '@' || octet == '\\') printf("\\%c", octet);
        else if (octet >= 0x20 && octet <= 0x7e) putchar(octet);
        else printf("\\x%02x", (unsigned)octet);
    }
}

/* Prints the text that a path leads to in an EncTicketPart. */
static krb_status print_field(const char *path, const uint8_t *part, size_t part_size) {
    krb_item item;
    krb_status status = krb_find_text("EncTicketPart", path, part, part_size, &item);
    if (status == KRB_DONE) print_text(part + item.offset, item.size);
    return status;
}

/* The components of the client's name, with slashes between them. */
static krb_status print_name(const uint8_t *part, size_t part_size) {
    char path[64];
    krb_status status = KRB_DONE;
    for (size_t n = 0; status == KRB_DONE; n++) {
        krb_item item;
        snprintf(path, sizeof path, "cname.name-string[%zu]", n);
        status = krb_find_text("EncTicketPart", path, part, part_size, &item);
        if (status != KRB_DONE) break;
        if (n > 0) putchar('/');
        print_text(part + item.offset, item.size);
    }
    return status == KRB_ABSENT ? KRB_DONE : status;
}

/* Prints what an EncTicketPart says. */
static krb_status print_part(int32_t etype, const uint8_t *part, size_t part_size) {
    krb_status status;
    printf("etype %" PRId32 "\nclient ", etype);
    status = print_name(part, part_size);
    putchar('@');
    if (status == KRB_DONE) status = print_field("crealm", part, part_size);
    printf("\nuntil ");
    if (status == KRB_DONE) status = print_field("endtime", part, part_size);
    putchar('\n');
    return status;
}

int main(int count, char **words) {
    static uint8_t ticket[LONGEST_TICKET], part[LONGEST_TICKET];
    struct key key;
    size_t ticket_size, part_size;
    krb_item cipher;
    int64_t etype;
    const char *why;
    krb_status status;

    if (count != 2) {
        fputs("usage: open_ticket KEYFILE <TICKET\n", stderr);
        return WRONG_ARGUMENTS;
    }
    why = read_key_file(words[1], &key);
    if (why != NULL) return stop(WRONG_ARGUMENTS, "the key file", why);
    why = read_whole(stdin, ticket, sizeof ticket, "it has more than 65536 octets", &ticket_size);
    if (why != NULL) return stop(FAILED, "the ticket", why);

    status = krb_find_number_text("Ticket", "enc-part.etype", ticket, ticket_size, &etype);
    if (status != KRB_DONE) return stop(FAILED, "not a ticket", krb_status_text(status));
    if (etype != key.etype) return stop(FAILED, "the ticket", "it is of another encryption type");
    status = krb_find_text("Ticket", "enc-part.cipher", ticket, ticket_size, &cipher);
    if (status != KRB_DONE) return stop(FAILED, "no cipher", krb_status_text(status));
    status = krb_open_ticket_part(key.etype, key.octets, key.size, TICKET_USAGE,
                                  ticket + cipher.offset, cipher.size, part, sizeof part,
                                  &part_size);
    if (status != KRB_DONE) return stop(FAILED, "not decrypted", krb_status_text(status));

    status = print_part(key.etype, part, part_size);
    if (status != KRB_DONE) return stop(FAILED, "the part", krb_status_text(status));
    if (fflush(stdout) != 0 || ferror(stdout))
        return stop(FAILED, "standard output", "it cannot be written");
    return 0;
}
