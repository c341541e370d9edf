/* The exports by their names, for tables of tests. */
#ifndef CALLS_H
#define CALLS_H

#include "counts.h"
#include "krb.h"

typedef krb_status seal_call(int32_t, const uint8_t *, size_t, int32_t, const uint8_t *, size_t, const uint8_t *, size_t, uint8_t *, size_t,
                             size_t *);
typedef krb_status open_call(int32_t, const uint8_t *, size_t, int32_t, const uint8_t *, size_t, uint8_t *, size_t, size_t *);

/* The calls of a part, with the number of its message. */
struct part {
    const char *name;
    int32_t number;
    seal_call *seal;
    open_call *open;
};
enum { PARTS = 7, SUITES = 5 };
extern const struct part parts[PARTS];

/* The numbers of the suites, and their sizes by the standards (RFC 3961, 6.3; RFC 3962, 6; RFC 8009, 5). */
struct suite {
    int32_t etype, cksumtype;
    size_t key, seed, confounder, checksum, fill;
};
extern const struct suite suites[SUITES];

/* A call of one row: the arguments that it takes, of which some calls take fewer. */
struct row {
    const char *call;
    int32_t number, usage;
    struct octets key, beside, input;
};

/* Whether there is a call of this name that answers octets; it is made with this room. `encrypt_kept`, `decrypt_kept` and `checksum_kept` keep the key
   first. */
int is_answering(const char *call);
krb_status answered(const struct row *row, struct octets *room, size_t *size);

/* `verify_checksum`, and `verify_checksum_kept`, which keeps the key first. */
krb_status verified(const struct row *row);

/* The number of a status, by its name in krb.h. */
krb_status status_of(const char *name);
#endif
