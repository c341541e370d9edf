/* The calls of an acceptor and of a client by rows of a table, which expect_logins.py writes. */
#ifndef LOGIN_CALLS_H
#define LOGIN_CALLS_H

#include "counts.h"
#include "krb.h"

enum login_kind { ACCEPT, INITIAL, TICKET, RENAMED, AP_REQUEST, AP_REPLY, MAKE_ERROR, CHANNEL_BINDINGS };
enum { LOGIN_COLUMNS = 22, MOST_NUMBERS = 16, LOGIN_ROOM = 8192 };

/* A call, and what it takes; what a kind does not take is none or 0. */
struct login {
    enum login_kind kind;
    char name[128];
    struct octets octets, key, keytab, bindings, client, server, realm, request, password; /* octets: the token, the reply, the ticket, the data */
    int32_t etype;
    krb_acceptor acceptor;
    krb_client_terms terms;
    krb_ap_terms ap;
    krb_exchange exchange;
    size_t flags[MOST_NUMBERS], flags_count;
    int32_t etypes[MOST_NUMBERS];
    size_t etypes_count;
    uint32_t code, microseconds;
    bool in_frame;
    struct octets addresses[2];
    uint32_t address_types[2];
};

/* What a call answers beside octets. What it does not tell is as it was before it. */
struct login_answer {
    krb_status status;
    size_t size;
    krb_accepted accepted;
    krb_exchange exchange;
    krb_followed followed;
    uint32_t rule;
};

/* The random octets that each call takes. */
extern const uint8_t login_random[48];

/* The call of a row, cut into its columns; 0 where the row is of none. What the columns have of its answer is not read. */
int login_of(char **columns, struct login *it);
void drop_login(struct login *it);

/* A call that is made of a row and of its columns: of a client that is let in the AP-REQ that it sends with the same ticket and another time; of an AS-REP that names
   another client than was asked for, krb_client_renamed of this reply with the checksum of a request (RFC 6806, 11). 0 of other rows. */
int login_made(char **columns, const struct login *it, struct login *made);

/* The text of octets, and the octets of a field of them, which is there. */
struct octets text_octets(const char *text);
struct octets field_of(const char *type, const char *path, const struct octets *of);

/* Makes the call, with this room. */
struct login_answer login_called(const struct login *it, struct octets *room);

/* Whether two answers are the same, and whether an answer tells no more than its status (KRB_DONE is not asked for) lets it: of a broken rule the rule, of too
   little room the size, and the exchange as it was. */
int is_same_answer(const struct login_answer *one, const struct login_answer *other);
int is_told_nothing(const struct login *it, const struct login_answer *answer);

/* The rule that an answer tells, of any kind. */
uint32_t rule_of(const struct login *it, const struct login_answer *answer);
#endif
