/* krb.h: Kerberos cryptography and messages for C (C99 and later) and C++, over proved code.

   Each call makes one call of the library whose contract is proved; docs/PROVED.md names the clause of each. This header, and that a caller
   keeps the duties below, is not proved: docs/compare_header compares its declarations with the exports.

   A call answers a status and keeps nothing: there is no state, no handle, nothing to begin and nothing to free.

   Octets are a pointer and a count. A count of 0 may go with a null pointer; any other count, below 2^63, is that of the octets the pointer
   is to. Numbers of types are those of the registries; an unknown or a negative one is refused with KRB_NUMBER.

   Where a call answers octets, `out` and `room` are where they go, and `size` is told how many they are:

     KRB_DONE   the answer is the first *size octets of `out`; those behind them are as they were
     KRB_ROOM   the answer has *size octets, which are more than `room`; `out` is as it was
     another    there is no answer: *size is 0, and `out` is as it was

   Where a call answers places, nothing is copied: a field of the input is told by how many octets are before it, `.._offset`, and how many it
   has, `.._size`. On any status but KRB_DONE all that is told is 0.

   So no octet of what was sealed is seen where the checksum is wrong. A call with too little room does the whole work before it answers
   KRB_ROOM; the sizes below say how much room suffices.

   What the caller owes, and nothing checks: pointers and counts as said; `size`, `offset` and `number` are not null; `out` and what these
   point to overlap nothing else that is passed (inputs may overlap one another, so nothing is sealed in place); malloc, realloc and free,
   which the library calls, are of one allocator; no call is made from a signal handler, nor in the forked child of a process with threads.
   Threads may make calls at once where none is passed another's `out` or `size`. Keys and opened octets are not wiped from memory that the
   library has freed, and no time of a call is promised: docs/SECURITY.md says what was measured. */
#ifndef KRB_H
#define KRB_H

#include <stdbool.h>
#include <stddef.h>
#include <stdint.h>

#ifdef __cplusplus
extern "C" {
#endif

/* It rises where a declaration below changes its meaning, and with it the number in the shared object's name. */
#define KRB_VERSION 2

/* What a call answers. No number changes its meaning; new ones come behind. */
typedef uint32_t krb_status;
enum {
    KRB_DONE = 0,            /* the answer is given; what was asked is so */
    KRB_ROOM = 1,            /* the answer has more octets than `room` */
    KRB_MEMORY = 2,          /* an allocation was refused */
    KRB_NUMBER = 3,          /* the library has no encryption type, checksum type or message of this number, no type of this name, no such path */
    KRB_CONFOUNDER_SIZE = 4, /* the confounder has not krb_confounder_size octets */
    KRB_KEY_SIZE = 5,        /* the key has not krb_key_size, or krb_checksum_key_size, octets; of a password: see krb_string_to_key */
    KRB_SEALED_SIZE = 6,     /* the sealed octets are fewer than those of a confounder and a checksum */
    KRB_INTEGRITY = 7,       /* the checksum is not that of these octets under this key and usage */
    KRB_PADDING = 8,         /* the encrypted octets are not whole blocks */
    KRB_INVALID = 9,         /* the octets are not the one DER encoding of a value of the type */
    KRB_TRUNCATED = 10,      /* the octets end too early, or a field is missing */
    KRB_UNSUPPORTED = 11,    /* a length of the indefinite form, or one of more than eight octets */
    KRB_NEVER = 12,          /* of an error that no call meets */
    KRB_SEED_SIZE = 13,      /* the seed has not krb_seed_size octets */
    KRB_EMPTY = 14,          /* n-fold of no octets, or to none */
    KRB_DIRECTION = 15,      /* the other side sent the token: it came back to its sender */
    KRB_TOKEN = 16,          /* the octets begin with no header of such a token */
    KRB_SUBKEY = 17,         /* the token's flags say that it is under another key */
    KRB_SEALED_MIC = 18,     /* a MIC token that is marked as sealed */
    KRB_SEALED_HEADER = 19,  /* what the token seals does not end in its own header */
    KRB_ABSENT = 20,         /* there is no such field or element, or no buffer of this index */
    KRB_TOO_LARGE = 21,      /* 64 bits do not hold the number */
    KRB_TOO_DEEP = 22,       /* more than 64 elements stand in one another */
    KRB_KEYTAB = 23,         /* the octets that keys are to be taken of are no keytab */
    KRB_OTHER_VERSION = 25,  /* the version of the format is another */
    KRB_PAC_TYPE = 26,       /* a buffer of a PAC is of a number that no type has */
    KRB_PAC_RANGE = 27,      /* a buffer of a PAC names octets that are not there */
    KRB_FRAME_SIZE = 28,     /* a frame with lengths of 16 bits has more than 65535 octets */

    /* of a message that goes through a proxy (krb_proxy_..), in the order in which the rules are looked at */
    KRB_PROXY_TOO_LARGE = 30,    /* more octets than a proxy takes */
    KRB_PROXY_NO_LENGTH = 31,    /* fewer than the four octets of a length in front of the message */
    KRB_PROXY_OTHER_LENGTH = 32, /* the length in front of the message is not that of the message */
    KRB_PROXY_NO_DOMAIN = 33,    /* there is no target-domain */
    KRB_PROXY_OTHER_KIND = 34,   /* the message begins as none that goes this way */
    KRB_PROXY_FRAME_LENGTH = 35, /* a frame of a password's change that ends in its first message */
    KRB_PROXY_INVALID = 36,      /* the message is not the one DER encoding of its type */
    KRB_PROXY_TRUNCATED = 37,    /* the message ends too early, or a field is missing */
    KRB_PROXY_UNSUPPORTED = 38,  /* a length of the indefinite form, or one of more than eight octets, in the message */
    KRB_PROXY_PVNO = 39,         /* pvno is not 5 */
    KRB_PROXY_MSG_TYPE = 40,     /* msg-type is not what the tag says */
    KRB_NOT_ACCEPTED = 41,       /* a rule of the acceptor's refuses the token: its number is in `rule` */
    KRB_NOT_GRANTED = 42,        /* a rule of the client's refuses the reply or the request: its number is in `rule` */
    KRB_UNLESS_REPEATED = 43     /* no rule of the acceptor's refuses the token, but perhaps the one at which the caller looks: that of its replay cache */
};

/* Encryption types (RFC 3961, 8; RFC 3962, 7; RFC 8009, 7). */
enum {
    KRB_ETYPE_DES3_CBC_SHA1_KD = 16, /* des3-cbc-hmac-sha1-kd, withdrawn by RFC 8429: open with it, and seal nothing new */
    KRB_ETYPE_AES128_CTS_HMAC_SHA1_96 = 17,
    KRB_ETYPE_AES256_CTS_HMAC_SHA1_96 = 18,
    KRB_ETYPE_AES128_CTS_HMAC_SHA256_128 = 19,
    KRB_ETYPE_AES256_CTS_HMAC_SHA384_192 = 20
};

/* Checksum types (RFC 3961, 8; RFC 3962, 7; RFC 8009, 7): each is the checksum of one encryption type, and takes its keys. */
enum {
    KRB_CKSUMTYPE_HMAC_SHA1_DES3_KD = 12,       /* of encryption type 16 */
    KRB_CKSUMTYPE_HMAC_SHA1_96_AES128 = 15,     /* of 17 */
    KRB_CKSUMTYPE_HMAC_SHA1_96_AES256 = 16,     /* of 18 */
    KRB_CKSUMTYPE_HMAC_SHA256_128_AES128 = 19,  /* of 19 */
    KRB_CKSUMTYPE_HMAC_SHA384_192_AES256 = 20   /* of 20 */
};

/* Messages and parts, by their application tags (RFC 4120, 5.10). */
enum {
    KRB_MESSAGE_TICKET = 1,            /* Ticket (5.3) */
    KRB_MESSAGE_AUTHENTICATOR = 2,     /* Authenticator (5.5.1) */
    KRB_MESSAGE_ENC_TICKET_PART = 3,   /* EncTicketPart (5.3) */
    KRB_MESSAGE_AS_REQ = 10,           /* AS-REQ (5.4.1) */
    KRB_MESSAGE_AS_REP = 11,           /* AS-REP (5.4.2) */
    KRB_MESSAGE_TGS_REQ = 12,          /* TGS-REQ (5.4.1) */
    KRB_MESSAGE_TGS_REP = 13,          /* TGS-REP (5.4.2) */
    KRB_MESSAGE_AP_REQ = 14,           /* AP-REQ (5.5.1) */
    KRB_MESSAGE_AP_REP = 15,           /* AP-REP (5.5.2) */
    KRB_MESSAGE_KRB_PRIV = 21,         /* KRB-PRIV (5.7.1) */
    KRB_MESSAGE_KRB_CRED = 22,         /* KRB-CRED (5.8.1) */
    KRB_MESSAGE_ENC_AS_REP_PART = 25,  /* EncASRepPart (5.4.2) */
    KRB_MESSAGE_ENC_TGS_REP_PART = 26, /* EncTGSRepPart (5.4.2) */
    KRB_MESSAGE_ENC_AP_REP_PART = 27,  /* EncAPRepPart (5.5.2) */
    KRB_MESSAGE_ENC_KRB_PRIV_PART = 28, /* EncKrbPrivPart (5.7.1) */
    KRB_MESSAGE_ENC_KRB_CRED_PART = 29, /* EncKrbCredPart (5.8.1) */
    KRB_MESSAGE_KRB_ERROR = 30         /* KRB-ERROR (5.9.1) */
};

/* Sizes, in octets. Each is 0 where no type has the number.

     etype                     16    17    18    19    20        cksumtype                 12    15    16    19    20
     krb_key_size              24    16    32    16    32        krb_checksum_size         20    12    12    16    24
     krb_seed_size             21    16    32    16    32        krb_checksum_key_size     24    16    32    16    32
     krb_confounder_size        8    16    16    16    16 */

/* Those of a key (RFC 3961, 6.3; RFC 3962, 6; RFC 8009, 4). */
size_t krb_key_size(int32_t etype);

/* Those of a seed, of which krb_random_to_key makes a key (RFC 3961, 3, the key-generation seed length). */
size_t krb_seed_size(int32_t etype);

/* Those of a confounder (RFC 3961, 5.3; RFC 3962, 6; RFC 8009, 5). */
size_t krb_confounder_size(int32_t etype);

/* Those of the answer of krb_encrypt, and of krb_seal_.., to so many octets: confounder, payload, for etype 16 zeros to whole blocks of 8,
   and checksum. 0 too where a size_t cannot hold them. */
size_t krb_encrypted_size(int32_t etype, size_t payload_size);

/* Those of a checksum, and of its key (RFC 3961, 4). */
size_t krb_checksum_size(int32_t cksumtype);
size_t krb_checksum_key_size(int32_t cksumtype);

/* The payload, encrypted, with the checksum of the encryption type behind it (RFC 3961, 5.3 and 6.3; RFC 3962, 6; RFC 8009, 5), under the
   key of this key usage (RFC 4120, 7.5.1; any number). Etype 16 fills the payload with the fewest zeros to blocks of 8. The caller draws a
   new confounder for each call, of octets that nobody foresees. The answer has krb_encrypted_size octets.
   KRB_NUMBER; then KRB_CONFOUNDER_SIZE; then KRB_KEY_SIZE; KRB_MEMORY. */
krb_status krb_encrypt(int32_t etype, const uint8_t *key, size_t key_size, int32_t usage, const uint8_t *confounder,
                       size_t confounder_size, const uint8_t *payload, size_t payload_size, uint8_t *out, size_t room, size_t *size);

/* The payload that was encrypted to these octets, for etype 16 with the zeros that filled it; it has fewer octets than `sealed`.
   KRB_NUMBER; then KRB_KEY_SIZE; then KRB_SEALED_SIZE; for etype 16 then KRB_PADDING; then KRB_INTEGRITY; KRB_MEMORY. KRB_SEALED_SIZE,
   KRB_PADDING and KRB_INTEGRITY say that no payload under any confounder is encrypted to the octets under this key and usage. */
krb_status krb_decrypt(int32_t etype, const uint8_t *key, size_t key_size, int32_t usage, const uint8_t *sealed, size_t sealed_size,
                       uint8_t *out, size_t room, size_t *size);

/* A key that is kept: what an encryption type derives from a key for one key usage (RFC 3961, 5.3; RFC 8009, 5). It is made once by
   krb_keep_key, and then saves each call that derivation. It is plain octets, with nothing to free: it may be copied, and is as secret as
   the key. Its fields are the library's. */
typedef struct krb_key {
    int32_t etype;
    uint8_t ke[32]; /* Ke, and zeros behind it */
    uint8_t ki[32]; /* Ki, and zeros behind it */
} krb_key;

/* `kept` becomes the key of this encryption type and key usage. On another status than KRB_DONE it is as it was. It allocates nothing.
   KRB_NUMBER; then KRB_KEY_SIZE. */
krb_status krb_keep_key(int32_t etype, const uint8_t *key, size_t key_size, int32_t usage, krb_key *kept);

/* What krb_encrypt, and krb_decrypt, answer under the key and usage that `kept` was made of. One kept key serves both, at once in any number
   of threads. The caller owes a key that krb_keep_key made: of another it is said only that KRB_NUMBER comes where no encryption type has
   its number, and that on any status but KRB_DONE `out` is as it was. */
krb_status krb_encrypt_kept(const krb_key *kept, const uint8_t *confounder, size_t confounder_size, const uint8_t *payload,
                            size_t payload_size, uint8_t *out, size_t room, size_t *size);
krb_status krb_decrypt_kept(const krb_key *kept, const uint8_t *sealed, size_t sealed_size, uint8_t *out, size_t room, size_t *size);

/* The key of a password and a salt, with the parameters that are the default of the type: 4096 rounds of PBKDF2 (RFC 3962, 4), 32768 for
   etypes 19 and 20 (RFC 8009, 4); etype 16 takes none (RFC 3961, 6.3.1). The password is what the caller's client takes for it, UTF-8 in
   general. The answer has krb_key_size octets.
   KRB_NUMBER; KRB_KEY_SIZE where for etype 16 password and salt are both empty; KRB_MEMORY. */
krb_status krb_string_to_key(int32_t etype, const uint8_t *password, size_t password_size, const uint8_t *salt, size_t salt_size,
                             uint8_t *out, size_t room, size_t *size);

/* The key of random octets (random-to-key: RFC 3961, 6.3.1; RFC 3962, 6; RFC 8009, 3): for etypes 17 to 20 these octets, for etype 16 each
   seven with eight parity bits, and another in the place of a weak key of DES. The answer has krb_key_size octets.
   KRB_NUMBER; KRB_SEED_SIZE; KRB_MEMORY. */
krb_status krb_random_to_key(int32_t etype, const uint8_t *seed, size_t seed_size, uint8_t *out, size_t room, size_t *size);

/* The checksum of a message under the key of this key usage (RFC 3961, 5.4 and 6.3; RFC 3962, 6; RFC 8009, 6). The answer has
   krb_checksum_size octets.
   KRB_NUMBER; KRB_KEY_SIZE; KRB_MEMORY. */
krb_status krb_checksum(int32_t cksumtype, const uint8_t *key, size_t key_size, int32_t usage, const uint8_t *message,
                        size_t message_size, uint8_t *out, size_t room, size_t *size);

/* Whether these octets are the checksum that krb_checksum answers: KRB_DONE exactly where they are. All octets are compared.
   KRB_NUMBER; KRB_KEY_SIZE; KRB_INTEGRITY. */
krb_status krb_verify_checksum(int32_t cksumtype, const uint8_t *key, size_t key_size, int32_t usage, const uint8_t *message,
                               size_t message_size, const uint8_t *checksum, size_t checksum_size);

/* A key of checksums that is kept: what a checksum type derives from a key for one key usage (RFC 3961, 5.4; RFC 8009, 6). It is made once by
   krb_keep_checksum_key, and then saves each call that derivation. It is plain octets, with nothing to free: it may be copied, and is as
   secret as the key. Its fields are the library's. */
typedef struct krb_checksum_key {
    int32_t cksumtype;
    uint8_t kc[32]; /* Kc, and zeros behind it */
} krb_checksum_key;

/* `kept` becomes the key of this checksum type and key usage. On another status than KRB_DONE it is as it was.
   KRB_NUMBER; then KRB_KEY_SIZE; KRB_MEMORY for cksumtype 12 alone, since the others allocate nothing. */
krb_status krb_keep_checksum_key(int32_t cksumtype, const uint8_t *key, size_t key_size, int32_t usage, krb_checksum_key *kept);

/* What krb_checksum, and krb_verify_checksum, answer under the key and usage that `kept` was made of. One kept key serves both, at once in any
   number of threads. They allocate nothing. The caller owes a key that krb_keep_checksum_key made: of another the checksum is that under the
   octets of its `kc`.
   KRB_NUMBER where no checksum type has its number; krb_verify_checksum_kept then KRB_INTEGRITY. */
krb_status krb_checksum_kept(const krb_checksum_key *kept, const uint8_t *message, size_t message_size, uint8_t *out, size_t room,
                             size_t *size);
krb_status krb_verify_checksum_kept(const krb_checksum_key *kept, const uint8_t *message, size_t message_size, const uint8_t *checksum,
                                    size_t checksum_size);

/* The n-fold of the input (RFC 3961, 5.1), where n is 8 times `out_size`: it fills all of `out`.
   KRB_EMPTY where either is empty, and `out` is as it was. */
krb_status krb_n_fold(const uint8_t *input, size_t input_size, uint8_t *out, size_t out_size);

/* Whether the octets are the one DER encoding of such a message, by a number KRB_MESSAGE_.., with nothing behind it: KRB_DONE.
   KRB_NUMBER; else, of the first fault: KRB_INVALID, KRB_TRUNCATED, KRB_UNSUPPORTED. It takes no memory. */
krb_status krb_check(int32_t number, const uint8_t *octets, size_t octets_size);

/* As krb_encrypt, of the one DER encoding of such a part: what krb_check with its number refuses is refused so, before all else.
   Key usages (RFC 4120, 7.5.1): a ticket's part 2; an authenticator 11, in a TGS-REQ 7; an AS-REP's part 3; a TGS-REP's part 8 under the
   session key and 9 under the authenticator's; an AP-REP's part 12; KRB-PRIV 13; KRB-CRED 14. */
krb_status krb_seal_ticket_part(int32_t etype, const uint8_t *key, size_t key_size, int32_t usage, const uint8_t *confounder,
                                size_t confounder_size, const uint8_t *part, size_t part_size, uint8_t *out, size_t room, size_t *size);
krb_status krb_seal_authenticator(int32_t etype, const uint8_t *key, size_t key_size, int32_t usage, const uint8_t *confounder,
                                  size_t confounder_size, const uint8_t *part, size_t part_size, uint8_t *out, size_t room,
                                  size_t *size);
krb_status krb_seal_as_rep_part(int32_t etype, const uint8_t *key, size_t key_size, int32_t usage, const uint8_t *confounder,
                                size_t confounder_size, const uint8_t *part, size_t part_size, uint8_t *out, size_t room, size_t *size);
krb_status krb_seal_tgs_rep_part(int32_t etype, const uint8_t *key, size_t key_size, int32_t usage, const uint8_t *confounder,
                                 size_t confounder_size, const uint8_t *part, size_t part_size, uint8_t *out, size_t room,
                                 size_t *size);
krb_status krb_seal_ap_rep_part(int32_t etype, const uint8_t *key, size_t key_size, int32_t usage, const uint8_t *confounder,
                                size_t confounder_size, const uint8_t *part, size_t part_size, uint8_t *out, size_t room, size_t *size);
krb_status krb_seal_priv_part(int32_t etype, const uint8_t *key, size_t key_size, int32_t usage, const uint8_t *confounder,
                              size_t confounder_size, const uint8_t *part, size_t part_size, uint8_t *out, size_t room, size_t *size);
krb_status krb_seal_cred_part(int32_t etype, const uint8_t *key, size_t key_size, int32_t usage, const uint8_t *confounder,
                              size_t confounder_size, const uint8_t *part, size_t part_size, uint8_t *out, size_t room, size_t *size);

/* The one DER encoding of the part that was sealed to these octets, without zeros that fill it: KRB_DONE exactly where krb_seal_.. of it, with
   this key and usage and some confounder, gives them (out of memory and want of room aside).
   KRB_NUMBER; then KRB_KEY_SIZE; KRB_SEALED_SIZE; for etype 16 KRB_PADDING; KRB_INTEGRITY; then, where what was encrypted is no such part with
   fewer zeros behind it than a block of the fill has, KRB_INVALID, KRB_TRUNCATED or KRB_UNSUPPORTED; KRB_MEMORY. On each of these but KRB_NUMBER,
   KRB_KEY_SIZE and KRB_MEMORY no such part is sealed to the octets under this key and usage. */
krb_status krb_open_ticket_part(int32_t etype, const uint8_t *key, size_t key_size, int32_t usage, const uint8_t *sealed,
                                size_t sealed_size, uint8_t *out, size_t room, size_t *size);
krb_status krb_open_authenticator(int32_t etype, const uint8_t *key, size_t key_size, int32_t usage, const uint8_t *sealed,
                                  size_t sealed_size, uint8_t *out, size_t room, size_t *size);
krb_status krb_open_as_rep_part(int32_t etype, const uint8_t *key, size_t key_size, int32_t usage, const uint8_t *sealed,
                                size_t sealed_size, uint8_t *out, size_t room, size_t *size);
krb_status krb_open_tgs_rep_part(int32_t etype, const uint8_t *key, size_t key_size, int32_t usage, const uint8_t *sealed,
                                 size_t sealed_size, uint8_t *out, size_t room, size_t *size);
krb_status krb_open_ap_rep_part(int32_t etype, const uint8_t *key, size_t key_size, int32_t usage, const uint8_t *sealed,
                                size_t sealed_size, uint8_t *out, size_t room, size_t *size);
krb_status krb_open_priv_part(int32_t etype, const uint8_t *key, size_t key_size, int32_t usage, const uint8_t *sealed,
                              size_t sealed_size, uint8_t *out, size_t room, size_t *size);
krb_status krb_open_cred_part(int32_t etype, const uint8_t *key, size_t key_size, int32_t usage, const uint8_t *sealed,
                              size_t sealed_size, uint8_t *out, size_t room, size_t *size);

/* Items of octets. A type is named as its standard names it: "AS-REQ", "Ticket", "EncTicketPart", "PrincipalName", "KDC-PROXY-MESSAGE", "NegTokenInit"; an
   alternative of a CHOICE by its whole name, as "NegotiationToken (negTokenResp)". crates/krb_schema/kerberos.txt has all of them. The octets are one
   element of the type, strictly DER, with nothing behind it; what krb_open_.. hands out is such octets as well.

   An item is an element, or where one that has elements begins or ends. It holds no octets: its content is the `size` octets of the input behind
   `offset` others (X.690, 8.1.4): of a text and of an OCTET STRING the octets themselves; of a time YYYYMMDDHHMMSSZ; of a number its two's
   complement; of a BIT STRING how many bits are unused and then the bits. Its fields are set by the library. */
typedef struct krb_item {
    size_t offset;    /* octets of the input before its content */
    size_t size;      /* octets of its content */
    uint32_t form;    /* KRB_ITEM_.. */
    uint32_t kind;    /* of KRB_ITEM_LEAF KRB_LEAF_.., else KRB_NODE_.. */
    uint32_t name;    /* the number of what its standard calls it: krb_item_name; KRB_NO_NAME where it has none */
    int32_t registry; /* KRB_REGISTRY_.., what its number, or its flags, are of */
    uint32_t depth;   /* how many elements it stands in */
    uint32_t tag;     /* the octet of its tag (X.690, 8.1.2) */
    uint32_t role;    /* KRB_ROLE_.., what programs do with it */
    uint32_t reserved; /* 0 */
} krb_item;

enum {
    KRB_ITEM_LEAF = 1,  /* an element without elements */
    KRB_ITEM_BEGIN = 2, /* an element with elements begins, which follow */
    KRB_ITEM_END = 3    /* it ends */
};

enum {
    KRB_LEAF_INTEGER = 1,      /* INTEGER */
    KRB_LEAF_UNSIGNED = 2,     /* INTEGER from 0 to 4294967295 */
    KRB_LEAF_NUMBER = 3,       /* INTEGER that its standard fixes to a number, as pvno; any is read */
    KRB_LEAF_MICROSECONDS = 4, /* INTEGER from 0 to 999999; any is read */
    KRB_LEAF_FLAGS = 5,        /* KerberosFlags, a BIT STRING */
    KRB_LEAF_BITS = 6,         /* BIT STRING */
    KRB_LEAF_TEXT = 7,         /* KerberosString */
    KRB_LEAF_COMPONENT = 8,    /* KerberosString, a component of a principal's name */
    KRB_LEAF_TIME = 9,         /* KerberosTime */
    KRB_LEAF_OCTETS = 10,      /* OCTET STRING */
    KRB_LEAF_SECRET = 11,      /* OCTET STRING, the octets of a key or a password, or what KRB-PRIV keeps private */
    KRB_LEAF_CIPHER = 12,      /* OCTET STRING, a ciphertext */
    KRB_LEAF_TRUTH = 13,       /* BOOLEAN */
    KRB_LEAF_IDENTIFIER = 14,  /* OBJECT IDENTIFIER */
    KRB_LEAF_ANY = 15          /* any element, whose content is not read */
};

enum {
    KRB_NODE_STRUCT = 1,      /* SEQUENCE */
    KRB_NODE_LIST = 2,        /* SEQUENCE OF */
    KRB_NODE_FILLED_LIST = 3, /* SEQUENCE OF that is to have one element or more */
    KRB_NODE_WRAP = 4         /* what holds one element alone: an explicit tag, or an OCTET STRING */
};

/* What numbers are of. */
enum {
    KRB_REGISTRY_NONE = -1, /* numbers that have no names */
    KRB_REGISTRY_ENCRYPTION_TYPE = 0,         /* RFC 3961, 8 */
    KRB_REGISTRY_CHECKSUM_TYPE = 1,           /* RFC 3961, 8 */
    KRB_REGISTRY_NAME_TYPE = 2,               /* RFC 4120, 6.2 */
    KRB_REGISTRY_MESSAGE_TYPE = 3,            /* RFC 4120, 7.5.7 */
    KRB_REGISTRY_ERROR_CODE = 4,              /* RFC 4120, 7.5.9 */
    KRB_REGISTRY_PA_DATA_TYPE = 5,            /* RFC 4120, 7.5.2 */
    KRB_REGISTRY_AUTHORIZATION_DATA_TYPE = 6, /* RFC 4120, 7.5.4 */
    KRB_REGISTRY_ADDRESS_TYPE = 7,            /* RFC 4120, 7.5.3 */
    KRB_REGISTRY_TRANSITED_ENCODING_TYPE = 8, /* RFC 4120, 7.5.5 */
    KRB_REGISTRY_LAST_REQUEST_TYPE = 9,       /* RFC 4120, 5.4.2 */
    KRB_REGISTRY_TICKET_FLAG = 10,            /* bits of TicketFlags, RFC 4120, 5.3 */
    KRB_REGISTRY_KDC_OPTION = 11,             /* bits of KDCOptions, RFC 4120, 5.4.1 */
    KRB_REGISTRY_AP_OPTION = 12,              /* bits of APOptions, RFC 4120, 5.5.1 */
    KRB_REGISTRY_KEY_USAGE = 13,              /* RFC 4120, 7.5.1 */
    KRB_REGISTRY_PAC_BUFFER_TYPE = 14,        /* MS-PAC, 2.4 */
    KRB_REGISTRY_GSS_FLAG = 15,               /* RFC 4121, 4.1.1.1 */
    KRB_REGISTRY_NEGOTIATION_STATE = 16,      /* RFC 4178, 4.2.2 */
    KRB_REGISTRY_CONTEXT_FLAG = 17,           /* bits of ContextFlags, RFC 4178, 4.2.1 */
    KRB_REGISTRY_TOKEN_FLAG = 18              /* RFC 4121, 4.2.2 */
};

/* What programs do with an element (RFC 4120). An EncryptedData has the role of what is encrypted in it; its field "cipher" is the ciphertext. */
enum {
    KRB_ROLE_NONE = 0,                        /* nothing */
    KRB_ROLE_AUTHORIZATION_DATA = 1,          /* authorization data of the type that the number before says: of type 128 a PAC */
    KRB_ROLE_CHECKSUM = 2,                    /* a checksum of the type that the number before says: of 32771 that of the GSS-API (RFC 4121, 4.1.1) */
    KRB_ROLE_PREFIXED_MESSAGE = 3,            /* a message behind its length in four octets (RFC 4120, 7.2.2) */
    KRB_ROLE_MECHANISM_TOKEN = 4,             /* a token of a mechanism (RFC 4178, 4.2.1) */
    KRB_ROLE_MECHANISM_LIST_MIC = 5,          /* a MIC of the list of mechanisms (RFC 4178, 5) */
    KRB_ROLE_KEY = 6,                         /* the octets of a key of the encryption type that the number before says */
    KRB_ROLE_ENC_TICKET_PART = 7,             /* an EncryptedData of an EncTicketPart, key usage 2 */
    KRB_ROLE_ENC_AS_REP_PART = 8,             /* of an EncASRepPart, or an EncTGSRepPart, key usage 3 */
    KRB_ROLE_ENC_TGS_REP_PART = 9,            /* of an EncTGSRepPart, key usage 8 or 9 */
    KRB_ROLE_AUTHENTICATOR = 10,              /* of an Authenticator, key usage 11; 7 in a request to a KDC */
    KRB_ROLE_REQUEST_AUTHORIZATION_DATA = 11, /* of AuthorizationData in a request to a KDC, key usage 4 or 5 */
    KRB_ROLE_ENC_AP_REP_PART = 12,            /* of an EncAPRepPart, key usage 12 */
    KRB_ROLE_ENC_KRB_PRIV_PART = 13,          /* of an EncKrbPrivPart, key usage 13 */
    KRB_ROLE_ENC_KRB_CRED_PART = 14,          /* of an EncKrbCredPart, key usage 14; in the clear under encryption type 0 */
    KRB_ROLE_PA_ENC_TS_ENC = 15,              /* pre-authentication data, an EncryptedData of a PA-ENC-TS-ENC, key usage 1 */
    KRB_ROLE_SALT = 16,                       /* a salt (RFC 4120, 5.2.7.5) */
    KRB_ROLE_CLIENT_REALM = 17,               /* the realm of a client */
    KRB_ROLE_CLIENT_NAME = 18,                /* the name of a client */
    KRB_ROLE_SERVER_REALM = 19,               /* the realm of a server */
    KRB_ROLE_SERVER_NAME = 20                 /* the name of a server */
};

#define KRB_NO_NAME UINT32_MAX

/* All items of octets of a type, in the order of the octets.
   KRB_DONE: they are the first *count of `items`, and those behind are as they were. KRB_ROOM: they are *count, more than `room`; `items` is as
   it was. An element of n octets has at most n of them. Else *count is 0, and `items` is as it was: KRB_NUMBER where no type has the name; of the
   first error of the octets from the left KRB_INVALID, KRB_TRUNCATED or KRB_UNSUPPORTED, or KRB_TOO_DEEP where more than 64 elements stand in one
   another, and *offset octets stand before it: an error of a tag or a length is where its element begins, one of a content where the content
   begins; KRB_MEMORY. But for the octets' errors *offset is 0. */
krb_status krb_items(const uint8_t *type_name, size_t type_name_size, const uint8_t *octets, size_t octets_size, krb_item *items, size_t room,
                     size_t *count, size_t *offset);

/* What the keys of a keytab make of a ciphertext, which is one of the items. Nothing in it is a pointer. */
typedef struct krb_part {
    size_t item;          /* the index of the ciphertext among the items */
    size_t first;         /* the index of the first item of the part */
    size_t count;         /* how many items the part has; 0 where there is none */
    size_t offset;        /* octets of `out` before those of the part: the places of its items are in these */
    size_t size;          /* octets of the part */
    size_t opener_offset; /* octets of `out` before the name of the key that decrypts it */
    size_t opener_size;   /* octets of that name */
    size_t keys_left_out; /* how many keys in the part are not tried on what follows */
    uint32_t outcome;     /* KRB_PART_.. */
    uint32_t usage;       /* the key usage (RFC 4120, 7.5.1); 0 where no key decrypts it */
} krb_part;

enum {
    KRB_PART_NOT_TRIED = 0,          /* there is no key */
    KRB_PART_IN_CLEAR = 1,           /* a part in the clear, which a KRB-CRED under encryption type 0 has (RFC 4120, 5.8.1) */
    KRB_PART_TYPE_NOT_SUPPORTED = 2, /* its encryption type is none of KRB_ETYPE_.. */
    KRB_PART_NO_KEY_OF_TYPE = 3,     /* no key is of its encryption type */
    KRB_PART_NO_KEY_FITS = 4,        /* no key of its encryption type decrypts it */
    KRB_PART_DECRYPTED = 5,          /* a key decrypts it */
    KRB_PART_NO_ENCODING = 6         /* a key decrypts it, and the octets are no encoding of what is encrypted for the usage */
};

/* How much krb_decode hands out; of octets that are refused, how many stand before their first error. */
typedef struct krb_decoded {
    size_t items;  /* how many items */
    size_t parts;  /* how many parts: one for each KRB_LEAF_CIPHER among the items of the octets */
    size_t octets; /* how many octets */
    size_t offset; /* as krb_items tells it */
} krb_decoded;

/* All items of octets of a type, as krb_items has them, with what the keys of a keytab open in them: what jolmurig show --keytab shows, as places.
   Behind the items of the octets stand those of the parts, one part behind another, in the order of the ciphertexts. The places of a part's items are
   in the part's octets, which stand in `out`, with nothing encrypted and no fill, each behind the name of the key that decrypts them: of a key of the keytab
   its principal and version, as "host/www.example.org@EXAMPLE.ORG kvno 3". The part is of the type that its first item is named: krb_find finds in it
   by that name.
   A ciphertext is tried under the keys of the keytab, in their order, and then those that stand in parts before it, of which a thousand are tried; for the
   usages that its role says. A ciphertext within a part is not decrypted. A keytab of no octets has no keys: parts in the clear alone are told.
   KRB_DONE: all is at the front of `items`, `parts` and `out`, what is behind is as it was, and `decoded` says how many they are. KRB_ROOM: one of
   these has too little room; all are as they were, and `decoded` says how many they would be: a part has no more octets than its ciphertext. Else they are as
   they were, and all in `decoded` is 0 but for `offset`: those of krb_items; KRB_KEYTAB; KRB_MEMORY. */
krb_status krb_decode(const uint8_t *type_name, size_t type_name_size, const uint8_t *octets, size_t octets_size, const uint8_t *keytab,
                      size_t keytab_size, krb_item *items, size_t items_room, krb_part *parts, size_t parts_room, uint8_t *out, size_t room,
                      krb_decoded *decoded);

/* What the standards call items of this number; of two names there are two numbers, and a name keeps its number. KRB_NUMBER: none has it. */
krb_status krb_item_name(uint32_t number, uint8_t *out, size_t room, size_t *size);

/* What the standards call a number, or the flag of this number counted from 0, of a registry (KRB_REGISTRY_..), as krb_item's `registry` says which: of
   KRB_REGISTRY_TICKET_FLAG and 1 "forwardable". KRB_NUMBER: no registry has the number, or it has no name for it. */
krb_status krb_number_name(int32_t registry, int64_t number, uint8_t *out, size_t room, size_t *size);

/* The item that a path leads to: names of fields as the standard spells them, `.` between, and `[n]` for element n of a list, counted from 0, as
   "req-body.sname.name-string[1]" or "tickets[0].enc-part.cipher". A field has the item of what stands in its explicit tags. An OCTET STRING that
   holds an element has its own, and the path goes on to the fields of what it holds: "padata[0].padata-value", "padata[0].padata-value.ticket.realm".
   The empty path leads to the whole.
   KRB_NUMBER where no type has the name; those of krb_items; then KRB_NUMBER of what is no path, and KRB_ABSENT where there is no such field or
   element; KRB_MEMORY. On each of these *item is all zeros. */
krb_status krb_find(const uint8_t *type_name, size_t type_name_size, const uint8_t *path, size_t path_size, const uint8_t *octets,
                    size_t octets_size, krb_item *item);

/* The number of the INTEGER that a path leads to.
   Those of krb_find; then KRB_NUMBER where it is no INTEGER, KRB_TOO_LARGE where 64 bits do not hold it. On each of these *number is 0. */
krb_status krb_find_number(const uint8_t *type_name, size_t type_name_size, const uint8_t *path, size_t path_size, const uint8_t *octets,
                           size_t octets_size, int64_t *number);

/* What octets of a type are, for people: as text, a line for each value, two blanks further in for each struct and list that it stands in; or as JSON
   (RFC 8259) on one line. All of it is printable ASCII, whatever the octets hold. Where secrets are not shown, the word `hidden` stands in the place of
   the octets of keys and of passwords that the table of types knows (KRB_LEAF_SECRET). Octets of formats that are no DER stay octets, as those of a PAC;
   krb_show_page shows these too, and what keys open.
   Those of krb_items but KRB_ROOM; KRB_MEMORY. */
krb_status krb_show(const uint8_t *type_name, size_t type_name_size, const uint8_t *octets, size_t octets_size, bool is_json, bool shows_secrets,
                    uint8_t *out, size_t room, size_t *size);

/* What `jolmurig show` writes of octets of any kind: of a type of DER, a token of the GSS-API, a PAC, messages of NEGOEX, a frame in which a password
   is changed, a keytab or a credential cache. `name` is the name of the kind, letters of either case, as `--as` takes it ("AS-REQ", "token", "PAC",
   "ccache", "tree"); of no octets, the kind is the one that the octets begin as. Each encrypted part that a key of the keytab opens is shown with what
   it holds, and keys in it open what follows, a thousand at most; of a PAC in a ticket it is said which of its checksums hold, and its buffers are
   shown. A keytab of no octets has no keys. Where keys are not shown, the word `hidden` stands in the place of the octets of keys and of passwords.
   KRB_NUMBER where no kind has the name, or without one where they begin as none; KRB_KEYTAB; why the octets are none of the kind: of DER KRB_INVALID,
   KRB_TRUNCATED, KRB_UNSUPPORTED; of tokens these and KRB_TOKEN; of others KRB_INVALID, KRB_TRUNCATED, KRB_OTHER_VERSION, KRB_PAC_TYPE, KRB_PAC_RANGE;
   KRB_MEMORY. */
krb_status krb_show_page(const uint8_t *name, size_t name_size, const uint8_t *octets, size_t octets_size, const uint8_t *keytab, size_t keytab_size,
                         bool is_json, bool shows_keys, uint8_t *out, size_t room, size_t *size);

/* What `jolmurig show --places` writes: as krb_show_page, and behind each value its place, ` @OFFSET+SIZE`; in JSON {"offset":OFFSET,"size":SIZE,"value":..}
   in the place of the value. The place counts octets of the input: of a value of DER it is that of the content of its element; of another format, as a
   PAC, a frame, a keytab, that of the octets which tell it. Of what a key opens it counts the octets that were decrypted, as krb_decode hands them out.
   Those of krb_show_page. */
krb_status krb_show_placed_page(const uint8_t *name, size_t name_size, const uint8_t *octets, size_t octets_size, const uint8_t *keytab,
                                size_t keytab_size, bool is_json, bool shows_keys, uint8_t *out, size_t room, size_t *size);

/* A value of a page, or where a struct or a list begins or ends: what krb_show_placed_page writes of it. Nothing in it is a pointer. */
typedef struct krb_page_item {
    size_t offset;       /* octets before those that it is told of, as krb_show_placed_page counts them; 0 where it has no place */
    size_t size;         /* how many these are; 0 where it has no place */
    size_t name_offset;  /* octets of `out` before its name */
    size_t name_size;    /* octets of the name, as "pvno"; an item of a list has the name of the list */
    size_t value_offset; /* octets of `out` before its value, as its form says */
    size_t value_size;   /* octets of the value */
    size_t note_offset;  /* octets of `out` before what the standards call the number, the flags that are set, or the identifier */
    size_t note_size;    /* octets of that: each name behind a blank; 0 where there is none */
    int64_t number;      /* the number; 0 where it has none */
    uint32_t form;       /* KRB_PAGE_.. */
    uint32_t is_item;    /* 1 of an item of a list */
    uint32_t has_place;  /* 1 where it has a place */
    uint32_t has_number; /* 1 of a number of 64 bits */
    int32_t registry;    /* KRB_REGISTRY_.., what its number, or its flags, are of */
    uint32_t role;       /* KRB_ROLE_.., what programs do with it */
} krb_page_item;

enum {
    KRB_PAGE_STRUCT = 1,     /* a struct begins: its values follow, up to its end */
    KRB_PAGE_STRUCT_END = 2, /* the struct ends that began last */
    KRB_PAGE_LIST = 3,       /* a list begins: its items follow, up to its end; the value is how many, in digits */
    KRB_PAGE_LIST_END = 4,   /* the list ends that began last */
    KRB_PAGE_NUMBER = 5,     /* the value is its digits, or "true" or "false" */
    KRB_PAGE_FLAGS = 6,      /* the value is "0x" and digits */
    KRB_PAGE_WORD = 7,       /* a time, a GUID, an address and the like, as it is written; "hidden" in the place of a secret */
    KRB_PAGE_IDENTIFIER = 8, /* OBJECT IDENTIFIER, the value is its numbers with dots */
    KRB_PAGE_TEXT = 9,       /* the value is the octets of the text; of UTF-16 (MS-PAC) they are UTF-8 */
    KRB_PAGE_OCTETS = 10,    /* the value is the octets */
    KRB_PAGE_SECRET = 11,    /* the value is the octets of a key, a password or a PIN */
    KRB_PAGE_CIPHER = 12     /* the value is the octets of a ciphertext, or of what is in the clear under encryption type 0 */
};

/* How much krb_page_items hands out. */
typedef struct krb_page_counts {
    size_t items;  /* how many items */
    size_t octets; /* how many octets of `out` */
} krb_page_counts;

/* What krb_show_placed_page writes of octets of any kind, as items: one for each value, and for each begin and end of a struct and of a list, in their order.
   Their names, their values and the names of their numbers stand in `out`.
   KRB_DONE: all is at the front of `items` and `out`, what is behind is as it was, and `counts` says how many they are. KRB_ROOM: one of these has too little
   room; both are as they were, and `counts` says how many they would be. Else they are as they were, and all in `counts` is 0: those of krb_show_page. */
krb_status krb_page_items(const uint8_t *name, size_t name_size, const uint8_t *octets, size_t octets_size, const uint8_t *keytab, size_t keytab_size,
                          bool shows_keys, krb_page_item *items, size_t items_room, uint8_t *out, size_t room, krb_page_counts *counts);

/* The same by texts that end with a NUL. They are not of the library. */
static inline size_t krb_text_size(const char *text) {
    size_t size = 0;
    while (text[size] != 0) {
        size++;
    }
    return size;
}

static inline krb_status krb_find_text(const char *type_name, const char *path, const uint8_t *octets, size_t octets_size, krb_item *item) {
    return krb_find((const uint8_t *)type_name, krb_text_size(type_name), (const uint8_t *)path, krb_text_size(path), octets, octets_size, item);
}

static inline krb_status krb_find_number_text(const char *type_name, const char *path, const uint8_t *octets, size_t octets_size, int64_t *number) {
    return krb_find_number((const uint8_t *)type_name, krb_text_size(type_name), (const uint8_t *)path, krb_text_size(path), octets, octets_size,
                           number);
}

/* How many octets an element of these types has before a content of so many: its tag in one octet, and the length (X.690, 8.1.3). So the element of
   an item begins krb_header_size(item.size) octets before item.offset, and what stands around it, as a ticket's [APPLICATION 1], again so before that.
   It is not of the library. */
static inline size_t krb_header_size(size_t content_size) {
    size_t size = 2;
    if (content_size >= 128) {
        for (; content_size != 0; content_size >>= 8) {
            size++;
        }
    }
    return size;
}

/* PACs (MS-PAC 2.3 and 2.4): how many buffers there are, and buffer n, counted from 0 in the order of the entries: its type (ulType), and
   the place of its octets. Each call looks at the whole directory; buffers may share octets. No memory is taken.
   Of the first fault, in the order of count, version, and each entry with the octets that it names: KRB_TRUNCATED, KRB_OTHER_VERSION (not 0),
   KRB_PAC_TYPE, KRB_PAC_RANGE; then KRB_ABSENT where there are not so many buffers. */
krb_status krb_pac_count(const uint8_t *pac, size_t pac_size, size_t *count);
krb_status krb_pac_buffer(const uint8_t *pac, size_t pac_size, size_t n, uint32_t *ul_type, size_t *offset, size_t *size);

/* A buffer of a PAC: its type, and the `size` octets of the PAC behind `offset` others. Its fields are set by the library. */
typedef struct krb_pac_place {
    size_t offset;    /* octets of the PAC before its own */
    size_t size;      /* its octets */
    uint32_t ul_type; /* its type, ulType */
} krb_pac_place;

/* All buffers of a PAC, in the order of the entries, in one look at its directory. No memory is taken.
   KRB_DONE: they are the first *count of `places`, and those behind are as they were. KRB_ROOM: they are *count, more than `room`; `places` is
   as it was. A PAC of n octets has fewer than n / 16 of them. Else those of krb_pac_count; *count is 0, and `places` is as it was. */
krb_status krb_pac_buffers(const uint8_t *pac, size_t pac_size, krb_pac_place *places, size_t room, size_t *count);

/* The frame of a GSS token (RFC 2743, 3.1; RFC 4121, 4.1), with nothing behind it: the places of the content of the mechanism's OBJECT IDENTIFIER,
   and of the inner token, which is all that follows; a Kerberos token's begins with two octets of a token id. The mechanism is not compared.
   Of the first fault, from the left: KRB_INVALID, KRB_TRUNCATED, KRB_UNSUPPORTED (of the mechanism: an arc past 64 bits); KRB_MEMORY. */
krb_status krb_gss_token(const uint8_t *token, size_t token_size, size_t *mechanism_offset, size_t *mechanism_size, size_t *inner_offset,
                         size_t *inner_size);

/* The GSS token of the mechanism whose OBJECT IDENTIFIER has this content, around this inner token. krb_gss_token reads it as these.
   KRB_INVALID, KRB_UNSUPPORTED where the octets are the content of no OBJECT IDENTIFIER; KRB_MEMORY. */
krb_status krb_make_gss_token(const uint8_t *mechanism, size_t mechanism_size, const uint8_t *inner, size_t inner_size, uint8_t *out,
                              size_t room, size_t *size);

/* The frame of a request to change a password, and of the reply (RFC 3244, 2), at the start of the octets: the places of its AP message, a
   KRB-AP-REQ or a KRB-AP-REP, and of its KRB-PRIV, with which it ends. What follows is not looked at, and the lengths in the frame are compared
   with nothing.
   Of the first fault, from the left: KRB_TRUNCATED in the six octets before the messages; KRB_OTHER_VERSION (not 1); of the AP message, then
   of the KRB-PRIV: KRB_INVALID, KRB_TRUNCATED, KRB_UNSUPPORTED; KRB_MEMORY. */
krb_status krb_password_frame(const uint8_t *frame, size_t frame_size, size_t *ap_offset, size_t *ap_size, size_t *priv_offset,
                              size_t *priv_size);

/* The frame of these messages, with its lengths and the version 1. It has 6 octets more than they.
   What krb_check refuses of a KRB-AP-REQ or KRB-AP-REP, then of a KRB-PRIV; then KRB_FRAME_SIZE; KRB_MEMORY. */
krb_status krb_make_password_frame(const uint8_t *ap_message, size_t ap_message_size, const uint8_t *krb_priv, size_t krb_priv_size,
                                   uint8_t *out, size_t room, size_t *size);

/* The KDC-PROXY-MESSAGE of this kerb-message and this target-domain, which is left out where it has no octets; it has no dclocator-hint.
   KRB_INVALID where target-domain is not of ASCII; KRB_MEMORY. */
krb_status krb_make_kdc_proxy_message(const uint8_t *message, size_t message_size, const uint8_t *domain, size_t domain_size, uint8_t *out,
                                      size_t room, size_t *size);

/* Whether a service lets in the client that sent a token, and what it answers (RFC 4120, 3.2.3; RFC 4121, 4.1). docs/ACCEPTOR.md has the rules, and what is
   promised.

   The calls keep nothing, so the replay cache is the caller's: a client is let in where the status is KRB_UNLESS_REPEATED and its `entry` is added to a set
   that does not have it yet. An entry may be forgotten once its time, the first eight octets, is more than `skew` seconds ago. A service that starts with an
   empty cache sets `whole_since` to the time at which it starts: what was let in before is then refused, as KRB_RULE_UNREMEMBERED, until `skew` seconds have
   passed. A cache that is whole since ever, as that of a service which let in nobody before, has to be asked for.

   What a service asks. Without options: a token of the GSS-API with a checksum of type 0x8003, keys of AES, a PAC that is checked where there is one, a path of
   realms that a KDC has checked, a client with a name. What is asked for has to be there, and what contradicts is refused (KRB_NUMBER): nothing is off because
   it is absent. */
enum {
    KRB_ACCEPT_BARE_REQUEST = 1,        /* an AP-REQ with no frame around it is taken too, as DCE style has it */
    KRB_ACCEPT_OTHER_CHECKSUM = 2,      /* so is an authenticator with no checksum, or with one of another type */
    KRB_ACCEPT_PAC_IGNORED = 4,         /* a PAC is not verified, and none is handed out */
    KRB_ACCEPT_PAC_REQUIRED = 8,        /* a ticket without a PAC is refused; not with KRB_ACCEPT_PAC_IGNORED */
    KRB_ACCEPT_TRIPLE_DES = 16,         /* keys of tickets, session keys and subkeys may be of triple DES (RFC 8429 deprecates it) */
    KRB_ACCEPT_ADDRESSES_REQUIRED = 32, /* a ticket has to name addresses: the client's has to be given */
    KRB_ACCEPT_UNCHECKED_PATH = 64,     /* a path of realms is taken that no KDC has checked (RFC 4120, 2.7) */
    KRB_ACCEPT_WHOLE_EVER = 128,        /* the replay cache is whole since ever: `whole_since` has to be 0 */
    KRB_ACCEPT_SUBKEY = 256,            /* the answer has a subkey of the service's, made of `random` */
    KRB_ACCEPT_BOUND = 512,             /* the client's channel bindings have to be the service's: `bindings` has to have 16 octets, and has none without it */
    KRB_ACCEPT_ANONYMOUS = 1024         /* clients without a name are let in (RFC 8062) */
};

typedef struct krb_acceptor {
    int64_t clock;            /* the service's time, in seconds since 1 January 1970, 00:00:00 UTC */
    int64_t whole_since;      /* since when the replay cache is whole, more than 0, in the same seconds; 0 with KRB_ACCEPT_WHOLE_EVER */
    uint32_t skew;            /* by how many seconds clocks may differ; usually 300 */
    uint32_t options;         /* KRB_ACCEPT_.., added */
    uint32_t address_type;    /* of the client's address: 2 for IPv4, 24 for IPv6 (RFC 4120, 7.5.3); not looked at where there is no address */
    uint32_t sequence_number; /* of the service's first message: the answer has it */
} krb_acceptor;

/* The first rule that a token breaks. They are looked at in the order of their numbers, but for three: KRB_RULE_ANONYMOUS and then KRB_RULE_CLIENT_REALM before
   KRB_RULE_PATH, KRB_RULE_PAC_PLACE before KRB_RULE_PAC_MISSING; and the rules of the replay cache come last. */
enum {
    KRB_RULE_NONE = 0,                   /* no rule */
    KRB_RULE_NOT_REQUEST = 1,            /* the message is not an AP-REQ */
    KRB_RULE_VERSION = 2,                /* pvno is not 5 */
    KRB_RULE_MESSAGE_TYPE = 3,           /* msg-type is not 14 */
    KRB_RULE_TICKET_VERSION = 4,         /* tkt-vno is not 5 */
    KRB_RULE_OPTIONS = 5,                /* ap-options has fewer than 32 bits */
    KRB_RULE_USER_TO_USER = 6,           /* the ticket is under a session key, as for user-to-user authentication */
    KRB_RULE_NOT_US = 7,                 /* no key for the server that the ticket names, or no client is let in for it */
    KRB_RULE_NO_KEY = 8,                 /* no key of the ticket's encryption type */
    KRB_RULE_KEY_VERSION = 9,            /* no key of the kvno that the ticket names */
    KRB_RULE_TICKET_SUITE = 10,          /* the ticket's encryption type is not supported or permitted */
    KRB_RULE_TICKET = 11,                /* no key decrypts the ticket */
    KRB_RULE_FLAGS = 12,                 /* the ticket's flags have fewer than 32 bits */
    KRB_RULE_SESSION_SUITE = 13,         /* the session key's encryption type is not permitted, or the authenticator names another */
    KRB_RULE_AUTHENTICATOR = 14,         /* the session key does not decrypt the authenticator */
    KRB_RULE_AUTHENTICATOR_VERSION = 15, /* authenticator-vno is not 5 */
    KRB_RULE_MICROSECONDS = 16,          /* cusec is not of 0 to 999999 */
    KRB_RULE_SEQUENCE_NUMBER = 17,       /* seq-number is not of 0 to 4294967295 */
    KRB_RULE_SUBKEY = 18,                /* the subkey's encryption type is not permitted, or its length is another */
    KRB_RULE_OTHER_CLIENT = 19,          /* the authenticator names another client than the ticket */
    KRB_RULE_OTHER_ADDRESS = 20,         /* the ticket is not for the client's address */
    KRB_RULE_SKEW = 21,                  /* clock skew */
    KRB_RULE_NOT_YET_VALID = 22,         /* the ticket is not yet valid */
    KRB_RULE_INVALID = 23,               /* the ticket has the flag INVALID */
    KRB_RULE_EXPIRED = 24,               /* the ticket has expired */
    KRB_RULE_PATH = 25,                  /* no KDC has checked the path of realms */
    KRB_RULE_CRITICAL_DATA = 26,         /* authorization data that a service has to understand, and does not */
    KRB_RULE_DATA_FORM = 27,             /* the authorization data is malformed */
    KRB_RULE_UNREMEMBERED = 28,          /* the authenticator is older than the replay cache */
    KRB_RULE_REPEAT = 29,                /* the authenticator was accepted before */
    KRB_RULE_FRAME = 30,                 /* not a token of Kerberos with an AP-REQ */
    KRB_RULE_PAC_MISSING = 31,           /* the ticket has no PAC */
    KRB_RULE_PAC_FORM = 32,              /* the PAC is malformed, or lacks a buffer that is checked */
    KRB_RULE_PAC_CHECKSUM = 33,          /* the PAC's server checksum does not hold */
    KRB_RULE_PAC_CLIENT = 34,            /* the PAC is of another client than the ticket, or of another time */
    KRB_RULE_CHECKSUM_TYPE = 35,         /* the authenticator has no checksum of type 0x8003 */
    KRB_RULE_CHECKSUM_LAYOUT = 36,       /* the authenticator's checksum is malformed */
    KRB_RULE_BINDINGS = 37,              /* the client's channel bindings are others than the service's */
    KRB_RULE_DELEGATION = 38,            /* the delegated credentials cannot be decrypted or read */
    KRB_RULE_ANONYMOUS = 39,             /* the client is anonymous */
    KRB_RULE_CLIENT_REALM = 40,          /* no client of this realm is let in */
    KRB_RULE_PAC_PLACE = 41              /* a PAC stands, or may stand, where nobody verifies it */
};

/* Octets of `out`. */
typedef struct krb_place {
    size_t offset;
    size_t size;
} krb_place;

/* A client that is let in: numbers, and places of octets in `out`. Or, where the status is KRB_NOT_ACCEPTED: the rule, all else but `code`, `has_seen` and
   `seen` is 0. */
typedef struct krb_accepted {
    krb_place entry;              /* for the replay cache, at most once: the client's time (8 octets, highest first) and microseconds (4), the server's realm,
                                     the components of its name, the client's realm, and its components; ff stands behind each text, fe behind each list */
    krb_place session_key;        /* the octets of the ticket's session key */
    krb_place subkey;             /* the client's subkey; no octets where it has none */
    krb_place own_subkey;         /* the service's subkey, where the option asks for one */
    krb_place pac;                /* the ticket's PAC, whose server checksum holds and which is the client's; no octets where there is none, or it is ignored */
    krb_place transited;          /* the realms that took part in authenticating the client, as `transited_type` encodes them (RFC 4120, 3.3.3.2) */
    krb_place authorization_data; /* of the ticket: the encoding of an AuthorizationData, without elements in which a PAC stands; no octets where it has none */
    krb_place restrictions;       /* of the authenticator, the same */
    krb_place delegated;          /* the KRB-CRED that the client delegated; no octets where there is none */
    krb_place reply;              /* what to send to the client: a token with an AP-REP, or the AP-REP alone; no octets where the client waits for none */
    int64_t auth_time;            /* when the client was authenticated, in seconds since 1 January 1970, 00:00:00 UTC */
    int64_t start_time;           /* from when on the ticket is valid */
    int64_t end_time;             /* until when */
    int64_t sequence_number;      /* of the client's first message; -1 where it gives none */
    int64_t seen;                 /* of a refused token, where has_seen is 1: the client's time for KRB_RULE_SKEW, the ticket's start for
                                     KRB_RULE_NOT_YET_VALID, its end for KRB_RULE_EXPIRED, the kvno that it names for KRB_RULE_KEY_VERSION */
    uint32_t flags;               /* of the context (RFC 4121, 4.1.1.1), those that a client may set and no others: 1 delegation, 2 mutual authentication, 4
                                     replay, 8 sequence, 16 confidentiality, 32 integrity, 0x1000 DCE style */
    uint32_t ticket_flags;        /* the ticket's flags (5.3), bit 0 highest */
    uint32_t session_etype;       /* the encryption type of the session key, and of the service's subkey */
    uint32_t subkey_etype;        /* of the client's subkey; 0 where it has none */
    uint32_t transited_type;      /* 1 for DOMAIN-X500-COMPRESS (RFC 4120, 3.3.3.2); 0 where 32 bits do not hold it */
    uint32_t rule;                /* KRB_RULE_.. of a refused token */
    uint32_t code;                /* of the KRB-ERROR for it (RFC 4120, 7.5.9) */
    uint32_t has_seen;            /* 1 or 0 */
} krb_accepted;

/* The client that sent `token`, where it is let in unless the caller's replay cache has it.
   `keytab` has the service's keys, `session_keys` the keys of its own ticket-granting tickets, a keytab as well, for tickets under such a key
   (user-to-user), mostly no octets. `server` names the service, as text (RFC 1964, 2.1.1): "HTTP/www.home.test@HOME.TEST"; the realm may be left out, and the
   host, as in "HTTP"; tickets for others are refused (KRB_RULE_NOT_US). With no octets it is any of which the keytab has a key. `client_realm` is the realm
   whose clients are let in; with no octets any. Each may be several, an octet 0 between one and the next: "HTTP/www.home.test\0HTTP/home.test", and
   one of them suffices. `bindings` is the hash of the service's channel bindings (krb_channel_bindings, 16 octets), with
   KRB_ACCEPT_BOUND, or no octets without it. `address` is the client's, or no octets where it is not known. `random` has 48 random octets, for one call alone:
   of the AP-REP's confounder (16; 8 for triple DES, of the first ones) and of a subkey (32; as many as a seed has, behind the first 16).
   An answer is made where the client asks for mutual authentication: by the flags of its checksum of the GSS-API, and where it has none by its ap-options. It
   is in a frame where the token was, but not in DCE style.

   KRB_UNLESS_REPEATED: *accepted tells of it, and its places are in the first *size octets of `out`. It is not KRB_DONE: the client is let in where the replay
   cache does not have `entry`, and has it from now on. KRB_ROOM: there are *size, more than `room`; *accepted is all zeros. As many octets as `token` has three
   times, and 1024, suffice.
   Else the first of these. KRB_SEED_SIZE: `random` has not 48 octets, or `bindings` neither 0 nor 16. KRB_NUMBER: `options` has a bit that is none of these, or
   both of PACs; KRB_ACCEPT_BOUND and no bindings, or bindings without it; KRB_ACCEPT_ADDRESSES_REQUIRED and no address; no `whole_since` above 0, or one with
   KRB_ACCEPT_WHOLE_EVER. KRB_KEYTAB: `keytab`, or `session_keys`, is none. KRB_INVALID: one of `server` is no name, or one of
   `client_realm` not of ASCII, or one of several has no octets. KRB_NOT_ACCEPTED: the client is refused, by the rule that *accepted tells. KRB_MEMORY may come
   in place of any. On each of these *size is 0, `out` is as it was and, but for KRB_NOT_ACCEPTED, *accepted all zeros. */
krb_status krb_accept(const krb_acceptor *acceptor, const uint8_t *keytab, size_t keytab_size, const uint8_t *session_keys, size_t session_keys_size,
                      const uint8_t *server, size_t server_size, const uint8_t *client_realm, size_t client_realm_size, const uint8_t *bindings,
                      size_t bindings_size, const uint8_t *address, size_t address_size, const uint8_t *random, size_t random_size, const uint8_t *token,
                      size_t token_size, krb_accepted *accepted, uint8_t *out, size_t room, size_t *size);

/* Whether a client's last message in DCE style (MS-KILE, 3.4.5.1) is its AP-REP: under the session key, of this encryption type, with the service's
   `sequence_number`, and not `own_reply`, which krb_accept made, sent back. Until it has come, a context with the flag 0x1000 is not established.
   KRB_DONE: it is. Of the first rule that is broken: KRB_INVALID, where it is no AP-REP; KRB_DIRECTION, where it is the service's own; KRB_INTEGRITY, where the
   key does not decrypt its part; KRB_NOT_ACCEPTED, where that has another sequence number; KRB_MEMORY. */
krb_status krb_confirm(uint32_t etype, const uint8_t *session_key, size_t session_key_size, const uint8_t *own_reply, size_t own_reply_size,
                       uint32_t sequence_number, const uint8_t *message, size_t message_size);

/* The hash of channel bindings (RFC 4121, 4.1.1.2): 16 octets; types and addresses of both sides are mostly 0 and no octets (RFC 2744, 3.11), and the data
   "tls-server-end-point:" and a hash of the server's certificate (RFC 5929, 4).
   KRB_TOO_LARGE where an address or the data have 2^32 octets or more. */
krb_status krb_channel_bindings(uint32_t initiator_type, const uint8_t *initiator_address, size_t initiator_address_size, uint32_t acceptor_type,
                                const uint8_t *acceptor_address, size_t acceptor_address_size, const uint8_t *data, size_t data_size, uint8_t *out, size_t room,
                                size_t *size);

/* The KRB-ERROR for a client that is refused (RFC 4120, 5.9.1): the service's time and microseconds, the code, and realm and name of the first entry of the
   keytab; in a token (RFC 4121, 4.1.3) where `in_frame`.
   The first of these: KRB_KEYTAB; KRB_ABSENT where no entry of the keytab is of ASCII; KRB_NUMBER where there are more than 999999 microseconds, or the year of
   the time is past 9999. Or KRB_MEMORY. */
krb_status krb_make_error(const uint8_t *keytab, size_t keytab_size, int64_t clock, uint32_t microseconds, uint32_t code, bool in_frame, uint8_t *out,
                          size_t room, size_t *size);

/* A proxy in front of a KDC (MS-KKDCP). What these calls let through is exactly what is said here, out-of-memory aside; nothing is encoded anew.

   A request that a client posts: the one DER encoding of a KDC-PROXY-MESSAGE of at most 131072 octets, with a target-domain, whose kerb-message is a
   length in four octets (RFC 4120, 7.2.2) and so many octets. These are the one DER encoding of an AS-REQ or a TGS-REQ, for a KDC (KRB_PROXY_KDC); or a frame
   in which a password is changed (RFC 3244, 2; version 1 or ff80), of an AP-REQ and a KRB-PRIV, for the server that changes passwords
   (KRB_PROXY_KPASSWD). pvno is 5, and msg-type what the tag says. names_one_realm: whether target-domain is the realm of the request's body, or of the
   ticket with which a password is changed, ASCII letters of either case alike. The message stands at message_offset without its length, for a
   datagram; the four octets before it are its length, so that a stream takes four octets more from four octets before. krb_find tells its names and
   its realm, and krb_proxy_request_items all items at once.
   Of the first rule that is broken: KRB_PROXY_TOO_LARGE; of the KDC-PROXY-MESSAGE KRB_INVALID, KRB_TRUNCATED, KRB_UNSUPPORTED; KRB_PROXY_NO_LENGTH,
   KRB_PROXY_OTHER_LENGTH, KRB_PROXY_NO_DOMAIN, KRB_PROXY_OTHER_KIND, KRB_PROXY_FRAME_LENGTH; of the message, or of the AP-REQ and then of the KRB-PRIV,
   KRB_PROXY_INVALID, KRB_PROXY_TRUNCATED or KRB_PROXY_UNSUPPORTED, KRB_PROXY_PVNO, KRB_PROXY_MSG_TYPE; KRB_MEMORY. On any status but KRB_DONE all that is
   told is 0. */
enum { KRB_PROXY_KDC = 1, KRB_PROXY_KPASSWD = 2 };

typedef struct krb_proxy_posted {
    size_t message_offset;    /* octets before the message */
    size_t message_size;      /* octets of the message */
    size_t domain_offset;     /* octets before target-domain */
    size_t domain_size;       /* octets of target-domain */
    int64_t hint;             /* dclocator-hint, where hint_status is KRB_DONE; else 0 */
    uint32_t hint_status;     /* KRB_DONE; KRB_ABSENT where there is none; KRB_TOO_LARGE where 64 bits do not hold it */
    uint32_t service;         /* KRB_PROXY_KDC or KRB_PROXY_KPASSWD */
    uint32_t names_one_realm; /* 1 or 0 */
} krb_proxy_posted;

krb_status krb_proxy_request(const uint8_t *octets, size_t octets_size, krb_proxy_posted *posted);

/* A request, as krb_proxy_request tells of it, and all items of its message, as krb_items tells them: of an AS-REQ or a TGS-REQ; of a frame those of its
   AP-REQ, which begins six octets behind message_offset. The places of the items are in the octets of this message, from its first on. It has at most
   octets_size items.
   KRB_DONE: *posted tells of the request, and the items are the first *count of `items`, and those behind are as they were. Those of krb_proxy_request: all in
   *posted is 0, *count is 0, and `items` is as it was. Then, where *posted tells of the request, and `items` is as it was: KRB_ROOM, where there are *count,
   more than `room`; KRB_MEMORY, and *count is 0. Each request that krb_proxy_request takes has items. */
krb_status krb_proxy_request_items(const uint8_t *octets, size_t octets_size, krb_proxy_posted *posted, krb_item *items, size_t room, size_t *count);

/* The same, but of the message its first octets alone are looked at: 6a or 6c, or the length and the version of a frame. It lets messages through that are no
   encoding, whatever stands in them: for clients whose messages strict DER refuses (docs/REAL_MESSAGES.md). names_one_realm is 0. */
krb_status krb_proxy_request_lenient(const uint8_t *octets, size_t octets_size, krb_proxy_posted *posted);

/* What a KDC or the server that changes passwords sent over a stream, its length in four octets in front of it, as the KDC-PROXY-MESSAGE that goes back to the
   client, with neither target-domain nor dclocator-hint; it has at most 20 octets more. A reply is the one DER encoding of an AS-REP, a TGS-REP or a
   KRB-ERROR; or a frame (RFC 3244, 2; version 1) of an AP-REP and a KRB-PRIV, or with no first message and a KRB-ERROR. pvno is 5, and msg-type
   what the tag says.
   KRB_PROXY_NO_LENGTH, KRB_PROXY_OTHER_LENGTH; then as krb_proxy_request of the message; KRB_MEMORY. */
krb_status krb_proxy_reply(const uint8_t *octets, size_t octets_size, uint8_t *out, size_t room, size_t *size);

/* The same of what came in a datagram, which has no length in front of it. It has at most 24 octets more.
   KRB_PROXY_TOO_LARGE of 2147483648 octets and more; then as krb_proxy_request of the message; KRB_MEMORY. */
krb_status krb_proxy_reply_datagram(const uint8_t *octets, size_t octets_size, uint8_t *out, size_t room, size_t *size);

/* Whether a reply over a stream has all its octets, where a message has at most `limit`: KRB_DONE; KRB_TRUNCATED where octets are missing yet;
   KRB_PROXY_TOO_LARGE where it never will, since its length is past `limit` or 2147483647, or there are more octets than it says. */
krb_status krb_proxy_is_whole(const uint8_t *octets, size_t octets_size, size_t limit);

/* The client's half: what it posts of a message, which has no length in front of it, for this realm, with no dclocator-hint. It has at most 48 octets more than
   both. krb_proxy_request reads it as this message and this realm.
   KRB_INVALID where the realm is not of ASCII; else what krb_proxy_request answers to it; KRB_MEMORY. */
krb_status krb_make_proxy_request(const uint8_t *message, size_t message_size, const uint8_t *domain, size_t domain_size, uint8_t *out, size_t room,
                                  size_t *size);

/* And where the reply stands that a proxy answered, without its length, which is in the four octets before it. krb_proxy_reply wrote it of that.
   Of the KDC-PROXY-MESSAGE KRB_INVALID, KRB_TRUNCATED, KRB_UNSUPPORTED; then as krb_proxy_reply. On any status but KRB_DONE both numbers are 0. */
krb_status krb_read_proxy_reply(const uint8_t *octets, size_t octets_size, size_t *message_offset, size_t *message_size);

/* The status of HTTP that a server answers where krb_proxy_request refuses (RFC 9110, 15.5 and 15.6): 413 where it is too large, 503 where memory was wanting,
   400 else. It is not of the library. */
static inline int krb_proxy_http_status(krb_status status) {
    return status == KRB_PROXY_TOO_LARGE ? 413 : status == KRB_MEMORY ? 503 : 400;
}

/* SPNEGO (RFC 4178, 4.2). Messages are read by krb_gss_token, whose inner token is a "NegotiationToken (negTokenInit)", and krb_find. */
enum {
    KRB_NEG_STATE_ACCEPT_COMPLETED = 0,
    KRB_NEG_STATE_ACCEPT_INCOMPLETE = 1,
    KRB_NEG_STATE_REJECT = 2,
    KRB_NEG_STATE_REQUEST_MIC = 3,
    KRB_NEG_STATE_ABSENT = 256
};

/* The token that begins a negotiation: of the mechanisms' OBJECT IDENTIFIERs in DER, one behind the other, of mechToken and of mechListMIC. What has
   no octets is left out, and reqFlags are.
   Where the mechanisms are no such elements: KRB_INVALID, KRB_TRUNCATED, KRB_UNSUPPORTED; KRB_MEMORY. */
krb_status krb_make_neg_token_init(const uint8_t *mechanisms, size_t mechanisms_size, const uint8_t *token, size_t token_size,
                                   const uint8_t *mic, size_t mic_size, uint8_t *out, size_t room, size_t *size);

/* The later message, negTokenResp [1]: of negState, 0 to 3, or KRB_NEG_STATE_ABSENT, and then it is left out; of the content of supportedMech's OBJECT
   IDENTIFIER, of responseToken and of mechListMIC. What has no octets is left out.
   KRB_NUMBER of another state; KRB_INVALID, KRB_UNSUPPORTED where the mechanism is the content of no OBJECT IDENTIFIER; KRB_MEMORY. */
krb_status krb_make_neg_token_resp(uint32_t state, const uint8_t *mechanism, size_t mechanism_size, const uint8_t *token, size_t token_size,
                                   const uint8_t *mic, size_t mic_size, uint8_t *out, size_t room, size_t *size);

/* A negotiation (RFC 4178, 3.2, 4.2 and 5): octets of the peer's go in, octets to send come out. The messages are read by strict DER, the mechanism is chosen, MICs
   are asked for and the rules are kept here; the mechanism's tokens and MICs are the caller's.

   One side of a negotiation is a krb_negotiation that the caller keeps: all 0 at its beginning, but for `role` and `asks`. Beside it the caller keeps `list`, the
   DER encoding of the initiator's list of mechanisms as it was sent, which MICs are over: krb_negotiation_begin tells it to an initiator, krb_negotiation_take
   to an acceptor. An initiator makes its offer by krb_negotiation_begin. Then each message of the peer takes two calls, with the same octets:

     krb_negotiation_take      tells what the octets ask of a mechanism, or the rule that they break. Where `steps` is 1, the mechanism takes the token, or begins with
                               none; where `has_mic` is 1 and its context is established then, with no token to send, it verifies the peer's MIC over the list
     krb_negotiation_answer    makes the step, with what the mechanism made of them, and tells the octets to send. Where it says `lacks_mic`, this side's MIC over the
                               list has to be sent: the caller makes it, and calls again with it

   until `stage` is KRB_STAGE_COMPLETE or KRB_STAGE_FAILED, or KRB_STAGE_BARE with an established context. Octets that break a rule are answered too: the side has
   failed then, and the octets to send reject. What krb_negotiation_take tells is for the caller's mechanism alone: krb_negotiation_answer reads the octets by itself,
   and where another mechanism is told of than it chooses, that one has refused.

   A MIC that was verified over anything else than `list`, or not at all, is no protection against a third who changed the list. */
enum { KRB_INITIATOR = 0, KRB_ACCEPTOR = 1 };

enum {
    KRB_STAGE_BEGINS = 0,   /* no message came; of an initiator: its offer is not made */
    KRB_STAGE_WAITS = 1,    /* it waits for a later message */
    KRB_STAGE_OFFERED = 2,  /* an initiator's offer is made */
    KRB_STAGE_COMPLETE = 3, /* it is complete */
    KRB_STAGE_FAILED = 4,   /* it failed, for good, by `rule` */
    KRB_STAGE_BARE = 5      /* a mechanism's own tokens are exchanged, with no negotiation around them */
};

/* The rule that a message broke. They are looked at in another order than that of their numbers: of an offer NO_MECHANISM, UNKNOWN_MECHANISM, UNPROTECTED,
   EARLY_MIC; of the first reply NO_STATE, REJECTED, NO_MECHANISM, UNKNOWN_MECHANISM, UNPROTECTED, UNEXPECTED_TOKEN, NO_TOKEN; of a later message REJECTED,
   LATE_REQUEST, SECOND_MECHANISM, UNEXPECTED_TOKEN, NO_TOKEN; then, by krb_negotiation_answer, MECHANISM_FAILED, EARLY_MIC, WRONG_MIC, EARLY_COMPLETION,
   NO_MIC. */
enum {
    KRB_NEGOTIATION_RULE_NONE = 0,              /* no rule */
    KRB_NEGOTIATION_RULE_NO_STATE = 1,          /* the first reply has no negState (4.2.2) */
    KRB_NEGOTIATION_RULE_REJECTED = 2,          /* the peer rejects */
    KRB_NEGOTIATION_RULE_NO_MECHANISM = 3,      /* the offer lists no mechanism, or the first reply names none */
    KRB_NEGOTIATION_RULE_SECOND_MECHANISM = 4,  /* a later message names a mechanism (4.2.2) */
    KRB_NEGOTIATION_RULE_UNKNOWN_MECHANISM = 5, /* none of the mechanisms is supported, or the reply names one that was not offered */
    KRB_NEGOTIATION_RULE_UNPROTECTED = 6,       /* MICs have to be exchanged, and the mechanism has no integrity (5) */
    KRB_NEGOTIATION_RULE_LATE_REQUEST = 7,      /* request-mic in another message than the acceptor's first (4.2.2) */
    KRB_NEGOTIATION_RULE_NO_TOKEN = 8,          /* the mechanism waits for a token, and the message has none */
    KRB_NEGOTIATION_RULE_UNEXPECTED_TOKEN = 9,  /* the message has a token for which no mechanism waits */
    KRB_NEGOTIATION_RULE_MECHANISM_FAILED = 10, /* the mechanism makes no step */
    KRB_NEGOTIATION_RULE_EARLY_MIC = 11,        /* a MIC before the mechanism's context is established (5) */
    KRB_NEGOTIATION_RULE_WRONG_MIC = 12,        /* the MIC does not hold of the list of mechanisms (5) */
    KRB_NEGOTIATION_RULE_NO_MIC = 13,           /* a MIC has to come, or there is nothing to go on with (5) */
    KRB_NEGOTIATION_RULE_EARLY_COMPLETION = 14, /* accept-completed while this side has a token to send */
    KRB_NEGOTIATION_RULE_FINISHED = 15,         /* a message after this side was complete */
    KRB_NEGOTIATION_RULE_UNREAD = 256           /* the octets are no message for which this side waits */
};

/* One side. Of a flag each number but 0 is set; the calls write 1. */
typedef struct krb_negotiation {
    uint32_t role;        /* KRB_INITIATOR or KRB_ACCEPTOR */
    uint32_t asks;        /* flag, of an acceptor: it wants MICs whichever mechanism is chosen */
    uint32_t stage;       /* KRB_STAGE_.. */
    uint32_t rule;        /* of KRB_STAGE_FAILED, KRB_NEGOTIATION_RULE_.. */
    uint32_t mechanism;   /* the number of the mechanism that both sides use; of KRB_STAGE_OFFERED that of the first */
    uint32_t established; /* flag: the mechanism's context is established on this side */
    uint32_t preferred;   /* flag: the mechanism is the initiator's first one */
    uint32_t required;    /* flag: MICs have to be exchanged (5) */
    uint32_t sent;        /* flag: this side has sent its MIC; the last message of a side that is complete does not change it */
    uint32_t by_mic;      /* flag: it is complete, and a MIC of the peer held */
    size_t name;          /* which of the mechanism's names supportedMech has: 0 its own, k its k-th other one */
} krb_negotiation;

/* A mechanism of a side. */
typedef struct krb_mechanism {
    uint32_t number;    /* the number by which the caller knows it; no other of the side has it */
    uint32_t integrity; /* flag: its context has MICs (RFC 2743, 1.2.2) */
    uint32_t is_bare;   /* flag: the octets that came are a first token of its own, with no negotiation around it; looked at in the first octets of an acceptor */
} krb_mechanism;

/* What a mechanism made of a token, or of none where it begins. */
enum {
    KRB_PROGRESS_CONTINUES = 0,       /* it waits for another token, and has one to send */
    KRB_PROGRESS_ENDS_WITH_TOKEN = 1, /* its context is established, and it has a last token to send */
    KRB_PROGRESS_ENDS = 2,            /* its context is established, and it has no token to send */
    KRB_PROGRESS_REFUSED = 3,         /* it refused the token; its token says why, and goes out with the message that rejects */
    KRB_PROGRESS_RESTS = 4            /* it made no step: no token was for it */
};

/* What octets ask of a mechanism. The token, the MIC and the list stand in `out` one behind the other, of so many octets. */
typedef struct krb_negotiation_question {
    uint32_t rule;      /* KRB_NEGOTIATION_RULE_.. that is broken, and then all else is 0; KRB_NEGOTIATION_RULE_NONE where none is so far */
    uint32_t mechanism; /* the mechanism's number */
    uint32_t steps;     /* 1 where it takes the token, or begins with none */
    uint32_t has_token; /* 1 where a token came */
    uint32_t has_mic;   /* 1 where a MIC of the peer's came */
    uint32_t has_list;  /* 1 where a list of mechanisms came, in an offer */
    size_t token_size;
    size_t mic_size;
    size_t list_size;
} krb_negotiation_question;

/* What a step comes to. */
typedef struct krb_negotiation_reply {
    uint32_t lacks_mic; /* 1 where this side's MIC has to be told: no step is made, and the side is as it was */
    uint32_t sends;     /* 1 where the octets in `out` are sent */
} krb_negotiation_reply;

/* An initiator makes its offer. `names` are the names of each mechanism, its own first, the preferred mechanism first: the DER encoding of a SEQUENCE OF SEQUENCE OF
   OBJECT IDENTIFIER, with one inner SEQUENCE for each of `mechanisms`. `mechanism` is the number of the first one, `progress` KRB_PROGRESS_.. of its first step,
   with no token, and `token` its first token. The offer stands in `out`, of *offer_size octets, and behind it the list.
   KRB_DONE: the side is the one after its offer; or the mechanism refused, the side has failed, and there is no offer.
   KRB_NUMBER: a number is none of those above, there is no mechanism, or the side is an acceptor or has begun. KRB_INVALID, KRB_TRUNCATED, KRB_UNSUPPORTED: `names` is no
   such encoding; KRB_INVALID: it is of more or fewer mechanisms, or one has no name. KRB_ROOM, KRB_MEMORY. Then *side and *offer_size are as they were. */
krb_status krb_negotiation_begin(krb_negotiation *side, const uint8_t *names, size_t names_size, const krb_mechanism *mechanisms, size_t mechanisms_count,
                                 uint32_t mechanism, uint32_t progress, const uint8_t *token, size_t token_size, size_t *offer_size,
                                 uint8_t *out, size_t room, size_t *size);

/* What octets of the peer's ask of a mechanism; the side stays as it is. An acceptor's list comes with the offer, and is empty before.
   KRB_NUMBER: role, stage, rule, mechanism or name of the side is none of the numbers above, or an initiator has not begun. KRB_INVALID, KRB_TRUNCATED, KRB_UNSUPPORTED as above.
   KRB_ROOM, KRB_MEMORY. Then *question is as it was. */
krb_status krb_negotiation_take(const krb_negotiation *side, const uint8_t *names, size_t names_size, const krb_mechanism *mechanisms, size_t mechanisms_count,
                                const uint8_t *list, size_t list_size, const uint8_t *octets, size_t octets_size, krb_negotiation_question *question,
                                uint8_t *out, size_t room, size_t *size);

/* A side makes the step that octets of the peer's ask for. `mechanism` is the number of the mechanism that is told of, `progress` what it made of the token, and
   `token` its own token; `verified` is the peer's MIC, where the mechanism verified that it holds of `list`, and `mic` this side's MIC over `list`, where it is
   known that one is sent: each is empty else. Of an offer `list` is the one that krb_negotiation_take told of it.
   KRB_DONE: the side is the one after the step, and *reply says whether something is sent; or it says that a MIC lacks, and the side is as it was.
   KRB_NUMBER, KRB_INVALID, KRB_TRUNCATED, KRB_UNSUPPORTED as above, KRB_NUMBER of `progress` too; KRB_ROOM, KRB_MEMORY. Then *side and *reply are as they were. `reply`
   and `side` overlap nothing else that is passed. */
krb_status krb_negotiation_answer(krb_negotiation *side, const uint8_t *names, size_t names_size, const krb_mechanism *mechanisms, size_t mechanisms_count,
                                  const uint8_t *list, size_t list_size, const uint8_t *octets, size_t octets_size, uint32_t mechanism, uint32_t progress,
                                  const uint8_t *token, size_t token_size, const uint8_t *verified, size_t verified_size, const uint8_t *mic, size_t mic_size,
                                  krb_negotiation_reply *reply, uint8_t *out, size_t room, size_t *size);

/* A client: tickets of a KDC, and the request for a service (RFC 4120, 3.1 to 3.3; docs/CLIENT.md).

   The calls keep nothing: what an exchange keeps between two messages stands in a krb_exchange of the caller's. The caller sends and receives, reads the clock
   and draws random numbers. A name is a text of RFC 1964, 2.1.1, with a realm: "carol@HOME.TEST", "HTTP/www.home.test@HOME.TEST", "krbtgt/HOME.TEST@HOME.TEST";
   a backslash stands before a slash, an at sign and a backslash within a component. */

/* Settings of krb_client_terms. */
enum {
    KRB_CLIENT_FROM = 1,        /* `from` is asked for */
    KRB_CLIENT_RTIME = 2,       /* `rtime` is asked for */
    KRB_CLIENT_DATAGRAMS = 4,   /* the transport may deliver replies to other requests, as UDP may: one that opens and has another nonce is passed over, else
                                   refused */
    KRB_CLIENT_CANONICALIZE = 8 /* an AS-REQ asks that the reply have its checksum (RFC 6806, 11), for krb_client_renamed; the option 15 is among the options */
};

typedef struct krb_client_terms {
    int64_t seconds;       /* the client's time, in seconds since 1 January 1970, 00:00:00 UTC; all times are in these */
    int64_t from;          /* from when on a postdated ticket is to be valid */
    int64_t till;          /* until when the ticket is to be valid; 0 for as long as the KDC allows */
    int64_t rtime;         /* until when it is to be renewable */
    uint32_t microseconds; /* after `seconds`, 0 to 999999 */
    uint32_t nonce;        /* random, below 2^31, fresh for each call */
    uint32_t skew;         /* by how many seconds clocks may differ; usually 300 */
    uint32_t least;        /* how many iterations are taken for the key of a password, at least; usually 4096 */
    uint32_t most;         /* and at most; usually 2^20 */
    uint32_t client_type;  /* the type of the client's name (RFC 4120, 6.2): usually 1 */
    uint32_t server_type;  /* of the server's: 2 for krbtgt and for a service, 3 for a service of a host */
    uint32_t settings;     /* KRB_CLIENT_.., added; other bits are not looked at */
} krb_client_terms;

/* What an exchange keeps between two messages. It is all zeros at the beginning, and never again, unless the caller wipes it; of krb_client_ticket it may have
   an offset that an exchange before it took (offset and has_offset), and is zeros else. */
typedef struct krb_exchange {
    int64_t offset;      /* by how many seconds the KDC's time is ahead of the client's, where has_offset is 1 */
    uint32_t has_offset; /* 1 where the KDC's time was taken from an error of the KDC, and else 0 */
    uint32_t nonce;      /* of the last request */
    int32_t etype;       /* of the key under which the last AS-REQ has the time; 0 where it has none */
    uint32_t begun;      /* 1 once a request was made, and else 0 */
    uint8_t key[32];     /* the octets of this key, and zeros */
} krb_exchange;

/* What follows on a message. */
enum {
    KRB_FOLLOWS_NOTHING = 0, /* a rule is broken */
    KRB_FOLLOWS_SENDS = 1,   /* the octets of `out` go to the KDC */
    KRB_FOLLOWS_WAITS = 2,   /* the reply is of another request: the exchange waits for the next one */
    KRB_FOLLOWS_GRANTED = 3  /* the KDC granted a ticket; the exchange is over */
};

/* The first rule that a reply breaks (docs/CLIENT.md), why there is no key for what the KDC tells (20 to 27), or why no request is made (29 to 36). */
enum {
    KRB_CLIENT_RULE_NONE = 0,                  /* no rule */
    KRB_CLIENT_RULE_OTHER_MESSAGE = 1,         /* the message is not one that the exchange waits for */
    KRB_CLIENT_RULE_MESSAGE = 2,               /* the octets are not the one encoding of the message */
    KRB_CLIENT_RULE_PVNO = 3,                  /* the protocol version is not 5 */
    KRB_CLIENT_RULE_MSG_TYPE = 4,              /* the message type is that of another message */
    KRB_CLIENT_RULE_OPENING = 5,               /* the key does not open the reply, as where a password is wrong */
    KRB_CLIENT_RULE_CLIENT = 6,                /* the reply names another client than asked */
    KRB_CLIENT_RULE_TICKET_VERSION = 7,        /* the version of the ticket is not 5 */
    KRB_CLIENT_RULE_TICKET = 8,                /* the ticket is for another server than was asked for */
    KRB_CLIENT_RULE_UNASKED = 9,               /* the reply is under an encryption type that was not asked for */
    KRB_CLIENT_RULE_ENCRYPTION_TYPE = 10,      /* the reply is under another encryption type than the key's */
    KRB_CLIENT_RULE_NONCE = 11,                /* the reply is to another request */
    KRB_CLIENT_RULE_SERVER = 12,               /* the reply names another server than was asked for */
    KRB_CLIENT_RULE_SESSION_KEY = 13,          /* the session key is of an encryption type that was not asked for */
    KRB_CLIENT_RULE_START = 14,                /* the ticket does not start when it was asked for, or the clocks differ by more than the skew */
    KRB_CLIENT_RULE_END = 15,                  /* the ticket ends later than was asked for, or before it starts */
    KRB_CLIENT_RULE_RENEW_TILL = 16,           /* the ticket is renewable for longer than was asked for, or without saying that it is */
    KRB_CLIENT_RULE_FLAGS = 17,                /* the ticket has a flag that was not asked for */
    KRB_CLIENT_RULE_ADDRESSES = 18,            /* the ticket is for addresses */
    KRB_CLIENT_RULE_TIME = 19,                 /* the reply does not have the time that was sent */
    KRB_CLIENT_RULE_METHOD_DATA = 20,          /* the KDC's data of pre-authentication are no encoding */
    KRB_CLIENT_RULE_NO_INFO = 21,              /* the KDC does not tell of the client's keys */
    KRB_CLIENT_RULE_INFO = 22,                 /* what the KDC tells of the client's keys is no encoding */
    KRB_CLIENT_RULE_NO_SUITE = 23,             /* the KDC has no key of the client's under an encryption type that was asked for */
    KRB_CLIENT_RULE_NO_KEY = 24,               /* the keytab has no key of the client's of the encryption type */
    KRB_CLIENT_RULE_PASSWORD_SUITE = 25,       /* no password becomes a key of the encryption type */
    KRB_CLIENT_RULE_PARAMETERS = 26,           /* the KDC's parameters for the key of a password are not four octets */
    KRB_CLIENT_RULE_ITERATIONS = 27,           /* the KDC asks for fewer or more iterations for the key of a password than are taken */
    KRB_CLIENT_RULE_KDC = 28,                  /* the KDC reports an error */
    KRB_CLIENT_RULE_REQUEST_NONCE = 29,        /* the nonce is 2^31 or more */
    KRB_CLIENT_RULE_REQUEST_OPTION = 30,       /* an option has another number than 0 to 31 */
    KRB_CLIENT_RULE_REQUEST_MICROSECONDS = 31, /* the microseconds are not 0 to 999999 */
    KRB_CLIENT_RULE_REQUEST_TIME = 32,         /* a time is before the year 0 or past 9999 */
    KRB_CLIENT_RULE_REQUEST_DELEGATION = 33,   /* credentials are not delegated */
    KRB_CLIENT_RULE_REQUEST_SUBKEY = 34,       /* the subkey is of another size than its encryption type's */
    KRB_CLIENT_RULE_REQUEST_CONFOUNDER = 35,   /* the confounder is of another size than the encryption type's */
    KRB_CLIENT_RULE_REQUEST_KEY = 36,          /* the key is of another size than its encryption type's */
    KRB_CLIENT_RULE_UNAUTHENTICATED = 37,      /* the reply renames, and the request had no pre-authentication */
    KRB_CLIENT_RULE_NO_CHECKSUM = 38,          /* the reply renames, and has no checksum of the request */
    KRB_CLIENT_RULE_CHECKSUM = 39,             /* the reply renames, and its checksum is not that of the request */
    KRB_CLIENT_RULE_SESSION_KEY_SIZE = 40,     /* the session key has another size than its encryption type's */
    KRB_CLIENT_RULE_FLAGS_SIZE = 41            /* the ticket has fewer than 32 flags */
};

typedef struct krb_followed {
    krb_place ticket; /* where a ticket is granted: its encoding (RFC 4120, 5.3), in `out` */
    krb_place part;   /* and that of the EncKDCRepPart that came with it, under tag 26: its session key, times, flags and names (5.4.2) */
    uint32_t follows; /* KRB_FOLLOWS_.. */
    uint32_t rule;    /* KRB_CLIENT_RULE_.. */
    uint32_t code;    /* of KRB_CLIENT_RULE_KDC, the error's (7.5.9); else 0 */
} krb_followed;

/* A first ticket (RFC 4120, 3.1), step by step, by a password or, where `keytab` has octets, by the client's keys in it: of each encryption type the last one,
   which was added last. A message of no octets begins an exchange that is all zeros, by an AS-REQ without pre-authentication; each other one is what the KDC
   sent to one that has begun. A message of no octets later, as of a peer that closed, and octets before are refused by KRB_CLIENT_RULE_OTHER_MESSAGE, before
   all else: so, whatever comes, an exchange hands out at most three requests (of krb_client_ticket two), until the caller wipes it.
   `options` are numbers of KDCOptions (5.4.1), 0 to 31; `flags` those of the flags 1 to 8 that the ticket may have; `etypes` the encryption types, the
   preferred one first; `random` has 16 octets, fresh for each call.

   KRB_DONE: *followed says what follows, and *exchange is as it is to be passed in the next time. KRB_ROOM: there are *size octets, more than `room`; *followed
   is all zeros, and *exchange and `out` are as they were: the same call with more room answers the same.
   Else, of a call in its turn, the first of these. KRB_SEED_SIZE: `random` has not 16 octets. KRB_INVALID: `client` or `server` is no name with a realm.
   KRB_NUMBER: an encryption type is not supported. KRB_KEYTAB: `keytab` is none, of a message. KRB_NOT_GRANTED: *followed says which rule is broken. KRB_MEMORY
   may come in place of any. On each of these *size is 0, *exchange and `out` are as they were and, but for KRB_NOT_GRANTED, *followed is all zeros. */
krb_status krb_client_initial(const krb_client_terms *terms, const size_t *options, size_t options_count, const size_t *flags, size_t flags_count,
                              const int32_t *etypes, size_t etypes_count, const uint8_t *client, size_t client_size, const uint8_t *server,
                              size_t server_size, const uint8_t *password, size_t password_size, const uint8_t *keytab, size_t keytab_size,
                              const uint8_t *random, size_t random_size, const uint8_t *message, size_t message_size, krb_exchange *exchange,
                              krb_followed *followed, uint8_t *out, size_t room, size_t *size);

/* What an AS-REP grants that krb_client_initial refused by KRB_CLIENT_RULE_CLIENT, KRB_CLIENT_RULE_TICKET or KRB_CLIENT_RULE_SERVER, since it renames the
   client or the server (RFC 6806, 6 and 8), where the caller allows that. `client` and `server` are the names of the reply (to krb_find "crealm", "cname",
   "ticket.realm" and "ticket.sname" of the AS-REP), `request` is the last request of the exchange, *exchange as the last call left it; the nonce of the terms
   is not looked at. All rules hold for these names, and besides the reply's part has the checksum of the request under the reply key, for which
   KRB_CLIENT_CANONICALIZE asks. The client's new name is under no key.
   KRB_DONE, KRB_ROOM, KRB_NOT_GRANTED and the other statuses as of krb_client_initial; *exchange stays as it is. */
krb_status krb_client_renamed(const krb_client_terms *terms, const size_t *flags, size_t flags_count, const int32_t *etypes, size_t etypes_count,
                              const uint8_t *client, size_t client_size, const uint8_t *server, size_t server_size, const uint8_t *request,
                              size_t request_size, const uint8_t *message, size_t message_size, const krb_exchange *exchange, krb_followed *followed,
                              uint8_t *out, size_t room, size_t *size);

/* A further ticket (3.3), step by step, by the encoding of a ticket for the KDC and its session key. `subkey` has as many octets as the session key, random,
   fresh for each exchange and the same in each of its calls. All else as krb_client_initial, but that an exchange may begin with an offset; KRB_INVALID,
   KRB_TRUNCATED or KRB_UNSUPPORTED also where `ticket` is no encoding of a ticket, and then KRB_NUMBER where the encryption type of the session key is not
   supported: both in the place of KRB_KEYTAB. */
krb_status krb_client_ticket(const krb_client_terms *terms, const size_t *options, size_t options_count, const size_t *flags, size_t flags_count,
                             const int32_t *etypes, size_t etypes_count, const uint8_t *client, size_t client_size, const uint8_t *server,
                             size_t server_size, const uint8_t *ticket, size_t ticket_size, int32_t session_etype, const uint8_t *session_key,
                             size_t session_key_size, const uint8_t *subkey, size_t subkey_size, const uint8_t *random, size_t random_size,
                             const uint8_t *message, size_t message_size, krb_exchange *exchange, krb_followed *followed, uint8_t *out, size_t room,
                             size_t *size);

/* Settings of krb_ap_terms. */
enum {
    KRB_AP_SEQUENCE = 1, /* sequence_number stands in the authenticator */
    KRB_AP_GSS = 2,      /* the checksum 0x8003 of the GSS-API (RFC 4121, 4.1.1), of gss_flags and the bindings */
    KRB_AP_MUTUAL = 4    /* mutual-required: the service answers by an AP-REP */
};

typedef struct krb_ap_terms {
    int64_t seconds;          /* the client's time; what an AP-REP has to repeat */
    uint32_t microseconds;    /* after it, 0 to 999999 */
    uint32_t client_type;     /* the type of the client's name (6.2): usually 1 */
    uint32_t sequence_number; /* of the client's first message */
    uint32_t gss_flags;       /* of the context (RFC 4121, 4.1.1.1): 2 mutual authentication, 4 replay, 8 sequence, 16 confidentiality, 32 integrity; not 1,
                                 delegation */
    uint32_t settings;        /* KRB_AP_.., added; other bits are not looked at */
    int32_t session_etype;    /* the encryption type of the session key and of the subkey */
} krb_ap_terms;

/* The AP-REQ for a service (3.2.2), by the encoding of a ticket and its session key. `subkey` has as many octets as the session key, random, or none: then the
   request has none. `bindings` is the hash of channel bindings (krb_channel_bindings, 16 octets), or no octets where there are none. `random` has 16 octets,
   fresh.
   KRB_DONE; KRB_ROOM. Else the first of these. KRB_SEED_SIZE: `random` has not 16 octets, or `bindings` neither 0 nor 16. KRB_NUMBER: the encryption type is
   not supported. KRB_INVALID: `client` is no name with a realm. KRB_INVALID, KRB_TRUNCATED, KRB_UNSUPPORTED: `ticket` is no encoding of a ticket.
   KRB_NOT_GRANTED: *rule says why no request is made. KRB_MEMORY may come in place of any. But for KRB_NOT_GRANTED *rule is 0. */
krb_status krb_client_ap_request(const krb_ap_terms *terms, const uint8_t *client, size_t client_size, const uint8_t *ticket, size_t ticket_size,
                                 const uint8_t *session_key, size_t session_key_size, const uint8_t *subkey, size_t subkey_size,
                                 const uint8_t *bindings, size_t bindings_size, const uint8_t *random, size_t random_size, uint32_t *rule, uint8_t *out,
                                 size_t room, size_t *size);

/* Whether an AP-REP confirms the service (3.2.5): it opens under the session key to the very time that was sent. Hands out the encoding of its EncAPRepPart
   (5.5.2), in which the service's subkey and the number of its first message stand.
   KRB_DONE; KRB_ROOM. KRB_NOT_GRANTED: *rule says which rule is broken. KRB_NUMBER: the encryption type is not supported. KRB_MEMORY. But for KRB_NOT_GRANTED
   *rule is 0. */
krb_status krb_client_ap_reply(int32_t session_etype, const uint8_t *session_key, size_t session_key_size, int64_t seconds, uint32_t microseconds,
                               const uint8_t *reply, size_t reply_size, uint32_t *rule, uint8_t *out, size_t room, size_t *size);

/* MIC and Wrap tokens of a context of the GSS-API (RFC 4121, 4.2) under etypes 17 to 20; etype 16 has other tokens (RFC 1964), and is refused with
   KRB_NUMBER. The key is the context's: the subkey that the acceptor asserted, and then `acceptor_subkey` is true; else the initiator's subkey, else
   the session key of the ticket. `sent_by_acceptor` says whose tokens are made or taken: one's own to make them, the other side's to verify and to
   unwrap. Which sequence numbers a context expects is the caller's to say. */

/* The MIC token of a message, 16 octets and a checksum. It does not hold the message.
   KRB_NUMBER; KRB_KEY_SIZE; KRB_MEMORY. */
krb_status krb_make_mic(int32_t etype, const uint8_t *key, size_t key_size, bool sent_by_acceptor, bool acceptor_subkey,
                        uint64_t sequence_number, const uint8_t *message, size_t message_size, uint8_t *out, size_t room, size_t *size);

/* Whether a MIC token holds of the message: KRB_DONE exactly where its flags are those of such a token, and its checksum that of the message and its
   header; then *sequence_number is the token's, and else 0. Reserved flags are ignored, but the checksum is over them.
   KRB_NUMBER; then KRB_KEY_SIZE; then KRB_TOKEN, KRB_DIRECTION, KRB_SUBKEY, KRB_SEALED_MIC, KRB_INTEGRITY; KRB_MEMORY. */
krb_status krb_verify_mic(int32_t etype, const uint8_t *key, size_t key_size, bool sent_by_acceptor, bool acceptor_subkey,
                          const uint8_t *message, size_t message_size, const uint8_t *token, size_t token_size, uint64_t *sequence_number);

/* The Wrap token of a message, encrypted: 16 octets, and what krb_encrypt answers to 16 octets more than the message's, rotated to the right by
   `rotation` octets (the RRC, 0 in general). The caller draws a new confounder of 16 octets for each call, as for krb_encrypt.
   KRB_CONFOUNDER_SIZE; then KRB_NUMBER; then KRB_KEY_SIZE; KRB_MEMORY. */
krb_status krb_wrap(int32_t etype, const uint8_t *key, size_t key_size, bool sent_by_acceptor, bool acceptor_subkey,
                    uint64_t sequence_number, uint16_t rotation, const uint8_t *confounder, size_t confounder_size,
                    const uint8_t *message, size_t message_size, uint8_t *out, size_t room, size_t *size);

/* The Wrap token of a message in the clear: 16 octets, and the message and its checksum, rotated likewise.
   KRB_NUMBER; KRB_KEY_SIZE; KRB_MEMORY. */
krb_status krb_wrap_in_clear(int32_t etype, const uint8_t *key, size_t key_size, bool sent_by_acceptor, bool acceptor_subkey,
                             uint64_t sequence_number, uint16_t rotation, const uint8_t *message, size_t message_size, uint8_t *out,
                             size_t room, size_t *size);

/* The message that a Wrap token of RFC 4121 holds, encrypted or not, and whatever its rotation (RRC). An encrypted token of DCE style, as Windows makes it
   for a context of that style (MS-KILE, 3.4.5.4.1), is rotated by RRC and EC together: it is not such a token, and refused with KRB_INTEGRITY.
   *sequence_number is the token's, and *sealed whether it was
   encrypted, where the status is KRB_DONE or KRB_ROOM; else they are 0 and false. The message has fewer octets than the token. `sequence_number` and
   `sealed` overlap nothing else that is passed, as `size`.
   KRB_NUMBER; then KRB_KEY_SIZE; then KRB_TOKEN, KRB_DIRECTION, KRB_SUBKEY; then of an encrypted token KRB_SEALED_SIZE, KRB_INTEGRITY, KRB_SEALED_HEADER,
   and of another KRB_INTEGRITY; KRB_MEMORY. */
krb_status krb_unwrap(int32_t etype, const uint8_t *key, size_t key_size, bool sent_by_acceptor, bool acceptor_subkey,
                      const uint8_t *token, size_t token_size, uint64_t *sequence_number, bool *sealed, uint8_t *out, size_t room,
                      size_t *size);

/* What a status says, in English words and without a line's end. It is not of the library: no export answers a pointer. */
static inline const char *krb_status_text(krb_status status) {
    switch (status) {
    case KRB_DONE: return "done";
    case KRB_ROOM: return "too little room for the answer";
    case KRB_MEMORY: return "out of memory";
    case KRB_NUMBER: return "an unknown number, type or path";
    case KRB_CONFOUNDER_SIZE: return "a confounder of another size";
    case KRB_KEY_SIZE: return "a key of another size";
    case KRB_SEALED_SIZE: return "too few sealed octets";
    case KRB_INTEGRITY: return "a wrong checksum";
    case KRB_PADDING: return "no whole blocks";
    case KRB_INVALID: return "no encoding of the type";
    case KRB_TRUNCATED: return "octets that end too early";
    case KRB_UNSUPPORTED: return "a length that is not supported";
    case KRB_NEVER: return "an error that no call meets";
    case KRB_SEED_SIZE: return "a seed of another size";
    case KRB_EMPTY: return "no octets to fold";
    case KRB_DIRECTION: return "a token of the other side";
    case KRB_TOKEN: return "no header of such a token";
    case KRB_SUBKEY: return "a token under another key";
    case KRB_SEALED_MIC: return "a MIC token that is marked as sealed";
    case KRB_SEALED_HEADER: return "another header sealed in";
    case KRB_ABSENT: return "no such field or element";
    case KRB_TOO_LARGE: return "a number of more than 64 bits";
    case KRB_TOO_DEEP: return "elements too deep in one another";
    case KRB_KEYTAB: return "no keytab";
    case KRB_OTHER_VERSION: return "another version of the format";
    case KRB_PAC_TYPE: return "a buffer of an unknown type";
    case KRB_PAC_RANGE: return "a buffer of octets that are not there";
    case KRB_FRAME_SIZE: return "a frame of too many octets";
    case KRB_PROXY_TOO_LARGE: return "more octets than a proxy takes";
    case KRB_PROXY_NO_LENGTH: return "no length in front of the message";
    case KRB_PROXY_OTHER_LENGTH: return "another length in front of the message";
    case KRB_PROXY_NO_DOMAIN: return "no target-domain";
    case KRB_PROXY_OTHER_KIND: return "a message that does not go this way";
    case KRB_PROXY_FRAME_LENGTH: return "a frame that ends in its first message";
    case KRB_PROXY_INVALID: return "a message that is no encoding of its type";
    case KRB_PROXY_TRUNCATED: return "a message that ends too early";
    case KRB_PROXY_UNSUPPORTED: return "a message with a length that is not supported";
    case KRB_PROXY_PVNO: return "another pvno than 5";
    case KRB_PROXY_MSG_TYPE: return "the msg-type of another message";
    case KRB_NOT_ACCEPTED: return "a token that a rule refuses";
    case KRB_NOT_GRANTED: return "a reply or a request that a rule refuses";
    case KRB_UNLESS_REPEATED: return "a client that is let in unless the replay cache has it";
    default: return "an unknown status";
    }
}

#ifdef __cplusplus
}
#endif
#endif
