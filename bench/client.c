/* Times a first ticket and a further one beside MIT's krb5_get_init_creds_password and krb5_get_credentials, of the same KDC over TCP, and prints a line each: a
 * name, a tab, nanoseconds of processor time. The calls of both for sockets are in them, the waiting is not.
 * client PORT CLIENT PASSWORD SERVICE ETYPE WINDOW, names with their realm, the window of a measurement in milliseconds; KRB5_CONFIG names the same KDC. */
#include <arpa/inet.h>
#include <krb5.h>
#include <stdlib.h>
#include <string.h>
#include <sys/random.h>
#include <sys/socket.h>
#include <unistd.h>
#include "krb.h"
#include "timing.h"

enum { LARGE = 65536, RANDOM = 16, LONGEST_KEY = 32 };

static int port;
static int32_t etype;
static const char *client, *password, *service;
static char krbtgt[256];
static uint8_t out[LARGE], reply[LARGE], ticket[LARGE], session_key[LONGEST_KEY];
static size_t ticket_size, session_key_size;

static void fail(const char *what, unsigned long status) {
    fprintf(stderr, "client: %s: %lu\n", what, status);
    exit(1);
}

static size_t whole(int link, uint8_t *to, size_t size) {
    for (size_t done = 0; done < size;) {
        ssize_t part = read(link, to + done, size - done);
        if (part <= 0) {
            fail("the KDC", 0);
        }
        done += part;
    }
    return size;
}

/* The KDC's reply to a request, which goes behind its length in four octets (RFC 4120, 7.2.2). */
static size_t ask(const uint8_t *request, size_t size) {
    struct sockaddr_in address = {.sin_family = AF_INET, .sin_port = htons(port), .sin_addr.s_addr = htonl(INADDR_LOOPBACK)};
    uint8_t octets[LARGE + 4];
    uint32_t length = htonl(size);
    int link = socket(AF_INET, SOCK_STREAM, 0);
    if (link < 0 || connect(link, (struct sockaddr *)&address, sizeof address) != 0) {
        fail("the KDC", 1);
    }
    memcpy(octets, &length, 4);
    memcpy(octets + 4, request, size);
    if (write(link, octets, size + 4) != (ssize_t)size + 4) {
        fail("the KDC", 2);
    }
    whole(link, (uint8_t *)&length, 4);
    if (ntohl(length) > LARGE) {
        fail("the KDC", 3);
    }
    size = whole(link, reply, ntohl(length));
    close(link);
    return size;
}

static krb_client_terms terms_now(void) {
    struct timespec now;
    uint32_t nonce;
    clock_gettime(CLOCK_REALTIME, &now);
    if (getrandom(&nonce, sizeof nonce, 0) != sizeof nonce) {
        fail("getrandom", 0);
    }
    return (krb_client_terms){.seconds = now.tv_sec,
                              .till = now.tv_sec + 36000,
                              .microseconds = now.tv_nsec / 1000,
                              .nonce = nonce >> 1,
                              .skew = 300,
                              .least = 4096,
                              .most = 1 << 20,
                              .client_type = 1,
                              .server_type = 2};
}

static void drawn(uint8_t *octets, size_t size) {
    if (getrandom(octets, size, 0) != (ssize_t)size) {
        fail("getrandom", 0);
    }
}

/* A first ticket, kept with its session key. */
static void first(void) {
    krb_exchange exchange = {0};
    krb_followed followed = {0};
    size_t size = 0, received = 0;
    do {
        krb_client_terms terms = terms_now();
        uint8_t random[RANDOM];
        drawn(random, RANDOM);
        krb_status status = krb_client_initial(&terms, NULL, 0, NULL, 0, &etype, 1, (const uint8_t *)client, strlen(client), (const uint8_t *)krbtgt, strlen(krbtgt),
                                               (const uint8_t *)password, strlen(password), NULL, 0, random, RANDOM, reply, received, &exchange, &followed, out,
                                               sizeof out, &size);
        if (status != KRB_DONE) {
            fail("krb_client_initial", status == KRB_NOT_GRANTED ? 1000 * followed.rule + followed.code : status);
        }
        if (followed.follows == KRB_FOLLOWS_SENDS) {
            received = ask(out, size);
        }
    } while (followed.follows == KRB_FOLLOWS_SENDS);
    krb_item key;
    const uint8_t *part = out + followed.part.offset;
    const char *type = "EncTGSRepPart", *path = "key.keyvalue";
    if (krb_find((const uint8_t *)type, strlen(type), (const uint8_t *)path, strlen(path), part, followed.part.size, &key) != KRB_DONE || key.size > LONGEST_KEY) {
        fail("the session key", 0);
    }
    ticket_size = followed.ticket.size;
    memcpy(ticket, out + followed.ticket.offset, ticket_size);
    session_key_size = key.size;
    memcpy(session_key, part + key.offset, key.size);
}

/* A further ticket by it. */
static void further(void) {
    krb_exchange exchange = {0};
    krb_followed followed = {0};
    uint8_t subkey[LONGEST_KEY], random[RANDOM];
    size_t size = 0, received = 0;
    drawn(subkey, session_key_size);
    do {
        krb_client_terms terms = terms_now();
        terms.till = 0;
        drawn(random, RANDOM);
        krb_status status = krb_client_ticket(&terms, NULL, 0, NULL, 0, &etype, 1, (const uint8_t *)client, strlen(client), (const uint8_t *)service, strlen(service),
                                              ticket, ticket_size, etype, session_key, session_key_size, subkey, session_key_size, random, RANDOM, reply, received,
                                              &exchange, &followed, out, sizeof out, &size);
        if (status != KRB_DONE) {
            fail("krb_client_ticket", status == KRB_NOT_GRANTED ? 1000 * followed.rule + followed.code : status);
        }
        if (followed.follows == KRB_FOLLOWS_SENDS) {
            received = ask(out, size);
        }
    } while (followed.follows == KRB_FOLLOWS_SENDS);
}

static krb5_context context;
static krb5_principal mit_client;

/* A first ticket of MIT's. */
static void first_of_mit(krb5_creds *creds) {
    krb5_get_init_creds_opt *options;
    krb5_enctype types[] = {etype};
    if (krb5_get_init_creds_opt_alloc(context, &options)) {
        fail("krb5_get_init_creds_opt_alloc", 0);
    }
    krb5_get_init_creds_opt_set_etype_list(options, types, 1);
    krb5_get_init_creds_opt_set_tkt_life(options, 36000);
    krb5_get_init_creds_opt_set_forwardable(options, 0);
    krb5_error_code error = krb5_get_init_creds_password(context, creds, mit_client, password, NULL, NULL, 0, NULL, options);
    if (error) {
        fail("krb5_get_init_creds_password", error);
    }
    krb5_get_init_creds_opt_free(context, options);
}

static void first_only(void) {
    krb5_creds creds;
    memset(&creds, 0, sizeof creds);
    first_of_mit(&creds);
    krb5_free_cred_contents(context, &creds);
}

static krb5_creds mit_first;
static krb5_principal mit_service;

/* A further one, by a cache in memory that has the first alone. */
static void further_of_mit(void) {
    krb5_ccache cache;
    krb5_creds wanted, *found;
    memset(&wanted, 0, sizeof wanted);
    wanted.client = mit_client;
    wanted.server = mit_service;
    krb5_error_code error = krb5_cc_resolve(context, "MEMORY:bench", &cache);
    error = error ? error : krb5_cc_initialize(context, cache, mit_client);
    error = error ? error : krb5_cc_store_cred(context, cache, &mit_first);
    error = error ? error : krb5_get_credentials(context, 0, cache, &wanted, &found);
    if (error) {
        fail("krb5_get_credentials", error);
    }
    krb5_free_creds(context, found);
    krb5_cc_destroy(context, cache);
}

int main(int count, char **words) {
    if (count != 7) {
        fprintf(stderr, "usage: client PORT CLIENT PASSWORD SERVICE ETYPE WINDOW\n");
        return 2;
    }
    port = atoi(words[1]), client = words[2], password = words[3], service = words[4], etype = atoi(words[5]);
    double window = atoi(words[6]) * 1e6;
    const char *realm = strchr(client, '@');
    if (!realm || snprintf(krbtgt, sizeof krbtgt, "krbtgt/%s@%s", realm + 1, realm + 1) >= (int)sizeof krbtgt) {
        fail("the client's name", 0);
    }
    if (krb5_init_context(&context) || krb5_parse_name(context, client, &mit_client) || krb5_parse_name(context, service, &mit_service)) {
        fail("krb5_init_context", 0);
    }
    first();
    first_of_mit(&mit_first);
    TIME(window, "krb_client_initial", 1, first());
    TIME(window, "krb5_get_init_creds_password", 1, first_only());
    TIME(window, "krb_client_ticket", 1, further());
    TIME(window, "krb5_get_credentials", 1, further_of_mit());
    return 0;
}
