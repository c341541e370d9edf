/* Times krb_accept beside MIT's gss_accept_sec_context, each with the same keytab and token, and prints a line each: a name, a tab, nanoseconds.
 * acceptor KEYTAB TOKEN WINDOW, with the window of a measurement in milliseconds. MIT's replay cache is off where KRB5RCACHENAME is none: */
#include <gssapi/gssapi_ext.h>
#include <gssapi/gssapi_krb5.h>
#include <krb5.h>
#include <stdlib.h>
#include <string.h>
#include "krb.h"
#include "timing.h"

enum { LARGE = 65536, RANDOM = 48 };

static uint8_t keytab[LARGE], token[LARGE], out[4 * LARGE];
static size_t keytab_size, token_size;

static size_t contents(const char *path, uint8_t *to) {
    FILE *file = fopen(path, "rb");
    if (!file) {
        perror(path);
        exit(2);
    }
    size_t size = fread(to, 1, LARGE, file);
    fclose(file);
    return size;
}

static void fail(const char *what, unsigned long status) {
    fprintf(stderr, "acceptor: %s: %lx\n", what, status);
    exit(1);
}

/* One token taken, and its reply made. */
static void accept_once(void) {
    krb_acceptor acceptor = {time(NULL), 0, 300, KRB_ACCEPT_SUBKEY | KRB_ACCEPT_WHOLE_EVER, 0, 1};
    krb_accepted accepted;
    uint8_t octets[RANDOM] = {1};
    size_t size;
    krb_status status = krb_accept(&acceptor, keytab, keytab_size, octets, 0, octets, 0, octets, 0, octets, 0, octets, 0, octets, sizeof octets, token,
                                   token_size, &accepted, out, sizeof out, &size);
    if (status != KRB_UNLESS_REPEATED || accepted.reply.size == 0) {
        fail("krb_accept", status == KRB_NOT_ACCEPTED ? 1000 + accepted.rule : status);
    }
}

static void accept_by_mit(gss_cred_id_t credential) {
    OM_uint32 minor, ignored, major;
    gss_ctx_id_t context = GSS_C_NO_CONTEXT;
    gss_name_t client = GSS_C_NO_NAME;
    gss_buffer_desc input = {token_size, token}, reply = {0, NULL};
    major = gss_accept_sec_context(&minor, &context, credential, &input, GSS_C_NO_CHANNEL_BINDINGS, &client, NULL, &reply, NULL, NULL, NULL);
    if (major != GSS_S_COMPLETE || reply.length == 0) {
        fail("gss_accept_sec_context", minor);
    }
    gss_release_buffer(&ignored, &reply);
    gss_release_name(&ignored, &client);
    gss_delete_sec_context(&ignored, &context, GSS_C_NO_BUFFER);
}

/* Copies a keytab of a file into one of memory. */
static void copy_keytab(const char *from, const char *to) {
    krb5_context context;
    krb5_keytab file, memory;
    krb5_kt_cursor cursor;
    krb5_keytab_entry entry;
    if (krb5_init_context(&context) || krb5_kt_resolve(context, from, &file) || krb5_kt_resolve(context, to, &memory) ||
        krb5_kt_start_seq_get(context, file, &cursor)) {
        fail("the keytab", 0);
    }
    while (krb5_kt_next_entry(context, file, &entry, &cursor) == 0) {
        krb5_kt_add_entry(context, memory, &entry);
        krb5_kt_free_entry(context, &entry);
    }
    krb5_kt_end_seq_get(context, file, &cursor);
}

static gss_cred_id_t credential_of(const char *name) {
    OM_uint32 minor;
    gss_key_value_element_desc element = {"keytab", name};
    gss_key_value_set_desc store = {1, &element};
    gss_cred_id_t credential = GSS_C_NO_CREDENTIAL;
    if (gss_acquire_cred_from(&minor, GSS_C_NO_NAME, GSS_C_INDEFINITE, GSS_C_NO_OID_SET, GSS_C_ACCEPT, &store, &credential, NULL, NULL) != GSS_S_COMPLETE) {
        fail(name, minor);
    }
    return credential;
}

int main(int count, char **words) {
    static char name[4096];
    if (count != 4) {
        fprintf(stderr, "usage: acceptor KEYTAB TOKEN WINDOW\n");
        return 2;
    }
    keytab_size = contents(words[1], keytab);
    token_size = contents(words[2], token);
    snprintf(name, sizeof name, "FILE:%s", words[1]);
    copy_keytab(name, "MEMORY:bench");
    gss_cred_id_t in_file = credential_of(name), in_memory = credential_of("MEMORY:bench");
    double window = atof(words[3]) * 1e6;
    TIME(window, "krb_accept", 1, accept_once());
    TIME(window, "MIT, keytab in memory", 1, accept_by_mit(in_memory));
    TIME(window, "MIT, keytab in a file", 1, accept_by_mit(in_file));
    return 0;
}
