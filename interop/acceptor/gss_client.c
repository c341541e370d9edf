/* A client of the GSS-API, of Heimdal or MIT Kerberos as it is linked: commands on lines, hexadecimal both ways. "done" and words, or "error" and a text. */
#include <gssapi/gssapi.h>
#include <gssapi/gssapi_krb5.h>
#include <stdio.h>
#include <stdlib.h>
#include <string.h>

enum { LINE = 1 << 20 };

static gss_ctx_id_t context = GSS_C_NO_CONTEXT;
static gss_name_t target = GSS_C_NO_NAME;
static struct gss_channel_bindings_struct bindings;
static int is_bound, is_complete;
static OM_uint32 wanted, granted;
static char line[LINE], *words[8];
static gss_OID_desc kerberos = {9, "\x2a\x86\x48\x86\xf7\x12\x01\x02\x02"};

static gss_buffer_desc octets_of(const char *text) {
    gss_buffer_desc buffer = {0, malloc(strlen(text) + 1)};
    unsigned octet;
    for (; strcmp(text, "-") != 0 && sscanf(text, "%2x", &octet) == 1; text += 2) {
        ((unsigned char *)buffer.value)[buffer.length++] = (unsigned char)octet;
    }
    return buffer;
}

static void print_octets(const void *octets, size_t size) {
    printf(" %s", size == 0 ? "-" : "");
    for (size_t n = 0; n < size; n++) {
        printf("%02x", ((const unsigned char *)octets)[n]);
    }
}

static int failed(OM_uint32 major, OM_uint32 minor) {
    OM_uint32 ignored, more = 0;
    gss_buffer_desc text;
    printf("error %08x %08x ", (unsigned)major, (unsigned)minor);
    if (gss_display_status(&ignored, minor, GSS_C_MECH_CODE, GSS_C_NO_OID, &more, &text) == GSS_S_COMPLETE) {
        for (size_t n = 0; n < text.length; n++) {
            putchar(((char *)text.value)[n] == '\n' ? ' ' : ((char *)text.value)[n]);
        }
    }
    putchar('\n');
    return 1;
}

static void step(gss_buffer_t input) {
    OM_uint32 minor, major;
    gss_buffer_desc out = {0, NULL};
    major = gss_init_sec_context(&minor, GSS_C_NO_CREDENTIAL, &context, target, &kerberos, wanted, 0,
                                 is_bound ? &bindings : GSS_C_NO_CHANNEL_BINDINGS, input, NULL, &out, &granted, NULL);
    if (GSS_ERROR(major)) {
        failed(major, minor);
        return;
    }
    is_complete = major == GSS_S_COMPLETE;
    printf("done");
    print_octets(out.value, out.length);
    putchar('\n');
}

static void begin(void) {
    OM_uint32 minor, major;
    gss_buffer_desc name = {strlen(words[1]), words[1]};
    wanted = (OM_uint32)strtoul(words[2], NULL, 10);
    is_bound = strcmp(words[3], "-") != 0;
    bindings.application_data = octets_of(words[3]);
    major = gss_import_name(&minor, &name, GSS_C_NT_HOSTBASED_SERVICE, &target);
    if (GSS_ERROR(major)) {
        failed(major, minor);
        return;
    }
    step(GSS_C_NO_BUFFER);
}

static void facts(void) {
    OM_uint32 minor, major;
    gss_name_t source = GSS_C_NO_NAME;
    gss_buffer_desc text = {0, NULL};
    gss_buffer_set_t keys = GSS_C_NO_BUFFER_SET;
    static gss_OID_desc session_key = {11, "\x2a\x86\x48\x86\xf7\x12\x01\x02\x02\x05\x05"};
    unsigned char flags[4], etype = 0;
    major = gss_inquire_context(&minor, context, &source, NULL, NULL, NULL, NULL, NULL, NULL);
    if (GSS_ERROR(major) || GSS_ERROR(major = gss_display_name(&minor, source, &text, NULL))) {
        failed(major, minor);
        return;
    }
    for (int n = 0; n < 4; n++) {
        flags[n] = (unsigned char)(granted >> (24 - 8 * n));
    }
    printf("done");
    print_octets(text.value, text.length);
    print_octets(flags, 4);
    if (is_complete && !GSS_ERROR(gss_inquire_sec_context_by_oid(&minor, context, &session_key, &keys)) && keys->count > 0) {
        if (keys->count > 1) {
            etype = ((unsigned char *)keys->elements[1].value)[keys->elements[1].length - 1];
        }
        print_octets(keys->elements[0].value, keys->elements[0].length);
    } else {
        printf(" -");
    }
    print_octets(&etype, 1);
    putchar('\n');
}

static void message(void) {
    OM_uint32 minor, major = GSS_S_FAILURE;
    gss_buffer_desc first = octets_of(words[1]), second = {0, NULL}, out = {0, NULL};
    if (strcmp(words[0], "mic") == 0) {
        major = gss_get_mic(&minor, context, GSS_C_QOP_DEFAULT, &first, &out);
    } else if (strcmp(words[0], "verify") == 0) {
        second = octets_of(words[2]);
        major = gss_verify_mic(&minor, context, &first, &second, NULL);
    } else if (strcmp(words[0], "wrap") == 0) {
        major = gss_wrap(&minor, context, words[2][0] == '1', GSS_C_QOP_DEFAULT, &first, NULL, &out);
    } else {
        major = gss_unwrap(&minor, context, &first, &out, NULL, NULL);
    }
    /* Without mutual authentication Heimdal's client awaits the service's messages from number 0 on, and tells a gap. */
    if (GSS_ERROR(major)) {
        failed(major, minor);
        return;
    }
    printf("done");
    print_octets(out.value, out.length);
    putchar('\n');
}

int main(void) {
    while (fgets(line, sizeof line, stdin)) {
        int count = 0;
        for (char *word = strtok(line, " \n"); word && count < 7; word = strtok(NULL, " \n")) {
            words[count++] = word;
        }
        words[count] = "-";
        if (count == 0) {
            continue;
        }
        if (strcmp(words[0], "init") == 0) {
            begin();
        } else if (strcmp(words[0], "step") == 0) {
            gss_buffer_desc input = octets_of(words[1]);
            step(&input);
        } else if (strcmp(words[0], "complete") == 0) {
            puts(is_complete ? "done 01" : "done -");
        } else if (strcmp(words[0], "facts") == 0) {
            facts();
        } else {
            message();
        }
        fflush(stdout);
    }
    return 0;
}
