/* A side of SPNEGO of the GSS-API, of Heimdal or MIT Kerberos as it is linked: commands on lines, hexadecimal both ways. "done" and words, or "error", the token
   that it sends all the same, and a text. It takes: init TARGET FLAGS; accept; step TOKEN; complete; peer; mic TEXT; verify TEXT MIC. */
#include <gssapi/gssapi.h>
#include <stdio.h>
#include <stdlib.h>
#include <string.h>

enum { LINE = 1 << 20, WORDS = 8 };

static gss_ctx_id_t context = GSS_C_NO_CONTEXT;
static gss_name_t target = GSS_C_NO_NAME, source = GSS_C_NO_NAME;
static int is_initiator, is_complete;
static OM_uint32 wanted;
static char line[LINE], *words[WORDS + 1];
static gss_OID_desc spnego = {6, "\x2b\x06\x01\x05\x05\x02"};

static gss_buffer_desc octets_of(const char *text) {
    gss_buffer_desc buffer = {0, malloc(strlen(text) + 1)};
    unsigned octet;
    for (; strcmp(text, "-") != 0 && sscanf(text, "%2x", &octet) == 1; text += 2) {
        ((unsigned char *)buffer.value)[buffer.length++] = (unsigned char)octet;
    }
    return buffer;
}

static void print_octets(gss_buffer_t octets) {
    printf(" %s", octets->length == 0 ? "-" : "");
    for (size_t n = 0; n < octets->length; n++) {
        printf("%02x", ((const unsigned char *)octets->value)[n]);
    }
}

static void print_error(OM_uint32 major, OM_uint32 minor, gss_buffer_t token) {
    OM_uint32 ignored, more = 0;
    gss_buffer_desc text;
    printf("error");
    print_octets(token);
    printf(" %08x %08x ", (unsigned)major, (unsigned)minor);
    if (gss_display_status(&ignored, major, GSS_C_GSS_CODE, GSS_C_NO_OID, &more, &text) == GSS_S_COMPLETE) {
        for (size_t n = 0; n < text.length; n++) {
            putchar(((char *)text.value)[n] == '\n' ? ' ' : ((char *)text.value)[n]);
        }
    }
    putchar('\n');
}

static void answer(OM_uint32 major, OM_uint32 minor, gss_buffer_t out) {
    if (GSS_ERROR(major)) {
        print_error(major, minor, out);
        return;
    }
    printf("done");
    print_octets(out);
    putchar('\n');
}

/* A new side in the place of the one before. */
static void begin(void) {
    OM_uint32 minor;
    gss_delete_sec_context(&minor, &context, GSS_C_NO_BUFFER);
    gss_release_name(&minor, &target);
    gss_release_name(&minor, &source);
    is_complete = 0;
}

static void step(gss_buffer_t input) {
    OM_uint32 minor, major;
    gss_buffer_desc out = {0, NULL};
    if (is_initiator) {
        major = gss_init_sec_context(&minor, GSS_C_NO_CREDENTIAL, &context, target, &spnego, wanted, 0, GSS_C_NO_CHANNEL_BINDINGS, input, NULL, &out,
                                     NULL, NULL);
    } else {
        gss_release_name(&minor, &source);
        major = gss_accept_sec_context(&minor, &context, GSS_C_NO_CREDENTIAL, input, GSS_C_NO_CHANNEL_BINDINGS, &source, NULL, &out, NULL, NULL, NULL);
    }
    is_complete = major == GSS_S_COMPLETE;
    answer(major, minor, &out);
    gss_release_buffer(&minor, &out);
}

static void initiate(void) {
    OM_uint32 minor, major;
    gss_buffer_desc name = {strlen(words[1]), words[1]}, none = {0, NULL};
    begin();
    is_initiator = 1;
    wanted = (OM_uint32)strtoul(words[2], NULL, 10);
    major = gss_import_name(&minor, &name, GSS_C_NT_HOSTBASED_SERVICE, &target);
    if (GSS_ERROR(major)) {
        print_error(major, minor, &none);
        return;
    }
    step(GSS_C_NO_BUFFER);
}

static void tell_peer(void) {
    OM_uint32 minor, major;
    gss_buffer_desc text = {0, NULL};
    major = gss_display_name(&minor, is_initiator ? target : source, &text, NULL);
    answer(major, minor, &text);
}

static void message(void) {
    OM_uint32 minor, major;
    gss_buffer_desc text = octets_of(words[1]), mic = {0, NULL};
    if (strcmp(words[0], "mic") == 0) {
        major = gss_get_mic(&minor, context, GSS_C_QOP_DEFAULT, &text, &mic);
        answer(major, minor, &mic);
    } else {
        gss_buffer_desc none = {0, NULL};
        mic = octets_of(words[2]);
        major = gss_verify_mic(&minor, context, &text, &mic, NULL);
        answer(major, minor, &none);
    }
    free(text.value);
    free(mic.value);
}

int main(void) {
    while (fgets(line, sizeof line, stdin)) {
        int count = 0;
        for (char *word = strtok(line, " \n"); word && count < WORDS; word = strtok(NULL, " \n")) {
            words[count++] = word;
        }
        for (int n = count; n <= WORDS; n++) {
            words[n] = "-";
        }
        if (strcmp(words[0], "init") == 0) {
            initiate();
        } else if (strcmp(words[0], "accept") == 0) {
            begin();
            is_initiator = 0;
            puts("done -");
        } else if (strcmp(words[0], "step") == 0) {
            gss_buffer_desc input = octets_of(words[1]);
            step(&input);
            free(input.value);
        } else if (strcmp(words[0], "complete") == 0) {
            puts(is_complete ? "done 01" : "done -");
        } else if (strcmp(words[0], "peer") == 0) {
            tell_peer();
        } else {
            message();
        }
        fflush(stdout);
    }
    return 0;
}
