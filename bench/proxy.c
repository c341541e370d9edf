/* Prints the time of each call of a proxy, in nanoseconds, a line a call: its name, a tab, the number.
 * The argument is the window of a measurement in milliseconds. */
#include "element.h"
#include "proxy_messages.h" /* written by bench/proxy */
#include "timing.h"
#include <stdlib.h>
#include <string.h>

/* What bench/proxy.rt.in exports. A slice crosses as a pointer and a length. */
size_t bench_read_request(const uint8_t *input, size_t, uint64_t count, uint8_t *out, size_t);
size_t bench_write_reply(const uint8_t *input, size_t, uint64_t count, uint8_t *out, size_t);

#define NO_ROOM (uint8_t *)"", 0
enum { ROOM = 1 << 16, TURNS = 1000 };

static double window;
static char name[96];
static uint8_t room[ROOM], out[ROOM];

/* The octets of a message behind its length in four, which end where the room ends less what is to follow. */
static uint8_t *with_length(const uint8_t *message, size_t size, size_t follows) {
    uint8_t *front = room + ROOM - follows - size;
    memcpy(front, message, size);
    for (size_t i = 0; i < 4; i++, size >>= 8) {
        *--front = size & 0xff;
    }
    return front;
}

/* Ends the program unless the call made these octets. */
static void expect(size_t made, const uint8_t *wanted, size_t count) {
    if (made != count || memcmp(out, wanted, count) != 0) {
        fprintf(stderr, "%s: not the known answer\n", name);
        exit(1);
    }
}

/* A KDC-PROXY-MESSAGE (MS-KKDCP, 2.2.2) with this message and a target-domain. */
static void time_request(const char *what, const uint8_t *message, size_t size) {
    static const uint8_t domain[] = {0xa1, 0x0b, 0x1b, 0x09, 'H', 'E', 'L', 'D', '.', 'T', 'E', 'S', 'T'};
    uint8_t *end = room + ROOM, *behind = end - sizeof domain;
    memcpy(behind, domain, sizeof domain);
    uint8_t *front = close_element(0x04, behind, with_length(message, size, sizeof domain));
    front = close_element(0x30, end, close_element(0xa0, behind, front));
    snprintf(name, sizeof name, "read_request, %s of %zu octets", what, size);
    expect(bench_read_request(front, end - front, 1, out, sizeof out), message, size);
    TIME(window, name, TURNS, bench_read_request(front, end - front, TURNS, NO_ROOM));
}

static void time_reply(const char *what, const uint8_t *message, size_t size) {
    static uint8_t stream[ROOM];
    uint8_t *end = room + ROOM, *front = with_length(message, size, 0);
    memcpy(stream, front, size + 4);
    front = close_element(0x30, end, close_element(0xa0, end, close_element(0x04, end, front)));
    snprintf(name, sizeof name, "write_reply, %s of %zu octets", what, size);
    expect(bench_write_reply(stream, size + 4, 1, out, sizeof out), front, end - front);
    TIME(window, name, TURNS, bench_write_reply(stream, size + 4, TURNS, NO_ROOM));
}

int main(int count, char **arguments) {
    window = (count > 1 ? atof(arguments[1]) : 20) * 1e6;
    time_request("AS-REQ", as_req, sizeof as_req);
    time_request("TGS-REQ", tgs_req, sizeof tgs_req);
    time_reply("AS-REP", as_rep, sizeof as_rep);
    return 0;
}
