/* Ticket parts, in hexadecimal digits, with the key and the confounder. */
#ifndef PART_H
#define PART_H
#include "library.h"
#include "real_parts.h" /* written by refusals/real_parts */
#include <stdio.h>

struct part {
    size_t etype;
    const char *key, *confounder, *plain, *sealed;
};

/* The EncTicketPart of the program krbtool's input with a starttime: 149 octets. */
static const char small_part[] =
    "63819230818fa00703050000000000a11b3019a003020111a1120410000102030405060708090a0b0c0d0e0f"
    "a20d1b0b4558414d504c452e434f4da3123010a003020101a10930071b057465737431a40b3009a003020101"
    "a1020400a511180f32303231313233313030303030305aa611180f32303231313233313030303030305aa711"
    "180f32303231313233313130303030305a";

static const struct part parts[] = {
    {16, KEY_16, CONFOUNDER_16, part_16, sealed_16}, {17, KEY_17, CONFOUNDER_17, part_17, sealed_17},
    {18, KEY_18, CONFOUNDER_18, part_18, sealed_18}, {19, KEY_19, CONFOUNDER_19, part_19, sealed_19},
    {20, KEY_20, CONFOUNDER_20, part_20, sealed_20},
};

/* The octets of these digits, and how many they are. */
static size_t octets_of(const char *digits, uint8_t *to) {
    size_t count = 0;
    unsigned octet;
    for (; sscanf(digits, "%2x", &octet) == 1; digits += 2) {
        to[count++] = octet;
    }
    return count;
}
#endif
