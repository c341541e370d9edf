/* Elements of DER, made from their ends to their fronts. */
#ifndef ELEMENT_H
#define ELEMENT_H
#include <stddef.h>
#include <stdint.h>

/* Puts a tag and a length before the octets from `front` to `end`, and returns the new start. */
static uint8_t *close_element(uint8_t tag, const uint8_t *end, uint8_t *front) {
    size_t count = end - front, digits = 0;
    uint8_t length[8];
    for (size_t rest = count; rest && count > 127; rest >>= 8) {
        length[digits++] = rest & 0xff;
    }
    for (size_t i = 0; i < digits; i++) {
        *--front = length[i];
    }
    *--front = digits ? 0x80 | digits : count;
    *--front = tag;
    return front;
}
#endif
