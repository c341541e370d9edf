#include "octets.h"

void die(const char *why) {
    fprintf(stderr, "refusals: %s\n", why);
    exit(1);
}

static int value_of(char digit) {
    if ('0' <= digit && digit <= '9') {
        return digit - '0';
    }
    if (digit < 'a' || 'f' < digit) {
        die("octets have a letter that is not a digit");
    }
    return digit - 'a' + 10;
}

struct octets octets_of(const char *digits) {
    struct octets made;
    made.count = 0;
    for (; *digits; digits += 2) {
        if (made.count == ROOM) {
            die("too many octets");
        }
        made.at[made.count++] = 16 * value_of(digits[0]) + value_of(digits[1]);
    }
    return made;
}

struct octets octets_in(int descriptor) {
    struct octets read;
    long count = pread(descriptor, read.at, ROOM, 0);
    if (count < 0) {
        die("an answer cannot be read");
    }
    read.count = count;
    return read;
}

void hold(int descriptor, const struct octets *octets) {
    if (ftruncate(descriptor, 0) || lseek(descriptor, 0, SEEK_SET) ||
        pwrite(descriptor, octets->at, octets->count, 0) != (long)octets->count) {
        die("a file cannot be written");
    }
}

int are_equal(const struct octets *one, const struct octets *other) {
    return one->count == other->count && memcmp(one->at, other->at, one->count) == 0;
}
