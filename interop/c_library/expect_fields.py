"""What krb_find and krb_find_number are to answer: expect_fields.py MESSAGES, whose rows have a message's number and its octets in hexadecimal.

A row for each message, field and index: number, octets, field, index, status, offset, size, and the number where the field is one, or TOO_LARGE
where 64 bits do not hold it; then the type and the field's path, or a dash where the message has no such field. It walks the elements (X.690, 8.1) by
the tags of RFC 4120, and shares nothing with the library but the names."""

import os
import sys

sys.dont_write_bytecode = True
sys.path.append(os.path.join(os.path.dirname(os.path.abspath(__file__)), ".."))

from der import BITS, INTEGER, MESSAGES, OCTETS, TEXT, TIME, elements  # noqa: E402
from tables import rows_in  # noqa: E402

# The fields of a ticket and of a sealed part, by the numbers of krb.h: the tags of the fields on the way, `[n]` of a SEQUENCE each, and what is there;
# a list has its items by index, or a field of each.
TICKET = {1: ([1], TEXT), 4: ([2, 1], [TEXT]), 29: ([2, 0], INTEGER), 19: ([3, 0], INTEGER), 20: ([3, 1], INTEGER), 21: ([3, 2], OCTETS)}
SEALED = {19: 0, 20: 1, 21: 2}
WITHIN = {23: 1, 24: 4, 30: 29, 25: 19, 26: 20, 27: 21}


def sealed(tag):
    return {field: ([tag, n], OCTETS if n == 2 else INTEGER) for field, n in SEALED.items()}


def ticket(tag):
    fields = {22: ([tag], None)}
    for field, inner in WITHIN.items():
        path, kind = TICKET[inner]
        fields[field] = ([tag, "ticket", *path], kind)
    return fields


REQUEST = {
    5: ([4, 0], BITS),
    3: ([4, 1, 1], [TEXT]),
    1: ([4, 2], TEXT),
    4: ([4, 3, 1], [TEXT]),
    9: ([4, 4], TIME),
    10: ([4, 5], TIME),
    11: ([4, 6], TIME),
    8: ([4, 7], INTEGER),
    7: ([4, 8], [INTEGER]),
    28: ([4, 1, 0], INTEGER),
    29: ([4, 3, 0], INTEGER),
    31: ([3], [(1, INTEGER)]),
    32: ([3], [(2, OCTETS)]),
}
REPLY = {
    2: ([3], TEXT),
    3: ([4, 1], [TEXT]),
    28: ([4, 0], INTEGER),
    31: ([2], [(1, INTEGER)]),
    32: ([2], [(2, OCTETS)]),
    **ticket(5),
    **sealed(6),
}
FIELDS = {
    1: TICKET,
    10: REQUEST,
    12: REQUEST,
    11: REPLY,
    13: REPLY,
    14: {6: ([2], BITS), **ticket(3), **sealed(4)},
    15: sealed(2),
    21: sealed(3),
    22: {22: ([2], [None]), **sealed(3)},
    30: {
        12: ([2], TIME),
        13: ([3], INTEGER),
        14: ([4], TIME),
        15: ([5], INTEGER),
        16: ([6], INTEGER),
        2: ([7], TEXT),
        3: ([8, 1], [TEXT]),
        1: ([9], TEXT),
        4: ([10, 1], [TEXT]),
        17: ([11], TEXT),
        18: ([12], OCTETS),
        28: ([8, 0], INTEGER),
        29: ([10, 0], INTEGER),
    },
}
NUMBERS = {7, 8, 13, 15, 16, 19, 20, 25, 26, 28, 29, 30, 31}
MOST_FIELD = 32

# The names of types (RFC 4120, 5), and of their fields by tag; of those within them by the tags on the way.
NAME, SEALED_NAMES = {0: "name-type", 1: "name-string"}, {0: "etype", 1: "kvno", 2: "cipher"}
DATA_NAMES = {1: "padata-type", 2: "padata-value"}
TICKET_NAMES = {1: "realm", 2: ("sname", NAME), 3: ("enc-part", SEALED_NAMES)}
BODY = {0: "kdc-options", 1: ("cname", NAME), 2: "realm", 3: ("sname", NAME), 4: "from", 5: "till", 6: "rtime", 7: "nonce", 8: "etype"}
REQUEST_NAMES = {3: ("padata", DATA_NAMES), 4: ("req-body", BODY)}
REPLY_NAMES = {2: ("padata", DATA_NAMES), 3: "crealm", 4: ("cname", NAME), 5: ("ticket", TICKET_NAMES), 6: ("enc-part", SEALED_NAMES)}
ERROR_NAMES = {2: "ctime", 3: "cusec", 4: "stime", 5: "susec", 6: "error-code", 7: "crealm", 8: ("cname", NAME), 9: "realm", 10: ("sname", NAME)}
ERROR_NAMES.update({11: "e-text", 12: "e-data"})
NAMES = {
    1: TICKET_NAMES,
    10: REQUEST_NAMES,
    12: REQUEST_NAMES,
    11: REPLY_NAMES,
    13: REPLY_NAMES,
    14: {2: "ap-options", 3: ("ticket", TICKET_NAMES), 4: ("authenticator", SEALED_NAMES)},
    15: {2: ("enc-part", SEALED_NAMES)},
    21: {3: ("enc-part", SEALED_NAMES)},
    22: {2: "tickets", 3: ("enc-part", SEALED_NAMES)},
    30: ERROR_NAMES,
}


def path_of(number, path, kind, index):
    """The path of a field in the words of the standard."""
    names, words = NAMES[number], []
    for tag in path:
        if tag != "ticket":
            name = names[tag]
            word, names = name if isinstance(name, tuple) else (name, {})
            words.append(word)
    if isinstance(kind, list):
        words[-1] += "[%d]" % index
        if isinstance(kind[0], tuple):
            words.append(names[kind[0][0]])
    return ".".join(words)


def tagged(octets, place, tag):
    """The content of the element of this tag in a place, or nothing."""
    for _, other, content, after in elements(octets, *place):
        if other == tag:
            return content, after
    return None


def found(octets, number, path, kind, index):
    """Where a field stands, or nothing."""
    place = tagged(octets, (0, len(octets)), 0x60 + number)
    for step in path:
        if step == "ticket":
            place = tagged(octets, place, 0x61)
            continue
        place = tagged(octets, tagged(octets, place, 0x30), 0xA0 + step)
        if place is None:
            return None
    if isinstance(kind, list):
        all_items = list(elements(octets, *tagged(octets, place, 0x30)))
        if index >= len(all_items):
            return None
        start, tag, content, after = all_items[index]
        if kind[0] is None:
            return start, after
        if isinstance(kind[0], tuple):
            return tagged(octets, tagged(octets, (content, after), 0xA0 + kind[0][0]), kind[0][1])
        assert tag == kind[0]
        return content, after
    return place if kind is None else tagged(octets, place, kind)


def answers(number, octets):
    """Field, index, status, offset, size, number or nothing, and path of each field."""
    for field in range(1, MOST_FIELD + 1):
        path, kind = FIELDS[number].get(field, (None, None))
        for index in (0, 1, 2, 3, 4, 5, 6, 7, 8, 1000, 2**63, 2**64 - 1):
            place = None if path is None else found(octets, number, path, kind, index)
            if place is None:
                yield field, index, "ABSENT", 0, 0, None, "-" if path is None else path_of(number, path, kind, index)
            else:
                value = int.from_bytes(octets[place[0] : place[1]], "big", signed=True) if field in NUMBERS else None
                if value is not None and not -(2**63) <= value < 2**63:
                    value = "TOO_LARGE"
                yield field, index, "DONE", place[0], place[1] - place[0], value, path_of(number, path, kind, index)


def main():
    for number, octets in rows_in(sys.argv[1]):
        if int(number) in FIELDS:
            for field, index, status, offset, size, value, path in answers(int(number), bytes.fromhex(octets)):
                print(number, octets, field, index, status, offset, size, "" if value is None else value, MESSAGES[int(number)], path, sep="\t")


if __name__ == "__main__":
    main()
