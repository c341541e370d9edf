"""DER (X.690): one writer, one reader, and values as trees. It shares nothing with the library, beside which the scripts of this folder read and write.

A tree is [tag, what it holds]: a list of trees, or octets. What is written is made of octets and of trees."""

import calendar
import time

BOOLEAN, INTEGER, BITS, OCTETS, IDENTIFIER = 0x01, 0x02, 0x03, 0x04, 0x06
TIME, TEXT, SEQUENCE = 0x18, 0x1B, 0x30


# The writer.


def element(tag, *parts, more=0):
    """An element (8.1.3), whose length has so many octets more than are needed."""
    content = b"".join(each if isinstance(each, bytes) else written(each) for each in parts)
    size = len(content)
    if size < 128 and not more:
        return bytes([tag, size]) + content
    digits = size.to_bytes(max((size.bit_length() + 7) // 8, 1) + more - (size < 128), "big")
    return bytes([tag, 128 + len(digits)]) + digits + content


def explicit(number, *parts):
    """What a SEQUENCE has under [number]."""
    return element(0xA0 + number, *parts)


def written(node, longer=None, more=1):
    """The octets of a tree; the length of the node that is `longer` has octets that are not needed."""
    tag, held = node
    content = held if isinstance(held, bytes) else b"".join(written(each, longer, more) for each in held)
    return element(tag, content, more=more if node is longer else 0)


# The reader.


def read(octets, at=0, end=None):
    """The tag of the element at a place, and where its content begins and ends (8.1 and 10.1); ValueError where that is no DER."""
    end = len(octets) if end is None else end
    if end - at < 2:
        raise ValueError("no element")
    tag, size, start = octets[at], octets[at + 1], at + 2
    if tag & 31 == 31:
        raise ValueError("a tag of more octets")
    if size >= 128:
        start += size - 128
        digits = octets[at + 2 : start]
        if size == 128 or start > end or digits[0] == 0 or (len(digits) == 1 and digits[0] < 128):
            raise ValueError("a length in another form")
        size = int.from_bytes(digits, "big")
    if size > end - start:
        raise ValueError("an element that is cut")
    return tag, start, start + size


def elements(octets, at=0, end=None):
    """The elements that stand one behind the other: where each begins, its tag, and where its content begins and ends."""
    end = len(octets) if end is None else end
    while at < end:
        tag, start, after = read(octets, at, end)
        yield at, tag, start, after
        at = after


def walk(octets, at=0, end=None):
    """The same, and behind each that is constructed those in it."""
    for found in elements(octets, at, end):
        yield found
        if found[1] & 0x20:
            yield from walk(octets, *found[2:])


def trees(octets):
    """All elements of octets that are elements and nothing else."""
    return [[tag, trees(octets[start:end]) if tag & 0x20 else octets[start:end]] for _, tag, start, end in elements(octets)]


def tree(octets):
    (found,) = trees(octets)
    return found


def nodes(of):
    """The nodes of trees, each before those in it."""
    for each in of:
        yield each
        if isinstance(each[1], list):
            yield from nodes(each[1])


# Kerberos (RFC 4120): the messages and parts by their application tags (5.10), and values as trees (5.2).

MESSAGES = {
    1: "Ticket", 2: "Authenticator", 3: "EncTicketPart", 10: "AS-REQ", 11: "AS-REP", 12: "TGS-REQ", 13: "TGS-REP", 14: "AP-REQ", 15: "AP-REP", 21: "KRB-PRIV",
    22: "KRB-CRED", 25: "EncASRepPart", 26: "EncTGSRepPart", 27: "EncAPRepPart", 28: "EncKrbPrivPart", 29: "EncKrbCredPart", 30: "KRB-ERROR",
}


def integer(number):
    return [INTEGER, number.to_bytes((number + (number < 0)).bit_length() // 8 + 1, "big", signed=True)]


def number_of(node):
    return int.from_bytes(node[1], "big", signed=True)


def text(octets):
    return [TEXT, octets if isinstance(octets, bytes) else octets.encode("ascii")]


def stamp(seconds):
    return [TIME, time.strftime("%Y%m%d%H%M%SZ", time.gmtime(seconds)).encode("ascii")]


def seconds_of(node):
    return calendar.timegm(time.strptime(node[1].decode("ascii"), "%Y%m%d%H%M%SZ"))


def sequence(*fields):
    """A SEQUENCE of fields, a number and a tree each, with those left out that are None."""
    return [SEQUENCE, [[0xA0 + number, [value]] for number, value in fields if value is not None]]


def name(kind, *components):
    return sequence((0, integer(kind)), (1, [SEQUENCE, [text(each) for each in components]]))


def field(node, number):
    """What a SEQUENCE has under [number], or None."""
    return next((each[1][0] for each in node[1] if each[0] == 0xA0 + number), None)


def put(node, number, value):
    """Sets, adds or (None) takes away what a SEQUENCE has under [number]."""
    kept = [each for each in node[1] if each[0] != 0xA0 + number]
    if value is not None:
        kept.append([0xA0 + number, [value]])
    node[1] = sorted(kept, key=lambda each: each[0])
