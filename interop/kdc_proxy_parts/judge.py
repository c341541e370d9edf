"""Whether octets are a request that a KDC proxy passes on: read by the ASN.1 of RFC 4120, RFC 3244 and MS-KKDCP, and by the DER of X.690.

It is written for interop/kdc_proxy alone, over ../der.py, and shares nothing with the library. `ValueError` says what is wrong."""

import calendar
from collections import namedtuple

from der import elements, read

# A request: kdc or kpasswd, the message without its length, target-domain, and the realm that the message names.
Judged = namedtuple("Judged", "service message target_domain realm")
LIMIT = 131072  # octets of a request


def inside(octets, at, end, tag):
    """Where the content of the element of this tag begins and ends."""
    found, start, after = read(octets, at, end)
    if found != tag:
        raise ValueError("the tag %02x, and not %02x" % (found, tag))
    return start, after


def is_integer(content):
    """X.690, 8.3."""
    return len(content) == 1 or (len(content) > 1 and not (content[0] == 0 and content[1] < 128) and not (content[0] == 255 and content[1] >= 128))


def is_bits(content):
    """X.690, 8.6 and 11.2."""
    if len(content) == 1:
        return content[0] == 0
    return len(content) > 1 and content[0] < 8 and content[-1] & ((1 << content[0]) - 1) == 0


def is_time(content):
    """RFC 4120, 5.2.3."""
    if len(content) != 15 or not content[:14].isdigit() or content[14:] != b"Z":
        return False
    year, (month, day, hour, minute, second) = int(content[:4]), [int(content[at : at + 2]) for at in range(4, 14, 2)]
    if not (1 <= month <= 12 and hour < 24 and minute < 60 and second < 60):
        return False
    return 1 <= day <= calendar.monthrange(2000 + year % 400, month)[1]


# What a type is: a function of octets, and where its element is to begin, that says where it ends.


def primitive(tag, is_content):
    def read(octets, at, end):
        start, after = inside(octets, at, end, tag)
        if not is_content(octets[start:after]):
            raise ValueError("no content of the tag %02x: %s" % (tag, octets[start:after].hex()))
        return after

    return read


def number(value):
    return primitive(0x02, lambda content: content == bytes([value]))


def wrapped(tag, kind):
    def read(octets, at, end):
        start, after = inside(octets, at, end, tag)
        if kind(octets, start, after) != after:
            raise ValueError("octets behind the value in %02x" % tag)
        return after

    return read


def sequence(*fields):
    """Fields: a number of a tag, a type, and whether it may be absent."""

    def read(octets, at, end):
        start, after = inside(octets, at, end, 0x30)
        for tag, kind, *optional in fields:
            if optional and (start == after or octets[start] != 0xA0 + tag):
                continue
            start = wrapped(0xA0 + tag, kind)(octets, start, after)
        if start != after:
            raise ValueError("octets behind the fields")
        return after

    return read


def sequence_of(kind):
    def read(octets, at, end):
        start, after = inside(octets, at, end, 0x30)
        while start < after:
            start = kind(octets, start, after)
        return after

    return read


INTEGER, BITS, TIME = primitive(0x02, is_integer), primitive(0x03, is_bits), primitive(0x18, is_time)
OCTETS, TEXT = primitive(0x04, lambda content: True), primitive(0x1B, bytes.isascii)
ERROR_CODE = primitive(0x02, lambda content: is_integer(content) and 0 <= int.from_bytes(content, "big", signed=True) < 2**32)
MAYBE = True
NAME = sequence((0, INTEGER), (1, sequence_of(TEXT)))
SEALED = sequence((0, INTEGER), (1, INTEGER, MAYBE), (2, OCTETS))
TICKET = wrapped(0x61, sequence((0, INTEGER), (1, TEXT), (2, NAME), (3, SEALED)))
PADATA = sequence_of(sequence((1, INTEGER), (2, OCTETS)))
ADDRESSES = sequence_of(sequence((0, INTEGER), (1, OCTETS)))
BODY = sequence(
    (0, BITS),
    (1, NAME, MAYBE),
    (2, TEXT),
    (3, NAME, MAYBE),
    (4, TIME, MAYBE),
    (5, TIME),
    (6, TIME, MAYBE),
    (7, INTEGER),
    (8, sequence_of(INTEGER)),
    (9, ADDRESSES, MAYBE),
    (10, SEALED, MAYBE),
    (11, sequence_of(TICKET), MAYBE),
)


def application(tag, *fields):
    return wrapped(0x60 + tag, sequence(*fields))


def types(pvno, msg_type):
    """The messages by their application tags (RFC 4120, 5.10), with a type for pvno, and one for the msg-type of each tag."""

    def request(tag):
        return application(tag, (1, pvno), (2, msg_type(tag)), (3, PADATA, MAYBE), (4, BODY))

    def other(tag, *fields):
        return application(tag, (0, pvno), (1, msg_type(tag)), *fields)

    reply = (2, PADATA, MAYBE), (3, TEXT), (4, NAME), (5, TICKET), (6, SEALED)
    client = (2, TIME, MAYBE), (3, INTEGER, MAYBE)
    server = (4, TIME), (5, INTEGER), (6, ERROR_CODE)
    names = (7, TEXT, MAYBE), (8, NAME, MAYBE), (9, TEXT), (10, NAME)
    return {
        10: request(10),
        11: other(11, *reply),
        12: request(12),
        13: other(13, *reply),
        14: other(14, (2, BITS), (3, TICKET), (4, SEALED)),
        15: other(15, (2, SEALED)),
        21: other(21, (3, SEALED)),
        30: other(30, *client, *server, *names, (11, TEXT, MAYBE), (12, OCTETS, MAYBE)),
    }


TYPES = types(number(5), number)
PROXY_MESSAGE = sequence((0, OCTETS), (1, TEXT, MAYBE), (2, INTEGER, MAYBE))


def check(tag, octets):
    """Refuses octets that are no message of this application tag."""
    if TYPES[tag](octets, 0, len(octets)) != len(octets):
        raise ValueError("octets behind the message")


def content_at(octets, *path):
    """The content of the element that these tags lead to."""
    start, end = 0, len(octets)
    for tag in path:
        for _, found, inner, after in elements(octets, start, end):
            if found == tag:
                break
        else:
            raise ValueError("no element of the tag %02x" % tag)
        start, end = inner, after
    return octets[start:end]


def fields_of(octets):
    """kerb-message, and target-domain or None, of a KDC-PROXY-MESSAGE (MS-KKDCP, 2.2.2)."""
    if PROXY_MESSAGE(octets, 0, len(octets)) != len(octets):
        raise ValueError("octets behind the message")
    start, end = inside(octets, 0, len(octets), 0x30)
    start, after = inside(octets, start, end, 0xA0)
    message = content_at(octets[start:after], 0x04)
    if after == end or octets[after] != 0xA1:
        return message, None
    return message, content_at(octets[after:end], 0xA1, 0x1B)


def frame_of(octets):
    """The AP-REQ and the KRB-PRIV of a request to change a password (RFC 3244, 2)."""
    size, version, ap_size = (int.from_bytes(octets[at : at + 2], "big") for at in (0, 2, 4))
    if len(octets) < 6 or size != len(octets) or version not in (1, 0xFF80):
        raise ValueError("no frame of a password change")
    ap_req, priv = octets[6 : 6 + ap_size], octets[6 + ap_size :]
    check(14, ap_req)
    check(21, priv)
    return ap_req, priv


def judged(octets):
    """The request whose one encoding the octets are."""
    if len(octets) > LIMIT:
        raise ValueError("too many octets")
    framed, target_domain = fields_of(octets)
    if target_domain is None:
        raise ValueError("no target-domain")
    message = framed[4:]
    if len(framed) < 4 or int.from_bytes(framed[:4], "big") != len(message):
        raise ValueError("another length than the message's")
    tag = message[0] - 0x60 if message else None
    if tag in (10, 12):
        check(tag, message)
        return Judged("kdc", message, target_domain, content_at(message, 0x60 + tag, 0x30, 0xA4, 0x30, 0xA2, 0x1B))
    ap_req, _ = frame_of(message)
    return Judged("kpasswd", message, target_domain, content_at(ap_req, 0x6E, 0x30, 0xA3, 0x61, 0x30, 0xA1, 0x1B))


def names_one_realm(request):
    """Whether target-domain and the realm are one, ASCII letters of either case alike."""
    return request.target_domain.upper() == request.realm.upper()


def is_message(tag, octets):
    try:
        check(tag, octets)
        return True
    except ValueError:
        return False


def outcome(octets):
    """The request that the octets are, or None."""
    try:
        return judged(octets)
    except ValueError:
        return None
