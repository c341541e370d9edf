"""Which rule of a KDC proxy octets break first, in the order of krb.h, by the names of its statuses without KRB_.

It reads octets by judge.py and shares nothing with the library. What is answered is a set of names, of which the status is one: which of the three errors of
DER octets have, it does not say. No names say that the octets pass."""

import judge

DER = {"INVALID", "TRUNCATED", "UNSUPPORTED"}
MESSAGE = {"PROXY_" + name for name in DER}
LOOSE = judge.types(judge.INTEGER, lambda tag: judge.INTEGER)


def of_message(number, octets):
    """The rules of a message of this application tag."""
    try:
        if LOOSE[number](octets, 0, len(octets)) != len(octets):
            return {"PROXY_INVALID"}
    except ValueError:
        return MESSAGE
    pvno = 0xA1 if number in (10, 12) else 0xA0
    if judge.content_at(octets, 0x60 + number, 0x30, pvno, 0x02) != b"\x05":
        return {"PROXY_PVNO"}
    if judge.content_at(octets, 0x60 + number, 0x30, pvno + 1, 0x02) != bytes([number]):
        return {"PROXY_MSG_TYPE"}
    return set()


def begins_as_frame(octets, is_reply):
    versions = (b"\0\1",) if is_reply else (b"\0\1", b"\xff\x80")
    return len(octets) >= 4 and int.from_bytes(octets[:2], "big") == len(octets) and octets[2:4] in versions


def of_what_goes(octets, is_reply):
    """The rules of a message, without its length, that goes to a server, or back."""
    if begins_as_frame(octets, is_reply):
        size = int.from_bytes(octets[4:6], "big")
        if len(octets) < 6 or 6 + size > len(octets):
            return {"PROXY_FRAME_LENGTH"}
        if is_reply and size == 0:
            return of_message(30, octets[6:])
        return of_message(15 if is_reply else 14, octets[6 : 6 + size]) or of_message(21, octets[6 + size :])
    kinds = (11, 13, 30) if is_reply else (10, 12)
    if not octets or octets[0] - 0x60 not in kinds:
        return {"PROXY_OTHER_KIND"}
    return of_message(octets[0] - 0x60, octets)


def of_length(octets):
    """The rules of a length in front of a message."""
    if len(octets) < 4:
        return {"PROXY_NO_LENGTH"}
    return set() if int.from_bytes(octets[:4], "big") == len(octets) - 4 else {"PROXY_OTHER_LENGTH"}


def of_request(octets):
    """The rules of what a client posts."""
    if len(octets) > judge.LIMIT:
        return {"PROXY_TOO_LARGE"}
    try:
        framed, domain = judge.fields_of(octets)
    except ValueError:
        return DER
    return of_length(framed) or ({"PROXY_NO_DOMAIN"} if domain is None else of_what_goes(framed[4:], False))


def of_lenient_request(octets):
    """The same, up to the message's kind."""
    broken = of_request(octets)
    return broken if broken <= DER | {"PROXY_TOO_LARGE", "PROXY_NO_LENGTH", "PROXY_OTHER_LENGTH", "PROXY_NO_DOMAIN", "PROXY_OTHER_KIND"} else set()


def of_reply(octets):
    """The rules of what a server sent over a stream."""
    return of_length(octets) or of_what_goes(octets[4:], True)


def of_posted_reply(octets):
    """The rules of what a proxy answered, for its client."""
    try:
        framed, _ = judge.fields_of(octets)
    except ValueError:
        return DER
    return of_reply(framed)
