#!/usr/bin/env python3
"""Reads an AS-REQ as a KDC gets it over TCP, its length in four octets before it (RFC 4120, 7.2.2).

It comes from standard input, and has at most 65536 octets. Prints who asks, for what, with which
encryption types, and the nonce. The fields are handed out only of octets that are the one DER
encoding of an AS-REQ. In names a backslash stands before a slash, an at sign and a backslash, and
what is not printable ASCII is \\xHH: names hold any ASCII, and a terminal obeys control characters.

The status is 1 if the octets are not such a request, for a reason that standard error says."""

import itertools
import sys

import krb
from krb.messages import Field, Message, field

LONGEST = 65536


def items(octets, wanted):
    """A field's items, by index from 0 on: there are as many as are there."""
    found = (field(Message.AS_REQ, wanted, octets, index) for index in itertools.count())
    return list(itertools.takewhile(lambda it: it is not None, found))


def shown(text):
    """The octets of a name, so that each can be told from the characters between names."""
    quoted = {letter: "\\%c" % letter for letter in b"/@\\"}
    return "".join(quoted.get(it) or ("%c" if 32 <= it <= 126 else "\\x%02x") % it for it in text)


def name(octets, wanted):
    return "/".join(shown(text) for text in items(octets, wanted))


def stop(why):
    print("read_as_req: %s" % why, file=sys.stderr)
    return 1


def main():
    framed = sys.stdin.buffer.read(4 + LONGEST + 1)
    length, octets = int.from_bytes(framed[:4], "big"), framed[4:]
    if len(octets) > LONGEST:
        return stop("more than %d octets" % LONGEST)
    if len(framed) < 4 or length != len(octets):
        return stop("the length before the message is another")
    try:
        realm = shown(field(Message.AS_REQ, Field.REALM, octets))
        lines = [
            "client %s@%s" % (name(octets, Field.CLIENT_NAME), realm),
            "server %s" % name(octets, Field.SERVER_NAME),
            "etypes %s" % " ".join(str(etype) for etype in items(octets, Field.ETYPE)),
            "nonce %d" % field(Message.AS_REQ, Field.NONCE, octets),
        ]
    except krb.Refused as refused:
        return stop("not an AS-REQ: %s" % refused)
    print("\n".join(lines))
    return 0


if __name__ == "__main__":
    sys.exit(main())
