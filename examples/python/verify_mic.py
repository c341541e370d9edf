#!/usr/bin/env python3
"""Verifies a MIC token of a context of the GSS-API (RFC 4121, 4.2.4 and 4.2.6.1).

usage: verify_mic.py [--subkey] ETYPE:KEYHEX initiator|acceptor MESSAGE <TOKEN

The key is that of the context, as gss_krb5_export_lucid_sec_context hands it out, and the sender is
the side that made the token; --subkey says that the key is the subkey that the acceptor asserted.
The token is read from standard input. Prints its sequence number. The status is 1 if the token does
not hold of the message, and 2 if the arguments are wrong.

Other users of the machine see the arguments, and so this key: a program that is more than an
example reads it from a file or from its caller (examples/c/open_ticket.c reads a file)."""

import os
import re
import sys

import krb
from krb.gss import Sender, TokenKey, verify_mic

LONGEST_TOKEN = 16 + 24  # a header, and the longest checksum


def key_of(words):
    """The key and the message that these arguments name."""
    is_subkey = words[:1] == ["--subkey"]
    named, sender, message = words[is_subkey:]
    digits = re.fullmatch("([0-9]{1,2}):((?:[0-9a-fA-F]{2})+)", named)
    if digits is None:
        raise ValueError("no ETYPE:KEYHEX")
    key = bytes.fromhex(digits[2])
    return TokenKey(int(digits[1]), key, Sender[sender.upper()], is_subkey), os.fsencode(message)


def main():
    try:
        key, message = key_of(sys.argv[1:])
    except (ValueError, KeyError):
        print(__doc__.split("\n\n")[1], file=sys.stderr)
        return 2
    token = sys.stdin.buffer.read(LONGEST_TOKEN + 1)
    try:
        print("holds, sequence number %d" % verify_mic(key, message, token))
    except krb.Refused as refused:
        print("verify_mic: %s" % refused, file=sys.stderr)
        return 1
    return 0


if __name__ == "__main__":
    sys.exit(main())
