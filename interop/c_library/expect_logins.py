#!/usr/bin/env python3
"""Writes the rows that `logins`, `refused` and `threads` read: the calls of an acceptor and of a client, and what they are to answer.

Nothing here is the library's: tokens and replies are those of tests/accepted.rows and tests/replies.rows, with what their peers said of them; where a
ticket, a name's type, a version of a key stand in them a walker over tags and lengths finds; hashes of channel bindings (RFC 4121, 4.1.1.2), KRB-ERRORs (RFC 4120, 5.9.1)
and keys of a password (RFC 8009, 4) are made by Python's hashlib and hmac. Columns, with tabs between:

accept      name, keytab, clock, bindings, options, token, rule, code; of a client that is let in its flags, end, the type and octets of the session key and of the
            subkey, the names in its entry, the client, and which bits of the token are under no key: OCTET:MASK, blanks between
as, tgs     name, type and octets of the key, reply, clock, client, server, from, till, rtime, nonce, flags, types, rule; of a ticket that is granted the type and
            octets of its session key, where it stands and its size, and where octets stand that a client does not compare: FROM-TO; of an AS-REP a keytab of the key, and
            the KRB-ERROR that came before it
kdc_error   name, KRB-ERROR, code
password    name, KRB-ERROR, password, type, key
ap_rep      name, type and octets of the key, reply, seconds, microseconds, rule; of one that confirms where octets stand that are not compared
make_error  name, keytab, clock, microseconds, code, 1 in a frame, octets
bindings    name, type and address of the initiator, of the acceptor, data, octets

usage: expect_logins.py"""

import hashlib
import os
import re
import sys

sys.dont_write_bytecode = True
sys.path.insert(0, os.path.join(os.path.dirname(os.path.abspath(__file__)), ".."))
from ciphers import key_of_password  # noqa: E402
from der import element, elements, integer, name, read, sequence, stamp, text  # noqa: E402
from keytabs import keytab_of_texts  # noqa: E402
from tables import TOP, asked  # noqa: E402

BINDINGS = b"tls-server-end-point:" + bytes(range(32))  # of interop/acceptor, whose clients made the tokens
PASSWORD = b"a password of nobody"


def rules(prefix):
    """The numbers of rules by their names, from krb.h."""
    with open(os.path.join(TOP, "include", "krb.h"), encoding="ascii") as file:
        return {name.replace("_", ""): int(number) for name, number in re.findall(prefix + r"([A-Z_]+) = (\d+)", file.read())}


def told():
    """The first line that is expected of each row of the two tables."""
    return [[row.expected[0] for row in asked(name)] for name in ("accepted", "replies")]


# Octets.


class Element:
    """An element: its tag, and where it and its content begin and end."""

    def __init__(self, octets, start):
        self.octets, self.start = octets, start
        self.tag, self.content, self.end = read(octets, start)

    def within(self):
        return [Element(self.octets, start) for start, *_ in elements(self.octets, self.content, self.end)]

    def field(self, *numbers):
        """The element of a field of a field, by the numbers of their tags; None where one is absent."""
        it = self
        for number in numbers:
            it = next((each.within()[0] for each in it.within() if each.tag == 0xA0 + number), None)
            if it is None:
                return None
        return it


# The acceptor.


def request_of(token):
    """The fields of the AP-REQ in a token."""
    start = 0 if token[0] == 0x6E else Element(token, 0).content + 13
    return Element(token, start).within()[0]


def free_bits(token):
    """The bits that no key protects and no rule is of: ap-options but use-session-key (RFC 4120, 5.5.1), the type of the server's name (6.2), the version of the
    session key (5.2.9)."""
    request = request_of(token)
    options = request.field(2)
    free = {options.content + 1 + n: 0xBF if n == 0 else 0xFF for n in range(options.end - options.content - 1)}
    for it in (request.field(3).within()[0].field(2, 0), request.field(4, 1)):
        if it is not None:
            free.update({n: 0xFF for n in range(it.content, it.end)})
    return " ".join("%d:%d" % bit for bit in sorted(free.items()))


def listed(text):
    """A realm and a list of components, as an entry of a replay cache has them."""
    name, realm = text.rsplit("@", 1)
    return b"".join(each.encode("ascii") + b"\xff" for each in [realm, *name.split("/")]) + b"\xfe"


# Options of krb_accept, by the settings of a row (tests/acceptor.py).
OPTIONS = {1: 1, 2: 2, 16: 4, 32: 16, 64: 1024}


def accepted_rows(lines):
    numbers = rules("KRB_RULE_")
    rows = [row.columns for row in asked("accepted")]
    for (name, keytab, clock, bindings, settings, token, *terms), line in zip(rows, lines):
        # `logins` names no server and no realm.
        if terms:
            continue
        options = sum(option for setting, option in OPTIONS.items() if int(settings) & setting)
        first = ["accept", name, keytab, clock, bindings, str(options), token]
        refused = re.match(r"\S+: refused, (\w+) (\d+);", line)
        if refused:
            yield first + [str(numbers[refused[1].upper()]), refused[2]]
            continue
        let_in = re.match(r"\S+: (\S+) for (\S+), flags (\d+), until (\d+)(?:, key (\d+):(\w+), subkey (?:none|(\d+):(\w+)))?[;,]", line)
        client, server, flags, end, etype, key, subtype, subkey = let_in.groups()
        entry = "" if "\\" in client + server else (listed(server) + listed(client)).hex()
        keys = [etype, key, subtype or "0", subkey or ""] if etype else [""] * 4
        yield first + ["0", "0", flags, end, *keys, entry, client, free_bits(bytes.fromhex(token))]


# The client.


def free_places(reply):
    """Where octets stand that a client does not compare (docs/CLIENT.md, "What is not"): padata, types of names, the version of the key, the ticket's encrypted part."""
    fields = Element(reply, 0).within()[0]
    padata, version = fields.field(2), fields.field(6, 1)
    ticket = fields.field(5).within()[0]
    free = [fields.field(4, 0), ticket.field(2, 0), ticket.field(3), *(each for each in (padata, version) if each is not None)]
    return " ".join("%d-%d" % (it.content, it.end) for it in free)


def reply_row(row, line, error):
    """The row of a reply of a KDC, behind this error."""
    numbers, tag = rules("KRB_CLIENT_RULE_"), "6b" if row[1] == "3" else "6d"
    refused, granted = re.search(r": refused, (\w+);", line), re.search(r", key (\d+):(\w+);", line)
    made = ["as" if row[1] == "3" else "tgs", row[0], *row[2:14]]
    if refused:
        is_other = refused[1] == "Message" and row[4][:2] not in (tag, "7e")
        return made + [str(numbers["OTHERMESSAGE" if is_other else refused[1].upper()])]
    ticket = Element(bytes.fromhex(row[4]), 0).within()[0].field(5)
    made += ["0", granted[1], granted[2], str(ticket.start), str(ticket.end - ticket.start), free_places(bytes.fromhex(row[4]))]
    if row[1] == "3":
        made += [keytab_of_texts(["%s:%s:%s" % (row[2], row[3], row[6])]).hex(), error]
    return made


def reply_rows(lines):
    numbers, before = rules("KRB_CLIENT_RULE_"), ["", ""]
    for row, line in zip([row.columns for row in asked("replies")], lines):
        if not line.startswith(row[0] + ": "):
            raise SystemExit("expect_logins: tests/replies.rows has a row and another line: %s" % row[0])
        if row[1] == "0":
            code = int(re.search(r": error (\d+)", line)[1])
            before = [row[0], row[4]]
            if code != 25:
                yield ["kdc_error", row[0], row[4], str(code)]
        elif row[1] == "12":
            refused = re.search(r": refused, (\w+);", line)
            version = None if refused else Element(bytes.fromhex(row[4]), 0).within()[0].field(2, 1)
            free = "%d-%d" % (version.content, version.end) if version else ""
            yield ["ap_rep", row[0], *row[2:7], str(numbers[refused[1].upper()] if refused else 0), free]
        elif row[1] in "39":
            # The error of the same exchange is the row before, by its text.
            same = re.sub(r"^\S+ |\(\d\)$", "", before[0]) == re.sub(r"^\S+ |\(\d\)$", "", row[0])
            yield reply_row(row, line, before[1] if same else "")


def password_rows():
    """Keys of a password with the salt and the number of iterations that an error names in its ETYPE-INFO2 (RFC 4120, 5.2.7.5; RFC 8009, 4)."""
    for etype, count in ((19, 16), (20, 17)):
        salt = b"PEER.TESTalice"
        entry = sequence((0, integer(etype)), (1, text(salt)), (2, [4, count.to_bytes(4, "big")]))
        data = element(0x30, sequence((1, integer(19)), (2, [4, element(0x30, entry)])))
        error = error_octets(1795763470, 0, 25, 2, [b"krbtgt", b"PEER.TEST"], b"PEER.TEST", False, [4, data])
        key = key_of_password(etype, PASSWORD, salt, count)
        yield ["password", "the key of a password under %d" % etype, error.hex(), PASSWORD.hex(), str(etype), key.hex()]


# What is made.


def error_octets(clock, microseconds, code, kind, components, realm, in_frame, data=None):
    """A KRB-ERROR with neither ctime nor text (RFC 4120, 5.9.1), and with its data; in the frame of RFC 4121, 4.1.3."""
    fields = [(0, integer(5)), (1, integer(30)), (4, stamp(clock)), (5, integer(microseconds)), (6, integer(code))]
    made = element(0x7E, sequence(*fields, (9, text(realm)), (10, name(kind, *components)), (12, data)))
    return element(0x60, bytes.fromhex("06092a864886f712010202"), b"\3\0", made) if in_frame else made


def error_rows():
    seen = set()
    for row in [row.columns for row in asked("accepted")]:
        keytab = bytes.fromhex(row[1])
        if keytab in seen:
            continue
        seen.add(keytab)
        # The first entry, behind the version and its length: count, realm, components, type of the name.
        texts, at = [], 8
        for _ in range(1 + int.from_bytes(keytab[6:8], "big")):
            size = int.from_bytes(keytab[at : at + 2], "big")
            texts.append(keytab[at + 2 : at + 2 + size])
            at += 2 + size
        kind = int.from_bytes(keytab[at : at + 4], "big")
        for clock, microseconds, code in ((int(row[2]), 0, 31), (951782400, 999999, 60), (0, 128, 37)):
            for in_frame in (0, 1):
                octets = error_octets(clock, microseconds, code, kind, texts[1:], texts[0], in_frame)
                yield ["make_error", "%s, %d" % (row[0], code), row[1], str(clock), str(microseconds), str(code), str(in_frame), octets.hex()]


def bindings_rows():
    def part(number, address):
        return number.to_bytes(4, "little") + len(address).to_bytes(4, "little") + address

    for name, one, other, data in (
        ("of tokens", (0, b""), (0, b""), BINDINGS),
        ("of nothing", (0, b""), (0, b""), b""),
        ("of addresses", (2, b"\x7f\0\0\1"), (2, b"\x0a\0\0\2"), b""),
        ("of all", (24, bytes(range(16))), (2, b"\x0a\0\0\2"), b"tls-unique:" + bytes(12)),
        ("of much data", (255, b""), (2**32 - 1, b"\0"), bytes(range(256)) * 300),
    ):
        hashed = hashlib.md5(part(*one) + part(*other) + len(data).to_bytes(4, "little") + data).hexdigest()
        yield ["bindings", name, str(one[0]), one[1].hex(), str(other[0]), other[1].hex(), data.hex(), hashed]


def main():
    if len(sys.argv) != 1:
        raise SystemExit(__doc__.split("\n\n")[-1])
    accepted, replies = told()
    for rows in (accepted_rows(accepted), reply_rows(replies), password_rows(), error_rows(), bindings_rows()):
        for row in rows:
            print("\t".join(row))


if __name__ == "__main__":
    main()
