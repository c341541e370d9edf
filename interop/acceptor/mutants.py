"""Tokens that are changed, and whether a service may let their client in, by how they were made.

`wanted` is True, False, or None where the standards leave it open; `rules` are the names of those rules of docs/ACCEPTOR.md of which one is to be named, or
None."""

import time
from typing import NamedTuple, Optional

from der import element, field, integer, name, nodes, number_of, put, sequence, stamp, text, tree, written
from octets import flipped
from sealing import KERBEROS, framed, unframed

BINDINGS = b"tls-server-end-point:" + bytes(range(32))
ADDRESS = "127.0.0.1"
SPNEGO, MICROSOFT = bytes.fromhex("2b0601050502"), bytes.fromhex("2a864882f712010202")
IF_RELEVANT, UNKNOWN = 1, 999


class Mutant(NamedTuple):
    kind: str
    what: str
    token: bytes
    wanted: Optional[bool]
    rules: Optional[frozenset]
    bindings: Optional[bytes] = None


def rules(*names):
    return frozenset(names)


# Octets.


def place_of(token, octets):
    """Where the only such octets are."""
    at = token.index(octets)
    assert token.find(octets, at + 1) < 0
    return range(at, at + len(octets))


def clear_places(base):
    """The octets that are in no cipher; of these the four of the options, and the one of the name's type."""
    ciphers = set(place_of(base.token, base.ticket_cipher)) | set(place_of(base.token, base.authenticator_cipher))
    options = base.token.index(bytes.fromhex("03050020000000")) + 3
    server = written(field(base.request.ticket, 2))
    kind = base.token.index(server) + server.index(b"\x02\x01") + 2
    return [at for at in range(len(base.token)) if at not in ciphers], range(options, options + 4), kind


def flips_in_clear(random, base):
    places, options, kind = clear_places(base)
    at, bit = random.choice(places), random.randrange(8)
    wanted, named = at == kind or at in options, None
    if at == options[0] and bit == 6:
        wanted, named = False, rules("USER_TO_USER")
    return "octet %d bit %d" % (at, bit), flipped(base.token, at, bit), wanted, named


def flips_in(cipher, rule):
    def make(random, base):
        at, bit = random.choice(place_of(base.token, getattr(base, cipher))), random.randrange(8)
        return "octet %d bit %d" % (at, bit), flipped(base.token, at, bit), False, rules(rule)

    return make


def cuts(random, base):
    size = random.randrange(len(base.token))
    return "the first %d octets" % size, base.token[:size], False, rules("FRAME")


def tails(random, base):
    more = bytes(random.randrange(256) for _ in range(random.choice([1, 2, 8, 200])))
    inner = unframed(base.token)
    return random.choice(
        [
            ("behind the frame", base.token + more, False, rules("FRAME")),
            ("behind the AP-REQ", framed(inner + more), False, rules("FRAME", "NOT_REQUEST")),
            ("in the AP-REQ", framed(element(0x6E, trees_of(inner) + more)), False, rules("NOT_REQUEST")),
            ("the token twice", base.token + base.token, False, rules("FRAME")),
            ("zeros", base.token + bytes(len(more)), False, rules("FRAME")),
        ]
    )


def trees_of(octets):
    """The content of the element that octets are."""
    return b"".join(map(written, tree(octets)[1]))


def frames(random, base):
    inner = unframed(base.token)
    change = bytearray(KERBEROS)
    change[random.randrange(len(change))] ^= 1 << random.randrange(7)
    return random.choice(
        [
            ("another token id", framed(inner, token_id=random.choice([b"\2\0", b"\3\0", b"\0\1", b"\4\4", b"\5\4", b"\1\1"])), False, rules("FRAME")),
            ("another mechanism", framed(inner, bytes(change)), False, rules("FRAME")),
            ("SPNEGO's mechanism", framed(inner, SPNEGO), False, rules("FRAME")),
            ("Microsoft's mechanism", framed(inner, MICROSOFT), False, rules("FRAME")),
            ("no frame", inner, False, rules("FRAME")),
            ("a frame in a frame", framed(base.token), False, None),
            ("no token id", framed(inner, token_id=b""), False, rules("FRAME")),
            ("another tag", bytes([random.choice([0x61, 0x40, 0x30, 0xA0])]) + base.token[1:], False, rules("FRAME")),
        ]
    )


# BER that is no DER (X.690, 8.1.3 and 10).


def length_of(size, digits):
    return bytes([128 + digits]) + size.to_bytes(digits, "big")


def written_otherwise(node, chosen, form):
    """The octets of a tree in which one element has another form."""
    tag, held = node
    content = held if isinstance(held, bytes) else b"".join(written_otherwise(each, chosen, form) for each in held)
    if node is not chosen:
        return element(tag, content)
    if form == "indefinite":
        return bytes([tag, 0x80]) + content + b"\0\0"
    if form == "in parts":
        half = len(content) // 2
        return element(tag | 0x20, element(4, content[:half]) + element(4, content[half:]))
    if form == "needless octet":
        return element(tag, (b"\xff" if content[0] & 128 else b"\0") + content)
    least = max(1, (len(content).bit_length() + 7) // 8)
    return bytes([tag]) + length_of(len(content), {"long": least if len(content) < 128 else least + 1, "four": 4}[form]) + content


def ber(random, base):
    q = base.request.copy().seal()
    where = random.choice(["message", "part", "authenticator"])
    outer = [{"message": 0x6E, "part": 0x63, "authenticator": 0x62}[where], [getattr(q, where)]]
    chosen = random.choice(list(nodes([outer])))
    forms = ["long", "four"] + {0x02: ["needless octet"], 0x04: ["in parts"]}.get(chosen[0], ["indefinite"] if chosen[0] & 32 else [])
    form = random.choice(forms)
    octets = written_otherwise(outer, chosen, form)
    assert octets != written(outer)
    if where == "message":
        return "%s, %s" % (where, form), framed(octets), False, rules("NOT_REQUEST")
    q.octets[where] = octets
    return "%s, %s" % (where, form), q.seal().token(), False, rules("TICKET" if where == "part" else "AUTHENTICATOR")


# Fields. A case: what it is, the change, what is wanted, and the rules.


def sealed(cases):
    """A kind of these cases, of which each is made as often as the others."""

    def make(random, base, turn=[0]):
        what, change, wanted, named = cases[turn[0] % len(cases)]
        turn[0] += 1
        q = base.request.copy()
        change(random, q)
        return what, q.seal().token(), wanted, named

    return make


def setting(place, number, make):
    """A change of a field: `make` gets the random source and the old value."""

    def change(random, q):
        node = place(q)
        put(node, number, make(random, field(node, number)))

    return change


def message(q):
    return q.message


def ticket(q):
    return q.ticket


def ticket_sealed(q):
    return field(q.ticket, 3)


def authenticator_sealed(q):
    return field(q.message, 4)


def part(q):
    return q.part


def authenticator(q):
    return q.authenticator


def other_number(right):
    return lambda random, _: integer(random.choice([0, 1, right - 1, right + 1, right + 256, -right, 2**31, 2**40 + right]))


def either(*values):
    return lambda random, _: random.choice(values)


def absent(random, _):
    return None


SERVERS = [name(1, "e17"), name(1, "e17", "localhost", "x"), name(1, "E17", "localhost"), name(1, "krbtgt", "HOME.TEST"), name(1, "nobody", "localhost")]
CLIENTS = [name(1, "bob"), name(1, "Ann"), name(1, "ann", ""), name(1, "ann", "admin"), name(1, b"ann\0"), name(1, b"an"), name(1, "root")]
REALMS = [text("OTHER.TEST"), text("home.test"), text("HOME.TES"), text(b"HOME.TEST\0"), text("")]

REQUEST = [
    ("pvno", setting(message, 0, other_number(5)), False, rules("VERSION")),
    ("msg-type", setting(message, 1, other_number(14)), False, rules("MESSAGE_TYPE")),
    ("tkt-vno", setting(ticket, 0, other_number(5)), False, rules("TICKET_VERSION")),
    ("the ticket's realm", setting(ticket, 1, either(*REALMS)), False, rules("NOT_US")),
    ("the ticket's sname", setting(ticket, 2, either(*SERVERS[1:])), False, rules("NOT_US")),
    ("the ticket's kvno", setting(ticket_sealed, 1, either(*map(integer, (2, 7, 255, 257, 2**31)))), False, rules("KEY_VERSION")),
    ("the ticket's etype", setting(ticket_sealed, 0, either(*map(integer, (0, 1, 16, 23, 25, -18, 2**20)))), False, rules("NO_KEY")),
    ("the authenticator's etype", setting(authenticator_sealed, 0, either(*map(integer, (0, 1, 16, 23, 26, -18)))), False, None),
    ("the authenticator's kvno", setting(authenticator_sealed, 1, either(*map(integer, (1, 2, 9, 255)))), True, None),
    ("8 options", setting(message, 2, either([3, b"\0\x20"])), False, rules("OPTIONS", "NOT_REQUEST")),
    ("use-session-key", setting(message, 2, either([3, b"\0\x60\0\0\0"], [3, b"\0\x40\0\0\0"])), False, rules("USER_TO_USER")),
    ("no options", setting(message, 2, either([3, b"\0\0\0\0\0"])), True, None),
]


def server_type(random, q):
    put(field(q.ticket, 2), 0, integer(random.choice([0, 2, 3, 10, 11, -130])))


REQUEST.append(("the ticket's name type", server_type, True, None))


def both_names(keep_pac):
    def change(random, q):
        named = random.choice([CLIENTS[0], CLIENTS[1], CLIENTS[3], CLIENTS[6]])
        put(q.part, 3, named)
        put(q.authenticator, 2, named)
        if not keep_pac:
            put(q.part, 10, None)

    return change


def typed(kind, octets):
    """An element of authorization data, an address, a key or a checksum: a type and octets (RFC 4120, 5.2)."""
    return sequence((0, integer(kind)), (1, [4, octets]))


def with_data(place, number, *more):
    """Appends elements of authorization data; they have a type and octets."""

    def change(random, q):
        found = field(place(q), number) or [0x30, []]
        put(place(q), number, [0x30, found[1] + [typed(*each) for each in more]])

    return change


def data(*elements):
    return written([0x30, [typed(*each) for each in elements]])


RELEVANT = IF_RELEVANT, data((UNKNOWN, b"anything"))
CRITICAL = [(UNKNOWN, b"anything"), (4, b"\x30\x00"), (-UNKNOWN, b""), (2**20, b"x")]


def pac_flip(random, q):
    """Turns a bit of the PAC's octets, which are in AD-IF-RELEVANT of the first element, but for the KDC's signature, which a service cannot check."""
    outer = field(field(q.part, 10)[1][0], 1)
    inner = tree(outer[1])
    pac = next(field(each, 1) for each in inner[1] if number_of(field(each, 0)) == 128)
    kdc = set()
    for n in range(int.from_bytes(pac[1][:4], "little")):
        kind, size, offset = (int.from_bytes(pac[1][8 + 16 * n + at : 8 + 16 * n + to], "little") for at, to in ((0, 4), (4, 8), (8, 16)))
        if kind == 7:
            kdc = set(range(offset, offset + size))
    at = random.choice([each for each in range(len(pac[1])) if each not in kdc])
    pac[1] = flipped(pac[1], at, random.randrange(8))
    outer[1] = written(inner)


def shifted(place, number, low, high):
    def change(random, q):
        put(place(q), number, stamp(int(time.time()) + random.randint(low, high)))

    return change


def flag(bit, size=5):
    def change(random, q):
        octets = bytearray(field(q.part, 0)[1])
        octets[1 + bit // 8] |= 0x80 >> bit % 8
        put(q.part, 0, [3, bytes(octets[:size])])

    return change


def addresses(octets):
    return [0x30, [typed(2, octets)]]


def other_session(random, q):
    put(q.part, 1, typed(q.session[0], bytes(random.randrange(256) for _ in q.session[1])))


PART = [
    ("cname", setting(part, 3, either(*CLIENTS)), False, rules("OTHER_CLIENT")),
    ("crealm", setting(part, 2, either(*REALMS)), False, rules("OTHER_CLIENT")),
    ("endtime past", shifted(part, 7, -(10**8), -330), False, rules("EXPIRED")),
    ("endtime within the skew", shifted(part, 7, -240, -5), True, None),
    ("endtime to come", shifted(part, 7, 60, 10**8), True, None),
    ("starttime to come", shifted(part, 6, 330, 10**8), False, rules("NOT_YET_VALID")),
    ("starttime within the skew", shifted(part, 6, 5, 240), True, None),
    ("flag INVALID", flag(7), False, rules("INVALID")),
    ("8 flags", flag(1, 2), False, rules("FLAGS", "TICKET")),
    ("another address", setting(part, 9, either(*map(addresses, (b"\x0a\1\2\3", b"\x7f\0\0\2", b"\x7f\0\0", b"")))), False, rules("OTHER_ADDRESS")),
    ("the client's address", setting(part, 9, either(addresses(b"\x7f\0\0\1"))), True, None),
    ("another session key", other_session, False, rules("AUTHENTICATOR")),
    ("critical data", lambda random, q: with_data(part, 10, random.choice(CRITICAL))(random, q), False, rules("CRITICAL_DATA")),
    ("data that may be passed over", with_data(part, 10, RELEVANT), True, None),
    ("AD-IF-RELEVANT of garbage", with_data(part, 10, (IF_RELEVANT, b"\x30\x80")), False, rules("DATA_FORM")),
    ("no PAC", setting(part, 10, absent), True, None),
    ("a bit of the PAC", pac_flip, False, None),
    ("both names, with the PAC", both_names(True), False, rules("PAC_CLIENT")),
    ("both names, without a PAC", both_names(False), True, None),
    ("unknown transited type", setting(part, 4, either(typed(7, b"OTHER.TEST"))), None, None),
]

OTHER_SUITES = [typed(1, bytes(8)), typed(3, bytes(8)), typed(23, bytes(16)), typed(16, bytes(24))]
OTHER_SIZES = [typed(17, bytes(15)), typed(18, bytes(16)), typed(19, bytes(32)), typed(20, b"")]
AUTHENTICATOR = [
    ("cname", setting(authenticator, 2, either(*CLIENTS)), False, rules("OTHER_CLIENT")),
    ("crealm", setting(authenticator, 1, either(*REALMS)), False, rules("OTHER_CLIENT")),
    ("ctime past", shifted(authenticator, 5, -(10**8), -330), False, rules("SKEW")),
    ("ctime to come", shifted(authenticator, 5, 330, 10**8), False, rules("SKEW")),
    ("ctime within the skew", shifted(authenticator, 5, -240, 240), True, None),
    ("cusec", setting(authenticator, 4, either(*map(integer, (-1, 10**6, 2**31, -(2**31))))), False, rules("MICROSECONDS")),
    ("seq-number", setting(authenticator, 7, either(*map(integer, (-1, 2**32, -(2**31), 2**40)))), False, rules("SEQUENCE_NUMBER")),
    ("no seq-number", setting(authenticator, 7, absent), True, None),
    ("authenticator-vno", setting(authenticator, 0, other_number(5)), False, rules("AUTHENTICATOR_VERSION")),
    ("no subkey", setting(authenticator, 6, absent), True, None),
    ("subkey of another suite", setting(authenticator, 6, either(*OTHER_SUITES)), False, rules("SUBKEY")),
    ("subkey of another size", setting(authenticator, 6, either(*OTHER_SIZES)), False, rules("SUBKEY")),
    ("subkey of AES", setting(authenticator, 6, either(typed(17, b"k" * 16), typed(18, b"k" * 32), typed(19, b"k" * 16), typed(20, b"k" * 32))), True, None),
    ("critical data", lambda random, q: with_data(authenticator, 8, random.choice(CRITICAL))(random, q), False, rules("CRITICAL_DATA")),
    ("data that may be passed over", with_data(authenticator, 8, RELEVANT), True, None),
    ("AD-IF-RELEVANT of garbage", with_data(authenticator, 8, (IF_RELEVANT, b"\x30\x80")), False, rules("DATA_FORM")),
]


def usage(n):
    def change(random, q):
        q.usages[n] = random.choice([each for each in (0, 1, 2, 3, 7, 8, 9, 10, 11, 12, 15, 1024, 2**31 - 1) if each != q.usages[n]])

    return change


def zero_key(random, q):
    q.key = bytes(len(q.key))


def foreign_authenticator(random, q):
    q.session = q.session[0], bytes(random.randrange(256) for _ in q.session[1])


KEYS = [
    ("the ticket under another key usage", usage(0), False, rules("TICKET")),
    ("the authenticator under another key usage", usage(1), False, rules("AUTHENTICATOR")),
    ("the ticket under zeros", zero_key, False, rules("TICKET")),
    ("the authenticator under another key", foreign_authenticator, False, rules("AUTHENTICATOR")),
]


# The checksum of the authenticator (RFC 4121, 4.1.1).


def checksum(make):
    """A change of the checksum's type and octets."""

    def change(random, q):
        found = field(q.authenticator, 3)
        kind, octets = make(random, number_of(field(found, 0)), field(found, 1)[1])
        put(q.authenticator, 3, None if kind is None else typed(kind, octets))

    return change


def little(number):
    return number.to_bytes(4, "little")


def other_hash(random, kind, octets):
    return kind, octets[:4] + bytes(random.randrange(1, 256) for _ in range(16)) + octets[20:]


OTHER_TYPES, OTHER_LENGTHS = [0, 7, 16, 0x8004, -0x7FFD, 2**32 + 0x8003], [0, 15, 17, 2**31, 2**32 - 1]
CHECKSUM = [
    ("another type", checksum(lambda random, kind, octets: (random.choice(OTHER_TYPES), octets)), False, rules("CHECKSUM_TYPE")),
    ("none", checksum(lambda random, kind, octets: (None, b"")), False, rules("CHECKSUM_TYPE")),
    ("too short", checksum(lambda random, kind, octets: (kind, octets[: random.randrange(24)])), False, rules("CHECKSUM_LAYOUT")),
    ("another Lgth", checksum(lambda random, kind, octets: (kind, little(random.choice(OTHER_LENGTHS)) + octets[4:])), False, rules("CHECKSUM_LAYOUT")),
    ("delegation of nothing", checksum(lambda random, kind, octets: (kind, octets[:20] + little(0x3F))), False, rules("CHECKSUM_LAYOUT", "DELEGATION")),
    (
        "delegation of garbage",
        checksum(lambda random, kind, octets: (kind, octets[:20] + little(0x3F) + b"\1\0\4\0" + b"\x76\x02\x30\x00")),
        False,
        rules("DELEGATION"),
    ),
    ("other flags", checksum(lambda random, kind, octets: (kind, octets[:20] + little(random.choice([0, 2, 12, 48, 0x8000])))), True, None),
]
BOUND = [
    ("bound to it", lambda random, q: None, True, None),
    ("to another", checksum(other_hash), False, rules("BINDINGS")),
    ("a bit of the hash", checksum(lambda random, kind, octets: (kind, flipped(octets, random.randrange(4, 20), 3))), False, rules("BINDINGS")),
    ("to none", checksum(lambda random, kind, octets: (kind, octets[:4] + bytes(16) + octets[20:])), False, rules("BINDINGS")),
]

KINDS = [
    ("a bit in the clear", 320, flips_in_clear),
    ("a bit of the ticket's cipher", 150, flips_in("ticket_cipher", "TICKET")),
    ("a bit of the authenticator's", 150, flips_in("authenticator_cipher", "AUTHENTICATOR")),
    ("cut", 60, cuts),
    ("octets behind", 60, tails),
    ("the frame", 80, frames),
    ("BER that is no DER", 240, ber),
    ("a field of the AP-REQ", 195, sealed(REQUEST)),
    ("a field of the ticket's part", 280, sealed(PART)),
    ("a field of the authenticator", 240, sealed(AUTHENTICATOR)),
    ("keys and usages", 80, sealed(KEYS)),
    ("the checksum", 105, sealed(CHECKSUM)),
    ("channel bindings", 40, sealed(BOUND)),
]


class Base(NamedTuple):
    """A real token, opened."""

    token: bytes
    request: object

    @property
    def ticket_cipher(self):
        return field(field(self.request.ticket, 3), 2)[1]

    @property
    def authenticator_cipher(self):
        return field(field(self.request.message, 4), 2)[1]


def mutants(random, bases, bound):
    """All mutants, of real tokens without channel bindings and of tokens with."""
    for kind, count, make in KINDS:
        for n in range(count):
            of_bound = kind == "channel bindings"
            made = make(random, random.choice(bound if of_bound else bases))
            yield Mutant(kind, *made, bindings=BINDINGS if of_bound else None)
