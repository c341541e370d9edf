"""Replies of a KDC that are changed, and whether a client may take them, by how they were made.

Of each change it is known whether a ticket may be granted (`wanted`), and of a refusal the names of the rules of docs/CLIENT.md of which one is to be named. What a change
under the reply's key needs is opened and sealed by interop/ciphers.py, which has nothing of the library."""

import time
from typing import NamedTuple

from der import element, elements, field, integer, name, number_of, put, seconds_of, sequence, stamp, text, tree, walk, written
from keytabs import keys_of
from ciphers import KEY_SIZES, decrypt, encrypt
from octets import flipped, octets_in

AS_REP, TGS_REP = 0x6B, 0x6D
AS_USAGE, TGS_USAGE, SESSION_USAGE = 3, 9, 8
TICKET_USAGE, AUTHENTICATOR_USAGE = 2, 7
PA_TGS_REQ, PA_FX_FAST = 1, 136
SKEW = 300


class Changed(NamedTuple):
    what: str
    octets: bytes
    wanted: bool
    rules: frozenset


class Keys:
    """The keys of users, and of the ticket-granting service, of two keytabs."""

    def __init__(self, users, granting):
        self._keys = {}
        for path in (users, granting):
            self._keys.update(keys_of(octets_in(path)))

    def _of(self, realm, components, etype, kvno=None):
        found = [(version, key) for (of, names, version, kind), key in self._keys.items() if (of, names, kind) == (realm, components, etype) and kvno in (None, version)]
        return max(found)[1]

    def of_user(self, realm, components, etype):
        return self._of(realm, components, etype)

    def of_request(self, request):
        """The session key, and the subkey, of a TGS-REQ: numbers of types and octets."""
        padata = field(tree(request)[1][0], 3)[1]
        (value,) = [field(each, 2)[1] for each in padata if number_of(field(each, 1)) == PA_TGS_REQ]
        (message,) = tree(value)[1]
        (ticket,) = field(message, 3)[1]
        server, sealed = tuple(each[1] for each in field(field(ticket, 2), 1)[1]), field(ticket, 3)
        key = self._of(field(ticket, 1)[1], server, number_of(field(sealed, 0)), number_of(field(sealed, 1)))
        (part,) = tree(decrypt(number_of(field(sealed, 0)), key, TICKET_USAGE, field(sealed, 2)[1]))[1]
        session = pair(field(part, 1))
        (authenticator,) = tree(decrypt(*session, AUTHENTICATOR_USAGE, field(field(message, 4), 2)[1]))[1]
        return session, pair(field(authenticator, 6))


def without_fast(request):
    """A request without its PA-FX-FAST (RFC 6113, 5.4.2), so that the reply is under the subkey alone."""
    message = tree(request)
    padata = field(message[1][0], 3)
    if padata is not None:
        padata[1] = [each for each in padata[1] if number_of(field(each, 1)) != PA_FX_FAST]
    return written(message)


def pair(key):
    return number_of(field(key, 0)), field(key, 1)[1]


class Reply:
    """A reply with its part opened: `message` and `part` are trees of SEQUENCEs; `body` is that of the request."""

    def __init__(self, request, octets, keys):
        self.octets, self.is_first = octets, octets[0] == AS_REP
        (self.message,) = tree(octets)[1]
        self.body = field(tree(request)[1][0], 4)
        self.sealed = field(self.message, 6)
        self.etype = number_of(field(self.sealed, 0))
        self.session = None
        if self.is_first:
            named = tuple(each[1] for each in field(field(self.message, 4), 1)[1])
            self.key, self.usage = keys.of_user(field(self.message, 3)[1], named, self.etype), AS_USAGE
        else:
            self.session, (_, self.key) = keys.of_request(request)
            self.usage = TGS_USAGE
        self.part_node = tree(decrypt(self.etype, self.key, self.usage, field(self.sealed, 2)[1]))
        self.tag, (self.part,) = self.part_node

    @property
    def ticket(self):
        return field(self.message, 5)[1][0]

    def till(self):
        return seconds_of(field(self.body, 5))

    def start(self):
        return seconds_of(field(self.part, 6) or field(self.part, 5))

    def closed(self, part=None, key=None, usage=None, tag=None):
        """The message with its part, or these octets, sealed."""
        octets = written([self.tag if tag is None else tag, [self.part]]) if part is None else part
        put(self.sealed, 2, [4, encrypt(self.etype, self.key if key is None else key, self.usage if usage is None else usage, octets)])
        return self.open()

    def resealed(self):
        """The reply with its part opened and sealed, and nothing changed."""
        return granted("nothing", self.closed())

    def open(self):
        """The message as it stands."""
        return written([self.octets[0], [self.message]])

    def cipher(self):
        return field(self.sealed, 2)[1]


def refused(what, octets, *rules):
    return Changed(what, octets, False, frozenset(rules))


def granted(what, octets):
    return Changed(what, octets, True, frozenset())


MALFORMED = "MESSAGE", "OTHER_MESSAGE"


def heads(octets, at=0, end=None):
    """The places of tags and lengths of elements, but for what stands in a cipher or in padata."""
    for place, tag, start, after in elements(octets, at, end):
        yield from range(place, start)
        if tag & 32 and tag != 0xA2:
            yield from heads(octets, start, after)


# In the clear.


def heads_flipped(chance, reply):
    at, bit = chance.choice(list(heads(reply.octets))), chance.randrange(8)
    return refused("bit %d of octet %d, of a tag or a length" % (bit, at), flipped(reply.octets, at, bit), *MALFORMED)


def compared_flipped(chance, reply):
    message, ticket = reply.message, reply.ticket
    nodes = [
        ("pvno", field(message, 0), ("PVNO",)),
        ("msg-type", field(message, 1), ("MSG_TYPE",)),
        ("crealm", field(message, 3), ("CLIENT",)),
        ("cname", chance.choice(field(field(message, 4), 1)[1]), ("CLIENT",)),
        ("tkt-vno", field(ticket, 0), ("TICKET_VERSION",)),
        ("the ticket's realm", field(ticket, 1), ("TICKET",)),
        ("the ticket's sname", chance.choice(field(field(ticket, 2), 1)[1]), ("TICKET",)),
        ("etype", field(reply.sealed, 0), ("UNASKED", "ENCRYPTION_TYPE")),
    ]
    what, node, rules = chance.choice(nodes)
    at, bit = chance.randrange(len(node[1])), chance.randrange(8)
    node[1] = flipped(node[1], at, bit)
    return refused("bit %d of octet %d of %s" % (bit, at, what), reply.open(), *rules, "MESSAGE")


def pvno(chance, reply):
    value = chance.choice([0, 4, 6, -5, 5 + 256, 2**32 + 5])
    put(reply.message, 0, integer(value))
    return refused("pvno %d" % value, reply.open(), "PVNO", "MESSAGE")


def msg_type(chance, reply):
    value = chance.choice([10, 11 if not reply.is_first else 13, 12, 14, 15, 30, 0, -11, 11 + 256])
    put(reply.message, 1, integer(value))
    return refused("msg-type %d" % value, reply.open(), "MSG_TYPE", "MESSAGE")


REALMS = [b"HOME.TESTX", b"home.test", b"OTHER.TEST", b"", b"HOME.TES", b"HOME.TEST\0", b"X-CACHECONF:"]


def crealm(chance, reply):
    value = chance.choice(REALMS)
    put(reply.message, 3, text(value))
    return refused("crealm %a" % value, reply.open(), "CLIENT", "MESSAGE")


def other_names(chance, node):
    """Components that are others than those of a name."""
    own = [each[1] for each in field(node, 1)[1]]
    found = chance.choice([own + [b""], own + [b"x"], own[:-1], [own[0] + b"x", *own[1:]], [own[0][:-1], *own[1:]], [own[0].swapcase(), *own[1:]], [b"bob"], [b"/".join([*own, b"x"])]])
    return [each.decode() for each in found]


def cname(chance, reply):
    components = other_names(chance, field(reply.message, 4))
    put(reply.message, 4, name(1, *components))
    return refused("cname %a" % (components,), reply.open(), "CLIENT", "MESSAGE")


def ticket_version(chance, reply):
    value = chance.choice([0, 4, 6, -5, 261])
    put(reply.ticket, 0, integer(value))
    return refused("tkt-vno %d" % value, reply.open(), "TICKET_VERSION", "MESSAGE")


def ticket_realm(chance, reply):
    value = chance.choice(REALMS)
    put(reply.ticket, 1, text(value))
    return refused("the ticket's realm %a" % value, reply.open(), "TICKET", "MESSAGE")


def ticket_server(chance, reply):
    components = chance.choice([other_names(chance, field(reply.ticket, 2)), ["krbtgt", "OTHER.TEST"], ["kadmin", "changepw"]])
    put(reply.ticket, 2, name(2, *components))
    return refused("the ticket's sname %a" % (components,), reply.open(), "TICKET", "MESSAGE")


def not_compared(chance, reply):
    """What no key protects, or is of no rule (docs/CLIENT.md, "What is not")."""
    ticket, sealed = reply.ticket, field(reply.ticket, 3)
    which = chance.randrange(10)
    if which == 0:
        put(field(reply.message, 4), 0, integer(chance.choice([0, 2, 10])))
        return granted("the type of cname", reply.open())
    if which == 1:
        put(field(ticket, 2), 0, integer(chance.choice([0, 1, 3, 10])))
        return granted("the type of the ticket's sname", reply.open())
    if which == 2:
        put(reply.sealed, 1, chance.choice([None, integer(1), integer(77)]))
        return granted("kvno of enc-part", reply.open())
    if which == 3:
        put(sealed, 1, chance.choice([None, integer(77)]))
        return granted("kvno of the ticket", reply.open())
    if which == 4:
        at = chance.randrange(len(field(sealed, 2)[1]))
        field(sealed, 2)[1] = flipped(field(sealed, 2)[1], at, 3)
        return granted("a bit of the ticket's cipher", reply.open())
    if which == 5:
        put(reply.message, 2, [0x30, [[0x30, [[0xA1, [integer(9999)]], [0xA2, [[4, b"who knows"]]]]]]])
        return granted("padata of an unknown type", reply.open())
    if which == 6:
        node = field(reply.part, 4)
        node[1] = node[1][:2] + bytes([node[1][2] ^ chance.choice([0x40, 0x20, 0x10, 0x08])]) + node[1][3:]  # flags 9 to 12
        return granted("a flag past 8", reply.closed())
    if which == 7:
        put(reply.part, 3, stamp(time.time() + 86400))
        return granted("key-expiration", reply.closed())
    if which == 8:
        put(field(reply.part, 10), 0, integer(chance.choice([0, 1, 3, 10])))
        return granted("the type of sname", reply.closed())
    put(field(reply.part, 0), 1, [4, chance.randbytes(len(field(field(reply.part, 0), 1)[1]))])
    return granted("another session key of the type", reply.closed())


def etype(chance, reply):
    value = chance.choice([each for each in (1, 3, 16, 17, 18, 19, 20, 23, 0, -1, 2**31 - 1) if each != reply.etype])
    put(reply.sealed, 0, integer(value))
    return refused("etype %d" % value, reply.open(), "UNASKED", "ENCRYPTION_TYPE", "MESSAGE")


# The cipher.


def cipher_flipped(chance, reply):
    cipher = reply.cipher()
    at, bit = chance.randrange(len(cipher)), chance.randrange(8)
    put(reply.sealed, 2, [4, flipped(cipher, at, bit)])
    return refused("bit %d of octet %d of the cipher" % (bit, at), reply.open(), "OPENING")


def cipher_cut(chance, reply):
    cipher = reply.cipher()
    size = chance.randrange(1, len(cipher))
    kinds = [("cut", cipher[:size]), ("without its beginning", cipher[size:]), ("longer", cipher + chance.randbytes(16)), ("empty", b""), ("twice", cipher + cipher)]
    kinds += [("with two blocks changed about", cipher[16:32] + cipher[:16] + cipher[32:]), ("that of the ticket", field(field(reply.ticket, 3), 2)[1])]
    what, octets = chance.choice(kinds)
    put(reply.sealed, 2, [4, octets])
    return refused("the cipher %s" % what, reply.open(), "OPENING")


def usage(chance, reply):
    value = chance.choice([each for each in (1, 2, 3, 7, 8, 9, 11, 12, 13, 0, 1024) if each != reply.usage])
    return refused("sealed for key usage %d" % value, reply.closed(usage=value), "OPENING")


def other_key(chance, reply):
    kinds = [("random", chance.randbytes(KEY_SIZES[reply.etype])), ("of zeros", bytes(KEY_SIZES[reply.etype])), ("with a bit changed", flipped(reply.key, 0, 0))]
    what, key = chance.choice(kinds)
    if reply.session is not None and chance.random() < 0.4 and reply.session[0] == reply.etype:
        return refused("sealed under the session key", reply.closed(key=reply.session[1], usage=SESSION_USAGE), "OPENING")
    return refused("sealed under a key %s" % what, reply.closed(key=key), "OPENING")


def tags(chance, reply):
    other = 0x7A if reply.is_first else 0x79
    tag = chance.choice([other, other, other, 0x7B, 0x63, 0x62, 0x6B, 0x6D, 0x30])
    octets = reply.closed(part=element(tag, written(reply.part)))
    if tag == 0x7A and reply.is_first:
        return granted("the part under tag 26, which an AS-REP may have (RFC 4120, 5.4.2)", octets)
    return refused("the part under tag %02x" % tag, octets, "OPENING")


# The part, sealed again.


def nonce(chance, reply):
    own = number_of(field(reply.part, 2))
    value = chance.choice([own + 1, own - 1, own ^ 1 << chance.randrange(31), 0, -own, own + 2**32, own - 2**32, 1, chance.randrange(2**31)])
    if value == own:
        value += 1
    put(reply.part, 2, integer(value))
    return refused("nonce %d for %d" % (value, own), reply.closed(), "NONCE", "OPENING")


def part_realm(chance, reply):
    value = chance.choice(REALMS)
    put(reply.part, 9, text(value))
    return refused("srealm %a" % value, reply.closed(), "SERVER", "OPENING")


def part_server(chance, reply):
    components = chance.choice([other_names(chance, field(reply.part, 10)), ["krbtgt", "OTHER.TEST"], ["kadmin", "changepw"]])
    put(reply.part, 10, name(2, *components))
    return refused("sname %a" % (components,), reply.closed(), "SERVER", "OPENING")


def key_type(chance, reply):
    if chance.random() < 0.3:
        octets = field(field(reply.part, 0), 1)[1]
        size = chance.choice([each for each in (0, 1, 15, 16, 24, 31, 32, 33, 64) if each != len(octets)])
        put(field(reply.part, 0), 1, [4, chance.randbytes(size)])
        return refused("a session key of %d octets" % size, reply.closed(), "SESSION_KEY_SIZE")
    value = chance.choice([1, 3, 16, 23, 24, 0, -1, -18, 25, 26, 2**31 - 1])
    put(field(reply.part, 0), 0, integer(value))
    return refused("a session key of type %d" % value, reply.closed(), "SESSION_KEY", "OPENING")


def start(chance, reply):
    now = time.time()
    by = chance.choice([-86400 * 365, -86400, -3600, -SKEW - 60, SKEW + 60, 3500, -SKEW + 60, SKEW - 60, -10])
    put(reply.part, 6, stamp(now + by))
    if abs(by) < SKEW:
        return granted("a start %+d s from now" % by, reply.closed())
    return refused("a start %+d s from now" % by, reply.closed(), "START")


def end(chance, reply):
    which = chance.randrange(5)
    if which == 0:
        put(reply.part, 7, stamp(reply.till()))
        return granted("an end at `till`", reply.closed())
    if which == 1:
        put(reply.part, 7, stamp(reply.start() + 1))
        return granted("an end a second behind the start", reply.closed())
    if which == 2:
        by = chance.choice([1, 60, 3600])
        put(reply.part, 7, stamp(reply.start() - by))
        return refused("an end %d s before the start" % by, reply.closed(), "END")
    by = chance.choice([1, 60, 86400, 86400 * 365 * 10])
    put(reply.part, 7, stamp(reply.till() + by))
    return refused("an end %d s past `till`" % by, reply.closed(), "END")


def renew_till(chance, reply):
    by = chance.choice([0, 1, 3600, 86400, 86400 * 365])
    put(reply.part, 8, stamp(time.time() + by))
    return refused("renew-till without the flag", reply.closed(), "RENEW_TILL")


def with_flags(reply, numbers):
    node = field(reply.part, 4)
    value = int.from_bytes(node[1][1:5], "big")
    for number in numbers:
        value |= 1 << 31 - number
    node[1] = b"\0" + value.to_bytes(4, "big")


def flags(chance, reply):
    if chance.random() < 0.2:
        bits, node = chance.choice([0, 1, 8, 24, 31, 33, 40, 64]), field(reply.part, 4)
        value, spare = int.from_bytes(node[1][1:5], "big"), -bits % 8
        value = value >> 32 - bits if bits < 32 else value << bits - 32
        node[1] = bytes([spare]) + (value << spare).to_bytes((bits + spare) // 8, "big")
        return refused("%d flags" % bits, reply.closed(), "FLAGS_SIZE") if bits < 32 else granted("%d flags" % bits, reply.closed())
    numbers = chance.sample(range(1, 9), chance.choice([1, 1, 1, 2, 3]))
    with_flags(reply, numbers)
    if 8 in numbers:
        put(reply.part, 8, stamp(time.time() + 3600))
    return refused("flags %s" % numbers, reply.closed(), "FLAGS")


def addresses(chance, reply):
    if chance.random() < 0.25:
        put(reply.part, 11, [0x30, []])
        return granted("an empty list of addresses", reply.closed())
    host = sequence((0, integer(chance.choice([2, 24, 20]))), (1, [4, chance.randbytes(4)]))
    put(reply.part, 11, [0x30, [host] * chance.choice([1, 2])])
    return refused("addresses", reply.closed(), "ADDRESSES")


# Forms.


def constructed(octets):
    """The place, the size of the head and that of the content of each element with elements."""
    return [(at, start - at, end - start) for at, tag, start, end in walk(octets) if tag & 32]


def outer(octets, at, made):
    """Octets with another encoding in the place of the element there, and the lengths around it right."""
    found = [each for each in constructed(octets) if each[0] <= at < each[0] + each[1] + each[2]]
    inner_at, head, size = next(each for each in found if each[0] == at)
    octets = octets[:at] + made + octets[at + head + size :]
    grown = len(made) - head - size
    for place, around, content in reversed([each for each in found if each[0] < at]):
        new = element(octets[place], bytes(content + grown))[: -content - grown or None]
        octets = octets[:place] + new + octets[place + around :]
        grown += len(new) - around
    return octets


def other_form(chance, octets):
    """The same values in BER that is no DER."""
    at, head, size = chance.choice(constructed(octets))
    tag, content = octets[at : at + 1], octets[at + head : at + head + size]
    if chance.random() < 0.5:
        return "an indefinite length at %d" % at, outer(octets, at, tag + b"\x80" + content + b"\0\0")
    digits = len(content).to_bytes(chance.choice([3, 4, 8]), "big")
    return "a length in %d octets at %d" % (len(digits), at), outer(octets, at, tag + bytes([128 + len(digits)]) + digits + content)


def forms(chance, reply):
    what, octets = other_form(chance, reply.octets)
    return refused(what, octets, *MALFORMED)


def part_forms(chance, reply):
    what, octets = other_form(chance, written(reply.part_node))
    return refused("in the part " + what, reply.closed(part=octets), "OPENING")


def behind(chance, reply):
    more = chance.choice([bytes(1), bytes(16), chance.randbytes(5), reply.octets, b"\x05\x00"])
    which = chance.randrange(4)
    if which == 0:
        return refused("%d octets behind" % len(more), reply.octets + more, *MALFORMED)
    if which == 1:
        return refused("%d octets behind the fields" % len(more), element(reply.octets[0], written(reply.message) + more), *MALFORMED)
    if which == 2:
        return refused("%d octets behind the part" % len(more), reply.closed(part=written(reply.part_node) + more), "OPENING")
    inner = b"".join(map(written, reply.part[1]))
    return refused("%d octets behind the part's fields" % len(more), reply.closed(part=element(reply.tag, element(0x30, inner + more))), "OPENING")


def missing(chance, reply):
    which = chance.randrange(3)
    if which == 0:
        number = chance.choice([0, 1, 3, 4, 5, 6])
        put(reply.message, number, None)
        return refused("no field %d" % number, reply.open(), *MALFORMED)
    if which == 1:
        number = chance.choice([0, 1, 2, 4, 5, 7, 9, 10])
        put(reply.part, number, None)
        return refused("no field %d in the part" % number, reply.closed(), "OPENING")
    fields = reply.part[1]
    fields.insert(chance.randrange(len(fields)), chance.choice(fields))
    return refused("a field twice, or out of order", reply.closed(), "OPENING")


def error(code):
    fields = [(0, integer(5)), (1, integer(30)), (4, stamp(time.time())), (5, integer(0)), (6, integer(code))]
    return written([0x7E, [sequence(*fields, (9, text("HOME.TEST")), (10, name(2, "krbtgt", "HOME.TEST")))]])


KEPT = {}


def others(chance, reply):
    """Another message in the reply's place."""
    who = reply.is_first, reply.etype
    earlier = KEPT.get(who)
    KEPT[who] = reply.octets
    which = chance.randrange(5)
    if which == 0 and earlier is not None:
        # A TGS-REP is under the subkey of its own request, an AS-REP under the client's key.
        return refused("the reply to an earlier request", earlier, *(("NONCE",) if reply.is_first else ("OPENING",)))
    if which == 1:
        code = chance.choice([6, 7, 12, 14, 24, 29, 31, 32, 60, 68, 999])
        return refused("the error %d" % code, error(code), "KDC")
    if which == 2:
        size = chance.randrange(1, len(reply.octets))
        return refused("the first %d octets" % size, reply.octets[:size], *MALFORMED)
    if which == 3:
        tag = TGS_REP if reply.is_first else AS_REP
        put(reply.message, 1, integer(tag & 31))
        return refused("as the other kind of reply", written([tag, [reply.message]]), *MALFORMED)
    octets = chance.choice([b"", b"\0", b"HTTP/1.1 200 OK\r\n\r\n", chance.randbytes(40), written([0x6F, [reply.message]])])
    return refused("octets of something else", octets, *MALFORMED)


KINDS = [
    ("bits of tags and lengths", heads_flipped), ("bits of fields in the clear", compared_flipped), ("pvno", pvno), ("msg-type", msg_type), ("crealm", crealm),
    ("cname", cname), ("the ticket's version", ticket_version), ("the ticket's realm", ticket_realm), ("the ticket's server", ticket_server),
    ("what nobody compares", not_compared), ("the part's encryption type", etype), ("bits of the cipher", cipher_flipped), ("other ciphers", cipher_cut),
    ("another key usage", usage), ("another key", other_key), ("another tag of the part", tags), ("nonce", nonce), ("srealm", part_realm), ("sname", part_server),
    ("the session key's type and size", key_type), ("starttime", start), ("endtime", end), ("renew-till", renew_till), ("flags", flags), ("addresses", addresses),
    ("BER in the clear", forms), ("BER in the part", part_forms), ("octets behind", behind), ("fields missing or twice", missing), ("another message", others),
]
EACH = 20

