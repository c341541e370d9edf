"""Mutants of requests to a KDC proxy: octets that are changed, and what is certain of them by how they were."""

from collections import namedtuple

import judge
from der import element, field, nodes, put, text, tree, walk, written
from octets import flipped, framed

REFUSED, UNCHANGED = "refused", "goes on unchanged"
# What kind of change it is, what is certain to become of it (None where that is for the judge to say), and the octets.
Mutant = namedtuple("Mutant", "kind certain octets")
AS_REQ, TGS_REQ = 0x6A, 0x6C


def body(kerb_message, domain):
    """A KDC-PROXY-MESSAGE (MS-KKDCP, 2.2.2)."""
    return element(0x30, element(0xA0, element(0x04, kerb_message)) + (b"" if domain is None else element(0xA1, element(0x1B, domain))))


def password_frame(ap_req, priv, version=1):
    """RFC 3244, 2."""
    return b"".join(each.to_bytes(2, "big") for each in (6 + len(ap_req) + len(priv), version, len(ap_req))) + ap_req + priv


class Request:
    """A request as a real client sent it."""

    def __init__(self, octets):
        self.octets = octets
        self.judged = judge.judged(octets)
        self.message, self.domain = self.judged.message, self.judged.target_domain
        self.parts = [self.message] if self.judged.service == "kdc" else list(judge.frame_of(self.message))

    def with_parts(self, parts):
        message = parts[0] if self.judged.service == "kdc" else password_frame(*parts)
        return body(framed(message), self.domain)

    def place(self, part):
        """How many octets are before this part."""
        return self.octets.index(self.parts[part])


# The kinds. Each is a function of a source of chance, a request, and all replies.


def bit(chance, request, replies):
    return flipped(request.octets, chance.randrange(len(request.octets)), chance.randrange(8))


def bit_of_a_cipher(chance, request, replies):
    """A bit of a large OCTET STRING: a cipher, or the value of pre-authentication, which holds one."""
    part = chance.randrange(len(request.parts))
    found = [(start, end) for _, tag, start, end in walk(request.parts[part]) if tag == 0x04 and end - start >= 16]
    if not found:
        return bit_of_a_nonce(chance, request, replies)
    return flipped(request.octets, request.place(part) + chance.randrange(*chance.choice(found)), chance.randrange(8))


def bit_of_a_nonce(chance, request, replies):
    """A bit of the last octet of a nonce, or of a kvno of one octet, so that its other octets stay the fewest."""
    if request.judged.service == "kpasswd":
        return bit_of_a_cipher(chance, request, replies)
    nonce = judge.content_at(request.message, request.message[0], 0x30, 0xA4, 0x30, 0xA7, 0x02)
    place = request.place(0) + request.message.index(b"\xa7" + bytes([len(nonce) + 2]) + b"\x02" + bytes([len(nonce)]) + nonce) + 4
    return flipped(request.octets, place + len(nonce) - 1, chance.randrange(7))


def octet_more(chance, request, replies):
    message, domain, more = request.message, request.domain, chance.randbytes(1)
    place = chance.randrange(len(request.octets))
    return chance.choice(
        (
            request.octets + more,
            body(framed(message) + more, domain),
            body(framed(message + more), domain),
            body(more + framed(message), domain),
            request.octets[:place] + more + request.octets[place:],
        )
    )


def octet_less(chance, request, replies):
    message, domain = request.message, request.domain
    place = chance.randrange(len(request.octets))
    return chance.choice(
        (
            request.octets[:-1],
            request.octets[1:],
            body(framed(message)[:-1], domain),
            body(framed(message[:-1]), domain),
            body(framed(message)[1:], domain),
            request.octets[:place] + request.octets[place + 1 :],
        )
    )


def two_messages(chance, request, replies):
    message, domain = request.message, request.domain
    kerb = element(0xA0, element(0x04, framed(message)))
    return chance.choice(
        (
            request.octets * 2,
            body(framed(message) * 2, domain),
            body(framed(message * 2), domain),
            body(framed(message + framed(message)), domain),
            element(0x30, kerb * 2 + element(0xA1, element(0x1B, domain))),
            body(framed(password_frame(message, message)), domain),
        )
    )


def another_realm(chance, request, replies):
    """A message for one realm with another target-domain, or the other way round, or with none."""
    message, domain = request.message, request.domain
    if request.judged.service == "kdc" and chance.randrange(2):
        whole = tree(message)
        put(field(whole[1][0], 4), 2, text(chance.choice((b"OTHER.TEST", b"PROXY.TESU", b"PROXY.TEST.", b""))))
        return body(framed(written(whole)), domain)
    return body(framed(message), chance.choice((b"OTHER.TEST", domain[:-1], domain + b".", domain + b"\0", b"", None)))


def reply_as_request(chance, request, replies):
    return body(framed(chance.choice(replies)), request.domain)


def garbage(chance, request, replies):
    """Well-formed elements that hold no message."""
    tag, domain = chance.choice((AS_REQ, TGS_REQ)), request.domain
    octets = element(0x04, chance.randbytes(chance.choice((0, 1, 20, 200, 1000))))
    number = element(0xA1, b"\x02\x01\x05") + element(0xA2, bytes([2, 1, tag - 0x60]))
    return body(
        framed(
            chance.choice(
                (
                    bytes([tag]) + b"\x02\x30\x00",
                    element(tag, octets),
                    element(tag, element(0x30, octets)),
                    element(tag, element(0x30, number + element(0xA4, octets))),
                    element(tag, element(0x30, number + element(0xA4, element(0x30, octets)))),
                    element(tag, request.parts[0]),
                    password_frame(element(0x6E, octets), element(0x75, octets)),
                    password_frame(b"\x6e\x02\x30\x00", b"\x75\x02\x30\x00", 0xFF80),
                )
            )
        ),
        domain,
    )


def longer(chance, octets, more):
    whole = tree(octets)
    return written(whole, chance.choice(list(nodes([whole]))), more)


def longer_length(chance, request, replies):
    """One length with needless octets, within the message or around it."""
    more = chance.choice((1, 1, 1, 2, 3))
    if chance.randrange(4) == 0:
        return longer(chance, request.octets, more)
    parts = list(request.parts)
    part = chance.randrange(len(parts))
    parts[part] = longer(chance, parts[part], more)
    return request.with_parts(parts)


# The kinds, how many of 600 are of each, and what is certain of them.
KINDS = (
    ("one bit", bit, 200, None),
    ("one bit of a cipher", bit_of_a_cipher, 60, UNCHANGED),
    ("one bit of a nonce", bit_of_a_nonce, 30, UNCHANGED),
    ("an octet more", octet_more, 50, REFUSED),
    ("an octet less", octet_less, 50, REFUSED),
    ("two messages in one", two_messages, 40, REFUSED),
    ("another realm", another_realm, 50, REFUSED),
    ("a reply as a request", reply_as_request, 40, REFUSED),
    ("garbage in well-formed tags", garbage, 40, REFUSED),
    ("a length in a longer form", longer_length, 40, REFUSED),
)


def mutants(chance, bodies, replies):
    """All of them, each of a request that chance takes, and each another than any request."""
    requests, known = [Request(octets) for octets in bodies], set(bodies)
    for kind, make, count, certain in KINDS:
        for _ in range(count):
            octets = next(octets for octets in iter(lambda: make(chance, chance.choice(requests), replies), None) if octets not in known)
            yield Mutant(kind, certain, octets)
