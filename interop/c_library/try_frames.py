"""Tries the Python package on frames of messages: try_frames.py FRAMES, in an environment that has it installed.

FRAMES has rows of a kind and octets in hexadecimal: pac, unlisted (a PAC with a buffer of a type that nothing lists), token, init, resp, password, proxy. What is expected is read out of the octets here, by code
that shares nothing with the library. The last line is `N passed, N failed`."""

import random
import struct
import sys
import tracemalloc

from counting import changed, ended, expect, outcome
from der import integer, sequence, written
from krb import Refused, Status, frames, messages, pac, spnego
from tables import rows_in

TYPES = {1, 2, 6, 7, *range(10, 20)}


# The formats, read here.


def pac_of(octets):
    """The buffers (MS-PAC 2.3 and 2.4), or the first fault."""
    if len(octets) < 4:
        return Status.TRUNCATED
    if len(octets) < 8:
        return Status.TRUNCATED
    count, version = int.from_bytes(octets[:4], "little"), int.from_bytes(octets[4:8], "little")
    if version:
        return Status.OTHER_VERSION
    found = []
    for at in range(8, 8 + 16 * count, 16):
        if len(octets) < at + 4:
            return Status.TRUNCATED
        kind = int.from_bytes(octets[at : at + 4], "little")
        if kind not in TYPES:
            return Status.PAC_TYPE
        if len(octets) < at + 16:
            return Status.TRUNCATED
        size, offset = int.from_bytes(octets[at + 4 : at + 8], "little"), int.from_bytes(octets[at + 8 : at + 16], "little")
        if offset + size > len(octets):
            return Status.PAC_RANGE
        found.append((kind, offset, octets[offset : offset + size]))
    return found


def element(octets, at, end, tag):
    """Where the content of the element of this tag begins and ends (X.690, 8.1 and 10.1)."""
    if at == end:
        raise Refused(Status.TRUNCATED)
    if octets[at] != tag:
        raise Refused(Status.INVALID)
    if at + 1 == end:
        raise Refused(Status.TRUNCATED)
    size, start = octets[at + 1], at + 2
    if size == 128 or size > 136:
        raise Refused(Status.UNSUPPORTED)
    if size > 128:
        start += size - 128
        if start > end:
            raise Refused(Status.TRUNCATED)
        digits = octets[at + 2 : start]
        size = int.from_bytes(digits, "big")
        if digits[0] == 0 or size < 128:
            raise Refused(Status.INVALID)
    if start + size > end:
        raise Refused(Status.TRUNCATED)
    return start, start + size


def check_identifier(content):
    """Refuses what is the content of no OBJECT IDENTIFIER (X.690, 8.19), whose sub-identifiers are of 64 bits."""
    if not content:
        raise Refused(Status.INVALID)
    at = 0
    while at < len(content):
        number, first = 0, True
        while True:
            if at == len(content) or (first and content[at] == 0x80):
                raise Refused(Status.INVALID)
            if number >= 1 << 57:
                raise Refused(Status.UNSUPPORTED)
            number, first, at = number * 128 + content[at] % 128, False, at + 1
            if content[at - 1] < 128:
                break


def token_of(octets):
    start, end = element(octets, 0, len(octets), 0x60)
    mechanism, inner = element(octets, start, end, 0x06)
    check_identifier(octets[mechanism:inner])
    if end != len(octets):
        raise Refused(Status.INVALID)
    return octets[mechanism:inner], octets[inner:]


def fields_of(octets, at, end):
    """The elements under [0] to [3], by their numbers."""
    found = {}
    while at < end:
        start, after = element(octets, at, end, octets[at])
        found[octets[at] - 0xA0], at = (start, after), after
    return found


def inside(octets, place, tag):
    if place is None:
        return None
    start, end = element(octets, *place, tag)
    return octets[start:end]


def identifiers(octets):
    found, at = [], 0
    while at < len(octets):
        start, at = element(octets, at, len(octets), 0x06)
        found.append(octets[start:at])
    return found


def init_of(octets):
    start, end = element(octets, 0, len(octets), 0x60)
    _, at = element(octets, start, end, 0x06)
    found = fields_of(octets, *element(octets, *element(octets, at, end, 0xA0), 0x30))
    mechanisms = inside(octets, found.get(0), 0x30)
    return mechanisms and identifiers(mechanisms), inside(octets, found.get(2), 0x04), inside(octets, found.get(3), 0x04)


def resp_of(octets):
    found = fields_of(octets, *element(octets, *element(octets, 0, len(octets), 0xA1), 0x30))
    state = None
    if 0 in found:
        whole = octets[slice(*found[0])]
        state = whole[2] if whole[:2] == b"\x0a\x01" and whole[2] < 128 else -1
    return state, inside(octets, found.get(1), 0x06), inside(octets, found.get(2), 0x04), inside(octets, found.get(3), 0x04)


def password_of(octets):
    _, ap_end = element(octets, 6, len(octets), octets[6])
    _, end = element(octets, ap_end, len(octets), 0x75)
    return octets[6:ap_end], octets[ap_end:end], end


def proxy_of(octets):
    found = fields_of(octets, *element(octets, 0, len(octets), 0x30))
    hint = inside(octets, found.get(2), 0x02)
    return inside(octets, found[0], 0x04), inside(octets, found.get(1), 0x1B), None if hint is None else int.from_bytes(hint, "big", signed=True)


# What is tried.


def try_mechanisms(octets):
    """Each mechanism by its number, and none behind them."""
    listed = init_of(octets)[0] or []
    for n, right in enumerate(listed):
        expect(outcome(spnego.neg_token_init_mechanism, octets, n) == right, "mechanism %d" % n)
    for n in (len(listed), len(listed) + 1, 2**32, 2**63, 2**64 - 1, 2**64, -1):
        expect(outcome(spnego.neg_token_init_mechanism, octets, n) == Status.ABSENT, "mechanism %d of %d" % (n, len(listed)))
    for n in range(len(octets)):
        expect(outcome(spnego.neg_token_init_mechanism, octets[:n], 0) == Status.TRUNCATED, "a mechanism of a NegTokenInit, cut to %d octets" % n)


def tried(call, octets):
    found = outcome(call, octets)
    return found if isinstance(found, Status) else tuple(found)


def is_view(octets, pac_octets):
    """Whether they are a view of octets of the PAC that nobody can write."""
    return isinstance(octets, memoryview) and octets.readonly and octets.format == "B" and octets.obj is pac_octets


def try_pac(octets, count):
    for each in [octets, *(octets[:n] for n in range(min(len(octets), 200))), octets + b"\0", *changed(octets, count)]:
        right = pac_of(each)
        found = outcome(pac.buffers, each)
        expect(found == right if isinstance(right, Status) else [tuple(it) for it in found] == right, "a PAC: %s, and not %s" % (found, right))
        if not isinstance(right, Status):
            for n in (len(right), len(right) + 1, 2**32, 2**64 - 1, 2**64, -1):
                expect(outcome(pac.buffer, each, n) == Status.ABSENT, "buffer %d of a PAC of %d" % (n, len(right)))
            for n, one in enumerate(right):
                expect(pac.buffer(each, n) == one and found[n] == one, "buffer %d of a PAC of %d" % (n, len(right)))
                expect(is_view(found[n].octets, each) and is_view(pac.buffer(each, n).octets, each), "buffer %d is no view of the PAC" % n)
            for kind in TYPES:
                one = pac.find(each, kind)
                expect(one == next((it[2] for it in right if it[0] == kind), None), "the buffer of type %d" % kind)
                expect(one is None or is_view(one, each), "the buffer of type %d is no view of the PAC" % kind)
        for call in (pac.find, pac.buffer):
            refused = outcome(call, each, 0)
            expect(refused == right if isinstance(right, Status) else not isinstance(refused, Status) or not right, "%s of a PAC: %s, and not %s" % (call.__name__, refused, right))


def most_memory(call):
    """The most octets that Python held at a time in a call, beside what it held before."""
    tracemalloc.start()
    try:
        call()
        return tracemalloc.get_traced_memory()[1]
    finally:
        tracemalloc.stop()


def hostile_pac(size):
    """A PAC of so many octets, 16 or more, whose entries each name all of them, and the last alone is of type 13."""
    count = (size - 8) // 16
    entries = b"".join(struct.pack("<IIQ", 1 if n < count - 1 else 13, size, 0) for n in range(count))
    octets = struct.pack("<II", count, 0) + entries
    return octets + bytes(size - len(octets)), count


def try_room():
    """PACs of as many buffers as there is room for at first, and of one fewer and more."""
    for count in (0, 1, 31, 32, 33, 64, 65, 1000):
        octets, right = hostile_pac(8 + 16 * count) if count else (bytes(8), 0)
        found = pac.buffers(octets)
        expect(right == count == len(found) and [it.offset for it in found] == [0] * count, "the buffers of a PAC of %d" % count)
        expect(pac.find(octets, 13) == (octets if count else None), "the last of %d buffers" % count)


def try_hostile_pac():
    """PACs of n / 16 buffers, each of all n octets: the memory that is taken, and kept where all buffers are, grows with n and not with its square."""
    size = 8 * 1024
    octets, count = hostile_pac(size)
    found = pac.buffers(octets)
    expect(len(found) == count and found[-1] == (13, 0, octets), "the buffers of a hostile PAC")
    expect(found[1:3] == [(1, 0, octets)] * 2 and found[count:] == [], "some of its buffers")
    expect(found == pac.buffers(bytearray(octets)) and found != found[1:], "its buffers compared")
    for n in (count, -count - 1):
        try:
            expect(found[n] is None, "buffer %d of %d" % (n, count))
        except IndexError:
            expect(True, "")
    for what, call in (
        ("find", lambda: pac.find(octets, 13)),
        ("find of none", lambda: pac.find(octets, 2)),
        ("buffers", lambda: [it.type for it in pac.buffers(octets)]),
        ("buffer", lambda: pac.buffer(octets, count - 1)),
    ):
        most = most_memory(call)
        expect(most < 8 * size, "%s of a hostile PAC of %d octets takes %d" % (what, size, most))
    for size in (64 * 1024, 1024 * 1024):
        octets, count = hostile_pac(size)
        other = bytearray(octets)
        for what, call in (
            ("all buffers", lambda: list(pac.buffers(octets))),
            ("all buffers of a bytearray", lambda: list(pac.buffers(other))),
            ("find", lambda: pac.find(octets, 13)),
            ("find of none", lambda: pac.find(octets, 2)),
        ):
            most = most_memory(call)
            expect(most < 32 * size, "%s of a hostile PAC of %d octets take %d" % (what, size, most))
        expect(len(pac.find(other, 13)) == size and is_view(pac.find(octets, 13), octets), "the last of %d buffers" % count)


def try_token(octets, count):
    for each in [octets, *(octets[:n] for n in range(len(octets))), octets + b"\0", *changed(octets, count)]:
        right, found = outcome(token_of, each), tried(spnego.token, each)
        expect(found == right, "a token: %s, and not %s" % (found, right))
        if not isinstance(right, Status):
            expect(spnego.make_token(*right) == each, "a token is made otherwise")


def try_cuts(call, octets, what):
    for n in range(len(octets)):
        expect(outcome(call, octets[:n]) == Status.TRUNCATED, "%s, cut to %d octets" % (what, n))
    expect(outcome(call, octets + b"\0") == Status.INVALID, "%s, with an octet behind" % what)
    expect(outcome(call, b"\x31" + octets[1:]) == Status.INVALID, "%s, under another tag" % what)
    expect(outcome(call, octets[:1] + b"\x80" + octets[2:]) == Status.UNSUPPORTED, "%s, of indefinite length" % what)


def try_changed(call, right, octets, count, what):
    """Where changed octets are taken, the fields are those that stand in them."""
    for each in changed(octets, count):
        found = tried(call, each)
        expect(isinstance(found, Status) or found == right(each), "%s, changed: %s" % (what, found))


def try_password(octets, count):
    right = password_of(octets)
    expect(tried(frames.password_frame, octets) == right, "a password frame")
    octets = octets[: right[2]]
    expect(tried(frames.password_frame, octets + b"behind") == right, "a password frame with octets behind it")
    lengths = len(octets).to_bytes(2, "big") + b"\0\1" + len(right[0]).to_bytes(2, "big")
    expect(frames.make_password_frame(*right[:2]) == lengths + octets[6:], "a password frame is made otherwise")
    for n in range(len(octets)):
        expect(outcome(frames.password_frame, octets[:n]) == Status.TRUNCATED, "a password frame, cut to %d octets" % n)
    for version in (0, 2, 0xFF80):
        expect(outcome(frames.password_frame, octets[:2] + version.to_bytes(2, "big") + octets[4:]) == Status.OTHER_VERSION, "version %d" % version)
    expect(outcome(frames.make_password_frame, right[0][:-1], right[1]) == Status.TRUNCATED, "a cut AP message is framed")
    expect(outcome(frames.make_password_frame, right[1], right[1]) == Status.INVALID, "a KRB-PRIV is framed as an AP message")
    expect(outcome(frames.make_password_frame, right[0], right[1] + b"\0") == Status.INVALID, "a KRB-PRIV with an octet behind is framed")
    for each in changed(octets, count):
        found = tried(frames.password_frame, each)
        if isinstance(found, Status):
            expect(each[2:4] == b"\0\1" or len(each) < 4 or found == Status.OTHER_VERSION, "another version: %s" % found)
        else:
            expect(found == password_of(each) and messages.is_message(21, found[1]), "a changed password frame")


def try_made():
    """Sizes of frames, mechanisms that are none, long inner tokens."""
    for size in (0, 1, 113, 114, 115, 127, 128, 240, 241, 255, 256, 65535, 65536, 1 << 20):
        inner = random.randbytes(size)
        made = spnego.make_token(spnego.KERBEROS, inner)
        expect(token_of(made) == (spnego.KERBEROS, inner) and tuple(spnego.token(made)) == (spnego.KERBEROS, inner), "a token of %d octets" % size)
    for mechanism, status in ((b"", 9), (b"\x80\x01", 9), (b"\x2a\x86", 9), (b"\x2a" + b"\xff" * 9 + b"\x7f", 11), (b"\x2a\x80\x01", 9)):
        expect(outcome(spnego.make_token, mechanism, b"x") == status, "the mechanism %s" % mechanism.hex())
        whole = b"\x06" + bytes([len(mechanism)]) + mechanism + b"x"
        expect(outcome(spnego.token, b"\x60" + bytes([len(whole)]) + whole) == status, "a token of the mechanism %s" % mechanism.hex())
    for call in (spnego.token, spnego.neg_token_init, spnego.neg_token_resp, frames.proxy_message, frames.password_frame, pac.buffers):
        expect(outcome(call, b"") == Status.TRUNCATED, "%s of no octets" % call.__name__)
        expect(isinstance(outcome(call, bytes(100000)), Status) or call is pac.buffers, "%s of zeros" % call.__name__)
    expect(pac.buffers(bytes(8)) == [], "a PAC of no buffers")


def try_long_mechanisms():
    """Mechanisms whose lengths have two and more octets (X.690, 8.1.3.5)."""
    lengths = {127: "7f", 128: "8180", 129: "8181", 255: "81ff", 256: "820100", 70001: "83011171"}
    for size, length in lengths.items():
        one = b"\x2a" * (1 - size % 2) + b"\x2a" + b"\x81\x01" * ((size - 1) // 2)
        both = [one, spnego.KERBEROS]
        made = outcome(spnego.make_neg_token_init, both)
        right = isinstance(made, bytes) and b"\x06" + bytes.fromhex(length) + one in made
        right = right and spnego.neg_token_init(made).mechanisms == both == init_of(made)[0]
        expect(len(one) == size and right, "a mechanism of %d octets: %s" % (size, made))


def try_made_messages():
    """A NegTokenInit and a KDC-PROXY-MESSAGE, of the octets that X.690 gives."""
    both = bytes.fromhex("06092a864886f712010202060a2b06010401823702020a")
    fields = {
        ((), b"", b""): b"",
        ((spnego.KERBEROS, bytes.fromhex("2b06010401823702020a")), b"", b""): b"\xa0\x19\x30\x17" + both,
        ((), b"token", b""): b"\xa2\x07\x04\x05token",
        ((), b"", b"mic"): b"\xa3\x05\x04\x03mic",
        ((spnego.KERBEROS, bytes.fromhex("2b06010401823702020a")), b"token", b"mic"): b"\xa0\x19\x30\x17" + both + b"\xa2\x07\x04\x05token\xa3\x05\x04\x03mic",
    }
    for arguments, inner in fields.items():
        tail = b"\xa0" + bytes([len(inner) + 2]) + b"\x30" + bytes([len(inner)]) + inner
        whole = b"\x60" + bytes([len(tail) + 8]) + b"\x06\x06" + spnego.SPNEGO + tail
        made = outcome(spnego.make_neg_token_init, *arguments)
        expect(made == whole, "a NegTokenInit of %s: %s" % (arguments, made))
        expect(tuple(spnego.neg_token_init(whole)) == (list(arguments[0]) or None, arguments[1] or None, arguments[2] or None), "a NegTokenInit of %s is read" % (arguments,))
    for size in (113, 114, 127, 128, 65536):
        made = spnego.make_neg_token_init([spnego.KERBEROS], bytes(size), b"m")
        expect(init_of(made) == ([spnego.KERBEROS], bytes(size), b"m") and tuple(spnego.neg_token_init(made)) == init_of(made), "a mechToken of %d octets" % size)
    try_long_mechanisms()
    forms = [bytearray(spnego.KERBEROS), memoryview(b"\x2b")]
    right = spnego.make_neg_token_init([spnego.KERBEROS, b"\x2b"])
    expect(outcome(spnego.make_neg_token_init, forms) == right, "forms of mechanisms")
    many = [b"\x2b" + bytes([n % 128]) * (n % 50) for n in range(1, 2000)]
    made = spnego.make_neg_token_init(many)
    expect(spnego.neg_token_init(made).mechanisms == many, "two thousand mechanisms")
    for n in (0, 1, 126, 127, 128, 1997, 1998):
        expect(spnego.neg_token_init_mechanism(made, n) == many[n], "mechanism %d of two thousand" % n)
    for whole in (spnego.make_neg_token_init([]), spnego.make_neg_token_init([], b"token", b"mic"), bytes.fromhex("601006062b0601050502a0063004a0023000")):
        expect(outcome(spnego.neg_token_init_mechanism, whole, 0) == Status.ABSENT, "a mechanism of no mechTypes, or of none in them")
    for wrong, status in ((b"", 9), (b"\x80\x01", 9), (b"\x2a" + b"\xff" * 9 + b"\x7f", 11)):
        expect(outcome(spnego.make_neg_token_init, [wrong]) == status, "a NegTokenInit of the mechanism %s" % wrong.hex())
    for message, realm, whole in ((b"abc", b"", "3007a0050403616263"), (b"", b"EXAMPLE.COM", "3013a0020400a10d1b0b4558414d504c452e434f4d"), (b"x", b"R", "300aa003040178a1031b0152")):
        made = frames.make_proxy_message(message, realm)
        expect(made.hex() == whole and tuple(frames.proxy_message(made)) == (message, realm or None, None), "a KDC-PROXY-MESSAGE: %s" % made.hex())
    for size in (114, 127, 128, 65536):
        made = frames.make_proxy_message(bytes(size), b"EXAMPLE.COM")
        expect(proxy_of(made) == (bytes(size), b"EXAMPLE.COM", None) and tuple(frames.proxy_message(made)) == proxy_of(made), "a message of %d octets" % size)
    expect(outcome(frames.make_proxy_message, b"x", b"caf\xc3\xa9") == Status.INVALID, "a realm that is not of ASCII")


def try_made_answers():
    """negTokenResp of the octets that X.690 gives."""
    kerberos = b"\xa1\x0b\x06\x09" + spnego.KERBEROS
    fields = {
        (None, b"", b"", b""): b"",
        (0, b"", b"", b""): b"\xa0\x03\x0a\x01\0",
        (3, b"", b"", b"mic"): b"\xa0\x03\x0a\x01\3\xa3\x05\x04\x03mic",
        (None, spnego.KERBEROS, b"", b""): kerberos,
        (None, b"", b"token", b""): b"\xa2\x07\x04\x05token",
        (1, spnego.KERBEROS, b"token", b""): b"\xa0\x03\x0a\x01\1" + kerberos + b"\xa2\x07\x04\x05token",
        (2, spnego.KERBEROS, b"token", b"mic"): b"\xa0\x03\x0a\x01\2" + kerberos + b"\xa2\x07\x04\x05token\xa3\x05\x04\x03mic",
    }
    for arguments, inner in fields.items():
        whole = b"\xa1" + bytes([len(inner) + 2]) + b"\x30" + bytes([len(inner)]) + inner
        made = outcome(spnego.make_neg_token_resp, *arguments)
        expect(made == whole, "a negTokenResp of %s: %s" % (arguments, made))
        expect(tuple(spnego.neg_token_resp(whole)) == (arguments[0], *(it or None for it in arguments[1:])), "a negTokenResp of %s is read" % (arguments,))
    for size in (101, 102, 127, 128, 65536, 1 << 20):
        made = spnego.make_neg_token_resp(spnego.NegState.ACCEPT_INCOMPLETE, spnego.KERBEROS, bytes(size), b"m")
        right = (1, spnego.KERBEROS, bytes(size), b"m")
        expect(resp_of(made) == right and tuple(spnego.neg_token_resp(made)) == right, "a responseToken of %d octets" % size)
    for state in (4, 127, 128, 255, 256, 257, 2**32, -1):
        expect(outcome(spnego.make_neg_token_resp, state) == Status.NUMBER, "a negTokenResp of the state %d" % state)
    for wrong, status in ((b"\x80\x01", 9), (b"\x2a\x86", 9), (b"\x2a" + b"\xff" * 9 + b"\x7f", 11)):
        expect(outcome(spnego.make_neg_token_resp, 0, wrong) == status, "a negTokenResp of the mechanism %s" % wrong.hex())


def try_lengths(octets):
    """A frame of 65535 octets, and of one more: the KRB-PRIV's cipher is filled up."""
    ap, _, _ = password_of(octets)

    for more in range(2):
        cipher = 65535 + more - 6 - len(ap) - 42
        while True:
            data = sequence((0, integer(18)), (2, [4, bytes(cipher)]))
            private = written([0x75, [sequence((0, integer(5)), (1, integer(21)), (3, data))]])
            if 6 + len(ap) + len(private) >= 65535 + more:
                break
            cipher += 1
        found = outcome(frames.make_password_frame, ap, private)
        expect(found == Status.FRAME_SIZE if more else isinstance(found, bytes) and len(found) == 65535 and tuple(frames.password_frame(found)) == (ap, private, 65535), "a frame of %d octets" % (6 + len(ap) + len(private)))


def main():
    random.seed(3244)
    seen = dict.fromkeys(("pac", "unlisted", "token", "init", "resp", "password", "proxy"), 0)
    for kind, digits in rows_in(sys.argv[1]):
        octets = bytes.fromhex(digits)
        seen[kind] += 1
        count = 400
        if kind in ("pac", "unlisted"):
            try_pac(octets, count)
        elif kind == "token":
            try_token(octets, count)
        elif kind == "init":
            expect(tried(spnego.neg_token_init, octets) == init_of(octets), "a NegTokenInit")
            try_mechanisms(octets)
            try_cuts(spnego.neg_token_init, octets, "a NegTokenInit")
            try_changed(spnego.neg_token_init, init_of, octets, count, "a NegTokenInit")
        elif kind == "resp":
            expect(tried(spnego.neg_token_resp, octets) == resp_of(octets), "a negTokenResp")
            try_cuts(spnego.neg_token_resp, octets, "a negTokenResp")
            try_changed(spnego.neg_token_resp, resp_of, octets, count, "a negTokenResp")
        elif kind == "password":
            try_password(octets, count)
            try_lengths(octets)
        else:
            expect(tried(frames.proxy_message, octets) == proxy_of(octets), "a KDC-PROXY-MESSAGE")
            try_cuts(frames.proxy_message, octets, "a KDC-PROXY-MESSAGE")
            try_changed(frames.proxy_message, proxy_of, octets, count, "a KDC-PROXY-MESSAGE")
    try_room()
    try_hostile_pac()
    try_made()
    try_made_messages()
    try_made_answers()
    for hint, right in ((bytes(1), 0), (b"\x7f" + b"\xff" * 7, 2**63 - 1), (b"\x80" + bytes(7), -(2**63)), (b"\0\x80" + bytes(7), Status.TOO_LARGE), (b"\xff\x7f" + b"\xff" * 7, Status.TOO_LARGE)):
        inner = b"\xa0\x03\x04\x01x\xa2" + bytes([2 + len(hint)]) + b"\x02" + bytes([len(hint)]) + hint
        found = outcome(frames.proxy_message, b"\x30" + bytes([len(inner)]) + inner)
        expect(found == right if isinstance(right, Status) else tuple(found) == (b"x", None, right), "the hint %s: %s" % (hint.hex(), found))
    for kind, number in seen.items():
        expect(number > 1, "%d rows of %s" % (number, kind))
    return ended()


if __name__ == "__main__":
    sys.exit(main())
