"""Tries the Python package on requests and replies through a KDC proxy: try_proxy.py MESSAGES FRAMES, in an environment that has it installed.

MESSAGES has a number and octets in hexadecimal a row, FRAMES a kind and octets. What is expected is read out of the octets by ../kdc_proxy_parts, judge.py and
rules.py, which share nothing with the library. The last line is `N passed, N failed`."""

import os
import random
import sys

HERE = os.path.dirname(os.path.abspath(__file__))
sys.path += [os.path.join(HERE, ".."), os.path.join(HERE, "..", "kdc_proxy_parts")]

import judge  # noqa: E402
import rules  # noqa: E402
from counting import changed, ended, expect, outcome  # noqa: E402
from der import element, explicit, field, put, text, tree, written  # noqa: E402
from expect_fields import FIELDS, found as place_of  # noqa: E402
from krb import Refused, Status, proxy  # noqa: E402
from mutants import Request, body, framed, password_frame  # noqa: E402
from tables import rows_in  # noqa: E402

CLIENT, SERVER, TICKET_SERVER = 3, 4, 24
# What kadmind of MIT Kerberos 1.20.1 sends where it cannot read the AP-REQ: a frame of no AP-REP, and a KRB-ERROR (RFC 3244, 2).
UNREAD_CHANGE = bytes.fromhex(
    "0086000100007e7e307ca003020105a10302011ea411180f32303236313132363230333032345aa503020100a60302013ca90c1b0a50524f58592e54455354aa1d301ba003020101a1143012"
    "1b066b61646d696e1b086368616e67657077ac26042400034661696c65642072656164696e67206170706c69636174696f6e2072657175657374"
)


def broken(octets):
    """The statuses of which a request is refused with one, or nothing where it is a request."""
    return {Status[name] for name in rules.of_request(octets)}


def components(octets, number, field):
    path, kind = FIELDS[number].get(field, (None, None))
    found = []
    while path is not None:
        place = place_of(octets, number, path, kind, len(found))
        if place is None:
            break
        found.append(octets[slice(*place)])
    return tuple(found) or None


def expected(octets, hint=None):
    """What `read_request` returns of a request."""
    request = judge.judged(octets)
    if request.service == "kdc":
        number, message, server = request.message[0] - 0x60, request.message, SERVER
    else:
        number, message, server = 14, judge.frame_of(request.message)[0], TICKET_SERVER
    service = {"kdc": proxy.Service.KDC, "kpasswd": proxy.Service.KPASSWD}[request.service]
    names = components(message, number, CLIENT), components(message, number, server)
    same = judge.names_one_realm(request)
    return (service, request.realm, request.target_domain, same, *names, hint, framed(request.message), request.message)


def try_read(octets, what):
    """A request is read as it is expected to be, or refused by the first rule that it breaks."""
    statuses, found = broken(octets), outcome(proxy.read_request, octets)
    expect((not statuses) == (judge.outcome(octets) is not None), "%s: the rules and the judge differ on %s" % (what, octets.hex()))
    right = found in statuses if statuses else not isinstance(found, Status) and tuple(found) == expected(octets)
    expect(right, "%s: %s, and not %s: %s" % (what, found, statuses, octets.hex()[:2000]))
    return not statuses


# What is tried.


def try_request(message, realm):
    """A message that goes on, and what it may not be."""
    octets = body(framed(message), realm)
    expect(try_read(octets, "a request"), "a request is none: %s" % octets.hex())
    expect(proxy.write_request(message, realm) == octets, "a request is written otherwise")
    for form in (bytearray, memoryview):
        expect(tuple(proxy.read_request(form(octets))) == expected(octets), "a request as %s" % form.__name__)
        expect(proxy.write_request(form(message), form(realm)) == octets, "a request written of %s" % form.__name__)
    for domain in (realm.lower(), realm.upper(), realm.swapcase(), realm + b".", realm[:-1], b"", b"OTHER", None):
        try_read(body(framed(message), domain), "the target-domain %s" % domain)
    for size in range(0, len(octets), 1 if len(octets) < 600 else 7):
        expect(outcome(proxy.read_request, octets[:size]) == Status.TRUNCATED, "a request, cut to %d octets" % size)
    for size in range(0, len(message), 1 if len(message) < 600 else 7):
        try_read(body(framed(message[:size]), realm), "a message, cut to %d octets" % size)
        try_read(body(framed(message)[:size], realm), "a kerb-message, cut to %d octets" % size)
    for more in (b"\0", message, framed(message)):
        try_read(octets + more, "octets behind the request")
        try_read(body(framed(message) + more, realm), "octets behind the kerb-message")
        try_read(body(framed(message + more), realm), "octets behind the message")
    for length in (0, len(message) - 1, len(message) + 1, 0x7FFFFFFF, 0x80000000, 0xFFFFFFFF):
        try_read(body(length.to_bytes(4, "big") + message, realm), "the length %d" % length)
    for each in changed(octets, 400, front=0.6):
        try_read(each, "a changed request")
    for each in changed(message, 200, front=0.6):
        try_read(body(framed(each), realm), "a changed message")
    try_hints(message, realm)


def try_hints(message, realm):
    """dclocator-hint, which is handed out where 64 bits hold it."""
    hints = {b"\0": 0, b"\x7f" + b"\xff" * 7: 2**63 - 1, b"\x80" + bytes(7): -(2**63), b"\0\x80" + bytes(7): None, b"\x40\0\0\1": 0x40000001}
    for digits, hint in hints.items():
        octets = element(0x30, explicit(0, element(0x04, framed(message))), explicit(1, element(0x1B, realm)), explicit(2, element(0x02, digits)))
        found = outcome(proxy.read_request, octets)
        expect(found not in Status.__members__.values() and tuple(found) == expected(octets, hint), "the hint %s: %s" % (digits.hex(), found))


def try_reply(message):
    """A reply goes back, and is read again."""
    octets = body(framed(message), None)
    expect(outcome(proxy.write_reply, framed(message)) == octets, "a reply over a stream: %s" % message.hex())
    expect(outcome(proxy.write_reply_datagram, message) == octets, "a reply in a datagram: %s" % message.hex())
    expect(outcome(proxy.read_reply, octets) == message, "a reply is read otherwise")
    expect(outcome(proxy.write_reply, bytearray(framed(message))) == octets, "a reply as bytearray")
    for wrong, status in ((b"", Status.PROXY_NO_LENGTH), (b"\0\0\0", Status.PROXY_NO_LENGTH), (message[:3], Status.PROXY_NO_LENGTH)):
        expect(outcome(proxy.write_reply, wrong) == status, "a reply of %s" % wrong.hex())
    for wrong in (framed(message)[:-1], framed(message) + b"\0", framed(message) * 2, message, b"\xff\xff\xff\xff" + message):
        expect(outcome(proxy.write_reply, wrong) == Status.PROXY_OTHER_LENGTH, "a reply behind another length: %s" % wrong.hex())
        expect(outcome(proxy.read_reply, body(wrong, None)) == Status.PROXY_OTHER_LENGTH, "the same is read")
    for size in range(0, len(message), 1 if len(message) < 300 else 11):
        cut = message[:size]
        for call, wrong in ((proxy.write_reply, framed(cut)), (proxy.write_reply_datagram, cut), (proxy.read_reply, body(framed(cut), None))):
            expect(isinstance(outcome(call, wrong), Status), "%s of a reply, cut to %d octets" % (call.__name__, size))
    for more in (b"\0", message):
        expect(isinstance(outcome(proxy.write_reply_datagram, message + more), Status), "octets behind a reply")
        expect(isinstance(outcome(proxy.write_reply, framed(message + more)), Status), "octets behind a reply, over a stream")
    for each in changed(message, 300, front=0.6):
        broken_rules, right = {Status[name] for name in rules.of_what_goes(each, True)}, body(framed(each), None)
        for call, octets, answer in ((proxy.write_reply, framed(each), right), (proxy.write_reply_datagram, each, right), (proxy.read_reply, right, each)):
            found = outcome(call, octets)
            expect(found in broken_rules if broken_rules else found == answer, "%s, changed: %s: %s" % (call.__name__, found, each.hex()))
    try_whole(framed(message))


def try_whole(octets):
    """Whether a stream's reply is whole."""
    size = len(octets) - 4
    for cut in range(len(octets)):
        expect(outcome(proxy.is_whole, octets[:cut], size) is False, "%d octets of %d are whole" % (cut, len(octets)))
    for limit in (size, size + 1, 2**31, 2**63, 2**64, 2**100):
        expect(outcome(proxy.is_whole, octets, limit) is True, "a reply is not whole under the limit %d" % limit)
    for limit in (0, size - 1):
        for cut in (4, 5, len(octets)):
            expect(outcome(proxy.is_whole, octets[:cut], limit) == Status.PROXY_TOO_LARGE, "a reply past the limit %d may be whole" % limit)
        expect(outcome(proxy.is_whole, octets[:3], limit) is False, "three octets are past the limit")
    for wrong in (octets + b"\0", octets * 2, b"\x80\0\0\0" + octets, b"\xff" * 4):
        expect(outcome(proxy.is_whole, wrong, 2**64) == Status.PROXY_TOO_LARGE, "a reply may be whole that never will")
    expect(outcome(proxy.is_whole, b"\x7f\xff\xff\xff", 2**64) is False, "a length of 2147483647 is past any limit")
    try:
        proxy.is_whole(octets, -1)
        expect(False, "a limit below 0")
    except ValueError as error:
        expect(not isinstance(error, Refused), "a limit below 0 is refused by the library")


def try_other_messages(rows):
    """Messages that are no request, and none that is a reply, in the place of one."""
    for number, message in rows:
        try_read(body(framed(message), b"EXAMPLE.COM"), "message %d" % number)
        if number not in (11, 13, 30):
            expect(isinstance(outcome(proxy.write_reply, framed(message)), Status), "message %d goes back as a reply" % number)
            expect(isinstance(outcome(proxy.write_reply_datagram, message), Status), "message %d goes back as a reply in a datagram" % number)
            expect(isinstance(outcome(proxy.read_reply, body(framed(message), None)), Status), "message %d is read as a reply" % number)
        if number not in (10, 12):
            expect(isinstance(outcome(proxy.write_request, message, b"EXAMPLE.COM"), Status), "message %d is written as a request" % number)


def try_lenient(message, realm):
    """The frame and the tag alone are looked at."""
    def read(octets):
        found = outcome(proxy.read_request_lenient, octets)
        return found if isinstance(found, Status) else tuple(found)

    def right(octets, service, inner):
        return (service, None, judge.fields_of(octets)[1], None, None, None, None, framed(inner), inner)

    octets = body(framed(message), realm)
    service = proxy.Service(1 + (judge.judged(octets).service == "kpasswd"))
    expect(read(octets) == right(octets, service, message), "a request, leniently: %s" % (read(octets),))
    if service == proxy.Service.KDC:
        for inner in (message[:1] + b"\x02\x30\x00", message.replace(realm, b"\xc3\xa9" + realm[2:])):
            octets = body(framed(inner), realm)
            expect(read(octets) == right(octets, service, inner), "another message, leniently: %s" % (read(octets),))
            expect(isinstance(outcome(proxy.read_request, octets), Status), "another message is read")
    for octets in (body(framed(message) + b"\0", realm), body(framed(message), None), body(framed(b""), realm), body(framed(b"\x6b\x02\x30\x00"), realm), b""):
        expect(isinstance(read(octets), Status), "no frame of a request, leniently: %s" % octets.hex())


def try_large(message, realm):
    """A request of 131072 octets, and one of an octet more."""
    request = Request(body(framed(message), realm))
    spare = judge.LIMIT - len(request.octets)
    numbers, asked = element(0xA1, b"\2\1\5") + element(0xA2, bytes([2, 1, message[0] - 0x60])), judge.content_at(message, message[0], 0x30, 0xA4)
    for more in range(spare - 40, spare + 1):
        padata = element(0x30, element(0xA1, b"\x02\x02\x00\x80") + element(0xA2, element(0x04, bytes(more))))
        fields = numbers + element(0xA3, element(0x30, padata)) + element(0xA4, asked)
        octets = body(framed(element(message[0], element(0x30, fields))), realm)
        try_read(octets, "a request of %d octets" % len(octets))
        yield len(octets)


def try_long_realm(message):
    """A realm of some sixty thousand octets, which is the target-domain too, but for the last octet or not."""
    whole = tree(message)
    for size in (127, 128, 255, 256, 1000, 60000):
        put(field(whole[1][0], 4), 2, text(b"R" * size))
        for domain in (b"R" * size, b"r" * size, b"R" * (size - 1) + b"S", b"R" * (size - 1)):
            try_read(body(framed(written(whole)), domain), "a realm of %d octets" % size)


def try_many_items(message):
    """Requests with so many encryption types that the library has more items than it is given room for at first."""
    whole = tree(message)
    for number in (500, 2040, 2048, 2060, 2100, 10000, 30000):
        put(field(whole[1][0], 4), 8, [0x30, [[0x02, b"\x12"]] * number])
        octets = body(framed(written(whole)), judge.judged(body(framed(message), b"")).realm)
        expect(try_read(octets, "a request with %d encryption types" % number), "a request with %d encryption types is none" % number)


def try_statuses():
    for status in Status:
        if status != Status.DONE:
            right = 413 if status == Status.PROXY_TOO_LARGE else 503 if status == Status.MEMORY else 400
            expect(proxy.http_status(Refused(status)) == right, "the status of HTTP for %s" % status.name)


def main():
    random.seed(3656)
    rows = [(int(number), bytes.fromhex(digits)) for number, digits in rows_in(sys.argv[1])]
    frames = [bytes.fromhex(digits) for kind, digits in rows_in(sys.argv[2]) if kind == "password"]
    try_other_messages(rows)
    seen = dict.fromkeys(("request", "change", "reply", "change's reply"), 0)
    for number, message in rows:
        if number in (10, 12) and not rules.of_message(number, message):
            realm = judge.judged(body(framed(message), b"")).realm
            try_request(message, realm)
            try_lenient(message, realm)
            seen["request"] += 1
        elif number in (11, 13, 30) and judge.is_message(number, message):
            try_reply(message)
            seen["reply"] += 1
    for frame in frames:
        frame = frame[: int.from_bytes(frame[:2], "big")]
        size = int.from_bytes(frame[4:6], "big")
        if frame[6:7] == b"\x6e" and not rules.of_what_goes(frame, False):
            realm = judge.judged(body(framed(frame), b"")).realm
            for version in (1, 0xFF80):
                try_request(password_frame(frame[6 : 6 + size], frame[6 + size :], version), realm)
            try_lenient(frame, realm)
            seen["change"] += 1
        elif judge.is_message(15, frame[6 : 6 + size]) and judge.is_message(21, frame[6 + size :]):
            try_reply(frame)
            seen["change's reply"] += 1
    try_reply(UNREAD_CHANGE)
    for what, number in seen.items():
        expect(number, "no row of a %s" % what)
    requests = [message for number, message in rows if number == 10 and not rules.of_message(10, message)]
    sizes = [size for message in requests[:3] for size in try_large(message, judge.judged(body(framed(message), b"")).realm)]
    expect(judge.LIMIT in sizes and judge.LIMIT + 1 in sizes, "no request of the limit was tried")
    try_long_realm(requests[0])
    try_many_items(requests[0])
    try_statuses()
    return ended()


if __name__ == "__main__":
    sys.exit(main())
