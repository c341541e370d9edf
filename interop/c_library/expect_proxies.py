"""What the calls of a KDC proxy are to answer: expect_proxies.py MESSAGES FRAMES, whose rows have a number or a kind, and octets in hexadecimal.

A row for each call: its name, octets, what else it takes (a realm or a limit), the statuses of which it answers one, with | between them, and what it tells or
the octets that it answers. It reads by ../kdc_proxy_parts, judge.py and rules.py, which share nothing with the library."""

import os
import random
import sys

sys.dont_write_bytecode = True
HERE = os.path.dirname(os.path.abspath(__file__))
sys.path += [os.path.join(HERE, ".."), os.path.join(HERE, "..", "kdc_proxy_parts")]

import judge  # noqa: E402
import rules  # noqa: E402
from mutants import body, flipped, framed, password_frame  # noqa: E402
from tables import rows_in  # noqa: E402


def row(call, octets, beside, broken, *told):
    told = told if not broken else [0 if isinstance(each, int) else "" for each in told]
    print(call, octets.hex(), beside, "|".join(sorted(broken)) or "DONE", *told, sep="\t")


def requests(octets):
    """What is told of a request: the service, whether it names one realm, and the message's place."""
    broken, lenient = rules.of_request(octets), rules.of_lenient_request(octets)
    message = judge.fields_of(octets)[0][4:] if not lenient else b""
    place = octets.index(framed(message)) + 4 if not lenient else 0
    service = 2 if rules.begins_as_frame(message, False) else 1
    same = judge.names_one_realm(judge.judged(octets)) if not broken else False
    row("request", octets, "", broken, service, int(same), place, len(message))
    row("lenient", octets, "", lenient, service, 0, place, len(message))


def replies(message):
    """A reply over a stream, in a datagram, and as its client reads it."""
    posted = body(framed(message), None)
    row("reply", framed(message), "", rules.of_reply(framed(message)), posted.hex())
    row("datagram", message, "", rules.of_what_goes(message, True), posted.hex())
    row("read", posted, "", rules.of_posted_reply(posted), 0, 0, posted.index(framed(message)) + 4, len(message))


def streams(octets, limit):
    """Whether a reply is whole."""
    size = int.from_bytes(octets[:4], "big")
    never = len(octets) >= 4 and (size > min(limit, 2**31 - 1) or len(octets) > 4 + size)
    row("whole", octets, limit, {"PROXY_TOO_LARGE"} if never else set() if len(octets) >= 4 and len(octets) == 4 + size else {"TRUNCATED"})


def written(message, realm):
    """The client's half."""
    posted = body(framed(message), realm)
    row("client", message, realm.hex(), rules.of_request(posted) if realm.isascii() else {"INVALID"}, posted.hex())


def changed(octets, count):
    return [flipped(octets, random.randrange(len(octets)), random.randrange(8)) for _ in range(count)]


def of_request(message, realm):
    octets = body(framed(message), realm)
    cuts = [octets[:size] for size in range(0, len(octets), 1 + len(octets) // 40)]
    domains = [body(framed(message), domain) for domain in (realm.lower(), realm.swapcase(), realm + b".", b"", None)]
    lengths = [body(length.to_bytes(4, "big") + message, realm) for length in (0, len(message) - 1, len(message) + 1, 2**31, 2**32 - 1)]
    inner = [body(framed(each), realm) for each in (b"", b"\x6a", b"\x6a\2\x30\0", message[:-1], message + b"\0", *changed(message, 40))]
    for each in [octets, octets + b"\0", octets * 2, *cuts, *domains, *lengths, *inner, *changed(octets, 60)]:
        requests(each)
    for domain in (realm, realm.lower(), b"", b"caf\xc3\xa9", b"R" * 300):
        written(message, domain)
    for each in changed(message, 20):
        written(each, realm)


def of_reply(message):
    octets = framed(message)
    for each in [message, message[:-1], message + b"\0", b"", *changed(message, 40)]:
        replies(each)
    for each in (octets[:3], octets[:-1], octets + b"\0", octets * 2, b"\xff\xff\xff\xff" + message):
        row("reply", each, "", rules.of_reply(each), "")
        row("read", body(each, None), "", rules.of_posted_reply(body(each, None)), 0, 0, 0, 0)
    for each in (b"", octets[:3], octets[:4], octets[:-1], octets, octets + b"\0", b"\x7f\xff\xff\xff", b"\x80\0\0\0"):
        for limit in (0, len(message) - 1, len(message), 2**31, 2**64 - 1):
            streams(each, limit)


def main():
    random.seed(131072)
    rows = [(int(number), bytes.fromhex(digits)) for number, digits in rows_in(sys.argv[1])]
    frames = [bytes.fromhex(digits) for kind, digits in rows_in(sys.argv[2]) if kind == "password"]
    for number, message in rows:
        if not rules.of_what_goes(message, False):
            of_request(message, judge.judged(body(framed(message), b"")).realm)
        elif not rules.of_what_goes(message, True):
            of_reply(message)
        else:
            requests(body(framed(message), b"EXAMPLE.COM"))
            replies(message)
    for frame in frames:
        frame, size = frame[: int.from_bytes(frame[:2], "big")], int.from_bytes(frame[4:6], "big")
        if not rules.of_what_goes(frame, False):
            realm = judge.judged(body(framed(frame), b"")).realm
            of_request(frame, realm)
            of_request(password_frame(frame[6 : 6 + size], frame[6 + size :], 0xFF80), realm)
        elif not rules.of_what_goes(frame, True):
            of_reply(frame)


if __name__ == "__main__":
    main()
