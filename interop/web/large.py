"""A capture of many messages, put together of the messages of tests/pages.rows: `large.py COUNT FILE` writes one, which `krb.web` and `krb.capture` are measured
with. Five clients ask two KDCs, by UDP."""

import os
import random
import struct
import sys

HERE = os.path.dirname(os.path.abspath(__file__))
sys.path[:0] = [HERE, os.path.dirname(HERE)]

from captured import BEGIN, capture, packet  # noqa: E402
from given import pages  # noqa: E402


def large(count):
    """The octets of a capture with so many messages, 50 a second: requests and replies by turns, of initial tickets four times in five. The same each time."""
    known, chance, pieces = {}, random.Random(87), [capture([])]
    for origin, name, octets, expected in pages():
        if origin in ("mit", "heimdal", "samba") and expected[-1].startswith("{"):
            known.setdefault(name, []).append(octets)
    for number in range(count):
        if number % 2 == 0:
            client, kdc, port = "10.0.0.%d" % chance.randrange(1, 6), "10.0.1.%d" % chance.randrange(1, 3), chance.randrange(30000, 60000)
            request, replies = ("AS-REQ", ("AS-REP", "KRB-ERROR", "KRB-ERROR", "KRB-ERROR")) if chance.random() < 0.8 else ("TGS-REQ", ("TGS-REP", "KRB-ERROR"))
            source, target, ports, name = client, kdc, (port, 88), request
        else:
            source, target, ports, name = kdc, client, (88, port), chance.choice(replies)
        octets = chance.choice(known[name])
        frame = packet(source, target, 17, struct.pack(">HHHH", *ports, 8 + len(octets), 0) + octets)
        pieces.append(struct.pack("<IIII", BEGIN + number // 50, number % 50 * 20000 + 5, len(frame), len(frame)) + frame)
    return b"".join(pieces)


if __name__ == "__main__":
    with open(sys.argv[2], "wb") as file:
        file.write(large(int(sys.argv[1])))
