"""Times `krb.proxy.read_request` beside the parser of kdcproxy: speed.py REQUESTS, which has a request in hexadecimal a line. Debian's Python has both.

A line for each request: microseconds of processor time a call, the least of many windows that take turns, and their ratio. Of kdcproxy it is
`decode_proxymessage` and `try_decode` of the right kind of message, which kdcproxy finds by trying one after the other."""

import sys
import time

from kdcproxy import parse_pyasn1
from krb import proxy
from krb.proxy import Service

WINDOWS = 40


def by_kdcproxy(octets, service):
    """What kdcproxy.codec asks its parser of a request, without what it looks at itself."""
    message, _, _ = parse_pyasn1.decode_proxymessage(octets)
    if service == Service.KDC:
        kind = parse_pyasn1.ASREQ if message[4] == 0x6A else parse_pyasn1.TGSREQ
        return parse_pyasn1.try_decode(message[4:], kind)
    end = 10 + int.from_bytes(message[8:10], "big")
    parse_pyasn1.try_decode(message[10:end], parse_pyasn1.APREQ)
    return parse_pyasn1.try_decode(message[end:], parse_pyasn1.KRBPriv)


def window(call, count):
    start = time.process_time()
    for _ in range(count):
        call()
    return (time.process_time() - start) / count * 1e6


def main():
    with open(sys.argv[1], encoding="ascii") as file:
        requests = [bytes.fromhex(line) for line in file]
    for octets in requests:
        request = proxy.read_request(octets)
        name = "password change" if request.service == Service.KPASSWD else "AS-REQ" if request.datagram[0] == 0x6A else "TGS-REQ"
        calls = {"ours": (lambda: proxy.read_request(octets), 500), "theirs": (lambda: by_kdcproxy(octets, request.service), 50)}
        least = dict.fromkeys(calls, float("inf"))
        for _ in range(WINDOWS):
            for which, (call, count) in calls.items():
                least[which] = min(least[which], window(call, count))
        ratio = least["ours"] / least["theirs"]
        times = "read_request %.1f, kdcproxy's parser %.1f microseconds, ratio %.3f" % (least["ours"], least["theirs"], ratio)
        print("%s of %d octets: %s" % (name, len(octets), times))


if __name__ == "__main__":
    main()
