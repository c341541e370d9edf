"""How a client reaches KDCs: several of them, ones that are of no use, krb5.conf, DNS, and a KDC proxy over HTTPS."""

import os
import struct
import time

import krb
from checks import expect, say
from realm import PASSWORD, REALM, free_port
from servers import Datagrams, Relay, Saying, Server, framed, name_in
from script import TOP

HERE = os.path.dirname(os.path.abspath(__file__))
USER = "u18@" + REALM


def kinit(kdc=None, **more):
    return krb.kinit(USER, PASSWORD, kdc=kdc, **more)


def unreachable(title, kdc, most, **more):
    """That no ticket comes, within so many seconds, and a line says why."""
    begun = time.monotonic()
    try:
        kinit(kdc, **more)
        expect(False, "%s: a ticket" % title)
    except krb.KdcUnreachable as error:
        seconds = time.monotonic() - begun
        expect(seconds < most and "\n" not in str(error) and REALM in str(error), "%s: %.1f s: %s" % (title, seconds, error))


class Endless(Server):
    """Says that its reply has so many octets, and sends octets without an end, so many at once."""

    def __init__(self, size, part, pause):
        self.size, self.part, self.pause, self.sent = size, part, pause, 0
        super().__init__()

    def serve(self, link):
        link.recv(1 << 16)
        link.sendall(struct.pack(">I", self.size))
        while True:
            link.sendall(bytes(self.part))
            self.sent += self.part
            time.sleep(self.pause)


def try_useless(realm):
    """KDCs that are of no use, alone and before one that is."""
    closed = "127.0.0.1:%d" % free_port()
    servers = [
        ("closes at once", Saying(b"")),
        ("closes within its length", Saying(b"\0\0")),
        ("closes within its reply", Saying(struct.pack(">I", 100) + bytes(50))),
        ("says more than 2^20 octets", Endless((1 << 20) + 1, 1 << 16, 0.0)),
        ("says 2^32 - 1 octets", Endless(2**32 - 1, 1 << 16, 0.0)),
        ("sends more than it says", Endless(100, 1 << 16, 0.0)),
        ("sends an octet at a time", Endless(1 << 20, 1, 0.2)),
        ("says nothing", Saying(b"", waits=True)),
    ]
    for title, server in servers:
        unreachable("a KDC that %s" % title, server.kdc, 3.5, timeout=1.5)
        got = kinit([server.kdc, realm.kdc], timeout=1.0)
        expect(got.is_valid, "a KDC that %s, before another" % title)
        if isinstance(server, Endless):
            expect(server.sent < 1 << 23, "a KDC that %s: %d octets were taken" % (title, server.sent))
        server.stop()
    unreachable("a KDC that is not there", closed, 2)
    expect(kinit([closed, realm.kdc]).is_valid, "a KDC that is not there, before another")
    unreachable("two that are not there", [closed, "udp/" + closed], 3)
    unreachable("a host of no name", "no-such-host.invalid", 30)
    for word in ("", "a b", "tcp/", "host:port", "http://host/", "https://", "host:99999999"):
        try:
            kinit(word)
            expect(False, "%a is an address" % word)
        except (ValueError, OSError) as error:
            expect(isinstance(error, (ValueError, krb.KdcUnreachable)), "%a: %s" % (word, error))
    most = 1 << 20  # octets of a reply
    for octets, is_taken in ((b"", False), (framed(b""), True), (framed(b"HTTP/1.1 400 Bad Request\r\n\r\n"), True), (framed(bytes(most)), True), (framed(bytes(most + 1)), False)):
        server = Saying(octets)
        try:
            kinit(server.kdc, timeout=3)
            expect(False, "a reply %a: a ticket" % octets[:40])
        except (krb.NotGranted, krb.KdcUnreachable) as error:
            right = error.rule == krb.ClientRule.OTHER_MESSAGE if isinstance(error, krb.NotGranted) else not is_taken
            expect(right and isinstance(error, krb.NotGranted) == is_taken, "a reply %a: %s" % (octets[:40], error))
        server.stop()
    relays = [Relay(realm.port), Relay(realm.port)]
    got = kinit([each.kdc for each in relays])
    got.ticket_for("HTTP/localhost")
    expect([len(each.kept) for each in relays] == [3, 0], "the first KDC is asked, and the second is not: %s" % [len(each.kept) for each in relays])
    from changes import error as made

    busy = Saying(framed(made(29)))
    expect(kinit([busy.kdc, realm.kdc]).is_valid, "a KDC that says KDC_ERR_SVC_UNAVAILABLE, before another")
    for each in (*relays, busy):
        each.stop()
    say("KDCs that are of no use")


CONF = """# a comment
[libdefaults]
\tdefault_realm = %s
[realms]
 ELSE.TEST = { kdc = nowhere
 }
 %s = {
  kdc = %s
  kdc = tcp/127.0.0.1:%d
 }
include %s
"""


def try_configuration(realm):
    included = realm.write("included.conf", "[realms]\n MORE.TEST = {\n  kdc = here\n }\n")
    closed = "tcp/127.0.0.1:%d" % free_port()
    text = CONF.replace("ELSE.TEST = { kdc = nowhere\n }", "ELSE.TEST = {\n  kdc = nowhere\n }") % (REALM, REALM, closed, realm.port, included)
    path = realm.write("ways.conf", text)
    expect(krb.kinit("u18", PASSWORD, configuration=path).client == USER, "the default realm and the KDCs of krb5.conf")
    unreachable("a realm of which krb5.conf has no KDC", None, 2, configuration=realm.write("none.conf", "[libdefaults]\n default_realm = %s\n" % REALM))
    os.environ["KRB5_CONFIG"] = path
    expect(kinit().is_valid, "KRB5_CONFIG")
    os.environ["KRB5_CONFIG"] = realm.environment["KRB5_CONFIG"]
    say("krb5.conf")


# DNS.


def named(text):
    return b"".join(bytes([len(each)]) + each for each in text.encode().split(b".")) + b"\0"


def answers(records, code=0, cut=False, wrong=0):
    """A name server's answers: the SRV records of each name, with the question's name and the target's end compressed."""

    def answer(_, query):
        name, end = name_in(query)
        question, found = query[12 : end + 4], records.get(name, [])
        body = b""
        for priority, weight, port, target in found:
            data = struct.pack(">HHH", priority, weight, port) + named(target)
            body += b"\xc0\x0c" + struct.pack(">HHIH", 33, 1, 60, len(data)) + data
        flags = 0x8180 | code | (0x0200 if cut else 0)
        number = int.from_bytes(query[:2], "big") ^ wrong
        return [struct.pack(">6H", number, flags, 1, len(found), 0, 0) + question + body]

    return answer


def try_dns(realm):
    """SRV records, by a name server on 127.0.0.1. Names of hosts are the system's to find."""
    empty = realm.write("empty.conf", "")
    tcp, udp = "_kerberos._tcp." + REALM, "_kerberos._udp." + REALM
    closed = free_port()

    def by(records, **more):
        server = Datagrams(answers(records, **more))
        try:
            return kinit(dns="127.0.0.1:%d" % server.port, configuration=empty, timeout=2.0), server.count
        finally:
            server.stop()

    for title, records in (
        ("TCP", {tcp: [(0, 0, realm.port, "localhost")]}),
        ("UDP", {udp: [(0, 0, realm.port, "localhost")]}),
        ("the second by priority", {tcp: [(20, 0, realm.port, "localhost"), (10, 0, closed, "localhost")]}),
        ("a service that is not there, and one", {tcp: [(0, 0, 0, "")], udp: [(0, 0, realm.port, "localhost")]}),
    ):
        got, count = by(records)
        expect(got.is_valid and count >= 2, "DNS, %s: %d questions" % (title, count))
    for title, records, more in (
        ("no record", {}, {}),
        ("no such name", {}, {"code": 3}),
        ("an error", {tcp: [(0, 0, realm.port, "localhost")]}, {"code": 2}),
        ("answers to another question", {tcp: [(0, 0, realm.port, "localhost")]}, {"wrong": 1}),
        ("an answer that is cut, and no TCP", {tcp: [(0, 0, realm.port, "localhost")]}, {"cut": True}),
    ):
        try:
            by(records, **more)
            expect(False, "DNS, %s: a ticket" % title)
        except krb.KdcUnreachable as error:
            expect("\n" not in str(error), "DNS, %s: %s" % (title, error))
    loop = Datagrams(lambda _, query: [query[:2] + b"\x81\x80\0\1\0\1\0\0\0\0" + query[12:] + b"\xc0" + bytes([len(query)])])
    unreachable("DNS, a name that goes on in itself", None, 6, dns="127.0.0.1:%d" % loop.port, configuration=empty, timeout=1.0)
    loop.stop()
    asked = Datagrams(lambda _, query: [])
    unreachable("DNS, which is not asked unless it is asked for", None, 1, configuration=empty)
    expect(asked.count == 0, "DNS was asked")
    asked.stop()
    say("DNS")


# A KDC proxy.


class Web(Server):
    """An HTTP server, with TLS, that answers these octets to whatever comes."""

    def __init__(self, realm, octets):
        import ssl

        self.octets, self.context = octets, ssl.SSLContext(ssl.PROTOCOL_TLS_SERVER)
        self.context.load_cert_chain(realm.path("cert.pem"), realm.path("key.pem"))
        super().__init__()

    def serve(self, link):
        with self.context.wrap_socket(link, server_side=True) as inner:
            inner.recv(1 << 16)
            inner.sendall(self.octets)
            try:
                inner.unwrap()
            except (OSError, ValueError):
                pass


def try_proxy(realm):
    """examples/kdc_proxy behind TLS, and servers of HTTPS that are of no use."""
    realm.certificate()
    settings = realm.write("kdc_proxy.conf", "[proxy]\n[%s]\nkdc = 127.0.0.1:%d\n" % (REALM, realm.port))
    port = free_port()
    environment = dict(os.environ, KDC_PROXY_CONFIG=settings, PYTHONPATH=os.pathsep.join([os.path.join(TOP, "python"), os.path.join(TOP, "examples", "kdc_proxy")]))
    realm.start(["/usr/bin/python3", "-B", os.path.join(HERE, "proxy.py"), str(port), realm.home], environment, port)
    lines = "[realms]\n %s = {\n  kdc = https://localhost:%d/KdcProxy\n%s }\n"
    trusted = realm.write("proxy.conf", lines % (REALM, port, "  http_anchors = FILE:%s\n" % realm.path("cert.pem")))
    got = kinit(configuration=trusted)
    expect(got.is_valid and got.ticket_for("HTTP/localhost").is_valid, "through a KDC proxy")
    url = "https://127.0.0.1:%d/KdcProxy" % port
    expect(kinit(url, configuration=trusted).is_valid, "through a KDC proxy that is named")
    try:
        krb.kinit("nobody@" + REALM, PASSWORD, configuration=trusted)
        expect(False, "an unknown client through a KDC proxy: a ticket")
    except krb.NotGranted as refused:
        expect(refused.code == 6, "an unknown client through a KDC proxy: %s" % refused)
    unreachable("a KDC proxy whose certificate nobody trusts", "https://localhost:%d/KdcProxy" % port, 3, configuration=realm.write("empty.conf", ""))
    unreachable("a KDC proxy of another name", "https://127.0.0.2:%d/KdcProxy" % port, 3, configuration=trusted)
    body = bytes.fromhex("3003a00104")
    head = "HTTP/1.1 200 OK\r\nContent-Type: application/kerberos\r\nContent-Length: %d\r\n\r\n"
    for title, octets in (
        ("that closes", b""),
        ("that speaks no HTTP", b"hello\r\n\r\n"),
        ("that answers 404", b"HTTP/1.1 404 Not Found\r\nContent-Length: 0\r\n\r\n"),
        ("that redirects", b"HTTP/1.1 302 Found\r\nLocation: http://127.0.0.1/\r\nContent-Length: 0\r\n\r\n"),
        ("that answers no KDC-PROXY-MESSAGE", (head % 5).encode() + body),
        ("that answers too few octets", (head % 500).encode() + body),
        ("that answers too many octets", (head % (1 << 22)).encode() + bytes(1 << 22)),
        ("with headers without an end", b"HTTP/1.1 200 OK\r\n" + b"X: y\r\n" * 300000),
    ):
        server = Web(realm, octets)
        unreachable("a KDC proxy %s" % title, "https://127.0.0.1:%d/KdcProxy" % server.port, 4, configuration=trusted, timeout=2.0)
        server.stop()
    say("a KDC proxy")


def try_ways(realm):
    try_useless(realm)
    try_configuration(realm)
    try_dns(realm)
    try_proxy(realm)
