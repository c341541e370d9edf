"""What needs no KDC: names, durations, krb5.conf, addresses, refusals and files."""

import os
import pickle
import sys

import krb
from checks import expect, say
from krb import _arguments, _ccache, _configuration, _dns, _exchange, _kdc, _names, _times
from refusals import rule_of
from script import at_once


def raises(kind, call):
    try:
        call()
        return False
    except kind:
        return True


def try_names():
    rows = [
        ("carol@HOME.TEST", ("carol",), "HOME.TEST"),
        ("HTTP/www.home.test@HOME.TEST", ("HTTP", "www.home.test"), "HOME.TEST"),
        ("a\\/b/c\\@d\\\\e@R", ("a/b", "c@d\\e"), "R"),
        ("a/@R", ("a", ""), "R"),
        ("a@R/S", ("a",), "R/S"),
    ]
    for text, components, realm in rows:
        name = _names.parsed(text)
        expect((name.components, name.realm) == (components, realm), "%s: %s" % (text, name))
        expect(_names.parsed(name.text) == name, "%s: its text %s" % (text, name.text))
    expect(_names.parsed("a", "R").text == "a@R", "a realm that is added")
    for text in ("a", "a@", "a@b@c", "a\\", "a\\n@R", "\u00e4@R", "a@\u00c4"):
        expect(raises(ValueError, lambda: _names.parsed(text)), "%a is a name" % text)
    expect(_names.ticket_granting("B", "A").text == "krbtgt/B@A" and _names.ticket_granting("A").granting_realm == "A", "krbtgt")
    expect(_names.parsed("HTTP/a@R").granting_realm is None and _names.parsed("krbtgt@R").granting_realm is None, "no krbtgt")


def try_words():
    for text, seconds in (("10h", 36000), ("1d", 86400), ("1d2h3m4s", 93784), ("3h30m", 12600), ("90s", 90), ("36000", 36000), ("10:30", 37800), ("1:00:05", 3605)):
        expect(_arguments.duration(text) == seconds, "%s: %d" % (text, _arguments.duration(text)))
    for text in ("", "h", "10x", "1h1d", "-5", "1:2:3:4"):
        expect(raises(Exception, lambda: _arguments.duration(text)), "%a is a duration" % text)
    both, tcp = ["tcp", "udp"], ["tcp"]
    rows = [("kdc", both, "kdc", 88), ("kdc:750", both, "kdc", 750), ("tcp/kdc:1", tcp, "kdc", 1), ("[::1]:88", both, "::1", 88), ("::1", both, "::1", 88)]
    for word, kinds, host, port in rows + [("udp/[::1]", ["udp"], "::1", 88), ("192.0.2.1:88", both, "192.0.2.1", 88)]:
        expect([tuple(each)[:3] for each in _kdc.addresses(word)] == [(kind, host, port) for kind in kinds], "%s: %s" % (word, _kdc.addresses(word)))
    for word, expected in (("https://h/KdcProxy", ("https", "h", 443, "/KdcProxy")), ("https://[::1]:8/", ("https", "::1", 8, "/")), ("https://h", ("https", "h", 443, "/"))):
        expect([tuple(each) for each in _kdc.addresses(word)] == [expected], "%s: %s" % (word, _kdc.addresses(word)))


CONF = """; a comment
 # another
[libdefaults]
  default_realm = A.TEST
  quoted = "a \\"b\\" = {"
[realms]
  A.TEST = {
    kdc = one.a.test:88
    kdc = https://two.a.test/KdcProxy
    auth_to_local_names = {
      x = y
    }
    http_anchors = FILE:/a.pem
  }
  B.TEST* = {
    kdc = b
  }*
[libdefaults]
  default_realm = LATER.TEST
[realms]
  A.TEST = {
    kdc = three.a.test
  }
"""


def try_configuration(realm):
    read = lambda text: _configuration.Configuration(realm.write("unit.conf", text))  # noqa: E731
    found = read(CONF)
    expect(found.default_realm == "A.TEST", "the default realm %s" % found.default_realm)
    expect(found.kdcs("A.TEST") == ["one.a.test:88", "https://two.a.test/KdcProxy", "three.a.test"], "the KDCs %s" % found.kdcs("A.TEST"))
    expect(found.kdcs("B.TEST") == ["b"] and found.kdcs("C.TEST") == [] and found.anchors("A.TEST") == ["FILE:/a.pem"], "the other realms")
    expect(found.values("libdefaults", "quoted") == ['a "b" = {'], "a value in quotation marks")
    expect(read("").default_realm is None, "an empty file")
    servers = read("[realms]\n A = {\n  kdc = a:88\n  kdc = tcp/[::1]:88\n  kdc = b\n  kdc = https://c:1/x\n  kdc = ::1\n }\n B = {\n  kdc = a:88\n  kpasswd_server = d:1\n }\n")
    expect(servers.password_servers("A") == ["a", "tcp/[::1]", "b", "https://c:1/x", "::1"] and servers.password_servers("B") == ["d:1"], "where passwords are changed")
    for text in ("a = b\n", "[s\n", "[s]\na\n", "[s]\na = {\n", "[s]\n}\n", "[s]\na = {\n[t]\n", '[s]\na = "b\n', "module a:b\n", "include /no/such/file\n"):
        expect(raises((ValueError, OSError), lambda: read(text)), "%a is read" % text)
    path = realm.path("unit.conf")
    expect(raises(ValueError, lambda: read("include %s\n" % path)), "a file that includes itself")
    expect(raises(OSError, lambda: _configuration.Configuration("/no/such/file")), "a file that is not there")
    folder = realm.path("conf.d")
    os.mkdir(folder)
    for name, value in (("b", "second"), ("a.conf", "first"), (".hidden.conf", "never"), ("a~", "never"), ("x.txt", "never")):
        realm.write(os.path.join("conf.d", name), "[realms]\n A = {\n  kdc = %s\n }\n" % value)
    expect(read("includedir %s\n[realms]\n A = {\n  kdc = third\n }\n" % folder).kdcs("A") == ["first", "second", "third"], "includedir")
    two = ":".join(realm.write("unit-%d.conf" % n, "[libdefaults]\n default_realm = R%d\n" % n) for n in (1, 2))
    expect(_configuration.Configuration(two).default_realm == "R1", "two files")


def try_rest(realm):
    for refused in (krb.NotGranted(28, 6), krb.NotGranted(11), krb.NotGranted(28, 37, "the service"), krb.NotGranted(28, 9999)):
        again = pickle.loads(pickle.dumps(refused))
        expect((again.rule, again.code, str(again)) == (refused.rule, refused.code, str(refused)), "%s: pickled: %s" % (refused, again))
        expect(isinstance(again, krb.Refused) and again.status == krb.Status.NOT_GRANTED == 42, "%s: its status" % refused)
    for rule in krb.ClientRule:
        expect(len(str(krb.NotGranted(rule)).split(": ", 1)) == 2, "the text of %s" % rule.name)
    client = _names.parsed("a@R")
    entry = _ccache.Entry(client, client, krb.EncryptionKey(18, krb.Secret(bytes(32))), 1, 2, 3, 0, 0, b"x", False, ((2, b"abcd"),), ((1, b"y"),), b"z")
    for offset in (None, 5, -5):
        cache = _ccache.Cache(client, offset, (entry, entry))
        expect(_ccache.read_octets(_ccache.written(cache)) == cache, "a file of entries, written and read, offset %s" % offset)
    for time in (-1, 2**32):
        expect(raises(ValueError, lambda: _ccache.written(_ccache.Cache(client, None, (entry._replace(end_time=time),)))), "the time %d in a file" % time)
    servers = [_dns.Server(1, 0, 1, "a"), _dns.Server(0, 5, 2, "b"), _dns.Server(0, 0, 3, "c"), _dns.Server(2, 9, 4, "d")]
    ordered = _dns._in_order(list(servers))
    expect(sorted(ordered) == sorted(servers) and [each.priority for each in ordered] == [0, 0, 1, 2], "the order of %s" % ordered)
    expect("32" in repr(entry.session_key) and "00" not in repr(entry.session_key), "a key is shown: %r" % (entry.session_key,))
    expect(raises(ValueError, lambda: krb.kinit("a@R")) and raises(ValueError, lambda: krb.kinit("a@R", "x", b"y")), "a password or a keytab")


def try_turns():
    """An exchange begins once, by no octets, and takes none later; one for a further ticket may begin with the KDC's time."""
    other, wanted = "OTHER_MESSAGE", _exchange.Wanted(_names.parsed("a@R"), _names.ticket_granting("R"), (18,))
    exchange = _exchange.Exchange(wanted, _exchange.Limits(), lambda: 1.5, b"x")
    expect(rule_of(exchange.step, b"") == other and rule_of(exchange.step, b"\x6b\0") == other, "an exchange that has not begun takes octets")
    expect(exchange.begin().follows == _exchange.Follows.SENDS, "an exchange does not begin")
    expect(rule_of(exchange.step, b"") == other and rule_of(exchange.begin) == other, "an exchange begins anew")
    expect(rule_of(exchange.step, b"\x6b\0") == "MESSAGE", "an exchange that has begun takes no octets")


def try_times():
    """No second and microsecond twice: of a clock that stands, in threads, and of one that is set back."""
    now, given = [1795763470.25], []

    def draw(count, clock, *offsets):
        given.extend([_times.moment(clock, offset) for _ in range(count) for offset in offsets])

    usual = sys.getswitchinterval()
    sys.setswitchinterval(1e-6)  # threads take turns within a call, so that what is not locked is seen
    at_once(8, lambda: draw(500, lambda: now[0], 0, 3, -2))
    sys.setswitchinterval(usual)
    expect(max(given) < (1795763475, 0) and min(given) == (1795763468, 250000), "a clock that stands: %s to %s" % (min(given), max(given)))
    now[0] -= 5000
    draw(1000, lambda: now[0], 0, 0)
    expect(given[-1] == (1795758470, 251999), "a clock that is set back: %s" % (given[-1],))
    now[0] = 1795763470.999999
    draw(10, lambda: now[0], 0)
    expect(given[-10:] == [(1795763470, 999999)] + [(1795763471, number) for number in range(9)], "the end of a second: %s" % given[-10:])
    for start in (1795763470, 1795763460, 0):  # past the seconds that are kept
        for second in range(20000):
            draw(1, lambda: start + second, 0)
    expect(len(set(given)) == len(given), "a time was given out twice: %d of %d" % (len(given) - len(set(given)), len(given)))


def try_units(realm):
    try_turns()
    try_times()
    try_names()
    try_words()
    try_configuration(realm)
    try_rest(realm)
    say("turns, times, names, words, krb5.conf and files")
