"""What of `krb.accept` needs no client: replay caches, the order of messages, texts of names, refusals."""

import os
import pickle
import stat
import threading
import time

import krb
from checks import expect
from octets import octets_in
from script import at_once
from krb import _context as context_of
from krb._window import SequenceWindow


def entry(seconds, microseconds=0, client=(b"ann",)):
    """An entry, laid out as krb.h says (krb_accepted)."""
    names = b"HOME.TEST\xffHTTP\xfflocalhost\xff\xfeHOME.TEST\xff" + b"".join(each + b"\xff" for each in client) + b"\xfe"
    return seconds.to_bytes(8, "big", signed=True) + microseconds.to_bytes(4, "big") + names


def try_cache(title, make):
    """A sequence of entries, with the time before which all may be forgotten, and whether each is new, or the time before which all is forgotten."""
    cache = make("now")
    expect(0 <= cache.whole_since - time.time() + 1 <= 3, "%s: whole since %s" % (title, cache.whole_since))
    expect(make(None).whole_since is None and make(17.5).whole_since == 18, "%s: whole_since" % title)
    for seconds, microseconds, client, before, wanted in (
        (1000, 0, b"ann", 700, True),
        (1000, 0, b"ann", 700, False),
        (1000, 1, b"ann", 700, True),
        (1000, 0, b"bob", 700, True),
        (999, 0, b"ann", 700, True),
        (1000, 0, b"ann", 1000, False),
        (999, 0, b"ann", 1000, 1000),
        (2000, 0, b"ann", 1700, True),
        (1700, 0, b"ann", 1700, True),
        (1700, 0, b"ann", 500, False),
        (1000, 0, b"carol", 500, 1700),
        (1701, 0, b"carol", 500, True),
        (-5, 0, b"ann", -10, 1700),
    ):
        got = added(cache, entry(seconds, microseconds, (client,)), before)
        expect(got == wanted and type(got) is type(wanted), "%s: %d.%d of %s: %s" % (title, seconds, microseconds, client, got))
    expect(len(cache) == 3, "%s: %d entries are left" % (title, len(cache)))


def added(cache, octets, before):
    """What `add` answers; the time of which it says that all before is forgotten."""
    try:
        return cache.add(octets, before)
    except krb.Forgotten as forgotten:
        return pickle.loads(pickle.dumps(forgotten)).before


def in_child(call):
    """What a call returns, or the error that it raises, as text, in a process that is forked."""
    reader, writer = os.pipe()
    child = os.fork()
    if child == 0:
        try:
            text = repr(call())
        except BaseException as error:
            text = "%s: %s" % (type(error).__name__, error)
        os.write(writer, text.encode())
        os._exit(0)
    os.close(writer)
    with open(reader, encoding="utf-8") as file:
        text = file.read()
    os.waitpid(child, 0)
    return text


def try_forked():
    """A cache in memory is of one process."""
    cache = krb.ReplayCache(None)
    said = in_child(lambda: cache.add(entry(1000), 0))
    expect(said.startswith("RuntimeError: ") and "krb.FileReplayCache" in said, "a ReplayCache in a process that was forked: %s" % said)
    expect(cache.add(entry(1000), 0) and not cache.add(entry(1000), 0), "a ReplayCache in its own process")


def try_threads(title, cache):
    """Of eight threads with one entry, one adds it."""
    for n in range(50):
        added = at_once(8, lambda: cache.add(entry(5000 + n), 4000))
        expect(sorted(added) == [False] * 7 + [True], "%s: threads: %s" % (title, added))


def try_growth():
    """200,000 entries in the time of their number, and few of them kept."""
    cache, begun = krb.ReplayCache(None), time.monotonic()
    times = []
    for n in range(200000):
        cache.add(entry(10000 + n // 100), 10000 + n // 100 - 600)
        cache.add(entry(10000 + n // 100, n), 10000 + n // 100 - 600)
        if n % 50000 == 49999:
            times.append(time.monotonic() - begun)
    expect(len(cache) <= 601 * 101, "a cache keeps %d entries" % len(cache))
    expect(times[3] < 8 * times[0] + 1, "the times of 50,000 entries and of four times as many: %s" % times)


def try_file(path):
    """The file's mode, what another object and another process find in it, and files that are refused."""
    cache = krb.FileReplayCache(path, whole_since=None)
    cache.add(entry(1000), 0)
    again = krb.FileReplayCache(path)
    expect(again.whole_since is None and not again.add(entry(1000), 0) and again.add(entry(1001), 0), "a file that is opened again")
    modes = {stat.S_IMODE(os.stat(each).st_mode) for each in (path, path + "-wal")}
    expect(modes == {0o600}, "the modes of a cache's files: %s" % modes)
    said = in_child(lambda: (cache.add(entry(1002), 0), cache.add(entry(1001), 0)))
    expect(said == "(True, False)" and not cache.add(entry(1002), 0), "a process that was forked with an open cache: %s" % said)
    os.chmod(path, 0o620)
    link = path + "-link"
    os.symlink(path, link)
    garbage = path + "-garbage"
    with open(os.open(garbage, os.O_WRONLY | os.O_CREAT, 0o600), "wb") as file:
        file.write(b"no database" * 100)
    for what in (path, link, os.path.dirname(path), garbage, os.path.join(path, "below")):
        try:
            krb.FileReplayCache(what)
            expect(False, "%s is taken for a cache" % what)
        except Exception as error:
            expect(isinstance(error, OSError) == (what != garbage), "%s: %r" % (what, error))


def try_lost(path):
    """A cache's file that has not what it had, or is another user's: refused when it is opened, and where a process has it open."""

    def text_of(call):
        error = raised(call, True)
        return "%s: %s" % (type(error).__name__, error)

    def begun(name):
        cache = krb.FileReplayCache(path + name, None)
        expect(cache.add(entry(1000), 0), "%s: a new cache" % name)
        return cache, path + name

    empty = path + "-empty"
    os.close(os.open(empty, os.O_WRONLY | os.O_CREAT, 0o600))
    said = text_of(lambda: krb.FileReplayCache(empty, None))
    expect(said.startswith("OSError: %s has no octets" % empty) and empty + "-wal" in said, "a file of no octets: %s" % said)
    for name, what, wanted in (
        ("-emptied", lambda at: os.truncate(at, 0), "has no octets"),
        ("-removed", os.unlink, "was removed"),
        ("-replaced", lambda at: (krb.FileReplayCache(at + "-2", None).close(), os.replace(at + "-2", at)), "was replaced by another file"),
    ):
        cache, at = begun(name)
        what(at)
        for turn in range(2):
            said = text_of(lambda: cache.add(entry(1000), 0))
            expect(said.startswith("OSError: %s %s" % (at, wanted)), "a file that is open, %s: %s" % (name, said))
        said = in_child(lambda: cache.add(entry(1000), 0))
        expect(said.startswith("OSError: %s %s" % (at, wanted)), "a file that is open, in a process that was forked, %s: %s" % (name, said))
        again = text_of(lambda: krb.FileReplayCache(at, None))
        there = {"-emptied": "has no octets", "-removed": "is not there, and what SQLite keeps beside it is (-wal, -shm)", "-replaced": "None"}[name]
        expect(there in again, "a file that is opened again, %s: %s" % (name, again))
        cache.close()
    cache, at = begun("-without")
    cache._connection().execute("DELETE FROM state")
    for what, call in (("open", lambda: cache.add(entry(1000), 0)), ("opened again", lambda: krb.FileReplayCache(at, None))):
        said = text_of(call)
        expect(said.startswith("OSError: %s does not say since when it is whole" % at), "a file without a state, %s: %s" % (what, said))
    if os.geteuid() == 0:
        cache, at = begun("-owner")
        os.chown(at, 65534, -1)
        for call in (lambda: cache.add(entry(1001), 0), lambda: krb.FileReplayCache(at)):
            said = text_of(call)
            expect(said.startswith("PermissionError: ") and "another user's" in said, "another user's file: %s" % said)
    left = [each for each in os.listdir(os.path.dirname(path)) if not each.endswith(("-wal", "-shm")) and each.count("-") > 3]
    expect(not left, "names that were left behind: %s" % left)


def try_begun_together(path):
    """Eight processes that make one file at once: each finds it whole, and one entry is new once."""
    for n in range(10):
        children = [os.fork() or _begins(path + str(n)) for _ in range(8)]
        said = sorted(os.waitpid(child, 0)[1] for child in children)
        expect(said == [0] + [256] * 7, "eight processes that make one file: %s" % said)


def _begins(path):
    try:
        os._exit(not krb.FileReplayCache(path, None).add(entry(1000), 0))
    except BaseException:
        os._exit(2)


def try_window():
    """Numbers, and what they are (RFC 2743, 1.2.3)."""
    order = krb.Order
    window = SequenceWindow(10)
    for number, wanted in (
        (9, order.OLD), (10, order.IN_ORDER), (11, order.IN_ORDER), (13, order.GAP), (12, order.OUT_OF_ORDER), (12, order.REPLAYED), (13, order.REPLAYED),
        (14, order.IN_ORDER), (100, order.GAP), (36, order.OLD), (37, order.OUT_OF_ORDER), (99, order.OUT_OF_ORDER), (99, order.REPLAYED),
        (101, order.IN_ORDER), (37, order.OLD), (38, order.OUT_OF_ORDER), (2**64 - 1, order.GAP), (101, order.OLD),
    ):
        got = window.take(number)
        expect(got == wanted, "message %d is %s, and not %s" % (number, got, wanted))
    late = SequenceWindow(5)
    wanted = [order.GAP, order.OUT_OF_ORDER, order.REPLAYED, order.OUT_OF_ORDER]
    expect([late.take(n) for n in (7, 5, 5, 6)] == wanted, "messages of which the first is missing")


def try_names():
    found = context_of.names_of(entry(0, 0, (b"a", b"")))
    expect(found == [("HOME.TEST", ("HTTP", "localhost")), ("HOME.TEST", ("a", ""))], "names of an entry: %s" % found)
    for components, realm, wanted in (
        (("ann",), "HOME.TEST", "ann@HOME.TEST"),
        (("HTTP", "www"), "HOME.TEST", "HTTP/www@HOME.TEST"),
        (("a/b", "c@d\\e"), "R/S@T", "a\\/b/c\\@d\\\\e@R\\/S\\@T"),
        (("\n\t\b\0\x1b",), "R", "\\n\\t\\b\\0\x1b@R"),
        (("", ""), "", "/@"),
    ):
        got = context_of.unparsed(components, realm)
        expect(got == wanted, "the name %r, and not %r" % (got, wanted))


def try_refusals(keytab):
    """Messages, copies by pickle, and what an Acceptor does not take."""
    for rule, seen, text in (
        (krb.Rule.SKEW, 4688, "SKEW: the client's time is 312 s behind (limit 300)"),
        (krb.Rule.SKEW, 5301, "SKEW: the client's time is 301 s ahead (limit 300)"),
        (krb.Rule.KEY_VERSION, 3, "KEY_VERSION: the keytab has no key of version 3, which the ticket names"),
        (krb.Rule.EXPIRED, 4000, "EXPIRED: the ticket ended 1970-01-01 01:06:40 UTC"),
        (krb.Rule.NOT_YET_VALID, 86400, "NOT_YET_VALID: the ticket is not valid before 1970-01-02 00:00:00 UTC"),
        (krb.Rule.REPEAT, None, "REPEAT: the authenticator was accepted before"),
    ):
        refused = krb.NotAccepted(rule, 37, seen, b"e", krb.accept._why(rule, seen, 5000, 300))
        copy = pickle.loads(pickle.dumps(refused))
        expect(str(refused) == text and isinstance(refused, krb.Refused), "a message: %s" % refused)
        same = all(getattr(copy, each) == getattr(refused, each) for each in ("rule", "code", "seen", "error", "status")) and str(copy) == text
        expect(same and refused.status == krb.Status.NOT_ACCEPTED, "a copy of a refusal: %r" % copy)
    expect(all(krb._rules.TEXTS.get(rule) for rule in krb.Rule), "a rule has no text")
    for seconds, words in ((4970, "is let in in 30 s "), (5000, "is let in now "), (6000, "is let in now ")):
        said = krb.accept._why(krb.Rule.UNREMEMBERED, None, seconds, 300, 4700)
        expect(words in said and "before 1970-01-01 01:18:20 UTC" in said and "replay_cache= says whole_since" in said, "a cache that is too young: %s" % said)
    said = krb.accept._forgotten(8300, 5000, 300)
    expect("before 1970-01-01 02:18:20 UTC is forgotten, when the service's clock was 3600 s later than now: it went back" in said, "a clock: %s" % said)
    expect(said.endswith("are let in again from 1970-01-01 02:18:20 UTC on"), "a clock that went back: %s" % said)
    expect("went back" not in krb.accept._forgotten(4700, 5000, 300), "a clock that did not go back")
    for words, kind in (({"pac": "some"}, ValueError), ({"skew": -1}, ValueError), ({"skew": 2**32}, ValueError), ({"replay_cache": True}, ValueError)):
        expect(raised(lambda: krb.Acceptor(keytab, **words)) is kind, "an Acceptor of %s" % words)
    servers = "", "a@b@c", "HTTP/www\\", "HTTP\0ldap", [], ["HTTP", ""], ["HTTP", "a@b@c"], ["HTTP\0ldap"]
    realms = "", "r\xe9alme", "\udc80", "A\0B", [], ["A", ""], ["A", "\udc80"]
    for words in [{"server": each} for each in servers] + [{"client_realm": each} for each in realms]:
        error = raised(lambda: krb.Acceptor(keytab, **words), True)
        expect(type(error) is ValueError and "%s=" % next(iter(words)) in str(error), "an Acceptor of %s: %r" % (words, error))
    for octets, status in ((b"", "KEYTAB"), (b"\5\1" + bytes(20), "KEYTAB"), (b"\5\2", "ABSENT")):
        refused = raised(lambda: krb.Acceptor(octets), True)
        expect(isinstance(refused, krb.Refused) and refused.status.name == status, "an Acceptor of the keytab %r: %r" % (octets, refused))
    expect(raised(lambda: krb.Acceptor("/nowhere/keytab")) is FileNotFoundError, "an Acceptor of a file that is not there")
    expect(raised(lambda: krb.Acceptor(keytab).accept(b"", address="nowhere")) is ValueError, "an address that is none")
    expect(raised(lambda: krb.Acceptor(keytab, addresses_required=True).accept(b"")) is ValueError, "no address, where one is asked for")


def rows_of_table():
    """The rows of tests/accepted.rows by their names: a keytab, a time and a token."""
    path = os.path.join(os.path.dirname(os.path.abspath(__file__)), "..", "..", "tests", "accepted.rows")
    with open(path, encoding="utf-8") as file:
        rows = [line.rstrip("\n").split("\t") for line in file if line[0] not in "#>"]
    return {row[0]: (bytes.fromhex(row[1]), int(row[2]), bytes.fromhex(row[5])) for row in rows}


def try_terms():
    """What a service asks, of tokens of tests/accepted.rows: by which rule one is refused, or who is let in."""
    found = rows_of_table()

    def told(name, later=0, accept={}, **words):
        keytab, clock, token = found[name]
        words.setdefault("replay_cache", krb.ReplayCache(None))
        try:
            return krb.Acceptor(keytab, clock=lambda: clock + later, **words).accept(token, **accept)
        except krb.NotAccepted as refused:
            return refused.rule.name

    for title, name, words, wanted in (
        ("its server", "a-n-server", {"server": "e18/web.peer.test"}, "alice@PEER.TEST"),
        ("one of its servers", "a-n-server", {"server": ["HTTP", "e18"]}, "alice@PEER.TEST"),
        ("another server, of the same keytab", "a-n-server", {"server": "HTTP"}, "NOT_US"),
        ("its realm", "a-n-client-realm", {"client_realm": ["PEER.TEST", "HEIM.TEST"]}, "alice@HEIM.TEST"),
        ("another realm", "a-n-client-realm", {"client_realm": "PEER.TEST"}, "CLIENT_REALM"),
        ("no name", "a-n-anonymous", {}, "ANONYMOUS"),
        ("no name, which is let in", "a-n-anonymous", {"anonymous": True}, "alice@PEER.TEST"),
        ("a ticket of triple DES", "a-n-ticket-of-triple-des", {}, "TICKET_SUITE"),
        ("a ticket of triple DES, permitted", "a-n-ticket-of-triple-des", {"triple_des": True}, "alice@PEER.TEST"),
        ("other bindings", "a-n-server", {"accept": {"channel_bindings": b"tls-server-end-point:other"}}, "BINDINGS"),
        ("an address that no ticket names", "a-n-server", {"addresses_required": True, "accept": {"address": "10.0.0.1"}}, "OTHER_ADDRESS"),
        ("a cache that is whole since now", "a-n-server", {"replay_cache": None}, "UNREMEMBERED"),
        ("a PAC that stands bare", "a-n-pac-bare", {}, "PAC_PLACE"),
        ("a PAC that stands bare, where one is required", "a-n-pac-bare-beside-it", {"pac": "required"}, "PAC_PLACE"),
        ("no PAC, where one is required", "a-m2030", {"pac": "required"}, "PAC_MISSING"),
        ("a PAC with another checksum", "a-n-pac-with-a-changed-checksum", {}, "PAC_CHECKSUM"),
        ("a PAC of another client", "a-n-pac-of-another-client", {}, "PAC_CLIENT"),
    ):
        got = told(name, **words)
        expect(getattr(got, "client", got) == wanted, "%s: %s, and not %s" % (title, got, wanted))
    verified, ignored = told("a-n-pac"), told("a-n-pac", pac="ignored")
    expect(verified.pac is not None and len(verified.pac) == 144 and verified.authorization_data is None, "the PAC: %r" % verified.pac)
    expect(ignored.pac is None and ignored.authorization_data is None, "a PAC that is ignored: %r" % ignored.pac)
    flags = told("a-n-all-flags")
    expect(int(flags.flags) == 0x103E and not flags.is_complete and flags.reply[:1] == b"\x6f", "the flags that a client may set: %r" % flags.flags)
    expect(raised(lambda: flags.confirm(flags.reply), True).status.name == "DIRECTION", "the service's own AP-REP as the third leg")
    cache = krb.ReplayCache(None)
    again = [told("a-n-server", replay_cache=cache) for _ in range(2)]
    expect(again[0].client == "alice@PEER.TEST" and again[1] == "REPEAT", "a token twice: %s" % again[1])


def raised(call, whole=False):
    try:
        call()
        return None
    except Exception as error:
        return error if whole else type(error)


def try_units(realm):
    count = iter(range(100))
    try_cache("ReplayCache", krb.ReplayCache)
    try_cache("FileReplayCache", lambda since: krb.FileReplayCache(realm.path("cache-%d" % next(count)), since))
    try_threads("ReplayCache", krb.ReplayCache(None))
    try_threads("FileReplayCache", krb.FileReplayCache(realm.path("cache-threads"), None))
    try_growth()
    try_forked()
    try_file(realm.path("cache-file"))
    try_lost(realm.path("lost"))
    try_begun_together(realm.path("together"))
    try_window()
    try_names()
    try_terms()
    try_refusals(octets_in(realm.keytab))
