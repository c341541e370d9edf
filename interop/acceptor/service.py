"""What a service says to `krb.Acceptor`: replay caches, the clock, keytabs, options."""

import re
import shutil
import time

import krb
from checks import expect
from clients import MitClient
from der import field, put
from keytabs import keys_of
from octets import octets_in
from refusals import refusal_of, rule_of
from script import at_once
from sealing import Request
from units import in_child, raised


def token_of(service="e18", words=("mutual",)):
    return MitClient(service, list(words)).begin()


def rule(acceptor, token, **words):
    return rule_of(acceptor.accept, token, **words)


class Own:
    """A replay cache of a service's own."""

    def __init__(self, error=None):
        self.whole_since, self.entries, self.error = None, set(), error

    def add(self, entry, seconds):
        if self.error:
            raise self.error
        known = entry in self.entries
        self.entries.add(entry)
        return not known


def try_caches(keytab):
    """Since when a cache is whole, one of the service's own, and none."""
    now, token = time.time(), token_of()
    for title, cache, wanted in (
        ("the default", None, ["UNREMEMBERED", "UNREMEMBERED"]),
        ("since ever", krb.ReplayCache(None), [None, "REPEAT"]),
        ("since 330 seconds", krb.ReplayCache(now - 330), [None, "REPEAT"]),
        ("since 270 seconds", krb.ReplayCache(now - 270), ["UNREMEMBERED", "UNREMEMBERED"]),
        ("the service's own", Own(), [None, "REPEAT"]),
        ("none", False, [None, None]),
    ):
        acceptor = krb.Acceptor(keytab, replay_cache=cache)
        got = [rule(acceptor, token) for _ in range(2)]
        expect(got == wanted, "a replay cache, %s: %s, and not %s" % (title, got, wanted))
    late = krb.Acceptor(keytab, replay_cache=krb.ReplayCache(None), clock=lambda: now - 100)
    expect([rule(late, token), rule(late, token)] == [None, "REPEAT"], "a clock that is late")
    error = refusal_of(krb.Acceptor(keytab, replay_cache=krb.ReplayCache(now - 270)).accept, token)
    expect(re.search(r"is let in in (2[5-9]|3[01]) s \(replay_cache= says whole_since", str(error)), "a cache that is too young: %s" % error)
    try:
        krb.Acceptor(keytab, replay_cache=Own(OSError("the disk is full"))).accept(token)
        expect(False, "a client is let in though the replay cache fails")
    except OSError as error:
        expect("full" in str(error), "the error of a replay cache: %s" % error)


def try_clock_back(realm, keytab):
    """A client whose time was forgotten, since the clock was an hour ahead: not let in, by a text of its own; and the caches of a service's own."""
    for title, cache in (
        ("in memory", krb.ReplayCache(None)),
        ("in a file", krb.FileReplayCache(realm.path("clock-back"), None)),
        ("the service's own", Forgets(time.time() + 3300)),
    ):
        if not isinstance(cache, Forgets):
            ahead = int(time.time()) + 3600
            cache.add(ahead.to_bytes(8, "big") + bytes(4) + b"an entry", ahead - 300)
        acceptor, token = krb.Acceptor(keytab, replay_cache=cache), token_of()
        for turn in range(2):
            error = refusal_of(acceptor.accept, token)
            right = error is not None and (error.rule, error.code) == (krb.Rule.UNREMEMBERED, 34) and bool(error.error)
            told = re.search(r"clock was (359\d|3600) s later than now: it went back", str(error))
            expect(right and told, "a clock that went back, %s: %s" % (title, error))


class Forgets:
    """A replay cache of a service's own, which has forgotten what was before a time."""

    def __init__(self, before):
        self.whole_since, self.before = None, int(before)

    def add(self, entry, seconds):
        raise krb.Forgotten(self.before)


def try_workers(realm, keytab):
    """One token at four workers that are forked: an Acceptor with a cache in memory lets none in but its own process's, one with a file lets in one."""
    for title, cache, wanted in (
        ("in memory", krb.ReplayCache(None), ["RuntimeError"] * 4),
        ("the default", None, ["RuntimeError"] * 4),
        ("in a file", krb.FileReplayCache(realm.path("workers"), None), ["REPEAT"] * 3 + ["in"]),
    ):
        first = [time.time() - 400]  # the time at which it is made, so that the default is old enough
        acceptor, token = krb.Acceptor(keytab, replay_cache=cache, clock=lambda: first.pop() if first and cache is None else time.time()), token_of()
        said = sorted(in_child(lambda: rule(acceptor, token) or "in").strip("'").partition(":")[0] for _ in range(4))
        expect(said == wanted, "four workers, a cache %s: %s" % (title, said))


def try_threads(keytab):
    """Of eight threads with one token, one lets the client in."""
    acceptor = krb.Acceptor(keytab, replay_cache=krb.ReplayCache(None))
    for n in range(20):
        token = token_of()
        rules = at_once(8, lambda: rule(acceptor, token) or "in")
        expect(sorted(rules) == ["REPEAT"] * 7 + ["in"], "eight threads: %s" % rules)


def try_messages(keytab):
    """What an administrator reads."""
    token = token_of()
    for shift, pattern in (
        (312, r"SKEW: the client's time is 31[1-4] s behind \(limit 300\)"),
        (-312, r"SKEW: the client's time is 31[0-3] s ahead \(limit 300\)"),
    ):
        error = refusal_of(krb.Acceptor(keytab, replay_cache=False, clock=lambda: time.time() + shift).accept, token)
        expect(error is not None and re.fullmatch(pattern, str(error)) and error.code == 37, "a clock that is %d seconds off: %s" % (shift, error))
    wide = krb.Acceptor(keytab, replay_cache=False, skew=400, clock=lambda: time.time() + 312)
    expect(rule(wide, token) is None, "a clock that is 312 seconds off, of 400")


def try_keytab(realm):
    """Keys that are changed: the kvno that is missing, and `reload`."""
    path = realm.path("old")
    shutil.copy(realm.keytab, path)
    acceptor = krb.Acceptor(path, replay_cache=False)
    octets = krb.Acceptor(bytearray(octets_in(path)), replay_cache=False)
    realm.admin("addprinc -randkey turn/localhost", "ktadd -k %s turn/localhost" % path)
    first = token_of("turn")
    expect([rule(each, first) for each in (acceptor, octets)] == ["NOT_US", "NOT_US"], "a server that the keytab does not have")
    acceptor.reload()
    expect([rule(each, first) for each in (acceptor, octets)] == [None, "NOT_US"], "a keytab that is read anew")
    realm.run("kdestroy")
    realm.admin("cpw -randkey turn/localhost")
    realm.kinit("ann")
    error = refusal_of(acceptor.accept, token_of("turn"))
    right = error is not None and str(error) == "KEY_VERSION: the keytab has no key of version 3, which the ticket names" and (error.code, error.seen) == (44, 3)
    expect(right, "a key that is changed: %s" % error)
    with open(path, "wb") as file:
        file.write(b"no keytab")
    try:
        acceptor.reload()
        expect(False, "a file that is no keytab is taken for one")
    except krb.Refused as error:
        expect(error.status == krb.Status.KEYTAB and rule(acceptor, first) is None, "what is no keytab: %s" % error)


def try_options(realm, keytab):
    """Whether a PAC is needed, and whether the reply has a subkey."""
    realm.admin("modprinc +no_auth_data_required e17/localhost")
    token = token_of("e17")
    realm.admin("modprinc -no_auth_data_required e17/localhost")
    got = [rule(krb.Acceptor(keytab, replay_cache=False, pac=pac), token) for pac in ("checked", "ignored", "required")]
    expect(got == [None, None, "PAC_MISSING"], "a ticket without a PAC: %s" % got)
    for subkey in (True, False):
        client = MitClient("e18", ["mutual"])
        context = krb.Acceptor(keytab, replay_cache=False, subkey=subkey).accept(client.begin())
        client.take(context.reply)
        expect((context.own_subkey is not None) == subkey and client.is_complete(), "a subkey of the service's: %s" % subkey)
        expect(context.own_sequence_number < 2**30 and "Secret(" in repr(context.session_key), "the sequence number %d" % context.own_sequence_number)
    for address in ("127.0.0.1", "::1", "::ffff:127.0.0.1", "fe80::1%lo", None):
        expect(rule(krb.Acceptor(keytab, replay_cache=False), token_of(), address=address) is None, "the address %s" % address)
    required = krb.Acceptor(keytab, replay_cache=False, addresses_required=True)
    expect(rule(required, token_of(), address="127.0.0.1") == "OTHER_ADDRESS", "a ticket that names no addresses")
    error = raised(lambda: required.accept(token_of()), True)
    expect(type(error) is ValueError and "addresses_required" in str(error), "no address, and addresses are required: %r" % error)


def try_named(keytab):
    """For which service tickets have to be, and of which realm clients."""
    token = token_of("HTTP")
    for server, wanted in (
        ("HTTP", None), ("HTTP@HOME.TEST", None), ("HTTP/localhost", None), ("HTTP/localhost@HOME.TEST", None), (None, None),
        ("e18", "NOT_US"), ("HTTP/www", "NOT_US"), ("HTTP/localhost@HOME", "NOT_US"), ("http/localhost", "NOT_US"), ("HTTP/localhost/more", "NOT_US"),
        ("localhost", "NOT_US"), (["ldap", "HTTP"], None), (("HTTP/www", "HTTP/localhost@HOME.TEST"), None), (["ldap", "HTTP/www"], "NOT_US"),
    ):
        got = rule(krb.Acceptor(keytab, replay_cache=False, server=server), token)
        expect(got == wanted, "a ticket for HTTP/localhost@HOME.TEST, and the service %s: %s" % (server, got))
    for realm, wanted in ((None, None), ("HOME.TEST", None), ("home.test", "CLIENT_REALM"), ("HOME", "CLIENT_REALM"), (["HOME", "HOME.TEST"], None), (["HOME"], "CLIENT_REALM")):
        got = rule(krb.Acceptor(keytab, replay_cache=False, client_realm=realm), token)
        expect(got == wanted, "a client of HOME.TEST, and the realm %s: %s" % (realm, got))
    bound = krb.Acceptor(keytab, replay_cache=False)
    expect(rule(bound, token, channel_bindings=b"") == "BINDINGS", "channel bindings of no data, which the client does not have")
    early = krb.Acceptor(keytab, replay_cache=krb.ReplayCache(-5))
    expect([rule(early, token), rule(early, token)] == [None, "REPEAT"], "a cache that is whole since before 1970")


def try_anonymous(keytab):
    """A client without a name (RFC 8062), whose ticket is sealed again with the flag of one."""
    keys = keys_of(keytab)
    request = Request(token_of(), keys)
    flags = int.from_bytes(field(request.part, 0)[1][1:5], "big") | 1 << 31 - 16
    put(request.part, 0, [3, bytes(1) + flags.to_bytes(4, "big")])
    token = request.seal().token()
    got = [rule(krb.Acceptor(keytab, replay_cache=False, anonymous=anonymous, pac="ignored"), token) for anonymous in (False, True)]
    expect(got == ["ANONYMOUS", None], "a client without a name: %s" % got)


def try_service(realm):
    keytab = octets_in(realm.keytab)
    try_caches(keytab)
    try_clock_back(realm, keytab)
    try_workers(realm, keytab)
    try_threads(keytab)
    try_messages(keytab)
    try_options(realm, keytab)
    try_named(keytab)
    try_anonymous(keytab)
    try_keytab(realm)
