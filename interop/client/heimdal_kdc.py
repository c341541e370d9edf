"""Heimdal's KDC: the same first and further tickets, where Debian's packages can be had."""

import time

import krb
from checks import expect, say
from exchanges import listed, refusal
from heimdal import KDC, programs
from krb._exchange import Exchange, Follows, Limits, Wanted
from krb._kdc import Kdcs
from krb._names import parsed, ticket_granting
from realm import PASSWORD, SUITES, free_port

REALM = "HEIM.TEST"
CONFIG = """[libdefaults]
 default_realm = {realm}
 dns_lookup_kdc = false
 dns_canonicalize_hostname = false
 rdns = false
[realms]
 {realm} = {{
  kdc = 127.0.0.1:{port}
 }}
[domain_realm]
 localhost = {realm}
[kdc]
 database = {{
  dbname = {home}/heimdal-db
  realm = {realm}
  mkey_file = {home}/heimdal-key
  acl_file = {home}/acl
  log_file = {home}/heimdal-log
 }}
[kadmin]
 default_keys = {keys}
"""
RULE = krb.ClientRule


class Heimdal:
    """A realm of Heimdal: carol has keys of all suites, c17 to c20 of one each, dave's time is not asked for under his key; `keytab` has the service's keys, `users` those of carol."""

    def __init__(self, realm, unpacked):
        self.realm, self.port, self.program = realm, free_port(), unpacked.path
        self.environment = dict(realm.environment, LD_LIBRARY_PATH=unpacked.libraries)
        self.keytab, self.users = realm.path("heimdal-keytab"), realm.path("heimdal-users")
        self.kdc = "tcp/127.0.0.1:%d" % self.port
        self.names = {17: "c17", 18: "c18", 19: "c19", 20: "c20"}
        self.configure(SUITES)
        self.mit = dict(realm.environment, KRB5_CONFIG=self.environment["KRB5_CONFIG"])

    def configure(self, suites):
        keys = " ".join("%s:pw-salt" % SUITES[each] for each in suites)
        text = CONFIG.format(realm=REALM, port=self.port, home=self.realm.home, keys=keys)
        self.environment["KRB5_CONFIG"] = self.realm.write("heimdal.conf", text)

    def admin(self, *words):
        self.realm.run(self.program("kadmin.heimdal"), "-l", "-c", self.environment["KRB5_CONFIG"], *words, environment=self.environment)

    def begin(self):
        self.realm.run(self.program("kstash"), "--random-key", "--key-file=" + self.realm.path("heimdal-key"), environment=self.environment)
        self.admin("init", "--realm-max-ticket-life=1day", "--realm-max-renewable-life=2day", REALM)
        password = "--password=" + PASSWORD
        self.admin("add", password, "--use-defaults", "--attributes=requires-pre-auth", "carol")
        self.admin("add", password, "--use-defaults", "dave")
        self.admin("add", "--random-key", "--use-defaults", "HTTP/localhost")
        self.admin("ext_keytab", "-k", self.keytab, "HTTP/localhost")
        self.admin("ext_keytab", "-k", self.users, "carol")
        for number, name in self.names.items():
            self.configure([number])
            self.admin("add", password, "--use-defaults", "--attributes=requires-pre-auth", name)
        self.configure(SUITES)
        command = [self.program("kdc"), "--config-file=" + self.environment["KRB5_CONFIG"], "--ports=%d" % self.port, "--addresses=127.0.0.1"]
        self.realm.start(command, self.environment, self.port)


def begun(realm):
    """A realm of Heimdal whose KDC runs; None where its packages cannot be had."""
    unpacked = programs(realm.path("heimdal-packages"), KDC)
    if unpacked is None:
        return None
    heimdal = Heimdal(realm, unpacked)
    heimdal.begin()
    return heimdal


def try_tickets(realm, heimdal):
    carol, path = "carol@" + REALM, realm.path("heimdal-cache")
    udp = heimdal.kdc.replace("tcp/", "udp/")
    for number, suite in SUITES.items():
        for client, given in (("%s@%s" % (heimdal.names[number], REALM), {"password": PASSWORD}), (carol, {"password": PASSWORD}), (carol, {"keytab": heimdal.users})):
            for kdc in (heimdal.kdc, udp):
                title = "Heimdal, %s, %s, %s, %s" % (client, suite, "".join(given), kdc[:3])
                got = krb.kinit(client, kdc=kdc, etypes=[number], **given)
                expect((got.client, got.server, got.session_key.etype) == (client, "krbtgt/%s@%s" % (REALM, REALM), number), "%s: %s" % (title, got))
                expect(got.is_valid and "initial" in got.flags, "%s: %s" % (title, got.flags))
        ticket = got.ticket_for("HTTP/localhost", etypes=[number])
        for mutual in (True, False):
            initiator = krb.Initiator(ticket, mutual=mutual)
            context = krb.Acceptor(heimdal.keytab, replay_cache=False, pac="ignored").accept(initiator.token())
            if mutual:
                initiator.step(context.reply)
            expect(context.client == carol and initiator.context is not None, "Heimdal, %s: a service" % suite)
            expect(context.unwrap(initiator.context.wrap(b"text")).message == b"text", "Heimdal, %s: a message" % suite)
        got.save(path, ticket)
        named, found = listed(realm, path)
        expect(named == carol and found["krbtgt/%s@%s" % (REALM, REALM)]["end"] == got.end_time.timestamp(), "Heimdal, %s: MIT's klist: %s %s" % (suite, named, found))
        status, out, err = realm.status("kvno", "-c", path, "krbtgt/%s@%s" % (REALM, REALM), environment=heimdal.mit)
        expect(status == 0, "Heimdal, %s: MIT's kvno: %s" % (suite, err))
    dave = krb.kinit("dave@" + REALM, PASSWORD, kdc=heimdal.kdc)
    expect(dave.is_valid, "Heimdal, a user whose time is perhaps not asked for: %s" % dave.flags)
    say("Heimdal's KDC: tickets of four suites")


def try_options(realm, heimdal):
    carol = "carol@" + REALM
    got = krb.kinit(carol, PASSWORD, kdc=heimdal.kdc, forwardable=True, proxiable=True, renewable=7200, lifetime=600)
    expect({"forwardable", "proxiable", "renewable"} <= got.flags and abs(got.end_time.timestamp() - time.time() - 600) < 5, "Heimdal, flags: %s" % got.flags)
    time.sleep(1.1)
    renewed = got.renew()
    expect(renewed.end_time > got.end_time and renewed.ticket_for("HTTP/localhost").is_valid, "Heimdal, renewed: %s" % renewed.end_time)
    expect({"forwarded", "forwardable"} <= got.forward().flags, "Heimdal, forwarded: %s" % got.forward().flags)
    for by in (3600, -3600):
        skewed = krb.kinit(carol, PASSWORD, kdc=heimdal.kdc, clock=lambda: time.time() + by)
        expect(skewed.offset is not None and abs(skewed.offset + by) <= 2 and skewed.ticket_for("HTTP/localhost").is_valid, "Heimdal, a clock %+d s: %s" % (by, skewed.offset))
    kdc = heimdal.kdc
    refusal("Heimdal, an unknown client", lambda: krb.kinit("nobody@" + REALM, PASSWORD, kdc=kdc), RULE.KDC, 6)
    refusal("Heimdal, another password", lambda: krb.kinit(carol, "another", kdc=kdc), RULE.KDC, 24)
    refusal("Heimdal, an unknown service", lambda: got.ticket_for("HTTP/nowhere"), RULE.KDC, 7)
    say("Heimdal's KDC: flags, renewed and forwarded tickets, clocks, refusals")


def try_renamed(realm, heimdal):
    """A KDC that names the client otherwise (RFC 6806)."""
    carol, alias = "carol@" + REALM, "caroline@" + REALM
    heimdal.admin("modify", "--alias=" + alias, "carol")
    expect(krb.kinit(carol, PASSWORD, kdc=heimdal.kdc, canonicalize=True).client == carol, "Heimdal, canonicalize, and nothing is named otherwise")
    for number in SUITES:
        got = krb.kinit(alias, PASSWORD, kdc=heimdal.kdc, canonicalize=True, etypes=[number])
        expect((got.client, got.is_valid) == (carol, True), "Heimdal, an alias, %d: %s" % (number, got.client))
        expect(got.ticket_for("HTTP/localhost").client == carol, "Heimdal, an alias, %d: a further ticket" % number)
    for given, rule in (({}, RULE.CLIENT), ({"mark": False}, RULE.NO_CHECKSUM), ({"request": b"another"}, RULE.CHECKSUM)):
        refusal("Heimdal, an alias, %s" % given, lambda given=given: by_hand(heimdal, alias, carol, **given), rule)
    say("Heimdal's KDC: a client that is named otherwise")


def by_hand(heimdal, alias, carol, mark=True, request=None):
    """The same exchange with the option canonicalize: what is granted under the other name, without a request for the checksum, or with another request."""
    renames = mark is False or request is not None
    wanted = Wanted(parsed(alias), ticket_granting(REALM), (18,), (15,), canonicalize=mark and renames)
    exchange = Exchange(wanted, Limits(), time.time, PASSWORD.encode())
    answer = exchange.begin()
    kdcs, last = Kdcs(heimdal.kdc), []
    while answer.follows == Follows.SENDS:
        answer = kdcs.answer(REALM, answer.octets, lambda message, _: last.append(message) or Held(exchange, message))
        if answer.refused is not None:
            if not renames:
                raise answer.refused
            expect(answer.refused.rule == RULE.CLIENT, "Heimdal, an alias: %s" % answer.refused)
            exchange.wanted = exchange.wanted._replace(client=parsed(carol))
            exchange._request = exchange._request if request is None else request
            return exchange.renamed(last[-1])
    return answer


class Held:
    """What follows on a message, or why nothing does."""

    def __init__(self, exchange, message):
        self.refused, self.octets, self.follows = None, b"", Follows.GRANTED
        try:
            answer = exchange.step(message)
            self.octets, self.follows = answer.octets, answer.follows
        except krb.NotGranted as refused:
            self.refused = refused


def try_heimdal(realm):
    heimdal = begun(realm)
    if heimdal is None:
        return
    try_tickets(realm, heimdal)
    try_options(realm, heimdal)
    try_renamed(realm, heimdal)
