"""First tickets and further ones of MIT's KDC, by `krb.client`; what MIT's klist, kvno and kinit say of them."""

import os
import pathlib
import re
import time

import krb
from checks import expect, say
from home import OTHER, REFUSED
from octets import octets_in
from realm import PASSWORD, REALM, SUITES
from servers import Datagrams, Relay, asked, both

GRANTING = "krbtgt/%s@%s" % (REALM, REALM)
RULE = krb.ClientRule


def stamps(line):
    """The two times of a line of klist, in seconds."""
    found = re.match(r"(\S+ \S+)  (\S+ \S+)  ", line)
    words = [each for each in found.groups()] if found else []
    return [int(time.mktime(time.strptime(each, "%m/%d/%y %H:%M:%S" if len(each) == 17 else "%m/%d/%Y %H:%M:%S"))) for each in words]


def listed(realm, path):
    """What MIT's klist says of a file: the client, and of each server the times, the flags' letters and the encryption types."""
    status, out, err = realm.status("klist", "-e", "-f", "-c", path)
    if status != 0:
        return None, {"klist": err}
    client = re.search(r"^Default principal: (.*)$", out, re.MULTILINE)[1]
    found, server = {}, None
    for line in out.splitlines():
        times = stamps(line)
        if times:
            server = line.split("  ")[2].strip()
            found[server] = {"start": times[0], "end": times[1], "flags": "", "etypes": ""}
        elif server:
            flags, etypes = re.search(r"Flags: (\w*)", line), re.search(r"Etype \(skey, tkt\): (\S+, \S+)", line)
            found[server].update({"flags": "".join(sorted(flags[1]))} if flags else {}, **({"etypes": etypes[1]} if etypes else {}))
    return client, found


def refusal(what, call, rule, code=0):
    """That a call is refused by a rule, and of an error of the KDC by its code."""
    try:
        call()
        return expect(False, "%s: it is granted, and not refused by %s" % (what, rule.name))
    except krb.NotGranted as refused:
        one_line = "\n" not in str(refused) and str(refused).startswith(rule.name)
        return expect(refused.rule == rule and refused.code == code and one_line, "%s: %s, and not %s %d" % (what, refused, rule.name, code))


def try_saved(realm, title, credentials, client, suite):
    """That MIT's klist reads what is saved, and tells the same, and that MIT's kvno gets a ticket by it."""
    path = realm.path("saved")
    credentials.save(path)
    expect(os.stat(path).st_mode & 0o777 == 0o600, "%s: the mode of the file" % title)
    named, found = listed(realm, path)
    own = found.get(GRANTING, {})
    expect(named == client, "%s: klist says that the client is %s" % (title, named))
    expect(own.get("end") == credentials.end_time.timestamp(), "%s: klist's end %s, and not %s" % (title, own, credentials.end_time))
    expect(own.get("start") == credentials.start_time.timestamp(), "%s: klist's start %s" % (title, own))
    expect(own.get("etypes", "").startswith(suite + ","), "%s: klist's encryption types %s" % (title, own))
    for service in ("e17", "e18", "e19", "e20"):
        status, out, err = realm.status("kvno", "-c", path, service + "/localhost")
        expect(status == 0 and "kvno = " in out, "%s: kvno %s: %s" % (title, service, err))


def try_first(realm):
    """Each suite, by password and by keytab, with and without the time under the client's key, over TCP and UDP."""
    udp = realm.kdc.replace("tcp/", "udp/")
    for number, suite in SUITES.items():
        for user in ("u%d" % number, "f%d" % number):
            client = "%s@%s" % (user, REALM)
            for way, given in (("password", {"password": PASSWORD}), ("keytab", {"keytab": realm.users})):
                for kdc in (realm.kdc, udp):
                    title = "%s, %s, %s" % (client, way, kdc[:3])
                    got = krb.kinit(client, kdc=kdc, etypes=[number], **given)
                    expect((got.client, got.server) == (client, GRANTING), "%s: %s" % (title, got))
                    expect(got.session_key.etype == number and len(got.session_key.octets) == {17: 16, 18: 32, 19: 16, 20: 32}[number], "%s: its key" % title)
                    expect(got.is_valid and "initial" in got.flags and got.renew_till is None, "%s: %s" % (title, got.flags))
                    expect(("pre-authent" in got.flags) == user.startswith("u"), "%s: %s" % (title, got.flags))
            try_saved(realm, client, got, client, suite)
    for keytab in (octets_in(realm.users), pathlib.Path(realm.users)):
        expect(krb.kinit("ann@" + REALM, keytab=keytab, kdc=realm.kdc).is_valid, "a keytab as %s" % type(keytab).__name__)
    got = krb.kinit("ann@" + REALM, PASSWORD, kdc=realm.kdc)
    expect(got.session_key.etype == 18, "the first of the order is 18, and not %d" % got.session_key.etype)
    for order in ((20, 19, 17), (19, 17), (17, 20)):
        got = krb.kinit("ann@" + REALM, PASSWORD, kdc=realm.kdc, etypes=order)
        expect(got.session_key.etype in order, "a session key of %d, and not one of %s" % (got.session_key.etype, order))
    for user in ("salted", realm.quoted_name()):
        got = krb.kinit("%s@%s" % (user, REALM), PASSWORD, kdc=realm.kdc)
        path = realm.path("saved")
        got.save(path)
        expect(got.client == "%s@%s" % (user, REALM), "the name %s" % got.client)
        expect(listed(realm, path)[0] == got.client, "klist has the name %s, and not %s" % (listed(realm, path)[0], got.client))
    say("first tickets of four suites")


def try_options(realm):
    """Flags, lifetimes, renewing, forwarding and postdating, beside those of MIT's kinit with the same options."""
    def kinit(**options):
        return krb.kinit("ann@" + REALM, PASSWORD, kdc=realm.kdc, **options)

    path, mit = realm.path("saved"), realm.path("mit")
    rows = [({}, []), ({"forwardable": True}, ["-f"]), ({"proxiable": True}, ["-p"]), ({"renewable": 7200, "lifetime": 3600}, ["-r", "2h", "-l", "1h"])]
    rows += [({"forwardable": True, "proxiable": True, "renewable": 7200}, ["-f", "-p", "-r", "2h"])]
    for options, words in rows:
        got = kinit(**options)
        got.save(path)
        realm.run("kinit", *words, "-c", mit, "ann", text=PASSWORD + "\n")
        ours, theirs = listed(realm, path)[1][GRANTING], listed(realm, mit)[1][GRANTING]
        expect(ours["flags"] == theirs["flags"], "%s: the flags %s, and MIT's %s" % (options, ours["flags"], theirs["flags"]))
        expect(abs(ours["end"] - theirs["end"]) < 60, "%s: the end %s, and MIT's %s" % (options, ours["end"], theirs["end"]))
        realm.run("kvno", "-c", mit, "HTTP/localhost")
        service = got.ticket_for("HTTP/localhost")
        got.save(path, service)
        name = "HTTP/localhost@" + REALM
        ours, theirs = listed(realm, path)[1].get(name, {}), listed(realm, mit)[1][name]
        expect(ours.get("flags") == theirs["flags"] and ours.get("etypes") == theirs["etypes"], "%s: a service ticket %s, and MIT's %s" % (options, ours, theirs))
    renewable = kinit(renewable=7200, lifetime=600)
    expect(abs(renewable.end_time.timestamp() - time.time() - 600) < 5 and abs(renewable.renew_till.timestamp() - time.time() - 7200) < 5, "lifetimes: %s" % renewable.end_time)
    time.sleep(1.1)
    renewed = renewable.renew()
    expect(renewed.end_time > renewable.end_time and renewed.renew_till == renewable.renew_till and "renewable" in renewed.flags, "renewed: %s" % renewed.end_time)
    expect(renewed.ticket_for("HTTP/localhost").is_valid, "a ticket by a renewed one")
    renewed.save(path)
    expect(realm.status("kinit", "-R", "-c", path)[0] == 0, "MIT's kinit renews what was renewed")
    refusal("renewing what is not renewable", kinit().renew, RULE.KDC, 13)
    forwarded = kinit(forwardable=True).forward()
    expect({"forwarded", "forwardable"} <= forwarded.flags, "forwarded: %s" % forwarded.flags)
    expect("forwarded" in forwarded.ticket_for("HTTP/localhost").flags, "a ticket by a forwarded one")
    refusal("forwarding what is not forwardable", kinit().forward, RULE.KDC, 13)
    later = kinit(start=3600, lifetime=600)
    expect({"postdated", "invalid"} <= later.flags and not later.is_valid, "postdated: %s" % later.flags)
    expect(abs(later.start_time.timestamp() - time.time() - 3600) < 5 and later.end_time.timestamp() - later.start_time.timestamp() == 600, "postdated: %s" % later.start_time)
    refusal("validating before the start", later.validate, RULE.KDC, 33)
    soon = kinit(start=1)
    time.sleep(2.1)
    expect("invalid" not in soon.validate().flags, "validated: %s" % soon.validate().flags)
    other = krb.kinit("ann@" + REALM, PASSWORD, kdc=realm.kdc, server="HTTP/localhost")
    expect(other.server == "HTTP/localhost@" + REALM and "initial" in other.flags, "a first ticket for a service: %s" % other)
    say("flags, lifetimes, renewed, forwarded and postdated tickets")


def try_refusals(realm):
    ann, kdc = "ann@" + REALM, realm.kdc
    refusal("an unknown client", lambda: krb.kinit("nobody@" + REALM, PASSWORD, kdc=kdc), RULE.KDC, 6)
    refusal("another password", lambda: krb.kinit(ann, "another", kdc=kdc), RULE.KDC, 24)
    refusal("another password, without its time", lambda: krb.kinit("f18@" + REALM, "another", kdc=kdc), RULE.OPENING)
    refusal("another key in the keytab", lambda: krb.kinit(ann, keytab=realm.wrong, kdc=kdc), RULE.KDC, 24)
    refusal("no key in the keytab", lambda: krb.kinit("bob@" + REALM, keytab=realm.users, kdc=kdc, etypes=[18]), RULE.NO_KEY)
    refusal("an unknown service", lambda: krb.kinit(ann, PASSWORD, kdc=kdc).ticket_for("HTTP/nowhere"), RULE.KDC, 7)
    refusal("no shared encryption type", lambda: krb.kinit("f18@" + REALM, PASSWORD, kdc=kdc, etypes=[17]), RULE.KDC, 14)
    # Where it asks for the time first, MIT's KDC tells of no key.
    refusal("no shared encryption type, with its time", lambda: krb.kinit("u18@" + REALM, PASSWORD, kdc=kdc, etypes=[17]), RULE.NO_INFO)
    for user, (_, code) in REFUSED.items():
        refusal(user, lambda: krb.kinit("%s@%s" % (user, REALM), PASSWORD, kdc=kdc), RULE.KDC, code)
    refusal("more iterations than are taken", lambda: krb.kinit("u18@" + REALM, PASSWORD, kdc=kdc, most=4095, least=1), RULE.ITERATIONS)
    refusal("fewer iterations than are taken", lambda: krb.kinit("u18@" + REALM, PASSWORD, kdc=kdc, least=4097), RULE.ITERATIONS)
    for what, call, kind in (
        ("no realm", lambda: krb.kinit("ann", PASSWORD, kdc=kdc, configuration=realm.write("empty.conf", "")), ValueError),
        ("an empty name", lambda: krb.kinit("@", PASSWORD, kdc=kdc), ValueError),
        ("an encryption type that is none", lambda: krb.kinit(ann, PASSWORD, kdc=kdc, etypes=[77]), krb.Refused),
        ("octets that are no keytab", lambda: krb.kinit(ann, keytab=b"none", kdc=kdc), krb.Refused),
        ("a keytab that is not there", lambda: krb.kinit(ann, keytab=realm.path("none"), kdc=kdc), FileNotFoundError),
    ):
        try:
            call()
            expect(False, "%s: it is granted" % what)
        except kind:
            expect(True, what)
    try:
        krb.kinit("nobody@" + REALM, PASSWORD, kdc=kdc)
    except krb.NotGranted as refused:
        expect(str(refused) == "KDC: the KDC reports KDC_ERR_C_PRINCIPAL_UNKNOWN (6)" and refused.error == "KDC_ERR_C_PRINCIPAL_UNKNOWN", "the text %s" % refused)
    say("refusals, each by its rule")


def try_clocks(realm):
    """Clocks that are off: the KDC's time is taken once, and kept."""
    for by in (3600, -3600, 86400, -86400, 400):
        clock = lambda: time.time() + by  # noqa: E731
        got = krb.kinit("ann@" + REALM, PASSWORD, kdc=realm.kdc, clock=clock)
        expect(got.offset is not None and abs(got.offset + by) <= 2, "a clock %+d s: the offset %s" % (by, got.offset))
        expect(got.is_valid, "a clock %+d s: valid by its own clock and the offset" % by)
        path = realm.path("saved")
        got.save(path)
        again = krb.client.load(path, krb.client.Settings(kdc=realm.kdc, clock=clock))
        expect(again.offset == got.offset, "a clock %+d s: the offset in the file %s" % (by, again.offset))
        expect(again.ticket_for("HTTP/localhost").is_valid, "a clock %+d s: a ticket" % by)
        expect(listed(realm, path)[1][GRANTING]["end"] == got.end_time.timestamp(), "a clock %+d s: klist" % by)
        relay = Relay(realm.port)
        krb.client.load(path, krb.client.Settings(kdc=relay.kdc, clock=clock)).ticket_for("HTTP/localhost")
        expect(len(relay.kept) == 1, "a clock %+d s: %d requests, where the offset is known" % (by, len(relay.kept)))
        relay.stop()
        context = krb.Acceptor(realm.keytab, replay_cache=False).accept(krb.Initiator(again.ticket_for("HTTP/localhost")).token())
        expect(context.client == "ann@" + REALM, "a clock %+d s: the service lets in %s" % (by, context.client))
        # What the KDC says of its time in a TGS exchange is taken as well.
        plain = krb.Credentials(got.entry, krb.client.Settings(kdc=realm.kdc, clock=clock))
        service = plain.ticket_for("HTTP/localhost")
        expect(service.offset is not None and abs(service.offset + by) <= 2, "a clock %+d s: the offset of a further exchange %s" % (by, service.offset))
        # Without the time under a key the KDC reports nothing, and the reply is too far from the clock.
        refusal("a clock %+d s, a reply without that" % by, lambda: krb.kinit("f18@" + REALM, PASSWORD, kdc=realm.kdc, clock=clock), RULE.START)
        short = krb.kinit("ann@" + REALM, PASSWORD, kdc=realm.kdc, clock=clock, lifetime=600, renewable=7200)
        expect(abs(short.end_time.timestamp() - time.time() - 600) < 5 and abs(short.renew_till.timestamp() - time.time() - 7200) < 5, "a clock %+d s: lifetimes" % by)
        service = plain.ticket_for("HTTP/localhost", lifetime=600)
        expect(abs(service.end_time.timestamp() - time.time() - 600) < 5, "a clock %+d s: the lifetime of a further ticket: %s" % (by, service.end_time))
    got = krb.kinit("ann@" + REALM, PASSWORD, kdc=realm.kdc, clock=lambda: time.time() + 200)
    expect(got.offset is None, "a clock within the skew: the offset %s" % got.offset)
    refusal("a skew of 100", lambda: krb.kinit("ann@" + REALM, PASSWORD, kdc=realm.kdc, skew=100, clock=lambda: time.time() + 200), RULE.START)
    say("clocks that are off")


def try_referrals(realm):
    """Tickets of another realm: directly, by a referral, and not where the realm is not listed."""
    got = krb.kinit("ann@" + REALM, PASSWORD, kdc=realm.kdc)
    for name in ("HTTP/www.other.test@" + OTHER, "HTTP/www.other.test@" + REALM):
        ticket = got.ticket_for(name, realms=[OTHER])
        expect(ticket.server == "HTTP/www.other.test@" + OTHER and ticket.client == "ann@" + REALM, "%s: %s" % (name, ticket))
        context = krb.Acceptor(octets_in(realm.other_keytab), replay_cache=False).accept(krb.Initiator(ticket).token())
        expect(context.client == "ann@" + REALM, "%s: the service lets in %s" % (name, context.client))
    refusal("a referral that is not asked for", lambda: got.ticket_for("HTTP/www.other.test"), RULE.KDC, 7)
    refusal("a referral to a realm that is not listed", lambda: got.ticket_for("HTTP/www.other.test", realms=["ELSE.TEST"]), RULE.TICKET)
    for realms in ((), ("ELSE.TEST",)):
        try:
            got.ticket_for("HTTP/www.other.test@" + OTHER, realms=realms)
            expect(False, "another realm that is not listed: it is granted")
        except ValueError as error:
            expect(not isinstance(error, krb.Refused), "another realm that is not listed: %s" % error)
    crossing = got.ticket_for("krbtgt/%s@%s" % (OTHER, REALM))
    expect(crossing.server == "krbtgt/%s@%s" % (OTHER, REALM), "a ticket for the other realm's KDC: %s" % crossing)
    expect(crossing.ticket_for("HTTP/www.other.test").server == "HTTP/www.other.test@" + OTHER, "a ticket by that")
    say("another realm")


def try_datagrams(realm):
    """Datagrams that are lost, come twice, are of another request, or are too big."""
    plain, kept = realm.port, []

    def kinit(kdc, **more):
        return krb.kinit("u18@" + REALM, PASSWORD, kdc=kdc, **more)

    def lossy(number, octets):
        return [] if number == 0 else [asked(plain, octets)]

    def mixed(_, octets):
        reply = asked(plain, octets)
        old = [each for each in kept if each[:1] == reply[:1] == b"\x6b"]
        kept.append(reply)
        return old + [reply, reply]

    server = Datagrams(lossy)
    begun = time.monotonic()
    expect(kinit(server.kdc).is_valid and server.count == 3 and time.monotonic() - begun < 5, "a datagram that is lost: %d came" % server.count)
    server.stop()
    server = Datagrams(mixed)
    kinit(server.kdc)
    expect(kinit(server.kdc).is_valid and sum(each[:1] == b"\x6b" for each in kept) == 2, "a reply to another request before the right one, over UDP")
    server.stop()
    old = next(each for each in kept if each[:1] == b"\x6b")
    relay = Relay(plain)
    relay.change = lambda request, reply: old
    refusal("the same over TCP", lambda: kinit(relay.kdc), RULE.NONCE)
    relay.stop()
    from changes import error

    relay, server = both(plain, lambda number, octets: [error(52)])
    expect(kinit(server.kdc).is_valid and len(relay.kept) == 2 and server.count == 2, "a reply that is too big for UDP: %d over UDP, %d over TCP" % (server.count, len(relay.kept)))
    relay.stop()
    begun = time.monotonic()
    server.stop()
    silent = Datagrams(lambda number, octets: [])
    try:
        kinit(silent.kdc, timeout=2)
        expect(False, "a KDC that is silent: a ticket")
    except krb.KdcUnreachable as error_:
        expect(1.5 < time.monotonic() - begun < 4 and silent.count == 2, "a KDC that is silent: %.1f s, %d came: %s" % (time.monotonic() - begun, silent.count, error_))
    silent.stop()
    say("datagrams")
