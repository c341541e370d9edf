"""The KDC of a domain of Active Directory, by Samba, where its packages are: the same first and further tickets, and names that it gives otherwise (RFC 6806)."""

import os
import shutil
import time

import krb
from checks import expect, say
from exchanges import listed, refusal
from script import module_of

COMMANDS = "samba", "samba-tool", "ldbsearch"
REALM, ALICE, SERVICE = "AD.EXAMPLE", "alice@AD.EXAMPLE", "HTTP/web.ad.example"
SUITES = {17: "aes128-cts-hmac-sha1-96", 18: "aes256-cts-hmac-sha1-96"}  # those of RFC 8009 are not in this domain
RULE = krb.ClientRule
ENTERPRISE = 10  # NT-ENTERPRISE (RFC 6806, 5)


def domain_of(realm):
    """A domain as interop/samba makes it, with its KDC, alice and a service."""
    samba = module_of("samba")
    os.mkdir(realm.path("samba"))
    domain = samba.Domain(realm.path("samba"))
    domain.make()
    for name in ("alice", "web"):
        domain.tool("user", "create", name, samba.PASSWORD)
    domain.tool("spn", "add", SERVICE, "web")
    # Tickets for a user's account are under RC4, unless the account says that AES is supported (MS-KILE, 2.2.7: 8 and 16).
    change = "dn: CN=web,CN=Users,%s\nchangetype: modify\nreplace: msDS-SupportedEncryptionTypes\nmsDS-SupportedEncryptionTypes: 24\n" % samba.BASE
    domain.run("ldbmodify", "-H", domain.database, domain.write("etypes.ldif", change))
    return domain, samba.PASSWORD


def try_tickets(realm, domain, password, kdcs):
    keytab, users = domain.export("service.keytab", SERVICE), domain.export("users.keytab", "alice")
    granting, path = "krbtgt/%s@%s" % (REALM, REALM), realm.path("samba-cache")
    for number, suite in SUITES.items():
        for kdc in kdcs:
            for given in ({"password": password}, {"keytab": users}):
                title = "Samba, %s, %s, %s" % (suite, "".join(given), kdc[:3])
                got = krb.kinit(ALICE, kdc=kdc, etypes=[number], **given)
                expect((got.client, got.server, got.session_key.etype) == (ALICE, granting, number), "%s: %s" % (title, got))
                expect(got.is_valid and "initial" in got.flags, "%s: %s" % (title, got.flags))
        ticket = got.ticket_for(SERVICE, etypes=[number])
        for acceptor in (krb.Acceptor(keytab, replay_cache=False), krb.Acceptor(keytab, replay_cache=False, pac="ignored")):
            initiator = krb.Initiator(ticket)
            context = acceptor.accept(initiator.token())
            initiator.step(context.reply)
            expect(context.client == ALICE and initiator.context is not None, "Samba, %s: a service" % suite)
            expect(context.unwrap(initiator.context.wrap(b"text")).message == b"text", "Samba, %s: a message" % suite)
        got.save(path, ticket)
        named, found = listed(realm, path)
        ends = {each: entry["end"] for each, entry in found.items()}
        expect(named == ALICE and ends.get(granting) == got.end_time.timestamp(), "Samba, %s: MIT's klist: %s %s" % (suite, named, found))
        expect(ends.get("%s@%s" % (SERVICE, REALM)) == ticket.end_time.timestamp(), "Samba, %s: MIT's klist of the service: %s" % (suite, found))
        status, _, err = realm.status("kvno", "-c", path, granting, environment=dict(realm.environment, KRB5_CONFIG=domain.path("krb5.conf")))
        expect(status == 0, "Samba, %s: MIT's kvno: %s" % (suite, err))
    say("Samba's KDC: tickets of two suites")


def try_options(domain, password, kdc):
    got = krb.kinit(ALICE, password, kdc=kdc, forwardable=True, proxiable=True, renewable=7200, lifetime=600)
    expect({"forwardable", "proxiable", "renewable"} <= got.flags and abs(got.end_time.timestamp() - time.time() - 600) < 5, "Samba, flags: %s %s" % (got.flags, got.end_time))
    time.sleep(1.1)
    renewed = got.renew()
    expect(renewed.end_time > got.end_time and renewed.ticket_for(SERVICE).is_valid, "Samba, renewed: %s" % renewed.end_time)
    expect({"forwarded", "forwardable"} <= got.forward().flags, "Samba, forwarded: %s" % got.forward().flags)
    for by in (3600, -3600):
        skewed = krb.kinit(ALICE, password, kdc=kdc, clock=lambda: time.time() + by)
        expect(skewed.offset is not None and abs(skewed.offset + by) <= 2 and skewed.ticket_for(SERVICE).is_valid, "Samba, a clock %+d s: %s" % (by, skewed.offset))
    refusal("Samba, an unknown client", lambda: krb.kinit("nobody@" + REALM, password, kdc=kdc), RULE.KDC, 6)
    refusal("Samba, another password", lambda: krb.kinit(ALICE, "another", kdc=kdc), RULE.KDC, 24)
    refusal("Samba, an unknown service", lambda: got.ticket_for("HTTP/nowhere"), RULE.KDC, 7)
    say("Samba's KDC: flags, renewed and forwarded tickets, clocks, refusals")


def try_names(password, kdc):
    """Names as Windows writes them: of any case, the realm in small letters, and enterprise names."""
    for name, given in (("ALICE@AD.EXAMPLE", {}), ("alice@ad.example", {}), (r"alice\@ad.example@AD.EXAMPLE", {"client_type": ENTERPRISE}), (ALICE, {})):
        for number in SUITES:
            got = krb.kinit(name, password, kdc=kdc, etypes=[number], canonicalize=True, **given)
            expect((got.client, got.server) == (ALICE, "krbtgt/%s@%s" % (REALM, REALM)), "Samba, %s is named otherwise: %s %s" % (name, got.client, got.server))
            expect(got.ticket_for(SERVICE).client == ALICE, "Samba, %s: a further ticket" % name)
    refusal("Samba, a realm in small letters, and canonicalize is not asked for", lambda: krb.kinit("alice@ad.example", password, kdc=kdc), RULE.CLIENT)
    say("Samba's KDC: clients that are named otherwise")


def try_samba(realm):
    if os.geteuid() != 0 or not all(map(shutil.which, COMMANDS)):
        say("left out: Samba, which needs root and its packages")
        return
    domain, password = domain_of(realm)
    domain.start_samba()
    try:
        tcp, udp = "tcp/127.0.0.1:%d" % domain.port, "udp/127.0.0.1:%d" % domain.port
        try_tickets(realm, domain, password, (tcp, udp))
        try_options(domain, password, tcp)
        try_names(password, tcp)
    finally:
        domain.stop()
