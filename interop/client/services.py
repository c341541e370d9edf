"""Services that a client goes to: MIT's acceptor by python3-gssapi, `krb.Acceptor`, both by SPNEGO too, and a web page."""

import base64
import glob
import os
import re
import subprocess
import textwrap
import time

import gssapi
import gssapi.raw
import krb
from apache import try_apache
from checks import expect, say
from realm import PASSWORD, REALM, SUITES
from script import TOP
from sides import ACCEPTOR, INITIATOR, MitSide, OurSide, Program, ProgramSide, talk

BINDINGS = b"tls-server-end-point:" + bytes(range(32))
USER = "ann@" + REALM
RULE = krb.ClientRule


class Mit:
    """MIT's gss_accept_sec_context, with its own names for what both have."""

    def __init__(self, realm, bindings=None):
        given = gssapi.raw.ChannelBindings(application_data=bindings) if bindings is not None else None
        creds = gssapi.Credentials(usage="accept", store={"keytab": "FILE:" + realm.keytab})
        self.link = gssapi.SecurityContext(creds=creds, usage="accept", channel_bindings=given)

    def accept(self, token):
        return self.link.step(token)

    def client(self):
        return str(self.link.initiator_name)

    def flags(self):
        return int(self.link.actual_flags)

    def get_mic(self, text):
        return self.link.get_signature(text)

    def verify_mic(self, text, mic):
        self.link.verify_signature(text, mic)

    def wrap(self, text, encrypt=True):
        return self.link.wrap(text, encrypt).message

    def unwrap(self, token):
        found = self.link.unwrap(token)
        return found.message, found.encrypted


class Ours:
    """`krb.Acceptor`."""

    def __init__(self, realm, bindings=None):
        self.acceptor, self.bindings, self.context = krb.Acceptor(realm.keytab, replay_cache=False), bindings, None

    def accept(self, token):
        self.context = self.acceptor.accept(token, self.bindings)
        return self.context.reply

    def client(self):
        return self.context.client

    def flags(self):
        return int(self.context.flags)

    def get_mic(self, text):
        return self.context.get_mic(text)

    def verify_mic(self, text, mic):
        self.context.verify_mic(text, mic)

    def wrap(self, text, encrypt=True):
        return self.context.wrap(text, encrypt)

    def unwrap(self, token):
        found = self.context.unwrap(token)
        return found.message, found.sealed


class Plain(Ours):
    """The same without a subkey of its own."""

    def __init__(self, realm, bindings=None):
        super().__init__(realm, bindings)
        self.acceptor = krb.Acceptor(realm.keytab, replay_cache=False, subkey=False)


REFUSALS = (gssapi.exceptions.GSSError, ValueError)


def is_refused(call):
    try:
        call()
        return False
    except REFUSALS:
        return True


def try_messages(title, client, service):
    """MIC and Wrap tokens both ways, that hold of their text alone, and once."""
    for one, other in ((client, service), (service, client)):
        text = os.urandom(200)
        mic = one.get_mic(text)
        expect(is_refused(lambda: other.verify_mic(text + b"!", mic)), "%s: a MIC of another text" % title)
        expect(not is_refused(lambda: other.verify_mic(text, mic)), "%s: a MIC" % title)
    for encrypt in (True, False):
        text = os.urandom(300)
        expect(service.unwrap(client.wrap(text, encrypt)) == (text, encrypt), "%s: a Wrap token of the client's" % title)
        found = client.unwrap(service.wrap(text, encrypt))
        expect((found.message, found.sealed) == (text, encrypt), "%s: a Wrap token of the service's" % title)
    token = service.wrap(b"once")
    client.unwrap(token)
    expect(is_refused(lambda: client.unwrap(token)), "%s: a message of the service's that comes twice" % title)
    token = client.wrap(b"once")
    service.unwrap(token)
    expect(is_refused(lambda: service.unwrap(token)), "%s: a message of the client's that comes twice" % title)
    lost, after = service.wrap(b"lost"), service.wrap(b"after")
    for token, order in ((after, krb.Order.GAP), (lost, krb.Order.OUT_OF_ORDER)):
        try:
            client.unwrap(token)
            expect(False, "%s: a message that is not the next one" % title)
        except krb.OutOfOrder as told:
            expect(told.order == order and told.message in (b"lost", b"after"), "%s: %s, and not %s" % (title, told, order.name))


def try_context(realm, title, make, ticket, mutual, bindings):
    service, initiator = make(realm, bindings), krb.Initiator(ticket, mutual=mutual, channel_bindings=bindings)
    reply = service.accept(initiator.token())
    expect(service.client() == USER, "%s: the client is %s" % (title, service.client()))
    expect((service.flags() & 63) == (initiator.flags & 63), "%s: the flags %x, and the client's %x" % (title, service.flags(), initiator.flags))
    expect(bool(reply) == mutual and (initiator.context is None) == mutual, "%s: a reply where it is asked for" % title)
    if mutual:
        initiator.step(reply)
    try_messages(title, initiator.context, service)
    return initiator.context


def try_replies(realm, title, make, ticket):
    """Replies that confirm nothing."""

    def begun():
        initiator = krb.Initiator(ticket)
        return initiator, make(realm).accept(initiator.token())

    def rule_of(initiator, reply):
        try:
            initiator.step(reply)
            return "it is taken"
        except krb.NotGranted as refused:
            return refused.rule
        except krb.Refused as refused:
            return refused.status
        finally:
            expect((initiator.context is None) or reply == own, "%s: a context by a reply that confirms nothing" % title)

    own = None
    _, other = begun()
    initiator, _ = begun()
    expect(rule_of(initiator, other) == RULE.TIME, "%s: the reply to another request" % title)
    initiator, reply = begun()
    size = len(reply)
    for at in range(size - 40, size, 5):
        changed = reply[:at] + bytes([reply[at] ^ 4]) + reply[at + 1 :]
        expect(rule_of(initiator, changed) == RULE.OPENING, "%s: a changed reply" % title)
    inner = krb.spnego.token(reply).inner
    expect(rule_of(initiator, krb.spnego.make_token(krb.spnego.KERBEROS, inner + b"\0")) in (RULE.MESSAGE, RULE.OTHER_MESSAGE), "%s: octets behind" % title)
    expect(rule_of(initiator, initiator.token()) == RULE.OTHER_MESSAGE, "%s: its own token" % title)
    expect(rule_of(initiator, inner) == krb.Status.INVALID, "%s: no token" % title)
    fresh, own = begun()
    expect(rule_of(fresh, own) == "it is taken", "%s: the reply itself" % title)


def try_errors(realm, credentials, ticket):
    """What a service's KRB-ERROR says to the client."""
    ended = credentials.ticket_for("HTTP/localhost", lifetime=1)
    time.sleep(3)
    expect(not ended.is_valid, "a ticket of a second is valid after three: until %s" % ended.end_time)
    acceptor = krb.Acceptor(realm.keytab, replay_cache=False, skew=1)
    rows = (krb.Initiator(ticket, clock=lambda: time.time() - 4000), "KRB_AP_ERR_SKEW (37)"), (krb.Initiator(ended), "KRB_AP_ERR_TKT_EXPIRED (32)")
    for initiator, name in rows:
        try:
            acceptor.accept(initiator.token())
            expect(False, "a token of long ago is accepted")
        except krb.NotAccepted as refused:
            try:
                initiator.step(refused.error)
                expect(False, "a KRB-ERROR confirms the service")
            except krb.NotGranted as error:
                expect(error.rule == RULE.KDC and str(error) == "KDC: the service reports " + name, "a KRB-ERROR: %s, and not %s" % (error, name))


def try_negotiation(title, ticket, one, other):
    """Both sides know each other at the end, and each other's MICs hold."""
    sent, failures = talk(one, other)
    if expect(one.is_complete() and other.is_complete() and failures == [None, None], "%s: %s, %s" % (title, failures, [each.hex() for each in sent])):
        expect(one.peer() == ticket.server and other.peer() == USER, "%s: %s and %s" % (title, one.peer(), other.peer()))
        text = os.urandom(50)
        expect(other.verify(text, one.mic(text)), "%s: a MIC of the client's" % title)
        mic = other.mic(text)
        expect(not one.verify(text + b"!", mic) and one.verify(text, mic), "%s: a MIC of the service's" % title)


def try_negotiations(realm, ticket):
    """`krb.Negotiator` with `krb.KerberosInitiator` before MIT's SPNEGO and our own; MICs are asked for, and another mechanism is offered first, too."""
    from sides import lent

    acceptor = krb.Acceptor(realm.keytab, replay_cache=False)
    for mutual in (True, False):
        for names in ((), ("ntlm",)):
            makers = [("MIT", lambda: MitSide(ACCEPTOR))]
            makers += [("krb.Negotiator, MICs asked for: %s" % asks, lambda asks=asks: OurSide(ACCEPTOR, [krb.KerberosMechanism(acceptor)], asks)) for asks in (False, True)]
            for title, make in makers:
                title = "SPNEGO, %s, mutual %s, before Kerberos %s" % (title, mutual, names or "nothing")
                one, other = OurSide(INITIATOR, [*lent(names, ()), krb.KerberosInitiator(ticket, mutual=mutual)]), make()
                try_negotiation(title, ticket, one, other)
    say("SPNEGO")


def try_heimdal(realm, ticket):
    """Heimdal's SPNEGO as the acceptor (interop/negotiate/gss_side.c), where its packages can be had."""
    from others import unpacked_heimdal

    found = unpacked_heimdal(realm)
    if found is None:
        return
    libraries, program = found[1], realm.path("gss_side")
    include = "-I" + os.path.join(realm.path("heimdal"), "usr", "include", "heimdal")
    library = glob.glob(os.path.join(libraries, "libgssapi.so.3"))[0]
    realm.run("gcc", "-O1", include, os.path.join(TOP, "interop", "negotiate", "gss_side.c"), "-o", program, library, "-Wl,-rpath-link," + libraries)
    running = Program(program, dict(realm.environment, LD_LIBRARY_PATH=libraries))
    try:
        for mutual in (True, False):
            title = "SPNEGO, Heimdal, mutual %s" % mutual
            one, other = OurSide(INITIATOR, [krb.KerberosInitiator(ticket, mutual=mutual)]), ProgramSide(running, ACCEPTOR)
            try_negotiation(title, ticket, one, other)
    finally:
        running.end()
    say("SPNEGO with Heimdal")


def try_web(realm, environment, credentials):
    """examples/http_negotiate with examples/python/http_client.py."""
    from web import PAGE, Site

    site, program = Site(realm, environment), os.path.join(TOP, "examples", "python", "http_client.py")
    cache = realm.path("web")
    credentials.save(cache)

    def get(url, path=cache, **more):
        done = subprocess.run(["/usr/bin/python3", "-B", program, url, path], env=dict(environment, **more), capture_output=True, text=True, timeout=60)
        return done.returncode, done.stdout, done.stderr

    expect(get(site.url)[:2] == (0, PAGE), "the web page: %s" % (get(site.url),))
    asking = Site(realm, environment, words=("--ask",))
    expect(get(asking.url)[:2] == (0, PAGE), "the web page, MICs asked for: %s" % (get(asking.url),))
    certificate = realm.path("cert.pem")
    bound = Site(realm, environment, certificate)
    expect(get(bound.url, SSL_CERT_FILE=certificate)[:2] == (0, PAGE), "the web page over TLS: %s" % (get(bound.url, SSL_CERT_FILE=certificate),))
    status, out, err = get(bound.url)
    expect(status == 1 and out == "" and "CERTIFICATE_VERIFY_FAILED" in err, "a certificate that nobody trusts: %s" % err)
    status, out, err = get(site.url, path=realm.path("nothing"))
    expect(status == 1 and out == "" and err.count("\n") == 1, "the web page without a ticket: %s" % err)

    class Liar:
        """A web server that says it is the one, and is not."""

        def __init__(self, value):
            import http.server
            import threading

            class Handler(http.server.BaseHTTPRequestHandler):
                def do_GET(handler):
                    handler.send_response(200)
                    if value is not None:
                        handler.send_header("WWW-Authenticate", value)
                    handler.send_header("Content-Length", "4")
                    handler.end_headers()
                    handler.wfile.write(b"lie\n")

                def log_message(handler, *words):
                    pass

            self.server = http.server.HTTPServer(("127.0.0.1", 0), Handler)
            threading.Thread(target=self.server.serve_forever, daemon=True).start()
            self.url = "http://localhost:%d/" % self.server.server_address[1]

    reject = base64.b64encode(krb.spnego.make_neg_token_resp(krb.spnego.NegState.REJECT)).decode()
    taken = base64.b64encode(krb.spnego.make_neg_token_resp(krb.spnego.NegState.ACCEPT_COMPLETED, krb.spnego.KERBEROS)).decode()
    for value in (None, "Negotiate", "Negotiate " + reject, "Negotiate " + taken, "Negotiate ????"):
        liar = Liar(value)
        status, out, err = get(liar.url)
        expect(status == 1 and out == "" and err.count("\n") == 1, "a web server that cannot confirm itself, %s: %d %s %s" % (value, status, out, err))
        liar.server.shutdown()
    say("a web page")


def try_document(realm):
    """The first login of docs/CLIENT.md, with names of this realm, and `krb.Acceptor` as the service."""
    import getpass

    with open(os.path.join(TOP, "docs", "CLIENT.md"), encoding="utf-8") as file:
        code = textwrap.dedent(re.search(r"^## From Python\n\n[^\n]*\n\n((?:    [^\n]*\n|\n)+)", file.read(), re.MULTILINE)[1])
    path = realm.path("document")
    for old, new in (("carol@HOME.TEST", USER), ("HTTP/www.home.test@HOME.TEST", "HTTP/localhost@" + REALM), ("carol.ccache", path)):
        expect(code.count(old) == 1, "docs/CLIENT.md has %s" % old)
        code = code.replace(old, new)
    sent, contexts, asked = [], [], getpass.getpass
    acceptor = krb.Acceptor(realm.keytab, replay_cache=krb.ReplayCache(None))

    def receive():
        contexts.append(acceptor.accept(sent[-1]))
        return contexts[-1].reply

    getpass.getpass = lambda: PASSWORD
    try:
        exec(code, {"send": sent.append, "receive": receive})
    finally:
        getpass.getpass = asked
    expect(contexts[0].unwrap(sent[-1]).message == b"a message" and krb.client.load(path).client == USER, "docs/CLIENT.md, a first login")


def try_services(realm, environment):
    credentials = krb.kinit(USER, PASSWORD, kdc=realm.kdc)
    for name, make in (("MIT", Mit), ("krb.Acceptor", Ours), ("krb.Acceptor without a subkey", Plain)):
        for number, suite in SUITES.items():
            ticket = credentials.ticket_for("e%d/localhost" % number)
            expect(ticket.session_key.etype == number, "a session key of %d for e%d" % (ticket.session_key.etype, number))
            for mutual in (True, False):
                for bindings in (None, BINDINGS):
                    title = "%s, %s, mutual %s, bindings %s" % (name, suite, mutual, bindings is not None)
                    try_context(realm, title, make, ticket, mutual, bindings)
            expect(is_refused(lambda: make(realm, BINDINGS + b"!").accept(krb.Initiator(ticket, channel_bindings=BINDINGS).token())), "%s: other channel bindings" % name)
            try_replies(realm, "%s, %s" % (name, suite), make, ticket)
        say("contexts with %s" % name)
    ticket = credentials.ticket_for("HTTP/localhost")
    try_errors(realm, credentials, ticket)
    try_document(realm)
    expect(is_refused(lambda: krb.Initiator(ticket, flags=krb.ContextFlag.DELEGATION)), "delegation is asked for")
    try_negotiations(realm, ticket)
    try_heimdal(realm, ticket)
    try_web(realm, environment, credentials)
    try_apache(realm, environment, credentials)
