"""examples/http_negotiate with curl, and with tokens that curl does not send."""

import base64
import http.client
import os
import ssl
import subprocess

from checks import expect, say
from realm import free_port
from script import TOP

SERVE = os.path.join(TOP, "examples", "http_negotiate", "serve.py")
PAGE = "You are ann@HOME.TEST.\n"


class Site:
    """The example's server, with TLS or without, and with these words before its others."""

    def __init__(self, realm, environment, certificate=None, words=()):
        self.realm, self.port, self.certificate = realm, free_port(), certificate
        files = [certificate, realm.path("key.pem")] if certificate else []
        self.url = "http%s://localhost:%d/" % ("s" if files else "", self.port)
        cache = realm.path("replays-%d" % self.port)
        realm.start(["/usr/bin/python3", SERVE, "--new", *words, realm.keytab, cache, str(self.port), *files], environment, self.port)

    def curl(self, *words, cache=None):
        """The status, and the page."""
        environment = dict(self.realm.environment, KRB5CCNAME="FILE:" + (cache or self.realm.cache))
        if self.certificate:
            words += ("--cacert", self.certificate)
        command = ["curl", "-s", "--noproxy", "*", "-4", "-w", "\n%{http_code}", *words, self.url]
        page, _, status = subprocess.run(command, env=environment, capture_output=True, text=True, timeout=60).stdout.rpartition("\n")
        return int(status), page

    def get(self, *values):
        """The status, the token and the page that are answered to a request with these values of Authorization."""
        context = ssl.create_default_context(cafile=self.certificate) if self.certificate else None
        link = http.client.HTTPSConnection("localhost", self.port, context=context) if context else http.client.HTTPConnection("localhost", self.port)
        try:
            link.request("GET", "/", headers={"Authorization": value for value in values})
            answer = link.getresponse()
            scheme, _, text = (answer.headers["WWW-Authenticate"] or "").partition(" ")
            return answer.status, base64.b64decode(text) if scheme == "Negotiate" else None, answer.read().decode()
        finally:
            link.close()


def value(token):
    return "Negotiate " + base64.b64encode(token).decode()


def try_curl(site, title):
    expect(site.curl("--negotiate", "-u", ":") == (200, PAGE), "%s: curl with a ticket: %s" % (title, site.curl("--negotiate", "-u", ":")))
    none = site.realm.path("no-cache")
    expect(site.curl("--negotiate", "-u", ":", cache=none)[0] == 401, "%s: curl without a ticket" % title)
    expect(site.curl()[0] == 401, "%s: curl without --negotiate" % title)
    bob = site.realm.path("bob")
    site.realm.kinit("bob", cache=bob)
    expect(site.curl("--negotiate", "-u", ":", cache=bob) == (200, PAGE.replace("ann", "bob")), "%s: curl of another user" % title)


def try_tokens(site, krb):
    """A token of Kerberos, the same in SPNEGO, replays of both, and other first messages."""
    from clients import MitClient

    spnego, kerberos = krb.spnego, krb.spnego.KERBEROS
    microsoft, negoex = bytes.fromhex("2a864882f712010202"), bytes.fromhex("2b06010401823702021e")

    def begun():
        client = MitClient("HTTP", ["mutual"])
        return client, client.begin()

    client, token = begun()
    status, answer, page = site.get(value(token))
    expect((status, page) == (200, PAGE), "a token of Kerberos: %d %s" % (status, page))
    client.take(answer)
    expect(client.is_complete(), "a token of Kerberos: the answer")
    expect(site.get(value(token))[0] == 401, "a token of Kerberos that comes again")
    for first in (kerberos, microsoft):
        client, token = begun()
        sent = value(spnego.make_neg_token_init([first, negoex], token))
        status, answer, page = site.get(sent)
        expect((status, page) == (200, PAGE), "SPNEGO: %d %s" % (status, page))
        found = spnego.neg_token_resp(answer)
        expect((found.neg_state, found.supported_mech) == (spnego.NegState.ACCEPT_COMPLETED, first), "SPNEGO: the answer %s" % (found,))
        client.take(found.response_token)
        expect(client.is_complete(), "SPNEGO: the reply")
        status, answer, page = site.get(sent)
        expect(status == 401 and spnego.neg_token_resp(answer).neg_state == spnego.NegState.REJECT, "SPNEGO that comes again: %d" % status)
    try_refused(site, spnego, begun()[1], negoex)


def try_refused(site, spnego, token, negoex):
    """First messages that get nobody in, and then the token that they were made of."""
    from clients import MitClient

    kerberos = spnego.KERBEROS
    for what, sent in (
        ("another mechanism first", value(spnego.make_neg_token_init([negoex, kerberos], token))),
        ("no token", value(spnego.make_neg_token_init([kerberos]))),
        ("a changed token", value(token[:-1] + bytes([token[-1] ^ 1]))),
        ("no base64", "Negotiate !!!!"),
        ("no octets", "Negotiate"),
        ("Basic", "Basic YW5uOmE="),
        ("NTLM", value(b"NTLMSSP\0\1\0\0\0")),
        ("octets past ASCII", "Negotiate \xff\xfe"),
        ("a ticket for another service of the keytab", value(MitClient("e18", ["mutual"]).begin())),
    ):
        status, _, page = site.get(sent)
        expect(status == 401 and "ann" not in page, "%s: %d %s" % (what, status, page))
    expect(site.get(value(token))[0] == 200, "a token of which changed copies came before")


def try_bindings(site, krb):
    """Only a client that is bound to the certificate."""
    import hashlib

    from clients import MitClient

    with open(site.certificate, encoding="ascii") as file:
        right = b"tls-server-end-point:" + hashlib.sha256(ssl.PEM_cert_to_DER_cert(file.read())).digest()
    for bindings, wanted in ((right, 200), (right[:-1] + b"\0", 401), (None, 401)):
        status, _, _ = site.get(value(MitClient("HTTP", ["mutual"], bindings).begin()))
        expect(status == wanted, "TLS, channel bindings %s: %d" % (bindings, status))


def try_web(realm, environment):
    import krb

    site, tls = Site(realm, environment), Site(realm, environment, realm.certificate())
    try_curl(site, "http")
    try_tokens(site, krb)
    try_bindings(tls, krb)
    status, _ = tls.curl("--negotiate", "-u", ":")
    say("curl over TLS, where channel bindings are checked: %d" % status)
    log = realm.log()
    expect(all(rule + ": " in log for rule in ("REPEAT", "BINDINGS", "NOT_US")) and "Traceback" not in log, "the log of the example: %s" % log)
