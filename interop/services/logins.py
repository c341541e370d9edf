"""requests and httpx with `krb.requests` and `krb.httpx`: at pages.py, at the example over TLS, and at servers that are none."""

import asyncio
import base64
import http.server
import io
import ssl
import threading

import httpx
import requests
from checks import expect, say
from sites import Site, page_of
from web import Site as Example

import krb
from krb.httpx import NegotiateAuth as HttpxAuth
from krb.requests import NegotiateAuth

SPNEGO = krb.spnego
LAST = "Authorization"


def by_requests(url, auth, body=None, certificate=True, **words):
    """The status and the page, or the exception's name."""
    try:
        with requests.Session() as session:
            answer = session.request("POST" if body else "GET", url, data=body, auth=auth, verify=certificate, timeout=60, **words)
            return answer.status_code, answer.text
    except requests.RequestException as error:
        return type(error).__name__, str(error)


def by_httpx(url, auth, body=None, certificate=True):
    try:
        with httpx.Client(verify=certificate, timeout=60) as client:
            answer = client.request("POST" if body else "GET", url, content=body, auth=auth)
            return answer.status_code, answer.text
    except httpx.RequestError as error:
        return type(error).__name__, str(error)


def by_httpx_at_once(url, auth, body=None, certificate=True):
    async def got():
        async with httpx.AsyncClient(verify=certificate, timeout=60) as client:
            answer = await client.request("POST" if body else "GET", url, content=body, auth=auth)
            return answer.status_code, answer.text

    try:
        return asyncio.run(got())
    except (httpx.RequestError, ssl.SSLError) as error:  # (httpx 0.23 tells the latter of TLS by asyncio as it is)
        return type(error).__name__, str(error)


WAYS = {"requests": (by_requests, NegotiateAuth), "httpx": (by_httpx, HttpxAuth), "httpx, async": (by_httpx_at_once, HttpxAuth)}


def try_way(title, get, auth, realm, site, example, asking, tls):
    bob, tickets = realm.path("bob"), auth(realm.cache)
    for n in range(2):
        expect(get(site.url, tickets) == (200, page_of("ann")), "%s: the page: %s" % (title, get(site.url, tickets)))
    expect(get(site.url, auth()) == (200, page_of("ann")), "%s: the tickets of $KRB5CCNAME" % title)
    expect(get(site.url, auth(bob)) == (200, page_of("bob")), "%s: another user" % title)
    granting = krb.client.load(realm.cache)
    expect(get(site.url, auth(granting)) == (200, page_of("ann")), "%s: a ticket-granting ticket" % title)
    expect(get(site.url, auth(granting.ticket_for("HTTP/localhost"))) == (200, page_of("ann")), "%s: a ticket for the server" % title)
    expect(get(site.url, tickets, body=b"octets") == (200, page_of("ann", "octets")), "%s: a body" % title)
    expect(get(site.url, None)[0] == 401, "%s: no login" % title)
    for what, source in (("for another service", granting.ticket_for("e18/localhost")), ("of no file", realm.path("none"))):
        found = get(site.url, auth(source))
        expect(found[0] == "NoTicket" and "HTTP/localhost" in found[1], "%s: tickets %s: %s" % (title, what, found))
    found = get(site.url.replace("localhost", "127.0.0.1"), tickets)
    expect(found[0] == "NoTicket" and "KDC_ERR_S_PRINCIPAL_UNKNOWN" in found[1], "%s: a host that the KDC does not know: %s" % (title, found))
    for what, each in (("a page without TLS", example), ("a page that asks for MICs, by two tokens on one connection", asking)):
        expect(get(each.url, tickets) == (200, "You are ann@HOME.TEST.\n"), "%s: %s: %s" % (title, what, get(each.url, tickets)))
    found = get(tls.url, tickets, certificate=tls.certificate)
    expect(found == (200, "You are ann@HOME.TEST.\n"), "%s: TLS, bound to the certificate: %s" % (title, found))
    found = get(tls.url, auth(realm.cache, channel_bindings=False), certificate=tls.certificate)
    expect(found[0] == 401, "%s: TLS, bound to none: %s" % (title, found))
    found = get(tls.url, tickets)
    expect(found[0] in ("SSLError", "ConnectError", "SSLCertVerificationError"), "%s: TLS, a certificate that nobody trusts: %s" % (title, found))


class Server:
    """A web server that is none: its answers are by `answer`, which has the path and the value of Authorization and tells a status and fields; `kept` has both
    of each request."""

    def __init__(self, answer):
        self.kept = kept = []

        class Handler(http.server.BaseHTTPRequestHandler):
            protocol_version = "HTTP/1.1"

            def do_GET(self):
                kept.append((self.path, self.headers[LAST]))
                status, fields = answer(self.path, self.headers[LAST])
                self.send_response(status)
                for name, each in {**fields, "Content-Length": "4"}.items():
                    self.send_header(name, each)
                self.end_headers()
                self.wfile.write(b"lie\n")

            def do_POST(self):
                self.rfile.read(int(self.headers["Content-Length"]))
                self.do_GET()

            def log_message(self, *words):
                pass

        self.server = http.server.ThreadingHTTPServer(("127.0.0.1", 0), Handler)
        self.server.daemon_threads = True
        threading.Thread(target=self.server.serve_forever, args=(0.02,), daemon=True).start()
        self.url = "http://localhost:%d/" % self.server.server_address[1]

    def __enter__(self):
        return self

    def __exit__(self, *_):
        self.server.shutdown()
        self.server.server_close()


def of_token(octets):
    return "Negotiate " + base64.b64encode(octets).decode()


def try_liars(title, get, auth, realm):
    """Servers that ask for a login and cannot confirm themselves, and such as refuse it."""
    reject = of_token(SPNEGO.make_neg_token_resp(SPNEGO.NegState.REJECT))
    taken = of_token(SPNEGO.make_neg_token_resp(SPNEGO.NegState.ACCEPT_COMPLETED, SPNEGO.KERBEROS))
    for told in (None, "Negotiate", "Negotiate ????", "Negotiate YQ==", reject, taken):
        for status in (200, 302, 404, 500, 401):
            fields = {} if told is None else {"WWW-Authenticate": told}
            fields = {**fields, "Location": "/elsewhere"} if status == 302 else fields
            with Server(lambda path, came: (status, fields) if came else (401, {"WWW-Authenticate": "Negotiate"})) as server:
                found = get(server.url, auth(realm.cache))
                wanted = found == (401, "lie\n") if status == 401 else found[0] == "NotConfirmed" and "HTTP/localhost@HOME.TEST" in found[1]
                expect(wanted and len(server.kept) == 2, "%s: a server that answers %d with %s: %s" % (title, status, told, found))
    for challenge, count in (("Basic realm=\"x\"", 1), ("Negotiated", 1), (None, 1), ("Basic realm=\"x\", Negotiate", 2), ("negotiate, Basic realm=\"x\"", 2)):
        with Server(lambda path, came: (401, {"WWW-Authenticate": challenge} if challenge and not came else {})) as server:
            found = get(server.url, auth(realm.cache))
            expect(found[0] == 401 and len(server.kept) == count, "%s: the challenge %s: %s, %d requests" % (title, challenge, found, len(server.kept)))


def try_redirects(realm, site):
    """By requests, which follows them."""
    with Server(lambda path, came: (401, {"WWW-Authenticate": "Negotiate"})) as other:
        elsewhere = other.url.replace("localhost", "127.0.0.1")
        with Server(lambda path, came: (302, {"Location": elsewhere if path == "/else" else site.url})) as server:
            found = by_requests(server.url + "else", NegotiateAuth(realm.cache))
            expect(found[0] == 401 and [came for _, came in other.kept] == [None], "a redirect to another host, which gets no token: %s" % (found,))
            found = by_requests(server.url + "there", NegotiateAuth(realm.cache))
            expect(found == (200, page_of("ann")), "a redirect to another port of the host: %s" % (found,))
            found = by_requests(server.url + "there", NegotiateAuth(realm.cache), io.BytesIO(b"a file"))
            expect(found == (200, page_of("ann")), "a redirect of a POST, which has no body any more: %s" % (found,))


def try_bodies(realm, site):
    auth = NegotiateAuth(realm.cache)
    expect(by_requests(site.url, auth, io.BytesIO(b"of a file")) == (200, page_of("ann", "of a file")), "requests: a body that is a file")
    behind = io.BytesIO(b"left out: of a file")
    behind.seek(10)
    found = by_requests(site.url, auth, behind)
    expect(found == (200, page_of("ann", "of a file")), "requests: a file from the middle on: %s" % (found,))
    found = by_requests(site.url, auth, iter([b"once"]))
    expect(found[0] == "UnrewindableBodyError", "requests: a body that cannot be sent again: %s" % (found,))
    with requests.Session() as session:
        session.auth = auth
        pages = [session.get(site.url).text for _ in range(3)]
        answer = session.get(site.url)
    expect(pages == [page_of("ann")] * 3 and [each.status_code for each in answer.history] == [401], "requests: a session")


def try_logins(realm, environment):
    site, example = Site(realm, environment, "Starlette"), Example(realm, environment)
    asking, tls = Example(realm, environment, words=["--ask"]), Example(realm, environment, realm.certificate())
    try:
        for title, (get, auth) in WAYS.items():
            try_way(title, get, auth, realm, site, example, asking, tls)
            try_liars(title, get, auth, realm)
            say("%s: done" % title)
        try_redirects(realm, site)
        try_bodies(realm, site)
    finally:
        site.stop()
