"""pages.py by servers of Debian, with curl and tokens of MIT's GSS-API, and a keytab that changes."""

import base64
import http.client
import os
import re
import shutil
import socket
import subprocess
import time

from checks import counted, expect
from clients import MitClient
from realm import free_port
from script import PYTHON, at_once
from units import value

import krb

HERE = os.path.dirname(os.path.abspath(__file__))
UVICORN = ["-m", "uvicorn", "--host", "127.0.0.1", "--log-level", "warning", "--port", "%d"]
SERVERS = {
    "wsgiref": ["-B", os.path.join(HERE, "pages.py"), "%d"],
    "gunicorn": ["-B", "-m", "gunicorn", "--workers", "2", "--bind", "127.0.0.1:%d", "pages:application"],
    "uvicorn": [*UVICORN, "pages:bare"],
    "Starlette": [*UVICORN, "--factory", "pages:starlette_page"],
    "FastAPI": [*UVICORN, "--factory", "pages:fastapi_page"],
}
WORKERS = {"gunicorn": 2}
NEGOTIATE = "--negotiate", "-u", ":"


def page_of(user, body=""):
    return "You are {0}@HOME.TEST, {0}@HOME.TEST.\n{1}".format(user, body)


class Site:
    """One of the servers, with a keytab and a replay cache of its own."""

    def __init__(self, realm, environment, name):
        self.realm, self.name, self.port = realm, name, free_port()
        self.keytab, replays = realm.path("keytab-%d" % self.port), realm.path("replays-%d" % self.port)
        shutil.copy(realm.keytab, self.keytab)
        krb.FileReplayCache(replays, whole_since=None).close()
        self.url, self._from = "http://localhost:%d/" % self.port, os.path.getsize(realm.path("servers.log"))
        words = [each % self.port if "%d" in each else each for each in SERVERS[name]]
        own = dict(environment, KEYTAB=self.keytab, REPLAYS=replays, PYTHONPATH=environment["PYTHONPATH"] + os.pathsep + HERE, PYTHONUNBUFFERED="1")
        self.process = realm.start([PYTHON, *words], own, self.port)

    def stop(self):
        self.process.terminate()
        self.process.wait(20)

    def log(self, level):
        """The lines of the middleware's of a level, and Tracebacks."""
        with open(self.realm.path("servers.log"), encoding="utf-8", errors="replace") as file:
            file.seek(self._from)
            return [line for line in file.read().split("\n") if re.match(r"%s krb\.|Traceback" % level, line)]

    def curl(self, *words, cache=None):
        """The status, the fields and the page."""
        environment = dict(self.realm.environment, KRB5CCNAME="FILE:" + (cache or self.realm.cache))
        command = ["curl", "-s", "--noproxy", "*", "-4", "-D", "-", *words, self.url]
        done = subprocess.run(command, env=environment, capture_output=True, text=True, timeout=60)
        *heads, page = re.split("\r?\n\r?\n", done.stdout, maxsplit=done.stdout.count("HTTP/1.") if done.stdout else 0)
        return int(heads[-1].split()[1]) if heads else 0, heads[-1] if heads else "", page

    def is_in(self, user="ann", *words, cache=None, body=""):
        status, _, page = self.curl(*NEGOTIATE, *words, cache=cache)
        return (status, page) == (200, page_of(user, body))

    def get(self, *values, method="GET"):
        """The status, the token and the page that are answered to a request with these values of Authorization."""
        link = http.client.HTTPConnection("localhost", self.port, timeout=30)
        try:
            link.putrequest(method, "/")
            for each in values:
                link.putheader("Authorization", each.encode("latin-1"))
            link.endheaders()
            answer = link.getresponse()
            scheme, _, text = (answer.headers["WWW-Authenticate"] or "").partition(" ")
            return answer.status, base64.b64decode(text) if scheme == "Negotiate" else None, answer.read().decode()
        finally:
            link.close()


def try_curl(site):
    status, fields, page = site.curl()
    is_asked = status == 401 and re.search("^www-authenticate: Negotiate\r?$", fields, re.I | re.M) and page == "Kerberos is needed.\n"
    expect(is_asked, "%s: curl: %s" % (site.name, fields))
    expect(site.curl("-I")[0] == 401, "%s: curl, HEAD" % site.name)
    expect(site.curl("-u", "ann:a password")[0] == 401, "%s: curl, Basic" % site.name)
    expect(site.log("WARNING") == [], "%s: first requests are no warning: %s" % (site.name, site.log("WARNING")))
    expect(site.is_in(), "%s: curl with a ticket: %s" % (site.name, site.curl(*NEGOTIATE)))
    expect(site.is_in("bob", cache=site.realm.path("bob")), "%s: curl of another user" % site.name)
    expect(site.is_in("ann", "--data", "some text", body="some text"), "%s: curl with a body" % site.name)
    expect(site.curl(*NEGOTIATE, cache=site.realm.path("none"))[0] == 401, "%s: curl without a ticket" % site.name)
    expect(site.log("WARNING") == [], "%s: who is let in is no warning: %s" % (site.name, site.log("WARNING")))


def try_tokens(site):
    sent, client = value()
    status, answer, page = site.get(sent)
    client.take(answer)
    expect((status, page, client.is_complete()) == (200, page_of("ann"), True), "%s: a token: %d %s" % (site.name, status, page))
    expect(site.get(sent)[0] == 401, "%s: a token that comes again" % site.name)
    sent, _ = value()
    statuses = at_once(10, lambda: site.get(sent)[0])
    expect(sorted(statuses) == [200] + 9 * [401], "%s: a token ten times at once: %s" % (site.name, statuses))
    spnego, token = krb.spnego, base64.b64decode(value()[0].partition(" ")[2])
    negoex = bytes.fromhex("2b06010401823702021e")

    def sent_as(octets):
        return "Negotiate " + base64.b64encode(octets).decode()

    for what, *values in (
        ("a changed token", sent_as(token[:-1] + bytes([token[-1] ^ 1]))),
        ("no token in SPNEGO", sent_as(spnego.make_neg_token_init([spnego.KERBEROS]))),
        ("no base64", "Negotiate !!!!"),
        ("no octets", "Negotiate"),
        ("NTLM", sent_as(b"NTLMSSP\0\1\0\0\0")),
        ("octets past ASCII", "Negotiate \xff\xfe"),
        ("a ticket for another service of the keytab", sent_as(MitClient("e18", ["mutual"]).begin())),
        ("two tokens", value()[0], value()[0]),
    ):
        status, _, page = site.get(*values)
        expect(status == 401 and "ann" not in page, "%s: %s: %d %s" % (site.name, what, status, page))
    status, answer, _ = site.get(sent_as(spnego.make_neg_token_init([negoex, spnego.KERBEROS], token)))
    is_reject = status == 401 and spnego.neg_token_resp(answer).neg_state == spnego.NegState.REJECT
    expect(is_reject, "%s: another mechanism first, which needs a second token: %d" % (site.name, status))
    expect(site.get(sent_as(token))[0] == 200, "%s: the token that these were made of" % site.name)
    found = site.log("WARNING")
    expect(all(re.match(r"WARNING krb\.[aw]sgi: 127\.0\.0\.1: ", line) for line in found), "%s: addresses in the log: %s" % (site.name, found))
    for word in ("REPEAT", "NOT_US", "further token"):
        expect(any(word in line for line in found), "%s: %s in the log: %s" % (site.name, word, found))


def all_workers_read(site, cache):
    """Requests until each worker of a WSGI server has answered one, and so has read its keytab anew; whether that came."""
    workers = set()
    for _ in range(200):
        found = re.search(r"^X-Worker: (\d+)", site.curl(*NEGOTIATE, cache=cache)[1], re.M)
        workers.update(found.groups() if found else ())
        if len(workers) >= WORKERS.get(site.name, 0):
            return True
    return False


def try_websocket(site):
    """The first octets of a WebSocket (RFC 6455, 4.1): whether it is opened, and what it sends."""

    def opened(authorization):
        lines = "GET / HTTP/1.1", "Host: localhost", "Connection: Upgrade", "Upgrade: websocket", "Sec-WebSocket-Version: 13"
        text = "\r\n".join([*lines, "Sec-WebSocket-Key: %s==" % ("A" * 22), *(["Authorization: " + authorization] if authorization else []), "", ""])
        with socket.create_connection(("127.0.0.1", site.port), 20) as link:
            link.settimeout(20)
            link.sendall(text.encode())
            came = b""
            while part := link.recv(1 << 16):
                came += part
                if came.endswith(b"\x88\x02\x03\xe8"):  # the frame that closes
                    break
        head, _, rest = came.partition(b"\r\n\r\n")
        return head.split()[1].decode(), head, rest

    for what, sent in (("no token", None), ("another token", "Negotiate YQ==")):
        status, _, rest = opened(sent)
        expect(status == "403" and b"You are" not in rest, "%s: a WebSocket with %s: %s" % (site.name, what, status))
    sent, client = value()
    status, head, rest = opened(sent)
    token = re.search(rb"^www-authenticate: Negotiate (\S+)\r?$", head, re.I | re.M)
    expect(status == "101" and b"You are ann@HOME.TEST.\n" in rest and token, "%s: a WebSocket with a token: %s %s" % (site.name, head, rest))
    client.take(base64.b64decode(token[1]))
    expect(client.is_complete(), "%s: a WebSocket with a token: the answer" % site.name)
    expect(opened(sent)[0] == "403", "%s: a WebSocket with a token that comes again" % site.name)


def try_keytab(site):
    """Without a restart."""
    realm, fresh, name = site.realm, site.realm.path("fresh-%d" % site.port), site.name
    realm.admin("cpw -randkey HTTP/localhost")
    realm.kinit("ann", cache=fresh)
    expect(site.curl(*NEGOTIATE, cache=fresh)[0] == 401, "%s: a ticket of a key that the keytab has not" % name)
    expect(any(": KEY_VERSION: " in line for line in site.log("WARNING")), "%s: the log of it: %s" % (name, site.log("WARNING")))
    realm.admin("ktadd -norandkey -k %s HTTP/localhost" % site.keytab)
    expect(site.is_in(cache=fresh) and site.is_in(), "%s: tickets of the key of before and of that which ktadd put in" % name)
    expect(all_workers_read(site, fresh), "%s: each worker answers" % name)
    kept = realm.path("kept-%d" % site.port)
    shutil.copy(site.keytab, kept)
    before = len(site.log("WARNING"))
    for what, spoil in (("is none", lambda: realm.write(site.keytab, "no keytab")), ("is away", lambda: os.unlink(site.keytab))):
        spoil()
        expect(all([site.is_in(cache=fresh) for _ in range(6)]), "%s: the old keys stay while the keytab %s" % (name, what))
    found = site.log("WARNING")[before:]
    most = 2 * WORKERS.get(name, 1)
    expect(2 <= len(found) <= most and all("the old" in line or "keys of before stay" in line for line in found), "%s: one warning of each: %s" % (name, found))
    realm.admin("ktadd -norandkey -k %s-other e18/localhost" % site.keytab)
    os.replace(site.keytab + "-other", site.keytab)
    expect(site.curl(*NEGOTIATE, cache=fresh)[0] == 401, "%s: another keytab, without the key" % name)
    os.replace(kept, site.keytab)
    expect(site.is_in(cache=fresh), "%s: the keytab that it was" % name)
    shutil.copy(site.keytab, realm.keytab)  # the next page's has this key, too


def try_sites(realm, environment):
    for name in SERVERS:
        site = Site(realm, environment, name)
        try:
            for what, run in (("curl", try_curl), ("tokens", try_tokens), ("a keytab that changes", try_keytab)):
                counted("%s: %s" % (name, what), lambda: run(site))
            if name == "uvicorn":
                counted("%s: WebSockets" % name, lambda: try_websocket(site))
            expect(not any("Traceback" in line for line in site.log("ERROR")), "%s: the log" % name)
        finally:
            site.stop()
        time.sleep(0.1)
