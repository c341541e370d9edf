"""The middlewares, called as a server calls them, and keytabs that change."""

import asyncio
import base64
import logging
import os
import shutil
import time
import types
import unittest.mock

from checks import expect

import krb
import krb.asgi
import krb.wsgi
from clients import MitClient
from realm import PASSWORD


def value():
    """The value of Authorization with a new token, and the client that made it."""
    client = MitClient("HTTP", ["mutual"])
    return "Negotiate " + base64.b64encode(client.begin()).decode("ascii"), client


class Lines(logging.Handler):
    """The lines of a logger, of all levels."""

    def __init__(self, name):
        super().__init__()
        self.lines, self.log = [], logging.getLogger(name)
        self.log.setLevel(logging.DEBUG)
        self.log.propagate = False
        self.log.addHandler(self)

    def emit(self, record):
        self.lines.append("%s %s" % (record.levelname, record.getMessage()))

    def take(self):
        found, self.lines = self.lines, []
        return found


def try_wsgi(acceptor):
    calls, lines = [], Lines("krb.wsgi")

    def page(environ, start_response):
        calls.append(environ)
        start_response("200 OK", [("X", "own")])
        return [b"the page"]

    application = krb.wsgi.Negotiate(page, acceptor)

    def answered(method="GET", address="192.0.2.7", **given):
        begun = []
        body = application({"REQUEST_METHOD": method, "REMOTE_ADDR": address, **given}, lambda status, fields: begun.append((status, dict(fields))))
        return (*begun[0], b"".join(body))

    asked = {"WWW-Authenticate": "Negotiate", "Content-Type": "text/plain", "Content-Length": "20"}
    expect(answered() == ("401 Unauthorized", asked, b"Kerberos is needed.\n"), "WSGI, a first request")
    expect([line[:18] for line in lines.take()] == ["DEBUG 192.0.2.7: n"], "WSGI, the log of a first request")
    expect(answered("HEAD") == ("401 Unauthorized", asked, b""), "WSGI, HEAD")
    lines.take()
    expect(answered(HTTP_AUTHORIZATION="Basic YW5uOmE=")[0] == "401 Unauthorized" and not calls, "WSGI, Basic")
    found = lines.take()
    expect(len(found) == 1 and found[0].startswith("INFO 192.0.2.7: ") and "YW5u" not in found[0], "WSGI, the log of Basic: %s" % found)
    for address, told in (("192.0.2.7\nERROR all", "192.0.2.7\\nERROR all: "), (None, "-: "), ("", "-: "), ("2001:db8::1", "2001:db8::1: ")):
        answered(address=address, HTTP_AUTHORIZATION="Negotiate !!")
        found = lines.take()
        expect(len(found) == 1 and found[0].startswith("WARNING " + told) and "\n" not in found[0], "WSGI, the log from %r: %s" % (address, found))
    sent, client = value()
    status, fields, body = answered(HTTP_AUTHORIZATION=sent, REMOTE_USER="root")
    client.take(base64.b64decode(fields["WWW-Authenticate"].partition(" ")[2]))
    expect((status, fields["X"], body) == ("200 OK", "own", b"the page") and client.is_complete(), "WSGI, a token")
    environ = calls[0]
    names = environ["REMOTE_USER"], environ["AUTH_TYPE"], environ["krb.context"].client
    expect(names == ("ann@HOME.TEST", "Negotiate", "ann@HOME.TEST"), "WSGI, names: %s" % (names,))
    expect(answered(HTTP_AUTHORIZATION=sent)[0] == "401 Unauthorized" and len(calls) == 1, "WSGI, a token again")
    spnego = krb.spnego
    two = "Negotiate " + base64.b64encode(spnego.make_neg_token_init([bytes.fromhex("2b06010401823702021e"), spnego.KERBEROS], b"x")).decode()
    for connection, wanted in (({}, spnego.NegState.REQUEST_MIC), (None, spnego.NegState.REJECT)):
        lines.take()
        given = {} if connection is None else {"negotiate.connection": connection}
        status, fields, _ = answered(HTTP_AUTHORIZATION=two, **given)
        state = spnego.neg_token_resp(base64.b64decode(fields["WWW-Authenticate"].partition(" ")[2])).neg_state
        level = lines.take()[0].split()[0]
        expect((status[:3], state, bool(connection), level) == ("401", wanted, connection is not None, "WARNING" if connection is None else "DEBUG"),
               "WSGI, a further token, connection %s: %s %s %s" % (connection, status, state, level))


def try_asgi(acceptor):
    lines, calls = Lines("krb.asgi"), []

    async def page(scope, receive, send):
        calls.append(scope)
        kind = {"http": "http.response.start", "websocket": "websocket.accept", "lifespan": "lifespan.startup.complete"}[scope["type"]]
        await send({"type": kind, "status": 200, "headers": [(b"x", b"own")]})

    application = krb.asgi.Negotiate(page, acceptor)

    def answered(kind, *values, method="GET"):
        sent = []

        async def send(message):
            sent.append(message)

        scope = {"type": kind, "method": method, "client": ("192.0.2.7", 1), "headers": [(b"Authorization", each.encode("latin-1")) for each in values]}
        asyncio.run(application(scope, None, send))
        return sent

    start, body = answered("http")
    fields = dict(start["headers"])
    expect((start["status"], fields[b"www-authenticate"], body["body"]) == (401, b"Negotiate", b"Kerberos is needed.\n"), "ASGI, a first request")
    expect([line.split()[:2] for line in lines.take()] == [["DEBUG", "192.0.2.7:"]], "ASGI, the log of a first request")
    expect(answered("http", method="HEAD")[1]["body"] == b"", "ASGI, HEAD")
    expect(answered("websocket") == [{"type": "websocket.close", "code": 1008}], "ASGI, a WebSocket without a token")
    expect(answered("websocket", "Negotiate YQ==") == [{"type": "websocket.close", "code": 1008}], "ASGI, a WebSocket with another token")
    for values in ([value()[0], value()[0]], ["Basic YW5uOmE=", value()[0]], ["Negotiate \xff"]):
        expect(answered("http", *values)[0]["status"] == 401, "ASGI, %s" % (values,))
    try:
        answered("other")
        expect(False, "ASGI, a scope of another type")
    except ValueError:
        expect(not calls, "ASGI: nobody is let in yet")
    expect(answered("lifespan")[0]["type"] == "lifespan.startup.complete", "ASGI, lifespan")
    for kind in ("http", "websocket"):
        sent, client = value()
        (start,) = answered(kind, sent)
        fields = dict(start["headers"])
        client.take(base64.b64decode(fields[b"www-authenticate"].partition(b" ")[2]))
        user, granted = calls[-1]["user"], calls[-1]["auth"]
        names = user.display_name, user.identity, user.is_authenticated, user.context.client, granted.scopes, calls[-1]["krb.context"] is user.context
        expect(names == ("ann@HOME.TEST", "ann@HOME.TEST", True, "ann@HOME.TEST", ["authenticated"], True), "ASGI, %s: names %s" % (kind, names))
        expect(client.is_complete() and fields[b"x"] == b"own", "ASGI, %s: the answer" % kind)
        expect(answered(kind, sent)[0].get("status", 401) == 401, "ASGI, %s: a token again" % kind)


def raised(call):
    try:
        call()
    except (OSError, krb.Refused) as error:
        return type(error).__name__
    return None


class Coarse:
    """The module os on a file system whose times go on by ticks of 50 milliseconds."""

    TICK = 50_000_000

    def __getattr__(self, name):
        return getattr(os, name)

    def _of(self, found):
        times = {"st_%stime_ns" % each: getattr(found, "st_%stime_ns" % each) // self.TICK * self.TICK for each in "mc"}
        seconds = {name[:-3]: nanoseconds / 1e9 for name, nanoseconds in times.items()}
        return types.SimpleNamespace(st_dev=found.st_dev, st_ino=found.st_ino, st_size=found.st_size, **times, **seconds)

    def stat(self, path):
        return self._of(os.stat(path))

    def fstat(self, number):
        return self._of(os.fstat(number))


def try_tick(path):
    """A keytab that is written twice in one tick of the clock by which files have their times."""
    with open(path, "r+b") as file, unittest.mock.patch("krb.accept.os", Coarse()):
        octets = file.read()
        acceptor = krb.Acceptor(octets, replay_cache=False)
        for n in range(300):
            for last in (n & 255, n + 1 & 255):
                file.seek(0)
                file.write(octets[:-1] + bytes([last]))
                file.flush()
                if last == n & 255:
                    acceptor = krb.Acceptor(path, replay_cache=False)
            if not acceptor.reload_if_changed():
                expect(False, "a keytab that was written twice in one tick, time %d" % n)
                return
    expect(True, "")


def try_reload(realm):
    """A keytab that changes: what is told, and whether its own keys are known."""
    path, good = realm.path("changing"), realm.keytab
    shutil.copy(good, path)
    realm.run("ktutil", text="rkt %s\ndelent 1\nwkt %s\n" % (good, realm.path("fewer")))
    acceptor = krb.Acceptor(path, replay_cache=False)
    expect(not acceptor.reload_if_changed(), "a keytab of just now that did not change")
    time.sleep(1.1)
    expect(not acceptor.reload_if_changed() and not acceptor.reload_if_changed(), "a keytab that did not change")
    os.utime(path)
    expect(not acceptor.reload_if_changed(), "a keytab that was touched: its keys are the same")
    shutil.copy(realm.path("fewer"), path)
    expect(acceptor.reload_if_changed() and not acceptor.reload_if_changed(), "a keytab that was written")
    time.sleep(1.1)
    expect(not acceptor.reload_if_changed(), "a keytab that was written, a second later")
    shutil.copy(good, path + "-new")
    os.utime(path + "-new", ns=(os.stat(path).st_atime_ns, os.stat(path).st_mtime_ns))
    os.replace(path + "-new", path)
    time.sleep(1.1)
    expect(acceptor.reload_if_changed(), "a keytab that was replaced by one of the same time")
    try_tick(path)
    for octets, wanted in ((b"no keytab", "Refused"), (b"", "Refused"), (b"\5\2", "Refused")):
        with open(path, "wb") as file:
            file.write(octets)
        expect([raised(acceptor.reload_if_changed) for _ in range(2)] == [wanted, wanted], "a keytab that is %r" % octets)
    os.unlink(path)
    expect(raised(acceptor.reload_if_changed) == "FileNotFoundError", "a keytab that is away")
    expect(acceptor.accept(MitClient("HTTP", ["mutual"]).begin()).client == "ann@HOME.TEST", "the old keys stay")
    shutil.copy(good, path)
    expect(not acceptor.reload_if_changed(), "the keytab that it was")
    with open(good, "rb") as file:
        expect(not krb.Acceptor(file.read(), replay_cache=False).reload_if_changed(), "octets")
    try:
        krb.Acceptor(good, skew=123).accept(MitClient("HTTP", ["mutual"]).begin())
        expect(False, "a cache that is too young")
    except krb.NotAccepted as refused:
        expect("whole_since" in str(refused) and " 123 s" in str(refused), "a cache that is too young: %s" % refused)


def addressed(realm):
    """A cache of tickets that are for the address 127.0.0.1 and those of this machine."""
    with open(realm.path("krb5.conf"), encoding="ascii") as file:
        text = file.read()
    config = realm.write("addresses.conf", text.replace("[libdefaults]\n", "[libdefaults]\n noaddresses = false\n extra_addresses = 127.0.0.1\n", 1))
    cache = realm.path("addressed")
    environment = dict(realm.environment, KRB5_CONFIG=config, KRB5CCNAME="FILE:" + cache)
    realm.run("kinit", "-a", "ann", text=PASSWORD + "\n", environment=environment)
    expect("127.0.0.1" in realm.run("klist", "-a", "-n", environment=environment), "a ticket that is for 127.0.0.1")
    return cache


def try_addresses(realm, acceptor):
    """A ticket that is for addresses, and those that a server tells."""
    cache = addressed(realm)
    required = krb.Acceptor(realm.keytab, replay_cache=krb.ReplayCache(None), server="HTTP", addresses_required=True)
    rows = [
        (acceptor, True, "127.0.0.1", True), (acceptor, True, "::ffff:127.0.0.1", True), (acceptor, True, "192.0.2.7", False), (acceptor, True, "2001:db8::1", False),
        (acceptor, False, "192.0.2.7", True), (acceptor, True, None, True), (acceptor, True, "", True), (acceptor, True, "testclient", True),
        (required, True, "127.0.0.1", True), (required, True, "192.0.2.7", False),
    ]
    for which, addresses, address, is_in in rows:
        token = base64.b64encode(MitClient("HTTP", ["mutual"], cache=cache).begin()).decode("ascii")
        lines = {name: Lines(name) for name in ("krb.wsgi", "krb.asgi")}
        page = krb.wsgi.Negotiate(lambda environ, start_response: [start_response("200 OK", []) or b""], which, addresses=addresses)
        statuses = []
        page({"REQUEST_METHOD": "GET", "REMOTE_ADDR": address, "HTTP_AUTHORIZATION": "Negotiate " + token}, lambda status, fields: statuses.append(status[:3]))
        what = "addresses=%s, required: %s, %r" % (addresses, which is required, address)
        expect(statuses == ["200" if is_in else "401"], "WSGI, %s: %s" % (what, statuses))
        expect(any("OTHER_ADDRESS" in line for line in lines["krb.wsgi"].take()) != is_in, "WSGI, %s: the log" % what)

        async def sent_page(scope, receive, send):
            await send({"type": "http.response.start", "status": 200, "headers": []})

        async def send(message):
            statuses.append(message.get("status"))

        token = base64.b64encode(MitClient("HTTP", ["mutual"], cache=cache).begin()).decode("ascii")
        scope = {"type": "http", "method": "GET", "client": None if address is None else (address, 1), "headers": [(b"authorization", b"Negotiate " + token.encode())]}
        statuses.clear()
        asyncio.run(krb.asgi.Negotiate(sent_page, which, addresses=addresses)(scope, None, send))
        expect(statuses[0] == (200 if is_in else 401), "ASGI, %s: %s" % (what, statuses))
        for each in lines.values():
            each.log.removeHandler(each)
    plain = MitClient("HTTP", ["mutual"]).begin()
    expect(acceptor.accept(plain, address="192.0.2.7").client == "ann@HOME.TEST", "a ticket for no addresses, from anywhere")


def try_units(realm):
    acceptor = krb.Acceptor(realm.keytab, replay_cache=krb.ReplayCache(None), server="HTTP")
    try_wsgi(acceptor)
    try_asgi(acceptor)
    try_addresses(realm, acceptor)
    try_reload(realm)
