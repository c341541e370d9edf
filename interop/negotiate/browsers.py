"""examples/http_negotiate with curl, Chromium and Firefox, and with negotiations of more than one token on one connection."""

import base64
import collections
import http.client
import json
import os
import signal
import socket
import struct
import subprocess
import time
import zlib

from checks import expect, say
from realm import free_port
from sides import INITIATOR, MitSide
from web import PAGE, Site, try_curl, value

WAIT = 90  # seconds for a browser


# What is in a picture.


def unfiltered(octets, width, step):
    """The octets of the pixels in a PNG (ISO/IEC 15948, 9), of which each line has this many and each pixel `step`."""
    lines, above = [], bytes(width)
    for start in range(0, len(octets), width + 1):
        kind, line = octets[start], bytearray(octets[start + 1 : start + 1 + width])
        for n in range(width) if kind else ():
            left, up, corner = (line[n - step] if n >= step else 0), above[n], (above[n - step] if n >= step else 0)
            guess = left + up - corner
            paeth = min((left, up, corner), key=lambda each: abs(guess - each))
            line[n] = line[n] + (0, left, up, (left + up) // 2, paeth)[kind] & 255
        lines.append(bytes(line))
        above = line
    return b"".join(lines)


def colours_of(png):
    """How often each colour is in a picture of 8 bits, with three or four colours a pixel."""
    assert png[:8] == b"\x89PNG\r\n\x1a\n", "no PNG"
    at, packed, header = 8, b"", None
    while at < len(png):
        size, kind = struct.unpack(">I4s", png[at : at + 8])
        body, at = png[at + 8 : at + 8 + size], at + 12 + size
        header = struct.unpack(">IIBB", body[:10]) if kind == b"IHDR" else header
        packed += body if kind == b"IDAT" else b""
    width, height, bits, form = header
    assert bits == 8 and form in (2, 6), "a PNG of another kind"
    step = 3 if form == 2 else 4
    octets = unfiltered(zlib.decompress(packed), width * step, step)
    assert len(octets) == width * height * step
    return collections.Counter(octets[n : n + 3] for n in range(0, len(octets), step))


def try_picture(title, png):
    """A page with a line of text: one colour behind, and some of it covered by others."""
    try:
        colours = colours_of(png)
        most, whole = colours.most_common(1)[0][1], sum(colours.values())
        expect(whole > 10000 and 50 <= whole - most < whole // 2, "%s: a picture of %d pixels, %d of one colour" % (title, whole, most))
    except (AssertionError, zlib.error, TypeError) as error:
        expect(False, "%s: %s" % (title, error))


# Chromium.


class Chromium:
    """Runs of headless Chromium, each with a profile of its own, which says that it saw Negotiate before: else the first page would only learn that, since the
    process that loads libgssapi is another one then."""

    def __init__(self, realm, allowed="localhost"):
        self.realm, self.allowed, self.runs = realm, allowed, 0

    def run(self, url, *words, cache=None):
        self.runs += 1
        home = self.realm.path("chromium-%s-%d" % (self.allowed, self.runs))
        os.mkdir(home)
        self.realm.write(os.path.join(home, "Local State"), '{"net":{"received_http_auth_negotiate_headers":true}}')
        command = ["chromium", "--headless", "--no-sandbox", "--disable-gpu", "--disable-dev-shm-usage", "--no-first-run", "--disable-background-networking"]
        command += ["--no-proxy-server", "--ignore-certificate-errors", "--user-data-dir=" + home, "--auth-server-allowlist=" + self.allowed]
        environment = dict(self.realm.environment, HOME=home, **({"KRB5CCNAME": "FILE:" + cache} if cache else {}))
        with subprocess.Popen([*command, *words, url], env=environment, stdout=subprocess.PIPE, stderr=subprocess.DEVNULL, start_new_session=True) as process:
            try:
                return process.communicate(timeout=WAIT)[0].decode("utf-8", "replace")
            except subprocess.TimeoutExpired:
                os.killpg(process.pid, signal.SIGKILL)
                return ""

    def page(self, url, cache=None):
        return self.run(url, "--dump-dom", cache=cache)

    def picture(self, url, path):
        self.run(url, "--screenshot=" + path, "--window-size=640,360")
        return read(path)


def read(path):
    try:
        with open(path, "rb") as file:
            return file.read()
    except OSError:
        return b""


# Firefox.

PREFERENCES = {
    "network.dns.disableIPv6": True,
    "network.proxy.type": 0,
    "network.captive-portal-service.enabled": False,
    "network.connectivity-service.enabled": False,
    "browser.shell.checkDefaultBrowser": False,
    "browser.startup.page": 0,
    "datareporting.policy.dataSubmissionEnabled": False,
    "app.normandy.enabled": False,
    "app.update.enabled": False,
}


class Firefox:
    """Headless Firefox, driven by Marionette, the protocol under WebDriver (Debian has no geckodriver)."""

    def __init__(self, realm, trusted="http://localhost,https://localhost", cache=None):
        port, self.count = free_port(), 0
        home = realm.path("firefox-%d" % port)
        os.mkdir(home)
        preferences = dict(PREFERENCES, **{"marionette.port": port, "network.negotiate-auth.trusted-uris": trusted})
        realm.write(os.path.join(home, "user.js"), "".join('user_pref("%s", %s);\n' % (name, json.dumps(each)) for name, each in preferences.items()))
        environment = dict(realm.environment, HOME=home, **({"KRB5CCNAME": "FILE:" + cache} if cache else {}))
        command = ["firefox-esr", "--headless", "--marionette", "--no-remote", "--profile", home, "about:blank"]
        self.process = subprocess.Popen(command, env=environment, stdout=subprocess.DEVNULL, stderr=subprocess.DEVNULL, start_new_session=True)
        self.link = self._linked(port)
        self.link.settimeout(WAIT)
        self._message()
        self.asked("WebDriver:NewSession", acceptInsecureCerts=True)
        self.asked("WebDriver:SetWindowRect", width=640, height=480)

    def _linked(self, port):
        end = time.monotonic() + WAIT
        while True:
            try:
                return socket.create_connection(("127.0.0.1", port), 5)
            except OSError:
                if time.monotonic() > end or self.process.poll() is not None:
                    os.killpg(self.process.pid, signal.SIGKILL)
                    raise
                time.sleep(0.2)

    def _message(self):
        size = b""
        while not size.endswith(b":"):
            octet = self.link.recv(1)
            if not octet:
                raise OSError("Firefox ended")
            size += octet
        left, body = int(size[:-1]), b""
        while len(body) < left:
            body += self.link.recv(left - len(body))
        return json.loads(body)

    def asked(self, command, **words):
        """What a command answers, or the name of an error."""
        self.count += 1
        body = json.dumps([0, self.count, command, words]).encode()
        self.link.sendall(b"%d:" % len(body) + body)
        _, _, error, answer = self._message()
        return (answer or {}).get("value") if error is None else error["error"]

    def page(self, url):
        self.asked("WebDriver:Navigate", url=url)
        return self.asked("WebDriver:GetPageSource") or ""

    def picture(self, path):
        png = base64.b64decode(self.asked("WebDriver:TakeScreenshot", full=False, hash=False))
        with open(path, "wb") as file:
            file.write(png)
        return png

    def end(self):
        try:
            self.asked("Marionette:Quit", flags=["eForceQuit"])
        except OSError:
            pass
        self.link.close()
        try:
            self.process.wait(20)
        except subprocess.TimeoutExpired:
            os.killpg(self.process.pid, signal.SIGKILL)
            self.process.wait()


def try_chromium(sites, folder):
    site, asking, tls = sites
    realm, line = site.realm, PAGE.strip()
    browser = Chromium(realm)
    for title, each in (("Chromium", site), ("Chromium, MICs asked for", asking)):
        page = browser.page(each.url)
        expect(line in page, "%s: %r" % (title, page[-300:]))
    try_picture("Chromium", browser.picture(site.url, os.path.join(folder, "chromium.png")))
    bob = realm.path("bob")
    expect(line.replace("ann", "bob") in browser.page(site.url, cache=bob), "Chromium of another user")
    expect("You are" not in browser.page(site.url, cache=realm.path("no-cache")), "Chromium without a ticket")
    expect("You are" not in Chromium(realm, "elsewhere.test").page(site.url), "Chromium that may not tell this server")
    say("Chromium over TLS, where channel bindings are checked: %s" % ("in" if line in browser.page(tls.url) else "not in"))


def try_firefox(sites, folder):
    site, asking, tls = sites
    realm, line = site.realm, PAGE.strip()
    browser = Firefox(realm)
    try:
        for title, each in (("Firefox", site), ("Firefox, MICs asked for", asking)):
            page = browser.page(each.url)
            expect(line in page, "%s: %r" % (title, page[-300:]))
        browser.page(site.url)
        try_picture("Firefox", browser.picture(os.path.join(folder, "firefox.png")))
        say("Firefox over TLS, where channel bindings are checked: %s" % ("in" if line in browser.page(tls.url) else "not in"))
    finally:
        browser.end()
    for title, words, wanted in (
        ("Firefox of another user", {"cache": realm.path("bob")}, line.replace("ann", "bob")),
        ("Firefox that does not trust this server", {"trusted": "http://elsewhere.test"}, None),
    ):
        browser = Firefox(realm, **words)
        try:
            page = browser.page(site.url)
            expect(wanted in page if wanted else "You are" not in page, "%s: %r" % (title, page[-300:]))
        finally:
            browser.end()


# Negotiations of more than one token.


def try_legs(site, title, names, words, wanted, keeps=True):
    """A negotiation over HTTP, on one connection or on one for each token: the statuses."""
    side, statuses, link = MitSide(INITIATOR, words, names), [], http.client.HTTPConnection("localhost", site.port)
    token, page = side.begin(), ""
    while token is not None and len(statuses) < 6:
        link.request("GET", "/", headers={"Authorization": value(token)})
        answer = link.getresponse()
        statuses.append(answer.status)
        page, told = answer.read().decode(), (answer.headers["WWW-Authenticate"] or "").partition(" ")[2]
        try:
            token = side.step(base64.b64decode(told)) if told else None
        except Exception as failed:  # Failed
            token = getattr(failed, "token", None) if answer.status == 401 else None
        if not keeps:
            link.close()
    link.close()
    expect(statuses == wanted and (page == PAGE) == (wanted[-1] == 200), "%s: %s %r" % (title, statuses, page))
    expect(side.is_complete() == (wanted[-1] == 200), "%s: the client is complete: %s" % (title, side.is_complete()))


def try_browsers(realm, environment, folder, programs):
    """`programs` are those of the browsers that are there."""
    realm.kinit("bob", cache=realm.path("bob"))
    site, asking, tls = Site(realm, environment), Site(realm, environment, words=["--ask"]), Site(realm, environment, realm.certificate())
    try_curl(site, "the page")
    try_curl(asking, "the page that asks for MICs")
    for names, flags, wanted in ((("krb5",), ("mutual",), [200]), (("krb5",), (), [200]), (("ntlm", "krb5"), ("mutual",), [401, 401, 200])):
        try_legs(site, "[%s], %s" % (" ".join(names), flags), names, flags, wanted)
    try_legs(asking, "[krb5], MICs asked for", ("krb5",), ("mutual",), [401, 200])
    try_legs(site, "[ntlm krb5], a connection for each token", ("ntlm", "krb5"), ("mutual",), [401, 401], False)
    say("the page with curl, and negotiations of more than one token: done")
    for program, run in (("chromium", try_chromium), ("firefox-esr", try_firefox)):
        if program in programs:
            run((site, asking, tls), folder)
            say("%s: done" % program)
        else:
            say("left out: %s, which cannot be had" % program)
    log = realm.log()  # wsgiref has a traceback where a browser leaves
    expect("krb" + os.sep not in log, "the log of the example: %s" % log)
