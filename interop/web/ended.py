"""A server that has ended: the page says so, and sends nothing to whoever listens at its port then."""

import http.client
import os
import socket
import time

from checks import expect
from site_of import Site

# Gives the page octets, a keytab, keys and a password, and has it ask.
ASK = """
const get = (id) => document.getElementById(id);
if (!get("keys").disabled) {
    get("keys").value = "18:" + "00".repeat(32); get("password").value = "a password";
    const given = new DataTransfer(); given.items.add(new File([new Uint8Array([5, 2])], "a.keytab")); get("keytabs").files = given.files;
}
get("input").value = "7e00";
get("form").dispatchEvent(new Event("submit", { cancelable: true }));
return null;
"""
TOLD = """
const get = (id) => document.getElementById(id);
const secrets = get("keys").value + get("password").value + get("salt").value;
return [get("error").textContent, secrets, get("keytabs").files.length, get("go").disabled, get("status").textContent];
"""


def listens_at(port):
    """A socket at the port of a server that has ended."""
    other = socket.socket()
    other.setsockopt(socket.SOL_SOCKET, socket.SO_REUSEADDR, 1)
    other.bind(("127.0.0.1", port))
    other.listen(16)
    other.settimeout(0.2)
    return other


def came(other, seconds):
    """What is sent to a socket within so many seconds."""
    octets, end = b"", time.monotonic() + seconds
    while time.monotonic() < end:
        try:
            link, _ = other.accept()
            link.settimeout(1)
            octets += link.recv(65536)
            link.close()
        except OSError:
            pass
    return octets


def try_held(site):
    """The answer that is held open: for who knows the address alone, until the server ends."""
    for words, wanted in ((dict(token="A" * 43), 404), (dict(method="POST"), 405), (dict(headers={"Host": "rebound.test"}), 421), (dict(method="HEAD"), 200)):
        status = site.ask(**dict({"method": "GET", "name": "alive"}, **words))[0]
        expect(status == wanted, "the answer that is held open, %s: %d" % (words, status))
    link = http.client.HTTPConnection("127.0.0.1", site.port, timeout=3)
    link.request("GET", "/%s/alive" % site.token, headers={"Host": site.host})
    answer = link.getresponse()
    try:
        answer.read(1)  # which comes at once
        answer.read(1)
        expect(False, "the answer that is held open ends while the server runs")
    except socket.timeout:
        expect(answer.status == 200, "the answer that is held open: %d" % answer.status)
    link.close()
    link = socket.create_connection(("127.0.0.1", site.port), 10)
    link.sendall(("GET /%s/alive HTTP/1.1\r\nHost: %s\r\n\r\n" % (site.token, site.host)).encode())
    came = b""
    while b"\r\n\r\n\n" not in came:
        came += link.recv(65536)
    return link


def try_ended(folder, python, library, browser=None):
    place = os.path.join(folder, "ended")
    os.mkdir(place)
    site = Site(place, python, library)
    link = try_held(site)
    if browser is not None:
        browser.go(site.address)
        browser.run(ASK)
        end = time.monotonic() + 20
        while browser.run(TOLD)[4] in ("", "Asking") and time.monotonic() < end:
            time.sleep(0.1)
        told = browser.run(TOLD)
        right = told[0].startswith("The octets end too early") and told[1:4] == ["18:" + "00" * 32 + "a password", 1, False] and "2 octets" in told[4]
        expect(right, "the page while its server runs: %s" % told)
    site.end()
    link.settimeout(5)
    expect(link.recv(1) == b"", "the answer that is held open ends with the server")
    link.close()
    if browser is not None:
        with listens_at(site.port) as other:
            octets = came(other, 1)
            for _ in range(3):
                browser.run(ASK)
                octets += came(other, 1)
            told = browser.run(TOLD)
        expect(octets == b"", "the page sends to another server at its port: %r" % octets[:300])
        expect(told == ["The server has ended. Close this page: nothing is sent any more.", "", 0, True, ""], "the page when its server has ended: %s" % told)
