"""Requests that the page's server refuses, and that it goes on."""

import base64
import http.client
import json
import socket
import struct
import threading
import time

from checks import expect, say
from given import error_with

HEADERS = {
    "X-Content-Type-Options": "nosniff",
    "Referrer-Policy": "no-referrer",
    "Cache-Control": "no-store",
    "X-Frame-Options": "DENY",
    "Cross-Origin-Resource-Policy": "same-origin",
    "Cross-Origin-Opener-Policy": "same-origin",
}
POLICY = ["default-src 'none'", "script-src 'self'", "style-src 'self'", "img-src data:", "connect-src 'self'", "form-action 'none'", "base-uri 'none'"]
POLICY += ["frame-ancestors 'none'"]
ERROR = error_with(b"HOME.TEST")
OCTETS = "application/octet-stream"
PCAP = bytes.fromhex("d4c3b2a1") + struct.pack("<HHiIII", 2, 4, 0, 0, 262144, 1)
CAPTURE = dict(name="capture", headers={"Content-Type": OCTETS}, body=b"\0\0\0\x02{}" + PCAP)
GOOD = json.dumps({"input": base64.b64encode(ERROR).decode()}).encode()


def is_good(answer):
    """Whether an answer is the page of ERROR."""
    status, _, body = answer
    return status == 200 and '"HOME.TEST"' in [line[3] for line in json.loads(body)["lines"]]


def try_headers(site):
    kinds = {"": "text/html", "page.js": "text/javascript", "card.js": "text/javascript", "page.css": "text/css", "show": "application/json", "none": "text/plain"}
    for name, kind in kinds.items():
        method = "POST" if name == "show" else "GET"
        status, headers, _ = site.ask(method, name, body=GOOD if name == "show" else None)
        expect(status == (404 if name == "none" else 200), "%r: status %d" % (name, status))
        expect(headers.get("Content-Type", "").startswith(kind), "%r is %s" % (name, headers.get("Content-Type")))
        expect(all(headers.get(each) == value for each, value in HEADERS.items()), "%r has other headers: %s" % (name, headers))
        policy = [each.strip() for each in headers.get("Content-Security-Policy", "").split(";")]
        expect(all(each in policy for each in POLICY) and "unsafe" not in str(policy) and "*" not in str(policy), "%r has another policy: %s" % (name, policy))
    page = site.ask("GET", "")[2].decode()
    expect("<style" not in page and " style=" not in page and "onclick" not in page and page.count("<script") == 5, "something is inline")


def try_requests(site):
    """A request that is wrong in one thing, and what its status is."""
    other, at = "A" * len(site.token), "/%s/" % site.token
    cases = [
        ("another token", 404, dict(token=other)),
        ("another token, the page", 404, dict(method="GET", name="", token=other)),
        ("the token but for its last letter", 404, dict(token=site.token[:-1])),
        ("the token and a letter", 404, dict(token=site.token + "A")),
        ("no token", 404, dict(path="/show")),
        ("no token, the page", 404, dict(method="GET", path="/")),
        ("a favicon", 404, dict(method="GET", path="/favicon.ico")),
        ("a token of other letters", 404, dict(path="/%3Cb%3E/show")),
        ("a path upwards", 404, dict(method="GET", path=at + "../page.html")),
        ("a path upwards, encoded", 404, dict(method="GET", path=at + "%2e%2e/web.py")),
        ("a file that is not served", 404, dict(method="GET", name="page.html")),
        ("an icon, which is in the page", 404, dict(method="GET", name="icon.svg")),
        ("a query", 404, dict(method="GET", name="?x=1")),
        ("an absolute address", 404, dict(method="GET", path="http://elsewhere.test" + at)),
        ("another host", 421, dict(headers={"Host": "elsewhere.test:%d" % site.port})),
        ("another host, the page", 421, dict(method="GET", name="", headers={"Host": "elsewhere.test"})),
        ("localhost", 421, dict(headers={"Host": "localhost:%d" % site.port})),
        ("another port", 421, dict(headers={"Host": "127.0.0.1:%d" % (site.port ^ 1)})),
        ("no host", 421, dict(headers={"Host": None})),
        ("two hosts", 400, dict(headers={"Host": [site.host, "elsewhere.test"]})),
        ("another origin", 403, dict(headers={"Origin": "http://elsewhere.test"})),
        ("the origin null", 403, dict(headers={"Origin": "null"})),
        ("the origin of another port", 403, dict(headers={"Origin": "http://127.0.0.1:%d" % (site.port ^ 1)})),
        ("the origin over TLS", 403, dict(headers={"Origin": "https://" + site.host})),
        ("no origin", 403, dict(headers={"Origin": None})),
        ("two origins", 400, dict(headers={"Origin": [site.origin, site.origin]})),
        ("another site", 403, dict(headers={"Sec-Fetch-Site": "cross-site"})),
        ("the same site", 403, dict(headers={"Sec-Fetch-Site": "same-site"})),
        ("a form", 415, dict(headers={"Content-Type": "application/x-www-form-urlencoded"})),
        ("plain text", 415, dict(headers={"Content-Type": "text/plain"})),
        ("no type", 415, dict(headers={"Content-Type": None})),
        ("a type of parts", 415, dict(headers={"Content-Type": "multipart/form-data; boundary=x"})),
        ("GET of what is posted", 405, dict(method="GET")),
        ("GET of a capture", 405, dict(method="GET", name="capture")),
        ("a capture to another host", 421, dict(CAPTURE, headers={"Host": "elsewhere.test"})),
        ("a capture with another token", 404, dict(CAPTURE, token=other)),
        ("a capture of another origin", 403, dict(CAPTURE, headers={"Origin": "http://elsewhere.test", "Content-Type": OCTETS})),
        ("a capture of no origin", 403, dict(CAPTURE, headers={"Origin": None, "Content-Type": OCTETS})),
        ("a capture as JSON", 415, dict(CAPTURE, headers={})),
        ("a capture as a form", 415, dict(CAPTURE, headers={"Content-Type": "multipart/form-data; boundary=x"})),
        ("a capture of no octets", 400, dict(CAPTURE, body=b"")),
        ("a capture without keys", 400, dict(CAPTURE, body=bytes.fromhex("d4c3b2a1") * 6)),
        ("keys of a capture that are not there", 400, dict(CAPTURE, body=b"\0\0\0\x03{}")),
        ("keys of a capture that are no JSON", 400, dict(CAPTURE, body=b"\0\0\0\x01{" + PCAP)),
        ("keys of a capture that are no object", 400, dict(CAPTURE, body=b"\0\0\0\x02[]" + PCAP)),
        ("keytabs of a capture that are no list", 400, dict(CAPTURE, body=b'\0\0\0\x0e{"keytabs":1 }' + PCAP)),
        ("no capture where one is asked for", 400, dict(CAPTURE, body=b"\0\0\0\x02{}" + ERROR)),
        ("a capture of more than 64 MiB", 413, dict(CAPTURE, headers={"Content-Length": str((64 << 20) + (4 << 20) + 5), "Content-Type": OCTETS}, body=None)),
        ("POST to the page", 405, dict(name="")),
        ("POST to the script", 405, dict(name="page.js")),
        ("PUT", 501, dict(method="PUT")),
        ("DELETE", 501, dict(method="DELETE")),
        ("OPTIONS", 501, dict(method="OPTIONS")),
        ("TRACE", 501, dict(method="TRACE")),
        ("CONNECT", 501, dict(method="CONNECT")),
        ("no length", 411, dict(body=None)),
        ("chunks", 411, dict(headers={"Transfer-Encoding": "chunked"}, body=b"5\r\nhello\r\n0\r\n\r\n")),
        ("a negative length", 400, dict(headers={"Content-Length": "-1"}, body=None)),
        ("a length of letters", 400, dict(headers={"Content-Length": "many"}, body=None)),
        ("a length with a sign", 400, dict(headers={"Content-Length": "+1"}, body=b"x")),
        ("two lengths", 400, dict(headers={"Content-Length": ["4", "5"]}, body=b"null")),
        ("a length of 2^64", 400, dict(headers={"Content-Length": str(2**64)}, body=None)),
        ("a length of 100 MiB", 413, dict(headers={"Content-Length": str(100 << 20)}, body=None)),
        ("one octet past the limit", 413, dict(headers={"Content-Length": str((4 << 20) + 1)}, body=None)),
        ("no JSON", 400, dict(body=b"{")),
        ("no UTF-8", 400, dict(body=b'{"input":"\xff"}')),
        ("arrays in one another", 400, dict(body=b"[" * 1000000)),
        ("no object", 400, dict(body=b"[]")),
        ("a number", 400, dict(body=b'{"input":5}')),
        ("a number of many digits", 400, dict(body=b'{"input":' + b"9" * 3000000 + b"}")),
        ("no base64", 400, dict(body=b'{"input":"%%%"}')),
        ("keytabs that are no list", 400, dict(body=b'{"keytabs":"x"}')),
        ("17 keytabs", 400, dict(body=json.dumps({"input": "", "keytabs": [""] * 17}).encode())),
        ("a long password", 413, dict(body=json.dumps({"input": "", "password": "x" * 1025}).encode())),
        ("a long line", 414, dict(path="/" + "a" * 70000)),
        ("many headers", 431, dict(headers={"X-%d" % n: "x" for n in range(200)})),
    ]
    for title, wanted, words in cases:
        if words.get("method", "POST") == "POST" and "body" not in words:
            words["body"] = GOOD
        try:
            answer = site.ask(**words)
            expect(answer[0] == wanted, "%s: status %d, not %d" % (title, answer[0], wanted))
            expect(b"HOME.TEST" not in answer[2] and site.token.encode() not in answer[2], "%s: something is told: %r" % (title, answer[2][:200]))
            expect("frame-ancestors 'none'" in answer[1].get("Content-Security-Policy", ""), "%s: an answer without a policy" % title)
            expect("Access-Control-Allow-Origin" not in answer[1], "%s: another origin is allowed" % title)
        except (OSError, http.client.HTTPException) as error:
            expect(False, "%s: %r" % (title, error))
    expect(is_good(site.ask(body=GOOD)), "a good request behind the wrong ones")
    answer = site.ask(body=b'{"input":"","kind":"Ticket"}')
    expect(json.loads(answer[2]).get("bad") is not None, "no octets are shown: %r" % (answer,))
    big = site.show(bytes((512 << 10) + 1))
    expect(isinstance(big, dict) and "at most 524288" in big.get("bad", ""), "one octet more than are shown: %r" % str(big)[:100])


def try_only_here(site):
    """Nobody listens at this port on another address of the machine."""
    import subprocess

    others = ["127.0.0.2", "::1"]
    told = subprocess.run(["hostname", "-I"], capture_output=True).stdout.decode().split()
    for other in others + told:
        family = socket.AF_INET6 if ":" in other else socket.AF_INET
        try:
            with socket.socket(family) as link:
                link.settimeout(3)
                link.connect((other, site.port))
            expect(False, "it listens on %s" % other)
        except OSError:
            expect(True, other)


def raw(site, octets):
    link = socket.create_connection(("127.0.0.1", site.port), timeout=30)
    link.sendall(octets)
    return link


def head(site, length, method="POST", name="show"):
    lines = ["%s /%s/%s HTTP/1.1" % (method, site.token, name), "Host: " + site.host, "Origin: " + site.origin, "Content-Type: application/json"]
    lines += ["Content-Length: %d" % length, "", ""]
    return "\r\n".join(lines).encode()


def try_large(site):
    """100 MiB are really sent, with what is in memory beside it."""
    before = site.memory()
    link, sent, chunk = raw(site, head(site, 100 << 20)), 0, b'{"input":"' + b"A" * 65526
    answer = b""
    try:
        link.settimeout(0.05)
        for _ in range((100 << 20) // len(chunk)):
            link.sendall(chunk)
            sent += len(chunk)
            try:
                answer += link.recv(4096)
            except socket.timeout:
                pass
            if answer:
                break
    except OSError:
        pass
    link.close()
    expect(b" 413 " in answer.split(b"\r\n")[0], "100 MiB: %r" % answer[:60])
    expect(sent < 16 << 20, "%d octets of 100 MiB were taken" % sent)
    expect(site.memory() - before < 16 << 20, "100 MiB take %d octets of memory" % (site.memory() - before))
    expect(is_good(site.ask(body=GOOD)), "a good request behind 100 MiB")


def try_endless(site):
    """Requests that never end: an octet now and then, none, no end of the headers. All at once, and a good one in between."""
    def first_line(link, begun):
        link.settimeout(40)
        answer = b""
        try:
            while True:
                octets = link.recv(4096)
                if not octets:
                    break
                answer += octets
        except OSError:
            pass
        return answer.split(b"\r\n")[0], time.monotonic() - begun

    begun = time.monotonic()
    links = {
        "a body that never ends": raw(site, head(site, 1 << 20) + b'{"input":"'),
        "a body that never begins": raw(site, head(site, 1 << 20)),
        "headers that never end": raw(site, head(site, 5)[:-2]),
        "a line that never ends": raw(site, b"GET /"),
        "nothing": raw(site, b""),
    }
    stop, stopped = threading.Event(), {}

    def dribble():
        while not stop.wait(0.3):
            for title in ("a body that never ends", "headers that never end", "a line that never ends"):
                if title not in stopped:
                    try:
                        links[title].send(b"A")
                    except OSError:
                        stopped[title] = time.monotonic() - begun

    thread = threading.Thread(target=dribble)
    thread.start()
    expect(is_good(site.ask(body=GOOD)), "a good request while others never end")
    results = {}
    readers = [threading.Thread(target=lambda title=title, link=link: results.update({title: first_line(link, begun)})) for title, link in links.items()]
    for each in readers:
        each.start()
    for each in readers:
        each.join(60)
    stop.set()
    thread.join()
    for title, link in links.items():
        line, took = results.get(title, (b"no end", 99))
        expect(took < 20 and b" 200 " not in line, "%s: %r in %.1f seconds" % (title, line, took))
        link.close()
    expect(b" 408 " in results["a body that never begins"][0], "a body that never begins: %r" % (results["a body that never begins"],))
    link = raw(site, head(site, 1000) + b"{}")
    link.shutdown(socket.SHUT_WR)
    expect(b" 400 " in link.recv(4096).split(b"\r\n")[0], "a body that ends too early")
    link.close()
    expect(is_good(site.ask(body=GOOD)), "a good request behind those that never end")


def try_thousand(site):
    """A thousand requests at once, half of them with the token: each is answered or refused, good ones rightly, and a patient client gets through meanwhile."""
    counts, lock, start = {}, threading.Lock(), threading.Event()

    def one(number):
        start.wait()
        try:
            answer = site.ask(body=GOOD, token=site.token if number % 2 else "A" * 43, timeout=60)
            kind = (number % 2, answer[0], is_good(answer) if answer[0] == 200 else b"HOME.TEST" not in answer[2])
        except (OSError, http.client.HTTPException) as error:
            kind = (number % 2, type(error).__name__, True)
        with lock:
            counts[kind] = counts.get(kind, 0) + 1

    threads = [threading.Thread(target=one, args=(number,)) for number in range(1000)]
    for each in threads:
        each.start()
    start.set()
    got, end = False, time.monotonic() + 30
    while not got and time.monotonic() < end:
        try:
            got = is_good(site.ask(body=GOOD))
        except (OSError, http.client.HTTPException):
            pass
        if not got:
            time.sleep(0.2)
    expect(got, "nobody gets through while a thousand ask")
    for each in threads:
        each.join(90)
    expect(not any(each.is_alive() for each in threads), "some of a thousand wait on")
    say("a thousand at once, with the token (1) or not (0), by status: %s" % sorted(counts.items(), key=str))
    expect(all(right for _, _, right in counts), "one of a thousand is answered wrongly: %s" % counts)
    expect(not any(which == 0 and status == 200 for which, status, _ in counts), "one without the token is answered")
    expect(sum(counts.values()) == 1000 and counts.get((1, 200, True), 0) > 0, "none of a thousand is answered: %s" % counts)
    closed = ("ConnectionResetError", "BrokenPipeError", "RemoteDisconnected")
    expect(all(status in (200, 404, 503, *closed) for _, status, _ in counts), "a thousand: %s" % counts)
    links = []
    try:  # and a thousand that say nothing
        for _ in range(1000):
            link = socket.socket()
            link.setblocking(False)
            link.connect_ex(("127.0.0.1", site.port))
            links.append(link)
        time.sleep(12)
        expect(is_good(site.ask(body=GOOD)), "a good request while a thousand connections say nothing")
    finally:
        for link in links:
            link.close()
    for _ in range(5):
        expect(is_good(site.ask(body=GOOD)), "a good request behind a thousand")


def try_bad(site):
    for attempt in (try_headers, try_requests, try_only_here, try_large, try_endless, try_thousand):
        attempt(site)
        say("%s: done" % attempt.__name__[4:].replace("_", " "))
