"""Captures in the page. Each is put together here, octet by octet, so it is known which messages are in it, and where."""

import base64
import http.client
import json
import os
import re
import socket
import stat
import struct
import time

from cards import principal, tree_of
from checks import expect, say
from pages import names_of, secrets_in
from site_of import Site
from given import MARKUP, error_with, opened, pages

CLIENT, SERVER = "10.0.0.1", "10.0.0.2"
ERROR = error_with(b"HOME.TEST")
BEGIN = 1700000000  # 2023-11-14T22:13:20Z, the time of the first packet
# Drops a file, waits for what is shown of it, and tells it.
DROP = """
const get = (id) => document.getElementById(id), given = new DataTransfer();
given.items.add(new File([Uint8Array.from(atob(arguments[0]), (each) => each.charCodeAt(0))], "capture"));
get("status").textContent = get("error").textContent = "";
document.body.dispatchEvent(new DragEvent("drop", { dataTransfer: given, bubbles: true, cancelable: true }));
"""
PASTE = """
const get = (id) => document.getElementById(id);
get("clear").click();
get("input").value = arguments[0];
get("go").click();
"""
TOLD = """
const at = (id) => document.getElementById(id);
return (async () => {
    for (let n = 0; n < 4000 && (at("status").textContent === "Asking" || !at("stop").hidden || !(at("status").textContent + at("error").textContent)); n++)
        await new Promise((done) => setTimeout(done, 10));
    const lines = [...document.querySelectorAll("#tree li")].map((item) => {
        const value = item.querySelector(":scope > .row > .value");
        const name = item.querySelector(":scope > .row > .name").textContent;
        return "  ".repeat(item.getAttribute("aria-level") - 1) + name + (value ? " " + value.textContent : "");
    });
    return { status: at("status").textContent, error: at("error").textContent, notes: [...at("notes").children].map((each) => each.textContent), lines,
        list: at("capture").hidden ? null : [...at("messages").querySelectorAll("button")].map((each) => each.title),
        rows: [...at("messages").querySelectorAll("tbody tr")].map((row) => [...row.cells].map((cell) => cell.textContent.trim())),
        red: [...at("messages").querySelectorAll("tbody tr.error")].map((row) => row.cells[0].textContent),
        arrows: [...document.querySelectorAll("#sequence .arrow")].map((each) => [each.getAttribute("aria-label"), each.classList.contains("error")]),
        lanes: [...document.querySelectorAll("#sequence svg > text[text-anchor]")].map((each) => each.textContent),
        bars: document.querySelectorAll("#sequence .held").length, where: at("rows-where").textContent,
        alone: [...at("messages").querySelectorAll("button[aria-disabled=true]")].map((each) => each.title.split(" ")[0]),
        odd: [...document.querySelectorAll("#messages *, #of-capture *, #sequence *")].filter((each) =>
            !["BUTTON", "SPAN", "THEAD", "TBODY", "TR", "TH", "TD", "svg", "g", "line", "text", "rect", "path", "title"].includes(each.tagName)
            || [...each.attributes].some((one) => /^on|href|src|style/i.test(one.name))).map((each) => each.tagName),
        back: !at("of-capture").hidden, of: at("of-line").textContent, result: !at("result").hidden, text: document.body.innerText,
        octets: shown ? shown.sources.map((each) => [...each.octets].map((octet) => octet.toString(16).padStart(2, "0")).join("")) : [],
        answer: JSON.stringify([list, shown], (name, value) => ["item", "around", "lines", "shownIn", "answer", "lanes"].includes(name) ? undefined : value),
        focus: document.activeElement.id || document.activeElement.title };
})();
"""
FILTER = "document.getElementById('filter').value = arguments[0]; document.getElementById('filter').dispatchEvent(new Event('input'));"
OPEN_ALL = "document.getElementById('open-all').click();"


def address(text):
    return bytes(map(int, text.split(".")))


def packet(source, target, protocol, inner):
    """Ethernet and IPv4 (RFC 791) around it, without checksums."""
    header = struct.pack(">BBHHHBBH", 0x45, 0, 20 + len(inner), 1, 0, 64, protocol, 0) + address(source) + address(target)
    return bytes(12) + b"\x08\x00" + header + inner


def to(octets, port=88):
    """A datagram to a port of the server (RFC 768)."""
    return packet(CLIENT, SERVER, 17, struct.pack(">HHHH", 40000, port, 8 + len(octets), 0) + octets)


def reply(octets, port=88):
    return packet(SERVER, CLIENT, 17, struct.pack(">HHHH", port, 40000, 8 + len(octets), 0) + octets)


def segment(octets, port=88):
    """A segment of TCP (RFC 9293, 3.1) with a message behind its length (RFC 4120, 7.2.2)."""
    return packet(CLIENT, SERVER, 6, struct.pack(">HHIIBBHHH", 40001, port, 1000, 0, 0x50, 0x18, 65535, 0, 0) + struct.pack(">I", len(octets)) + octets)


def capture(frames, order="<", nanoseconds=False):
    """A file of pcap, in either order of octets."""
    made = struct.pack(order + "IHHiIII", 0xA1B23C4D if nanoseconds else 0xA1B2C3D4, 2, 4, 0, 0, 262144, 1)
    for number, frame in enumerate(frames):
        made += struct.pack(order + "IIII", BEGIN + number, 5000 if nanoseconds else 5, len(frame), len(frame)) + frame
    return made


def capture_of_blocks(frames):
    """A file of pcapng: a section, an interface, a block for each packet."""
    block = lambda kind, content: struct.pack("<II", kind, len(content) + 12) + content + struct.pack("<I", len(content) + 12)
    made = block(0x0A0D0D0A, struct.pack("<IHHq", 0x1A2B3C4D, 1, 0, -1)) + block(1, struct.pack("<HHI", 1, 0, 262144))
    for number, frame in enumerate(frames):
        time = (BEGIN + number) * 1000000 + 5
        made += block(6, struct.pack("<IIIII", 0, time >> 32, time & 0xFFFFFFFF, len(frame), len(frame)) + frame + bytes(-len(frame) % 4))
    return made


def when(number):
    """The time of a packet."""
    return "2023-11-14T22:%02d:%02d.000005Z" % (13 + (20 + number - 1) // 60, (20 + number - 1) % 60)


def front(number, way="UDP", is_reply=False, ports=(40000, 88), kind=""):
    """How the line of a packet begins, by how it was made."""
    ends = ["%s:%d" % (CLIENT, ports[0]), "%s:%d" % (SERVER, ports[1])]
    return "%d %s %s %s %s" % (number, when(number), " > ".join(reversed(ends) if is_reply else ends), way, kind)


def drop(browser, octets):
    return browser.run(DROP + TOLD, base64.b64encode(octets).decode())


def chosen(browser, number):
    """Chooses a row, and tells what is shown."""
    script = "document.querySelectorAll('#messages button')[arguments[0]].click();"
    browser.run(script, number)
    told = browser.run(TOLD)
    return browser.run(OPEN_ALL + TOLD) if told["result"] else told


def begin_so(told, fronts, title):
    lines = told["list"] or []
    right = len(lines) == len(fronts) and all(line.startswith(each) for line, each in zip(lines, fronts))
    expect(right, "%s: the list is %s, not %s: %s" % (title, [line[:90] for line in lines], fronts, told["error"]))
    expect(told["odd"] == [] and all(" " <= letter <= "~" for line in lines for letter in line), "%s: markup or other letters: %s" % (title, told["odd"]))


def rows_of():
    """An AS-REQ of the rows of `pages`, and an AP-REQ and a KRB-PRIV of `opened`, with their keys and what decoders in Python made of them."""
    request = next(row for row in pages() if row[:2] == ("mit", "AS-REQ") and row[3][-1].startswith("{"))
    find = lambda title: next(row for row in opened() if row[0] == title)
    return request, find("17 AP-REQ, the service's key"), find("17 KRB-PRIV, the subkey second")


def try_list(browser, site):
    (_, _, request, expected), (_, keys, _, ap, ap_lines), (_, private_keys, _, private, private_lines) = rows_of()
    frame = struct.pack(">HHH", 6 + len(ap) + len(private), 1, len(ap)) + ap + private  # of a request for a new password (RFC 3244, 2)
    password = next(line.split()[-1] for line in private_lines if line.strip().startswith("user-data: "))
    frames = [to(request), reply(ERROR), to(b"no message"), to(b"elsewhere", 53), segment(ap), to(frame, 464)]
    fronts = [front(1, kind="AS-REQ "), front(2, is_reply=True, kind="KRB-ERROR 7 "), front(3, kind="not read: ")]
    fronts += [front(5, "TCP", ports=(40001, 88), kind="AP-REQ "), front(6, ports=(40000, 464), kind="password request")]
    whole = capture(frames)
    browser.go(site.address)
    forms = {"little": whole, "big": capture(frames, ">"), "nanoseconds": capture(frames, nanoseconds=True), "both": capture(frames, ">", True)}
    forms["blocks"] = capture_of_blocks(frames)
    for title, octets in forms.items():
        told = drop(browser, octets)
        begin_so(told, fronts, title)
        expect(told["status"] == "5 messages, 1 error in a capture of %d octets, given as the octets themselves" % len(octets), "%s: %r" % (title, told["status"]))
        expect(told["alone"] == ["3", "6"] and not told["result"] and not told["back"], "%s: rows that cannot be chosen: %s" % (title, told["alone"]))
        expect(told["notes"] == [], "%s: notes: %s" % (title, told["notes"]))
        expect(not any("opened" in line for line in told["list"]) and "about x@HOME.TEST" in told["list"][1], "%s: %s" % (title, told["list"]))
    for form, text in (("hexadecimal", whole.hex()), ("base64", base64.encodebytes(whole).decode())):
        told = browser.run(PASTE + TOLD, text)
        begin_so(told, fronts, form)
        expect(told["status"].endswith("given as " + form), "%s: %r" % (form, told["status"]))
    # Messages that are chosen, each as the decoders of tests/pages.rows have it. What "Read as" says is of what is given, and of no message of a capture.
    browser.run("document.getElementById('kind').value = 'Ticket'")
    begin_so(drop(browser, whole), fronts, "a capture, to be read as a ticket")
    told = chosen(browser, 0)
    expect(told["lines"] == expected[:-1] and told["back"] and told["list"] is None, "the AS-REQ that is chosen: %s" % (told["error"] or told["lines"][:5]))
    expect(told["of"].startswith(fronts[0]) and told["octets"] == [request.hex()], "its octets, or its line: %r" % told["of"])
    browser.click("#back")
    told = browser.run(TOLD)
    begin_so(told, fronts, "behind the way back")
    expect(told["focus"].startswith(fronts[0]) and not told["result"] and not told["back"], "the way back leads to %r" % told["focus"][:60])
    told = chosen(browser, 1)
    expect('  realm: "HOME.TEST"' in told["lines"] and told["octets"] == [ERROR.hex()], "the KRB-ERROR that is chosen: %s" % told["lines"])
    browser.click("#back")
    told = chosen(browser, 2)
    expect(told["list"] is not None and not told["result"] and told["status"].startswith("Packet 3: not read: "), "what is not read: %r" % told["status"])
    # The same with keys: what is opened, and what stays hidden.
    given = keys.split("|") + private_keys.split("|")
    give = lambda each_key: browser.run("document.getElementById('keys').value = arguments[0]", " ".join(":".join(each.split(":")[:2]) for each in each_key))
    give(given)
    told = drop(browser, whole)
    begin_so(told, fronts, "with keys")
    expect(told["list"][3].endswith("; opened: EncTicketPart, Authenticator"), "the AP-REQ is not opened: %s" % told["list"][3])
    expect(len(told["notes"]) == 1 and "in the list alone" in told["notes"][0], "notes: %s" % told["notes"])
    expect("EncKrbPrivPart" in told["list"][4].rpartition("; opened: ")[2], "the request for a password is not opened: %s" % told["list"][4])
    hides = lambda secret: secret not in told["text"] + told["answer"] + "".join(told["octets"])
    secrets = secrets_in(ap_lines)
    expect(secrets and all(map(hides, secrets + [password])), "a key or a password is in the list")
    told = chosen(browser, 4)
    expect(told["list"] is not None and not told["result"] and "the line alone" in told["status"], "the new password's request: %r" % told["status"])
    expect(hides(password) and bytes.fromhex(password).decode() not in told["text"], "the new password is shown")
    give(keys.split("|"))
    told = chosen(browser, 3)
    names = names_of(keys.split("|"))

    def renamed(line):
        found = re.fullmatch(r'( *opened-by: )"(.*)"', line)
        return '%s"%s"' % (found.group(1), names.get(found.group(2), found.group(2))) if found else line

    hidden = [re.sub(r"\d+ octets (%s)$" % "|".join(secrets), "hidden", renamed(line)) for line in ap_lines]
    other = [pair for pair in zip(told["lines"], hidden) if pair[0] != pair[1]]
    expect(told["lines"] == hidden, "the AP-REQ that is chosen: %s" % (other[:3] or told["error"]))
    expect(all(map(hides, secrets)), "keys of what is chosen are not hidden")
    browser.click("#show")
    time.sleep(0.5)
    told = browser.run(OPEN_ALL + TOLD)
    shows = all(any(secret in line for line in told["lines"]) for secret in secrets)
    expect(told["back"] and shows, "keys that are asked for are not shown: %s" % told["error"])
    browser.click("#show")
    browser.run("document.getElementById('clear').click()")
    told = browser.run("document.getElementById('status').textContent = 'x';" + TOLD)
    expect(told["list"] is None and not told["back"] and whole[60:80].hex() not in told["answer"], "a list is left")
    say("captures, and their messages: done")
    return whole


def try_broken(browser, site):
    """Captures that are cut, those that only begin as one, and many messages."""
    whole = capture([reply(ERROR), reply(ERROR), reply(ERROR)])
    last = len(reply(ERROR))
    for cut in (1, last - 1, last + 1, last + 15):
        told = drop(browser, whole[:-cut])
        begin_so(told, [front(1, is_reply=True, kind="KRB-ERROR "), front(2, is_reply=True, kind="KRB-ERROR ")], "cut by %d" % cut)
        expect("cut short" in told["error"] and told["error"].endswith("; 2 messages up to there."), "a capture that is cut by %d: %r" % (cut, told["error"]))
    for magic in ("a1b2c3d4", "d4c3b2a1", "a1b23c4d", "4d3cb2a1", "0a0d0d0a"):
        for garbage in (b"", b"\xff" * 300, b"\x01\x02\x03\x04" * 200):
            told = drop(browser, bytes.fromhex(magic) + garbage)
            expect(told["list"] is None and not told["result"], "%s and garbage: a list of %s" % (magic, told["list"]))
            expect(told["error"] != "" and "\n" not in told["error"] or told["status"].startswith("0 messages"), "%s and garbage: nothing is said" % magic)
    told = drop(browser, b"\xd4\xc3\xb2\xa0" + whole[4:])
    expect("begin as nothing that is known" in told["error"] and told["list"] is None, "octets that begin nearly as a capture: %r" % told["error"])
    told = drop(browser, capture([to(bytes(60000), 9)] * 100 + [reply(ERROR)]))
    begin_so(told, [front(101, is_reply=True, kind="KRB-ERROR ")], "6 MB")
    told = drop(browser, capture([reply(error_with(text.encode())) for text in MARKUP[:20]]))
    begin_so(told, [front(number + 1, is_reply=True, kind="KRB-ERROR ") for number in range(20)], "markup")
    plain = [(text, line) for text, line in zip(MARKUP, told["list"]) if not re.search(r'[\\@/"]', text)]
    expect(len(plain) > 8 and all("x@" + text in line for text, line in plain), "markup: %s" % plain)
    expect(browser.run("return window.misled === undefined"), "markup of a capture is run")
    say("broken and large captures: done")


def try_keys_alone(browser, site, whole):
    """The list by the keyboard."""
    told = drop(browser, whole)
    browser.run("document.querySelector('#messages button').focus()")
    steps = [("ArrowDown", 1), ("End", 4), ("ArrowDown", 4), ("ArrowUp", 3), ("Home", 0), ("ArrowUp", 0), ("PageDown", 4), ("Home", 0), ("ArrowDown", 1)]
    for key, wanted in steps:
        browser.press(key)
        focus = browser.run("return document.activeElement.title")
        expect(focus == told["list"][wanted], "%s leads to %r" % (key, focus[:60]))
        stops = browser.run("return [...document.querySelectorAll('#messages button')].filter((each) => each.tabIndex === 0).length")
        expect(stops == 1, "%d stops in the list" % stops)
    outline = browser.run("const style = getComputedStyle(document.activeElement); return style.outlineStyle !== 'none' && parseFloat(style.outlineWidth) >= 2")
    expect(outline, "the focus in the list is not seen")
    browser.press("Enter")
    browser.run("return new Promise((done) => setTimeout(done, 300))")
    told = browser.run(TOLD)
    expect(told["result"] and told["focus"] == "back" and told["octets"] == [ERROR.hex()], "Enter shows %s" % told["lines"][:2])
    browser.press("Enter")
    told = browser.run(TOLD)
    expect(told["list"] is not None and told["focus"] == told["list"][1], "Enter leads back to %r" % told["focus"][:60])
    browser.press("ArrowDown", "Enter")
    told = browser.run(TOLD)
    expect(told["list"] is not None and told["status"].startswith("Packet 3: not read"), "Enter on what is not read: %r" % told["status"])
    say("the list by the keyboard: done")


def try_looks(browser, whole, pictures, contrast):
    """Narrow and wide, dark and light."""
    for width, height, size in ((1440, 900, "wide"), (390, 844, "narrow")):
        browser.size(width, height)
        for scheme in ("light", "dark"):
            browser.scheme(scheme)
            drop(browser, whole)
            for name in ("list", "message"):
                if name == "message":
                    chosen(browser, 1)
                what = "%s, %s, %s" % (name, size, scheme)
                wide, room = browser.run("return [document.documentElement.scrollWidth, document.documentElement.clientWidth]")
                expect(wide <= room, "%s: %d pixels in %d" % (what, wide, room))
                count, low = browser.run(contrast)
                expect(count > 15 and low == [], "%s: little contrast in %d of %d: %s" % (what, len(low), count, low[:5]))
                browser.picture(os.path.join(pictures, "%s-capture-%s-%s-%s.png" % (browser.name.lower(), name, size, scheme)))
    browser.size()
    browser.scheme()
    say("what a list looks like: done")


def try_reader(folder, python, library, browser=None):
    """Without tshark one line says what to install; one that never ends is stopped, and the server answers on."""
    whole, path = capture([reply(ERROR)]), os.environ["PATH"]
    for name in ("none", "endless"):
        place = os.path.join(folder, "reader-" + name)
        programs = os.path.join(place, "programs")
        os.makedirs(programs)
        if name == "endless":
            with open(os.path.join(programs, "tshark"), "w", encoding="ascii") as file:
                file.write("#!/bin/sh\nexec /bin/sleep 1000\n")
            os.chmod(file.name, stat.S_IRWXU)
        try:
            os.environ["PATH"] = programs
            site = Site(place, python, library)
        finally:
            os.environ["PATH"] = path
        try:
            begun = time.monotonic()
            if name == "none":
                (bad,) = pieces_of(site, whole)
                expect(list(bad) == ["bad"] and "Debian's package tshark" in bad["bad"] and "\n" not in bad["bad"], "without tshark: %s" % bad)
                if browser is not None:
                    browser.go(site.address)
                    told = drop(browser, whole)
                    expect(told["error"] == bad["bad"] + "." and told["list"] is None, "without tshark the page says %r" % told["error"])
            else:
                try_stopped(browser, site, whole, begun)
            expect('"HOME.TEST"' in str(site.show(ERROR)), "a message is not shown behind a capture")
            expect(site.written() == [], "files are written: %s" % site.written())
        finally:
            site.end()
    say("without tshark, and one that never ends: done")


def pieces_of(site, octets, seconds=60):
    """What the server says of a capture, line by line."""
    link = http.client.HTTPConnection("127.0.0.1", site.port, timeout=seconds)
    try:
        link.request("POST", "/%s/capture" % site.token, struct.pack(">I", 2) + b"{}" + octets, {"Origin": site.origin, "Content-Type": "application/octet-stream"})
        answer = link.getresponse()
        return [json.loads(line) for line in answer]
    finally:
        link.close()


def try_stopped(browser, site, whole, begun):
    """A tshark that never ends: it is stopped with the page's button, and when whoever asked has gone away; meanwhile messages are shown, and no more than two
    captures are read at once."""
    waits = lambda count: [time.sleep(0.1) for _ in range(100) if len(children_of(site.process.pid)) != count] and None
    if browser is not None:
        browser.go(site.address)
        asking = browser.run(DROP + "return new Promise((done) => setTimeout(() => done([get('stop').hidden, get('progress').hidden, get('status').textContent]), 1500))", base64.b64encode(whole).decode())
        expect(asking == [False, False, "Asking"] and len(children_of(site.process.pid)) == 1, "while tshark goes on: %s" % asking)
        role, name = browser.named("#progress")
        expect(role in ("progressbar", "progress") and name == "How much of the capture is read" and browser.named("#stop") == ("button", "Stop"), "progress: %s %r" % (role, name))
        browser.click("#stop")
        told = browser.run(TOLD)
        expect(told["error"] == "Stopped; 0 messages up to there.", "a reading that is stopped: %r" % told["error"])
        waits(0)
        expect(children_of(site.process.pid) == [], "tshark goes on when it is stopped")
        browser.run(DROP + "return new Promise((done) => setTimeout(done, 500))", base64.b64encode(whole).decode())
        browser.run("document.getElementById('clear').click()")
        waits(0)
        expect(children_of(site.process.pid) == [] and browser.run("return document.getElementById('stop').hidden"), "tshark goes on when all is cleared")
        browser.run(DROP + "return new Promise((done) => setTimeout(done, 500))", base64.b64encode(whole).decode())
        browser.go("about:blank")
        waits(0)
        expect(children_of(site.process.pid) == [], "tshark goes on when the page has gone away")
    links = []
    for number in range(2):
        link = socket.create_connection(("127.0.0.1", site.port), 20)
        head = "POST /%s/capture HTTP/1.1\r\nHost: %s\r\nOrigin: %s\r\nContent-Type: application/octet-stream\r\nContent-Length: %d\r\n\r\n"
        link.sendall((head % (site.token, site.host, site.origin, len(whole) + 6)).encode() + struct.pack(">I", 2) + b"{}" + whole)
        links.append(link)
    waits(2)
    expect(len(children_of(site.process.pid)) == 2, "two captures are read at once")
    status = site.ask(name="capture", headers={"Content-Type": "application/octet-stream"}, body=struct.pack(">I", 2) + b"{}" + whole)[0]
    expect(status == 503, "a third capture at once: %d" % status)
    for link in links:
        link.close()
    waits(0)
    expect(children_of(site.process.pid) == [], "tshark goes on when who asked has gone")


def children_of(parent):
    found = []
    for name in filter(str.isdigit, os.listdir("/proc")):
        try:
            with open("/proc/%s/stat" % name, encoding="ascii", errors="replace") as file:
                if int(file.read().rpartition(")")[2].split()[1]) == parent:
                    found.append(name)
        except OSError:
            pass
    return found


def at_ports(octets, port, is_reply=False, server=SERVER, client=CLIENT):
    """A datagram between a client's port and a KDC's."""
    ends, ports = ((server, client), (88, port)) if is_reply else ((client, server), (port, 88))
    return packet(*ends, 17, struct.pack(">HHHH", *ports, 8 + len(octets), 0) + octets)


def try_table(browser):
    """Columns, pairs, errors, the filter and the picture of a capture of which it is known what answers what."""
    find = lambda name, origin="mit": next(row for row in pages() if row[:2] == (origin, name) and row[3][-1].startswith("{"))
    requested, replied = find("AS-REQ"), find("AS-REP")
    tree = tree_of(replied[3][:-1])
    client, server = principal(tree.find("cname"), tree.text("crealm")), principal(tree.find("ticket", "sname"), tree.text("ticket", "realm"))
    other = "10.0.0.9"
    frames = [
        at_ports(requested[2], 40001), at_ports(ERROR, 40001, True), at_ports(requested[2], 40002), at_ports(requested[2], 40003, client=other),
        at_ports(replied[2], 40003, True, client=other), at_ports(replied[2], 40002, True), at_ports(replied[2], 40009, True), to(b"no message"), at_ports(requested[2], 40004),
    ]
    told = drop(browser, capture(frames))
    wanted = [
        ["1", "0.000000", CLIENT + ":40001", SERVER + ":88", "AS-REQ", "KDC_ERR_S_PRINCIPAL_UNKNOWN (7) in packet 2, after 1.00 s"],
        ["2", "1.000000", SERVER + ":88", CLIENT + ":40001", "KRB-ERROR", "KDC_ERR_S_PRINCIPAL_UNKNOWN (7), after 1.00 s"],
        ["3", "2.000000", CLIENT + ":40002", SERVER + ":88", "AS-REQ", "AS-REP in packet 6, after 3.00 s"],
        ["4", "3.000000", other + ":40003", SERVER + ":88", "AS-REQ", "AS-REP in packet 5, after 1.00 s"],
        ["5", "4.000000", SERVER + ":88", other + ":40003", "AS-REP", "answers packet 4, after 1.00 s"],
        ["6", "5.000000", SERVER + ":88", CLIENT + ":40002", "AS-REP", "answers packet 3, after 3.00 s"],
        ["7", "6.000000", SERVER + ":88", CLIENT + ":40009", "AS-REP", ""],
        ["8", "7.000000", CLIENT + ":40000", SERVER + ":88", "not read", None],
        ["9", "8.000000", CLIENT + ":40004", SERVER + ":88", "AS-REQ", "no answer"],
    ]
    got = [row[:5] + row[7:] for row in told["rows"]]
    right = len(got) == len(wanted) and all(one[:5] == other[:5] and other[5] in (None, one[5]) for one, other in zip(got, wanted))
    expect(right, "the table is %s" % got)
    names = [row[5:7] for row in told["rows"]]
    expect(names[4] == names[5] == [client, server] and names[1][1] == "x@HOME.TEST" and names[7] == ["", ""], "who and for whom: %s" % names)
    expect(told["red"] == ["2", "8"] and told["rows"][7][7].startswith("not read: "), "red are %s" % told["red"])
    # The picture: an arrow for each message, the lanes, a bar for each pair.
    expect(len(told["arrows"]) == 9 and told["bars"] == 3, "the picture has %d arrows, %d bars" % (len(told["arrows"]), told["bars"]))
    expect(told["lanes"] == ["client", CLIENT, "client", other, "KDC", SERVER], "the lanes are %s" % told["lanes"])
    expect([red for _, red in told["arrows"]] == [number in (1, 7) for number in range(9)], "red arrows: %s" % told["arrows"])
    begun = "Packet 6, 5.000000 s: AS-REP, 3.00 s, %s, for %s, from %s:88 to %s:40002" % (client, server, SERVER, CLIENT)
    expect(told["arrows"][5][0] == begun, "an arrow is called %r, not %r" % (told["arrows"][5][0], begun))
    ends = browser.run("""const lanes = [...document.querySelectorAll("#sequence .lane")].map((each) => Number(each.getAttribute("x1")));
        return [...document.querySelectorAll("#sequence .arrow line")].map((each) => ["x1", "x2"].map((name) => { const x = Number(each.getAttribute(name));
            return lanes.reduce((best, lane, number) => Math.abs(lane - x) < Math.abs(lanes[best] - x) ? number : best, 0); }))""")
    expect(ends == [[0, 2], [2, 0], [0, 2], [1, 2], [2, 1], [2, 0], [2, 0], [0, 2], [0, 2]], "the arrows go between the lanes %s" % ends)
    svg = browser.named("#sequence svg"), browser.named("#sequence .arrow"), browser.named("#messages"), browser.named("#filter"), browser.named("#messages button")
    expect(svg[0] == ("group", "Messages 1 to 9 between client %s, client %s, KDC %s" % (CLIENT, other, SERVER)), "the picture is %s to a screen reader" % (svg[0],))
    expect(svg[1][0] == "button" and svg[1][1].startswith("Packet 1, 0.000000 s: AS-REQ"), "an arrow is %s to a screen reader" % (svg[1],))
    expect(svg[2] == ("table", "Messages of the capture") and svg[3] == ("searchbox", "Filter") and svg[4] == ("button", "AS-REQ"), "the table is %s" % (svg[2:],))
    browser.run("document.querySelector('#sequence .arrow').focus()")
    browser.press("ArrowDown", "ArrowDown", "End", "ArrowUp", "Home", "ArrowDown", "Enter")
    browser.run("return new Promise((done) => setTimeout(done, 300))")
    shown_now = browser.run(TOLD)
    expect(shown_now["result"] and shown_now["octets"] == [ERROR.hex()], "Enter on an arrow shows %s" % shown_now["lines"][:2])
    browser.click("#back")
    browser.run("document.querySelectorAll('#sequence .arrow')[4].dispatchEvent(new MouseEvent('click', { bubbles: true })); return new Promise((done) => setTimeout(done, 300))")
    expect(browser.run(TOLD)["octets"] == [replied[2].hex()], "a click on an arrow shows another message")
    browser.click("#back")
    for text, packets in (("krb-error", "2"), (other, "45"), ("40002", "36"), (client.upper(), None), ("no such thing", "")):
        told = browser.run(FILTER + TOLD, text)
        got = "".join(row[0] for row in told["rows"])
        expect(got == packets or packets is None and set("56") <= set(got) and "8" not in got, "the filter %r leaves %s" % (text, got))
        expect(len(told["arrows"]) == len(told["rows"]), "the picture has other messages than the table, by %r" % text)
    told = browser.run(FILTER + "document.getElementById('errors-only').click();" + TOLD, "")
    expect([row[0] for row in told["rows"]] == ["2", "8"], "errors alone: %s" % told["rows"])
    browser.run("document.getElementById('errors-only').click()")
    # A request that is sent again: the first reply answers the first of them; and a reply of another kind none.
    again = [at_ports(requested[2], 40001)] * 2 + [at_ports(replied[2], 40001, True)] * 2 + [at_ports(requested[2], 40002), at_ports(find("TGS-REP")[2], 40002, True)]
    told = drop(browser, capture(again))
    results = [row[7] for row in told["rows"]]
    wanted = ["AS-REP in packet 3, after 2.00 s", "AS-REP in packet 4, after 2.00 s", "answers packet 1, after 2.00 s", "answers packet 2, after 2.00 s", "no answer", ""]
    expect(results == wanted, "a request that is sent again: %s" % results)
    say("the table and the picture: done")


def try_many(browser, site):
    """1501 messages: 200 at a time, and all by the keyboard; and hostile ends that leave no lane."""
    from large import large

    octets = large(1500) + capture([reply(ERROR)])[24:]
    told = drop(browser, octets)
    expect(told["status"].startswith("1501 messages, ") and len(told["rows"]) == 200 == len(told["arrows"]) and told["where"] == "1 to 200 of 1501", "1501 messages: %r" % told["where"])
    paired = sum(bool(row[7]) for row in told["rows"])
    expect(paired == 200, "%d of 200 messages have a result" % paired)
    browser.run("document.querySelector('#messages button').focus()")
    browser.press("End")
    told = browser.run(TOLD)
    expect(told["where"] == "1401 to 1501 of 1501" and told["focus"].startswith("1501 "), "End leads to %r, %r" % (told["where"], told["focus"][:30]))
    browser.press("PageUp", "ArrowUp")
    expect(browser.run(TOLD)["focus"].startswith("1490 "), "up by eleven leads to %r" % browser.run(TOLD)["focus"][:30])
    browser.press("Enter")
    browser.run("return new Promise((done) => setTimeout(done, 300))")
    browser.press("Enter")
    told = browser.run(TOLD)
    expect(told["where"] == "1401 to 1501 of 1501" and told["focus"].startswith("1490 "), "the way back leads to %r" % told["where"])
    browser.click("#rows-earlier")
    expect(browser.run(TOLD)["where"] == "1201 to 1400 of 1501", "earlier leads to %r" % browser.run(TOLD)["where"])
    told = drop(browser, capture([at_ports(ERROR, 40000 + number, True, client="10.1.%d.1" % number) for number in range(30)]))
    expect(len(told["lanes"]) == 20 and told["lanes"][-2:] == ["others", "22 addresses"] and len(told["arrows"]) == 30, "31 addresses: %s" % told["lanes"])
    expect(site.memory() < 300 << 20, "the server took %d octets of memory" % site.memory())
    say("many messages: done")


def try_counts():
    """How many packets a capture is said to have, for the progress, of captures that are cut or that lie too."""
    from krb._listed import packets_in

    frames = [reply(ERROR)] * 7
    for octets, wanted in ((capture(frames), 7), (capture(frames, ">"), 7), (capture(frames, nanoseconds=True), 7), (capture_of_blocks(frames), 7), (capture([]), 1)):
        expect(packets_in(octets) == wanted, "%d packets, not %d" % (packets_in(octets), wanted))
    for octets in (capture(frames)[:-1], capture(frames)[:30], b"\xd4\xc3\xb2\xa1", b"\x0a\x0d\x0d\x0a" + bytes(100), b"\x0a\x0d\x0d\x0a" + b"\xff" * 100, b"\xd4\xc3\xb2\xa1" + b"\xff" * 100):
        expect(1 <= packets_in(octets) <= 7 + len(octets) // 12, "%d packets in %d octets" % (packets_in(octets), len(octets)))


def try_captures(browser, site, pictures):
    from hands import CONTRAST

    try_counts()
    try_table(browser)
    try_many(browser, site)
    whole = try_list(browser, site)
    try_broken(browser, site)
    try_keys_alone(browser, site, whole)
    try_looks(browser, whole, pictures, CONTRAST)
