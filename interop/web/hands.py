"""The page by the keyboard, the mouse and the eye, and other pages beside it."""

import base64
import http.server
import os
import subprocess
import sys
import threading

from checks import expect, say
from pages import shown
from given import checksums, error_with, opened
from keytabs import keytab_of_texts
from site_of import Site
from tables import TOP

ERROR = error_with(b"HOME.TEST")
AT = ERROR.index(b"HOME.TEST")
REALM = b"HOME.TEST".hex()
ACTIVE = "const each = document.activeElement; return each.getAttribute('role') === 'treeitem' ? each.querySelector('.name').textContent : each.id || each.tagName"
CHOSEN = "return [...document.querySelectorAll('#octets .hex b.chosen')].map((each) => each.textContent).join('')"
SELECTED = "return [...document.querySelectorAll('#tree li[aria-selected=true] > .row > .name')].map((each) => each.textContent).join()"
ROWS = "return [...document.querySelectorAll('#tree li')].filter((each) => each.offsetParent !== null).length"
# Whether what has the focus is seen to have it.
FOCUS = """
const each = document.activeElement, style = getComputedStyle(each.getAttribute("role") === "treeitem" ? each.querySelector(".row") : each);
return style.outlineStyle !== "none" && parseFloat(style.outlineWidth) >= 2;
"""
# A field is chosen, and what can be opened is open.
POSED = """
document.getElementById("keys-box").open = true;
const row = [...document.querySelectorAll("#tree .row")].find((each) => /^(key|realm|GeneralString@.*):/.test(each.querySelector(".name").textContent));
if (row) row.click();
document.activeElement.blur();
window.scrollTo(0, 0);
"""
# The texts whose contrast with what is behind them is less than WCAG 2.1, 1.4.3 (AA), asks for, by its own formula.
CONTRAST = """
const parts = (colour) => colour.match(/[\\d.]+/g).map(Number);
const light = (colour) => { const [r, g, b] = parts(colour).map((each) => each / 255).map((each) => each <= 0.03928 ? each / 12.92 : ((each + 0.055) / 1.055) ** 2.4);
    return 0.2126 * r + 0.7152 * g + 0.0722 * b; };
const behind = (each) => { for (; each; each = each.parentElement) { const colour = getComputedStyle(each).backgroundColor;
    if (parts(colour).length < 4 || parts(colour)[3] === 1) return colour; } return "rgb(255, 255, 255)"; };
const low = []; let count = 0;
for (const each of document.querySelectorAll("body *")) {
    if (!each.offsetParent || ![...each.childNodes].some((node) => node.nodeType === 3 && node.data.trim()) || each.closest("option, datalist")) continue;
    count++;
    const one = light(getComputedStyle(each).color), other = light(behind(each));
    const ratio = (Math.max(one, other) + 0.05) / (Math.min(one, other) + 0.05);
    if (ratio < 4.5) low.push(each.className + " " + each.textContent.slice(0, 20) + " " + ratio.toFixed(2));
}
return [count, low];
"""


def tab_to(browser, wanted, back=False, most=40):
    """Presses Tab until this has the focus; whether each stop on the way showed it."""
    for _ in range(most):
        if browser.run(ACTIVE) == wanted:
            return True
        browser.press("Shift+Tab" if back else "Tab")
        expect(browser.run(FOCUS) or browser.run(ACTIVE) == "BODY", "the focus on %s is not seen" % browser.run(ACTIVE))
    return expect(False, "Tab does not lead to %s, but to %s" % (wanted, browser.run(ACTIVE)))


def settled(browser):
    """Waits until the server has answered."""
    browser.run("""return (async () => { for (let n = 0; n < 1000 && ["Asking", ""].includes(document.getElementById("status").textContent); n++)
        await new Promise((done) => setTimeout(done, 10)); })()""")


def try_keyboard(browser, site):
    browser.go(site.address)
    browser.press("Tab")
    expect(browser.run(ACTIVE) == "input", "the first stop is %s" % browser.run(ACTIVE))
    browser.press(*ERROR.hex())
    browser.press("Control+Enter")
    settled(browser)
    expect(browser.run(ACTIVE) == "card-title", "what is shown has not the focus, but %s" % browser.run(ACTIVE))
    expect(browser.run("return document.getElementById('status').textContent") == "KRB-ERROR, %d octets, given as hexadecimal" % len(ERROR), "typed octets are not shown")
    tab_to(browser, "KRB-ERROR:")
    for key, wanted in (
        ("ArrowDown", "pvno:"), ("End", "name-string:"), ("ArrowUp", "name-type:"), ("ArrowLeft", "sname:"), ("ArrowLeft", "sname:"), ("ArrowUp", "realm:"),
        ("Home", "KRB-ERROR:"), ("r", "realm:"), ("s", "sname:"), ("ArrowRight", "sname:"), ("ArrowRight", "name-type:"), ("Home", "KRB-ERROR:"),
        ("e", "error-code:"), ("r", "realm:"),
    ):
        browser.press(key)
        expect(browser.run(ACTIVE) == wanted and browser.run(SELECTED) == wanted, "%s leads to %s, not %s" % (key, browser.run(ACTIVE), wanted))
        expect(browser.run(FOCUS), "the focus in the tree is not seen")
    expect(browser.run(CHOSEN) == REALM, "the realm lights up %s" % browser.run(CHOSEN))
    browser.press("Home", "Enter")
    expect(browser.run(ROWS) == 1, "Enter does not close the tree: %d rows" % browser.run(ROWS))
    browser.press("Space")
    expect(browser.run(ROWS) == 10, "Space does not open the tree: %d rows" % browser.run(ROWS))
    browser.press("r")
    tab_to(browser, "octets")
    browser.press("ArrowRight")
    where = browser.run("return document.getElementById('where').textContent")
    expect(where == "octet %d, 4f, of realm" % (AT + 1), "the octet behind the first: %r" % where)
    browser.press("ArrowDown")
    behind = browser.run("return document.getElementById('where').textContent")
    expect(behind.startswith("octet %d, %02x, of " % (AT + 17, ERROR[AT + 17])), "the octet in the next row: %r" % behind)
    expect(browser.run(SELECTED) != "realm:" and browser.run(SELECTED) != "", "the field follows the octet: %r" % browser.run(SELECTED))
    browser.press("Home", "ArrowUp", "ArrowUp", "ArrowUp", "ArrowUp", "ArrowUp", "ArrowUp")
    expect(browser.run("return document.getElementById('where').textContent").startswith("octet 0, 7e"), "the first octet")
    for button, wanted in (("copy-text", "  realm: \"HOME.TEST\"\n"), ("copy-json", "\"realm\":\"HOME.TEST\"")):
        tab_to(browser, button, back=True)
        browser.press("Enter")
        browser.run("return new Promise((done) => setTimeout(done, 200))")
        expect(browser.run("return document.getElementById('status').textContent").startswith("Copied as "), "nothing is copied")
        tab_to(browser, "change", back=True)
        browser.press("Enter")
        expect(browser.run(ACTIVE) == "input", "the form that is opened has not the focus, but %s" % browser.run(ACTIVE))
        browser.press("Control+a", "Control+v")
        browser.run("return new Promise((done) => setTimeout(done, 300))")
        value = browser.run("return document.getElementById('input').value")
        expect(wanted in value and "KRB-ERROR" in value, "%s: %r is pasted" % (button, value[:80]))
        tab_to(browser, "input", back=True)
        browser.press("Control+a", *ERROR.hex())
        browser.press("Control+Enter")
        settled(browser)
        tab_to(browser, "KRB-ERROR:")
        tab_to(browser, "octets")
    # A ticket, with its key, by keys alone.
    title, keys, _, octets, expected = next(row for row in opened() if row[0] == "17 AP-REQ, the service's key")
    secret = next(line.split()[-1] for line in expected if line.strip().startswith("keyvalue: 16"))
    browser.go(site.address)
    tab_to(browser, "input")
    browser.press(*base64.b64encode(octets).decode())
    tab_to(browser, "SUMMARY")
    browser.press("Enter")
    tab_to(browser, "keys")
    browser.press(*":".join(keys.split(":")[:2]))
    browser.press("Enter")
    settled(browser)
    text = lambda: browser.run("return document.getElementById('tree').innerText")
    expect('"key 1@given kvno 1"' in text() and "keyvalue:" in text() and secret not in text() and "hidden" in text(), "a key by the keyboard: %r" % text()[-200:])
    tab_to(browser, "show", back=True)
    browser.press("Space")
    browser.run("return new Promise((done) => setTimeout(done, 300))")
    settled(browser)
    expect(secret in text(), "keys are not shown where they are asked for")
    browser.press("Space")
    browser.run("return new Promise((done) => setTimeout(done, 300))")
    expect(secret not in text(), "keys are shown where they are not asked for any more")
    tab_to(browser, "clear")
    browser.press("Enter")
    values = "return [...document.querySelectorAll('input, textarea')].map((each) => each.type === 'checkbox' ? each.checked : each.value).filter(Boolean)"
    left = browser.run(values)
    expect(left == [] and browser.run("return document.getElementById('result').hidden"), "something is left: %s" % left)
    say("the keyboard alone: done")


def try_names(browser):
    """Each thing that can be operated has a name (Chromium's own tree of accessibility), and the tree its roles."""
    if browser.name != "Chromium":
        return  # (cards.py asks Firefox of each)
    shown(browser, ERROR)
    browser.run("document.getElementById('change').click()")
    nodes = [node for node in browser.tool("Accessibility.getFullAXTree")["nodes"] if not node.get("ignored")]
    roles = {}
    for node in nodes:
        role, name = node.get("role", {}).get("value"), node.get("name", {}).get("value", "")
        roles.setdefault(role, []).append(name)
    for role in ("textbox", "button", "checkbox", "combobox", "treeitem", "tree", "group", "heading"):
        named = [name for name in roles.get(role, []) if name.strip()]
        if role == "group":
            expect(named, "no group is named")
            continue
        expect(named and len(named) == len(roles.get(role, [])), "a %s has no name: %s" % (role, roles.get(role)))
    expect(len(roles.get("treeitem", [])) == 10, "%d items of the tree" % len(roles.get("treeitem", [])))
    say("names and roles: done")


def try_mouse(browser):
    shown(browser, ERROR)
    centre = "const each = %s; each.scrollIntoView({block: 'center'}); const at = each.getBoundingClientRect(); return [at.x + at.width / 2, at.y + at.height / 2]"
    middle = lambda script: browser.run(centre % script)
    row = "[...document.querySelectorAll('#tree .row')].find((each) => each.textContent.includes('realm:')).querySelector('.name')"
    browser.point(*middle(row))
    lit = browser.run("return [...document.querySelectorAll('#octets .hex b.lit')].map((each) => each.textContent).join('')")
    expect(lit == REALM, "the mouse on the realm lights up %r" % lit)
    browser.point(*middle("document.querySelectorAll('#octets .hex b')[%d]" % (AT + 3)))
    lit = browser.run("return [...document.querySelectorAll('#tree .row.lit .name')].map((each) => each.textContent)")
    expect(lit == ["realm:"], "the mouse on an octet of the realm lights up %r" % lit)
    letters = browser.run("return [...document.querySelectorAll('#octets .letters b.lit')].map((each) => each.textContent).join('')")
    expect(letters == "HOME.TEST", "and of the letters %r" % letters)
    browser.run("document.querySelectorAll('#octets .hex b')[%d].click()" % (AT + 3))
    expect(browser.run(SELECTED) == "realm:" and browser.run(CHOSEN) == REALM, "a click on an octet chooses %r" % browser.run(SELECTED))
    say("the mouse: done")


def try_times(browser):
    """06:49:24 of UTC is 12:19:24 in Kolkata, five hours and a half before it."""
    shown(browser, ERROR)
    local = browser.run("return [...document.querySelectorAll('#tree .local')].map((each) => each.textContent)")
    expect(len(local) == 1 and "Nov 22, 2026" in local[0] and "12:19:24" in local[0] and "GMT+5:30" in local[0], "a local time: %s" % local)
    shown(browser, ERROR.replace(b"20261122064924Z", b"00000229235959Z"))
    expect(browser.run("return document.querySelectorAll('#tree .value').length") > 5, "a time of the year 0 is not shown")
    say("times: done")


def try_files(browser, site, folder):
    """Files that are chosen and dropped, and text that is dropped."""
    octets, keytab = os.path.join(folder, "error.der"), os.path.join(folder, "empty.keytab")
    for path, content in ((octets, ERROR), (keytab, keytab_of_texts(["17:" + "00" * 16 + ":a@R kvno 1"]))):
        with open(path, "wb") as file:
            file.write(content)
    browser.go(site.address)
    browser.run("document.getElementById('keys-box').open = true")
    browser.write("#keytabs", keytab)
    browser.write("#file", octets)
    settled(browser)
    status = browser.run("return document.getElementById('status').textContent + document.getElementById('error').textContent")
    expect(status == "KRB-ERROR, %d octets, given as the octets themselves" % len(ERROR), "a file that is chosen: %r" % status)
    drop = """const given = new DataTransfer(); %s document.body.dispatchEvent(new DragEvent("drop", { dataTransfer: given, bubbles: true, cancelable: true }));
        return new Promise((done) => setTimeout(done, 500)).then(() => document.getElementById("status").textContent + document.getElementById("error").textContent);"""
    browser.run("document.getElementById('clear').click()")
    added = "given.items.add(new File([Uint8Array.from(atob(arguments[0]), (each) => each.charCodeAt(0))], 'x'));"
    status = browser.run(drop % added, base64.b64encode(ERROR).decode())
    expect(status == "KRB-ERROR, %d octets, given as the octets themselves" % len(ERROR), "a file that is dropped: %r" % status)
    status = browser.run(drop % "given.setData('text/plain', arguments[0]);", "Authorization: Negotiate " + base64.b64encode(ERROR).decode())
    expect(status == "KRB-ERROR, %d octets, given as a header of HTTP" % len(ERROR), "text that is dropped: %r" % status)
    keytab = base64.b64encode(keytab_of_texts(["17:" + "00" * 16 + ":a@R kvno 1"])).decode()
    browser.run((drop % added).replace("document.body.dispatch", "document.getElementById('keytabs').dispatch"), keytab)
    told = browser.run("return [document.getElementById('keytabs').files.length, document.getElementById('status').textContent]")
    expect(told == [1, status], "a keytab that is dropped on the keys: %s" % told)
    # A file that the server is given when it starts; and files that it refuses.
    place = os.path.join(folder, "given-" + browser.name)
    os.mkdir(place)
    python, library = os.path.join(TOP, "python"), os.environ["KRBC_LIBRARY"]
    named = os.path.join(place, "an \u202eerror.der")
    with open(named, "wb") as file:
        file.write(ERROR)
    other = Site(place, python, library, named)
    browser.others = (*browser.others, other.address)
    try:
        expect(other.ask("GET", "given")[2] == ERROR and other.ask("GET", "given", token="A" * 43)[0] == 404, "the file that is given to the server")
        browser.go(other.address)
        settled(browser)
        told = browser.run("return [document.getElementById('status').textContent, document.getElementById('file-text').textContent, document.getElementById('card').hidden]")
        expect(told == ["KRB-ERROR, %d octets, given as the octets themselves" % len(ERROR), 'The file "an \\u{202e}error.der" is taken, %d octets, and not the text above.' % len(ERROR), False], "a file that is given to the server: %s" % told)
    finally:
        other.end()
    browser.go(site.address)
    expect(site.ask("GET", "given")[0] == 204, "a server that is given no file has one")
    with open(os.path.join(place, "large"), "wb") as file:
        file.truncate((3 << 20) + 1)
    with open(os.path.join(place, "empty"), "wb"):
        pass
    environment = dict(os.environ, PYTHONPATH=python, PYTHONDONTWRITEBYTECODE="1")
    for name, why in (("none", "No such file or directory"), ("large", "large: more than 3145728 octets"), ("empty", "empty: is empty"), ("", "Is a directory")):
        done = subprocess.run([sys.executable, "-m", "krb.web", os.path.join(place, name)], env=environment, capture_output=True, timeout=30)
        expect(done.returncode == 1 and why in done.stderr.decode() and done.stdout == b"" and done.stderr.count(b"\n") == 1, "%r: %r" % (name, done.stderr[-200:]))
    say("files: done")


def try_pictures(browser, pictures):
    """Narrow and wide, dark and light: nothing runs over the edge, and all is to be read. The pictures are for people to look at."""
    title, keys, octets, _ = next(row for row in checksums() if row[0] == "made under 18 and 20, both keys")
    bad = ERROR[:AT] + b"HO\xffE.TEST" + ERROR[AT + 9 :]
    grounds = {"light": "rgb(255, 255, 255)", "dark": "rgb(21, 24, 28)"}
    for width, height, size in ((1440, 900, "wide"), (390, 844, "narrow")):
        browser.size(width, height)
        for scheme in ("light", "dark"):
            browser.scheme(scheme)
            for name, given in (("ticket", octets), ("error", bad)):
                shown(browser, given, keytabs=[keytab_of_texts([each]) for each in keys])
                browser.run(POSED)
                what = "%s, %s, %s" % (name, size, scheme)
                wide, room = browser.run("return [document.documentElement.scrollWidth, document.documentElement.clientWidth]")
                expect(wide <= room, "%s: %d pixels in %d" % (what, wide, room))
                expect(browser.run("return getComputedStyle(document.body).backgroundColor") == grounds[scheme], "%s: another ground" % what)
                count, low = browser.run(CONTRAST)
                expect(count > 20 and low == [], "%s: little contrast in %d of %d: %s" % (what, len(low), count, low[:5]))
                browser.picture(os.path.join(pictures, "%s-%s-%s-%s.png" % (browser.name.lower(), name, size, scheme)))
                browser.run("document.getElementById('result').scrollIntoView()")
                browser.picture(os.path.join(pictures, "%s-%s-%s-%s-below.png" % (browser.name.lower(), name, size, scheme)))
    browser.size()
    browser.scheme()
    say("pictures: in %s" % pictures)


# Other pages.

OTHER = """<!doctype html><title>elsewhere</title><body><script>
const address = "%s", told = {};
const tries = {
    post: () => fetch(address + "show", {method: "POST", headers: {"Content-Type": "application/json"}, body: "{}"}).then((answer) => answer.text()),
    plain: () => fetch(address + "show", {method: "POST", body: "{}", mode: "no-cors"}).then((answer) => answer.text()),
    get: () => fetch(address).then((answer) => answer.text()),
    script: () => new Promise((done, failed) => { const each = document.createElement("script"); each.src = address + "page.js"; each.onload = () => done("a script"); each.onerror = failed; document.body.append(each); }),
    frame: () => new Promise((done) => { const each = document.createElement("iframe"); each.src = address; each.onload = () => { let inside = "none";
        try { inside = each.contentDocument ? each.contentDocument.title : "none"; } catch (error) {} done(inside === "Jolmurig: Kerberos octets" ? inside : ""); }; document.body.append(each); }),
};
(async () => { for (const [name, attempt] of Object.entries(tries)) { try { told[name] = await attempt(); } catch (error) { told[name] = ""; } } window.told = told; })();
</script>"""


def try_others(browser, site):
    """A page of another origin that knows even the token, and a name that leads to 127.0.0.1 (DNS rebinding)."""
    asked = []

    class Handler(http.server.BaseHTTPRequestHandler):
        def do_GET(self):
            asked.append(self.path)
            body = (OTHER % site.address).encode()
            self.send_response(200)
            self.send_header("Content-Type", "text/html")
            self.send_header("Content-Length", str(len(body)))
            self.end_headers()
            self.wfile.write(body)

        def log_message(self, *words):
            pass

    server = http.server.ThreadingHTTPServer(("127.0.0.1", 0), Handler)
    threading.Thread(target=server.serve_forever, daemon=True).start()
    try:
        browser.go("http://127.0.0.1:%d/" % server.server_address[1])
        waits = "for (let n = 0; n < 1000 && !window.told; n++) await new Promise((done) => setTimeout(done, 10));"
        told = browser.run("return (async () => { %s return window.told; })()" % waits)
        names = {"post", "plain", "get", "script", "frame"}
        expect(told is not None and set(told) == names and not any(told.values()), "a page of another origin: %s" % told)
    finally:
        server.shutdown()
        server.server_close()
    browser.go(site.address.replace("127.0.0.1", "rebound.test"))
    text = browser.run("return document.body.innerText")
    expect("another host" in text and "Jolmurig" not in text, "a name that leads to 127.0.0.1: %r" % text[:100])
    browser.go(site.address)
    expect(browser.run("return document.title") == "Jolmurig: Kerberos octets", "the page itself, behind them")
    say("other pages: done")


def try_hands(browser, site, folder, pictures):
    try_keyboard(browser, site)
    try_names(browser)
    try_mouse(browser)
    try_times(browser)
    try_files(browser, site, folder)
    try_pictures(browser, pictures)
