"""The card on top, who holds which key, tables of keytabs and caches, the map of the octets, links and examples, beside the lines that the decoders of the rows
made, which share no code with the library."""

import base64
import datetime
import re

from checks import expect, say
from given import checksums, error_with, opened, pages
from keytabs import keytab_of_texts
from pages import names_of, quoted_as, shown
from tables import asked

TIMES = ("authtime", "starttime", "endtime", "renew-till")
HELD = {"held": "known", "missing": "not known", "open": "open", "closed": "closed", "clear": "in the clear"}
# The map: what each part is called, where it is and how wide, and what is chosen by it.
MAP = """
const parts = [...document.querySelectorAll("#map button")], wide = document.getElementById("map").getBoundingClientRect().width;
return parts.map((each) => { each.click(); return [each.getAttribute("aria-label"), each.style.flexGrow, each.getBoundingClientRect().width / wide,
    [...document.querySelectorAll("#tree li[aria-selected=true] > .row > .name")].map((one) => one.textContent).join(),
    each.className.replace("area area-", ""), each.tabIndex]; });
"""
WHERE = """
const at = (id) => document.getElementById(id), card = at("card").getBoundingClientRect();
return [at("fields").hidden, card.top, window.innerHeight, document.documentElement.scrollWidth <= document.documentElement.clientWidth,
    at("change").getAttribute("aria-expanded"), at("go").hidden];
"""


class Node:
    """A line of a row, and those in it."""

    def __init__(self, name, value):
        self.name, self.value, self.nodes = name, value, []

    def find(self, *names):
        node = self
        for name in names:
            node = next((each for each in node.nodes if each.name == name), None) if node is not None else None
        return node

    def text(self, *names):
        node = self.find(*names)
        return None if node is None else node.value

    def all(self):
        yield self
        for each in self.nodes:
            yield from each.all()


def tree_of(lines):
    """The tree of the lines of a row."""
    outer = [Node("", None)]
    for line in lines:
        depth = (len(line) - len(line.lstrip())) // 2
        name, _, value = line.strip().partition(":")
        node = Node(re.sub(r"\[\d+\]$", "", name), value[1:] if value else None)
        del outer[depth + 1 :]
        outer[depth].nodes.append(node)
        outer.append(node)
    return outer[0].nodes[0]


def principal(name, realm):
    """The principal of a name and a realm in quotation marks, where nothing in them is to be quoted."""
    return "%s@%s" % (name.find("name-string").value[1:-1], realm[1:-1])


def type_of(value):
    """A type of encryption as the card has it."""
    number, _, name = value.partition(" ")
    return "%s (%s)" % (name, number) if name else number


def span(seconds):
    """A span of time in its two largest units."""
    found = []
    for size, unit in ((31536000, "y"), (86400, "d"), (3600, "h"), (60, "min"), (1, "s")):
        count, seconds = divmod(int(seconds), size)
        if count or found:
            found.append((count, unit))
    return " ".join("%d %s" % each for each in found[:2] if each[0]) or "0 s"


def spans(seconds):
    """The same for a few seconds more or less: a test takes its time."""
    return {span(seconds + off) for off in range(-15, 16)}


def seconds_since(time):
    then = datetime.datetime.strptime(time, "%Y-%m-%dT%H:%M:%SZ").replace(tzinfo=datetime.timezone.utc)
    return (datetime.datetime.now(datetime.timezone.utc) - then).total_seconds()


def try_opened_cards(browser):
    """Each row of opened.rows: the parts in their order, open or closed and by which key; of requests to services who and for whom, the times, the keys."""
    count = {"rows": 0, "parts": 0, "open": 0, "services": 0}
    sizes = {"16": 24, "17": 16, "18": 32, "19": 16, "20": 32}
    for title, keys, kind, octets, expected in opened():
        given = keys.split("|") if keys != "-" else []
        if len(expected) == 1 or len(octets) > 20000 or not all(len(each.split(":")[1]) == 2 * sizes.get(each.split(":")[0], -1) for each in given):
            continue
        words = " ".join(":".join(each.split(":")[:2]) for each in given)
        told, tree, names = shown(browser, octets, "" if kind == "message" else kind, keys=words), tree_of(expected), names_of(given)
        if told["card"] is None:
            expect(False, "%s: no card: %s" % (title, told["error"]))
            continue
        count["rows"] += 1
        sealed = [each for each in tree.all() if each.find("cipher") is not None]
        parts = [node for chain in told["card"]["chains"] for node in chain if node[0].startswith("part ")]
        expect(len(parts) == min(len(sealed), 16), "%s: %d parts, not %d: %s" % (title, len(parts), len(sealed), parts))
        by = []
        for part, each in zip(parts, sealed):
            opener = each.text("opened-by")
            state = "open" if opener else "clear" if each.text("etype") == "0" else "closed"
            count["parts"] += 1
            count["open"] += state == "open"
            right = part[0] == "part " + state and part[2] == HELD[state] and (each.text("etype") is None or part[3].startswith(type_of(each.text("etype"))))
            expect(right, "%s: a part is told as %s, not %s" % (title, part, state))
            if opener:
                by.append(names.get(opener[1:-1], opener[1:-1]))
        facts = {line[0]: line[1:] for line in told["card"]["facts"]}
        said = [each.rpartition(" by ")[2] for each in facts.get("Opened", [])]
        expect(said == [each.replace('\\"', '"').replace("\\\\", "\\") for each in by], "%s: opened by %s, not %s" % (title, said, by))
        if "AP-REQ, the service's key" in title:
            count["services"] += 1
            try_service(title, tree, told, facts)
    say("cards of opened parts: %s" % count)
    expect(count["rows"] > 150 and count["open"] > 120 and count["services"] == 5, "few cards are tried: %s" % count)


def try_service(title, tree, told, facts):
    """The card of an AP-REQ that is opened whole."""
    ticket = tree.find("ticket")
    part, inner = ticket.find("enc-part", "EncTicketPart"), tree.find("authenticator", "Authenticator")
    expect(told["card"]["title"] == "A client's request to a service (AP-REQ)", "%s: %r" % (title, told["card"]["title"]))
    client, server = principal(inner.find("cname"), inner.text("crealm")), principal(ticket.find("sname"), ticket.text("realm"))
    expect(facts["Who"] == [client] and facts["For whom"] == [server], "%s: %s for %s" % (title, facts.get("Who"), facts.get("For whom")))
    version = ticket.text("enc-part", "kvno")
    expect(facts["Encrypted"][0] == "the ticket: %s, key version %s" % (type_of(ticket.text("enc-part", "etype")), version), "%s: %s" % (title, facts["Encrypted"]))
    wanted = [[name, part.text(name)] for name in TIMES if part.text(name)] + [["client's clock", inner.text("ctime")]]
    expect(told["card"]["listed"][:-1] == wanted, "%s: the times are %s, not %s" % (title, told["card"]["listed"], wanted))
    gone = seconds_since(part.text("endtime"))
    kind, words, label = told["card"]["times"]
    expect(kind == "bad" and words in {"Expired %s ago." % each for each in spans(gone)} and words in label, "%s: %s" % (title, told["card"]["times"]))
    (chain,) = told["card"]["chains"]
    keys = [type_of(part.text("key", "keytype")), type_of(inner.text("subkey", "keytype"))]
    expect([node[0] for node in chain] == ["key held", "part open", "key held", "part open", "key held"], "%s: the chain is %s" % (title, chain))
    expect(chain[0][1] == "the key of %s, version %s" % (server, version) and [chain[2][3], chain[4][3]] == keys, "%s: the keys are %s" % (title, chain))


def token_until(seconds):
    """An EncTicketPart that begins an hour ago and ends in so many seconds from now."""
    from der import element, integer, name, sequence, text

    now = datetime.datetime.now(datetime.timezone.utc)
    time = lambda off: [0x18, (now + datetime.timedelta(seconds=off)).strftime("%Y%m%d%H%M%SZ").encode()]
    key, transited = (sequence((0, integer(kind)), (1, [4, octets])) for kind, octets in ((17, bytes(16)), (1, b"")))
    begin = -3600 if seconds > -3600 else seconds - 3600
    fields = (0, [3, bytes(5)]), (1, key), (2, text("HOME.TEST")), (3, name(1, "ann")), (4, transited), (5, time(begin)), (7, time(seconds))
    return element(0x63, sequence(*fields))


def try_times(browser):
    """Words of the times around now."""
    for off, kind, begins in ((7200, "good", "Valid for another "), (-60, "", "Expired "), (-400, "bad", "Expired "), (-90000, "bad", "Expired ")):
        told = shown(browser, token_until(off), kind="EncTicketPart")["card"]["times"]
        ends = ": within the time that clocks may differ." if off == -60 else "." if off > 0 else " ago."
        right = any(told[1] in (begins + each + ends, begins + each + " ago" + ends) for each in spans(abs(off)))
        expect(told[0] == kind and right, "%d seconds from now: %s" % (off, told))
        marks = browser.run("return [...document.querySelectorAll('#bar span')].map((each) => [each.className.split(' ')[0], parseFloat(each.style.left)])")
        order = [name for name, _ in sorted(marks, key=lambda each: each[1]) if name in ("valid", "now")]
        expect(order == ["valid", "now"] and {name for name, _ in marks} == {"valid", "skew", "now"}, "%d seconds from now: the bar is %s" % (off, marks))
    say("times of a ticket: done")


def try_checks(browser):
    """What holds of a PAC, beside the rows of checksums.rows: green, red or grey."""
    count = {"good": 0, "bad": 0, "grey": 0}
    what = {"server-checksum": "the service's checksum of the PAC", "kdc-checksum": "the KDC's checksum of that", "full-checksum": "the KDC's checksum of the whole"}
    what["ticket-checksum"] = "the KDC's checksum of the ticket"
    for title, keys, octets, expected in checksums():
        if len(octets) > 20000 or any(not re.fullmatch(r"[^@]+@\S+ kvno \d+", each.split(":", 2)[2]) for each in keys) or len(keys) > 8:
            continue
        told = shown(browser, octets, "Ticket" if octets[:1] == b"\x61" else "", keytabs=[keytab_of_texts([each]) for each in keys])
        wanted = []
        for line, behind in zip(expected, expected[1:] + [""]):
            name, _, value = line.strip().partition(": ")
            if name not in what:
                continue
            key = behind.strip().partition(": ")
            under = " under " + key[2][1:-1] if key[0] == name + "-key" else ""
            if value == "holds":
                wanted.append(["good", what[name], "holds" + under])
            elif value == "absent" or value.startswith('"not verified: '):
                wanted.append(["grey", what[name], "not checked: " + {"absent": "there is none"}.get(value, value.strip('"').partition(": ")[2])])
            else:
                wanted.append(["bad", what[name], value.strip('"') + under])
        got = [[kind, name, text.replace("no key of the KDC was given", "no key of the KDC of its type was given")] for kind, name, text in told["card"]["checks"]]
        expect(got == wanted[:16], "%s: what holds is %s, not %s" % (title, got, wanted))
        for each in wanted:
            count[each[0]] += 1
    say("what holds: %s" % count)
    expect(count["good"] > 40 and count["bad"] > 10 and count["grey"] > 20, "few checksums are tried: %s" % count)


def name_in_file(node):
    """The principal of an entry, quoted as RFC 1964, 2.1.3, has it."""
    special = {"\\": "\\\\", "/": "\\/", "@": "\\@", "\n": "\\n", "\t": "\\t", "\b": "\\b", "\0": "\\0"}
    text = lambda value: re.sub(r"\\x([0-9a-f]{2})", lambda found: chr(int(found.group(1), 16)), value[1:-1].replace('\\"', '"').replace("\\\\", "\0\\")).replace("\0\\", "\\")
    quote = lambda value: "".join(special.get(each, each) for each in text(value))
    name = "/".join(quote(each.value) for each in node.find("components").nodes) + "@" + quote(node.text("realm"))
    return "".join(each if " " <= each <= "~" else ascii(each)[1:-1] for each in name)


def try_tables(browser):
    """The tables of the keytabs and caches among the rows of `pages`."""
    count = {"keytab": 0, "ccache": 0, "expired": 0}
    for title, name, octets, expected in pages():
        if name not in ("keytab", "ccache") or not expected[-1].startswith("{") or any(text in str(expected) for text in ("\\x00", "\\xc3", "\\xff")):
            continue
        told, tree = shown(browser, octets, name), tree_of(expected[:-1])
        rows, count[name] = [], count[name] + 1
        none = lambda value: "" if value in (None, "1970-01-01T00:00:00Z") else value
        for each in tree.nodes if name == "keytab" else tree.find("credentials").nodes:
            if name == "keytab":
                rows.append([each.text("vno"), each.text("timestamp"), name_in_file(each), type_of(each.text("keytype")), ""])
                continue
            configuration, removed = each.find("server").text("realm") == '"X-CACHECONF:"', each.find("removed") is not None
            start, end = none(each.text("starttime")) or each.text("authtime"), each.text("endtime")
            is_over = not configuration and not removed and seconds_since(end) > 0
            count["expired"] += is_over
            mark = "removed" if removed else "configuration" if configuration else "expired" if is_over else ""
            times = ["", ""] if configuration else [start, end]
            more = ["", ""] if configuration else [none(each.text("renew-till")), type_of(each.text("key", "keytype"))]
            rows.append(times + [name_in_file(each.find("server")), *more, mark])
        got = [[*row[:-1], row[-1].partition(" ")[0]] for row in (told["table"] or [])[1:]]
        expect(got == rows, "%s: the table is %s, not %s" % (title, got, rows))
        if name == "ccache":
            heading = browser.run("return document.getElementById('table-title').textContent")
            expect(heading == "Tickets of " + name_in_file(tree.find("principal")), "%s: %r" % (title, heading))
    say("tables: %s" % count)
    expect(count["keytab"] > 6 and count["ccache"] > 4 and count["expired"] > 3, "few tables are tried: %s" % count)


def service_row():
    """An AP-REQ with the service's key, and its lines."""
    return next(row for row in opened() if row[0] == "18 AP-REQ, the service's key")


def try_map(browser):
    """The map: all octets, each part as wide as it is long, and what lies where the ciphertexts are."""
    _, keys, _, octets, expected = service_row()
    told = shown(browser, octets, keys=":".join(keys.split(":")[:2]))
    parts, at = browser.run(MAP), 0
    for label, grow, wide, chosen, area, _ in parts:
        found = re.fullmatch(r"(.*), .*: octets (\d+) to (\d+)", label)
        expect(found is not None and int(found.group(2)) == at, "the map has a hole before %r" % label)
        size = int(found.group(3)) - at + 1
        expect(grow == str(size) and abs(wide - size / len(octets)) < 0.05, "%s is %s, %.3f of %d wide" % (label, grow, wide, len(octets)))
        # (the tags before the first field are of no line)
        expect(chosen == found.group(1) + ":" or chosen.startswith(found.group(1) + "[") or (at == 0 and label.startswith("octets, ")), "%s chooses %s" % (label, chosen))
        if area == "cipher":
            digits = octets[at : at + size].hex()
            expect(any(digits.startswith(line.split()[-1]) or line.split()[-1].startswith(digits) for line in expected if line.strip().startswith("cipher:")), "%s is no ciphertext" % label)
        at += size
    expect(at == len(octets) and len([each for each in parts if each[4] == "cipher"]) == 2, "the map ends at %d of %d: %s" % (at, len(octets), [each[0] for each in parts]))
    expect(sum(each[5] == 0 for each in parts) >= 1 and told["error"] == "", "no part of the map can be led to")
    browser.run("document.querySelector('#map button').focus()")
    browser.press("ArrowRight", "ArrowRight", "Enter")
    focus = browser.run("return document.activeElement.getAttribute('aria-label')")
    expect(focus == parts[2][0], "the arrow keys lead to %r in the map" % focus)
    legend = browser.run("return [...document.querySelectorAll('#legend li')].map((each) => each.textContent)")
    expect({"ciphertext", "names and realms", "keys", "opened", "times"} <= set(legend), "the legend: %s" % legend)
    for colour in ("cipher", "name", "key"):
        same = browser.run("""const of = (selector, style) => { const each = document.querySelector(selector); return each ? getComputedStyle(each)[style] : ""; };
            return [of("#legend .area-" + arguments[0], "backgroundColor"), of("#tree .row.area-" + arguments[0], "borderLeftColor")]""", colour)
        expect(same[0] == same[1] != "", "the colour of %s: %s" % (colour, same))
    say("the map: done")


def try_links(browser, site):
    """A link holds the octets and no keys, and shows what it holds; of octets that hold keys there is none."""
    _, keys, _, octets, expected = service_row()
    key = keys.split(":")[1]
    shown(browser, octets, keys="18:" + key, password="a secret of mine", salt="a salt of mine", keytabs=[keytab_of_texts([keys + " kvno 7"])], form="header")
    link = browser.run("return document.getElementById('link').hidden ? '' : linkOf()")
    told = re.fullmatch(re.escape(site.address) + r"#octets=([A-Za-z0-9_-]+)", link)
    held = base64.urlsafe_b64decode(told.group(1) + "==") if told else b""
    expect(held == octets, "the link holds other octets: %s" % link[:120])
    browser.run("window.copied = null; navigator.clipboard.writeText = (text) => { window.copied = text; return Promise.resolve(); }")
    browser.click("#link")
    expect(browser.run("return window.copied") == link, "another link is copied")
    browser.go("about:blank")
    browser.go(link)
    lines = "return (async () => { for (let n = 0; n < 500 && document.getElementById('card').hidden; n++) await new Promise((done) => setTimeout(done, 10)); %s })()"
    text = browser.run(lines % "return [document.getElementById('facts').textContent, document.getElementById('keys').value, document.getElementById('tree').textContent]")
    expect("HTTP/www.home.test@HOME.TEST" in text[0] and text[1] == "" and "opened-by" not in text[2], "a link shows %s" % text[0][:200])
    # The same link, pasted; and one that says what to read the octets as.
    browser.go(site.address)
    told = browser.run("document.getElementById('input').value = arguments[0]; document.getElementById('go').click();" + lines % "return document.getElementById('status').textContent", link)
    expect(told == "AP-REQ, %d octets, given as base64" % len(octets), "a link that is pasted: %r" % told)
    pac = next(row for row in pages() if row[1] == "PA-DATA" and row[3][-1].startswith("{"))
    shown(browser, pac[2], kind="PA-DATA")
    link = browser.run("return linkOf()")
    expect(link.endswith("&as=PA-DATA"), "a link of a PA-DATA: %s" % link[-40:])
    browser.go("about:blank")
    browser.go(link)
    told = browser.run(lines % "return document.getElementById('status').textContent")
    expect(told.startswith("PA-DATA, %d octets" % len(pac[2])), "the link of a PA-DATA shows %r" % told)
    # What holds keys has no link, whether they are shown or not; nor have octets that may hold some.
    keytab = keytab_of_texts(["17:" + "5a" * 16 + ":a@R kvno 1"])
    clear = next(row for row in opened() if row[0] == "KRB-CRED in the clear, no key")[3]
    cache = next(row for row in pages() if row[1] == "ccache" and row[3][-1].startswith("{"))[2]
    for octets in (keytab, clear, cache, keytab[:-1]):
        for show in (False, True):
            shown(browser, octets, show=show)
            expect(browser.run("return document.getElementById('link').hidden"), "a link of octets that hold keys: %s" % octets[:4].hex())
    for hostile in ("#octets=<script>window.misled=1</script>", "#octets=AAAA&as=<b>", "#octets=", "#octets=AAAA&as=%00%ff", "#javascript:misled=1", "#octets=A", "#octets=AAAA&as=" + "x" * 65):
        browser.go("about:blank")
        browser.go(site.address + hostile)
        browser.run("return new Promise((done) => setTimeout(done, 300))")
        state = browser.run("return [window.misled === undefined, document.scripts.length, document.getElementById('card').hidden, document.querySelectorAll('#card b, main script').length]")
        expect(state == [True, 5, True, 0], "%s: %s" % (hostile, state))
    browser.go(site.address)
    say("links: done")


def try_examples(browser, site):
    """Each example shows something; the first one says whether the service lets it in."""
    browser.go(site.address)
    names = browser.run("return [...document.querySelectorAll('#examples button')].map((each) => each.textContent)")
    expect(len(names) >= 5, "the examples are %s" % names)
    for number, name in enumerate(names):
        told = browser.run("""document.querySelectorAll("#examples button")[arguments[0]].click();
            const at = (id) => document.getElementById(id);
            return (async () => { for (let n = 0; n < 2000 && (at("card").hidden && at("capture").hidden || at("status").textContent === "Asking"); n++) await new Promise((done) => setTimeout(done, 10));
                return [at("error").textContent, at("card-title").textContent, at("verdicts").children.length, at("fields").hidden, at("capture").hidden]; })()""", number)
        expect(told[0] == "" and (told[1] != "" or not told[4]) and told[3], "%s: %s" % (name, told))
        expect((told[2] > 0) == (number == 0), "%s: %d verdicts" % (name, told[2]))
    say("examples: %s" % ", ".join(names))


def try_places(browser):
    """What is shown begins in the upper half of the screen, wide and narrow; the form is a line, and opens again; what is cut is whole where it is pointed at or
    touched."""
    row = next(row.columns for row in asked("accepted") if row.columns[0] == "a-t013")
    keytab, token = bytes.fromhex(row[1]), bytes.fromhex(row[5])
    for width, height in ((1440, 900), (390, 844)):
        browser.size(width, height)
        shown(browser, token, keytabs=[keytab], form="header")
        browser.run("window.scrollTo(0, 0)")
        hidden, top, high, fits, expanded, go = browser.run(WHERE)
        expect(hidden and go and expanded == "false" and 0 < top < high / 2 and fits, "%d wide: the card begins at %d of %d; %s %s %s" % (width, top, high, hidden, fits, expanded))
        browser.click("#change")
        hidden, top, high, fits, expanded, go = browser.run(WHERE)
        expect(not hidden and not go and expanded == "true" and fits, "%d wide: the form does not open" % width)
        browser.click("#change")
        expect(browser.run(WHERE)[0], "the form does not fold")
        cut = browser.run("""const item = [...document.querySelectorAll("#tree li")].find((each) => each.line.name === "cipher"), value = item.querySelector(".value"), row = item.querySelector(".row");
            const hides = () => getComputedStyle(value).display !== "inline" && value.scrollWidth > value.clientWidth + 1 || row.scrollHeight > row.clientHeight + 1, before = hides();
            value.dispatchEvent(new MouseEvent("mouseover", { bubbles: true }));
            const title = value.title; row.click();
            return [before, title === value.textContent, hides(), value.textContent.length]""")
        expect(cut[0] and (cut[1] or width < 500) and not cut[2] and cut[3] > 500, "%d wide: a value that is cut: %s" % (width, cut))
    browser.size()
    lined = browser.run("""document.getElementById("clear").click(); document.getElementById("keys-box").open = true;
        return [...document.querySelectorAll("#fields .line")].map((line) => [...line.querySelectorAll(".field")].map((each) => [each.querySelector("label").getBoundingClientRect().top,
            each.querySelector("input").getBoundingClientRect().top, each.querySelector("input").getBoundingClientRect().height]))""")
    for line in lined:
        # (a line that is full goes on below)
        even = {(round(field - label, 1), round(high, 1)) for label, field, high in line}
        rows = {round(label, 1): {round(field, 1) for one, field, _ in line if round(one, 1) == round(label, 1)} for label, _, _ in line}
        expect(len(even) <= 1 and all(len(each) == 1 for each in rows.values()), "labels or fields of a line are not even: %s" % line)
    say("places on the screen: done")


def try_named(browser):
    """What a screen reader is told of the card, the bar, the keys, the table, the map, and the buttons."""
    row = next(row.columns for row in asked("accepted") if row.columns[0] == "a-t013")
    keytab, token = bytes.fromhex(row[1]), bytes.fromhex(row[5])
    shown(browser, token, keytabs=[keytab], form="header")
    wanted = {
        "#card": (("region",), r"A client's request to a service \(AP-REQ\), in a token of the GSS-API"),
        "#bar": (("image", "img"), r"The ticket's times\. Expired .* ago\. It may be renewed until 2026-11-28T07:08:23Z\."),
        "#verdicts": (("list",), r"Would this service let it in\?"),
        "#checks": (("list",), "What holds"),
        "#chains": (("group",), "Who holds which key"),
        "#map": (("toolbar",), "Map of the octets"),
        "#map button": (("button",), r".*: octets 0 to \d+"),
        "#legend": (("list",), "Colours of the map and of the fields"),
        "#chains button": (("button",), r"the key of e17/web\.peer\.test@PEER\.TEST, version 1"),
        "#checks button": (("button",), "the service's checksum of the PAC"),
        "#tree": (("tree",), "Fields"),
        "#tree li": (("treeitem",), "InitialContextToken:.*"),
        "#change": (("button",), "Change octets and keys"),
        "#link": (("button",), "Copy a link"),
        "#clear": (("button",), "Clear all"),
        "#show": (("checkbox",), "Show keys and passwords"),
        "#source": (("combobox",), "of"),
        "#octets": (("group",), "Octets"),
    }
    tried(browser, wanted)
    shown(browser, keytab_of_texts(["17:" + "5a" * 16 + ":a@R kvno 1"]))
    tried(browser, {"#table-pane": (("region",), "Keys"), "#table": (("table",), "Keys"), "#table th": (("columnheader",), "Version"), "#table button": (("button",), "a@R")})
    browser.run("document.getElementById('clear').click(); document.getElementById('keys-box').open = true")
    fields = {"#input": "Octets: paste them, or drop a file anywhere", "#kind": "Read as", "#keys": "Keys, each ETYPE:HEX", "#password": "Password", "#salt": "Salt of the password"}
    tried(browser, {selector: (("textbox", "combobox", ""), re.escape(name)) for selector, name in fields.items()})  # (a field of a password has no role)
    tried(browser, {"#examples": (("group",), "Examples"), "#examples button": (("button",), "A token, with the service's keytab"), "#go": (("button",), "Show")})
    say("names for a screen reader: done")


def tried(browser, wanted):
    for selector, (roles, pattern) in wanted.items():
        role, name = browser.named(selector)
        expect(role in roles and re.fullmatch(pattern, name or "", re.DOTALL), "%s is %s %r to a screen reader, not %s %s" % (selector, role, name, roles, pattern))


def try_other_client(browser):
    """Tokens of accepted.rows whose authenticator names another client than the ticket: the card says who the ticket is of, and who else is named."""
    count = 0
    for row in asked("accepted"):
        if not any("refused, OtherClient" in line for line in row.expected) and row.columns[0] != "a-t013":
            continue
        keytab, token = bytes.fromhex(row.columns[1]), bytes.fromhex(row.columns[5])
        facts = {line[0]: line[1:] for line in shown(browser, token, keytabs=[keytab], form="header")["card"]["facts"]}
        if "Opened" not in facts:
            continue
        count += row.columns[0] != "a-t013"
        told = facts["Who"][1:] != [] and facts["Who"][1].startswith("the authenticator names another client: ")
        expect(told == (row.columns[0] != "a-t013") and "@" in facts["Who"][0], "%s: %s" % (row.columns[0], facts["Who"]))
    say("other clients: %d" % count)
    expect(count >= 3, "few tokens of other clients are tried: %d" % count)


def try_closed(browser):
    """Nothing is told of what is not opened: no client, no times, no checksums; and of an error what stands in it alone."""
    for title, _, _, octets, expected in opened():
        if "AP-REQ, the service's key" not in title:
            continue
        card = shown(browser, octets)["card"]
        facts = {line[0]: line[1:] for line in card["facts"]}
        expect(facts["Who"] == ["not known: it is encrypted, and no key opens it"] and "Opened" not in facts, "%s without a key: %s" % (title, facts))
        expect(card["times"] is None and card["checks"] == [] and "ann" not in str(card), "%s without a key: %s" % (title, card))
        expect([node[0] for node in card["chains"][0]] == ["key missing", "part closed", "key missing", "part closed"], "%s: %s" % (title, card["chains"]))
    facts = {line[0]: line[1:] for line in shown(browser, error_with(b"HOME.TEST"))["card"]["facts"]}
    expect(facts == {"Error": ["KDC_ERR_S_PRINCIPAL_UNKNOWN (7)"], "About": ["x@HOME.TEST"], "When": ["2026-11-22T06:49:24Z"]}, "a KRB-ERROR: %s" % facts)
    say("what is closed: done")


def try_cards(browser, site):
    for attempt in (try_opened_cards, try_other_client, try_closed, try_times, try_checks, try_tables, try_map, try_places, try_named):
        attempt(browser)
    try_links(browser, site)
    try_examples(browser, site)
