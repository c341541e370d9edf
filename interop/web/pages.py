"""Octets in the page, as the rows of tests/*.rows have them."""

import base64
import calendar
import json
import re
import struct

from checks import expect, say
from ciphers import key_of_password
from der import element, integer, name, sequence, text
from given import buffers, checksums, error_with, misleading, opened, pages
from keytabs import keytab_of_texts
from tables import asked

# Gives the page octets and keys, waits for its answer, opens the tree and tells what stands there.
SHOW = """
const [text, octets, kind, keytabs, keys, password, salt, show] = arguments;
const get = (id) => document.getElementById(id);
const texts = (selector) => [...document.querySelectorAll(selector)].map((each) => each.textContent);
const cardOf = () => ({
    title: get("card-title").textContent,
    facts: [...get("facts").children].reduce((all, each) => { each.tagName === "DT" ? all.push([each.textContent]) : all[all.length - 1].push(each.textContent); return all; }, []),
    times: get("times").hidden ? null : [get("times-words").className, get("times-words").textContent, get("bar").getAttribute("aria-label")],
    listed: get("times").hidden ? [] : texts("#times-list dt").map((name, number) => [name, texts("#times-list dd")[number].slice(0, 20)]),
    checks: get("holds").hidden ? [] : [...get("checks").children].map((each) => [each.className.replace("check-line ", ""), ...[...each.children].map((one) => one.textContent)]),
    chains: [...get("chains").children].map((chain) => [...chain.children].map((each) => [each.className.replace("node ", ""), ...[...each.children].map((one) => one.textContent)])),
});
const fileOf = (base64, name) => new File([Uint8Array.from(atob(base64), (letter) => letter.charCodeAt(0))], name);
const give = (id, files) => { const given = new DataTransfer(); for (const each of files) given.items.add(each); get(id).files = given.files; };
return (async () => {
    get("clear").click();
    get("kind").value = kind; get("keys").value = keys; get("password").value = password; get("salt").value = salt; get("show").checked = show;
    give("keytabs", keytabs.map((each) => fileOf(each, "keys.keytab")));
    if (octets !== null) { give("file", [fileOf(octets, "octets")]); get("file").dispatchEvent(new Event("change")); }
    else { get("input").value = text; get("go").click(); }
    for (let waited = 0; waited < 3000; waited++) {
        const status = get("status").textContent;
        if (status !== "Asking" && (status !== "" || get("error").textContent !== "")) break;
        await new Promise((done) => setTimeout(done, 10));
    }
    if (!get("result").hidden) get("open-all").click();
    const allowed = ["role", "class", "aria-level", "aria-expanded", "aria-selected", "aria-hidden", "tabindex", "hidden", "title", "id", "type", "scope", "style", "aria-label", "aria-labelledby"];
    const tags = ["LI", "UL", "OL", "DIV", "SPAN", "B", "BUTTON", "DL", "DT", "DD", "H2", "H3", "P", "THEAD", "TBODY", "TR", "TH", "TD"];
    const odd = [...document.querySelectorAll("#tree *, #octets *, #card *, #notes *, #table *, #map *, #legend *")].filter((each) => !tags.includes(each.tagName)
        || [...each.attributes].some((one) => !allowed.includes(one.name)));
    const lines = [...document.querySelectorAll("#tree li")].map((item) => {
        const value = item.querySelector(":scope > .row > .value");
        return "  ".repeat(item.getAttribute("aria-level") - 1) + item.querySelector(":scope > .row > .name").textContent + (value ? " " + value.textContent : "");
    });
    return {
        lines, odd: odd.map((each) => each.outerHTML.slice(0, 100)), error: get("error").textContent, status: get("status").textContent,
        notes: [...get("notes").children].map((each) => each.textContent), verdicts: [...get("verdicts").children].map((each) => [each.className, each.textContent]),
        card: get("card").hidden ? null : cardOf(), table: get("table-pane").hidden ? null : [...get("table").rows].map((row) => [...row.cells].map((cell) => cell.textContent)),
        sources: [...get("source").options].map((each) => each.textContent),
        text: document.body.innerText, answer: JSON.stringify(shown, (name, value) => name === "item" || name === "around" || name === "lines" ? undefined : value),
        octets: shown ? shown.sources.map((each) => [...each.octets].map((octet) => octet.toString(16).padStart(2, "0")).join("")) : [],
        scripts: document.scripts.length, misled: window.misled === undefined, copied: shown ? [shown.text, shown.json] : null, hidden: get("result").hidden,
    };
})();
"""
# What is said of a status.
WORDS = {"INVALID": "What stands in the octets is not as their type has it.", "TRUNCATED": "The octets end too early.", "UNSUPPORTED": "The octets have a length in a form"}
# What the page says of files that are refused is not a status alone.
FILES = ("told", "keytab", "ccache")
# How a page is told that has, or is, a format which is no DER: a PAC, a checksum of the GSS-API, NEGOEX, a keytab, a cache, a token.
NO_DER = re.compile(r" *(ulType|Lgth|cbHeaderLength|keytab|ccache|TOK_ID)\b")
# Chooses each line, and tells which octets light up and where they are said to be.
LIT = """
return [...document.querySelectorAll("#tree li")].map((item) => {
    item.querySelector(":scope > .row").click();
    return [[...document.querySelectorAll("#octets .hex b.chosen")].map((each) => each.textContent).join(""), document.getElementById("where").textContent,
        document.getElementById("source").value];
});
"""


def shown(browser, octets, kind="", keytabs=(), keys="", password="", salt="", show=False, form="hex"):
    text = {"hex": octets.hex(), "base64": base64.encodebytes(octets).decode(), "header": "Authorization: Negotiate " + base64.b64encode(octets).decode()}.get(form)
    file = None if text is not None else base64.b64encode(octets).decode()
    told = browser.run(SHOW, text, file, kind, [base64.b64encode(each).decode() for each in keytabs], keys, password, salt, show)
    expect(told["odd"] == [] and told["scripts"] == 5 and told["misled"], "markup of the octets is in the page: %s" % told["odd"][:3])
    return told


def kind_of(name, octets):
    """What a row's type is called where its octets are read."""
    from krb._pages import KINDS as named

    name = name.partition(": ")[0]
    found = next((each for each in named if each.lower() == name.lower()), "")
    return found if name != "told" else ""


def agrees(value, octets):
    """Whether octets are those of a value, by the forms of docs/SPECIFICATION.md: True or False; None where the value tells no octets of its own."""
    told = re.fullmatch(r"(\d+) octets ?([0-9a-f]*)", value)
    if told:
        return told.group(2).endswith(octets.hex()) and (len(octets) > 0 or told.group(1) == "0")
    if re.fullmatch(r"\d{4}-\d\d-\d\dT\d\d:\d\d:\d\dZ", value):
        return octets == re.sub("[-:T]", "", value).encode()
    if re.fullmatch(r"0x[0-9a-f]+( .*)?", value):  # the flags stand behind how many bits are unused
        return octets[1:].hex() == value.split()[0][2:]
    if re.fullmatch(r"-?\d+( [^.]*)?", value):
        return int.from_bytes(octets, "big", signed=True) == int(value.split()[0])
    return None


def agrees_otherwise(value, octets):
    """Whether octets are those of a value of a format that is no DER: True or False; None where the value tells no octets of its own. A PAC and NEGOEX are
    little-endian (MS-PAC, 2; draft-zhu-negoex, 6), with times of 100 nanoseconds since 1601 and texts of UTF-16LE; a keytab and a cache big-endian, with times
    of seconds since 1970 (MIT Kerberos, "Keytab file format", "Credential cache file format"), and of a cache flags, too."""
    if value.startswith('"'):
        return value in (quoted_as(octets), quoted_as_units(octets))
    if re.fullmatch(r"\d{4}-\d\d-\d\dT\d\d:\d\d:\d\dZ", value):
        seconds = calendar.timegm(tuple(map(int, re.findall(r"\d+", value))))
        wide = int.from_bytes(octets, "little") // 10**7 - 11644473600
        return seconds == (wide if len(octets) == 8 else int.from_bytes(octets, "big")) and len(octets) in (4, 8)
    if re.fullmatch(r"0x[0-9a-f]+( .*)?", value):
        return value.split()[0][2:] in (octets.hex(), octets[::-1].hex())
    if re.fullmatch(r"-?\d+( [^.]*)?", value):
        return int(value.split()[0]) in [int.from_bytes(octets, order, signed=signed) for order in ("little", "big") for signed in (False, True)]
    return None


def quoted_as_units(octets):
    """A text of UTF-16LE as a page has it (docs/SPECIFICATION.md, "Values as text and as JSON")."""
    return quoted_as(octets.decode("utf-16-le", "surrogatepass").encode("utf-8", "surrogatepass")) if len(octets) % 2 == 0 else None


def quoted_as(octets):
    letters = ["\\" + chr(each) if each in b'"\\' else chr(each) if 32 <= each < 127 else "\\x%02x" % each for each in octets]
    return '"' + "".join(letters) + '"'


def try_lit(browser, title, told, counts):
    """What lights up with each line that has a place of its own is what the line tells."""
    if told["lines"][0].startswith(("[", "SEQUENCE", "MIC", "Wrap")) or "@" in told["lines"][0]:
        return
    is_format = any(map(NO_DER.match, told["lines"]))
    for line, (octets, where, _) in zip(told["lines"], browser.run(LIT)):
        name, _, value = line.strip().partition(": ")
        place = re.search(r": octets (\d+) to (\d+), (\d+) of ", where) or re.search(r": (no octets), (behind) (\d+) of ", where)
        if not place or "\u00b7" in octets or not value:
            counts["without"] += 1
            continue
        size = 0 if place.group(2) == "behind" else int(place.group(3))
        expect(size == 0 or int(place.group(2)) - int(place.group(1)) == size - 1, "%s: %s is told of %d octets" % (title, where, size))
        found = bytes.fromhex(octets)
        if len(found) != size:  # more than the window has
            counts["more"] += 1
            continue
        if name == "TOK_ID":
            right = found.hex() == value.split()[0]
        elif value.startswith('"') and name not in ("name-string",):
            right = value == quoted_as(found) or is_format and agrees_otherwise(value, found)
        else:
            right = agrees(value, found)
            right = right or (agrees_otherwise(value, found) if is_format and right is not None else right)
        if right is None:
            counts["other"] += 1
            continue
        counts["compared"] += 1
        expect(right, "%s: %s lights up %s" % (title, line, octets[:80]))


def secrets_in(lines):
    """The digits of keys in the lines that are expected."""
    found = [re.fullmatch(r" *(?:keyvalue|UserSessionKey|newpasswd|userPassword|password|pin): \d+ octets ([0-9a-f]{12,})", line) for line in lines]
    return [each.group(1) for each in found if each and set(each.group(1)) != {"0"}]


def try_hidden(title, told, secrets):
    for secret in secrets:
        expect(secret not in told["text"], "%s: a key is on the page" % title)
        expect(not any(secret in each for each in told["octets"]), "%s: the octets of a key are sent to the page" % title)
        expect(secret not in told["answer"] and not any(secret in each for each in told["copied"] or ()), "%s: a key is in the answer" % title)


def try_rows(browser):
    counts = {"shown": 0, "refused": 0, "secrets": 0, "compared": 0, "without": 0, "more": 0, "other": 0}
    forms = ("hex", "base64", "file", "header")
    for number, (origin, name, octets, expected) in enumerate(pages()):
        title = "%s %s" % (origin, name)
        form, kind = forms[number % 4], kind_of(name, octets)
        if name == "told" and expected[-1].startswith("{"):
            expected = expected[1:]
        if not octets:
            told = shown(browser, octets, kind)
            expect(told["error"] != "" and told["lines"] == [], "%s: no octets are shown" % title)
            continue
        told = shown(browser, octets, kind, show=True, form=form)
        if not expected[-1].startswith("{"):
            counts["refused"] += 1
            why = WORDS.get(expected[0], "") if name not in FILES else ""
            expect(told["error"].startswith(why) and told["error"] != "" and not told["copied"][1], "%s: %r, not %r" % (title, told["error"], expected[0]))
            expect(told["card"] is None and told["table"] is None, "%s: a card of what is refused: %s" % (title, told["card"]))
            continue
        counts["shown"] += 1
        lines, (text, as_json) = told["lines"], told["copied"]
        if any(line.lstrip().startswith("ulType:") for line in expected):  # `krb.show` tells what is in the buffers, and these rows do not: try_buffers
            lines, text = without_contents(lines), "\n".join(without_contents(text.split("\n")))
            as_json = json.dumps(json_without_contents(json.loads(as_json)), separators=(",", ":"))
        expect(told["error"] == "" and lines == expected[:-1], "%s (%s): other lines: %s" % (title, form, told["error"] or different(lines, expected)))
        expect(text.rstrip("\n") == "\n".join(expected[:-1]) and as_json.strip() == expected[-1], "%s: other text or JSON to copy" % title)
        if told["lines"] and not told["hidden"]:
            try_lit(browser, title, told, counts)
        secrets = secrets_in(expected)
        counts["secrets"] += len(secrets)
        if secrets:
            try_hidden(title, shown(browser, octets, kind, form=form), secrets)
    say("rows: %s" % counts)
    expect(counts["shown"] > 300 and counts["refused"] > 60 and counts["compared"] > 1500 and counts["secrets"] > 50, "few rows are tried: %s" % counts)


def different(lines, expected):
    for one, other in zip(lines, expected):
        if one != other:
            return "%r, not %r" % (one[:200], other[:200])
    return "%d lines, not %d" % (len(lines), len(expected))


def without_contents(lines):
    """Lines but for what the buffers of a PAC hold, which the rows of `pages` do not have: those behind `buffer`, and deeper."""
    left, depth = [], None
    for line in lines:
        indent = len(line) - len(line.lstrip())
        if depth is not None and indent >= depth:
            continue
        depth = indent if line.lstrip().startswith("buffer:") else None
        left.append(line)
    return left


def json_without_contents(value):
    """The same of a value of JSON."""
    if isinstance(value, dict):
        names = list(value)
        names = names[: names.index("buffer") + 1] if "buffer" in names and "ulType" in names else names
        return {name: json_without_contents(value[name]) for name in names}
    return [json_without_contents(each) for each in value] if isinstance(value, list) else value


def names_of(keys):
    """What the page calls the keys that it is given, by their names in a row, as they stand in quotation marks."""
    return {quoted_as(key.split(":", 2)[2].encode())[1:-1]: "key %d@given kvno 1" % (number + 1) for number, key in enumerate(keys)}


def try_opened(browser):
    counts = {"by keys": 0, "by keytabs": 0, "secrets": 0, "compared": 0, "without": 0, "more": 0, "other": 0, "left out": 0}
    sizes = {"16": 24, "17": 16, "18": 32, "19": 16, "20": 32}
    for number, (title, keys, kind, octets, expected) in enumerate(opened()):
        given = keys.split("|") if keys != "-" else []
        kind = "" if kind == "message" else kind
        whole = all(len(each.split(":")[1]) == 2 * sizes.get(each.split(":")[0], -1) for each in given)
        if not given or not whole or len(expected) == 1 or "the opened octets are shown" in "".join(expected):
            counts["left out"] += 1
            if given and not whole:
                told = shown(browser, octets, kind, keys=" ".join(each.rpartition(":")[0] for each in given))
                expect("is not ETYPE:HEX" in told["error"], "%s: a key of another size is taken: %r" % (title, told["error"]))
            continue
        names, by_keys = names_of(given), number % 2 == 0
        words = {"keys": " ".join(":".join(each.split(":")[:2]) for each in given)} if by_keys else {"keytabs": [keytab_of_texts([each]) for each in given]}

        def renamed(line):
            found = re.fullmatch(r'( *(?:opened-by|[a-z]+-checksum-key): )"(.*)"', line)
            if not found or found.group(2) not in names:
                return line
            plain = found.group(2)
            version = "" if " kvno " in plain else " kvno 1" if "@" in plain else "@ kvno 1"
            return '%s"%s"' % (found.group(1), names[plain] if by_keys else plain + version)

        told = shown(browser, octets, kind, show=True, **words)
        wanted = [renamed(line) for line in expected]
        counts["by keys" if by_keys else "by keytabs"] += 1
        expect(told["lines"] == wanted, "%s: other lines: %s" % (title, told["error"] or different(told["lines"], wanted)))
        if number % 3 == 0:
            try_lit(browser, title, told, counts)
        secrets = secrets_in(expected)
        counts["secrets"] += len(secrets)
        if secrets:
            try_hidden(title, shown(browser, octets, kind, **words), secrets)
    say("opened: %s" % counts)
    expect(counts["by keys"] > 40 and counts["by keytabs"] > 40 and counts["compared"] > 300 and counts["secrets"] > 40, "few rows are tried: %s" % counts)


def try_checksums(browser):
    count = holds = 0
    names = ("ticket-checksum", "ticket-checksum-key")
    for title, keys, octets, expected in checksums():
        if len(octets) > 100000 or any(not re.fullmatch(r"[^@]+@\S+ kvno \d+", each.split(":", 2)[2]) for each in keys) or len(keys) > 8:
            continue  # names that no keytab gives
        told = shown(browser, octets, "Ticket" if octets[:1] == b"\x61" else "", keytabs=[keytab_of_texts([each]) for each in keys], show=True)
        lines, inside = [], False
        for line in told["lines"]:
            inside = line.strip() == "PAC-checksums:" or (inside and len(line) - len(line.lstrip()) > depth)
            depth = len(line) - len(line.lstrip()) if line.strip() == "PAC-checksums:" else depth if inside else 0
            if inside or line.strip().partition(":")[0] in names:
                lines.append(line)
        count += 1
        holds += any(line.endswith(": holds") for line in lines)
        expect(lines == ([] if expected == ["no checksums"] else expected), "%s: other checksums: %s" % (title, told["error"] or different(lines, expected)))
    say("checksums: %d rows, in %d of them one holds" % (count, holds))
    expect(count >= 20 and 10 <= holds < count, "few checksums are tried: %d, %d" % (count, holds))


def try_buffers(browser):
    """What buffers of PACs hold, each in a PAC of its own (MS-PAC, 2.3)."""
    count = 0
    for title, number, octets, expected in buffers():
        if number not in (1, 6, 7, 10, 12, 16, 17, 18, 19) or len(octets) > 60000:
            continue
        pac = struct.pack("<IIIIQ", 1, 0, number, len(octets), 24) + octets
        told = shown(browser, pac + bytes(-len(pac) % 8), kind="PAC", show=True)
        count += 1
        first = next((number for number, line in enumerate(told["lines"]) if line.strip().startswith("buffer:")), -1)
        lines = told["lines"][first + 1 :]
        wanted = ["    " + line for line in expected[:-1]]
        expect(lines == wanted, "%s %d: other lines: %s" % (title, number, told["error"] or different(lines, wanted)))
    say("buffers: %d" % count)
    expect(count > 80, "few buffers are tried: %d" % count)


def called(octets):
    """What a principal of a row of `misleading` is called: as RFC 1964, 2.1.3, quotes it, and what is no printable ASCII by its number."""
    special = {"\\": "\\\\", "/": "\\/", "@": "\\@", "\n": "\\n", "\t": "\\t", "\b": "\\b", "\0": "\\0"}
    if octets[0] == 0x7E:
        name, realm = "x", re.search(rb"(?s)\xa9.\x1b.(.*)\xaa", octets).group(1).decode()
    else:
        size = int.from_bytes(octets[11:13], "big")
        name, realm = octets[13 : 13 + size].decode(), "R"
    quote = lambda text: "".join(special.get(each, each) for each in text)
    numbered = lambda each: "\\r" if each == "\r" else "\\x%02x" % ord(each) if ord(each) < 256 else "\\u%04x" % ord(each) if ord(each) < 65536 else "\\U%08x" % ord(each)
    return "".join(each if " " <= each <= "~" else numbered(each) for each in quote(name) + "@" + quote(realm))


def try_misleading(browser):
    count = 0
    for title, octets, wanted in misleading():
        for form in ("hex", "file"):
            told = shown(browser, octets, form=form)
            count += 1
            expect(wanted in told["lines"], "%s: other lines: %s" % (title, told["error"] or told["lines"][:8]))
            expect(all(" " <= letter <= "~" for line in told["lines"] for letter in line), "%s: a letter that is no printable ASCII" % title)
            name = called(octets)
            if told["table"] is None:
                expect(["About", name] in told["card"]["facts"], "%s: the card has not %r: %s" % (title, name, told["card"]["facts"]))
            else:
                expect([row[2] for row in told["table"][1:]] == [name], "%s: the table has not %r: %s" % (title, name, told["table"]))
            odd = [letter for letter in told["text"] if not (" " <= letter <= "~" or letter in "\n\t\u25b8\u25be\u00b7\u2192")]
            expect(odd == [], "%s: letters on the page: %r" % (title, odd[:5]))
    names = ["\u202egpj.exe", "<img src=x onerror=misled=1>.keytab", "a\nb\x07", "\u2066x"]
    for name in names:
        keytab = keytab_of_texts(["17:" + "00" * 16 + ":" + "a\u202e<b>@R kvno 1"])
        browser.run("""const octets = Uint8Array.from(atob(arguments[0]), (each) => each.charCodeAt(0)), given = new DataTransfer();
            given.items.add(new File([octets], arguments[1]));
            document.getElementById("file").files = given.files; document.getElementById("file").dispatchEvent(new Event("change"));
            return new Promise((done) => setTimeout(done, 300));""", base64.b64encode(keytab).decode(), name)
        text = browser.run("return document.getElementById('file-name').innerText")
        expect("is taken" in text and not re.search("[\u202a-\u202e\u2066-\u2069\x00-\x09\x0b-\x1f]", text), "the name %r stands as %r" % (name, text))
        expect(browser.run("return document.querySelectorAll('#file-name img').length + (window.misled === undefined ? 0 : 1)") == 0, "the name of a file is markup")
    say("misleading texts: %d shown" % count)
    expect(count == 270, "not 135 texts in two forms, but %d" % count)


def try_password(browser):
    """A ticket under the key of a password, which hashlib makes (RFC 8009, 4 and 3), with the default salt and with another one; and an AS-REP that tells it."""
    import krb

    key, transited = (sequence((0, integer(kind)), (1, [4, octets])) for kind, octets in ((17, bytes(range(100, 116))), (1, b"")))
    time = [0x18, b"20300102030405Z"]
    part = element(0x63, sequence((0, [3, bytes(5)]), (1, key), (2, text("HOME.TEST")), (3, name(1, "ann")), (4, transited), (5, time), (7, time)))

    def ticket(salt):
        sealed = krb.messages.seal(krb.messages.Part.TICKET_PART, 20, key_of_password(20, b"a password", salt), 2, part)
        encrypted = sequence((0, integer(20)), (1, integer(1)), (2, [4, sealed]))
        return element(0x61, sequence((0, integer(5)), (1, text("HOME.TEST")), (2, name(2, "HTTP", "www.home.test")), (3, encrypted)))

    default = ticket(b"HOME.TESTHTTPwww.home.test")
    told = shown(browser, default, password="a password")
    wanted = ['    opened-by: "the password, salt HOME.TESTHTTPwww.home.test@given kvno 1"', '      crealm: "HOME.TEST"']
    expect(all(each in told["lines"] for each in wanted), "a password with the default salt: %s" % told["lines"][-12:])
    try_hidden("a password", told, [bytes(range(100, 116)).hex()])
    expect(bytes(range(100, 116)).hex() in "".join(shown(browser, default, password="a password", show=True)["lines"]), "a key is hidden that was asked for")
    told = shown(browser, default, password="another password")
    expect(any("not-opened" in line for line in told["lines"]) and not any("opened-by" in line for line in told["lines"]), "another password opens it")
    other = ticket(b"a salt of one's own")
    expect(any("not-opened" in line for line in shown(browser, other, password="a password")["lines"]), "a password opens what another salt made")
    told = shown(browser, other, password="a password", salt="a salt of one's own")
    expect('    opened-by: "the password, salt a salt of one\'s own@given kvno 1"' in told["lines"], "a password with a salt: %s" % told["lines"][-3:])
    told = shown(browser, error_with(b"X"), password="a password")
    expect(any("Nothing here is encrypted" in each for each in told["notes"]), "a password with nothing to open: %s" % told["notes"])
    say("passwords: done")


def try_verdicts(browser):
    """Whether the service lets the client in, of a token that a client of MIT Kerberos sent to it days ago, with its keytab, with another one, and without."""
    row = next(row.columns for row in asked("accepted") if row.columns[0] == "a-t013")
    keytab, token = bytes.fromhex(row[1]), bytes.fromhex(row[5])
    now, sent = shown(browser, token, keytabs=[keytab], form="header")["verdicts"]
    off = re.fullmatch(r"Now: no, the client's clock is (\d+) (y|d) (\d+) (d|h) behind, and at most 5 min are allowed \(SKEW\)", now[1])
    expect(now[0] == "bad" and off is not None, "the verdict of now: %s" % now)
    let_in = "When it was sent: yes, alice@PEER.TEST for e17/web.peer.test@PEER.TEST, until 2026-11-27T17:08:23Z; no replay cache was asked"
    expect(sent == ["good", let_in], "the verdict of when it was sent: %s" % sent)
    told = shown(browser, token, keytabs=[keytab_of_texts(["18:" + "00" * 32 + ":HTTP/other.test@PEER.TEST kvno 1"])], form="header")
    expect([each[0] for each in told["verdicts"]] == ["bad"] and told["verdicts"][0][1].startswith("no, ") and "(NOT_US)" in told["verdicts"][0][1], "the verdict by another keytab: %s" % told["verdicts"])
    expect(shown(browser, token, form="header")["verdicts"] == [], "a verdict without a keytab")
    expect(shown(browser, error_with(b"HOME.TEST"), keytabs=[keytab])["verdicts"] == [], "a verdict of what is no token")
    say("verdicts: done")


def try_refused(browser):
    """The first error at its octet, and the elements as far as they go."""
    good = error_with(b"HOME.TEST")
    at = good.index(b"HOME.TEST")
    bad = good[:at] + b"HO\xffE.TEST" + good[at + 9 :]
    told = shown(browser, bad)
    # An error of a content is where the content begins (krb.h, krb_items).
    expect(told["error"] == WORDS["INVALID"] + " The first error is at octet %d." % at, "the place of an error: %r, not %d" % (told["error"], at))
    expect(any('GeneralString@' in line and "HO\\xffE.TEST" in line for line in told["lines"]), "no tree of what is refused: %s" % told["lines"][:5])
    expect(browser.run("return [...document.querySelectorAll('#octets .hex b.fault')].map((each) => each.at + ' ' + each.textContent)") == ["%d 48" % at], "another octet is marked")
    cut = shown(browser, good[:-3])
    expect(re.fullmatch(r"The octets end too early\. The first error is at octet \d+\.", cut["error"]), "a cut message: %r" % cut["error"])
    for octets in (keytab_of_texts(["17:" + "5a" * 16 + ":a@R kvno 1"])[:-1], element(0x7D, b"\x5a" * 40), element(0x30, element(0xA0, b"\x5a" * 40))):
        told = shown(browser, octets)
        hides = "5a5a5a" not in told["text"].replace(" ", "") and not any("5a5a" in each for each in told["octets"])
        expect(told["error"] != "" and hides, "octets that may be keys are shown: %r" % told["error"])
        told = shown(browser, octets, show=True)
        expect(any("5a5a" in each for each in told["octets"]), "octets that are refused are hidden where they were asked for")
    told = shown(browser, b"\x30\x00")
    expect(told["error"] == 'The octets begin as nothing that is known: choose one of the kinds under "Read as".', "octets of no kind: %r" % told["error"])
    told = shown(browser, good, kind="NONE")
    expect(told["error"] == "No kind has this name.", "a kind that there is not: %r" % told["error"])
    told = shown(browser, good, kind="krb-error")
    expect(told["error"] == "" and told["lines"][0] == "KRB-ERROR:", "a kind in small letters: %r" % told["error"])
    told = shown(browser, good, keytabs=[b"no keytab"])
    expect("is no keytab" in told["error"], "a keytab that is none: %r" % told["error"])
    told = shown(browser, good, keys="17:00")
    expect(told["error"].startswith("Key 1 is not ETYPE:HEX"), "a key that is none: %r" % told["error"])
    told = shown(browser, good, keys="23:" + "00" * 16)
    expect(told["error"] == "Key 1: encryption type 23 (rc4-hmac) is not supported, which has to be 16 to 20.", "a key of RC4: %r" % told["error"])
    for octets, form in ((b"\x05\x02" + bytes(10), "file"), (b"\x01" * (512 * 1024 + 1), "file")):
        told = shown(browser, octets, form=form)
        expect(len(octets) < 100 or "at most 524288" in told["error"], "too many octets: %r" % told["error"])
    told = shown(browser, bytes((3 << 20) + 1), form="file")
    expect("at most 3145728" in told["error"], "a file that is too large: %r" % told["error"])
    say("what is refused: done")


def try_large(browser):
    """As many octets as are shown, of a KRB-ERROR: the page has but some in the document at once."""
    octets = error_with(b"R" * (500 << 10))
    told = shown(browser, octets, form="file")
    expect(told["error"] == "" and len(told["lines"]) > 8, "500 KiB: %r" % told["error"])
    cells = browser.run("return document.querySelectorAll('#octets .hex b').length")
    expect(0 < cells <= 4096, "%d octets are in the document" % cells)
    last = browser.run("""const item = [...document.querySelectorAll("#tree li")].pop(); item.querySelector(".row").click();
        return [...document.querySelectorAll("#octets .hex b.chosen")].map((each) => each.textContent).join("")""")
    expect(last == "1b0178", "the last field lights up %r" % last)
    many = element(0x30, *[sequence((0, integer(1)), (1, [4, b"x"]))] * 15000)
    told = shown(browser, many, kind="AuthorizationData", form="file")
    expect(any("of which the first 20000" in each for each in told["notes"]) and told["copied"][0].count("\n") >= 45000, "many lines: %s %s" % (told["error"], told["notes"]))
    say("large octets: done")


def try_log(browser, site):
    """The requests of all pages, and what the browser complains of."""
    urls = browser.urls()
    elsewhere = [each for each in urls if not each.startswith((site.address, *browser.others))]
    expect(len(urls) > 100 and elsewhere == [], "requests elsewhere: %s" % elsewhere[:5])
    complaints = browser.complaints()
    expect(complaints == [], "the browser complains: %s" % complaints[:3])
    say("%d requests, all to the server" % len(urls))


def try_pages(browser, site, folder):
    for attempt in (lambda: try_rows(browser), lambda: try_opened(browser), lambda: try_checksums(browser), lambda: try_buffers(browser)):
        attempt()
    try_misleading(browser)
    try_password(browser)
    try_refused(browser)
    try_verdicts(browser)
    try_large(browser)
