"""Tries `krb.text`, `krb.json`, `krb.decode` and `krb.show`: try_show.py, in an environment that has the package installed. The rows of tests/pages.rows whose
type has a row in the table of types are to be told as these expect, which decoders in Python made that share no code with the library; but for those that hold a format that is no DER, which the library leaves octets. `krb.decode` is to have the values of that JSON. `krb.show` is to tell the rows of tests/opened.rows, with their keys in a keytab, and those of kinds without
a row; `krb.decode` is to have the values of its JSON, with what the keys open, `krb.parts` the parts of it, and `krb.find` to find in them. The last line is `N passed, N failed`."""

import datetime
import json
import re
import sys

import krb
from counting import ended, expect, outcome
import der
import keytabs
from krb import Refused, Status
from tables import asked

# How a line of a PAC begins, one of the checksum of RFC 4121 (4.1.1), and one of the message behind its length that a KDC-PROXY-MESSAGE holds.
FORMATS = re.compile(r" *(ulType: |Lgth: |kerb-message:$)")
APPLICATIONS = {0x60 + number: name for number, name in der.MESSAGES.items()}
KERBEROS = bytes.fromhex("2a864886f712010202")  # 1.2.840.113554.1.2.2 (RFC 1964, 1)
# What pages call an element of these types, by the name of RFC 4556 and RFC 5349 that they share with others.
HEADINGS = {"DHSubjectPublicKeyInfo": "SubjectPublicKeyInfo", "DHAuthPack": "AuthPack", "ECAuthPack": "AuthPack"}


def opened_rows():
    """Keys, kind and octets of each row of `opened`, with the lines that are expected of it."""
    for row in asked("opened"):
        yield row.columns[1], row.columns[2], bytes.fromhex(row.columns[3]), row.expected


def files():
    """Kind and octets of each keytab and cache among the rows of `pages`."""
    for row in asked("pages"):
        if row.columns[1] in ("keytab", "ccache"):
            yield row.columns[1], bytes.fromhex(row.columns[2])


def keytab_of(keys):
    """A keytab of these keys, each SUITE:OCTETS:NAME, and what each is called in it."""
    entries, names = [], {}
    for key in keys.split("|") if keys != "-" else []:
        suite, digits, name = key.split(":", 2)
        entries.append((b"R", [name.encode()], 1, int(suite), bytes.fromhex(digits)))
        shown = name.replace("\\", "\\\\").replace('"', '\\"')
        names['opened-by: "%s"' % shown] = 'opened-by: "%s@R kvno 1"' % shown
    return keytabs.keytab_of(*entries) if entries else b"", names


def try_opened():
    """How many rows there are. Where the opened octets stand in a row of their own, and where a PAC is told, the lines are the program's to compare."""
    count = 0
    for keys, kind, octets, expected in opened_rows():
        keytab, names = keytab_of(keys)
        kind = None if kind == "message" else kind
        if len(expected) == 1 and not expected[0].endswith(":"):
            expect(isinstance(outcome(krb.show, octets, kind, keytab), Status), "an opened row is not refused")
            continue
        shown = krb.show(octets, kind, keytab, show_keys=True)
        if "the opened octets are shown" in "".join(expected) or "PAC" in shown:
            continue
        wanted = "".join("%s%s\n" % (line[: len(line) - len(line.lstrip())], names.get(line.strip(), line.strip())) for line in expected)
        expect(shown == wanted, "an opened row is told otherwise")
        hidden = krb.show(octets, kind, keytab)
        expect(all("hidden" in line for line in hidden.split("\n") if line.lstrip().startswith("keyvalue")), "a key is shown")
        expect(json.loads(krb.show(octets, kind, keytab, as_json=True)) is not None, "an opened row has no JSON")
        try_items(octets, kind, keytab)
        count += 1
    return count


def agrees_opened(value, told):
    """Whether a value of `krb.decode` with keys is the one that JSON tells with them. What is no DER is told within, and not decoded."""
    if isinstance(value, dict) and isinstance(told, dict) and "not-opened" in value:
        prefix = "a key opens it, and the octets are no encoding of "
        same = value["not-opened"] == told.get("not-opened") or (value["not-opened"].startswith(prefix) and told.get("not-opened", "").startswith(prefix))
        return same and agrees_opened(*({name: one for name, one in it.items() if name != "not-opened"} for it in (value, told)))
    if isinstance(value, dict):
        return isinstance(told, dict) and list(value) == list(told) and all(agrees_opened(value[name], told[name]) for name in value)
    if isinstance(value, list) and isinstance(told, list):
        return len(value) == len(told) and all(map(agrees_opened, value, told))
    return agrees(value, told)


def leaves(value):
    """What stands in a tree."""
    if isinstance(value, dict):
        return [leaf for one in value.values() for leaf in leaves(one)]
    return [leaf for one in value for leaf in leaves(one)] if isinstance(value, list) else [value]


def encrypted(tree, path=""):
    """The path of each EncryptedData with a part in a tree, with the part."""
    if isinstance(tree, dict):
        names = list(tree)
        for name in names[names.index("cipher") + 1 :] if "cipher" in names else []:
            if name not in ("opened-by", "key-usage", "not-opened", "keys-not-tried"):
                yield (path + "." if path else "") + name, tree[name]
        for name in names:
            yield from encrypted(tree[name], (path + "." if path else "") + name)
    elif isinstance(tree, list):
        for number, one in enumerate(tree):
            yield from encrypted(one, "%s[%d]" % (path, number))


def try_found(octets, kind, keytab, tree):
    """Each part of a tree is the one that `krb.parts` has, and `krb.find` and `krb.find_number` find in it. How many there are."""
    told = [part for part in krb.parts(octets, kind, keytab) if part.type_name]
    found = list(encrypted(tree))
    expect(len(found) == len(told), "%d parts stand in the tree, and %d are told" % (len(found), len(told)))
    for (path, value), part in zip(found, told):
        expect(path.endswith(part.type_name), "%s is no path to %s" % (path, part.type_name))
        expect(krb.decode(part.octets, part.type_name, show_keys=True) == value, "%s is another part" % path)
        content = krb.find(octets, kind, path, keytab)
        expect(part.octets.endswith(content) and len(part.octets) - len(content) <= 12, "%s is not found" % path)
        for name, one in value.items() if isinstance(value, dict) else ():
            if isinstance(one, int) and not isinstance(one, bool):
                expect(krb.find_number(octets, kind, path + "." + name, keytab) == one, "%s.%s is another number" % (path, name))
    return len(found)


def try_decoded(octets, kind, keytab):
    """A row of `opened` as a tree, beside the JSON of `krb.show`: with keys, and without an octet of one. How many parts it has; nothing where it holds what is no DER, or no
    type has its name."""
    shown = krb.show(octets, kind, keytab, show_keys=True)
    kind = kind or krb.type_of(octets)
    if kind is None or outcome(krb.items, octets, kind) == Status.NUMBER or any(map(FORMATS.match, shown.split("\n"))):
        return None
    (told,) = json.loads(krb.show(octets, kind, keytab, as_json=True, show_keys=True)).values()
    tree = krb.decode(octets, kind, keytab, show_keys=True)
    expect(agrees_opened(tree, told), "an opened row is decoded otherwise: %r %r" % (tree, told))
    hidden, (told,) = krb.decode(octets, kind, keytab), json.loads(krb.show(octets, kind, keytab, as_json=True)).values()
    expect(agrees_opened(hidden, told), "an opened row is hidden otherwise: %r %r" % (hidden, told))
    secrets = [leaf for leaf in leaves(tree) if isinstance(leaf, krb.Secret)]
    expect(not any(isinstance(leaf, krb.Secret) for leaf in leaves(hidden)), "a secret is handed out")
    expect(not any(secret and secret in leaf for secret in secrets for leaf in leaves(hidden) if isinstance(leaf, bytes) and len(leaf) < 64), "the octets of a key are handed out")
    expect(len(secrets) <= sum(isinstance(leaf, krb.Hidden) for leaf in leaves(hidden)), "a secret is left out")
    return try_found(octets, kind, keytab, tree)


def try_trees():
    """The rows of `opened` as trees, by keytabs and by keys. How many rows, and parts in them."""
    rows = parts = 0
    for keys, kind, octets, expected in opened_rows():
        if len(expected) == 1 and not expected[0].endswith(":"):
            continue
        kind, keytab = None if kind == "message" else kind, keytab_of(keys)[0]
        count = try_decoded(octets, kind, keytab)
        if count is None:
            continue
        rows, parts = rows + 1, parts + count
        kind = kind or krb.type_of(octets)
        given = [(int(key.split(":")[0]), bytes.fromhex(key.split(":")[1])) for key in keys.split("|")] if keys != "-" else []
        if all(etype in range(16, 21) for etype, _ in given):
            one, other = krb.parts(octets, kind, keytab), krb.parts(octets, kind, keys=given)
            expect([part._replace(opened_by=None) for part in one] == [part._replace(opened_by=None) for part in other], "keys open otherwise than a keytab of them")
            expect(all(part.opened_by is None or part.opened_by.startswith("keys[") or " " in part.opened_by for part in other), "a key is called otherwise")
    return rows, parts


def try_tokens():
    """AP-REQs of `opened` as tokens of Kerberos (RFC 4121, 4.1), with what their keys open as trees, by keytabs and by keys. How many there are."""
    count = 0
    for keys, kind, octets, expected in opened_rows():
        if kind != "message" or octets[:1] != b"\x6e" or len(expected) < 2:
            continue
        keytab, token = keytab_of(keys)[0], krb.spnego.make_token(KERBEROS, b"\1\0" + octets)
        (told,) = json.loads(krb.show(token, "token", keytab, True, True)).values()
        expect(is_decoded(krb.decode(token, "token", keytab, show_keys=True), told), "an opened token is decoded otherwise")
        given = [(int(key.split(":")[0]), bytes.fromhex(key.split(":")[1])) for key in keys.split("|")] if keys != "-" else []
        if all(etype in range(16, 21) for etype, _ in given):
            tree = krb.decode(token, "token", keys=given)
            opened = [name for name in openers(tree) if name.startswith("keys[")]
            expect(all(re.fullmatch(r"keys\[\d+\]", name) for name in opened), "a key is called otherwise")
            expect(not any(isinstance(leaf, krb.Secret) for leaf in leaves(tree)), "a secret of a token is handed out")
        count += 1
    return count


def openers(tree):
    """What the keys are called that open what stands in a tree."""
    if isinstance(tree, dict):
        return [name for key, value in tree.items() for name in ([value] if key == "opened-by" else openers(value))]
    return [name for one in tree for name in openers(one)] if isinstance(tree, list) else []


def try_kinds():
    """Octets of kinds that have no row: files, as the table `files` tells them. How many there are."""
    count = 0
    for kind, octets in files():
        shown = outcome(krb.show, octets, kind, b"", False, True)
        if not isinstance(shown, Status):
            expect(shown.startswith(kind) and shown.isascii() and "keyvalue: hidden" not in shown, "%s is told otherwise" % kind)
            expect("hidden" in krb.show(octets, kind) or "keyvalue" not in shown, "the keys of a %s are shown" % kind)
            count += 1
    expect(outcome(krb.show, b"\x30\0") == Status.NUMBER and outcome(krb.show, b"\x30\0", "no kind") == Status.NUMBER, "octets of no kind are shown")
    expect(outcome(krb.show, b"\x61\0", None, b"\5\1") == Status.KEYTAB and outcome(krb.show, b"\x61") == Status.TRUNCATED, "no refusal")
    expect(outcome(krb.page_items, b"\x61\0", None, b"\5\1") == Status.KEYTAB and outcome(krb.page_items, b"\x30\0", "") == Status.NUMBER, "items of octets of no kind")
    expect(outcome(krb.page_items, b"\x61") == Status.TRUNCATED and outcome(krb.page_items, b"\x30\0") == Status.NUMBER, "items of refused octets")
    expect(outcome(krb.show, b"\5\3", "ccache") == Status.TRUNCATED or outcome(krb.show, b"\5\3", "ccache") == Status.INVALID, "a cut cache is shown")
    return count


def rows():
    """Origin, type and octets of each row of `pages`, but for files, with the lines that are expected of it."""
    for row in asked("pages"):
        origin, name, octets = row.columns
        name = name if name.startswith("token") else name.partition(": ")[0]
        if name not in ("keytab", "ccache"):
            yield origin, name, bytes.fromhex(octets), row.expected


def bare(told):
    """JSON without places."""
    if isinstance(told, dict):
        return bare(told["value"]) if list(told) == ["offset", "size", "value"] else {name: bare(inner) for name, inner in told.items()}
    return [bare(inner) for inner in told] if isinstance(told, list) else told


def json_of(item):
    """The value of an item of a page, as JSON has it."""
    form, value = item.form, item.value
    if form == krb.PageForm.NUMBER:
        number = json.loads(value)
        return number if item.registry is None else {"number": number, "name": item.names[0] if item.names else None}
    if form == krb.PageForm.FLAGS:
        return value.decode() if item.registry is None else {"flags": value.decode(), "names": list(item.names)}
    if form == krb.PageForm.IDENTIFIER:
        return {"identifier": value.decode(), "name": item.names[0] if item.names else None}
    if form in (krb.PageForm.OCTETS, krb.PageForm.SECRET, krb.PageForm.CIPHER):
        return value.hex()
    try:
        return value.decode("utf-8")
    except UnicodeDecodeError:
        return value.decode("latin-1")


def json_of_items(items):
    """JSON with places of the items of a page."""
    around = whole = {}
    outer, ends = [], {krb.PageForm.STRUCT_END: krb.PageForm.STRUCT, krb.PageForm.LIST_END: krb.PageForm.LIST}
    for item in items:
        if item.form in ends:
            around, form = outer.pop()
            expect(form == ends[item.form], "another end")
            continue
        value = {} if item.form == krb.PageForm.STRUCT else [] if item.form == krb.PageForm.LIST else json_of(item)
        shown = value if item.place is None else {"offset": item.place.start, "size": item.place.stop - item.place.start, "value": value}
        if item.is_item:
            around.append(shown)
        else:
            around[item.name] = shown
        if item.form in ends.values():
            outer.append((around, item.form))
            around = value
    return whole


def try_items(octets, kind, keytab):
    """`krb.page_items` has what `krb.show` writes as JSON with places, keys shown and hidden, and numbers as their digits."""
    for shows in (True, False):
        items = krb.page_items(octets, kind, keytab, shows)
        expect(json_of_items(items) == json.loads(krb.show(octets, kind, keytab, True, shows, places=True)), "%s has other items" % kind)
        expect(all(item.number is None or (item.form == krb.PageForm.NUMBER and int(item.value) == item.number) for item in items), "%s has another number" % kind)
        expect(shows or not any(item.form == krb.PageForm.SECRET for item in items), "%s has a secret" % kind)
        expect(all(item.names == () or item.form != krb.PageForm.NUMBER or item.names == (krb.name_of(item.registry, item.number),) for item in items), "%s has another name" % kind)


def try_places():
    """`krb.show` with places, of all rows and files: what it tells without, and within the octets; `krb.page_items` the same. How many places of what is no DER."""
    count = 0
    for name, octets in [(name, octets) for _, name, octets, _ in rows()] + list(files()):
        kind = "token" if name.startswith("token") else None if name == "told" else name
        for each in (kind, APPLICATIONS.get(octets[0]) if octets else None):
            shown = outcome(krb.show, octets, each, b"", False, True)
            if not isinstance(shown, Status):
                kind = each
                break
        else:
            continue
        placed, told = krb.show(octets, kind, b"", False, True, places=True), krb.show(octets, kind, b"", True, True, places=True)
        found = [(int(offset), int(size)) for offset, size in re.findall(r"(?m) @(\d+)\+(\d+)$", placed)]
        expect(re.sub(r"(?m) @\d+\+\d+$", "", placed) == shown, "%s is another text with places" % name)
        expect(bare(json.loads(told)) == json.loads(krb.show(octets, kind, b"", True, True)), "%s is another JSON with places" % name)
        expect(all(offset + size <= len(octets) for offset, size in found), "%s has a place past its end" % name)
        try_items(octets, kind, b"")
        if kind in ("PAC", "NEGOEX", "keytab", "ccache", "token", "password-frame"):
            count += len(found)
            (value,) = json.loads(krb.show(octets, kind, b"", True, True)).values()
            expect(is_decoded(krb.decode(octets, kind, show_keys=True), value), "%s is decoded otherwise" % name)
            hides = any(isinstance(leaf, krb.Hidden) for leaf in leaves(krb.decode(octets, kind)))
            expect(hides == ("hidden" in krb.show(octets, kind)), "%s hides other values" % name)
    return count


def is_decoded(value, told):
    """Whether a value of `krb.decode` is the one that JSON tells of a format that is no DER."""
    if isinstance(value, dict):
        return list(value) == list(told) and all(map(is_decoded, value.values(), told.values()))
    if isinstance(value, list):
        return isinstance(told, list) and len(value) == len(told) and all(map(is_decoded, value, told))
    if isinstance(value, frozenset):
        return value == frozenset(told["names"])
    if isinstance(value, bytes):
        return value.hex() == told
    if isinstance(value, datetime.datetime):
        return value.strftime("%Y-%m-%dT%H:%M:%SZ").rjust(20, "0") == told
    if isinstance(value, int) and isinstance(told, str):
        return told[:2] == "0x" and value == int(told, 16)
    return value == (told.get("number", told.get("identifier")) if isinstance(told, dict) else told) and type(value) in (int, bool, str)


def quoted(component):
    """A component as it stands within a name: a slash and a backslash are behind a backslash."""
    return component.replace("\\", "\\\\").replace("/", "\\/")


def flags_of(told):
    """The numbers of the bits that are set, and how many bits there are, of flags as JSON has them, with or without names."""
    digits, _, spare = (told["flags"] if isinstance(told, dict) else told)[2:].partition("/")
    bits = "".join("%04d" % int(bin(int(digit, 16))[2:]) for digit in digits)
    size = len(bits) - int(spare or 0)
    return frozenset(number for number, bit in enumerate(bits) if bit == "1"), size


def agrees(value, told):
    """Whether a value of `krb.decode` is the one that JSON tells."""
    if isinstance(value, dict):
        return isinstance(told, dict) and list(value) == list(told) and all(agrees(value[name], told[name]) for name in value)
    if isinstance(value, list) and isinstance(told, str):
        return "/".join(map(quoted, value)) == told
    if isinstance(value, list):
        return isinstance(told, list) and len(value) == len(told) and all(map(agrees, value, told))
    if isinstance(value, bool):
        return value is told
    if isinstance(value, int):
        if isinstance(told, str):  # past 64 bits: its two's complement
            return value == int.from_bytes(bytes.fromhex(told), "big", signed=True)
        return value == (told["number"] if isinstance(told, dict) else told)
    if isinstance(value, frozenset):  # JSON has the names of the first 32 alone
        numbers = flags_of(told)[0]
        if isinstance(told, dict):
            return value == frozenset(told["names"]) | {str(number) for number in numbers if number >= 32}
        return value == {str(number) for number in numbers}
    if isinstance(value, datetime.datetime):
        return value.strftime("%Y-%m-%dT%H:%M:%SZ").rjust(20, "0") == told
    if isinstance(value, bytes) and (isinstance(told, dict) or told[:2] == "0x"):  # a BIT STRING that is no flags; an ENUMERATED
        if isinstance(told, dict) and "flags" not in told:
            return value == bytes([told["number"]])
        bits = int.from_bytes(value[1:], "big")
        size = 8 * len(value) - 8
        return (frozenset(number for number in range(size) if bits >> (size - 1 - number) & 1), size - value[0]) == flags_of(told)
    if isinstance(value, bytes):
        return told == value.hex() or told.endswith(value.hex())  # an element that is not read is told whole
    if isinstance(told, dict):
        return value == told.get("identifier")
    return value == told or re.sub(r"(....)(..)(..)(..)(..)(..)Z", r"\1-\2-\3T\4:\5:\6Z", value) == told


def try_row(name, octets, expected):
    """Whether the type has a row."""
    if name in ("tree", "told", "password-frame", "NEGOEX") or name.startswith("token: ") or any(map(FORMATS.match, expected)):
        return False
    try:
        krb.items(octets, name)
    except Refused as refused:
        if refused.status == Status.NUMBER:
            name = APPLICATIONS.get(octets[0]) if octets else None
    if name is None or outcome(krb.items, octets, name) == Status.NUMBER:
        return False
    if not expected[-1].startswith("{"):
        wanted = Status[expected[0]]
        expect(outcome(krb.text, octets, name) == wanted and outcome(krb.json, octets, name) == wanted, "%s is not refused so" % name)
        return True
    text, told = krb.text(octets, name, show_secrets=True), krb.json(octets, name, show_secrets=True)
    headed, told = (it.replace(name, HEADINGS.get(name, name), 1) for it in (text, told))
    expect(headed.split("\n") == expected[:-1] + [""] and told == expected[-1] + "\n", "%s is told otherwise" % name)
    (value,) = json.loads(told).values()
    if krb.parts(octets, name) and name == "KRB-CRED":  # what stands in the clear is told without keys, by krb.show alone
        (value,) = json.loads(krb.show(octets, name, as_json=True, show_keys=True)).values()
    expect(agrees_opened(krb.decode(octets, name, show_keys=True), value), "%s is decoded otherwise" % name)
    if krb.type_of(octets) == name:
        expect(krb.json(octets, show_secrets=True) == told and krb.text(octets, show_secrets=True) == text, "%s is not told by its first octet" % name)
    hidden = krb.text(octets, name)
    expect(hidden == text or "hidden" in hidden, "%s: neither shown nor hidden" % name)
    expect(json.loads(krb.json(octets, name)) is not None and hidden.isascii() and hidden.replace("\n", "").isprintable(), "%s: no printable text" % name)
    return True


def try_key():
    key = bytes.fromhex("300da003020112a1060404deadbeef")
    expect("deadbeef" not in krb.text(key, "EncryptionKey") and "keyvalue: hidden" in krb.text(key, "EncryptionKey"), "a key is shown")
    expect("deadbeef" in krb.text(key, "EncryptionKey", show_secrets=True), "a key is not shown")
    expect(krb.decode(key, "EncryptionKey")["keyvalue"] == "hidden" and isinstance(krb.decode(key, "EncryptionKey")["keyvalue"], krb.Hidden), "a key is decoded")
    expect(krb.decode(key, "EncryptionKey", show_keys=True)["keyvalue"] == krb.Secret(b"\xde\xad\xbe\xef"), "a key is not decoded")
    expect(outcome(krb.decode, key, "no type") == Status.NUMBER and outcome(krb.decode, key, "EncryptionKey", b"\5\1") == Status.KEYTAB, "no refusal")
    expect(outcome(krb.decode, key, "EncryptionKey", None, [(3, b"")]) == Status.NUMBER and outcome(krb.decode, key[:-1], "EncryptionKey") == Status.TRUNCATED, "no refusal")
    expect(outcome(krb.text, key, "no type") == Status.NUMBER and outcome(krb.json, key[:-1], "EncryptionKey") == Status.TRUNCATED, "no refusal")


# Texts that would mislead a terminal or a reader, each in a leaf of every kind that takes it.
HOSTILE = [b"\n", b"\r", b"\x1b[2J", b"\xc2\x9b31m", "\u202ereversed".encode(), b"\0", b"a: b", b'"', b"\\", b"\x7f", b"\xff\xfe", b"hidden"]


def try_found_keys():
    """Of the keys in an encrypted part a thousand are tried on what follows, and how many are left out is said (krb.h, krb_show_page)."""
    key, number = bytes(range(16)), der.integer(17)
    for count in (1000, 1001, 1100):
        info = der.sequence((0, der.sequence((0, number), (1, [4, bytes(16)]))))
        part = der.element(0x7D, der.sequence((0, [48, [info] * count])))
        part_octets = part
        cipher = krb.messages.seal(krb.messages.Part.CRED_PART, 17, key, 14, part)
        encrypted = der.sequence((0, number), (2, [4, cipher]))
        message = der.element(0x76, der.sequence((0, der.integer(5)), (1, der.integer(22)), (2, [48, []]), (3, encrypted)))
        shown = krb.show(message, keytab=keytab_of("17:%s:service" % key.hex())[0])
        left = "keys-not-tried: %d" % (count - 1000)
        expect("ticket-info[%d]:" % count in shown and (left in shown) == (count > 1000) and ("keys-not-tried" in shown) == (count > 1000), "%d keys are found" % count)
        (part,) = krb.parts(message, keys=[(17, key)])
        expect((part.outcome, part.usage, part.type_name, part.octets, part.opened_by) == (krb.Outcome.DECRYPTED, 14, "EncKrbCredPart", part_octets, "keys[0]"), "the part is another")
        expect(part.keys_left_out == max(count - 1000, 0), "%d keys are left out" % part.keys_left_out)
        decoded = krb.decode(message, keys=[(17, key)])["enc-part"]
        expect(decoded.get("keys-not-tried", 0) == max(count - 1000, 0) and len(decoded["EncKrbCredPart"]["ticket-info"]) == count, "the tree has other keys")
        expect(all(info["key"]["keyvalue"] == "hidden" for info in decoded["EncKrbCredPart"]["ticket-info"]), "a key is handed out")


def rows_holding(text):
    """Types, and octets of each that hold this in leaves of all kinds that take it."""
    number, octets = der.integer(17), [4, text]
    rows = [
        ("PrincipalName", der.name(1, text, text)),
        ("EncryptionKey", der.sequence((0, number), (1, octets))),
        ("EncryptedData", der.sequence((0, number), (2, octets))),
        ("Checksum", der.sequence((0, number), (1, octets))),
        ("PA-DATA", der.sequence((1, number), (2, octets))),
        ("HostAddress", der.sequence((0, number), (1, octets))),
        ("ETYPE-INFO2-ENTRY", der.sequence((0, number), (1, der.text(text)), (2, octets))),
    ]
    return [(name, der.written(row)) for name, row in rows]


def try_hostile():
    """Texts, names, octets, secrets, ciphertexts and what is not read, that hold such octets: one line each, in printable ASCII. How many are shown."""
    count = 0
    for text in HOSTILE:
        for (name, row), (_, plain) in zip(rows_holding(text), rows_holding(b"x" * len(text))):
            if isinstance(outcome(krb.items, row, name), Status):  # a text that is no GeneralString of RFC 4120, 5.2.1
                expect(outcome(krb.text, row, name) == outcome(krb.items, row, name), "%s is refused otherwise" % name)
                continue
            for secrets in (False, True):
                shown, told = krb.text(row, name, show_secrets=secrets), krb.json(row, name, show_secrets=secrets)
                lines = shown.split("\n")
                expect(all(line.isascii() and line.isprintable() for line in lines + [told[:-1]]), "%s shows %r" % (name, text))
                expect(len(lines) == len(krb.text(plain, name, show_secrets=secrets).split("\n")), "%s has more lines of %r" % (name, text))
            (value,) = json.loads(told).values()
            expect(agrees(krb.decode(row, name, show_keys=True), value), "%s tells %r otherwise" % (name, text))
            count += 1
    return count


def main():
    count = sum(try_row(name, octets, expected) for _, name, octets, expected in rows())
    expect(count > 200, "only %d rows were tried" % count)
    print("shown: %d rows" % count)
    try_key()
    hostile = try_hostile()
    expect(hostile > 60, "only %d hostile texts were shown" % hostile)
    try_found_keys()
    opened, kinds = try_opened(), try_kinds()
    expect(opened > 150 and kinds > 10, "only %d opened rows and %d files were tried" % (opened, kinds))
    print("opened: %d rows; files: %d" % (opened, kinds))
    places = try_places()
    expect(places > 1500, "only %d places of what is no DER were told" % places)
    print("places: %d of what is no DER" % places)
    tokens = try_tokens()
    expect(tokens > 5, "only %d opened tokens were tried" % tokens)
    print("opened tokens: %d" % tokens)
    trees, parts = try_trees()
    expect(trees > 100 and parts > 80, "only %d trees with %d parts were tried" % (trees, parts))
    print("trees: %d rows with %d parts" % (trees, parts))
    return ended()


if __name__ == "__main__":
    sys.exit(main())
