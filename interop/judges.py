"""What `jolmurig show` says of keytabs, caches, tickets and PACs, judged by what klist (klist.py) and ndrdump (ndrdump.py) say."""

import json
import re
import shutil
import socket
import struct

from checks import expect
from klist import ETYPES, LETTERS, klist_cache, klist_keytab
from ndrdump import ndr_contents, ndr_tree
from octets import octets_in
from pac import FULL, KDC, SERVER, TICKET, pac_entries
from jolmurig import Failed, output, shown
from script import PATHS

EPOCH = "1970-01-01T00:00:00Z"
SUITES = {16: "des3-cbc-sha1-kd", **{number: name for name, number in ETYPES.items() if 17 <= number <= 20}}
UNOPENED, NO_KEY, NO_SUITE = "no key of this encryption type opens it", "no key of this encryption type", "the encryption type is not supported"


class Tally:
    """Counts comparisons."""

    def same(self, title, what, theirs, ours):
        expect(theirs == ours, "%s: %s: %r, and jolmurig says %r" % (title, what, theirs, ours))

    def each(self, title, theirs, ours):
        """Compares two dicts by their names."""
        for what in sorted(set(theirs) | set(ours)):
            self.same(title, what, theirs.get(what, "nothing"), ours.get(what, "nothing"))


def escaped(text):
    """A component or a realm as krb5_unparse_name writes it."""
    return re.sub(r"([/@\\])", r"\\\1", text)


def principal_name(principal):
    return "/".join(map(escaped, principal["components"])) + "@" + escaped(principal["realm"])


def lettered(flags):
    """The flags that klist has letters for."""
    return sorted(set(flags["names"]) & set(LETTERS.values()))


def all_named(value, name):
    """Each value under this name, at any depth."""
    if isinstance(value, dict):
        for key, item in value.items():
            if key == name:
                yield item
            yield from all_named(item, name)
    elif isinstance(value, list):
        for item in value:
            yield from all_named(item, name)


def pacs_of(value):
    """The lists of buffers of the PACs in a value."""
    if isinstance(value, list) and value and all(isinstance(item, dict) and "ulType" in item for item in value):
        yield value
    else:
        for item in value.values() if isinstance(value, dict) else value if isinstance(value, list) else []:
            yield from pacs_of(item)


class Session:
    """The tally, the realm, and what was written without --show-keys."""

    def __init__(self, tally, realm):
        self.tally, self.realm, self.secrets, self.outputs = tally, realm, set(), []

    def write(self, title, *arguments):
        """Shows without keys, as text and as JSON, and keeps both."""
        self.outputs += [(title + ", text", output(*arguments)), (title + ", JSON", output("--json", *arguments))]
        words = set(all_named(json.loads(self.outputs[-1][1]), "keyvalue")) | set(all_named(json.loads(self.outputs[-1][1]), "UserSessionKey"))
        self.tally.same(title, "octets of keys", [], sorted(words - {"hidden"}))

    def judge_outputs(self):
        for title, text in self.outputs:
            self.tally.same("keys that are not shown: " + title, "keys", [], [key for key in self.secrets if key in text.lower()])


def shown_keytab(keytab, *options):
    entries = shown("keytab", *options, keytab)
    same = [{name: n[name] for name in ("vno", "timestamp", "keyvalue")} for n in entries]
    return [{**one, "principal": principal_name(n), "keytype": n["keytype"]["number"]} for one, n in zip(same, entries)]


def address_text(address):
    octets = bytes.fromhex(address["address"])
    family = {2: socket.AF_INET, 24: socket.AF_INET6}[address["addr-type"]["number"]]
    return socket.inet_ntop(family, octets)


def shown_credential(credential):
    server = credential["server"]
    if server["realm"] == "X-CACHECONF:":
        _, name, *of = server["components"]
        return {"configuration": name, "of": of[0] if of else None, "data": bytes.fromhex(credential["ticket"]).decode()}
    return {
        "server": principal_name(server),
        "client": principal_name(credential["client"]),
        "start": credential["authtime"] if credential["starttime"] == EPOCH else credential["starttime"],
        "end": credential["endtime"],
        "renew": None if credential["renew-till"] == EPOCH else credential["renew-till"],
        "flags": lettered(credential["ticket-flags"]),
        "skey": credential["key"]["keytype"]["number"],
        "tkt": credential["ticket"]["enc-part"]["etype"]["number"],
        "addresses": [address_text(address) for address in credential["addresses"]],
    }


def tickets_of(cache):
    """The credentials of a shown cache that hold tickets, by server."""
    return [credential for credential in cache["credentials"] if credential["server"]["realm"] != "X-CACHECONF:"]


def pac_octets(buffers):
    """The PAC of a shown list of buffers: zeros where none of them is (MS-PAC, 2.3)."""
    entries = [(n["ulType"]["number"], n["cbBufferSize"], n["Offset"], bytes.fromhex(n["buffer"])) for n in buffers]
    octets = bytearray(max(place + size for _, size, place, _ in entries))
    octets[:8] = struct.pack("<II", len(entries), 0)
    for number, (kind, size, place, content) in enumerate(entries):
        octets[8 + 16 * number : 24 + 16 * number] = struct.pack("<IIQ", kind, size, place)
        octets[place : place + size] = content
    return bytes(octets)


def contents_shown(entry):
    """The structs of a shown buffer, the types of signatures by their numbers."""
    found = {name: value for name, value in entry.items() if name not in ("ulType", "cbBufferSize", "Offset", "buffer")}
    for value in found.values():
        if isinstance(value, dict) and isinstance(value.get("SignatureType"), dict):
            value["SignatureType"] = value["SignatureType"]["number"]
    return found


def judge_pac(tally, realm, title, octets):
    """Compares a PAC with what ndrdump says of it, and its attributes of groups by name."""
    path = realm.path("pac")
    with open(path, "wb") as file:
        file.write(octets)
    buffers = shown("PAC", "--as", "PAC", "--show-keys", path)
    try:
        tree = ndr_tree(realm.run("ndrdump", "krb5pac", "PAC_DATA", "struct", path))
    except Failed:
        # ndrdump refuses logon information whose length is not a multiple of 8
        unpadded = pac_entries(octets).get(1, (0, 0))[1] % 8 != 0
        tally.same(title, "whether all is read", [unpadded], [not list(all_named(buffers, "unread"))])
        return
    nodes = [n for n in tree.all("buffers") if n.value == "struct PAC_BUFFER"]
    kinds = [int(re.search(r"\((\d+)\)", next(n.value for n in node.nodes if n.name == "type"))[1]) for node in nodes]
    tally.same(title, "types", kinds, [n["ulType"]["number"] for n in buffers])
    for node, kind, entry in zip(nodes, kinds, buffers):
        inside = "%s: buffer %d" % (title, kind)
        tally.same(inside, "size", node.number("_ndr_size"), entry["cbBufferSize"])
        theirs, ours = ndr_contents(node, kind, bytes.fromhex(entry["buffer"])), contents_shown(entry)
        if theirs is None:  # of types that it does not know; of a signature it says what it holds
            if kind in (SERVER, KDC, TICKET, FULL):
                tally.same(inside, "what it holds", {}, ours)
            continue
        tally.same(inside, "what it holds", list(theirs), list(ours))
        for name in set(theirs) & set(ours):
            tally.each("%s: %s" % (inside, name), theirs[name], ours[name])
    names = [[m.value for m in n.nodes if m.name == "1"] for n in tree.all("attributes") if "(" in n.value]
    lines = re.findall(r"^ *Attributes: 0x[0-9a-f]{8}(.*)$", output("--as", "PAC", path), re.MULTILINE)
    tally.same(title, "names of attributes", names, [line.split() for line in lines])


def judge_keytab(session, title, keytab):
    theirs, ours = klist_keytab(session.realm, keytab), shown_keytab(keytab, "--show-keys")
    session.tally.same(title, "entries", len(theirs), len(ours))
    for number, (one, other) in enumerate(zip(theirs, ours), 1):
        session.tally.each("%s: entry %d" % (title, number), one, other)
    session.secrets.update(entry["keyvalue"] for entry in theirs)
    session.write(title, keytab)
    return theirs


def judge_cache(session, title, cache):
    """Compares a cache as it is, and has the entries of klist that are credentials."""
    principal, theirs = klist_cache(session.realm, cache)
    found = shown("ccache", "--show-keys", cache)
    session.tally.same(title, "principal", principal, principal_name(found["principal"]))
    session.tally.same(title, "entries", len(theirs), len(found["credentials"]))
    for number, (one, other) in enumerate(zip(theirs, found["credentials"]), 1):
        session.tally.each("%s: entry %d" % (title, number), one, shown_credential(other))
    octets = octets_in(cache)
    keys = [n["key"]["keyvalue"] for n in tickets_of(found)]
    session.tally.same(title, "session keys are in the file", [True] * len(keys), [bytes.fromhex(key) in octets for key in keys])
    session.secrets.update(keys)
    session.tally.same(title, "what keys open, without any", [], [name for name in ("opened-by", "not-opened") for _ in all_named(found, name)])
    session.write(title, cache)
    return [entry for entry in theirs if "server" in entry]


def judge_part(session, title, entry, credential):
    """Compares an opened ticket with the entry of klist."""
    part, tally = credential["ticket"]["enc-part"]["EncTicketPart"], session.tally
    theirs = {name: entry[name] for name in ("start", "end", "renew", "flags", "skey")}
    theirs.update({"client": entry["client"], "addresses": entry["addresses"], "key": credential["key"]["keyvalue"], "authtime": credential["authtime"]})
    ours = {"start": part.get("starttime", part["authtime"]), "end": part["endtime"], "renew": part.get("renew-till"), "flags": lettered(part["flags"])}
    ours.update({"skey": part["key"]["keytype"]["number"], "key": part["key"]["keyvalue"], "authtime": part["authtime"]})
    ours["client"] = part["cname"]["name-string"].replace("@", "\\@") + "@" + escaped(part["crealm"])
    ours["addresses"] = [address_text(address) for address in part.get("caddr", [])]
    tally.each(title, theirs, ours)
    session.secrets.add(part["key"]["keyvalue"])


def unopened(entry, keys):
    """Why no key opens a ticket by its encryption type; None where one may."""
    if entry["tkt"] not in SUITES:
        return {"not-opened": NO_SUITE}
    return None if entry["tkt"] in [key["keytype"] for key in keys] else {"not-opened": NO_KEY}


def opened_of(part):
    """What is told of what keys open."""
    return {name: part[name] for name in ("opened-by", "key-usage", "not-opened") if name in part}


def judge_pacs(session, title, entry, part):
    pacs = list(pacs_of(part))
    session.tally.same(title, "PACs", 1, len(pacs))
    for pac in pacs:
        info = [n["PAC_CLIENT_INFO"] for n in pac if "PAC_CLIENT_INFO" in n]
        name = entry["client"].rsplit("@", 1)[0].replace("\\@", "@")  # As MIT's KDC writes a name without its realm.
        session.tally.same(title, "PAC_CLIENT_INFO", [{"ClientId": part["authtime"], "Name": name}], info)
        if shutil.which("ndrdump", path=PATHS):
            judge_pac(session.tally, session.realm, title + ": PAC", pac_octets(pac))
