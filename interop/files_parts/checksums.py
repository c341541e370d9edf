"""Checksums of the PACs of tickets: of these as they are, and of ones that are changed and sealed again."""

import struct

from ciphers import sealed
from judges import principal_name, SUITES, tickets_of
from octets import flipped, octets_in
from pac import CIPHER_PATH, FULL, KDC, PAC_PATH, SERVER, TICKET, TICKET_USAGE, changed_at, fits, holds, pac_entries, pac_in, signed_octets, ticket_parts
from jolmurig import Failed, shown

from made import WEB


UNVERIFIED = "not verified: no key of the KDC of its type was given"


def told_of(part, opener, own):
    """What is to be told of the checksums of a ticket's PAC under the key that opened it and the given keys, which are names and octets."""
    pac = pac_in(part)
    messages, entries, found = signed_octets(pac, part), pac_entries(pac), {}
    is_own = opener in [key for _, key in own]
    held = holds(pac, SERVER, opener, messages[SERVER])
    found["server-checksum"] = ("holds" if held else "differs") if is_own else "not verified: the key was found in another part"
    for name, kind in [("kdc-checksum", KDC), ("full-checksum", FULL), ("ticket-checksum", TICKET)]:
        held = [(key_name, key) for key_name, key in own if kind in entries and holds(pac, kind, key, messages[kind])]
        may_be_kdcs = lambda key_name, key: key_name.startswith("krbtgt/") if " kvno " in key_name else key != opener
        kdcs = [one for one in held if may_be_kdcs(*one)]
        by_opener = bool(held) and held[0][1] == opener
        made = "made with the key that opened the ticket" if by_opener else "made with a key that is not the KDC's"
        fails = [key_name for key_name, key in own if may_be_kdcs(key_name, key) and kind in entries and fits(pac, kind, key)]
        found[name] = "holds" if kdcs else made if held else "differs" if fails else UNVERIFIED
        if kind not in entries:
            found[name] = "absent"
        if held or fails:
            found[name + "-key"] = (kdcs or held)[0][0] if held else fails[0]
    return found


def told(part):
    """What is told of the checksums of a shown ticket."""
    found = {name: part[name] for name in part if name.startswith("ticket-checksum")}
    return {**found, **(part.get("PAC-checksums") or {})}


def opener_octets(keys, part):
    """The octets of klist's key that a shown part names."""
    is_it = lambda key: "%s kvno %d" % (key["principal"], key["vno"]) == part["opened-by"] and key["keytype"] == part["etype"]["number"]
    return bytes.fromhex(next(key["keyvalue"] for key in keys if is_it(key)))


def named_keys(keys):
    """The keys of klist that open, with the names that they are told by."""
    return [("%s kvno %d" % (key["principal"], key["vno"]), bytes.fromhex(key["keyvalue"])) for key in keys if key["keytype"] in SUITES]


def judge_checksums(session, title, part, opener, own):
    """Opens a ticket here, too, and compares what is told of its PAC with checksums that are made here."""
    _, opened = ticket_parts(part["etype"]["number"], opener, bytes.fromhex(part["cipher"]))
    session.tally.each(title + ": checksums", told_of(opened, opener, own), told(part))


def with_ticket(realm, cache, name, old, new):
    """A cache with one ticket replaced."""
    octets = octets_in(cache)
    old, new = struct.pack(">I", len(old)) + old, struct.pack(">I", len(new)) + new
    if octets.count(old) != 1:
        raise Failed("%s: the ticket is there %d times" % (cache, octets.count(old)))
    with open(realm.path(name), "wb") as file:
        file.write(octets.replace(old, new))
    return realm.path(name)


def ticket_octets(cache, server):
    """The octets of a cache's ticket of a service, whose cipher is its last field; their length stands before them."""
    (credential,) = [n for n in tickets_of(shown("ccache", cache)) if principal_name(n["server"]) == server]
    octets, sealed = octets_in(cache), bytes.fromhex(credential["ticket"]["enc-part"]["cipher"])
    end = octets.index(sealed) + len(sealed)
    for start in range(end - len(sealed), 3, -1):
        if octets[start] == 0x61 and start + int.from_bytes(octets[start - 4 : start], "big") == end:
            return octets[start:end]
    raise Failed("%s: no ticket of %s" % (cache, server))


def part_told(cache, keytabs, server, *words):
    options = [word for keytab in keytabs for word in ("--keytab", keytab)] + list(words)
    (credential,) = [n for n in tickets_of(shown("ccache", *options, cache)) if principal_name(n["server"]) == server]
    return credential["ticket"]["enc-part"]


def judge_flips(session, title, cache, keytabs, keys):
    """A ticket sealed again with one bit of its PAC, or of itself, another: in each buffer, and in each of its signatures."""
    realm, ticket, own = session.realm, ticket_octets(cache, WEB), named_keys(keys)
    part = part_told(cache, keytabs, WEB)
    etype, name, opener = part["etype"]["number"], part["opened-by"], opener_octets(keys, part)
    confounder, opened = ticket_parts(etype, opener, bytes.fromhex(part["cipher"]))
    entries = pac_entries(pac_in(opened))
    whole = {"server-checksum": "holds", "kdc-checksum": "holds"}
    whole["ticket-checksum"] = "holds" if TICKET in entries else "absent"
    whole["full-checksum"] = "holds" if FULL in entries else "absent"  # MIT Kerberos writes it since 1.21.
    none, cases = "differs", {}
    for kind, (place, size) in entries.items():
        expected = {SERVER: {"server-checksum": "differs", "kdc-checksum": none}, KDC: {"kdc-checksum": none}}.get(kind, {"server-checksum": "differs"})
        expected.update({"ticket-checksum": none} if kind == TICKET else {})
        expected.update({"full-checksum": none} if kind not in (SERVER, KDC) and whole["full-checksum"] == "holds" else {})
        for octet in (place + (4 if kind in (SERVER, KDC, TICKET, FULL) else 0), place + size - 1):
            cases["buffer %d, octet %d" % (kind, octet - place)] = (flipped_pac(opened, octet), expected)
    cases["nothing"] = (opened, {})
    other_flags = changed_at(opened, [0x63, 0x30, 0xA0, 0x03], lambda octets: flipped(octets, 2))
    cases["the ticket's flags"] = (other_flags, {"ticket-checksum": none} if TICKET in entries else {})
    for what, (changed, expected) in cases.items():
        cipher = sealed(etype, opener, TICKET_USAGE, confounder + changed)
        other = with_ticket(realm, cache, "flipped", ticket, changed_at(ticket, CIPHER_PATH, lambda _: cipher))
        found = part_told(other, keytabs, WEB)
        inside = "%s: another bit: %s" % (title, what)
        session.tally.same(inside, "opened-by", name, found.get("opened-by"))
        session.tally.each(inside + ": checksums", told_of(changed, opener, own), told(found))
        session.tally.each(inside, {**whole, **expected}, {key: value for key, value in told(found).items() if not key.endswith("-key")})


def flipped_pac(part, place):
    return changed_at(part, PAC_PATH, lambda pac: flipped(pac, place))
