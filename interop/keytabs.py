"""Keytabs (MIT Kerberos, "Keytab file format", version 2), written and read without the library."""


def counted(octets):
    return len(octets).to_bytes(2, "big") + octets


def entry(realm, components, kvno, etype, key):
    """An entry of the time 0, of octets."""
    names = b"".join(map(counted, (realm, *components)))
    octets = len(components).to_bytes(2, "big") + names + bytes([0, 0, 0, 1]) + bytes(4) + bytes([kvno]) + etype.to_bytes(2, "big") + counted(key)
    return len(octets).to_bytes(4, "big") + octets


def keytab_of(*entries):
    """A keytab of entries, each with what `entry` is given."""
    return b"\5\2" + b"".join(entry(*each) for each in entries)


def keytab_of_texts(keys):
    """One of keys SUITE:OCTETS:NAME: NAME is `COMPONENT[/COMPONENT]@REALM kvno N`, or one component of no realm."""
    entries = []
    for key in keys:
        suite, digits, name = key.split(":", 2)
        name, _, version = name.partition(" kvno ")
        name, _, realm = name.partition("@")
        components = name.split("/") if realm else [name]
        entries.append((realm.encode(), [each.encode() for each in components], int(version or 1), int(suite), bytes.fromhex(digits)))
    return keytab_of(*entries)


def keys_of(keytab):
    """(realm, components, kvno, etype) to key."""
    keys, at = {}, 2
    while at < len(keytab):
        size = int.from_bytes(keytab[at : at + 4], "big", signed=True)
        octets, at = keytab[at + 4 : at + 4 + abs(size)], at + 4 + abs(size)
        if size <= 0:
            continue
        place, texts = 2, []
        for _ in range(int.from_bytes(octets[:2], "big") + 1):
            end = place + 2 + int.from_bytes(octets[place : place + 2], "big")
            texts.append(octets[place + 2 : end])
            place = end
        kvno, etype = octets[place + 8], int.from_bytes(octets[place + 9 : place + 11], "big")
        end = place + 13 + int.from_bytes(octets[place + 11 : place + 13], "big")
        if size - end >= 4:
            kvno = int.from_bytes(octets[end : end + 4], "big") or kvno
        keys[texts[0], tuple(texts[1:]), kvno, etype] = octets[place + 13 : end]
    return keys
