"""Keytabs of version 2 (MIT Kerberos, "Keytab file format") of keys that are given otherwise; the library, which reads them, writes none."""

import struct

VERSION = b"\5\2"


def _counted(octets: bytes) -> bytes:
    return struct.pack(">H", len(octets)) + octets


def entry_of(realm: bytes, component: bytes, etype: int, key: bytes) -> bytes:
    """The entry of a key, with version 1 and the time 0, of a principal of one component."""
    made = struct.pack(">H", 1) + _counted(realm) + _counted(component)
    made += struct.pack(">IIBH", 0, 0, 1, etype) + _counted(key)
    return struct.pack(">i", len(made)) + made


def entries_of(keytab: bytes) -> bytes:
    """The entries of a keytab, without holes. What they hold is the library's to say."""
    found, at = b"", len(VERSION)
    while len(keytab) - at >= 4:
        (size,) = struct.unpack_from(">i", keytab, at)
        if size == 0:
            break
        if size > 0:
            found += keytab[at : at + 4 + size]
        at += 4 + abs(size)
    return found
