"""Files of tickets, as MIT Kerberos has them: FILE credential caches of version 4 (MIT Kerberos, "Credential cache file format")."""

import os
import struct
import tempfile
from typing import Any, Dict, List, NamedTuple, Optional, Tuple, Union

from krb._context import EncryptionKey
from krb._items import Secret, element_place
from krb._library import Refused, Status
from krb._names import Name
from krb._page_items import nested, page_items

__all__ = ["Cache", "Entry"]

_VERSION = b"\5\4"
_OFFSET_TAG = 1  # of the header that has the offset of the KDC's clock
_CONFIGURATION = "X-CACHECONF:"  # the realm of entries that are settings of MIT's


class Entry(NamedTuple):
    """A ticket, its session key, and what the KDC said of both. Times are seconds since 1970 in UTC, 0 for none; `flags` has flag 0 in its highest bit of 32.

    `addresses` and `authorization_data` are numbers of a type and octets."""

    client: Name
    server: Name
    session_key: EncryptionKey
    auth_time: int
    start_time: int
    end_time: int
    renew_till: int
    flags: int
    ticket: bytes
    is_session_key: bool = False
    addresses: Tuple[Tuple[int, bytes], ...] = ()
    authorization_data: Tuple[Tuple[int, bytes], ...] = ()
    second_ticket: bytes = b""

    @property
    def is_setting(self) -> bool:
        """Whether it holds a setting of MIT's in the place of a ticket."""
        return self.server.realm == _CONFIGURATION


class Cache(NamedTuple):
    """What a file has: its client, the offset of the KDC's clock in seconds, None where it tells none, and the entries in their order."""

    client: Name
    offset: Optional[int]
    entries: Tuple[Entry, ...]


# Writing, of which the library has no call.


def _data(octets: bytes) -> bytes:
    return struct.pack(">I", len(octets)) + octets


def _named(name: Name) -> bytes:
    texts = [each.encode("ascii") for each in (name.realm, *name.components)]
    return struct.pack(">II", name.name_type, len(name.components)) + b"".join(map(_data, texts))


def _listed(listed: Tuple[Tuple[int, bytes], ...]) -> bytes:
    return struct.pack(">I", len(listed)) + b"".join(struct.pack(">H", kind) + _data(octets) for kind, octets in listed)


def _entry(entry: Entry) -> bytes:
    times = entry.auth_time, entry.start_time, entry.end_time, entry.renew_till
    if any(not 0 <= each < 2**32 for each in times):
        raise ValueError("a time that a credential cache does not hold")
    made = _named(entry.client) + _named(entry.server)
    made += struct.pack(">H", entry.session_key.etype) + _data(entry.session_key.octets)
    made += struct.pack(">4I?I", *times, entry.is_session_key, entry.flags)
    return made + _listed(entry.addresses) + _listed(entry.authorization_data) + _data(entry.ticket) + _data(entry.second_ticket)


def written(cache: Cache) -> bytes:
    """The octets of a cache's file. ValueError: a time before 1970 or past 2106, which it does not hold."""
    header = b"" if cache.offset is None else struct.pack(">HHii", _OFFSET_TAG, 8, cache.offset, 0)
    return _VERSION + struct.pack(">H", len(header)) + header + _named(cache.client) + b"".join(map(_entry, cache.entries))


def write(path: Union[str, "os.PathLike[str]"], cache: Cache) -> None:
    """Puts a cache into the place of the file, which is readable by its owner alone; a process that reads it meanwhile has the old one or the new one."""
    octets = written(cache)
    handle, made = tempfile.mkstemp(prefix=os.path.basename(path) + ".", dir=os.path.dirname(path) or ".")  # of the mode 0600
    try:
        with os.fdopen(handle, "wb") as file:
            file.write(octets)
            file.flush()
            os.fsync(file.fileno())
        os.replace(made, path)
    except BaseException:
        os.unlink(made)
        raise


# Reading.


class _Reader:
    """What stands at the places that the library tells. A struct has its own under no name."""

    def __init__(self, octets: bytes) -> None:
        self.octets = octets

    def number(self, place: slice) -> int:
        return int.from_bytes(self.octets[place], "big")

    def name(self, told: Dict[str, Any]) -> Name:
        try:
            realm, *components = (self.octets[place].decode("ascii") for place in (told["realm"], *told["components"]))
        except UnicodeDecodeError:
            raise ValueError("a name that is not ASCII in a credential cache") from None
        return Name(realm, tuple(components), self.number(told["name-type"]))

    def listed(self, told: List[Dict[str, Any]], kind: str, held: str) -> Tuple[Tuple[int, bytes], ...]:
        return tuple((self.number(each[kind]), self.octets[each[held]]) for each in told)

    def ticket(self, told: Any) -> bytes:
        """The octets in the place of a ticket; of a Ticket the place of what its SEQUENCE holds is told."""
        return self.octets[element_place(element_place(told[""])) if isinstance(told, dict) else told]

    def entry(self, told: Dict[str, Any]) -> Entry:
        key = EncryptionKey(self.number(told["key"]["keytype"]), Secret(self.octets[told["key"]["keyvalue"]]))
        numbers = [self.number(told[name]) for name in ("authtime", "starttime", "endtime", "renew-till", "ticket-flags")]
        return Entry(
            self.name(told["client"]),
            self.name(told["server"]),
            key,
            *numbers,
            self.ticket(told["ticket"]),
            self.number(told["is-skey"]) != 0,
            self.listed(told["addresses"], "addr-type", "address"),
            self.listed(told["authdata"], "ad-type", "ad-data"),
            self.ticket(told["second-ticket"]),
        )


def read_octets(octets: bytes) -> Cache:
    """The cache that a file's octets are, as the library reads them. ValueError: they are none of version 4."""
    if octets[:2] != _VERSION:
        raise ValueError("no credential cache of version 4")
    try:
        told = nested(page_items(octets, "ccache"), lambda item: item.place, lambda item: {"": item.place})
    except Refused as refused:
        if refused.status == Status.MEMORY:
            raise
        raise ValueError("a credential cache that ends too early") from None
    reader, offset = _Reader(octets), None
    for tag, content in reader.listed(told["header"], "tag", "octets"):
        if tag == _OFFSET_TAG and len(content) == 8:
            offset = int.from_bytes(content[:4], "big", signed=True) or None
    return Cache(reader.name(told["principal"]), offset, tuple(map(reader.entry, told["credentials"])))


def read(path: Union[str, "os.PathLike[str]"]) -> Cache:
    """The cache of a file. OSError; ValueError: it is none."""
    with open(path, "rb") as file:
        octets = file.read()
    return read_octets(octets)
