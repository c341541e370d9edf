"""Octets as trees, with what keys open in them (RFC 3961, 5.3; RFC 4120)."""

import ctypes
import enum
import struct
from typing import Any, Dict, Iterable, Iterator, List, NamedTuple, Optional, Tuple

from krb import _items
from krb._items import Form, Item, Leaf, Node, Registry, _all_names, _flags, _FRONT, _item, _named, _OCTETS, _Record, _RECORD, _VALUES
from krb._keytab import VERSION, entry_of
from krb._library import Octets, Refused, Status, _library, plain
from krb._page_items import FORMATS, opener, tree

__all__ = ["Hidden", "Outcome", "Part", "decode", "find", "find_number", "parts"]


class Outcome(enum.IntEnum):
    """What keys make of an encrypted part (krb.h)."""

    NOT_TRIED = 0
    IN_CLEAR = 1
    TYPE_NOT_SUPPORTED = 2
    NO_KEY_OF_TYPE = 3
    NO_KEY_FITS = 4
    DECRYPTED = 5
    NO_ENCODING = 6


class Part(NamedTuple):
    """An encrypted part.

    - `item`: its ciphertext among the items of the octets.
    - `outcome`: what the keys make of it. `usage`: the key usage, None where no key decrypts it.
    - `type_name`, `octets`: what is encrypted, as "EncTicketPart"; None and no octets where nothing is told of it. `krb.find` finds in these.
    - `opened_by`: what the key is called that decrypts it: of a keytab's its principal and version, of `keys[n]` so, and of one that a part before holds the names of
      its type and its field, as "EncTicketPart key"; None where no key does.
    - `keys_left_out`: how many keys in it are not tried on what follows."""

    item: Item
    outcome: Outcome
    usage: Optional[int]
    type_name: Optional[str]
    octets: bytes
    opened_by: Optional[str]
    keys_left_out: int

    def __repr__(self) -> str:
        return "Part(%s, usage=%r, type_name=%r, %d octets, opened_by=%r)" % (self.outcome, self.usage, self.type_name, len(self.octets), self.opened_by)


class Hidden(str):
    """The word that stands in the place of the octets of a key, of a password, or of a part in the clear."""

    def __new__(cls) -> "Hidden":
        return super().__new__(cls, "hidden")

    def __reduce__(self) -> Any:
        return Hidden, ()


_HIDDEN = Hidden()

# Why a part is not opened, in the words of `jolmurig show`.
_REASONS = {
    Outcome.TYPE_NOT_SUPPORTED: "the encryption type is not supported",
    Outcome.NO_KEY_OF_TYPE: "no key of this encryption type",
    Outcome.NO_KEY_FITS: "no key of this encryption type opens it",
    Outcome.NO_ENCODING: "a key opens it, and the octets are no encoding of what is encrypted for the key usage",
}


class _PartRecord(NamedTuple):
    """krb_part of krb.h."""

    item: int
    first: int
    count: int
    offset: int
    size: int
    opener_offset: int
    opener_size: int
    keys_left_out: int
    outcome: int
    usage: int


class _Counts(ctypes.Structure):
    """krb_decoded of krb.h."""

    _fields_ = [(name, ctypes.c_size_t) for name in ("items", "parts", "octets", "offset")]


_PART = struct.Struct("@8N2I")
_decode = _library.krb_decode
_decode.argtypes = _OCTETS * 3 + [ctypes.c_void_p, ctypes.c_size_t] * 3 + [ctypes.POINTER(_Counts)]
_decode.restype = ctypes.c_uint32
_ETYPES = range(16, 21)


def _keytab_of(keytab: Optional[Octets], keys: Iterable[Tuple[int, Octets]]) -> bytes:
    """A keytab of version 2 (MIT Kerberos, "Keytab file format") with the entries of this one, and an entry for each key. The principal of the latter is `keys[n]`
    of an empty realm."""
    made = b"" if keytab is None else plain(keytab)
    for number, (etype, key) in enumerate(keys):
        if etype not in _ETYPES:
            raise Refused(Status.NUMBER)
        octets, name = plain(key), b"keys[%d]" % number
        if len(octets) > 0xFFFF:
            raise Refused(Status.KEY_SIZE)
        made = (made or VERSION) + entry_of(b"", name, etype, octets)
    return made


class _Decoded(NamedTuple):
    """What krb_decode hands out: the octets of the records of items, the parts, and octets."""

    records: memoryview
    parts: List[_PartRecord]
    octets: bytes

    def octets_of(self, part: _PartRecord) -> bytes:
        return self.octets[part.offset : part.offset + part.size]

    def records_of(self, part: _PartRecord) -> memoryview:
        return self.records[part.first * _RECORD.size : (part.first + part.count) * _RECORD.size]

    def opener_of(self, part: _PartRecord) -> Optional[str]:
        """What the key is called that decrypts it."""
        if part.outcome not in (Outcome.DECRYPTED, Outcome.NO_ENCODING):
            return None
        return opener(self.octets[part.opener_offset : part.opener_offset + part.opener_size].decode("utf-8", "backslashreplace"))


def _decoded(octets: bytes, as_type: Optional[str], keytab: bytes) -> _Decoded:
    """One call, and a second one where its room was too little."""
    name, counts, size = _named(octets, as_type), _Counts(), len(octets)
    items, most, room = size // 2 + 16, 4, 0  # two octets begin an element, and one with elements has two items
    if keytab:
        items, most, room = 2 * items + 64, size // 8 + 1, size + 1024
    while True:
        parts_at = items * _RECORD.size
        out_at = parts_at + most * _PART.size
        cells = bytearray(out_at + room)
        first = ctypes.c_char.from_buffer(cells)
        places = ctypes.byref(first), items, ctypes.byref(first, parts_at), most, ctypes.byref(first, out_at), room
        status = _decode(name, len(name), octets, size, keytab, len(keytab), *places, ctypes.byref(counts))
        if status != Status.ROOM or (counts.items <= items and counts.parts <= most and counts.octets <= room):
            break
        items, most, room = max(items, counts.items), max(most, counts.parts), max(room, counts.octets)
    if status != Status.DONE:
        raise Refused(status)
    view = memoryview(cells)
    told = [_PartRecord(*record) for record in _PART.iter_unpack(view[parts_at : parts_at + counts.parts * _PART.size])] if counts.parts else []
    return _Decoded(view[: counts.items * _RECORD.size], told, bytes(view[out_at : out_at + counts.octets]))


def parts(octets: Octets, as_type: Optional[str] = None, keytab: Optional[Octets] = None, keys: Iterable[Tuple[int, Octets]] = ()) -> List[Part]:
    """What the keys of a keytab, and behind these `keys`, each an encryption type and octets (or a `krb.EncryptionKey`), make of the encrypted parts of octets of a type: one for
    each ciphertext, in their order. Keys that stand in a part that is opened are tried on what follows, a thousand at most. Octets of keys are handed out as
    they stand in the parts.

    Refused: NUMBER of an encryption type that is none of the library's; as `items`; KEYTAB where the keytab is none; MEMORY."""
    octets = plain(octets)
    decoded = _decoded(octets, as_type, _keytab_of(keytab, keys))
    names = _all_names()

    def told(part: _PartRecord) -> Part:
        item = _item(_Record(*_RECORD.unpack_from(decoded.records, part.item * _RECORD.size)))
        type_name = names[_RECORD.unpack_from(decoded.records, part.first * _RECORD.size)[4]] if part.count else None
        return Part(item, Outcome(part.outcome), part.usage or None, type_name, decoded.octets_of(part), decoded.opener_of(part), part.keys_left_out)

    return [told(part) for part in decoded.parts]


def _within(octets: bytes, as_type: str, path: str, keytab: Optional[Octets], keys: Iterable[Tuple[int, Octets]]) -> Tuple[bytes, str, str]:
    """The octets, the type and the path in these that a path leads to which may go on in an opened part."""
    given = list(keys)
    if keytab is None and not given:
        return octets, as_type, path
    opened = {(part.item.offset, part.type_name): part for part in parts(octets, as_type, keytab, given) if part.type_name is not None}
    steps = path.split(".")
    for number, step in enumerate(steps):
        if any(step == type_name for _, type_name in opened):
            try:
                cipher = _items.find_item(octets, as_type, ".".join(steps[:number] + ["cipher"]))
            except Refused as refused:
                if refused.status != Status.ABSENT:
                    raise
                continue
            part = opened.get((cipher.offset, step))
            if part is not None:
                return part.octets, step, ".".join(steps[number + 1 :])
    return octets, as_type, path


def find(octets: Octets, as_type: str, path: str, keytab: Optional[Octets] = None, keys: Iterable[Tuple[int, Octets]] = ()) -> bytes:
    """The content of what a path leads to (`krb.find_item`): of a text or an OCTET STRING its octets. With a keytab, or with keys, a path goes on into a part that
    they open, by the name of its type behind its EncryptedData, as "enc-part.EncTicketPart.cname.name-string[0]". Without either it is one call; with them one more for
    the parts, and two for the path.

    Refused: as `krb.find_item`, and as `parts`."""
    octets, as_type, path = _within(plain(octets), as_type, path, keytab, keys)
    return octets[_items.find_item(octets, as_type, path).place]


def find_number(octets: Octets, as_type: str, path: str, keytab: Optional[Octets] = None, keys: Iterable[Tuple[int, Octets]] = ()) -> int:
    """The number of the INTEGER that a path leads to, as `find` finds it. Refused: as `find`; then NUMBER where it is no INTEGER, TOO_LARGE past 64 bits."""
    return _items.find_number(*_within(plain(octets), as_type, path, keytab, keys))


_BY_NUMBER = {int(leaf): value for leaf, value in _VALUES.items()}
_LEAF, _END, _STRUCT, _WRAP, _FLAGS = int(Form.LEAF), int(Form.END), int(Node.STRUCT), int(Node.WRAP), int(Leaf.FLAGS)
_SECRET, _CIPHER, _ENCRYPTION_TYPE = int(Leaf.SECRET), int(Leaf.CIPHER), int(Registry.ENCRYPTION_TYPE)
_LAST_NUMBER = int(Leaf.MICROSECONDS)  # the leaves up to it are integers


def _tree(octets: bytes, records: memoryview, shows_keys: bool, spliced: Iterator[Dict[str, Any]]) -> Any:
    """The tree of items. Behind each ciphertext stands the next of what is spliced in, if there is one."""
    names = _all_names()
    around: Any = []
    whole = around
    outer: List[Any] = []  # the dicts and lists that are not at their end, but for the innermost
    etype = None
    for offset, size, form, kind, name, registry in _FRONT.iter_unpack(records):
        value: Any
        if form == _LEAF:
            content = octets[offset : offset + size]
            if kind <= _LAST_NUMBER:
                value = int.from_bytes(content, "big", signed=True)
                if registry == _ENCRYPTION_TYPE:
                    etype = value
            elif kind == _FLAGS:
                value = _flags(content, registry)
            else:
                value = _BY_NUMBER[kind](content)
                if kind == _SECRET or kind == _CIPHER:
                    if not shows_keys and (kind == _SECRET or etype == 0):
                        value = _HIDDEN
                    if kind == _CIPHER and type(around) is dict:
                        around[names[name]] = value
                        around.update(next(spliced, {}))
                        continue
        elif kind == _WRAP:
            continue
        elif form == _END:
            around = outer.pop()
            continue
        else:
            value = {} if kind == _STRUCT else []
        if type(around) is dict:
            around[names[name]] = value
        else:
            around.append(value)
        if form != _LEAF:
            outer.append(around)
            around = value
    return whole[0]


def _told(decoded: _Decoded, shows_keys: bool) -> Iterator[Dict[str, Any]]:
    """What stands behind each ciphertext, in order."""
    names = _all_names()
    for part in decoded.parts:
        told: Dict[str, Any] = {}
        if part.outcome == Outcome.DECRYPTED:
            told = {"opened-by": decoded.opener_of(part), "key-usage": part.usage}
        if part.outcome in _REASONS:
            told["not-opened"] = _REASONS[Outcome(part.outcome)]
        if part.count:
            records = decoded.records_of(part)
            told[names[_RECORD.unpack_from(records)[4]]] = _tree(decoded.octets_of(part), records, shows_keys, iter(()))
        if part.keys_left_out:
            told["keys-not-tried"] = part.keys_left_out
        yield told


def decode(octets: Octets, as_type: Optional[str] = None, keytab: Optional[Octets] = None, keys: Iterable[Tuple[int, Octets]] = (), show_keys: bool = False) -> Any:
    """The tree of octets that are one element of the type, and without a type of the one that `type_of` tells: a dict of a SEQUENCE, by the names of its
    fields; a list; an int, a bool, a str, a datetime of UTC, bytes; a frozenset of the names of the flags that are set, as "forwardable",
    or "14" of flag 14 where it has no name; an OBJECT IDENTIFIER with dots. What stands in an explicit tag, or in an OCTET STRING that holds an element, is itself.

    Behind the "cipher" of an EncryptedData stands in its dict what the keys of the keytab and `keys` open in it (`parts`), as `jolmurig show --json` has it: "opened-by", "key-usage"
    and the part under the name of its type, as "EncTicketPart"; or "not-opened" and why. A part in the clear stands there without keys, too.

    Where `show_keys` is false, `Hidden` (the word "hidden") stands in the place of the octets of keys, of passwords, and of a ciphertext in the clear; else a key is a `Secret`. The
    library is called once, and once more where a keytab's names are long.

    Octets of a format that is no DER are decoded too if `as_type` names it, as `krb.show` does: "token", "PAC", "NEGOEX", "password-frame", "keytab" or "ccache"; and without a
    type where they begin as one. Flags without
    names are an int there, and bits that fill no whole octet a text. Keys open what is encrypted in them, too, and of a PAC in a ticket its buffers are told.
    `krb.page_items` has their values with the place of each.

    Refused: as `parts`; of a format as `krb.show`."""
    octets = plain(octets)
    if as_type is not None and as_type.lower() in FORMATS:
        return tree(octets, as_type, _keytab_of(keytab, keys), show_keys, _HIDDEN)
    try:
        decoded = _decoded(octets, as_type, _keytab_of(keytab, keys))
    except Refused as refused:
        if as_type is not None or refused.status != Status.NUMBER:
            raise
        return tree(octets, None, _keytab_of(keytab, keys), show_keys, _HIDDEN)
    records = decoded.records
    if decoded.parts:
        records = records[: min((part.first for part in decoded.parts if part.count), default=len(records) // _RECORD.size) * _RECORD.size]
    return _tree(octets, records, show_keys, _told(decoded, show_keys))
