"""Items of octets, by the types of the standards (RFC 4120 and others)."""

import ctypes
import datetime
import enum
import functools
import struct
from typing import Any, Callable, Dict, FrozenSet, Iterator, List, NamedTuple, Optional, Tuple, Union

from krb._library import Octets, Refused, Status, _library, plain

__all__ = ["Form", "Leaf", "Node", "Registry", "Role", "Item", "Secret", "items", "find", "find_item", "find_number", "first_error", "name_of", "type_of"]


class Form(enum.IntEnum):
    """What an item is: an element without elements, or where one with elements begins or ends."""

    LEAF = 1
    BEGIN = 2
    END = 3


class Leaf(enum.IntEnum):
    """Elements without elements (krb.h)."""

    INTEGER = 1
    UNSIGNED = 2
    NUMBER = 3
    MICROSECONDS = 4
    FLAGS = 5
    BITS = 6
    TEXT = 7
    COMPONENT = 8
    TIME = 9
    OCTETS = 10
    SECRET = 11
    CIPHER = 12
    TRUTH = 13
    IDENTIFIER = 14
    ANY = 15


class Node(enum.IntEnum):
    """Elements with elements. A WRAP is what holds one element alone: an explicit tag, or an OCTET STRING."""

    STRUCT = 1
    LIST = 2
    FILLED_LIST = 3
    WRAP = 4


class Registry(enum.IntEnum):
    """What numbers, or flags, are of (krb.h)."""

    ENCRYPTION_TYPE = 0
    CHECKSUM_TYPE = 1
    NAME_TYPE = 2
    MESSAGE_TYPE = 3
    ERROR_CODE = 4
    PA_DATA_TYPE = 5
    AUTHORIZATION_DATA_TYPE = 6
    ADDRESS_TYPE = 7
    TRANSITED_ENCODING_TYPE = 8
    LAST_REQUEST_TYPE = 9
    TICKET_FLAG = 10
    KDC_OPTION = 11
    AP_OPTION = 12
    KEY_USAGE = 13
    PAC_BUFFER_TYPE = 14
    GSS_FLAG = 15
    NEGOTIATION_STATE = 16
    CONTEXT_FLAG = 17
    TOKEN_FLAG = 18


class Role(enum.IntEnum):
    """What programs do with an element (krb.h). An EncryptedData has the role of what is encrypted in it."""

    NONE = 0
    AUTHORIZATION_DATA = 1
    CHECKSUM = 2
    PREFIXED_MESSAGE = 3
    MECHANISM_TOKEN = 4
    MECHANISM_LIST_MIC = 5
    KEY = 6
    ENC_TICKET_PART = 7
    ENC_AS_REP_PART = 8
    ENC_TGS_REP_PART = 9
    AUTHENTICATOR = 10
    REQUEST_AUTHORIZATION_DATA = 11
    ENC_AP_REP_PART = 12
    ENC_KRB_PRIV_PART = 13
    ENC_KRB_CRED_PART = 14
    PA_ENC_TS_ENC = 15
    SALT = 16
    CLIENT_REALM = 17
    CLIENT_NAME = 18
    SERVER_REALM = 19
    SERVER_NAME = 20


class Item(NamedTuple):
    """An element, or where one begins or ends: what it is, what its standard calls it, the place of its content, and what programs do with it."""

    form: Form
    kind: Union[Leaf, Node]
    name: str
    registry: Optional[Registry]
    depth: int
    tag: int
    offset: int
    size: int
    role: Role = Role.NONE

    @property
    def place(self) -> slice:
        """The place of its content in the octets."""
        return slice(self.offset, self.offset + self.size)


class Secret(bytes):
    """The octets of a key or a password, or what KRB-PRIV keeps private, which are not shown."""

    def __repr__(self) -> str:
        return "Secret(%d octets)" % len(self)

    __str__ = __repr__


# The first octets of the types that these tell (RFC 4120, 5.10).
_APPLICATIONS = {
    0x61: "Ticket", 0x62: "Authenticator", 0x63: "EncTicketPart", 0x6A: "AS-REQ", 0x6B: "AS-REP", 0x6C: "TGS-REQ", 0x6D: "TGS-REP", 0x6E: "AP-REQ",
    0x6F: "AP-REP", 0x75: "KRB-PRIV", 0x76: "KRB-CRED", 0x79: "EncASRepPart", 0x7A: "EncTGSRepPart", 0x7B: "EncAPRepPart", 0x7C: "EncKrbPrivPart",
    0x7D: "EncKrbCredPart", 0x7E: "KRB-ERROR",
}


def type_of(octets: Octets) -> Optional[str]:
    """The type that the first octet tells, of the messages of RFC 4120 and their parts (RFC 4120, 5.10), as "AS-REQ"; None where it tells none, as of a
    KDC-PROXY-MESSAGE. It is not said that they are one."""
    first = plain(octets)[:1]
    return _APPLICATIONS.get(first[0]) if first else None


def _named(octets: bytes, as_type: Optional[str]) -> bytes:
    """The name of the type, or of the one that the first octet tells."""
    name = type_of(octets) if as_type is None else as_type
    if name is None:
        raise Refused(Status.NUMBER)
    return _text(name)


class _Record(ctypes.Structure):
    """krb_item of krb.h."""

    _fields_ = [("offset", ctypes.c_size_t), ("size", ctypes.c_size_t)] + [
        (name, ctypes.c_int32 if name == "registry" else ctypes.c_uint32) for name in ("form", "kind", "name", "registry", "depth", "tag", "role", "reserved")
    ]


_OCTETS = [ctypes.c_char_p, ctypes.c_size_t]
_items, _find, _find_number, _item_name = _library.krb_items, _library.krb_find, _library.krb_find_number, _library.krb_item_name
_number_name = _library.krb_number_name
_SIZE = ctypes.POINTER(ctypes.c_size_t)
_items.argtypes = _OCTETS * 2 + [ctypes.c_void_p, ctypes.c_size_t, _SIZE, _SIZE]
_find.argtypes = _OCTETS * 3 + [ctypes.POINTER(_Record)]
_find_number.argtypes = _OCTETS * 3 + [ctypes.POINTER(ctypes.c_int64)]
_item_name.argtypes = [ctypes.c_uint32, ctypes.c_void_p, ctypes.c_size_t, _SIZE]
_number_name.argtypes = [ctypes.c_int32, ctypes.c_int64, ctypes.c_void_p, ctypes.c_size_t, _SIZE]
for _call in (_items, _find, _find_number, _item_name, _number_name):
    _call.restype = ctypes.c_uint32

_names: List[str] = []


def _all_names() -> List[str]:
    """The names of all numbers, which are asked for once."""
    if not _names:
        known: List[str] = []
        size, out = ctypes.c_size_t(), ctypes.create_string_buffer(256)
        while _item_name(len(known), out, 256, ctypes.byref(size)) == Status.DONE:
            known.append(out.raw[: size.value].decode("ascii"))
        _names.extend(known)
    return _names


def _name(number: int) -> str:
    """The name of a number."""
    names = _all_names()
    return names[number] if number < len(names) else ""


@functools.lru_cache(maxsize=4096)
def _named_number(registry: int, number: int) -> Optional[str]:
    out, size = ctypes.create_string_buffer(256), ctypes.c_size_t()
    status = _number_name(registry, number, out, 256, ctypes.byref(size))
    return out.raw[: size.value].decode("ascii") if status == Status.DONE else None


def name_of(registry: Registry, number: int) -> Optional[str]:
    """What the standards call a number of a registry, or the flag of this number counted from 0; None where they name no such number."""
    return _named_number(int(registry), number) if -(2**63) <= number < 2**63 else None


def _text(text: str) -> bytes:
    try:
        return text.encode("ascii")
    except UnicodeEncodeError:
        raise Refused(Status.NUMBER) from None


def _item(record: _Record) -> Item:
    form = Form(record.form)
    kind = Leaf(record.kind) if form == Form.LEAF else Node(record.kind)
    registry = None if record.registry < 0 else Registry(record.registry)
    return Item(form, kind, _name(record.name), registry, record.depth, record.tag, record.offset, record.size, Role(record.role))


def header_size(size: int) -> int:
    """How many octets an element has before a content of so many, with a tag of one octet (X.690, 8.1.3;
    krb_header_size of krb.h)."""
    return 2 if size < 128 else 2 + (size.bit_length() + 7) // 8


def element_place(place: slice) -> slice:
    """Where the element stands whose content this is."""
    return slice(place.start - header_size(place.stop - place.start), place.stop)


_RECORD = struct.Struct("@NNIIIiIIII")  # offset, size, form, kind, name, registry, depth, tag, role, reserved
_FRONT = struct.Struct("@NNIIIi16x")  # of these the first six
assert _RECORD.size == _FRONT.size == ctypes.sizeof(_Record)


def _with_room(room: int, call: Callable[[Any, int, Any], int]) -> Tuple[int, bytes]:
    """The status of a call that takes room for items and tells their number, and the octets of their records. It is made again where there are more."""
    count = ctypes.c_size_t()
    while True:
        records = bytearray(room * _RECORD.size)
        status = call(ctypes.byref(ctypes.c_char.from_buffer(records)), room, ctypes.byref(count))
        if status != Status.ROOM or count.value <= room:
            return status, bytes(memoryview(records)[: count.value * _RECORD.size]) if status == Status.DONE else b""
        room = count.value


def _walked(octets: bytes, as_type: Optional[str]) -> Tuple[int, bytes, int]:
    """The status, the octets of the records, and the offset of the first error."""
    name, offset = _named(octets, as_type), ctypes.c_size_t()
    room = len(octets) // 2 + 16  # two octets begin an element, and one with elements has two items
    walk = lambda first, room, count: _items(name, len(name), octets, len(octets), first, room, count, ctypes.byref(offset))
    status, records = _with_room(room, walk)
    return status, records, offset.value


def _records(octets: bytes, as_type: Optional[str], fields: struct.Struct) -> Iterator[Tuple[int, ...]]:
    """These fields of the records of all items."""
    status, records, _ = _walked(octets, as_type)
    if status != Status.DONE:
        raise Refused(status)
    return fields.iter_unpack(records)


def items(octets: Octets, as_type: Optional[str] = None) -> List[Item]:
    """All items of octets that are one element of the type, as "AS-REQ", "EncTicketPart" or "KDC-PROXY-MESSAGE", in their order; without a type, of the one that
    `type_of` tells.

    Refused: NUMBER where no type has the name, or none is told; INVALID, TRUNCATED, UNSUPPORTED, TOO_DEEP, whose place `first_error` has; MEMORY."""
    return [_item(_Record(*record)) for record in _records(plain(octets), as_type, _RECORD)]


def first_error(octets: Octets, as_type: Optional[str] = None) -> Optional[Tuple[Status, int]]:
    """Why octets are no element of the type, and how many octets stand before the first error; None where they are one. Refused: NUMBER, MEMORY."""
    status, _, offset = _walked(plain(octets), as_type)
    if status in (Status.NUMBER, Status.MEMORY):
        raise Refused(status)
    return None if status == Status.DONE else (Status(status), offset)


def find_item(octets: Octets, as_type: str, path: str) -> Item:
    """The item that a path leads to: names of fields as the standard spells them, "." between, and [n] for element n of a list, counted from 0, as
    "req-body.sname.name-string[1]". The empty path leads to the whole.

    Refused: as `items`; then NUMBER of what is no path, ABSENT where there is no such field or element."""
    octets, name, way, record = plain(octets), _text(as_type), _text(path), _Record()
    status = _find(name, len(name), way, len(way), octets, len(octets), ctypes.byref(record))
    if status != Status.DONE:
        raise Refused(status)
    return _item(record)


def find(octets: Octets, as_type: str, path: str) -> bytes:
    """The content of what a path leads to: of a text or an OCTET STRING its octets, which are a `Secret` where they are one. Refused: as `find_item`."""
    octets = plain(octets)
    item = find_item(octets, as_type, path)
    return Secret(octets[item.place]) if item.kind == Leaf.SECRET else octets[item.place]


def find_number(octets: Octets, as_type: str, path: str) -> int:
    """The number of the INTEGER that a path leads to. Refused: as `find_item`; then NUMBER where it is no INTEGER, TOO_LARGE past 64 bits."""
    octets, name, way, number = plain(octets), _text(as_type), _text(path), ctypes.c_int64()
    status = _find_number(name, len(name), way, len(way), octets, len(octets), ctypes.byref(number))
    if status != Status.DONE:
        raise Refused(status)
    return number.value


@functools.lru_cache(maxsize=4096)
def _flags(content: bytes, registry: int) -> FrozenSet[str]:
    """The names of the bits that are set; of one that has none its number, counted from 0 at the left."""
    numbers = [8 * place + bit for place, octet in enumerate(content[1:]) if octet for bit in range(8) if octet >> 7 - bit & 1]
    return frozenset((_named_number(registry, number) if registry >= 0 else None) or str(number) for number in numbers)


def _identifier(content: bytes) -> str:
    """An OBJECT IDENTIFIER with dots (X.690, 8.19)."""
    arcs, arc = [], 0
    for octet in content:
        arc = arc << 7 | octet & 127
        if octet < 128:
            arcs.append(arc)
            arc = 0
    root = min(arcs[0] // 40, 2)
    return ".".join(str(arc) for arc in [root, arcs[0] - 40 * root] + arcs[1:])


_VALUES: Dict[Leaf, Any] = {leaf: (lambda content: int.from_bytes(content, "big", signed=True)) for leaf in (Leaf.INTEGER, Leaf.UNSIGNED, Leaf.NUMBER, Leaf.MICROSECONDS)}
_VALUES.update({leaf: (lambda content: content.decode("ascii")) for leaf in (Leaf.TEXT, Leaf.COMPONENT)})
_VALUES.update({leaf: bytes for leaf in (Leaf.OCTETS, Leaf.CIPHER, Leaf.BITS, Leaf.ANY)})
_VALUES[Leaf.IDENTIFIER], _VALUES[Leaf.SECRET] = _identifier, Secret
_VALUES[Leaf.TRUTH] = lambda content: content != b"\0"


@functools.lru_cache(maxsize=4096)
def _time(content: bytes) -> Any:
    """A time of UTC; the text of one that datetime does not have, as of the year 0 or of second 60."""
    text = content.decode("ascii")
    try:
        return datetime.datetime(
            int(text[:4]), int(text[4:6]), int(text[6:8]), int(text[8:10]), int(text[10:12]), int(text[12:14]), 0, datetime.timezone.utc
        )
    except ValueError:
        return text


_VALUES[Leaf.TIME] = _time
