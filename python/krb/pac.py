"""The privilege attribute certificate of a ticket (MS-PAC): its buffers, by type.

What a buffer holds is the caller's to read. Nothing here looks at a PAC's signatures.

The octets of a buffer are a read-only memoryview of the PAC's: `bytes(octets)` makes a copy, and a
view keeps the whole PAC in memory. Buffers may share octets: each of the n / 16 entries that n
octets hold may name all of them. As no call copies a buffer, this costs nothing: `buffers` and
`find` look at the directory once, and take 24 octets for each entry; each call takes n octets more
where the PAC is not bytes. Whoever copies all buffers of a hostile PAC keeps n^2 / 16 octets."""

import ctypes
import enum
from typing import Any, Iterator, List, NamedTuple, Optional, Sequence, Tuple, Union, overload

from krb._library import IN, SIZE, SIZE_OUT, U32_OUT, Call, Octets, Refused, Status, _library, plain

__all__ = ["BufferType", "Buffer", "Buffers", "buffers", "buffer", "find"]


class BufferType(enum.IntEnum):
    """What a buffer holds (MS-PAC 2.4, ulType)."""

    LOGON_INFO = 1
    CREDENTIALS = 2
    SERVER_CHECKSUM = 6
    KDC_CHECKSUM = 7
    CLIENT_INFO = 10
    DELEGATION_INFO = 11
    UPN_DNS_INFO = 12
    CLIENT_CLAIMS = 13
    DEVICE_INFO = 14
    DEVICE_CLAIMS = 15
    TICKET_CHECKSUM = 16
    ATTRIBUTES = 17
    REQUESTOR = 18
    FULL_CHECKSUM = 19


class Buffer(NamedTuple):
    """A buffer: its type, how many octets of the PAC are before it, and its octets, a read-only
    view of the PAC's."""

    type: BufferType
    offset: int
    octets: memoryview


class _Place(ctypes.Structure):
    """krb_pac_place of krb.h."""

    _fields_ = [
        ("offset", ctypes.c_size_t),
        ("size", ctypes.c_size_t),
        ("ul_type", ctypes.c_uint32),
    ]


# The buffers that there is room for at first; PACs in use have fewer.
_ROOM = 32

_buffer = Call("krb_pac_buffer", IN, SIZE, cells=[U32_OUT, SIZE_OUT, SIZE_OUT])
_buffers = _library.krb_pac_buffers
_buffers.argtypes = [ctypes.c_char_p, ctypes.c_size_t, ctypes.c_void_p, ctypes.c_size_t]
_buffers.argtypes += [ctypes.POINTER(ctypes.c_size_t)]
_buffers.restype = ctypes.c_uint32


def _places(octets: bytes) -> Tuple[Any, int]:
    """The types and the places of all buffers, and how many they are."""
    count, room = ctypes.c_size_t(), _ROOM
    while True:
        places = (_Place * room)()
        status = _buffers(octets, len(octets), places, room, ctypes.byref(count))
        if status == Status.DONE:
            return places, count.value
        if status != Status.ROOM or count.value <= room:
            raise Refused(status)
        room = count.value


def buffer(pac: Octets, n: int) -> Buffer:
    """Buffer n of the PAC, counted from 0 in the order of the entries.

    Refused: TRUNCATED, OTHER_VERSION, PAC_TYPE, PAC_RANGE; then ABSENT if there are not so many."""
    octets = plain(pac)
    kind, offset, size = _buffer.told(octets, n if 0 <= n < 2**64 else 2**64 - 1)
    return Buffer(BufferType(kind), offset, memoryview(octets)[offset : offset + size])


class Buffers(Sequence[Buffer]):
    """The buffers of a PAC, in the order of the entries. The directory is read once; an item is
    made when it is asked for, and copies nothing."""

    def __init__(self, pac: Octets) -> None:
        octets = plain(pac)
        self._octets = memoryview(octets)
        self._places, self._count = _places(octets)

    def _at(self, n: int) -> Buffer:
        place = self._places[n]
        octets = self._octets[place.offset : place.offset + place.size]
        return Buffer(BufferType(place.ul_type), place.offset, octets)

    def __len__(self) -> int:
        return self._count

    @overload
    def __getitem__(self, n: int) -> Buffer: ...

    @overload
    def __getitem__(self, n: slice) -> List[Buffer]: ...

    def __getitem__(self, n: Union[int, slice]) -> Union[Buffer, List[Buffer]]:
        numbers = range(self._count)[n]
        if isinstance(numbers, range):
            return [self._at(each) for each in numbers]
        return self._at(numbers)

    def __iter__(self) -> Iterator[Buffer]:
        return (self._at(n) for n in range(self._count))

    def __eq__(self, other: object) -> bool:
        """Whether the other has the same buffers in the same order; it may be a list of them."""
        if not isinstance(other, (Buffers, list)):
            return NotImplemented
        return len(self) == len(other) and all(one == each for one, each in zip(self, other))

    __hash__ = None  # type: ignore[assignment]


def buffers(pac: Octets) -> Buffers:
    """All buffers of the PAC. Refused: TRUNCATED, OTHER_VERSION, PAC_TYPE, PAC_RANGE."""
    return Buffers(pac)


def find(pac: Octets, kind: int) -> Optional[memoryview]:
    """The octets of the first buffer of this type, a read-only view of the PAC's, or None.
    Refused: as `buffers`."""
    return next((each.octets for each in Buffers(pac) if each.type == kind), None)
