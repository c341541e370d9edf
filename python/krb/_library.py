"""The shared object's calls, and what they answer."""

import ctypes
import enum
import os
import pathlib
from typing import Any, Callable, List, NamedTuple, Sequence, Union, cast

Octets = Union[bytes, bytearray, memoryview]


class Status(enum.IntEnum):
    """The statuses of krb.h. `DONE` is of no refusal."""

    DONE = 0
    ROOM = 1
    MEMORY = 2
    NUMBER = 3
    CONFOUNDER_SIZE = 4
    KEY_SIZE = 5
    SEALED_SIZE = 6
    INTEGRITY = 7
    PADDING = 8
    INVALID = 9
    TRUNCATED = 10
    UNSUPPORTED = 11
    NEVER = 12
    SEED_SIZE = 13
    EMPTY = 14
    DIRECTION = 15
    TOKEN = 16
    SUBKEY = 17
    SEALED_MIC = 18
    SEALED_HEADER = 19
    ABSENT = 20
    TOO_LARGE = 21
    TOO_DEEP = 22
    KEYTAB = 23
    OTHER_VERSION = 25
    PAC_TYPE = 26
    PAC_RANGE = 27
    FRAME_SIZE = 28
    PROXY_TOO_LARGE = 30
    PROXY_NO_LENGTH = 31
    PROXY_OTHER_LENGTH = 32
    PROXY_NO_DOMAIN = 33
    PROXY_OTHER_KIND = 34
    PROXY_FRAME_LENGTH = 35
    PROXY_INVALID = 36
    PROXY_TRUNCATED = 37
    PROXY_UNSUPPORTED = 38
    PROXY_PVNO = 39
    PROXY_MSG_TYPE = 40
    NOT_ACCEPTED = 41
    NOT_GRANTED = 42
    UNLESS_REPEATED = 43


TEXTS = {
    Status.ROOM: "too little room for the answer",
    Status.MEMORY: "out of memory",
    Status.NUMBER: "an unknown number, type or path",
    Status.CONFOUNDER_SIZE: "a confounder of another size",
    Status.KEY_SIZE: "a key of another size",
    Status.SEALED_SIZE: "too few sealed octets",
    Status.INTEGRITY: "a wrong checksum",
    Status.PADDING: "no whole blocks",
    Status.INVALID: "no encoding of the type",
    Status.TRUNCATED: "octets that end too early",
    Status.UNSUPPORTED: "a length that is not supported",
    Status.NEVER: "an error that no call meets",
    Status.SEED_SIZE: "a seed of another size",
    Status.EMPTY: "no octets to fold",
    Status.DIRECTION: "a token of the other side",
    Status.TOKEN: "no header of such a token",
    Status.SUBKEY: "a token under another key",
    Status.SEALED_MIC: "a MIC token that is marked as sealed",
    Status.SEALED_HEADER: "another header sealed in",
    Status.ABSENT: "no such field or element",
    Status.TOO_LARGE: "a number of more than 64 bits",
    Status.TOO_DEEP: "elements too deep in one another",
    Status.KEYTAB: "no keytab",
    Status.OTHER_VERSION: "another version of the format",
    Status.PAC_TYPE: "a buffer of an unknown type",
    Status.PAC_RANGE: "a buffer of octets that are not there",
    Status.FRAME_SIZE: "a frame of too many octets",
    Status.PROXY_TOO_LARGE: "more octets than a proxy takes",
    Status.PROXY_NO_LENGTH: "no length in front of the message",
    Status.PROXY_OTHER_LENGTH: "another length in front of the message",
    Status.PROXY_NO_DOMAIN: "no target-domain",
    Status.PROXY_OTHER_KIND: "a message that does not go this way",
    Status.PROXY_FRAME_LENGTH: "a frame that ends in its first message",
    Status.PROXY_INVALID: "a message that is no encoding of its type",
    Status.PROXY_TRUNCATED: "a message that ends too early",
    Status.PROXY_UNSUPPORTED: "a message with a length that is not supported",
    Status.PROXY_PVNO: "another pvno than 5",
    Status.PROXY_MSG_TYPE: "the msg-type of another message",
    Status.NOT_ACCEPTED: "a token that a rule refuses",
    Status.NOT_GRANTED: "a reply or a request that a rule refuses",
    Status.UNLESS_REPEATED: "a client that is let in unless the replay cache has it",
}


class Refused(ValueError):
    """A call refused; `status` says why."""

    status: Status

    def __init__(self, status: int) -> None:
        self.status = Status(status)
        super().__init__("%s: %s" % (self.status.name, TEXTS[self.status]))

    def __reduce__(self) -> Any:
        return Refused, (int(self.status),)


class Key(ctypes.Structure):
    """krb_key of krb.h."""

    _fields_ = [("etype", ctypes.c_int32), ("ke", ctypes.c_uint8 * 32), ("ki", ctypes.c_uint8 * 32)]


class ChecksumKey(ctypes.Structure):
    """krb_checksum_key of krb.h."""

    _fields_ = [("cksumtype", ctypes.c_int32), ("kc", ctypes.c_uint8 * 32)]


NUMBER, SIZE, IN, KEY, CHECKSUM_KEY, BOOL, U16, U32, WORD = "number", "size", "in", "key", "checksum key", "bool", "u16", "u32", "word"
TELLS_WORD, TELLS_BOOL = "tells a word", "tells a bool"
SIZE_OUT, U32_OUT = ctypes.c_size_t, ctypes.c_uint32


class _Kind(NamedTuple):
    """A kind of argument: its types in C, what is passed for them, and what is done before where this holds, in Python with {0} for the argument."""

    types: List[Any]
    passed: str = "{0}"
    where: str = ""
    first: str = ""


_KINDS = {
    NUMBER: _Kind([ctypes.c_int32], where="not -0x80000000 <= {0} < 0x80000000", first="_number({0})"),
    SIZE: _Kind([ctypes.c_size_t]),
    IN: _Kind([ctypes.c_char_p, ctypes.c_size_t], "{0}, len({0})", "type({0}) is not bytes", "{0} = plain({0})"),
    KEY: _Kind([ctypes.POINTER(Key)]),
    CHECKSUM_KEY: _Kind([ctypes.POINTER(ChecksumKey)]),
    BOOL: _Kind([ctypes.c_bool]),
    U16: _Kind([ctypes.c_uint16], where="not 0 <= {0} < 0x10000", first="_unsigned({0}, 16)"),
    U32: _Kind([ctypes.c_uint32], where="not 0 <= {0} < 0x100000000", first="_unsigned({0}, 32)"),
    WORD: _Kind([ctypes.c_uint64], where="not 0 <= {0} < 0x10000000000000000", first="_unsigned({0}, 64)"),
    TELLS_WORD: _Kind([ctypes.POINTER(ctypes.c_uint64)]),
    TELLS_BOOL: _Kind([ctypes.POINTER(ctypes.c_bool)]),
}
_OUT = [ctypes.c_void_p, ctypes.c_size_t, ctypes.POINTER(ctypes.c_size_t)]


def _load() -> ctypes.CDLL:
    """The shared object that KRBC_LIBRARY names, or that stands beside this file, as in a wheel, or that the loader finds, as a Debian package's."""
    beside = pathlib.Path(__file__).with_name("libkrbc.so.2")
    return ctypes.CDLL(os.environ.get("KRBC_LIBRARY") or (str(beside) if beside.exists() else beside.name))


_library = _load()


def plain(octets: Octets) -> bytes:
    """The octets as bytes, which are copied where they are another object."""
    return octets if isinstance(octets, bytes) else bytes(memoryview(octets).cast("B"))


def _number(value: int) -> int:
    """A number of 32 bits. ctypes would cut one that has more."""
    if not -(2**31) <= value < 2**31:
        raise Refused(Status.NUMBER)
    return value


def _unsigned(value: int, bits: int) -> int:
    """A number of so many bits. ctypes would cut one that has more."""
    if not 0 <= value < 2**bits:
        raise ValueError("a number that has not %d bits" % bits)
    return value


# Room for answers: a type of ctypes for each number of bits, since a type of its own for each size would take longer to make than most calls.
_ROOMS = [ctypes.c_char * 2**bits for bits in range(17)]

# What is done with a call of the library, in Python. {0} is what is passed for its arguments.
_ANSWER = """
    return call({0})
"""
_DONE = """
    status = call({0})
    if status:
        raise Refused(status)
"""
_TOLD = """
    told = [cell() for cell in cells]
    status = call({0}, *told)
    if status:
        raise Refused(status)
    return [each.value for each in told]
"""
_OCTETS = """
    size = c_size_t()
    while True:
        out = rooms[room.bit_length()]() if room < 0x10000 else (c_char * room)()
        status = call({0}, out, room, size)
        if not status:
            return out[: size.value]
        if status != ROOM or size.value <= room:
            raise Refused(status)
        room = size.value
"""


class Call:
    """A call of the library, by the kinds of its arguments before what it answers: a status, octets with room for them, or numbers of C.

    A function is written for it once, as collections.namedtuple writes some, since to go through the kinds in each call took longer than the call. Octets
    that are bytes are not copied."""

    def __init__(self, name: str, *kinds: str, answers: Any = ctypes.c_uint32, has_room: bool = False, cells: Sequence[Any] = ()) -> None:
        self._name, self._kinds, self._cells = name, [_KINDS[kind] for kind in kinds], cells
        try:
            self._call = getattr(_library, name)
        except AttributeError:
            raise ImportError("%s has no %s: it is the library of an older version than this package" % (_library._name, name)) from None
        answered = _OUT if has_room else [ctypes.POINTER(cell) for cell in cells]
        self._call.argtypes = [each for kind in self._kinds for each in kind.types] + answered
        self._call.restype = answers
        if has_room:
            self.octets: Callable[..., bytes] = self._written(_OCTETS, "room")
            """The octets that the call answers, which have at most so many as the first argument says; where they had more, it is made again with as many."""
        elif cells:
            self.told: Callable[..., List[int]] = self._written(_TOLD)
            """The numbers that the call answers."""
        else:
            self._answer = self._written(_ANSWER)
            self.done: Callable[..., None] = self._written(_DONE)
            """Returns where the call answers that all is done, and raises `Refused` else."""

    def _written(self, body: str, *before: str) -> Callable[..., Any]:
        """A function of the call's arguments, and of others before them."""
        names = ["a%d" % number for number in range(len(self._kinds))]
        head = "def %s(%s):" % (self._name, ", ".join([*before, *names]))
        checks = ["    if %s:\n        %s" % (kind.where.format(name), kind.first.format(name)) for kind, name in zip(self._kinds, names) if kind.where]
        passed = ", ".join(kind.passed.format(name) for kind, name in zip(self._kinds, names))
        known = {"__name__": __name__, "call": self._call, "cells": self._cells, "rooms": _ROOMS, "c_char": ctypes.c_char, "c_size_t": ctypes.c_size_t, "ROOM": int(Status.ROOM)}
        known.update({"Refused": Refused, "plain": plain, "_number": _number, "_unsigned": _unsigned})
        exec(compile("\n".join([head, *checks]) + body.format(passed), "<%s of krb.h>" % self._name, "exec"), known)
        return cast(Callable[..., Any], known[self._name])

    def size(self, *arguments: int) -> int:
        """The size that the call answers. A number of more than 32 bits is that of no type."""
        try:
            return int(self._answer(*arguments))
        except Refused:
            return 0

    def status(self, *arguments: Any) -> Status:
        """The status of a call that answers no octets."""
        try:
            return Status(self._answer(*arguments))
        except Refused as refused:
            return refused.status


fold = _library.krb_n_fold
fold.argtypes = [ctypes.c_char_p, ctypes.c_size_t, ctypes.c_void_p, ctypes.c_size_t]
fold.restype = ctypes.c_uint32
