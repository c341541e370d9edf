"""The three calls of the library that are a negotiation (RFC 4178; krb.h)."""

import ctypes
import enum
from typing import Any, Iterable, List, NamedTuple, Optional, Tuple

from krb._library import Refused, Status, _library
from krb.spnego import _identifier, _sequence


class Stage(enum.IntEnum):
    """Where a side stands (krb.h)."""

    BEGINS = 0
    WAITS = 1
    OFFERED = 2
    COMPLETE = 3
    FAILED = 4
    BARE = 5


class Progress(enum.IntEnum):
    """What a mechanism made of a token (krb.h)."""

    CONTINUES = 0
    ENDS_WITH_TOKEN = 1
    ENDS = 2
    REFUSED = 3
    RESTS = 4


class Side(ctypes.Structure):
    """krb_negotiation of krb.h."""

    _fields_ = [
        (name, ctypes.c_uint32)
        for name in ("role", "asks", "stage", "rule", "mechanism", "established", "preferred", "required", "sent", "by_mic")
    ] + [("name", ctypes.c_size_t)]


class _Mechanism(ctypes.Structure):
    """krb_mechanism of krb.h."""

    _fields_ = [(name, ctypes.c_uint32) for name in ("number", "integrity", "is_bare")]


class _Question(ctypes.Structure):
    """krb_negotiation_question of krb.h."""

    _fields_ = [(name, ctypes.c_uint32) for name in ("rule", "mechanism", "steps", "has_token", "has_mic", "has_list")] + [
        (name, ctypes.c_size_t) for name in ("token_size", "mic_size", "list_size")
    ]


class _Reply(ctypes.Structure):
    """krb_negotiation_reply of krb.h."""

    _fields_ = [(name, ctypes.c_uint32) for name in ("lacks_mic", "sends")]


class Mechanisms(NamedTuple):
    """The mechanisms of a side, whose numbers are their places."""

    names: bytes
    records: Any


class Question(NamedTuple):
    """What octets ask of a mechanism: `rule` is 0 where they break none so far."""

    rule: int
    mechanism: int
    steps: bool
    token: Optional[bytes]
    mic: Optional[bytes]
    list: Optional[bytes]


class Told(NamedTuple):
    """What is told of a mechanism."""

    mechanism: int
    progress: Progress
    token: bytes
    verified: bytes
    mic: bytes


_U32, _SIZE, _IN, _OUT = [ctypes.c_uint32], [ctypes.POINTER(ctypes.c_size_t)], [ctypes.c_char_p, ctypes.c_size_t], [ctypes.c_void_p, ctypes.c_size_t]
_MECHANISMS = [*_IN, ctypes.POINTER(_Mechanism), ctypes.c_size_t]
_begin, _take, _answer = _library.krb_negotiation_begin, _library.krb_negotiation_take, _library.krb_negotiation_answer
_begin.argtypes = [ctypes.POINTER(Side), *_MECHANISMS, *_U32, *_U32, *_IN, *_SIZE, *_OUT, *_SIZE]
_take.argtypes = [ctypes.POINTER(Side), *_MECHANISMS, *_IN, *_IN, ctypes.POINTER(_Question), *_OUT, *_SIZE]
_answer.argtypes = [ctypes.POINTER(Side), *_MECHANISMS, *_IN, *_IN, *_U32, *_U32, *_IN, *_IN, *_IN, ctypes.POINTER(_Reply), *_OUT, *_SIZE]
_begin.restype = _take.restype = _answer.restype = ctypes.c_uint32


def mechanisms_of(names: Iterable[List[bytes]], flags: List[Tuple[bool, bool]]) -> Mechanisms:
    """The mechanisms of these names, each one's own first: whether each has integrity, and whether the octets that came are its own first token."""
    records = (_Mechanism * len(flags))(*[_Mechanism(number, integrity, is_bare) for number, (integrity, is_bare) in enumerate(flags)])
    return Mechanisms(_sequence(b"".join(_sequence(b"".join(map(_identifier, each))) for each in names)), records)


def _octets(call: Any, before: List[Any], room: int) -> bytes:
    """The octets that a call puts into the room that it is given, made again where it has too little. Refused."""
    size = ctypes.c_size_t()
    while True:
        out = ctypes.create_string_buffer(room)
        status = call(*before, out, room, size)
        if status == Status.DONE:
            return out.raw[: size.value]
        if status != Status.ROOM or size.value <= room:
            raise Refused(status)
        room = size.value


def _passed(octets: bytes) -> List[Any]:
    return [octets, len(octets)]


def _given(mechanisms: Mechanisms) -> List[Any]:
    return [*_passed(mechanisms.names), mechanisms.records, len(mechanisms.records)]


def begin(side: Side, mechanisms: Mechanisms, told: Told) -> Tuple[bytes, bytes]:
    """The offer and the encoding of its list; none of both where the mechanism refuses, and then the side has failed. Refused."""
    offer_size = ctypes.c_size_t()
    before = [ctypes.byref(side), *_given(mechanisms), told.mechanism, told.progress, *_passed(told.token), offer_size]
    octets = _octets(_begin, before, 2 * len(mechanisms.names) + len(told.token) + 128)
    return octets[: offer_size.value], octets[offer_size.value :]


def take(side: Side, mechanisms: Mechanisms, listed: bytes, octets: bytes) -> Question:
    """What the octets ask of a mechanism. Refused."""
    question = _Question()
    out = _octets(_take, [ctypes.byref(side), *_given(mechanisms), *_passed(listed), *_passed(octets), ctypes.byref(question)], len(octets) + 1)
    ends = question.token_size, question.token_size + question.mic_size
    parts = out[: ends[0]], out[ends[0] : ends[1]], out[ends[1] :]
    token, mic, found = (part if has else None for part, has in zip(parts, (question.has_token, question.has_mic, question.has_list)))
    return Question(question.rule, question.mechanism, bool(question.steps), token, mic, found)


def answer(side: Side, mechanisms: Mechanisms, listed: bytes, octets: bytes, told: Told) -> Tuple[bool, Optional[bytes]]:
    """Whether the mechanism's own MIC has to be told, and then no step is made; and the octets that are sent, if any. Refused."""
    reply = _Reply()
    before = [ctypes.byref(side), *_given(mechanisms), *_passed(listed), *_passed(octets), told.mechanism, told.progress]
    before += [*_passed(told.token), *_passed(told.verified), *_passed(told.mic), ctypes.byref(reply)]
    out = _octets(_answer, before, len(told.token) + len(told.mic) + 128)
    return bool(reply.lacks_mic), out if reply.sends else None
