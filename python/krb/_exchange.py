"""The calls of the library that decide what a client sends and what it takes (RFC 4120, 3.1 to 3.3; krb.h)."""

import ctypes
import enum
import secrets
from typing import Any, Callable, Iterable, List, NamedTuple, Optional, Tuple

from krb._context import EncryptionKey, Place
from krb._items import Registry, name_of
from krb._library import Refused, Status, _library, _unsigned
from krb._names import Name
from krb._rules import CLIENT_TEXTS, ClientRule
from krb._times import moment

__all__ = ["ClientRule", "NotGranted"]


class NotGranted(Refused):
    """There is no ticket, or a service does not confirm itself.

    - `rule`: the first rule that the reply breaks, or why no request is made.
    - `code`: of the rule KDC the error's code (RFC 4120, 7.5.9), which nobody vouches for; else 0. `error`: what it is called, as "KDC_ERR_C_PRINCIPAL_UNKNOWN"."""

    rule: ClientRule
    code: int

    def __init__(self, rule: int, code: int = 0, who: str = "the KDC") -> None:
        super().__init__(Status.NOT_GRANTED)
        self.rule, self.code, self._who = ClientRule(rule), code, who
        text = CLIENT_TEXTS[self.rule]
        if self.rule == ClientRule.KDC:
            text = "%s reports %s (%d)" % (who, self.error or "an error", code)
        self.args = ("%s: %s" % (self.rule.name, text),)

    @property
    def error(self) -> Optional[str]:
        """What the standards call the error of the rule KDC; None of another rule, and where they name no such code."""
        return name_of(Registry.ERROR_CODE, self.code) if self.rule == ClientRule.KDC else None

    def __reduce__(self) -> Any:
        return NotGranted, (int(self.rule), self.code, self._who)


class Follows(enum.IntEnum):
    """What follows on a message (krb.h)."""

    NOTHING = 0
    SENDS = 1
    WAITS = 2
    GRANTED = 3


class _Terms(ctypes.Structure):
    """krb_client_terms of krb.h."""

    _fields_ = [(name, ctypes.c_int64) for name in ("seconds", "start", "till", "rtime")] + [
        (name, ctypes.c_uint32) for name in ("microseconds", "nonce", "skew", "least", "most", "client_type", "server_type", "settings")
    ]


class _State(ctypes.Structure):
    """krb_exchange of krb.h."""

    _fields_ = [("offset", ctypes.c_int64)] + [(name, ctypes.c_uint32) for name in ("has_offset", "nonce")] + [
        ("etype", ctypes.c_int32),
        ("begun", ctypes.c_uint32),
        ("key", ctypes.c_uint8 * 32),
    ]


class _Followed(ctypes.Structure):
    """krb_followed of krb.h."""

    _fields_ = [(name, Place) for name in ("ticket", "part")] + [(name, ctypes.c_uint32) for name in ("follows", "rule", "code")]


class _ApTerms(ctypes.Structure):
    """krb_ap_terms of krb.h."""

    _fields_ = [("seconds", ctypes.c_int64)] + [
        (name, ctypes.c_uint32) for name in ("microseconds", "client_type", "sequence_number", "gss_flags", "settings")
    ] + [("session_etype", ctypes.c_int32)]


_FROM, _RTIME, _DATAGRAMS, _CANONICALIZE = 1, 2, 4, 8  # KRB_CLIENT_.. of krb.h
AP_SEQUENCE, AP_GSS, AP_MUTUAL = 1, 2, 4  # KRB_AP_.. of krb.h
_RANDOM = 16
_OCTETS: List[Any] = [ctypes.c_char_p, ctypes.c_size_t]
_SIZE = ctypes.POINTER(ctypes.c_size_t)
_OUT: List[Any] = [ctypes.c_void_p, ctypes.c_size_t, _SIZE]
_WANTED: List[Any] = [ctypes.POINTER(_Terms), ctypes.c_void_p, ctypes.c_size_t, ctypes.c_void_p, ctypes.c_size_t, ctypes.c_void_p, ctypes.c_size_t] + _OCTETS * 2
_ENDS: List[Any] = [ctypes.POINTER(_State), ctypes.POINTER(_Followed)] + _OUT
_initial, _ticket, _renamed = _library.krb_client_initial, _library.krb_client_ticket, _library.krb_client_renamed
_ap_request, _ap_reply = _library.krb_client_ap_request, _library.krb_client_ap_reply
_initial.argtypes = _WANTED + _OCTETS * 4 + _ENDS
_ticket.argtypes = _WANTED + _OCTETS + [ctypes.c_int32] + _OCTETS * 4 + _ENDS
_renamed.argtypes = _WANTED[:1] + _WANTED[3:] + _OCTETS * 2 + _ENDS
_RULE = ctypes.POINTER(ctypes.c_uint32)
_ap_request.argtypes = [ctypes.POINTER(_ApTerms)] + _OCTETS * 6 + [_RULE] + _OUT
_ap_reply.argtypes = [ctypes.c_int32] + _OCTETS + [ctypes.c_int64, ctypes.c_uint32] + _OCTETS + [_RULE] + _OUT
for _call in (_initial, _ticket, _renamed, _ap_request, _ap_reply):
    _call.restype = ctypes.c_uint32


class Wanted(NamedTuple):
    """What an exchange asks for: `options` and `flags` are numbers (RFC 4120, 5.4.1 and 5.3), times seconds since 1970 in UTC, None for what is not asked for.
    `canonicalize`: whether a first ticket's request asks that the reply have its checksum, by which it may rename (RFC 6806, 11)."""

    client: Name
    server: Name
    etypes: Tuple[int, ...]
    options: Tuple[int, ...] = ()
    flags: Tuple[int, ...] = ()
    start: Optional[int] = None
    till: int = 0
    rtime: Optional[int] = None
    canonicalize: bool = False


class Limits(NamedTuple):
    """By how many seconds clocks may differ, and how many iterations are taken for the key of a password."""

    skew: int = 300
    least: int = 4096
    most: int = 2**20


class Answer(NamedTuple):
    """What follows on a message: of SENDS the octets for the KDC, of GRANTED the encodings of the ticket and of its part."""

    follows: Follows
    octets: bytes
    ticket: bytes
    part: bytes


def _passed(octets: bytes) -> List[Any]:
    return [octets, len(octets)]


def _array(kind: Any, numbers: Iterable[int]) -> List[Any]:
    """An array and its count; of numbers that the kind has not, ctypes would cut."""
    listed = list(numbers)
    if any(not 0 <= each < 2**31 for each in listed):
        raise Refused(Status.NUMBER)
    return [(kind * len(listed))(*listed), len(listed)]


class Exchange:
    """An exchange with a KDC, by a password, by a keytab or by a ticket: `step` takes what came, and says what follows. All that is decided in it the library decides."""

    def __init__(
        self, wanted: Wanted, limits: Limits, clock: Callable[[], float], password: bytes = b"", keytab: bytes = b"", ticket: bytes = b"",
        session_key: Optional[EncryptionKey] = None, offset: Optional[int] = None,
    ) -> None:
        self.wanted, self._limits, self._clock = wanted, Limits(*(_unsigned(each, 32) for each in limits)), clock
        self._request = b""
        self._state = _State()
        if session_key is None:
            self._call, self._by = _initial, _passed(password) + _passed(keytab)
        else:
            subkey = secrets.token_bytes(len(session_key.octets))
            self._state.offset, self._state.has_offset = offset or 0, offset is not None
            self._call, self._by = _ticket, _passed(ticket) + [session_key.etype] + _passed(session_key.octets) + _passed(subkey)

    @property
    def offset(self) -> Optional[int]:
        """By how many seconds the KDC's time is ahead, as an error of its own, or one before, told; else None."""
        return int(self._state.offset) if self._state.has_offset else None

    @property
    def etype(self) -> Optional[int]:
        """The encryption type of the client's key in an exchange for a first ticket, once one is chosen."""
        return int(self._state.etype) or None

    def begin(self) -> Answer:
        """The first request. NotGranted, as OTHER_MESSAGE once it was made; Refused: INVALID, NUMBER, KEYTAB, MEMORY."""
        return self._stepped(b"", False)

    def step(self, message: bytes, is_datagram: bool = False) -> Answer:
        """What follows on a message of the KDC's. Raises as `begin`, and then the exchange is as it was; OTHER_MESSAGE of no octets, and where it
        has not begun."""
        if not message and not self._state.begun:
            raise NotGranted(ClientRule.OTHER_MESSAGE)
        return self._stepped(message, is_datagram)

    def renamed(self, message: bytes) -> Answer:
        """What a reply grants that names another client or server, under `wanted`, which has its names by now (RFC 6806, 6 and 11). Raises as `begin`."""
        wanted = self.wanted
        given = _array(ctypes.c_size_t, wanted.flags) + _array(ctypes.c_int32, wanted.etypes)
        given += _passed(wanted.client.octets) + _passed(wanted.server.octets) + _passed(self._request) + _passed(message)
        return self._answered(_renamed, self._terms(False), given, len(message))

    def _terms(self, is_datagram: bool) -> _Terms:
        wanted = self.wanted
        offset = self.offset or 0
        seconds, microseconds = moment(self._clock, offset)
        settings = (wanted.start is not None and _FROM) | (wanted.rtime is not None and _RTIME) | (is_datagram and _DATAGRAMS)
        settings |= wanted.canonicalize and _CANONICALIZE
        types = wanted.client.name_type, wanted.server.name_type
        nonce = secrets.randbelow(2**31)
        return _Terms(seconds - offset, wanted.start or 0, wanted.till, wanted.rtime or 0, microseconds, nonce, *self._limits, *types, settings)

    def _stepped(self, message: bytes, is_datagram: bool) -> Answer:
        wanted = self.wanted
        given = _array(ctypes.c_size_t, wanted.options) + _array(ctypes.c_size_t, wanted.flags) + _array(ctypes.c_int32, wanted.etypes)
        given += _passed(wanted.client.octets) + _passed(wanted.server.octets) + self._by + _passed(secrets.token_bytes(_RANDOM)) + _passed(message)
        answer = self._answered(self._call, self._terms(is_datagram), given, len(message))
        if answer.follows == Follows.SENDS:
            self._request = answer.octets
        return answer

    def _answered(self, call: Any, terms: _Terms, given: List[Any], size_of_message: int) -> Answer:
        followed, size, room = _Followed(), ctypes.c_size_t(), 2 * size_of_message + 2048
        while True:
            out = ctypes.create_string_buffer(room)
            told = ctypes.byref(self._state), ctypes.byref(followed), out, room, ctypes.byref(size)
            status = call(ctypes.byref(terms), *given, *told)
            if status != Status.ROOM or size.value <= room:
                break
            room = size.value
        if status == Status.NOT_GRANTED:
            raise NotGranted(followed.rule, followed.code)
        if status != Status.DONE:
            raise Refused(status)
        octets = out.raw[: size.value]
        ticket, part = (octets[place.offset : place.offset + place.size] for place in (followed.ticket, followed.part))
        return Answer(Follows(followed.follows), octets, ticket, part)


def _octets(call: Any, room: int, *given: Any) -> bytes:
    """The octets that a call of an AP-REQ or an AP-REP answers."""
    rule, size = ctypes.c_uint32(), ctypes.c_size_t()
    while True:
        out = ctypes.create_string_buffer(room)
        status = call(*given, ctypes.byref(rule), out, room, ctypes.byref(size))
        if status == Status.DONE:
            return out.raw[: size.value]
        if status == Status.NOT_GRANTED:
            raise NotGranted(rule.value)
        if status != Status.ROOM or size.value <= room:
            raise Refused(status)
        room = size.value


def ap_request(
    time: Tuple[int, int], client: Name, ticket: bytes, session_key: EncryptionKey, subkey: bytes, sequence_number: int, settings: int, gss_flags: int = 0,
    bindings: bytes = b"",
) -> bytes:
    """The AP-REQ for a service (RFC 4120, 3.2.2); `settings` are AP_.., added, `bindings` 16 octets or none. NotGranted; Refused: INVALID, NUMBER, SEED_SIZE, MEMORY."""
    terms = _ApTerms(*time, client.name_type, sequence_number, gss_flags, settings, session_key.etype)
    given = [each for octets in (client.octets, ticket, session_key.octets, subkey, bindings, secrets.token_bytes(_RANDOM)) for each in _passed(octets)]
    return _octets(_ap_request, len(ticket) + 2048, ctypes.byref(terms), *given)


def ap_reply(session_key: EncryptionKey, time: Tuple[int, int], reply: bytes) -> bytes:
    """The EncAPRepPart of an AP-REP that confirms the service (RFC 4120, 3.2.5). NotGranted; Refused: NUMBER, MEMORY."""
    return _octets(_ap_reply, len(reply) + 64, session_key.etype, *_passed(session_key.octets), *time, *_passed(reply))
