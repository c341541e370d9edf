"""What passes through a KDC proxy (MS-KKDCP): requests to a KDC and to the server that changes passwords, and their replies.

A request or a reply is the octets that HTTP carries, a KDC-PROXY-MESSAGE (2.2.2). What goes on is a slice of what came: nothing is encoded anew."""

import ctypes
import enum
from typing import Any, Dict, List, NamedTuple, Optional, Tuple

from krb._items import Form, Leaf, _name, _RECORD, _with_room
from krb._library import IN, SIZE, SIZE_OUT, Call, Octets, Refused, Status, _library, plain

__all__ = ["Service", "ProxyRequest", "read_request", "read_request_lenient", "write_reply", "write_reply_datagram", "is_whole"]
__all__ += ["write_request", "read_reply", "http_status"]


class Service(enum.IntEnum):
    """Whom a request is for: a KDC (RFC 4120), or the server that changes passwords (RFC 3244)."""

    KDC = 1
    KPASSWD = 2


class ProxyRequest(NamedTuple):
    """A request through a proxy, and what of it a server has to look at.

    - `realm`: of an AS-REQ and a TGS-REQ that of the body, of a password change that of the AP-REQ's ticket.
    - `target_domain`: the realm for which the proxy is to find a server, as the client named it; `names_one_realm` says whether it is `realm`, ASCII letters of
      either case alike.
    - `client`, `server`: the components of their names, for a log; None where there is no name, or one of no components. They hold any ASCII.
    - `hint`: dclocator-hint; None where there is none, or 64 bits do not hold it.
    - `stream`: the octets to send over a stream, the message behind its length in four octets; `datagram`: the message alone."""

    service: Service
    realm: Optional[bytes]
    target_domain: bytes
    names_one_realm: Optional[bool]
    client: Optional[Tuple[bytes, ...]]
    server: Optional[Tuple[bytes, ...]]
    hint: Optional[int]
    stream: bytes
    datagram: bytes


class _Posted(ctypes.Structure):
    """krb_proxy_posted of krb.h."""

    _fields_ = [(name, ctypes.c_size_t) for name in ("message_offset", "message_size", "domain_offset", "domain_size")] + [
        ("hint", ctypes.c_int64),
        ("hint_status", ctypes.c_uint32),
        ("service", ctypes.c_uint32),
        ("names_one_realm", ctypes.c_uint32),
    ]


_lenient, _with_items = _library.krb_proxy_request_lenient, _library.krb_proxy_request_items
_TOLD: List[Any] = [ctypes.c_char_p, ctypes.c_size_t, ctypes.POINTER(_Posted)]
_lenient.argtypes, _with_items.argtypes = _TOLD, [*_TOLD, ctypes.c_void_p, ctypes.c_size_t, ctypes.POINTER(ctypes.c_size_t)]
for _call in (_lenient, _with_items):
    _call.restype = ctypes.c_uint32

_reply = Call("krb_proxy_reply", IN, has_room=True)
_reply_datagram = Call("krb_proxy_reply_datagram", IN, has_room=True)
_is_whole = Call("krb_proxy_is_whole", IN, SIZE)
_make_request = Call("krb_make_proxy_request", IN, IN, has_room=True)
_read_reply = Call("krb_read_proxy_reply", IN, cells=[SIZE_OUT, SIZE_OUT])

_LENGTH = 4
_FRAME = 48  # what a KDC-PROXY-MESSAGE has at most beside the octets of its fields
_HEADER = 6  # what a frame has before its AP-REQ (RFC 3244, 2)
_MANY = 4096  # at first there is room for the items of so many octets: longer messages are so by tickets and PACs, which are one item each


class _Asked(NamedTuple):
    """What a message asks for."""

    realm: bytes
    client: Optional[Tuple[bytes, ...]]
    server: Optional[Tuple[bytes, ...]]


def _asked(message: bytes, records: bytes, depth: int, fields: Tuple[str, ...]) -> _Asked:
    """The realm, and the names of these fields, that stand in so many elements: in the request's body or in the ticket."""
    realm, field = b"", ""
    found: Dict[str, List[bytes]] = {}
    for offset, size, form, kind, name, _, deep, _, _, _ in _RECORD.iter_unpack(records):
        if deep == depth and form == Form.BEGIN:
            field = _name(name)
        elif form == Form.LEAF and kind == Leaf.TEXT and field == "realm" and deep == depth + 1:
            realm = message[offset : offset + size]
        elif form == Form.LEAF and kind == Leaf.COMPONENT and field in fields:
            found.setdefault(field, []).append(message[offset : offset + size])
    return _Asked(realm, *(tuple(found[each]) if each in found else None for each in ("cname", "sname")))


def _parts(octets: bytes, posted: _Posted) -> Tuple[bytes, bytes, bytes, Optional[int]]:
    """What goes over a stream, what goes in a datagram, target-domain, and the hint that 64 bits hold."""
    start, end = posted.message_offset, posted.message_offset + posted.message_size
    domain = octets[posted.domain_offset : posted.domain_offset + posted.domain_size]
    return octets[start - _LENGTH : end], octets[start:end], domain, posted.hint if posted.hint_status == Status.DONE else None


def read_request(octets: Octets) -> ProxyRequest:
    """The request that the octets are: the one DER encoding of a KDC-PROXY-MESSAGE with a target-domain, whose kerb-message is a length and so many octets, and
    these the one encoding of an AS-REQ or a TGS-REQ, or a frame in which a password is changed. Any other octets are refused.

    Refused: PROXY_TOO_LARGE past 131072 octets; of the KDC-PROXY-MESSAGE INVALID, TRUNCATED, UNSUPPORTED; PROXY_NO_LENGTH, PROXY_OTHER_LENGTH,
    PROXY_NO_DOMAIN, PROXY_OTHER_KIND, PROXY_FRAME_LENGTH; of the message PROXY_INVALID, PROXY_TRUNCATED, PROXY_UNSUPPORTED, PROXY_PVNO, PROXY_MSG_TYPE;
    MEMORY. `http_status` says what to answer."""
    octets, posted = plain(octets), _Posted()
    call = lambda first, room, count: _with_items(octets, len(octets), ctypes.byref(posted), first, room, count)
    status, records = _with_room(min(len(octets), _MANY) // 2 + 16, call)
    if status != Status.DONE:
        raise Refused(status)
    stream, message, domain, hint = _parts(octets, posted)
    if posted.service == Service.KDC:
        # [APPLICATION 10] SEQUENCE { req-body [4] SEQUENCE { field
        asked = _asked(message, records, 4, ("cname", "sname"))
    else:
        # [APPLICATION 14] SEQUENCE { ticket [3] [APPLICATION 1] SEQUENCE { field
        asked = _asked(message[_HEADER:], records, 5, ("sname",))
    return ProxyRequest(
        Service(posted.service),
        asked.realm,
        domain,
        bool(posted.names_one_realm),
        asked.client,
        asked.server,
        hint,
        stream,
        message,
    )


def read_request_lenient(octets: Octets) -> ProxyRequest:
    """As `read_request`, but of the message its first octets alone are looked at: the application tag of an AS-REQ or a TGS-REQ, or the length and the version
    of a frame. So messages pass that strict DER refuses, as those with a name past octet 127, and octets that are no message. `realm`, `names_one_realm`,
    `client` and `server` are None, since nothing is read of them.

    Refused: as `read_request` up to PROXY_OTHER_KIND; MEMORY."""
    octets, posted = plain(octets), _Posted()
    status = _lenient(octets, len(octets), ctypes.byref(posted))
    if status != Status.DONE:
        raise Refused(status)
    stream, message, domain, hint = _parts(octets, posted)
    return ProxyRequest(Service(posted.service), None, domain, None, None, None, hint, stream, message)


def write_reply(octets: Octets) -> bytes:
    """The KDC-PROXY-MESSAGE that goes back, of what a server sent over a stream: a length, and the one encoding of an AS-REP, a TGS-REP or a KRB-ERROR, or a
    frame of the reply to a password change.

    Refused: PROXY_NO_LENGTH, PROXY_OTHER_LENGTH; then as `read_request` of the message; MEMORY."""
    return _reply.octets(len(octets) + _FRAME, octets)


def write_reply_datagram(octets: Octets) -> bytes:
    """As `write_reply`, of what a server sent in a datagram, without its length. Refused: as `read_request` of the message; MEMORY."""
    return _reply_datagram.octets(len(octets) + _LENGTH + _FRAME, octets)


def is_whole(octets: Octets, limit: int) -> bool:
    """Whether what came of a stream's reply so far is all of it: its length, and so many octets.

    Refused: PROXY_TOO_LARGE where it never will be: its length is past the limit or past 2147483647, or there are more octets than it says."""
    if limit < 0:
        raise ValueError("a limit below 0")
    status = _is_whole.status(octets, min(limit, 2 ** (8 * ctypes.sizeof(ctypes.c_size_t)) - 1))
    if status in (Status.DONE, Status.TRUNCATED):
        return status == Status.DONE
    raise Refused(status)


def write_request(message: Octets, target_domain: Octets) -> bytes:
    """The client's half: the request of this message, without its length, for this realm. `read_request` reads it as these.

    Refused: INVALID where the realm is not of ASCII; else what `read_request` refuses of it; MEMORY."""
    return _make_request.octets(len(message) + len(target_domain) + _LENGTH + _FRAME, message, target_domain)


def read_reply(octets: Octets) -> bytes:
    """The client's half: the message, without its length, that a proxy's reply holds.

    Refused: of the KDC-PROXY-MESSAGE INVALID, TRUNCATED, UNSUPPORTED; then as `write_reply`."""
    octets = plain(octets)
    offset, size = _read_reply.told(octets)
    return octets[offset : offset + size]


def http_status(refused: Refused) -> int:
    """The status of HTTP that a server answers to a request that is refused so: 413 where it is too large, 503 where memory was wanting, else 400."""
    return {Status.PROXY_TOO_LARGE: 413, Status.MEMORY: 503}.get(refused.status, 400)
