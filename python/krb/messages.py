"""Messages of Kerberos and their encrypted parts (RFC 4120, 5), each with one DER encoding.

A part comes in and goes out as the octets of its encoding."""

import enum
import os
from typing import Dict, Optional, Tuple, Union

from krb import _items
from krb._library import IN, NUMBER, Call, Octets, Refused, Status
from krb.crypto import _sizes

__all__ = ["Message", "Field", "Part", "check", "is_message", "field", "field_place", "field_octets", "field_number", "seal", "open_part"]


class Message(enum.IntEnum):
    """Messages and parts by their application tags (RFC 4120, 5.10)."""

    TICKET = 1
    AUTHENTICATOR = 2
    ENC_TICKET_PART = 3
    AS_REQ = 10
    AS_REP = 11
    TGS_REQ = 12
    TGS_REP = 13
    AP_REQ = 14
    AP_REP = 15
    KRB_PRIV = 21
    KRB_CRED = 22
    ENC_AS_REP_PART = 25
    ENC_TGS_REP_PART = 26
    ENC_AP_REP_PART = 27
    ENC_KRB_PRIV_PART = 28
    ENC_KRB_CRED_PART = 29
    KRB_ERROR = 30


class Field(enum.IntEnum):
    """Fields of messages and tickets (RFC 4120, 5). `krb.find` has every field of every type, by its path."""

    REALM = 1
    CLIENT_REALM = 2
    CLIENT_NAME = 3
    SERVER_NAME = 4
    KDC_OPTIONS = 5
    AP_OPTIONS = 6
    ETYPE = 7
    NONCE = 8
    FROM = 9
    TILL = 10
    RENEW_TILL = 11
    CLIENT_TIME = 12
    CLIENT_MICROSECONDS = 13
    SERVER_TIME = 14
    SERVER_MICROSECONDS = 15
    ERROR_CODE = 16
    ERROR_TEXT = 17
    ERROR_DATA = 18
    SEALED_ETYPE = 19
    SEALED_KVNO = 20
    SEALED_CIPHER = 21
    TICKET = 22
    TICKET_REALM = 23
    TICKET_SERVER_NAME = 24
    TICKET_ETYPE = 25
    TICKET_KVNO = 26
    TICKET_CIPHER = 27
    CLIENT_NAME_TYPE = 28
    SERVER_NAME_TYPE = 29
    TICKET_SERVER_NAME_TYPE = 30
    DATA_TYPE = 31
    DATA_VALUE = 32


class Part(enum.Enum):
    """The parts that are encrypted, by the names of the calls of krb.h."""

    TICKET_PART = "ticket_part"
    AUTHENTICATOR = "authenticator"
    AS_REP_PART = "as_rep_part"
    TGS_REP_PART = "tgs_rep_part"
    AP_REP_PART = "ap_rep_part"
    PRIV_PART = "priv_part"
    CRED_PART = "cred_part"


NUMBERS = frozenset(
    {
        Field.ETYPE,
        Field.NONCE,
        Field.CLIENT_MICROSECONDS,
        Field.SERVER_MICROSECONDS,
        Field.ERROR_CODE,
        Field.SEALED_ETYPE,
        Field.SEALED_KVNO,
        Field.TICKET_ETYPE,
        Field.TICKET_KVNO,
        Field.CLIENT_NAME_TYPE,
        Field.SERVER_NAME_TYPE,
        Field.TICKET_SERVER_NAME_TYPE,
        Field.DATA_TYPE,
    }
)
"""The fields that are numbers."""

_NAME = {Field.CLIENT_NAME: "cname.name-string[%d]", Field.CLIENT_NAME_TYPE: "cname.name-type"}
_NAME.update({Field.SERVER_NAME: "sname.name-string[%d]", Field.SERVER_NAME_TYPE: "sname.name-type", Field.REALM: "realm"})
_DATA = {Field.DATA_TYPE: "padata[%d].padata-type", Field.DATA_VALUE: "padata[%d].padata-value"}
_TICKET = {Field.REALM: "realm", Field.SERVER_NAME: "sname.name-string[%d]", Field.SERVER_NAME_TYPE: "sname.name-type"}


def _sealed(field: str) -> Dict[int, str]:
    return {Field.SEALED_ETYPE: field + ".etype", Field.SEALED_KVNO: field + ".kvno", Field.SEALED_CIPHER: field + ".cipher"}


_TICKET.update(_sealed("enc-part"))
_IN_TICKET = {
    Field.TICKET: "ticket",
    Field.TICKET_REALM: "ticket.realm",
    Field.TICKET_SERVER_NAME: "ticket.sname.name-string[%d]",
    Field.TICKET_SERVER_NAME_TYPE: "ticket.sname.name-type",
    Field.TICKET_ETYPE: "ticket.enc-part.etype",
    Field.TICKET_KVNO: "ticket.enc-part.kvno",
    Field.TICKET_CIPHER: "ticket.enc-part.cipher",
}
_REQUEST = {Field.KDC_OPTIONS: "kdc-options", Field.FROM: "from", Field.TILL: "till", Field.RENEW_TILL: "rtime", Field.NONCE: "nonce", Field.ETYPE: "etype[%d]"}
_REQUEST.update(_NAME)
_REQUEST = {field: "req-body." + path for field, path in _REQUEST.items()}
_REQUEST.update(_DATA)
_REPLY = {Field.CLIENT_REALM: "crealm", Field.CLIENT_NAME: _NAME[Field.CLIENT_NAME], Field.CLIENT_NAME_TYPE: _NAME[Field.CLIENT_NAME_TYPE]}
_REPLY.update({**_DATA, **_IN_TICKET, **_sealed("enc-part")})
_ERROR = {Field.CLIENT_REALM: "crealm", Field.CLIENT_TIME: "ctime", Field.CLIENT_MICROSECONDS: "cusec", Field.SERVER_TIME: "stime"}
_ERROR.update({Field.SERVER_MICROSECONDS: "susec", Field.ERROR_CODE: "error-code", Field.ERROR_TEXT: "e-text", Field.ERROR_DATA: "e-data", **_NAME})
_PATHS: Dict[int, Tuple[str, Dict[int, str]]] = {
    Message.TICKET: ("Ticket", _TICKET),
    Message.AS_REQ: ("AS-REQ", _REQUEST),
    Message.AS_REP: ("AS-REP", _REPLY),
    Message.TGS_REQ: ("TGS-REQ", _REQUEST),
    Message.TGS_REP: ("TGS-REP", _REPLY),
    Message.AP_REQ: ("AP-REQ", {Field.AP_OPTIONS: "ap-options", **_IN_TICKET, **_sealed("authenticator")}),
    Message.AP_REP: ("AP-REP", _sealed("enc-part")),
    Message.KRB_PRIV: ("KRB-PRIV", _sealed("enc-part")),
    Message.KRB_CRED: ("KRB-CRED", {Field.TICKET: "tickets[%d]", **_sealed("enc-part")}),
    Message.KRB_ERROR: ("KRB-ERROR", _ERROR),
}
"""The types of messages with fields, and the paths of these."""

_check = Call("krb_check", NUMBER, IN)
_seal = {part: Call("krb_seal_" + part.value, NUMBER, IN, NUMBER, IN, IN, has_room=True) for part in Part}
_open = {part: Call("krb_open_" + part.value, NUMBER, IN, NUMBER, IN, has_room=True) for part in Part}


def check(number: int, octets: Octets) -> None:
    """Returns where the octets are the one DER encoding of such a message, and only there.

    Refused: NUMBER, INVALID, TRUNCATED, UNSUPPORTED, MEMORY."""
    _check.done(number, octets)


def is_message(number: int, octets: Octets) -> bool:
    """Whether the octets are the one DER encoding of such a message. Refused: NUMBER, MEMORY."""
    status = _check.status(number, octets)
    if status in (Status.NUMBER, Status.MEMORY):
        raise Refused(status)
    return status == Status.DONE


_MOST = 2**64 - 1


def _path(message: int, field: int, index: int, octets: Octets) -> Tuple[str, str]:
    """The message's type, and the path of the field; an index that C cannot hold is that of no item."""
    if message not in _PATHS or field not in set(Field):
        raise Refused(Status.NUMBER)
    name, paths = _PATHS[message]
    path = paths.get(field)
    if path is None:
        _items.find_item(octets, name, "")
        raise Refused(Status.ABSENT)
    return name, path % (index if 0 <= index <= _MOST else _MOST) if "%" in path else path


def field_place(message: int, field: int, octets: Octets, index: int = 0) -> slice:
    """Where the field stands in the octets, as a slice of them.

    Refused: NUMBER; INVALID, TRUNCATED, UNSUPPORTED, TOO_DEEP of octets that are no such message; then ABSENT where the message has no such field, or no
    item of this index; MEMORY."""
    place = _items.find_item(octets, *_path(message, field, index, octets)).place
    # a ticket is a SEQUENCE in its [APPLICATION 1]
    return _items.element_place(_items.element_place(place)) if field == Field.TICKET else place


def field_octets(message: int, field: int, octets: Octets, index: int = 0) -> bytes:
    """The field's octets: of a text they are ASCII, of a time YYYYMMDDHHMMSSZ, of `TICKET` a message again. Refused: as `field_place`."""
    return bytes(memoryview(octets).cast("B")[field_place(message, field, octets, index)])


def field_number(message: int, field: int, octets: Octets, index: int = 0) -> int:
    """The number that the field is. Refused: as `field_place`; NUMBER too where the field is no number; then TOO_LARGE where 64 bits do not hold it."""
    if field not in NUMBERS:
        raise Refused(Status.NUMBER)
    return _items.find_number(octets, *_path(message, field, index, octets))


def field(message: int, field: int, octets: Octets, index: int = 0) -> Union[bytes, int, None]:
    """The number that the field is, or else its octets; None where the message has no such field, or no item of this index.

    Refused: as `field_number` and `field_octets` otherwise."""
    try:
        return field_number(message, field, octets, index) if field in NUMBERS else field_octets(message, field, octets, index)
    except Refused as refused:
        if refused.status == Status.ABSENT:
            return None
        raise


def seal(part: Part, etype: int, key: Octets, usage: int, octets: Octets, confounder: Optional[Octets] = None) -> bytes:
    """The part of this encoding, encrypted. Without a confounder one is drawn by os.urandom; give one for tests alone.

    Refused: what `check` refuses of the part; then as `krb.crypto.encrypt`."""
    size, beside = _sizes(etype)
    if confounder is None:
        confounder = os.urandom(size)
    return _seal[part].octets(len(octets) + beside, etype, key, usage, confounder, octets)


def open_part(part: Part, etype: int, key: Octets, usage: int, sealed: Octets) -> bytes:
    """The encoding of the part that was sealed to these octets, without zeros that fill it.

    Refused: as `krb.crypto.decrypt`; then INVALID, TRUNCATED, UNSUPPORTED where what was encrypted is no such part."""
    return _open[part].octets(len(sealed), etype, key, usage, sealed)
