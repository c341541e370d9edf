"""What an acceptor knows of a client that is let in, and the messages between the two (RFC 4121)."""

import ctypes
import datetime
import enum
import threading
from typing import FrozenSet, List, NamedTuple, Optional, Tuple

from krb import gss
from krb._items import Registry, Secret, _flags
from krb._library import IN, U32, Call, Octets, Refused, Status
from krb._window import Order, SequenceWindow

__all__ = ["Context", "ContextFlag", "EncryptionKey", "OutOfOrder"]

_confirm = Call("krb_confirm", U32, IN, IN, U32, IN)
_EPOCH = datetime.datetime(1970, 1, 1, tzinfo=datetime.timezone.utc)


class ContextFlag(enum.IntFlag):
    """What a client asks of a context (RFC 4121, 4.1.1.1; DCE_STYLE: MS-KILE, 3.4.5.1)."""

    DELEGATION = 1
    MUTUAL = 2
    REPLAY = 4
    SEQUENCE = 8
    CONFIDENTIALITY = 16
    INTEGRITY = 32
    DCE_STYLE = 0x1000


class EncryptionKey(NamedTuple):
    """A key (RFC 4120, 5.2.9). Its octets are not shown."""

    etype: int
    octets: Secret


class OutOfOrder(ValueError):
    """A message that holds, but is not the next one; `order` says what it is, `message` and `sealed` what a Wrap token held.

    Where `order` is REPLAYED or OLD, the message is to be thrown away. After GAP or OUT_OF_ORDER the context goes on from there."""

    order: Order
    message: Optional[bytes]
    sealed: Optional[bool]

    def __init__(self, order: Order, message: Optional[bytes] = None, sealed: Optional[bool] = None) -> None:
        self.order, self.message, self.sealed = order, message, sealed
        super().__init__("%s: %s" % (order.name, order.value))

    def __reduce__(self) -> "Tuple[type, Tuple[Order, Optional[bytes], Optional[bool]]]":
        return OutOfOrder, (self.order, self.message, self.sealed)


class Place(ctypes.Structure):
    """krb_place of krb.h."""

    _fields_ = [("offset", ctypes.c_size_t), ("size", ctypes.c_size_t)]


class Accepted(ctypes.Structure):
    """krb_accepted of krb.h."""

    _fields_ = (
        [
            (name, Place)
            for name in ("entry", "session_key", "subkey", "own_subkey", "pac", "transited", "authorization_data", "restrictions", "delegated", "reply")
        ]
        + [(name, ctypes.c_int64) for name in ("auth_time", "start_time", "end_time", "sequence_number", "seen")]
        + [(name, ctypes.c_uint32) for name in ("flags", "ticket_flags", "session_etype", "subkey_etype", "transited_type", "rule", "code", "has_seen")]
    )

    def octets(self, name: str, out: bytes) -> bytes:
        """The octets of a place."""
        place = getattr(self, name)
        return out[place.offset : place.offset + place.size]


_QUOTED = {"\\": "\\\\", "/": "\\/", "@": "\\@", "\n": "\\n", "\t": "\\t", "\b": "\\b", "\0": "\\0"}


def _quoted(text: str) -> str:
    return "".join(_QUOTED.get(each, each) for each in text)


def unparsed(components: Tuple[str, ...], realm: str) -> str:
    """The text of a name (RFC 1964, 2.1.1 and 2.1.3): components with "/" between, "@" and the realm; what is special in these is quoted."""
    return "/".join(map(_quoted, components)) + "@" + _quoted(realm)


def names_of(entry: bytes) -> List[Tuple[str, Tuple[str, ...]]]:
    """The realm and the components of the server's name, and of the client's, which stand in an entry behind its time and microseconds."""
    names, left = [], entry[12:]
    while left:
        realm, _, left = left.partition(b"\xff")
        listed, _, left = left.partition(b"\xfe")
        names.append((realm.decode("ascii"), tuple(each.decode("ascii") for each in listed.split(b"\xff")[:-1])))
    return names


def time_of(seconds: int) -> datetime.datetime:
    """A time of UTC; of one before the year 1 the first that datetime has, of one past 9999 the last."""
    try:
        return _EPOCH + datetime.timedelta(seconds=seconds)
    except OverflowError:
        return (datetime.datetime.min if seconds < 0 else datetime.datetime.max).replace(tzinfo=datetime.timezone.utc)


class Messages:
    """The messages of one side of a context (RFC 4121, 4.2), and their order. Any number of threads may use it."""

    _own, _other = gss.Sender.ACCEPTOR, gss.Sender.INITIATOR
    flags: ContextFlag

    def _begins(self, own_first: int, first: int) -> None:
        """The numbers of this side's first message, and of the other's."""
        self._own_next, self._window, self._lock = own_first, SequenceWindow(first), threading.Lock()

    def _key(self, sender: gss.Sender) -> gss.TokenKey:
        """The key of the messages of a side."""
        raise NotImplementedError

    @property
    def own_sequence_number(self) -> int:
        """The sequence number of this side's next message."""
        return self._own_next

    def _number(self) -> int:
        with self._lock:
            number = self._own_next
            self._own_next = number + 1 & 2**64 - 1
            return number

    def _order(self, number: int, message: Optional[bytes] = None, sealed: Optional[bool] = None) -> None:
        """Takes the number of a message that holds. Replays are told where the client asked for REPLAY or SEQUENCE, gaps where it asked for SEQUENCE."""
        with self._lock:
            order = self._window.take(number)
        told = {Order.REPLAYED, Order.OLD} if self.flags & (ContextFlag.REPLAY | ContextFlag.SEQUENCE) else set()
        if ContextFlag.SEQUENCE in self.flags:
            told |= {Order.GAP, Order.OUT_OF_ORDER}
        if order in told:
            raise OutOfOrder(order, message, sealed)

    def get_mic(self, message: Octets) -> bytes:
        """The MIC token of a message of this side's (RFC 4121, 4.2.6.1). Refused: NUMBER (triple DES), MEMORY."""
        return gss.make_mic(self._key(self._own), self._number(), message)

    def verify_mic(self, message: Octets, token: Octets) -> None:
        """Returns where the token is a MIC of the other side's over the message, and the next one. Refused: as `krb.gss.verify_mic`.

        OutOfOrder: it holds, but is not the next one, and the client asked that this be told (RFC 2743, 1.2.3)."""
        self._order(gss.verify_mic(self._key(self._other), message, token))

    def is_next_mic(self, message: Octets, token: Octets) -> bool:
        """Whether `verify_mic` takes it. Refused: MEMORY."""
        try:
            self.verify_mic(message, token)
            return True
        except OutOfOrder:
            return False
        except Refused as refused:
            if refused.status == Status.MEMORY:
                raise
            return False

    def wrap(self, message: Octets, encrypt: bool = True) -> bytes:
        """The Wrap token of a message of this side's, encrypted or in the clear with a checksum (RFC 4121, 4.2.6.2). Refused: NUMBER (triple DES), MEMORY."""
        key = self._key(self._own)
        return gss.wrap(key, self._number(), message) if encrypt else gss.wrap_in_clear(key, self._number(), message)

    def unwrap(self, token: Octets) -> gss.Unwrapped:
        """What a Wrap token of the other side's held, and whether it was encrypted. Refused: as `krb.gss.unwrap`; OutOfOrder: as `verify_mic`."""
        found = gss.unwrap(self._key(self._other), token)
        self._order(found.sequence_number, found.message, found.sealed)
        return found


class Context(Messages):
    """A client that is let in, and the context with it. Any number of threads may use it.

    - `client`, `server`: their names as text, "ann@HOME.TEST", "HTTP/www.home.test@HOME.TEST" (RFC 1964, 2.1.3: "/", "@", the backslash and four control
      characters are quoted by a backslash; others stand as they are, so quote them for a log); `client_realm`, `client_components`, and so for the server.
    - `flags`: what the client asks for. `ticket_flags`: the names of those of the ticket, as `krb.decode` has them.
    - `auth_time`, `start_time`, `end_time`: of the ticket, in UTC. A service ends what it does for the client at `end_time`.
    - `session_key`, `subkey` of the client, `own_subkey` of the service: None where there is none.
    - `sequence_number` of the client's first message, None where it gives none; `own_sequence_number` of the service's next one.
    - `pac`: the ticket's PAC, which was verified: its server checksum holds under the service's key, and it names the client. None where there is none, or PACs
      are ignored. `krb.pac` looks into it.
    - `authorization_data` of the ticket, `restrictions` of the authenticator: encodings of an AuthorizationData (RFC 4120, 5.2.6), or None. Elements in which a
      PAC stands are not in them.
    - `transited`: the type of their encoding, and the realms that took part (RFC 4120, 3.3.3.2).
    - `delegated`: the KRB-CRED that the client delegated, or None.
    - `reply`: what is to be sent to the client, or None where it waits for nothing."""

    def __init__(self, accepted: Accepted, out: bytes, own_sequence_number: int) -> None:
        def optional(name: str) -> Optional[bytes]:
            return accepted.octets(name, out) or None

        def key(name: str, etype: int) -> Optional[EncryptionKey]:
            octets = optional(name)
            return None if octets is None else EncryptionKey(etype, Secret(octets))

        entry = accepted.octets("entry", out)
        (self.server_realm, self.server_components), (self.client_realm, self.client_components) = names_of(entry)
        self.client = unparsed(self.client_components, self.client_realm)
        self.server = unparsed(self.server_components, self.server_realm)
        self.flags = ContextFlag(accepted.flags)
        self.ticket_flags: FrozenSet[str] = _flags(b"\0" + int(accepted.ticket_flags).to_bytes(4, "big"), int(Registry.TICKET_FLAG))
        self.auth_time, self.start_time, self.end_time = map(time_of, (accepted.auth_time, accepted.start_time, accepted.end_time))
        self.session_key = EncryptionKey(accepted.session_etype, Secret(accepted.octets("session_key", out)))
        self.subkey = key("subkey", accepted.subkey_etype)
        self.reply = optional("reply")
        self.own_subkey = key("own_subkey", accepted.session_etype) if self.reply is not None else None
        self.transited = int(accepted.transited_type), accepted.octets("transited", out)
        self.pac, self.authorization_data, self.restrictions, self.delegated = map(optional, ("pac", "authorization_data", "restrictions", "delegated"))
        self.sequence_number: Optional[int] = None if accepted.sequence_number < 0 else int(accepted.sequence_number)
        first = self.sequence_number or 0
        self._waits = ContextFlag.DCE_STYLE in self.flags
        # To a client that gets no AP-REP the service counts from the client's number, as MIT Kerberos and Heimdal do.
        self._own_first = own_sequence_number if self._waits or self.reply is not None else first
        self._begins(self._own_first, first)

    def __repr__(self) -> str:
        return "Context(client=%r, server=%r)" % (self.client, self.server)

    @property
    def is_complete(self) -> bool:
        """False where the client has to send the third message of DCE style, for `confirm`: it needs the reply for it, so that a client of that style which
        asks for no mutual authentication gets none, and its context is never complete."""
        return not self._waits

    def confirm(self, token: Octets) -> None:
        """Takes the client's AP-REP, the third message of DCE style (MS-KILE, 3.4.5.1).

        It has to have the sequence number of the service's AP-REP; its time is the client's, of MIT Kerberos the one at which it was made, and is not compared.

        Refused: INVALID where it is no AP-REP; DIRECTION where it is the service's own AP-REP, sent back to it; INTEGRITY where the session key does not
        decrypt it; NOT_ACCEPTED where it has another sequence number; MEMORY. RuntimeError: no such message is waited for."""
        if not self._waits:
            raise RuntimeError("no third message of DCE style is waited for")
        _confirm.done(self.session_key.etype, self.session_key.octets, self.reply or b"", self._own_first, token)
        self._waits = False

    def _key(self, sender: gss.Sender) -> gss.TokenKey:
        """The key of messages: the service's subkey, else the client's, else the session key (RFC 4121, 2)."""
        if self._waits:
            raise RuntimeError("the third message of DCE style has not come: confirm takes it")
        key = self.own_subkey or self.subkey or self.session_key
        return gss.TokenKey(key.etype, key.octets, sender, self.own_subkey is not None)
