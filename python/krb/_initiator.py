"""A client's side of a context with a service: its AP-REQ, the service's AP-REP, and the messages between the two (RFC 4120, 3.2; RFC 4121)."""

import secrets
from typing import TYPE_CHECKING, Callable, Optional, Tuple, Union

from krb import gss, spnego
from krb._context import ContextFlag, EncryptionKey, Messages
from krb._exchange import AP_GSS, AP_MUTUAL, AP_SEQUENCE, ClientRule, NotGranted, ap_reply, ap_request
from krb._items import Secret, find_number
from krb._library import Octets, Refused, plain
from krb._mechanism import _MICROSOFT, Mechanism
from krb._parts import decode
from krb._times import moment
from krb.accept import ChannelBindings

if TYPE_CHECKING:
    from krb.client import Credentials

__all__ = ["Initiator", "InitiatorContext", "KerberosInitiator"]

_AP_REQ, _AP_REP, _ERROR = b"\1\0", b"\2\0", b"\3\0"  # ids of tokens (RFC 4121, 4.1)
_SEQUENCE_NUMBERS = 2**30  # as MIT Kerberos: some peers take the highest bits for a sign
_USUAL = ContextFlag.REPLAY | ContextFlag.SEQUENCE | ContextFlag.CONFIDENTIALITY | ContextFlag.INTEGRITY
_NOT_HERE = ContextFlag.DELEGATION | ContextFlag.DCE_STYLE


class InitiatorContext(Messages):
    """The client's side of a context. Any number of threads may use it.

    - `client`, `server`: their names as text. `flags`: what the client asked for. `end_time` of the ticket, in UTC.
    - `session_key`, `subkey` of the client, `peer_subkey` of the service: None where there is none.
    - `sequence_number` of the service's first message; `own_sequence_number` of the client's next one."""

    _own, _other = gss.Sender.INITIATOR, gss.Sender.ACCEPTOR

    def __init__(
        self, ticket: "Credentials", flags: ContextFlag, subkey: Optional[EncryptionKey], peer_subkey: Optional[EncryptionKey], own_first: int, first: int
    ) -> None:
        self.client, self.server, self.flags = ticket.client, ticket.server, flags
        self.session_key, self.subkey, self.peer_subkey = ticket.session_key, subkey, peer_subkey
        self.end_time, self.sequence_number = ticket.end_time, first
        self._begins(own_first, first)

    def __repr__(self) -> str:
        return "InitiatorContext(client=%r, server=%r)" % (self.client, self.server)

    def _key(self, sender: gss.Sender) -> gss.TokenKey:
        """The key of messages: the service's subkey, else the client's, else the session key (RFC 4121, 2)."""
        key = self.peer_subkey or self.subkey or self.session_key
        return gss.TokenKey(key.etype, key.octets, sender, self.peer_subkey is not None)


class Initiator:
    """A client that goes to a service with a ticket for it: `token` is to be sent, and `step` takes the answer. `context` is the context, once it is established: without
    mutual authentication after `token`.

    - `mutual`: the service has to confirm itself by an AP-REP. `flags`: what else is asked of the context; credentials are not delegated, and DCE style is not had.
    - `channel_bindings`: data, as b"tls-server-end-point:" and a hash, or `krb.ChannelBindings`.
    - `clock`: the seconds since 1970 in UTC, by default by the clock of the ticket's settings; what is known of the KDC's clock is added."""

    def __init__(
        self, ticket: "Credentials", mutual: bool = True, flags: ContextFlag = _USUAL, channel_bindings: Union[Octets, ChannelBindings, None] = None,
        clock: Optional[Callable[[], float]] = None,
    ) -> None:
        if flags & _NOT_HERE:
            raise ValueError("credentials are not delegated, and DCE style is not had")
        self.flags = flags | ContextFlag.MUTUAL if mutual else flags & ~ContextFlag.MUTUAL
        self._ticket, self._mutual, self._clock, self._bindings = ticket, mutual, clock or ticket.settings.clock, b""
        if channel_bindings is not None:
            given = channel_bindings if isinstance(channel_bindings, ChannelBindings) else ChannelBindings(plain(channel_bindings))
            self._bindings = given.hash()
        self._subkey = EncryptionKey(ticket.session_key.etype, Secret(secrets.token_bytes(len(ticket.session_key.octets))))
        self._first = secrets.randbelow(_SEQUENCE_NUMBERS)
        self._time: Optional[Tuple[int, int]] = None
        self.context: Optional[InitiatorContext] = None

    def __repr__(self) -> str:
        return "Initiator(%r)" % self._ticket

    def token(self) -> bytes:
        """The token with the AP-REQ, of the time at which it is made: each call makes another one, and the answer has to be to the last. Refused: MEMORY; NUMBER, INVALID of
        a ticket of a file that is none. RuntimeError: the context is established."""
        if self.context is not None:
            raise RuntimeError("the context is established")
        ticket, self._time = self._ticket, moment(self._clock, self._ticket.offset or 0)
        settings = AP_SEQUENCE | AP_GSS | (AP_MUTUAL if self._mutual else 0)
        request = ap_request(
            self._time, ticket.entry.client, ticket.ticket, ticket.session_key, self._subkey.octets, self._first, settings, int(self.flags), self._bindings
        )
        if not self._mutual:
            # The service counts from the client's number then, as MIT Kerberos and Heimdal do.
            self.context = InitiatorContext(ticket, self.flags, self._subkey, None, self._first, self._first)
        return spnego.make_token(spnego.KERBEROS, _AP_REQ + request)

    def step(self, reply: Octets) -> None:
        """Takes the service's answer, which establishes the context where it confirms the service.

        NotGranted: it does not, or is an error of the service's, by the rule KDC; Refused of what is no token; MEMORY. RuntimeError: no answer is waited for."""
        if self._time is None or self.context is not None:
            raise RuntimeError("no answer is waited for")
        token = spnego.token(reply)
        kind, message = token.inner[:2], token.inner[2:]
        if token.mechanism != spnego.KERBEROS or kind not in (_AP_REP, _ERROR):
            raise NotGranted(ClientRule.OTHER_MESSAGE)
        if kind == _ERROR:
            raise NotGranted(ClientRule.KDC, find_number(message, "KRB-ERROR", "error-code") & 2**32 - 1, "the service")
        part = decode(ap_reply(self._ticket.session_key, self._time, message), "EncAPRepPart", show_keys=True)
        found = part.get("subkey")
        peer = None if found is None else EncryptionKey(found["keytype"], Secret(found["keyvalue"]))
        self.context = InitiatorContext(self._ticket, self.flags, self._subkey, peer, self._first, part.get("seq-number", 0))


class KerberosInitiator(Mechanism):
    """Kerberos as the mechanism of an initiator in one negotiation (`krb.Negotiator`), by a ticket for the service. The other arguments are those of `Initiator`.
    `context` is the `InitiatorContext`, once it is established."""

    oid = spnego.KERBEROS
    names = frozenset([spnego.KERBEROS, _MICROSOFT])
    refusals = (Refused,)

    def __init__(
        self, ticket: "Credentials", mutual: bool = True, flags: ContextFlag = _USUAL, channel_bindings: Union[Octets, ChannelBindings, None] = None,
        clock: Optional[Callable[[], float]] = None,
    ) -> None:
        self._initiator = Initiator(ticket, mutual, flags, channel_bindings, clock)
        self._server = ticket.server
        self.established, self.peer = False, None

    @property
    def context(self) -> Optional[InitiatorContext]:
        return self._initiator.context

    def step(self, token: Optional[bytes]) -> Optional[bytes]:
        """The token with the AP-REQ; None to the service's AP-REP. Raises as `Initiator.token` and `Initiator.step`."""
        own = None
        if token is None:
            own = self._initiator.token()
        else:
            self._initiator.step(token)
        self.established = self._initiator.context is not None
        self.peer = self._server if self.established else None
        return own

    def _established(self) -> InitiatorContext:
        if self._initiator.context is None:
            raise RuntimeError("the service has not answered yet")
        return self._initiator.context

    def make_mic(self, text: bytes) -> bytes:
        """As `InitiatorContext.get_mic`."""
        return self._established().get_mic(text)

    def verify_mic(self, text: bytes, mic: bytes) -> bool:
        """Whether it is a MIC of the service's over the text, and the context's next message. Refused: MEMORY."""
        return self._established().is_next_mic(text, mic)
