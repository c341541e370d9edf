"""What a mechanism lends to a negotiation, and Kerberos as one."""

from typing import AbstractSet, Optional, Protocol, Tuple, Type, Union

from krb import spnego
from krb._context import Context
from krb._library import Octets, Refused, Status
from krb.accept import Acceptor, ChannelBindings

__all__ = ["KerberosMechanism", "Mechanism"]


class Mechanism(Protocol):
    """One side's context of a mechanism (RFC 4178, 3; RFC 2743, 2.2), for one negotiation. A mechanism of your own inherits from this class, or has the same
    members.

    - `oid`: the content of the OBJECT IDENTIFIER under which an initiator offers it. `names`: those that mean it, for peers that use others.
    - `integrity`: whether it has MICs (RFC 2743, 1.2.2). `established`: whether its context is established. `peer`: the other side's name, once it is.
    - `refusals`: the exceptions by which `step` refuses a token. Where one has octets `error`, these are a token that tells the peer. What else it raises,
      and a `krb.Refused` of MEMORY or KEYTAB, is not about the token: `krb.Negotiator.step` raises it on, and the negotiation is over all the same."""

    oid: bytes
    names: AbstractSet[bytes] = frozenset()
    integrity: bool = True
    established: bool = False
    peer: Optional[str] = None
    refusals: Tuple[Type[Exception], ...] = (Exception,)

    def is_bare(self, token: bytes) -> bool:
        """Whether octets are a first token of its own, with no negotiation around it."""
        return False

    def step(self, token: Optional[bytes]) -> Optional[bytes]:
        """Takes the peer's token, None where it begins, and tells the token that is to be sent, if any. It raises where it refuses the token."""

    def make_mic(self, text: bytes) -> bytes:
        """The MIC of a text, once its context is established."""

    def verify_mic(self, text: bytes, mic: bytes) -> bool:
        """Whether a MIC of the peer's holds of a text, once its context is established."""


_MICROSOFT = bytes.fromhex("2a864882f712010202")  # 1.2.840.48018.1.2.2, as Microsoft once wrote 1.2.840.113554.1.2.2 (MS-SPNG, 3.1.5.2)


class KerberosMechanism(Mechanism):
    """Kerberos as the mechanism of an acceptor in one negotiation, over a `krb.Acceptor`, which any number of them may share. `context` is the `krb.Context`,
    once the client is let in; `channel_bindings` and `address` are as for `Acceptor.accept`.

    A token of Kerberos with no negotiation around it is known as its own (`is_bare`). The AP-REP is its last token, where the client asks for mutual
    authentication; of DCE style the client's AP-REP follows."""

    oid = spnego.KERBEROS
    names = frozenset([spnego.KERBEROS, _MICROSOFT])
    refusals = (Refused,)

    def __init__(
        self, acceptor: Acceptor, channel_bindings: Union[Octets, ChannelBindings, None] = None, address: Optional[str] = None
    ) -> None:
        self._acceptor, self._bindings, self._address = acceptor, channel_bindings, address
        self.context: Optional[Context] = None
        self.established, self.peer = False, None

    def is_bare(self, token: bytes) -> bool:
        """Whether octets are a GSS-API token of Kerberos (RFC 2743, 3.1)."""
        try:
            return spnego.token(token).mechanism == spnego.KERBEROS
        except Refused as refused:
            if refused.status == Status.MEMORY:
                raise
            return False

    def step(self, token: Optional[bytes]) -> Optional[bytes]:
        """The AP-REP to the client's AP-REQ, if it waits for one; None to its AP-REP of DCE style.

        NotAccepted, Refused: as `Acceptor.accept` and `Context.confirm`. RuntimeError of a mechanism of another negotiation, or of an initiator's."""
        if token is None or self.established:
            raise RuntimeError("a KerberosMechanism is an acceptor's, and of one negotiation")
        reply = None
        if self.context is None:
            self.context = self._acceptor.accept(token, self._bindings, self._address)
            reply = self.context.reply
        else:
            self.context.confirm(token)
        self.established = self.context.is_complete
        self.peer = self.context.client if self.established else None
        return reply

    def _established(self) -> Context:
        if self.context is None or not self.established:
            raise RuntimeError("no client is let in yet")
        return self.context

    def make_mic(self, text: bytes) -> bytes:
        """As `Context.get_mic`."""
        return self._established().get_mic(text)

    def verify_mic(self, text: bytes, mic: bytes) -> bool:
        """Whether it is a MIC of the client's over the text, and the context's next message. Refused: MEMORY."""
        return self._established().is_next_mic(text, mic)
