"""What the field Authorization of a request comes to by SPNEGO or Kerberos (RFC 4559): what `krb.wsgi` and `krb.asgi` have alike."""

import base64
import hashlib
import ipaddress
import logging
import os
import ssl
from typing import Any, Dict, NamedTuple, Optional, Union

from krb import spnego
from krb._library import Octets, Refused
from krb._mechanism import KerberosMechanism
from krb.accept import Acceptor, ChannelBindings
from krb.negotiate import NegotiationRole, NegotiationState, Negotiator, NotNegotiated

__all__ = ["REFUSED", "Answer", "Gate", "bindings_of"]

REFUSED = b"Kerberos is needed.\n"  # the page of the status 401
_SCHEME = "negotiate"


def bindings_of(certificate: Union[str, "os.PathLike[str]"]) -> bytes:
    """The channel bindings of a server with the certificate in this file (PEM), which is signed with SHA-256 (RFC 5929, 4.1)."""
    with open(certificate, encoding="ascii") as file:
        return b"tls-server-end-point:" + hashlib.sha256(ssl.PEM_cert_to_DER_cert(file.read())).digest()


class Answer(NamedTuple):
    """What a request comes to. `negotiator`: the negotiation with the client, which is let in; None: it is not. `challenge`: the value of WWW-Authenticate,
    None where there is none."""

    negotiator: Optional[Negotiator]
    challenge: Optional[str]


def _challenge(token: Optional[bytes]) -> str:
    return ("Negotiate " + base64.b64encode(token or b"").decode("ascii")).strip()


def _is_address(address: Optional[str]) -> bool:
    """Whether it is one of IPv4 or IPv6, as a server tells that of a client; of a socket in a file there is none."""
    try:
        ipaddress.ip_address(address or "")
    except ValueError:
        return False
    return True


class Gate:
    """Decides about requests, over a `krb.Acceptor`, whose keytab it reads anew where the file changed.

    - `bindings`: the service's channel bindings, as `bindings_of` tells them; None: none are checked. `asks`: whether MICs are wanted over the list of
      mechanisms of each client that speaks SPNEGO (`krb.Negotiator`).
    - `addresses`: whether a ticket that is for addresses has to come from one of them. False where the address is that of a proxy.
    - `log`: gets a line for each client that is not let in, of level WARNING, which begins with the client's address. That a request came without a token, as
      the first one of most clients does, is of level DEBUG."""

    def __init__(
        self, acceptor: Acceptor, bindings: Union[Octets, ChannelBindings, None], asks: Optional[bool], addresses: bool, log: logging.Logger
    ) -> None:
        self.acceptor, self.bindings, self.asks, self.addresses = acceptor, bindings, asks, addresses
        self._log, self._told = log, ""

    def begun(self, address: Optional[str] = None) -> Negotiator:
        """A negotiation with a client at this address, of Kerberos alone."""
        known = address if self.addresses and _is_address(address) else None
        return Negotiator(NegotiationRole.ACCEPTOR, [KerberosMechanism(self.acceptor, self.bindings, known)], self.asks)

    def judge(self, authorization: Optional[str], address: Optional[str], connection: Optional[Dict[str, Any]]) -> Answer:
        """What a request with this value of Authorization comes to, if it has one. `connection` is a dict of its connection's, which keeps a negotiation of
        more than one token; without one the client is refused whose first token is not the last.

        What a replay cache raises, and what is no refusal of the client, as sqlite3.Error, is raised on: the client is not let in."""
        self._look_at_keytab()
        scheme, _, text = (authorization or "").partition(" ")
        if scheme.lower() != _SCHEME:
            what = "the login is of another scheme than Negotiate" if authorization else "no token came, and one is asked for"
            self._say(logging.INFO if authorization else logging.DEBUG, address, what)
            return Answer(None, _challenge(None))
        kept = {} if connection is None else connection
        try:
            octets = base64.b64decode(text.strip(), validate=True)
            negotiator = kept.pop("negotiator", None) or self.begun(address)
            token, state = negotiator.step(octets)
        except NotNegotiated as refused:
            self._say(logging.WARNING, address, refused)
            return Answer(None, _challenge(refused.answer))
        except ValueError as refused:
            self._say(logging.WARNING, address, refused)
            return Answer(None, _challenge(None))
        if state == NegotiationState.COMPLETE:
            self._say(logging.DEBUG, address, "%s is let in" % negotiator.peer)
            return Answer(negotiator, _challenge(token) if token else None)
        if connection is None:
            self._say(logging.WARNING, address, "the negotiation needs a further token, and the server keeps none of a connection's")
            return Answer(None, _challenge(spnego.make_neg_token_resp(spnego.NegState.REJECT)))
        connection["negotiator"] = negotiator
        self._say(logging.DEBUG, address, "the negotiation goes on")
        return Answer(None, _challenge(token))

    def _look_at_keytab(self) -> None:
        """Reads the keytab anew where it changed; where it cannot be read, the old keys stay, and one warning says so."""
        try:
            is_another = self.acceptor.reload_if_changed()
        except (OSError, Refused) as error:
            if str(error) != self._told:
                self._told = str(error)
                self._log.warning("the keytab cannot be read, and the keys of before stay: %s", error)
            return
        self._told = ""
        if is_another:
            self._log.info("the keytab was read anew")

    def _say(self, level: int, address: Optional[str], what: object) -> None:
        if self._log.isEnabledFor(level):
            self._log.log(level, "%s: %s", *(ascii(str(each))[1:-1] for each in (address or "-", what)))
