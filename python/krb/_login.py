"""A client's login at a web server by SPNEGO (RFC 4559): what `krb.requests` and `krb.httpx` have alike."""

import base64
import binascii
import hashlib
import os
import re
import threading
from typing import Dict, Optional, Sequence, Tuple, Union

from krb._initiator import KerberosInitiator
from krb._paths import Failed, cache_path
from krb.client import USUAL, Credentials, Path, Settings, load, load_all
from krb.negotiate import NegotiationRole, NegotiationState, Negotiator, NotNegotiated

__all__ = ["Login", "NotDone", "Tickets", "asks_for_negotiate", "bindings_to"]

_CHALLENGE = re.compile(r"(?:^|,)\s*Negotiate(?:\s+([A-Za-z0-9+/]+=*))?\s*(?=,|$)", re.IGNORECASE)


class NotDone(Exception):
    """There is no ticket, or the server does not confirm itself; `is_ticket` says which."""

    def __init__(self, text: str, is_ticket: bool) -> None:
        super().__init__(text)
        self.is_ticket = is_ticket


def asks_for_negotiate(status: int, challenges: Optional[str]) -> bool:
    """Whether an answer is the status 401 with a challenge of Negotiate, and no token."""
    found = _CHALLENGE.search(challenges or "") if status == 401 else None
    return found is not None and not found[1]


def bindings_to(certificate: Optional[bytes]) -> bytes:
    """The channel bindings of a connection to the server of this certificate (DER), which is signed with SHA-256 (RFC 5929, 4.1)."""
    if not certificate:
        raise NotDone("the server's certificate is not known, to which the login is bound (channel_bindings=False binds it to none)", False)
    return b"tls-server-end-point:" + hashlib.sha256(certificate).digest()


class Tickets:
    """Tickets for web servers, each got once and kept as long as it is valid. Any number of threads may use it.

    `source`: a ticket-granting ticket, or a ticket for one server; the path of a FILE cache; or None for that of $KRB5CCNAME. A file is read at each login."""

    def __init__(self, source: Union[Credentials, Path, None], realms: Sequence[str], settings: Settings = USUAL) -> None:
        self._source, self._realms, self._settings = source, tuple(realms), settings
        self._kept: Dict[Tuple[bytes, str], Credentials] = {}
        self._lock = threading.Lock()

    def of(self, host: str) -> Credentials:
        """The ticket for the server at a host. NotDone: there is none."""
        try:
            return self._of("HTTP/" + host)
        except (OSError, ValueError, LookupError, Failed) as error:
            raise NotDone("no ticket for HTTP/%s: %s" % (host, error), True) from error

    def _of(self, service: str) -> Credentials:
        source = self._source
        if not isinstance(source, Credentials):
            path = cache_path(None) if source is None else os.fspath(source)
            for each in load_all(path, self._settings):
                if each.is_valid and each.server.rpartition("@")[0] == service:
                    return each
            source = load(path, self._settings)
        if source.entry.server.granting_realm is None:
            if source.server.rpartition("@")[0] != service:
                raise ValueError("the ticket is for %s" % source.server)
            return source
        key = source.ticket, service
        with self._lock:
            found = self._kept.get(key)
        if found is None or not found.is_valid:
            found = source.ticket_for(service, self._realms)
            with self._lock:
                self._kept = {each: kept for each, kept in self._kept.items() if kept.is_valid}
                self._kept[key] = found
        return found


class Login:
    """One login at a server, whose answers are taken one by one. NotDone: there is no ticket for it."""

    def __init__(self, tickets: Tickets, host: str, bindings: Optional[bytes]) -> None:
        ticket = tickets.of(host)
        self._server = ticket.server
        self._side = Negotiator(NegotiationRole.INITIATOR, [KerberosInitiator(ticket, channel_bindings=bindings)])

    def begin(self) -> str:
        """The value of Authorization of the first request."""
        token, _ = self._side.step()
        return self._value(token or b"")

    def take(self, status: int, challenges: Optional[str]) -> Optional[str]:
        """The value of Authorization of a further request; None where the answer with this status and these values of WWW-Authenticate is the last one. Of
        another status than 401 the server has confirmed itself then. NotDone: it has not."""
        if self._side.state == NegotiationState.RUNNING:
            found = _CHALLENGE.search(challenges or "")
            token, why = None, "it sends no token"
            try:
                if found is not None and found[1]:
                    token, _ = self._side.step(base64.b64decode(found[1], validate=True))
            except (NotNegotiated, binascii.Error) as refused:
                why = str(refused)
            if token is not None and status == 401:
                return self._value(token)
            if self._side.state != NegotiationState.COMPLETE and status != 401:
                raise NotDone("the server answers %d and does not confirm that it is %s: %s" % (status, self._server, why), False)
        return None

    @staticmethod
    def _value(token: bytes) -> str:
        return "Negotiate " + base64.b64encode(token).decode("ascii")
