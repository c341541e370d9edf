"""A WSGI middleware (PEP 3333) that lets in those who have a ticket: HTTP authentication by SPNEGO or Kerberos (RFC 4559).

    import krb
    from krb.wsgi import Negotiate

    replays = krb.FileReplayCache("/var/lib/page/replay")
    acceptor = krb.Acceptor("/etc/http.keytab", replay_cache=replays, server="HTTP/www.home.test")
    application = Negotiate(page, acceptor)

The logger is `krb.wsgi`. docs/ACCEPTOR.md says who is let in, and examples/http_negotiate is a server."""

import logging
from typing import Any, Callable, Dict, Iterable, List, Optional, Tuple, Union

from krb._authorization import REFUSED, Gate, bindings_of
from krb._library import Octets
from krb.accept import Acceptor, ChannelBindings

__all__ = ["Negotiate", "bindings_of"]

_log = logging.getLogger("krb.wsgi")
_Fields = List[Tuple[str, str]]


class Negotiate(Gate):
    """Lets those requests through to the application whose client the acceptor lets in; REMOTE_USER names it, as `ann@HOME.TEST`, AUTH_TYPE is Negotiate, and
    krb.context is its `krb.Context`. Others are answered by the status 401, and each request is judged anew.

    - `acceptor`: a `krb.Acceptor`. Its keytab, where it is a file, is read anew once the file changed; one that cannot be read leaves the keys as they were.
    - `bindings`: the service's channel bindings, as `bindings_of` tells them; None: none are checked.
    - `asks`: whether MICs are wanted over the list of mechanisms of each client that speaks SPNEGO.
    - `addresses`: whether a ticket that is for addresses has to come from one of them, by REMOTE_ADDR. False behind a proxy, whose address that is.

    A negotiation of more than one token goes on from request to request of one connection: the server puts a dict of the connection's into
    environ["negotiate.connection"], and without one the negotiation has to end with the first token. What a replay cache raises goes to the server."""

    def __init__(
        self,
        application: Callable[..., Iterable[bytes]],
        acceptor: Acceptor,
        bindings: Union[Octets, ChannelBindings, None] = None,
        asks: Optional[bool] = False,
        addresses: bool = True,
    ) -> None:
        super().__init__(acceptor, bindings, asks, addresses, _log)
        self.application = application

    def __call__(self, environ: Dict[str, Any], start_response: Callable[..., Any]) -> Iterable[bytes]:
        answer = self.judge(environ.get("HTTP_AUTHORIZATION"), environ.get("REMOTE_ADDR"), environ.get("negotiate.connection"))
        fields: _Fields = [] if answer.challenge is None else [("WWW-Authenticate", answer.challenge)]
        if answer.negotiator is not None:
            client = answer.negotiator
            environ.update({"REMOTE_USER": client.peer, "AUTH_TYPE": "Negotiate", "krb.context": client.context})
            return self.application(environ, lambda status, own, *rest: start_response(status, own + fields, *rest))
        fields += [("Content-Type", "text/plain"), ("Content-Length", str(len(REFUSED)))]
        start_response("401 Unauthorized", fields)
        return [] if environ.get("REQUEST_METHOD") == "HEAD" else [REFUSED]
