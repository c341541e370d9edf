"""An ASGI 3 middleware that lets in those who have a ticket: HTTP authentication by SPNEGO or Kerberos (RFC 4559), as of Starlette and FastAPI.

    import krb
    from krb.asgi import Negotiate

    replays = krb.FileReplayCache("/var/lib/page/replay")
    acceptor = krb.Acceptor("/etc/http.keytab", replay_cache=replays, server="HTTP/www.home.test")
    application.add_middleware(Negotiate, acceptor=acceptor)

The logger is `krb.asgi`. It needs neither Starlette nor FastAPI, and an event loop of asyncio's. docs/ACCEPTOR.md says who is let in."""

import asyncio
import logging
from typing import Any, Awaitable, Callable, List, MutableMapping, NamedTuple, Optional, Tuple, Union

from krb._authorization import REFUSED, Gate, bindings_of
from krb._context import Context
from krb._library import Octets
from krb.accept import Acceptor, ChannelBindings

__all__ = ["Granted", "Negotiate", "User", "bindings_of"]

_log = logging.getLogger("krb.asgi")
_Message = MutableMapping[str, Any]
_Send = Callable[[_Message], Awaitable[None]]
_Receive = Callable[[], Awaitable[_Message]]
_Application = Callable[[_Message, _Receive, _Send], Awaitable[None]]
_Fields = List[Tuple[bytes, bytes]]


class User(NamedTuple):
    """Who is let in, as Starlette has it in `request.user`. `display_name`, `identity`: the client's name, `ann@HOME.TEST`. `context`: its `krb.Context`."""

    display_name: str
    context: Context
    is_authenticated: bool = True

    @property
    def identity(self) -> str:
        return self.display_name


class Granted(NamedTuple):
    """What the user may do, as Starlette has it in `request.auth` and asks by `requires("authenticated")`. More is the application's to say."""

    scopes: List[str]


class Negotiate(Gate):
    """Lets those requests through to the application whose client the acceptor lets in: `scope["user"]` is its `User`, `scope["krb.context"]` its
    `krb.Context`. Others are answered by the status 401, WebSockets before they are opened by the server's 403; and each request is judged anew, in a thread.

    - `acceptor`: a `krb.Acceptor`. Its keytab, where it is a file, is read anew once the file changed; one that cannot be read leaves the keys as they were.
    - `bindings`: the service's channel bindings, as `bindings_of` tells them; None: none are checked.
    - `addresses`: whether a ticket that is for addresses has to come from one of them, by scope["client"]. False behind a proxy, whose address that is.

    ASGI tells nothing of connections, on which a negotiation of more than one token goes on. So the first token has to be the last one: a client that lists
    another mechanism before Kerberos, and begins with its token, is refused, which the log says; so is DCE style. What a replay cache raises goes to the
    server."""

    def __init__(
        self, app: _Application, acceptor: Acceptor, bindings: Union[Octets, ChannelBindings, None] = None, addresses: bool = True
    ) -> None:
        super().__init__(acceptor, bindings, False, addresses, _log)
        self.app = app

    async def __call__(self, scope: _Message, receive: _Receive, send: _Send) -> None:
        kind = scope["type"]
        if kind == "lifespan":
            await self.app(scope, receive, send)
            return
        if kind not in ("http", "websocket"):
            raise ValueError("nobody is let in by a scope of another type than http and websocket: %a" % (kind,))
        answer = await asyncio.to_thread(self.judge, _authorization(scope), (scope.get("client") or [None])[0], None)
        fields: _Fields = [] if answer.challenge is None else [(b"www-authenticate", answer.challenge.encode("ascii"))]
        if answer.negotiator is None:
            await _refuse(scope, send, fields)
            return
        name, context = answer.negotiator.peer or "", answer.negotiator.context
        own = dict(scope, **{"user": User(name, context), "auth": Granted(["authenticated"]), "krb.context": context})
        begins = "http.response.start" if kind == "http" else "websocket.accept"

        async def answered(message: _Message) -> None:
            if fields and message["type"] == begins:
                message = dict(message, headers=[*message.get("headers", ()), *fields])
            await send(message)

        await self.app(own, receive, answered)


def _authorization(scope: _Message) -> Optional[str]:
    """The value of Authorization; of several that of a list, which is no token."""
    values = [value for name, value in scope["headers"] if name.lower() == b"authorization"]
    return b", ".join(values).decode("latin-1") if values else None


async def _refuse(scope: _Message, send: _Send, fields: _Fields) -> None:
    """The status 401, and nothing behind it where a HEAD came; a WebSocket is closed."""
    if scope["type"] == "websocket":
        await send({"type": "websocket.close", "code": 1008})  # policy violation (RFC 6455, 7.4.1)
        return
    fields = [*fields, (b"content-type", b"text/plain"), (b"content-length", b"%d" % len(REFUSED))]
    await send({"type": "http.response.start", "status": 401, "headers": fields})
    await send({"type": "http.response.body", "body": b"" if scope["method"] == "HEAD" else REFUSED})
