"""Logins by Kerberos for the package httpx (RFC 4559):

    import httpx
    from krb.httpx import NegotiateAuth

    answer = httpx.get("https://www.home.test/", auth=NegotiateAuth("/tmp/krb5cc_1000"))

`krb.requests` has the same for requests. docs/CLIENT.md says what a client takes of a KDC."""

import asyncio
from typing import AsyncGenerator, Generator, Optional, Sequence, Union

import httpx

from krb._login import Login, NotDone, Tickets, asks_for_negotiate, bindings_to
from krb.client import USUAL, Credentials, Path, Settings

__all__ = ["NegotiateAuth", "NoTicket", "NotConfirmed"]

_FIELD = "WWW-Authenticate"


class NoTicket(httpx.RequestError):
    """There is no ticket for the server; `__cause__.__cause__` is why, as `krb.NotGranted`."""


class NotConfirmed(httpx.RequestError):
    """The server did not confirm that it is the one that the ticket is for; what it answered is not handed out."""


class NegotiateAuth(httpx.Auth):
    """`auth=` of httpx, with the arguments of `krb.requests.NegotiateAuth`: answers the status 401 with Negotiate, and takes a page only once the server has
    confirmed itself. In an `httpx.AsyncClient` tickets are got in a thread, by an event loop of asyncio's.

    Redirects are followed by the caller: httpx follows one with the token of the request before, which lets nobody in twice, and the answer that confirmed the
    server is lost. So what comes at the end of a redirect is a 401, or NotConfirmed."""

    requires_request_body = True

    def __init__(
        self, tickets: Union[Credentials, Path, None] = None, *, realms: Sequence[str] = (), channel_bindings: bool = True, settings: Settings = USUAL
    ) -> None:
        self._tickets, self._is_bound = Tickets(tickets, realms, settings), channel_bindings

    def sync_auth_flow(self, request: httpx.Request) -> Generator[httpx.Request, httpx.Response, None]:
        request.read()
        response = yield request
        if not _is_asked(request, response):
            return
        try:
            login = self._begun(response)
            value: Optional[str] = login.begin()
            while value is not None:
                request.headers["Authorization"] = value
                response = yield request
                value = login.take(response.status_code, response.headers.get(_FIELD))
        except NotDone as error:
            response.close()
            raise _told(error, request) from error

    async def async_auth_flow(self, request: httpx.Request) -> AsyncGenerator[httpx.Request, httpx.Response]:
        await request.aread()
        response = yield request
        if not _is_asked(request, response):
            return
        try:
            login = await asyncio.to_thread(self._begun, response)
            value: Optional[str] = login.begin()
            while value is not None:
                request.headers["Authorization"] = value
                response = yield request
                value = login.take(response.status_code, response.headers.get(_FIELD))
        except NotDone as error:
            await response.aclose()
            raise _told(error, request) from error

    def _begun(self, response: httpx.Response) -> Login:
        """A login at the server that sent this response, bound to its certificate. NotDone: there is no ticket, or no certificate."""
        url, bindings = response.request.url, None
        if url.scheme == "https" and self._is_bound:
            stream = response.extensions.get("network_stream")
            link = None if stream is None else stream.get_extra_info("ssl_object")
            bindings = bindings_to(None if link is None else link.getpeercert(True))
        return Login(self._tickets, url.host, bindings)


def _is_asked(request: httpx.Request, response: httpx.Response) -> bool:
    """Whether a login is asked for by the server to which the request went."""
    one, other = request.url, response.request.url
    return (one.scheme, one.host, one.port) == (other.scheme, other.host, other.port) and asks_for_negotiate(response.status_code, response.headers.get(_FIELD))


def _told(error: NotDone, request: httpx.Request) -> httpx.RequestError:
    return (NoTicket if error.is_ticket else NotConfirmed)(str(error), request=request)
