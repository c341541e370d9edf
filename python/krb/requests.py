"""Logins by Kerberos for the package requests (RFC 4559):

    import requests
    from krb.requests import NegotiateAuth

    answer = requests.get("https://www.home.test/", auth=NegotiateAuth("/tmp/krb5cc_1000"))

`krb.httpx` has the same for httpx. docs/CLIENT.md says what a client takes of a KDC."""

import functools
from typing import Any, Optional, Sequence, Union
from urllib.parse import urlsplit

from requests import PreparedRequest, RequestException, Response
from requests.auth import AuthBase
from requests.cookies import extract_cookies_to_jar
from requests.exceptions import UnrewindableBodyError

from krb._login import Login, NotDone, Tickets, asks_for_negotiate, bindings_to
from krb.client import USUAL, Credentials, Path, Settings

__all__ = ["NegotiateAuth", "NoTicket", "NotConfirmed"]


class NoTicket(RequestException):
    """There is no ticket for the server; `__cause__.__cause__` is why, as `krb.NotGranted`."""


class NotConfirmed(RequestException):
    """The server did not confirm that it is the one that the ticket is for; what it answered is not handed out."""


class NegotiateAuth(AuthBase):
    """`auth=` of requests: answers the status 401 with Negotiate by a ticket for `HTTP/HOST`, HOST being that of the URL, and takes a page only once the
    server has confirmed itself (mutual authentication). Any number of threads may use it.

    - `tickets`: the path of a FILE cache, as of `kinit` or `python3 -m krb kinit`, which is read at each login; `krb.Credentials`, a ticket-granting ticket or
      one for the server; None: the file of $KRB5CCNAME, or /tmp/krb5cc_UID.
    - `realms`: other realms to which a KDC may refer. `settings`: how KDCs are reached, for a file.
    - `channel_bindings`: whether a login over TLS is bound to the server's certificate, which has to be signed with SHA-256 then (RFC 5929, 4.1).

    A page that comes without a login is handed out as it is. An answer of the status 401 is handed out, too: the client is not let in. A redirect to another
    host gets no token. A request is sent again with the token, so its body has to be octets or text, or a file that can be read again."""

    def __init__(
        self, tickets: Union[Credentials, Path, None] = None, *, realms: Sequence[str] = (), channel_bindings: bool = True, settings: Settings = USUAL
    ) -> None:
        self._tickets, self._is_bound = Tickets(tickets, realms, settings), channel_bindings

    def __call__(self, r: PreparedRequest) -> PreparedRequest:
        tell = getattr(r.body, "tell", None)
        answered = functools.partial(self._answered, urlsplit(str(r.url)), tell() if tell else None)
        r.register_hook("response", answered)  # type: ignore[no-untyped-call]
        return r

    def _answered(self, first: Any, position: Optional[int], response: Response, **words: Any) -> Response:
        """The answer to the last request of a login, where one is asked for at the host and with the scheme of the first request."""
        url = urlsplit(str(response.url))
        is_there = url.hostname == first.hostname and (url.scheme == first.scheme or url.scheme == "https")
        if not is_there or not asks_for_negotiate(response.status_code, response.headers.get("WWW-Authenticate")):
            return response
        try:
            bindings = bindings_to(_certificate(response)) if url.scheme == "https" and self._is_bound else None
            login = Login(self._tickets, url.hostname or "", bindings)
            value: Optional[str] = login.begin()
            while value is not None:
                response = self._sent(response, value, position, words)
                value = login.take(response.status_code, response.headers.get("WWW-Authenticate"))
            return response
        except NotDone as error:
            response.close()
            raise (NoTicket if error.is_ticket else NotConfirmed)(str(error), request=response.request) from error

    @staticmethod
    def _sent(response: Response, value: str, position: Optional[int], words: Any) -> Response:
        """The answer to the request of a response, with this value of Authorization, on the connection of the response where it goes on."""
        response.content
        response.close()
        request: Any = response.request.copy()
        extract_cookies_to_jar(request._cookies, response.request, response.raw)  # type: ignore[no-untyped-call]
        request.headers.pop("Cookie", None)
        request.prepare_cookies(request._cookies)
        if request.body is not None and not isinstance(request.body, (bytes, str)):  # (after a redirect there may be none)
            if position is None:
                raise UnrewindableBodyError("the body cannot be sent again with the token", request=request)
            request.body.seek(position)
        request.headers["Authorization"] = value
        link: Any = response.connection  # type: ignore[attr-defined]
        later: Response = link.send(request, **words)
        later.history = [*response.history, response]
        later.request = request
        return later


def _certificate(response: Response) -> Optional[bytes]:
    """The server's certificate (DER), of the connection on which the response came; None where urllib3 does not tell it."""
    link = getattr(getattr(response.raw, "_connection", None), "sock", None)
    if link is None:
        link = getattr(getattr(getattr(getattr(response.raw, "_fp", None), "fp", None), "raw", None), "_sock", None)
    get = getattr(link, "getpeercert", None)
    return get(True) if get else None
