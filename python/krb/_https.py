"""A KDC proxy as the way to a KDC (MS-KKDCP, 3.1.5), over HTTP/1.1 and TLS."""

import contextlib
import http.client
import io
import socket
import ssl
from typing import Any, Sequence

from krb import proxy
from krb._kdc import LIMIT, Address, Replies, left
from krb._library import Refused, Status

_TYPE = "application/kerberos"
_HEADERS = 1 << 16  # what of HTTP stands before and between a reply's octets, at most


class _Came:
    """What http.client reads in the place of a socket."""

    def __init__(self, octets: bytes) -> None:
        self._octets = octets

    def makefile(self, *_: Any) -> io.BytesIO:
        return io.BytesIO(self._octets)


def posted(address: Address, realm: str, request: bytes, anchors: Sequence[str], end: float) -> Replies:
    """The reply of a KDC proxy (MS-KKDCP, 3.1.5), whose certificate is checked."""
    body = proxy.write_request(request, realm.encode("ascii"))
    host = str(address)[len("https://") : -len(address.path)]
    lines = ["POST %s HTTP/1.1" % address.path, "Host: " + host, "Content-Type: " + _TYPE, "Content-Length: %d" % len(body), "Connection: close"]
    context = ssl.create_default_context()
    for anchor in anchors:
        kind, _, path = anchor.partition(":")
        if kind not in ("FILE", "DIR"):
            raise ValueError("no FILE:PATH and no DIR:PATH of certificates: %a" % anchor)
        context.load_verify_locations(**{"cafile" if kind == "FILE" else "capath": path})
    with contextlib.ExitStack() as stack:
        plain = stack.enter_context(socket.create_connection((address.host, address.port), left(end)))
        plain.settimeout(left(end))
        link = stack.enter_context(context.wrap_socket(plain, server_hostname=address.host))
        link.settimeout(left(end))
        link.sendall("\r\n".join(lines + ["", ""]).encode("ascii") + body)
        came = bytearray()
        while True:
            link.settimeout(left(end))
            part = link.recv(65536)
            if not part:
                break
            came += part
            if len(came) > LIMIT + _HEADERS:
                raise ConnectionError("its reply has more than %d octets" % LIMIT)
    try:
        response = http.client.HTTPResponse(_Came(bytes(came)), method="POST")  # type: ignore[arg-type]
        response.begin()
        told = response.read()
    except http.client.HTTPException as error:
        raise ConnectionError("its reply is not of HTTP: %s" % type(error).__name__) from None
    if response.status != 200:
        raise ConnectionError("the proxy answers %d %s" % (response.status, ascii(response.reason)[1:-1]))
    try:
        reply = proxy.read_reply(told)
    except Refused as refused:
        if refused.status == Status.MEMORY:
            raise
        raise ConnectionError("the proxy's reply is refused: %s" % refused) from None
    yield reply
