"""How octets go to a KDC and come back (RFC 4120, 7.2; MS-KKDCP)."""

import contextlib
import re
import socket
import time
from typing import Any, Callable, Dict, Generator, Iterator, List, Mapping, NamedTuple, Optional, Protocol, Sequence, Tuple, TypeVar, Union

from krb import _dns, _trace, proxy
from krb._configuration import Configuration
from krb._exchange import ClientRule, Follows, NotGranted
from krb._library import Refused, Status

__all__ = ["KdcUnreachable", "Kdcs"]

Named = Union[None, str, Sequence[str], Mapping[str, Union[str, Sequence[str]]]]


class Following(Protocol):
    """What follows on a reply."""

    @property
    def follows(self) -> Follows: ...


Told = TypeVar("Told", bound=Following)
Take = Callable[[bytes, bool], Told]
Replies = Generator[bytes, None, None]

LIMIT = 1 << 20  # the octets of a reply, at most
_PORT, _PASSWORD_PORT, _DNS_PORT = 88, 464, 53
_RESPONSE_TOO_BIG, _UNAVAILABLE = 52, 29  # KRB_ERR_RESPONSE_TOO_BIG, KDC_ERR_SVC_UNAVAILABLE (RFC 4120, 7.5.9)
_FIRST_WAIT = 1.0  # until a datagram is sent again, in seconds; then twice as long each time


class KdcUnreachable(OSError):
    """No KDC of the realm answers."""


class Address(NamedTuple):
    """Where a KDC is: `kind` is "tcp", "udp" or "https", `path` that of the latter."""

    kind: str
    host: str
    port: int
    path: str = ""

    def __str__(self) -> str:
        host = "[%s]" % self.host if ":" in self.host else self.host
        return "https://%s:%d%s" % (host, self.port, self.path) if self.kind == "https" else "%s/%s:%d" % (self.kind, host, self.port)


_WORD = re.compile(r"(?:(tcp|udp)/)?(?:\[([^\]]+)\]|([^:/\[\]]+|[0-9A-Fa-f:.]*:[0-9A-Fa-f:.]*:[0-9A-Fa-f:.]*))(?::([0-9]{1,5}))?")
_URL = re.compile(r"https://(?:\[([^\]]+)\]|([^:/\[\]]+))(?::([0-9]{1,5}))?(/[!-~]*)?")


def addresses(word: str, port: int = _PORT) -> List[Address]:
    """Those that a word names: HOST[:PORT], over TCP and then UDP; with tcp/ or udp/ before it, over this alone; https://HOST[:PORT]/PATH of a KDC proxy."""
    found = _URL.fullmatch(word)
    if found is not None:
        return [Address("https", found[1] or found[2], int(found[3] or 443), found[4] or "/")]
    found = _WORD.fullmatch(word)
    if found is None:
        raise ValueError("no address of a KDC: %a" % word)
    return [Address(kind, found[2] or found[3], int(found[4] or port)) for kind in ([found[1]] if found[1] else ["tcp", "udp"])]


def left(end: float) -> float:
    """How many seconds there are until then."""
    seconds = end - time.monotonic()
    if seconds <= 0:
        raise socket.timeout("timed out")
    return seconds


def _shown(kind: str, place: Any) -> str:
    """An address of a socket, as "stream 127.0.0.1:88"."""
    host, port = place[:2]
    return "%s %s:%d" % (kind, "[%s]" % host if ":" in host else host, port)


def _connected(link: socket.socket, address: Any, end: float) -> None:
    link.settimeout(left(end))
    link.connect(address)


def _places(address: Address, kind: socket.SocketKind) -> Iterator[Tuple[socket.AddressFamily, Any]]:
    _trace.say("Resolving hostname %s", address.host)
    for family, _, _, _, place in socket.getaddrinfo(address.host, address.port, type=kind):
        yield family, place


def _stream(family: int, place: Any, request: bytes, end: float) -> Replies:
    """The reply over TCP, behind its length in four octets (RFC 4120, 7.2.2)."""
    with socket.socket(family, socket.SOCK_STREAM) as link:
        where = _shown("stream", place)
        _trace.say("Initiating TCP connection to %s", where)
        _connected(link, place, end)
        _trace.say("Sending TCP request to %s", where)
        link.settimeout(left(end))
        link.sendall(len(request).to_bytes(4, "big") + request)
        reply = bytearray()
        try:
            while not proxy.is_whole(reply, LIMIT):
                link.settimeout(left(end))
                part = link.recv(65536)
                if not part:
                    raise ConnectionError("it closed before its reply was whole")
                reply += part
        except Refused as refused:
            if refused.status != Status.PROXY_TOO_LARGE:
                raise
            raise ConnectionError("its reply has more than %d octets, or than its length says" % LIMIT) from None
        _trace.say("Received answer (%d bytes) from %s", len(reply) - 4, where)
        yield bytes(reply[4:])


def _datagrams(family: int, place: Any, request: bytes, end: float) -> Replies:
    """The replies over UDP (RFC 4120, 7.2.1) that come to a socket of this request's own; it is sent again until one is taken."""
    with socket.socket(family, socket.SOCK_DGRAM) as link:
        _connected(link, place, end)
        wait, where, which = _FIRST_WAIT, _shown("dgram", place), "initial"
        while True:
            _trace.say("Sending %s UDP request to %s", which, where)
            which = "retry"
            link.send(request)
            again = time.monotonic() + wait
            while time.monotonic() < again:
                link.settimeout(min(max(again - time.monotonic(), 0.001), left(end)))
                try:
                    reply = link.recv(65535)
                except socket.timeout:
                    continue
                _trace.say("Received answer (%d bytes) from %s", len(reply), where)
                yield reply
            left(end)
            wait *= 2


class Kdcs:
    """The KDCs of realms: those that are named, for all realms or by realm; else those of krb5.conf; else, where it is asked for, those of DNS.

    With `changes`, the servers that change passwords (RFC 3244), which are where the KDCs are if nothing else is said."""

    def __init__(
        self, named: Named = None, configuration: Optional[str] = None, dns: Union[bool, str] = False, seconds: float = 10.0, changes: bool = False
    ) -> None:
        self._named, self._path, self._dns, self._seconds = named, configuration, dns, seconds
        self._service, self._port = ("kpasswd", _PASSWORD_PORT) if changes else ("kerberos", _PORT)
        self._read: Optional[Configuration] = None
        self._found: Dict[str, List[Address]] = {}
        self._last: Optional[Address] = None  # the one that answered last

    def configuration(self) -> Configuration:
        if self._read is None:
            self._read = Configuration(self._path)
        return self._read

    def _words(self, realm: str) -> List[str]:
        named = self._named.get(realm) if isinstance(self._named, Mapping) else self._named
        if named is not None:
            return [named] if isinstance(named, str) else list(named)
        found = self.configuration()
        words = found.kdcs(realm) if self._service == "kerberos" else found.password_servers(realm)
        return words or (self._asked_for(realm) if self._dns else [])

    def _asked_for(self, realm: str) -> List[str]:
        """What DNS says of a realm."""
        resolver, words = None, []
        if isinstance(self._dns, str):
            server = addresses("udp/" + self._dns, _DNS_PORT)[0]
            resolver = server.host, server.port
        for kind in ("tcp", "udp"):
            found = _dns.servers("_%s._%s.%s" % (self._service, kind, realm), self._seconds, resolver)
            words += ["%s/%s:%d" % (kind, each.host, each.port) for each in found]
        return words

    def addresses(self, realm: str) -> List[Address]:
        """A realm's KDCs in the order in which they are tried; the one that answered last comes first. They are looked for once.

        KdcUnreachable: there is none. ValueError: one is no address."""
        if realm not in self._found:
            try:
                self._found[realm] = [address for word in self._words(realm) for address in addresses(word, self._port)]
            except OSError as error:
                why = "%s: %s" % (error.filename, error.strerror) if error.filename and error.strerror else str(error)
                raise KdcUnreachable("no KDC of %s is found: %s" % (ascii(realm)[1:-1], why)) from error
        if not self._found[realm]:
            raise KdcUnreachable("no KDC of %s is known" % ascii(realm)[1:-1])
        return sorted(self._found[realm], key=lambda each: each != self._last)

    def _replies(self, address: Address, realm: str, request: bytes) -> Iterator[Replies]:
        """The replies of an address, by each place that its host has. Each has all seconds."""
        if address.kind == "https":
            from krb._https import posted  # most clients need no TLS

            _trace.say("Sending HTTPS request to %s", address)
            yield posted(address, realm, request, self.configuration().anchors(realm), time.monotonic() + self._seconds)
            return
        kind, ask = (socket.SOCK_DGRAM, _datagrams) if address.kind == "udp" else (socket.SOCK_STREAM, _stream)
        for family, place in _places(address, kind):
            yield ask(family, place, request, time.monotonic() + self._seconds)

    def _tried(self, address: Address, realm: str, request: bytes, take: Take[Told]) -> Told:
        failed: OSError = ConnectionError("its name has no address")
        for replies in self._replies(address, realm, request):
            try:
                with contextlib.closing(replies):
                    for reply in replies:
                        answer = take(reply, address.kind == "udp")
                        if answer.follows != Follows.WAITS:
                            return answer
                failed = ConnectionError("it does not reply to this request")
            except OSError as error:
                failed = error
        raise failed

    def answer(self, realm: str, request: bytes, take: Take[Told]) -> Told:
        """What `take` says of a KDC's reply, and of the next one where it waits for that. KDCs are tried in their order until one replies.

        KdcUnreachable: none does. What `take` raises is raised on, but of a KDC that reports that it has no service, and over UDP that its reply is too big for that: the
        next one is tried then, and the same one over TCP."""
        _trace.say("Sending request (%d bytes) to %s", len(request), ascii(realm)[1:-1])
        waiting, failures, last = self.addresses(realm), [], None
        while waiting:
            address = waiting.pop(0)
            try:
                answer = self._tried(address, realm, request, take)
                self._last = address
                return answer
            except NotGranted as refused:
                if refused.rule != ClientRule.KDC or refused.code not in (_RESPONSE_TOO_BIG, _UNAVAILABLE):
                    raise
                if refused.code == _RESPONSE_TOO_BIG:
                    if address.kind != "udp":
                        raise
                    waiting.insert(0, address._replace(kind="tcp"))
                last = refused
                failures.append("%s: %s" % (address, refused))
            except OSError as error:
                _trace.say("Request to %s failed: %s", address, error.strerror or error)
                failures.append("%s: %s" % (address, error.strerror or error))
        if last is not None and len(failures) == 1:
            raise last
        raise KdcUnreachable("no KDC of %s answers: %s" % (ascii(realm)[1:-1], "; ".join(failures)))
