"""Where a realm's KDCs are, by DNS (RFC 4120, 7.2.3.2; RFC 2782; RFC 1035). Nobody vouches for what it answers."""

import random
import secrets
import socket
import struct
import time
from typing import List, NamedTuple, Optional, Tuple

__all__ = ["Server", "servers"]

_SRV, _INTERNET = 33, 1
_RESOLVERS = "/etc/resolv.conf"
_LONGEST = 65535


class Server(NamedTuple):
    """What an SRV record says (RFC 2782)."""

    priority: int
    weight: int
    port: int
    host: str


def _labels(name: str) -> bytes:
    """A name as a question has it (RFC 1035, 3.1)."""
    made = b""
    for label in name.rstrip(".").encode("ascii").split(b"."):
        if not 0 < len(label) < 64:
            raise ValueError("no name of DNS: %a" % name)
        made += bytes([len(label)]) + label
    return made + b"\0"


def _name(message: bytes, at: int) -> Tuple[str, int]:
    """The name at a place of a message, which may go on in another place before it (RFC 1035, 4.1.4), and where what follows stands."""
    labels, behind, first = [], -1, at
    while message[at]:
        size = message[at]
        if size >= 192:
            behind = at + 2 if behind < 0 else behind
            at = (size & 63) << 8 | message[at + 1]
            if at >= first:
                raise ValueError("a name of DNS that does not go back")
            first = at
        elif size >= 64:
            raise ValueError("no label of DNS")
        else:
            labels.append(message[at + 1 : at + 1 + size].decode("ascii"))
            at += 1 + size
    return ".".join(labels), at + 1 if behind < 0 else behind


def _read(message: bytes, question: bytes) -> List[Server]:
    """The servers of the answer to a question."""
    if message[12 : 12 + len(question)] != question:
        raise ValueError("the answer is to another question")
    if message[3] & 15 not in (0, 3):
        raise ValueError("the name server reports the error %d" % (message[3] & 15))
    found, at = [], 12 + len(question)
    for _ in range(int.from_bytes(message[6:8], "big")):
        _, at = _name(message, at)
        kind, family, _, size = struct.unpack_from(">HHIH", message, at)
        at += 10
        if (kind, family) == (_SRV, _INTERNET):
            priority, weight, port = struct.unpack_from(">HHH", message, at)
            found.append(Server(priority, weight, port, _name(message, at + 6)[0]))
        at += size
    return [each for each in found if each.host]  # "." says that there is no such service


def _over_stream(address: Tuple[str, int], query: bytes, end: float) -> bytes:
    """The answer over TCP (RFC 1035, 4.2.2)."""
    with socket.create_connection(address, max(end - time.monotonic(), 0.001)) as link:
        link.sendall(struct.pack(">H", len(query)) + query)
        came, size = b"", 2
        while len(came) < size:
            link.settimeout(max(end - time.monotonic(), 0.001))
            part = link.recv(_LONGEST)
            if not part:
                raise ConnectionError("the name server closed before its answer was whole")
            came += part
            size = 2 + int.from_bytes(came[:2], "big") if len(came) >= 2 else 2
        return came[2:size]


def _answer(address: Tuple[str, int], query: bytes, end: float) -> bytes:
    """The answer in a datagram, and where that says that it was cut over a stream."""
    family = socket.getaddrinfo(*address, type=socket.SOCK_DGRAM)[0][0]
    with socket.socket(family, socket.SOCK_DGRAM) as link:
        link.connect(address)
        link.send(query)
        while True:
            link.settimeout(max(end - time.monotonic(), 0.001))
            message = link.recv(_LONGEST)
            if len(message) >= 12 and message[:2] == query[:2] and message[2] & 128:
                break
    if message[2] & 2:
        message = _over_stream(address, query, end)
        if message[:2] != query[:2]:
            raise ValueError("the answer is to another question")
    return message


def _resolvers() -> List[Tuple[str, int]]:
    with open(_RESOLVERS, encoding="utf-8", errors="replace") as file:
        words = [line.split() for line in file]
    return [(each[1], 53) for each in words if len(each) > 1 and each[0] == "nameserver"]


def _in_order(found: List[Server]) -> List[Server]:
    """By priority, and of one priority at random by weight (RFC 2782)."""
    chance, ordered = random.SystemRandom(), []
    left = sorted(found)
    while left:
        first = [each for each in left if each.priority == left[0].priority]
        (taken,) = chance.choices(first, [each.weight + 0.01 for each in first])
        left.remove(taken)
        ordered.append(taken)
    return ordered


def servers(name: str, seconds: float, resolver: Optional[Tuple[str, int]] = None) -> List[Server]:
    """The servers of a service, as of "_kerberos._tcp.HOME.TEST", the first to be tried first: of the first name server of /etc/resolv.conf that answers, or of this one.

    OSError: none answers, or what it answers is not to be read."""
    question = _labels(name) + struct.pack(">HH", _SRV, _INTERNET)
    listed = _resolvers() if resolver is None else [resolver]
    failed: Exception = OSError("no name server is known")
    for address in listed:
        query = secrets.token_bytes(2) + struct.pack(">5H", 0x100, 1, 0, 0, 0) + question
        try:
            return _in_order(_read(_answer(address, query, time.monotonic() + seconds / len(listed)), question))
        except (OSError, ValueError, IndexError, struct.error) as error:
            failed = error
    raise OSError("no name server answers for %s: %s" % (name, failed))
