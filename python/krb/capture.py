"""Messages of Kerberos in a capture of a network. `krb capture FILE`, or python3 -m krb.capture FILE, tells them."""

import base64
import binascii
import re
import sys
from typing import Any, Generator, Iterator, List, NamedTuple, Optional, Tuple

from krb._facts import Facts, Keys, Reader, Unread, printable
from krb._library import Refused
from krb._packets import PASSWORD_PORT, Capture, NoReader, Packet
from krb._streams import Streams

__all__ = ["Capture", "Facts", "Keys", "NoReader", "Packet", "Reader", "Told", "main", "messages"]

_SCHEME = re.compile(r"(?:^|[,\s])(?:Negotiate|Kerberos)\s+([^\s,]+)", re.IGNORECASE)


class Told(NamedTuple):
    """A message of a capture: the packet in which it ends, how it came, what it says, and its octets; `trouble` instead of facts where it is not
    read."""

    packet: Packet
    way: str
    facts: Optional[Facts]
    octets: bytes
    trouble: Optional[str]

    @property
    def line(self) -> str:
        """The line of it, in printable ASCII."""
        ends = " > ".join(("[%s]:%d" if ":" in address else "%s:%d") % (address, port) for address, port in (self.packet.source, self.packet.target))
        front = "%d %s %s %s " % (self.packet.number, self.packet.when, ends, self.way)
        if self.facts is None:
            return printable(front + "not read: %s" % self.trouble)
        opened = "; opened: %s" % ", ".join(self.facts.opened) if self.facts.opened else ""
        return printable(front + self.facts.kind + (" " + self.facts.text if self.facts.text else "") + opened)


def _tokens(packet: Packet) -> Iterator[Tuple[str, bytes, Optional[str]]]:
    """The tokens of a packet: how each came, its octets, and why there are none. Headers of other schemes are nobody's business here."""
    for way, value in packet.tokens:
        if isinstance(value, bytes):
            if value:
                yield way, value, None
            continue
        for text in _SCHEME.findall(str(value)):
            if "=" in text.rstrip("="):
                continue  # a parameter of a challenge
            try:
                yield way, base64.b64decode(text, validate=True), None
            except (binascii.Error, ValueError):
                yield way, b"", "a token that is no base64"


def messages(capture: Capture, reader: Reader) -> Generator[Told, None, None]:
    """The messages of a capture, in the order in which they end. NoReader: tshark is not there."""
    streams = Streams()

    def told(packet: Packet, way: str, octets: bytes, trouble: Optional[str], read: Any) -> Told:
        if trouble is None:
            try:
                return Told(packet, way, read(), octets, None)
            except Unread as unread:
                trouble = str(unread)
            except (Refused, LookupError, TypeError, ValueError) as error:
                trouble = "%s: %s" % (type(error).__name__, error)
        if packet.is_cut:
            trouble += "; the capture has not all octets of the packet"
        return Told(packet, way, None, octets, trouble)

    def pieces(found: Any) -> Iterator[Told]:
        for packet, octets, trouble in found:
            way = "UDP" if packet.stream is None else "TCP"
            if packet.is_of_passwords:
                yield told(packet, way, octets, trouble, lambda: reader.password(octets, packet.number, packet.target[1] == PASSWORD_PORT))
            else:
                yield told(packet, way, octets, trouble, lambda: reader.message(octets, packet.number))

    for packet in capture.packets():
        yield from pieces(streams.take(packet))
        for way, octets, trouble in _tokens(packet):
            yield told(packet, way, octets, trouble, lambda: reader.token(octets, packet.number))
    yield from pieces(streams.rest())


def main(arguments: Optional[List[str]] = None) -> int:
    """The command; the status."""
    from krb._capture_command import main as run

    return run(arguments)


if __name__ == "__main__":
    sys.exit(main())
