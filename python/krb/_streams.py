"""Messages in datagrams and streams (RFC 4120, 7.2): where each begins and ends, and what of them is not there."""

import heapq
from typing import Dict, Iterator, List, NamedTuple, Optional, Tuple

from krb._packets import Packet

__all__ = ["Piece", "Streams"]

MOST_OCTETS = 1 << 20  # of a message; a KDC takes no longer ones
MOST_HELD = 1 << 22  # octets of a stream behind some that are missing
MOST_WAITING = 1 << 14  # segments with them
_LENGTH = 4  # octets before each message of a stream (RFC 4120, 7.2.2)


class Piece(NamedTuple):
    """A message, and the packet in which it ends; or what could not be read there."""

    packet: Packet
    octets: bytes
    trouble: Optional[str] = None


def _begins_message(octets: bytes, is_of_passwords: bool) -> bool:
    """Whether octets look like the beginning of a message with its length, after a place that is not known to be one."""
    length = int.from_bytes(octets[:_LENGTH], "big")
    if not 0 < length <= MOST_OCTETS or len(octets) <= _LENGTH:
        return False
    inner = octets[_LENGTH:]
    if is_of_passwords and inner[:2] == length.to_bytes(4, "big")[2:] and inner[2:4] in (b"\0\1", b"\xff\x80"):
        return True
    return inner[0] in (0x6A, 0x6B, 0x6C, 0x6D, 0x6E, 0x7E)


class _Half:
    """What one side of a stream sends. Octets that came twice count once; those that came too early wait for what is before them."""

    def __init__(self) -> None:
        self.next: Optional[int] = None  # the number of the octet that comes next, which does not go round as a sequence number does
        self.early: List[Tuple[int, int, Packet, bytes]] = []  # a heap: the number of the first octet, a count, and what came
        self.held = 0
        self.octets = bytearray()
        self.last: Optional[Packet] = None
        self.knows_place = True  # a message begins where `octets` do
        self.skipped = 0
        self.tells_skipped = True  # it was not told yet that no place is known

    def take(self, packet: Packet) -> Iterator[Piece]:
        sequence = packet.sequence + 1 if packet.begins else packet.sequence  # SYN counts as one (RFC 9293, 3.4)
        if self.next is None and (packet.begins or packet.payload):
            self.next, self.knows_place = sequence, packet.begins
        if not packet.payload or self.next is None:
            return
        place = self.next + (sequence - self.next + 0x80000000 & 0xFFFFFFFF) - 0x80000000
        heapq.heappush(self.early, (place, packet.number, packet, packet.payload))
        self.held += len(packet.payload)
        yield from self._drain()
        if self.held > MOST_HELD or len(self.early) > MOST_WAITING:
            yield from self.leave_gap()

    def _drain(self) -> Iterator[Piece]:
        """Takes what is due."""
        while self.early and self.next is not None and self.early[0][0] <= self.next:
            place, _, packet, octets = heapq.heappop(self.early)
            self.held -= len(octets)
            yield from self._add(packet, octets[self.next - place :])

    def leave_gap(self) -> Iterator[Piece]:
        """Goes on behind octets that are missing, where some wait."""
        while self.early and self.next is not None:
            place, _, packet, _ = self.early[0]
            cut = " in a message of which %d came" % len(self.octets) if self.octets else ""
            yield Piece(packet, b"", "%d octets of the stream are missing%s" % (place - self.next, cut))
            self.octets.clear()
            self.next, self.knows_place = place, False
            yield from self._drain()

    def _add(self, packet: Packet, octets: bytes) -> Iterator[Piece]:
        """Octets that follow those that came."""
        if not octets:
            return
        self.next = (self.next or 0) + len(octets)
        if not self.knows_place:
            if not _begins_message(octets, packet.is_of_passwords):
                self.skipped += len(octets)
                self.last = packet
                return
            yield from self._tell_skipped(packet)
            self.knows_place = True
        self.octets += octets
        self.last = packet
        while len(self.octets) >= _LENGTH:
            length = int.from_bytes(self.octets[:_LENGTH], "big")
            if length > MOST_OCTETS:
                yield Piece(packet, b"", "a length of %d octets before a message, and none is so long" % length)
                self.knows_place, self.tells_skipped = False, False
                self.octets.clear()
                return
            if len(self.octets) < _LENGTH + length:
                return
            message = bytes(self.octets[_LENGTH : _LENGTH + length])
            del self.octets[: _LENGTH + length]
            yield Piece(packet, message)

    def _tell_skipped(self, packet: Packet) -> Iterator[Piece]:
        if self.skipped and self.tells_skipped:
            yield Piece(packet, b"", "%d octets of the stream are left out, before which no beginning of a message is known" % self.skipped)
        self.skipped, self.tells_skipped = 0, True

    def end(self) -> Iterator[Piece]:
        """What is left when no more comes."""
        yield from self.leave_gap()
        if self.last is not None:
            yield from self._tell_skipped(self.last)
            if self.octets:
                length = int.from_bytes(self.octets[:_LENGTH], "big") if len(self.octets) >= _LENGTH else None
                came = max(len(self.octets) - _LENGTH, 0)
                of = "a length that is cut" if length is None else "a message of %d octets of which %d came" % (length, came)
                yield Piece(self.last, b"", "the stream ends in %s" % of)
                self.octets.clear()


class Streams:
    """The datagrams and streams of a capture, at the ports of Kerberos."""

    def __init__(self) -> None:
        self._halves: Dict[Tuple[int, Tuple[str, int]], _Half] = {}

    def take(self, packet: Packet) -> Iterator[Piece]:
        """The messages that end in a packet, and what is missing before it."""
        if not packet.is_of_kerberos:
            return
        if packet.stream is None:
            yield Piece(packet, packet.payload, None if packet.payload else "a datagram of no octets")
            return
        yield from self._halves.setdefault((packet.stream, packet.source), _Half()).take(packet)

    def rest(self) -> Iterator[Piece]:
        """What is left when the capture ends."""
        for half in self._halves.values():
            yield from half.end()
