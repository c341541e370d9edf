"""What the page in the browser shows of a capture: the messages in it, as `krb.capture` tells them, and which reply answers which request.

tshark gets the octets by a pipe, and has SECONDS; nothing is written to disk, and no more than some messages are kept at once."""

import base64
import contextlib
import re
import struct
import time
from typing import Any, Dict, Iterator, List, Optional, Tuple

from krb._facts import Keys, Reader, printable
from krb._items import Registry, name_of
from krb._packets import KERBEROS_PORT, PASSWORD_PORT, Capture, NoReader
from krb._pages import BadInput
from krb.capture import Told, messages

__all__ = ["Pairs", "is_capture", "listed", "packets_in"]

MOST_MESSAGES = 200000  # that are listed
MOST_OCTETS = 512 << 10  # of a message that can be chosen
SECONDS = 300.0  # for tshark, and for what is read and opened of what it says
BATCH, BATCH_OCTETS, BATCH_SECONDS = 500, 1 << 20, 0.25  # of messages that are told at once
MOST_WAITING = 64  # requests of one client at one port that wait for a reply
# How a file of pcap begins, in either order and with microseconds or nanoseconds, and one of pcapng.
_BEGINNINGS = tuple(map(bytes.fromhex, ("a1b2c3d4", "d4c3b2a1", "a1b23c4d", "4d3cb2a1", "0a0d0d0a")))
# What answers a request (RFC 4120, 3; RFC 3244, 2; RFC 4178, 3.2).
_REPLIES = {
    "AS-REQ": ("AS-REP", "KRB-ERROR"),
    "TGS-REQ": ("TGS-REP", "KRB-ERROR"),
    "AP-REQ": ("AP-REP", "KRB-ERROR", "NegTokenResp"),
    "NegTokenInit": ("NegTokenResp", "AP-REP", "KRB-ERROR"),
    "NegTokenResp": ("NegTokenResp",),
    "password request": ("password reply", "KRB-ERROR"),
}
_SERVER_PORTS = (KERBEROS_PORT, PASSWORD_PORT, 389, 636, 3268, 3269, 139, 445)


def is_capture(octets: bytes) -> bool:
    """Whether octets begin as a capture does."""
    return octets[:4] in _BEGINNINGS


def packets_in(octets: bytes) -> int:
    """How many packets a capture has, by the lengths of its records (pcap) or blocks (pcapng), as far as they go; 1 at least."""
    count, at, size = 0, 24, len(octets)
    if octets[:4] == _BEGINNINGS[4]:
        at, order = 0, ">" if octets[8:12] == b"\x1a\x2b\x3c\x4d" else "<"
        block = struct.Struct(order + "II")
        while at + 12 <= size:
            kind, length = block.unpack_from(octets, at)
            count += kind in (2, 3, 6)
            at += max(length, 12)
    else:
        record = struct.Struct((">" if octets[:1] == b"\xa1" else "<") + "I")
        while at + 16 <= size:
            at += 16 + record.unpack_from(octets, at + 8)[0]
            count += 1
    return max(count, 1)


def _is_reply(told: Told) -> bool:
    """Whether a message goes from a server to its client: by its way, its port, or its kind."""
    if told.way.startswith("HTTP"):
        return told.way.endswith("Authenticate")
    source, target = told.packet.source[1], told.packet.target[1]
    if (source in _SERVER_PORTS) != (target in _SERVER_PORTS):
        return source in _SERVER_PORTS
    return told.facts is not None and told.facts.kind in ("AS-REP", "TGS-REP", "AP-REP", "KRB-ERROR", "NegTokenResp", "password reply")


class Pairs:
    """Which reply answers which request: the first of those that wait between the same ends, and of a kind that it can answer. The messages have no number by
    which to tell more."""

    def __init__(self) -> None:
        self._waiting: Dict[Tuple[Any, Any, str], List[Tuple[int, str]]] = {}

    def take(self, number: int, told: Told) -> Optional[int]:
        """The number of the request that a message answers. None of a request, which waits from then on, and of what answers none."""
        way, packet = told.way.split(" ")[0], told.packet
        if not _is_reply(told):
            if told.facts is not None:
                waiting = self._waiting.setdefault((packet.source, packet.target, way), [])
                waiting.append((number, told.facts.kind))
                del waiting[:-MOST_WAITING]
            return None
        ends = packet.target, packet.source, way
        waiting = self._waiting.get(ends, [])
        for place, (request, kind) in enumerate(waiting):
            if told.facts is None or told.facts.kind in _REPLIES.get(kind, (told.facts.kind,)):
                del waiting[place]
                if not waiting:
                    del self._waiting[ends]
                return request
        return None


def _end(address: Tuple[str, int]) -> str:
    return ("[%s]:%d" if ":" in address[0] else "%s:%d") % address


def _row(told: Told, first: int, pair: Optional[int]) -> Dict[str, Any]:
    """A message: its packet, its time since the first one, its ends, what it says, and its octets and their kind, or why they are not shown. Of a frame in which
    a password is changed there is the line alone."""
    packet, facts = told.packet, told.facts
    row: Dict[str, Any] = {"packet": packet.number, "time": packet.time - first, "from": printable(_end(packet.source)), "to": printable(_end(packet.target))}
    row.update({"way": told.way, "line": told.line, "pair": pair, "reply": _is_reply(told), "kind": "", "octets": None, "why": None})
    row.update({"what": "not read", "who": "", "whom": "", "error": "", "opened": []})
    if facts is None:
        row["why"] = row["error"] = "not read: %s" % printable(told.trouble or "")
        return row
    row.update({"what": facts.kind, "who": printable(facts.client or ""), "whom": printable(facts.server or ""), "opened": facts.opened})
    if facts.error is not None:
        row["error"] = "%s (%d)" % (name_of(Registry.ERROR_CODE, facts.error) or "an error without a name", facts.error)
    if facts.kind == "password request":
        row["why"] = "a new password may stand in it: of such requests there is the line alone"
    elif len(facts.shown) != 1:
        row["why"] = "there is no more than the line of it"
    elif len(facts.shown[0][1]) > MOST_OCTETS:
        row["why"] = "it has more than the %d octets that are shown" % MOST_OCTETS
    else:
        kind, octets = facts.shown[0]
        row["kind"], row["octets"] = kind or "", base64.b64encode(octets).decode("ascii")
    return row


def listed(capture: Capture, keytab: bytes, has_password: bool) -> Iterator[Dict[str, Any]]:
    """The messages of a capture as objects of JSON: `messages`, some at a time, and `read`, of 0 to 1; the last one has `notes` and `trouble`. What the keys of a
    keytab open is told in their lines, but for keys of a password. Refused: BadInput."""
    reader, pairs, notes = Reader(Keys([keytab] if keytab else [])), Pairs(), []  # type: Reader, Pairs, List[str]
    packets = packets_in(capture.octets or b"")
    rows: List[Dict[str, Any]] = []
    count = size = first = 0
    begun = told_last = time.monotonic()
    try:
        with contextlib.closing(messages(capture, reader)) as all_told:
            for told in all_told:
                if count == MOST_MESSAGES:
                    notes.append("The capture has more than %d messages, of which the first are here; python3 -m krb.capture tells all." % MOST_MESSAGES)
                    break
                now = time.monotonic()
                if now > begun + SECONDS:
                    notes.append("Only the messages are here that were read in %g seconds; python3 -m krb.capture tells all." % SECONDS)
                    break
                first = told.packet.time if count == 0 else first
                rows.append(_row(told, first, pairs.take(count, told)))
                count, size = count + 1, size + len(told.octets)
                if len(rows) == BATCH or size > BATCH_OCTETS or now > told_last + BATCH_SECONDS:
                    yield {"messages": rows, "read": min(1.0, told.packet.number / packets)}
                    rows, size, told_last = [], 0, now
    except NoReader as error:
        raise BadInput(printable(str(error))) from None
    trouble = None
    if capture.trouble is not None:
        said = printable(re.sub(r"^tshark: |\.$", "", capture.trouble))
        trouble = "%s; %d message%s up to there" % (said, count, "" if count == 1 else "s")
    if reader.keys.left_out:
        notes.append("%d keys that were found are tried no more." % reader.keys.left_out)
    if keytab and count:
        notes.append("A message that is chosen is opened by the keys that are given; keys that stand in other messages open it in the list alone.")
    if has_password and count:
        notes.append("The password opens a message that is chosen, and nothing in the list.")
    yield {"messages": rows, "read": 1.0, "notes": notes, "trouble": trouble}
