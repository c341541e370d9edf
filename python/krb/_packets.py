"""Packets of a capture, as tshark of Wireshark hands them out: datagrams, segments, and the tokens in headers of HTTP and in binds of LDAP and SMB.

tshark reads the file, its links and addresses, puts fragments of IP together, and finds the fields. Its own reader of Kerberos is off."""

import datetime
import json
import re
import shutil
import subprocess
import threading
from typing import IO, Callable, Dict, Iterator, List, NamedTuple, Optional, Tuple

__all__ = ["KERBEROS_PORT", "PASSWORD_PORT", "Capture", "NoReader", "Packet"]

KERBEROS_PORT, PASSWORD_PORT = 88, 464
READER, PACKAGE = "tshark", "Debian's package tshark"
_PORTS = (KERBEROS_PORT, PASSWORD_PORT)

# The fields of tokens, and what each is called in a line. Those of HTTP are texts.
_HEADERS = {
    "http.authorization": "HTTP Authorization",
    "http.www_authenticate": "HTTP WWW-Authenticate",
    "http.proxy_authorization": "HTTP Proxy-Authorization",
    "http.proxy_authenticate": "HTTP Proxy-Authenticate",
}
_BINDS = {"ldap.credentials": "LDAP bind", "ldap.serverSaslCreds": "LDAP bind", "smb2.security_blob": "SMB", "smb.security_blob": "SMB"}
_FRAME = ["frame.number", "frame.time_epoch", "frame.len", "frame.cap_len"]
_ADDRESSES = ["ip.src", "ip.dst", "ipv6.src", "ipv6.dst", "tcp.srcport", "tcp.dstport", "udp.srcport", "udp.dstport"]
_SEGMENT = ["tcp.stream", "tcp.seq_raw", "tcp.flags", "tcp.payload", "udp.payload"]
_FIELDS = _FRAME + _ADDRESSES + _SEGMENT + list(_HEADERS) + list(_BINDS)
# What a packet has to have. One that an error message of ICMP quotes was there before.
_WANTED = ["%s.port == %d" % (each, port) for each in ("tcp", "udp") for port in _PORTS] + list(_HEADERS) + list(_BINDS)
_FILTER = "(%s) && !icmp && !icmpv6" % " || ".join(_WANTED)
_TRUE = "tcp.desegment_tcp_streams tcp.reassemble_out_of_order ip.defragment ipv6.defragment http.desegment_headers"
_PREFERENCES = [each + ":TRUE" for each in _TRUE.split()]
_FINISH, _SYNCHRONIZE, _RESET = 1, 2, 4  # flags of a segment (RFC 9293, 3.1)
_COUNT = re.compile(rb"Packet Lengths +(\d+)", re.IGNORECASE)  # the first row of tshark's table of lengths, which counts all packets
_MOST_SAID = 4096  # octets of what tshark says beside the packets
_EPOCH = datetime.datetime(1970, 1, 1, tzinfo=datetime.timezone.utc)


class NoReader(Exception):
    """tshark is not there, or cannot be started: a line that says so."""


class Packet(NamedTuple):
    """A datagram, or a segment of a stream.

    - `number`, `time`: as Wireshark counts packets, and the microseconds since 1970. `source`, `target`: addresses and ports.
    - `stream`: a number of the stream; None of a datagram. `sequence`: of the first octet of the segment. `begins`, `ends`: SYN; FIN or RST.
    - `payload`: what it holds. `tokens`: where each stands, and its text in HTTP or its octets.
    - `is_cut`: the capture has not all of its octets."""

    number: int
    time: int
    source: Tuple[str, int]
    target: Tuple[str, int]
    stream: Optional[int]
    sequence: int
    begins: bool
    ends: bool
    payload: bytes
    tokens: List[Tuple[str, object]]
    is_cut: bool

    @property
    def is_of_kerberos(self) -> bool:
        """Whether it comes from a port of a KDC or of a server of passwords, or goes to one."""
        return self.source[1] in _PORTS or self.target[1] in _PORTS

    @property
    def is_of_passwords(self) -> bool:
        """Whether the port is that of a server of passwords. Where both are of servers, the one that it goes to counts."""
        return (self.target[1] if self.target[1] in _PORTS else self.source[1]) == PASSWORD_PORT

    @property
    def when(self) -> str:
        """The time in UTC."""
        try:
            return (_EPOCH + datetime.timedelta(microseconds=self.time)).strftime("%Y-%m-%dT%H:%M:%S.%fZ").rjust(27, "0")
        except OverflowError:
            return "%d.%06ds" % divmod(self.time, 1000000)


def _octets(texts: List[str]) -> bytes:
    """The octets of the last value of a field; none where it is empty, of which later versions say "<MISSING>"."""
    return bytes.fromhex(texts[-1].replace(":", "")) if texts and texts[-1] != "<MISSING>" else b""


def _number(texts: List[str]) -> int:
    return int(texts[-1], 0) if texts else 0


def _microseconds(text: str) -> int:
    """Of a time as tshark writes it: seconds with a fraction, or a text of ISO 8601 in later versions."""
    if "T" in text:
        text, _, fraction = text.rstrip("Z").partition(".")
        whole = int((datetime.datetime.strptime(text, "%Y-%m-%dT%H:%M:%S").replace(tzinfo=datetime.timezone.utc) - _EPOCH).total_seconds())
        return whole * 1000000 + int((fraction + "000000")[:6])
    whole_text, _, fraction = text.partition(".")
    size = abs(int(whole_text)) * 1000000 + int((fraction + "000000")[:6])
    return -size if text.startswith("-") else size


def _packet(fields: Dict[str, List[str]]) -> Packet:
    """The packet of these fields. Of addresses in one another, as in a tunnel, the innermost counts."""

    def texts(name: str) -> List[str]:
        return fields.get(name.replace(".", "_"), [])

    transport = "udp" if texts("udp.srcport") and not texts("tcp.srcport") else "tcp"
    ends = []
    for side in ("src", "dst"):
        address = (texts("ip." + side) or texts("ipv6." + side) or ["?"])[-1]
        ends.append((address, _number(texts("%s.%sport" % (transport, side)))))
    tokens: List[Tuple[str, object]] = [(called, text) for name, called in _HEADERS.items() for text in texts(name)]
    tokens += [(called, _octets([text])) for name, called in _BINDS.items() for text in texts(name) if text]
    flags = _number(texts("tcp.flags"))
    stream = _number(texts("tcp.stream")) if transport == "tcp" else None
    is_cut = _number(texts("frame.cap_len")) < _number(texts("frame.len"))
    time = _microseconds(texts("frame.time_epoch")[-1])
    begins, is_end = bool(flags & _SYNCHRONIZE), bool(flags & (_FINISH | _RESET))
    payload, sequence = _octets(texts(transport + ".payload")), _number(texts("tcp.seq_raw"))
    return Packet(_number(texts("frame.number")), time, ends[0], ends[1], stream, sequence, begins, is_end, payload, tokens, is_cut)


class _Said:
    """What a program says on its standard error, of which the end counts. Nothing of it is written to disk."""

    def __init__(self, pipe: IO[bytes]) -> None:
        self._pipe, self._octets = pipe, b""
        self._thread = threading.Thread(target=self._read, daemon=True)
        self._thread.start()

    def _read(self) -> None:
        while True:
            octets = self._pipe.read(4096)
            if not octets:
                return
            self._octets = (self._octets + octets)[-_MOST_SAID:]

    def lines(self) -> List[str]:
        """The lines, once the program has ended."""
        self._thread.join()
        self._pipe.close()
        return [each for each in self._octets.decode("utf-8", "replace").splitlines() if each and not each.startswith("Running as user")]


def _feed(pipe: IO[bytes], octets: bytes) -> None:
    """Gives a program its input, as far as it takes it."""
    try:
        with pipe:
            pipe.write(octets)
    except OSError:
        pass


class Capture:
    """A file of packets by its path, or its `octets`, of which nothing is written to disk, or an open `file`, which may be a pipe. `trouble` says, behind the
    last packet, why there may be more than were read: a line of tshark, or None. With `seconds` tshark is stopped when they are over, no packet comes from then
    on, `is_stopped` is True, and `trouble` says so. `count`: how many packets there are, once all were read; else None."""

    def __init__(
        self, path: str = "-", octets: Optional[bytes] = None, seconds: Optional[float] = None, file: Optional[IO[bytes]] = None
    ) -> None:
        self.path, self.octets, self.seconds, self.file = path, octets, seconds, file
        self.trouble: Optional[str] = None
        self.stop: Callable[[], None] = lambda: None  # stops tshark, from any thread
        self.is_stopped = False
        self.count: Optional[int] = None

    def packets(self) -> Iterator[Packet]:
        """The packets that may hold messages, in their order. NoReader: tshark is not there."""
        program = shutil.which(READER)
        if program is None:
            raise NoReader("%s is not there, which reads captures: install %s" % (READER, PACKAGE))
        is_path = self.octets is None and self.file is None
        command = [program, "-r", self.path if is_path else "-", "-n", "-l", "--disable-protocol", "kerberos", "-Y", _FILTER, "-T", "ek", "-z", "plen,tree"]
        command += [word for each in _PREFERENCES for word in ("-o", each)] + [word for each in _FIELDS for word in ("-e", each)]
        source: "IO[bytes] | int" = subprocess.PIPE if self.octets is not None else subprocess.DEVNULL if self.file is None else self.file
        try:
            process = subprocess.Popen(command, stdin=source, stdout=subprocess.PIPE, stderr=subprocess.PIPE)
        except OSError as error:
            raise NoReader("%s cannot be started: %s" % (READER, error)) from None
        assert process.stdout is not None and process.stderr is not None
        stopped = threading.Event()

        def stop() -> None:
            stopped.set()
            process.kill()

        self.stop = stop
        timer = threading.Timer(self.seconds, stop) if self.seconds is not None else None
        said, strange, status = _Said(process.stderr), 0, -1
        try:
            if timer is not None:
                timer.start()
            if process.stdin is not None and self.octets is not None:
                threading.Thread(target=_feed, args=(process.stdin, self.octets), daemon=True).start()
            for line in process.stdout:
                if stopped.is_set():
                    break
                if b'"layers"' in line:
                    try:
                        packet = _packet(json.loads(line.decode("utf-8", "replace"))["layers"])
                    except (ValueError, LookupError):
                        strange += 1
                        continue
                    yield packet
                    continue
                counted = _COUNT.match(line)
                if counted:
                    self.count = int(counted[1])
            status = process.wait()
        finally:
            process.kill()  # nothing, where it has ended
            process.stdout.close()
            process.wait()
            if timer is not None:
                timer.cancel()
            lines = said.lines()
        if stopped.is_set():
            self.is_stopped = True
            self.trouble = "%s was stopped after %g seconds" % (READER, self.seconds or 0)
        elif status != 0:
            self.trouble = lines[-1] if lines else "%s ends with the status %d" % (READER, status)
            if self.trouble.startswith("(") and len(lines) > 1:  # more about the line before it
                self.trouble = "%s %s" % (lines[-2], self.trouble)
        elif strange:
            self.trouble = "%d packets of which %s says what is not understood" % (strange, READER)
