"""What `krb capture` does: it tells the messages of a capture of a network, a line of text or of JSON each."""

import contextlib
import json
import os
import re
import stat
import sys
import threading
import time
from typing import IO, Any, Dict, Iterator, List, Optional

from krb._arguments import Parser, add_capture
from krb._facts import Keys, Reader, printable
from krb._items import Registry, name_of
from krb._library import Refused
from krb._output import ended, named, reason
from krb._packets import Capture, NoReader
from krb._shown import show
from krb.capture import Told, messages

__all__ = ["main", "run_capture"]

_SECONDS = 300.0  # in which a file is read, unless it is told otherwise
_PAUSE = 0.25  # between two lines of progress


def _page(each: Told, keytab: bytes, show_keys: bool) -> List[str]:
    """The lines of the whole of a message."""
    assert each.facts is not None
    lines: List[str] = []
    for kind, octets in each.facts.shown:
        try:
            page = show(octets, kind, keytab if len(keytab) > 2 else b"", False, show_keys)
        except Refused as refused:
            page = "not shown: %s" % refused
        lines += page.rstrip("\n").split("\n")
    return [printable(line) for line in lines]


def _keytab(path: str) -> bytes:
    """The octets of a keytab, which the library has read. OSError, ValueError: why not."""
    with named("--keytab " + path):
        with open(path, "rb") as file:
            octets = file.read()
        show(octets, "keytab")
        if octets[:2] != b"\5\2":
            raise ValueError("no keytab of version 2")
        return octets


def _split(name: str) -> List[str]:
    """The components of a name, and its realm at the end, where none of them is quoted."""
    return [part for part in re.split(r"(?<!\\)[/@]", name) if part]


class Wanted:
    """Which messages are told: those of these realms, names and errors; of each of the three all, where none is given."""

    def __init__(self, realms: List[str], names: List[str], errors: List[str]) -> None:
        self._realms, self._names = [each.casefold() for each in realms], [each.casefold() for each in names]
        self._errors = [each.upper() for each in errors]
        self.is_all = not (realms or names or errors)

    def _is_named(self, name: str) -> bool:
        whole = name.casefold()
        return any(each in (whole, whole.rpartition("@")[0]) or each in _split(whole.rpartition("@")[0]) for each in self._names)

    def has(self, told: Told) -> bool:
        """Whether a message is one of them. One that was not read is none, where some are chosen."""
        facts = told.facts
        if facts is None:
            return self.is_all
        names = [each for each in (facts.client, facts.server) if each]
        if self._realms and not any(each.rpartition("@")[2].casefold() in self._realms for each in names):
            return False
        if self._names and not any(map(self._is_named, names)):
            return False
        if not self._errors:
            return True
        code = facts.error
        return code is not None and bool({"ANY", str(code), name_of(Registry.ERROR_CODE, code)} & set(self._errors))


def _as_json(told: Told, first: int, page: Optional[List[str]]) -> str:
    """A message as a line of JSON; its octets stand in none."""
    packet = told.packet
    row: Dict[str, Any] = {"packet": packet.number, "time": packet.when, "seconds": (packet.time - first) / 1000000}
    row["from"], row["to"] = ({"address": printable(address), "port": port} for address, port in (packet.source, packet.target))
    row["way"] = told.way
    if told.facts is None:
        row["not_read"] = printable(told.trouble or "")
        return json.dumps(row)
    facts = told.facts
    row.update({"kind": facts.kind, "text": facts.text, "client": facts.client, "server": facts.server, "opened": facts.opened})
    if facts.error is not None:
        row["error"] = {"code": facts.error, "name": name_of(Registry.ERROR_CODE, facts.error)}
    if page is not None:
        row["shown"] = page
    return json.dumps(row)


class Progress:
    """A line on a terminal's standard error, which says how far the reading is; it is written anew until `stop`."""

    def __init__(self, file: IO[bytes]) -> None:
        self.is_on = sys.stderr is not None and sys.stderr.isatty()
        self.told, self._file, self._begun = 0, file, time.monotonic()
        self._size = os.fstat(file.fileno()).st_size if stat.S_ISREG(os.fstat(file.fileno()).st_mode) else 0
        self._ended, self._lock = threading.Event(), threading.Lock()
        if self.is_on:
            threading.Thread(target=self._run, daemon=True).start()

    def _run(self) -> None:
        while not self._ended.wait(_PAUSE):
            with self._lock:
                if not self._ended.is_set():
                    self._write("\r\x1b[K%s" % self._line())

    @staticmethod
    def _write(text: str) -> None:
        with contextlib.suppress(OSError, ValueError):
            sys.stderr.write(text)
            sys.stderr.flush()

    def _line(self) -> str:
        """How much was told. tshark reads by the file that this process opened, so its place is known."""
        part = ""
        if self._size:
            with contextlib.suppress(OSError):
                part = ", %d %% of the file" % (100 * os.lseek(self._file.fileno(), 0, os.SEEK_CUR) // self._size)
        return "%d messages%s, %d s" % (self.told, part, time.monotonic() - self._begun)

    @contextlib.contextmanager
    def out_of_the_way(self) -> Iterator[None]:
        """While something is printed on the same terminal."""
        if not self.is_on:
            yield
            return
        with self._lock:
            if sys.stdout.isatty():
                self._write("\r\x1b[K")
            yield

    def stop(self) -> None:
        if self.is_on and not self._ended.is_set():
            with self._lock:
                self._ended.set()
                self._write("\r\x1b[K")


def _plural(count: int, what: str) -> str:
    return "%d %s%s" % (count, what, "" if count == 1 else "s")


class _Run:
    """One capture, told."""

    def __init__(self, options: Any, file: IO[bytes], name: str) -> None:
        self.options, self.file, self.name = options, file, name
        self.is_file = stat.S_ISREG(os.fstat(file.fileno()).st_mode)
        seconds = options.seconds if options.seconds is not None else _SECONDS if self.is_file else 0.0
        self.capture = Capture(file=file, seconds=seconds or None)
        self.wanted = Wanted(options.realm, options.name, options.error)
        self.told = self.read = self.unread = 0

    def tell(self, reader: Reader) -> int:
        """Prints the messages, and answers the status. NoReader."""
        first: Optional[int] = None
        progress = Progress(self.file)
        try:
            for each in messages(self.capture, reader):
                first = each.packet.time if first is None else first
                self.read += each.facts is not None
                self.unread += each.facts is None
                if not self.wanted.has(each):
                    continue
                self.told, progress.told = self.told + 1, self.told + 1
                with progress.out_of_the_way():
                    self._print(each, first, reader)
            sys.stdout.flush()
        finally:
            progress.stop()
        return self._ended(reader, progress.is_on)

    def _print(self, each: Told, first: int, reader: Reader) -> None:
        page = _page(each, reader.keys.keytab(), self.options.show_keys) if self.options.show and each.facts is not None else None
        if self.options.json:
            print(_as_json(each, first, page), flush=not self.is_file)
            return
        print(each.line, flush=not self.is_file)
        for line in page or ():
            print("  " + line)

    def _say(self, text: str) -> None:
        print("%s: %s" % (self.name, printable(text)), file=sys.stderr)

    def _ended(self, reader: Reader, has_terminal: bool) -> int:
        """Says what is left to say, and answers the status."""
        if reader.keys.left_out:
            self._say("%d keys that were found are tried no more" % reader.keys.left_out)
        trouble = self.capture.trouble
        if trouble is not None:
            trouble = re.sub(r"^tshark: |\.$", "", trouble).replace("The standard input", "the file" if self.is_file else "standard input")
            more = "; --seconds N gives it N, and 0 no limit" if self.capture.is_stopped else ""
            path = "" if self.capture.is_stopped or self.options.file == "-" else self.options.file + ": "
            self._say("%s%s; %s up to there%s" % (path, trouble, _plural(self.read, "message"), more))
            return 1 if self.read or self.unread or self.capture.is_stopped or "cut short" in trouble else 2
        packets = "" if self.capture.count is None else " in " + _plural(self.capture.count, "packet")
        if not self.wanted.is_all and (not self.told or has_terminal):
            self._say("%d of %s%s" % (self.told, _plural(self.read + self.unread, "message"), packets))
        elif not self.told or has_terminal:
            self._say("%s%s" % (_plural(self.told, "message"), packets))
        return 1 if self.unread else 0


def run_capture(options: Any, name: str = "capture") -> int:
    """What the command does, by its options; the status."""
    try:
        if options.show_keys and not options.show:
            raise ValueError("--show-keys without --show")
        keys = Keys(map(_keytab, options.keytab))
        with contextlib.ExitStack() as stack:
            if options.file == "-":
                if sys.stdin is None:
                    raise ValueError("standard input is closed")
                file: IO[bytes] = sys.stdin.buffer
            else:
                file = stack.enter_context(open(options.file, "rb"))
            status = _Run(options, file, name).tell(Reader(keys))
    except (OSError, ValueError, NoReader) as error:
        print("%s: %s" % (name, reason(error)), file=sys.stderr)
        return 2
    return status


def main(words: Optional[List[str]] = None) -> int:
    """python3 -m krb.capture; the status."""
    parser = Parser(prog="krb.capture", description="Tells the messages of Kerberos in a capture of a network.")
    add_capture(parser)
    return ended(lambda: run_capture(parser.parse_args(words), "krb.capture"), "krb.capture")
