"""Replay caches: what an acceptor has let in (RFC 4120, 3.2.3)."""

import hashlib
import heapq
import os
import pathlib
import secrets
import sqlite3
import stat
import threading
import time
from typing import Any, Dict, List, Optional, Protocol, Set, Tuple, Union

__all__ = ["AnyReplayCache", "FileReplayCache", "Forgotten", "ReplayCache"]

_TIME = 8  # octets of an entry, in which its time stands first
_NOW = "now"


def _time_of(entry: bytes) -> int:
    """The client's time, with which an entry begins, in seconds since 1 January 1970, 00:00:00 UTC."""
    return int.from_bytes(entry[:_TIME], "big", signed=True)


def _since(whole_since: Union[float, str, None]) -> Optional[int]:
    """Since when a new cache is whole: it has what was let in from the next whole second on."""
    if whole_since is None:
        return None
    if isinstance(whole_since, str):
        if whole_since != _NOW:
            raise ValueError('whole_since is a number of seconds, None or "now"')
        whole_since = time.time()
    return -int(-whole_since // 1)


class Forgotten(ValueError):
    """An entry of a time that a replay cache has forgotten: nobody knows whether it was there. `before`: what is earlier than this is forgotten, in seconds
    since 1 January 1970, 00:00:00 UTC."""

    before: int

    def __init__(self, before: int) -> None:
        self.before = before
        super().__init__("entries of times before %d s are forgotten" % before)

    def __reduce__(self) -> "Tuple[type, Tuple[int]]":
        return Forgotten, (self.before,)


class AnyReplayCache(Protocol):
    """What an acceptor asks of a replay cache; a service may have one of its own.

    - `whole_since`: the cache has all that was let in at this time or later, in seconds since 1 January 1970, 00:00:00 UTC; None: all that ever was.
    - `add(entry, seconds)`: adds an entry, and is True where it was not there before. It may forget entries whose time, their first eight octets as a number
      with a sign, is before `seconds`. Of calls with one entry at once, in whatever threads and processes, one is True. Where it raises, the client is not let
      in: of an entry whose time is forgotten it raises `Forgotten`, which the acceptor tells as UNREMEMBERED, or is False, which is told as REPEAT."""

    @property
    def whole_since(self) -> Optional[int]: ...

    def add(self, entry: bytes, seconds: int) -> bool: ...


class ReplayCache:
    """A replay cache in the memory of one process, for any number of its threads. In another process, as in a server's worker that was forked later, `add`
    refuses: each worker would let one token in. Workers share a `FileReplayCache`. (Workers that make a ReplayCache each let a token in once each, too.)

    It begins empty, so what was let in before it was made is not in it. `whole_since` says so to the acceptor, which refuses what may have been let in before,
    as UNREMEMBERED: with a skew of 300 seconds, all clients whose clocks are right for the first 300 seconds. A service that knows that it let in nobody
    before, as one with a new key, gives None. `FileReplayCache` outlives the process and has no such wait after its first start.

    Acceptors that share a cache have the same skew. Of an entry a hash is kept, 32 octets (SHA-256)."""

    whole_since: Optional[int]

    def __init__(self, whole_since: Union[float, str, None] = _NOW) -> None:
        self.whole_since = _since(whole_since)
        self._process = os.getpid()
        self._lock = threading.Lock()
        self._times: List[int] = []  # a heap of the keys of _entries
        self._entries: Dict[int, Set[bytes]] = {}
        self._forgotten: Optional[int] = None  # entries of earlier times are forgotten

    def __len__(self) -> int:
        with self._lock:
            return sum(map(len, self._entries.values()))

    def add(self, entry: bytes, seconds: int) -> bool:
        """Adds an entry. True where it was not there yet, False where it was. Forgotten: its time is one that is forgotten, and it is not added.

        Entries of times before `seconds` are forgotten, the first eight octets of an entry being its time. If the clock goes back later, entries of these times
        are refused until it is there again: what is forgotten is never let in twice.

        RuntimeError: this is another process than that in which the cache was made."""
        if os.getpid() != self._process:
            raise RuntimeError(
                "a ReplayCache is of the process that made it (%d), and this is another one (%d), which would let in what that one has let in: "
                "give the Acceptor replay_cache=krb.FileReplayCache(path), which processes share" % (self._process, os.getpid())
            )
        when, digest = _time_of(entry), hashlib.sha256(entry).digest()
        with self._lock:
            if self._forgotten is None or seconds > self._forgotten:
                self._forgotten = seconds
                while self._times and self._times[0] < seconds:
                    del self._entries[heapq.heappop(self._times)]
            if when < self._forgotten:
                raise Forgotten(self._forgotten)
            if when not in self._entries:
                self._entries[when] = set()
                heapq.heappush(self._times, when)
            entries = self._entries[when]
            if digest in entries:
                return False
            entries.add(digest)
            return True


_SCHEMA = (
    "CREATE TABLE state (id INTEGER PRIMARY KEY CHECK (id = 1), whole_since INTEGER, forgotten INTEGER)",
    "CREATE TABLE entries (time INTEGER NOT NULL, digest BLOB NOT NULL, PRIMARY KEY (time, digest)) WITHOUT ROWID",
)
_BESIDE = "-wal", "-shm"  # what SQLite keeps beside a file, behind its name


class FileReplayCache:
    """A replay cache in a file, for any number of processes of one machine: of two that take one token at once, one lets the client in.

    An entry is on the disk before its client is let in (SQLite, synchronous=FULL), so the cache outlives processes and the machine's power. The file is made
    with mode 0600; one that others may write, or that is another user's, is refused. It says since when it is whole: since it was made, or what `whole_since`
    said then (`ReplayCache` has what that means); where the file is there the argument is not looked at. SQLite keeps two more files beside it, with `-wal` and
    `-shm` behind its name. The folder is one that the service alone may write, and not of a network's file system.

    What was lost is no new cache: a file of no octets is refused, and so is one that is not there though those beside it are. Where the file is removed,
    emptied or replaced while a process has it open, `add` raises. To begin anew, end the service and remove all three.

    Acceptors that share a cache have the same skew. Of an entry a hash is kept, 32 octets (SHA-256).

    sqlite3.Error, OSError: the file cannot be read or written, is locked for more than `timeout` seconds, or has lost what it had. Then `add` raises, and the
    client is not let in. PermissionError: the file may be written by others, is another user's, or is no regular file."""

    whole_since: Optional[int]

    def __init__(self, path: Union[str, "os.PathLike[str]"], whole_since: Union[float, str, None] = _NOW, timeout: float = 30) -> None:
        self.path, self._timeout = os.path.abspath(os.fspath(path)), timeout
        self._local, self._left = threading.local(), []  # type: Any, List[sqlite3.Connection]
        since = _since(whole_since)
        if not os.path.lexists(self.path):
            self._make(since)
        self._file = self._look()
        self.whole_since = self._state(self._connection(), "whole_since")

    def _make(self, since: Optional[int]) -> None:
        """Makes the file, for its owner alone, where none of this name is there yet: whole, under another name first, so that nobody sees it empty."""
        left = [each for each in _BESIDE if os.path.lexists(self.path + each)]
        if left and not os.path.lexists(self.path):
            raise self._lost("is not there, and what SQLite keeps beside it is (%s)" % ", ".join(left))
        name = "%s-%s" % (self.path, secrets.token_hex(8))
        os.close(os.open(name, os.O_RDWR | os.O_CREAT | os.O_EXCL, 0o600))
        try:
            link = sqlite3.connect(name, isolation_level=None)
            try:
                link.execute("PRAGMA synchronous=FULL")
                self._write(link, lambda: self._begin(link, since))
            finally:
                link.close()
            os.link(name, self.path)
        except FileExistsError:  # another process was first
            pass
        finally:
            os.unlink(name)

    @staticmethod
    def _begin(link: sqlite3.Connection, since: Optional[int]) -> None:
        for line in _SCHEMA:
            link.execute(line)
        link.execute("INSERT INTO state VALUES (1, ?, NULL)", (since,))

    def _lost(self, what: str) -> OSError:
        """The error of a file that has not what it had."""
        return OSError(
            "%s %s: who was let in is not known any more. To begin anew, end the service and remove %s"
            % (self.path, what, ", ".join(self.path + each for each in ("", *_BESIDE)))
        )

    def _look(self) -> Tuple[int, int]:
        """Which file it is. (It is not opened here: to close it again would end SQLite's locks.)"""
        try:
            found = os.lstat(self.path)
        except FileNotFoundError:
            raise self._lost("was removed") from None
        if not stat.S_ISREG(found.st_mode) or stat.S_IMODE(found.st_mode) & 0o022 or found.st_uid != os.geteuid():
            raise PermissionError("%s may be written by others, is another user's than this process's, or is no regular file" % self.path)
        if found.st_size == 0:
            raise self._lost("has no octets")
        return found.st_dev, found.st_ino

    def _look_again(self) -> None:
        """Returns where the file is the one that it was."""
        if self._look() != self._file:
            raise self._lost("was replaced by another file")

    def _state(self, link: sqlite3.Connection, name: str) -> Optional[int]:
        """What the file says of itself."""
        found: Optional[Tuple[Optional[int]]] = link.execute("SELECT %s FROM state" % name).fetchone()
        if found is None:
            raise self._lost("does not say since when it is whole")
        return found[0]

    def _connection(self) -> sqlite3.Connection:
        """This thread's connection. One from before a fork is of the other process, and stays as it is."""
        kept: Optional[Tuple[int, sqlite3.Connection]] = getattr(self._local, "kept", None)
        if kept is not None and kept[0] == os.getpid():
            return kept[1]
        if kept is not None:
            self._left.append(kept[1])
        self._look_again()
        link = sqlite3.connect(pathlib.Path(self.path).as_uri() + "?mode=rw", timeout=self._timeout, isolation_level=None, uri=True)
        link.execute("PRAGMA synchronous=FULL")
        end = time.monotonic() + self._timeout
        while True:  # SQLite does not wait for others here
            try:
                link.execute("PRAGMA journal_mode=WAL")
                break
            except sqlite3.OperationalError:
                if time.monotonic() > end:
                    raise
                time.sleep(0.01)
        self._local.kept = os.getpid(), link
        return link

    @staticmethod
    def _write(link: sqlite3.Connection, body: Any) -> Any:
        """A transaction that no other writes beside."""
        link.execute("BEGIN IMMEDIATE")
        try:
            answer = body()
            link.execute("COMMIT")
            return answer
        except BaseException:
            if link.in_transaction:
                link.execute("ROLLBACK")
            raise

    def __len__(self) -> int:
        return int(self._connection().execute("SELECT count(*) FROM entries").fetchone()[0])

    def add(self, entry: bytes, seconds: int) -> bool:
        """As `ReplayCache.add`, but in any process."""
        link = self._connection()
        when, digest = _time_of(entry), hashlib.sha256(entry).digest()
        self._look_again()
        forgotten: Optional[int] = None

        def added() -> Optional[bool]:
            nonlocal forgotten
            forgotten = self._state(link, "forgotten")
            if forgotten is None or seconds > forgotten:
                link.execute("DELETE FROM entries WHERE time < ?", (seconds,))
                link.execute("UPDATE state SET forgotten = ?", (seconds,))
                forgotten = seconds
            if when < forgotten:
                return None
            return link.execute("INSERT OR IGNORE INTO entries VALUES (?, ?)", (when, digest)).rowcount == 1

        is_new: Optional[bool] = self._write(link, added)
        if is_new is None:
            raise Forgotten(forgotten or 0)
        return is_new

    def close(self) -> None:
        """Closes this thread's connection; `add` opens another. One of another thread is closed when that ends."""
        kept: Optional[Tuple[int, sqlite3.Connection]] = getattr(self._local, "kept", None)
        if kept is not None and kept[0] == os.getpid():
            kept[1].close()
            self._local.kept = None
