"""The times that a client sends: each second and microsecond once in a process, since no authenticator is used twice (RFC 4120, 3.2.2)."""

import math
import os
import threading
from typing import Callable, Dict, Optional, Tuple

_MICROSECONDS = 1000000
_KEPT = 1 << 14


class _Times:
    """Which times were given out: of each second all microseconds below a number. It keeps the last 2^14 seconds, by the calendar, of which there were any, and takes all
    before them for given out: so a clock that is set back past so many seconds of use is followed by times that are ahead of it, and not by one that was there before."""

    def __init__(self) -> None:
        self._free: Dict[int, int] = {}  # of a second, the first microsecond that is left
        self._first: Optional[int] = None  # the first second that is not taken for given out
        self.renew_lock()

    def renew_lock(self) -> None:
        self._lock = threading.Lock()

    def take(self, seconds: int, microseconds: int) -> Tuple[int, int]:
        """This time, or the next one that was not given out."""
        with self._lock:
            if self._first is not None and seconds < self._first:
                seconds, microseconds = self._first, 0
            microseconds = max(microseconds, self._free.get(seconds, 0))
            while microseconds >= _MICROSECONDS:
                seconds += 1
                microseconds = self._free.get(seconds, 0)
            self._free[seconds] = microseconds + 1
            if len(self._free) > _KEPT:
                kept = sorted(self._free)[_KEPT // 2 :]
                self._free, self._first = {each: self._free[each] for each in kept}, kept[0]
            return seconds, microseconds


_times = _Times()
if hasattr(os, "register_at_fork"):
    os.register_at_fork(after_in_child=_times.renew_lock)


def moment(clock: Callable[[], float], offset: int = 0) -> Tuple[int, int]:
    """The seconds and the microseconds of a clock, so many seconds ahead; where this time was given out before in this process, to whatever thread, the next one that was
    not."""
    now = clock()
    seconds = math.floor(now)
    return _times.take(seconds + offset, min(int((now - seconds) * _MICROSECONDS), _MICROSECONDS - 1))
