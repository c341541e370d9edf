"""How a command ends: what it cannot write or read is told in one line, with its name; a reader that goes away is no fault."""

import contextlib
import io
import os
import sys
from typing import Any, Callable, Iterator, Optional

from krb._facts import printable
from krb._library import Refused

__all__ = ["OutputFailed", "ended", "input_octets", "named", "reason"]


_redirected: Any = contextlib.redirect_stdout


class OutputFailed(Exception):
    """Standard output takes no more; `is_closed`: its reader went away."""

    def __init__(self, error: Optional[OSError] = None) -> None:
        super().__init__("standard output: %s" % (error.strerror if error else "it is closed"))
        self.is_closed = isinstance(error, BrokenPipeError)


class _Output(io.TextIOBase):
    """Standard output, whose errors are told apart from those of files."""

    def __init__(self, file: Any) -> None:
        self._file = file

    def _done(self, call: Callable[..., Any], *given: Any) -> Any:
        try:
            return call(*given)
        except OSError as error:
            raise OutputFailed(error) from None

    def write(self, text: str) -> int:
        if self._file is None:
            raise OutputFailed
        return int(self._done(self._file.write, text))

    def flush(self) -> None:
        if self._file is not None:
            self._done(self._file.flush)

    def fileno(self) -> int:
        return int(self._file.fileno())

    def isatty(self) -> bool:
        return self._file is not None and bool(self._file.isatty())


def _give_up(file: Any) -> None:
    """Has nothing more be written when the interpreter ends."""
    with contextlib.suppress(OSError, ValueError, AttributeError):
        null = os.open(os.devnull, os.O_WRONLY)
        os.dup2(null, file.fileno())
        os.close(null)


def reason(error: BaseException) -> str:
    """Why something failed, in a line of printable ASCII: of a file its name and then the reason."""
    if isinstance(error, OSError) and error.strerror:
        return printable(error.strerror if error.filename is None else "%s: %s" % (error.filename, error.strerror))
    if isinstance(error, UnicodeDecodeError):
        return "it is no text of UTF-8"
    return printable(" ".join(str(error).split()))


@contextlib.contextmanager
def named(path: object) -> Iterator[None]:
    """Has what is refused of a file name it."""
    try:
        yield
    except (Refused, ValueError, LookupError) as error:
        raise ValueError("%s: %s" % (path, reason(error))) from error
    except OSError as error:
        if not error.strerror:
            raise
        raise OSError(error.errno, error.strerror, str(path)) from error


def input_octets(path: Optional[str]) -> bytes:
    """The octets of a file, of standard input where there is none or "-". OSError, which names it."""
    if path is not None and path != "-":
        with named(path), open(path, "rb") as file:
            return file.read()
    if sys.stdin is None:
        raise ValueError("standard input is closed")
    with named("standard input"):
        return sys.stdin.buffer.read()


def ended(run: Callable[[], int], name: str, failed: int = 1) -> int:
    """The status of a command that `run` does, with what it prints written; `failed` where that cannot be, after a line that begins with the name."""
    file, status = sys.stdout, failed
    output = _Output(file)
    try:
        with _redirected(output):
            try:
                status = run()
            except SystemExit as wanted:  # --help, --version, and words that are wrong
                status = wanted.code if isinstance(wanted.code, int) else 0
            except KeyboardInterrupt:
                status = 130
            output.flush()
    except OutputFailed as error:
        _give_up(file)
        if not error.is_closed:
            with contextlib.suppress(OSError):
                print("%s: %s" % (name, error), file=sys.stderr)
        return failed
    return status
