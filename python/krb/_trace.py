"""What a client sends and what comes, in lines as those of MIT Kerberos's KRB5_TRACE: where each goes, which errors and pre-authentication, which encryption
types. No key, no password and no octet of a message stands in them.

They go to the logger `krb.client.trace`, of level INFO, so that a program may have them; `tracing` writes them to a file, as the commands do."""

import contextlib
import logging
import os
import sys
from typing import Any, Iterable, Iterator, List, Optional, Sequence

from krb._facts import printable
from krb._items import Registry, name_of, type_of
from krb._library import Refused
from krb._parts import decode

__all__ = ["LOG", "etype", "is_on", "say", "told_reply", "told_request", "tracing"]

LOG = logging.getLogger("krb.client.trace")
LOG.addHandler(logging.NullHandler())
_KINDS = {"AS-REQ": "AS", "TGS-REQ": "TGS", "AS-REP": "AS", "TGS-REP": "TGS"}
_INFO, _TGS_REQUEST = 19, 1  # PA-ETYPE-INFO2, PA-TGS-REQ (RFC 4120, 7.5.2)


class _Line(logging.Formatter):
    """[PROCESS] SECONDS.MICROSECONDS: TEXT."""

    def format(self, record: logging.LogRecord) -> str:
        return "[%s] %.6f: %s" % (record.process, record.created, record.getMessage())


class _Handler(logging.StreamHandler):  # type: ignore[type-arg]
    """One that says nothing where its stream takes no more."""

    def handleError(self, record: logging.LogRecord) -> None:
        pass


def _closed(file: Any) -> None:
    with contextlib.suppress(OSError):
        file.close()


@contextlib.contextmanager
def tracing(to_error: bool) -> Iterator[None]:
    """Has the lines written to standard error, where that is asked for, and to the file of $KRB5_TRACE, behind what it has. OSError: it cannot be opened."""
    path, streams = os.environ.get("KRB5_TRACE"), []  # type: Optional[str], List[Any]
    with contextlib.ExitStack() as stack:
        if to_error and sys.stderr is not None:
            streams.append(sys.stderr)
        if path and not to_error:
            try:
                file = open(path, "a", encoding="ascii", errors="backslashreplace")
            except OSError as error:
                raise OSError(error.errno, error.strerror, "$KRB5_TRACE " + path) from None
            stack.callback(_closed, file)
            streams.append(file)
        before = LOG.level, LOG.propagate
        for stream in streams:
            handler = _Handler(stream)
            handler.setFormatter(_Line())
            LOG.addHandler(handler)
            stack.callback(LOG.removeHandler, handler)
        if streams:
            LOG.setLevel(logging.INFO)
            LOG.propagate = False
        try:
            yield
        finally:
            LOG.level, LOG.propagate = before


def is_on() -> bool:
    return LOG.isEnabledFor(logging.INFO)


def say(text: str, *given: object) -> None:
    LOG.info(text, *given)


def etype(number: object) -> str:
    """What an encryption type is called, by its number."""
    return (name_of(Registry.ENCRYPTION_TYPE, number) if isinstance(number, int) else None) or "etype %s" % number


def etypes(numbers: Iterable[int]) -> str:
    return ", ".join(map(etype, numbers))


def _padata(listed: Sequence[Any]) -> str:
    """Types of pre-authentication, as "PA-ENC-TIMESTAMP (2)"."""
    named = []
    for each in listed:
        number = each.get("padata-type")
        name = name_of(Registry.PA_DATA_TYPE, number) if isinstance(number, int) else None
        named.append("%s (%s)" % (name, number) if name else str(number))
    return ", ".join(named) or "none"


def _tree(octets: bytes) -> Any:
    try:
        return decode(octets)
    except (Refused, ValueError):
        return None


def told_request(octets: bytes) -> None:
    """Tells of a request what it asks for and by which pre-authentication."""
    kind = type_of(octets)
    tree = _tree(octets) if is_on() and kind in ("AS-REQ", "TGS-REQ") else None
    if not isinstance(tree, dict):
        return
    padata = tree.get("padata", [])
    say("etypes requested in %s request: %s", _KINDS[kind or ""], etypes(tree["req-body"]["etype"]))
    if kind == "AS-REQ" and not [each for each in padata if each.get("padata-type") == 2]:
        say("Sending unauthenticated request")
    elif padata:
        say("Produced preauth for next request: %s", _padata(padata))


def told_reply(octets: bytes, chosen: Optional[int] = None) -> None:
    """Tells of a reply what it is, and of an error its code and pre-authentication; `chosen` is the encryption type of the client's key."""
    kind = type_of(octets)
    tree = _tree(octets) if is_on() else None
    if not isinstance(tree, dict):
        say("Received %d octets that are no message", len(octets))
        return
    if kind == "KRB-ERROR":
        code = tree["error-code"]
        say("Received error from KDC: %d/%s", code, name_of(Registry.ERROR_CODE, code) or "an error without a name")
        methods = tree.get("e-data")
        if code in (24, 25) and isinstance(methods, bytes):
            with contextlib.suppress(Refused, ValueError):
                methods = decode(methods, "METHOD-DATA")
        if isinstance(methods, list):
            _told_methods(methods, chosen)
    elif kind in ("AS-REP", "TGS-REP"):
        ticket = tree["ticket"]
        say("Received %s reply; its part is under %s, the ticket under %s", _KINDS[kind], etype(tree["enc-part"]["etype"]), etype(ticket["enc-part"]["etype"]))
        if tree.get("padata"):
            _told_methods(tree["padata"], chosen)


def _told_methods(methods: Sequence[Any], chosen: Optional[int]) -> None:
    say("Processing preauth types: %s", _padata(methods))
    for each in methods:
        value = each.get("padata-value")
        for info in value if each.get("padata-type") == _INFO and isinstance(value, list) else ():
            if isinstance(info, dict) and info.get("etype") == chosen:
                params = info.get("s2kparams", b"")
                told = "".join("\\x%02x" % octet for octet in params) if isinstance(params, bytes) else ""
                say('Selected etype info: etype %s, salt "%s", params "%s"', etype(chosen), printable(str(info.get("salt", ""))), told)
                return
