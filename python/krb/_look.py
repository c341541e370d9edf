"""What `krb show` and `krb accept` do: what octets hold, and whether a service lets in the client that sent a token."""

import argparse
import difflib
import sys
import time
from typing import List, NamedTuple, Optional

from krb import _pages, spnego
from krb._context import Context
from krb._facts import printable
from krb._forms import given_octets
from krb._library import Refused, Status
from krb._mechanism import KerberosMechanism
from krb._output import input_octets, named
from krb._paths import keytab_path
from krb._rules import Rule
from krb._shown import show
from krb.accept import Acceptor, NotAccepted
from krb.negotiate import NegotiationRole, Negotiator, NotNegotiated

__all__ = ["Verdict", "run_accept", "run_show", "verdicts_of"]

_TIME = "%Y-%m-%dT%H:%M:%SZ"
_SKEW = 300  # of an acceptor, where it is told of no other


def octets_of(path: Optional[str]) -> bytes:
    """The octets that a file, or standard input, stands for: PEM, a header of HTTP, a dump, hexadecimal, base64, or themselves. OSError; ValueError."""
    octets = input_octets(path)
    with named("standard input" if path in (None, "-") else path):
        found = given_octets(octets).octets
        if not found:
            raise ValueError("the input is empty")
        return found


def keys_of(options: argparse.Namespace) -> bytes:
    """One keytab of all that the options name. OSError; ValueError of what is none."""
    keytabs, keys = [], ""
    for path in options.keytab:
        with named("--keytab " + path), open(path, "rb") as keytab:
            keytabs.append(keytab.read())
            _pages.keys_of(keytabs[-1:], "")
    for path in options.key_file:
        with named("--key-file " + path), open(path, encoding="ascii", errors="replace") as file:
            text = file.read()
            _pages.keys_of([], text)
            keys += " " + text
    return _pages.keys_of(keytabs, keys)


def _near(kind: str) -> str:
    """What kind may be meant."""
    found = difflib.get_close_matches(kind.lower(), [each.lower() for each in _pages.KINDS], 1)
    return "; did you mean %s?" % next(each for each in _pages.KINDS if each.lower() == found[0]) if found else ""


def run_show(options: argparse.Namespace) -> int:
    keytab = keys_of(options)
    octets = octets_of(options.file)
    where = options.file if options.file not in (None, "-") else "standard input"
    try:
        told = show(octets, options.kind, keytab, options.json, options.show_keys, options.places)
    except Refused as refused:
        if refused.status == Status.NUMBER and options.kind is not None:
            raise ValueError("--as: no type or format is called %s%s" % (options.kind, _near(options.kind))) from None
        if refused.status == Status.NUMBER:
            raise ValueError("%s: the octets begin as no kind that is known; --as names one" % where) from None
        _, _, place = _pages._error_of(octets, options.kind, refused)
        raise ValueError("%s: %s%s" % (where, refused, "" if place is None else ", at octet %d" % place)) from None
    sys.stdout.write(told)
    return 0


def is_offer(octets: bytes) -> bool:
    """Whether octets are in the frame of SPNEGO (RFC 2743, 3.1; RFC 4178, 4.2), as the first message of a negotiation is."""
    try:
        return spnego.token(octets).mechanism == spnego.SPNEGO
    except Refused as refused:
        if refused.status == Status.MEMORY:
            raise
        return False


def accepted(acceptor: Acceptor, octets: bytes) -> Optional[Context]:
    """What an acceptor lets in: the client whose token the octets are, or hold as the first message of a negotiation, which a `Negotiator` takes. None where
    that offers Kerberos and has no token of it. NotAccepted, NotNegotiated, and what else these raise."""
    if not is_offer(octets):
        return acceptor.accept(octets)
    mechanism = KerberosMechanism(acceptor)
    try:
        Negotiator(NegotiationRole.ACCEPTOR, [mechanism]).step(octets)
    except NotNegotiated as refused:
        if isinstance(refused.__cause__, NotAccepted):
            raise refused.__cause__ from None
        raise
    return mechanism.context


class Verdict(NamedTuple):
    """Whether a client is let in, a line that says so, and the time of the client where its clock is off; why, in words alone, and the rule that is broken."""

    is_let_in: bool
    text: str
    sent: Optional[int] = None
    why: str = ""
    rule: Optional[Rule] = None


def verdict_of(acceptor: Acceptor, octets: bytes) -> Verdict:
    """What an acceptor says of a token. Refused, and what else `Acceptor.accept` raises: nothing is decided."""
    try:
        found = accepted(acceptor, octets)
    except NotAccepted as refused:
        why = printable(str(refused)[len(refused.rule.name + ": ") :])
        return Verdict(False, printable("refused: %s" % refused), refused.seen if refused.rule == Rule.SKEW else None, why, refused.rule)
    except NotNegotiated as refused:
        return Verdict(False, printable("refused: %s" % refused), why=printable(str(refused)))
    if found is None:
        why = "the message has no token of Kerberos, and a service asks for one"
        return Verdict(False, "not accepted yet: " + why, why=why)
    names = printable("%s for %s, until %s; no replay cache was asked" % (found.client, found.server, found.end_time.strftime(_TIME)))
    return Verdict(True, "accepted: " + names, why=names)


def span_of(seconds: int) -> str:
    """A span of time in its two largest units, as "4 d 11 h"."""
    left, parts = abs(seconds), []  # type: int, List[str]
    for size, unit in ((31536000, "y"), (86400, "d"), (3600, "h"), (60, "min"), (1, "s")):
        if left >= size or parts:
            parts.append("%d %s" % (left // size, unit))
            left %= size
        if len(parts) == 2:
            break
    return " ".join(each for each in parts if not each.startswith("0 ")) or "0 s"


def verdicts_of(keytab: bytes, octets: bytes) -> List[Verdict]:
    """What a service with this keytab says of a token now, and where the clock of the client is off also what it would have said when the token was sent; none
    where nothing is decided."""
    clock = float(int(time.time()))
    try:
        now = verdict_of(Acceptor(keytab, replay_cache=False, clock=lambda: clock), octets)
        if now.sent is None:
            return [now]
        sent, off = float(now.sent), int(clock) - now.sent
        now = now._replace(why="the client's clock is %s %s, and at most %s are allowed" % (span_of(off), "behind" if off > 0 else "ahead", span_of(_SKEW)))
        return [now, verdict_of(Acceptor(keytab, replay_cache=False, clock=lambda: sent), octets)]
    except (Refused, ValueError):
        return []


def run_accept(options: argparse.Namespace) -> int:
    """Status 0 where the client is let in, 1 where it is not, and 2 where nothing is decided."""
    path = keytab_path(options.keytab)
    with named(path):
        with open(path, "rb") as file:
            keytab = file.read()
        Acceptor(keytab, replay_cache=False)
    acceptor = Acceptor(
        keytab,
        skew=options.skew,
        replay_cache=False,
        bare_request=options.bare_request,
        other_checksum=options.other_checksum,
        pac=options.pac,
        server=options.server,
        client_realm=options.realm,
        clock=time.time if options.time is None else lambda: float(options.time),
    )
    verdict = verdict_of(acceptor, octets_of(options.file))
    print(verdict.text)
    return 0 if verdict.is_let_in else 1
