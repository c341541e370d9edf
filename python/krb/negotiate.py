"""Which mechanism two sides of the GSS-API use (SPNEGO, RFC 4178; docs/NEGOTIATION.md): both sides, over mechanisms that they are lent."""

import copy
import enum
import threading
from typing import Any, Iterable, List, Optional, Tuple

from krb import spnego
from krb._library import Octets, Refused, Status, plain
from krb._mechanism import KerberosMechanism, Mechanism
from krb._negotiation import Mechanisms, Progress, Question, Side, Stage, Told, answer, begin, mechanisms_of, take
from krb._rules import NEGOTIATION_TEXTS, NegotiationRule

__all__ = ["KerberosMechanism", "Mechanism", "NegotiationRole", "NegotiationRule", "NegotiationState", "Negotiator", "NotNegotiated"]

_NOT_OF_TOKEN = Status.MEMORY, Status.KEYTAB  # statuses that are not about what the peer sent


class NegotiationRole(enum.IntEnum):
    """The side that offers mechanisms, and the one that chooses."""

    INITIATOR = 0
    ACCEPTOR = 1


class NegotiationState(enum.Enum):
    """Where a side stands."""

    RUNNING = "it waits for a message, or begins"
    COMPLETE = "a mechanism is agreed on, and its context is established"
    FAILED = "the negotiation has ended, for good"


class NotNegotiated(Refused):
    """A negotiation ended. The message is for the log, and not for the peer; `__cause__` is the mechanism's refusal, if it was one.

    - `rule`: the first rule that the peer's message breaks.
    - `answer`: octets that may be sent to the peer, if there are some: a reject (RFC 4178, 4.2.2), with the token of the mechanism that says why where it has
      one, or this token alone where there is no negotiation around the mechanism's tokens."""

    rule: NegotiationRule
    answer: bytes

    def __init__(self, rule: int, answer: bytes = b"", text: Optional[str] = None) -> None:
        super().__init__(Status.NOT_ACCEPTED)
        self.rule, self.answer = NegotiationRule(rule), answer
        self._text = "%s: %s" % (self.rule.name, NEGOTIATION_TEXTS[self.rule]) if text is None else text
        self.args = (self._text,)

    def __reduce__(self) -> Any:
        return NotNegotiated, (int(self.rule), self.answer, self._text)


def _ended(error: BaseException) -> Exception:
    """What each step raises after the one that raised this."""
    if isinstance(error, NotNegotiated):
        return NotNegotiated(error.rule, b"", "%s (the negotiation has ended)" % error)
    return Refused(error.status) if isinstance(error, Refused) else RuntimeError("the negotiation has ended: %s: %s" % (type(error).__name__, error))


def _text(rule: NegotiationRule, cause: Optional[Exception]) -> Optional[str]:
    """The message of a refusal with the mechanism's own; None where it has none."""
    return None if cause is None else "%s: %s: %s" % (rule.name, NEGOTIATION_TEXTS[rule], cause)


def _spnego_inner(octets: bytes) -> Optional[bytes]:
    """What a token of SPNEGO holds; None of other octets."""
    try:
        found = spnego.token(octets)
    except Refused as refused:
        if refused.status in _NOT_OF_TOKEN:
            raise
        return None
    return found.inner if found.mechanism == spnego.SPNEGO else None


class Negotiator:
    """One side of one negotiation: `step` takes what came from the peer, and tells what is to be sent.

    Messages are read, decided on and written by the library, and that is a theorem about it (docs/NEGOTIATION.md). That this class hands their tokens and MICs
    to the mechanism, and what the mechanism made of them to the library, is tested.

    - `role`: `NegotiationRole`. `mechanisms`: objects as `Mechanism` has it, of this negotiation alone; of an initiator in the order of its preference.
    - `asks`: whether an acceptor wants MICs whichever mechanism is chosen: None for one of two or more mechanisms alone. It needs them then, since a third may
      take away the initiator's first choice, and the acceptor would be complete with the next one, the first of what it received. False: it does not.

    An acceptor takes the first mechanism of the initiator's list that is one of its own. A first token that one of them knows as its own (`is_bare`) goes to
    it with no negotiation around it, and then nothing protects which mechanism it is. An initiator passes over a server's NegTokenInit2 that comes before its
    offer (MS-SPNG, 2.2.1).

    Any number of threads may use it; their steps take turns."""

    def __init__(self, role: NegotiationRole, mechanisms: Iterable[Mechanism], asks: Optional[bool] = None) -> None:
        self.role = NegotiationRole(role)
        self._mechanisms: List[Mechanism] = list(mechanisms)
        if not self._mechanisms:
            raise ValueError("a negotiation of no mechanisms")
        if asks and self.role == NegotiationRole.INITIATOR:
            raise ValueError("an acceptor alone asks for MICs")
        if asks is None:
            asks = self.role == NegotiationRole.ACCEPTOR and len(self._mechanisms) > 1
        self._side, self._list = Side(role=self.role, asks=bool(asks)), b""
        self._names = [[mechanism.oid, *(name for name in mechanism.names if name != mechanism.oid)] for mechanism in self._mechanisms]
        self._state, self._lock = NegotiationState.RUNNING, threading.Lock()
        self._ended: Optional[Exception] = None

    def __repr__(self) -> str:
        return "Negotiator(%s, %s)" % (self.role.name, self.state.name)

    @property
    def state(self) -> NegotiationState:
        """Where this side stands after the last step that has ended."""
        return self._state

    @property
    def mechanism(self) -> Optional[Mechanism]:
        """The mechanism that both sides use, once this side is complete; else None."""
        return self._mechanisms[self._side.mechanism] if self.state == NegotiationState.COMPLETE else None

    @property
    def name(self) -> Optional[bytes]:
        """The content of the OBJECT IDENTIFIER by which they name it; None before this side is complete, and where nothing was negotiated."""
        if self.state != NegotiationState.COMPLETE or self._side.stage == Stage.BARE:
            return None
        return self._names[self._side.mechanism][self._side.name]

    @property
    def by_mic(self) -> bool:
        """Whether this side is complete and verified a MIC of the peer's over the list of mechanisms."""
        return self.state == NegotiationState.COMPLETE and bool(self._side.by_mic)

    @property
    def peer(self) -> Optional[str]:
        """The other side's name, as the mechanism has it, once this side is complete."""
        mechanism = self.mechanism
        return None if mechanism is None else mechanism.peer

    @property
    def context(self) -> Any:
        """The mechanism's `context`, once this side is complete: of Kerberos the `krb.Context`."""
        return getattr(self.mechanism, "context", None)

    def step(self, token: Optional[Octets] = None) -> Tuple[Optional[bytes], NegotiationState]:
        """What is to be sent after the peer's token, None where nothing is, and where this side stands then. Of an initiator the first step, without a token,
        tells the offer. Where a side is complete, what it tells still has to be sent.

        NotNegotiated: the negotiation has ended by a rule, and each step from then on raises it again; one after completion ends it by FINISHED. Refused of
        MEMORY, and what a mechanism raises that is not a refusal: the negotiation has ended too. ValueError: there is no token, and one is needed."""
        octets = None if token is None else plain(token)
        with self._lock:
            if self._ended is not None:
                raise copy.copy(self._ended)
            begins = self.role == NegotiationRole.INITIATOR and self._side.stage == Stage.BEGINS
            if octets is None and not begins and self._state != NegotiationState.COMPLETE:
                raise ValueError("a token of the peer's is needed")
            try:
                told = self._begun(octets) if begins else self._answered(octets or b"")
                is_complete = self._side.stage == Stage.COMPLETE or self._side.stage == Stage.BARE and self._side.established
                self._state = NegotiationState.COMPLETE if is_complete else NegotiationState.RUNNING
                return told, self._state
            except BaseException as error:
                self._state, self._ended = NegotiationState.FAILED, _ended(error)
                raise

    def _begun(self, octets: Optional[bytes]) -> bytes:
        """The offer; after octets of a server that speaks first, which tell nothing that anybody vouches for, too."""
        if octets is not None and (_spnego_inner(octets) or b"")[:1] != b"\xa0":
            raise NotNegotiated(NegotiationRule.UNREAD)
        progress, token, cause = self._advance(self._mechanisms[0], None)
        offer, self._list = begin(self._side, self._given(b""), Told(0, progress, token or b"", b"", b""))
        if self._side.stage == Stage.FAILED:
            raise self._refusal(b"", cause) from cause
        return offer

    def _answered(self, octets: bytes) -> Optional[bytes]:
        """What is sent after octets of the peer's."""
        given = self._given(octets)
        question = take(self._side, given, self._list, octets)
        listed = self._list if question.list is None else question.list
        told, cause = self._told(question, listed)
        lacks_mic, sent = answer(self._side, given, listed, octets, told)
        if lacks_mic:
            mic = self._mechanisms[told.mechanism].make_mic(listed)
            lacks_mic, sent = answer(self._side, given, listed, octets, told._replace(mic=mic))
            if lacks_mic:
                raise ValueError("a mechanism made a MIC of no octets")
        self._list = listed
        if self._side.stage == Stage.FAILED:
            raise self._refusal(sent or b"", cause) from cause
        return sent

    def _told(self, question: Question, listed: bytes) -> Tuple[Told, Optional[Exception]]:
        """What the mechanism makes of what it is asked, and why it refuses, if it does."""
        if question.rule != NegotiationRule.NONE:
            return Told(question.mechanism, Progress.RESTS, b"", b"", b""), None
        mechanism = self._mechanisms[question.mechanism]
        progress, token, cause = self._advance(mechanism, question.token) if question.steps else (Progress.RESTS, None, None)
        told = getattr(cause, "error", None) if progress == Progress.REFUSED else token
        can_verify = question.mic is not None and progress in (Progress.ENDS, Progress.RESTS) and mechanism.established
        verified = question.mic if can_verify and mechanism.verify_mic(listed, question.mic) else None
        return Told(question.mechanism, progress, told if isinstance(told, bytes) else b"", verified or b"", b""), cause

    def _given(self, octets: bytes) -> Mechanisms:
        """The mechanisms, and which of them knows the octets as a first token of its own, if no token came before."""
        asks = self.role == NegotiationRole.ACCEPTOR and self._side.stage == Stage.BEGINS
        bare = next((mechanism for mechanism in self._mechanisms if mechanism.is_bare(octets)), None) if asks else None
        return mechanisms_of(self._names, [(mechanism.integrity, mechanism is bare) for mechanism in self._mechanisms])

    def _refusal(self, octets: bytes, cause: Optional[Exception]) -> NotNegotiated:
        """The refusal by the rule that the side broke, with the octets that answer it."""
        rule = NegotiationRule(self._side.rule)
        return NotNegotiated(rule, octets, _text(rule, cause))

    @staticmethod
    def _advance(mechanism: Mechanism, token: Optional[bytes]) -> Tuple[Progress, Optional[bytes], Optional[Exception]]:
        """How the mechanism's context stands after a token, its own token, and why it refuses, if it does. One of no octets is none."""
        refusals = getattr(mechanism, "refusals", (Exception,))
        try:
            own = mechanism.step(token) or None
        except refusals as error:
            if isinstance(error, (MemoryError, OSError)) or isinstance(error, Refused) and error.status in _NOT_OF_TOKEN:
                raise
            return Progress.REFUSED, None, error
        if mechanism.established:
            return Progress.ENDS if own is None else Progress.ENDS_WITH_TOKEN, own, None
        if own is None:
            return Progress.REFUSED, None, ValueError("it is not established, and has no token to send")
        return Progress.CONTINUES, own, None
