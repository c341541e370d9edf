#!/usr/bin/python3
"""What of `krb.Negotiator` needs no package: mechanisms that are none (toys.py), each rule, octets, states, threads.

usage: KRBC_LIBRARY=FILE interop/negotiate/units.py; the last line is `N passed, N failed`."""

import itertools
import os
import pickle
import sys
import threading

HERE = os.path.dirname(os.path.abspath(__file__))
if __name__ == "__main__":
    sys.dont_write_bytecode = True
    sys.path[:0] = [HERE, os.path.dirname(HERE), os.path.join(os.path.dirname(os.path.dirname(HERE)), "python")]

import krb  # noqa: E402
from checks import ended, expect  # noqa: E402
from krb import spnego  # noqa: E402
from toys import BARE, FIRST, SECOND, THIRD, Toy  # noqa: E402

INITIATOR, ACCEPTOR = krb.NegotiationRole
RUNNING, COMPLETE, FAILED = krb.NegotiationState
COMPLETED, INCOMPLETE, REJECT, REQUEST_MIC = spnego.NegState
REJECTED = bytes.fromhex("a1073005a0030a0102")
NTLM = bytes.fromhex("2b06010401823702020a")
resp, init = spnego.make_neg_token_resp, spnego.make_neg_token_init


def rule_of(call):
    """The name of the rule by which a call ends a negotiation, or None."""
    try:
        call()
        return None
    except krb.NotNegotiated as refused:
        return refused.rule.name


def refusal_of(call):
    try:
        call()
        return None
    except Exception as error:
        return error


def list_of(offer):
    """The encoding of mechTypes in an offer, of which it is the first field, with lengths below 128."""
    inner = spnego.token(offer).inner
    start = inner.index(b"\xa0", 2)
    return inner[start + 2 : start + 2 + inner[start + 1]]


def talk(initiator, acceptor):
    """The messages of two sides with nobody between, and their states."""
    messages, turn = [], 0
    octets, _ = initiator.step(None)
    while octets is not None and len(messages) < 20:
        messages.append(octets)
        octets, _ = (acceptor, initiator)[turn].step(octets)
        turn = 1 - turn
    return messages, initiator.state, acceptor.state


# Two sides.


def try_honest():
    """Both sides complete, with the mechanism that the acceptor picks, by at most three messages more than it has tokens (docs/NEGOTIATION.md)."""
    oids = FIRST, SECOND, THIRD
    for legs, asks, count in itertools.product((1, 2, 3, 4, 5), (False, True), (1, 2, 3)):
        for offered in itertools.permutations(oids, count):
            for has in ([each] for each in offered):
                mechanisms = [Toy(INITIATOR, each, legs) for each in offered]
                initiator = krb.Negotiator(INITIATOR, mechanisms)
                acceptor = krb.Negotiator(ACCEPTOR, [Toy(ACCEPTOR, each, legs) for each in has], asks)
                title = "%d tokens, %s of %s, asks %s" % (legs, has[0][-1], [each[-1] for each in offered], asks)
                messages, one, other = talk(initiator, acceptor)
                expect((one, other) == (COMPLETE, COMPLETE), "%s: %s, %s" % (title, one, other))
                expect(initiator.name == acceptor.name == has[0] and initiator.mechanism.oid == acceptor.mechanism.oid == has[0], "%s: names" % title)
                expect(len(messages) <= legs + 3, "%s: %d messages" % (title, len(messages)))
                needs_mics = asks or offered[0] != has[0]
                expect((initiator.by_mic, acceptor.by_mic) == (needs_mics, needs_mics), "%s: MICs" % title)
                texts = set(initiator.mechanism.texts + acceptor.mechanism.texts)
                expect(texts == ({list_of(messages[0])} if needs_mics else set()), "%s: the texts of MICs" % title)
                expect(initiator.peer == acceptor.peer == "toy" and initiator.context is None, "%s: the peer" % title)


def try_transcript():
    """The states of a conversation, as RFC 4178, 5, has them."""
    initiator = krb.Negotiator(INITIATOR, [Toy(INITIATOR, FIRST), Toy(INITIATOR, SECOND)])
    acceptor = krb.Negotiator(ACCEPTOR, [Toy(ACCEPTOR, SECOND)])
    messages, _, _ = talk(initiator, acceptor)
    first = spnego.neg_token_init(messages[0])
    expect(first.mechanisms == [FIRST, SECOND] and first.mech_token == b"toy:00:1", "an offer: %s" % (first,))
    got = [spnego.neg_token_resp(each) for each in messages[1:]]
    says = [(each.neg_state, each.supported_mech, each.response_token, each.mech_list_mic is not None) for each in got]
    wanted = [(REQUEST_MIC, SECOND, None, False), (INCOMPLETE, None, b"toy:01:1", False), (INCOMPLETE, None, b"toy:01:2", True), (COMPLETED, None, None, True)]
    expect(says == wanted, "a conversation: %s" % says)
    alone = talk(krb.Negotiator(INITIATOR, [Toy(INITIATOR)]), krb.Negotiator(ACCEPTOR, [Toy(ACCEPTOR)]))[0]
    says = spnego.neg_token_resp(alone[1])
    expect(len(alone) == 2 and says[:3] == (COMPLETED, FIRST, b"toy:00:2") and says.mech_list_mic is None, "the first choice: %s" % (says,))


def try_order():
    """An acceptor takes the first name of the list that names one of its mechanisms, in whichever order it has these."""
    for offered in itertools.permutations((FIRST, SECOND, THIRD)):
        for own in itertools.permutations((FIRST, SECOND, THIRD), 2):
            side = krb.Negotiator(ACCEPTOR, [Toy(ACCEPTOR, each) for each in own])
            answer, _ = side.step(init(offered, b"toy:%s:1" % offered[0][-1:].hex().encode()))
            got, wanted = spnego.neg_token_resp(answer).supported_mech, [each for each in offered if each in own][0]
            expect(got == wanted, "of %s an acceptor of %s takes %s" % tuple([each[-1] for each in some] for some in (offered, own, [got])))


def try_front():
    """A third takes away the first choice of both, which the initiator's token is of. An acceptor of two mechanisms is not complete without a MIC, unless it was
    told not to ask, and with one it is the initiator that refuses; an acceptor of one mechanism asks for none."""
    for words, is_complete in (((), False), ((None,), False), ((True,), False), ((False,), True)):
        side = krb.Negotiator(ACCEPTOR, [Toy(ACCEPTOR, FIRST), Toy(ACCEPTOR, SECOND)], *words)
        answer, state = side.step(init([SECOND], b"toy:01:1"))
        said = spnego.neg_token_resp(answer).neg_state
        expect((state, side.by_mic, said) == ((COMPLETE, False, COMPLETED) if is_complete else (RUNNING, False, REQUEST_MIC)), "asks %s: %s, %s" % (words, state, said))
        initiator = krb.Negotiator(INITIATOR, [Toy(INITIATOR, FIRST), Toy(INITIATOR, SECOND)])
        initiator.step()
        expect(rule_of(lambda: talk_on(initiator, side, answer)) is not None and initiator.state != COMPLETE, "asks %s: the initiator is complete" % (words,))
        expect(is_complete or side.state != COMPLETE, "asks %s: the acceptor is complete" % (words,))
    for own, words, wanted in (([FIRST], (), COMPLETE), ([FIRST], (True,), RUNNING), ([FIRST, SECOND], (), RUNNING), ([FIRST, SECOND], (False,), COMPLETE)):
        _, state = krb.Negotiator(ACCEPTOR, [Toy(ACCEPTOR, each) for each in own], *words).step(init([FIRST], TOKEN_1))
        expect(state == wanted, "%d mechanisms, asks %s: %s" % (len(own), words, state))
    krb.Negotiator(INITIATOR, [Toy(INITIATOR, FIRST), Toy(INITIATOR, SECOND)], None).step()
    for offered in ([FIRST, SECOND], [SECOND, FIRST], [SECOND]):
        sides = [krb.Negotiator(role, [Toy(role, each) for each in given]) for role, given in ((INITIATOR, offered), (ACCEPTOR, [FIRST, SECOND]))]
        _, one, other = talk(*sides)
        expect((one, other) == (COMPLETE, COMPLETE) and sides[0].by_mic and sides[1].by_mic, "honest sides, an acceptor of two: %s, %s" % (one, other))


def talk_on(initiator, acceptor, answer):
    """The rest of a conversation, from an answer of the acceptor's."""
    while answer is not None:
        answer, _ = initiator.step(answer)
        if answer is None:
            return
        answer, _ = acceptor.step(answer)


def try_alias():
    """A name that peers use in the place of a mechanism's own is answered as it is spelled."""
    for offered in ([SECOND], [SECOND, FIRST], [FIRST, SECOND]):
        sides = [krb.Negotiator(role, [Toy(role, FIRST, names=[SECOND])]) for role in (INITIATOR, ACCEPTOR)]
        sides[0].step(None)
        answer, state = sides[1].step(init(offered, b"toy:00:1"))
        expect(state == COMPLETE and spnego.neg_token_resp(answer).supported_mech == offered[0] == sides[1].name, "the alias in %s" % offered)
        expect(sides[0].step(answer) == (None, COMPLETE) and sides[0].name == offered[0], "the alias in %s: the initiator" % offered)
    both = krb.Negotiator(ACCEPTOR, [Toy(ACCEPTOR, THIRD, names=[SECOND]), Toy(ACCEPTOR, SECOND)], False)
    both.step(init([SECOND], b"toy:02:1"))
    expect(both.mechanism is not None and both.mechanism.oid == THIRD, "a name of two mechanisms is the first one's")


# The rules.


def acceptor_of(legs=2, asks=False, integrity=True, oid=FIRST, error=b""):
    return krb.Negotiator(ACCEPTOR, [Toy(ACCEPTOR, oid, legs, integrity, error=error)], asks)


def initiator_of(legs=2, integrity=True, others=(SECOND,)):
    side = krb.Negotiator(INITIATOR, [Toy(INITIATOR, FIRST, legs, integrity)] + [Toy(INITIATOR, each, legs, integrity) for each in others])
    side.step(None)
    return side


def after(side, *messages):
    """A side after messages that it takes."""
    for each in messages:
        side.step(each)
    return side


TOKEN_1, TOKEN_2, TOKEN_3 = (b"toy:00:%d" % n for n in (1, 2, 3))
MIC = b"a MIC"


def offers():
    """First messages to an acceptor, and the rule that each breaks."""
    yield "no list", acceptor_of(), spnego.make_token(spnego.SPNEGO, bytes.fromhex("a0023000")), "NO_MECHANISM"
    yield "an unknown mechanism", acceptor_of(), init([SECOND, THIRD], TOKEN_1), "UNKNOWN_MECHANISM"
    yield "no integrity, second", acceptor_of(integrity=False), init([SECOND, FIRST], TOKEN_1), "UNPROTECTED"
    yield "no integrity, asked for", acceptor_of(asks=True, integrity=False), init([FIRST], TOKEN_1), "UNPROTECTED"
    yield "no integrity, first", acceptor_of(integrity=False), init([FIRST], TOKEN_1), None
    yield "a MIC, second", acceptor_of(), init([SECOND, FIRST], TOKEN_1, MIC), "EARLY_MIC"
    yield "a MIC without a token", acceptor_of(), init([FIRST], b"", MIC), "EARLY_MIC"
    yield "a MIC beside the token", acceptor_of(), init([FIRST], TOKEN_1, MIC), "EARLY_MIC"
    yield "a wrong MIC beside the only token", acceptor_of(1), init([FIRST], TOKEN_1, MIC), "WRONG_MIC"
    yield "another token", acceptor_of(), init([FIRST], TOKEN_2), "MECHANISM_FAILED"
    yield "another token, second", acceptor_of(), init([SECOND, FIRST], TOKEN_2), None
    yield "no token", acceptor_of(), init([FIRST]), None
    for what, octets in (
        ("a reply", resp(COMPLETED, FIRST)),
        ("a reply of a token", resp(INCOMPLETE, b"", TOKEN_1)),
        ("no octets", b""),
        ("NTLM", b"NTLMSSP\0\1\0\0\0"),
        ("the offer without its frame", spnego.token(init([FIRST], TOKEN_1)).inner),
        ("the offer in a frame of another mechanism", spnego.make_token(FIRST, spnego.token(init([FIRST], TOKEN_1)).inner)),
        ("an octet behind the offer", init([FIRST], TOKEN_1) + b"\0"),
        ("a cut offer", init([FIRST], TOKEN_1)[:-1]),
        ("a bare token of another toy", b"toy:03:1"),
    ):
        yield what, acceptor_of(), octets, "UNREAD"


def resp_with_empty_mic(token):
    """A message of a token and a mechListMIC of no octets, which krb.spnego does not make."""
    fields = b"\xa2" + bytes([len(token) + 2]) + b"\x04" + bytes([len(token)]) + token + bytes.fromhex("a3020400")
    return b"\xa1" + bytes([len(fields) + 2]) + b"\x30" + bytes([len(fields)]) + fields


def later_to_acceptor():
    def running(asks=False, legs=3):
        return after(acceptor_of(legs, asks), init([FIRST], TOKEN_1))

    yield "reject", running(), resp(REJECT), "REJECTED"
    yield "reject with a mechanism", running(), resp(REJECT, FIRST), "REJECTED"
    yield "request-mic", running(), resp(REQUEST_MIC, b"", TOKEN_3), "LATE_REQUEST"
    yield "supportedMech", running(), resp(INCOMPLETE, FIRST, TOKEN_3), "SECOND_MECHANISM"
    yield "no token", running(), resp(INCOMPLETE), "NO_TOKEN"
    yield "another token", running(), resp(INCOMPLETE, b"", TOKEN_2), "MECHANISM_FAILED"
    yield "accept-completed of 4 tokens", running(legs=5), resp(COMPLETED, b"", TOKEN_3), "EARLY_COMPLETION"
    yield "a MIC beside a token of 5", running(legs=5), resp(INCOMPLETE, b"", TOKEN_3, MIC), "EARLY_MIC"
    yield "no MIC where one is asked for", running(True), resp(INCOMPLETE, b"", TOKEN_3), "NO_MIC"
    yield "a wrong MIC", running(True), resp(INCOMPLETE, b"", TOKEN_3, MIC), "WRONG_MIC"
    yield "a wrong MIC that nobody asked for", running(), resp(INCOMPLETE, b"", TOKEN_3, MIC), "WRONG_MIC"
    yield "a MIC of no octets", running(True), resp_with_empty_mic(TOKEN_3), "WRONG_MIC"
    yield "a MIC of no octets that nobody asked for", running(), resp_with_empty_mic(TOKEN_3), "WRONG_MIC"
    yield "no MIC where nobody asks", running(), resp(None, b"", TOKEN_3), None
    yield "an offer", running(), init([FIRST], TOKEN_1), "UNREAD"
    yield "another negState", running(), bytes.fromhex("a1073005a0030a0104"), "UNREAD"
    yield "a negState that is none", running(), bytes.fromhex("a1073005a003020100"), "UNREAD"
    yield "garbage", running(), b"garbage", "UNREAD"
    yield "a token after the last one", after(acceptor_of(1, True), init([FIRST], TOKEN_1)), resp(INCOMPLETE, b"", TOKEN_2), "UNEXPECTED_TOKEN"
    yield "no MIC after the last token", after(acceptor_of(1, True), init([FIRST], TOKEN_1)), resp(INCOMPLETE), "NO_MIC"
    yield "a token after completion", after(acceptor_of(1), init([FIRST], TOKEN_1)), resp(INCOMPLETE, b"", TOKEN_2), "FINISHED"
    yield "garbage after completion", after(acceptor_of(1), init([FIRST], TOKEN_1)), b"garbage", "FINISHED"


def to_initiator():
    yield "no negState", initiator_of(), resp(None, FIRST, TOKEN_2), "NO_STATE"
    yield "reject", initiator_of(), resp(REJECT, FIRST, TOKEN_2), "REJECTED"
    yield "no supportedMech", initiator_of(), resp(COMPLETED, b"", TOKEN_2), "NO_MECHANISM"
    yield "a mechanism that was not offered", initiator_of(), resp(COMPLETED, THIRD, TOKEN_2), "UNKNOWN_MECHANISM"
    yield "no integrity, asked for", initiator_of(integrity=False), resp(REQUEST_MIC, FIRST, TOKEN_2), "UNPROTECTED"
    yield "no integrity, second", initiator_of(integrity=False), resp(INCOMPLETE, SECOND), "UNPROTECTED"
    yield "no integrity, first", initiator_of(integrity=False), resp(COMPLETED, FIRST, TOKEN_2), None
    yield "second, with a token", initiator_of(), resp(REQUEST_MIC, SECOND, b"toy:01:2"), "UNEXPECTED_TOKEN"
    yield "no token", initiator_of(), resp(COMPLETED, FIRST), "NO_TOKEN"
    yield "a token of no octets", initiator_of(), bytes.fromhex("a1193017a0030a0100a10c060a") + FIRST + bytes.fromhex("a2020400"), "MECHANISM_FAILED"
    yield "a token though the mechanism is done", initiator_of(1), resp(COMPLETED, FIRST, TOKEN_2), "UNEXPECTED_TOKEN"
    yield "another token", initiator_of(), resp(COMPLETED, FIRST, TOKEN_3), "MECHANISM_FAILED"
    yield "accept-completed of 3 tokens", initiator_of(3), resp(COMPLETED, FIRST, TOKEN_2), "EARLY_COMPLETION"
    yield "accept-completed, second", initiator_of(), resp(COMPLETED, SECOND), "EARLY_COMPLETION"
    yield "a MIC of 3 tokens", initiator_of(3), resp(INCOMPLETE, FIRST, TOKEN_2, MIC), "EARLY_MIC"
    yield "a wrong MIC", initiator_of(), resp(COMPLETED, FIRST, TOKEN_2, MIC), "WRONG_MIC"
    yield "accept-completed without the MIC that is asked for", after(initiator_of(1), resp(REQUEST_MIC, FIRST)), resp(COMPLETED), "NO_MIC"
    yield "nothing to go on with", initiator_of(), resp(INCOMPLETE, FIRST, TOKEN_2), "NO_MIC"
    yield "request-mic a second time", after(initiator_of(4), resp(REQUEST_MIC, FIRST, TOKEN_2)), resp(REQUEST_MIC), "LATE_REQUEST"
    yield "supportedMech a second time", after(initiator_of(4), resp(INCOMPLETE, FIRST, TOKEN_2)), resp(INCOMPLETE, FIRST), "SECOND_MECHANISM"
    yield "its own offer", initiator_of(), init([FIRST], TOKEN_1), "UNREAD"
    yield "a hint after the offer", initiator_of(), HINT, "UNREAD"
    yield "another negState", initiator_of(), bytes.fromhex("a1073005a0030a017f"), "UNREAD"
    yield "a token after completion", after(initiator_of(), resp(COMPLETED, FIRST, TOKEN_2)), resp(COMPLETED), "FINISHED"


# A server's NegTokenInit2 with negHints (MS-SPNG, 2.2.1), as Windows and Samba have it.
HINT = spnego.make_token(
    spnego.SPNEGO,
    bytes.fromhex("a03c303aa00e300c060a2b06010401823702020aa32a3028a0261b246e6f745f646566696e65645f696e5f5246433431373840706c656173655f69676e6f7265"),
)


def try_rules():
    """Each message is refused by its rule, mechanisms are not asked again, and a side that has failed has failed for good."""
    seen = set()
    for title, side, message, wanted in itertools.chain(offers(), later_to_acceptor(), to_initiator()):
        title = "%s: %s" % (side.role.name.lower(), title)
        before = side.state
        refused = refusal_of(lambda: side.step(message))
        got = refused.rule.name if isinstance(refused, krb.NotNegotiated) else refused and repr(refused)
        expect(got == wanted, "%s: %s, and not %s" % (title, got, wanted))
        if wanted is None or not isinstance(refused, krb.NotNegotiated):
            continue
        seen.add(wanted)
        quiet = wanted in ("REJECTED", "FINISHED")
        expect(refused.answer == (b"" if quiet else REJECTED), "%s: the answer %s" % (title, refused.answer.hex()))
        expect((before == COMPLETE) == (wanted == "FINISHED") and side.state == FAILED, "%s: the state %s" % (title, side.state))
        expect((side.mechanism, side.name, side.peer, side.context, side.by_mic) == (None, None, None, None, False), "%s: what is known of it" % title)
        for octets in (message, None, resp(COMPLETED), init([FIRST], TOKEN_1)):
            again = refusal_of(lambda: side.step(octets))
            right = isinstance(again, krb.NotNegotiated) and (again.rule, again.answer) == (refused.rule, b"") and "ended" in str(again)
            expect(right, "%s: another step: %r" % (title, again))
    missing = {each.name for each in krb.NegotiationRule} - seen - {"NONE"}
    expect(not missing, "rules that no message breaks: %s" % sorted(missing))


def try_reject():
    """The answer to a token that the mechanism refuses: a reject, with the mechanism's own token, and the name where none was said."""
    refused = refusal_of(lambda: acceptor_of(error=b"why").step(init([FIRST], TOKEN_2)))
    expect(refused.answer == resp(REJECT, FIRST, b"why") and "another token" in str(refused), "the answer to the first token: %r" % refused.answer)
    expect(type(refused.__cause__).__name__ == "ToyRefusal", "the cause: %r" % refused.__cause__)
    refused = refusal_of(lambda: after(acceptor_of(3, error=b"why"), init([FIRST], TOKEN_1)).step(resp(INCOMPLETE, b"", TOKEN_2)))
    expect(refused.answer == resp(REJECT, b"", b"why"), "the answer to a later token: %r" % refused.answer)
    copied = pickle.loads(pickle.dumps(refused))
    same = all(getattr(copied, each) == getattr(refused, each) for each in ("rule", "answer", "status")) and str(copied) == str(refused)
    expect(same and isinstance(refused, krb.Refused) and refused.status == krb.Status.NOT_ACCEPTED, "a copy of a refusal: %r" % copied)
    expect(all(krb._rules.NEGOTIATION_TEXTS.get(rule) for rule in krb.NegotiationRule), "a rule has no text")


# What else there is.


def try_bare():
    """Tokens with no negotiation around them."""
    side = acceptor_of(oid=BARE)
    expect(side.step(b"toy:03:1") == (b"toy:03:2", COMPLETE), "a bare token")
    expect((side.mechanism.oid, side.name, side.by_mic, side.peer) == (BARE, None, False, "toy"), "what is known of a bare token")
    expect(rule_of(lambda: side.step(b"toy:03:3")) == "FINISHED" and side.state == FAILED, "a bare token after the last one")
    side = acceptor_of(4, oid=BARE)
    expect(side.step(b"toy:03:1") == (b"toy:03:2", RUNNING) and side.mechanism is None and side.peer is None, "the first bare token of two")
    expect(side.step(b"toy:03:3") == (b"toy:03:4", COMPLETE), "the second bare token of two")
    side = after(acceptor_of(4, oid=BARE, error=b"why"), b"toy:03:1")
    refused = refusal_of(lambda: side.step(init([BARE], b"toy:03:3")))
    expect(refused.rule.name == "MECHANISM_FAILED" and refused.answer == b"why", "an offer after a bare token: %r" % refused)
    side = krb.Negotiator(ACCEPTOR, [Toy(ACCEPTOR, FIRST), Toy(ACCEPTOR, BARE)], True)
    expect(side.step(b"toy:03:1")[1] == COMPLETE, "a bare token of the second mechanism")


def try_hint():
    """A server that speaks first."""
    side = krb.Negotiator(INITIATOR, [Toy(INITIATOR)])
    offer, state = side.step(HINT)
    other = krb.Negotiator(INITIATOR, [Toy(INITIATOR)]).step(None)
    expect((offer, state) == other and state == RUNNING, "an offer after a hint")
    for what in (b"", b"garbage", resp(INCOMPLETE, FIRST), spnego.make_token(FIRST, b"\xa0\0"), spnego.make_token(spnego.SPNEGO, b"\xa1\0")):
        side = krb.Negotiator(INITIATOR, [Toy(INITIATOR)])
        refused = refusal_of(lambda: side.step(what))
        expect(isinstance(refused, krb.NotNegotiated) and refused.rule.name == "UNREAD" and not refused.answer, "no hint: %r" % what)


def try_words():
    """What a Negotiator does not take."""
    for words in ((INITIATOR, []), (ACCEPTOR, []), (INITIATOR, [Toy(INITIATOR)], True), (2, [Toy(ACCEPTOR)])):
        expect(isinstance(refusal_of(lambda: krb.Negotiator(*words)), ValueError), "a Negotiator of %s" % (words,))
    for side in (acceptor_of(), initiator_of()):
        error = refusal_of(lambda: side.step(None))
        expect(type(error) is ValueError and side.state == RUNNING, "a step without a token: %r" % error)
    side = krb.Negotiator(1, (Toy(ACCEPTOR) for _ in range(1)))
    answer, state = side.step(bytearray(init([FIRST], TOKEN_1)))
    expect(state == COMPLETE and isinstance(answer, bytes) and repr(side) == "Negotiator(ACCEPTOR, COMPLETE)", "a bytearray: %r" % side)
    side = acceptor_of()
    expect(side.step(memoryview(init([FIRST], TOKEN_1)))[1] == COMPLETE, "a memoryview")


class Broken(Toy):
    """A mechanism that raises what it is told, or answers nothing though it waits."""

    def __init__(self, role, error):
        super().__init__(role)
        self.raised = error

    def step(self, token):
        if self.raised is not None:
            raise self.raised
        return None


class Plain:
    """A mechanism with the members of `krb.Mechanism`, and not one of its class."""

    oid, names, integrity, established, peer = FIRST, (), True, False, None

    def is_bare(self, token):
        return False

    def step(self, token):
        self.established = True
        return b""

    def make_mic(self, text):
        return b"%d" % len(text)

    def verify_mic(self, text, mic):
        return mic == b"%d" % len(text)


def try_broken():
    """What is about this machine is raised on, and the negotiation is over; the rest is the mechanism's refusal."""
    for error, is_refusal in (
        (OSError("the disk is full"), False),
        (MemoryError(), False),
        (krb.Refused(krb.Status.MEMORY), False),
        (krb.Refused(krb.Status.KEYTAB), False),
        (KeyboardInterrupt(), False),
        (krb.Refused(krb.Status.INTEGRITY), True),
        (RuntimeError("no"), True),
        (None, True),
    ):
        side = krb.Negotiator(ACCEPTOR, [Broken(ACCEPTOR, error)])
        try:
            side.step(init([FIRST], TOKEN_1))
            got = None
        except BaseException as raised:
            got = raised
        if is_refusal:
            expect(isinstance(got, krb.NotNegotiated) and got.rule.name == "MECHANISM_FAILED", "a mechanism that raises %r: %r" % (error, got))
        else:
            expect(got is error, "a mechanism that raises %r: %r" % (error, got))
        again = refusal_of(lambda: side.step(init([FIRST], TOKEN_1)))
        expect(side.state == FAILED and isinstance(again, (krb.Refused, RuntimeError)), "after a mechanism that raises %r: %r" % (error, again))
    refused = refusal_of(lambda: krb.Negotiator(INITIATOR, [Broken(INITIATOR, RuntimeError("no ticket"))]).step())
    expect(refused.rule.name == "MECHANISM_FAILED" and not refused.answer and "no ticket" in str(refused), "a mechanism that does not begin: %r" % refused)
    sides = [krb.Negotiator(role, [Plain()], *asks) for role, asks in ((INITIATOR, ()), (ACCEPTOR, (True,)))]
    offer, _ = sides[0].step()
    expect(spnego.neg_token_init(offer).mech_token is None, "a token of no octets: %r" % offer)
    expect(sides[1].step(offer) == (resp(REQUEST_MIC, FIRST), RUNNING), "an offer without a token")
    plain = krb.Negotiator(ACCEPTOR, [Plain()], True)
    answer, _ = plain.step(init([FIRST], b"a token"))
    expect(spnego.neg_token_resp(answer).mech_list_mic == b"%d" % len(list_of(offer)), "a mechanism of another class: %r" % answer)
    expect(plain.step(resp(COMPLETED, b"", b"", b"14")) == (None, COMPLETE) and plain.by_mic, "a mechanism of another class: the end")


def try_threads():
    """Of eight threads with one offer, one is answered."""
    for _ in range(20):
        toy = Toy(ACCEPTOR, legs=3)
        side, got, barrier = krb.Negotiator(ACCEPTOR, [toy]), [], threading.Barrier(8)

        def go():
            barrier.wait()
            got.append(rule_of(lambda: side.step(init([FIRST], TOKEN_1))) or "answered")

        threads = [threading.Thread(target=go) for _ in range(8)]
        for each in threads:
            each.start()
        for each in threads:
            each.join()
        expect(sorted(got) == ["UNREAD"] * 7 + ["answered"] and toy.steps == 1, "eight threads: %s" % got)


def try_units():
    for each in (try_honest, try_transcript, try_order, try_front, try_alias, try_rules, try_reject, try_bare, try_hint, try_words, try_broken, try_threads):
        each()


if __name__ == "__main__":
    try_units()
    sys.exit(ended())
