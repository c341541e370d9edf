"""Sides of SPNEGO, all with the same calls: `krb.Negotiator`, MIT's by python3-gssapi in this process, Heimdal's by gss_side.c in another; and Kerberos of
python3-gssapi as the mechanism that a `krb.Negotiator` is lent."""

import subprocess

import gssapi
import gssapi.raw
import krb
from clients import hexed

INITIATOR, ACCEPTOR = krb.NegotiationRole
FLAGS = {"mutual": 2, "replay": 4, "sequence": 8, "integ": 32, "dce": 0x1000}
NAMES = {
    "krb5": "1.2.840.113554.1.2.2",
    "old": "1.2.840.48018.1.2.2",
    "ntlm": "1.3.6.1.4.1.311.2.2.10",
    "iakerb": "1.3.6.1.5.2.5",
    "negoex": "1.3.6.1.4.1.311.2.2.30",
    "spnego": "1.3.6.1.5.5.2",
}
OIDS = {name: gssapi.OID.from_int_seq(dotted) for name, dotted in NAMES.items()}
CONTENTS = {name: bytes(oid) for name, oid in OIDS.items()}
BY_CONTENT = {content: name for name, content in CONTENTS.items()}
# Errors are raised where they come, with the token that is sent all the same, and not at the step after.
gssapi.SecurityContext.__DEFER_STEP_ERRORS__ = False


class Failed(Exception):
    """A side ended; `token` is what it sends all the same."""

    def __init__(self, why, token=None):
        super().__init__(why)
        self.token = token


def bits(words):
    return sum(FLAGS[word] for word in words) | FLAGS["integ"]  # with none python3-gssapi would take some of its own


def named(mechanisms):
    """Mechanisms as words."""
    return " ".join(BY_CONTENT.get(each, each.hex()) for each in mechanisms)


# Mechanisms that a Negotiator is lent.


class GssKerberos(krb.Mechanism):
    """Kerberos of python3-gssapi, of a client, under its own name or the old one."""

    refusals = (gssapi.exceptions.GSSError,)

    def __init__(self, words, oid="krb5", service="HTTP"):
        self.oid, self.names = CONTENTS[oid], frozenset([CONTENTS["krb5"], CONTENTS["old"]])
        name = gssapi.Name(service + "@localhost", gssapi.NameType.hostbased_service)
        self.link = gssapi.SecurityContext(name=name, mech=OIDS["krb5"], usage="initiate", flags=bits(words))
        self.established, self.peer = False, None

    def step(self, token):
        own = self.link.step(token)
        self.established = self.link.complete
        self.peer = str(self.link.target_name) if self.established else None
        return own

    def make_mic(self, text):
        return self.link.get_signature(text)

    def verify_mic(self, text, mic):
        try:
            self.link.verify_signature(text, mic)
            return True
        except gssapi.exceptions.GSSError:
            return False


class Offered(krb.Mechanism):
    """A mechanism that is offered, and that no peer here takes."""

    def __init__(self, oid, token):
        self.oid, self.token = CONTENTS[oid], token

    def step(self, token):
        if token is not None:
            raise ValueError("a token of nobody's")
        return self.token


def lent(names, words):
    """The mechanisms of an initiator, by their names."""
    first = {"ntlm": b"NTLMSSP\0\1\0\0\0\0\0\0\0", "iakerb": b"\x60\x05no one", "negoex": b"NEGOEXTS no one"}
    return [GssKerberos(words, each) if each in ("krb5", "old") else Offered(each, first[each]) for each in names]


# Sides.


class OurSide:
    """`krb.Negotiator`."""

    def __init__(self, role, mechanisms, asks=False):
        self.mechanisms, self.asks, self.link = mechanisms, asks, krb.Negotiator(role, mechanisms, asks)

    def begin(self):
        return self.link.step()[0]

    def step(self, token):
        try:
            return self.link.step(token)[0]
        except krb.NotNegotiated as refused:
            raise Failed(str(refused), refused.answer or None) from refused

    def is_complete(self):
        return self.link.state == krb.NegotiationState.COMPLETE

    def peer(self):
        return self.link.peer

    def mic(self, text):
        return self.link.mechanism.make_mic(text)

    def verify(self, text, mic):
        return self.link.mechanism.verify_mic(text, mic)


class MitSide:
    """SPNEGO of MIT Kerberos, with these mechanisms; an acceptor has the keytab that KRB5_KTNAME names. (Where one is given by name, gss-ntlmssp ends the
    process.)"""

    def __init__(self, role, words=(), mechanisms=("krb5",), service="HTTP"):
        usage = "initiate" if role == INITIATOR else "accept"
        creds = gssapi.Credentials(usage=usage, mechs=[OIDS["spnego"]])
        gssapi.raw.set_neg_mechs(creds, [OIDS[each] for each in mechanisms])
        name = gssapi.Name(service + "@localhost", gssapi.NameType.hostbased_service)
        given = dict(name=name, mech=OIDS["spnego"], flags=bits(words)) if role == INITIATOR else {}
        self.role, self.link = role, gssapi.SecurityContext(creds=creds, usage=usage, **given)

    def begin(self):
        return self.step(None)

    def step(self, token):
        try:
            return self.link.step(token) or None
        except gssapi.exceptions.GSSError as error:
            raise Failed(" ".join(str(error).split()), getattr(error, "token", None)) from error

    def is_complete(self):
        try:
            return bool(self.link.complete)
        except gssapi.exceptions.GSSError:
            return False

    def peer(self):
        return str(self.link.target_name if self.role == INITIATOR else self.link.initiator_name)

    def mic(self, text):
        return self.link.get_signature(text)

    def verify(self, text, mic):
        try:
            self.link.verify_signature(text, mic)
            return True
        except gssapi.exceptions.GSSError:
            return False


class Program:
    """Runs gss_side, which has one side after the other."""

    def __init__(self, program, environment):
        self.process = subprocess.Popen([program], env=environment, stdin=subprocess.PIPE, stdout=subprocess.PIPE, text=True)

    def asked(self, *words):
        self.process.stdin.write(" ".join(words) + "\n")
        self.process.stdin.flush()
        word, *answer = self.process.stdout.readline().split() or ["error", "-", "the program ended"]
        if word != "done":
            raise Failed(" ".join(answer[1:]), None if answer[0] == "-" else bytes.fromhex(answer[0]))
        return b"" if answer[0] == "-" else bytes.fromhex(answer[0])

    def end(self):
        self.process.stdin.close()
        self.process.wait(30)
        self.process.stdout.close()


class ProgramSide:
    """SPNEGO of Heimdal, with its own list of mechanisms."""

    def __init__(self, program, role, words=(), service="HTTP"):
        self.program, self.role, self.words, self.service = program, role, words, service
        if role == ACCEPTOR:
            program.asked("accept")

    def begin(self):
        return self.program.asked("init", self.service + "@localhost", str(bits(self.words))) or None

    def step(self, token):
        return self.program.asked("step", hexed(token)) or None

    def is_complete(self):
        return bool(self.program.asked("complete"))

    def peer(self):
        return self.program.asked("peer").decode()

    def mic(self, text):
        return self.program.asked("mic", hexed(text))

    def verify(self, text, mic):
        try:
            self.program.asked("verify", hexed(text), hexed(mic))
            return True
        except Failed:
            return False


def talk(initiator, acceptor, middle=lambda sender, octets: (1 - sender, octets)):
    """The messages of two sides, each as it was sent, and why each side failed. `middle` has each message in its hand, with the side that sent it, 0 for the
    initiator; what it answers comes to a side, or None, and then nothing comes any more."""
    sent, failures, sides, sender = [], [None, None], (initiator, acceptor), 0
    try:
        octets = initiator.begin()
    except Failed as failed:
        return [], [str(failed), None]
    while octets is not None and len(sent) < 12:
        sent.append(octets)
        sender, octets = middle(sender, octets)
        if octets is None or failures[sender] is not None:
            break
        try:
            octets = sides[sender].step(octets)
        except Failed as failed:
            failures[sender], octets = str(failed), failed.token
    return sent, failures
