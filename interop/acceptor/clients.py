"""Clients of MIT Kerberos, by python3-gssapi in this process, and of Heimdal, by gss_client.c in another. Both have the same calls."""

import subprocess
from typing import NamedTuple

import gssapi
import gssapi.raw

FLAGS = {"deleg": 1, "mutual": 2, "replay": 4, "sequence": 8, "conf": 16, "integ": 32, "dce": 0x1000}
SESSION_KEY = gssapi.OID.from_int_seq("1.2.840.113554.1.2.2.5.5")  # GSS_C_INQ_SSPI_SESSION_KEY
KERBEROS = gssapi.OID.from_int_seq("1.2.840.113554.1.2.2")


class Facts(NamedTuple):
    """What a client knows of its context; None for what it does not tell."""

    client: str
    flags: int
    key: bytes
    etype: int


def bits(words):
    return sum(FLAGS[word] for word in words)


class MitClient:
    def __init__(self, service, words, bindings=None, cache=None):
        self.creds = gssapi.Credentials(usage="initiate", store={"ccache": "FILE:" + cache}) if cache else None
        name = gssapi.Name(service + "@localhost", gssapi.NameType.hostbased_service)
        given = gssapi.raw.ChannelBindings(application_data=bindings) if bindings is not None else None
        flags = bits(words) | FLAGS["integ"]  # with none gssapi would take some of its own
        self.link = gssapi.SecurityContext(name=name, creds=self.creds, mech=KERBEROS, usage="initiate", flags=flags, channel_bindings=given)

    def begin(self):
        return self.link.step()

    def take(self, reply):
        return self.link.step(reply)

    def is_complete(self):
        return self.link.complete

    def facts(self):
        key = etype = None
        if self.link.complete:
            key, oid = gssapi.raw.inquire_sec_context_by_oid(self.link, SESSION_KEY)
            etype = last_arc(oid)
        return Facts(str(self.link.initiator_name), int(self.link.actual_flags), key, etype)

    def mic(self, message):
        return self.link.get_signature(message)

    def verify(self, message, token):
        self.link.verify_signature(message, token)

    def wrap(self, message, encrypt=True):
        return self.link.wrap(message, encrypt).message

    def unwrap(self, token):
        return self.link.unwrap(token).message

    def end(self):
        pass


def last_arc(oid):
    """The last number of an OBJECT IDENTIFIER, which is the encryption type."""
    arcs, arc = [], 0
    for octet in oid:
        arc = arc << 7 | octet & 127
        if octet < 128:
            arcs.append(arc)
            arc = 0
    return arcs[-1]


class MitAcceptor:
    """Whether MIT's gss_accept_sec_context lets a client in, with no replay cache (KRB5RCACHENAME=none:)."""

    def __init__(self, keytab):
        self.creds = gssapi.Credentials(usage="accept", store={"keytab": "FILE:" + keytab})

    def takes(self, token, bindings=None):
        given = gssapi.raw.ChannelBindings(application_data=bindings) if bindings is not None else None
        link = gssapi.SecurityContext(creds=self.creds, usage="accept", channel_bindings=given)
        try:
            link.step(token)
            return bool(link.complete)
        except gssapi.exceptions.GSSError:
            return False


def hexed(octets):
    return octets.hex() or "-"


class ProcessClient:
    """A client in another process, which answers a line of hexadecimal to each line."""

    def __init__(self, program, environment, service, words, bindings=None):
        self.process = subprocess.Popen([program], env=environment, stdin=subprocess.PIPE, stdout=subprocess.PIPE, text=True)
        self.begun = "init", service + "@localhost", str(bits(words)), hexed(bindings or b"")

    def asked(self, *words):
        self.process.stdin.write(" ".join(words) + "\n")
        self.process.stdin.flush()
        word, *answer = self.process.stdout.readline().split() or ["error", "the program ended"]
        if word != "done":
            raise RuntimeError(" ".join(answer))
        return [b"" if each == "-" else bytes.fromhex(each) for each in answer]

    def begin(self):
        return self.asked(*self.begun)[0]

    def take(self, reply):
        return self.asked("step", hexed(reply))[0] or None

    def is_complete(self):
        return bool(self.asked("complete")[0])

    def facts(self):
        client, flags, key, etype = self.asked("facts")
        return Facts(client.decode(), int.from_bytes(flags, "big"), key or None, int.from_bytes(etype, "big") or None)

    def mic(self, message):
        return self.asked("mic", hexed(message))[0]

    def verify(self, message, token):
        self.asked("verify", hexed(message), hexed(token))

    def wrap(self, message, encrypt=True):
        return self.asked("wrap", hexed(message), "1" if encrypt else "0")[0]

    def unwrap(self, token):
        return self.asked("unwrap", hexed(token))[0]

    def end(self):
        self.process.stdin.close()
        self.process.wait(30)
        self.process.stdout.close()
