#!/usr/bin/env python3
"""MIC and Wrap tokens of `krb.gss` and of MIT Kerberos in one context, each side's given to the other.

usage: interop/c_library/gss_context.py
       interop/c_library/gss_context.py --rows

It makes a realm with a KDC of MIT Kerberos on 127.0.0.1, in a directory of its own, and there a context of the GSS-API between an initiator and an
acceptor under each of the encryption types 17 to 20, with the initiator's subkey alone and with the acceptor's (mutual authentication). The keys are those
that `gss_krb5_export_lucid_sec_context` gives. Of messages of 0 to some thousand octets:

- MIT's MIC and Wrap tokens of each side, sealed and not, hold here, with their sequence numbers; rotated by hand by any count, too;
- ours hold in MIT, rotated by any count and not;
- each with one bit of each octet another, or cut, is refused here, and of the bits also by MIT; so is a token of the other side.

`--rows` prints MIT's tokens instead, with their keys, as rows of the test of krb_gss_per_message: etype, key, sender, whether it is the acceptor's subkey, sequence
number, kind, message and token.

It needs Python 3.9, of Debian krb5-kdc, krb5-admin-server, krb5-user and python3-gssapi, and the package `krb` with its shared object (KRBC_LIBRARY). The last
line is `N passed, N failed`; the status is 1 where one failed.
"""

import os
import random
import sys
import tempfile

sys.dont_write_bytecode = True
sys.path.append(os.path.join(os.path.dirname(os.path.abspath(__file__)), ".."))

from checks import ended, expect  # noqa: E402
from octets import flipped  # noqa: E402
from realm import SUITES, Servers  # noqa: E402

REALM = "LAB.EXAMPLE"


class ContextRealm(Servers):
    """A KDC in a directory of its own, a user with a ticket, and a service with a key of each encryption type."""

    def __init__(self, home):
        own = {name: "FILE:" + os.path.join(home, file) for name, file in (("KRB5CCNAME", "cache"), ("KRB5_KTNAME", "keytab"))}
        super().__init__(home, REALM, KRB5RCACHETYPE="none", **own)
        for name, permitted in {"krb5.conf": " ".join(SUITES.values()), **{"krb5-%d.conf" % number: name for number, name in SUITES.items()}}.items():
            self.write_client(name, " permitted_enctypes = %s\n" % permitted)
        self.write_kdc(suites=SUITES.values())

    def begin(self):
        self.create()
        self.admin("addprinc -pw password user")
        for number, name in SUITES.items():
            self.admin("addprinc -randkey -e %s:normal host/e%d.lab.example" % (name, number))
            self.admin("ktadd -norandkey -k %s/keytab host/e%d.lab.example" % (self.home, number))
        self.start_kdc()
        for number in SUITES:
            self.run("kinit", "user", text="password\n", environment=self.under(number))

    def under(self, etype):
        """The environment in which this encryption type alone is permitted, and a cache with a ticket under it."""
        return dict(self.environment, KRB5_CONFIG=self.path("krb5-%d.conf" % etype), KRB5CCNAME="FILE:" + self.path("cache-%d" % etype))


class Side:
    """One side of a context: MIT's, and the key of the tokens that it sends."""

    def __init__(self, context, acceptor):
        from gssapi import SecurityContext
        from gssapi.raw import ext_krb5

        exported = context.export()
        self.mit = SecurityContext(token=exported)
        lucid = ext_krb5.krb5_export_lucid_sec_context(SecurityContext(token=exported), 1)
        keys = lucid.cfx_kd
        self.subkey = keys.acceptor_subkey is not None
        self.etype, self.key = (keys.acceptor_subkey_type, keys.acceptor_subkey) if self.subkey else (keys.ctx_key_type, keys.ctx_key)
        self.number, self.acceptor = lucid.send_seq, acceptor


def sides(etype, mutual):
    """Both sides of a context under a key of this encryption type."""
    import gssapi

    name = gssapi.Name("host/e%d.lab.example@%s" % (etype, REALM), gssapi.NameType.kerberos_principal)
    flags = [gssapi.RequirementFlag.integrity, gssapi.RequirementFlag.confidentiality] + ([gssapi.RequirementFlag.mutual_authentication] if mutual else [])
    initiator = gssapi.SecurityContext(name=name, usage="initiate", flags=flags, mech=gssapi.MechType.kerberos)
    acceptor = gssapi.SecurityContext(usage="accept")
    token = acceptor.step(initiator.step())
    if token is not None and not initiator.complete:
        initiator.step(token)
    if not (initiator.complete and acceptor.complete):
        raise SystemExit("gss_context: no context under %d" % etype)
    return Side(initiator, False), Side(acceptor, True)


def rows(realm):
    for etype in SUITES:
        os.environ.update(realm.under(etype))
        for mutual in (False, True):
            for side in sides(etype, mutual):
                for message in (b"", b"a message"):
                    for kind in ("mic", "clear", "sealed"):
                        token = side.mit.get_signature(message) if kind == "mic" else side.mit.wrap(message, kind == "sealed").message
                        number = side.number
                        side.number += 1
                        words = side.etype, side.key.hex(), int(side.acceptor), int(side.subkey), number, kind, message.hex(), token.hex()
                        print("\t".join(str(word) for word in words))


def rotated(token, count):
    """A Wrap token that is not rotated, with its data rotated by hand (RFC 4121, 4.2.5)."""
    header, held = token[:16], token[16:]
    cut = len(held) - count % len(held)
    return header[:6] + count.to_bytes(2, "big") + header[8:] + held[cut:] + held[:cut]


def is_taken(call, *words):
    from gssapi.exceptions import GSSError
    from krb import Refused

    try:
        call(*words)
        return True
    except (GSSError, Refused):
        return False


class Pair:
    """A sender, whose tokens are tried, and the other side of its context."""

    def __init__(self, sender, receiver):
        from krb import gss

        # MIT counts the tokens that it makes; ours have numbers of their own, which a context without replay detection takes.
        self.sender, self.receiver, self.number, self.own_number = sender, receiver, sender.number, 2**63
        self.key = gss.TokenKey(sender.etype, sender.key, gss.Sender(sender.acceptor), sender.subkey)
        self.other = self.key._replace(sender=gss.Sender(not sender.acceptor))
        self.name = "etype %d, %s, %s" % (sender.etype, self.key.sender.name.lower(), "acceptor's subkey" if sender.subkey else "initiator's subkey")

    def next_number(self):
        self.number += 1
        return self.number - 1

    def next_own_number(self):
        self.own_number += 1
        return self.own_number

    def expect(self, right, what):
        expect(right, "%s: %s" % (self.name, what))

    def theirs(self, message):
        """MIT's tokens, here."""
        from krb import Status, gss
        from refusals import status_of

        number, token = self.next_number(), self.sender.mit.get_signature(message)
        self.expect(gss.verify_mic(self.key, message, token) == number, "MIT's MIC token has another number")
        self.expect(gss.make_mic(self.key, number, message) == token, "another MIC token is made than MIT's")
        self.expect(status_of(gss.verify_mic, self.other, message, token) == Status.DIRECTION, "a MIC token of the other side is taken")
        self.expect(status_of(gss.verify_mic, self.key, message + b"x", token) == Status.INTEGRITY, "a MIC token is taken of another message")
        for sealed in (False, True):
            number, token = self.next_number(), self.sender.mit.wrap(message, sealed).message
            held = gss.Unwrapped(message, number, sealed)
            for count in (0, 1, 12, 16, 28, 255, 1000, 65535):
                self.expect(gss.unwrap(self.key, rotated(token, count)) == held, "MIT's token, rotated by %d, holds another message" % count)
            self.expect(status_of(gss.unwrap, self.other, token) == Status.DIRECTION, "a Wrap token of the other side is taken")
            if not sealed:
                self.expect(gss.wrap_in_clear(self.key, number, message) == token, "another token in the clear is made than MIT's")

    def ours(self, message):
        """Our tokens, in MIT."""
        from krb import gss

        self.receiver.mit.verify_signature(message, gss.make_mic(self.key, self.next_own_number(), message))
        for count in (0, 1, 28, 1000):
            for sealed, make in ((False, gss.wrap_in_clear), (True, gss.wrap)):
                held = self.receiver.mit.unwrap(make(self.key, self.next_own_number(), message, count))
                self.expect(held.message == message and bool(held.encrypted) == sealed, "MIT finds another message in our token, rotated by %d" % count)

    def changed(self, message):
        """Tokens with a bit of each octet another, and each cut, in both."""
        from krb import gss

        for sealed in (False, True):
            token = gss.wrap(self.key, self.own_number, message) if sealed else gss.wrap_in_clear(self.key, self.own_number, message)
            for place in range(len(token)):
                bad = flipped(token, place, place % 8)
                self.expect(not is_taken(gss.unwrap, self.key, bad), "a Wrap token is taken with octet %d another" % place)
                self.expect(not is_taken(self.receiver.mit.unwrap, bad), "MIT takes a Wrap token with octet %d another" % place)
            for size in range(len(token)):
                self.expect(not is_taken(gss.unwrap, self.key, token[:size]), "a Wrap token is taken of %d octets" % size)
        token = gss.make_mic(self.key, self.own_number, message)
        for place in range(len(token)):
            bad = flipped(token, place, place % 8)
            self.expect(not is_taken(gss.verify_mic, self.key, message, bad), "a MIC token is taken with octet %d another" % place)
            self.expect(not is_taken(self.receiver.mit.verify_signature, message, bad), "MIT takes a MIC token with octet %d another" % place)
        for size in range(len(token)):
            self.expect(not is_taken(gss.verify_mic, self.key, message, token[:size]), "a MIC token is taken of %d octets" % size)


def try_contexts(realm):
    draw = random.Random(4121)
    for etype in SUITES:
        os.environ.update(realm.under(etype))
        for mutual in (False, True):
            initiator, acceptor = sides(etype, mutual)
            expect(initiator.etype == etype and initiator.subkey == mutual, "a context under %d has a key of %d" % (etype, initiator.etype))
            for pair in (Pair(initiator, acceptor), Pair(acceptor, initiator)):
                for size in (0, 1, 15, 16, 17, 100, 5000, 70000):
                    pair.theirs(draw.randbytes(size))
                    pair.ours(draw.randbytes(size))
                pair.changed(b"a message")


def main():
    with tempfile.TemporaryDirectory() as home:
        with ContextRealm(home) as realm:
            os.environ.update(realm.environment)
            if sys.argv[1:] == ["--rows"]:
                rows(realm)
                return 0
            try_contexts(realm)
    return ended()


if __name__ == "__main__":
    sys.exit(main())
