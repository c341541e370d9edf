"""Mechanisms that are none: tokens that say which they are, and MICs by HMAC under a key that both sides have."""

import hashlib
import hmac

import krb

FIRST, SECOND, THIRD, BARE = (bytes.fromhex("2b0601040182371401") + bytes([n]) for n in range(4))


class ToyRefusal(Exception):
    """A toy refuses a token; `error` is its token that says so."""

    def __init__(self, why, error=b""):
        super().__init__(why)
        self.error = error


class Toy(krb.Mechanism):
    """A mechanism of so many tokens, by turns, the initiator's first. It keeps the texts of its MICs, and refuses each token but the one that has to come."""

    def __init__(self, role, oid=FIRST, legs=2, integrity=True, names=(), key=b"key", error=b""):
        self.role, self.oid, self.legs, self.integrity, self.names, self.key, self.error = role, oid, legs, integrity, frozenset(names), key, error
        self.established, self.peer, self.seen, self.texts, self.steps = False, None, 0, [], 0

    def token(self, n):
        return b"toy:%s:%d" % (self.oid[-1:].hex().encode(), n)

    def is_bare(self, token):
        return self.oid == BARE and token == self.token(1)

    def step(self, token):
        self.steps += 1
        if (token is None) != (self.seen == 0 and self.role == krb.NegotiationRole.INITIATOR):
            raise ToyRefusal("a token where none is waited for, or none", self.error)
        if token is not None:
            self.seen += 1
            if token != self.token(self.seen) or self.established:
                raise ToyRefusal("another token", self.error)
        own = None
        if self.seen < self.legs:
            self.seen += 1
            own = self.token(self.seen)
        self.established = self.seen >= self.legs
        self.peer = "toy" if self.established else None
        return own

    def _mic(self, role, text):
        return hmac.new(self.key, self.oid + bytes([role]) + text, hashlib.sha256).digest()

    def make_mic(self, text):
        assert self.established
        self.texts.append(text)
        return self._mic(self.role, text)

    def verify_mic(self, text, mic):
        assert self.established
        self.texts.append(text)
        return hmac.compare_digest(self._mic(1 - self.role, text), mic)
