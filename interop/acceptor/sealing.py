"""`Request` is an AP-REQ with its parts opened, trees of ../der.py, which are changed and sealed again by ../ciphers.py."""

import copy

from ciphers import decrypt, encrypt
from der import element, field, number_of, put, read, tree, written

KERBEROS = bytes.fromhex("2a864886f712010202")
TICKET_USAGE, AUTHENTICATOR_USAGE = 2, 11


def framed(octets, mechanism=KERBEROS, token_id=b"\1\0"):
    return element(0x60, element(6, mechanism) + token_id + octets)


def unframed(token):
    tag, start, end = read(token)
    kind, mechanism, inner = read(token, start, end)
    if (tag, kind, token[mechanism:inner], token[inner : inner + 2], end) != (0x60, 6, KERBEROS, b"\1\0", len(token)):
        raise ValueError("no token of Kerberos with an AP-REQ")
    return token[inner + 2 :]


class Request:
    """An AP-REQ: `message`, `part` of the ticket and `authenticator` are trees of SEQUENCEs, which may be changed; `token` seals them again."""

    def __init__(self, token, keys):
        self.is_bare = token[:1] == b"\x6e"
        self.message = tree(token if self.is_bare else unframed(token))[1][0]
        ticket = self.ticket
        server = tuple(each[1] for each in field(field(ticket, 2), 1)[1])
        sealed = field(ticket, 3)
        self.etype = number_of(field(sealed, 0))
        self.key = keys[field(ticket, 1)[1], server, number_of(field(sealed, 1)), self.etype]
        self.part = tree(decrypt(self.etype, self.key, TICKET_USAGE, field(sealed, 2)[1]))[1][0]
        session = field(self.part, 1)
        self.session = number_of(field(session, 0)), field(session, 1)[1]
        self.authenticator = tree(decrypt(*self.session, AUTHENTICATOR_USAGE, field(field(self.message, 4), 2)[1]))[1][0]
        self.usages, self.octets = [TICKET_USAGE, AUTHENTICATOR_USAGE], {}

    @property
    def ticket(self):
        return field(self.message, 3)[1][0]

    def copy(self):
        return copy.deepcopy(self)

    def seal(self):
        """Puts the parts into the message, encrypted; `octets` has what stands for a part in place of its encoding."""
        part = self.octets.get("part") or written([0x63, [self.part]])
        put(field(self.ticket, 3), 2, [4, encrypt(self.etype, self.key, self.usages[0], part)])
        authenticator = self.octets.get("authenticator") or written([0x62, [self.authenticator]])
        put(field(self.message, 4), 2, [4, encrypt(*self.session, self.usages[1], authenticator)])
        return self

    def octets_of(self):
        return written([0x6E, [self.message]])

    def token(self):
        return self.octets_of() if self.is_bare else framed(self.octets_of())
