"""What a message says in a line: its kind, who asks for what, the error by name, and what keys open in it."""

from collections import OrderedDict
from typing import Any, Dict, Iterable, Iterator, List, NamedTuple, Optional, Tuple

from krb import frames, spnego
from krb._context import unparsed
from krb._items import Registry, Secret, _identifier, first_error, name_of, type_of
from krb._keytab import VERSION, entries_of, entry_of
from krb._library import Refused, Status
from krb._parts import decode

__all__ = ["Facts", "Keys", "Reader", "Unread", "printable"]

MOST_KEYS, MOST_TICKETS = 512, 4096  # that are remembered of a capture
_ETYPES = range(16, 21)
_MECHANISMS = {
    spnego.KERBEROS: "Kerberos",
    bytes.fromhex("2a864882f712010202"): "Kerberos as Microsoft has it",
    bytes.fromhex("2b06010401823702020a"): "NTLM",
    bytes.fromhex("2b06010401823702021e"): "NEGOEX",
    bytes.fromhex("2b0601050205"): "IAKERB",
}
# The hintName of a NegTokenInit2 (MS-SPNG, 2.2.1), which the library does not read (docs/REAL_MESSAGES.md).
_HINT = b"not_defined_in_RFC4178@please_ignore"
# The results of a password change by their numbers (RFC 3244, 2).
_RESULTS = ["KRB5_KPASSWD_" + each for each in "SUCCESS MALFORMED HARDERROR AUTHERROR SOFTERROR ACCESSDENIED BAD_VERSION INITIAL_FLAG_NEEDED".split()]
# Inner tokens of Kerberos by their first two octets (RFC 4121, 4.1), and tokens that have no frame.
_INNER = {b"\1\0": "AP-REQ", b"\2\0": "AP-REP", b"\3\0": "KRB-ERROR"}
_PER_MESSAGE = {b"\4\4": "MIC token", b"\5\4": "Wrap token"}
_PARTS = ("EncTicketPart", "Authenticator", "EncASRepPart", "EncTGSRepPart", "EncAPRepPart", "EncKrbPrivPart", "EncKrbCredPart", "PA-ENC-TS-ENC")


class Unread(Exception):
    """Octets that are not read, and a line that says why."""


class Facts(NamedTuple):
    """What a message is and says: its kind, as "AS-REQ" or "password request"; what it says, in a line of printable ASCII; what `krb.show` shows of
    it, each by a name or as what it begins as; what is opened in it. `client` and `server`: the names in it, or of its ticket, where they are known, in printable
    ASCII. `error`: of a KRB-ERROR its code."""

    kind: str
    text: str
    shown: List[Tuple[Optional[str], bytes]]
    opened: List[str]
    client: Optional[str] = None
    server: Optional[str] = None
    error: Optional[int] = None


class _Says(NamedTuple):
    """What a message says in words, and its names and code, as `Facts` has them."""

    text: str
    client: Optional[str] = None
    server: Optional[str] = None
    error: Optional[int] = None


def printable(text: str) -> str:
    """The text in printable ASCII alone: what is none stands as an escape with a backslash."""
    return "".join(each if " " <= each <= "~" else ascii(each)[1:-1] for each in text)


def _name(name: Any, realm: Any) -> Optional[str]:
    """The text of a name of a tree with its realm; None where there is no name."""
    if not isinstance(name, dict):
        return None
    return printable(unparsed(tuple(map(str, name.get("name-string", ()))), str(realm) if realm is not None else "?"))


class Keys:
    """The keys of keytabs, and those that stood in what was opened, the newest of which are tried on what follows."""

    def __init__(self, keytabs: Iterable[bytes] = ()) -> None:
        self.given = VERSION + b"".join(map(entries_of, keytabs))
        self._found: "OrderedDict[Tuple[int, bytes], str]" = OrderedDict()
        self._keytab: Optional[bytes] = None
        self.left_out = 0

    @property
    def is_empty(self) -> bool:
        return self.given == VERSION and not self._found

    def keytab(self) -> bytes:
        """A keytab of all of them: one that was found is of a principal that says where."""
        if self._keytab is not None:
            return self._keytab
        found = b""
        for (etype, key), where in reversed(self._found.items()):
            name, place = where.split("@")
            found += entry_of(place.encode(), name.encode(), etype, key)
        self._keytab = self.given + found
        return self._keytab

    def add(self, etype: Any, key: Any, where: str) -> None:
        if etype not in _ETYPES or not isinstance(key, Secret) or len(key) > 64:
            return
        if (etype, bytes(key)) in self._found:
            return
        self._found[etype, bytes(key)], self._keytab = where, None
        if len(self._found) > MOST_KEYS:
            self._found.popitem(last=False)
            self.left_out += 1


def _dicts(tree: Any, name: str = "") -> Iterator[Tuple[str, Dict[str, Any]]]:
    """All dicts of a tree in their order, and the name of the field or part that each is."""
    if isinstance(tree, dict):
        yield name, tree
        for key, value in tree.items():
            yield from _dicts(value, key)
    elif isinstance(tree, list):
        for value in tree:
            yield from _dicts(value, name)


class Reader:
    """Reads messages one behind the other, and remembers the keys that stand in opened parts, and whose the tickets are that are handed out."""

    def __init__(self, keys: Keys) -> None:
        self.keys = keys
        self._clients: "OrderedDict[bytes, str]" = OrderedDict()

    def _tree(self, octets: bytes, as_type: str, number: int, opened: List[str]) -> Any:
        """The tree of a message; the keys in it are remembered, and the names of opened parts are put to `opened`."""
        try:
            tree = decode(octets, as_type, None if self.keys.is_empty else self.keys.keytab(), show_keys=True)
        except Refused as refused:
            error = first_error(octets, as_type) if refused.status in (Status.INVALID, Status.TRUNCATED, Status.UNSUPPORTED, Status.TOO_DEEP) else None
            place = " at octet %d" % error[1] if error else ""
            raise Unread("%s: %s%s" % (as_type, refused, place)) from None
        whole = ""
        for name, each in _dicts(tree):
            if name in _PARTS:
                whole = name
                opened.append(name)
            if "keytype" in each and "keyvalue" in each:
                self.keys.add(each["keytype"], each["keyvalue"], "%s %s@packet %d" % (whole or as_type, name, number))
        return tree

    def _ticket(self, ticket: Any) -> Tuple[Optional[str], Optional[str]]:
        """Whose a ticket is, where that is known, and what it is for."""
        sealed = ticket["enc-part"]
        part = sealed.get("EncTicketPart")
        client = _name(part["cname"], part["crealm"]) if part else self._clients.get(sealed["cipher"])
        return client, _name(ticket["sname"], ticket["realm"])

    def _remember(self, ticket: Any, client: Optional[str]) -> None:
        if client is not None:
            self._clients[ticket["enc-part"]["cipher"]] = client
            if len(self._clients) > MOST_TICKETS:
                self._clients.popitem(last=False)

    def message(self, octets: bytes, number: int) -> Facts:
        """The facts of a message of RFC 4120 that stands alone."""
        kind = type_of(octets)
        if kind is None:
            raise Unread("%d octets that begin as no message of Kerberos" % len(octets))
        opened: List[str] = []
        tree = self._tree(octets, kind, number, opened)
        said = self._said(kind, tree)
        return Facts(kind, said.text, [(kind, octets)], opened, *said[1:])

    def _said(self, kind: str, tree: Any) -> _Says:
        """What a message says, by its kind."""
        if kind in ("AS-REQ", "TGS-REQ"):
            return self._request(tree)
        if kind in ("AS-REP", "TGS-REP"):
            client = _name(tree["cname"], tree["crealm"])
            self._remember(tree["ticket"], self._ticket(tree["ticket"])[0] or client)
            server = _name(tree["ticket"]["sname"], tree["ticket"]["realm"])
            return _Says("%s gets a ticket for %s" % (client, server), client, server)
        if kind == "KRB-ERROR":
            return self._error(tree)
        if kind == "AP-REQ":
            client, server = self._ticket(tree["ticket"])
            inner = tree["authenticator"].get("Authenticator")
            if inner:
                client = _name(inner["cname"], inner["crealm"])
            return _Says("%s asks %s to let it in" % (client or "a client that is not known", server), client, server)
        if kind == "Ticket":
            client, server = self._ticket(tree)
            return _Says("%s for %s" % (client or "a client that is not known", server), client, server)
        if kind == "KRB-CRED":
            return _Says("%d tickets: %s" % (len(tree["tickets"]), ", ".join(str(self._ticket(each)[1]) for each in tree["tickets"])))
        return _Says("")

    def _request(self, tree: Any) -> _Says:
        body = tree["req-body"]
        server = _name(body.get("sname"), body.get("realm"))
        client, behalf = _name(body.get("cname"), body.get("realm")), None
        for each in tree.get("padata", ()):
            value = each.get("padata-value")
            if each.get("padata-type") == 1 and isinstance(value, dict):
                inner = value["authenticator"].get("Authenticator")
                client = _name(inner["cname"], inner["crealm"]) if inner else self._ticket(value["ticket"])[0]
            if each.get("padata-type") == 129 and isinstance(value, dict):
                behalf = _name(value.get("userName"), value.get("userRealm"))
        said = "%s asks for %s" % (client or "a client that is not known", server or "no server")
        said += " on behalf of %s" % behalf if behalf else ""
        more = body.get("additional-tickets")
        said += ", with the ticket of %s" % (self._ticket(more[0])[0] or "a client that is not known") if more else ""
        return _Says(said, client, server)

    def _error(self, tree: Any) -> _Says:
        code = tree["error-code"]
        name = name_of(Registry.ERROR_CODE, code)
        said = "%d %s" % (code, name) if name else "%d, an error without a name" % code
        client, server = _name(tree.get("cname"), tree.get("crealm")), _name(tree.get("sname"), tree.get("realm"))
        said += ": %s asked for %s" % (client, server) if client else ": about %s" % server
        said += ' "%s"' % printable(tree["e-text"]) if tree.get("e-text") else ""
        return _Says(said, client, server, code)

    def password(self, octets: bytes, number: int, is_request: bool) -> Facts:
        """The facts of what goes to a server of passwords or comes from it: a frame (RFC 3244, 2), or a KRB-ERROR alone."""
        if type_of(octets) == "KRB-ERROR":
            return self.message(octets, number)
        kind = "password request" if is_request else "password reply"
        try:
            frame, shown = self._frame(octets)
        except Refused as refused:
            raise Unread("%s: %s" % (kind, refused)) from None
        opened: List[str] = []
        texts: List[str] = []
        who = _Says("")
        for each in (frame.ap_message, frame.krb_priv):
            name = type_of(each) or "KRB-PRIV"
            tree = self._tree(each, name, number, opened)
            told = self._said(name, tree)
            said, who = told.text, told if told.client or told.error is not None else who
            if name == "AP-REQ":
                said = said.replace(" to let it in", " for a new password")
            if name == "KRB-PRIV" and not is_request and "EncKrbPrivPart" in tree["enc-part"]:
                said = _result(tree["enc-part"]["EncKrbPrivPart"]["user-data"])
            texts += [said] if said else []
        more = len(octets) - frame.size
        texts += ["%d octets behind it" % more] if more > 0 else []
        return Facts(kind, "; ".join(texts), shown, opened, *who[1:])

    @staticmethod
    def _frame(octets: bytes) -> Tuple[frames.PasswordFrame, List[Tuple[Optional[str], bytes]]]:
        """A frame, and what is shown of it. Of one that sets a password of another (RFC 3244, 2: version ff80) the library reads the two messages
        alone."""
        if octets[2:4] != b"\xff\x80":
            frame = frames.password_frame(octets)
            return frame, [(None, octets[: frame.size])]
        end = 6 + int.from_bytes(octets[4:6], "big")
        frame = frames.PasswordFrame(octets[6:end], octets[end:], len(octets))
        return frame, [(type_of(each), each) for each in frame[:2]]

    def token(self, octets: bytes, number: int, depth: int = 0) -> Facts:
        """The facts of a token of the GSS-API or SPNEGO, or of what stands in the place of one."""
        if not octets:
            raise Unread("a token of no octets")
        if octets[:8] == b"NTLMSSP\0":
            return Facts("NTLM", "no token of Kerberos", [], [])
        if octets[:8] == b"NEGOEXTS":
            return Facts("NEGOEX", "no token of Kerberos", [(None, octets)], [])
        if octets[:2] in _PER_MESSAGE:
            return Facts(_PER_MESSAGE[octets[:2]], "", [("token", octets)], [])
        if type_of(octets) is not None and octets[0] != 0x60:
            return self.message(octets, number)
        try:
            return self._framed(octets, number, depth)
        except Refused as refused:
            raise Unread("a token: %s" % refused) from None

    def _framed(self, octets: bytes, number: int, depth: int) -> Facts:
        if depth > 4:
            raise Unread("tokens too deep in one another")
        if octets[0] == 0xA1:
            return self._answer(octets, number, depth)
        if octets[0] != 0x60:
            raise Unread("%d octets that begin as no token of Kerberos or SPNEGO" % len(octets))
        mechanism, inner = spnego.token(octets)
        if mechanism == spnego.SPNEGO:
            return self._answer(inner, number, depth) if inner[:1] == b"\xa1" else self._offer(octets, number, depth)
        if inner[:2] in _INNER:
            facts = self.message(inner[2:], number)
            if facts.kind != _INNER[inner[:2]]:
                raise Unread("a token of an %s with an %s in it" % (_INNER[inner[:2]], facts.kind))
            return facts._replace(shown=[("token", octets)])
        return Facts("token", "of the mechanism %s" % _mechanism(mechanism), [("token", octets)], [])

    def _offer(self, octets: bytes, number: int, depth: int) -> Facts:
        try:
            offer = spnego.neg_token_init(octets)
        except Refused:
            if _HINT in octets:
                return Facts("NegTokenInit2", "of a server that speaks first; more is not read", [], [])
            raise
        said = "offers %s" % (", ".join(map(_mechanism, offer.mechanisms or [])) or "no mechanism")
        return self._around(octets, "NegTokenInit", said, offer.mech_token, number, depth)

    def _answer(self, octets: bytes, number: int, depth: int) -> Facts:
        answer = spnego.neg_token_resp(octets)
        state = answer.neg_state
        name = name_of(Registry.NEGOTIATION_STATE, state) if state is not None else "no state"
        said = name or "state %s" % state
        said += ", %s" % _mechanism(answer.supported_mech) if answer.supported_mech is not None else ""
        return self._around(octets, "NegTokenResp", said, answer.response_token, number, depth)

    def _around(self, octets: bytes, kind: str, said: str, inner: Optional[bytes], number: int, depth: int) -> Facts:
        """The facts of a message of SPNEGO with those of the token in it."""
        if not inner:
            return Facts(kind, said, [("token", octets)], [])
        try:
            facts = self.token(inner, number, depth + 1)
        except Unread as unread:
            return Facts(kind, "%s; in it: not read: %s" % (said, unread), [("token", octets)], [])
        return facts._replace(kind=kind, text="%s; in it: %s" % (said, " ".join(filter(None, (facts.kind, facts.text)))), shown=[("token", octets)])


def _result(data: bytes) -> str:
    """What a server of passwords answers (RFC 3244, 2)."""
    code = int.from_bytes(data[:2], "big")
    return "%d %s" % (code, _RESULTS[code] if code < len(_RESULTS) else "a result without a name")


def _mechanism(content: bytes) -> str:
    """What a mechanism is called, or its OBJECT IDENTIFIER."""
    return _MECHANISMS.get(bytes(content)) or _identifier(bytes(content))
