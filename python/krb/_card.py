"""What stands on top of the page in the browser: who and for whom, the times, the keys, what holds; and of a keytab or a cache a table.

All of it is made of the lines of the tree (`krb._pages`), which are the library's items: names and realms by their roles, times and numbers by their values. What
the lines do not tell is not told here either."""

import datetime
import re
from typing import Any, Dict, Iterator, List, NamedTuple, Optional, Tuple

from krb._context import unparsed
from krb._facts import printable
from krb._items import Registry, Role
from krb._page_items import PageForm, _text as _decoded, _value
from krb._pages import Line, Page

__all__ = ["card_of", "table_of"]

# What a message is, in words (RFC 4120, 5.4 to 5.9; RFC 4178, 4.2; RFC 4121, 4.1; RFC 3244, 2).
_KINDS = {
    "AS-REQ": "A request for an initial ticket",
    "AS-REP": "A reply with an initial ticket",
    "TGS-REQ": "A request for a ticket of a service",
    "TGS-REP": "A reply with a ticket of a service",
    "AP-REQ": "A client's request to a service",
    "AP-REP": "A service's reply to its client",
    "KRB-PRIV": "A private message",
    "KRB-CRED": "Tickets that are handed on",
    "KRB-ERROR": "An error",
    "Ticket": "A ticket",
    "EncTicketPart": "The part of a ticket that its service reads",
    "Authenticator": "An authenticator",
    "EncASRepPart": "The part of a reply that its client reads",
    "EncTGSRepPart": "The part of a reply that its client reads",
    "EncAPRepPart": "The part of a service's reply that its client reads",
    "EncKrbPrivPart": "What a private message holds",
    "EncKrbCredPart": "What is said of tickets that are handed on",
    "PAC": "The data of a ticket that Windows and Samba have",
    "keytab": "Keys of services and users",
    "ccache": "Tickets of a user",
    "NegTokenInit": "The offer of a negotiation",
    "NegTokenResp": "The answer of a negotiation",
    "MIC": "A signature of a message",
    "Wrap": "A message that is wrapped",
    "password-frame": "A change of a password",
    "KDC-PROXY-MESSAGE": "A message to a KDC by way of a proxy",
    "TGT-REQ": "A request for a service's own ticket",
    "TGT-REP": "A reply with a service's own ticket",
    "InitialContextToken": "A token of the GSS-API",
    "NEGOEX": "Messages of NEGOEX",
}
# Those that stand around others, and what these are called that stand in them.
_FRAMES = {"InitialContextToken": "a token of the GSS-API", "NegTokenInit": "the offer of a negotiation", "NegTokenResp": "the answer of a negotiation"}
_FRAMES.update({"password-frame": "a change of a password", "KDC-PROXY-MESSAGE": "a message to a KDC by way of a proxy"})
# What a message is called by its place (RFC 4178, 4.2; RFC 3244, 2).
_NAMES = {"negTokenInit": "NegTokenInit", "negTokenResp": "NegTokenResp", "AP-REQ-data": "AP-REQ", "AP-REP-data": "AP-REP", "KRB-PRIV-message": "KRB-PRIV"}
_PARTS = ("EncTicketPart", "Authenticator", "EncASRepPart", "EncTGSRepPart", "EncAPRepPart", "EncKrbPrivPart", "EncKrbCredPart", "PA-ENC-TS-ENC")
_PART_WORDS = {
    "EncTicketPart": "the ticket",
    "Authenticator": "the authenticator",
    "EncASRepPart": "the client's part",
    "EncTGSRepPart": "the client's part",
    "EncAPRepPart": "the service's reply",
    "EncKrbPrivPart": "the private part",
    "EncKrbCredPart": "what is said of the tickets",
    "PA-ENC-TS-ENC": "the client's time",
}
_PART_ROLES = {
    Role.ENC_TICKET_PART: "EncTicketPart",
    Role.AUTHENTICATOR: "Authenticator",
    Role.ENC_AS_REP_PART: "EncASRepPart",
    Role.ENC_TGS_REP_PART: "EncTGSRepPart",
    Role.ENC_AP_REP_PART: "EncAPRepPart",
    Role.ENC_KRB_PRIV_PART: "EncKrbPrivPart",
    Role.ENC_KRB_CRED_PART: "EncKrbCredPart",
    Role.PA_ENC_TS_ENC: "PA-ENC-TS-ENC",
}
_TIMES = ("authtime", "starttime", "endtime", "renew-till")
MOST_ROWS = 20000  # of a table
MOST_PARTS, MOST_FACTS, MOST_CHECKS = 16, 24, 16  # that a card tells of
_EMPTY = datetime.datetime(1970, 1, 1, tzinfo=datetime.timezone.utc)
# What is told of a checksum of a PAC (krb_show_pac): that it was compared and holds, and that there was nothing to compare it with.
_HOLDS = b"holds"
_NOT_COMPARED = {
    b"absent": "there is none",
    b"not verified: no key of the KDC of its type was given": "no key of the KDC was given",
    b"not verified: its type is not supported": "its type is not supported",
    b"not verified: the key is of another type": "the key is of another type",
    b"not verified: the key was found in another part": "the key was found in another part",
}
_CHECKSUMS = {
    "server-checksum": "the service's checksum of the PAC",
    "kdc-checksum": "the KDC's checksum of that",
    "full-checksum": "the KDC's checksum of the whole",
    "ticket-checksum": "the KDC's checksum of the ticket",
}


def _shown(octets: bytes) -> str:
    """A text in printable ASCII: what is none stands as an escape with a backslash."""
    return printable(_decoded(octets))


def _find(line: Line, name: str) -> Optional[Line]:
    """The first line with this name right in a line."""
    return next((each for each in line.lines if each.name == name), None)


def _path(line: Optional[Line], *names: str) -> Optional[Line]:
    for name in names:
        line = None if line is None else _find(line, name)
    return line


def _within(line: Line) -> Iterator[Line]:
    """A line and all in it, in their order."""
    left = [line]
    while left:
        each = left.pop()
        yield each
        left.extend(reversed(each.lines))


def _components(line: Line) -> List[str]:
    """The components of a name: in its text a `/` stands between them, and a `\\` before a `/` or `\\` in one; in a file there is a list of them."""
    if line.item.form == PageForm.LIST:
        return [_decoded(each.item.value) for each in line.lines]
    found = next((each for each in line.lines if each.name == "name-string"), None)
    if found is None or found.item.form != PageForm.TEXT:
        return []
    pieces = re.findall(rb"(?:\\.|[^/\\])+|/", found.item.value, re.DOTALL)
    components = [b""]
    for piece in pieces:
        if piece == b"/":
            components.append(b"")
        else:
            components[-1] = re.sub(rb"\\(.)", rb"\1", piece, flags=re.DOTALL)
    return [_decoded(each) for each in components]


def _principal(line: Optional[Line], role: Role, *realms: Role) -> Optional[str]:
    """The principal that a struct names: its name by this role, and its realm by the first of these that it has. None where it names none."""
    if line is None:
        return None
    name = next((each for each in line.lines if each.item.form == PageForm.STRUCT and each.item.role == role), None)
    texts = {each.item.role: each.item.value for each in line.lines if each.item.form == PageForm.TEXT}
    realm = next((texts[each] for each in realms if each in texts), None)
    if name is None:
        return None
    return printable(unparsed(tuple(_components(name)), "?" if realm is None else _decoded(realm)))


def _client(line: Optional[Line]) -> Optional[str]:
    return _principal(line, Role.CLIENT_NAME, Role.CLIENT_REALM)


def _server(line: Optional[Line]) -> Optional[str]:
    return _principal(line, Role.SERVER_NAME, Role.SERVER_REALM)


def _entry(line: Optional[Line]) -> str:
    """The principal of a file, whose realm and components stand in a struct."""
    realm, name = (None, None) if line is None else (_find(line, "realm"), _find(line, "components"))
    return "?" if realm is None or name is None else printable(unparsed(tuple(_components(name)), _decoded(realm.item.value)))


def _time(line: Optional[Line]) -> Optional[datetime.datetime]:
    """The time of a line, where it is one that datetime has."""
    if line is None or line.item.form != PageForm.WORD:
        return None
    value = _value(line.item, "")
    return value if isinstance(value, datetime.datetime) else None


def _written(time: Optional[datetime.datetime]) -> Optional[str]:
    return None if time is None else time.replace(tzinfo=None).isoformat() + "Z"


def _type(line: Optional[Line], registry: Registry) -> Optional[str]:
    """The number of a line of this registry with its name: "aes256-cts-hmac-sha1-96 (18)"; "23" where it has none."""
    if line is None or line.item.registry != registry:
        return None
    if line.item.form != PageForm.NUMBER:
        return "a number of %d octets" % len(line.item.value)
    number = line.item.value.decode("ascii")
    return "%s (%s)" % (" ".join(line.item.names), number) if line.item.names else number


def _text(line: Optional[Line]) -> Optional[str]:
    return None if line is None or line.item.form not in (PageForm.TEXT, PageForm.WORD, PageForm.NUMBER) else _shown(line.item.value)


class Sealed(NamedTuple):
    """An EncryptedData: its line; whether it is in the clear, as encryption type 0 has it; the type of what is encrypted; what opened it, or why nothing did; what
    stands in it."""

    line: Line
    is_clear: bool
    type_name: str
    etype: Optional[str]
    kvno: Optional[str]
    opened_by: Optional[str]
    why: Optional[str]
    part: Optional[Line]


def _sealed(line: Line) -> Optional[Sealed]:
    cipher, etype_line = _find(line, "cipher"), _find(line, "etype")
    is_clear = etype_line is not None and etype_line.item.registry == Registry.ENCRYPTION_TYPE and etype_line.item.number == 0
    if cipher is None or cipher.item.form != PageForm.CIPHER and not is_clear:
        return None
    part = next((each for each in line.lines if each.name in _PARTS), None)
    type_name = _PART_ROLES.get(line.item.role, part.name if part is not None else "")
    etype = "0, which is none" if is_clear else _type(etype_line, Registry.ENCRYPTION_TYPE)
    opened, why, kvno = _text(_find(line, "opened-by")), _text(_find(line, "not-opened")), _text(_find(line, "kvno"))
    return Sealed(line, is_clear, type_name, etype, kvno, opened, why, part)


class _Card:
    """The card of a page."""

    def __init__(self, page: Page) -> None:
        self.page = page
        self.first = page.lines[0]
        self.sealed = [each for line in page.lines for each in [_sealed(line)] if each is not None]
        self.facts: List[Tuple[str, str, str]] = []

    def _message(self) -> Tuple[Line, str, List[str]]:
        """The innermost message in the frames around it, its kind, and the frames, the innermost first."""
        line, frames = self.first, []  # type: Line, List[str]
        while True:
            kind = _kind(line)
            within = next((each for each in line.lines if each.item.form == PageForm.STRUCT and _kind(each) and kind in _FRAMES), None)
            if within is None and kind == "KDC-PROXY-MESSAGE":
                carried = _find(line, "kerb-message")
                within = next((each for each in carried.lines if _kind(each)), None) if carried is not None else None
            if within is None:
                return line, kind or line.name, frames
            if kind in _FRAMES and _FRAMES[kind] not in frames:
                frames.insert(0, _FRAMES[kind])
            line = within

    def answer(self) -> Dict[str, Any]:
        message, kind, frames = self._message()
        title = "%s (%s)" % (_KINDS[kind], kind) if kind in _KINDS else kind
        title += "".join(", in %s" % each for each in frames)
        self._names(message, kind)
        is_file = self.first.name == "ccache"  # whose tickets stand in a table
        if not is_file:
            self._details(message)
        return {
            "title": title,
            "line": self.page.lines.index(message),
            "facts": self.facts,
            "times": self._times(message),
            "chains": [] if is_file else self._chains(),
            "checks": self._checks(),
        }

    def _say(self, label: str, text: Optional[str], kind: str = "") -> None:
        if text is not None:
            self.facts.append((label, text, kind))

    def _names(self, message: Line, kind: str) -> None:
        """Who, and for whom. What opened parts say counts more than what stands in the clear beside them, but for replies, which are about their own client."""
        within = [each for each in self.sealed if each.part is not None and (each.line is message or message in _outer(each.line))]
        inner = {each.type_name: each.part for each in reversed(within)}  # the first of each, which is the client's own: others may follow it
        body = _find(message, "req-body")
        if kind in ("AS-REQ", "TGS-REQ"):
            self._say("Who", _client_of_request(body) or _client(inner.get("Authenticator")) or _client(inner.get("EncTicketPart")) or self._closed(message))
            self._say("For whom", _server(body) or _realm_of(body))
        elif kind in ("AS-REP", "TGS-REP"):
            self._say("Who", _client(message))
            self._say("For whom", _server(_find(message, "ticket")))
        elif kind in ("AP-REQ", "Ticket"):
            of_ticket, of_sender = _client(inner.get("EncTicketPart")), _client(inner.get("Authenticator"))
            self._say("Who", of_ticket or of_sender or self._closed(message))
            if None not in (of_ticket, of_sender) and of_ticket != of_sender:
                self._say("Who", "the authenticator names another client: %s" % of_sender, "bad")
            self._say("For whom", _server(_find(message, "ticket") if kind == "AP-REQ" else message))
        elif kind == "KRB-ERROR":
            self._say("Error", _type(_find(message, "error-code"), Registry.ERROR_CODE), "bad")
            self._say("Text", _text(_find(message, "e-text")))
            self._say("Who", _client(message))
            self._say("About", _server(message))
        elif kind == "KRB-CRED":
            tickets = [each for each in _within(message) if each.name == "tickets" and each.item.form == PageForm.STRUCT]
            infos = [each for each in _within(message) if each.name == "ticket-info" and each.item.form == PageForm.STRUCT]
            for each in infos[:4]:
                self._say("Who", _principal_of_info(each))
            for each in tickets[:4]:
                self._say("For whom", _server(each))
        elif kind in _PARTS:
            self._say("Who", _client(message))
            self._say("For whom", _server(message))
        elif kind == "ccache":
            self._say("Who", _entry(_find(message, "principal")))

    def _closed(self, message: Line) -> Optional[str]:
        """What is said where the client stands in what is not opened."""
        return "not known: it is encrypted, and no key opens it" if any(message in _outer(each.line) for each in self.sealed) else None

    def _details(self, message: Line) -> None:
        for each in self.sealed:
            kind = _part(each)
            text = each.etype or "a type that is not told"
            text += ", key version %s" % each.kvno if each.kvno is not None else ""
            self._say("Encrypted", "%s: %s" % (kind, text))
        opened = [each for each in self.sealed if each.opened_by is not None]
        for each in opened:
            self._say("Opened", "%s by %s" % (_part(each), each.opened_by), "good")
        for each in self.sealed:
            if each.why is not None:
                self._say("Closed", "%s: %s" % (_part(each), each.why))
        self._more(message)
        del self.facts[MOST_FACTS:]

    def _more(self, message: Line) -> None:
        """What a request asks for besides, when an error came, what a negotiation is about."""
        body = _find(message, "req-body")
        asked = [_type(each, Registry.ENCRYPTION_TYPE) for line in [_find(body, "etype")] if line is not None for each in line.lines] if body is not None else []
        self._say("Types", ", ".join(filter(None, asked[:12])) or None)
        self._say("Asked until", _written(_time(_find(body, "till"))) if body is not None else None)
        self._say("When", _written(_time(_find(message, "stime"))))
        offered = next((found for each in [message, *reversed(_outer(message))] for found in [_find(each, "mechTypes")] if found is not None), None)
        mechanisms = [" ".join(each.item.names) or _shown(each.item.value) for each in offered.lines] if offered is not None else []
        self._say("Offers", ", ".join(mechanisms[:12]) or None)
        states = [found for each in [message, *_outer(message)] for found in [_find(each, "negState")] if found is not None]
        self._say("State", _type(states[0], Registry.NEGOTIATION_STATE) if states else None)

    def _times(self, message: Line) -> Optional[Dict[str, Any]]:
        """The times of the first ticket whose times are told, and the client's own."""
        found = None
        for line in self.page.lines:
            if line.item.form == PageForm.STRUCT and _time(_find(line, "endtime")) is not None and (line is message or message in _outer(line)):
                found = line
                break
        if found is None or self.first.name == "ccache":
            return None
        times = {name: _written(_time(_find(found, name))) for name in _TIMES}
        sent = next((_time(_find(each.part, "ctime")) for each in self.sealed if each.part is not None and each.type_name == "Authenticator"), None)
        flags = _find(found, "flags")
        invalid = flags is not None and flags.item.registry == Registry.TICKET_FLAG and "invalid" in flags.item.names
        return {"times": times, "sent": _written(sent), "invalid": invalid, "line": self.page.lines.index(found)}

    def _chains(self) -> List[List[Dict[str, Any]]]:
        """Who holds which key: the key that each part is encrypted with, the part, and the keys that stand in it; an authenticator follows its ticket."""
        numbers = {id(line): number for number, line in enumerate(self.page.lines)}
        chains: List[List[Dict[str, Any]]] = []
        before: Optional[Sealed] = None
        for each in self.sealed[:MOST_PARTS]:
            is_open, is_clear = each.opened_by is not None, each.is_clear
            outer = each.line.around
            follows = (
                before is not None and before.type_name == "EncTicketPart" and each.type_name == "Authenticator" and _path(outer, "ticket", "enc-part") is before.line
            )
            if not follows:
                chains.append([])
            chain, number = chains[-1], numbers[id(each.line)]
            if not follows or before is None or before.part is None:
                text = each.opened_by or each.why or ("" if is_clear else "no key was given")
                text = "it stands in the ticket, which is closed" if follows and not is_open else text
                needed = _needed(each, _server(outer) if each.type_name == "EncTicketPart" else None)
                if not is_clear:
                    chain.append({"kind": "key", "title": needed, "text": text, "state": "held" if is_open else "missing", "line": number})
            text = each.etype or ""
            text += "; opened by %s" % each.opened_by if follows and is_open else ""
            text += "; %s" % each.why if follows and each.why is not None and before is not None and before.part is not None else ""
            state = "open" if is_open else "clear" if is_clear else "closed"
            chain.append({"kind": "part", "title": _part(each), "text": text, "state": state, "line": number})
            chain += [{"kind": "key", "title": title, "text": text, "state": "held", "line": numbers[id(key)]} for title, text, key in self._held(each)]
            before = each
        return chains

    def _held(self, sealed: Sealed) -> List[Tuple[str, str, Line]]:
        """The keys that stand in a part that is opened."""
        found = []
        for line in _within(sealed.part) if sealed.part is not None else ():
            if line.name in ("key", "subkey") and next((each for each in _outer(line) if each.name in _PARTS and each is not sealed.part), None) is None:
                etype = _type(_find(line, "keytype"), Registry.ENCRYPTION_TYPE)
                if etype is not None:
                    found.append(("session key" if line.name == "key" else "subkey", etype, line))
        return found[:4]

    def _checks(self) -> List[Tuple[str, str, str, int]]:
        """What holds: green, red where it differs, grey where there was nothing to compare it with."""
        told = []
        for number, line in enumerate(self.page.lines):
            if line.name not in _CHECKSUMS or line.around is None:
                continue
            what, value = _CHECKSUMS[line.name], line.item.value
            key = _text(_find(line.around, line.name + "-key"))
            if value == _HOLDS:
                told.append((what, "good", "holds" + (" under %s" % key if key else ""), number))
            elif value in _NOT_COMPARED:
                told.append((what, "", "not checked: " + _NOT_COMPARED[value], number))
            else:
                told.append((what, "bad", _shown(value) + (" under %s" % key if key else ""), number))
        return told[:MOST_CHECKS]


def _kind(line: Line) -> str:
    """Which message a line is, by its name, or where that is of its place by what stands in it; no text where it is none."""
    name = _NAMES.get(line.name, line.name)
    if name in _KINDS or name in _FRAMES:
        return name
    if name not in ("mechToken", "responseToken"):
        return ""
    names = {each.name for each in line.lines}
    if "thisMech" in names:
        return "InitialContextToken"
    sealed = _find(line, "enc-part")
    is_reply = sealed is not None and sealed.item.role == Role.ENC_AP_REP_PART
    return "AP-REQ" if "ap-options" in names else "KRB-ERROR" if "error-code" in names else "AP-REP" if is_reply else ""


def _outer(line: Line) -> List[Line]:
    """The lines that a line stands in, the outermost first."""
    found: List[Line] = []
    each = line.around
    while each is not None:
        found.insert(0, each)
        each = each.around
    return found


def _client_of_request(body: Optional[Line]) -> Optional[str]:
    """The client of an AS-REQ, whose realm is the server's (RFC 4120, 5.4.1)."""
    return _principal(body, Role.CLIENT_NAME, Role.CLIENT_REALM, Role.SERVER_REALM)


def _realm_of(body: Optional[Line]) -> Optional[str]:
    found = None if body is None else next((each for each in body.lines if each.item.role == Role.SERVER_REALM), None)
    return None if found is None else "realm %s" % _shown(found.item.value)


def _principal_of_info(info: Line) -> Optional[str]:
    name, realm = _find(info, "pname"), _find(info, "prealm")
    return None if name is None else printable(unparsed(tuple(_components(name)), "?" if realm is None else _decoded(realm.item.value)))


def _needed(sealed: Sealed, server: Optional[str]) -> str:
    """Whose key a part is encrypted with (RFC 4120, 7.5.1)."""
    version = ", version %s" % sealed.kvno if sealed.kvno is not None else ""
    if sealed.type_name == "EncTicketPart":
        return "the key of %s%s" % (server or "the service", version)
    if sealed.type_name in ("EncASRepPart", "PA-ENC-TS-ENC"):
        return "the client's key%s" % version
    if sealed.type_name == "EncTGSRepPart":
        return "the session key, or the subkey of the request"
    if sealed.type_name in ("Authenticator", "EncAPRepPart"):
        return "the session key"
    return "the session key or a subkey" if sealed.type_name or "authorization" in _part(sealed) else "a key%s" % version


def _part(sealed: Sealed) -> str:
    """What a part is called in words."""
    if sealed.line.item.role == Role.REQUEST_AUTHORIZATION_DATA:
        return "the authorization data of the request"
    return _PART_WORDS.get(sealed.type_name, "a ciphertext")


def card_of(page: Page) -> Optional[Dict[str, Any]]:
    """What stands on top of a page: its title; label, text and kind of each fact; the times; who holds which key; which checksums hold. None where octets are
    refused."""
    return _Card(page).answer() if page.lines and page.error is None else None


def table_of(page: Page) -> Optional[Dict[str, Any]]:
    """The table of a keytab or a cache, as klist has them; None of other octets. The last columns of a row are the number of its line and whether it is one that
    a program wrote for itself, or removed."""
    if not page.lines or page.error is not None or page.lines[0].name not in ("keytab", "ccache"):
        return None
    first = page.lines[0]
    numbers = {id(line): number for number, line in enumerate(page.lines)}
    rows: List[Dict[str, Any]] = []
    if first.name == "keytab":
        for each in first.lines[:MOST_ROWS]:
            cells = [_text(_find(each, "vno")) or "", _written(_time(_find(each, "timestamp"))) or "", _entry(each)]
            rows.append({"cells": cells + [_type(_find(each, "keytype"), Registry.ENCRYPTION_TYPE) or _text(_find(each, "keytype")) or ""], "line": numbers[id(each)], "mark": ""})
        return {"title": "Keys", "columns": ["Version", "Since", "Principal", "Type"], "rows": rows, "count": len(first.lines)}
    entries = _find(first, "credentials")
    for each in (entries.lines if entries is not None else [])[:MOST_ROWS]:
        server = _find(each, "server")
        realm = _find(server, "realm") if server is not None else None
        start, end = _time(_find(each, "starttime")), _time(_find(each, "endtime"))
        start = _time(_find(each, "authtime")) if start is None or start == _EMPTY else start
        mark = "removed" if _find(each, "removed") is not None else "configuration" if realm is not None and realm.item.value == b"X-CACHECONF:" else ""
        times = [_written(start) or "", _written(end) or ""]
        renew = _time(_find(each, "renew-till"))
        cells = ["", ""] if mark == "configuration" else times
        cells += [_entry(server), "" if renew is None or renew == _EMPTY or mark == "configuration" else _written(renew) or ""]
        cells.append(_type(_path(each, "key", "keytype"), Registry.ENCRYPTION_TYPE) or "" if mark != "configuration" else "")
        rows.append({"cells": cells, "line": numbers[id(each)], "mark": mark})
    columns = ["From", "Until", "Service", "Renewable until", "Session key"]
    return {"title": "Tickets of %s" % _entry(_find(first, "principal")), "columns": columns, "rows": rows, "count": len(entries.lines) if entries is not None else 0}
