"""What the page in the browser shows: the items of `krb.page_items` as the lines of a tree, and beside it the text and the JSON of `krb.show`.

Nothing is decoded here, and no printed text is taken apart. A line has the place of its item, in the octets given or in those that a key opened, which
`krb_decode` tells. Where no place is known it has none: the page lights up what it stands in, and hides that where it is secret. What no item tells:

- Of a buffer of a PAC its item has the place of the entry; the line has that of the octets which the entry's cbBufferSize and Offset name.
- Of a token in a frame its item has the place of what the frame holds, and of an element of any type, which is shown whole, that of its content, or none where
  it stands in a token or in a type of PKINIT; their lines have the tag and the length before it too.
- The places of a tree of tags stand in the names of its items (`_TREE_PLACE`)."""

import base64
import re
from typing import Any, Dict, Iterable, List, NamedTuple, Optional, Set, Tuple

from krb import crypto, spnego
from krb._items import Registry, Role, _all_names, _RECORD, element_place, first_error, header_size, name_of, type_of
from krb._keytab import VERSION, entries_of, entry_of
from krb._library import TEXTS, Refused, Status
from krb._page_items import FORMATS, PageForm, PageItem, page_items
from krb._parts import _decoded, _ETYPES
from krb._shown import show

__all__ = ["BadInput", "KINDS", "Page", "keys_of", "page_of"]

# What `show` is told to read octets as: the names of its help.
KINDS = (
    "Ticket Authenticator EncTicketPart AS-REQ AS-REP TGS-REQ TGS-REP AP-REQ AP-REP KRB-PRIV KRB-CRED EncASRepPart EncTGSRepPart EncAPRepPart EncKrbPrivPart "
    "EncKrbCredPart KRB-ERROR token PAC NEGOEX password-frame keytab ccache tree PrincipalName HostAddress HostAddresses AuthorizationData EncryptedData "
    "EncryptionKey Checksum TransitedEncoding LastReq KDC-REQ-BODY KrbCredInfo PA-DATA METHOD-DATA PA-ENC-TS-ENC ETYPE-INFO2-ENTRY ETYPE-INFO2 "
    "KERB-PA-PAC-REQUEST PA-PAC-OPTIONS KERB-ERROR-DATA KERB-AD-RESTRICTION-ENTRY ChangePasswdData TGT-REQ TGT-REP KDC-PROXY-MESSAGE "
    "PKU2U-NEGO-REQ-METADATA PKU2U-NEGO-BODY PKU2U-NEGO-REQ PKU2U-NEGO-REP KRB-FINISHED PA-PK-AS-REQ PA-PK-AS-REP DHAuthPack ECAuthPack PKAuthenticator "
    "ExternalPrincipalIdentifier DHRepInfo KDCDHKeyInfo AlgorithmIdentifier SubjectPublicKeyInfo DHSubjectPublicKeyInfo DomainParameters ValidationParms "
    "TSCredentials TSPasswordCreds TSSmartCardCreds TSCspDataDetail TSRemoteGuardCreds TSRemoteGuardPackageCred"
).split()
# Kinds whose octets hold no key in the clear, but in an EncryptedData of etype 0: where they are refused, their octets are shown all the same.
_WITHOUT_KEYS = {"Ticket", "AS-REQ", "AS-REP", "TGS-REQ", "TGS-REP", "AP-REQ", "AP-REP", "KRB-PRIV", "KRB-ERROR", "token", "password-frame"}
MOST_LINES = 20000  # of a tree; the text and the JSON are whole
MOST_KEYS = 80  # that are made of a password
_CLEAR = b"\xa0\3\2\1\0"  # etype [0] INTEGER of 0 (RFC 4120, 5.2.9): what follows may be in the clear
_TREE_PLACE = re.compile(r"@(\d+)\+(\d+)$")
_GIVEN = b"given"  # the realm of the keys that the caller gives: what opens is called `key 1@given kvno 1`
_BEGINS = (PageForm.STRUCT, PageForm.LIST)
_ENDS = (PageForm.STRUCT_END, PageForm.LIST_END)
# What stands in a text for an octet that does not stand there itself.
_ESCAPES = {each: "\\" + chr(each) if each in b'"\\' else "\\x%02x" % each for each in range(256) if not 32 <= each < 127 or each in b'"\\'}


# Why octets are refused, in words for people.
_REFUSALS = {
    Status.INVALID: "what stands in the octets is not as their type has it",
    Status.TRUNCATED: "the octets end too early",
    Status.UNSUPPORTED: "the octets have a length in a form that is not supported",
    Status.TOO_DEEP: "elements stand too deep in one another",
    Status.OTHER_VERSION: "the octets are of another version of their format",
    Status.NUMBER: 'the octets begin as nothing that is known: choose one of the kinds under "Read as"',
}


class BadInput(ValueError):
    """What the page was given besides the octets is not right; the text says what."""


class Place(NamedTuple):
    """Octets of a source: the input, or a part that was opened."""

    source: int
    offset: int
    size: int


class Source(NamedTuple):
    """Octets that lines have places in."""

    title: str
    octets: bytes


class Line:
    """An item that is no end, and the lines that stand in it. `source` is the one that it has a place in, where it is known, and `cipher` a ciphertext in it
    behind which what a key opened has not come yet."""

    __slots__ = ("item", "name", "count", "value", "place", "lines", "around", "depth", "source", "cipher")

    def __init__(self, item: PageItem, around: Optional["Line"]) -> None:
        self.item, self.name, self.around = item, item.name, around
        self.count = int(item.value) if item.form == PageForm.LIST else None
        self.value = None if item.form in _BEGINS else _written(item)
        self.place: Optional[Place] = None
        self.lines: List["Line"] = []
        self.depth: int = 0 if around is None else around.depth + 1
        self.source: Optional[int] = 0 if around is None else around.source
        self.cipher: Optional["Line"] = None


class Page(NamedTuple):
    """What is shown."""

    lines: List[Line]
    sources: List[Source]
    text: str
    json: str
    error: Optional[Tuple[str, str, Optional[int]]]
    notes: List[str]
    hides_octets: bool
    untold: List[int]  # the sources of which no line has the whole
    may_hold_keys: bool = True  # the octets given, as far as is known without their lines


def _written(item: PageItem) -> str:
    """The value of an item, as `krb.show` writes it."""
    value = item.value
    if item.form == PageForm.TEXT:
        return '"%s"' % value.decode("latin-1").translate(_ESCAPES)
    if item.form in (PageForm.OCTETS, PageForm.SECRET, PageForm.CIPHER):
        return "%d octets %s" % (len(value), value.hex()) if value else "0 octets"
    return " ".join([value.decode("ascii"), *item.names])


def _printable(text: str) -> str:
    """A text as printable ASCII."""
    return text.encode("unicode_escape").decode("ascii")


class _Tree:
    """The lines of octets, what their places are in, and the salts that they tell."""

    def __init__(self, octets: bytes, kind: Optional[str], keytab: bytes, show_keys: bool) -> None:
        self.kind, self.keytab = kind, keytab
        self.sources = [Source("the octets given", octets)]
        self.lines: List[Line] = []
        self.salts: List[bytes] = []
        self.told = {0}  # the sources of which a line has the whole
        self._opened: Dict[Place, Tuple[str, int]] = {}  # of ciphertexts the type of what a key opens, and its source
        self._tried: Set[Place] = set()  # elements whose ciphertexts are among these
        around: Optional[Line] = None
        for item in page_items(octets, kind, keytab, show_keys):
            if item.form in _ENDS:
                assert around is not None
                self._salts_in(around)
                around = around.around
                continue
            line = Line(item, around)
            if kind == "tree":
                _place_in_tree(line)
            elif around is None:
                self._place_whole(line)
            else:
                self._place(line, around)
            if item.role == Role.SALT:
                self.salts.append(item.value)
            self.lines.append(line)
            if around is not None:
                around.lines.append(line)
            if item.form in _BEGINS:
                around = line

    def _place_of(self, line: Line) -> Optional[Place]:
        """The place of its item."""
        place, source = line.item.place, line.source
        if place is None or source is None or place.stop > len(self.sources[source].octets):
            return None
        return Place(source, place.start, place.stop - place.start)

    def _place_whole(self, line: Line) -> None:
        """The line of all octets. A choice has no place, and that of a keytab is without its version."""
        line.place = None if line.name == "keytab" else self._place_of(line)
        if line.place is None:
            line.place = Place(0, 0, len(self.sources[0].octets))

    def _place(self, line: Line, around: Line) -> None:
        """A line, and what is known by it of the one that it stands in."""
        item = line.item
        if around.cipher is not None and item.form in _BEGINS:
            line.source, around.cipher = self._source_of(around.cipher, line.name), None
        line.place = self._place_of(line)
        if item.form == PageForm.OCTETS:
            self._place_element(line, around)
        elif line.name == "cipher":
            around.cipher = line
        elif line.name == "thisMech" and around.place is not None and not around.lines:  # a token in its frame (RFC 2743, 3.1)
            source, offset, size = around.place
            around.place = Place(source, offset - header_size(size), size + header_size(size))
        elif line.name == "buffers":  # a PAC in another order than its own
            line.place = around.place
        elif line.name == "Offset" and around.name != "buffers":
            self._place_buffer(around, item)

    def _place_element(self, line: Line, around: Line) -> None:
        """An element of any type has its tag and length before its content. Where its content has no place, it is looked for behind the line before."""
        value, source, outer = line.item.value, line.source, around.place
        if source is None or outer is None or outer.source != source:
            return
        octets, offset = self.sources[source].octets, -1
        if line.place is None and value:
            before = around.lines[-1].place if around.lines else None
            offset = octets.find(value, outer.offset if before is None else before.offset + before.size, outer.offset + outer.size)
        elif line.place is not None and line.place.size < len(value):
            offset = line.place.offset + line.place.size - len(value)
        if offset >= 0 and octets[offset : offset + len(value)] == value:
            line.place = Place(source, offset, len(value))

    def _place_buffer(self, entry: Line, told: PageItem) -> None:
        """A buffer of a PAC has the place that its entry names: the size before the Offset, and this, which is told."""
        pac = entry.around.place if entry.around is not None else None
        before = entry.lines[-1].item if entry.lines else told
        if pac is not None and before.name == "cbBufferSize" and before.form == told.form == PageForm.NUMBER:
            offset, size = int(told.value), int(before.value)
            if offset + size <= pac.size:
                entry.place = Place(pac.source, pac.offset + offset, size)

    def _source_of(self, cipher: Line, type_name: str) -> Optional[int]:
        """The source of what a key opens in a ciphertext; None where it is not known. What stands around it tells, the outermost first."""
        outer: List[Line] = []
        line = cipher.around
        while line is not None and line.source == cipher.source:
            outer.append(line)
            line = line.around
        if cipher.place is None:
            return None
        while cipher.place not in self._opened and outer:
            self._open(outer.pop())
        told, source = self._opened.get(cipher.place, ("", 0))
        if told != type_name:
            return None
        self.told.add(source)
        return source

    def _element_of(self, line: Line) -> Optional[Tuple[Place, str]]:
        """The element of a struct and its type: the one that is asked for, or the one that the tag around a SEQUENCE tells (RFC 4120, 5.10)."""
        if line.around is None and self.kind is not None and self.kind.lower() not in FORMATS:
            return Place(0, 0, len(self.sources[0].octets)), self.kind
        if line.item.form != PageForm.STRUCT or line.item.place is None or line.source is None:
            return None
        whole = element_place(element_place(line.item.place))
        told = type_of(self.sources[line.source].octets[whole.start : whole.start + 1]) if whole.start >= 0 else None
        return None if told is None else (Place(line.source, whole.start, whole.stop - whole.start), told)

    def _open(self, line: Line) -> None:
        """Makes sources of what the keys open in the element of a struct."""
        element = self._element_of(line)
        if element is None or element[0] in self._tried:
            return
        (source, at, count), as_type = element
        self._tried.add(element[0])
        try:
            decoded = _decoded(self.sources[source].octets[at : at + count], as_type, self.keytab)
        except Refused:
            return
        for part in decoded.parts:
            offset, size = _RECORD.unpack_from(decoded.records, part.item * _RECORD.size)[:2]
            cipher = Place(source, at + offset, size)
            if part.count and cipher not in self._opened:
                name = _all_names()[_RECORD.unpack_from(decoded.records, part.first * _RECORD.size)[4]]
                opener = decoded.opener_of(part)
                title = "%s, opened by %s" % (name, _printable(opener)) if opener else "%s, in the clear" % name
                self._opened[cipher] = name, len(self.sources)
                self.sources.append(Source(title, decoded.octets_of(part)))

    def _salts_in(self, line: Line) -> None:
        """The default salts of the realms and names that stand beside one another in a struct (RFC 4120, 4)."""
        texts = {each.item.role: each.item.value for each in line.lines if each.item.form == PageForm.TEXT}
        for each in line.lines:
            realm = None
            if each.item.form == PageForm.STRUCT and each.item.role == Role.CLIENT_NAME:
                # The body of a request has one realm, that of both (RFC 4120, 5.4.1).
                realm = texts.get(Role.CLIENT_REALM, texts.get(Role.SERVER_REALM))
            elif each.item.form == PageForm.STRUCT and each.item.role == Role.SERVER_NAME:
                realm = texts.get(Role.SERVER_REALM, texts.get(Role.CLIENT_REALM))
            elif each.item.form == PageForm.LIST and each.name == "components":  # of a keytab, or a cache
                realm = next((other.item.value for other in line.lines if other.name == "realm"), None)
            if realm is not None:
                values = [named.item.value for named in each.lines if named.item.form == PageForm.TEXT]
                self.salts.append(realm + b"".join(values if each.item.form == PageForm.LIST else map(_components, values)))


def _components(name: bytes) -> bytes:
    """The components of a name, one behind another: in its text a `/` stands between them, and a `\\` before a `/` or `\\` in one."""
    return re.sub(rb"/|\\(.)", rb"\1", name, flags=re.DOTALL)


def _place_in_tree(line: Line) -> None:
    """The place of a line of a tree of tags, which the library writes behind its name: how many octets stand before it, and how many its content has."""
    found = _TREE_PLACE.search(line.name)
    if found:
        size = int(found.group(2))
        whole = size if line.name.startswith(("TruncatedData", "InvalidData", "UnsupportedData")) else size + header_size(size)
        line.place = Place(0, int(found.group(1)), whole)


def _known(kind: Optional[str]) -> Optional[str]:
    """The kind as its standard writes it, of letters of either case."""
    return next((each for each in KINDS if each.lower() == kind.lower()), None) if kind else None


def _error_of(octets: bytes, kind: Optional[str], refused: Refused) -> Tuple[str, str, Optional[int]]:
    """The status, its text, and how many octets stand before the first error, where the library tells it."""
    status, offset = refused.status, None
    try:
        known = _known(kind) or type_of(octets)
        if known == "token" or (kind is None and octets[:1] in (b"\x60", b"\xa0", b"\xa1")):
            frame = spnego._token.told(octets) if octets[:1] == b"\x60" else (0, 0, 0, len(octets))
            inner = octets[frame[2] : frame[2] + frame[3]]
            named = {0xA0: "NegotiationToken (negTokenInit)", 0xA1: "NegotiationToken (negTokenResp)"}.get(inner[0] if inner else 0)
            at = frame[2] + (0 if named else 2)
            named = named or type_of(inner[2:])
            found = first_error(octets[at:], named) if named else None
            offset = at + found[1] if found and found[0] == status else None
        elif known:
            found = first_error(octets, known)
            offset = found[1] if found and found[0] == status else None
    except Refused:
        pass
    text = "no kind has this name" if status == Status.NUMBER and kind else _REFUSALS.get(status, TEXTS.get(status, "the octets are refused"))
    return status.name, text, offset


def _tree_of(octets: bytes) -> Tuple[str, List[Line]]:
    try:
        return show(octets, "tree"), _Tree(octets, "tree", b"", False).lines
    except Refused:
        return "", []


def _may_hold_keys(octets: bytes, kind: Optional[str]) -> bool:
    """Whether octets of this kind, which may be refused, may hold keys, or what is as secret, in the clear."""
    return kind not in _WITHOUT_KEYS or _CLEAR in octets


def page_of(octets: bytes, kind: Optional[str], keytab: bytes, show_keys: bool) -> Tuple[Page, List[bytes]]:
    """The page of octets, and the salts that are told in them."""
    sources, notes = [Source("the octets given", octets)], []  # type: List[Source], List[str]
    known = _known(kind)
    if kind and known is None:
        return Page([], sources, "", "", ("NUMBER", "no kind has this name", None), notes, not show_keys, []), []
    if known == "tree" and not show_keys and _may_hold_keys(octets, type_of(octets)):
        error = ("HIDDEN", "a tree has all octets, those of keys too: ask for keys and passwords to see it", None)
        return Page([], sources, "", "", error, notes, True, []), []
    try:
        text, as_json = (show(octets, known, keytab, is_json, show_keys) for is_json in (False, True))
        tree = _Tree(octets, known, keytab, show_keys)
    except Refused as refused:
        if refused.status == Status.MEMORY:
            raise
        told = known or type_of(octets) or ("token" if octets[:1] == b"\x60" else None)
        hides = not show_keys and _may_hold_keys(octets, told)
        text, lines = ("", []) if hides or octets[:1] in (b"\x05", b"\0") else _tree_of(octets)
        if lines:
            notes.append("Below are the tags, lengths and contents of the elements, as far as they go.")
        if hides:
            notes.append("What the octets hold is not known, and may be keys: they are hidden until keys and passwords are asked for.")
        return Page(lines, sources, text, "", _error_of(octets, kind, refused), notes, hides, [], _may_hold_keys(octets, told)), []
    untold = [number for number in range(len(tree.sources)) if number not in tree.told]
    may_hold_keys = known == "tree" and _may_hold_keys(octets, type_of(octets))
    return Page(tree.lines, tree.sources, text, as_json, None, notes, False, untold, may_hold_keys), list(dict.fromkeys(tree.salts))


def _is_secret(line: Line) -> bool:
    """Whether a line is of a secret in the octets given, or in octets that are not known."""
    if line.value != "hidden" and line.item.form != PageForm.SECRET:
        return False
    around: Optional[Line] = line
    while around is not None and around.place is None:
        around = around.around
    return around is None or around.place is None or around.place.source == 0


def masks_of(page: Page, hidden: bool) -> List[List[Tuple[int, int]]]:
    """Of each source the places whose octets are not shown: those of each line `hidden`, or of what it stands in where it has none of its own; and all of a
    part that no line has."""
    masks: List[List[Tuple[int, int]]] = [[] for _ in page.sources]
    if page.hides_octets:
        masks[0].append((0, len(page.sources[0].octets)))
    for number in page.untold if hidden else ():
        masks[number].append((0, len(page.sources[number].octets)))
    for line in page.lines if hidden else ():
        if line.value == "hidden":
            around: Optional[Line] = line
            while around is not None and around.place is None:
                around = around.around
            if around is None:
                masks = [[(0, len(source.octets))] for source in page.sources]
                break
            found = around.place
            assert found is not None
            masks[found.source].append((found.offset, found.size))
    return [sorted(set(each)) for each in masks]


# Keys.


def _entries(keytab: bytes) -> bytes:
    """The entries of a keytab of version 2."""
    try:
        show(keytab, "keytab")
    except Refused:
        raise BadInput("a file of keys is no keytab") from None
    if keytab[:2] != VERSION:
        raise BadInput("a keytab of another version than 2")
    return entries_of(keytab)


def _key(written: str, number: int) -> bytes:
    etype_text, colon, digits = written.partition(":")
    etypes = {str(etype): etype for etype in _ETYPES}
    etypes.update({name: etype for etype in _ETYPES for name in [name_of(Registry.ENCRYPTION_TYPE, etype)] if name})
    try:
        key = bytes.fromhex(digits) if colon and re.fullmatch("(?:[0-9a-fA-F]{2})+", digits) else None
    except ValueError:
        key = None
    etype = etypes.get(etype_text)
    named = {name: other for other in range(-150, 30) for name in [name_of(Registry.ENCRYPTION_TYPE, other)] if name}
    other = named.get(etype_text, int(etype_text) if re.fullmatch("-?[0-9]{1,5}", etype_text) else None)
    if etype is None and key is not None and other is not None:
        name = name_of(Registry.ENCRYPTION_TYPE, other)
        raise BadInput("key %d: encryption type %d%s is not supported, which has to be 16 to 20" % (number, other, " (%s)" % name if name else ""))
    if key is None or etype is None or len(key) != crypto.key_size(etype):
        raise BadInput("key %d is not ETYPE:HEX, with ETYPE 16 to 20 or the name of such a type, and as many octets as its keys have" % number)
    return entry_of(_GIVEN, b"key %d" % number, etype, key)


def keys_of(keytabs: Iterable[bytes], keys: str) -> bytes:
    """One keytab of all keytabs and keys. The keys stand between blanks, each ETYPE:HEX. Refused: BadInput."""
    found = b"".join(_entries(keytab) for keytab in keytabs if keytab) + b"".join(_key(each, number + 1) for number, each in enumerate(keys.split()))
    return VERSION + found if found else b""


def etypes_of(page: Page) -> List[int]:
    """The encryption types of ciphertexts in the page."""
    around = [line.around.lines for line in page.lines if line.name == "cipher" and line.around is not None]
    told = [each.item for lines in around for each in lines if each.item.registry == Registry.ENCRYPTION_TYPE]
    return sorted({item.number for item in told if item.number is not None and item.number in _ETYPES})


def with_password(keytab: bytes, password: str, salts: Iterable[bytes], etypes: Iterable[int]) -> Tuple[bytes, int]:
    """The keytab with the keys of a password under these salts, and how many there would be; MOST_KEYS are made at most."""
    wanted = [(salt, etype) for salt in salts if len(salt) <= 1024 for etype in etypes]
    made = b""
    for salt, etype in wanted[:MOST_KEYS]:
        try:
            key = crypto.string_to_key(etype, password.encode("utf-8", "surrogatepass"), salt)
        except Refused:
            continue
        made += entry_of(_GIVEN, b"the password, salt " + salt, etype, key)
    return ((keytab or VERSION) + made if made else keytab), len(wanted)


def as_answer(page: Page, show_keys: bool, form: str) -> Dict[str, Any]:
    """The page as an object of JSON."""
    sources = []
    for source, masks in zip(page.sources, masks_of(page, not show_keys)):
        octets = bytearray(source.octets)
        for offset, size in masks:
            octets[offset : offset + size] = bytes(size)
        sources.append({"title": source.title, "octets": base64.b64encode(octets).decode("ascii"), "size": len(octets), "masks": masks})
    lines = [[line.depth, line.name, line.count, line.value, line.place] for line in page.lines[:MOST_LINES]]
    notes = list(page.notes)
    if len(page.lines) > MOST_LINES:
        notes.append("The tree has %d lines, of which the first %d are here; the text and the JSON have all." % (len(page.lines), MOST_LINES))
    error = None if page.error is None else {"status": page.error[0], "text": page.error[1], "offset": page.error[2]}
    return {"form": form, "secret": page.may_hold_keys or _CLEAR in page.sources[0].octets or any(map(_is_secret, page.lines)), "sources": sources, "lines": lines, "notes": notes, "error": error, "text": page.text, "json": page.json, "hidden": page.hides_octets}
