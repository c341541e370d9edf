"""Pages of octets of any kind as items, and as trees (krb.h)."""

import ctypes
import datetime
import enum
import re
import struct
from typing import Any, Callable, Dict, Iterable, Iterator, List, NamedTuple, Optional, Tuple

from krb._items import Registry, Role, Secret
from krb._library import Octets, Refused, Status, _library, plain

__all__ = ["PageForm", "PageItem", "page_items"]

# The kinds that are no type of DER, as `jolmurig show --as` calls them.
FORMATS = ("token", "pac", "negoex", "password-frame", "keytab", "ccache")


class PageForm(enum.IntEnum):
    """What an item of a page is (krb.h)."""

    STRUCT = 1
    STRUCT_END = 2
    LIST = 3
    LIST_END = 4
    NUMBER = 5
    FLAGS = 6
    WORD = 7
    IDENTIFIER = 8
    TEXT = 9
    OCTETS = 10
    SECRET = 11
    CIPHER = 12


class PageItem(NamedTuple):
    """A value of a page, or where a struct or a list begins or ends.

    - `form`: what it is. `name`: what it is called; an item of a list (`is_item`) has the name of the list.
    - `value`: of a TEXT its octets, of OCTETS, a SECRET and a CIPHER the octets themselves; of a NUMBER its digits or `true` or `false`, of FLAGS `0x` and digits,
      of a WORD and an IDENTIFIER what is written of it; of a LIST how many items it has, in digits. In the place of what is hidden stands the WORD `hidden`.
    - `names`: what the standards call the number, or each flag that is set, where they are of a `registry`; what they call an IDENTIFIER.
    - `number`: the number, where it is one of 64 bits.
    - `role`: what programs do with it.
    - `place`: the octets that it is told of, as a slice; None where it has no place, or is of octets that a key opened."""

    form: PageForm
    name: str
    is_item: bool
    value: bytes
    names: Tuple[str, ...]
    number: Optional[int]
    registry: Optional[Registry]
    role: Role
    place: Optional[slice]

    def __repr__(self) -> str:
        value = "%d octets" % len(self.value) if self.form in (PageForm.OCTETS, PageForm.SECRET, PageForm.CIPHER) else repr(self.value)
        return "PageItem(%s, %r, %s, names=%r, place=%r)" % (self.form.name, self.name, value, self.names, self.place)


class _Counts(ctypes.Structure):
    """krb_page_counts of krb.h."""

    _fields_ = [("items", ctypes.c_size_t), ("octets", ctypes.c_size_t)]


# krb_page_item of krb.h.
_RECORD = struct.Struct("@8Nq4IiI")
_page_items = _library.krb_page_items
_page_items.argtypes = [ctypes.c_char_p, ctypes.c_size_t] * 3 + [ctypes.c_bool] + [ctypes.c_void_p, ctypes.c_size_t] * 2 + [ctypes.POINTER(_Counts)]
_page_items.restype = ctypes.c_uint32


def _listed(octets: bytes, kind: Optional[str], keytab: bytes, show_keys: bool) -> Iterator[PageItem]:
    """One call, and a second one where its room was too little."""
    if kind == "":
        raise Refused(Status.NUMBER)
    name, counts, size = b"" if kind is None else kind.encode("utf-8", "surrogatepass"), _Counts(), len(octets)
    most, room = size // 4 + 64, 16 * size + 1024
    while True:
        out_at = most * _RECORD.size
        cells = bytearray(out_at + room)
        first = ctypes.c_char.from_buffer(cells)
        places = ctypes.byref(first), most, ctypes.byref(first, out_at), room
        status = _page_items(name, len(name), octets, size, keytab, len(keytab), show_keys, *places, ctypes.byref(counts))
        if status != Status.ROOM or (counts.items <= most and counts.octets <= room):
            break
        most, room = max(most, counts.items), max(room, counts.octets)
    if status != Status.DONE:
        raise Refused(status)
    out = bytes(memoryview(cells)[out_at : out_at + counts.octets])
    for record in _RECORD.iter_unpack(memoryview(cells)[: counts.items * _RECORD.size]):
        offset, count, name_at, name_size, value_at, value_size, note_at, note_size, number, form, is_item, has_place, has_number, registry, role = record
        note = out[note_at : note_at + note_size].decode("ascii")
        yield PageItem(
            PageForm(form),
            out[name_at : name_at + name_size].decode("ascii", "backslashreplace"),
            bool(is_item),
            out[value_at : value_at + value_size],
            ((note[1:],) if form in (PageForm.NUMBER, PageForm.IDENTIFIER) else tuple(note.split())) if note else (),
            number if has_number else None,
            None if registry < 0 else Registry(registry),
            Role(role),
            slice(offset, offset + count) if has_place else None,
        )


def page_items(octets: Octets, kind: Optional[str] = None, keytab: Octets = b"", show_keys: bool = False) -> List[PageItem]:
    """What `krb.show(.., places=True)` writes of octets of any kind, as items: one for each value, and for each begin and end of a struct and of a list, in their
    order. Of what a key of the keytab opens the places are in the octets that were decrypted.

    Refused: as `krb.show`."""
    return list(_listed(plain(octets), kind, plain(keytab), show_keys))


def opener(name: str) -> str:
    """What a key is called: one of `keys`, which have a principal of an empty realm in the keytab made of them, `keys[n]`."""
    return name[: -len("@ kvno 1")] if name.startswith("keys[") and name.endswith("]@ kvno 1") else name


_TIME = re.compile(rb"(\d{4})-(\d\d)-(\d\d)T(\d\d):(\d\d):(\d\d)Z")


def _word(word: bytes, hidden: str) -> Any:
    """A time of UTC, the text where it is none or where Python has no such year, or the word in the place of a secret."""
    if word == b"hidden":
        return hidden
    found = _TIME.fullmatch(word)
    try:
        return datetime.datetime(*map(int, found.groups()), tzinfo=datetime.timezone.utc) if found else word.decode("ascii")  # type: ignore[misc, arg-type]
    except ValueError:
        return word.decode("ascii")


def _text(octets: bytes) -> str:
    """The text of octets that are UTF-8; of others each is a character."""
    try:
        return octets.decode("utf-8")
    except UnicodeDecodeError:
        return octets.decode("latin-1")


_TRUTH = {b"true": True, b"false": False}


def _value(item: PageItem, hidden: str) -> Any:
    """The value of an item that is neither a struct nor a list."""
    form, value = item.form, item.value
    if form == PageForm.NUMBER:
        return _TRUTH[value] if value in _TRUTH else int(value)
    if form == PageForm.FLAGS:
        return frozenset(item.names) if item.registry is not None else value.decode("ascii") if b"/" in value else int(value, 16)
    if form == PageForm.TEXT:
        return _text(value)
    if form == PageForm.SECRET:
        return Secret(value)
    if form in (PageForm.OCTETS, PageForm.CIPHER):
        return value
    return _word(value, hidden) if form == PageForm.WORD else value.decode("ascii")


def nested(items: Iterable[PageItem], value_of: Callable[[PageItem], Any], struct_of: Callable[[PageItem], Dict[str, Any]] = lambda item: {}) -> Any:
    """What a page tells: of a struct the dict that `struct_of` begins, by the names of its fields; of a list
    a list; of any other item its value."""
    around: Any = {}
    whole, outer = around, []
    for item in items:
        if item.form in (PageForm.STRUCT_END, PageForm.LIST_END):
            around = outer.pop()
            continue
        begins = item.form in (PageForm.STRUCT, PageForm.LIST)
        value: Any = (struct_of(item) if item.form == PageForm.STRUCT else []) if begins else value_of(item)
        if item.is_item:
            around.append(value)
        else:
            around[item.name] = value
        if begins:
            outer.append(around)
            around = value
    (told,) = whole.values()
    return told


def tree(octets: bytes, kind: Optional[str], keytab: bytes, show_keys: bool, hidden: str) -> Any:
    """The tree of octets of a kind, of None as the one that they begin as, with what the keys of the keytab open in them."""

    def value_of(item: PageItem) -> Any:
        value = _value(item, hidden)
        return opener(value) if item.name == "opened-by" and isinstance(value, str) else value

    return nested(_listed(octets, kind, keytab, show_keys), value_of)
