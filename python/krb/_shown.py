"""Octets as text and as JSON, for people."""

from typing import Optional

from krb._items import _named
from krb._library import BOOL, IN, Call, Octets, Refused, Status, plain

__all__ = ["json", "show", "text"]

_show = Call("krb_show", IN, IN, BOOL, BOOL, has_room=True)
_show_page = Call("krb_show_page", IN, IN, IN, BOOL, BOOL, has_room=True)
_show_placed_page = Call("krb_show_placed_page", IN, IN, IN, BOOL, BOOL, has_room=True)


def _shown(octets: Octets, as_type: Optional[str], is_json: bool, show_secrets: bool) -> str:
    octets = plain(octets)
    return _show.octets(8 * len(octets) + 1024, _named(octets, as_type), octets, is_json, show_secrets).decode("ascii")


def text(octets: Octets, as_type: Optional[str] = None, show_secrets: bool = False) -> str:
    """Octets that are one element of the type, as "AS-REQ" or "EncTicketPart", and without a type of the one that `krb.type_of` tells: a line for each value, two blanks further in for each struct and list that it
    stands in, in printable ASCII alone, whatever they hold. Where `show_secrets` is false, the word `hidden` stands in the place of the octets of keys and of
    passwords. Octets of formats that are no DER stay octets, as those of a PAC.

    Refused: as `krb.items`."""
    return _shown(octets, as_type, False, show_secrets)


def json(octets: Octets, as_type: Optional[str] = None, show_secrets: bool = False) -> str:
    """The same as JSON (RFC 8259) on one line. Refused: as `krb.items`."""
    return _shown(octets, as_type, True, show_secrets)


def show(octets: Octets, kind: Optional[str] = None, keytab: Octets = b"", as_json: bool = False, show_keys: bool = False, places: bool = False) -> str:
    """What `jolmurig show` writes of octets of any kind: a type of DER, a token of the GSS-API, a PAC, messages of NEGOEX, a frame in which a password is
    changed, a keytab or a credential cache, by the names that its `--as` takes ("AS-REQ", "token", "PAC", "ccache"); without a kind, as the one that they
    begin as. What a key of the keytab opens is shown in its place; of a PAC in a ticket it is said which of its checksums hold. Where `show_keys` is
    false, the word `hidden` stands in the place of keys and of passwords.

    With `places` each value has the place of the octets that tell it, as ` @OFFSET+SIZE`, in JSON as an object with "offset", "size" and "value": in the
    octets given, and of what a key opens in the octets that were decrypted.

    Refused: NUMBER where no kind has the name or none is begun; KEYTAB where the keytab is none; what octets of the kind are refused with; MEMORY."""
    octets = plain(octets)
    name = b"" if kind is None else kind.encode("utf-8", "surrogatepass")
    if kind == "":
        raise Refused(Status.NUMBER)
    call = _show_placed_page if places else _show_page
    return call.octets((64 if places else 32) * len(octets) + 1024, name, octets, plain(keytab), as_json, show_keys).decode("ascii")
