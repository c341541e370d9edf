"""Tokens of the GSS-API in their frame (RFC 2743, 3.1), and the messages of SPNEGO in them (RFC 4178).

A mechanism is the content of its OBJECT IDENTIFIER, as `KERBEROS` and `SPNEGO` are."""

import enum
from typing import Dict, Iterable, List, NamedTuple, Optional, Union

from krb._der import element
from krb._items import Form, Item, items
from krb._library import IN, SIZE_OUT, U32, Call, Octets, Refused, Status, plain

__all__ = ["KERBEROS", "SPNEGO", "Token", "token", "make_token", "NegState", "NegTokenInit", "NegTokenResp"]
__all__ += ["neg_token_init", "neg_token_init_mechanism", "neg_token_resp", "make_neg_token_init", "make_neg_token_resp"]

KERBEROS = bytes.fromhex("2a864886f712010202")
SPNEGO = bytes.fromhex("2b0601050502")


class Token(NamedTuple):
    """A token: its mechanism, and what it holds. An inner token of Kerberos begins with two octets of a token id (RFC 4121, 4.1)."""

    mechanism: bytes
    inner: bytes


_token = Call("krb_gss_token", IN, cells=[SIZE_OUT] * 4)
_make_token = Call("krb_make_gss_token", IN, IN, has_room=True)


def token(octets: Octets) -> Token:
    """The token that the octets are, whatever its mechanism. Refused: INVALID, TRUNCATED, UNSUPPORTED, MEMORY."""
    octets = plain(octets)
    mechanism, mechanism_size, inner, inner_size = _token.told(octets)
    return Token(octets[mechanism : mechanism + mechanism_size], octets[inner : inner + inner_size])


def make_token(mechanism: Octets, inner: Octets) -> bytes:
    """The token of this mechanism around this inner token.

    Refused: INVALID, UNSUPPORTED where the octets are the content of no OBJECT IDENTIFIER; MEMORY."""
    return _make_token.octets(len(mechanism) + len(inner) + 24, mechanism, inner)


class NegState(enum.IntEnum):
    """negState (RFC 4178, 4.2.2)."""

    ACCEPT_COMPLETED = 0
    ACCEPT_INCOMPLETE = 1
    REJECT = 2
    REQUEST_MIC = 3


class NegTokenInit(NamedTuple):
    """The first message of a negotiation: None for a field that is absent."""

    mechanisms: Optional[List[bytes]]
    mech_token: Optional[bytes]
    mech_list_mic: Optional[bytes]


class NegTokenResp(NamedTuple):
    """A later message: None for a field that is absent. Another negState than those of `NegState` is its number, and -1 for another element than an
    ENUMERATED in one octet below 128."""

    neg_state: Union[NegState, int, None]
    supported_mech: Optional[bytes]
    response_token: Optional[bytes]
    mech_list_mic: Optional[bytes]


def _fields(octets: bytes, alternative: str) -> Dict[str, List[Item]]:
    """The items of each field of a message that the octets are."""
    fields: Dict[str, List[Item]] = {}
    for item in items(octets, "NegotiationToken (%s)" % alternative):
        fields.setdefault(item.name, []).append(item)
    return fields


def _octets(octets: bytes, found: Optional[List[Item]]) -> Optional[bytes]:
    """The content of the OCTET STRING of a field: of the first item in its explicit tag."""
    return octets[found[1].place] if found else None


def neg_token_init(octets: Octets) -> NegTokenInit:
    """The NegTokenInit in the token that begins a negotiation; the mechanism of the token's frame is not compared.

    Refused: INVALID, TRUNCATED, UNSUPPORTED, MEMORY."""
    inner = token(octets).inner
    fields = _fields(inner, "negTokenInit")
    listed = fields.get("mechTypes")
    mechanisms = None if listed is None else [inner[item.place] for item in listed if item.form == Form.LEAF]
    return NegTokenInit(mechanisms, _octets(inner, fields.get("mechToken")), _octets(inner, fields.get("mechListMIC")))


def neg_token_init_mechanism(octets: Octets, n: int) -> bytes:
    """Mechanism n, counted from 0, of the NegTokenInit in the token that begins a negotiation. `neg_token_init` has all of them.

    Refused: INVALID, TRUNCATED, UNSUPPORTED, MEMORY; then ABSENT where there are not so many."""
    mechanisms = neg_token_init(octets).mechanisms or []
    if not 0 <= n < len(mechanisms):
        raise Refused(Status.ABSENT)
    return mechanisms[n]


def _state(octets: bytes, found: Optional[List[Item]]) -> Union[NegState, int, None]:
    if found is None:
        return None
    content = octets[found[1].place]
    if found[1].tag != 0x0A or len(content) != 1 or content[0] >= 128:
        return -1
    return NegState(content[0]) if content[0] < 4 else content[0]


def neg_token_resp(octets: Octets) -> NegTokenResp:
    """The negTokenResp that the octets are. Refused: INVALID, TRUNCATED, UNSUPPORTED, MEMORY."""
    octets = plain(octets)
    fields = _fields(octets, "negTokenResp")
    state = _state(octets, fields.get("negState"))
    return NegTokenResp(state, *(_octets(octets, fields.get(name)) for name in ("supportedMech", "responseToken", "mechListMIC")))


_make_init = Call("krb_make_neg_token_init", IN, IN, IN, has_room=True)


def _identifier(mechanism: Octets) -> bytes:
    """The OBJECT IDENTIFIER of this content."""
    return element(0x06, plain(mechanism))


def _sequence(content: bytes) -> bytes:
    """The SEQUENCE of this content."""
    return element(0x30, content)


def make_neg_token_init(mechanisms: Iterable[Octets], mech_token: Octets = b"", mech_list_mic: Octets = b"") -> bytes:
    """The token that begins a negotiation, of the mechanisms, and of a token and a MIC, which are left
    out where they are empty. Refused: INVALID, UNSUPPORTED where a mechanism is none; MEMORY."""
    listed = b"".join(map(_identifier, mechanisms))
    return _make_init.octets(len(listed) + len(mech_token) + len(mech_list_mic) + 96, listed, mech_token, mech_list_mic)


_make_resp = Call("krb_make_neg_token_resp", U32, IN, IN, IN, has_room=True)


def make_neg_token_resp(neg_state: Optional[int] = None, supported_mech: Octets = b"", response_token: Octets = b"", mech_list_mic: Octets = b"") -> bytes:
    """The later message of a negotiation, of a state of `NegState`, a mechanism, a token and a MIC. No state is None; the others are left out where they
    are empty. Refused: NUMBER of another state; INVALID, UNSUPPORTED where the mechanism is none; MEMORY."""
    if neg_state is not None and not 0 <= neg_state < 4:
        raise Refused(Status.NUMBER)
    room = len(supported_mech) + len(response_token) + len(mech_list_mic) + 64
    return _make_resp.octets(room, 256 if neg_state is None else neg_state, supported_mech, response_token, mech_list_mic)
