"""Frames around messages: of password changes (RFC 3244, 2), and of messages that go through a proxy to a KDC (MS-KKDCP, 2.2.2)."""

from typing import NamedTuple, Optional

from krb._items import Form, items
from krb._library import IN, SIZE_OUT, Call, Octets, Refused, Status, plain

__all__ = ["PasswordFrame", "password_frame", "make_password_frame", "ProxyMessage", "proxy_message", "make_proxy_message"]


class PasswordFrame(NamedTuple):
    """A request to change a password, or a reply: a KRB-AP-REQ or KRB-AP-REP, a KRB-PRIV, and how many octets the frame has."""

    ap_message: bytes
    krb_priv: bytes
    size: int


_password_frame = Call("krb_password_frame", IN, cells=[SIZE_OUT] * 4)
_make_password_frame = Call("krb_make_password_frame", IN, IN, has_room=True)


def password_frame(octets: Octets) -> PasswordFrame:
    """The frame at the start of the octets. Its lengths are compared with nothing; what follows its KRB-PRIV is not looked at.

    Refused: TRUNCATED, OTHER_VERSION (not 1); INVALID, TRUNCATED, UNSUPPORTED of the messages; MEMORY."""
    octets = plain(octets)
    ap, ap_size, private, private_size = _password_frame.told(octets)
    return PasswordFrame(octets[ap : ap + ap_size], octets[private : private + private_size], private + private_size)


def make_password_frame(ap_message: Octets, krb_priv: Octets) -> bytes:
    """The frame of these messages, with its lengths and the version 1.

    Refused: INVALID, TRUNCATED, UNSUPPORTED where one is no encoding; FRAME_SIZE past 65535 octets; MEMORY."""
    return _make_password_frame.octets(len(ap_message) + len(krb_priv) + 6, ap_message, krb_priv)


class ProxyMessage(NamedTuple):
    """A KDC-PROXY-MESSAGE: the message behind its length in four octets, the realm that it is for, how the proxy is to look for a KDC."""

    kerb_message: bytes
    target_domain: Optional[bytes]
    dclocator_hint: Optional[int]


def proxy_message(octets: Octets) -> ProxyMessage:
    """The message whose one DER encoding the octets are. Refused: INVALID, TRUNCATED, UNSUPPORTED, TOO_LARGE (a hint past 64 bits), MEMORY."""
    octets = plain(octets)
    fields = {item.name: octets[item.place] for item in items(octets, "KDC-PROXY-MESSAGE") if item.form == Form.LEAF}
    hint = fields.get("dclocator-hint")
    if hint is not None and len(hint) > 8:
        raise Refused(Status.TOO_LARGE)
    return ProxyMessage(fields["kerb-message"], fields.get("target-domain"), None if hint is None else int.from_bytes(hint, "big", signed=True))


_make_proxy_message = Call("krb_make_kdc_proxy_message", IN, IN, has_room=True)


def make_proxy_message(kerb_message: Octets, target_domain: Octets = b"") -> bytes:
    """The KDC-PROXY-MESSAGE of this message, which begins with its length in four octets, for this realm, which is left out where it is empty.

    Refused: INVALID where the realm is not of ASCII; MEMORY."""
    return _make_proxy_message.octets(len(kerb_message) + len(target_domain) + 48, kerb_message, target_domain)
