"""Changing a password (RFC 3244, 2, version 1): the AP-REQ of a ticket for kadmin/changepw, and the new password in a KRB-PRIV under its subkey."""

import secrets
import socket
import time
from typing import Any, Callable, NamedTuple, Optional, Tuple, Union

from krb import frames, messages
from krb._context import EncryptionKey
from krb._der import element, integer
from krb._exchange import AP_MUTUAL, AP_SEQUENCE, ClientRule, Follows, NotGranted, ap_reply, ap_request
from krb._items import Secret
from krb._kdc import Address, Kdcs, Named
from krb._library import Octets, Refused, Status
from krb._parts import decode
from krb._times import moment

__all__ = ["PasswordNotChanged", "change_password"]

_PRIV_USAGE = 13  # of a KRB-PRIV (RFC 4120, 7.5.1)
_SEQUENCE_NUMBERS = 2**30
_IPV4, _IPV6 = 2, 24  # types of addresses (RFC 4120, 7.5.3)
_RESULTS = {
    1: "the request is malformed",
    2: "the server failed",
    3: "the client may not",
    4: "the new password is refused",
    5: "the client may not",
    6: "the version is another",
    7: "the ticket is no first one",
}


class PasswordNotChanged(ValueError):
    """The server did not change the password: `code` says why (RFC 3244, 2), `text` what it wrote, which is for people."""

    code: int
    text: str

    def __init__(self, code: int, text: str = "") -> None:
        self.code, self.text = code, text
        words = " ".join(ascii(text)[1:-1].replace("\\n", " ").split())
        super().__init__("%s (%d)%s" % (_RESULTS.get(code, "the server reports an error"), code, ": " + words if words else ""))

    def __reduce__(self) -> Any:
        return PasswordNotChanged, (self.code, self.text)


class _Came(NamedTuple):
    """A reply, as `Kdcs.answer` hands it on."""

    octets: bytes
    follows: Follows = Follows.GRANTED


def _fields(tag: int, *fields: Tuple[int, bytes]) -> bytes:
    return element(tag, element(0x30, b"".join(element(0xA0 + number, content) for number, content in fields)))


def _private(key: EncryptionKey, now: Tuple[int, int], sequence_number: int, address: Tuple[int, bytes], text: bytes) -> bytes:
    """The KRB-PRIV of a text (RFC 4120, 5.7.1)."""
    stamp = time.strftime("%Y%m%d%H%M%SZ", time.gmtime(now[0])).encode("ascii")
    host = element(0x30, element(0xA0, integer(address[0])) + element(0xA1, element(4, address[1])))
    fields = (0, element(4, text)), (1, element(0x18, stamp)), (2, integer(now[1])), (3, integer(sequence_number)), (4, host)
    sealed = messages.seal(messages.Part.PRIV_PART, key.etype, key.octets, _PRIV_USAGE, _fields(0x7C, *fields))
    data = element(0x30, element(0xA0, integer(key.etype)) + element(0xA2, element(4, sealed)))
    return _fields(0x75, (0, integer(5)), (1, integer(21)), (3, data))


def _own_address(address: Address) -> Tuple[int, bytes]:
    """The type and the octets of the address from which this one is reached. No octet is sent for that."""
    family, _, _, _, place = socket.getaddrinfo(address.host, address.port, type=socket.SOCK_DGRAM)[0]
    with socket.socket(family, socket.SOCK_DGRAM) as link:
        link.connect(place)
        own = link.getsockname()[0]
    return (_IPV6 if family == socket.AF_INET6 else _IPV4), socket.inet_pton(family, own.partition("%")[0])


def _result(octets: bytes) -> Tuple[int, str]:
    """The code and the text of a reply."""
    if len(octets) < 2:
        raise NotGranted(ClientRule.MESSAGE)
    return int.from_bytes(octets[:2], "big"), octets[2:].decode("utf-8", "backslashreplace")


def _read(reply: bytes, key: EncryptionKey, session_key: EncryptionKey, now: Tuple[int, int]) -> Tuple[int, str]:
    """What a reply says, which has to be of the service: its AP-REP has the time that was sent, and its KRB-PRIV is under the subkey that was sent."""
    error = reply if reply[:1] == b"\x7e" else reply[6:] if reply[4:6] == b"\0\0" else None
    if error is not None:  # nobody vouches for it
        told = decode(error, "KRB-ERROR")
        data = told.get("e-data", b"")
        if len(data) >= 2:
            raise PasswordNotChanged(*_result(data))
        raise NotGranted(ClientRule.KDC, told["error-code"] & 2**32 - 1, "the server")
    frame = frames.password_frame(reply)
    if frame.size != len(reply):
        raise NotGranted(ClientRule.MESSAGE)
    part = decode(ap_reply(session_key, now, frame.ap_message), "EncAPRepPart")
    sealed = decode(frame.krb_priv, "KRB-PRIV")["enc-part"]
    if sealed["etype"] != key.etype:
        raise NotGranted(ClientRule.ENCRYPTION_TYPE)
    try:
        told = decode(messages.open_part(messages.Part.PRIV_PART, key.etype, key.octets, _PRIV_USAGE, sealed["cipher"]), "EncKrbPrivPart", show_keys=True)
    except Refused as refused:
        if refused.status == Status.MEMORY:
            raise
        raise NotGranted(ClientRule.OPENING) from refused
    if told.get("seq-number") != part.get("seq-number"):
        raise NotGranted(ClientRule.NONCE)
    return _result(told["user-data"])


def change_password(
    client: str, password: Union[str, Octets], new: str, kdc: Named = None, server: Named = None, *, timeout: float = 10.0, configuration: Optional[str] = None,
    dns: Union[bool, str] = False, clock: Callable[[], float] = time.time,
) -> None:
    """Changes the client's password. `server` says where, as `kdc` says where KDCs are; without it the lines kpasswd_server of krb5.conf do, or the hosts of its KDCs.

    PasswordNotChanged: the server refuses; NotGranted, KdcUnreachable and others as `krb.kinit`."""
    from krb.client import kinit

    credentials = kinit(client, password, kdc=kdc, server="kadmin/changepw", timeout=timeout, configuration=configuration, dns=dns, clock=clock)
    entry, session_key = credentials.entry, credentials.session_key
    servers = Kdcs(server, configuration, dns, timeout, changes=True)
    now, number = moment(clock, credentials.offset or 0), secrets.randbelow(_SEQUENCE_NUMBERS)
    key = EncryptionKey(session_key.etype, Secret(secrets.token_bytes(len(session_key.octets))))
    request = ap_request(now, entry.client, entry.ticket, session_key, key.octets, number, AP_SEQUENCE | AP_MUTUAL)
    realm = entry.client.realm
    private = _private(key, now, number, _own_address(servers.addresses(realm)[0]), new.encode("utf-8"))
    came = servers.answer(realm, frames.make_password_frame(request, private), lambda reply, _: _Came(reply))
    code, text = _read(came.octets, key, session_key, now)
    if code != 0:
        raise PasswordNotChanged(code, text)
