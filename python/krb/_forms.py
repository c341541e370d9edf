"""The forms in which people have octets: `jolmurig show` and the page in the browser take the same ones.

The library's calls take octets alone, and none of them recognises these forms; this is crates/krb_input in Python, rule by rule, and is not proved."""

import base64
import binascii
import re
from typing import NamedTuple, Optional

__all__ = ["Given", "NotBase64", "given_octets"]

BLANKS = b" \t\n\r"
_FIELDS = (b"authorization:", b"www-authenticate:", b"proxy-authorization:", b"proxy-authenticate:")
_SCHEMES = (b"negotiate", b"kerberos")
_PEM = re.compile(rb"-----BEGIN (?:(?!-----).)*-----(.*?)-----END (?:(?!-----).)*-----[ \t\n\r]*", re.DOTALL)
_DUMP = re.compile(rb"00000*[: \t]")


class NotBase64(ValueError):
    """The input begins as PEM or as a header of HTTP, and what follows is no base64."""


class Given(NamedTuple):
    """The octets that an input stands for, and what form it has."""

    octets: bytes
    form: str


def _without_blanks(text: bytes) -> bytes:
    return text.translate(None, BLANKS)


def _hexadecimal(text: bytes) -> Optional[bytes]:
    """Digits in pairs and nothing else."""
    try:
        return binascii.unhexlify(text)
    except (binascii.Error, ValueError):
        return None


def _base64(text: bytes) -> Optional[bytes]:
    """Base64 (RFC 4648, 4), or that of URLs (5), with its whole padding or none, and with zeros for the bits that are left over (3.5)."""
    bare = text.rstrip(b"=")
    padding = len(text) - len(bare)
    if len(bare) % 4 == 1 or (padding and (padding > 2 or len(text) % 4)):
        return None
    for url, alphabet in ((False, rb"[A-Za-z0-9+/]*"), (True, rb"[A-Za-z0-9_-]*")):
        if re.fullmatch(alphabet, bare):
            whole = bare + b"=" * (-len(bare) % 4)
            octets = base64.urlsafe_b64decode(whole) if url else base64.b64decode(whole)
            again = base64.urlsafe_b64encode(octets) if url else base64.b64encode(octets)
            return octets if again == whole else None
    return None


def _unmarked(text: bytes) -> bytes:
    """The digits without `0x` and `\\x` before a pair, and a colon, a comma or a hyphen between pairs."""
    digits, at, size = bytearray(), 0, len(text)
    while at < size:
        if text[at] in b":,-":
            at += 1
        elif text[at : at + 2] in (b"0x", b"0X", b"\\x"):
            at += 2
            # behind a mark stands a place between pairs: another separator or mark may follow
        else:
            digits += text[at : at + 2]
            at += 2
    return bytes(digits)


def _dump_digits(text: bytes) -> bytes:
    """The digits of a dump: on each line those of the pairs behind the offset, up to the text at its end, which begins with `|`, or behind three blanks, or two
    where a colon ends the offset. Octets that are out of place stay, so that nothing is overlooked."""
    digits, state, colon = bytearray(), "offset", False
    for octet in text:
        blank = octet in BLANKS
        if state == "offset":
            if not (octet in b"0123456789abcdefABCDEF:" or blank):
                digits.append(octet)
            if octet == 0x3A or (blank and octet != 0x0A):
                state, colon = "before", octet == 0x3A
        elif state == "within":
            digits.append(octet)
            state = "behind"
        elif state == "text":
            state = "offset" if octet == 0x0A else "text"
        else:  # before a pair, behind one, or behind one and one or two blanks
            if not (blank or octet == 0x7C):
                digits.append(octet)
            if octet == 0x0A:
                state = "offset"
            elif octet == 0x7C:
                state = "text"
            elif not blank:
                state, colon = "within", colon and state != "two"
            elif state == "behind":
                state = "one"
            elif state == "one":
                state = "text" if colon else "two"
            elif state == "two":
                state = "text"
    return bytes(digits)


def _behind_scheme(start: bytes) -> Optional[bytes]:
    """What follows a scheme of HTTP, which may follow the name of a field (RFC 4559, 4)."""
    lower = start[:64].lower()
    for field in _FIELDS:
        if lower.startswith(field):
            start = start[len(field) :]
            break
    start = start.lstrip(BLANKS)
    for scheme in _SCHEMES:
        if start[: len(scheme)].lower() == scheme and start[len(scheme) : len(scheme) + 1] in (b" ", b"\t", b"\n", b"\r"):
            return start[len(scheme) :]
    return None


def given_octets(text: bytes) -> Given:
    """The octets that an input stands for, by the first rule that fits: PEM (RFC 7468); a token behind a scheme of HTTP, also behind the name of its field; a dump,
    as Wireshark, `hexdump -C` and `xxd` write it; hexadecimal digits, with or without marks; base64; else the octets themselves. Blanks count in the last alone.
    Refused: NotBase64 where one of the first two begins, and no base64 follows."""
    start = text.lstrip(BLANKS)
    armor, name = None, ""
    if start.startswith(b"-----BEGIN "):
        found = _PEM.fullmatch(start)
        armor, name = found.group(1) if found else b"-", "PEM"
    else:
        armor, name = _behind_scheme(start), "a header of HTTP"
    if armor is not None:
        octets = _base64(_without_blanks(armor))
        if octets is None:
            raise NotBase64("the input begins as PEM or as a header of HTTP, and what follows is no base64")
        return Given(octets, name)
    if _DUMP.match(start):
        octets = _hexadecimal(_dump_digits(start))
        if octets is not None:
            return Given(octets, "a dump")
    words = _without_blanks(text)
    for name, found_octets in (("hexadecimal", _hexadecimal(words)), ("hexadecimal", _hexadecimal(_unmarked(words))), ("base64", _base64(words))):
        if found_octets is not None:
            return Given(found_octets, name)
    return Given(text, "the octets themselves")
