"""MIC and Wrap tokens of a context of the GSS-API (RFC 4121, 4.2) under encryption types 17 to 20.

A side makes its tokens with a key that names it as the sender, and verifies and unwraps with one that names the other side. Which sequence numbers a
context expects is the caller's to say."""

import ctypes
import enum
import os
from typing import NamedTuple, Optional

from krb._library import BOOL, IN, NUMBER, TELLS_BOOL, TELLS_WORD, U16, WORD, Call, Octets

__all__ = ["Sender", "TokenKey", "Unwrapped", "make_mic", "verify_mic", "wrap", "wrap_in_clear", "unwrap"]

_KEY = (NUMBER, IN, BOOL, BOOL)
_make_mic = Call("krb_make_mic", *_KEY, WORD, IN, has_room=True)
_verify_mic = Call("krb_verify_mic", *_KEY, IN, IN, TELLS_WORD)
_wrap = Call("krb_wrap", *_KEY, WORD, U16, IN, IN, has_room=True)
_wrap_in_clear = Call("krb_wrap_in_clear", *_KEY, WORD, U16, IN, has_room=True)
_unwrap = Call("krb_unwrap", *_KEY, IN, TELLS_WORD, TELLS_BOOL, has_room=True)

# The octets of a header, of a confounder, and of the longest checksum.
_HEADER, _CONFOUNDER, _CHECKSUM = 16, 16, 24


class Sender(enum.Enum):
    """The side that sends a token."""

    INITIATOR = False
    ACCEPTOR = True


class TokenKey(NamedTuple):
    """The key of the tokens that one side sends: `acceptor_subkey` says that it is the subkey that the acceptor asserted."""

    etype: int
    octets: bytes
    sender: Sender
    acceptor_subkey: bool

    def __repr__(self) -> str:
        """Without the key, so that none comes into a log or a traceback."""
        said = self.etype, self.sender, self.acceptor_subkey
        return "TokenKey(etype=%r, sender=%s, acceptor_subkey=%r)" % said

    def _words(self) -> "tuple[int, bytes, bool, bool]":
        etype, octets, sender, acceptor_subkey = self
        return etype, octets, sender.value, acceptor_subkey


class Unwrapped(NamedTuple):
    """What a Wrap token held, and whether it was encrypted."""

    message: bytes
    sequence_number: int
    sealed: bool


def make_mic(key: TokenKey, sequence_number: int, message: Octets) -> bytes:
    """The MIC token of a message.

    Refused: NUMBER, KEY_SIZE, MEMORY."""
    return _make_mic.octets(_HEADER + _CHECKSUM, *key._words(), sequence_number, message)


def verify_mic(key: TokenKey, message: Octets, token: Octets) -> int:
    """The sequence number of a MIC token that holds of the message.

    Refused: NUMBER, KEY_SIZE, TOKEN, DIRECTION, SUBKEY, SEALED_MIC, INTEGRITY, MEMORY."""
    number = ctypes.c_uint64()
    _verify_mic.done(*key._words(), message, token, number)
    return number.value


def wrap(key: TokenKey, sequence_number: int, message: Octets, rotation: int = 0, confounder: Optional[Octets] = None) -> bytes:
    """The Wrap token of a message, encrypted. Without a confounder one is drawn by os.urandom; give one for tests alone.

    Refused: CONFOUNDER_SIZE, NUMBER, KEY_SIZE, MEMORY."""
    if confounder is None:
        confounder = os.urandom(_CONFOUNDER)
    room = _HEADER + _CONFOUNDER + len(message) + _HEADER + _CHECKSUM
    return _wrap.octets(room, *key._words(), sequence_number, rotation, confounder, message)


def wrap_in_clear(key: TokenKey, sequence_number: int, message: Octets, rotation: int = 0) -> bytes:
    """The Wrap token of a message that is not encrypted.

    Refused: NUMBER, KEY_SIZE, MEMORY."""
    room = _HEADER + len(message) + _CHECKSUM
    return _wrap_in_clear.octets(room, *key._words(), sequence_number, rotation, message)


def unwrap(key: TokenKey, token: Octets) -> Unwrapped:
    """What a Wrap token of RFC 4121 holds, encrypted or not, and whatever its rotation (RRC). An
    encrypted token of DCE style (MS-KILE, 3.4.5.4.1) is rotated by RRC and EC together, and refused
    with INTEGRITY.

    Refused: NUMBER, KEY_SIZE, TOKEN, DIRECTION, SUBKEY, SEALED_SIZE, SEALED_HEADER, INTEGRITY, MEMORY."""
    number, sealed = ctypes.c_uint64(), ctypes.c_bool()
    message = _unwrap.octets(len(token), *key._words(), token, number, sealed)
    return Unwrapped(message, number.value, sealed.value)
