"""Encryption, checksums and keys of Kerberos (RFC 3961, RFC 3962, RFC 8009).

Encryption types: 16 des3-cbc-hmac-sha1-kd (withdrawn by RFC 8429), 17 and 18 aes128- and aes256-cts-hmac-sha1-96, 19 aes128-cts-hmac-sha256-128,
20 aes256-cts-hmac-sha384-192. Their checksum types: 12, 15, 16, 19, 20. A usage is a key usage (RFC 4120, 7.5.1), any number of 32 bits.

A key is derived for its usage before it encrypts, decrypts or makes a checksum, which takes about half of a short message's time. The functions of this module keep
the last 16 derived keys of encryption and of checksums, with what they were derived from, until others take their place or `forget_keys` is called."""

import ctypes
import functools
import os
from typing import Optional, Tuple

from krb._library import CHECKSUM_KEY, IN, KEY, NUMBER, SIZE, Call, ChecksumKey, Key, Octets, Refused, Status, fold, plain

__all__ = [
    "key_size",
    "seed_size",
    "confounder_size",
    "encrypted_size",
    "checksum_size",
    "checksum_key_size",
    "encrypt",
    "decrypt",
    "KeptKey",
    "string_to_key",
    "random_to_key",
    "checksum",
    "verify_checksum",
    "KeptChecksumKey",
    "forget_keys",
    "n_fold",
]

_key_size = Call("krb_key_size", NUMBER, answers=ctypes.c_size_t)
_seed_size = Call("krb_seed_size", NUMBER, answers=ctypes.c_size_t)
_confounder_size = Call("krb_confounder_size", NUMBER, answers=ctypes.c_size_t)
_encrypted_size = Call("krb_encrypted_size", NUMBER, SIZE, answers=ctypes.c_size_t)
_checksum_size = Call("krb_checksum_size", NUMBER, answers=ctypes.c_size_t)
_checksum_key_size = Call("krb_checksum_key_size", NUMBER, answers=ctypes.c_size_t)
_keep_key = Call("krb_keep_key", NUMBER, IN, NUMBER, KEY)
_encrypt_kept = Call("krb_encrypt_kept", KEY, IN, IN, has_room=True)
_decrypt_kept = Call("krb_decrypt_kept", KEY, IN, has_room=True)
_string_to_key = Call("krb_string_to_key", NUMBER, IN, IN, has_room=True)
_random_to_key = Call("krb_random_to_key", NUMBER, IN, has_room=True)
_keep_checksum_key = Call("krb_keep_checksum_key", NUMBER, IN, NUMBER, CHECKSUM_KEY)
_checksum_kept = Call("krb_checksum_kept", CHECKSUM_KEY, IN, has_room=True)
_verify_checksum_kept = Call("krb_verify_checksum_kept", CHECKSUM_KEY, IN, IN)

# (a name of its own: `decrypt` looks it up in each call)
_opened = _decrypt_kept.octets

# Octets, more than a key or a checksum has.
_ROOM = 64

# How many keys of each kind are remembered.
_REMEMBERED = 16


def key_size(etype: int) -> int:
    """The octets of a key; 0 where no type has the number."""
    return _key_size.size(etype)


def seed_size(etype: int) -> int:
    """The octets of a seed of `random_to_key`; 0 where no type has the number."""
    return _seed_size.size(etype)


def confounder_size(etype: int) -> int:
    """The octets of a confounder; 0 where no type has the number."""
    return _confounder_size.size(etype)


def encrypted_size(etype: int, payload_size: int) -> int:
    """The octets that `encrypt` makes of so many; 0 where no type has the number, or where they are 2**64 and more."""
    if payload_size < 0:
        raise ValueError("a negative size")
    return _encrypted_size.size(etype, payload_size) if payload_size < 2**64 else 0


def checksum_size(cksumtype: int) -> int:
    """The octets of a checksum; 0 where no type has the number."""
    return _checksum_size.size(cksumtype)


def checksum_key_size(cksumtype: int) -> int:
    """The octets of a checksum's key; 0 where no type has the number."""
    return _checksum_key_size.size(cksumtype)


@functools.lru_cache(maxsize=64)
def _sizes(etype: int) -> Tuple[int, int]:
    """The octets of a confounder, and the most that `encrypt` makes beside the payload: beside one octet, where a type fills the payload."""
    return confounder_size(etype), max(encrypted_size(etype, 1) - 1, 0)


def _derived(etype: int, key: bytes, usage: int) -> Key:
    """The keys that encrypt and decrypt for this key usage."""
    derived = Key()
    _keep_key.done(etype, key, usage, derived)
    return derived


def _derived_for_checksums(cksumtype: int, key: bytes, usage: int) -> ChecksumKey:
    """The key that makes checksums for this key usage."""
    derived = ChecksumKey()
    _keep_checksum_key.done(cksumtype, key, usage, derived)
    return derived


# (typed, so that a number of another type is refused whether a key is remembered or not)
_remembered = functools.lru_cache(maxsize=_REMEMBERED, typed=True)(_derived)
_remembered_for_checksums = functools.lru_cache(maxsize=_REMEMBERED, typed=True)(_derived_for_checksums)


def forget_keys() -> None:
    """Forgets the derived keys that `encrypt`, `decrypt`, `checksum` and `verify_checksum` remember, and the keys that they were derived from. Their octets are not
    wiped."""
    _remembered.cache_clear()
    _remembered_for_checksums.cache_clear()


def encrypt(etype: int, key: Octets, usage: int, payload: Octets, confounder: Optional[Octets] = None) -> bytes:
    """The payload, encrypted, with its checksum. Without a confounder one is drawn by os.urandom; give one for tests alone.

    Refused: NUMBER, CONFOUNDER_SIZE, KEY_SIZE, MEMORY."""
    size, beside = _sizes(etype)
    if confounder is None:
        confounder = os.urandom(size)
    elif size and len(plain(confounder)) != size:
        raise Refused(Status.CONFOUNDER_SIZE if -(2**31) <= usage < 2**31 else Status.NUMBER)
    derived = _remembered(etype, key if type(key) is bytes else plain(key), usage)
    return _encrypt_kept.octets(len(payload) + beside, derived, confounder, payload)


def decrypt(etype: int, key: Octets, usage: int, sealed: Octets) -> bytes:
    """The payload that was encrypted to these octets, under etype 16 with the zeros that filled it.

    Refused: NUMBER, KEY_SIZE, SEALED_SIZE, PADDING (etype 16), INTEGRITY, MEMORY."""
    return _opened(len(sealed), _remembered(etype, key if type(key) is bytes else plain(key), usage), sealed)


class KeptKey:
    """A key of an encryption type for one key usage, which is derived once and used often, in any number of threads.

    Refused, when it is made: NUMBER, KEY_SIZE."""

    def __init__(self, etype: int, key: Octets, usage: int) -> None:
        self._key = _derived(etype, plain(key), usage)
        self._sizes = _sizes(etype)
        self.etype = etype
        self.usage = usage

    def __repr__(self) -> str:
        return "KeptKey(etype=%d, usage=%d)" % (self.etype, self.usage)

    def encrypt(self, payload: Octets, confounder: Optional[Octets] = None) -> bytes:
        """What `encrypt` makes under this key and usage.

        Refused: CONFOUNDER_SIZE, MEMORY."""
        size, beside = self._sizes
        if confounder is None:
            confounder = os.urandom(size)
        return _encrypt_kept.octets(len(payload) + beside, self._key, confounder, payload)

    def decrypt(self, sealed: Octets) -> bytes:
        """What `decrypt` opens under this key and usage.

        Refused: SEALED_SIZE, PADDING (etype 16), INTEGRITY, MEMORY."""
        return _decrypt_kept.octets(len(sealed), self._key, sealed)


def string_to_key(etype: int, password: Octets, salt: Octets) -> bytes:
    """The key of a password and a salt, with the parameters that are the default of the type.

    Refused: NUMBER, KEY_SIZE (etype 16: neither has an octet), MEMORY."""
    return _string_to_key.octets(_ROOM, etype, password, salt)


def random_to_key(etype: int, seed: Octets) -> bytes:
    """The key of `seed_size` random octets.

    Refused: NUMBER, SEED_SIZE, MEMORY."""
    return _random_to_key.octets(_ROOM, etype, seed)


def checksum(cksumtype: int, key: Octets, usage: int, message: Octets) -> bytes:
    """The checksum of a message.

    Refused: NUMBER, KEY_SIZE, MEMORY."""
    derived = _remembered_for_checksums(cksumtype, key if type(key) is bytes else plain(key), usage)
    return _checksum_kept.octets(_ROOM, derived, message)


def verify_checksum(cksumtype: int, key: Octets, usage: int, message: Octets, checksum: Octets) -> None:
    """Returns where the octets are the checksum of the message, and only there.

    Refused: NUMBER, KEY_SIZE, INTEGRITY (they are not), MEMORY."""
    derived = _remembered_for_checksums(cksumtype, key if type(key) is bytes else plain(key), usage)
    _verify_checksum_kept.done(derived, message, checksum)


class KeptChecksumKey:
    """A key of a checksum type for one key usage, which is derived once and used often, in any number of threads.

    Refused, when it is made: NUMBER, KEY_SIZE, MEMORY (cksumtype 12)."""

    def __init__(self, cksumtype: int, key: Octets, usage: int) -> None:
        self._key = _derived_for_checksums(cksumtype, plain(key), usage)
        self.cksumtype = cksumtype
        self.usage = usage

    def __repr__(self) -> str:
        return "KeptChecksumKey(cksumtype=%d, usage=%d)" % (self.cksumtype, self.usage)

    def checksum(self, message: Octets) -> bytes:
        """What `checksum` makes under this key and usage. It is never refused."""
        return _checksum_kept.octets(_ROOM, self._key, message)

    def verify(self, message: Octets, checksum: Octets) -> None:
        """Returns where the octets are the checksum of the message under this key and usage, and only there.

        Refused: INTEGRITY (they are not)."""
        _verify_checksum_kept.done(self._key, message, checksum)


def n_fold(octets: Octets, size: int) -> bytes:
    """The octets folded to `size` octets (RFC 3961, 5.1, where n is 8 times as many).

    Refused: EMPTY (no octets, or to none)."""
    if size < 0:
        raise ValueError("a negative size")
    given = plain(octets)
    out = ctypes.create_string_buffer(max(size, 1))
    status = fold(given, len(given), out, size)
    if status != Status.DONE:
        raise Refused(status)
    return out.raw[:size]
