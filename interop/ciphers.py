"""Encryption and checksums under types 16 to 20 (RFC 3961, RFC 3962, RFC 8009), by Python's hmac and hashlib and OpenSSL's ciphers:
nothing of this repository's library. Of keys of triple DES none is mended that is weak. What encrypts needs Debian's package
python3-cryptography."""

import functools
import hashlib
import hmac
import math
import os

KEY_SIZES, MAC_SIZES = {16: 24, 17: 16, 18: 32, 19: 16, 20: 32}, {16: 20, 17: 12, 18: 12, 19: 16, 20: 24}
BLOCKS = {16: 8, 17: 16, 18: 16, 19: 16, 20: 16}  # octets of a block, and of a confounder
HASHES = {16: "sha1", 17: "sha1", 18: "sha1", 19: "sha256", 20: "sha384"}
CHECKSUMS = {12: 16, 15: 17, 16: 18, 19: 19, 20: 20}  # the encryption types of checksum types
SUITES_OF_PASSWORDS = {19: (b"aes128-cts-hmac-sha256-128", "sha256"), 20: (b"aes256-cts-hmac-sha384-192", "sha384")}
ENCRYPTS, VERIFIES, AUTHENTICATES = 0xAA, 0x99, 0x55


def n_fold(octets, size):
    """RFC 3961, 5.1."""
    width, number, text = 8 * len(octets), int.from_bytes(octets, "big"), b""
    for copy in range(math.lcm(len(octets), size) // len(octets)):
        turn = 13 * copy % width
        text += ((number >> turn | number << (width - turn)) & ((1 << width) - 1)).to_bytes(len(octets), "big")
    total = sum(int.from_bytes(text[place : place + size], "big") for place in range(0, len(text), size))
    while total >> 8 * size:
        total = (total & ((1 << 8 * size) - 1)) + (total >> 8 * size)
    return total.to_bytes(size, "big")


def _cbc(etype, key, octets, opens=False):
    from cryptography.hazmat.primitives.ciphers import Cipher, algorithms, modes

    cipher = Cipher((algorithms.TripleDES if etype == 16 else algorithms.AES)(key), modes.CBC(bytes(BLOCKS[etype])))
    work = cipher.decryptor() if opens else cipher.encryptor()
    return work.update(octets) + work.finalize()


def _des3_key(octets):
    """RFC 3961, 6.3.1."""
    found = []
    for place in range(0, 21, 7):
        seven = octets[place : place + 7]
        found += [*seven, sum((octet & 1) << (n + 1) for n, octet in enumerate(seven))]
    return bytes((octet & 0xFE) | (bin(octet & 0xFE).count("1") + 1) % 2 for octet in found)


def kdf(etype, key, label, size):
    """RFC 8009, 3."""
    return hmac.digest(key, b"\0\0\0\1" + label + b"\0" + (8 * size).to_bytes(4, "big"), HASHES[etype])[:size]


@functools.lru_cache(maxsize=4096)
def derived(etype, key, usage, tail):
    """The key for a usage (RFC 3961, 5.1; RFC 8009, 5)."""
    label, found = usage.to_bytes(4, "big") + bytes([tail]), b""
    if etype in (19, 20):
        return kdf(etype, key, label, KEY_SIZES[etype] if tail == ENCRYPTS else MAC_SIZES[etype])
    block = n_fold(label, BLOCKS[etype])
    while len(found) < len(key):
        block = _cbc(etype, key, block)
        found += block
    return _des3_key(found[:21]) if etype == 16 else found[: len(key)]


def key_of_password(etype, password, salt, count=32768):
    """The key of a password under type 19 or 20 (RFC 8009, 4)."""
    suite, hashed = SUITES_OF_PASSWORDS[etype]
    return kdf(etype, hashlib.pbkdf2_hmac(hashed, password, suite + b"\0" + salt, count, KEY_SIZES[etype]), b"kerberos", KEY_SIZES[etype])


def checksum(etype, key, usage, octets):
    return hmac.digest(derived(etype, key, usage, VERIFIES), octets, HASHES[etype])[: MAC_SIZES[etype]]


def _ciphered(etype, key, octets, opens):
    """CBC, whose last two blocks AES changes round (RFC 3962, 5)."""
    if etype == 16 or len(octets) <= 16:
        return _cbc(etype, key, octets, opens)
    tail = len(octets) % 16 or 16
    if opens:
        body, block, last = octets[: -tail - 16], octets[-tail - 16 : -tail], octets[-tail:]
        return _cbc(etype, key, body + last + _cbc(etype, key, block, True)[tail:] + block, True)[: len(octets)]
    found = _cbc(etype, key, octets + bytes(16 - tail))
    return found[:-32] + found[-16:] + found[-32:-16][:tail]


def _mac(etype, key, usage, plain, sealed):
    """What stands behind the sealed octets: over the plain ones, or over these (RFC 8009, 5)."""
    octets = bytes(16) + sealed if etype in (19, 20) else plain
    return hmac.digest(derived(etype, key, usage, AUTHENTICATES), octets, HASHES[etype])[: MAC_SIZES[etype]]


def opened(etype, key, usage, octets):
    """The confounder and what is behind it."""
    sealed, mac = octets[: -MAC_SIZES[etype]], octets[-MAC_SIZES[etype] :]
    plain = _ciphered(etype, derived(etype, key, usage, ENCRYPTS), sealed, True)
    if not hmac.compare_digest(mac, _mac(etype, key, usage, plain, sealed)):
        raise ValueError("a wrong checksum")
    return plain


def sealed(etype, key, usage, plain):
    """A confounder and what is behind it, encrypted."""
    plain += bytes(-len(plain) % 8 if etype == 16 else 0)
    found = _ciphered(etype, derived(etype, key, usage, ENCRYPTS), plain, False)
    return found + _mac(etype, key, usage, plain, found)


def encrypt(etype, key, usage, octets):
    return sealed(etype, key, usage, os.urandom(BLOCKS[etype]) + octets)


def decrypt(etype, key, usage, octets):
    return opened(etype, key, usage, octets)[BLOCKS[etype] :]
