"""Octets: of files, with a bit another, and behind their length."""


def octets_in(path):
    with open(path, "rb") as file:
        return file.read()


def flipped(octets, place, bit=0):
    return octets[:place] + bytes([octets[place] ^ 1 << bit]) + octets[place + 1 :]


def framed(message):
    """A message behind its length in four octets, as over TCP (RFC 4120, 7.2.2) and in a kerb-message (MS-KKDCP, 2.2.2)."""
    return len(message).to_bytes(4, "big") + message
