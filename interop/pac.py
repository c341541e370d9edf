"""PACs (MS-PAC), read and made without the library, and tickets in which they stand (RFC 4120, 5.3)."""

import struct

from ciphers import BLOCKS, CHECKSUMS, KEY_SIZES, MAC_SIZES, checksum, opened
from der import element, elements, read

SERVER, KDC, TICKET, FULL = 6, 7, 16, 19  # the types of the server's signature, the KDC's, the ticket's and the full one (2.4)
PAC_USAGE, TICKET_USAGE = 17, 2


def changed_at(octets, path, change):
    """The same with what is in the first element at each step of a path of tags changed."""
    if not path:
        return change(octets)
    at, start, end = next((at, start, end) for at, tag, start, end in elements(octets) if tag == path[0])
    return octets[:at] + element(path[0], changed_at(octets[start:end], path[1:], change)) + octets[end:]


# A Ticket's cipher (RFC 4120, 5.3), and in an EncTicketPart the first AD-IF-RELEVANT's first PAC, in the octets of the two ad-data.
CIPHER_PATH = [0x61, 0x30, 0xA3, 0x30, 0xA2, 0x04]
PAC_PATH = [0x63, 0x30, 0xAA, 0x30, 0x30, 0xA1, 0x04, 0x30, 0x30, 0xA1, 0x04]


def ticket_parts(etype, key, octets):
    """The confounder, and the EncTicketPart behind it without the zeros that DES adds."""
    plain = opened(etype, key, TICKET_USAGE, octets)
    size = BLOCKS[etype]
    return plain[:size], plain[size : read(plain, size)[2]]


def pac_in(part):
    found = []
    changed_at(part, PAC_PATH, lambda octets: found.append(octets) or octets)
    return found[0]


def pac_of(buffers):
    """The PAC of buffers, a type and octets each (2.3)."""
    start, heads, body = 8 + 16 * len(buffers), struct.pack("<II", len(buffers), 0), b""
    for kind, content in buffers:
        heads += struct.pack("<IIQ", kind, len(content), start + len(body))
        body += content + bytes(-len(content) % 8)
    return heads + body


def pac_entries(pac):
    """Types, with places and sizes (2.3)."""
    count, _ = struct.unpack_from("<II", pac)
    entries = [struct.unpack_from("<IIQ", pac, 8 + 16 * n) for n in range(count)]
    return {kind: (place, size) for kind, size, place in entries}


def signature_place(pac, kind):
    """Where a signature's octets are, behind the number of its type (2.8); and that number."""
    place, size = pac_entries(pac)[kind]
    (number,) = struct.unpack_from("<i", pac, place)
    return place + 4, min(place + 4 + MAC_SIZES.get(CHECKSUMS.get(number), size), place + size), number


def without_signatures(pac, *kinds):
    octets = bytearray(pac)
    for kind in set(kinds) & set(pac_entries(pac)):
        start, end, _ = signature_place(pac, kind)
        octets[start:end] = bytes(end - start)
    return bytes(octets)


def signed_octets(pac, part):
    """What each signature is over (2.8.1 to 2.8.4)."""
    server = signature_place(pac, SERVER)
    return {
        SERVER: without_signatures(pac, SERVER, KDC),
        KDC: pac[server[0] : server[1]],
        TICKET: changed_at(part, PAC_PATH, lambda _: b"\0"),
        FULL: without_signatures(pac, SERVER, KDC, FULL),
    }


def fits(pac, kind, key):
    """Whether a key has the length of the keys of a signature's type."""
    return len(key) == KEY_SIZES[CHECKSUMS[signature_place(pac, kind)[2]]]


def holds(pac, kind, key, message):
    start, end, number = signature_place(pac, kind)
    return fits(pac, kind, key) and checksum(CHECKSUMS[number], key, PAC_USAGE, message) == pac[start:end]


def pac_made(pac, part, opener, kdc):
    """A PAC of the buffers of another one for a ticket, each signature of it made by these types and keys of the server and the KDC (2.3, 2.8)."""
    by_server, buffers = {SERVER: opener}, []
    for kind, (place, size) in pac_entries(pac).items():
        number = by_server.get(kind, kdc)[0]
        is_signature = kind in (SERVER, KDC, TICKET, FULL)
        buffers.append((kind, struct.pack("<i", number) + bytes(MAC_SIZES[CHECKSUMS[number]]) if is_signature else pac[place : place + size]))
    octets = pac_of(buffers)
    for kind in (TICKET, FULL, SERVER, KDC):  # Each is over those before it.
        if kind in pac_entries(octets):
            number, key = by_server.get(kind, kdc)
            place, end, _ = signature_place(octets, kind)
            octets = octets[:place] + checksum(CHECKSUMS[number], key, PAC_USAGE, signed_octets(octets, part)[kind]) + octets[end:]
    return octets
