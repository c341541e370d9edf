"""Elements of DER (X.690, 8.1, 10.1), and messages and parts of RFC 4120 that are made of them, as large as they are wanted."""


def element(tag, content):
    count = len(content)
    if count < 128:
        return bytes([tag, count]) + content
    digits = count.to_bytes((count.bit_length() + 7) // 8, "big")
    return bytes([tag, 128 + len(digits)]) + digits + content


def sequence(*fields):
    return element(0x30, b"".join(fields))


def field(number, content):
    return element(0xA0 + number, content)


def integer(number):
    return element(2, number.to_bytes(number.bit_length() // 8 + 1, "big"))


def octets(content):
    return element(4, content)


def text(content):
    return element(27, content)


def time():
    return element(24, b"20301231000000Z")


def flags():
    return element(3, bytes(5))


REALM = text(b"EXAMPLE.COM")


def name(*components):
    return sequence(field(0, integer(2)), field(1, sequence(*map(text, components))))


SERVER = name(b"krbtgt", b"EXAMPLE.COM")


def encrypted(etype, cipher):
    return sequence(field(0, integer(etype)), field(2, octets(cipher)))


def ticket(cipher):
    """A Ticket (5.3)."""
    return element(0x61, sequence(field(0, integer(5)), field(1, REALM), field(2, SERVER), field(3, encrypted(18, cipher))))


def credential(tickets):
    """A KRB-CRED (5.8.1)."""
    fields = field(0, integer(5)), field(1, integer(22)), field(2, sequence(*tickets)), field(3, encrypted(0, b""))
    return element(0x76, sequence(*fields))


def one_cipher(size):
    """A KRB-CRED of one ticket, whose cipher is all of it."""
    return credential([ticket(b"\x5a" * size)])


def many_tickets(size):
    """A KRB-CRED of small tickets."""
    small = ticket(b"abc")
    return credential([small] * (size // len(small)))


def part(client, *behind):
    """An EncTicketPart (5.3)."""
    key = sequence(field(0, integer(18)), field(1, octets(bytes(32))))
    transited = sequence(field(0, integer(1)), field(1, octets(b"")))
    times = field(5, time()), field(7, time())
    return element(0x63, sequence(field(0, flags()), field(1, key), field(2, REALM), field(3, client), field(4, transited), *times, *behind))


def one_entry(size):
    """An EncTicketPart with an entry of authorization data that is nearly all of it."""
    return part(name(b"ann"), field(10, sequence(sequence(field(0, integer(1)), field(1, octets(b"\x5a" * size))))))


def empty_names(size):
    """An EncTicketPart whose client has names of no octet."""
    return part(name(*[b""] * (size // 2)))


def as_req(size):
    """An AS-REQ (5.4.1) with an entry of padata that is nearly all of it."""
    asked = field(0, flags()), field(2, REALM), field(3, SERVER), field(5, time()), field(7, integer(1)), field(8, sequence(integer(18)))
    padata = sequence(sequence(field(1, integer(128)), field(2, octets(b"\x5a" * size))))
    return element(0x6A, sequence(field(1, integer(5)), field(2, integer(10)), field(3, padata), field(4, sequence(*asked))))


def as_rep(size):
    """An AS-REP (5.4.2) whose cipher is nearly all of it."""
    names = field(3, REALM), field(4, name(b"ann"))
    fields = field(0, integer(5)), field(1, integer(11)), *names, field(5, ticket(b"abc")), field(6, encrypted(18, b"\x5a" * size))
    return element(0x6B, sequence(*fields))


def fitted(make, size):
    """What is made with as many octets as these, or a few less."""
    return make(size - (len(make(size)) - size))
