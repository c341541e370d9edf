"""What krb_accept answers to a token."""

import calendar
import time

from library import is_told
from rows import flipped, octets

# Settings of a row, and the options of the call that they are (krb.h).
BARE_REQUEST, OTHER_CHECKSUM, FLIPPED, WITHOUT_KEYS = 1, 2, 4, 8
PAC_IGNORED, TRIPLE_DES, ANONYMOUS, WITH_DATA = 16, 32, 64, 128
OPTIONS = {
    BARE_REQUEST: "BARE_REQUEST",
    OTHER_CHECKSUM: "OTHER_CHECKSUM",
    PAC_IGNORED: "PAC_IGNORED",
    TRIPLE_DES: "TRIPLE_DES",
    ANONYMOUS: "ANONYMOUS",
}
# Octets that are random enough for a test: of a confounder, and behind the first 16 of a subkey.
RANDOM = bytes(range(48))
# The type of an address of IPv4 (RFC 4120, 7.5.3).
ADDRESS_TYPE = 2
# Key usages (RFC 4120, 7.5.1).
OF_TICKET, OF_AUTHENTICATOR = 2, 11


def accepted(library, columns):
    """A row of `accepted`: a name, a keytab, the service's time, the hash of its channel bindings,
    settings, a token; then, where they are there, the server and the client's realm, or several of
    them with `|` between, and words of `asked`."""
    name, keytab, clock, bindings, settings, token, *more = columns
    servers, realms, words = (more + ["", "", ""])[:3]
    settings, keytab, bindings = int(settings), octets(keytab), octets(bindings)
    options = sum(library.numbers["KRB_ACCEPT_" + it] for n, it in OPTIONS.items() if settings & n)
    options += library.numbers["KRB_ACCEPT_WHOLE_EVER"]
    options += library.numbers["KRB_ACCEPT_BOUND"] if bindings else 0
    options, since, address = asked(library, options, words)
    terms = library.struct("acceptor", int(clock), since, 300, options, ADDRESS_TYPE, 1)
    names = (it.replace("|", "\0").encode() for it in (servers, realms))
    before, token = (terms, keytab, b"", *names, bindings, address, RANDOM), octets(token)
    told = library.accept(*before, token)
    if told.is_given:
        lines = [f"{name}: {let_in(library, settings, before, token, told)}"]
    else:
        lines = [f"{name}: {refused(library, told)}"]
    if settings & FLIPPED:
        count = sum(library.once("accept", *before, it).is_given for it in flipped(token))
        lines.append(f"{name}: with a bit flipped {count}")
    return lines


def asked(library, options, words):
    """The options, since when the replay cache is whole, and the client's address, by words:
    `+NAME` adds an option, or a number, `-NAME` takes one away; `since SECONDS`; `address OCTETS`."""
    since, address, words = 0, b"", words.split(" ") if words else []
    while words:
        word = words.pop(0)
        if word == "since":
            since = int(words.pop(0))
        elif word == "address":
            address = octets(words.pop(0))
        else:
            name = word[1:]
            number = int(name) if name.isdigit() else library.numbers["KRB_ACCEPT_" + name]
            options += number if word[0] == "+" else -number
    return options, since, address


def refused(library, told):
    """The rule that refuses a token; or why nothing was decided."""
    if told.status != library.numbers["KRB_NOT_ACCEPTED"]:
        is_silent = not any(map(is_told, told.told.values()))
        return f"not decided, {told.name}, {'nothing' if is_silent else 'something'} is told"
    it = told.accepted
    rule = library.rules("KRB_RULE_")[it.rule]
    by_c = f"C {told.status}, rule {it.rule}, code {it.code}, {told.size} octets"
    return f"refused, {rule} {it.code}; entries 0; {by_c}"


def let_in(library, settings, before, token, told):
    """Who is let in, and what is told of the context."""
    it, (client, server) = told.accepted, names_of(told.at(told.accepted.entry))
    line = f"{client} for {server}, flags {it.flags}, until {it.end_time}"
    if not settings & WITHOUT_KEYS:
        line += f", key {key_text(it.session_etype, told.at(it.session_key))}"
        line += f", subkey {key_text(it.subkey_etype, told.at(it.subkey))}"
    if settings & WITH_DATA:
        of_ticket, of_authenticator = map(told.at, (it.authorization_data, it.restrictions))
        line += f", PAC {digits(told.at(it.pac))}"
        line += f", data {digits(of_ticket)} and {digits(of_authenticator)}"
    again = library.accept(*before, token)
    is_repeated = again.is_given and again.at(again.accepted.entry) == told.at(it.entry)
    line += "; again Repeat 34; entries 1" if is_repeated else "; again another entry"
    is_alike = is_of_token(library, before[1], token, told)
    is_alike = is_alike and has_own_subkey(library, before, token, told)
    is_alike = is_alike and is_in_its_frame(token, told)
    alike = "alike" if is_alike else "differs"
    reply = "a reply" if it.reply.size else "no reply"
    without = library.accept(*before, token, room=0)
    is_counted = without.size == told.size and not any(bytes(without.accepted))
    counted = str(is_counted).lower()
    return f"{line}; C {told.status}, {alike}, {reply}, without room {without.status} {counted}"


def is_in_its_frame(token, told):
    """Whether an AP-REP is in a frame (RFC 4121, 4.1) where the token was, but not in DCE style
    (MS-KILE, 3.4.5.1)."""
    wanted = 0x60 if token[0] == 0x60 and not told.accepted.flags & 0x1000 else 0x6F
    return told.at(told.accepted.reply)[:1] in (b"", bytes([wanted]))


def digits(text):
    return text.hex() or "none"


def key_text(etype, key):
    return f"{etype}:{key.hex()}" if etype else "none"


def names_of(entry):
    """The client and the server of an entry of a replay cache (krb.h), as text."""
    names, entry = [], entry[12:]
    for _ in range(2):
        realm, _, entry = entry.partition(b"\xff")
        components, _, entry = entry.partition(b"\xfe")
        names.append("/".join(map(quoted, components.split(b"\xff")[:-1])) + "@" + quoted(realm))
    return names[1], names[0]


def quoted(octets_of_text):
    """A component or a realm (RFC 1964, 2.1.1)."""
    text = octets_of_text.decode("ascii")
    for it, written in (("\\", "\\\\"), ("/", "\\/"), ("@", "\\@"), ("\n", "\\n"), ("\t", "\\t")):
        text = text.replace(it, written)
    return text.replace("\b", "\\b").replace("\0", "\\0")


def has_own_subkey(library, before, token, told):
    """Whether the service's subkey is made of the random octets (krb.h), where one is asked for and
    the client waits for an answer; and all else is told as without."""
    terms = type(before[0]).from_buffer_copy(before[0])
    terms.options |= library.numbers["KRB_ACCEPT_SUBKEY"]
    it = library.accept(terms, *before[1:], token)
    etype = told.accepted.session_etype
    seed = RANDOM[16 : 16 + library.seed_size(etype)]
    key = library.once("random_to_key", etype, seed).out if told.accepted.reply.size else b""
    is_same = it.at(it.accepted.entry) == told.at(told.accepted.entry)
    return is_same and it.at(it.accepted.own_subkey) == key


def is_of_token(library, keytab, token, told):
    """Whether what the row does not have is that of the token: when the client was authenticated
    (RFC 4120, 5.3), and the credentials that it delegates (RFC 4121, 4.1.1)."""
    it, request = told.accepted, request_of(library, token)
    sealed = found(library, b"AP-REQ", b"ticket.enc-part.cipher", request)
    auth_time = found(
        library, b"EncTicketPart", b"authtime", opened_by_keytab(library, keytab, sealed)
    )
    session = it.session_etype, told.at(it.session_key), OF_AUTHENTICATOR
    sealed = found(library, b"AP-REQ", b"authenticator.cipher", request)
    authenticator = library.once("open_authenticator", *session, sealed).out
    checksum = found(library, b"Authenticator", b"cksum.checksum", authenticator)
    size = int.from_bytes(checksum[26:28], "little") if it.flags & 1 else 0
    is_delegated = told.at(it.delegated) == checksum[28 : 28 + size]
    return is_delegated and it.auth_time == seconds_of(auth_time)


def request_of(library, token):
    """The AP-REQ of a token, which has a frame or none."""
    if token[:1] == b"\x6e":
        return token
    frame = library.once("gss_token", token)
    return token[frame.inner_offset + 2 :][: frame.inner_size - 2]


def found(library, kind, path, given):
    """The content of a field; no octets where it is absent."""
    it = library.once("find", kind, path, given).item
    return given[it.offset : it.offset + it.size]


def seconds_of(text):
    return calendar.timegm(time.strptime(text.decode("ascii"), "%Y%m%d%H%M%SZ"))


def opened_by_keytab(library, keytab, sealed):
    """The part of a ticket, opened by the first key of a keytab that does."""
    for etype, key in keys_of(keytab):
        opened = library.once("open_ticket_part", etype, key, OF_TICKET, sealed)
        if opened.is_given:
            return opened.out
    return b""


def keys_of(keytab):
    """The types and octets of a keytab's keys (MIT Kerberos, "Keytab file format")."""
    at = 2
    while at < len(keytab):
        size = int.from_bytes(keytab[at : at + 4], "big", signed=True)
        entry, at = keytab[at + 4 : at + 4 + max(size, 0)], at + 4 + abs(size)
        behind = 2
        for _ in range(int.from_bytes(entry[:2], "big") + 1 if entry else 0):
            behind += 2 + int.from_bytes(entry[behind : behind + 2], "big")
        if entry:
            # (behind the names their type, a time and a version)
            behind += 9
            count = int.from_bytes(entry[behind + 2 : behind + 4], "big")
            etype = int.from_bytes(entry[behind : behind + 2], "big")
            yield etype, entry[behind + 4 : behind + 4 + count]
