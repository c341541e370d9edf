"""Which keys the program jolmurig takes of texts and keytabs, and pages with keys hidden."""

import tempfile
from pathlib import Path

from library import Fault
from rows import octets
from shown import asked, lines_of, run

# The EncTicketPart without an option of the table `pages`, under key usage 2.
PART = bytes.fromhex(
    "6370306ea00703050430f9a300a111300fa00702051f63b564dfa1040402c3e5a20a1b08302f5961422e622ea30f30"
    "0da004020200dda10530031b0178a40d300ba00402020101a10304015aa511180f3139303031313239303030353434"
    "5aa711180f38333934303633303039353930305a"
)
# Of a ticket without a part (RFC 4120, 5.3): tkt-vno, realm and sname.
FRONT = bytes.fromhex("a003020105a1031b0152a20e300ca003020101a10530031b0178")
ETYPES, FRESH, OTHER = (16, 17, 18, 19, 20), bytes(16), b"\x5a" * 32
KEY = b"\xa5" * 16
OF_TYPE, OF_OTHERS = '"no key of this encryption type opens it"', '"no key of this encryption type"'


def keys(library, columns):
    """A row of `keys`: `key` or `keytab`, a text or a keytab, and keys ETYPE:HEX with `|` between;
    or `password`, a text, what stands in a ticket before its part, and keys; or `salts`, a text, a
    message with a ticket, and salts; or `found` and how many keys are found; or `hidden` or
    `message` and octets that are shown with keys hidden."""
    how, given, *more = columns
    return ASKED[how](library, given, *more)


def key(library, text, wanted=""):
    """What opens a ticket under a key, where it is named by this text on the command line and in a
    file; or that the text is none on the command line (that of a file may have blanks)."""
    if not wanted:
        return ["no key" if is_refused(library, ["show", "--key", text], 2) else "taken"]
    ticket = ticket_of(library, *key_of(wanted))
    with tempfile.TemporaryDirectory(prefix="tests-") as folder:
        Path(folder, "a name").write_text(f"{text}\n", encoding="utf-8")
        words = ["show", "--key", text], ["show", "--key-file", "a name"]
        return [opener_in(asked(library, it, ticket, folder)) for it in words]


def is_refused(library, words, refusal):
    """Whether the program ends with this status, and names the option on standard error."""
    status, output, errors = run(library, words, b"")
    line = errors.decode("utf-8", "backslashreplace")
    return (status, output) == (refusal, b"") and line.startswith(f"jolmurig: {words[1]}: ")


def keytab(library, given, wanted=""):
    """What opens tickets under these keys, each in turn; and of which encryption types there are
    keys, which another ticket tells; or that the octets are no keytab."""
    with tempfile.TemporaryDirectory(prefix="tests-") as folder:
        file = Path(folder, "keytab")
        file.write_bytes(octets(given))
        words, told, types = ["show", "--keytab", str(file)], [], []
        if is_refused(library, words, 1):
            page = library.show_page(b"Ticket", FRONT, octets(given), False, True)
            return ["no keytab" if page.refused() == "KEYTAB" else page.name]
        for it in wanted.split("|") if wanted else []:
            told.append(opener_in(asked(library, words, ticket_of(library, *key_of(it)))))
        for etype in ETYPES:
            other = ticket_of(library, etype, OTHER[: library.key_size(etype)])
            why = value_in(asked(library, words, other), "not-opened")
            if why not in (None, OF_TYPE, OF_OTHERS):
                raise Fault(f"a ticket under another key is not opened, since {why}")
            types += {None: ["no keys"], OF_TYPE: [str(etype)], OF_OTHERS: []}[why]
    return [*told, f"encryption types: {' '.join(types)}"]


def password(library, text, front, wanted):
    """What opens tickets of a realm and a name under these keys, each in turn, where the first line
    of a file is this password."""
    with tempfile.TemporaryDirectory(prefix="tests-") as folder:
        file = Path(folder, "password")
        file.write_text(f"{text}\n", encoding="utf-8")
        words, told = ["show", "--password-file", str(file)], []
        for it in wanted.split("|"):
            ticket = ticket_of(library, *key_of(it), front=octets(front))
            told.append(opener_in(asked(library, words, ticket)))
    return told


def salts(library, text, given, wanted):
    """What opens the ticket's part in a message under the key of this password and each salt, in
    turn; in the message forty octets 01 stand for what is sealed."""
    with tempfile.TemporaryDirectory(prefix="tests-") as folder:
        file = Path(folder, "password")
        file.write_text(f"{text}\n", encoding="utf-8")
        words, told = ["show", "--password-file", str(file)], []
        for salt in wanted.split("|"):
            made = library.string_to_key(18, text.encode(), salt.encode()).demand().out
            confounder = FRESH[: library.confounder_size(18)]
            sealed = library.seal_ticket_part(18, made, 2, confounder, PART).demand().out
            message, count = exchanged(octets(given), bytes([1]) * 40, sealed)
            if count != 1:
                raise Fault(f"{count} tickets stand for what is sealed")
            told.append(opener_in(asked(library, words, message)))
    return told


def exchanged(elements, old, new):
    """Elements with this content in place of the other, wherever it stands; and how often it does."""
    made, count = b"", 0
    while elements:
        tag, size, start = elements[0], elements[1], 2
        if size >= 128:
            start += size - 128
            size = int.from_bytes(elements[2:start], "big")
        content, elements = elements[start : start + size], elements[start + size :]
        if tag & 0x20:
            content, within = exchanged(content, old, new)
            count += within
        elif content == old:
            content, count = new, count + 1
        made += element(tag, content)
    return made, count


def found(library, count):
    """How many keys are not tried of those that are found in the part of a KRB-CRED (RFC 4120,
    5.8.1), by default and with --all-found-keys."""
    number, words = element(0xA0, element(2, b"\x11")), ["show", "--key", f"17:{KEY.hex()}"]
    info = element(0xA0, element(0x30, number + element(0xA1, element(4, bytes(16)))))
    infos = element(0xA0, element(0x30, element(0x30, info) * int(count)))
    part = element(0x7D, element(0x30, infos))
    sealed = library.encrypt(17, KEY, 14, FRESH, part).demand().out
    encrypted = element(0xA3, element(0x30, number + element(0xA2, element(4, sealed))))
    front = bytes.fromhex("a003020105a103020116a2023000")
    message, told = element(0x76, element(0x30, front + encrypted)), []
    for more in ([], ["--all-found-keys"]):
        page = asked(library, words + more, message)
        if value_in(page, f"ticket-info[{count}]") is None:
            raise Fault(f"the page has not the {count} keys")
        told.append(value_in(page, "keys-not-tried") or "each is tried")
    return told


def key_of(text):
    """The encryption type and the octets of ETYPE:HEX."""
    etype, digits = text.split(":")
    return int(etype), octets(digits)


def ticket_of(library, etype, key_octets, front=FRONT):
    """A ticket whose part, behind `front`, is sealed under a key."""
    confounder = FRESH[: library.confounder_size(etype)]
    sealed = library.seal_ticket_part(etype, key_octets, 2, confounder, PART).demand().out
    number = element(0xA0, element(2, bytes([etype])))
    part = element(0xA3, element(0x30, number + element(0xA2, element(4, sealed))))
    return element(0x61, element(0x30, front + part))


def element(tag, content):
    """An element of DER (X.690, 8.1.3) of less than 64 KiB."""
    size = len(content)
    length = bytes([size]) if size < 128 else bytes([0x82]) + size.to_bytes(2, "big")
    length = bytes([0x81, size]) if 128 <= size < 256 else length
    return bytes([tag]) + length + content


def opener_in(page):
    """What a page says of the key that opens its part, for the key usage of a ticket."""
    if value_in(page, "key-usage") != "2" or value_in(page, "EncTicketPart") is None:
        return f"not opened: {value_in(page, 'not-opened')}"
    return value_in(page, "opened-by")


def value_in(page, name):
    """What stands behind a name in a page; nothing where the name does not."""
    for line in lines_of(page):
        if line.lstrip(" ").startswith(f"{name}:"):
            return line.partition(":")[2].removeprefix(" ")
    return None


def hidden(library, given):
    """The page of a keytab and its JSON, with keys hidden."""
    told = [library.show_page(b"keytab", octets(given), b"", it, False) for it in (False, True)]
    return [line for it in told for line in lines_of(it.demand().out)]


def message(library, given):
    """The page of a message, with keys hidden."""
    return lines_of(library.show_page(b"", octets(given), b"", False, False).demand().out)


ASKED = {"key": key, "keytab": keytab, "password": password, "salts": salts}
ASKED.update({"found": found, "hidden": hidden, "message": message})
