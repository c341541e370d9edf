"""What calls of frames, messages, items and pages answer, by what the header declares of each."""

import re

from library import is_told
from rows import octets

# Calls whose octets are text: lines, or a name.
PAGES, NAMES = ("show",), ("item_name", "number_name")
# A key of any size, and random octets, for what is encrypted here.
KEY, CONFOUNDER, MANY = bytes([9]) * 32, bytes([5]) * 16, b"\x5a" * 70001
# The field s-address of an EncKrbPrivPart (RFC 4120, 5.7.1).
S_ADDRESS = bytes.fromhex("a40f300da003020102a10604047f000001")


def told(library, columns):
    """A row: a call of krb.h, and what it is given: numbers, octets, and texts in quotes; or one of
    `OTHERS`."""
    call, *given = columns
    if call in OTHERS:
        return [OTHERS[call](library, *given)]
    values = []
    for parameter in library.calls[call][1]:
        if parameter.what in ("number", "given array"):
            values.append(value_of(parameter, given.pop(0)))
    if given:
        raise ValueError(f"{call} is given too much")
    return lines_of(call, getattr(library, call)(*values))


def value_of(parameter, text):
    if parameter.what == "number":
        return text == "true" if text in ("true", "false") else int(text)
    return text[1:-1].encode() if text[:1] == '"' else octets(text)


def lines_of(call, answer):
    """An answer: its status, and what is told, octets in digits and numbers by their names."""
    if not answer.is_given:
        is_silent = not any(map(is_told, answer.told.values()))
        return [answer.name if is_silent else f"{answer.name}, and tells something"]
    out = answer.told.get("out", b"")
    if call in PAGES:
        *lines, behind = out.decode("ascii").split("\n")
        return [answer.name, *lines, *([f"{behind}, and no line feed"] if behind else [])]
    if call in NAMES:
        return [f'{answer.name} "{out.decode("ascii")}"']
    words = [answer.name, *([digits_of(out)] if out else [])]
    for name, it in answer.told.items():
        if name == "item":
            words.append(f"offset {it.offset} size {it.size}")
        elif name == "places":
            words += [f"type {each.ul_type} offset {each.offset} size {each.size}" for each in it]
        elif isinstance(it, int) and name != "size" or name == "size" and not out:
            words.append(f"{name} {it}")
    return [" ".join(words)]


def digits_of(out):
    """The digits of octets; where one stands a thousand times and more, as rows have it."""
    parts = []
    for it in re.finditer(rb"(?s)(.)\1{999,}|.(?:(?!(.)\2{999}).)*", out):
        many = it[1] is not None
        parts.append(f"{it[1].hex()}*{len(it[0])}" if many else it[0].hex())
    return " ".join(parts)


def page_begins(library, kind, given):
    """How a large page begins and ends, with memory to spare."""
    answer = library.once("show", kind[1:-1].encode(), octets(given), False, False)
    return f"{answer.name} {answer.out[:44]} .. {answer.out[-1:]}"


def role(library, kind, path, given):
    """What programs do with what a path leads to (krb.h)."""
    it = library.find(kind[1:-1].encode(), path[1:-1].encode(), octets(given)).item
    return f"role {it.role} reserved {it.reserved}"


def item(library, number, kind, given):
    """The name of an item, by its place among all."""
    it = library.items(kind[1:-1].encode(), octets(given)).items[int(number)]
    return lines_of("item_name", library.item_name(it.name))[0]


def many_octets(library, etype):
    """Whether many octets are encrypted and decrypted to themselves, also under a kept key."""
    etype = int(etype)
    key, confounder = KEY[: library.key_size(etype)], CONFOUNDER[: library.confounder_size(etype)]
    kept = library.keep_key(etype, key, 5).kept
    made = library.encrypt(etype, key, 5, confounder, MANY)
    opened = library.decrypt(etype, key, 5, made.out)
    is_right = len(made.out) == library.encrypted_size(etype, len(MANY))
    is_right = is_right and library.encrypt_kept(kept, confounder, MANY).out == made.out
    is_right = is_right and library.decrypt_kept(kept, made.out).out == opened.out
    # (triple DES fills them with zeros to whole blocks)
    return "the same" if is_right and opened.out.rstrip(b"\0") == MANY else "others"


def wide(tag, content):
    """An element of DER (X.690, 8.1.3) of 64 KiB and more."""
    return bytes([tag, 0x83]) + len(content).to_bytes(3, "big") + content


def many_in_a_part(library, etype):
    """Whether an EncKrbPrivPart (RFC 4120, 5.7.1) of many octets is encrypted, and decrypted to
    itself."""
    etype = int(etype)
    key, confounder = KEY[: library.key_size(etype)], CONFOUNDER[: library.confounder_size(etype)]
    part = wide(0x7C, wide(0x30, wide(0xA0, wide(4, MANY)) + S_ADDRESS))
    made = library.seal_priv_part(etype, key, 13, confounder, part)
    opened = library.open_priv_part(etype, key, 13, made.out)
    is_right = len(made.out) == library.encrypted_size(etype, len(part))
    return "the same" if is_right and opened.out == part else "others"


def many_wrapped(library, etype):
    """Whether a MIC token of many octets holds, and Wrap tokens, rotated, hold them."""
    etype = int(etype)
    key = KEY[: library.key_size(etype)]
    mic = library.make_mic(etype, key, True, False, 12345, MANY).out
    is_right = library.verify_mic(etype, key, True, False, MANY, mic).sequence_number == 12345
    clear = library.wrap_in_clear(etype, key, False, True, 9, 65535, MANY).out
    sealed = library.wrap(etype, key, False, True, 9, 28, CONFOUNDER, MANY).out
    for token, is_sealed in ((clear, False), (sealed, True)):
        it = library.unwrap(etype, key, False, True, token)
        is_right = is_right and it.is_given and it.out == MANY
        is_right = is_right and (it.sequence_number, it.sealed) == (9, is_sealed)
    return "the same" if is_right else "others"


OTHERS = {
    "role": role,
    "item": item,
    "page begins": page_begins,
    "many octets": many_octets,
    "many octets in a part": many_in_a_part,
    "many octets wrapped": many_wrapped,
}
