"""The forms of an input, as programs of others write them (crates/krb_input)."""

import base64
import shutil
import subprocess

from checks import expect, say

OCTETS = bytes(range(256)) + b"\x6a\x81\xff" + bytes(40)
URL = base64.urlsafe_b64encode(OCTETS)


def outcome(text):
    """The octets and the form, or the name of the error."""
    from krb._forms import NotBase64, given_octets

    try:
        return given_octets(text)
    except NotBase64:
        return None


def try_salts():
    """The salts of a password that octets tell: those under which a program in Python made keys of it (tests/keys.rows, `salts`)."""
    from krb._pages import page_of
    from given import salted

    for octets, expected in salted():
        told, salts = page_of(octets, None, b"", False)[1], {it.encode() for it in expected}
        # (the last row has more, of which 16 count)
        expect(set(told) == salts if len(expected) < 16 else salts <= set(told), "the salts %s, not %s" % (told, salts))


def try_forms():
    digits, armor = OCTETS.hex().encode(), base64.encodebytes(OCTETS)
    forms = {
        "digits": digits, "digits in capitals": digits.upper(),
        "digits with blanks": b" " + b"\t\r\n ".join(digits[n : n + 3] for n in range(0, len(digits), 3)) + b"\n",
        "digits with colons": b":".join(digits[n : n + 2] for n in range(0, len(digits), 2)), "digits behind 0x": b"0x" + digits,
        "digits behind 0x each": b", ".join(b"0x" + digits[n : n + 2] for n in range(0, len(digits), 2)),
        "digits behind \\x each": b"".join(b"\\x" + digits[n : n + 2] for n in range(0, len(digits), 2)),
        "base64": armor, "base64 of URLs": URL, "base64 of URLs with no padding": URL.rstrip(b"="), "base64 with no padding": armor.replace(b"=", b""),
        "PEM": b"\n -----BEGIN KERBEROS TICKET-----\n" + armor + b"-----END KERBEROS TICKET-----\r\n",
        "a header": b"Authorization: Negotiate " + armor.replace(b"\n", b""),
        "a challenge": b"WWW-Authenticate:Negotiate " + armor, "a header in capitals": b"AUTHORIZATION: NEGOTIATE " + armor,
        "a proxy's": b"proxy-authorization: Kerberos " + armor,
        "a scheme": b"  negotiate\t" + armor, "themselves": OCTETS, "a challenge of a proxy": b"Proxy-Authenticate: Negotiate " + armor,
    }
    for title in ("xxd", "xxd -p", "xxd -i", "hexdump -C -v", "base64", "od -An -v -tx1"):
        command = title.split()
        if shutil.which(command[0]):
            forms[title] = subprocess.run(command, input=OCTETS, stdout=subprocess.PIPE, check=True).stdout
        else:
            say("left out: %s, which is not here" % command[0])
    forms["Wireshark"] = b""
    for n in range(0, len(OCTETS), 16):
        row = OCTETS[n : n + 16]
        forms["Wireshark"] += b"%04x   %s   %s\n" % (n, b" ".join(b"%02x" % each for each in row), bytes(each if 32 < each < 127 else 46 for each in row))
    for title, text in forms.items():
        got = outcome(text)
        expect(got is not None and got.octets == OCTETS, "%s: %r" % (title, got and got.form))
    for title, text in (
        ("PEM of no end", b"-----BEGIN X-----\nAAAA\n"),
        ("PEM with octets behind it", b"-----BEGIN X-----\nAAAA\n-----END X-----\nA"),
        ("PEM of no base64", b"-----BEGIN X-----\n%%%\n-----END X-----"),
        ("PEM of bits that are left over", b"-----BEGIN X-----\nAB\n-----END X-----"),
        ("a header of no base64", b"Authorization: Negotiate %%%"), ("a header of one letter", b"Negotiate A"),
        ("a header with three signs of padding", b"Negotiate A==="),
    ):
        expect(outcome(text) is None, "%s is taken: %r" % (title, outcome(text)))
    # Letters that are base64 of few octets, worked out by hand, and texts that are no form: the octets themselves.
    others = (b"A", b"Authorization: Basic AAAA", b"Negotiate", b"\x05\x02", b"-----BEGIN", b"00000000 zz", b"A=A=", b"AAA==", b"A+_/", b"abd", b"AB==")
    cases = {b"AB": b"\xab", b"0x": b"", b"abc": b"\x69\xb7", b"0g": b"\xd2", b"0x0": b"\xd3\x1d", b"AQ": b"\x01", b"AQ==": b"\x01", b"abcdef": b"\xab\xcd\xef"}
    cases.update({text: text for text in others})
    for text, wanted in cases.items():
        got = outcome(text)
        expect(got is not None and got.octets == wanted, "%r stands for %r" % (text, got))
    expect(outcome(b" \n").octets == b"" and outcome(b"").octets == b"", "blanks stand for octets")
    say("the forms of the input: done")
