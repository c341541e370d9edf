"""The rows of tests/*.rows, octets with what decoders in Python made of them that share no code with the library, and texts to mislead."""

import re

from der import element, integer, name, sequence, text
from keytabs import keytab_of
from tables import asked


def pages():
    """Origin, type, octets and expected lines of the rows of `pages`: the last line is JSON, or of octets that are refused there are the status and why."""
    for row in asked("pages"):
        origin, name, octets = row.columns
        yield origin, name, bytes.fromhex(octets), row.expected


def opened():
    """Title, keys, kind, octets and expected lines of the rows of `opened`."""
    for row in asked("opened"):
        title, keys, kind, octets = row.columns[:4]
        yield title, keys, kind, bytes.fromhex(octets), row.expected


def checksums():
    """Title, keys, octets and expected lines of the rows of `checksums` that are shown."""
    for row in asked("checksums"):
        if row.columns[2] == "show":
            yield row.columns[0], row.columns[1].split("|"), bytes.fromhex(row.columns[3]), row.expected


def buffers():
    """Title, number of the type, octets and expected lines of the rows of `buffers`; the last line is JSON."""
    for row in asked("buffers"):
        yield row.columns[0], int(row.columns[1]), bytes.fromhex(row.columns[2]), row.expected


def salted():
    """The rows of tests/keys.rows, `salts`: the octets of a message, and the salts under which a password opens its ticket."""
    for row in asked("keys"):
        if row.columns[0] == "salts":
            expected = [re.search("salt (.*)\"$", line) for line in row.expected]
            yield bytes.fromhex(row.columns[2]), [it[1] for it in expected if it]


# Texts to mislead.

MARKUP = [
    "<script>window.misled=1</script>", "<img src=x onerror=misled=1>", "<svg onload=misled=1>", "</ul></li><h1>misled</h1>", "<!--", "-->", "<b>bold</b>",
    "&lt;b&gt;", "&amp;", "&#x202e;", "\"><script>misled=1</script>", "' onmouseover='misled=1", "javascript:misled=1", "<a href=javascript:misled=1>x</a>",
    "<iframe srcdoc=misled>", "<style>*{display:none}</style>", "<meta http-equiv=refresh content=0>", "<base href=//elsewhere.test/>", "<form action=//elsewhere.test>",
    "<textarea>", "<![CDATA[x]]>", "<?xml?>", "{{7*7}}", "${7*7}", "`misled`", "\\u003cb\\u003e", "%3Cb%3E", "<template>", "<math>", "<object data=x>",
    "<input autofocus onfocus=misled=1>", "<details open ontoggle=misled=1>", "a: b", "  indented: 5", "realm: \"ELSEWHERE.TEST\"", "hidden", "holds", "opened-by: \"key 1\"",
    "__proto__", "constructor", "a@ kvno 1", "2026-11-22T06:49:24Z",
]
CONTROLS = [chr(each) for each in range(32)] + ["\x7f"]
# Marks of direction, joiners and blanks that are not seen, separators, and what is none of Unicode's letters.
MARKS = ["\u200b", "\u200c", "\u200d", "\u200e", "\u200f", "\u202a", "\u202b", "\u202c", "\u202d", "\u202e", "\u2028", "\u2029", "\u2060", "\u2066", "\u2067"]
MARKS += ["\u2068", "\u2069", "\u061c", "\ufeff", "\u00ad", "\u0085", "\u009b", "\u115f", "\u3164", "\ufff9", "\U000e0041", "\U0001f4a9", "\u05d0\u05d1"]


def error_with(realm):
    """A KRB-ERROR of this realm (RFC 4120, 5.9.1)."""
    fields = (0, integer(5)), (1, integer(30)), (4, [0x18, b"20261122064924Z"]), (5, integer(0)), (6, integer(7))
    return element(0x7E, sequence(*fields, (9, text(realm)), (10, name(1, "x"))))


def quoted(octets):
    """A text of a page: in quotation marks, `"` and `\\` behind a `\\`, and what is no printable ASCII as \\xNN (docs/SPECIFICATION.md, "Values as text and as JSON")."""
    letters = ["\\" + chr(each) if each in b'"\\' else chr(each) if 32 <= each < 127 else "\\x%02x" % each for each in octets]
    return '"' + "".join(letters) + '"'


def misleading():
    """Title, octets, and the line that is to be shown: 135 rows."""
    for it in CONTROLS:
        yield "control %02x" % ord(it), error_with(b"R" + it.encode() + b"S"), "  realm: " + quoted(b"R" + it.encode() + b"S")
    for it in MARKUP:
        yield "markup %s" % it, error_with(it.encode()), "  realm: " + quoted(it.encode())
    for it in MARKS + MARKUP[:32]:
        octets = ("a" + it + "b").encode()
        yield "a keytab with %r" % it, keytab_of((b"R", [octets], 1, 17, bytes(16))), "      components: " + quoted(octets)
