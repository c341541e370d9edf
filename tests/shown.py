"""What is shown of octets: by krb_show_page, and by the program jolmurig, also with keys."""

import contextlib
import json
import re
import subprocess
import tempfile
from pathlib import Path

from library import Fault
from parts import LIMIT
from rows import flipped, octets

# What the rows have of a buffer of a PAC; what it holds is asked of in `buffers` and `logon`.
OF_BUFFER = ("ulType", "cbBufferSize", "Offset", "buffer")
# The formats that are no DER.
FORMATS = ("token", "PAC", "NEGOEX", "password-frame", "keytab", "ccache")
# Where the octets of a value of DER are refused, which no row has.
PLACE = re.compile(r", at octet \d+$")
# What is said of a PAC beside it, which `checksums` and `warnings` ask of.
OF_PAC = ("PAC-checksums", "unchecked", "ticket-checksum")
# What the lines that tell of checksums of PACs begin with.
OF_CHECKSUMS = ("PAC-checksums:", "server-checksum", "kdc-checksum", "full-checksum")
OF_CHECKSUMS += ("ticket-checksum", "unread:")
# What a key of a keytab is called.
PRINCIPAL = re.compile(r"([^@]+)@([^@]*) kvno (\d+)")


class Struct(list):
    """The members of an object of JSON, in their order."""


def pages(library, columns):
    """A row of `pages`: an origin, the type, and behind `: ` what is peculiar to the octets; the
    octets. `told` are of the format that they begin as, which is named first: that as which they
    have the same page."""
    _, name, given = columns
    kind, given = name.partition(": ")[0].replace("told", ""), octets(given)
    page = page_of(library, kind, given)
    if page is None:
        return refused(library, kind, given)
    alike = [it for it in FORMATS if not kind and page_of(library, it, given) == page]
    return [*alike, *page]


def page_of(library, kind, given):
    """The lines of a page and its JSON, by krb_show_page with keys shown; nothing where both are
    refused alike."""
    text, line = (
        library.show_page(kind.encode(), given, b"", is_json, True) for is_json in (False, True)
    )
    if text.is_given or line.is_given:
        return page_in(text.demand().out, line.demand().out)
    return None if text.refused() == line.refused() else [text.name, line.name]


def page_in(text, line):
    """The lines of a page and its JSON, but for what buffers of PACs hold."""
    (line,), lines = lines_of(line), lines_of(text) if text else []
    members = json.loads(line, object_pairs_hook=Struct)
    bare = without_contents(members)
    if bare != members:
        if written(members) != line:
            raise Fault(f"the JSON is written otherwise than {written(members)}")
        line = written(bare)
    return [*lines_without_contents(lines), line]


def lines_of(out):
    """The lines of a text, each of which has its end."""
    *lines, rest = out.decode("ascii").split("\n")
    if rest:
        raise Fault(f"no line feed behind {rest!r}")
    return lines


def without_contents(value):
    """JSON but for what buffers of PACs hold."""
    if isinstance(value, Struct):
        is_buffer = tuple(name for name, _ in value)[:4] == OF_BUFFER
        kept = [it for it in value if not is_buffer or it[0] in OF_BUFFER]
        return Struct((name, without_contents(it)) for name, it in kept)
    return [without_contents(it) for it in value] if isinstance(value, list) else value


def written(value):
    """JSON in one line."""
    if isinstance(value, Struct):
        return f"{{{','.join(f'{json.dumps(name)}:{written(it)}' for name, it in value)}}}"
    if isinstance(value, list):
        return f"[{','.join(map(written, value))}]"
    return json.dumps(value)


def lines_without_contents(lines):
    """The lines of a page but for what buffers of PACs hold."""
    kept, depth = [], None
    for line in lines:
        name, indent = line.lstrip(" ").partition(":")[0], len(line) - len(line.lstrip(" "))
        if depth is not None and indent < depth:
            depth = None
        depth = indent if name == OF_BUFFER[0] else depth
        if depth is None or (indent == depth and name in OF_BUFFER):
            kept.append(line)
    return kept


def refused(library, kind, given):
    """Why octets are none of a type: the status, the words of the program's line on standard
    error, and of the frame of a change of a password what krb_password_frame answers."""
    told = library.once("show_page", kind.encode(), given, b"", False, True)
    options = ["--as", kind] if kind else []
    status, output, errors = run(library, ["show", *options], given)
    (line,) = lines_of(errors)
    begin = "jolmurig: "
    if status != 1 or output or not line.startswith(begin):
        raise Fault(f"jolmurig ends with status {status} and {line!r}")
    lines = [told.refused(), PLACE.sub("", line.removeprefix(begin))]
    if kind == "password-frame":
        frame = library.password_frame(given)
        lines.append(frame.name if frame.is_given else frame.refused())
    return lines


def run(library, words, given, folder=None):
    """A run of jolmurig: its status, and what it writes to both its outputs."""
    words = [library.jolmurig, *words]
    try:
        ran = subprocess.run(words, input=given, capture_output=True, timeout=LIMIT, cwd=folder)
    except subprocess.TimeoutExpired as error:
        raise Fault(f"jolmurig has not ended after {LIMIT} seconds") from error
    return ran.returncode, ran.stdout, ran.stderr


def asked(library, words, given, folder=None):
    """What jolmurig writes, where it says nothing on standard error."""
    status, output, errors = run(library, words, given, folder)
    if status or errors:
        raise Fault(f"jolmurig ends with status {status}, and says {errors[:200]!r}")
    return output


def warnings(library, columns):
    """A row of `warnings`: as one of `pages`, of the program, which warns."""
    _, name, given = columns
    words, given = ["show", "--show-keys", "--as", name.partition(": ")[0]], octets(given)
    return page_in(asked(library, words, given), asked(library, [*words, "--json"], given))


def keytab_of(keys):
    """A keytab of keys ETYPE:HEX:NAME (MIT Kerberos, "Keytab file format")."""
    made = b"\x05\x02"
    for it in keys:
        etype, digits, name = it.split(":", 2)
        name, realm, kvno = PRINCIPAL.fullmatch(name).groups()
        name, key, kvno = name.split("/"), octets(digits), int(kvno)
        entry = len(name).to_bytes(2, "big")
        entry += b"".join(len(it).to_bytes(2, "big") + it.encode() for it in (realm, *name))
        entry += bytes([0, 0, 0, 1, 0, 0, 0, 0, kvno & 255]) + int(etype).to_bytes(2, "big")
        entry += len(key).to_bytes(2, "big") + key + kvno.to_bytes(4, "big")
        made += len(entry).to_bytes(4, "big") + entry
    return made


@contextlib.contextmanager
def keys_of(column):
    """The options of jolmurig for keys ETYPE:HEX:NAME, and a folder to run in: it calls a key of
    the command line `--key N`, one of a keytab `PRINCIPAL kvno N`, and one of a file as that. A
    name that begins with `/` has that of the folder before it."""
    with tempfile.TemporaryDirectory(prefix="tests-") as room:
        options, folder = [], Path(room, "keys")
        folder.mkdir()
        for count, it in enumerate([] if column == "-" else column.split("|")):
            etype, digits, name = it.split(":", 2)
            if name == f"--key {options.count('--key') + 1}":
                options += ["--key", f"{etype}:{digits}"]
            elif PRINCIPAL.fullmatch(name):
                file = Path(room, f"keytab{count}")
                file.write_bytes(keytab_of([it]))
                options += ["--keytab", str(file)]
            else:
                name = f"{folder}{name}" if name[0] == "/" else name
                file = Path(folder, name)
                file.parent.mkdir(parents=True, exist_ok=True)
                file.write_text(f"{etype}:{digits}\n")
                options += ["--key-file", name]
        yield options, str(folder)


def opened(library, columns):
    """A row of `opened`: an origin, keys, the type or `message`, the octets, and where they are
    there those that are opened: a line says that the page ends with theirs."""
    _, keys, kind, given, *part = columns
    with keys_of(keys) as (options, folder):
        options += [] if kind == "message" else ["--as", kind]
        words = ["show", "--show-keys", *options]
        lines = lines_of(asked(library, words, octets(given), folder))
    if part:
        alone = lines_of(asked(library, ["show", "--show-keys"], octets(part[0])))
        tail = [f"  {it}" for it in lines_without_pacs(alone)]
        lines = lines_without_pacs(lines)
        if lines[-len(tail) :] == tail:
            lines[-len(tail) :] = ["  the opened octets are shown"]
    return lines


def lines_without_pacs(lines):
    """The lines of a page but for what buffers of PACs hold and what is said of PACs."""
    kept, depth = [], None
    for line in lines_without_contents(lines):
        name, indent = line.lstrip(" ").partition(":")[0], len(line) - len(line.lstrip(" "))
        if depth is None or indent <= depth:
            depth = indent if name in OF_PAC else None
        if depth is None:
            kept.append(line)
    return kept


def checksums(library, columns):
    """A row of `checksums`: an origin, keys with `|` between, and `show` and a message, or `flips`
    and what a ticket is made of."""
    _, keys, how, *given = columns
    if how == "flips":
        return flips(library, keys, *given)
    with keys_of(keys) as (options, folder):
        out = asked(library, ["show", "--show-keys", *options], octets(given[0]), folder)
    return of_checksums(out.replace(f'"{folder}/'.encode(), b'"/')) or ["no checksums"]


def of_checksums(page):
    """The lines of a page that tell of checksums of PACs."""
    lines = lines_without_contents(lines_of(page))
    return [it for it in lines if it.lstrip(" ").startswith(OF_CHECKSUMS)]


def flips(library, keys, *given):
    """What is told of checksums, of how many bits in a row, where each bit of a PAC is flipped: of
    the ticket up to its ciphertext, the encryption type and the key that seals it, the part, and
    where in it the PAC begins and how many octets it has. Each call is made once: these are
    thousands."""
    front, etype, key, part, begin, size = given
    front, etype, key, part = octets(front), int(etype), octets(key), octets(part)
    begin, end = int(begin), int(begin) + int(size)
    keytab, runs = keytab_of(keys.split("|")), []
    for it in flipped(part[begin:end]):
        changed = part[:begin] + it + part[end:]
        sealed = library.once("encrypt", etype, key, 2, bytes(16), changed).demand().out
        page = library.once("show_page", b"Ticket", front + sealed, keytab, False, True)
        told = " ".join(it.lstrip(" ") for it in of_checksums(page.demand().out))
        if runs and runs[-1][1] == told:
            runs[-1][0] += 1
        else:
            runs.append([1, told])
    return [f"{count} {told}" for count, told in runs]
