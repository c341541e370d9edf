"""The examples in C, Python, Go and Rust, over the library that is installed under a prefix."""

import base64
import ctypes
import os
import re
import subprocess

from checks import expect
from commands import WARNINGS, run
from der import read, walk
from script import TOP
from tables import columns_of


class Data(ctypes.Structure):
    _fields_ = [("magic", ctypes.c_int32), ("length", ctypes.c_uint), ("data", ctypes.c_char_p)]


class Key(ctypes.Structure):
    _fields_ = [("magic", ctypes.c_int32), ("enctype", ctypes.c_int32), ("length", ctypes.c_uint), ("contents", ctypes.c_char_p)]


class Sealed(ctypes.Structure):
    _fields_ = [("magic", ctypes.c_int32), ("enctype", ctypes.c_int32), ("kvno", ctypes.c_uint), ("ciphertext", Data)]


def opened_by_libkrb5(etype, key, cipher):
    library, context = ctypes.CDLL("libkrb5.so.3"), ctypes.c_void_p()
    library.krb5_init_context(ctypes.byref(context))
    room = ctypes.create_string_buffer(len(cipher))
    out = Data(0, len(cipher), ctypes.cast(room, ctypes.c_char_p))
    sealed = Sealed(0, etype, 0, Data(0, len(cipher), cipher))
    failed = ctypes.CDLL("libk5crypto.so.3").krb5_c_decrypt(context, ctypes.byref(Key(0, etype, len(key), key)), 2, None, ctypes.byref(sealed), ctypes.byref(out))
    return None if failed else room.raw[: out.length]


def tickets():
    """Tickets that another program sealed, with their keys."""
    for columns in columns_of("opened"):
        found = re.fullmatch(r"(\d+) AP-REQ, the service's key", columns[0])
        if found:
            octets = bytes.fromhex(columns[3])
            ticket = next(octets[place:end] for place, tag, _, end in walk(octets) if tag == 0x61)
            yield int(found[1]), columns[1].split(":")[1], ticket


def with_name(prefix, etype, key, ticket, part, name):
    """The ticket with another client's name, of as many octets, sealed anew by the library."""
    _, _, start, end = [each for each in walk(part) if each[1] == 0x1B][1]
    name = (name * (end - start))[: end - start]
    part = part[:start] + name + part[end:]
    cipher = [ticket[at:to] for _, tag, at, to in walk(ticket) if tag == 0x04][-1]
    room, size = ctypes.create_string_buffer(len(cipher)), ctypes.c_size_t()
    library = ctypes.CDLL(os.path.join(prefix, "lib", "libkrbc.so.2"))
    confounder = bytes(8 if etype == 16 else 16)
    octets = [ctypes.c_char_p, ctypes.c_size_t]
    kinds = [ctypes.c_int32, *octets, ctypes.c_int32, *octets, *octets, *octets, ctypes.c_void_p]
    seal = library.krb_seal_ticket_part
    seal.argtypes = kinds
    given = etype, key, len(key), 2, confounder, len(confounder), part, len(part)
    status = seal(*given, room, len(cipher), ctypes.byref(size))
    expect((status, size.value) == (0, len(cipher)), "a ticket is not sealed anew: %d" % status)
    return ticket.replace(cipher, room.raw), name


def try_wrong_keys(opened, etype, key, ticket):
    """Key files that are refused, and what is said of them."""
    line = "%d:%s" % (etype, key)
    for text, status, said in (
        ("%d:%s%02x" % (etype, key[:-2], int(key[-2:], 16) ^ 2), 1, "a wrong checksum"),
        (line[:-1], 2, "another length"),
        (line[:-2], 2, "another length"),
        (line + "0", 2, "another length"),
        (line + " ", 2, "another length"),
        ("%d: %s" % (etype, key[1:]), 2, "not a hexadecimal digit"),
        ("%d:+%s" % (etype, key[1:]), 2, "not a hexadecimal digit"),
        ("%d:0x%s" % (etype, key[2:]), 2, "not a hexadecimal digit"),
        (line.replace(":", ":\0", 1)[: len(line)], 2, "not a hexadecimal digit"),
        ("99:00", 2, "encryption type is not known"),
        ("%d" % etype, 2, "not ETYPE:KEYHEX"),
        (" " + line, 2, "not ETYPE:KEYHEX"),
        ("0" + line, 2, "not ETYPE:KEYHEX"),
        ("", 2, "not ETYPE:KEYHEX"),
        (line + "\n\n", 2, "another length" if len(line) < 67 else "more than one line"),
        (line + "\n" + line, 2, "another length" if len(line) < 34 else "more than one line"),
    ):
        done = opened(text, ticket)
        right = done.returncode == status and said in done.stderr.decode("ascii")
        expect(right and not done.stdout, "open_ticket with the key file %r: %r" % (text, done))


def escaped(name):
    """The octets of a name as open_ticket prints them."""
    quoted = {letter: "\\%c" % letter for letter in b"/@\\"}
    return "".join(quoted.get(it) or ("%c" if 32 <= it <= 126 else "\\x%02x") % it for it in name)


def try_opened(done, etype, part):
    """What is printed stands in the part that libkrb5 decrypted."""
    texts = [part[start:end] for _, tag, start, end in walk(part) if tag in (0x1B, 0x18)]
    lines = done.stdout.splitlines()
    right = done.returncode == 0 and len(lines) == 3 and lines[0] == b"etype %d" % etype
    expect(right, "open_ticket: %r" % done)
    names = re.split(b"[/@]", lines[1][7:]) if right else []
    right = len(names) > 1 and set(names) <= set(texts) and lines[2][6:] in texts
    expect(right, "open_ticket: %s, and not %s" % (lines, texts))


def try_other_words(program, file, opened, line, ticket, other):
    """A ticket of another encryption type, wrong arguments, and a device that takes nothing."""
    done = opened(line, other)
    right = done.returncode == 1 and b"another encryption type" in done.stderr
    expect(right, "open_ticket, another encryption type: %r" % done)
    for words in ([], [file, file], [file + ".none"]):
        done = subprocess.run([program, *words], input=b"", capture_output=True, timeout=60)
        right = done.returncode == 2 and (b"usage" in done.stderr) == (len(words) != 1)
        expect(right and not done.stdout, "open_ticket %s: %r" % (words, done))
    with open("/dev/full", "wb") as full:
        done = subprocess.run([program, file], input=ticket, stdout=full, stderr=subprocess.PIPE)
    right = done.returncode == 1 and b"standard output" in done.stderr
    expect(right, "open_ticket to a full device: %r" % done)


def try_tickets(prefix, scratch):
    program = os.path.join(scratch, "open_ticket")
    flags = run("pkg-config", "--cflags", "--libs", "krbc", env=dict(os.environ, PKG_CONFIG_PATH=os.path.join(prefix, "lib", "pkgconfig"))).stdout.split()
    done = run("gcc", "-std=c99", "-pedantic", *WARNINGS, os.path.join(TOP, "examples", "c", "open_ticket.c"), *flags, "-Wl,-rpath,%s/lib" % prefix, "-o", program)
    expect(done.returncode == 0, "open_ticket.c: %s" % done.stdout)
    file = os.path.join(scratch, "open_ticket.key")

    def opened(key_line, ticket):
        with open(file, "w", encoding="ascii", newline="") as to:
            to.write(key_line)
        return subprocess.run([program, file], input=ticket, capture_output=True, timeout=60)

    every = list(tickets())
    for etype, key, ticket in every:
        line = "%d:%s\n" % (etype, key)
        cipher = [ticket[start:end] for _, tag, start, end in walk(ticket) if tag == 0x04][-1]
        part = opened_by_libkrb5(etype, bytes.fromhex(key), cipher)
        part = part[: read(part)[2]]  # without the zeros that fill blocks
        for text in (line, line[:-1], line.upper()):
            try_opened(opened(text, ticket), etype, part)
        try_wrong_keys(opened, etype, key, ticket)
        for name in (b"\x1b[2J", b"a/b@c\\d", b"\n\0\x7f"):
            changed, name = with_name(prefix, etype, bytes.fromhex(key), ticket, part, name)
            done = opened(line, changed)
            said = done.stdout.decode("ascii").splitlines()
            right = len(said) == 3 and said[1].startswith("client " + escaped(name))
            expect(done.returncode == 0 and right, "open_ticket of the name %r: %r" % (name, done))
        for octets, said in (
            (ticket[:-1], b"octets that end too early"),
            (b"", b"octets that end too early"),
            (ticket + b"\0", b"no encoding"),
            (ticket + bytes(65536), b"more than 65536 octets"),
        ):
            done = opened(line, octets)
            right = done.returncode == 1 and not done.stdout and said in done.stderr
            expect(right, "open_ticket of other octets: %r" % done)
    try_other_words(program, file, opened, "%d:%s\n" % every[0][:2], every[0][2], every[1][2])
    expect(len(every) == 5, "%d tickets of 5" % len(every))
    with open(os.path.join(TOP, "docs", "C.md"), encoding="utf-8") as document:
        command = r"echo (\S+) >key\n.*ticket\.base64 \| \./open_ticket key\n\nwhich prints\n\n"
        shown = re.search(command + r"((?:    .*\n)+)", document.read())
    expect(shown is not None, "docs/C.md has no ticket opened in C")
    if shown is not None:
        with open(os.path.join(TOP, "examples", "ticket.base64"), "rb") as ticket:
            done = opened(shown[1] + "\n", base64.b64decode(ticket.read()))
        expect(done.stdout.decode("ascii") == re.sub("(?m)^    ", "", shown[2]), "docs/C.md and open_ticket: %r" % done)


def try_requests(python, table):
    example = os.path.join(TOP, "examples", "python", "read_as_req.py")
    seen = 0
    with open(table, encoding="ascii") as rows:
        requests = [bytes.fromhex(row.split("\t")[1]) for row in rows if row.startswith("10\t")]
    for octets in requests[:3]:  # of MIT Kerberos, Heimdal and Samba
        done = subprocess.run([python, example], input=len(octets).to_bytes(4, "big") + octets, capture_output=True, timeout=60)
        texts = {octets[start:end].decode("ascii") for _, tag, start, end in walk(octets) if tag == 0x1B}
        integers = {int.from_bytes(octets[start:end], "big", signed=True) for _, tag, start, end in walk(octets) if tag == 0x02}
        lines = dict(line.split(" ", 1) for line in done.stdout.decode("ascii").splitlines())
        expect(done.returncode == 0 and set(lines) == {"client", "server", "etypes", "nonce"}, "read_as_req: %r" % done)
        expect(set(re.split("[/@]", lines["client"] + "/" + lines["server"])) <= texts, "read_as_req: %s, and not %s" % (lines, texts))
        expect({int(word) for word in (lines["etypes"] + " " + lines["nonce"]).split()} <= integers, "read_as_req: %s" % lines)
        for wrong, text in ((octets, b"the length"), (len(octets[:-1]).to_bytes(4, "big") + octets[:-1], b"TRUNCATED")):
            done = subprocess.run([python, example], input=wrong, capture_output=True, timeout=60)
            expect(done.returncode == 1 and not done.stdout and text in done.stderr, "read_as_req of other octets: %r" % done)
        seen += 1
    expect(seen == 3, "%d requests of 3" % seen)
    request = requests[0]
    start, end = next((start, end) for _, tag, start, end in walk(request) if tag == 0x1B)
    name = (b"\x1b[2J/@\\\n" * (end - start))[: end - start]
    framed = len(request).to_bytes(4, "big") + request[:start] + name + request[end:]
    done = subprocess.run([python, example], input=framed, capture_output=True, timeout=60)
    said = done.stdout.decode("ascii").splitlines()
    right = done.returncode == 0 and len(said) == 4 and escaped(name) in said[0]
    expect(right, "read_as_req of the name %r: %r" % (name, done))
    large = (70000).to_bytes(4, "big") + bytes(70000)
    done = subprocess.run([python, example], input=large, capture_output=True, timeout=60)
    right = done.returncode == 1 and b"more than 65536 octets" in done.stderr
    expect(right, "read_as_req of too many octets: %r" % done)


def try_mic_tokens(python):
    """MIC tokens of MIT Kerberos, by the example in Python."""
    example = os.path.join(TOP, "examples", "python", "verify_mic.py")
    seen = 0
    for etype, key, by_acceptor, is_subkey, number, kind, message, token in columns_of("tokens"):
        if kind != "mic":
            continue
        sender, other = ("acceptor", "initiator") if by_acceptor == "1" else ("initiator", "acceptor")
        words, text, token = (["--subkey"] if is_subkey == "1" else []) + ["%s:%s" % (etype, key)], bytes.fromhex(message), bytes.fromhex(token)
        for name, said, octets, right in (
            (sender, text, token, "holds, sequence number %s\n" % number),
            (sender, text + b"!", token, "INTEGRITY"),
            (sender, text, token[:-1] + bytes([token[-1] ^ 1]), "INTEGRITY"),
            (sender, text, token[:9], "TOKEN"),
            (other, text, token, "DIRECTION"),
        ):
            done = subprocess.run([python, example, *words, name, said], input=octets, capture_output=True, timeout=60)
            out, error = done.stdout.decode("ascii"), done.stderr.decode("ascii")
            holds = right.startswith("holds")
            expect(done.returncode == (not holds) and (out == right if holds else not out and right in error), "verify_mic, not %s: %r" % (right, done))
        seen += 1
    key = "000102030405060708090a0b0c0d0e0f"
    wrong = "17", "17:", "17:" + key[:-1], "17:+0" + key[2:], "17:0 1" + key, "+17:" + key
    for word in (*wrong, "1_7:" + key):
        words = [word, "acceptor", "text"] if ":" in word else [word]
        done = subprocess.run([python, example, *words], input=b"", capture_output=True, timeout=60)
        right = done.returncode == 2 and done.stderr.startswith(b"usage: verify_mic.py")
        expect(seen and right, "verify_mic %s: %d tokens, %r" % (words, seen, done))


def try_other_languages(prefix, scratch):
    """The key of RFC 8009, A, and a checksum under it that libkrb5 makes too (`beside` compares such)."""
    salt, key = "10df9dd783e5bc8acea1730e74355f61415448454e412e4d49542e4544557261656275726e", "089bca48b105ea6ea77ca5d2f39dc5e7"
    go, rust = os.path.join(scratch, "go"), os.path.join(scratch, "rust")
    paths = dict(os.environ, PKG_CONFIG_PATH=os.path.join(prefix, "lib", "pkgconfig"), LD_LIBRARY_PATH=os.path.join(prefix, "lib"), HOME=scratch, GOFLAGS="-mod=mod", GOPROXY="off", GO111MODULE="off")
    done = run("go", "build", "-o", go, os.path.join(TOP, "examples", "go", "main.go"), env=paths)
    expect(done.returncode == 0, "Go: %s" % done.stdout)
    done = run("rustc", "--edition", "2021", "-O", "-o", rust, os.path.join(TOP, "examples", "rust", "main.rs"), "-L", os.path.join(prefix, "lib"), "-l", "krbc")
    expect(done.returncode == 0, "Rust: %s" % done.stdout)
    sums = set()
    for program in (go, rust):
        for password in ("password", "password\n"):
            done = run(program, "19", "19", salt, env=paths, input=password)
            right = done.returncode == 0 and done.stdout.startswith(key + "\n")
            expect(right, "%s: %s" % (program, done.stdout))
            sums.add(done.stdout)
        for words, password, status in (
            (("23", "19", salt), "password", 1),
            (("19", "20", salt), "password", 1),
            (("19", "19", salt), "p" * 1025, 1),
            (("19", "19", salt), "p" * 1024 + "\n\n", 1),
            (("19", "19", salt), "p" * 100000, 1),
            (("nineteen", "19", salt), "password", 2),
            (("19", "", salt), "password", 2),
            (("4294967315", "19", salt), "password", 2),  # 19 in its low 32 bits
            (("19", "-4294967277", salt), "password", 2),
            (("19", "19", salt[:-1]), "password", 2),
            (("19", "19", "+0" + salt), "password", 2),
            (("19", "19", " 1" + salt), "password", 2),
            (("19", "19", "xy"), "password", 2),
            (("19", "19"), "password", 2),
            (("19", "19", salt, "password"), "", 2),
        ):
            done = run(program, *words, env=paths, input=password)
            right = done.returncode == status and re.fullmatch("main: .+\n", done.stdout)
            expect(right, "%s %s: status %d, %s" % (program, words, done.returncode, done.stdout))
    expect(len(sums) == 1, "Go and Rust differ: %s" % sums)
