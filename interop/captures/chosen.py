"""What the command says of captures: lines of JSON, messages that are chosen, a pipe, a terminal, output that is not taken, and captures without Kerberos."""

import json
import os
import pty
import re
import subprocess
import time

from broken import datagram, made_of, read, told, write
from checks import expect, say
from octets import octets_in
from script import PYTHON

COMMAND = [PYTHON, "-m", "krb", "capture"]
# The clients' errors of recorded.py, by code and name, and how often each comes.
ERRORS = {25: ("KDC_ERR_PREAUTH_REQUIRED", 3), 7: ("KDC_ERR_S_PRINCIPAL_UNKNOWN", 2), 24: ("KDC_ERR_PREAUTH_FAILED", 1), 6: ("KDC_ERR_C_PRINCIPAL_UNKNOWN", 1)}


def run(environment, *words, **more):
    """The status, the lines that are printed, and those on standard error."""
    done = subprocess.run([*COMMAND, *words], env=environment, capture_output=True, timeout=120, **more)
    return done.returncode, done.stdout.decode().splitlines(), done.stderr.decode().splitlines()


def try_json(environment, capture, keytab):
    """Each line of JSON has what the line of text has, and time and places of the packet."""
    status, rows, errors = run(environment, "--json", "--keytab", keytab, capture)
    lines = run(environment, "--keytab", keytab, capture)[1]
    expect(status == 0 and len(rows) == len(lines) == 24 and not errors, "JSON: %d rows and %d lines: %s" % (len(rows), len(lines), errors))
    packets = read(capture)
    for line, row in zip(lines, map(json.loads, rows)):
        ends = " > ".join("%s:%d" % (row[side]["address"], row[side]["port"]) for side in ("from", "to"))
        text = "%d %s %s %s %s" % (row["packet"], row["time"], ends, row["way"], " ".join(filter(None, (row["kind"], row["text"]))))
        text += "; opened: %s" % ", ".join(row["opened"]) if row["opened"] else ""
        expect(text == line, "JSON: %s, and the line is %s" % (row, line))
        expect(abs(row["seconds"] - (packets[row["packet"] - 1][0] - first(rows, packets))) < 0.00001, "JSON: the seconds of %s" % row)
        names = [row["client"], row["server"]] if row["kind"] in ("AS-REQ", "AS-REP", "TGS-REQ", "TGS-REP", "KRB-ERROR") else []
        expect(all(name and name in line for name in names), "JSON: the names of %s, and the line is %s" % (row, line))
        expect(("error" in row) == (row["kind"] == "KRB-ERROR"), "JSON: the error of %s" % row)
    shown = [json.loads(row) for row in run(environment, "--json", "--show", "--keytab", keytab, capture)[1]]
    expect(all(row["shown"][0].split(":")[0] for row in shown) and "shown" not in json.loads(rows[0]), "JSON with --show")
    broken = made_of_one(environment, capture)
    status, rows, errors = run(environment, "--json", broken)
    expect(status == 1 and len(rows) == 1 and "not_read" in json.loads(rows[0]) and not errors, "JSON of what is not read: %s" % rows)


def first(rows, packets):
    return packets[json.loads(rows[0])["packet"] - 1][0]


def made_of_one(environment, capture):
    return write(os.path.join(os.path.dirname(capture), "one.pcap"), [(1795940000, frame) for frame in datagram(b"\x6a\x80")])


def try_chosen(environment, capture, keytab):
    """Of the errors that the clients met, each by its code and its name; of names and realms those messages that have them."""
    whole = run(environment, "--keytab", keytab, capture)[1]
    for code, (name, count) in ERRORS.items():
        wanted = [line for line in whole if " KRB-ERROR %d %s" % (code, name) in line]
        for word in (str(code), name, name.lower()):
            status, lines, errors = run(environment, "--error", word, "--keytab", keytab, capture)
            expect((status, lines, errors) == (0, wanted, []) and len(lines) == count, "--error %s: %d lines, and not %d" % (word, len(lines), count))
    wanted = [line for line in whole if " KRB-ERROR " in line]
    expect(run(environment, "--error", "any", capture, "--keytab", keytab)[1] == wanted and len(wanted) == 7, "--error any: %d" % len(wanted))
    expect(run(environment, "--error", "6", "--error", "24", capture)[1] == [line for line in whole if re.search("KRB-ERROR (6|24) ", line)], "two errors")
    for word, mark in (("eve", "eve@"), ("eve@HOME.TEST", "eve@"), ("EVE", "eve@"), ("HTTP/localhost", "HTTP/localhost@"), ("HTTP", "HTTP/"), ("nobody", "nobody")):
        status, lines, errors = run(environment, "--name", word, "--keytab", keytab, capture)
        wanted = [line for line in whole if mark in line]
        expect(status == 0 and lines == wanted and not errors and 0 < len(lines) < len(whole), "--name %s: %s, and not %s" % (word, lines, wanted))
    status, lines, errors = run(environment, "--name", "nobody", "--error", "6", capture)
    expect(len(lines) == 1 and "nobody@" in lines[0], "--name and --error: %s" % lines)
    named = [line for line in whole if "@HOME.TEST" in line]
    expect(run(environment, "--realm", "home.test", "--keytab", keytab, capture)[1] == named, "--realm")
    status, lines, errors = run(environment, "--realm", "OTHER.TEST", "--keytab", keytab, capture)
    packets = len(read(capture))
    expect((status, lines, errors) == (0, [], ["capture: 0 of 24 messages in %d packets" % packets]), "--realm of another realm: %s %s" % (lines, errors))


def try_none(realm, environment, capture):
    """Captures in which there is no Kerberos: a line says so, with how many packets they have."""
    packets = [(1795940000 + n, each) for n, each in enumerate(frame for n in range(52) for frame in datagram(b"hello", 9))]
    for count in (52, 1, 0):
        path = write(realm.path("none.pcap"), packets[:count])
        told_as = ["capture: 0 messages in %d packet%s" % (count, "" if count == 1 else "s")]
        expect(run(environment, path) == (0, [], told_as), "%d packets without Kerberos: %s" % (count, run(environment, path)))
    expect(run(environment, "--json", path) == (0, [], told_as), "no packets, as JSON")
    module = told(environment, path)
    expect(module[3] == ["krb.capture: 0 messages in 0 packets"], "no packets, by krb.capture: %s" % (module,))


def try_pipe(environment, capture):
    """A capture from a pipe, whole and as it comes: a message is told before the next packet is there."""
    octets, whole = octets_in(capture), run(environment, capture)[1]
    expect(run(environment, "-", input=octets) == (0, whole, []), "standard input")
    with open(capture, "rb") as file:
        expect(run(environment, "-", stdin=file) == (0, whole, []), "standard input that is a file")
    expect(run(environment, "-", input=b"What does this ticket hold?\n" * 9)[0] == 2, "standard input that is no capture")
    packets = [octets[:24]]
    at = 24
    while at < len(octets):
        size = 16 + int.from_bytes(octets[at + 8 : at + 12], "little" if octets[:1] == b"\xd4" else "big")
        packets.append(octets[at : at + size])
        at += size
    process = subprocess.Popen([*COMMAND, "-"], env=environment, stdin=subprocess.PIPE, stdout=subprocess.PIPE)
    half = b"".join(packets[: len(packets) // 2])
    process.stdin.write(half)
    process.stdin.flush()
    line = process.stdout.readline().decode().rstrip("\n")
    expect(line == whole[0], "a pipe that goes on: %s" % line)
    rest = process.communicate(b"".join(packets[len(packets) // 2 :]), timeout=60)[0].decode().splitlines()
    expect([line, *rest] == whole and process.returncode == 0, "a pipe that goes on: %d lines" % (1 + len(rest)))


def try_terminal(realm, environment, capture):
    """On a terminal a line says how far it is, and is wiped out; the messages are whole."""
    whole, many = run(environment, capture)[1], realm.path("many.pcap")
    packets = read(capture)
    write(many, [(time_ + 100 * n, frame) for n in range(120) for time_, frame in packets])
    here, there = pty.openpty()
    process = subprocess.Popen([*COMMAND, many], env=environment, stdin=subprocess.DEVNULL, stdout=subprocess.PIPE, stderr=there)
    os.close(there)
    count = len(process.communicate(timeout=120)[0].splitlines())
    said = b""
    while True:
        try:
            part = os.read(here, 65536)
        except OSError:
            break
        if not part:
            break
        said += part
    os.close(here)
    lines = said.decode().replace("\r\n", "\n")
    steps = re.findall(r"\r\x1b\[K(\d+) messages, (\d+) % of the file, \d+ s", lines)
    expect(len(steps) > 1 and all(int(percent) <= 100 for _, percent in steps), "the line of progress: %a" % lines[-300:])
    expect(lines.endswith("\r\x1b[Kcapture: %d messages in %d packets\n" % (count, 120 * len(packets))) and count >= len(whole), "the end of progress: %a" % lines[-200:])


def try_output(environment, capture):
    for words in ("", "--json ", "--show "):
        done = subprocess.run(["sh", "-c", "%s %s%s >/dev/full" % (" ".join(COMMAND), words, capture)], env=environment, capture_output=True, text=True, timeout=60)
        right = done.returncode in (1, 2) and done.stderr == "capture: standard output: No space left on device\n"
        expect(right, "a full device, %s: %d %s" % (words, done.returncode, done.stderr))
        done = subprocess.run(["sh", "-c", "%s %s%s | head -n 1" % (" ".join(COMMAND), words, capture)], env=environment, capture_output=True, text=True, timeout=60)
        expect(done.stdout.count("\n") == 1 and done.stderr == "", "a reader that goes away, %s: %s" % (words, done.stderr))
    done = subprocess.run([PYTHON, "-m", "krb.capture", capture], env=environment, stdout=open("/dev/full", "w"), stderr=subprocess.PIPE, text=True)
    expect(done.stderr == "krb.capture: standard output: No space left on device\n", "a full device, krb.capture: %s" % done.stderr)


def try_command(realm, environment, captures, keytab):
    begun = time.monotonic()
    udp, tcp = captures["MIT's clients, udp"][0], captures["MIT's clients, tcp"][0]
    for capture in (udp, tcp):
        try_json(environment, capture, keytab)
        try_chosen(environment, capture, keytab)
    try_none(realm, environment, udp)
    try_pipe(environment, udp)
    try_terminal(realm, environment, udp)
    try_output(environment, tcp)
    say("the command: in %.0f seconds" % (time.monotonic() - begun))
