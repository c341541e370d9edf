"""Captures that are cut, broken, shuffled or made up: of each it is known from how it was made which lines are told."""

import base64
import random
import re
import struct
import subprocess
import time

import dpkt

from checks import expect, say
from compare import HEAD
from octets import framed, octets_in
from others import BASIC
from script import PYTHON

SEED = 20
CLIENT, SERVER = bytes([10, 0, 0, 1]), bytes([10, 0, 0, 2])


def told(environment, capture, *words):
    """The status, the lines of messages without number and time, what was printed, and the lines of an error."""
    command = [PYTHON, "-m", "krb.capture", capture, *words]
    done = subprocess.run(command, env=environment, capture_output=True, text=True, errors="replace", timeout=300)
    heads = [HEAD.fullmatch(line) for line in done.stdout.splitlines()]
    return done.returncode, [each.groups()[1:] for each in heads if each], done.stdout, done.stderr.splitlines()


def is_clean(out, errors):
    """No traceback, one line of an error at most, and all of it printable."""
    text = out + "".join(errors)
    return len(errors) <= 1 and "Traceback" not in text and all(" " <= each <= "~" or each == "\n" for each in text)


def read(capture):
    with open(capture, "rb") as file:
        return list(dpkt.pcap.Reader(file))


def write(path, packets, linktype=dpkt.pcap.DLT_EN10MB):
    with open(path, "wb") as file:
        writer = dpkt.pcap.Writer(file, snaplen=262144, linktype=linktype)
        for time, octets in packets:
            writer.writepkt(octets, time)
    return path


def segment(frame):
    """The frame, its IP and its TCP, where it has octets of a stream."""
    ethernet = dpkt.ethernet.Ethernet(frame)
    inner = ethernet.data.data
    return (ethernet, inner) if isinstance(inner, dpkt.tcp.TCP) and inner.data else (ethernet, None)


def pieces(frame, size, more=0):
    """The frames of the pieces of a segment, each with so many octets of the next one."""
    ethernet, inner = segment(frame)
    if inner is None:
        return [frame]
    made, data, start = [], bytes(inner.data), inner.seq
    for at in range(0, len(data), size):
        inner.seq, inner.data = start + at & 0xFFFFFFFF, data[at : at + size + more]
        inner.sum = 0
        ethernet.data.len = 0 if not isinstance(ethernet.data, dpkt.ip.IP) else 20 + len(inner)
        ethernet.data.sum = 0
        made.append(bytes(ethernet))
    return made


def try_same(realm, environment, capture, keytab):
    """Captures that say the same in another way."""
    status, wanted, _, _ = told(environment, capture, "--keytab", keytab)
    expect(status == 0 and len(wanted) == 24, "the ground: %d messages" % len(wanted))
    packets, draw = read(capture), random.Random(SEED)

    def shuffled():
        for time, frame in packets:
            made = pieces(frame, 90)
            draw.shuffle(made)
            yield from ((time, each) for each in made)

    def tagged(*tags):
        front = b"".join(struct.pack(">HH", kind, number) for kind, number in tags)
        return [(time, frame[:12] + front + frame[12:]) for time, frame in packets]

    again = [(time, each) for n, (time, frame) in enumerate(packets) for each in (frame, packets[max(n - 1, 0)][1])]
    ways = {
        "each segment twice": [(time, each) for time, frame in packets for each in (frame, frame)],
        "each segment once more, behind the next": again,
        "segments of 90 octets": [(time, each) for time, frame in packets for each in pieces(frame, 90)],
        "segments of 1 octet": [(time, each) for time, frame in packets for each in pieces(frame, 1)],
        "segments that overlap": [(time, each) for time, frame in packets for each in pieces(frame, 90, 40)],
        "segments in another order": list(shuffled()),
        "segments backwards": [(time, each) for time, frame in packets for each in reversed(pieces(frame, 90))],
        "a VLAN": tagged((0x8100, 7)),
        "a VLAN in another": tagged((0x88A8, 5), (0x8100, 7)),
    }
    for title, made in ways.items():
        status, lines, out, errors = told(environment, write(realm.path("same.pcap"), made), "--keytab", keytab)
        right = status == 0 and sorted(lines) == sorted(wanted) and is_clean(out, errors)
        expect(right, "%s: %d messages, and not %d: %s" % (title, len(lines), len(wanted), errors))
    links = {
        "IP without a link": (101, b""),
        "what `tcpdump -i any` writes": (276, struct.pack(">HHIHBB8s", 0x800, 0, 1, 772, 0, 6, bytes(8))),
        "what it wrote before": (113, struct.pack(">HHH8sH", 0, 772, 6, bytes(8), 0x800)),
    }
    for title, (number, front) in links.items():
        raw = write(realm.path("raw.pcap"), [(time, front + frame[14:]) for time, frame in packets], number)
        expect(told(environment, raw, "--keytab", keytab)[1] == wanted, title)
    for form in ("pcapng", "nsecpcap", "nseclibpcap"):
        other = realm.path("other." + form)
        if subprocess.run(["editcap", "-F", form, capture, other], capture_output=True).returncode == 0:
            expect(told(environment, other, "--keytab", keytab)[1] == wanted, "the format %s" % form)
    expect(told(environment, realm.path("other.pcapng"))[0] == 0, "the format pcapng: no file")
    return wanted


def datagram(payload, port=88, answer=False, fragments=1):
    """The frames of a datagram of IP."""
    udp = dpkt.udp.UDP(sport=port if answer else 40000, dport=40000 if answer else port, data=payload)
    udp.ulen = len(udp)
    octets, made = bytes(udp), []
    size = (len(octets) // fragments + 7) // 8 * 8
    ends = (SERVER, CLIENT) if answer else (CLIENT, SERVER)
    for at in range(0, len(octets), size):
        part = octets[at : at + size]
        packet = dpkt.ip.IP(src=ends[0], dst=ends[1], p=17, id=9, ttl=64, data=part)
        packet.mf, packet.offset = int(at + size < len(octets)), at // 8
        packet.len = 20 + len(part)
        made.append(bytes(dpkt.ethernet.Ethernet(src=b"\2" * 6, dst=b"\4" * 6, type=0x800, data=bytes(packet))))
    return made


def stream(payload, port=88, first=1000, sport=41000, begins=True):
    """The frames of what a client sends over TCP."""
    sent = [(first - 1, 2, b"")] if begins else []
    sent += [(first + at, 0x18, payload[at : at + 1000]) for at in range(0, len(payload), 1000)]
    made = []
    for sequence, flags, data in sent:
        tcp = dpkt.tcp.TCP(sport=sport, dport=port, seq=sequence & 0xFFFFFFFF, ack=1, flags=flags, data=data)
        packet = dpkt.ip.IP(src=CLIENT, dst=SERVER, p=6, ttl=64, data=bytes(tcp))
        packet.len = 20 + len(bytes(tcp))
        made.append(bytes(dpkt.ethernet.Ethernet(src=b"\2" * 6, dst=b"\4" * 6, type=0x800, data=bytes(packet))))
    return made


def made_of(realm, name, frames):
    return write(realm.path(name), [(1795940000 + n / 1000, each) for n, each in enumerate(frames)])


def requests(capture):
    """The messages of the datagrams of a capture."""
    found = []
    for _, frame in read(capture):
        inner = dpkt.ethernet.Ethernet(frame).data.data
        if isinstance(inner, dpkt.udp.UDP):
            found.append(bytes(inner.data))
    return found


def try_streams(realm, environment, request):
    """Streams with octets that are missing, or that are none of Kerberos; `request` is an AS-REQ of ann's."""
    told_as, whole = "AS-REQ ann@HOME.TEST asks for krbtgt/HOME.TEST@HOME.TEST", framed(request)
    near = "10.0.0.1:41000", "10.0.0.2:88"

    def one(title, frames, wanted, status):
        found, lines, out, errors = told(environment, made_of(realm, "stream.pcap", frames))
        texts = [line[2] for line in lines]
        right = found == status and len(texts) == len(wanted) and all(re.fullmatch(want, text) for want, text in zip(wanted, texts))
        right &= is_clean(out, errors) and all(line[:2] == near for line in lines)
        expect(right, "%s: status %d, %s, and not %s: %s" % (title, found, lines, wanted, errors))

    message, unread = re.escape("TCP " + told_as), r"TCP not read: .*"
    one("a message", stream(whole), [message], 0)
    one("three in a stream", stream(whole * 3), [message] * 3, 0)
    one("sequence numbers that go round", stream(whole * 30, first=2**32 - 1500), [message] * 30, 0)
    one("a stream without a beginning", stream(whole * 2, begins=False), [message] * 2, 0)
    cut = stream(whole[50:] + whole * 6, begins=False)
    one("a stream that begins in a message", cut, [unread], 1)
    resumed = stream(whole[50:], begins=False) + stream(whole * 2, first=1000 + len(whole) - 50, begins=False)
    one("and goes on with a segment that begins with one", resumed, [r"TCP not read: %d octets .*" % (len(whole) - 50), message, message], 1)
    holed = stream(whole) + stream(whole, first=1000 + 2 * len(whole), begins=False)
    one("a message is missing", holed, [message, "TCP not read: %d octets of the stream are missing" % len(whole), message], 1)
    within = stream(whole[:60]) + stream(whole, first=1000 + len(whole), begins=False)
    missing = "TCP not read: %d octets of the stream are missing in a message of which 60 came" % (len(whole) - 60)
    one("the end of a message is missing", within, [missing, message], 1)
    ended = r"TCP not read: the stream ends in a message of %d octets of which 66 came" % len(request)
    one("a message is cut", stream(whole + whole[:70]), [message, ended], 1)
    one("a length is cut", stream(whole + b"\0\0"), [message, "TCP not read: the stream ends in a length that is cut"], 1)
    one("a length that is none", stream(whole + b"\xff\xff\xff\xff" + whole), [message, unread], 1)
    one("a length of 0", stream(b"\0\0\0\0" + whole), ["TCP not read: 0 octets that begin as no message of Kerberos", message], 1)
    one("HTTP at the port of a KDC", stream(b"GET / HTTP/1.1\r\nHost: kdc\r\n\r\n"), [unread], 1)
    one("an octet behind the message", stream(framed(request + b"\0")), [r"TCP not read: AS-REQ: INVALID: .* at octet %d" % len(request)], 1)
    one("nothing but a beginning", stream(b""), [], 0)


def try_datagrams(realm, environment, messages):
    """Datagrams of changed messages and of octets that nobody chose: one line each."""
    draw, payloads = random.Random(SEED), []
    for number in range(1500):
        octets = bytearray(draw.choice(messages))
        kind = number % 4
        if kind == 0:
            octets[draw.randrange(len(octets))] ^= 1 << draw.randrange(8)
        elif kind == 1:
            del octets[draw.randrange(1, len(octets)) :]
        elif kind == 2:
            place = draw.randrange(len(octets))
            octets[place:place] = draw.randbytes(draw.randrange(1, 9))
        else:
            octets = bytearray(draw.randbytes(draw.randrange(80)))
        payloads.append((bytes(octets), draw.choice([88, 88, 464])))
    payloads += [(b"", 88), (b"\x6a", 464), (b"\x6a\x80", 88), (b"\x30" * 4000, 88), (b"\x6a\x84\xff\xff\xff\xff", 88)]
    payloads.append((b"\x61\x82\x10\0" + b"\x30\x82\x0f\xf0" * 900, 88))
    frames = [each for payload, port in payloads for each in datagram(payload, port)]
    for words in ([], ["--show"], ["--show", "--show-keys"], ["--keytab", realm.path("all.keytab"), "--show"]):
        status, lines, out, errors = told(environment, made_of(realm, "datagrams.pcap", frames), *words)
        unread = sum(" not read: " in line[2] for line in lines)
        right = status == 1 and len(lines) == len(payloads) and is_clean(out, errors)
        expect(right, "changed datagrams: %d lines, and not %d: %s" % (len(lines), len(payloads), errors[-3:]))
        # A cut message and one with an octet more are none; of those with another bit some are.
        expect(len(payloads) * 3 // 4 <= unread < len(payloads), "changed datagrams: %d are not read" % unread)
    say("changed datagrams: %d, of which %d are not read" % (len(payloads), unread))
    whole = messages[0]
    fragments = [each for _ in range(3) for each in datagram(whole, fragments=3)]
    status, lines, _, _ = told(environment, made_of(realm, "fragments.pcap", datagram(whole, fragments=3)))
    expect(status == 0 and len(lines) == 1 and lines[0][2].startswith("UDP AS-REQ ann@HOME.TEST asks"), "a datagram of three fragments: %s" % lines)
    status, lines, out, errors = told(environment, made_of(realm, "fragments.pcap", fragments[:2]))
    expect(lines == [] and is_clean(out, errors), "a datagram of which a fragment is missing: %s" % lines)


def try_names(realm, environment, request):
    """A name with octets that terminals take for orders. The client's name, `ann`, stands in the request once."""
    expect(request.count(b"\x1b\x03ann") == 1, "a request with the name ann once")
    for octets, text in ((b"\x1b[2", "\\x1b[2"), (b"a\nb", "a\\nb"), (b"a/@", "a\\/\\@"), (b"\\\x7fb", "\\\\\\x7fb"), (b"\0\r\x07", "\\0\\r\\x07")):
        changed = request.replace(b"\x1b\x03ann", b"\x1b\x03" + octets)
        status, lines, out, errors = told(environment, made_of(realm, "names.pcap", datagram(changed)), "--show")
        wanted = "UDP AS-REQ %s@HOME.TEST asks for krbtgt/HOME.TEST@HOME.TEST" % text
        expect(status == 0 and [line[2] for line in lines] == [wanted] and is_clean(out, errors), "the name %r: %s" % (octets, lines))
    other = datagram(request.replace(b"\x1b\x03ann", b"\x1b\x03a\xff\xfe"))
    status, lines, out, errors = told(environment, made_of(realm, "names.pcap", other), "--show")
    expect(len(lines) == 1 and is_clean(out, errors), "a name that is no ASCII: %s" % lines)


def try_headers(realm, environment, token):
    """Headers of HTTP that hold other things; `token` is a NegTokenInit of ann's."""
    def header(value):
        return stream(b"GET / HTTP/1.1\r\nHost: www\r\nAuthorization: " + value + b"\r\n\r\n", port=80)

    empty = b"\x60\x0c\x06\x0a\x2b\x06\x01\x04\x01\x82\x37\x02\x02\x0a"  # a frame of NTLM around nothing
    right = r"HTTP Authorization NegTokenInit offers Kerberos; in it: AP-REQ .* asks HTTP/localhost@HOME.TEST to let it in"
    for value, wanted, status in (
        (b"Negotiate " + base64.b64encode(token), [right], 0),
        (b"negotiate  " + base64.b64encode(token), [right], 0),
        (b"Negotiate", [], 0),
        (b"Basic " + base64.b64encode(b"ann:" + BASIC.encode()), [], 0),
        (b"Bearer abcdef", [], 0),
        (b"Negotiate ?!", ["HTTP Authorization not read: a token that is no base64"], 1),
        (b"Negotiate YQ", ["HTTP Authorization not read: a token that is no base64"], 1),
        (b"Negotiate TlRMTVNTUAABAAAAl4II4gAAAAAAAAAAAAAAAAAAAAA=", ["HTTP Authorization NTLM no token of Kerberos"], 0),
        (b"Negotiate " + base64.b64encode(token[:-9]), ["HTTP Authorization not read: a token: .*"], 1),
        (b"Negotiate " + base64.b64encode(b"\x60"), ["HTTP Authorization not read: a token: .*"], 1),
        (b"Negotiate " + base64.b64encode(b"what is this?"), ["HTTP Authorization not read: 13 octets .*"], 1),
        (b"Negotiate " + base64.b64encode(empty), ["HTTP Authorization token of the mechanism NTLM"], 0),
    ):
        found, lines, out, errors = told(environment, made_of(realm, "headers.pcap", header(value)), "--show")
        texts = [line[2] for line in lines]
        same = len(texts) == len(wanted) and all(re.fullmatch(want, text) for want, text in zip(wanted, texts))
        expect(same and found == status and is_clean(out, errors), "%s: status %d, %s %s" % (value[:40], found, texts, errors))
        expect(BASIC not in out and base64.b64encode(b"ann:" + BASIC.encode()).decode() not in out, "a password of Basic is printed")


def try_files(realm, environment, capture):
    """Files that are cut, are none, or cannot be read, and a machine without tshark."""
    octets, whole = octets_in(capture), told(environment, capture)[1]
    draw, path, shorter = random.Random(SEED), realm.path("cut.pcap"), 0
    for size in sorted(draw.sample(range(len(octets)), 25)) + list(range(0, 44, 6)):
        with open(path, "wb") as file:
            file.write(octets[:size])
        status, lines, out, errors = told(environment, path)
        lines = [line for line in lines if " not read: " not in line[2]]
        expect(lines == whole[: len(lines)] and is_clean(out, errors), "a file cut to %d octets: %d lines: %s" % (size, len(lines), errors))
        # A file may be cut behind a packet. An empty one tshark takes for a capture without packets, and one without a whole header for none, or for
        # one that is cut.
        right = status in ((1, 0) if size > 24 else (0, 1, 2)) and (status == 0 or len(errors) == 1 or "not read" in out)
        expect(right, "a file cut to %d octets: status %d: %s" % (size, status, errors))
        shorter += len(lines) < len(whole)
    expect(shorter >= 20, "only %d files that are cut have fewer messages" % shorter)
    turned = 0
    for _ in range(25):
        changed = bytearray(octets)
        for _ in range(20):
            changed[draw.randrange(len(changed))] = draw.randrange(256)
        with open(path, "wb") as file:
            file.write(changed)
        status, lines, out, errors = told(environment, path, "--show")
        turned += lines != whole
        expect(is_clean(out, errors) and status in (0, 1, 2), "a file with twenty other octets: status %d: %s" % (status, errors))
    expect(turned >= 20, "only %d files with other octets say other things" % turned)
    others = {"random octets": draw.randbytes(3000), "a text": b"What does this ticket hold?\n" * 9, "a keytab": b"\5\2" + bytes(40)}
    for title, content in others.items():
        with open(path, "wb") as file:
            file.write(content)
        status, lines, out, errors = told(environment, path)
        # tshark takes a keytab for the beginning of a capture of another kind.
        right = status == (1 if title == "a keytab" else 2) and lines == [] and len(errors) == 1 and is_clean(out, errors)
        expect(right, "%s: status %d: %s" % (title, status, errors))
    missing = {"a folder": [realm.home], "no file": [realm.path("nowhere.pcap")]}
    for title, words in {**missing, "a keytab that is none": [capture, "--keytab", capture], "no keytab": [capture, "--keytab", "/nowhere"]}.items():
        status, lines, out, errors = told(environment, *words)
        expect(status == 2 and lines == [] and len(errors) == 1 and is_clean(out, errors), "%s: status %d: %s" % (title, status, errors))
    expect(told(environment, capture, "--show-keys")[0] == 2, "--show-keys without --show")
    status, lines, out, errors = told(dict(environment, PATH="/nowhere"), capture)
    expect(status == 2 and len(errors) == 1 and "install Debian's package tshark" in errors[0], "without tshark: %s" % errors)
    with open(realm.path("errors"), "w+b") as said:
        command = "%s -m krb.capture '%s' --show | head -n 1" % (PYTHON, capture)
        first = subprocess.run(["sh", "-c", command], env=environment, stdout=subprocess.PIPE, stderr=said, timeout=60)
        said.seek(0)
        expect(first.stdout.count(b"\n") == 1 and said.read() == b"", "a reader that goes away")


def try_snapped(realm, environment, capture):
    """A capture of the first 300 octets of each packet, as tcpdump -s 300 writes it; of datagrams alone."""
    packets = [(time, frame) for time, frame in read(capture) if isinstance(dpkt.ethernet.Ethernet(frame).data.data, dpkt.udp.UDP)]
    whole, snapped = write(realm.path("datagrams.pcap"), packets), realm.path("snapped.pcap")
    subprocess.run(["editcap", "-s", "300", whole, snapped], capture_output=True, check=True)
    status, lines, out, errors = told(environment, snapped)
    cut = [len(frame) > 300 for _, frame in packets]
    found = [bool(re.search(r" not read: .*; the capture has not all octets of the packet$", line[2])) for line in lines]
    expect(0 < sum(cut) < len(cut) and found == cut and status == 1 and is_clean(out, errors), "packets of 300 octets: %s, and not %s" % (found, cut))


# Segments of one octet, the last first, straight to what puts them in order: how many pieces it tells, its seconds, and how many segments waited at most.
BACKWARDS = """
import sys, time
from krb._packets import Packet
from krb._streams import Streams
count = int(sys.argv[1])
body = (count - 4).to_bytes(4, "big") + bytes(count - 4)
streams, begun, pieces, most = Streams(), time.process_time(), [], 0
for number in [-1, *range(count - 1, -1, -1)]:
    begins = number < 0
    packet = Packet(1, 1, ("10.0.0.1", 41000), ("10.0.0.2", 88), 0, 1000 + number, begins, False, b"" if begins else body[number : number + 1], [], False)
    pieces += streams.take(packet)
    most = max(most, *(len(each.early) for each in streams._halves.values()))
pieces += streams.rest()
whole = sum(each.trouble is None and each.octets == body[4:] for each in pieces)
print(whole, len(pieces), most, time.process_time() - begun)
"""


def try_backwards(realm, environment, request):
    """Segments in reverse order: the time grows with their number, but not how many are kept; and the command ends when its seconds are over."""

    def ran(count):
        done = subprocess.run([PYTHON, "-c", BACKWARDS, str(count)], env=environment, capture_output=True, text=True, timeout=300)
        return [float(each) for each in done.stdout.split()] or [done.stderr]

    few, many, more = ran(16000), ran(100000), ran(400000)
    expect(few[:3] == [1, 1, 15999], "16,000 segments backwards: %s" % few)
    expect(many[0] == 0 and 0 < many[1] < 10 and many[2] <= 16385 and more[2] <= 16385, "100,000 and 400,000 segments backwards: %s, %s" % (many, more))
    expect(more[3] < 8 * many[3] + 1, "the seconds of 100,000 and of 400,000 segments backwards: %s, %s" % (many[3], more[3]))
    frames = stream(framed(request * 100), sport=41000)
    for at in range(60000):
        frames += stream(b"a", first=60000 - at, sport=42000, begins=at == 59999)
    capture, begun = made_of(realm, "backwards.pcap", frames), time.monotonic()
    status, lines, out, errors = told(environment, capture, "--seconds", "3")
    took = time.monotonic() - begun
    stopped = r"krb\.capture: tshark was stopped after 3 seconds; \d+ messages up to there; --seconds N .*"
    right = status == 1 and len(errors) == 1 and re.fullmatch(stopped, errors[0])
    expect(right and took < 30, "60,000 segments backwards and 3 seconds: %d, %s in %.1f seconds" % (status, errors, took))
    for words in (("--seconds", "-1"), ("--seconds", "x")):
        expect(told(environment, capture, *words)[0] == 2, "the command with %s" % (words,))


def try_broken(realm, environment, captures, keytab):
    udp, tcp = captures["MIT's clients, udp"][0], captures["MIT's clients, tcp"][0]
    messages = requests(udp)
    try_same(realm, environment, tcp, keytab)
    try_streams(realm, environment, messages[0])
    try_backwards(realm, environment, messages[0])
    try_datagrams(realm, environment, messages)
    try_names(realm, environment, messages[0])
    found = [bytes(dpkt.ethernet.Ethernet(frame).data.data.data) for _, frame in read(captures["curl and a page"][0]) if b"Negotiate YII" in frame]
    try_headers(realm, environment, base64.b64decode(re.search(rb"Negotiate (\S+)", found[0])[1]))
    try_files(realm, environment, tcp)
    try_snapped(realm, environment, udp)
