"""What `krb.capture` and tshark with the same keytab say of the same capture, message by message.

tshark's Kerberos is Wireshark's dissector, which is generated from the standard's ASN.1 and decrypts with MIT's library. Nothing in it is ours.
Compared are, of each packet in which both see messages, all values of each of FIELDS, those in opened parts among them, as multisets. What is known
to differ:

- tshark opens the parts of FAST (RFC 6113), which the library does not, and with a key of these the EncTGSRepPart: of packets with such parts values
  of ours may be fewer, and of opened parts those that FAST makes a key for; in an AS exchange all, since what armors it, a ticket and an
  authenticator, stands in FAST too;
- tshark takes no sign for a nonce."""

import collections
import datetime
import json
import re
import subprocess
import sys

from checks import expect, say
from script import PYTHON

# Fields of tshark, and the names of the lines of `--show` that have the same.
FIELDS = {
    "kerberos.msg_type": ["msg-type"],
    "kerberos.error_code": ["error-code"],
    "kerberos.realm": ["realm"],
    "kerberos.crealm": ["crealm"],
    "kerberos.nonce": ["nonce"],
    "kerberos.ctime": ["ctime"],
    "kerberos.cusec": ["cusec"],
    "kerberos.authtime": ["authtime"],
    "kerberos.starttime": ["starttime"],
    "kerberos.endtime": ["endtime"],
    "kerberos.seq_number": ["seq-number"],
    "kerberos.keyvalue": ["keyvalue"],
    "kerberos.kvno": ["kvno"],
    "names": ["name-string"],
}
# Fields of tshark of which there is one for each opened part, and how the line of ours begins. Those of BY_FAST have a key that FAST makes.
PARTS = {
    "kerberos.encTicketPart_element": "EncTicketPart:",
    "kerberos.authenticator_vno": "authenticator-vno:",
    "kerberos.patimestamp": "patimestamp:",
    "kerberos.encASRepPart_element": "EncASRepPart:",
    "kerberos.encTGSRepPart_element": "EncTGSRepPart:",
    "kerberos.encAPRepPart_element": "EncAPRepPart:",
    "kerberos.encKrbPrivPart_element": "EncKrbPrivPart:",
}
BY_FAST = ["kerberos.encASRepPart_element", "kerberos.encTGSRepPart_element"]
NAMES = ["kerberos.CNameString", "kerberos.SNameString"]
UNSIGNED = ["kerberos.nonce", "kerberos.seq_number", "kerberos.kvno"]
FAST = ["kerberos.enc_fast_req_element", "kerberos.enc_fast_rep_element"]  # what is encrypted of PA-FX-FAST (RFC 6113, 5.4)
HEAD = re.compile(r"(\d+) \d{4}-\d\d-\d\dT\S+Z (\S+) > (\S+) (.*)")


def ours(environment, capture, keytab, *words):
    """The status, the lines, and the lines of --show of each packet by its number."""
    command = [PYTHON, "-m", "krb.capture", capture, "--show", "--show-keys", *(("--keytab", keytab) if keytab else ()), *words]
    done = subprocess.run(command, env=environment, capture_output=True, text=True, timeout=300)
    heads, pages, number = [], collections.defaultdict(list), None
    for line in done.stdout.splitlines():
        found = HEAD.fullmatch(line)
        if found:
            number = int(found[1])
            heads.append((number, found[2], found[3], found[4]))
        else:
            pages[number].append(line.strip())
    return done, heads, pages


def theirs(capture, keytab):
    """The fields of each packet in which tshark sees Kerberos, as lists of texts."""
    names = [name for name in FIELDS if "." in name] + NAMES + FAST + list(PARTS) + ["ip.src", "ip.dst", "ipv6.src", "ipv6.dst"]
    command = ["tshark", "-r", capture, "-n", "-K", keytab, "-o", "kerberos.decrypt:TRUE", "-o", "tcp.reassemble_out_of_order:TRUE"]
    command += ["-Y", "kerberos", "-T", "ek"]
    command += [word for name in names + ["frame.number"] for word in ("-e", name)]
    told = subprocess.run(command, capture_output=True, text=True, timeout=300).stdout
    packets = {}
    for line in told.splitlines():
        if '"layers"' in line:
            fields = {name.replace("_", ".", 1): values for name, values in json.loads(line)["layers"].items()}
            packets[int(fields.pop("frame.number")[0])] = fields
    return packets


def moment(text):
    """The time of tshark in the form of ours."""
    return datetime.datetime.strptime(text.split(".")[0], "%b %d, %Y %H:%M:%S").strftime("%Y-%m-%dT%H:%M:%SZ")


def values_of(page, name):
    """The values of lines of a page, by the name of tshark's field."""
    found = []
    for line in page:
        key, colon, value = line.partition(": ")
        if not colon or key not in FIELDS[name]:
            continue
        if name == "names":
            found += json.loads(value).split("/")
        elif name in ("kerberos.realm", "kerberos.crealm"):
            found.append(json.loads(value))
        elif name == "kerberos.keyvalue":
            found.append(value.split(" ")[-1])
        else:
            found.append(value.split(" ")[0])
    return found


def values_of_tshark(fields, name):
    if name == "names":
        return [value for each in NAMES for value in fields.get(each, [])]
    values = fields.get(name, [])
    if name in ("kerberos.ctime", "kerberos.authtime", "kerberos.starttime", "kerberos.endtime"):
        return [moment(value) for value in values]
    return [value.replace(":", "") for value in values] if name == "kerberos.keyvalue" else values


def unsigned(values):
    """tshark takes no sign for these; by X.690 they have one, and Heimdal's clients draw nonces below 0: of such a number tshark tells its octets, as few as it has."""
    numbers = [int(value) for value in values]
    return [str(number if number >= 0 else number % 2 ** (8 * ((-number - 1).bit_length() // 8 + 1))) for number in numbers]


def differences(pages, packets, counts):
    """What differs, packet by packet; `counts` gets how many values were compared, of each field."""
    found = []
    for number, fields in packets.items():
        is_fast = any(name in fields for name in FAST)
        for name, start in PARTS.items():
            mine, tsharks = sum(line.startswith(start) for line in pages.get(number, [])), len(fields.get(name, []))
            counts["opened parts"] += min(mine, tsharks)
            may_be_fewer = is_fast and (name in BY_FAST or fields.get("kerberos.msg_type", [])[:1] in (["10"], ["11"]))
            if mine > tsharks or (mine < tsharks and not may_be_fewer):
                found.append("packet %d, %s: %d, and tshark has %d" % (number, start, mine, tsharks))
        for name in FIELDS:
            both = values_of(pages.get(number, []), name), values_of_tshark(fields, name)
            left, right = map(collections.Counter, map(unsigned, both) if name in UNSIGNED else both)
            counts[name] += sum((left & right).values())
            if is_fast:
                counts["in FAST, of tshark alone"] += sum((right - left).values())
            if left - right or (right - left and not is_fast):
                found.append("packet %d, %s: %s, and tshark has %s" % (number, name, sorted(left.elements()), sorted(right.elements())))
    return found


def compare(title, environment, capture, keytab, least):
    """Compares all, and that the comparison would see keys that are not there."""
    done, heads, pages = ours(environment, capture, keytab)
    expect(done.returncode == 0 and not done.stderr, "%s: the status is %d: %s" % (title, done.returncode, done.stderr.strip()))
    packets, counts = theirs(capture, keytab), collections.Counter()
    # Messages: in which packets there are any. A token without Kerberos in it is no message of tshark's.
    of_kerberos = [each for each in heads if re.search(r"\b(A[SP]-RE[QP]|TGS-RE[QP]|KRB-ERROR|password (request|reply))\b", each[3])]
    numbers = [each[0] for each in of_kerberos]
    expect(numbers == list(packets), "%s: messages in %s, and in tshark's %s" % (title, numbers, list(packets)))
    expect(len(packets) >= least, "%s: %d messages are fewer than %d" % (title, len(packets), least))
    for number, source, target, _ in of_kerberos:
        fields = packets.get(number, {})
        ends = [(fields.get("ip." + side) or fields.get("ipv6." + side) or ["?"])[-1] for side in ("src", "dst")]
        ours_ = [each.rsplit(":", 1)[0].strip("[]") for each in (source, target)]
        expect(ours_ == ends, "%s: packet %d: addresses %s, and not %s" % (title, number, ours_, ends))
    for each in differences(pages, packets, counts):
        expect(False, "%s: %s" % (title, each))
    expect(counts["kerberos.keyvalue"] > 0, "%s: no key was compared" % title)
    for _ in range(sum(count for name, count in counts.items() if "alone" not in name)):
        expect(True, "")
    figures = ", ".join("%d %s" % (count, name) for name, count in sorted(counts.items()) if count)
    say("%s: %d messages, of tshark %d; %s" % (title, len(of_kerberos), len(packets), figures))
    closed = ours(environment, capture, None)[2]
    expect(differences(closed, packets, collections.Counter()), "%s: without a keytab nothing differs" % title)
    return counts


if __name__ == "__main__":
    import os

    print(compare("try", dict(os.environ), sys.argv[1], sys.argv[2], 1))
