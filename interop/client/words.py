"""The command krb: its help, faults in a line, output that is not taken, lists of files, and what --trace says; beside klist, and what MIT's kinit says with KRB5_TRACE."""

import base64
import json
import os
import re
import subprocess

import krb
from checks import expect, say
from realm import PASSWORD, REALM
from tables import asked

USER = "ann@" + REALM
NAMES = "show accept list capture web kinit klist kvno kpasswd kdestroy".split()
# Faults in words, and the line that is told of each, with its name in front: `krb` for the first ones.
WRONG = [
    ((), "a command is missing; "),
    (("shwo",), "unknown command shwo (did you mean show?); "),
    (("frobnicate",), "unknown command frobnicate; "),
    (("--nosuch",), "unrecognized arguments: --nosuch|the following arguments are required: COMMAND; |unknown option --nosuch; "),
    (("show", "--nosuch"), "unknown option --nosuch; "),
    (("show", "a", "b"), "unexpected argument b; "),
    (("show", "--as"), "argument --as: expected one argument; "),
    (("kinit", "-l", "soon", USER), "argument -l: no duration: 'soon'; "),
    (("accept", "--time", "soon"), "argument --time: no time: 'soon'; "),
    (("capture",), "the following arguments are required: FILE; "),
    (("capture", "--seconds", "-1", "x"), "argument --seconds: no number of seconds: '-1'; "),
]


class Command:
    """python3 -m krb, run."""

    def __init__(self, environment):
        self.words, self.environment = ["/usr/bin/python3", "-B", "-m", "krb"], environment

    def run(self, *words, text="", **more):
        told = {"input": text, "capture_output": True, "text": True, "timeout": 60}
        done = subprocess.run([*self.words, *words], env=dict(self.environment, **more), **told)
        return done.returncode, done.stdout, done.stderr

    def shell(self, line):
        """A line of bash in which krb is this command: the statuses of its parts, what is printed, and what is on standard error."""
        script = 'krb() { %s "$@"; }; %s; echo "${PIPESTATUS[@]}" >&3' % (" ".join(self.words), line)
        reading, writing = os.pipe()
        with os.fdopen(reading) as statuses:
            words = ["bash", "-c", "exec 3>&%d; %s" % (writing, script)]
            done = subprocess.run(words, env=self.environment, stdin=subprocess.DEVNULL, capture_output=True, text=True, timeout=60, pass_fds=[writing])
            os.close(writing)
            return statuses.read().split(), done.stdout, done.stderr


def try_help(command):
    status, out, err = command.run("--help")
    lines = out.splitlines()
    expect(status == 0 and err == "" and len(lines) <= 24 and max(map(len, lines)) <= 80, "--help is more than a screen: %d lines" % len(lines))
    expect([line.split()[0] for line in lines if re.match("  [a-z]", line)] == NAMES, "--help has other commands: %s" % out)
    expect(command.run("--version") == (0, "krb %s\n" % krb.__version__, ""), "--version")
    for name in NAMES:
        status, out, err = command.run(name, "--help")
        expect(status == 0 and out.startswith("usage: ") and err == "", "%s --help: %s" % (name, err))
    for words, wanted in WRONG:
        status, out, err = command.run(*words)
        line = re.fullmatch(r"python3 -m krb(?: \w+)?: (.*); see python3 -m krb(?: \w+)? --help\n", err)
        found = line is not None and any((line[1] + "; ").startswith(each) for each in wanted.split("|"))
        expect(status == 2 and out == "" and found, "%s: %d %a" % (words, status, err))


def try_output(command, path):
    """Output that is not taken: a full device, a closed descriptor, a reader that goes away. No traceback comes, and one line at most."""
    listing = "krb list %s" % path
    for words in (listing, "krb show %s" % path, "krb --help", "krb klist -k -t %s" % path, "krb accept --help", "krb web --help"):
        (status, *_), out, err = command.shell(words + " >/dev/full")
        expect(status in ("1", "2") and re.fullmatch(r"\w+: standard output: No space left on device\n", err), "%s, a full device: %s %a" % (words, status, err))
    (status, *_), out, err = command.shell(listing + " >&-")
    expect(status == "1" and err == "list: standard output: it is closed\n", "a closed standard output: %s %a" % (status, err))
    (status, *_), out, err = command.shell("krb show <&-")
    expect(status == "1" and err == "show: standard input is closed\n", "a closed standard input: %s %a" % (status, err))
    big = "krb show --as tree %s/big" % os.path.dirname(path)
    with open(os.path.join(os.path.dirname(path), "big"), "wb") as file:
        file.write(b"\x30\x83\x03\x00\x00" + 65536 * b"\x02\x01\x05")
    statuses, out, err = command.shell(big + " | head -n 1")
    expect(statuses == ["1", "0"] and out.count("\n") == 1 and err == "", "a reader that goes away: %s %a %a" % (statuses, out, err))


def try_files(realm, command, path):
    """Files that cannot be read: each is named, with why."""
    folder, none = realm.home, realm.path("none")
    rows = [
        (("show", none), "show: %s: No such file or directory" % none),
        (("show", folder), "show: %s: Is a directory" % folder),
        (("show", "--keytab", none, path), "show: --keytab %s: No such file or directory" % none),
        (("show", "--key-file", none, path), "show: --key-file %s: No such file or directory" % none),
        (("list", none), "list: %s: No such file or directory" % none),
        (("list", folder), "list: %s: Is a directory" % folder),
        (("list", __file__), "list: %s: no keytab, no credential cache and no KRB-CRED" % __file__),
        (("klist", "-k", "-t", none), "klist: %s: No such file or directory" % none),
        (("kinit", "-k", "-t", none, USER), "kinit: %s: No such file or directory" % none),
        (("kinit", "--password-file", none, USER), "kinit: %s: No such file or directory" % none),
        (("kinit", "--config", none, USER), "kinit: no KDC of HOME.TEST is found: %s: No such file or directory" % none),
        (("kinit", "-c", folder + "/no/cache", USER), "kinit: %s: No such file or directory" % (folder + "/no/cache")),
        (("kdestroy", "-c", none), "kdestroy: no file of tickets: %s" % none),
        (("capture", none), "capture: %s: No such file or directory" % none),
        (("capture", "--keytab", none, path), "capture: --keytab %s: No such file or directory" % none),
        (("accept", "--keytab", none, path), "accept: %s: No such file or directory" % none),
        (("accept", "--keytab", __file__, path), "accept: %s: KEYTAB: " % __file__),
    ]
    for words, start in rows:
        status, out, err = command.run(*words, text=PASSWORD + "\n")
        right = status == (2 if words[0] in ("accept", "capture") else 1) and out == "" and err.count("\n") == 1 and err.startswith(start)
        expect(right, "%s: %d %a, and not %a" % (words, status, err, start))


def try_list(realm, command, path):
    """Lists beside klist's of the same files, and of a .kirbi of a row."""
    told = command.run("list", path)
    theirs = re.findall(r"(?m)^ *(\d+) .*?(\S+@\S+) \((\S+)\)", realm.run("klist", "-k", "-t", "-e", path))
    expect(told[0] == 0 and theirs and re.findall(r"(?m)^ *(\d+) .*?(\S+@\S+) \((\S+)\)", told[1]) == theirs, "list of a keytab: %s" % (told,))
    expect(command.run("list", "-k", KRB5_KTNAME="FILE:" + path)[1] == told[1], "list -k")
    rows = [json.loads(line) for line in command.run("list", "--json", path)[1].splitlines()]
    expect([(str(row["kvno"]), row["principal"], row["etype"]) for row in rows] == theirs, "list --json of a keytab: %s" % rows)
    with open(path, "rb") as file:
        octets = file.read()
    pasted = command.run("list", "-", text=base64.b64encode(octets).decode("ascii"))
    expect(pasted[1].splitlines()[1:] == told[1].splitlines()[1:], "list of base64: %s" % (pasted,))
    cache = realm.path("list-cache")
    for words in (("-f", "-r", "1d", "ann"), ("ann",)):
        realm.run("kinit", "-c", "FILE:" + cache, *words, text=PASSWORD + "\n")
        realm.run("kvno", "-c", "FILE:" + cache, "HTTP/localhost", "e17/localhost")
        status, out, err = command.run("list", KRB5CCNAME="FILE:" + cache)
        theirs = realm.run("klist", "-f", "-e", "-c", cache)
        expect(status == 0 and out.startswith("Credential cache: %s of %s, 3 tickets\n" % (cache, USER)) and "ended" not in out, "list of a cache: %s %s" % (out, err))
        servers = re.findall(r"(?m)^\d\S+ \S+  \S+ \S+  (\S+@\S+)$", theirs)
        expect(servers and re.findall(r"(?m)^\d\S+ \S+  \S+ \S+  (\S+@\S+)$", out) == servers, "list of a cache: %s, and klist: %s" % (out, theirs))
        flags = re.findall(r"Flags: (\w+)", theirs)
        expect([sorted(each) for each in re.findall(r"flags (\w+)", out)] == [sorted(each) for each in flags], "list, flags: %s, and klist: %s" % (out, theirs))
        etypes = re.findall(r"Etype \(skey, tkt\): (\S+), (\S+)", theirs)
        expect(re.findall(r"etypes \(session key, ticket\) (\S+), ([^\s,]+)", out) == [tuple(map(_whole, each)) for each in etypes], "list, etypes: %s, and klist: %s" % (out, theirs))
        expect(("renew until" in out) == ("-r" in words), "list, renew until: %s" % out)
    found = krb.client.load_all(cache)
    old = [krb.Credentials(each.entry._replace(start_time=each.entry.start_time - 400000, end_time=each.entry.start_time - 300840)) for each in found]
    krb.client.save_all(cache, old)
    for words in (("list", cache), ("klist", "-c", cache)):
        status, out, err = command.run(*words)
        expect(status == 0 and out.count("  (ended 3 d 11 h ago)") == 3, "%s of tickets that have ended: %s" % (words[0], out))
    rows = [json.loads(line) for line in command.run("list", "--json", cache)[1].splitlines()]
    expect([row["has_ended"] for row in rows] == [True] * 3, "list --json of tickets that have ended: %s" % rows)
    row = next(each.columns for each in asked("pages") if tuple(each.columns[:2]) == ("mit", "KRB-CRED"))
    kirbi = realm.path("ticket.kirbi")
    with open(kirbi, "wb") as file:
        file.write(bytes.fromhex(row[2]))
    server = "svc/aes256-cts-hmac-sha384-192.held.test@HELD.TEST"
    status, out, err = command.run("list", kirbi)
    expect(status == 0 and out.startswith("KRB-CRED: %s, 1 ticket\n" % kirbi) and server in out and "kvno 1" in out, "list of a .kirbi: %s %s" % (out, err))


def _whole(etype):
    """The name of an encryption type by the standards, of the one by MIT."""
    return etype.partition(":")[2] or etype


def words_of(trace):
    """The lines of a trace without the process and the time; what is no such line is none."""
    return [found[1] for found in (re.fullmatch(r"\[\d+\] \d+\.\d{6}: (.*)", line) for line in trace.splitlines()) if found]


# What both say in the same words, in this order, of a first ticket with a password, and of one for a service.
ALIKE = [
    "Getting initial credentials for ann@HOME.TEST", "Sending unauthenticated request", "Sending request (", "Received answer (", "Received error from KDC: ",
    "Processing preauth types: ", "Selected etype info: etype ", "Produced preauth for next request: ", "Sending request (", "Received answer (",
    "Initializing ", "Storing ann@HOME.TEST -> krbtgt/HOME.TEST@HOME.TEST in ",
]


def is_in_order(starts, lines):
    left = iter(lines)
    return all(any(line.startswith(start) for line in left) for start in starts)


def try_trace(realm, command):
    """--trace and KRB5_TRACE, beside the lines of MIT's kinit. No key and no password is in them."""
    cache, path, theirs = realm.path("trace-cache"), realm.path("trace"), realm.path("mit-trace")
    environment = {"KRB5CCNAME": "FILE:" + cache}
    status, out, err = command.run("kinit", "--trace", USER, text=PASSWORD + "\n", **environment)
    lines = words_of(err)
    expect(status == 0 and out == "" and len(lines) == err.count("\n"), "kinit --trace: %d %s" % (status, err))
    realm.run("kinit", "-c", "FILE:" + realm.path("mit-trace-cache"), "ann", text=PASSWORD + "\n", environment=dict(realm.environment, KRB5_TRACE=theirs))
    with open(theirs, encoding="utf-8") as file:
        mit = words_of(file.read())
    for title, found in (("ours", lines), ("MIT's", mit)):
        expect(is_in_order(ALIKE, found), "kinit's trace, %s: %s" % (title, found))
    kdc = "127.0.0.1:%d" % realm.port
    expect("Received answer (" in "".join(lines) and "stream " + kdc in "".join(lines), "the trace does not say where: %s" % lines)
    expect("Produced preauth for next request: PA-ENC-TIMESTAMP (2)" in lines and "Received error from KDC: 25/KDC_ERR_PREAUTH_REQUIRED" in lines, "the trace: %s" % lines)
    expect('Selected etype info: etype aes256-cts-hmac-sha1-96, salt "HOME.TESTann", params ""' in lines, "the trace, the etype: %s" % lines)
    status, out, err = command.run("kvno", "HTTP/localhost", KRB5_TRACE=path, **environment)
    expect(status == 0 and err == "", "kvno with KRB5_TRACE: %s" % err)
    status, out, err = command.run("kinit", USER, text="another\n", KRB5_TRACE=path, **environment)
    with open(path, encoding="ascii") as file:
        whole = file.read()
    expect(err.startswith("kinit: the KDC reports KDC_ERR_PREAUTH_FAILED (24)") and err.count("\n") == 1, "kinit with KRB5_TRACE: %s" % err)
    starts = ["Requesting tickets for HTTP/localhost@HOME.TEST", "Produced preauth for next request: PA-TGS-REQ (1)", "Received TGS reply", "Storing ann@HOME.TEST -> HTTP/"]
    expect(is_in_order([*starts, "Getting initial credentials", "Received error from KDC: 24/KDC_ERR_PREAUTH_FAILED"], words_of(whole)), "KRB5_TRACE: %s" % whole)
    secrets = [PASSWORD, "another"] + [bytes(each.session_key.octets).hex() for each in krb.client.load_all(cache)]
    expect(len(secrets) >= 4 and not [each for each in secrets if each in (whole + "".join(lines)).lower()], "a secret is in the trace")
    status, out, err = command.run("kinit", "--trace", "--kdc", "tcp/127.0.0.1:1", USER, text=PASSWORD, **environment)
    expect(status == 1 and "Request to tcp/127.0.0.1:1 failed: Connection refused" in words_of(err), "the trace of a KDC that is not there: %s" % err)
    status, out, err = command.run("kinit", USER, text=PASSWORD, KRB5_TRACE=realm.path("no/trace"), **environment)
    expect(status == 1 and err == "kinit: $KRB5_TRACE %s: No such file or directory\n" % realm.path("no/trace"), "a trace that cannot be: %s" % err)
    expect(command.run("kinit", USER, text=PASSWORD, KRB5_TRACE="/dev/full", **environment) == (0, "", ""), "a trace on a full device")


def try_plain(realm, command):
    """What a KDC's errors and broken rules are called; users f.. have no pre-authentication, so that a wrong password is found out by the reply."""
    rows = [
        (("kinit", "f17"), "another\n", "kinit: the password is wrong: its key does not open the KDC's reply (OPENING)\n"),
        (("kinit", "nobody"), "x\n", "kinit: the KDC reports KDC_ERR_C_PRINCIPAL_UNKNOWN (6): the KDC has no client of this name\n"),
        (("kinit", "-S", "HTTP/nowhere", "ann"), PASSWORD, "kinit: the KDC reports KDC_ERR_S_PRINCIPAL_UNKNOWN (7): the KDC has no service of this name\n"),
        (("kinit", "-k", "-t", realm.wrong, "f17"), "", "kinit: the keytab has no key of the client's of the encryption type (NO_KEY)\n"),
        (("kinit", "--kdc", "tcp/127.0.0.1:1", "ann"), PASSWORD, "kinit: no KDC of HOME.TEST answers: tcp/127.0.0.1:1: Connection refused\n"),
    ]
    for words, text, line in rows:
        found = command.run(*words, text=text, KRB5CCNAME="FILE:" + realm.path("plain-cache"))
        expect(found == (1, "", line), "%s: %s, and not %s" % (words, found, line))


def try_krb(realm, environment):
    command, path = Command(environment), realm.users
    try_help(command)
    try_output(command, path)
    try_files(realm, command, path)
    try_list(realm, command, path)
    try_trace(realm, command)
    try_plain(realm, command)
    say("krb")
