"""python -m krb: its commands, its statuses, and files of tickets that MIT's commands and these have in common."""

import base64
import os
import re
import subprocess
import time

import krb
from checks import expect, say
from exchanges import GRANTING, listed
from octets import octets_in
from realm import PASSWORD, REALM
from tables import asked

USER = "ann@" + REALM


def try_look(realm, run, one_line):
    """show, accept and klist -k: of a token that a client of MIT Kerberos sent, which its service let in, and of a keytab that its kadmin wrote."""
    row = next(row.columns for row in asked("accepted") if row.columns[0] == "a-t013")
    keytab, token = bytes.fromhex(row[1]), bytes.fromhex(row[5])
    header = "Authorization: Negotiate %s\n" % base64.b64encode(token).decode("ascii")
    path, came = realm.path("http.keytab"), "2026-11-27T07:08:23Z"
    with open(path, "wb") as file:
        file.write(keytab)
    let_in = "accepted: alice@PEER.TEST for e17/web.peer.test@PEER.TEST, until 2026-11-27T17:08:23Z; no replay cache was asked\n"
    expect(run("accept", "--keytab", path, "--time", came, text=header) == (0, let_in, ""), "accept")
    expect(run("accept", "--time", "1795763303", text=token.hex(), KRB5_KTNAME="FILE:" + path) == (0, let_in, ""), "accept by KRB5_KTNAME, of hexadecimal digits")
    late = run("accept", "--keytab", path, "--time", "2026-11-27T07:18:23Z", text=header)
    expect(late == (1, "refused: SKEW: the client's time is 600 s behind (limit 300)\n", ""), "accept ten minutes later: %s" % (late,))
    offer = krb.spnego.make_neg_token_init([krb.spnego.KERBEROS], token)
    expect(run("accept", "--keytab", path, "--time", came, text=base64.b64encode(offer).decode("ascii")) == (0, let_in, ""), "accept of SPNEGO's first message")
    ntlm = bytes.fromhex("2b06010401823702020a")
    for mechanisms, inner, start in (
        ([ntlm, krb.spnego.KERBEROS], b"NTLMSSP\0", "not accepted yet: "),
        ([krb.spnego.KERBEROS], b"", "not accepted yet: "),
        ([ntlm], token, "refused: UNKNOWN_MECHANISM: "),
        ([krb.spnego.KERBEROS], token[:-1], "refused: FRAME: "),
    ):
        offer = krb.spnego.make_neg_token_init(mechanisms, inner)
        told = run("accept", "--keytab", path, "--time", came, text=base64.b64encode(offer).decode("ascii"))
        expect(told[0] == 1 and told[1].startswith(start) and told[1].count("\n") == 1 and told[2] == "", "accept of an offer: %s" % (told,))
    other = run("accept", "--keytab", path, "--time", came, "--server", "HTTP", text=header)
    expect(other[0] == 1 and other[1].startswith("refused: NOT_US: "), "accept for another server: %s" % (other,))
    for words in (("accept", "--keytab", realm.path("none")), ("accept", "--keytab", path, "--server", "")):
        status, out, err = run(*words, text=header)
        expect((status, out, err.count("\n")) == (2, "", 1) and err.startswith("accept: "), "%s: %s" % (words, err))
    expect(run("accept", "--time", "soon")[0] == 2, "accept at no time")
    told = run("show", "--keytab", path, text=header)
    expect(told == (0, krb.show(token, keytab=keytab), "") and "opened-by" in told[1], "show of a header, with its keytab")
    expect(run("show", "--json", "--places", path) == (0, krb.show(keytab, as_json=True, places=True), ""), "show of a file, as JSON with places")
    one_line("show of nothing", run("show"), "show: standard input: the input is empty")
    one_line("show as no type", run("show", "--as", "Nonsense", text=header), "show: --as: no type or format is called Nonsense")
    one_line("show of a text", run("show", text="hello, world"), "show: standard input: the octets begin as no kind that is known")
    one_line("show of no file", run("show", realm.path("none")), "show: %s: No such file or directory" % realm.path("none"))
    status, out, err = run("klist", "-k", "-e", "-t", realm.users)
    theirs = re.findall(r"(?m)^ *(\d+) .*?(\S+@\S+) \((\S+)\)", realm.run("klist", "-k", "-t", "-e", realm.users))
    expect(status == 0 and theirs and re.findall(r"(?m)^ *(\d+) .*?(\S+@\S+) \((\S+)\)", out) == theirs, "klist -k: %s %s %s" % (out, theirs, err))
    expect(krb.decode(token)["thisMech"] and krb.decode(keytab) == krb.decode(keytab, "keytab"), "decode without a kind")
    expect(run("web", "--help")[0] == 0 and "krb.web" in run("web", "--help")[1], "web --help")


def try_commands(realm, environment):
    path, mit = realm.path("command-cache"), realm.path("mit-cache")
    environment = dict(environment, KRB5CCNAME="FILE:" + path)

    def run(*words, text="", **more):
        done = subprocess.run(["/usr/bin/python3", "-B", "-m", "krb", *words], env=dict(environment, **more), input=text, capture_output=True, text=True, timeout=60)
        return done.returncode, done.stdout, done.stderr

    def one_line(title, found, start):
        status, out, err = found
        expect(status == 1 and out == "" and err.count("\n") == 1 and err.startswith(start), "%s: %d %a %a" % (title, status, out, err))

    for command in ("kinit", "klist", "kvno", "kpasswd", "kdestroy", "show", "accept"):
        status, out, err = run(command, "--help")
        expect(status == 0 and "usage: " in out and err == "", "%s --help: %s" % (command, err))
    expect(run()[0] == 2 and run("kinit", "-l", "soon", USER)[0] == 2, "words that are wrong")
    expect(run("klist", "-s") == (1, "", ""), "klist -s without a file")
    one_line("klist without a file", run("klist"), "klist: ")
    one_line("kdestroy without a file", run("kdestroy"), "kdestroy: ")
    one_line("kvno without a file", run("kvno", "HTTP/localhost"), "kvno: ")
    one_line("another password", run("kinit", USER, text="another\n"), "kinit: the KDC reports KDC_ERR_PREAUTH_FAILED (24): the password, or the key, is wrong")
    one_line("no password", run("kinit", USER), "kinit: no password")
    one_line("an unknown client", run("kinit", "nobody", text="x\n"), "kinit: the KDC reports KDC_ERR_C_PRINCIPAL_UNKNOWN (6): the KDC has no client")
    one_line("a keytab without the client", run("kinit", "-k", "-t", realm.users, "bob"), "kinit: the keytab has no key of the client's of the encryption type (NO_KEY)")
    one_line("a file of another kind", run("klist", "-c", realm.users), "klist: %s: no credential cache of version 4" % realm.users)
    one_line("a cache of another kind", run("klist", "-c", "KEYRING:x"), "klist: ")
    expect(not os.path.exists(path), "a file where there is no ticket")
    try_look(realm, run, one_line)
    secret = realm.write("secret", PASSWORD + "\n")
    for words, text in ((("ann",), PASSWORD + "\n"), (("--password-file", secret, USER), ""), (("--password-file", "-", USER), PASSWORD), (("-k", "-t", realm.users, USER), "")):
        expect(run("kinit", *words, text=text) == (0, "", ""), "kinit %s" % (words,))
        expect(listed(realm, path)[0] == USER and GRANTING in listed(realm, path)[1], "kinit %s: MIT's klist" % (words,))
        expect(os.stat(path).st_mode & 0o777 == 0o600, "kinit %s: the mode" % (words,))
        expect(run("klist", "-s") == (0, "", ""), "klist -s")
    expect(run("kinit", "-f", "-p", "-l", "20m", "-r", "2h", USER, text=PASSWORD)[0] == 0, "kinit with options")
    own = listed(realm, path)[1][GRANTING]
    expect(own["flags"] == "AFIPR", "the flags %s" % own["flags"])
    expect(abs(own["end"] - time.time() - 1200) < 10, "the end %s" % own["end"])
    time.sleep(1.1)
    expect(run("kinit", "-R") == (0, "", "") and listed(realm, path)[1][GRANTING]["end"] > own["end"], "kinit -R")
    status, out, err = run("klist", "-e", "-f")
    expect(status == 0 and "Default principal: %s\n" % USER in out and GRANTING in out and "Flags: FPRIA" in out and "Etype (skey, tkt): aes256-cts-hmac-sha1-96, " in out, "klist: %s %s" % (out, err))
    status, out, err = run("kvno", "HTTP/localhost", "e17/localhost@" + REALM)
    realm.run("kinit", "-c", mit, "ann", text=PASSWORD + "\n")
    theirs = realm.run("kvno", "-c", mit, "HTTP/localhost", "e17/localhost")
    expect(status == 0 and out == theirs, "kvno: %s, and MIT's: %s %s" % (out, theirs, err))
    expect(set(listed(realm, path)[1]) == {GRANTING, "HTTP/localhost@" + REALM, "e17/localhost@" + REALM}, "the file after kvno: %s" % (listed(realm, path),))
    expect(run("kvno", "HTTP/localhost") == (0, out.splitlines()[0] + "\n", ""), "kvno again")
    status, out, err = run("kvno", "HTTP/nowhere", "HTTP/localhost")
    expect(status == 1 and "HTTP/localhost" in out and err.startswith("kvno: HTTP/nowhere@"), "kvno of an unknown one: %s %s" % (out, err))
    # What MIT's kinit and kvno wrote, read and written anew.
    found = krb.client.load_all(mit)
    octets = octets_in(mit)
    expect({each.server for each in found} == {GRANTING, "HTTP/localhost@" + REALM, "e17/localhost@" + REALM} and found[0].client == USER, "MIT's file: %s" % found)
    from krb import _ccache

    cache = _ccache.read_octets(octets)
    again = _ccache.written(cache)
    at, other = 4 + int.from_bytes(octets[2:4], "big"), 4 + int.from_bytes(again[2:4], "big")
    expect(again[other:] == octets[at:], "MIT's file written anew has other octets")
    for size in range(0, len(octets), 7):
        try:
            part = _ccache.read_octets(octets[:size])
            expect(part.entries == cache.entries[: len(part.entries)] and len(part.entries) < len(cache.entries), "the first %d octets of a file" % size)
        except ValueError:
            expect(True, "the first %d octets of a file" % size)
    status, out, err = run("klist", "-c", mit)
    expect(status == 0 and out.count(REALM) >= 3 and "X-CACHECONF" not in out, "klist of MIT's file: %s" % err)
    expect(run("kvno", "-c", mit, "e18/localhost")[0] == 0, "kvno by MIT's file")
    settings = [each for each in _ccache.read(mit).entries if each.is_setting]
    expect(settings == [each for each in cache.entries if each.is_setting], "MIT's settings are kept")
    expect("e18/localhost@" + REALM in listed(realm, mit)[1], "MIT's klist after that")
    expect(run("kinit", "-S", "HTTP/localhost", USER, text=PASSWORD)[0] == 0 and list(listed(realm, path)[1]) == ["HTTP/localhost@" + REALM], "kinit -S")
    expect(run("klist", "-s")[0] == 1, "klist -s without a ticket-granting ticket")
    krb.kinit(USER, PASSWORD, kdc=realm.kdc, lifetime=301).save(path)
    ended = krb.client.load(path)
    entry = ended.entry._replace(start_time=ended.entry.start_time - 1000, end_time=ended.entry.start_time - 500)
    krb.Credentials(entry).save(path)
    expect(run("klist", "-s")[0] == 1 and realm.status("klist", "-s", "-c", path)[0] == 1, "klist -s of a ticket that has ended")
    expect(run("kdestroy") == (0, "", "") and not os.path.exists(path), "kdestroy")
    server = "tcp/127.0.0.1:%d" % realm.password_port
    one_line("kpasswd, another password", run("kpasswd", "--server", server, "changing", text="another\nyet another\n"), "kpasswd: the KDC reports KDC_ERR_PREAUTH_FAILED")
    one_line("kpasswd, a password that is too short", run("kpasswd", "--server", server, "changing", text=PASSWORD + "\nshort\n"), "kpasswd: the new password is refused (4): ")
    expect(run("kpasswd", "--server", server, "changing", text=PASSWORD + "\nanother password\n") == (0, "The password is changed.\n", ""), "kpasswd")
    for word, is_right in ((PASSWORD, False), ("another password", True)):
        expect((realm.status("kinit", "-c", mit, "changing", text=word + "\n")[0] == 0) == is_right, "MIT's kinit with the password %s" % word)
    krb.client.change_password("changing@" + REALM, "another password", PASSWORD, kdc=realm.kdc, server=server.replace("tcp/", "udp/"))
    expect(krb.kinit("changing@" + REALM, PASSWORD, kdc=realm.kdc).is_valid, "a password that is changed over UDP")
    off = time.time() + 3600
    krb.client.change_password("changing@" + REALM, PASSWORD, "one more password", kdc=realm.kdc, server=server, clock=lambda: off)
    expect(krb.kinit("changing@" + REALM, "one more password", kdc=realm.kdc).is_valid, "a password that is changed by a clock that is off")
    from servers import Relay

    def last_bit(request, reply):
        return reply[:-1] + bytes([reply[-1] ^ 1])

    relay = Relay(realm.password_port)
    relay.any, relay.change = True, last_bit
    try:
        krb.client.change_password("changing@" + REALM, "one more password", "a fourth password", kdc=realm.kdc, server=relay.kdc)
        expect(False, "a changed reply says that the password is changed")
    except krb.NotGranted as refused:
        expect(refused.rule == krb.ClientRule.OPENING, "a changed reply of the server that changes passwords: %s" % refused)
    relay.stop()
    program = os.path.join(os.path.dirname(os.path.dirname(os.path.dirname(os.path.abspath(__file__)))), "examples", "python", "first_login.py")
    first = dict(env=environment, capture_output=True, text=True, timeout=60, start_new_session=True)  # without a terminal, the password is read from the input
    done = subprocess.run(["/usr/bin/python3", "-B", program, USER, "HTTP/localhost", path], input=PASSWORD + "\n", **first)
    expect(done.returncode == 0 and done.stdout.startswith("HTTP/localhost@%s until 2" % REALM), "first_login.py: %s %s" % (done.stdout, done.stderr))
    expect(set(listed(realm, path)[1]) == {GRANTING, "HTTP/localhost@" + REALM}, "first_login.py: its file")
    done = subprocess.run(["/usr/bin/python3", "-B", program, USER, "HTTP/localhost", path], input="another\n", **first)
    expect(done.returncode == 1 and done.stdout == "" and "first_login: KDC: the KDC reports KDC_ERR_PREAUTH_FAILED (24)" in done.stderr, "first_login.py: %s" % done.stderr)
    say("python -m krb")
