"""What is not printed without --show-keys: keys, and passwords, old and new."""

import re
import struct
import subprocess

from broken import datagram, is_clean, made_of, read, requests, segment, told
from checks import expect
from compare import theirs
from others import BASIC, NEW_PASSWORD, SAMBA_PASSWORD
from realm import PASSWORD

PASSWORDS = "first", "second", PASSWORD, BASIC, SAMBA_PASSWORD, NEW_PASSWORD


def try_passwords(realm, environment, capture, keytab, error):
    """Frames in which a password is changed, of both versions, whole and changed; `error` is a KRB-ERROR."""
    found = [bytes(inner.data) for _, frame in read(capture) for _, inner in [segment(frame)] if inner is not None and inner.dport == 464]
    expect(len(found) == 1 and found[0][:4] == struct.pack(">I", len(found[0]) - 4), "one request for a new password: %d" % len(found))
    login = [frame for _, frame in read(capture) if segment(frame)[1] is not None and 88 in (segment(frame)[1].sport, segment(frame)[1].dport)]
    request = found[0][4:]
    other = request[:2] + b"\xff\x80" + request[4:]  # RFC 3244, 2: sets a password, maybe of another user
    asks = "UDP password request eve@HOME.TEST asks kadmin/changepw@HOME.TEST for a new password"
    opened = "; opened: EncTicketPart, Authenticator, EncKrbPrivPart"
    for title, payload, wanted in (
        ("version 1", request, asks + opened),
        ("version ff80", other, asks + opened),
        ("octets behind it", request + b"ab", asks + "; 2 octets behind it" + opened),
        ("another version", request[:2] + b"\0\2" + request[4:], "UDP not read: password request: OTHER_VERSION: .*"),
        ("a cut one", request[:-1], "UDP not read: password request: TRUNCATED: .*"),
        ("a cut one of version ff80", other[:-1], "UDP not read: KRB-PRIV: .*"),
        ("its first octets", other[:7], "UDP not read: .*"),
        ("a KRB-ERROR", error, re.escape("UDP KRB-ERROR 25 KDC_ERR_PREAUTH_REQUIRED: ann@HOME.TEST asked for krbtgt/HOME.TEST@HOME.TEST") + ".*"),
    ):
        path = made_of(realm, "passwords.pcap", login + datagram(payload, 464))
        for words, is_shown in ((["--show"], False), (["--show", "--show-keys"], True)):
            status, lines, out, errors = told(environment, path, "--keytab", keytab, *words)
            right = is_clean(out, errors) and re.fullmatch(wanted, lines[-1][2])
            expect(right and status == ("not read" in lines[-1][2]), "a password, %s: status %d, %s" % (title, status, lines[-1:]))
            if wanted.startswith(asks):
                shown = [word for word in ("first", "second") if word.encode().hex() in out]
                expect(len(shown) == is_shown, "a password, %s: %s is shown with %s" % (title, shown, words))


def try_secrets(realm, environment, captures):
    """No key and no password is printed without --show-keys, and each with it: those that tshark has learnt, and those of the keytab."""
    for title, (capture, keytab) in captures.items():
        listed = subprocess.run(["klist", "-kKte", keytab], env=realm.environment, capture_output=True, text=True).stdout
        long_term = set(re.findall(r"\(0x([0-9a-f]{32,64})\)", listed))
        expect(len(long_term) >= 8, "%s: klist has %d keys" % (title, len(long_term)))
        learnt = {value.replace(":", "") for fields in theirs(capture, keytab).values() for value in fields.get("kerberos.keyvalue", [])}
        expect(len(learnt) >= 3, "%s: tshark has learnt %d keys" % (title, len(learnt)))
        secrets = learnt | long_term | {word.encode().hex() for word in PASSWORDS} | {*PASSWORDS} - {"first"}
        for words in ([], ["--show"]):
            out = told(environment, capture, "--keytab", keytab, *words)[2]
            expect(not [each for each in secrets if each in out], "%s: a secret is printed" % title)
        out = told(environment, capture, "--keytab", keytab, "--show", "--show-keys")[2]
        expect(sum(each in out for each in learnt) >= 3, "%s: --show-keys shows no keys" % title)
        if title.startswith(("MIT", "Samba")):
            expect(any(word.encode().hex() in out for word in PASSWORDS), "%s: --show-keys does not show the new password" % title)


def try_hidden(realm, environment, captures, keytab):
    error = requests(captures["MIT's clients, udp"][0])[1]
    try_passwords(realm, environment, captures["MIT's clients, tcp"][0], keytab, error)
    try_secrets(realm, environment, captures)
