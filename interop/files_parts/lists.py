"""The lists of keytabs and caches, and entries that were removed."""

import ctypes
import re
import shutil

from judges import SUITES
from klist import klist_cache, klist_entries, klist_keytab, klist_letters
from jolmurig import Failed, shown, written

from others import converted

# The lines of `jolmurig list`, and its names of encryption types.
LIST_ETYPES = {**SUITES, 23: "rc4-hmac", 25: "camellia128-cts-cmac", 26: "camellia256-cts-cmac"}
LISTED_TIME = r"(\d{4}-\d\d-\d\dT\d\d:\d\d:\d\dZ)"
LISTED_ENTRY = re.compile(r"( *\d+) " + LISTED_TIME + r" (\S+) \((\S+|etype \d+)\)")
LISTED_CREDENTIAL = re.compile(
    LISTED_TIME + "  " + LISTED_TIME + r"  (\S+)(?:  for client (\S+))?(?:  renew until " + LISTED_TIME + r")?(?:  Flags: ([A-Za-z]+))?"
    r"  Etype \(skey, tkt\): (\S+|etype -?\d+), (\S+|etype -?\d+)"
)


def listed(file, header):
    """The lines of `jolmurig list` behind those of its head, which is printable ASCII throughout."""
    lines = written("list", file).stdout.decode("ascii").split("\n")
    if lines.pop() or any(not 32 <= ord(character) <= 126 for line in lines for character in line):
        raise Failed("jolmurig list %s: no lines of printable ASCII" % file)
    if header not in lines[:2]:
        raise Failed("jolmurig list %s: no header" % file)
    return lines


def listed_name(text):
    """A principal as klist writes it: `\\xHH` is an octet, and other octets behind a `\\` stay behind it."""
    octets = re.sub(rb"\\x([0-9a-f]{2})|(\\.)", lambda found: bytes.fromhex(found[1].decode()) if found[1] else found[2], text.encode())
    return octets.decode("utf-8")


def listed_etype(etype):
    """Our name of what `etype_number` has of klist's text: a number, or the text where klist knows no name."""
    return LIST_ETYPES.get(etype, etype)


def judge_keytab_list(session, title, keytab):
    theirs = klist_keytab(session.realm, keytab)
    lines = listed(keytab, "KVNO Timestamp            Principal")[1:]
    session.tally.same(title, "lines of the list", len(theirs), len(lines))
    for number, (entry, line) in enumerate(zip(theirs, lines), 1):
        version, when, principal, etype = LISTED_ENTRY.fullmatch(line).groups()
        ours = {"vno": version, "timestamp": when, "principal": listed_name(principal), "keytype": etype}
        wanted = {"vno": "%4d" % entry["vno"], "timestamp": entry["timestamp"], "principal": entry["principal"], "keytype": listed_etype(entry["keytype"])}
        session.tally.each("%s: line %d of the list" % (title, number), wanted, ours)


def judge_cache_list(session, title, cache):
    principal, theirs = klist_cache(session.realm, cache)
    theirs = [entry for entry in theirs if "server" in entry]
    own, _, *lines = listed(cache, "Valid starting        Expires               Service principal")
    session.tally.same(title, "default principal of the list", "Default principal: " + principal, listed_name(own))
    session.tally.same(title, "lines of the list", len(theirs), len(lines))
    for number, (entry, letters, line) in enumerate(zip(theirs, klist_letters(session.realm, cache), lines), 1):
        start, end, server, client, renew, flags, session_etype, ticket_etype = LISTED_CREDENTIAL.fullmatch(line).groups()
        ours = {"start": start, "end": end, "server": listed_name(server), "client": client and listed_name(client), "renew": renew, "flags": flags or ""}
        ours.update({"skey": session_etype, "tkt": ticket_etype})
        wanted = {name: entry[name] for name in ("start", "end", "server", "renew")}
        wanted.update({"client": entry["client"] if entry["client"] != principal else None, "flags": letters})
        wanted.update({"skey": listed_etype(entry.get("skey", session_etype)), "tkt": listed_etype(entry.get("tkt", "unreadable"))})
        session.tally.each("%s: line %d of the list" % (title, number), wanted, ours)


# Entries that were removed.


def remove_entry(path, number):
    """Removes an entry of a cache by libkrb5: the one of this number among those that it has not removed, entries of configuration among them."""
    library = ctypes.CDLL("libkrb5.so.3")
    context, cache, cursor = ctypes.c_void_p(), ctypes.c_void_p(), ctypes.c_void_p()
    credentials = ctypes.create_string_buffer(1024)  # A krb5_creds, which is smaller.

    def call(name, *arguments):
        code = getattr(library, name)(*arguments)
        if code:
            raise Failed("%s of %s: %d" % (name, path, code))

    call("krb5_init_context", ctypes.byref(context))
    call("krb5_cc_resolve", context, ("FILE:" + path).encode(), ctypes.byref(cache))
    call("krb5_cc_start_seq_get", context, cache, ctypes.byref(cursor))
    for _ in range(number + 1):
        call("krb5_cc_next_cred", context, cache, ctypes.byref(cursor), credentials)
    call("krb5_cc_end_seq_get", context, cache, ctypes.byref(cursor))
    call("krb5_cc_remove_cred", context, cache, 0, credentials)
    call("krb5_cc_close", context, cache)


def judge_removed(session, title, cache):
    """A cache of which an entry of configuration and the first ticket were removed, against klist, which shows neither."""
    realm, tally = session.realm, session.tally
    removed = realm.path("removed.ccache")
    shutil.copy(cache, removed)
    before = klist_cache(realm, removed)[1]
    kinds = ["server" in entry for entry in before]
    numbers = sorted([kinds.index(False), kinds.index(True)])
    for number in reversed(numbers):
        remove_entry(removed, number)
    left = klist_cache(realm, removed)[1]
    tally.same(title, "entries that klist has left", [n for k, n in enumerate(before) if k not in numbers], left)
    judge_cache_list(session, title, removed)
    marks = [credential.get("removed", False) for credential in shown("ccache", removed)["credentials"]]
    tally.same(title, "entries that show says were removed", [k in numbers for k in range(len(before))], marks)
    kirbi, left_out = converted(realm, "kirbi", removed, "removed.kirbi")
    tally.same(title, "removed entries are left out", True, "jolmurig: left out: removed entries" in left_out)
    back, _ = converted(realm, "ccache", kirbi, "removed.back")
    tally.same(title, "klist of the cache of its .kirbi", klist_entries(realm, removed), klist_entries(realm, back))
