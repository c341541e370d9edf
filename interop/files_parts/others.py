"""What Heimdal and impacket make of files, and what `jolmurig convert` makes of theirs."""

import os
import re
import time

from judges import EPOCH, SUITES, judge_cache, judge_part, judge_pacs, opened_of, principal_name, shown_credential, shown_keytab, tickets_of
from klist import etype_number, klist_cache, klist_entries
from octets import octets_in
from jolmurig import is_refused, ran, shown, written

from checksums import judge_checksums, named_keys
from made import PASSWORD, REALM, TGS

EXAMPLES = "/usr/share/doc/python3-impacket/examples"
NOT_ASCII = "jolmurig: convert: an octet of a name is past 127\n"


# Heimdal.


class Heimdal:
    """Heimdal's programs beside those of MIT."""

    def __init__(self, realm, programs):
        self.realm, self.programs = realm, programs

    def run(self, command, *arguments):
        return self.realm.run(self.programs.path(command), *arguments, LD_LIBRARY_PATH=self.programs.libraries)

    def make_cache(self):
        """A cache by its kinit and kgetcred."""
        cache, password = self.realm.path("heimdal.cache"), self.realm.write("password", PASSWORD + "\n")
        self.run("kinit.heimdal", "-c", "FILE:" + cache, "--password-file=" + password, "-f", "-r", "2d", "alice")
        self.run("kgetcred", "-c", "FILE:" + cache, "host/" + SUITES[19])
        return cache

    def make_keytab(self):
        keytab = self.realm.path("heimdal.keytab")
        for name, version, etype in [("carol", 3, SUITES[18]), ("carol/admin", 300, "arcfour-hmac-md5"), ("carol", 4, SUITES[17])]:
            self.run("ktutil.heimdal", "-k", "FILE:" + keytab, "add", "-p", name, "-e", etype, "-V", str(version), "-w", PASSWORD)
        return keytab


def heimdal_time(text):
    return time.strftime("%Y-%m-%dT%H:%M:%SZ", time.strptime(text.replace(" (expired)", "").strip(), "%b %d %H:%M:%S %Y"))


def heimdal_block(lines):
    """A credential: `Name: value` in each line. The type of the session key stands there where it is not that of the ticket."""
    fields = dict(re.split(": *", line, maxsplit=1) for line in lines)
    etype, *version = fields["Ticket etype"].split(", kvno ")
    return {
        "server": fields["Server"],
        "client": fields["Client"],
        "tkt": etype_number(etype),
        "kvno": int(version[0]) if version else None,
        "skey": etype_number(fields.get("Session key", etype)),
        "authtime": heimdal_time(fields["Auth time"]),
        "start": heimdal_time(fields.get("Start time", fields["Auth time"])),
        "end": heimdal_time(fields["End time"]),
        "renew": heimdal_time(fields["Renew till"]) if "Renew till" in fields else None,
        "flags": sorted(fields["Ticket flags"].split(", ")) if fields["Ticket flags"] else [],
        "addresses": [] if fields["Addresses"] == "addressless" else [re.sub("IPv[46]:", "", n) for n in fields["Addresses"].split(", ")],
    }


def judge_heimdal_cache(session, heimdal, title, cache):
    os.chmod(cache, 0o600)
    blocks = heimdal.run("heimtools", "klist", "-v", "-c", "FILE:" + cache).strip().split("\n\n")
    principal = re.search(r"^ *Principal: (.*)$", blocks[0], re.MULTILINE)[1]
    version = re.search(r"^ *Cache version: (.*)$", blocks[0], re.MULTILINE)[1]
    found = shown("ccache", cache)
    session.tally.each(title, {"principal": principal, "version": int(version)}, {"principal": principal_name(found["principal"]), "version": found["version"]})
    theirs, ours = [heimdal_block(block.split("\n")) for block in blocks[1:]], tickets_of(found)
    session.tally.same(title, "credentials", len(theirs), len(ours))
    for one, credential in zip(theirs, ours):
        other = {**shown_credential(credential), "kvno": credential["ticket"]["enc-part"].get("kvno")}
        other.update({"authtime": credential["authtime"], "flags": sorted(credential["ticket-flags"]["names"])})
        session.tally.each("%s: %s" % (title, one["server"]), one, other)


def judge_heimdal_keytab(session, heimdal, title, keytab):
    """Heimdal's ktutil has the day alone of an entry's time, and two names for the type 23."""
    lines = heimdal.run("ktutil.heimdal", "-k", "FILE:" + keytab, "list", "--keys", "--timestamp").strip().split("\n")
    theirs = [re.split("  +", line.strip()) for line in lines[3:]]
    ours = [[str(n["vno"]), n["keytype"], n["principal"], n["timestamp"][:10], n["keyvalue"]] for n in shown_keytab(keytab, "--show-keys")]
    session.tally.same(title, "entries", len(theirs), len(ours))
    for number, (one, other) in enumerate(zip(theirs, ours), 1):
        session.tally.same("%s: entry %d" % (title, number), "all of it", [one[0], etype_number(one[1]), *one[2:5]], other)


# Impacket.


def impacket(realm, tool, *arguments):
    return realm.run("/usr/bin/python3", os.path.join(EXAMPLES, tool), *arguments)


def impacket_flags(digits):
    """The flags that impacket makes of these: it drops the zeros before the first bit that is set, and so names others."""
    bits = "{:b}".format(int(digits, 16))
    padded = bits + "0" * (-len(bits) % 8)
    return "0x%0*x" % (len(padded) // 4, int(padded, 2)) + ("/%d" % (len(padded) - len(bits)) if len(padded) > len(bits) else "")


def judge_kirbi(session, title, cache, entries):
    """The .kirbi that impacket makes of a cache's first credential, against klist's entry."""
    kirbi = session.realm.path("converted.kirbi")
    impacket(session.realm, "ticketConverter.py", cache, kirbi)
    found, tally = shown("KRB-CRED", "--show-keys", kirbi), session.tally
    credential = tickets_of(shown("ccache", "--show-keys", cache))[0]
    (info,) = found["enc-part"]["EncKrbCredPart"]["ticket-info"]
    theirs = {name: entries[0][name] for name in ("server", "client", "start", "end", "renew", "skey")}
    theirs["flags"] = impacket_flags(credential["ticket-flags"]["flags"])
    ours = {"server": info["sname"]["name-string"] + "@" + info["srealm"], "client": info["pname"]["name-string"] + "@" + info["prealm"]}
    ours.update({"start": info.get("starttime", info.get("authtime")), "end": info["endtime"], "flags": info["flags"]["flags"]})
    ours.update({"renew": None if info["renew-till"] == EPOCH else info["renew-till"], "skey": info["key"]["keytype"]["number"]})
    tally.each(title, theirs, ours)
    tally.same(title, "key", credential["key"]["keyvalue"], info["key"]["keyvalue"])
    tally.same(title, "tickets", [credential["ticket"]], found["tickets"])
    session.write(title, kirbi)


def judge_ticketer(session, title, keys):
    """A ticket that impacket seals with a key of the TGS, and that has logon information; its version of the key is none of the realm's."""
    realm, sid = session.realm, "S-1-5-21-1251882145-2580994133-1490777563"
    options = ["-domain", REALM, "-domain-sid", sid, "-groups", "513,512,1111", "-extra-sid", "S-1-18-1,S-1-5-21-1-2-3-519", "-user-id", "1102"]
    key = next(key for key in keys if key["keytype"] == 18)
    impacket(realm, "ticketer.py", "-aesKey", key["keyvalue"], *options, "carol")
    cache = realm.path("carol.ccache")
    (entry,) = judge_cache(session, title, cache)
    for what, given, opener in [("--keytab", realm.path("tgs.keytab"), "%s kvno %d" % (TGS, key["vno"])), ("--key", "18:" + key["keyvalue"], "--key 1")]:
        inside = "%s: %s" % (title, what)
        (credential,) = tickets_of(shown("ccache", what, given, "--show-keys", cache))
        part = credential["ticket"]["enc-part"]
        session.tally.each(inside, {"opened-by": opener, "key-usage": 2}, opened_of(part))
        judge_part(session, inside, entry, credential)
        judge_pacs(session, inside, entry, part["EncTicketPart"])
        own = named_keys(keys) if what == "--keytab" else [(opener, bytes.fromhex(key["keyvalue"]))]
        judge_checksums(session, inside, part, bytes.fromhex(key["keyvalue"]), own)
        session.write(inside, what, given, cache)
    return cache


# Converted files.


def converted(realm, target, source, name):
    """What `jolmurig convert` makes of a file, in a file, and the lines that say what is left out."""
    done = written("convert", target, source, notes=True)
    with open(realm.path(name), "wb") as file:
        file.write(done.stdout)
    return realm.path(name), done.stderr.decode("ascii").splitlines()


def without_flags(entry):
    return {name: value for name, value in entry.items() if name != "flags"}


def as_impacket(entry):
    """An entry of klist as ticketConverter.py keeps it: the client's first component, no addresses; and without the flags, which it shifts."""
    name, realm = entry["client"].rsplit("@", 1)
    return {**without_flags(entry), "client": re.match(r"(?:[^/\\]|\\.)*", name)[0] + "@" + realm, "addresses": []}


def judge_convert(session, title, cache, has_impacket):
    """A cache and its .kirbi, each made of the other by us and by ticketConverter.py (of the first credential alone), and read by klist and the other."""
    realm, tally = session.realm, session.tally
    listing = klist_cache(realm, cache)[1]
    entries = [entry for entry in listing if "server" in entry]
    if not all(entry[name].isascii() for entry in entries for name in ("client", "server")):
        done = ran(["convert", "kirbi", cache])
        tally.same(title, "the refusal", (True, NOT_ASCII), (is_refused(done), done.stderr.decode("ascii")))
        return
    kirbi, left_out = converted(realm, "kirbi", cache, "ours.kirbi")
    tally.same(title, "entries of configuration are left out", len(listing) > len(entries), "jolmurig: left out: configuration entries" in left_out)
    back, left_out = converted(realm, "ccache", kirbi, "ours.ccache")
    tally.same(title, "klist of the cache of our .kirbi", entries, klist_entries(realm, back))
    tally.same(title, "what a cache of our .kirbi leaves out", [], left_out)
    again, _ = converted(realm, "kirbi", back, "again.kirbi")
    tally.same(title, "the .kirbi of the cache of our .kirbi", octets_in(kirbi), octets_in(again))
    for path in (kirbi, back):
        session.write(title, path)
    if has_impacket:
        judge_converter(session, title, cache, kirbi, entries[0])


def judge_converter(session, title, cache, kirbi, entry):
    """What ticketConverter.py makes of our .kirbi, and we of its, against klist's first entry."""
    realm, tally = session.realm, session.tally
    if entry["renew"]:  # ticketConverter.py reads no .kirbi without renew-till, which RFC 4120 has as optional.
        theirs = realm.path("theirs.ccache")
        impacket(realm, "ticketConverter.py", kirbi, theirs)
        tally.same(title, "klist of impacket's cache of our .kirbi", [entry], klist_entries(realm, theirs))
    their_kirbi = realm.path("theirs.kirbi")
    impacket(realm, "ticketConverter.py", cache, their_kirbi)
    ours, _ = converted(realm, "ccache", their_kirbi, "of-theirs.ccache")
    tally.same(title, "klist of our cache of impacket's .kirbi", [as_impacket(entry)], [without_flags(e) for e in klist_entries(realm, ours)])
    tally.same(title, "the tickets", tickets_of(shown("ccache", cache))[0]["ticket"], tickets_of(shown("ccache", ours))[0]["ticket"])
    session.write(title, ours)
