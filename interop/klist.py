"""What MIT's klist says of keytabs and caches, in the forms of `jolmurig show --json`. A realm is one of realm.Servers, in UTC."""

import re
import time

# The numbers (IANA) of the names that MIT and Heimdal print, and our names of those whose keys open.
ETYPES = {
    "des3-cbc-sha1": 16,
    "aes128-cts-hmac-sha1-96": 17,
    "aes256-cts-hmac-sha1-96": 18,
    "aes128-cts-hmac-sha256-128": 19,
    "aes256-cts-hmac-sha384-192": 20,
    "arcfour-hmac": 23,
    "arcfour-hmac-md5": 23,
    "camellia128-cts-cmac": 25,
    "camellia256-cts-cmac": 26,
}
# The letters of klist -f (its manual page); enc-pa-rep has none.
LETTERS = {
    "F": "forwardable",
    "f": "forwarded",
    "P": "proxiable",
    "p": "proxy",
    "D": "may-postdate",
    "d": "postdated",
    "i": "invalid",
    "R": "renewable",
    "I": "initial",
    "H": "hw-authent",
    "A": "pre-authent",
    "T": "transited-policy-checked",
    "O": "ok-as-delegate",
    "a": "anonymous",
}


def klist_time(text):
    return time.strftime("%Y-%m-%dT%H:%M:%SZ", time.strptime(text, "%m/%d/%y %H:%M:%S"))


def etype_number(text):
    name = text.strip().removeprefix("DEPRECATED:")
    unknown = re.fullmatch(r"unknown(?:-enctype)? ?\((\d+)\)", name)
    return int(unknown[1]) if unknown else ETYPES.get(name, name)


ENTRY = re.compile(r" *(\d+) (\S+ \S+) (.*) \(([^()]*)\) +\(0x([0-9a-f]+)\)")
TIME = r"(\d\d/\d\d/\d\d \d\d:\d\d:\d\d)"
CREDENTIAL = re.compile(TIME + "  " + TIME + "  (.*)")
CONFIGURATION = re.compile(r"config: ([^(]*)(?:\((.*)\))? = (.*)")


def klist_keytab(realm, keytab):
    lines = realm.run("klist", "-ktKe", keytab).split("\n")[3:]
    names = ("vno", "timestamp", "principal", "keytype", "keyvalue")
    readers = (int, klist_time, str, etype_number, str)
    found = [ENTRY.fullmatch(line).groups() for line in lines if line]
    return [{name: reader(text) for name, reader, text in zip(names, readers, texts)} for texts in found]


def klist_detail(text, entry):
    """What a line below a credential adds to it."""
    found = re.match(r"\t(?:for client (?P<client>.*?)(?:, |$))?(?:renew until %s(?:, |$))?(?:Flags: (?P<flags>\w+)(?:, |$))?" % TIME, text)
    entry["client"] = found["client"] or entry["client"]
    entry["renew"] = klist_time(found[2]) if found[2] else entry["renew"]
    entry["flags"] = sorted(LETTERS[letter] for letter in found["flags"]) if found["flags"] else entry["flags"]
    rest = text[found.end() :]
    if rest.startswith("Etype (skey, tkt): "):
        entry["skey"], entry["tkt"] = map(etype_number, rest.split(": ")[1].split(","))
    if rest.startswith("Addresses: ") and "(none)" not in rest:
        entry["addresses"] = rest.split(": ")[1].split(", ")


def klist_cache(realm, cache):
    """The default principal, and the credentials and entries of configuration in their order."""
    lines = realm.run("klist", "-Cefan", "-c", cache).split("\n")
    principal = lines[1].split("Default principal: ")[1]
    entries = []
    for line in lines[4:]:
        head, configuration = CREDENTIAL.fullmatch(line), CONFIGURATION.fullmatch(line)
        if head:
            start, end, server = head.groups()
            entries.append({"server": server, "client": principal, "start": klist_time(start), "end": klist_time(end)})
            entries[-1].update({"renew": None, "flags": [], "addresses": []})
        elif configuration:
            name, of, data = configuration.groups()
            entries.append({"configuration": name, "of": of, "data": data})
        elif line and "configuration" not in entries[-1]:
            klist_detail(line, entries[-1])
    return principal, entries


def klist_letters(realm, cache):
    """The letters of each credential, in the order of klist."""
    lines = realm.run("klist", "-f", "-c", cache).split("\n")[4:]
    found = []
    for line in lines:
        if CREDENTIAL.fullmatch(line):
            found.append("")
        letters = re.search(r"Flags: (\w+)", line)
        if letters:
            found[-1] = letters[1]
    return found


def klist_entries(realm, cache):
    return [entry for entry in klist_cache(realm, cache)[1] if "server" in entry]
