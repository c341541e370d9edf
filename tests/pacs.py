"""What buffers of PACs hold, by the pages of krb_show_page and krb_show_placed_page."""

import datetime
import json
import re

from library import Fault
from rows import octets
from shown import lines_of

# The JSON of a PAC of one buffer: the number and the name of its type, and the rest.
OF_TYPE = re.compile(r'\{"PAC":\[\{"ulType":\{"number":(\d+),"name":(.*?)\},(.*)\}\]\}')
# Seconds from 1601 to 1970, and parts of one in a FILETIME (MS-DTYP, 2.3.3).
SINCE_1601, PARTS = 11_644_473_600, 10_000_000
TIMES = ("LogonTime", "LogoffTime", "KickOffTime")
TIMES += ("PasswordLastSet", "PasswordCanChange", "PasswordMustChange")
NAMES = ("EffectiveName", "FullName", "LogonScript", "ProfilePath")
NAMES += ("HomeDirectory", "HomeDirectoryDrive")
COUNTS = ("LogonCount", "BadPasswordCount", "UserId", "PrimaryGroupId")
# The struct of a buffer of type 10, and its members (MS-PAC, 2.7).
CLIENT_INFO = "PAC_CLIENT_INFO", ["ClientId", "Name"]
# What stands in a page without quotes: times and identifiers.
VALUE = re.compile(r"never|\d{4}-\d\d-\d\dT\d\d:\d\d:\d\dZ|S-1(-\w+)+")
ESCAPES = {0x22: '\\"', 0x5C: "\\\\"}


def buffers(library, columns):
    """A row of `buffers`: an origin, the number of a buffer's type, and its octets: the lines and
    the JSON of what it holds, which is shown of a PAC of this buffer alone."""
    _, number, given = columns
    return shown_alone(library, int(number), octets(given))


def shown_alone(library, number, buffer):
    """The lines and the JSON of what a buffer holds, of a PAC of it alone, whose own lines stand
    before."""
    size, digits = len(buffer), buffer.hex()
    pac = bytes([1, 0, 0, 0, 0, 0, 0, 0]) + number.to_bytes(4, "little")
    pac += size.to_bytes(4, "little") + bytes([24, 0, 0, 0, 0, 0, 0, 0])
    pac += buffer + bytes(-size % 8)
    text, line = (library.show_page(b"PAC", pac, b"", is_json, True) for is_json in (False, True))
    lines, (line,) = lines_of(text.demand().out), lines_of(line.demand().out)
    behind = f'"cbBufferSize":{size},"Offset":24,"buffer":"{digits}"'
    told, name, inner = OF_TYPE.fullmatch(line).groups()
    if told != str(number) or not inner.startswith(behind):
        raise Fault(f"the buffer is not told: {line[:200]}")
    kind = f"{number} {json.loads(name) or ''}".rstrip(" ")
    own = ["PAC[1]:", "  PAC:", f"    ulType: {kind}", f"    cbBufferSize: {size}"]
    own += ["    Offset: 24", f"    buffer: {size} octets{' ' if size else ''}{digits}"]
    if lines[: len(own)] != own:
        raise Fault(f"the buffer is told otherwise: {lines[: len(own)]}")
    lines = [it.removeprefix("    ") for it in lines[len(own) :]]
    return [*lines, f"{{{inner[len(behind) :].removeprefix(',')}}}"]


def logon(library, columns):
    """A row of `logon`: an origin and a PAC: the lines of its logon information, as `ndrdump` has
    it, or why that is not read."""
    given = octets(columns[1])
    told = library.show_placed_page(b"PAC", given, b"", True, True)
    (line,) = lines_of(told.demand().out)
    of_logon = [it["value"] for it in json.loads(line)["PAC"]["value"] if type_of(it) == 1]
    if not of_logon:
        return ["no logon information"]
    if "KERB_VALIDATION_INFO" not in of_logon[0]:
        return [f'unread: "{of_logon[0]["unread"]}"']
    return lines_of_logon(of_logon[0]["KERB_VALIDATION_INFO"]["value"], given)


def type_of(buffer):
    return buffer["value"]["ulType"]["value"]["number"]


def lines_of_logon(it, given):
    """The lines of logon information, whose members have their places in the PAC."""
    numbers = [str(it[name]["value"]) for name in COUNTS]
    numbers += [str(int(it[name]["value"], 16)) for name in ("UserFlags", "UserAccountControl")]
    sids = [it["LogonDomainId"]["value"], *groups_of(it, "ExtraSids", "Sid")]
    if "ResourceGroupDomainSid" in it:
        sids += ["resource", it["ResourceGroupDomainSid"]["value"]]
    lines = [
        ["times", *(str(seconds_of(it[name], given)) for name in TIMES)],
        ["names", *(name_of(it[name]) for name in NAMES)],
        ["server", name_of(it["LogonServer"]), "domain", name_of(it["LogonDomainName"])],
        ["numbers", *numbers],
        ["groups", *groups_of(it, "GroupIds", "RelativeId")],
        ["resource groups", *groups_of(it, "ResourceGroupIds", "RelativeId")],
        ["sids", *sids],
    ]
    return [" ".join(line) for line in lines]


def seconds_of(member, given):
    """The seconds since 1970 of a time, the nearest, as Samba prints them, and 0 before: of the
    octets at its place, which have to be those of the time that is shown."""
    time = int.from_bytes(given[member["offset"] :][: member["size"]], "little")
    if member["size"] != 8 or member["value"] != shown_time(time):
        raise Fault(f"{member['value']} is shown of the FILETIME {time}")
    return max((time + PARTS // 2) // PARTS - SINCE_1601, 0)


def shown_time(time):
    """A FILETIME as pages have it, in whole seconds."""
    if time == (1 << 63) - 1:
        return "never"
    at = datetime.datetime(1601, 1, 1) + datetime.timedelta(seconds=time // PARTS)
    return f"{at.isoformat()}Z"


def name_of(member):
    """The digits of a name in UTF-16, in brackets."""
    return f"[{member['value'].encode('utf-16-le').hex()}]"


def groups_of(it, name, what):
    """What a list has, and the attributes of each."""
    each = [member["value"] for member in it[name]["value"]]
    return [f"{one[what]['value']}/{int(one['Attributes']['value'], 16)}" for one in each]


def texts(library, columns):
    """A row of `texts`: `sid` and the octets of an identifier, `name` and those of a name in
    UTF-16, or `time` and the number of a FILETIME: the identifier, the digits of the name in UTF-8
    or that it is none, or what is shown of the time."""
    kind, given = columns
    if kind == "sid":
        return [members_alone(library, 18, octets(given), "PAC_REQUESTOR", ["UserSid"])[0]]
    if kind == "time":
        buffer = int(given).to_bytes(8, "little") + bytes([2, 0, 0x78, 0])
        told, _ = members_alone(library, 10, buffer, *CLIENT_INFO)
        return ["unrepresentable" if told == given else told]
    name = octets(given)
    buffer = bytes(8) + len(name).to_bytes(2, "little") + name
    _, told = members_alone(library, 10, buffer, *CLIENT_INFO)
    return ["none" if name and told == name.hex() else f"text {told.encode().hex()}"]


def members_alone(library, number, buffer, struct, names):
    """The members of a struct that a buffer holds, as its JSON has them: its lines have to be
    those."""
    *lines, line = shown_alone(library, number, buffer)
    told = json.loads(line)[struct]
    own = [f"{struct}:", *(f"  {name}: {text_of(told[name], buffer)}" for name in names)]
    if list(told) != names or lines != own:
        raise Fault(f"{line} is shown as {lines}")
    return [str(told[name]) for name in names]


def text_of(value, buffer):
    """A value as a page has it: a name is in quotes, or its octets are shown."""
    if not isinstance(value, str) or VALUE.fullmatch(value):
        return str(value)
    if value == buffer[10:].hex() != "":
        return f"{len(value) // 2} octets {value}"
    octets_of_text = value.encode()
    plain = {it: chr(it) for it in range(32, 127)} | ESCAPES
    return f'"{"".join(plain.get(it, f"{chr(92)}x{it:02x}") for it in octets_of_text)}"'
