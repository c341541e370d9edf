"""What Samba's ndrdump says of PACs, in the names of `jolmurig show --json`."""

import calendar
import re
import time


class Node:
    """A line of ndrdump's tree."""

    def __init__(self, name, value):
        self.name, self.value, self.nodes, self.blob = name, value, [], b""

    def all(self, name):
        for node in self.nodes:
            if node.name == name:
                yield node
            yield from node.all(name)

    def last(self, name):
        """The value of the last node of this name: of a pointer, what it points to."""
        return list(self.all(name))[-1].value

    def number(self, name):
        return int(re.search(r"\((\d+)\)\Z", self.last(name))[1])

    def text(self, name):
        """The text of a string, or of a struct of one."""
        nodes = list(self.all(name))
        nodes = list(nodes[-1].all("string")) or nodes
        return "" if nodes[-1].value == "NULL" else nodes[-1].value[1:-1]


def ndr_tree(text):
    root = Node("", "")
    stack = [(-1, root)]
    for line in text.split("\n"):
        found = re.match(r"( *)(\w+) *: ?(.*?) *\Z", line)
        if re.match(r"\[[0-9A-F]{4}\] ", line):
            stack[-1][1].blob += bytes.fromhex("".join(line[7:57].split()))
        elif found:
            while stack[-1][0] >= len(found[1]):
                stack.pop()
            node = Node(found[2], found[3])
            stack[-1][1].nodes.append(node)
            stack.append((len(found[1]), node))
    return root


def ndr_time(text, filetime):
    """A time as jolmurig writes it: Samba rounds to the nearest second, where we have the second that the time is in."""
    if text.endswith(" 30828 UTC"):
        return "never"
    if text == "NTTIME(0)":
        return "1601-01-01T00:00:00Z"
    seconds = calendar.timegm(time.strptime(text, "%a %b %d %H:%M:%S %Y UTC"))
    return time.strftime("%Y-%m-%dT%H:%M:%SZ", time.gmtime(seconds - (filetime % 10**7 >= 5 * 10**6)))


def filetime_at(octets, place):
    return int.from_bytes(octets[place : place + 8], "little")


# Our names and those of ndrdump. The times stand one behind the other, from octet 20 (MS-PAC, 2.5, behind the headers of MS-RPCE, 2.2.6).
LOGON_TIMES = [
    ("LogonTime", "logon_time"),
    ("LogoffTime", "logoff_time"),
    ("KickOffTime", "kickoff_time"),
    ("PasswordLastSet", "last_password_change"),
    ("PasswordCanChange", "allow_password_change"),
    ("PasswordMustChange", "force_password_change"),
]
LOGON_TEXTS = [
    ("EffectiveName", "account_name"),
    ("FullName", "full_name"),
    ("LogonScript", "logon_script"),
    ("ProfilePath", "profile_path"),
    ("HomeDirectory", "home_directory"),
    ("HomeDirectoryDrive", "home_drive"),
    ("LogonServer", "logon_server"),
    ("LogonDomainName", "logon_domain"),
]
LOGON_NUMBERS = [
    ("LogonCount", "logon_count"),
    ("BadPasswordCount", "bad_password_count"),
    ("PrimaryGroupId", "primary_gid"),
    ("SubAuthStatus", "sub_auth_status"),
    ("FailedILogonCount", "failed_logon_count"),
]


def groups_of(node):
    return [{"RelativeId": n.number("rid"), "Attributes": "0x%08x" % n.number("attributes")} for n in node.all("rids") if n.value.startswith("struct")]


def ndr_logon(node, octets):
    (base,), (resources,) = node.all("base"), node.all("resource_groups")
    groups = next(n for n in base.nodes if n.name == "groups")
    fields = {ours: ndr_time(base.last(theirs), filetime_at(octets, 20 + 8 * n)) for n, (ours, theirs) in enumerate(LOGON_TIMES)}
    fields.update({ours: base.text(theirs) for ours, theirs in LOGON_TEXTS})
    fields.update({ours: base.number(theirs) for ours, theirs in LOGON_NUMBERS})
    fields["UserId"] = int(re.search(r"\((\d+)\)", next(n.value for n in base.nodes if n.name == "rid"))[1])
    fields.update({"GroupIds": groups_of(groups), "ResourceGroupIds": groups_of(resources)})
    fields["UserSessionKey"] = octets[140:156].hex()  # behind UserFlags (MS-PAC, 2.5); ndrdump writes that it is redacted
    fields.update({"UserFlags": "0x%08x" % base.number("user_flags"), "UserAccountControl": "0x%08x" % base.number("acct_flags")})
    fields["LogonDomainId"] = base.last("domain_sid")
    fields["LastSuccessfulILogon"] = ndr_time(base.last("last_successful_logon"), 0)
    fields["LastFailedILogon"] = ndr_time(base.last("last_failed_logon"), 0)
    sids = [n for n in node.all("sids") if n.value.startswith("struct")]
    fields["ExtraSids"] = [{"Sid": n.last("sid"), "Attributes": "0x%08x" % n.number("attributes")} for n in sids]
    domain = resources.last("domain_sid")
    return {"KERB_VALIDATION_INFO": {**fields, **({} if domain == "NULL" else {"ResourceGroupDomainSid": domain})}}


def ndr_upn(node):
    fields = {"Upn": node.text("upn_name"), "DnsDomainName": node.text("dns_domain_name"), "Flags": "0x%08x" % node.number("flags")}
    if node.number("flags") & 2:
        fields.update({"SamName": node.text("samaccountname"), "Sid": node.last("objectsid")})
    return {"UPN_DNS_INFO": fields}


def ndr_signature(node):
    (signature,) = node.all("signature")
    number = int.from_bytes(node.number("type").to_bytes(4, "big"), "big", signed=True)
    return {"PAC_SIGNATURE_DATA": {"SignatureType": number, "Signature": signature.blob.hex()}}


def ndr_contents(node, kind, octets):
    """What ndrdump says that a buffer holds, as jolmurig names it; None where it says nothing."""
    if kind == 1:
        return ndr_logon(node, octets)
    if kind == 10:
        return {"PAC_CLIENT_INFO": {"ClientId": ndr_time(node.last("logon_time"), filetime_at(octets, 0)), "Name": node.text("account_name")}}
    if kind == 12:
        return ndr_upn(node)
    if kind == 17:
        return {"PAC_ATTRIBUTES_INFO": {"FlagsLength": node.number("flags_length"), "Flags": "0x%08x" % node.number("flags")}}
    if kind == 18:
        return {"PAC_REQUESTOR": {"UserSid": node.last("sid")}}
    return ndr_signature(node) if list(node.all("signature")) else None
