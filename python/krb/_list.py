"""What `krb list` and `krb klist` print: the entries of keytabs, of credential caches and of KRB-CREDs (.kirbi)."""

import argparse
import datetime
import json
import time
from typing import Any, Dict, Iterator, List, NamedTuple, Optional, Tuple

from krb._context import unparsed
from krb._facts import printable
from krb._forms import given_octets
from krb._items import Registry, find_number, name_of
from krb._library import Refused
from krb._output import input_octets, named
from krb._parts import decode
from krb._paths import cache_path, keytab_path

__all__ = ["LETTERS", "ended_since", "etype_of", "lines_of_keytab", "list_keytab", "run_list", "shown"]

# The letters of flags, as klist of MIT Kerberos has them.
LETTERS = {1: "F", 2: "f", 3: "P", 4: "p", 5: "D", 6: "d", 7: "i", 8: "R", 9: "I", 10: "A", 11: "H", 12: "T", 13: "O"}
_SETTINGS = "X-CACHECONF:"  # the realm of entries of a cache that are settings of MIT's


def shown(when: Optional[datetime.datetime]) -> str:
    """A time of the machine's zone."""
    return "" if when is None else when.astimezone().strftime("%Y-%m-%d %H:%M:%S")


def etype_of(number: int) -> str:
    return name_of(Registry.ENCRYPTION_TYPE, number) or "etype %d" % number


def ended_since(end: Optional[datetime.datetime], now: float) -> str:
    """How long ago a ticket has ended, as "ended 3 d 11 h ago"; no text where it has not."""
    minutes = 0 if end is None else int(now - end.timestamp()) // 60
    if end is None or end.timestamp() > now:
        return ""
    days, hours = minutes // 1440, minutes // 60 % 24
    if days:
        return "ended %d d %d h ago" % (days, hours)
    return "ended %d h %d min ago" % (hours, minutes % 60) if hours else "ended %d min ago" % minutes


class Key(NamedTuple):
    """A key of a keytab."""

    kvno: int
    time: datetime.datetime
    principal: str
    etype: int


class Held(NamedTuple):
    """A ticket of a cache or of a KRB-CRED, with what is said of it beside."""

    client: str
    server: str
    start: Optional[datetime.datetime]
    end: Optional[datetime.datetime]
    renew_till: Optional[datetime.datetime]
    flags: Optional[int]
    session_etype: Optional[int]
    ticket_etype: Optional[int]
    kvno: Optional[int]


def keys_of(octets: bytes) -> List[Key]:
    """The keys of a keytab. Refused."""
    entries = [each for each in decode(octets, "keytab") if "keytype" in each]  # others are records that were removed
    return [Key(each["vno"], each["timestamp"], printable(unparsed(tuple(each["components"]), each["realm"])), each["keytype"]) for each in entries]


def _moment(value: Any) -> Optional[datetime.datetime]:
    """A time of a tree; None for none, which a cache has as 1970."""
    return value if isinstance(value, datetime.datetime) and value.timestamp() > 0 else None


def _number(flags: Any) -> Optional[int]:
    """Flags as a number, whose highest bit of 32 is the flag 0."""
    if isinstance(flags, int):
        return flags
    if not isinstance(flags, frozenset):
        return None
    names = {name_of(Registry.TICKET_FLAG, number) or str(number): number for number in range(32)}
    return sum(1 << 31 - names[each] for each in flags if each in names)


def _of_ticket(ticket: Any) -> Tuple[Optional[int], Optional[int]]:
    """The encryption type of a ticket, and the version of its key."""
    try:
        if isinstance(ticket, dict):
            return ticket["enc-part"]["etype"], ticket["enc-part"].get("kvno")
        return find_number(ticket, "Ticket", "enc-part.etype"), find_number(ticket, "Ticket", "enc-part.kvno")
    except (Refused, LookupError, TypeError):
        return None, None


def _in_cache(octets: bytes) -> Tuple[Optional[str], List[Held]]:
    """The client of a cache, and its tickets. Refused."""
    told = decode(octets, "ccache")

    def name(each: Any) -> str:
        return printable(unparsed(tuple(map(str, each["components"])), str(each["realm"])))

    tickets = [each for each in told["credentials"] if str(each["server"]["realm"]) != _SETTINGS]
    return name(told["principal"]), [
        Held(
            name(each["client"]), name(each["server"]), _moment(each["starttime"]) or _moment(each["authtime"]), _moment(each["endtime"]),
            _moment(each["renew-till"]), _number(each["ticket-flags"]), each["key"]["keytype"], *_of_ticket(each["ticket"]),
        )
        for each in tickets
    ]


def _in_message(octets: bytes) -> Tuple[Optional[str], List[Held]]:
    """The tickets of a KRB-CRED, with what its encrypted part says of them where that is in the clear. Refused; ValueError: it is not."""
    told = decode(octets, "KRB-CRED")
    infos = told["enc-part"].get("EncKrbCredPart", {}).get("ticket-info")
    if infos is None:
        infos = [{}] * len(told["tickets"])

    def name(parts: Any, realm: Any) -> str:
        return "" if parts is None else printable(unparsed(tuple(map(str, parts["name-string"])), str(realm)))

    held = []
    for ticket, info in zip(told["tickets"], infos):
        server = name(ticket["sname"], ticket["realm"])
        start, end, renew_till = (_moment(info.get(each)) for each in ("starttime", "endtime", "renew-till"))
        client, key = name(info.get("pname"), info.get("prealm")), info.get("key", {}).get("keytype")
        held.append(Held(client, server, start or _moment(info.get("authtime")), end, renew_till, _number(info.get("flags")), key, *_of_ticket(ticket)))
    clients = {each.client for each in held if each.client}
    return clients.pop() if len(clients) == 1 else None, held


def lines_of_keytab(keys: List[Key], with_etypes: bool) -> Iterator[str]:
    """The lines of klist -k."""
    yield "%4s  %-19s  %s" % ("KVNO", "Timestamp", "Principal")
    for key in keys:
        yield "%4d  %s  %s%s" % (key.kvno, shown(key.time), key.principal, " (%s)" % etype_of(key.etype) if with_etypes else "")


def list_keytab(path: str, with_etypes: bool) -> int:
    """What klist -k prints."""
    with named(path), open(path, "rb") as file:
        keys = keys_of(file.read())
    print("Keytab name: FILE:%s\n" % printable(path))
    for line in lines_of_keytab(keys, with_etypes):
        print(line)
    return 0


def _lines_of_tickets(tickets: List[Held], client: Optional[str], now: float) -> Iterator[str]:
    yield "%-19s  %-19s  %s" % ("Valid starting", "Expires", "Service principal")
    for each in tickets:
        over = ended_since(each.end, now)
        yield "%-19s  %-19s  %s%s" % (shown(each.start), shown(each.end), each.server, "  (%s)" % over if over else "")
        words = ["for " + each.client] if each.client and each.client != client else []
        words += ["renew until " + shown(each.renew_till)] if each.renew_till else []
        if each.flags is not None:
            words.append("flags " + ("".join(letter for number, letter in LETTERS.items() if each.flags >> 31 - number & 1) or "none"))
        etypes = [etype_of(number) for number in (each.session_etype, each.ticket_etype) if number is not None]
        words += ["etypes (session key, ticket) " + ", ".join(etypes)] if len(etypes) == 2 else ["etype of the ticket " + etypes[0]] if etypes else []
        words += ["kvno %d" % each.kvno] if each.kvno is not None else []
        if words:
            yield "    " + ", ".join(words)


def _as_json(entry: Any, now: float) -> str:
    fields: Dict[str, Any] = entry._asdict()
    for name, value in fields.items():
        if isinstance(value, datetime.datetime):
            fields[name] = value.strftime("%Y-%m-%dT%H:%M:%SZ")
        elif name.endswith("etype") and value is not None:
            fields[name] = etype_of(value)
        elif name == "flags" and value is not None:
            fields[name] = [name_of(Registry.TICKET_FLAG, number) or str(number) for number in range(32) if value >> 31 - number & 1]
    if isinstance(entry, Held):
        fields["has_ended"] = entry.end is not None and entry.end.timestamp() <= now
    return json.dumps({name: value for name, value in fields.items() if value is not None})


def _read(octets: bytes) -> Tuple[str, Optional[str], List[Any]]:
    """What a file is called, its client, and its entries. Refused; ValueError: it is of no kind that is listed."""
    octets = given_octets(octets).octets
    if not octets:
        raise ValueError("the input is empty")
    if octets[:1] == b"\5" and octets[1:2] in (b"\1", b"\2"):
        return "Keytab", None, keys_of(octets)
    if octets[:1] == b"\5" and octets[1:2] in (b"\1", b"\2", b"\3", b"\4"):
        return "Credential cache", *_in_cache(octets)
    if octets[:1] == b"\x76":
        return "KRB-CRED", *_in_message(octets)
    raise ValueError("no keytab, no credential cache and no KRB-CRED; krb show tells what it is")


def run_list(options: argparse.Namespace) -> int:
    """The entries of a file, a line or two each, or a line of JSON."""
    path: str = options.file or (keytab_path(None) if options.use_keytab else cache_path(None))
    octets = input_octets(path)
    with named("standard input" if path == "-" else path):
        kind, client, entries = _read(octets)
    now = time.time()
    if options.json:
        for each in entries:
            print(_as_json(each, now))
        return 0
    print("%s: %s%s, %d %s" % (
        kind, "standard input" if path == "-" else printable(path), " of " + client if client else "", len(entries),
        ("entry" if len(entries) == 1 else "entries") if kind == "Keytab" else "ticket" if len(entries) == 1 else "tickets",
    ))
    for line in lines_of_keytab(entries, True) if kind == "Keytab" else _lines_of_tickets(entries, client, now):
        print(line)
    return 0
