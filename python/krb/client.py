"""A client: tickets of a KDC, and services that they are for (RFC 4120, 3.1 to 3.3; docs/CLIENT.md).

What is sent and which reply is taken is decided by the library. Sockets, files, the clock and random numbers are this package's."""

import datetime
import os
import time
from typing import Callable, Dict, FrozenSet, List, NamedTuple, Optional, Sequence, Tuple, Union

from krb import _ccache, _trace
from krb._ccache import Cache, Entry
from krb._context import EncryptionKey, time_of
from krb._facts import printable
from krb._exchange import Answer, ClientRule, Exchange, Follows, Limits, NotGranted, Wanted
from krb._initiator import Initiator, InitiatorContext, KerberosInitiator
from krb._items import Registry, Secret, _flags
from krb._kdc import KdcUnreachable, Kdcs, Named
from krb._library import Octets, plain
from krb._names import PRINCIPAL, Name, parsed, service_type, ticket_granting
from krb._password import PasswordNotChanged, change_password
from krb._parts import decode, find

__all__ = ["ClientRule", "Credentials", "Initiator", "InitiatorContext", "KdcUnreachable", "KerberosInitiator", "NotGranted", "PasswordNotChanged"]
__all__ += ["Settings", "change_password", "kinit", "load", "load_all", "save_all"]

Time = Union[datetime.datetime, float, int]
Path = Union[str, "os.PathLike[str]"]

ETYPES = 18, 17, 20, 19
# Numbers of options (RFC 4120, 5.4.1), of which the first six are those of flags (5.3), too.
FORWARDABLE, FORWARDED, PROXIABLE, MAY_POSTDATE, POSTDATED, RENEWABLE = 1, 2, 3, 5, 6, 8
_INVALID, _CANONICALIZE, _RENEW, _VALIDATE = 7, 15, 30, 31
_COMMON = FORWARDABLE, PROXIABLE, RENEWABLE  # what tickets by a ticket are asked for, as MIT Kerberos does, where it has them
_OF_REQUESTS = range(1, 9)  # the flags that a reply may have only where they were asked for


class Settings(NamedTuple):
    """How a client reaches KDCs, and what it takes of them.

    - `kdc`: "HOST[:PORT]", over TCP and then UDP, with tcp/ or udp/ before it over this alone, or "https://HOST[:PORT]/PATH" of a KDC proxy (MS-KKDCP); or several; or for
      each realm. None for those of krb5.conf, the file `configuration`, or $KRB5_CONFIG, or /etc/krb5.conf; and where it has none, and `dns` is true, of DNS, by the name
      servers of /etc/resolv.conf or the one that it names, as "127.0.0.1:53".
    - `timeout`: how long one KDC has for one reply, in seconds. A reply has at most 2^20 octets.
    - `etypes`: encryption types, the preferred first. `skew`: by how many seconds clocks may differ.
    - `least`, `most`: how many iterations are taken for the key of a password, which an error of anyone's can ask for.
    - `clock`: the seconds since 1970 in UTC."""

    kdc: Named = None
    configuration: Optional[str] = None
    dns: Union[bool, str] = False
    timeout: float = 10.0
    etypes: Sequence[int] = ETYPES
    skew: int = 300
    least: int = 4096
    most: int = 2**20
    clock: Callable[[], float] = time.time

    def kdcs(self) -> Kdcs:
        return Kdcs(self.kdc, self.configuration, self.dns, self.timeout)

    def limits(self) -> Limits:
        return Limits(self.skew, self.least, self.most)


USUAL = Settings()


def _seconds(value: object) -> int:
    """The seconds of a time of a part."""
    if not isinstance(value, datetime.datetime):
        raise ValueError("a time that datetime does not have: %a" % (value,))
    return int(value.timestamp())


def _until(value: Optional[Time], now: float) -> Optional[int]:
    """A time, or so many seconds from now, in seconds since 1970."""
    if isinstance(value, datetime.datetime):
        if value.tzinfo is None:
            raise ValueError("a time without its zone")
        return int(value.timestamp())
    return None if value is None else int(now + value)


def _granted(client: Name, ticket: bytes, part: bytes) -> Entry:
    """What a KDC granted, by the EncKDCRepPart that came with the ticket."""
    fields = decode(part, "EncTGSRepPart", show_keys=True)
    server = Name(fields["srealm"], tuple(fields["sname"]["name-string"]), fields["sname"]["name-type"])
    key = EncryptionKey(fields["key"]["keytype"], Secret(fields["key"]["keyvalue"]))
    auth_time = _seconds(fields["authtime"])
    start_time = _seconds(fields["starttime"]) if "starttime" in fields else auth_time
    renew_till = _seconds(fields["renew-till"]) if "renew-till" in fields else 0
    flags = int.from_bytes(find(part, "EncTGSRepPart", "flags")[1:5].ljust(4, b"\0"), "big")
    return Entry(client, server, key, auth_time, start_time, _seconds(fields["endtime"]), renew_till, flags, ticket)


# The rules that a reply breaks that renames the client or the server.
_RENAMES = ClientRule.CLIENT, ClientRule.TICKET, ClientRule.SERVER


def _renamed_to(wanted: Wanted, message: bytes) -> Wanted:
    """What is asked for, by the names of an AS-REP."""
    reply = decode(message, "AS-REP")
    client = Name(reply["crealm"], tuple(reply["cname"]["name-string"]), reply["cname"]["name-type"])
    server = Name(reply["ticket"]["realm"], tuple(reply["ticket"]["sname"]["name-string"]), reply["ticket"]["sname"]["name-type"])
    return wanted._replace(client=client, server=server)


def _run(exchange: Exchange, kdcs: Kdcs, realm: str, may_refer: Callable[[bytes], Optional[Name]] = lambda _: None) -> Entry:
    """What a realm's KDCs grant at the end of an exchange. A reply for another server is taken where `may_refer` says for which, one that renames where that is asked for."""

    def take(message: bytes, is_datagram: bool) -> Answer:
        try:
            answer = exchange.step(message, is_datagram)
            _trace.told_reply(message, exchange.etype)
            return answer
        except NotGranted as refused:
            _trace.told_reply(message, exchange.etype)
            if exchange.wanted.canonicalize and refused.rule in _RENAMES:
                exchange.wanted = _renamed_to(exchange.wanted, message)
                return exchange.renamed(message)
            other = may_refer(message) if refused.rule == ClientRule.TICKET else None
            if other is None:
                raise
            exchange.wanted = exchange.wanted._replace(server=other)
            return exchange.step(message, is_datagram)

    answer = exchange.begin()
    while answer.follows == Follows.SENDS:
        _trace.told_request(answer.octets)
        answer = kdcs.answer(realm, answer.octets, take)
    found = _granted(exchange.wanted.client, answer.ticket, answer.part)
    names = printable(found.client.text), printable(found.server.text)
    _trace.say("Decrypted reply: %s -> %s with a session key of %s", *names, _trace.etype(found.session_key.etype))
    return found


def _by_its_time(
    begin: Callable[[Optional[int]], Exchange], offset: Optional[int], times: Sequence[Optional[Time]], run: Callable[[Exchange], Entry]
) -> Tuple[Entry, Optional[int]]:
    """What an exchange grants, and the offset of the KDC's clock. Where it finds out another offset, and times from now on are asked for, it is made again by that."""
    is_relative = any(each is not None and not isinstance(each, datetime.datetime) for each in times)
    exchange = begin(offset)
    try:
        found = run(exchange)
        if not is_relative or exchange.offset == offset:
            return found, exchange.offset
    except NotGranted:
        if not is_relative or exchange.offset == offset:
            raise
    exchange = begin(exchange.offset)
    return run(exchange), exchange.offset


class Credentials:
    """A ticket, its session key, and what the KDC said of both.

    - `client`, `server`: their names as text, "carol@HOME.TEST" and "HTTP/www.home.test@HOME.TEST"; a backslash stands before `/`, `@` and a backslash in a component.
    - `ticket`: its encoding (RFC 4120, 5.3). `session_key`: a `krb.EncryptionKey`. `flags`: their names, as "forwardable".
    - `auth_time`, `start_time`, `end_time`, `renew_till` in UTC; the last is None where it is not renewable.
    - `offset`: by how many seconds the KDC's clock is ahead, None where it is not known. `entry` has all of this as a file of tickets has it."""

    def __init__(self, entry: Entry, settings: Settings = USUAL, offset: Optional[int] = None, kdcs: Optional[Kdcs] = None) -> None:
        self.entry, self.settings, self.offset = entry, settings, offset
        self._kdcs = settings.kdcs() if kdcs is None else kdcs
        self.client, self.server, self.ticket, self.session_key = entry.client.text, entry.server.text, entry.ticket, entry.session_key
        self.flags: FrozenSet[str] = _flags(b"\0" + entry.flags.to_bytes(4, "big"), int(Registry.TICKET_FLAG))
        self.auth_time, self.start_time, self.end_time = map(time_of, (entry.auth_time, entry.start_time or entry.auth_time, entry.end_time))
        self.renew_till = time_of(entry.renew_till) if entry.renew_till else None

    def __repr__(self) -> str:
        return "Credentials(client=%r, server=%r)" % (self.client, self.server)

    @property
    def is_valid(self) -> bool:
        """Whether the ticket has started and not ended, by the clock and the offset of the KDC's."""
        now = self.settings.clock() + (self.offset or 0)
        return (self.entry.start_time or self.entry.auth_time) <= now < self.entry.end_time

    def has_flag(self, number: int) -> bool:
        """Whether the ticket has the flag of this number (RFC 4120, 5.3)."""
        return bool(self.entry.flags >> 31 - number & 1)

    def _further(
        self, server: Name, options: Sequence[int], flags: Sequence[int], lifetime: Optional[Time] = None, renewable: Optional[Time] = None,
        may_refer: Callable[[bytes], Optional[Name]] = lambda _: None, etypes: Optional[Sequence[int]] = None,
    ) -> "Credentials":
        """A ticket by this one (RFC 4120, 3.3), of the KDCs of the realm that takes it."""
        entry, settings = self.entry, self.settings
        asked = tuple(settings.etypes if etypes is None else etypes)

        def begin(offset: Optional[int]) -> Exchange:
            now = settings.clock() + (offset or 0)
            wanted = Wanted(entry.client, server, asked, tuple(options), tuple(flags), None, _until(lifetime, now) or 0, _until(renewable, now))
            return Exchange(wanted, settings.limits(), settings.clock, ticket=entry.ticket, session_key=entry.session_key, offset=offset)

        realm = entry.server.granting_realm or entry.server.realm
        _trace.say("Requesting tickets for %s of the realm %s", printable(server.text), printable(realm))
        found, offset = _by_its_time(begin, self.offset, (lifetime, renewable), lambda exchange: _run(exchange, self._kdcs, realm, may_refer))
        return Credentials(found, settings, offset, self._kdcs)

    def _has_of(self, numbers: Sequence[int]) -> List[int]:
        return [number for number in numbers if self.has_flag(number)]

    def _permitted(self) -> List[int]:
        """The flags that a ticket by this one may have of it."""
        return [number for number in self._has_of(_OF_REQUESTS) if number != _INVALID]

    def ticket_for(
        self, server: str, realms: Sequence[str] = (), lifetime: Optional[Time] = None, renewable: Optional[Time] = None,
        etypes: Optional[Sequence[int]] = None, server_type: Optional[int] = None,
    ) -> "Credentials":
        """The ticket for a service, as "HTTP/www.home.test@HOME.TEST", by this ticket-granting ticket. Without a realm it is that of the KDC that takes this ticket.

        `realms` are other realms to which a KDC may refer: none where there are none. A service of another realm has to be of one of them. Each is gone to once.
        Lifetimes are seconds from now, or times; None for as long as the KDC allows.

        NotGranted, KdcUnreachable; Refused of MEMORY; ValueError of what is no name, and of a realm that is not listed."""
        held, left = self, list(realms)
        at = held._takes()
        wanted = parsed(server, at)
        wanted = wanted._replace(name_type=service_type(wanted) if server_type is None else server_type)
        while True:
            is_there = wanted.realm == at
            if not is_there and wanted.realm not in left:
                raise ValueError("the service is of the realm %a, which is not one of those to go to" % wanted.realm)

            def may_refer(message: bytes, at: str = at, left: List[str] = left) -> Optional[Name]:
                ticket = decode(message, "TGS-REP")["ticket"]
                other = Name(ticket["realm"], tuple(ticket["sname"]["name-string"]), ticket["sname"]["name-type"])
                return ticket_granting(other.components[1], at) if other.realm == at and other.granting_realm in left else None

            asked = wanted if is_there else ticket_granting(wanted.realm, at)
            options = held._has_of(_COMMON) + ([_CANONICALIZE] if left else [])
            found = held._further(asked, options, held._permitted(), lifetime, renewable, may_refer, etypes)
            other = found.entry.server.granting_realm
            if found.entry.server.is_same(wanted) or other is None:
                return found
            left.remove(other)
            if is_there:  # referred for the service itself: it is of that realm
                wanted = wanted._replace(realm=other)
            held, at = found, other

    def _takes(self) -> str:
        """The realm whose KDC takes this ticket."""
        realm = self.entry.server.granting_realm
        if realm is None:
            raise ValueError("%s is no ticket-granting service" % self.server)
        return realm

    def renew(self) -> "Credentials":
        """This ticket anew, with a later end (RFC 4120, 2.3). Raises as `ticket_for`."""
        return self._further(self.entry.server, [_RENEW] + self._has_of(_COMMON), self._permitted())

    def validate(self) -> "Credentials":
        """This postdated ticket, valid (RFC 4120, 2.4). Raises as `ticket_for`."""
        return self._further(self.entry.server, [_VALIDATE], self._permitted())

    def forward(self) -> "Credentials":
        """A ticket-granting ticket for another host (RFC 4120, 2.6): forwarded, and forwardable again. Raises as `ticket_for`."""
        options = [FORWARDED] + self._has_of(_COMMON)
        return self._further(ticket_granting(self._takes()), options, self._permitted() + [FORWARDED])

    def save(self, path: Path, *others: "Credentials") -> None:
        """Writes a file of this ticket, and of others of the client, that MIT Kerberos reads (`save_all`)."""
        save_all(path, [self, *others])


def kinit(
    client: str, password: Union[str, Octets, None] = None, keytab: Union[Path, Octets, None] = None, kdc: Named = None, *, server: Optional[str] = None,
    lifetime: Optional[Time] = None, renewable: Optional[Time] = None, forwardable: bool = False, proxiable: bool = False, start: Optional[Time] = None,
    etypes: Sequence[int] = ETYPES, skew: int = 300, least: int = 4096, most: int = 2**20, timeout: float = 10.0, configuration: Optional[str] = None,
    dns: Union[bool, str] = False, clock: Callable[[], float] = time.time, canonicalize: bool = False, client_type: int = PRINCIPAL,
) -> Credentials:
    """A first ticket (RFC 4120, 3.1) of "carol@HOME.TEST", by a password, or by the keys of a keytab, which is its path or its octets. Without a realm the client is
    of the default one of krb5.conf.

    - `server`: for whom; without it the realm's ticket-granting service. `start`: from when on it is to be valid, a postdated ticket (2.4).
    - `lifetime`: until when, `renewable`: until when it may be renewed: times, or seconds from now, from `start` the former. None for as long as the KDC allows, and for
      no ticket that is renewable.
    - `canonicalize`: whether the KDC may name the client, its realm and the server otherwise (RFC 6806): such a reply is taken only with the checksum of the request under the
      client's key; `client` and `server` of the credentials are then the KDC's names. `client_type`: the type of the client's name; 10 for an enterprise name, as
      r"carol\\@corp.test@HOME.TEST".
    - the others are those of `Settings`.

    NotGranted: why there is no ticket; KdcUnreachable: no KDC replies; Refused of INVALID, KEYTAB, MEMORY; ValueError of what is no name; OSError of a file."""
    if (password is None) == (keytab is None):
        raise ValueError("a password or a keytab")
    settings = Settings(kdc, configuration, dns, timeout, tuple(etypes), skew, least, most, clock)
    kdcs = settings.kdcs()
    name = parsed(client, None if "@" in client else kdcs.configuration().default_realm, client_type)
    asked = ticket_granting(name.realm) if server is None else parsed(server, name.realm)
    if server is not None:
        asked = asked._replace(name_type=service_type(asked))
    secret = password.encode("utf-8") if isinstance(password, str) else b"" if password is None else plain(password)
    keys = b"" if keytab is None else _file(keytab)
    chosen: Dict[int, bool] = {FORWARDABLE: forwardable, PROXIABLE: proxiable, MAY_POSTDATE: start is not None, POSTDATED: start is not None}
    options = [number for number, is_asked in {**chosen, RENEWABLE: renewable is not None}.items() if is_asked]
    flags = options + ([_INVALID] if start is not None else [])
    options += [_CANONICALIZE] if canonicalize else []

    def begin(offset: Optional[int]) -> Exchange:
        now = clock() + (offset or 0)
        begins = _until(start, now)
        till = _until(lifetime, now if begins is None else begins) or 0
        wanted = Wanted(name, asked, tuple(etypes), tuple(options), tuple(flags), begins, till, _until(renewable, now), canonicalize)
        return Exchange(wanted, settings.limits(), clock, secret, keys, offset=offset)

    _trace.say("Getting initial credentials for %s", printable(name.text))
    found, known = _by_its_time(begin, None, (start, lifetime, renewable), lambda exchange: _run(exchange, kdcs, name.realm))
    return Credentials(found, settings, known, kdcs)


def _file(keytab: Union[Path, Octets]) -> bytes:
    """The octets of a keytab, or of the file of one."""
    if not isinstance(keytab, (str, os.PathLike)):
        return plain(keytab)
    with open(keytab, "rb") as file:
        return file.read()


def load_all(path: Path, settings: Settings = USUAL) -> List[Credentials]:
    """The tickets of a file of MIT Kerberos (a FILE cache of version 4), in their order. OSError; ValueError: it is none."""
    cache, kdcs = _ccache.read(path), settings.kdcs()
    return [Credentials(entry, settings, cache.offset, kdcs) for entry in cache.entries if not entry.is_setting]


def load(path: Path, settings: Settings = USUAL) -> Credentials:
    """The ticket-granting ticket of the client's realm in such a file. LookupError: there is none; else as `load_all`."""
    found = load_all(path, settings)
    for each in found:
        if each.entry.server.is_same(ticket_granting(each.entry.client.realm)):
            return each
    raise LookupError("no ticket-granting ticket in %s" % (path,))


def save_all(path: Path, tickets: Sequence[Credentials]) -> None:
    """Writes a file of these tickets, which MIT Kerberos reads: its client is that of the first, and its offset of the KDC's clock, too. The file is replaced at once, and its
    owner alone may read it. OSError; ValueError: there is none, or a time before 1970 or past 2106."""
    if not tickets:
        raise ValueError("a file of no tickets")
    first = tickets[0]
    _ccache.write(path, Cache(first.entry.client, first.offset or None, tuple(each.entry for each in tickets)))
