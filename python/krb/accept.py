"""Whether a service lets in the client that sent a token, and what it answers (RFC 4120, 3.2.3; RFC 4121, 4.1; docs/ACCEPTOR.md)."""

import ctypes
import ipaddress
import math
import os
import secrets
import time
from typing import Any, Callable, Iterable, NamedTuple, Optional, Tuple, Union

from krb._context import Accepted, Context, ContextFlag, EncryptionKey, OutOfOrder, time_of
from krb._library import IN, U32, Call, Octets, Refused, Status, _library, plain
from krb._replay import AnyReplayCache, FileReplayCache, Forgotten, ReplayCache
from krb._rules import TEXTS, Rule
from krb._window import Order

__all__ = ["Acceptor", "AnyReplayCache", "ChannelBindings", "Context", "ContextFlag", "EncryptionKey", "FileReplayCache", "Forgotten", "NotAccepted", "Order"]
__all__ += ["OutOfOrder", "ReplayCache", "Rule"]


class NotAccepted(Refused):
    """A client is not let in. The message is for the service's log, and not for the client.

    - `rule`: the first rule that its token breaks. `code`: the error's code in a KRB-ERROR (RFC 4120, 7.5.9).
    - `seen`: of SKEW the client's time, of NOT_YET_VALID the ticket's start, of EXPIRED its end, in seconds since 1 January 1970, 00:00:00 UTC; of KEY_VERSION
      the kvno that the ticket names; else None.
    - `error`: the KRB-ERROR to send to the client, in a token where a token came; no octets where none can be made."""

    rule: Rule
    code: int
    seen: Optional[int]
    error: bytes

    def __init__(self, rule: int, code: int, seen: Optional[int] = None, error: bytes = b"", text: Optional[str] = None) -> None:
        super().__init__(Status.NOT_ACCEPTED)
        self.rule, self.code, self.seen, self.error = Rule(rule), code, seen, error
        self._text = "%s: %s" % (self.rule.name, TEXTS[self.rule]) if text is None else text
        self.args = (self._text,)

    def __reduce__(self) -> Any:
        return NotAccepted, (int(self.rule), self.code, self.seen, self.error, self._text)


def _written(seconds: int) -> str:
    return time_of(seconds).replace(tzinfo=None).isoformat(" ") + " UTC"


def _unremembered(since: int, seconds: int, skew: int) -> str:
    """Why a cache that is whole since then does not tell whether the client was let in before."""
    left = since + skew - seconds
    when = "in %d s" % left if left > 0 else "now"
    return (
        "the client may have been let in before %s, since when the replay cache is whole: one whose clock is right is let in %s "
        "(replay_cache= says whole_since, and nobody is let in for %d s from then on, which is skew=; whole_since=None is for a service that let in nobody before)"
        % (_written(since), when, skew)
    )


def _forgotten(before: int, seconds: int, skew: int) -> str:
    """Why a cache that has forgotten what is earlier does not tell it."""
    text = "the client may have been let in before: what came before %s is forgotten" % _written(before)
    if before > seconds - skew:
        text += ", when the service's clock was %d s later than now: it went back. Clients whose clocks are as this one are let in again from %s on" % (
            before + skew - seconds,
            _written(before),
        )
    return text


def _why(rule: Rule, seen: Optional[int], seconds: int, skew: int, since: Optional[int] = None) -> str:
    """The message of a refusal, with what was seen; `since` says since when the replay cache is whole."""
    text = TEXTS[rule]
    if seen is not None and rule == Rule.SKEW:
        text = "the client's time is %d s %s (limit %d)" % (abs(seconds - seen), "behind" if seen < seconds else "ahead", skew)
    elif seen is not None and rule == Rule.KEY_VERSION:
        text = "the keytab has no key of version %d, which the ticket names" % seen
    elif seen is not None and rule in (Rule.EXPIRED, Rule.NOT_YET_VALID):
        verb = "ended" if rule == Rule.EXPIRED else "is not valid before"
        text = "the ticket %s %s" % (verb, _written(seen))
    elif since is not None and rule == Rule.UNREMEMBERED:
        text = _unremembered(since, seconds, skew)
    return "%s: %s" % (rule.name, text)


class ChannelBindings(NamedTuple):
    """The channel that a context is bound to (RFC 2744, 3.11). `data` is mostly b"tls-server-end-point:" and a hash of the server's certificate (RFC 5929, 4),
    and the addresses and their types (2 for IPv4, 24 for IPv6, 0 for none) are left out."""

    data: bytes = b""
    initiator_type: int = 0
    initiator_address: bytes = b""
    acceptor_type: int = 0
    acceptor_address: bytes = b""

    def hash(self) -> bytes:
        """The 16 octets that stand for them in a token (RFC 4121, 4.1.1.2). Refused: TOO_LARGE, MEMORY."""
        return _channel_bindings.octets(16, self.initiator_type, self.initiator_address, self.acceptor_type, self.acceptor_address, self.data)


class _Asked(ctypes.Structure):
    """krb_acceptor of krb.h."""

    _fields_ = [(name, ctypes.c_int64) for name in ("clock", "whole_since")] + [
        (name, ctypes.c_uint32) for name in ("skew", "options", "address_type", "sequence_number")
    ]


_channel_bindings = Call("krb_channel_bindings", U32, IN, U32, IN, IN, has_room=True)
_OCTETS = [ctypes.c_char_p, ctypes.c_size_t]
_SIZE = ctypes.POINTER(ctypes.c_size_t)
_accept, _make_error = _library.krb_accept, _library.krb_make_error
_accept.argtypes = [ctypes.POINTER(_Asked)] + _OCTETS * 8 + [ctypes.POINTER(Accepted), ctypes.c_void_p, ctypes.c_size_t, _SIZE]
_make_error.argtypes = _OCTETS + [ctypes.c_int64, ctypes.c_uint32, ctypes.c_uint32, ctypes.c_bool, ctypes.c_void_p, ctypes.c_size_t, _SIZE]
_accept.restype = _make_error.restype = ctypes.c_uint32

# KRB_ACCEPT_.. of krb.h.
_BARE_REQUEST, _OTHER_CHECKSUM, _TRIPLE_DES, _ADDRESSES_REQUIRED, _UNCHECKED_PATH = 1, 2, 16, 32, 64
_WHOLE_EVER, _SUBKEY, _BOUND, _ANONYMOUS = 128, 256, 512, 1024
_NO_KEYS = b"\5\2"  # a keytab with no entry
_PAC = {"checked": 0, "ignored": 4, "required": 8}
_RANDOM = 48
_SEQUENCE_NUMBERS = 2**30  # as MIT Kerberos: some clients take the highest bits for a sign
_AP_REQ = 0x6E
_ERROR_ROOM = 1024
_REPEAT = 34  # KRB_AP_ERR_REPEAT (RFC 4120, 7.5.9)


def _error(keytab: bytes, now: float, code: int, in_frame: bool) -> bytes:
    """The KRB-ERROR of a code. Refused: KEYTAB, ABSENT, NUMBER, MEMORY."""
    seconds, size, room = math.floor(now), ctypes.c_size_t(), _ERROR_ROOM
    microseconds = min(int((now - seconds) * 1000000), 999999)
    while True:
        out = ctypes.create_string_buffer(room)
        status = _make_error(keytab, len(keytab), seconds, microseconds, code, in_frame, out, room, ctypes.byref(size))
        if status == Status.DONE:
            return out.raw[: size.value]
        if status != Status.ROOM or size.value <= room:
            raise Refused(status)
        room = size.value


def _address(address: Optional[str]) -> Tuple[int, bytes]:
    """The type and the octets of an address (RFC 4120, 7.5.3). One of IPv4 may come as IPv6, as from a socket of both."""
    if address is None:
        return 0, b""
    found = ipaddress.ip_address(address)
    if isinstance(found, ipaddress.IPv6Address):
        if found.ipv4_mapped is None:
            return 24, found.packed
        found = found.ipv4_mapped
    return 2, found.packed


def _seen(found: os.stat_result) -> Optional[Tuple[int, ...]]:
    """What a file looks like that is written no more: one that was written within a second may be written once more in the same tick of the clock, and is None."""
    if abs(time.time() - max(found.st_mtime, found.st_ctime)) < 1:
        return None
    return found.st_dev, found.st_ino, found.st_size, found.st_mtime_ns, found.st_ctime_ns


class Acceptor:
    """A service that lets clients in, by the keys of its keytab. Any number of threads may use it.

    Out-of-memory aside, a client is let in exactly if its token keeps the rules of docs/ACCEPTOR.md and the replay cache does not have it yet. The rules are a
    theorem about the library; the replay cache, and that this class asks it, are tested.

    - `keytab`: the octets of a keytab, or the path of one. `session_keys`: a keytab with the session keys of the service's own ticket-granting tickets
      (user-to-user).
    - `skew`: by how many seconds clocks may differ.
    - `replay_cache`: None for a `ReplayCache` of its own, from now on, which is of this process alone: in a worker that is forked later `accept` raises
      RuntimeError. A `FileReplayCache`, for any number of workers; or one of the service's own (`AnyReplayCache`). False for none: each token then lets its
      client in as often as it comes, for twice `skew` seconds.
    - `bare_request`: an AP-REQ with no frame around it is taken too, as DCE style has it.
    - `other_checksum`: so is an authenticator whose checksum is not of the GSS-API.
    - `pac`: "checked" where a ticket has one, "ignored", or "required".
    - `triple_des`: keys of tickets, session keys and subkeys may be of triple DES. `addresses_required`: a ticket has to name addresses, and `accept` needs the
      client's.
    - `unchecked_path`: a path of realms is taken that no KDC has checked. `subkey`: the reply has a subkey of the service's.
    - `server`: the service's name, "HTTP/www.home.test@HOME.TEST" (RFC 1964, 2.1.1); the realm may be left out, and the host, as in "HTTP"; or several, as
      ["HTTP/www.home.test", "HTTP/home.test"]. Tickets for others are refused, as NOT_US, though the keytab has their keys. None: it is any of which the keytab
      has a key.
    - `client_realm`: the realm whose clients are let in, or several; None: any. `anonymous`: so are clients without a name (RFC 8062).
    - `clock`: tells the service's time, in seconds since 1970.

    Refused, when it is made: KEYTAB where the keytab is none, ABSENT where it has no entry, MEMORY. ValueError of what is no name of a server and no realm, as
    of empty text, and of no names at all. OSError: the file cannot be read."""

    def __init__(
        self,
        keytab: Union[Octets, str, "os.PathLike[str]"],
        *,
        session_keys: Octets = b"",
        skew: int = 300,
        replay_cache: Union[AnyReplayCache, bool, None] = None,
        bare_request: bool = False,
        other_checksum: bool = False,
        pac: str = "checked",
        triple_des: bool = False,
        addresses_required: bool = False,
        unchecked_path: bool = False,
        subkey: bool = True,
        server: Union[str, Iterable[str], None] = None,
        client_realm: Union[str, Iterable[str], None] = None,
        anonymous: bool = False,
        clock: Callable[[], float] = time.time,
    ) -> None:
        if pac not in _PAC:
            raise ValueError('pac is "checked", "ignored" or "required"')
        if not 0 <= skew < 2**32:
            raise ValueError("a skew that has not 32 bits")
        if replay_cache is True:
            raise ValueError("replay_cache is a cache, None or False")
        switches = bare_request, other_checksum, triple_des, addresses_required, unchecked_path, subkey, anonymous
        bits = _BARE_REQUEST, _OTHER_CHECKSUM, _TRIPLE_DES, _ADDRESSES_REQUIRED, _UNCHECKED_PATH, _SUBKEY, _ANONYMOUS
        self._options = _PAC[pac] + sum(bit for switch, bit in zip(switches, bits) if switch)
        self._skew, self._clock, self._session_keys, self._addresses_required = skew, clock, plain(session_keys), addresses_required
        self._server, self._client_realm = _servers(server), _client_realms(client_realm)
        self._cache: Optional[AnyReplayCache] = None
        if not isinstance(replay_cache, bool):
            self._cache = ReplayCache(clock()) if replay_cache is None else replay_cache
        self._from = keytab
        self._held: Tuple[bytes, Optional[Tuple[int, ...]]] = b"", None  # the keytab, and how its file looked
        self.reload()

    def reload(self) -> None:
        """Reads the keytab anew, where it is a file; on an error the old keys stay. Refused, OSError: as for the class."""
        seen = None
        if isinstance(self._from, (str, os.PathLike)):
            with open(self._from, "rb") as file:
                seen = _seen(os.fstat(file.fileno()))
                keytab = file.read()
        else:
            keytab = plain(self._from)
        _error(keytab, 0, 0, False)  # refuses what is no keytab, and one with no entry
        self._held = keytab, seen

    def reload_if_changed(self) -> bool:
        """Reads the keytab anew where its file is another one than that which was read, or was written since, as `ktadd` does: by its inode, size and times. True
        where the keys are others now. It costs one look at the file, and may be called before each `accept`, in any thread.

        On an error the old keys stay, and the next call tries again. Refused, OSError: as for the class."""
        keytab, seen = self._held
        if not isinstance(self._from, (str, os.PathLike)) or seen is not None and _seen(os.stat(self._from)) == seen:
            return False
        self.reload()
        return self._held[0] != keytab

    def accept(self, token: Octets, channel_bindings: Union[Octets, ChannelBindings, None] = None, address: Optional[str] = None) -> Context:
        """The context with the client that sent this token, which is let in. Its `reply` is to be sent to the client.

        `channel_bindings` are the service's, and are checked where they are given, which a service that has some always does: data, as
        b"tls-server-end-point:" and a hash, or `ChannelBindings`. `address` is the client's, of IPv4 or IPv6, where it is known.

        NotAccepted: it is not let in. Refused: KEYTAB where `session_keys` is none, MEMORY, and then nobody is let in either. ValueError of what is no address,
        and of none where `addresses_required` asks for one. What a replay cache raises, but `Forgotten`, is raised on, as a `ReplayCache` does in another
        process than its own."""
        if self._addresses_required and address is None:
            raise ValueError("the client's address is needed, since addresses_required is set")
        token, keytab, now = plain(token), self._held[0], self._clock()
        options, bindings = self._options, b""
        if channel_bindings is not None:
            given = channel_bindings if isinstance(channel_bindings, ChannelBindings) else ChannelBindings(plain(channel_bindings))
            options, bindings = options | _BOUND, given.hash()
        address_type, octets = _address(address)
        seconds, since = math.floor(now), None if self._cache is None else self._cache.whole_since
        options |= _WHOLE_EVER if since is None else 0
        # (a cache that is whole since before 1970 is whole since 1970 too)
        asked = _Asked(seconds, 0 if since is None else max(since, 1), self._skew, options, address_type, secrets.randbelow(_SEQUENCE_NUMBERS))
        status, accepted, out = _answer(asked, keytab, self._session_keys, self._server, self._client_realm, bindings, octets, token)
        if status == Status.NOT_ACCEPTED:
            seen = accepted.seen if accepted.has_seen else None
            why = _why(Rule(accepted.rule), seen, seconds, self._skew, since)
            raise self._refusal(accepted.rule, accepted.code, seen, why, now, keytab, token)
        if status != Status.UNLESS_REPEATED:
            raise Refused(status)
        self._remember(accepted.octets("entry", out), now, keytab, token)
        return Context(accepted, out, asked.sequence_number)

    def _remember(self, entry: bytes, now: float, keytab: bytes, token: bytes) -> None:
        """Returns where the replay cache did not have the entry, and has it now."""
        if self._cache is None:
            return
        seconds = math.floor(now)
        try:
            is_new = self._cache.add(entry, seconds - self._skew)
        except Forgotten as forgotten:
            why = "%s: %s" % (Rule.UNREMEMBERED.name, _forgotten(forgotten.before, seconds, self._skew))
            raise self._refusal(Rule.UNREMEMBERED, _REPEAT, None, why, now, keytab, token) from forgotten
        if not is_new:
            raise self._refusal(Rule.REPEAT, _REPEAT, None, _why(Rule.REPEAT, None, seconds, self._skew), now, keytab, token)

    @staticmethod
    def _refusal(rule: int, code: int, seen: Optional[int], why: str, now: float, keytab: bytes, token: bytes) -> NotAccepted:
        try:
            error = _error(keytab, now, code, token[:1] != bytes([_AP_REQ]))
        except Refused:
            error = b""
        return NotAccepted(rule, code, seen, error, why)


def _servers(names: Union[str, Iterable[str], None]) -> bytes:
    """The octets of a service's names; none of None. ValueError: one is no name, or there are none."""
    what = 'server=%r is no name of a service, as "HTTP/www.home.test@HOME.TEST", "HTTP/www.home.test" or "HTTP" is one'
    return _between_nuls(names, what, lambda octets: _is_taken(octets, b""))


def _client_realms(realms: Union[str, Iterable[str], None]) -> bytes:
    """The octets of realms; none of None. ValueError: one is none, or there are none."""
    return _between_nuls(realms, "client_realm=%r is no realm, which has letters of ASCII", lambda octets: _is_taken(b"", octets))


def _between_nuls(texts: Union[str, Iterable[str], None], what: str, is_taken: Callable[[bytes], bool]) -> bytes:
    """The octets of these texts, an octet 0 between each and the next, as krb.h has it; none of None. ValueError, by `what`: one is not taken, or there are
    none."""
    if texts is None:
        return b""
    each = [text.encode("utf-8", "surrogateescape") for text in ([texts] if isinstance(texts, str) else texts)]
    octets = b"\0".join(each)
    if not each or b"" in each or len(octets.split(b"\0")) != len(each) or not is_taken(octets):
        raise ValueError(what % (texts if isinstance(texts, str) else [text.decode("utf-8", "surrogateescape") for text in each],))
    return octets


def _is_taken(server: bytes, client_realm: bytes) -> bool:
    """Whether the library takes these for servers and realms: it looks at them before the token. Refused: MEMORY."""
    status, _, _ = _answer(_Asked(0, 0, 0, _WHOLE_EVER, 0, 0), _NO_KEYS, b"", server, client_realm, b"", b"", b"")
    if status not in (Status.INVALID, Status.NOT_ACCEPTED):
        raise Refused(status)
    return status == Status.NOT_ACCEPTED


def _answer(
    asked: _Asked, keytab: bytes, session_keys: bytes, server: bytes, client_realm: bytes, bindings: bytes, address: bytes, token: bytes
) -> Tuple[int, Accepted, bytes]:
    """The status of krb_accept, what it tells, and the octets in which the places are."""
    accepted, size, room = Accepted(), ctypes.c_size_t(), 3 * len(token) + 1024
    random = secrets.token_bytes(_RANDOM)
    given = [each for octets in (keytab, session_keys, server, client_realm, bindings, address, random, token) for each in (octets, len(octets))]
    while True:
        out = ctypes.create_string_buffer(room)
        status = _accept(ctypes.byref(asked), *given, ctypes.byref(accepted), out, room, ctypes.byref(size))
        if status != Status.ROOM or size.value <= room:
            return status, accepted, out.raw[: size.value]
        room = size.value
