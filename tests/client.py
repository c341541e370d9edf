"""What the calls of a client answer to replies of a KDC, and of a service."""

import ctypes

from rows import octets

# Key usages of a row (RFC 4120, 7.5.1); 0 is that of a KRB-ERROR, which no key seals.
NONE, AS_REP, TGS_REP, AP_REP = 0, 3, 9, 12
# A ticket of the realm R for its own KDC (X.690; RFC 4120, 5.3), whose part nobody opens.
ANY_TICKET = bytes.fromhex(
    "61323030a003020105a1031b0152a2163014a003020102a10d300b1b066b72627467741b0152a30c300aa003020112"
    "a203040100"
)
# Octets that are random enough for a test.
RANDOM = bytes([11]) * 16
HAS_FROM, HAS_RTIME = 1, 2
LEAST, MOST, SKEW = 4096, 1 << 20, 300
# aes256-cts-hmac-sha1-96 (RFC 3962, 7).
AES256 = 18


def replies(library, columns):
    """A row of `replies`: a name, a key usage, an encryption type, a key, a reply; of a KDC's reply
    then what was asked for, and `not begun` where no request was made before it, `no key` where the
    exchange kept none; of an AP-REP the time that was sent."""
    name, usage, etype, key, reply, *rest = columns
    usage, etype, key, reply = int(usage), int(etype), octets(key), octets(reply)
    if usage == NONE:
        return [f"{name}: {error_text(library, reply)}"]
    if usage == AP_REP:
        sent = etype, key, int(rest[0]), int(rest[1]), reply
        told, without = library.client_ap_reply(*sent), library.client_ap_reply(*sent, room=0)
        rule = library.rules("KRB_CLIENT_RULE_")[told.rule]
        text = "confirmed" if told.is_given else f"refused, {rule}"
        by_c = f"C {told.status}, rule {told.rule}, without room {without.status}"
        return [f"{name}: {text}; {by_c}"]
    call, given = question(library, usage, etype, key, reply, rest)
    told, without = call(*given), call(*given, room=0)
    it = told.followed
    if told.is_given:
        text = f"{granted(library, told)}; C {told.status}, follows {it.follows}"
    else:
        # (a reply that begins as none of the exchange is a message that cannot be read)
        rule = library.rules("KRB_CLIENT_RULE_")[it.rule].replace("OtherMessage", "Message")
        text = f"refused, {rule}; C {told.status}, rule {it.rule}"
    return [f"{name}: {text}, without room {without.status}"]


def question(library, usage, etype, key, reply, rest):
    """The call for a KDC's reply, and what it is given."""
    clock, client, server, since, till, rtime, nonce, flags, etypes, *begun = rest
    settings = HAS_FROM * (since != "-") + HAS_RTIME * (rtime != "-")
    times = [int(clock), *(0 if it == "-" else int(it) for it in (since, till, rtime))]
    numbers = 0, int(nonce), SKEW, LEAST, MOST, 1, 1, settings
    terms = library.struct("client_terms", *times, *numbers)
    asked = terms, [], numbers_of(flags), numbers_of(etypes), client.encode(), server.encode()
    is_initial = usage == AS_REP
    has_key, is_begun = is_initial and not begun, begun != ["not begun"]
    kept = etype if has_key else 0, is_begun, (ctypes.c_uint8 * 32)(*(key if has_key else b""))
    exchange = library.struct("exchange", 0, 0, int(nonce), *kept)
    proof = (b"no password is looked at", b"") if is_initial else (ANY_TICKET, etype, key, key)
    call = library.client_initial if is_initial else library.client_ticket
    return call, (*asked, *proof, RANDOM, reply, exchange)


def numbers_of(text):
    return [] if text == "-" else [int(it) for it in text.split(" ")]


def granted(library, told):
    """Which ticket is granted, and its session key."""
    ticket, part = told.at(told.followed.ticket), told.at(told.followed.part)
    names, number = [], 0
    while True:
        it = library.once("find", b"Ticket", b"sname.name-string[%d]" % number, ticket)
        if not it.is_given:
            break
        names.append(ticket[it.item.offset :][: it.item.size].decode())
        number += 1
    realm = found(library, b"Ticket", b"realm", ticket).decode()
    key = found(library, b"EncTGSRepPart", b"key.keyvalue", part).hex()
    etype = library.find_number(b"EncTGSRepPart", b"key.keytype", part).number
    return f"granted for {'/'.join(names)}@{realm}, key {etype}:{key}"


def found(library, kind, path, given):
    """The content of a field; no octets where it is absent."""
    it = library.once("find", kind, path, given).item
    return given[it.offset : it.offset + it.size]


def error_text(library, reply):
    """The code of a KRB-ERROR, or the rule of RFC 4120, 3.1.5, that it breaks: what is told of it
    in an exchange that took the KDC's time already, where no code is answered by a request."""
    terms = library.struct("client_terms", 0, 0, 0, 0, 0, 1, SKEW, LEAST, MOST, 1, 1, 0)
    key = bytes(32)
    by = ANY_TICKET, AES256, key, key
    exchange = library.struct("exchange", 0, 1, 1, 0, 1, (ctypes.c_uint8 * 32)())
    asked = terms, [], [], [AES256], b"client@R", b"server@R"
    told = library.client_ticket(*asked, *by, RANDOM, reply, exchange)
    rule = library.rules("KRB_CLIENT_RULE_")[told.followed.rule]
    return f"error {told.followed.code}" if rule == "Kdc" else f"refused, {rule}"
