"""What goes through a KDC proxy: by the calls krb_proxy_.. and the program jolmurig."""

from library import Fault
from rows import octets
from shown import lines_of, run

SERVICES = {1: "kdc", 2: "kpasswd"}
# Of a message that is posted, its type by its first octet, and the paths of realm and names in it.
KDC = ("req-body.realm", "req-body.cname", "req-body.sname")
ASKED_OF = {0x6A: ("AS-REQ", *KDC), 0x6C: ("TGS-REQ", *KDC)}
OF_FRAME = ("AP-REQ", "ticket.realm", "", "ticket.sname")
REPLIES = {"as-rep": "AS_REP", "tgs-rep": "TGS_REP", "krb-error": "KRB_ERROR"}
# How many octets of what is posted a row has.
FRONT = 1500


def proxied(library, columns):
    """A row: `request` and what a client posts; `post`, a message and a realm; `reply` and what
    came in a datagram; `write_reply` and what came over a stream; `read_reply` and what a proxy
    answers; or `whole`, what came over a stream, and a limit."""
    how, given, *more = columns
    return ASKED[how](library, octets(given), *more)


def request(library, given):
    """For whom a request is, with names and realm of its message; as the lenient call has it; and
    what the program says, which passes on the message."""
    strict, lenient = library.proxy_request(given), library.proxy_request_lenient(given)
    told = [f"proxy_request: {name_of(strict)}", f"proxy_request_lenient: {name_of(lenient)}"]
    begin = given
    if strict.is_given:
        it = strict.posted
        begin, domain = stream_at(given, it.message_offset, it.message_size), domain_of(given, it)
        one = "true" if it.names_one_realm else "false"
        names = " ".join([domain, *names_of(library, begin[4:]), hint_of(it)])
        realm, _, rest = names.removeprefix(f"{domain} ").partition(" ")
        told[0] += f" {SERVICES[it.service]} {domain} {realm} {one} {rest} {place_of(it)}"
    if lenient.is_given:
        it = lenient.posted
        stream_at(given, it.message_offset, it.message_size)
        if it.names_one_realm:
            raise Fault("the lenient call looks at the realm of the message")
        words = [SERVICES[it.service], domain_of(given, it), hint_of(it), place_of(it)]
        told[1] += f" {' '.join(words)}"
    return [*told, said(library, "request", given, begin if strict.is_given else None)]


def name_of(answer):
    """The name of a status; a call that refuses tells nothing."""
    return answer.name if answer.is_given else answer.refused()


def domain_of(given, posted):
    """The target-domain of a request."""
    return given[posted.domain_offset :][: posted.domain_size].decode("ascii")


def hint_of(posted):
    """The hint of a request: `-` where there is none, `large` past 64 bits; it is 0 then."""
    if posted.hint and posted.hint_status:
        raise Fault(f"the hint {posted.hint} is told with {posted.hint_status}")
    return {0: str(posted.hint), 20: "-", 21: "large"}[posted.hint_status]


def place_of(posted):
    return f"{posted.message_offset}+{posted.message_size}"


def stream_at(given, offset, size):
    """The message at a place, behind its length, which stands before it."""
    stream = given[offset - 4 : offset + size]
    if offset < 4 or stream[:4] != size.to_bytes(4, "big") or len(stream) != 4 + size:
        raise Fault(f"no message of {size} octets stands at {offset} behind its length")
    return stream


def names_of(library, message):
    """The realm, and the components of client and server, each behind `/`, in a message; `-` where
    there is no name."""
    kind, realm, client, server = ASKED_OF.get(message[0], OF_FRAME)
    if kind == "AP-REQ":
        message = message[6:][: int.from_bytes(message[4:6], "big")]
    text = text_at(library, kind, realm, message)
    return [text, *(components_of(library, kind, it, message) for it in (client, server))]


def components_of(library, kind, name, message):
    """The components of a name; `-` for none."""
    told = library.find(kind.encode(), name.encode(), message) if name else None
    if told is None or told.name == "ABSENT":
        return "-"
    told.demand()
    text = ""
    for number in range(len(message)):
        part = text_at(library, kind, f"{name}.name-string[{number}]", message)
        if part is None:
            break
        text += f"/{part}"
    return text


def text_at(library, kind, path, message):
    """The text that a path leads to; nothing where it leads to none."""
    told = library.find(kind.encode(), path.encode(), message)
    if told.name == "ABSENT":
        return None
    it = told.demand().item
    return message[it.offset :][: it.size].decode("ascii")


def said(library, what, given, passed):
    """What the program says of what a client posts, or a KDC sends: it passes these octets on, or
    refuses."""
    status, output, errors = run(library, ["proxy", what], given)
    if (status, output) != ((1, b"") if passed is None else (0, passed)):
        raise Fault(f"jolmurig ends with status {status}, and writes {len(output)} octets")
    return "".join(lines_of(errors)).removeprefix("jolmurig: ") or "nothing is said"


def post(library, message, realm):
    """What is posted: how many octets, the first ones, and whether they are read as this message;
    or why not, which the program says of such a request."""
    made = library.make_proxy_request(message, realm.encode())
    if made.is_given:
        it = library.proxy_request(made.out).demand().posted
        is_read = stream_at(made.out, it.message_offset, it.message_size)[4:] == message
        digits, is_read = made.out[:FRONT].hex(), "true" if is_read else "false"
        return [f"make_proxy_request: DONE {made.size} {digits} {is_read}"]
    stream = len(message).to_bytes(4, "big") + message
    posted = library.make_kdc_proxy_message(stream, realm.encode()).demand().out
    return [f"make_proxy_request: {made.refused()}", said(library, "request", posted, None)]


def reply(library, message):
    """What goes back of a datagram."""
    stream = len(message).to_bytes(4, "big") + message
    made = library.proxy_reply_datagram(message)
    return replied(library, "proxy_reply_datagram", made, message, stream)


def write_reply(library, stream):
    """What goes back of what came over a stream."""
    return replied(library, "proxy_reply", library.proxy_reply(stream), stream, stream)


def replied(library, call, made, given, stream):
    """The octets before a reply, whether it stands behind them, and how that is read again; or why
    it is refused. The program writes the same of a stream."""
    line = said(library, "reply", stream, made.out if made.is_given else None)
    if not made.is_given:
        return [f"{call}: {made.refused()}", line]
    front = made.out[: -len(given)]
    stands = "true" if made.out == front + given else "false"
    return [f"{call}: DONE {front.hex()} {stands}", *read_reply(library, made.out), line]


def read_reply(library, given):
    """Which reply a proxy answers, and where it stands; or why it is refused, which of a message
    that is refused the program says."""
    told = library.read_proxy_reply(given)
    line = f"read_proxy_reply: {name_of(told)}"
    if told.is_given:
        message = stream_at(given, told.message_offset, told.message_size)[4:]
        return [f"{line} {kind_of(library, message)} {told.message_offset}+{told.message_size}"]
    if not told.name.startswith("PROXY_"):
        return [line]
    it = library.find(b"KDC-PROXY-MESSAGE", b"kerb-message", given).demand().item
    return [line, said(library, "reply", given[it.offset :][: it.size], None)]


def kind_of(library, message):
    """The name of a reply: of those of a KDC by krb_check; else it is a frame."""
    for name, number in REPLIES.items():
        if library.check(library.numbers[f"KRB_MESSAGE_{number}"], message).is_given:
            return name
    frame = library.password_frame(message).is_given
    error = library.check(library.numbers["KRB_MESSAGE_KRB_ERROR"], message[6:]).is_given
    return "password-change" if frame or error else "none"


def whole(library, given, limit):
    """Whether what came over a stream is there with all its octets."""
    return [f"proxy_is_whole: {name_of(library.proxy_is_whole(given, int(limit)))}"]


ASKED = {
    "request": request,
    "post": post,
    "reply": reply,
    "write_reply": write_reply,
    "read_reply": read_reply,
    "whole": whole,
}
