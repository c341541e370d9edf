"""What a side of a negotiation asks and answers (RFC 4178), octets in and octets out.

Its mechanisms are 1.2.3.1, which has the number 0, and 1.2.3.2, which has 1; both have MICs."""

from rows import octets

NAMES = bytes.fromhex("300e 3005 0603 2a0301 3005 0603 2a0302")
COLUMNS = 5


def conversation(library, columns):
    """A row: the role and whether it asks for MICs, as numbers; and of each message its octets,
    what the mechanism made of them as a number, its token, the MIC that it verified, and its own.
    Of an initiator the first octets are none, and it makes its offer. For each a line of what is
    asked, but of none, and one of the answer."""
    role, asks, *given = columns
    side = library.struct("negotiation", role=int(role), asks=int(asks))
    mechanisms = [library.struct("mechanism", number=number, integrity=1) for number in (0, 1)]
    listed, lines = b"", []
    while given:
        words, given = given[:COLUMNS], given[COLUMNS:]
        words += [""] * (COLUMNS - len(words))
        message, token, verified, mic = (octets(words[it]) for it in (0, 2, 3, 4))
        if side.role == 0 and side.stage == 0:
            told = 0, int(words[1]), token
            begun = library.once("negotiation_begin", side, NAMES, mechanisms, *told)
            side, offer = begun.side, begun.out[: begun.offer_size]
            listed = begun.out[begun.offer_size :]
            lines.append(f"{state_of(side)} sends {offer.hex()} list {listed.hex()}")
            continue
        seen = side, NAMES, mechanisms, listed, message
        asked = library.negotiation_take(*seen, library.struct("negotiation_question")).demand()
        question, parts = asked.question, asked.out
        lines.append(question_of(question, parts))
        if question.has_list:
            listed = parts[question.token_size + question.mic_size :]
        told = question.mechanism, int(words[1]), token, verified, mic
        seen = side, NAMES, mechanisms, listed, message, *told
        answer = library.negotiation_answer(*seen, library.struct("negotiation_reply")).demand()
        side, reply = answer.side, answer.reply
        if reply.lacks_mic:
            lines.append("lacks mic")
        else:
            lines.append(state_of(side) + (f" sends {answer.out.hex()}" if reply.sends else ""))
    return lines


def state_of(side):
    names = "stage", "rule", "mechanism", "name", "by_mic"
    return " ".join(f"{name} {getattr(side, name)}" for name in names)


def question_of(question, parts):
    """The question, or the rule that is broken."""
    if question.rule:
        return f"breaks {question.rule}"
    line, at = f"mechanism {question.mechanism} steps {question.steps}", 0
    for name in ("token", "mic", "list"):
        size = getattr(question, name + "_size")
        if getattr(question, "has_" + name):
            line += f" {name} {parts[at : at + size].hex()}"
        at += size
    return line
