"""What the calls of the cryptography, and of MIC and Wrap tokens, answer to a row."""

from library import is_told
from rows import flipped, octets

KEPT = {"encrypt": "keep_key", "decrypt": "keep_key"}
KEPT.update({"checksum": "keep_checksum_key", "verify_checksum": "keep_checksum_key"})


def calls(library, columns):
    """A row of `calls`: a call, a number, a key, a usage, what stands beside, an input."""
    call, number, key, usage, beside, given = columns
    number, key, usage, beside = int(number), octets(key), int(usage or 0), octets(beside)
    if call.endswith("_size"):
        more = [int(given)] if call == "encrypted_size" else []
        return [str(getattr(library, call)(number, *more))]
    given = octets(given)
    if call in KEPT:
        keyed = {
            "encrypt": (beside, given),
            "decrypt": (given,),
            "checksum": (given,),
            "verify_checksum": (given, beside),
        }[call]
        told = line_of(getattr(library, call)(number, key, usage, *keyed))
        kept = line_of(under_kept_key(library, call, number, key, usage, keyed))
        return [told] if told == kept else [told, f"under a kept key {kept}"]
    if call == "n_fold":
        # (no room past what a machine holds is tried: of no octets nothing is told)
        return [line_of(library.n_fold(given, room=min(number, len(given) + 99)))]
    more = {"string_to_key": (given, beside), "random_to_key": (given,), "check": (given,)}
    return [line_of(getattr(library, call)(number, *more[call]))]


def under_kept_key(library, call, number, key, usage, keyed):
    """What a call answers under the key, kept for the usage; that of keeping it, where it is
    refused."""
    kept = getattr(library, KEPT[call])(number, key, usage)
    return getattr(library, call + "_kept")(kept.kept, *keyed) if kept.is_given else kept


def line_of(answer):
    """An answer: its status, and the octets."""
    made = answer.told.get("out", b"")
    return f"{answer.name} {made.hex()}".rstrip()


def tokens(library, columns):
    """A row of `tokens`: an encryption type, a key, whether the acceptor sent the token, whether
    the key is the acceptor's subkey, a sequence number, the kind, a message, the token."""
    etype, key, sent, subkey, number, kind, message, token = columns
    etype, sent, subkey, number = int(etype), sent == "1", subkey == "1", int(number)
    key, message, token = map(octets, (key, message, token))
    context, lines = (etype, key), []
    if kind == "mic":
        lines.append("made " + line_of(library.make_mic(*context, sent, subkey, number, message)))
    elif kind == "clear":
        made = library.wrap_in_clear(*context, sent, subkey, number, 0, message)
        lines.append("made " + line_of(made))

    call, message = ("verify_mic", (message,)) if kind == "mic" else ("unwrap", ())
    context += (sent, subkey, *message)
    lines.append("holds " + held(getattr(library, call)(*context, token)))
    reflected = getattr(library, call)(etype, key, not sent, subkey, *message, token)
    lines.append("as the other side's " + held(reflected))
    if any(library.once(call, *context, it).is_given for it in flipped(token)):
        lines.append("a token with a bit flipped is taken")
    return lines


def held(answer):
    """What a token holds: its sequence number, and of a Wrap token the message; or the status."""
    if not answer.is_given:
        is_silent = not any(map(is_told, answer.told.values()))
        return answer.name if is_silent else f"{answer.name}, and tells something"
    if "sealed" not in answer.told:
        return str(answer.sequence_number)
    how = "encrypted" if answer.sealed else "in the clear"
    return f"{answer.sequence_number} {how} {answer.out.hex()}".rstrip()
