"""Tries the Python package: try_krb.py CALLS MESSAGES FIELDS, in an environment that has it installed. The last line is `N passed, N failed`."""

import concurrent.futures
import ctypes
import os
import pickle
import sys

import krb
from counting import ended, expect, outcome
from krb import Refused, Status
from krb import crypto, gss, messages
from tables import rows_in

SUITES = {16: (24, 8, 20, 12), 17: (16, 16, 12, 15), 18: (32, 16, 12, 16), 19: (16, 16, 16, 19), 20: (32, 16, 24, 20)}
PARTS = {
    3: messages.Part.TICKET_PART,
    2: messages.Part.AUTHENTICATOR,
    25: messages.Part.AS_REP_PART,
    26: messages.Part.TGS_REP_PART,
    27: messages.Part.AP_REP_PART,
    28: messages.Part.PRIV_PART,
    29: messages.Part.CRED_PART,
}


def kept_outcome(number, key, answer, wanted):
    """A key's size is refused before a confounder's where the key is kept first."""
    if wanted == Status.CONFOUNDER_SIZE and len(key) != SUITES[number][0]:
        return Status.KEY_SIZE
    return answer if wanted == Status.DONE else wanted


def try_row(row):
    call, number, key, usage, beside, octets, status, answer = row
    number, usage, wanted = int(number), int(usage or 0), Status[status]
    size = call.endswith("_size")
    key, beside, octets, answer = (bytes.fromhex(it) if not size else it for it in (key, beside, octets, answer))
    if call == "encrypted_size":
        expect(crypto.encrypted_size(number, int(octets)) == int(answer), row)
    elif size:
        expect(getattr(crypto, call)(number) == int(answer), row)
    elif call == "encrypt":
        expect(outcome(crypto.encrypt, number, key, usage, octets, beside) == (answer if wanted == Status.DONE else wanted), row)
        expect(outcome(lambda: crypto.KeptKey(number, key, usage).encrypt(octets, beside)) == kept_outcome(number, key, answer, wanted), row)
    elif call == "string_to_key":
        expect(outcome(crypto.string_to_key, number, octets, beside) == (answer if wanted == Status.DONE else wanted), row)
    elif call == "random_to_key":
        expect(outcome(crypto.random_to_key, number, octets) == (answer if wanted == Status.DONE else wanted), row)
    elif call in ("decrypt", "checksum"):
        if call == "decrypt":
            expect(outcome(lambda: crypto.KeptKey(number, key, usage).decrypt(octets)) == kept_outcome(number, key, answer, wanted), row)
        else:
            expect(outcome(lambda: crypto.KeptChecksumKey(number, key, usage).checksum(octets)) == (answer if wanted == Status.DONE else wanted), row)
        expect(outcome(getattr(crypto, call), number, key, usage, octets) == (answer if wanted == Status.DONE else wanted), row)
    elif call == "verify_checksum":
        expect(outcome(crypto.verify_checksum, number, key, usage, octets, beside) == (None if wanted == Status.DONE else wanted), row)
        expect(outcome(lambda: crypto.KeptChecksumKey(number, key, usage).verify(octets, beside)) == (None if wanted == Status.DONE else wanted), row)
    elif call == "n_fold":
        expect(outcome(crypto.n_fold, octets, number) == (answer if wanted == Status.DONE else wanted), row)
    elif call == "check":
        expect(outcome(messages.check, number, octets) == (None if wanted == Status.DONE else wanted), row)
    else:
        expect(False, "no call %s" % call)


def try_message(number, octets):
    expect(outcome(messages.check, number, octets) is None and messages.is_message(number, octets), "message %d" % number)
    for count in range(0, len(octets), 1 + len(octets) // 40):
        expect(outcome(messages.check, number, octets[:count]) == Status.TRUNCATED, "message %d, cut" % number)
    expect(outcome(messages.check, number, octets + b"\0") == Status.INVALID, "message %d, with an octet behind" % number)
    expect(not messages.is_message(number, octets[1:]), "message %d, without its first octet" % number)
    part = PARTS.get(number)
    for etype, (key_size, _, _, _) in SUITES.items() if part else ():
        key = os.urandom(key_size)
        sealed = messages.seal(part, etype, key, 2, octets)
        expect(sealed != messages.seal(part, etype, key, 2, octets), "one confounder twice")
        expect(messages.open_part(part, etype, key, 2, sealed) == octets, "%s is opened otherwise" % part)
        expect(crypto.decrypt(etype, key, 2, sealed).rstrip(b"\0") == octets.rstrip(b"\0"), "%s is decrypted otherwise" % part)
        expect(outcome(messages.open_part, part, etype, key, 3, sealed) == Status.INTEGRITY, "%s under another usage" % part)
        expect(outcome(messages.seal, part, etype, key, 2, octets[:-1]) == Status.TRUNCATED, "%s, cut" % part)
        for other in PARTS.values():
            if other != part:
                expect(outcome(messages.open_part, other, etype, key, 2, sealed) == Status.INVALID, "%s as %s" % (part, other))


def try_field(row):
    message, octets, field, index, status, offset, size, value, as_type, path = row
    message, field, index, offset, size, octets = int(message), int(field), int(index), int(offset), int(size), bytes.fromhex(octets)
    is_number = messages.Field(field) in messages.NUMBERS
    if status == "ABSENT":
        expect(outcome(messages.field_place, message, field, octets, index) == Status.ABSENT, row[2:])
        expect(outcome(messages.field_octets, message, field, octets, index) == Status.ABSENT, row[2:])
        expect(outcome(messages.field_number, message, field, octets, index) == (Status.ABSENT if is_number else Status.NUMBER), row[2:])
        expect(messages.field(message, field, octets, index) is None, row[2:])
        return
    right = octets[offset : offset + size]
    if field != messages.Field.TICKET:
        expect(krb.find(octets, as_type, path) == right, row[2:])
    number = (Status.TOO_LARGE if value == "TOO_LARGE" else int(value)) if is_number else Status.NUMBER
    expect(messages.field_place(message, field, octets, index) == slice(offset, offset + size), row[2:])
    expect(messages.field_octets(message, field, octets, index) == right, row[2:])
    expect(outcome(messages.field_number, message, field, octets, index) == number, row[2:])
    expect(outcome(messages.field, message, field, octets, index) == (number if is_number else right), row[2:])


def try_other_fields(number, octets):
    """Indices that C does not hold, numbers of no field, octets that are cut."""
    for index in (-1, 2**64, 2**70, -(2**70)):
        expect(outcome(messages.field_octets, number, messages.Field.ETYPE, octets, index) == Status.ABSENT, "index %d" % index)
    for field in (0, -1, 33, 2**31, 2**64 + 1):
        expect(outcome(messages.field, number, field, octets) == Status.NUMBER, "field %d" % field)
    expect(outcome(messages.field, number, messages.Field.NONCE, octets[:-1]) == Status.TRUNCATED, "a field of a cut message")
    expect(messages.field(number, messages.Field.REALM, memoryview(octets)) == messages.field(number, messages.Field.REALM, bytearray(octets)), "forms of octets")


def try_remembered(key, sealed):
    """Derived keys are remembered until they are forgotten, and no answer tells whether they are."""
    crypto.forget_keys()
    held = sys.getrefcount(key)
    for _ in range(3):
        for usage, wanted in ((2, b"octets of a payload"), (3, Status.INTEGRITY)):
            expect(outcome(crypto.decrypt, 17, key, usage, sealed) == wanted, "usage %d" % usage)
        for number in (17.0, "17", None):
            try:
                crypto.decrypt(number, key, 2, sealed)
                expect(False, "%r is taken for a number" % (number,))
            except (TypeError, ctypes.ArgumentError):
                expect(True, "")
    total = crypto.checksum(15, key, 2, sealed)
    expect(outcome(crypto.verify_checksum, 15, key, 3, sealed, total) == Status.INTEGRITY, "another usage")
    expect(sys.getrefcount(key) == held + 4, "%d keys are remembered" % (sys.getrefcount(key) - held))
    for other in range(17):
        crypto.checksum(15, bytes([other]) * 16, 2, sealed)
    expect(sys.getrefcount(key) == held + 2, "more than 16 keys of checksums are remembered")
    crypto.forget_keys()
    expect(sys.getrefcount(key) == held, "a key is remembered after forget_keys")


def try_forms():
    """Other objects with octets, numbers that do not fit, what a refusal is."""
    key, payload = bytes(range(16)), b"octets of a payload"
    sealed = crypto.encrypt(17, key, 2, payload, bytes(16))
    for form in (bytearray, memoryview):
        expect(crypto.encrypt(17, form(key), 2, form(payload), form(bytes(16))) == sealed, form)
        expect(crypto.decrypt(17, form(key), 2, form(sealed)) == payload, form)
    for number in (2**31, -(2**31) - 1, 2**32 + 17, 2**64 + 17, -(2**70)):
        expect(outcome(crypto.decrypt, number, key, 2, sealed) == Status.NUMBER, number)
        for etype, usage in ((number, 2), (17, number)):
            expect(outcome(crypto.encrypt, etype, key, usage, payload, bytes(15)) == Status.NUMBER, "%d, %d, and a short confounder" % (etype, usage))
        expect(crypto.key_size(number) == 0 and crypto.encrypted_size(number, 5) == 0, number)
        expect(outcome(messages.check, number, b"") == Status.NUMBER, number)
        expect(outcome(messages.is_message, number, b"") == Status.NUMBER, number)
    for wrong in ("text", None, 5, [1, 2]):
        try:
            crypto.checksum(15, wrong, 2, b"")
            expect(False, "%r is taken for octets" % (wrong,))
        except TypeError:
            expect(True, "")
    try_remembered(key, sealed)
    token_key = gss.TokenKey(17, key, gss.Sender.ACCEPTOR, True)
    for each in (token_key, crypto.KeptKey(17, key, 2), crypto.KeptChecksumKey(15, key, 2)):
        for said in (repr(each), str(each), "%s" % [each]):
            hidden = not any(form in said for form in (repr(key)[2:-1], key.hex(), "\\x01", "1, 2, 3"))
            expect(hidden and ("etype=17" in said or "cksumtype=15" in said), "a key is told: %s" % said)
    expect(token_key == (17, key, gss.Sender.ACCEPTOR, True), "a key of tokens is its fields")
    refused = pickle.loads(pickle.dumps(Refused(7)))
    expect(refused.status is Status.INTEGRITY and isinstance(refused, ValueError) and str(refused) == "INTEGRITY: a wrong checksum", "a refusal")
    large = os.urandom(3_000_000)
    expect(crypto.decrypt(18, bytes(32), 2, crypto.encrypt(18, bytes(32), 2, large)) == large, "three million octets")
    expect(crypto.encrypted_size(17, 2**64) == 0, "a size that does not fit")
    expect(os.path.exists(os.path.join(os.path.dirname(krb.__file__), "py.typed")), "py.typed")


def turn(number):
    etype = 16 + number % 5
    key_size, confounder_size, sum_size, cksumtype = SUITES[etype]
    key, payload = number.to_bytes(4, "big") * 8, number.to_bytes(4, "big") * 500
    sealed = crypto.encrypt(etype, key[:key_size], number, payload)
    total = crypto.checksum(cksumtype, key[:key_size], number, payload)
    crypto.verify_checksum(cksumtype, key[:key_size], number, payload, total)
    crypto.KeptChecksumKey(cksumtype, key[:key_size], number).verify(payload, total)
    return crypto.decrypt(etype, key[:key_size], number, sealed) == payload and len(total) == sum_size


def main():
    messages_of = [(int(number), bytes.fromhex(digits)) for number, digits in rows_in(sys.argv[2])]
    for row in rows_in(sys.argv[1]):
        try_row(row)
    for number, octets in messages_of:
        try_message(number, octets)
    for row in rows_in(sys.argv[3]):
        try_field(row)
    for number, octets in messages_of:
        if number == 10:
            try_other_fields(10, octets)
    try_forms()
    with concurrent.futures.ThreadPoolExecutor(16) as pool:
        for number, right in enumerate(pool.map(turn, range(2000))):
            expect(right, "turn %d of 16 threads" % number)
    return ended()


if __name__ == "__main__":
    sys.exit(main())
