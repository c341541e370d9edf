"""The calls of the library for C, by what include/krb.h declares of them."""

import collections
import ctypes
import re

KINDS = {"size_t": ctypes.c_size_t, "bool": ctypes.c_bool, "krb_status": ctypes.c_uint32}
for _bits in (8, 16, 32, 64):
    KINDS[f"int{_bits}_t"] = getattr(ctypes, f"c_int{_bits}")
    KINDS[f"uint{_bits}_t"] = getattr(ctypes, f"c_uint{_bits}")
DONE, ROOM, MEMORY, UNLESS_REPEATED = 0, 1, 2, 43
# What a caller's octets have before a call, so that it is seen what the call writes.
UNTOUCHED = 0xA5
# How many allocations these calls make at most.
MOST = {"encrypt": 4, "decrypt": 4, "n_fold": 1}
# Structs that the caller passes in and takes back; those of a negotiation are as they were where a
# call refuses.
CHANGED = ("krb_exchange", "krb_negotiation", "krb_negotiation_question", "krb_negotiation_reply")

Parameter = collections.namedtuple("Parameter", "what name kind")


class Fault(Exception):
    """A call that does not keep to what the header says of every call."""


class Answer:
    """What a call told: its status, and each parameter that it writes, under its name."""

    def __init__(self, names, status, told):
        self.status, self.name, self.told = status, names.get(status, str(status)), told

    def __getattr__(self, name):
        try:
            return self.told[name]
        except KeyError:
            raise AttributeError(name) from None

    @property
    def is_given(self):
        return self.status in (DONE, UNLESS_REPEATED)

    def plain(self):
        """All of it, so that two answers compare."""
        return self.status, {name: plain_of(it) for name, it in self.told.items()}

    def refused(self):
        """The name of the status, of a call that refuses, which tells nothing."""
        if self.is_given or any(map(is_told, self.told.values())):
            raise Fault(f"{self.name} tells something: {self.plain()}")
        return self.name

    def demand(self):
        """The answer, which has to be given."""
        if not self.is_given:
            raise Fault(f"there is no answer, but {self.refused()}")
        return self

    def at(self, place):
        """The octets of `out` at a place."""
        return self.out[place.offset : place.offset + place.size]


def plain_of(told):
    if isinstance(told, ctypes.Structure):
        return bytes(told)
    return [bytes(it) for it in told] if isinstance(told, list) else told


def declared(header):
    """The numbers and the calls of the header; its structs become kinds."""
    text = re.sub(r"/\*.*?\*/", "", header, flags=re.S)
    numbers = {name: int(it) for name, it in re.findall(r"\b(KRB_\w+) = (-?\d+)\b", text)}
    for body, name in re.findall(r"typedef struct \w+ \{(.*?)\} (\w+);", text, re.S):
        fields = []
        for kind, field, count in re.findall(r"(\w+) (\w+)(?:\[(\d+)\])?;", body):
            fields.append((field, KINDS[kind] * int(count) if count else KINDS[kind]))
        KINDS[name] = type(name, (ctypes.Structure,), {"_fields_": fields})
    found = re.findall(r"^(krb_status|size_t) krb_(\w+)\(([^)]*)\);", text, re.S | re.M)
    return numbers, {name: (kind, parameters_of(words)) for kind, name, words in found}


def parameters_of(text):
    """The parameters of a call: an array is one, with the number behind it."""
    words = [" ".join(it.split()).rsplit(" ", 1) for it in text.split(",")]
    made = []
    while words:
        kind, name = words.pop(0)
        base = kind.replace("const ", "")
        is_array = name[0] == "*" and words and words[0][0] == "size_t" and words[0][1][0] != "*"
        if is_array:
            words.pop(0)
        what = "given" if kind.startswith("const ") else "told"
        if name[0] != "*":
            what = "number"
        elif is_array:
            what += " array"
        elif base in CHANGED and what == "told":
            what = "changed"
        made.append(Parameter(what, name.lstrip("*"), KINDS[base]))
    return made


class Library:
    """`library.encrypt(17, key, ..)` is the answer of krb_encrypt: what the header names const, or
    by value, is given in its order.

    Each call is made again with each of its allocations refused, that one alone and all from it
    on: it has to answer that memory was wanting and nothing else, or, where it does without, the
    same as before; and to keep no block. What it answers as octets is asked for again with just
    enough room, and with one octet less. Without `refuses` each is made once."""

    def __init__(self, file, header, refuses=True):
        self.refuses = refuses
        self.numbers, self.calls = declared(header)
        statuses = header[header.index("typedef uint32_t krb_status") :]
        statuses = statuses[: statuses.index("};")]
        self.names = {int(it): name for name, it in re.findall(r"KRB_(\w+) = (\d+)", statuses)}
        self.object, self.counts = ctypes.CDLL(file), collections.Counter()
        for it in ("requests", "held"):
            getattr(self.object, "tests_" + it).restype = ctypes.c_long
        self.object.tests_refuse.argtypes = (ctypes.c_long, ctypes.c_long)

    def __getattr__(self, call):
        if call not in self.calls:
            raise AttributeError(call)
        return lambda *given, room=None: self.ask(call, given, room)

    def struct(self, name, *fields, **named):
        return KINDS["krb_" + name](*fields, **named)

    def rules(self, prefix):
        """The names of rules by their numbers, as Rust writes them."""
        named = {it: name[len(prefix) :] for name, it in self.numbers.items() if prefix in name}
        return {it: name.title().replace("_", "") for it, name in named.items()}

    def ask(self, call, given, room=None):
        """The answer of a call; `Fault` where it does not keep to what the header says of all."""
        room = room_for(given) if room is None else room
        answer = self.make(call, given, room)
        if self.refuses and self.calls[call][0] == "krb_status":
            self.refuse(call, given, room, answer)
            self.press(call, given, answer)
        return answer

    def once(self, call, *given):
        """The answer of a call that is made once, with ample memory and room."""
        return self.make(call, given, room_for(given))

    def refuse(self, call, given, room, answer):
        """The call again, with each of its allocations refused in turn."""
        self.object.tests_refuse(0, 0)
        self.make(call, given, room)
        requests, held = self.object.tests_requests(), self.object.tests_held()
        if held or answer.status == MEMORY:
            raise Fault(f"krb_{call}: {answer.name} with memory to spare, {held} blocks are held")
        if requests > MOST.get(call, requests):
            raise Fault(f"krb_{call}: {requests} allocations, and {MOST[call]} at most are needed")
        for are_more in (0, 1):
            for first in range(1, requests + 1):
                self.object.tests_refuse(first, are_more)
                told = self.make(call, given, room)
                held = self.object.tests_held()
                self.counts["refused"] += 1
                is_refused = told.status == MEMORY and not any(map(is_told, told.told.values()))
                # (a call may do without: then it answers as before)
                if held or not (is_refused or told.plain() == answer.plain()):
                    why = f"allocation {first} of {requests} refused: {told.name}, {held} held"
                    raise Fault(f"krb_{call}: {why}")
                self.counts["without"] += told.status != MEMORY
        self.object.tests_refuse(0, 0)

    def press(self, call, given, answer):
        """The call again, with just enough room and with one octet less."""
        arrays = [it for it in self.calls[call][1] if it.what == "told array"]
        size = answer.told.get("size", answer.told.get("count", 0))
        if not answer.is_given or not size or len(arrays) != 1:
            return
        each = ctypes.sizeof(arrays[0].kind)
        if self.make(call, given, size * each).plain() != answer.plain():
            raise Fault(f"krb_{call}: another answer with just enough room")
        less = self.make(call, given, (size - 1) * each)
        if less.status != ROOM or less.told.get("size", less.told.get("count")) != size:
            raise Fault(f"krb_{call}: {less.name} with room for one less than needed")

    def make(self, call, given, room):
        """One call, as it is told."""
        kind, parameters = self.calls[call]
        self.counts["calls"] += 1
        given, words, told, before = list(given), [], {}, {}
        for it in parameters:
            if it.what in ("told array", "told", "changed"):
                told[it.name] = written(it, given, room)
                before[it.name] = bytes(told[it.name]) if it.what == "changed" else None
                words.append(told[it.name] if "array" in it.what else ctypes.byref(told[it.name]))
                words += [ctypes.c_size_t(len(told[it.name]))] if "array" in it.what else []
            else:
                words += passed(it, given.pop(0))
        if given:
            raise TypeError(f"krb_{call} is given too much")
        function = getattr(self.object, "krb_" + call)
        function.restype = KINDS[kind]
        status = function(*words)
        if kind == "size_t":
            return status
        made, is_given = {}, status in (DONE, UNLESS_REPEATED)
        for name, it in told.items():
            if before[name] is not None and not is_given:
                # (a struct of the caller's is as it was)
                is_as_it_was, made[name] = bytes(it) == before[name], None
            elif isinstance(it, ctypes.Array):
                count = count_of(name, told) if is_given else 0
                made[name], is_as_it_was = front(it, count), is_untouched(it, count)
            else:
                made[name] = it.value if isinstance(it, ctypes._SimpleCData) else it
                is_as_it_was = True
            if not is_as_it_was:
                raise Fault(f"krb_{call}: it changed what is none of its answer in `{name}`")
        return Answer(self.names, status, made)


def room_for(given):
    """Ample room for what is made of these."""
    return 65536 + 12 * sum(len(it) for it in given if isinstance(it, (bytes, list)))


def count_of(name, told):
    """How many of an array are told, which stands behind it; all where nothing does."""
    names = list(told)
    behind = names[names.index(name) + 1 :]
    return told[behind[0]].value if behind else len(told[name])


def front(array, count):
    """The first ones of an array, as octets or as a list."""
    return bytes(array)[:count] if array._type_ is ctypes.c_uint8 else list(array[:count])


def is_untouched(array, count):
    """Whether what stands behind so many of an array is as it was."""
    behind = bytes(array)[count * ctypes.sizeof(array._type_) :]
    return behind == bytes([UNTOUCHED]) * len(behind)


def is_told(told):
    """Whether octets, a list, a number or a struct tell something."""
    return any(bytes(told)) if isinstance(told, ctypes.Structure) else bool(told)


def written(parameter, given, room):
    """What a call may write: the caller's own struct, a value that is not 0, or so much room; a
    kept key is zeros."""
    if parameter.what == "changed":
        return parameter.kind.from_buffer_copy(given.pop(0))
    if parameter.what == "told":
        filled = 0 if parameter.name == "kept" else UNTOUCHED
        return parameter.kind.from_buffer_copy(bytes([filled]) * ctypes.sizeof(parameter.kind))
    count = room // ctypes.sizeof(parameter.kind)
    octets = bytes([UNTOUCHED]) * (count * ctypes.sizeof(parameter.kind))
    return (parameter.kind * count).from_buffer_copy(octets)


def passed(parameter, value):
    """What is passed for a value."""
    if parameter.what == "number":
        return [parameter.kind(value)]
    if parameter.what == "given":
        return [ctypes.byref(value)]
    array = parameter.kind * len(value)
    made = array.from_buffer_copy(value) if isinstance(value, bytes) else array(*value)
    return [made, ctypes.c_size_t(len(value))]
