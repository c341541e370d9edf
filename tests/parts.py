"""What is made of the parts of tickets: by the calls of the library, and by the program krbtool."""

import collections
import concurrent.futures
import errno
import functools
import os
import subprocess
import tempfile
from pathlib import Path

from library import Fault
from rows import flipped, octets

# How many seconds a run may take, also where other work takes the processors.
LIMIT = 600


def parts(library, columns):
    """A row of `parts`: an encryption type, a key, a key usage, a confounder, a part, and what it
    is encrypted to."""
    etype, key, usage, *rest = columns
    context, (confounder, part, sealed) = (int(etype), octets(key), int(usage)), map(octets, rest)
    made = library.seal_ticket_part(*context, confounder, part)
    opened = library.open_ticket_part(*context, sealed)
    every = [library.once("open_ticket_part", *context, it) for it in flipped(sealed)]
    told = collections.Counter(f"{it.status} {it.name}, {it.size} octets" for it in every)
    return [
        f"encrypted: {made.name}, {'the same' if made.out == sealed else made.out.hex()}",
        f"decrypted: {opened.name}, {'the same' if opened.out == part else opened.out.hex()}",
        *(f"with a bit flipped {count} times {it}" for it, count in sorted(told.items())),
    ]


def krbtool(library, columns):
    """A row of `krbtool`, which asks that program: `once`, the words behind its name, and standard
    input; or `prefixes` or `flips`, of each proper prefix of it, and of it with each bit
    flipped; or `devices` and how many octets a call of them moves."""
    how, words, given = columns
    program, words, given = library.krbtool, words.split(" ") if words else [], octets(given)
    if how.startswith("devices "):
        return over_devices(program, words, given, int(how.removeprefix("devices ")))
    if how == "once":
        ended, output, errors = run(program, words, given)
        return [ended, *([output.hex()] if output else []), *lines_of(errors)]
    changed = {"prefixes": prefixes, "flips": flipped}[how](given)
    with concurrent.futures.ThreadPoolExecutor(len(os.sched_getaffinity(0))) as lanes:
        told = collections.Counter(lanes.map(lambda it: in_short(program, words, it), changed))
    return sorted(f"{count} times {it}" for it, count in told.items())


def over_devices(program, words, given, step):
    """A run over devices of which a call moves at most so many octets: how it ends, what it writes,
    and how many calls of each device there are; then how runs end in which one call fails, and in
    which one is interrupted, each in turn."""
    (ended, output, errors), calls = on_devices(program, words, given, f"{step} 0 0 0")
    names = "reads", "writes", "writes to standard error"
    counted = ", ".join(f"{count} {name}" for count, name in zip(calls, names))
    told = [ended, *([output.hex()] if output else []), *lines_of(errors), counted]
    for device, name in enumerate(names):
        turns = range(1, calls[device] + 1)
        fails = collections.Counter()
        for turn in turns:
            what = f"{step} {device} {turn} {errno.EIO}"
            (status, made, line), _ = on_devices(program, words, given, what)
            before = (turn - 1) * step
            kept = [output, errors] if device == 2 else [output[: before * device], errors]
            kept[1] = errors[:before] if device == 2 else b"krbtool: io\n"
            status = status.partition(",")[0]
            as_told = "what came before" if [made, line] == kept else f"{made.hex()} {line!r}"
            fails[f"{status}, {as_told}"] += 1
        same = sum(
            on_devices(program, words, given, f"{step} {device} {turn} {errno.EINTR}")[0]
            == (ended, output, errors)
            for turn in turns
        )
        told += [f"{count} {name} fail: {it}" for it, count in sorted(fails.items())]
        told += [f"{same} {name} interrupted: the same"] if calls[device] else []
    return told


def on_devices(program, words, given, devices):
    """A run over devices (devices.c), and how many calls of each there were."""
    with tempfile.TemporaryFile() as counts:
        descriptor = counts.fileno()
        more = {"DEVICES": devices, "DEVICES_TOLD": str(descriptor), "LD_PRELOAD": str(object_of())}
        ran = run(program, words, given, env={**os.environ, **more}, pass_fds=[descriptor])
        counts.seek(0)
        return ran, [int(it) for it in counts.read().split()]


@functools.cache
def object_of():
    """The object of devices.c, which is made where it is missing or older."""
    source = Path(__file__).with_name("devices.c")
    made = source.parent.parent / "out/tests/devices.so"
    if not made.exists() or made.stat().st_mtime < source.stat().st_mtime:
        made.parent.mkdir(parents=True, exist_ok=True)
        new = made.with_suffix(f".{os.getpid()}")
        words = ["-shared", "-fPIC", "-O2", "-Wall", "-Wextra", "-Werror", "-o", str(new), str(source)]
        ran = subprocess.run(["cc", *words], capture_output=True, text=True)
        if ran.returncode:
            raise Fault(f"devices.c is not compiled: {ran.stderr[:400]}")
        new.replace(made)
    return made


def prefixes(given):
    """The octets without their last ones, down to none."""
    return (given[:size] for size in range(len(given)))


def run(program, words, given, **more):
    """How a run ends, and how much of its input it leaves; what it writes to both its outputs."""
    with tempfile.TemporaryFile() as file:
        file.write(given)
        file.seek(0)
        try:
            words = [program, *words]
            ran = subprocess.run(words, stdin=file, capture_output=True, timeout=LIMIT, **more)
        except subprocess.TimeoutExpired:
            return f"not ended after {LIMIT} seconds", b"", b""
        left = len(given) - os.lseek(file.fileno(), 0, os.SEEK_CUR)
    return f"status {ran.returncode}, {left} octets left", ran.stdout, ran.stderr


def in_short(program, words, given):
    """A run in one line."""
    ended, output, errors = run(program, words, given)
    written = ["the input" if output == given else output.hex()] if output else []
    return "; ".join([ended, *written, *lines_of(errors)])


def lines_of(errors):
    """The lines on standard error; each has its end."""
    text = errors.decode("ascii", "backslashreplace")
    *lines, rest = text.split("\n")
    return [*lines, f"a line without its end: {rest}"] if rest else lines
