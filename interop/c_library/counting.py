"""What the Python tests of the package have alike: they count by ../checks.py, a refusal is an outcome, and octets are changed."""

import os
import random
import sys

sys.dont_write_bytecode = True
sys.path.append(os.path.join(os.path.dirname(os.path.abspath(__file__)), ".."))

from checks import ended, expect  # noqa: E402, F401
from krb import Refused  # noqa: E402


def outcome(call, *arguments):
    """What a call returns, or the status with which it refuses."""
    try:
        return call(*arguments)
    except Refused as refused:
        return refused.status


def changed(octets, count, front=0.8):
    """The octets with one or two bits turned, this part of them among the first 60 octets, and now and then cut."""
    for _ in range(count):
        other = bytearray(octets)
        for _ in range(random.randrange(1, 3)):
            other[random.randrange(min(len(other), 60) if random.random() < front else len(other))] ^= 1 << random.randrange(8)
        if random.random() < 0.1:
            del other[random.randrange(len(other)) :]
        yield bytes(other)
