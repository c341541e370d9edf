"""The program `jolmurig`, run without an environment, and what is alike in its answers: what it writes with the status 0, or one line of an
error."""

import json
import os
import re
import subprocess
import sys

from checks import NAME
from script import PROGRAM, TOP


class Failed(Exception):
    """A tool that did not do what it was to do."""


def demand_built():
    """Ends the script where the program is not built."""
    if not os.access(PROGRAM, os.X_OK):
        print("%s: %s is missing: bin/jolmurig builds it" % (NAME, os.path.relpath(PROGRAM, TOP)), file=sys.stderr)
        sys.exit(2)


def ran(words, octets=b"", program=PROGRAM):
    return subprocess.run([program, *words], input=octets, capture_output=True, timeout=120, env={})


def is_refused(done, status=1, line="[ -~]+: [ -~]+"):
    """Whether nothing was written but one line of an error, behind the program's name, in ASCII."""
    text = done.stderr.decode("latin-1")
    return (done.returncode, done.stdout) == (status, b"") and text.isascii() and re.fullmatch("jolmurig: %s\n" % line, text) is not None


def written(*words, notes=False):
    """What it writes with the status 0 and, but for notes, nothing on standard error."""
    done = ran(words)
    if done.returncode != 0 or (done.stderr and not notes):
        raise Failed("jolmurig %s: status %d, %s" % (" ".join(words), done.returncode, done.stderr.decode("latin-1").strip()))
    return done


def output(*words):
    """What `show` writes."""
    return written("show", *words).stdout.decode("ascii")


def shown(kind, *words):
    """What its JSON has under its only name, which is to be this."""
    value = json.loads(output("--json", *words))
    if list(value) != [kind]:
        raise Failed("jolmurig show --json %s: shows %s" % (" ".join(words), ", ".join(value)))
    return value[kind]
