"""Commands that are run, and what programs of tests counted."""

import re
import subprocess

from checks import COUNTS, expect, say

WARNINGS = ["-Wall", "-Wextra", "-Werror"]


def run(*command, **rest):
    return subprocess.run(command, stdout=subprocess.PIPE, stderr=subprocess.STDOUT, text=True, timeout=3600, **rest)


def count(name, done):
    """Adds what a program of tests counted, in its last line."""
    found = re.search(r"^(\d+) passed, (\d+) failed\n\Z", done.stdout, re.M)
    if not found or done.returncode not in (0, 1):
        expect(False, "%s ended with status %d:\n%s" % (name, done.returncode, done.stdout[-4000:]))
        return
    COUNTS["passed"] += int(found[1])
    COUNTS["failed"] += int(found[2])
    lines = done.stdout.splitlines()
    for line in lines[:-1][:20]:
        say("%s: %s" % (name, line))
    expect(done.returncode == (found[2] != "0"), "%s: another status" % name)
    say("%s: %s" % (name, lines[-1]))
