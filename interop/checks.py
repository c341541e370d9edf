"""What passed and what failed: each check is counted, one that fails has a line, and the last line has the counts."""

import os
import sys

COUNTS = {"passed": 0, "failed": 0}


def _name():
    """Of the script that runs: its file's, or its folder's where the file is `run`."""
    folder, file = os.path.split(os.path.abspath(sys.argv[0]))
    return os.path.basename(folder) if file == "run" else os.path.splitext(file)[0]


NAME = _name()


def expect(right, what):
    COUNTS["passed" if right else "failed"] += 1
    if not right:
        say("failed: %s" % what)
    return right


def say(what):
    print("%s: %s" % (NAME, what), flush=True)


def counted(title, run):
    """Runs checks, and says how many of them passed."""
    before = dict(COUNTS)
    run()
    say("%s: %d passed, %d failed" % (title, *(COUNTS[each] - before[each] for each in COUNTS)))


def ended():
    """Prints the last line, and is the status to end with."""
    print("%(passed)d passed, %(failed)d failed" % COUNTS)
    return 1 if COUNTS["failed"] else 0
