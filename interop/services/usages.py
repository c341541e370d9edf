"""Programs of examples/ that are asked for help, or given other words than they take: they tell their usage, also without a library."""

import os
import subprocess

from checks import expect
from script import PATHS, PYTHON, TOP

PROGRAMS = {
    os.path.join("http_negotiate", "serve.py"): ([], ["keytab"], ["--server"], ["keytab", "cache", "port"], ["--new", "--help", "cache", "80"]),
    os.path.join("python", "first_login.py"): ([], ["ann@HOME.TEST"], ["a", "b", "c", "d"], ["--help", "b", "c"]),
}


def try_usages():
    environment = {"PATH": PATHS, "KRBC_LIBRARY": "/nowhere"}
    for program, all_words in PROGRAMS.items():
        for words in (["--help"], *all_words):
            done = subprocess.run([PYTHON, "-B", os.path.join(TOP, "examples", program), *words], env=environment, capture_output=True, text=True, timeout=60)
            status, told, other = (0, done.stdout, done.stderr) if words == ["--help"] else (2, done.stderr, done.stdout)
            is_told = done.returncode == status and other == "" and os.path.basename(program) in told and "Traceback" not in told
            expect(is_told, "%s %s: status %d, %s" % (program, words, done.returncode, told[-300:]))
