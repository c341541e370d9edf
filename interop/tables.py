"""The rows of the test programs: crates/TEST/stdin, in which a line `== NAME` begins a table; and those of tests/NAME.rows."""

import os
import sys

TOP = os.path.dirname(os.path.dirname(os.path.abspath(__file__)))
sys.path.append(os.path.join(TOP, "tests"))

from rows import rows_of  # noqa: E402


def asked(name):
    """The rows of tests/NAME.rows, each with its columns and the lines that are expected of it."""
    return rows_of(os.path.join(TOP, "tests", name + ".rows"), "tests/%s.rows" % name)


def columns_of(name):
    """The columns of the rows of tests/NAME.rows."""
    return [row.columns for row in asked(name)]


# The comment in tests/calls.rows behind which rows stand for tests/run alone.
BEHIND = "# Checksums of MIT Kerberos' test t_cksums under keys of an octet, and of triple DES under none"


def calls():
    """The rows of tests/calls.rows up to that comment, each with six columns, the status and the answer: octets,
    or a size."""
    with open(os.path.join(TOP, "tests", "calls.rows"), encoding="utf-8") as file:
        end = file.read().split("\n").index(BEHIND)
    for row in asked("calls"):
        if row.line > end:
            break
        columns, told = (row.columns + [""] * 6)[:6], row.expected[0]
        status, _, answer = ("DONE", "", told) if columns[0].endswith("_size") else told.partition(" ")
        yield [*columns, status, answer]


def write_table(path, rows):
    """Writes rows, with tabs between their columns; returns the path."""
    with open(path, "w", encoding="utf-8") as to:
        to.writelines("\t".join(map(str, row)) + "\n" for row in rows)
    return path


def rows_in(path):
    """The columns of such rows."""
    with open(path, encoding="utf-8") as file:
        return [line.rstrip("\n").split("\t") for line in file]


def pages():
    """The columns of the rows of tests/pages.rows, an origin, a type and octets, but for files."""
    return [columns for columns in columns_of("pages") if columns[1] not in ("keytab", "ccache")]


def lines_of(test, name):
    """The lines of a table with their numbers in the file, among them comments, which begin with `#`."""
    inside = None
    with open(os.path.join(TOP, "crates", test, "stdin"), encoding="utf-8") as file:
        found = []
        for number, line in enumerate(file, 1):
            line = line.rstrip("\n")
            if line.startswith("== "):
                inside = line[len("== ") :]
            elif inside == name:
                found.append((number, line))
    if not found:
        raise LookupError("crates/%s/stdin has no table %s" % (test, name))
    return found


def numbered_table_of(test, name, columns=1):
    """The rows of a table that have so many columns, with their lines' numbers in the file."""
    rows = [(number, line.split("\t")) for number, line in lines_of(test, name) if not line.startswith("#")]
    return [(number, row) for number, row in rows if len(row) >= columns]


def table_of(test, name, columns=1):
    """The rows of a table that have so many columns."""
    return [row for _, row in numbered_table_of(test, name, columns)]
