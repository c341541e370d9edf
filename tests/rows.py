"""The rows of the tables, and the lines that are expected of each."""

import collections

Row = collections.namedtuple("Row", "file line columns expected")


class Unreadable(Exception):
    """A line of a table that cannot be read: its file, its number and what to do."""

    def __init__(self, file, line, why):
        super().__init__(f"{file}:{line}: {why}")


def rows_of(path, file):
    """The rows of a table. A line `# ..` is a comment; a line `> ..` is expected of the row before
    it; each other line is a row: columns with tabs between."""
    rows = []
    with open(path, encoding="utf-8", newline="\n") as lines:
        text = lines.read().removesuffix("\n")
        for number, line in enumerate(text.split("\n") if text else [], 1):
            if line.startswith("#"):
                continue
            if line == ">" or line.startswith("> "):
                if not rows:
                    raise Unreadable(file, number, "an expected line before any row: move it")
                rows[-1].expected.append(line[2:])
            elif not line or line.startswith("=="):
                why = "not a comment, a row or an expected line: remove it"
                raise Unreadable(file, number, why)
            else:
                demand_expected(rows)
                rows.append(Row(file, number, line.split("\t"), []))
    demand_expected(rows)
    if not rows:
        raise Unreadable(file, 1, "a table without a row: write rows there, or remove the file")
    return rows


def demand_expected(rows):
    """Each row expects something: else it would pass whatever comes."""
    if rows and not rows[-1].expected:
        why = "nothing is expected of this row: write behind it, after `> `, the lines that are"
        raise Unreadable(rows[-1].file, rows[-1].line, why)


def octets(digits):
    """The octets of digits in parts with blanks between; a part `41*1000` stands a thousand
    times."""
    made = b""
    for part in digits.split(" "):
        one, _, count = part.partition("*")
        made += bytes.fromhex(one) * int(count or 1)
    return made


def flipped(given):
    """The octets with each of their bits flipped in turn."""
    for bit in range(8 * len(given)):
        at, mask = bit // 8, 1 << bit % 8
        yield given[:at] + bytes([given[at] ^ mask]) + given[at + 1 :]
