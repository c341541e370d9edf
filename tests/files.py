"""What the program jolmurig makes of keytabs and credential caches: lists, and conversions."""

from library import Fault
from rows import octets
from shown import lines_of, run


def lists(library, columns):
    """A row of `lists`: an origin, what the octets are, and they: the lines of the list, or the
    line on standard error."""
    return told(library, ["list"], octets(columns[2]), lines_of)


def conversions(library, columns):
    """A row of `conversions`: an origin, the target, and the octets of the other: those of the
    target and what is left out, or the line on standard error."""
    _, target, given = columns
    return told(library, ["convert", target], octets(given), lambda it: [f"octets {it.hex()}"])


def told(library, words, given, lines_in):
    """The lines of what jolmurig writes and those on standard error. Of what it refuses there is
    one line, and nothing is written."""
    status, output, errors = run(library, words, given)
    errors = lines_of(errors)
    if status == 0 and output:
        return [*lines_in(output), *errors]
    if status != 1 or output or len(errors) != 1:
        raise Fault(f"jolmurig ends with status {status}, writes {output[:80]!r} and says {errors}")
    return errors
