"""Positions, identities, and what a folder is refused for."""
import re
from collections import namedtuple

# ledgers and entries are numbers of 64 bits, so of at most 19 digits
POSITION = re.compile(r'(-?\d{1,19}):(-?\d{1,19})(?::-?\d{1,19})*\Z')
# the position that a receipt of a duplicate names
NOWHERE = (-1, -1)


class Refused(Exception):
    """The folder is none that can be judged: the file, its line, and why."""


class Identity(namedtuple('Identity', 'origin producer sequence')):
    """What tells a message from each other one of its topic."""

    def __str__(self):
        return '%s %s %d' % self


def position(word, where):
    """A position LEDGER:ENTRY; a partition or the index in a batch may follow, and is read over."""
    found = POSITION.match(word) if isinstance(word, str) else None
    if not found:
        raise Refused('%s: no position LEDGER:ENTRY: %r' % (where, word))
    return int(found[1]), int(found[2])


def shown(place):
    """A position as Pulsar writes it."""
    return '%d:%d' % place
