"""Cursors, as `pulsar-admin topics stats-internal` tells them: a position up to which all is acknowledged, and ranges behind it."""
import re
from bisect import bisect_left
from dataclasses import dataclass

from .places import Refused, position

# a range is open below and closed above; some versions may print the other brackets
NUMBERS = r'\s*(-?\d{1,19}):(-?\d{1,19})\s*'
RANGE = re.compile(r'\s*([(\[])%s(?:\.\.|,|‥)%s([)\]])\s*(?:,|\Z)' % (NUMBERS, NUMBERS))
# the cursors of a replicator, and those that are of no subscription
REPLICATOR, DEDUPLICATION, COMPACTION = 'pulsar.repl.', 'pulsar.dedup', '__compaction'


@dataclass
class Cursor:
    """What is acknowledged: all up to `mark`, and the ranges (after, upto] in order."""
    mark: tuple
    ranges: list

    def __post_init__(self):
        self.ends = [upto for _, upto in self.ranges]

    def has(self, place):
        """Whether the entry at a position is acknowledged."""
        if place <= self.mark:
            return True
        at = bisect_left(self.ends, place)
        return at < len(self.ranges) and self.ranges[at][0] < place


def read_ranges(word, where):
    """The ranges of individuallyDeletedMessages, each of them (after, upto]."""
    if not isinstance(word, str):
        raise Refused('%s: individuallyDeletedMessages is no text' % where)
    inner = word.strip()
    if not inner.startswith('[') or not inner.endswith(']'):
        raise Refused('%s: no ranges: %s' % (where, word))
    inner, at, found = inner[1:-1].strip(), 0, []
    while at < len(inner):
        one = RANGE.match(inner, at)
        if not one:
            raise Refused('%s: no ranges: %s' % (where, word))
        low, high = (int(one[2]), int(one[3])), (int(one[4]), int(one[5]))
        found.append(((low[0], low[1] - 1) if one[1] == '[' else low, (high[0], high[1] - 1) if one[6] == ')' else high))
        at = one.end()
    return sorted(found)


def read_cursor(told, where):
    if not isinstance(told, dict) or 'markDeletePosition' not in told:
        raise Refused('%s has no markDeletePosition' % where)
    return Cursor(position(told['markDeletePosition'], where), read_ranges(told.get('individuallyDeletedMessages', '[]'), where))
