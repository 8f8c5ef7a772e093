"""What each subscription has acknowledged, entry by entry, from `geo trace` (docs/TRACE.md): where a cursor has holes, and where a
message was acknowledged, and by whom."""
from collections import namedtuple

from ..steps import Stored

# a gained range of indexes, both ends included, and the word of the trace that says why
Gained = namedtuple('Gained', 'first last why')
LATEST, SEEK = 'latest', 'seek'


class Cursor:
    """The acknowledged indexes of a subscription at a cluster, as ascending ranges with a gap between each two."""

    def __init__(self):
        self.ranges = []
        self.history = []

    def gain(self, first, last, why):
        self.history.append(Gained(first, last, why))
        kept = []
        for low, high in self.ranges:
            if high + 1 < first or last + 1 < low:
                kept.append((low, high))
            else:
                first, last = min(first, low), max(last, high)
        self.ranges = sorted(kept + [(first, last)])

    def set_to(self, index, why):
        """All below an index is acknowledged, and nothing else."""
        self.ranges = [(0, index - 1)] if index else []
        self.history = [Gained(0, index - 1, why)] if index else []

    def reasons(self):
        """Why each index is acknowledged, by index: what gained it first."""
        found = {}
        for gained in reversed(self.history):
            found.update(dict.fromkeys(range(gained.first, gained.last + 1), gained.why))
        return found

    def above(self, mark):
        """The acknowledged ranges above a mark-delete."""
        return [(low, high) for low, high in self.ranges if high >= mark]


def appended(run):
    """The lines of a trace that are known without one: which entries are appended."""
    yield 'trace'
    yield from ('append %s %s' % place for place, entries in run.begin.entries.items() for _ in entries)
    for moment in run.moments:
        for event in moment.inside or (moment,):
            yield 'event %d' % event.number
            yield from ('append %s %s' % change[:2] for change in event.changes if isinstance(change, Stored))


class Cursors:
    """All cursors, as far as the lines of the trace were read."""

    def __init__(self, lines):
        self.lines, self.of, self.length = lines, {}, {}
        self.at = self.lines.index('trace') + 1

    def up_to(self, number):
        """Reads on to the end of the event of this number."""
        while self.at < len(self.lines):
            words = self.lines[self.at].split(' ')
            if words[0] == 'event' and int(words[1]) > number:
                return
            self.read(words)
            self.at += 1

    def read(self, words):
        place = tuple(words[1:3])
        if words[0] == 'append':
            self.length[place] = self.length.get(place, 0) + 1
        elif words[0] in ('create', 'delete', 'seek', 'ack'):
            self.told(words, place + (words[3],))

    def told(self, words, name):
        """Takes a line of a subscription."""
        if words[0] == 'delete':
            self.of.pop(name, None)
            return
        cursor = self.of.setdefault(name, Cursor())
        if words[0] == 'create' and words[4] == LATEST:
            cursor.set_to(self.length.get(name[:2], 0), LATEST)
        elif words[0] == 'seek':
            cursor.set_to(int(words[4]), SEEK)
        elif words[0] == 'ack' and words[4] != '-':
            for part in words[4].split(','):
                first, last = part.split('-')
                cursor.gain(int(first), int(last), words[5])

    def above(self, topic, cluster, name, mark):
        """The acknowledged ranges above the mark of a subscription: none where it has no hole."""
        cursor = self.of.get((topic, cluster, name))
        return cursor.above(mark) if cursor else []
