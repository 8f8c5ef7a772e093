"""What is lost, what comes again and what was never told, if a region goes behind a row of a run: the numbers of `geo lost` (docs/LOST.md) of
the run up to there.

Rows are chosen by their numbers; or, for a page, where a comment says that a region is lost, and where a client leaves a region.
"""
from collections import namedtuple

from .acts import Act
from .program import WRONG_WORDS, Failed
from .progress import silent
from .steps import Moved

# a page measures so many rows without being asked: each is a run of its own of all that stands before
MOST_ROWS = 20
# a message's line, below the number that counts it
NAME = '  '

# a row that a page or a story shows: `key` tells it from each other one, `end` is where the script ends behind it
Row = namedtuple('Row', 'key facts moments end')
# the region that goes, and the lines
Measure = namedtuple('Measure', 'cluster lines')


def rows_of(run, nodes, is_apart):
    """The rows of a run, in order: its acts, or, apart, each event that stands in no line of a drill."""
    end = run.script.events[run.left_out - 1].end if run.left_out else run.script.begin
    for node in nodes:
        if not isinstance(node, Act):
            continue
        parts = [[moment] for moment in node.moments] if is_apart and not node.own else [node.moments]
        for at, moments in enumerate(parts or [[]]):
            end = moments[-1].event.end if moments else end
            line = moments[0].event.line if moments and is_apart and not node.own else node.line
            yield Row((line, node.own), node.facts if at == 0 else [], moments, end)


def left(row):
    """The regions that are lost at a row, or that a client leaves there."""
    lost = [fact.clusters[0] for fact in row.facts if fact.word == 'lost']
    moved = [change.before for moment in row.moments for change in moment.changes if isinstance(change, Moved)]
    return list(dict.fromkeys(lost + moved))


def chosen(script, found, numbers):
    """The rows of these numbers, each with the regions that may go there: those that do, where some do, else each one."""
    for number in numbers:
        if not any(row.key[0] == number for row in found):
            raise Failed('no row has the number %d' % number, WRONG_WORDS)
    return [(row, left(row) or script.clusters) for row in found if row.key[0] in numbers]


def going(found):
    """The rows at which a region goes, each with these regions; a client that leaves one that is lost already says nothing new."""
    lost = set()
    for row in found:
        clusters = [cluster for cluster in left(row) if cluster not in lost]
        for fact in row.facts:
            if fact.word in ('lost', 'returned'):
                (lost.add if fact.word == 'lost' else lost.discard)(fact.clusters[0])
        if clusters:
            yield row, clusters


class Measures:
    """The measures of a run's rows, taken of the script, or the state and its events, that was run."""

    def __init__(self, given, program, tell=silent):
        self.given, self.program, self.tell, self.of, self.left_out = given, program, tell, {}, 0

    def take(self, run, places):
        """Measures rows, each for its regions."""
        places = list(places)
        for at, (row, clusters) in enumerate(places):
            self.tell('measuring rows', at, len(places))
            raw = self.given.up_to(run.script, row.end)
            self.of.setdefault(row.key, []).extend(Measure(cluster, self.lines(cluster, raw)) for cluster in clusters)

    def take_going(self, run, found):
        """Measures the rows at which regions go that are not measured yet, as far as the most; counts those that are left out."""
        places = [(row, clusters) for row, clusters in going(found) if row.key not in self.of]
        self.take(run, places[:MOST_ROWS])
        self.left_out = len(places[MOST_ROWS:])

    def lines(self, cluster, raw):
        """What the program says, without the messages that it names."""
        return [line for line in self.program.lines(self.given.losing % cluster, raw) if not line.startswith(NAME)]


def by_names(line, name):
    """A line by the names of a drill: `lost X topic T`, and names behind `sub` and `at`, as in `again sub S at Y N`."""
    words = line.split(' ')
    at = (1, 3) if len(words) == 4 and words[0] == 'lost' else (2, 4)
    return ' '.join(name(word) if place in at else word for place, word in enumerate(words))


def counts(lines):
    """The lines that count something, each with its topic where there are several."""
    heads, topic = sum(is_head(line) for line in lines), ''
    for line in lines:
        if is_head(line):
            topic = line.split(' ')[3] + ': ' if heads > 1 else ''
        elif not line.endswith(' 0'):
            yield topic + line


def is_head(line):
    """Whether the lines of a topic begin."""
    return line.startswith('lost ') and ' topic ' in line
