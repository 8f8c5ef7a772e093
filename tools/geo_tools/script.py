"""Scripts, read once: what is declared, what each client does, and the events in order (docs/SCRIPT.md)."""
from collections import namedtuple

# the words that begin a line that declares
DECLARING = ('geo', 'ledger', 'chance', 'cluster', 'topic', 'client', 'do')

# `line` is its number in the script, `end` the offset behind its line feed, `comments` stand between it and the event before
Event = namedtuple('Event', 'line words comments end')
# a line that is no event: `kind` is 'comment' or 'declaration'
Other = namedtuple('Other', 'line kind text')


def shown(raw):
    """The text of a line's bytes; what is no text, as a comment may have it, as replacement characters."""
    return raw.decode('utf-8', errors='replace')


class Script:
    """The lines of a script: what is declared, what each client does, and the events in order.

    It is told from the words alone and judged by nobody here: the program refuses what is no script. `above` lines count for none: of
    what goes on from a state the lines that declare stand above the first line of a file.
    """

    # the command that tells its steps, and the one that tells what is lost if a cluster goes
    command, losing, is_script = 'steps', 'lost %s numbers', True

    def __init__(self, raw, above=0):
        self.raw = raw
        self.clusters, self.topics, self.clients = [], [], []
        self.topic_of, self.does = {}, {}
        self.events, self.others = [], []
        self.begin = len(raw)
        at, comments = 0, []
        for number, line in enumerate(raw.split(b'\n'), 1 - above):
            if line.startswith(b'#'):
                comments.append(shown(line[1:]).strip())
                self.others.append(Other(number, 'comment', comments[-1]))
            elif line:
                comments = self._read(number, shown(line), comments, at, at + len(line) + 1)
            at += len(line) + 1

    def _read(self, number, line, comments, begin, end):
        """Takes one line with the comments above it; gives those that the next line has, which are none."""
        words = line.split(' ')
        if words[0] not in DECLARING:
            if not self.events:
                self.begin = begin
            self.events.append(Event(number, words, comments, end))
            return []
        self.others.append(Other(number, 'declaration', line))
        if words[0] == 'cluster':
            self.clusters.append(words[-1])
        elif words[0] == 'topic':
            self.topics.append(words[-1])
        elif words[0] == 'client' and len(words) > 2:
            self.clients.append(words[1])
            self.topic_of[words[1]] = words[2]
        elif words[0] == 'do' and len(words) > 2:
            self.does.setdefault(words[1], []).append(line.split(' ', 2)[2])
        return []

    def known(self, _):
        """The script, once what is declared is known."""
        return self

    def above(self):
        """The lines above the first event, but for the comments that are its own."""
        if not self.events:
            return self.others
        last = max(at for at, other in enumerate(self.others) if other.kind == 'declaration')
        return self.others[:last + 1]

    def title(self):
        """The comments above the first declaration, as one text."""
        first = min([other.line for other in self.others if other.kind == 'declaration'], default=0)
        return ' '.join(other.text for other in self.others if other.kind == 'comment' and other.line < first)

    def beginning(self, count):
        """The script of the first `count` events."""
        return self.raw[:self.events[count - 1].end if count else self.begin]

    def up_to(self, _, end):
        """What is given, as far as this offset of its script."""
        return self.raw[:end]

    def subscription(self, client, done):
        """The name of the subscription of a client that has done so many of its lines; None where it has none in force."""
        return in_force(self.does.get(client, [])[:done])


class Behind:
    """A state with the events that go on from it, which have its names."""

    command, losing, is_script = 'steps from', 'lost %s from', False

    def __init__(self, state, events):
        self.raw, self.state, self.events = state + events, state, events

    def known(self, declared):
        """The events as a script, below what the state declares; their lines count from 1."""
        return Script('\n'.join(declared + ['']).encode() + self.events, len(declared))

    def up_to(self, script, end):
        """The state with the events as far as this offset of their script."""
        return self.state + script.raw[len(script.raw) - len(self.events):end]


def in_force(lines, name=None):
    """The name of the subscription that is in force behind these lines of a client, where this one was; None where none is."""
    for line in lines:
        words = line.split(' ')
        if words[0] == 'sub':
            name = words[1]
        elif words[0] in ('unsub', 'close'):
            name = None
    return name
