"""The steps of a run: what each event of a script, or of what goes on from a state, did. Read from `geo steps`, line by line, in one
pass over one run of the program (docs/STEPS.md).

Each line of a step is a line of a report as it is behind the event (docs/REPORT.md), so what an event did is that line less the line of
the same thing before it; and what is kept of each thing in the end is the report.
"""
from collections import namedtuple
from itertools import chain

from .program import NO_ANSWER, Failed
from .progress import silent
from .report import Report, Sender, entry_of, sub_of
from .script import Event, in_force

Stored = namedtuple('Stored', 'topic cluster entry')
SenderChange = namedtuple('SenderChange', 'topic cluster to before after')
# a subscription that is new has no `before`, one that was deleted no `after`
SubChange = namedtuple('SubChange', 'topic cluster name before after')
Did = namedtuple('Did', 'client line')
Moved = namedtuple('Moved', 'client before after')
Counted = namedtuple('Counted', 'client word before after')
# `again`: this client got it before; `others`: clients that got it before for the same subscription
Got = namedtuple('Got', 'client message again others')

# what an event did: `idle` or its changes; `events` and `rounds` are what they rose by; `inside` has the events of a settle, in order;
# `number` counts the events so far that were not idle; `waits` is the line that an idle `go` did not do, '' where none is left
Moment = namedtuple('Moment', 'event idle events rounds changes inside number waits')

# a client's counts, each with its place among the words of its line
COUNTS = (('receipts', 7), ('duplicates', 9), ('errors', 11))


class Client:
    """What stands of a client: where it is, how many lines it did, its counts."""

    def __init__(self, words):
        self.cluster, self.counts = words[3], [int(words[at]) for _, at in COUNTS]
        self.done = int(words[5].split('/')[0])


class Seen:
    """Who got what, so far."""

    def __init__(self):
        self.by_client, self.by_sub = set(), {}

    def got(self, topic, sub, client, message):
        again = (client, message) in self.by_client
        self.by_client.add((client, message))
        named = self.by_sub.setdefault((topic, sub, message), []) if sub else []
        others = tuple(name for name in named if name != client)
        if client not in named:
            named.append(client)
        return Got(client, message, again, others)


class Kept:
    """The last line of each thing: what a reader of the last report keeps."""

    def __init__(self):
        self.head, self.places, self.clients, self.got = '', {}, {}, {}

    def place(self, place):
        """What is kept of a topic at a cluster: lines of entries, and by name those of senders and of subscriptions."""
        return self.places.setdefault(place, ([], {}, {}))

    def lines(self, script):
        """The lines of the report, in its order."""
        yield self.head
        for topic in script.topics:
            for cluster in script.clusters:
                entries, senders, subs = self.place((topic, cluster))
                yield 'topic %s at %s' % (topic, cluster)
                yield from entries
                yield from senders.values()
                yield from subs.values()
            for name in script.clients:
                if script.topic_of[name] == topic:
                    yield self.clients[name]
                    yield from self.got.get(name, ())


class Reader:
    """Reads lines of a report and of steps, keeps what stands of each thing, and gives what a line changes."""

    def __init__(self, script):
        self.script, self.seen, self.kept = script, Seen(), Kept()
        self.senders, self.subs, self.clients, self.subscribed = {}, {}, {}, {}
        self.place = self.client = None
        self.events = self.rounds = 0
        self.reads = {word: getattr(self, '_' + word) for word in ('topic', 'entry', 'sender', 'sub', 'gone', 'client', 'got', 'events')}

    def read(self, line):
        """The changes that a line tells."""
        words = line.split(' ')
        return self.reads[words[0]](words, line)

    def report(self):
        """The report behind all that was read."""
        return Report('\n'.join(self.kept.lines(self.script)) + '\n')

    def _topic(self, words, _):
        self.place = (words[1], words[3])
        return ()

    def _entry(self, _, line):
        self.kept.place(self.place)[0].append(line)
        return (Stored(*self.place, entry_of(line)),)

    def _sender(self, words, line):
        self.kept.place(self.place)[1][words[1]] = line
        name, new = self.place + (words[1],), Sender(int(words[3]), words[4], int(words[6]))
        old, self.senders[name] = self.senders.get(name), new
        return (SenderChange(*name, old, new),)

    def _sub(self, words, line):
        self.kept.place(self.place)[2][words[1]] = line
        name, new = self.place + (words[1],), sub_of(words)
        old, self.subs[name] = self.subs.get(name), new
        return (SubChange(*name, old, new),)

    def _gone(self, words, _):
        del self.kept.place(self.place)[2][words[1]]
        name = self.place + (words[1],)
        return (SubChange(*name, self.subs.pop(name), None),)

    def _client(self, words, line):
        name, new = words[1], Client(words)
        lines = self.script.does.get(name, [])
        self.kept.clients[name] = line
        if name not in self.clients:
            self.subscribed[name], self.clients[name] = in_force(lines[:new.done]), new
        old, self.clients[name], self.client = self.clients[name], new, name
        did = lines[old.done:new.done]
        self.subscribed[name] = in_force(did, self.subscribed[name])
        changes = [Did(name, line) for line in did]
        if old.cluster != new.cluster:
            changes.append(Moved(name, old.cluster, new.cluster))
        return changes + [Counted(name, word, before, after) for (word, _), before, after in zip(COUNTS, old.counts, new.counts) if before != after]

    def _got(self, words, line):
        name = self.client
        self.kept.got.setdefault(name, []).append(line)
        return (self.seen.got(self.script.topic_of[name], self.subscribed[name], name, tuple(words[1:4])),)

    def _events(self, words, line):
        self.kept.head, self.events, self.rounds = line, int(words[1]), int(words[5])
        return ()


class Steps:
    """Goes through the lines of `geo steps`, a moment an event. What stands above the first of them is read at once."""

    def __init__(self, given, lines):
        self.lines, self.told, self.is_whole = iter(lines), 0, False
        self.script = given.known(list(iter(lambda: next(self.lines, 'steps'), 'steps')))
        self.events = {event.line: event for event in self.script.events}
        self.reader = Reader(self.script)
        self.line = self.begin()
        self.number, self.rounds = self.reader.events, self.reader.rounds

    def begin(self):
        """Reads the report where the run begins; gives the first line behind it."""
        for at, line in enumerate(self.lines):
            # the counts are its first line, and without events the last of all
            if line.startswith('step ') or (at and line.startswith('events ')):
                return line
            self.reader.read(line)
        raise self.no_end()

    def places(self):
        """Where each client is."""
        return {name: client.cluster for name, client in self.reader.clients.items()}

    def moments(self):
        """Each event's moment. Fails behind them where one is missing, or the last line, which has the counts."""
        head, changes, inside = None, [], []
        for line in chain([self.line], self.lines):
            if line.startswith(('step ', 'events ')):
                if head:
                    yield self.moment(head, changes, inside)
                head, changes, inside = line.split(' '), [], []
                if head[0] == 'events':
                    self.end(line)
                    head = None
                continue
            line = line.lstrip(' ')
            if line.startswith('event '):
                inside.append((line.split(' '), []))
            else:
                (inside[-1][1] if inside and not line.startswith('events ') else changes).extend(self.reader.read(line))
        if not self.is_whole:
            raise self.no_end()

    def no_end(self):
        return Failed('the steps have no end: %d of %d events were told' % (self.told, len(self.script.events)), NO_ANSWER)

    def end(self, line):
        """The last line of all: as many events as were told."""
        self.reader.read(line)
        self.is_whole = (self.told, self.reader.events) == (len(self.script.events), self.number)

    def moment(self, head, changes, inside):
        """The moment of an event, of the words of its line and what was read under it."""
        event, idle, begin = self.events[int(head[3])], head[4] == 'idle', self.number
        within = [Moment(Event(event.line, words[2:], (), event.end), False, 1, 0, of, (), begin + at, None)
                  for at, (words, of) in enumerate(inside, 1)]
        if inside:
            changes = changes + [change for _, of in inside for change in of]
        # the counts behind a settle are told; elsewhere an event is one more, unless it was idle
        is_settle = event.words[0] == 'settle'
        self.number = self.reader.events if is_settle else begin + (not idle)
        rounds, self.rounds = (self.reader.rounds - self.rounds, self.reader.rounds) if is_settle else (0, self.rounds)
        self.told += 1
        return Moment(event, idle, self.number - begin, rounds, changes, tuple(within), self.number, self.waits(event) if idle else None)

    def waits(self, event):
        """Of an idle `go` the line that it did not do, '' where none is left."""
        client = self.reader.clients.get(event.words[-1])
        if event.words[0] != 'go' or not client:
            return None
        return (self.script.does.get(event.words[-1], []) + [''])[client.done]


# what is shown of a run: its script, its moments, how many events before them are left out, the reports where it begins and at its end,
# where each client is before the first moment, and, of all events, the lines that clients did and what was counted of them
Run = namedtuple('Run', 'script moments left_out begin whole places answers')


def run(given, program, first=1, last=None, tell=silent):
    """The run of a script, or of what goes on from a state: the moments of the events from the line `first` to the line `last`."""
    steps = Steps(given, program.lines(given.command, given.raw, tell))
    begin, places, told, left_out, answers = steps.reader.report(), steps.places(), [], 0, []
    for moment in steps.moments():
        tell('reading steps', steps.told, len(steps.script.events))
        answers += [change for change in moment.changes if isinstance(change, (Did, Counted))]
        if moment.event.line < first:
            left_out += 1
            places.update((change.client, change.after) for change in moment.changes if isinstance(change, Moved))
        elif last is None or moment.event.line <= last:
            told.append(moment)
    return Run(steps.script, told, left_out, begin, steps.reader.report(), places, answers)
