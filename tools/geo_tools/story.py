"""Prints a script, a drill, or what goes on from a state, with what each of its events did behind it: which line of the report came, went or
changed.

Behind an event stands `idle` with the cause; or `-` where it was done and no line of the report changed, as where a packet was only
sent; or what changed:

  at X entry ..         an entry was stored at X, with the rest of its line of the report
  at X sender Y ..      X's replicator to Y: its session, its state, its mark
  at X sub S ..         a subscription at X: its mark, its backlog; a new one with all that the report says of it
  C does: ..            client C did this `do` line
  C is at X             client C moved
  C receipts ..         its counts of receipts, duplicates and errors
  C got ORIGIN P SEQ    it received a message; `again` where it got the same one before, `after D` where another client got it
                        before for the same subscription

With several topics `at X` is `T at X`. A settle or a stop is one event with all that it changed. docs/REPORT.md says what a report's
lines mean. Of a drill its own lines are shown, each with what changed from before it to behind it. Behind the last event stand the
lines that were idle and the messages that came again.
"""
import argparse
import json

from . import command, steps as m
from .acts import Act, acts_of, own_names
from .changes import folded_changes
from .idle import Idle
from .measures import Measures, by_names, chosen, is_head, rows_of
from .progress import silent

# an event's words take at most this many columns before what it did
MOST_COLUMNS = 36
# the events of a drill's line stand under it
UNDER = '  '


def parts(old, new, names):
    """Of two values what differs, as `mark 0 -> 1`."""
    return ', '.join('%s %s -> %s' % (name, getattr(old, name), getattr(new, name)) for name in names if getattr(old, name) != getattr(new, name))


def counted(count, thing):
    """So many of a thing."""
    return '%d %s%s' % (count, thing, '' if count == 1 else 's')


class Teller:
    """Tells changes in words, by the names of a drill where it has its own."""

    def __init__(self, script, program=None):
        self.script, self.names = script, own_names(script)
        self.idle = Idle(script, program)

    def name(self, name):
        return self.names.get(name, name)

    def place(self, change):
        at = 'at %s ' % self.name(change.cluster)
        return '%s %s' % (self.name(change.topic), at) if len(self.script.topics) > 1 else at

    def text(self, change):
        """A change in words."""
        return getattr(self, '_' + type(change).__name__)(change)

    def _Got(self, change):
        origin, producer, seq = change.message
        text = '%s got %s %s %s' % (self.name(change.client), self.name(origin), self.name(producer), seq)
        if change.again:
            text += ' again'
        return text + (' after ' + ', '.join(map(self.name, change.others)) if change.others else '')

    def _Did(self, change):
        return '%s does: %s' % (self.name(change.client), change.line)

    def _Moved(self, change):
        return '%s is at %s' % (self.name(change.client), self.name(change.after))

    def _Counted(self, change):
        return '%s %s %d -> %d' % (self.name(change.client), change.word, change.before, change.after)

    def _Stored(self, change):
        it = change.entry
        return self.place(change) + 'entry ' + ' '.join((it.position, self.name(it.origin), self.name(it.producer), it.seq, it.targets, it.what))

    def _SenderChange(self, change):
        told = parts(change.before, change.after, ('session', 'state', 'mark')).replace('state ', '')
        return self.place(change) + 'sender %s %s' % (self.name(change.to), told)

    def _SubChange(self, change):
        name, new = self.name(change.name), change.after
        if new is None:
            return self.place(change) + 'sub %s is gone' % name
        if change.before is None:
            return self.place(change) + 'sub %s %s %s mark %d backlog %d' % (name, new.kind, new.replicated, new.mark, new.backlog)
        return self.place(change) + 'sub %s %s' % (name, parts(change.before, new, ('kind', 'replicated', 'mark', 'backlog', 'seeks')))

    # ---- events ----

    def idle_text(self, moment):
        """That an event was idle, and why."""
        cause = self.idle.cause(moment.event)
        if not cause and moment.waits is not None:
            cause = 'its line waits: ' + moment.waits if moment.waits else 'no line is left'
        return 'idle' + (': ' + cause if cause else '')

    def effects(self, moment):
        """What an event did, a text a line."""
        if moment.idle:
            return [self.idle_text(moment)]
        changes = folded_changes(moment.changes) if moment.inside else moment.changes
        return self.counts([moment]) + [self.text(change) for change in changes] or ['-']

    def folded(self, moments):
        """What several events did, a text a line: what changed from before the first to behind the last."""
        changes = folded_changes(change for moment in moments for change in moment.changes)
        idle = [self.idle_text(moment) for moment in moments if moment.idle]
        return self.counts(moments) + [self.text(change) for change in changes] + idle or ['-']

    @staticmethod
    def counts(moments):
        """Of settles how many rounds and events they took."""
        settles = [moment for moment in moments if moment.event.words[0] == 'settle']
        return ['%s, %s' % (counted(sum(it.rounds for it in settles), 'round'), counted(sum(it.events for it in settles), 'event'))] if settles else []


# ---- lines ----


def row(number, width, left, right):
    """A line behind its number; what a state declares has none."""
    number = '' if number == '' or number < 1 else number
    return ('%*s  %s' % (width, number, left) if right is None else '%*s  %s  %s' % (width, number, left, right)).rstrip()


class Lines:
    """The lines of a story: numbers, words and effects in columns; under a row that is measured what is lost there."""

    def __init__(self, script, teller, nodes, packets, measures):
        self.script, self.teller, self.packets, self.measures = script, teller, packets, measures
        self.width = len(str(max([node.line for node in nodes] + [event.line for event in script.events[-1:]] + [0])))
        acts = [node for node in nodes if isinstance(node, Act)]
        words = [' '.join(moment.event.words) for act in acts if not act.own for moment in act.moments]
        words += [act.text for act in acts if act.own]
        if packets:
            words += [UNDER + ' '.join(moment.event.words) for act in acts if act.own for moment in act.moments]
            words += [2 * UNDER + ' '.join(event.event.words) for act in acts for moment in act.moments for event in moment.inside]
        self.columns = min(MOST_COLUMNS, max(map(len, words), default=0))

    def node(self, node):
        """The lines of a heading or an act."""
        if not isinstance(node, Act):
            yield from ('# ' + line for line in node.lines)
        elif node.own:
            yield from self.own(node)
            yield from self.measured(node.line, True)
        elif node.facts and not node.moments:
            yield row(node.line, self.width, '# ' + node.text, None)
            yield from self.measured(node.line, False)
        else:
            for moment in node.moments:
                yield from self.told(moment.event.line, ' '.join(moment.event.words), self.teller.effects(moment))
                yield from self.inside(moment)
                yield from self.measured(moment.event.line, False)

    def own(self, act):
        """A line of a drill, folded or with its events."""
        seen = [act.seen] if act.seen else []
        if not self.packets:
            yield from self.told(act.line, act.text, seen + (self.teller.folded(act.moments) if act.moments else []))
            return
        yield from self.told(act.line, act.text, seen)
        for moment in act.moments:
            yield from self.told('', UNDER + ' '.join(moment.event.words), self.teller.effects(moment))
            yield from self.inside(moment)

    def measured(self, line, is_own):
        """What is lost if a region goes behind a row."""
        for measure in self.measures.get((line, is_own), ()):
            for text in measure.lines:
                yield row('', self.width, UNDER * (1 if is_head(text) else 2) + by_names(text, self.teller.name), None)

    def inside(self, moment):
        """The events of a settle."""
        for event in moment.inside if self.packets else ():
            yield from self.told('', 2 * UNDER + ' '.join(event.event.words), self.teller.effects(event))

    def told(self, number, words, effects):
        """A line's words, and behind them what it did."""
        if len(words) > self.columns and effects:
            yield row(number, self.width, words, None)
            yield row('', self.width, ' ' * self.columns, effects[0])
        else:
            yield row(number, self.width, words.ljust(self.columns), effects[0] if effects else None)
        for effect in effects[1:]:
            yield row('', self.width, ' ' * self.columns, effect)


def declared(script, width):
    """The lines above the first event."""
    for other in script.above():
        if other.kind != 'comment':
            yield row(other.line, width, other.text, None)
        elif not other.text.startswith('name '):
            yield '# ' + other.text


def closing(teller, nodes, whole):
    """What stands behind the last event: idle lines, and what came again."""
    moments = [(node.line if node.own else moment.event.line, moment) for node in nodes if isinstance(node, Act) for moment in node.moments]
    idle = list(dict.fromkeys(str(line) for line, moment in moments if moment.idle))
    again = [change for _, moment in moments for change in moment.changes if isinstance(change, m.Got) and (change.again or change.others)]
    yield 'idle: ' + ('line ' + ', '.join(idle) if idle else 'none')
    yield 'again: ' + ('; '.join(map(teller.text, again)) if again else 'none')
    yield whole.text.split('\n', 1)[0]


def measured(run, given, program, numbers, tell=silent):
    """The measures of the rows of these numbers, by row."""
    measures = Measures(given, program, tell)
    measures.take(run, chosen(run.script, list(rows_of(run, acts_of(run.script, run.moments)[0], True)), numbers))
    return measures.of


def story(run, teller, packets=False, tell=silent, measures=None):
    """The lines of a story; `measures` are those of its rows."""
    script = run.script
    nodes, _ = acts_of(script, run.moments)
    lines = Lines(script, teller, nodes, packets, measures or {})
    if len(run.moments) < len(script.events):
        yield '# %d of %d lines of events are shown' % (len(run.moments), len(script.events))
    if not run.left_out and (run.moments or not script.events):
        yield from declared(script, lines.width)
    for at, node in enumerate(nodes):
        tell('telling', at, len(nodes))
        yield from lines.node(node)
    yield ''
    yield from closing(teller, nodes, run.whole)


# ---- records ----


def record_of(teller, moment):
    """An event as a record."""
    return {'line': moment.event.line, 'words': ' '.join(moment.event.words), 'idle': moment.idle, 'effects': teller.effects(moment),
            'events': [record_of(teller, event) for event in moment.inside]}


def measures_of(measures, node):
    """The measures of an act's rows, as records; nothing where none was asked for."""
    keys = [(node.line, True)] if node.own else [(moment.event.line, False) for moment in node.moments] or [(node.line, False)]
    found = [{'line': key[0], 'region': it.cluster, 'lines': it.lines} for key in keys for it in measures.get(key, ())]
    return {'measures': found} if found else {}


def records(run, teller, measures=None):
    """A story as one document: its headings, its lines with their events, and its counts."""
    nodes, _ = acts_of(run.script, run.moments)
    told = []
    for node in nodes:
        if isinstance(node, Act):
            told.append({'line': node.line, 'words': node.text, 'own': node.own, 'seen': node.seen, 'effects': teller.folded(node.moments) if node.moments else [],
                         'events': [record_of(teller, moment) for moment in node.moments], **measures_of(measures or {}, node)})
        else:
            told.append({'line': node.line, 'heading': node.text})
    whole = run.whole
    return {'title': run.script.title(), 'lines': told, 'events': whole.events, 'idle': whole.idle, 'rounds': whole.rounds}


def main(words):
    parser = command.arguments(argparse.ArgumentParser(prog='geo story', description=__doc__, formatter_class=argparse.RawDescriptionHelpFormatter))
    parser.add_argument('--packets', action='store_true', help="shows the events of a drill's lines and of a settle, each with what it did")
    parser.add_argument('--json', action='store_true', help='prints one JSON document')
    words = parser.parse_args(words)

    def show(given, _, program, tell):
        run = m.run(given, program, words.first, words.last, tell)
        teller = Teller(run.script, program if given.is_script else None)
        measures = measured(run, given, program, words.at, tell)
        if words.json:
            print(json.dumps(records(run, teller, measures), indent=1))
            return
        for line in story(run, teller, words.packets, tell, measures):
            print(line)
    return command.shown(show, parser, words)
