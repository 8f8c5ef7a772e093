"""What is lost if a cluster goes at the end of a script's run, told apart from `geo lost`: its lines (docs/LOST.md) from the last report,
from what the trace says of cursors, and from the steps, which say whether a snapshot in the making was forgotten.

So answers/lost.txt is made: of each drill and example with a replicated subscription a case, of a drill that loses a region up to there, of
another script at its end, where the cluster goes at which that subscription was first. `geo_tools definitions lost` computes them again.

usage: geo_tools losses write                  writes answers/lost.txt
       geo_tools losses check                  says whether it is what `write` would write
       geo_tools losses CLUSTER SCRIPT         prints the lines of a script
"""
import glob
import os
import sys

from .. import drill, steps
from ..command import read_script
from ..page.cursors import Cursors
from ..page.lanes import node_of
from ..program import ROOT, Program
from ..report import identity, is_message
from ..script import Script

REQUEST, SNAPSHOT, UPDATE = 'request', 'snapshot', 'update'
ANSWERS = os.path.join(ROOT, 'answers', 'lost.txt')
HEAD = '''# What is lost if a region goes: of each drill and example with a replicated subscription, of a drill that loses a region up to there. Written
# by `python3 tools/geo_tools losses write`, apart from the command; `python3 tools/geo_tools definitions lost` computes the definitions of each.
'''


def goes(entry, cluster):
    """Whether an entry is meant for a cluster."""
    return entry.targets == '*' or cluster in entry.targets.split(',')


def line(label, count):
    return '%s %d' % (label, count)


def making(run):
    """Where a snapshot is in the making, as (topic, cluster): the last of the cluster's own requests has no snapshot behind it, and its broker,
    which keeps in memory what is in the making, did not begin anew since."""
    found = set()
    for moment in run.moments:
        for change in moment.changes:
            if isinstance(change, steps.Stored) and change.entry.origin == change.cluster:
                if change.entry.kind == REQUEST:
                    found.add((change.topic, change.cluster))
                elif change.entry.kind == SNAPSHOT:
                    found.discard((change.topic, change.cluster))
        words = moment.event.words
        if words[0] == 'stop':
            found.clear()
        elif words[0] in ('restart', 'halt') and not moment.idle:
            found.discard(node_of(run.script, words))
    return found


class Losses:
    """What is lost if a cluster goes: of a whole run and its trace."""

    def __init__(self, run, trace, cluster, names=True):
        self.script, self.report, self.cluster, self.names = run.script, run.whole, cluster, names
        self.others = [other for other in self.script.clusters if other != cluster]
        self.cursors, self.making = Cursors(list(trace)), making(run)
        self.cursors.up_to(self.report.events)

    def lines(self):
        """The lines, topic after topic."""
        for topic in self.script.topics:
            yield 'lost %s topic %s' % (self.cluster, topic)
            yield from self.own(topic)
            for other in self.others:
                yield from self.at(topic, other)
            yield from self.ends(topic)

    def named(self, label, entries):
        """How many there are, and which."""
        yield line(label, len(entries))
        if self.names:
            yield from ('  ' + ' '.join(identity(entry)) for entry in entries)

    # ---- what the topic at the cluster has ----

    def entries(self, topic, cluster):
        return self.report.entries[topic, cluster]

    def subs(self, topic):
        """The subscriptions that are replicated at the cluster that goes."""
        return [name for name, sub in self.report.subs[topic, self.cluster].items() if sub.replicated == 'replicated']

    def has(self, topic, cluster, name, index):
        """Whether a cursor has an index."""
        cursor = self.cursors.of.get((topic, cluster, name))
        return bool(cursor) and any(first <= index <= last for first, last in cursor.ranges)

    def own(self, topic):
        kinds = [entry.kind for entry in self.entries(topic, self.cluster) if entry.origin == self.cluster and entry.kind in (REQUEST, SNAPSHOT)]
        yield line('asked', kinds[-1:] == [REQUEST])
        yield line('making', (topic, self.cluster) in self.making)
        for name in self.subs(topic):
            yield line('untold sub ' + name, self.untold(topic, name))

    def untold(self, topic, name):
        """The snapshots that a mark-delete has passed, behind the last that an update tells."""
        mine = [entry.what.split(' ') for entry in self.entries(topic, self.cluster) if entry.origin == self.cluster]
        told = [words[2:] for words in mine if words[:2] == [UPDATE, name]][-1:]
        at = {entry.position: index for index, entry in enumerate(self.entries(topic, self.cluster))}
        mark, count = self.report.subs[topic, self.cluster][name].mark, 0
        for words in mine:
            if words[0] == SNAPSHOT and at.get(words[2], mark) < mark:
                count = 0 if [words[3:]] == told else count + 1
        return count

    # ---- what another cluster lacks ----

    def mine(self, topic):
        """The cluster's own messages."""
        return [entry for entry in self.entries(topic, self.cluster) if is_message(entry) and entry.origin == self.cluster]

    def there(self, topic, cluster):
        """What stands at a cluster, by identity."""
        return {identity(entry) for entry in self.entries(topic, cluster)}

    def at(self, topic, other):
        there = self.there(topic, other)
        yield from self.named('missing at ' + other, [entry for entry in self.mine(topic) if goes(entry, other) and identity(entry) not in there])
        for name in self.subs(topic):
            lacks = [entry for index, entry in enumerate(self.entries(topic, other)) if is_message(entry) and not self.has(topic, other, name, index)]
            yield from self.named('again sub %s at %s' % (name, other), self.again(topic, name, lacks))
            yield line('backlog sub %s at %s' % (name, other), len(lacks))

    def again(self, topic, name, lacks):
        """Those that the cursor at the cluster that goes has."""
        at = {}
        for index, entry in enumerate(self.entries(topic, self.cluster)):
            at.setdefault(identity(entry), index)
        return [entry for entry in lacks if identity(entry) in at and self.has(topic, self.cluster, name, at[identity(entry)])]

    # ---- if the cluster never comes back ----

    def ends(self, topic):
        there = {other: self.there(topic, other) for other in self.others}
        lost, alone, differ = [], [], []
        for entry in self.mine(topic):
            meant = [other for other in self.others if goes(entry, other)]
            stands = [other for other in self.others if identity(entry) in there[other]]
            if not meant:
                alone.append(entry)
            elif not stands:
                lost.append(entry)
            if stands and any(other not in stands for other in meant):
                differ.append(entry)
        for label, entries in (('lost', lost), ('alone', alone), ('differ', differ)):
            yield from self.named(label, entries)


def losses(raw, program, cluster, names=True):
    """The lines of a script, of which the program tells the steps and the trace."""
    run = steps.run(Script(raw), program)
    return list(Losses(run, program.lines('trace', raw), cluster, names).lines())


# ---- the stored answers ----


def first_place(script):
    """The cluster of the first client with a replicated subscription; None where there is none."""
    for other in script.others:
        words = other.text.split(' ')
        if other.kind == 'declaration' and words[0] == 'do' and words[2] == 'sub' and words[-1] == 'replicated':
            client = next(it.text.split(' ') for it in script.others if it.text.startswith('client %s ' % words[1]))
            return client[3]
    return None


def first_loss(path, program):
    """Of a drill that loses a region: the region, and how many events stand before; None where it loses none."""
    if not os.path.exists(path):
        return None
    with open(path, encoding='utf-8') as file:
        script = Script(drill.annotated(file.read(), path, program))
    for other in script.others:
        if other.kind == 'comment' and other.text.startswith('lost ') and len(other.text.split(' ')) == 2:
            return other.text.split(' ')[1], sum(event.line < other.line for event in script.events)
    return None


def case(name, program):
    """The case of a script, as lines of answers/; nothing where no subscription is replicated."""
    with open(os.path.join(ROOT, name), 'rb') as file:
        raw = file.read()
    script, lost, to = Script(raw), first_loss(os.path.join(ROOT, name[:-len('.geo')] + '.drill'), program), ''
    cluster = first_place(script)
    if cluster is None:
        return
    if lost:
        cluster, count = lost
        raw, to = script.beginning(count), ' to %d' % script.beginning(count).count(b'\n')
    yield '== lost %s < %s%s' % (cluster, name, to)
    yield 'status 0'
    yield from losses(raw, program, cluster)


def written(program):
    """The text of answers/lost.txt."""
    made = HEAD
    for folder in ('drills', 'examples'):
        for path in sorted(glob.glob(os.path.join(ROOT, folder, '*.geo'))):
            lines = list(case(os.path.relpath(path, ROOT), program))
            made += ''.join(line + '\n' for line in [''] + lines) if lines else ''
    return made


def main(words):
    if words in (['write'], ['check']):
        made = written(Program())
        if words == ['write']:
            with open(ANSWERS, 'w', encoding='ascii') as file:
                file.write(made)
            return 0
        with open(ANSWERS, encoding='ascii') as file:
            if file.read() == made:
                return 0
        print('answers/lost.txt is not what `losses write` writes')
        return 1
    if len(words) != 2:
        print(__doc__, file=sys.stderr)
        return 2
    print('\n'.join(losses(read_script(words[1]), Program(), words[0])))
    return 0
