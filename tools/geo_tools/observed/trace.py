"""Builds a trace that explains an observation: an order of appends, creations, acknowledgements, deletions and seeks that keeps the order of
each topic, and in which each line is one that the program's audit accepts, where this search finds one (docs/TRACE.md has the lines).

The search is greedy. An append stands as early as its causes let it; an acknowledgement as early as its index and its cause stand; what an
operator did as late as anything else can go on without it. Where all is stuck, the line that waits for nothing which may still come is
written all the same, so that the audit refuses it by its rule.
"""
from . import markers
from .entry_words import EntryWords, ranges_text
from .phases import names_at, phases_of
from .places import shown

TOPIC = 't'


class Waits:
    """What the next entry of a topic waits for, in words. `comes()`: whether it may still come."""

    def __init__(self, text, comes=lambda: False, sub=None):
        self.text, self.comes, self.sub = text, comes, sub


class Explained:
    """The lines of a trace for one observation, and what nothing explains."""

    def __init__(self, judge):
        self.judge, self.seen = judge, judge.seen
        self.lines, self.unexplained = [], []
        self.words = EntryWords(self.seen.clusters)
        self.next = {cluster: 0 for cluster in self.seen.clusters}
        self.stands = {cluster: set() for cluster in self.seen.clusters}
        self.snapshots = {cluster: {} for cluster in self.seen.clusters}
        self.phases = {(cluster, sub): phases_of(judge, cluster, sub) for cluster in self.seen.clusters for sub in names_at(self.seen, cluster)}
        # of each subscription the number of its phase, its cursor, and how many entries it has from the first on
        self.now = {key: -1 for key in self.phases}
        self.cursor, self.mark = {}, {}
        self._search()

    def text(self):
        """The trace."""
        head = ['geo 1', *('cluster ' + self.words.clusters.of(cluster) for cluster in self.seen.clusters), 'topic ' + TOPIC, 'trace']
        for number, line in enumerate(self.lines, 1):
            head += ['event %d' % number, line]
        return '\n'.join(head) + '\n'

    # the search

    def _search(self):
        while True:
            moved = False
            for cluster in self.seen.clusters:
                moved |= self._append_all(cluster)
            if not moved:
                for key in self.phases:
                    moved |= self._gain(*key)
            if not moved:
                moved = any(self._begin(*key) for key in self.phases)
            if not moved and not self._force_cursor() and not self._force_entry():
                break
        self._compare()

    def _append_all(self, cluster):
        """All that may be appended to a cluster's topic by now."""
        moved, topic = False, self.seen.topics[cluster]
        while True:
            for of, sub in self.phases:
                if of == cluster and self._waits_for_nobody(cluster, sub) and self._begin(cluster, sub):
                    moved = True
            if self.next[cluster] >= len(topic.entries):
                return moved
            waits, by = self._awaits(cluster)
            if waits and waits.sub and self._hurry(cluster, waits.sub):
                moved = True
                continue
            if waits:
                return moved
            self._append(cluster, topic.entries[self.next[cluster]], by)
            moved = True

    def _hurry(self, cluster, sub):
        """A creation at Latest belongs at this length: what comes before it for its subscription is done first."""
        self._gain(cluster, sub)
        return self._begin(cluster, sub)

    def _waits_for_nobody(self, cluster, sub):
        """A first creation, and a creation after a deletion, wait for nobody."""
        number, phases = self.now[cluster, sub] + 1, self.phases[cluster, sub]
        return number < len(phases) and phases[number].start == 'create' and (number == 0 or phases[number].value is None)

    def _awaits(self, cluster):
        """What the next entry of a cluster waits for, None for nothing; and of an own update the snapshot's position."""
        topic = self.seen.topics[cluster]
        entry = topic.entries[self.next[cluster]]
        for (of, sub), phases in self.phases.items():
            later = phases[max(self.now[of, sub], -1) + 1:] if of == cluster else ()
            if any(phase.start == 'create' and phase.value == entry.index for phase in later):
                return Waits('the creation of subscription %s' % sub, sub=sub), None
        origin = entry.identity.origin
        if origin != cluster:
            if entry.identity in self.stands[origin]:
                return None, None
            there = self.seen.topics[origin].entries
            return Waits('the %s at %s, which is not appended there before it' % (entry, origin),
                         lambda: any(it.identity == entry.identity for it in there[self.next[origin]:])), None
        if isinstance(entry.marker, markers.Snapshot):
            return self._awaits_cut(cluster, entry), None
        if isinstance(entry.marker, markers.Update):
            return self._awaits_mark(cluster, entry)
        return None, None

    def _awaits_cut(self, cluster, entry):
        for of, place in entry.marker.remote:
            there = self.seen.topics[of]
            if of != cluster and place not in there.at:
                return Waits('the position %s of %s, where nothing stands' % (shown(place), of))
            if of != cluster and there.at[place] >= self.next[of]:
                return Waits('the position %s of %s, which is not appended before it' % (shown(place), of), lambda: True)
        return None

    def _awaits_mark(self, cluster, entry):
        told, topic = self.snapshots[cluster].get(tuple(sorted(entry.marker.remote)), []), self.seen.topics[cluster]
        if not told:
            return Waits('a snapshot with the same positions'), None
        by = min(told, key=lambda snapshot: (snapshot.marker.local, snapshot.index))
        local = by.marker.local
        if local not in topic.at:
            return Waits('the position %s of %s, where nothing stands' % (shown(local), cluster)), None
        if self.mark.get((cluster, entry.marker.sub), 0) <= topic.at[local]:
            return Waits('subscription %s to be done up to %s' % (entry.marker.sub, shown(local))), None
        return None, by.position

    # lines

    def _append(self, cluster, entry, by):
        words = ['append', TOPIC, self.words.clusters.of(cluster), *self.words.entry(entry)]
        self.lines.append(' '.join(words + (['by', shown(by)] if by is not None else [])))
        self.next[cluster] = entry.index + 1
        if entry.identity.origin == cluster:
            self.stands[cluster].add(entry.identity)
            if isinstance(entry.marker, markers.Snapshot):
                self.snapshots[cluster].setdefault(tuple(sorted(entry.marker.remote)), []).append(entry)

    def _of_sub(self, word, cluster, sub, *more):
        self.lines.append(' '.join([word, TOPIC, self.words.clusters.of(cluster), self.words.subs.of(sub), *more]))

    # subscriptions

    def _begin(self, cluster, sub):
        """The next phase of a subscription, where it may begin."""
        key, number = (cluster, sub), self.now[cluster, sub] + 1
        if number >= len(self.phases[key]):
            return False
        phase = self.phases[key][number]
        if phase.start == 'create' and phase.value is not None and self.next[cluster] != phase.value:
            return False
        if phase.start == 'seek' and phase.value > self.next[cluster]:
            return False
        if phase.start == 'create':
            self._of_sub('create', cluster, sub, 'earliest' if phase.value is None else 'latest')
        elif phase.start == 'delete':
            self._of_sub('delete', cluster, sub)
        else:
            self._of_sub('seek', cluster, sub, str(phase.value))
        self.cursor[key] = None if phase.start == 'delete' else set(range(phase.value or 0))
        self.now[key], self.mark[key] = number, 0
        self._rise(key)
        return True

    def _rise(self, key):
        at, have = self.mark[key], self.cursor[key] or ()
        while at in have:
            at += 1
        self.mark[key] = at

    def _gain(self, cluster, sub):
        """All that a cursor may gain by now."""
        key = (cluster, sub)
        have, gained = self.cursor.get(key), {}
        if have is None:
            return False
        for index, cause, update in self.phases[key][self.now[key]].ready(self.next[cluster]):
            if index not in have:
                gained.setdefault((update, cause), []).append(index)
        for (update, cause), indexes in sorted(gained.items()):
            more = [self.seen.topics[cluster].entries[update].place] if cause == 'update' else []
            self._of_sub('ack', cluster, sub, ranges_text(sorted(indexes)), cause, *more)
            have.update(indexes)
        if gained:
            self._rise(key)
        return bool(gained)

    # where nothing explains it

    def _force_cursor(self):
        """An index that nothing explains is told as that of a marker, which the audit refuses."""
        for (cluster, sub), phases in self.phases.items():
            key, topic = (cluster, sub), self.seen.topics[cluster]
            cursor, have = topic.cursors.get(sub), self.cursor.get((cluster, sub))
            if self.now[key] != len(phases) - 1 or cursor is None or have is None:
                continue
            some = [entry for entry in topic.entries[:self.next[cluster]]
                    if entry.index not in have and cursor.has(entry.position) and entry.index not in phases[-1].gains]
            if some:
                self.unexplained.append('subscription %s at %s is done with the %s at %s%s, and nothing explains it' % (
                    sub, cluster, some[0], some[0].place, ' and %d more' % (len(some) - 1) if some[1:] else ''))
                self._of_sub('ack', cluster, sub, ranges_text([entry.index for entry in some]), 'marker')
                have.update(entry.index for entry in some)
                self._rise(key)
                return True
        return False

    def _force_entry(self):
        """The entry that waits for nothing which may still come is appended all the same."""
        heads = []
        for number, cluster in enumerate(self.seen.clusters):
            if self.next[cluster] < len(self.seen.topics[cluster].entries):
                heads.append((self._awaits(cluster)[0].comes(), number, cluster))
        if not heads:
            return False
        cluster = min(heads)[2]
        entry = self.seen.topics[cluster].entries[self.next[cluster]]
        self.unexplained.append('the %s at %s of %s waits for %s' % (entry, entry.place, cluster, self._awaits(cluster)[0].text))
        by = None
        if isinstance(entry.marker, markers.Update) and entry.identity.origin == cluster:
            told = self.snapshots[cluster].get(tuple(sorted(entry.marker.remote)), [])
            by = told[0].position if told else entry.position
        self._append(cluster, entry, by)
        return True

    def _compare(self):
        """What the trace made beside what was observed: an audit does not compare it."""
        for (cluster, sub), phases in self.phases.items():
            topic = self.seen.topics[cluster]
            if self.now[cluster, sub] < len(phases) - 1:
                self.unexplained.append('subscription %s at %s: %s has no place' % (sub, cluster, phases[self.now[cluster, sub] + 1].start))
            elif sub in topic.cursors:
                cursor, have = topic.cursors[sub], self.cursor[cluster, sub]
                for entry in topic.entries:
                    if cursor.has(entry.position) != (entry.index in have):
                        self.unexplained.append('subscription %s at %s %s the %s at %s, and the trace has it otherwise' % (
                            sub, cluster, 'is done with' if cursor.has(entry.position) else 'is not done with', entry, entry.place))
                        break
