"""Rules of entries: what stands twice, what came from where, what is missing, and what producers have receipts for."""
from bisect import bisect_right

from .places import NOWHERE, shown


def once(judge):
    """No message stands twice, and those of a producer stand in its order."""
    for cluster, topic in judge.seen.topics.items():
        top, stands = {}, {}
        why = '' if topic.is_deduplicated else '; no cursor of deduplication is here, and without it what a producer sends again is stored again'
        for entry in topic.entries:
            if topic.trimmed and not entry.is_message():
                continue
            who, sequence = entry.identity[:2], entry.identity.sequence
            before = stands.setdefault(entry.identity, entry)
            if before is not entry:
                judge.say_of('twice', cluster, 'the %s stands at %s and again at %s%s' % (entry, before.place, entry.place, why), entry)
            elif top.get(who, -1) > sequence:
                judge.say_of('twice', cluster, 'the %s stands at %s, after the sequence id %d of its producer%s' % (entry, entry.place, top[who], why), entry)
            top[who] = max(top.get(who, -1), sequence)


def since_common(some, others):
    """From the first on that both have: what stands before it may be deleted in one of the topics."""
    have = {entry.identity for entry in others}
    return some[next((at for at, entry in enumerate(some) if entry.identity in have), len(some)):]


class Carried:
    """What stands at one cluster of another's entries, beside what that one has for it: `due`, and `held` of these in the order here."""

    def __init__(self, judge, here, there):
        self.judge, self.here, self.there = judge, here, there
        self.cluster, self.origin = here.cluster, there.cluster
        mine = [entry for entry in here.entries if entry.identity.origin == self.origin]
        self.due = [entry for entry in there.entries if entry.identity.origin == self.origin and entry.is_for(self.cluster)]
        if here.trimmed or there.trimmed:
            # markers have no number of their own there
            mine, self.due = [entry for entry in mine if entry.is_message()], [entry for entry in self.due if entry.is_message()]
            mine, self.due = since_common(mine, self.due), since_common(self.due, mine)
        self.mine = mine
        self.held = []

    def judged(self):
        self._came()
        self.have = {entry.identity for entry in self.held}
        self._missing()
        self._order()
        self._unreceived()

    def _say(self, rule, text, entry):
        self.judge.say_of(rule, self.cluster, text, entry)

    def _newer_from(self):
        """From which of `mine` on all is newer than what was read of its cluster: where not all was at rest, behind all that is due."""
        many = len(self.due)
        if self.judge.seen.quiet or len(self.mine) <= many or [entry.content for entry in self.mine[:many]] != [entry.content for entry in self.due]:
            return len(self.mine)
        return many

    def _came(self):
        """Each entry here is the one that stands there, and was meant to come."""
        newer_from = self._newer_from()
        for at, entry in enumerate(self.mine):
            source = self.judge.by_identity[self.origin].get(entry.identity)
            if at >= newer_from:
                self._say('newer', 'the %s at %s is newer than what was read of %s' % (entry, entry.place, self.origin), entry)
            elif source is None:
                self._say('nowhere', 'the %s at %s stands nowhere in the topic of %s' % (entry, entry.place, self.origin), entry)
            elif source.content != entry.content:
                self._say('nowhere', 'the %s at %s is another one than at %s in the topic of %s' % (entry, entry.place, source.place, self.origin), entry)
            elif not entry.is_for(self.cluster):
                self._say('nowhere', 'the %s at %s was not meant for %s' % (entry, entry.place, self.cluster), entry)
            else:
                self.held.append(source)

    def _missing(self):
        """What is due and not here: a gap where a later one is here, else it has not come yet."""
        in_order = sorted(self.held, key=lambda entry: entry.index)
        indexes = [entry.index for entry in in_order]
        for entry in self.due:
            if entry.identity in self.have:
                continue
            text = 'the %s, at %s in the topic of %s, ' % (entry, entry.place, self.origin)
            if indexes and entry.index < indexes[-1]:
                later = in_order[bisect_right(indexes, entry.index)]
                self._say('gap', text + 'is missing, though the later %s is here' % later, entry)
            elif entry.is_message():
                self._say('missing', text + 'is not here yet', entry)

    def _order(self):
        high = None
        for source in self.held:
            if high is not None and source.index < high.index:
                entry = self.judge.by_identity[self.cluster][source.identity]
                self._say('order', 'the %s at %s stands after the %s, before which it stands in the topic of %s' % (
                    entry, entry.place, high, self.origin), entry)
            else:
                high = source

    def _unreceived(self):
        """What the replicator's cursor has stands here."""
        sender = self.there.senders.get(self.cluster)
        for entry in self.due if sender else ():
            if entry.identity not in self.have and sender.has(entry.position):
                self._say('unreceived', 'the %s, at %s in the topic of %s, is not here, and the cursor of its replicator has it' % (
                    entry, entry.place, self.origin), entry)


def carried(judge):
    """What stands elsewhere of a cluster's entries is a beginning of what that cluster has for it."""
    for here in judge.seen.topics.values():
        for there in judge.seen.topics.values():
            if here is not there and here.seen and there.seen:
                Carried(judge, here, there).judged()


def survivors(judge):
    """Of a cluster that was not read, what two others hold begins alike."""
    seen = judge.seen.seen()
    for origin in judge.seen.clusters:
        if origin in seen:
            continue
        for number, first in enumerate(seen):
            for second in seen[number + 1:]:
                one, other = (_messages_of(judge, origin, at, of) for at, of in ((first, second), (second, first)))
                parted = next(((entry, its) for entry, its in zip(one, other) if entry.content != its.content), None)
                if parted:
                    judge.say_of('order', second, 'of the cluster %s, which was not read, %s has the %s at %s, where %s has the %s at %s' % (
                        origin, first, parted[0], parted[0].place, second, parted[1], parted[1].place), parted[1])


def _messages_of(judge, origin, cluster, other):
    """The messages of an origin at a cluster that another cluster could have too."""
    return [entry for entry in judge.seen.topics[cluster].entries if entry.identity.origin == origin and entry.is_message() and entry.is_for(other)]


def receipts(judge):
    """What a producer has a receipt for stands in the topic of its cluster."""
    for line in judge.seen.log:
        if line.did == 'receipt' and line.position != NOWHERE:
            (_receipt if judge.seen.topics[line.cluster].seen else _receipt_unseen)(judge, line)


def _receipt(judge, line):
    topic, identity = judge.seen.topics[line.cluster], line.identity
    entry = topic.entry_at(line.position)
    if entry is not None and entry.has(identity):
        return
    if entry is None and (topic.is_gone(line.position) or not judge.seen.quiet and topic.is_newer(line.position)):
        return
    stands = judge.by_identity[line.cluster].get(identity)
    if stands is not None:
        judge.say('elsewhere', line.cluster, 'message %s, for which %s has a receipt of %s, stands at %s' % (
            identity, line.client, shown(line.position), stands.place), identity, where=line.where)
        return
    others = [cluster for cluster in judge.seen.clusters if identity in judge.by_identity[cluster]]
    judge.say('lost', line.cluster, 'message %s, for which %s has a receipt of %s, does not stand there%s' % (
        identity, line.client, shown(line.position), ', though at ' + ', '.join(others) if others else ' nor anywhere else'), identity, where=line.where)


def _receipt_unseen(judge, line):
    """The cluster was not read: what no other one has is missing for now."""
    if not any(line.identity in judge.by_identity[cluster] for cluster in judge.seen.clusters):
        judge.say('missing', line.cluster, 'message %s, for which %s has a receipt, stands in no cluster that was read' % (line.identity, line.client),
                  line.identity, where=line.where)
