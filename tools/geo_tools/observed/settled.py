"""What the logs settle: which messages clients acknowledged, and what operators set subscriptions past."""
from .logs import END


class Settled:
    """By subscription and cluster, from the logs alone.

    `messages[sub]` are the identities that are dealt with, `by_client[sub]` those that a client acknowledged; `acked[cluster, sub]` the
    indexes that a client acknowledged there; `set_below[cluster, sub]` how far an operator set it; `moved_back` who was sought or deleted;
    `unsure[sub]` the clusters where a line's message can't be told. `say` takes notes.
    """

    def __init__(self, seen, say):
        self.seen, self.say = seen, say
        self.messages, self.by_client, self.acked, self.set_below, self.unsure = {}, {}, {}, {}, {}
        self.moved_back = set()
        self.got, self.got_at, self.batches = {}, {}, {}
        for line in seen.log:
            if line.did == 'got':
                self.got_at.setdefault((line.cluster, line.sub), []).append(line)
        steps = {'got': self._got, 'ack': self._acknowledged, 'acked': self._acknowledged, 'created': self._created, 'seek': self._sought,
                 'deleted': self._deleted}
        for line in seen.log:
            if line.did in steps:
                steps[line.did](line, seen.topics[line.cluster])

    def has(self, sub, identity):
        return identity in self.messages.get(sub, ())

    def of(self, sub):
        return self.messages.get(sub, set())

    def was_set(self, cluster, sub, index):
        """Whether a creation at Latest or a seek passed over it."""
        return index < self.set_below.get((cluster, sub), 0)

    # lines of clients

    def _got(self, line, topic):
        if line.identity is not None:
            self.got.setdefault((line.cluster, line.sub), []).append((line.position, line.identity))

    def _acknowledged(self, line, topic):
        entry = topic.entry_at(line.position)
        if entry is None and line.identity is None:
            self._unplaced(line, topic)
            return
        if entry is not None and line.identity is not None and not entry.has(line.identity):
            self.say('elsewhere', line.cluster, 'subscription %s acknowledges %s as that of message %s, and there stands the %s: the position counts' % (
                line.sub, entry.place, line.identity, entry), entry.identity, line.sub, line.where)
        if entry is None or line.cumulative and topic.trimmed:
            # an entry that is not to be seen here: the log says which message it was, and which came before
            named = [line.identity] if entry is None else []
            if line.cumulative:
                named += [identity for place, identity in self.got.get((line.cluster, line.sub), ()) if place <= line.position]
            self._settle_by_client(line.sub, named)
        if entry is not None:
            self._acknowledged_indexes(line, topic, self._indexes(line, topic, entry))

    def _indexes(self, line, topic, entry):
        """Which entries a line acknowledges: of a batch, once the logs have all of its indexes."""
        if line.batch < 0 or entry.batch == 1:
            return range(entry.index + 1) if line.cumulative else [entry.index]
        done = self.batches.setdefault((line.cluster, line.sub, entry.index), set())
        if line.batch >= entry.batch:
            self.say('unplaced', line.cluster, 'subscription %s acknowledges the index %d of the batch at %s, which has %d messages' % (
                line.sub, line.batch, entry.place, entry.batch), entry.identity, line.sub, line.where)
            return range(entry.index) if line.cumulative else []
        done.update(range(line.batch + 1) if line.cumulative else [line.batch])
        whole = [entry.index] if len(done) >= entry.batch else []
        return [*range(entry.index), *whole] if line.cumulative else whole

    def _acknowledged_indexes(self, line, topic, indexes):
        self.acked.setdefault((line.cluster, line.sub), set()).update(indexes)
        self._settle_by_client(line.sub, [topic.entries[index].identity for index in indexes if topic.entries[index].is_message()])

    def _settle_by_client(self, sub, identities):
        self.by_client.setdefault(sub, set()).update(identities)
        self.messages.setdefault(sub, set()).update(identities)

    def _unplaced(self, line, topic):
        """An acknowledgement of what can't be told."""
        why = 'which was not read' if not topic.seen else 'where no entry stands'
        self.unsure.setdefault(line.sub, set()).add(line.cluster)
        self.say('unplaced', line.cluster, 'subscription %s acknowledges %d:%d of %s, %s, and `ident` does not say which message it was' % (
            line.sub, *line.position, line.cluster, why), sub=line.sub, where=line.where)

    # lines of operators

    def _created(self, line, topic):
        if line.initial == 'latest':
            self._set(line, topic, self.length_at(line, topic))

    def _sought(self, line, topic):
        self.moved_back.add((line.cluster, line.sub))
        self._set(line, topic, self.seek_index(line, topic))

    def _deleted(self, line, topic):
        self.moved_back.add((line.cluster, line.sub))

    def _set(self, line, topic, below):
        """All below an index is done with there."""
        if not topic.seen or topic.trimmed:
            self.unsure.setdefault(line.sub, set()).add(line.cluster)
        self.messages.setdefault(line.sub, set()).update(entry.identity for entry in topic.entries[:below] if entry.is_message())
        key = (line.cluster, line.sub)
        self.set_below[key] = max(self.set_below.get(key, 0), below)

    def length_at(self, line, topic):
        """How long the topic was when a subscription was created at Latest; where the log does not say it, below what it got first."""
        if line.end is not None:
            return topic.upto(line.end)
        first = min((topic.at[got.position] for got in self.got_at.get((line.cluster, line.sub), ()) if got.at >= line.at and got.position in topic.at),
                    default=len(topic.entries))
        taken = 'below %s, which it got first' % topic.entries[first].place if first < len(topic.entries) else 'at the end of what was read'
        self.say('assumed', line.cluster, 'subscription %s is created at Latest, and `end` does not say where: taken to be %s' % (line.sub, taken),
                 sub=line.sub, where=line.where)
        return first

    def seek_index(self, line, topic):
        """Below which index a seek set the cursor."""
        if line.position != END:
            return topic.at.get(line.position, topic.upto(line.position))
        if line.end is not None:
            return topic.upto(line.end)
        self.say('assumed', line.cluster, 'subscription %s is sought to the end, and `end` does not say where that was: '
                 'taken to be the end of what was read' % line.sub, sub=line.sub, where=line.where)
        return len(topic.entries)
