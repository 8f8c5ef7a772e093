"""What each subscription did at a cluster, by the logs: from a creation or a seek on, what its cursor gained and why."""
from .markers import Update


class Phase:
    """From a creation, a deletion or a seek on. `value`: the index that it begins at; `gains`: by index the cause, and an update's index or -1."""

    def __init__(self, start, value=None):
        self.start, self.value, self.gains, self.order, self.at = start, value, {}, None, 0

    def ready(self, length):
        """The gains whose index and cause stand below a length, and that were not given before."""
        if self.order is None:
            self.order = sorted((max(index, update), index, cause, update) for index, (cause, update) in self.gains.items())
        while self.at < len(self.order) and self.order[self.at][0] < length:
            yield self.order[self.at][1:]
            self.at += 1


def names_at(seen, cluster):
    """The subscriptions of which a cluster's topic or its logs know."""
    topic = seen.topics[cluster]
    named = set(topic.cursors) | {line.sub for line in seen.log if line.cluster == cluster and line.sub and line.did != 'got'}
    return sorted(named | {entry.marker.sub for entry in topic.entries if isinstance(entry.marker, Update) and entry.identity.origin == cluster})


def phases_of(judge, cluster, sub):
    """The phases of a subscription at a cluster, in order."""
    topic, made, alive = judge.seen.topics[cluster], [], False
    for line in judge.seen.log:
        if (line.cluster, line.sub) != (cluster, sub) or line.did == 'created' and alive:
            continue
        if line.did == 'created':
            made.append(Phase('create', judge.settled.length_at(line, topic) if line.initial == 'latest' else None))
        elif not alive:
            # an update of another cluster created it, or it was there before the log
            made.append(Phase('create'))
        alive = line.did != 'deleted'
        if line.did == 'deleted':
            made.append(Phase('delete'))
        elif line.did == 'seek':
            made.append(Phase('seek', judge.settled.seek_index(line, topic)))
    if not made or not alive and sub in topic.cursors:
        made.append(Phase('create'))
        alive = True
    if alive and sub not in topic.cursors:
        made.append(Phase('delete'))
    for number, phase in enumerate(made):
        if phase.start != 'delete':
            phase.gains = dict(gains(judge, topic, sub, phase, number == len(made) - 1))
    return made


def gains(judge, topic, sub, phase, is_last):
    """What the cursor may gain in a phase, with the cause: of the last phase what it has now."""
    acked = judge.settled.acked.get((topic.cluster, sub), ())
    for entry in topic.entries[phase.value or 0:]:
        if is_last and not topic.cursors[sub].has(entry.position):
            continue
        if not entry.is_message():
            yield entry.index, ('marker', -1)
        elif entry.index in acked:
            yield entry.index, ('client', -1)
        else:
            update = judge.passes(topic.cluster, sub, entry.index)
            if update is not None:
                yield entry.index, ('update', update.index)
