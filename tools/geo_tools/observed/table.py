"""A row a subscription, and what each cluster lacks of each other."""
from collections import namedtuple

# `again`: deliveries of what was delivered before, `moved` of these in another cluster than before; `backlog` and `repeats` by cluster
Row = namedtuple('Row', 'sub acknowledged passed again moved backlog repeats')


def subscriptions(judge):
    """The rows of all subscriptions that stand or were logged."""
    seen = judge.seen
    names = sorted({sub for topic in seen.topics.values() for sub in topic.cursors} | {line.sub for line in seen.log if line.sub})
    repeats = {}
    for it in judge.found:
        if it.rule == 'repeats':
            repeats[it.sub, it.cluster] = repeats.get((it.sub, it.cluster), 0) + 1
    for sub in names:
        again, moved = _deliveries(judge, sub)
        with_cursor = [topic for topic in seen.topics.values() if sub in topic.cursors]
        backlog = {topic.cluster: sum(1 for entry in topic.entries if entry.is_message() and not topic.cursors[sub].has(entry.position)) for topic in with_cursor}
        yield Row(sub, len(judge.settled.by_client.get(sub, ())), sum(_passed(judge, topic, sub) for topic in with_cursor), again, moved, backlog,
                  {cluster: repeats.get((sub, cluster), 0) for cluster in backlog})


def _passed(judge, topic, sub):
    """How many messages an update let the cursor pass over."""
    cursor, acked = topic.cursors[sub], judge.settled.acked.get((topic.cluster, sub), ())
    return sum(1 for entry in topic.entries if entry.is_message() and cursor.has(entry.position)
               and entry.index not in acked and judge.passes(topic.cluster, sub, entry.index))


def _deliveries(judge, sub):
    """How many deliveries were of a message that had been delivered before, and of these in another cluster."""
    last, again, moved = {}, 0, 0
    for line in judge.seen.log:
        if line.did != 'got' or line.sub != sub:
            continue
        entry = judge.seen.topics[line.cluster].entry_at(line.position)
        identity = entry.identity if entry else line.identity
        if identity is None:
            continue
        key = (identity, line.batch)
        again += key in last
        moved += last.get(key, line.cluster) != line.cluster
        last[key] = line.cluster
    return again, moved


def missing(found):
    """How many messages of each cluster each other one lacks: pairs of (cluster, origin) and a count."""
    counts = {}
    for it in found:
        if it.rule == 'missing':
            key = (it.cluster, it.identity.origin)
            counts[key] = counts.get(key, 0) + 1
    return counts
