"""What was found, in lines."""
from . import table


def lines(judge, found):
    """Of one topic: a line a finding, what would be lost, and a row a subscription."""
    topic = judge.seen.topic
    for it in found:
        yield '%s: %s %s' % (topic, 'FAULT' if it.is_fault else 'note', it)
    for (cluster, origin), count in table.missing(found).items():
        where = 'no cluster that was read has' if cluster == origin else '%s lacks' % cluster
        many, are = ('', 'is') if count == 1 else ('s', 'are')
        yield '%s: %s %d message%s of %s, which %s lost if %s never returns' % (topic, where, count, many, origin, are, origin)
    lost = len({it.identity for it in found if it.rule == 'lost'})
    for row in table.subscriptions(judge):
        yield '%s: sub %s acknowledged %d passed-over %d again %d after-move %d backlog %s would-repeat %s' % (
            topic, row.sub, row.acknowledged, row.passed, row.again, row.moved, by_cluster(row.backlog), by_cluster(row.repeats))
    faults = sum(it.is_fault for it in found)
    read = sum(len(it.entries) for it in judge.seen.topics.values())
    yield '%s: %s; %d entries and %d lines of logs read, %d lost' % (topic, '%d fault%s' % (faults, '' if faults == 1 else 's') if faults else 'no fault',
                                                                     read, len(judge.seen.log), lost)


def by_cluster(counts):
    return ' '.join('%s=%d' % it for it in counts.items()) or '-'
