"""What is judged in a milder way than it stands: each is said, with the entry and its file's line."""
from .markers import TRANSACTION_MARKERS, Unread


def relaxed(judge):
    for topic in judge.seen.topics.values():
        if topic.seen:
            _trimmed(judge, topic)
            _compacted(judge, topic)
            _batches(judge, topic)
            _transactions(judge, topic)


def _trimmed(judge, topic):
    if topic.trimmed and topic.entries:
        first = topic.entries[0]
        judge.say_of('trimmed', topic.cluster, 'its beginning may be deleted: it is judged from the %s at %s on, and markers are not compared' % (
            first, first.place), first)


def _compacted(judge, topic):
    if topic.compacted is not None:
        upto = topic.upto(topic.compacted.mark)
        where = topic.entries[upto - 1].where if upto else topic.path + '/stats-internal.json'
        last = 'the %s at %s' % (topic.entries[upto - 1], topic.entries[upto - 1].place) if upto else '%d:%d' % topic.compacted.mark
        judge.say('compacted', topic.cluster, 'it is compacted up to %s: all entries are judged, and who reads the compacted view gets the last of each key' % last,
                  where=where)


def _batches(judge, topic):
    """Batches are told once; each that the logs acknowledge in part by itself."""
    batches = [entry for entry in topic.entries if entry.batch > 1]
    if batches:
        judge.say_of('batch', topic.cluster, '%d entries are batches, the first at %s: the entry is judged, and it is acknowledged where a log '
                     'has all of its indexes, or a line without one' % (len(batches), batches[0].place), batches[0])
    for (cluster, sub, index), done in judge.settled.batches.items():
        entry = topic.entries[index] if cluster == topic.cluster else None
        if entry is not None and len(done) < entry.batch and index not in judge.settled.acked.get((cluster, sub), ()):
            judge.say_of('batch', cluster, 'of the batch at %s subscription %s acknowledges %d messages of %d: it counts as not acknowledged' % (
                entry.place, sub, len(done), entry.batch), entry, sub)


def _transactions(judge, topic):
    for entry in topic.entries:
        if isinstance(entry.marker, Unread):
            of = TRANSACTION_MARKERS.get(entry.marker.kind)
            judge.say_of('transaction' if of else 'unread', topic.cluster, 'the marker at %s %s: it is passed over' % (
                entry.place, 'is of a transaction (%s)' % of if of else 'of the type %d has a payload without a reading' % entry.marker.kind), entry)
        elif entry.transaction:
            judge.say_of('transaction', topic.cluster, 'the %s at %s is of the transaction %s: it is judged as any other, whether that was committed or not' % (
                entry, entry.place, entry.transaction), entry)
