"""What clients and operators logged: a line of clients.jsonl an event."""
from dataclasses import dataclass

from .places import Identity, Refused, position

# what a line may say was done, and those of them that name a position and a subscription
DONE = ('got', 'ack', 'acked', 'receipt', 'created', 'seek', 'deleted')
WITH_POSITION, WITH_SUB = ('got', 'ack', 'acked', 'receipt', 'seek'), ('got', 'ack', 'acked', 'created', 'seek', 'deleted')
# of a seek: to the end of the topic
END = 'end'


@dataclass
class Line:
    """A line of the log. `batch`: the index in a batch, or -1; `end`: the last position before an operator's call; `identity`: where it is told."""
    number: int
    at: float
    did: str
    cluster: str
    topic: str
    sub: object
    client: str
    position: object
    batch: int
    cumulative: bool
    end: object
    identity: object
    initial: object

    @property
    def where(self):
        return 'clients.jsonl line %d' % self.number


def read_identity(told, where):
    """The message that a line is of, where it says so."""
    named = told.get('ident')
    if told['did'] == 'receipt':
        named = [told['cluster'], told.get('producer'), told.get('sequence')]
    if named is None:
        return None
    if not isinstance(named, list) or len(named) != 3 or not isinstance(named[0], str) or not isinstance(named[1], str) or not is_whole(named[2]):
        raise Refused('%s: no message is named: cluster, producer and sequence id' % where)
    return Identity(*named)


def is_whole(number):
    return isinstance(number, int) and not isinstance(number, bool)


def read_line(told, number, clusters):
    """A line of the log, or why it is none."""
    where = 'clients.jsonl line %d' % number
    if not isinstance(told, dict):
        raise Refused('%s: no line of a log' % where)
    did, cluster = told.get('did'), told.get('cluster')
    if did not in DONE:
        raise Refused('%s: %r is none of %s' % (where, did, ', '.join(DONE)))
    if cluster not in clusters:
        raise Refused('%s: the cluster %r is not in drill.json' % (where, cluster))
    if not isinstance(told.get('topic'), str) or not isinstance(told.get('at'), (int, float)):
        raise Refused('%s: it has no topic, or no time' % where)
    if did in WITH_SUB and not isinstance(told.get('sub'), str):
        raise Refused('%s: no subscription is named' % where)
    place, end, batch = told.get('position'), told.get('end'), told.get('batch', -1)
    if did in WITH_POSITION and place is None:
        raise Refused('%s: no position' % where)
    if place is not None and not (did == 'seek' and place == END):
        place = position(place, where)
    if not is_whole(batch) or did == 'created' and told.get('initial') not in ('earliest', 'latest'):
        raise Refused('%s: %s' % (where, 'the batch index is no number' if not is_whole(batch) else 'initial is neither earliest nor latest'))
    return Line(number, told['at'], did, cluster, told['topic'], told.get('sub'), str(told.get('client', '?')), place, batch,
                bool(told.get('cumulative')), None if end is None else position(end, where), read_identity(told, where), told.get('initial'))
