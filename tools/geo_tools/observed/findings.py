"""The rules of the judge, each once with its sentence, and findings.

They are walks over final states and logs, and know no order of events across clusters. Faults come first from which others follow.
"""
from dataclasses import dataclass, field

FAULTS = {
    'lost': 'a producer has a receipt for a message that stands nowhere in the topic of its cluster',
    'gap': 'a message is missing though a later one of its cluster is there',
    'twice': 'a message stands twice, or those of a producer stand out of order',
    'nowhere': 'an entry does not stand in its cluster\'s topic, or another one does, or it was not meant to come here',
    'cut': 'the positions of a snapshot do not belong together',
    'told': 'an update says that messages are done with which nobody dealt with, or names a position where nothing stands',
    'skipped': 'a cursor has a message that nobody acknowledged and that no creation at Latest or seek passed over',
    'order': 'entries of one cluster stand in another order than there',
    'unreceived': 'a replicator\'s cursor has a message that does not stand in the other cluster',
    'update': 'an update has no snapshot, or its cursor has not passed the snapshot'}
NOTES = {
    'missing': 'not replicated yet: what is lost if its cluster never returns',
    'repeats': 'acknowledged by a client, and not in the cursor here: it comes again if consumers move here now',
    'again': 'a consumer got it after an acknowledgement of it had its receipt in that cluster',
    'untold': 'acknowledged in another cluster, and passed over here without an update that says so',
    'unsure': 'done with, and perhaps so by a line whose message can\'t be told',
    'newer': 'newer than what was read of its cluster',
    'elsewhere': 'a line of the log names another position than that of its message',
    'unplaced': 'a line of the log whose message can\'t be told',
    'assumed': 'a line of the log that lacks `end`, and what was taken for it',
    'batch': 'batches: how they are counted, and which are acknowledged in part',
    'transaction': 'an entry of a transaction: it is judged as any other',
    'unread': 'a marker without a reading: it is passed over',
    'compacted': 'the topic is compacted: who reads the compacted view gets less',
    'trimmed': 'the beginning may be deleted: what is judged begins here'}
ORDER = {rule: number for number, rule in enumerate([*FAULTS, *NOTES])}
# these are of one subscription: of the same message there may be one for each
OF_SUB = ('skipped', 'untold', 'again', 'unsure', 'update', 'told', 'repeats', 'batch')


@dataclass
class Finding:
    """One finding: its rule, the cluster, a sentence, the message, the subscription, and the file and line. `also`: further rules of it."""
    rule: str
    cluster: str
    text: str
    identity: object = None
    sub: object = None
    where: str = ''
    also: list = field(default_factory=list)

    @property
    def is_fault(self):
        return self.rule in FAULTS

    def __str__(self):
        also = ' (also %s)' % ', '.join(self.also) if self.also else ''
        return '%s at %s: %s%s%s' % (self.rule, self.cluster, self.text, also, ' [%s]' % self.where if self.where else '')


def joined(found):
    """In order; of several faults of one message at one cluster the first stands, with the rules of the others."""
    first, out = {}, []
    for it in sorted(found, key=lambda it: ORDER[it.rule]):
        key = (it.cluster, it.identity, it.sub if it.rule in OF_SUB else None)
        if it.identity is None or not it.is_fault or key not in first:
            if it.is_fault:
                first.setdefault(key, it)
            out.append(it)
        elif it.rule != first[key].rule and it.rule not in first[key].also:
            first[key].also.append(it.rule)
    return out
