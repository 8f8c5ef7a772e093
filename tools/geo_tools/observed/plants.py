"""Kinds of faults, each planted into a folder's files where there is a place for it.

Each function of KINDS changes the Files of a folder and gives a Plant: the rules one of which is to be found, the cluster, the message and
the subscription where they are known, and what else may be said because of it. It gives None where there is no place for it.
"""
import base64
import copy
import json
import os
from dataclasses import dataclass

from . import markers as m
from .folder import json_lines, json_object
from .judge import Judge
from .made import write_json, write_lines
from .places import NOWHERE, Identity, position, shown

POSITION, SEQUENCE = 'X-Pulsar-Message-ID', 'X-Pulsar-sequence-id'
# what the sequence ids of the machine stay below
MOST_SEQUENCE = 2 ** 63


@dataclass
class Plant:
    """What is to be found: one of `rules`, at a cluster. `follows`: rules that may be said as well, of what `names` or the subscription has."""
    rules: tuple
    cluster: str
    identity: object = None
    sub: object = None
    follows: tuple = ()
    names: tuple = ()

    def is_found(self, found):
        return any(set(self.rules) & {it.rule, *it.also} and it.cluster == self.cluster and self.identity in (None, it.identity) and self.sub in (None, it.sub)
                   for it in found)

    def astray(self, found):
        """Faults that are said and follow from nothing that was planted."""
        return [it for it in found if it.is_fault and not ({it.rule, *it.also} <= {*self.rules, *self.follows} and self._is_of(it))]

    def _is_of(self, it):
        return (self.identity is not None and it.identity == self.identity or self.sub is not None and it.sub == self.sub
                or any(name in str(it) for name in self.names))


class Files:
    """The files of a folder, to be changed: lines of entries and stats-internal by cluster, and the log; of one topic, as it is observed."""

    def __init__(self, folder, seen, chosen):
        self.folder, self.seen, self.chosen, self.topic = folder, seen, chosen, seen.topic
        self.log = [line for _, line in json_lines(os.path.join(folder, 'clients.jsonl'), 'clients.jsonl')]
        self.entries, self.internal = {}, {}
        for cluster in seen.seen():
            self.entries[cluster] = [line for _, line in json_lines(self._path(cluster, 'entries.jsonl'), cluster)]
            self.internal[cluster] = json_object(self._path(cluster, 'stats-internal.json'), cluster)
        self.topics = {cluster: seen.topics[cluster] for cluster in seen.seen()}
        self.settled = Judge(seen).settled

    def _path(self, cluster, name):
        return os.path.join(self.folder, cluster, self.topic, name)

    def write(self, folder):
        """Writes what may be changed into a copy of the folder."""
        self.folder = folder
        write_lines(os.path.join(folder, 'clients.jsonl'), self.log)
        for cluster, lines in self.entries.items():
            write_lines(self._path(cluster, 'entries.jsonl'), lines)
            write_json(self._path(cluster, 'stats-internal.json'), self.internal[cluster])

    def choose(self, some):
        return self.chosen.choice(some) if some else None

    def messages(self):
        return [(cluster, entry) for cluster, topic in self.topics.items() for entry in topic.entries if entry.is_message()]

    def brought(self):
        """Messages that came from another cluster."""
        return [(cluster, entry) for cluster, entry in self.messages() if entry.identity.origin != cluster]

    def own_markers(self, kind):
        return [(cluster, entry) for cluster, topic in self.topics.items() for entry in topic.entries
                if isinstance(entry.marker, kind) and entry.identity.origin == cluster]

    def cursors(self):
        return [(cluster, sub, cursor) for cluster, topic in self.topics.items() for sub, cursor in topic.cursors.items()]

    def open_messages(self):
        """Messages that a cursor does not have and nobody dealt with."""
        return [(cluster, sub, entry) for cluster, sub, cursor in self.cursors() for entry in self.topics[cluster].entries
                if entry.is_message() and not cursor.has(entry.position) and not self.settled.has(sub, entry.identity)]

    def lines_of(self, *did):
        return [line for line in self.log if line['topic'] == self.topic and line['did'] in did]

    def told(self, cluster, sub):
        """The cursor of a subscription in stats-internal."""
        return self.internal[cluster]['cursors'][sub]

    def add(self, cluster, line):
        """Stores a line as the last entry."""
        ledger, entry = self.topics[cluster].entries[-1].position
        line = copy.deepcopy(line)
        line['headers'][POSITION] = shown((ledger, entry + 1))
        self.entries[cluster].append(line)

    def add_update(self, cluster, sub, remote, origin=None):
        headers = {'X-Pulsar-producer-name': m.PRODUCER, SEQUENCE: '0', 'X-Pulsar-marker-type': str(m.UPDATE)}
        if origin:
            headers['X-Pulsar-replicated-from'] = origin
        self.add(cluster, {'headers': headers, 'payload': base64.b64encode(m.payload_of(m.Update(sub, tuple(remote)))).decode()})

    def names_of(self, cluster, entry):
        """What a finding says of an entry: its message, and its position where a marker names it."""
        return (str(entry.identity), ' %s ' % entry.place, ' %s,' % entry.place)


def message_missing(files):
    """A message that came from another cluster is missing in the midst."""
    found = files.choose([(cluster, entry) for cluster, entry in files.brought()
                          if any(it.identity.origin == entry.identity.origin and it.index > entry.index for it in files.topics[cluster].entries)])
    if found:
        cluster, entry = found
        del files.entries[cluster][entry.index]
        # a creation at Latest there does not pass over it any more, so that elsewhere it may be skipped
        return Plant(('gap',), cluster, entry.identity, None, ('unreceived', 'cut', 'skipped', 'told'), files.names_of(cluster, entry))


def stands_twice(files):
    """A message that came from another cluster stands a second time at the end."""
    found = files.choose(files.brought())
    if found:
        files.add(found[0], files.entries[found[0]][found[1].index])
        return Plant(('twice',), found[0], found[1].identity, None, ('order',))


def places_changed(files):
    """Two messages of one cluster change places. What clients acknowledged goes with the messages."""
    pairs = []
    for cluster in files.topics:
        here = [entry for at, entry in files.brought() if at == cluster]
        pairs += [(cluster, entry, later) for entry, later in zip(here, here[1:]) if entry.identity.origin == later.identity.origin]
    found = files.choose(pairs)
    if not found:
        return None
    cluster, entry, later = found
    lines, other = files.entries[cluster], {entry.place: later.place, later.place: entry.place}
    lines[entry.index], lines[later.index] = lines[later.index], lines[entry.index]
    for it in (entry, later):
        lines[it.index]['headers'][POSITION] = it.place
    for line in files.lines_of('got', 'ack', 'acked'):
        if line['cluster'] == cluster and not line.get('cumulative'):
            line['position'] = other.get(line['position'], line['position'])
    return Plant(('order', 'twice'), cluster, None, None, ('cut', 'skipped', 'told', 'update'), (str(entry.identity), str(later.identity)))


def cursor_skips(files):
    """A cursor has a message that nobody acknowledged, by its mark or by a range."""
    found = files.choose(files.open_messages())
    if not found:
        return None
    cluster, sub, entry = found
    told, (ledger, number) = files.told(cluster, sub), entry.position
    if files.chosen.choice((True, False)):
        told['markDeletePosition'] = entry.place
    else:
        ranges = told['individuallyDeletedMessages'][1:-1]
        told['individuallyDeletedMessages'] = '[%s]' % ','.join(filter(None, [ranges, '(%d:%d..%s]' % (ledger, number - 1, entry.place)]))
    return Plant(('skipped',), cluster, entry.identity, sub)


def update_from_nowhere(files):
    """An update of another cluster, which that one does not have, stands here, and a cursor followed it."""
    found = files.choose([(*it, other) for it in files.open_messages() for other in files.topics if other != it[0] and it[2].is_for(other)])
    if found:
        cluster, sub, entry, other = found
        files.add_update(cluster, sub, [(cluster, entry.position)], other)
        files.told(cluster, sub)['markDeletePosition'] = entry.place
        return Plant(('nowhere',), cluster, None, None, ('skipped',), ('the update of %s' % other, 'subscription %s is done' % sub))


def update_without_snapshot(files):
    """A cluster's own update has positions that no snapshot has."""
    found = files.choose([(cluster, sub) for cluster, sub, _ in files.cursors() if all(topic.entries for topic in files.topics.values())])
    if not found:
        return None
    cluster, sub = found
    remote = [(other, files.choose(topic.entries).position) for other, topic in files.topics.items() if other != cluster]
    if any(of == cluster and dict(entry.marker.remote) == dict(remote) for of, entry in files.own_markers(m.Snapshot)):
        return None
    files.add_update(cluster, sub, remote)
    return Plant(('update',), cluster, None, sub, ('told',))


def update_too_early(files):
    """A cluster's own update tells a snapshot that its cursor has not passed."""
    found = []
    set_back = {(line['cluster'], line['sub']) for line in files.lines_of('seek', 'deleted')}
    for cluster, snapshot in files.own_markers(m.Snapshot):
        topic = files.topics[cluster]
        alike = [it for of, it in files.own_markers(m.Snapshot) if of == cluster and dict(it.marker.remote) == dict(snapshot.marker.remote)]
        for sub, cursor in topic.cursors.items():
            before = topic.entries[:topic.upto(snapshot.marker.local)]
            if len(alike) == 1 and (cluster, sub) not in set_back and any(not cursor.has(entry.position) for entry in before):
                found.append((cluster, sub, snapshot))
    found = files.choose(found)
    if found:
        files.add_update(found[0], found[1], found[2].marker.remote)
        return Plant(('update',), found[0], None, found[1], ('told',))


def receipt_lost(files):
    """A message for which a producer has a receipt is gone at its cluster."""
    lines = [line for line in files.lines_of('receipt') if position(line['position'], '') in files.topics[line['cluster']].at]
    line = files.choose([line for line in lines if line['position'] != shown(NOWHERE)])
    if line:
        cluster = line['cluster']
        entry = files.topics[cluster].entry_at(position(line['position'], ''))
        del files.entries[cluster][entry.index]
        return Plant(('lost',), cluster, entry.identity, None, ('nowhere', 'cut', 'skipped', 'told'), files.names_of(cluster, entry))


def delivered_again(files):
    """A consumer got a message after its acknowledgement had a receipt. It is told as a note."""
    line = files.choose(files.lines_of('acked'))
    if line:
        files.log.insert(files.log.index(line) + 1, dict(line, did='got'))
        return Plant(('again',), line['cluster'], files.topics[line['cluster']].entry_at(position(line['position'], '')).identity, line['sub'])


def text_changed(files):
    """A message that came from another cluster has another text."""
    found = files.choose(files.brought())
    if found:
        files.entries[found[0]][found[1].index]['payload'] = base64.b64encode(b'another text').decode()
        return Plant(('nowhere',), found[0], found[1].identity, None, ('gap', 'unreceived', 'cut'), files.names_of(found[0], found[1]))


def key_changed(files):
    """A message that came from another cluster has another key."""
    found = files.choose(files.brought())
    if found:
        files.entries[found[0]][found[1].index]['headers']['X-Pulsar-partition-key'] = 'another_key'
        return Plant(('nowhere',), found[0], found[1].identity, None, ('gap', 'unreceived', 'cut'), files.names_of(found[0], found[1]))


def made_up(files):
    """A message stands here that its cluster never had."""
    found = files.choose(files.brought())
    if not found:
        return None
    cluster, entry = found
    line = copy.deepcopy(files.entries[cluster][entry.index])
    greatest = max(it.identity.sequence for topic in files.topics.values() for it in topic.entries if it.identity[:2] == entry.identity[:2])
    if greatest + 1 >= MOST_SEQUENCE:
        return None
    line['headers'][SEQUENCE] = str(greatest + 1)
    files.add(cluster, line)
    return Plant(('nowhere',), cluster, Identity(*entry.identity[:2], greatest + 1))


def snapshot_no_cut(files):
    """A snapshot names a later position of another cluster, up to which not all had come."""
    found = []
    for cluster, snapshot in files.own_markers(m.Snapshot):
        topic = files.topics[cluster]
        here = {entry.identity for entry in topic.entries[:topic.upto(snapshot.marker.local)]}
        for other, place in snapshot.marker.remote:
            later = next((it for it in files.topics[other].entries
                          if it.position > place and it.is_message() and it.is_for(cluster) and it.identity not in here), None)
            if later:
                found.append((cluster, snapshot, other, later))
    found = files.choose(found)
    if not found:
        return None
    cluster, snapshot, other, later = found
    remote = tuple((of, later.position if of == other else place) for of, place in snapshot.marker.remote)
    files.entries[cluster][snapshot.index]['payload'] = base64.b64encode(m.payload_of(snapshot.marker._replace(remote=remote))).decode()
    # its updates have no snapshot any more, and what the others hold of it is another one than here
    updates = tuple('subscription %s at %s ' % (entry.marker.sub, entry.place) for of, entry in files.own_markers(m.Update)
                    if of == cluster and dict(entry.marker.remote) == dict(snapshot.marker.remote))
    return Plant(('cut',), cluster, None, None, ('update', 'nowhere', 'gap', 'unreceived', 'twice'),
                 ('snapshot at %s' % snapshot.place, 'snapshot of %s' % cluster, *updates))


def replicator_ahead(files):
    """A replicator's cursor has a message that the other cluster does not have."""
    found = []
    for cluster, topic in files.topics.items():
        for other in topic.senders:
            have = {entry.identity for entry in files.topics[other].entries}
            found += [(cluster, other, entry) for entry in topic.entries if entry.identity.origin == cluster and entry.is_message()
                      and entry.is_for(other) and entry.identity not in have]
    found = files.choose(found)
    if found:
        cluster, other, entry = found
        files.told(cluster, 'pulsar.repl.' + other)['markDeletePosition'] = entry.place
        return Plant(('unreceived',), other, entry.identity, None, (), ('in the topic of %s, is not here, and the cursor of its replicator' % cluster,))


def nobody_acknowledged(files):
    """What an update let a cursor pass over was acknowledged by nobody: the acknowledgements leave the logs."""
    judge, found = Judge(files.seen), []
    set_past = {line['sub'] for line in files.lines_of('seek', 'created') if line.get('initial') != 'earliest'}
    for cluster, sub, cursor in files.cursors():
        acked = files.settled.acked.get((cluster, sub), ())
        found += [(cluster, sub, entry) for entry in files.topics[cluster].entries if sub not in set_past and entry.is_message()
                  and cursor.has(entry.position) and entry.index not in acked and judge.passes(cluster, sub, entry.index)]
    found = files.choose(found)
    if found:
        cluster, sub, entry = found
        places = {(other, it.place) for other, topic in files.topics.items() for it in topic.entries if it.identity == entry.identity}
        files.log = [line for line in files.log if not (line['topic'] == files.topic and line.get('sub') == sub and line['did'] in ('ack', 'acked')
                                                        and (line['cluster'], line['position']) in places)]
        return Plant(('skipped',), cluster, entry.identity, sub, ('told',))


def not_meant(files):
    """A message stands where its list does not send it."""
    found = files.choose([(other, cluster, entry) for cluster, entry in files.messages() for other, topic in files.topics.items()
                          if entry.identity.origin == cluster and not entry.is_for(other) and topic.entries])
    if found:
        other, cluster, entry = found
        line = copy.deepcopy(files.entries[cluster][entry.index])
        line['headers']['X-Pulsar-replicated-from'] = cluster
        files.add(other, line)
        # at the end it may stand after a later one of its producer
        return Plant(('nowhere',), other, entry.identity, None, ('twice',))


def marker_missing(files):
    """A marker that came from another cluster is missing in the midst. Of markers with the same content the last one is told to be missing,
    so that a later entry of its cluster has to stand after all of them."""
    found = []
    for cluster, topic in files.topics.items():
        for entry in topic.entries:
            of_origin = [it for it in topic.entries if it.identity.origin == entry.identity.origin]
            last_alike = max(it.index for it in of_origin if it.marker == entry.marker)
            if not entry.is_message() and entry.identity.origin != cluster and of_origin[-1].index > last_alike:
                found.append((cluster, entry))
    found = files.choose(found)
    if found:
        cluster, entry = found
        del files.entries[cluster][entry.index]
        return Plant(('gap',), cluster, None, None, ('unreceived', 'cut', 'skipped', 'order', 'told'),
                     ('%s of %s' % (m.WORDS[type(entry.marker)], entry.identity.origin), ' %s ' % entry.place, ' %s,' % entry.place))


KINDS = (message_missing, stands_twice, places_changed, cursor_skips, update_from_nowhere, update_without_snapshot, update_too_early, receipt_lost,
         delivered_again, text_changed, key_changed, made_up, snapshot_no_cut, replicator_ahead, nobody_acknowledged, not_meant, marker_missing)
