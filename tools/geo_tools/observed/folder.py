"""Reads a folder of dumps into one observation a topic.

    FOLDER/drill.json                          {"clusters": [..], "topics": [..], "unseen": [..], "quiet": false, "trimmed": false}
    FOLDER/CLUSTER/TOPIC/entries.jsonl         an entry a line: the answer of admin's ledger/L/entry/E, headers and payload
    FOLDER/CLUSTER/TOPIC/stats-internal.json   as admin gives it
    FOLDER/clients.jsonl                       what clients and operators logged
"""
import json
import os
from bisect import bisect_right
from dataclasses import dataclass, field

from . import cursors as c
from .entries import read_entry
from .logs import read_line
from .markers import PRODUCER
from .places import Identity, Refused

# a marker that its origin does not have gets a number above all that are counted
UNKNOWN_FROM = 2 ** 62


@dataclass
class TopicAt:
    """A topic at one cluster. `seen`: whether it was read; `trimmed`: whether its beginning may be deleted; `path`: its folder."""
    cluster: str
    path: str
    seen: bool = True
    trimmed: bool = False
    entries: list = field(default_factory=list)
    cursors: dict = field(default_factory=dict)
    senders: dict = field(default_factory=dict)
    compacted: object = None
    is_deduplicated: bool = False

    def settle_indexes(self):
        """Numbers the entries from 0, and finds them by position."""
        for index, entry in enumerate(self.entries):
            entry.index = index
        self.at = {entry.position: entry.index for entry in self.entries}
        self.positions = [entry.position for entry in self.entries]

    def upto(self, place):
        """How many entries stand at or below a position."""
        return bisect_right(self.positions, place)

    def entry_at(self, place):
        """The entry at a position; None where none stands."""
        return self.entries[self.at[place]] if place in self.at else None

    def is_gone(self, place):
        """Whether a position may have been there and was deleted."""
        return self.trimmed and (not self.positions or place < self.positions[0])

    def is_newer(self, place):
        """Whether a position is above all that was read."""
        return not self.positions or place > self.positions[-1]


@dataclass
class Observation:
    """What is known of one topic. `quiet`: nothing moved while it was read; `topics`: its TopicAt by cluster; `log`: its lines in order."""
    topic: str
    clusters: list
    topics: dict
    log: list
    quiet: bool

    def seen(self):
        return [cluster for cluster in self.clusters if self.topics[cluster].seen]


def json_lines(path, name):
    """The lines of a file with their numbers."""
    try:
        with open(path, encoding='utf-8') as file:
            for number, line in enumerate(file, 1):
                if line.strip():
                    yield number, json.loads(line)
    except OSError as fault:
        raise Refused('%s: %s' % (name, fault.strerror)) from None
    except RecursionError:
        raise Refused('%s: it is nested too deep' % name) from None
    except UnicodeDecodeError:
        raise Refused('%s: it is not in UTF-8' % name) from None
    except ValueError:
        raise Refused('%s line %d: no JSON' % (name, number)) from None


def json_object(path, name):
    """The object that a file has."""
    try:
        with open(path, encoding='utf-8') as file:
            made = json.load(file)
    except OSError as fault:
        raise Refused('%s: %s' % (name, fault.strerror)) from None
    except (ValueError, RecursionError) as fault:
        raise Refused('%s: no JSON: %s' % (name, fault)) from None
    if not isinstance(made, dict):
        raise Refused('%s: no object' % name)
    return made


def read_cursors(topic, told, name):
    """Takes the cursors of stats-internal: of subscriptions, of replicators, of the broker's own."""
    if not isinstance(told.get('cursors'), dict):
        raise Refused('%s: no cursors' % name)
    for of, cursor in told['cursors'].items():
        read = c.read_cursor(cursor, '%s: the cursor %s' % (name, of))
        if of.startswith(c.REPLICATOR):
            topic.senders[of[len(c.REPLICATOR):]] = read
        elif of == c.DEDUPLICATION:
            topic.is_deduplicated = True
        elif of == c.COMPACTION:
            topic.compacted = read
        else:
            topic.cursors[of] = read


def read_topic(folder, cluster, name, trimmed):
    """A topic at a cluster, from its two files."""
    path = '%s/%s' % (cluster, name.replace('/', '_'))
    topic = TopicAt(cluster, path, trimmed=trimmed)
    internal, entries = path + '/stats-internal.json', path + '/entries.jsonl'
    read_cursors(topic, json_object(os.path.join(folder, internal), internal), internal)
    for number, line in json_lines(os.path.join(folder, entries), entries):
        where = '%s line %d' % (entries, number)
        entry = read_entry(line, cluster, where)
        if topic.entries and entry.position <= topic.entries[-1].position:
            raise Refused('%s: the position %s is not above the last one' % (where, entry.place))
        topic.entries.append(entry)
    topic.settle_indexes()
    return topic


def number_markers(topics):
    """A broker writes each marker with the sequence id 0. They are numbered here: those of a cluster in the order of its own topic, and what
    others hold of them by that, the first of equal content for the first."""
    own = {}
    for cluster, topic in topics.items():
        mine = [entry for entry in topic.entries if entry.identity.producer == PRODUCER and entry.identity.origin == cluster]
        for number, entry in enumerate(mine):
            entry.identity = Identity(cluster, PRODUCER, number)
            own.setdefault((cluster, entry.marker, entry.to), []).append(number)
    for cluster, topic in topics.items():
        used, unknown = {}, {}
        for entry in topic.entries:
            origin = entry.identity.origin
            if entry.identity.producer != PRODUCER or origin == cluster:
                continue
            key = (origin, entry.marker, entry.to)
            used[key] = used.get(key, -1) + 1
            there = own.get(key, [])
            if used[key] < len(there):
                number = there[used[key]]
            else:
                number = unknown[origin] = unknown.get(origin, UNKNOWN_FROM) + 1
            entry.identity = Identity(origin, PRODUCER, number)


def check_names(topics):
    """Each cluster that an entry comes from, or that a marker names a position of, is one of the drill's."""
    for topic in topics.values():
        for entry in topic.entries:
            named = [entry.identity.origin] + [cluster for cluster, _ in getattr(entry.marker, 'remote', ())]
            unknown = next((cluster for cluster in named if cluster not in topics), None)
            if unknown is not None:
                raise Refused('%s: the entry at %s names the cluster %s, which is not in drill.json' % (entry.where, entry.place, unknown))


def read_drill(folder):
    """What drill.json says: clusters, topics, which are not seen, and whether all was at rest or trimmed."""
    drill = json_object(os.path.join(folder, 'drill.json'), 'drill.json')
    for name in ('clusters', 'topics', 'unseen'):
        names = drill.setdefault(name, [] if name == 'unseen' else None)
        if not isinstance(names, list) or not all(isinstance(word, str) for word in names) or len(set(names)) < len(names):
            raise Refused('drill.json: no list of names: %s' % name)
    for name in ('quiet', 'trimmed'):
        if not isinstance(drill.setdefault(name, False), bool):
            raise Refused('drill.json: %s is neither true nor false' % name)
    if not set(drill['unseen']) <= set(drill['clusters']):
        raise Refused('drill.json: a cluster is unseen that is not in its list')
    return drill


def read_log(folder, drill):
    """The lines of each topic in order, and how many are of topics that are not judged."""
    said, others = {topic: [] for topic in drill['topics']}, 0
    for number, told in json_lines(os.path.join(folder, 'clients.jsonl'), 'clients.jsonl'):
        line = read_line(told, number, drill['clusters'])
        if line.topic in said:
            said[line.topic].append(line)
        else:
            others += 1
    return {topic: sorted(lines, key=lambda line: (line.at, line.number)) for topic, lines in said.items()}, others


def read_folder(folder):
    """The observation of each topic, and how many lines of the log are of other topics."""
    drill = read_drill(folder)
    said, others = read_log(folder, drill)
    made = []
    for name in drill['topics']:
        topics = {}
        for cluster in drill['clusters']:
            if cluster in drill['unseen']:
                topics[cluster] = TopicAt(cluster, '%s/%s' % (cluster, name), seen=False)
                topics[cluster].settle_indexes()
            else:
                topics[cluster] = read_topic(folder, cluster, name, drill['trimmed'])
        check_names(topics)
        number_markers(topics)
        made.append(Observation(name, drill['clusters'], topics, said[name], drill['quiet']))
    return made, others
