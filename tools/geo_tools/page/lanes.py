"""What stands beside the lanes while rows go by: lost regions, cut and held links, and where each client is."""
from collections import namedtuple

from ..steps import Did, Moved
from ..acts import Act, Fact

SILENT = 'silent'
# a state of a page's lanes: frozen sets and tuples, so that equal ones are one stretch of the page
State = namedtuple('State', 'lost silent cuts holds places')


def inner(words):
    """The event of a halt, else the event itself."""
    return words[2:] if words[0] == 'halt' and len(words) > 2 else words


def node_of(script, words):
    """The broker, a topic and a cluster, where an event happens; None where it happens at a client, or at all."""
    words = inner(words)
    word = words[0]
    if word in ('serve', 'drop') and len(words) > 2:
        return (script.topic_of.get(words[2]), words[1])
    if word in ('read', 'reset', 'receipt') and len(words) > 3:
        return (words[1], words[2])
    if word == 'take' and len(words) > 3:
        return (words[1], words[3])
    if word in ('snap', 'offer', 'seek', 'restart') and len(words) > 2:
        return (words[1], words[2])
    return None


class Standing:
    """Keeps what is lost, cut and held, and where clients are."""

    def __init__(self, script, places, before):
        self.script, self.places = script, dict(places)
        self.lost, self.silent, self.cuts, self.holds = set(), set(), set(), set()
        for fact in before:
            self.take(fact)

    def take(self, fact):
        """Takes up what a comment says."""
        topics = [fact.topic] if fact.topic else self.script.topics
        if fact.word in ('cut', 'mended'):
            change = self.cuts.update if fact.word == 'cut' else self.cuts.difference_update
            change({(topic, *sorted(fact.clusters, key=self.script.clusters.index)) for topic in topics})
        elif fact.word in ('held', 'released'):
            change = self.holds.update if fact.word == 'held' else self.holds.difference_update
            change({(topic, *fact.clusters) for topic in topics})
        elif fact.word == SILENT:
            self.silent.add(fact.clusters[0])
        elif fact.word == 'lost':
            self.lost.add(fact.clusters[0])
        else:
            self.lost.discard(fact.clusters[0])

    def moves(self, changes):
        for change in changes:
            if isinstance(change, Moved):
                self.places[change.client] = change.after

    def state(self):
        return State(frozenset(self.lost), frozenset(self.silent - self.lost), frozenset(self.cuts), frozenset(self.holds),
                     tuple(self.places.items()))


def clusters_of(script, moment, places):
    """The clusters where an event happens; all where it is one of all."""
    words = moment.event.words
    if words[0] in ('settle', 'stop'):
        return set(script.clusters)
    node = node_of(script, words)
    if node:
        return {node[1]}
    left = [change for change in moment.changes if isinstance(change, Did) and change.line.startswith('move ')]
    # a client that leaves is no sign of life of what it leaves
    return set() if left or words[-1] not in places else {places[words[-1]]}


def silences(script, nodes, places):
    """Where a region does nothing until a client has left it and it restarts: it was lost, though no comment says so.

    Gives for places in the list of acts the clusters that are silent from there on, and those that are so no more.
    """
    acts = [(at, node) for at, node in enumerate(nodes) if isinstance(node, Act)]
    told = {cluster for _, act in acts for fact in act.facts if fact.word in ('lost', 'returned') for cluster in fact.clusters}
    begins, ends, last, left = {}, {}, {}, {}
    places = dict(places)
    for at, act in acts:
        for moment in act.moments:
            words = moment.event.words
            for cluster in clusters_of(script, moment, places):
                since = last.get(cluster, -1)
                if words[0] == 'restart' and left.get(cluster, -1) > since and cluster not in told:
                    begins.setdefault(since + 1, []).append(cluster)
                    ends.setdefault(at, []).append(cluster)
                last[cluster] = at
            for change in moment.changes:
                if isinstance(change, Moved):
                    left[change.before] = at
                    places[change.client] = change.after
    return begins, ends


def silent_fact(cluster):
    return Fact(SILENT, None, (cluster,))
