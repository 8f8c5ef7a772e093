"""The words of entries in texts that the program reads, and names of their own where Pulsar's are none of the program's."""
import re

from . import markers
from .places import shown

# the names and the words that a text may have; where Pulsar's are others, the text has names of its own
NAME, WORD = re.compile(r'[a-z0-9_]{1,16}\Z'), re.compile(r'[!-~]{1,200}\Z')


class Names:
    """Names of a text for those of Pulsar: the same where a text may have it."""

    def __init__(self, letter, form):
        self.letter, self.form, self.known, self.taken = letter, form, {}, set()

    def of(self, name):
        if name not in self.known:
            alias = name
            if not self.form.match(name) or name in self.taken or name == '-':
                alias = '%s%d' % (self.letter, len(self.known))
                while alias in self.taken:
                    alias += '_'
            self.known[name] = alias
            self.taken.add(alias)
        return self.known[name]


def ranges_text(indexes):
    """Ascending indexes as FIRST-LAST with commas."""
    out = []
    for index in indexes:
        if out and out[-1][1] + 1 == index:
            out[-1][1] = index
        else:
            out.append([index, index])
    return ','.join('%d-%d' % (first, last) for first, last in out) or '-'


class EntryWords:
    """The words of entries, and the names in them: of clusters, subscriptions, producers and keys."""

    def __init__(self, clusters):
        self.listed = clusters
        self.clusters, self.subs = Names('c', NAME), Names('s', NAME)
        self.producers, self.keys = Names('p', WORD), Names('k', WORD)
        for cluster in clusters:
            self.clusters.of(cluster)

    def identity(self, identity):
        """The words of an identity."""
        return [self.clusters.of(identity.origin), self.producers.of(identity.producer), str(identity.sequence)]

    def entry(self, entry):
        """The words of an entry behind those of its topic and cluster."""
        named = [self.clusters.of(it) for it in self.listed if entry.to is not None and it in entry.to]
        return [entry.place, *self.identity(entry.identity), '*' if entry.to is None else ','.join(named) or '?', *self._what(entry)]

    def _pairs(self, remote):
        return ['%s=%s' % (self.clusters.of(cluster), shown(place)) for cluster, place in remote]

    def _what(self, entry):
        """What an entry is."""
        marker = entry.marker
        if marker is None:
            return ['data', '-' if entry.key is None else self.keys.of(entry.key), entry.digest]
        if isinstance(marker, markers.Request):
            return ['request', marker.snapshot, self.clusters.of(marker.source)]
        if isinstance(marker, markers.Response):
            return ['response', marker.snapshot, *self._pairs([marker.pair])]
        if isinstance(marker, markers.Snapshot):
            return ['snapshot', marker.snapshot, shown(marker.local), *self._pairs(marker.remote)]
        if isinstance(marker, markers.Update):
            return ['update', self.subs.of(marker.sub), *self._pairs(marker.remote)]
        return ['unread']
