"""The text of an observation, which `geo observe` judges: positions as indexes, batches as entries, markers with numbers of their own.

    tools/observed text FOLDER

It reads the logs as the judge of this package does ([settled.py](settled.py)): which messages clients acknowledged, and below which index an
operator set a subscription. What a line says of a message that is not to be seen stands there as `unsure`.
"""
import argparse
import sys

from .entry_words import NAME, EntryWords, Names, ranges_text
from .folder import read_folder
from .places import NOWHERE, Refused, shown
from .settled import Settled


class ObservationText:
    """The lines of the observations of a folder, all of the same clusters, and the names in them."""

    def __init__(self, observations):
        self.observations = observations
        self.words = EntryWords(observations[0].clusters if observations else [])
        self.topics = Names('t', NAME)
        self.lines = ['geo 1', *('cluster ' + self.words.clusters.of(cluster) for cluster in self.words.listed)]
        self.lines += ['topic ' + self.topics.of(seen.topic) for seen in observations]
        self.lines.append('observed quiet' if observations and observations[0].quiet else 'observed')
        for seen in observations:
            self._observation(seen)

    def text(self):
        """The text."""
        return '\n'.join(self.lines) + '\n'

    def _say(self, word, *more):
        self.lines.append(' '.join([word, *more]))

    def _observation(self, seen):
        topic = self.topics.of(seen.topic)
        for cluster in seen.clusters:
            here = seen.topics[cluster]
            at = (topic, self.words.clusters.of(cluster))
            if not here.seen:
                self._say('unread', *at)
            elif here.trimmed:
                self._say('trimmed', *at)
            else:
                self._topic(here, at, seen.clusters)
        settled = Settled(seen, lambda *_, **__: None)
        for sub, identities in settled.by_client.items():
            for identity in sorted(identities):
                self._say('done', topic, self.words.subs.of(sub), *self.words.identity(_whole(identity)))
        for (cluster, sub), below in settled.set_below.items():
            if seen.topics[cluster].seen and below:
                self._say('below', topic, self.words.clusters.of(cluster), self.words.subs.of(sub), str(below))
        for sub, clusters in settled.unsure.items():
            for cluster in sorted(clusters):
                self._say('unsure', topic, self.words.clusters.of(cluster), self.words.subs.of(sub))
        self._receipts(seen, topic)

    def _topic(self, here, at, clusters):
        """What was read of a topic at a cluster."""
        for entry in here.entries:
            if min(*entry.position, entry.identity.sequence) < 0:
                raise Refused('%s: a position or a sequence id below 0' % entry.where)
            self._say('entry', *at, *self.words.entry(entry))
        for sub, cursor in here.cursors.items():
            self._say('cursor', *at, self.words.subs.of(sub), ranges_text(entry.index for entry in here.entries if cursor.has(entry.position)))
        for cluster, cursor in here.senders.items():
            if cluster in clusters and cluster != here.cluster:
                self._say('brought', *at, self.words.clusters.of(cluster), ranges_text(entry.index for entry in here.entries if cursor.has(entry.position)))

    def _receipts(self, seen, topic):
        for line in seen.log:
            if line.did == 'receipt' and line.position != NOWHERE:
                entry = seen.topics[line.cluster].entry_at(line.position)
                identity = entry.identity if entry is not None and entry.has(line.identity) else line.identity
                if min(*line.position, identity.sequence) < 0:
                    raise Refused('%s: a position or a sequence id below 0' % line.where)
                self._say('receipt', topic, *self.words.identity(identity), shown(line.position))


def _whole(identity):
    """An identity whose sequence id the text may have."""
    if identity.sequence < 0:
        raise Refused('clients.jsonl: a sequence id below 0: %s' % (identity,))
    return identity


def main(words):
    """Prints the text of a folder; gives the status."""
    # imported here, since that module names this one
    from .main import NOT_READ
    parser = argparse.ArgumentParser(prog='tools/observed text', description=__doc__, formatter_class=argparse.RawDescriptionHelpFormatter)
    parser.add_argument('folder', metavar='FOLDER')
    try:
        sys.stdout.write(ObservationText(read_folder(parser.parse_args(words).folder)[0]).text())
        return 0
    except Refused as refused:
        print('tools/observed text: refused: %s' % refused, file=sys.stderr)
        return NOT_READ
