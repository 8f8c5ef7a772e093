"""Entries of a topic at one cluster, as admin's look-up of an entry answers: headers and a payload.

The headers are those of Pulsar's sources, read in its documentation and not tried on a running broker; docs/OBSERVED.md has them.
"""
import base64
import binascii
import hashlib
from dataclasses import dataclass

from . import markers
from .places import Identity, Refused, position, shown

HEADER = 'x-pulsar-'
# how much of a text's hash is kept: two texts of one drill have not the same by chance
DIGEST_LETTERS = 16
# an entry has at most 5 MiB where a broker is not told otherwise (maxMessageSize), and no message of a batch takes less than a byte
MOST_BATCH = 5 * 1024 * 1024


@dataclass
class Entry:
    """An entry. `to`: the clusters that its list names, None for all. `batch`: how many messages it has. `where`: its file and line."""
    position: tuple
    identity: Identity
    to: object
    marker: object
    key: object
    digest: str
    batch: int
    last_sequence: int
    transaction: object
    where: str
    index: int = 0

    def is_message(self):
        return self.marker is None

    def is_for(self, cluster):
        """Whether it is meant for a cluster."""
        return self.identity.origin == cluster or self.to is None or cluster in self.to

    def has(self, identity):
        """Whether a message is the one of this entry, or one of its batch."""
        first = self.identity.sequence
        return identity[:2] == self.identity[:2] and first <= identity.sequence <= max(self.last_sequence, first + self.batch - 1)

    @property
    def content(self):
        """What is the same in each cluster."""
        return self.identity, self.to, self.marker, self.key, self.digest

    def __str__(self):
        if self.is_message():
            return 'message %s' % (self.identity,)
        return '%s of %s' % (markers.WORDS[type(self.marker)], self.identity.origin)

    @property
    def place(self):
        return shown(self.position)


class Headers:
    """The headers of one entry, in whichever case they are written."""

    def __init__(self, headers, where):
        if not isinstance(headers, dict):
            raise Refused('%s: no headers' % where)
        self.of, self.where = {name.lower(): value for name, value in headers.items()}, where

    def get(self, name, default=None):
        return self.of.get(HEADER + name, default)

    def text(self, name):
        value = self.get(name)
        if not isinstance(value, str) or not value:
            raise Refused('%s: no header X-Pulsar-%s' % (self.where, name))
        return value

    def optional(self, name):
        value = self.get(name)
        if value is not None and not isinstance(value, str):
            raise Refused('%s: the header X-Pulsar-%s is no text' % (self.where, name))
        return value or None

    def number(self, name, default=None):
        value = self.get(name, default)
        try:
            return int(value if isinstance(value, int) else str(value))
        except ValueError:
            raise Refused('%s: the header X-Pulsar-%s is no number: %r' % (self.where, name, value)) from None


def read_payload(line, where):
    """The payload, None where only its hash is given, and its hash."""
    if 'payload' in line:
        try:
            payload = base64.b64decode(line['payload'], validate=True)
        except (TypeError, ValueError, binascii.Error):
            raise Refused('%s: the payload is not in base 64' % where) from None
        return payload, hashlib.sha256(payload).hexdigest()[:DIGEST_LETTERS]
    if not isinstance(line.get('sha256'), str):
        raise Refused('%s: neither a payload nor a sha256 of it' % where)
    return None, line['sha256'][:DIGEST_LETTERS]


def read_targets(headers):
    """The clusters that the list names; None where there is none. It comes as several headers, or as one with commas."""
    to = headers.get('replicated-to')
    if not to:
        return None
    names = [word.strip() for word in to.split(',')] if isinstance(to, str) else to
    if not isinstance(names, list) or not all(isinstance(name, str) for name in names):
        raise Refused('%s: the header X-Pulsar-replicated-to is no list of clusters' % headers.where)
    return frozenset(names)


def read_kind(headers, producer, payload):
    """The marker; None for a message."""
    if headers.get('marker-type') is None:
        if producer == markers.PRODUCER:
            raise Refused('%s: an entry of %s without the header X-Pulsar-marker-type: which marker it is can\'t be told' % (headers.where, producer))
        return None
    kind = headers.number('marker-type')
    if kind not in markers.NUMBERS.values() and kind not in markers.TRANSACTION_MARKERS:
        raise Refused('%s: a marker of the type %d, which is none of a replicated subscription or a transaction' % (headers.where, kind))
    if payload is None:
        raise Refused('%s: a marker without its payload' % headers.where)
    return markers.read_marker(kind, payload)


def read_transaction(headers):
    """The transaction that an entry is of, as its two numbers and what became of it; None where it is of none."""
    most = headers.get('txnid-most-bits')
    if most is None:
        return None
    return '%s:%s%s' % (most, headers.get('txnid-least-bits', '?'), ', aborted' if headers.get('txn-aborted') == 'true' else '')


def read_entry(line, cluster, where):
    """The entry of a line of entries.jsonl; what can't be judged is refused."""
    if not isinstance(line, dict):
        raise Refused('%s: no entry' % where)
    headers = Headers(line.get('headers'), where)
    place = position(headers.get('message-id'), where)
    if headers.get('num-chunks-from-msg') is not None or headers.get('chunk-id') is not None:
        raise Refused('%s: the entry at %s is a chunk of a message: chunks are not judged' % (where, shown(place)))
    payload, digest = read_payload(line, where)
    producer, sequence = headers.text('producer-name'), headers.number('sequence-id')
    batch = headers.number('num-batch-message', 1)
    if not 1 <= batch <= MOST_BATCH:
        raise Refused('%s: the entry at %s is a batch of %d messages' % (where, shown(place), batch))
    return Entry(place, Identity(headers.optional('replicated-from') or cluster, producer, sequence), read_targets(headers),
                 read_kind(headers, producer, payload), headers.optional('partition-key'), digest, batch,
                 headers.number('highest-sequence-id', sequence), read_transaction(headers), where)
