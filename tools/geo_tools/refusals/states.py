"""Of a state file: where its events begin, what it declares, and which item stands at an offset (docs/STATE.md)."""
import struct

MAGIC = b'GEOSTATE'
FRONT = len(MAGIC) + 4 + 8
# the items of a list that are looked at; a broken count says any number
MOST_ITEMS = 1 << 22


class Ended(Exception):
    """The bytes end within an item."""


class Items:
    """Walks over a state file and notes each item's offset with what it is."""

    def __init__(self, raw):
        self.raw, self.at, self.found = raw, 0, []
        try:
            self._read()
        except Ended:
            pass

    def _take(self, label, size):
        self.found.append((self.at, label))
        if self.at + size > len(self.raw):
            raise Ended
        some = self.raw[self.at:self.at + size]
        self.at += size
        return some

    def _number(self, label):
        return struct.unpack('>Q', self._take(label, 8))[0]

    def _text(self, label):
        """Its length and its bytes are one item."""
        begin = self.at
        size = struct.unpack('>I', self._take(label, 4))[0]
        if self.at + size > len(self.raw):
            raise Ended
        self.at = begin + 4 + size
        return self.raw[begin + 4:self.at]

    def _many(self, label, one):
        count = self._number('the number of ' + label)
        for number in range(1, min(count, MOST_ITEMS) + 1):
            one('%s %d' % (label.rstrip('s') if not label.endswith('entries') else label[:-3] + 'y', number))

    def _ranges(self, label):
        def one(name):
            self._number('the first index of %s' % name)
            self._number('the last index of %s' % name)
        self._many(label, one)

    def _read(self):
        self._take('the magic bytes', len(MAGIC))
        version = struct.unpack('>I', self._take('the version', 4))[0]
        self._number("the body's length")
        size = self._number("the declarations' length")
        script = self._take('the declarations', size).decode('latin-1')
        declared = [line.split(' ') for line in script.split('\n')]
        clusters = [words[1] for words in declared if words[0] == 'cluster' and len(words) > 1]
        topics = [words[1] for words in declared if words[0] == 'topic' and len(words) > 1]
        clients = [words[1] for words in declared if words[0] == 'client' and len(words) > 1]
        for what in ('events', 'idle events', 'rounds', 'bytes of frames'):
            self._number('the number of ' + what)
        for topic in topics:
            for cluster in clusters:
                self._node('of %s at %s' % (topic, cluster), [it for it in clusters if it != cluster], version)
        for client in clients:
            self._client(client)
        self.found.append((self.at, 'the end of the body'))

    def _node(self, where, others, version):
        self._many('ledgers', lambda name: self._number('the length of %s %s' % (name, where)))

        def entry(name):
            self._text('the metadata of %s %s' % (name, where))
            self._text('the payload of %s %s' % (name, where))
        self._many('entries', entry)

        def subscription(name):
            own = self._text('the name of %s %s' % (name, where)).decode('latin-1')
            of = 'of subscription %s, %s' % (own, where)
            self._take('the type ' + of, 1)
            self._take('the byte on replication ' + of, 1)
            self._ranges('ranges ' + of)
            if version != 1:
                self._number('the number of seeks ' + of)
        self._many('subscriptions', subscription)
        for other in others:
            self._number('the session of the replicator to %s, %s' % (other, where))
            self._ranges('ranges of the replicator to %s, %s' % (other, where))

    def _client(self, client):
        of = 'of client ' + client
        for what in ('cluster', 'connection', 'number of lines done', 'produce line in force', 'sub line in force', 'flow line in force'):
            self._number('the %s %s' % (what, of))
        self._many('publishes without a receipt ' + of, lambda name: self._number('the line of ' + name))
        for what in ('receipts', 'duplicates', 'errors'):
            self._number('the number of %s %s' % (what, of))

        def got(name):
            self._number('the origin of %s' % name)
            self._text('the producer of %s' % name)
            self._number('the sequence id of %s' % name)
        self._many('messages got ' + of, got)

    def item(self, offset):
        """What begins at the offset; the last that begins before it where none does; None before the first."""
        before = [label for at, label in self.found if at <= offset]
        return before[-1] if before else None


def is_state(raw):
    return raw.startswith(MAGIC)


def split(raw):
    """The declarations of a state, and what stands behind its last byte; None where the bytes are no state."""
    if not is_state(raw) or len(raw) < FRONT + 8:
        return None
    length = struct.unpack('>Q', raw[len(MAGIC) + 4:FRONT])[0]
    size = struct.unpack('>Q', raw[FRONT:FRONT + 8])[0]
    return raw[FRONT + 8:FRONT + 8 + size], raw[FRONT + length:]
