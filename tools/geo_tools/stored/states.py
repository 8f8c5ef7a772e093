"""Writes state files by the rules of their form (docs/STATE.md), and says what `geo resume` answers to broken ones.

It is a writer of its own: what it writes of a state that stands here in words is compared with what the program saves, and what the
program answers to its files with what the rules say. The program's own output is never read.

usage: geo_tools states items       prints the items of the rich state below, with their offsets
       geo_tools states cases       prints the table of broken files: rule, offset, what is broken
       geo_tools states changed     prints a section of geo_examples for each byte of both states that is changed in three ways
"""
import os
import struct
import sys

from ..program import ROOT

MAGIC, VERSION, FRONT = b'GEOSTATE', 2, 20


class Items:
    """The items of a file in order, each with a label."""

    def __init__(self):
        self.list = []

    def number(self, label, n):
        self.list.append((label, struct.pack('>Q', n)))

    def word(self, label, n):
        self.list.append((label, struct.pack('>I', n)))

    def byte(self, label, n):
        self.list.append((label, bytes([n])))

    def raw(self, label, some):
        self.list.append((label, some))

    def text(self, label, some):
        self.list.append((label, struct.pack('>I', len(some)) + some))

    def many(self, label, values, one):
        """How many, and each of them under its number."""
        self.number(label, len(values))
        for k, value in enumerate(values):
            one('%s %d' % (label, k), value)

    def ranges(self, label, pairs):
        self.many(label, pairs, lambda name, pair: (self.number(name + ' first', pair[0]), self.number(name + ' last', pair[1])))


# ---- protobuf, as far as it is needed
def varint(n):
    out = b''
    while n > 127:
        out, n = out + bytes([n & 127 | 128]), n >> 7
    return out + bytes([n])


def field(number, value):
    if isinstance(value, int):
        return varint(number << 3) + varint(value)
    return varint(number << 3 | 2) + varint(len(value)) + value


def metadata(producer, seq, origin=None, marker=None):
    """MessageMetadata: producer_name 1, sequence_id 2, publish_time 3, replicated_from 5, marker_type 20."""
    return (field(1, producer) + field(2, seq) + field(3, 0) + (field(5, origin) if origin else b'')
            + (field(20, marker) if marker is not None else b''))


def message(producer, seq, text, origin=None):
    return metadata(producer, seq, origin), text


def request(seq, snapshot, source):
    """An own ReplicatedSubscriptionsSnapshotRequest: marker type 10, snapshot_id 1, source_cluster 2."""
    return metadata(b'pulsar.marker', seq, None, 10), field(1, snapshot) + field(2, source)


# ---- states
class State:
    """A state in words; `change` of a label replaces the bytes of an item, and `version` what the file says it is."""

    def __init__(self, declarations, counts, nodes, clients):
        self.declarations, self.counts, self.nodes, self.clients = declarations, counts, nodes, clients

    def body(self, version=VERSION):
        out = Items()
        out.number('declarations', len(self.declarations))
        out.raw('script', self.declarations)
        for name, count in zip(('events', 'idle', 'rounds', 'frame bytes'), self.counts):
            out.number(name, count)
        for name, node in self.nodes:
            out.many(name + ' ledger', node['ledgers'], out.number)
            out.many(name + ' entry', node['entries'], lambda label, entry: (out.text(label + ' metadata', entry[0]), out.text(label + ' payload', entry[1])))
            out.many(name + ' sub', node['subs'], lambda label, sub: self.sub(out, label, sub, version))
            for other, (session, ranges) in node['senders']:
                out.number('%s sender %s session' % (name, other), session)
                out.ranges('%s sender %s range' % (name, other), ranges)
        for name, client in self.clients:
            for part in ('cluster', 'connection', 'done', 'produce', 'sub', 'flow'):
                out.number('%s %s' % (name, part), client[part])
            out.many(name + ' unanswered', client['unanswered'], out.number)
            for part in ('receipts', 'duplicates', 'errors'):
                out.number('%s %s' % (name, part), client[part])
            out.many(name + ' got', client['got'], lambda label, got: (out.number(label + ' origin', got[0]), out.text(label + ' producer', got[1]), out.number(label + ' seq', got[2])))
        return out.list

    @staticmethod
    def sub(out, label, sub, version):
        out.text(label + ' name', sub['name'])
        out.byte(label + ' kind', sub['kind'])
        out.byte(label + ' flag', sub['replicated'])
        out.ranges(label + ' range', sub['ranges'])
        if version > 1:
            out.number(label + ' seeks', sub['seeks'])

    def items(self, version=VERSION, length=None):
        body = self.body(version)
        size = sum(len(some) for _, some in body) if length is None else length
        return [('magic', MAGIC), ('version', struct.pack('>I', version)), ('length', struct.pack('>Q', size))] + body

    def file(self, version=VERSION):
        return b''.join(some for _, some in self.items(version))

    def offset(self, label, version=VERSION):
        at = 0
        for name, some in self.items(version):
            if name == label:
                return at
            at += len(some)
        sys.exit('no item %s' % label)

    def changed(self, changes, length=None):
        """The file with other bytes for some items. The body's length is that of the new body, if no other is said."""
        items = [(name, changes.get(name, some)) for name, some in self.items()]
        unknown = set(changes) - {name for name, _ in items}
        if unknown:
            sys.exit('no item %s' % ', '.join(unknown))
        if 'length' not in changes:
            size = sum(len(some) for _, some in items[3:]) if length is None else length
            items[2] = ('length', struct.pack('>Q', size))
        return b''.join(some for _, some in items)


def script(name):
    with open(os.path.join(ROOT, 'states', name + '.geo'), 'rb') as file:
        return [line for line in file.read().split(b'\n') if line and not line.startswith(b'#')]


def declarations(name):
    """What a script declares, one line behind the other; its lines stand in the canonical order."""
    words = (b'geo', b'ledger', b'chance', b'cluster', b'topic', b'client', b'do')
    return b''.join(line + b'\n' for line in script(name) if line.split(b' ')[0] in words)


# one_message behind 13 of its events and a stop: a has stored the message, and read it for b; p has its receipt. Each topic has a
# new ledger. The frames' bytes are those of states/saved_in_the_midst.bytes.
def saved_in_the_midst():
    with open(os.path.join(ROOT, 'states', 'saved_in_the_midst.bytes')) as file:
        sent = int(file.read())
    return State(
        declarations('saved_in_the_midst'), (14, 0, 0, sent),
        [('a', {'ledgers': [1, 0], 'entries': [message(b'p', 0, b'hi')], 'subs': [], 'senders': [('b', (1, []))]}),
         ('b', {'ledgers': [0, 0], 'entries': [], 'subs': [], 'senders': [('a', (0, []))]})],
        [('p', {'cluster': 0, 'connection': 1, 'done': 2, 'produce': 1, 'sub': 0, 'flow': 0, 'unanswered': [], 'receipts': 1, 'duplicates': 0, 'errors': 0, 'got': []})])


RICH_DECLARATIONS = (b'geo 1\nledger 3\nchance 7 1 2 3\ncluster a\ncluster b\ntopic t\nclient p t a\nclient c t b\n'
                     b'do p produce\ndo p pub 0 * - m0\ndo p pub 1 b k m1\ndo p pub 2 * - m2\ndo p pub 3 * - m3\n'
                     b'do c sub s shared earliest replicated\ndo c flow 10\ndo c ackall\n')


# a state with something of each kind: messages of both clusters, an own marker, holes in ranges, a subscription that was sought, a
# publish without its receipt. No run of its script comes to it.
def rich():
    return State(
        RICH_DECLARATIONS, (40, 3, 2, 5000),
        [('a', {'ledgers': [3, 1, 0],
                'entries': [message(b'p', 0, b'm0'), message(b'p', 2, b'm2'), request(0, b'a:0:2', b'a'), message(b'x', 5, b'from b', b'b')],
                'subs': [{'name': b's', 'kind': 1, 'replicated': 1, 'ranges': [(0, 0), (2, 3)], 'seeks': 2},
                         {'name': b'u', 'kind': 3, 'replicated': 0, 'ranges': [], 'seeks': 0}],
                'senders': [('b', (4, [(0, 1)]))]}),
         ('b', {'ledgers': [0, 2],
                'entries': [message(b'p', 0, b'm0', b'a'), message(b'x', 5, b'from b')],
                'subs': [{'name': b's', 'kind': 0, 'replicated': 1, 'ranges': [(1, 1)], 'seeks': 0}],
                'senders': [('a', (1, [(1, 1)]))]})],
        [('p', {'cluster': 0, 'connection': 2, 'done': 5, 'produce': 1, 'sub': 0, 'flow': 0, 'unanswered': [3, 4], 'receipts': 2, 'duplicates': 1, 'errors': 0, 'got': []}),
         ('c', {'cluster': 1, 'connection': 1, 'done': 2, 'produce': 0, 'sub': 1, 'flow': 2, 'unanswered': [], 'receipts': 0, 'duplicates': 0, 'errors': 4,
                'got': [(0, b'p', 0), (1, 'é'.encode(), 7)]})])


PUBLISHED_DECLARATIONS = (b'geo 1\ncluster a\ncluster b\ntopic t\nclient p t a\ndo p produce\ndo p pub 0 * - hi\n'
                          b'do p sub s exclusive earliest local\ndo p flow 5\n')


# a smaller one, whose ledgers have the usual number of entries: a message was published, and a subscription has it acknowledged
def published(entries=None):
    entries = entries or [message(b'p', 0, b'hi')]
    return State(
        PUBLISHED_DECLARATIONS, (5, 1, 0, 100),
        [('a', {'ledgers': [len(entries)], 'entries': entries,
                'subs': [{'name': b's', 'kind': 0, 'replicated': 0, 'ranges': [(0, 0)], 'seeks': 3}],
                'senders': [('b', (1, []))]}),
         ('b', {'ledgers': [0], 'entries': [], 'subs': [], 'senders': [('a', (0, []))]})],
        [('p', {'cluster': 0, 'connection': 1, 'done': 4, 'produce': 1, 'sub': 3, 'flow': 4, 'unanswered': [], 'receipts': 1, 'duplicates': 0, 'errors': 0, 'got': [(0, b'p', 0)]})])


# its report, by the lines of docs/REPORT.md: a position counts through the ledgers, a mark is the first index that is not
# acknowledged, a backlog has the messages that are not. A byte outside 20 to 7E prints as ?.
RICH_REPORT = b'''events 40 idle 3 rounds 2
topic t at a
entry 0:0 a p 0 * data - m0
entry 0:1 a p 2 * data - m2
entry 0:2 a pulsar.marker 0 * request a:0:2 a
entry 1:0 b x 5 * data - from b
sender b session 4 closed mark 2
sub s shared replicated mark 1 backlog 1 seeks 2
sub u keyshared local mark 0 backlog 3
topic t at b
entry 1:0 a p 0 * data - m0
entry 1:1 b x 5 * data - from b
sender a session 1 closed mark 0
sub s exclusive replicated mark 0 backlog 1
client p at a lines 5/5 receipts 2 duplicates 1 errors 0
client c at b lines 2/3 receipts 0 duplicates 0 errors 4
got a p 0
got b ?? 7
'''


def number(n):
    return struct.pack('>Q', n)


def text(some):
    return struct.pack('>I', len(some)) + some


MANY = 1 << 32

# what is broken: a name, the rule, the item that is blamed, and the new bytes of items
BROKEN = [
    ('magic', 2, 'magic', {'magic': b'GEOSTATF'}),
    ('declarations longer than the body', 1, 'script', {'declarations': number(1 << 20)}),
    ('declarations that are no script', 3, 'script', {'script': RICH_DECLARATIONS.replace(b'topic t\n', b'topik t\n')}),
    ('declarations with an event', 3, 'script', {'script': RICH_DECLARATIONS + b'settle\n', 'declarations': number(len(RICH_DECLARATIONS) + 7)}),
    ('declarations in another order', 3, 'script', {'script': RICH_DECLARATIONS.replace(b'ledger 3\nchance 7 1 2 3\n', b'chance 7 1 2 3\nledger 3\n')}),
    ('declarations that say the default', 3, 'script', {'script': RICH_DECLARATIONS.replace(b'ledger 3', b'ledger 50000'), 'declarations': number(len(RICH_DECLARATIONS) + 4)}),
    ('too many events', 9, 'events', {'events': number(MANY + 1)}),
    ('too many events and idle ones', 9, 'idle', {'idle': number(2000000 - 40 + 1)}),
    ('too many rounds', 9, 'rounds', {'rounds': number(MANY + 1)}),
    ('more than 1 GiB of frames', 9, 'frame bytes', {'frame bytes': number((1 << 30) + 1)}),
    ('a ledger with too many entries', 6, 'a ledger 0', {'a ledger 0': number(4)}),
    ('lengths that do not sum', 6, 'a entry', {'a ledger 0': number(2)}),
    ('metadata without a reading', 4, 'a entry 0 metadata', {'a entry 0 metadata': text(b'\xff')}),
    ('an origin that is no cluster', 4, 'a entry 3 metadata', {'a entry 3 metadata': text(metadata(b'x', 5, b'z'))}),
    ('an entry twice', 5, 'a entry 1 metadata', {'a entry 1 metadata': text(metadata(b'p', 0))}),
    ('an own marker out of turn', 5, 'a entry 2 metadata', {'a entry 2 metadata': text(metadata(b'pulsar.marker', 1, None, 10))}),
    ('a name that is none', 8, 'a sub 0 name', {'a sub 0 name': text(b'S')}),
    ('a name twice', 8, 'a sub 1 name', {'a sub 1 name': text(b's')}),
    ('too many subscriptions', 8, 'a sub', {'a sub': number(33)}),
    ('a kind above 3', 8, 'a sub 1 kind', {'a sub 1 kind': b'\x04'}),
    ('a flag above 1', 8, 'a sub 0 flag', {'a sub 0 flag': b'\x02'}),
    ('a range that goes down', 7, 'a sub 0 range 1 last', {'a sub 0 range 1 last': number(1)}),
    ('ranges without a gap', 7, 'a sub 0 range 1 first', {'a sub 0 range 1 first': number(1)}),
    ('a range past the entries', 7, 'a sub 0 range 1 last', {'a sub 0 range 1 last': number(4)}),
    ('too many seeks', 9, 'a sub 0 seeks', {'a sub 0 seeks': number(MANY + 1)}),
    ('a session above 2^32', 9, 'a sender b session', {'a sender b session': number(MANY + 1)}),
    ('a sender past the entries', 7, 'a sender b range 0 last', {'a sender b range 0 last': number(4)}),
    ('a cluster that is none', 10, 'p cluster', {'p cluster': number(2)}),
    ('a connection above 2^32', 9, 'p connection', {'p connection': number(MANY + 1)}),
    ('more lines than there are', 10, 'p done', {'p done': number(6)}),
    ('a produce line of another kind', 10, 'p produce', {'p produce': number(2)}),
    ('a produce line that is not done', 10, 'p produce', {'p done': number(0)}),
    ('a sub line of another kind', 10, 'c sub', {'c sub': number(2)}),
    ('a flow line without a sub line', 10, 'c flow', {'c sub': number(0)}),
    ('too many publishes without a receipt', 10, 'p unanswered', {'p unanswered': number(257)}),
    ('publishes without a produce line', 10, 'p unanswered', {'p produce': number(0)}),
    ('an unanswered line that is no publish', 10, 'p unanswered 0', {'p unanswered 0': number(0)}),
    ('an unanswered line that is not done', 10, 'p unanswered 1', {'p unanswered 1': number(5)}),
    ('receipts above 2^32', 9, 'p receipts', {'p receipts': number(MANY + 1)}),
    ('duplicates above 2^32', 9, 'p duplicates', {'p duplicates': number(MANY + 1)}),
    ('errors above 2^32', 9, 'c errors', {'c errors': number(MANY + 1)}),
    ('an identity of no cluster', 10, 'c got 0 origin', {'c got 0 origin': number(2)}),
    ('a producer that is no text', 10, 'c got 0 producer', {'c got 0 producer': text(b'\xff')}),
]


# of the smaller one the same way: the rule, the item that is blamed or the file's end, and the new bytes of an item
END = 'end'
PUBLISHED = [
    (2, 'magic', 'magic', b'gEOSTATE'),
    (1, 'script', 'declarations', number(1000)),
    (3, 'script', 'script', PUBLISHED_DECLARATIONS.replace(b'geo', b'Geo')),
    (9, 'events', 'events', number(MANY + 1)),
    (9, 'idle', 'events', number(2000000)),
    (9, 'rounds', 'rounds', number(MANY + 1)),
    (9, 'frame bytes', 'frame bytes', number((1 << 30) + 1)),
    (6, 'a ledger', 'a ledger', number(0)),
    (6, 'a ledger 0', 'a ledger 0', number(50001)),
    (6, 'a entry', 'a entry', number(2)),
    (4, 'a entry 0 metadata', 'a entry 0 metadata', text(b'\x00' + metadata(b'p', 0)[1:])),
    (8, 'a sub', 'a sub', number(33)),
    (8, 'a sub 0 name', 'a sub 0 name', text(b'S')),
    (8, 'a sub 0 kind', 'a sub 0 kind', b'\x04'),
    (8, 'a sub 0 flag', 'a sub 0 flag', b'\x02'),
    (7, 'a sub 0 range 0 first', 'a sub 0 range 0 first', number(1)),
    (7, 'a sub 0 range 0 last', 'a sub 0 range 0 last', number(1)),
    (9, 'a sub 0 seeks', 'a sub 0 seeks', number(MANY + 1)),
    (9, 'a sender b session', 'a sender b session', number(MANY + 1)),
    (10, 'p cluster', 'p cluster', number(2)),
    (9, 'p connection', 'p connection', number(MANY + 1)),
    (10, 'p done', 'p done', number(5)),
    (10, 'p produce', 'p produce', number(2)),
    (10, 'p sub', 'p sub', number(5)),
    (10, 'p flow', 'p sub', number(0)),
    (10, 'p flow', 'p flow', number(3)),
    (10, 'p unanswered', 'p unanswered', number(257)),
    (9, 'p receipts', 'p receipts', number(MANY + 1)),
    (9, 'p duplicates', 'p duplicates', number(MANY + 1)),
    (9, 'p errors', 'p errors', number(MANY + 1)),
    (1, END, 'p got', number(2)),
    (10, 'p got 0 origin', 'p got 0 origin', number(2)),
    (10, 'p got 0 producer', 'p got 0 producer', text(b'\xff')),
    (11, END, 'length', number(1000)),
]


def broken_published():
    """The smaller state, broken in the same way."""
    state = published()
    for k, (rule, blamed, item, some) in enumerate(PUBLISHED):
        yield 'published %d' % k, state.changed({item: some}), rule, len(state.file()) if blamed == END else state.offset(blamed)
    for k, (entries, rule) in enumerate((
            ([(metadata(b'pulsar.marker', 1), b'hi')], 5), ([message(b'p', 0, b'hi', b'z')], 4), ([message(b'p', 0, b'hi')] * 2, 5))):
        state = published(entries)
        yield 'published entries %d' % k, state.file(), rule, state.offset('a entry %d metadata' % (len(entries) - 1))


def no_ledger():
    state = rich()
    state.nodes[1][1].update({'ledgers': [], 'entries': [], 'subs': [], 'senders': [('a', (1, []))]})
    return state


def broken():
    """Broken files, each as a name, its bytes, and the rule and the offset that are told."""
    state = rich()
    for name, rule, item, changes in BROKEN:
        yield name, state.changed(changes), rule, state.offset(item)
    size = len(state.file()) - FRONT
    yield 'a body that ends within its last item', state.changed({}, size - 1), 1, state.offset('c got 1 seq')
    yield 'a body with a byte behind its last item', state.changed({}, size + 1) + b'\n', 11, FRONT + size
    yield 'a body that is longer than the bytes', state.changed({}, 1 << 40), 11, FRONT + size
    state = no_ledger()
    yield 'no ledger', state.file(), 6, state.offset('b ledger')


def versions():
    state = rich()
    for version in (0, 3, 9):
        yield 'version %d' % version, state.changed({'version': struct.pack('>I', version)}), version


def first_version():
    """The rich state as the first version has it, which knows no seeks, and its report."""
    return rich().file(1), RICH_REPORT.replace(b' seeks 2', b'')


def cut_answers(state):
    """What is told of the file cut before each of its bytes: rule 1, at the item in which it ends."""
    at = 0
    for _, some in state.items():
        for _ in some:
            yield b'bad state at %d rule 1\n' % at
        at += len(some)


# lines behind a state, and what is told of them
BAD_LINES = [(b'cluster a\n', b'bad script line 1 rule 6\n'), (b'# a comment\ngo r\n', b'bad script line 2 rule 15\n'), (b'settle', b'bad script line 1 rule 1\n')]


def sections(report):
    """The sections of geo_examples on state files: a name, its lines, and what is answered. `report` gives the report of a script."""
    state = saved_in_the_midst()
    lines = script('saved_in_the_midst')
    file = state.file()
    yield 'save states/saved_in_the_midst', b''.join(line + b'\n' for line in lines[:lines.index(b'stop')]), in_hex(file)
    yield 'resume states/saved_in_the_midst', in_hex(file), report('states/saved_in_the_midst')
    yield 'resume states/resumed_and_settled', in_hex(file + b'settle\n'), report('states/resumed_and_settled')
    yield 'cuts states/saved_in_the_midst', in_hex(file), b''.join(cut_answers(state))
    for k, (lines, said) in enumerate(BAD_LINES):
        yield 'resume states/bad_lines_%d' % k, in_hex(file + lines), said
    yield 'resume states/rich', in_hex(rich().file()), RICH_REPORT
    yield 'resume states/first_version', in_hex(first_version()[0]), first_version()[1]
    yield 'cuts states/rich', in_hex(rich().file()), b''.join(cut_answers(rich()))
    yield 'cuts states/published', in_hex(published().file()), b''.join(cut_answers(published()))
    for version in (1, 2):
        yield 'resume states/published_behind_version_%d' % version, in_hex(published().file(version) + b'settle'), b'bad script line 1 rule 1\n'
    for name, some, version in versions():
        yield 'resume states/%s' % name.replace(' ', '_'), in_hex(some), b'bad state version %d\n' % version
    for name, some, rule, offset in (*broken(), *broken_published()):
        yield 'resume states/%s' % name.replace(' ', '_'), in_hex(some), b'bad state at %d rule %d\n' % (offset, rule)


def in_hex(some):
    digits = some.hex()
    return b''.join(digits[k:k + 64].encode() + b'\n' for k in range(0, len(digits), 64))


def changed_bytes(state):
    """The file with each of its bytes changed, in three ways."""
    whole = state.file()
    for at, byte in enumerate(whole):
        for other in (byte ^ 1, byte ^ 255, (byte + 1) % 256):
            yield at, whole[:at] + bytes([other]) + whole[at + 1:]


def main(words):
    if words == ['items']:
        at = 0
        for name, some in rich().items():
            print('%5d %-28s %s' % (at, name, some.hex() if len(some) < 40 else '%d bytes' % len(some)))
            at += len(some)
    elif words == ['cases']:
        for name, _, rule, offset in sorted(broken(), key=lambda case: (case[2], case[3])):
            print('| %d | %d | %s |' % (rule, offset, name))
    elif words == ['changed']:
        for name, state in (('midst', saved_in_the_midst()), ('rich', rich())):
            for k, (at, some) in enumerate(changed_bytes(state)):
                print('== resume %s/%d/%d' % (name, at, k % 3))
                print(some.hex())
    else:
        print(__doc__, file=sys.stderr)
        return 2
    return 0
