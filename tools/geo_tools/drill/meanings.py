"""What each line of a drill is in events: the table of docs/DRILLS.md, a function a line.

A function takes what stands behind the first word, refuses what cannot be meant, and gives the parts of the statement and what is
known of it. `must` and `tried` say how events are meant.
"""
import itertools
import re

from .expect import expectation
from .words import Refused, whole

# the form that is shown where a line is not of it
FORMS = {
    'connect': 'connect CLIENT',
    'run': "run CLIENT's next line, or run CLIENT's next N lines",
    'link': 'link [TOPIC] CLUSTER CLUSTER',
    'send': 'send [TOPIC] FROM TO',
    'deliver': 'deliver [TOPIC] FROM TO [twice | losing N | without receipts]',
    'exchange': 'exchange [TOPIC] CLUSTER CLUSTER .., or exchange [TOPIC] survivors',
    'cut': 'cut [TOPIC] CLUSTER CLUSTER',
    'partition': 'partition CLUSTER .. / CLUSTER ..',
    'heal': 'heal',
    'hold': 'hold FROM TO',
    'release': 'release FROM TO',
    'give': 'give [TOPIC] SUBSCRIPTION at CLUSTER',
    'snapshot': 'snapshot [TOPIC] [SUBSCRIPTION] at CLUSTER',
    'move': 'move CLIENT to CLUSTER planned',
    'lose': 'lose CLUSTER',
    'return': 'return CLUSTER',
    'restart': 'restart CLUSTER',
    'expect': 'expect WHAT (expect alone lists the forms)',
}


class Part:
    """Some events of a statement: done once, or tried as often as one of them does something.

    `must`: it has to do something, or the drill is refused. A raw event of a script is done as it stands, whatever it does.
    """

    def __init__(self, events, tried=False, must=False):
        self.events, self.tried, self.must = events, tried, must


class Meanings:
    """The lines. `self` is a Drill: what is declared, where clients are, which links are cut or held, which regions are lost."""

    # ---- how events are meant, and what many lines share ----

    @staticmethod
    def must(*events):
        """Events that have to do something."""
        return Part(list(events), must=True)

    @staticmethod
    def tried(*events):
        """Events that are done, one behind the other, as often as one of them does something."""
        return Part(list(events), tried=True)

    def living(self, reader):
        """Takes a cluster that is not lost."""
        at, name = reader.at, self.cluster_name(reader)
        if name in self.lost:
            reader.at = at
            raise reader.refuse('%s is lost (return %s brings it back)' % (self.own(name), self.own(name)))
        return name

    def pair(self, reader):
        """Takes two clusters that are not lost."""
        x, at = self.living(reader), reader.at
        y = self.living(reader)
        if x == y:
            reader.at = at
            raise reader.refuse('%s is named twice' % self.own(y))
        return x, y

    def may_pass(self, reader, topics, x, y):
        """Refuses a link that is cut."""
        for topic in topics:
            if (topic, frozenset((x, y))) in self.cuts:
                raise whole('the link between %s and %s is cut (link %s %s mends it)' % ((self.own(x), self.own(y)) * 2), reader.text)

    def may_settle(self, reader):
        """Refuses to settle where that would reach what is lost, cut or held."""
        why = None
        if self.lost:
            why = 'reach %s, which is lost' % self.own(min(self.lost))
        elif self.cuts:
            pair = min(self.cuts, key=lambda cut: (cut[0], sorted(cut[1])))[1]
            why = 'pass the link between %s and %s, which is cut' % tuple(map(self.own, sorted(pair)))
        elif self.holds:
            why = 'pass what is held from %s to %s' % tuple(map(self.own, min(self.holds)))
        if why:
            raise whole('it settles, which would ' + why, reader.text)

    def goes(self, client, reader):
        """Counts a `do` line of a client, and where the client is behind it."""
        lines = self.head.does[client]
        if self.done[client] == len(lines):
            raise whole('%s has %d lines, and all are done before it' % (self.own(client), len(lines)), reader.text)
        words = lines[self.done[client]].split(' ')
        self.done[client] += 1
        if words[0] == 'move' and len(words) > 1:
            self.at[client] = words[1]

    def served(self, client):
        """The broker takes all that the client sent, and the client takes the answers."""
        if self.at[client] in self.lost:
            return [self.tried('get ' + client)]
        return [self.tried('serve %s %s' % (self.at[client], client)), self.tried('get ' + client)]

    def round(self, topic, x, y, fate='good', receipts=True):
        """One entry from x to y, as far as nothing is held."""
        events = ['read %s %s %s' % (topic, x, y)]
        if (x, y) in self.holds:
            return events
        events.append('take %s %s %s %s' % (topic, x, y, fate))
        if receipts and (y, x) not in self.holds:
            # a packet that comes twice is answered twice
            events += ['receipt %s %s %s good' % (topic, x, y)] * (2 if fate == 'twice' else 1)
        return events

    def exchanged(self, reader, topics, names):
        """All that these clusters have for each other."""
        for x, y in itertools.combinations(names, 2):
            self.may_pass(reader, topics, x, y)
        pairs = [(topic, x, y) for topic in topics for x, y in itertools.permutations(names, 2)]
        return {'parts': [self.tried(*(event for pair in pairs for event in self.round(*pair)))], 'pairs': pairs}

    def linked(self, topics, x, y):
        """Both replicators between two clusters begin a session."""
        parts = []
        for topic, (a, b) in itertools.product(topics, ((x, y), (y, x))):
            self.cuts.discard((topic, frozenset((a, b))))
            parts += [self.must('reset %s %s %s' % (topic, a, b)),
                      self.tried('take %s %s %s good' % (topic, a, b), 'receipt %s %s %s good' % (topic, a, b))]
        return parts

    def parted(self, topics, x, y):
        """What is on its way between two clusters is lost."""
        parts = []
        for topic, (a, b) in itertools.product(topics, ((x, y), (y, x))):
            self.cuts.add((topic, frozenset((a, b))))
            parts += [self.tried('take %s %s %s lost' % (topic, a, b))] if b not in self.lost else []
            parts += [self.tried('receipt %s %s %s lost' % (topic, a, b))] if a not in self.lost else []
        self.holds -= {(x, y), (y, x)}
        return parts

    def sign(self, word, topics, x, y):
        """`cut east west`, or with the topic where it is not of all."""
        return [' '.join([word] + ([] if topics == self.head.topics else topics[:1]) + [x, y])]

    def given(self, topic, sub, x):
        """The dispatcher gives what it can, and the clients of the subscription that are there take it."""
        takers = [client for client in self.head.clients if self.head.topic_of[client] == topic and self.at[client] == x
                  and self.head.sub_of(client, self.done[client]) == sub]
        return [self.tried('offer %s %s %s' % (topic, x, sub))] + [self.tried('get ' + client) for client in takers]

    # ---- the lines ----

    def on_connect(self, reader):
        """The client connects; its broker takes all that it sent, and it takes all answers."""
        at, client = reader.at, self.client_name(reader)
        if self.at[client] in self.lost:
            reader.at = at
            raise reader.refuse('%s is at %s, which is lost' % (self.own(client), self.own(self.at[client])))
        return {'parts': [self.must('reconnect ' + client)] + self.served(client), 'client': client}

    def on_run(self, reader):
        """The client does its next lines, and behind each what a connect does."""
        word = reader.take('a client')
        reader.words[reader.at - 1] = word._replace(text=re.sub("'s?$", '', word.text))
        reader.at -= 1
        client = self.client_name(reader)
        reader.is_next('next')
        count = 1 if reader.peek() in (None, 'line', 'lines') else reader.number()
        if not reader.is_next('lines'):
            reader.is_next('line')
        parts = []
        for _ in range(count):
            self.goes(client, reader)
            parts += [self.must('go ' + client)] + self.served(client)
        return {'parts': parts, 'client': client}

    def on_link(self, reader):
        """Sessions begin in both directions; a link that was cut is mended."""
        topics, (x, y) = self.topics(reader), self.pair(reader)
        if {(x, y), (y, x)} & self.holds:
            raise whole('%s and %s are held apart (release them first)' % (self.own(x), self.own(y)), reader.text)
        signs = self.sign('mended', topics, x, y) if any((topic, frozenset((x, y))) in self.cuts for topic in topics) else ()
        return {'parts': self.linked(topics, x, y), 'signs': signs}

    def on_send(self, reader):
        """All that one cluster has for another is sent, and waits on its way."""
        topics, (x, y) = self.topics(reader), self.pair(reader)
        self.may_pass(reader, topics, x, y)
        return {'parts': [self.tried('read %s %s %s' % (topic, x, y)) for topic in topics], 'pairs': [(topic, x, y) for topic in topics]}

    def on_deliver(self, reader):
        """All that one cluster has for another is sent and stored, and the sender has the receipts."""
        topics, (x, y) = self.topics(reader), self.pair(reader)
        self.may_pass(reader, topics, x, y)
        if (x, y) in self.holds:
            raise whole('what %s sends to %s is held (send, or release before)' % (self.own(x), self.own(y)), reader.text)
        fate, receipts, losses = 'good', True, 0
        if reader.is_next('twice'):
            fate = 'twice'
        elif reader.is_next('without'):
            reader.one_of('receipts', 'receipts')
            receipts = False
        elif reader.is_next('losing'):
            losses = reader.number('a number of packets')
        elif reader.peek() is not None:
            raise reader.refuse('twice, losing or without receipts is expected, not ' + reader.peek(), ('twice', 'losing', 'without'))
        parts = []
        for topic in topics:
            for _ in range(losses):
                parts += self.loses(topic, x, y)
            parts.append(self.tried(*self.round(topic, x, y, fate, receipts)))
        return {'parts': parts, 'pairs': [(topic, x, y) for topic in topics]}

    def loses(self, topic, x, y):
        """The first packet of what was sent is lost, with it the session, and a new one begins."""
        way = '%s %s %s' % (topic, x, y)
        return [self.tried('read ' + way), self.must('take %s lost' % way), self.tried('take %s good' % way),
                self.must('reset ' + way), self.tried('take %s good' % way, 'receipt %s good' % way)]

    def on_exchange(self, reader):
        """All that some clusters have for each other is brought over."""
        topics = self.topics(reader)
        if reader.is_next('survivors'):
            names = [name for name in self.head.clusters if name not in self.lost]
        else:
            names = [self.living(reader), self.living(reader)]
            while reader.peek() is not None:
                names.append(self.living(reader))
        return self.exchanged(reader, topics, names)

    def on_cut(self, reader):
        """A link is cut: what is on its way is lost, and nothing passes until it is mended."""
        topics, x = self.topics(reader), self.cluster_name(reader)
        y = self.cluster_name(reader)
        return {'parts': self.parted(topics, x, y), 'signs': self.sign('cut', topics, x, y)}

    def on_partition(self, reader):
        """Each link over the slash is cut."""
        sides = [[], []]
        while reader.peek() not in ('/', None):
            sides[0].append(self.cluster_name(reader))
        reader.one_of('/', '/')
        while reader.peek() is not None or not sides[1]:
            sides[1].append(self.cluster_name(reader))
        if not sides[0] or set(sides[0]) & set(sides[1]):
            raise Refused('each cluster stands on one side', 1, reader.form, None, len(reader.text.rstrip()))
        over = list(itertools.product(*sides))
        return {'parts': [part for x, y in over for part in self.parted(self.head.topics, x, y)],
                'signs': ['cut %s %s' % pair for pair in over]}

    def on_heal(self, reader):
        """Each link that is cut, between regions that are not lost, is linked."""
        if not self.cuts:
            raise whole('no link is cut', reader.text)
        parts, signs = [], []
        for topic, pair in sorted(self.cuts, key=lambda cut: (sorted(cut[1]), cut[0])):
            if not pair & self.lost:
                parts += self.linked([topic], *sorted(pair))
                signs += self.sign('mended', [topic], *sorted(pair))
        return {'parts': parts, 'signs': signs}

    def on_hold(self, reader):
        """A slow direction: from here on what is sent waits."""
        x, y = self.pair(reader)
        self.holds.add((x, y))
        return {'signs': ['held %s %s' % (x, y)]}

    def on_release(self, reader):
        """What waited comes."""
        x, y = self.pair(reader)
        if (x, y) not in self.holds:
            raise whole('nothing is held from %s to %s (hold %s %s does it)' % ((self.own(x), self.own(y)) * 2), reader.text)
        self.holds.discard((x, y))
        return {'parts': [self.tried(event) for topic in self.head.topics
                          for event in ('take %s %s %s good' % (topic, x, y), 'receipt %s %s %s good' % (topic, y, x))],
                'signs': ['released %s %s' % (x, y)]}

    def on_give(self, reader):
        """The dispatcher gives what it can of a subscription, and its clients there take it."""
        topic, sub = self.sub_name(reader)
        reader.one_of('at', 'at')
        x = self.living(reader)
        return {'parts': self.given(topic, sub, x), 'sub': (topic, sub, x)}

    def on_snapshot(self, reader):
        """A snapshot is asked for, and all is exchanged until it ended; with a subscription, until that has passed it and its update came."""
        topic, sub = self.snapshot_of(reader)
        reader.one_of('at', 'at')
        x = self.living(reader)
        for y in self.head.clusters:
            if y in self.lost:
                raise whole('no snapshot ends while %s is lost: all clusters have to answer' % self.own(y), reader.text)
        rounds = self.exchanged(reader, [topic], self.head.clusters)['parts']
        parts = [self.must('snap %s %s' % (topic, x))] + rounds
        if sub:
            parts += self.given(topic, sub, x) + rounds
        return {'parts': parts, 'snapshot': (topic, x, sub)}

    def snapshot_of(self, reader):
        """The topic of a snapshot, and the subscription that has to pass it, if one is named."""
        if reader.peek(1) == 'at' and self.names.of.get(reader.peek()) in self.head.topics:
            return self.topic_name(reader), None
        if reader.peek() not in ('at', None):
            return self.sub_name(reader)
        if len(self.head.topics) != 1:
            raise reader.refuse('there are several topics: name one' if self.head.topics else 'no topic is declared')
        return self.head.topics[0], None

    def on_move(self, reader):
        """The safe procedure: settle, snapshot, settle, let the subscription pass it, settle, and only then move."""
        client = self.client_name(reader)
        reader.one_of('to', 'to')
        y = self.living(reader)
        reader.one_of('planned', 'planned')
        lines = self.head.does[client]
        following = lines[self.done[client]] if self.done[client] < len(lines) else 'none'
        if following != 'move ' + y:
            raise whole('the next line of %s has to be: move %s; it is: %s' % (self.own(client), self.own(y), self.owned(following)), reader.text)
        topic, x, sub = self.head.topic_of[client], self.at[client], self.head.sub_of(client, self.done[client])
        if sub is None:
            raise whole('%s has no subscription in force' % self.own(client), reader.text)
        self.may_settle(reader)
        self.goes(client, reader)
        parts = [self.must('settle'), self.must('snap %s %s' % (topic, x)), self.must('settle'), self.tried('offer %s %s %s' % (topic, x, sub)),
                 self.must('settle'), self.must('go ' + client)]
        return {'parts': parts + self.served(client), 'client': client, 'snapshot': (topic, x, sub), 'planned': True}

    def on_lose(self, reader):
        """From here on nothing happens at a region."""
        x = self.living(reader)
        self.lost.add(x)
        return {'signs': ['lost ' + x]}

    def on_return(self, reader):
        """A lost region is back: its brokers restart."""
        at, x = reader.at, self.cluster_name(reader)
        if x not in self.lost:
            reader.at = at
            raise reader.refuse('%s is not lost' % self.own(x))
        self.lost.discard(x)
        return {'parts': [self.must('restart %s %s' % (topic, x)) for topic in self.head.topics], 'signs': ['returned ' + x]}

    def on_restart(self, reader):
        """The brokers of a region restart."""
        x = self.living(reader)
        return {'parts': [self.must('restart %s %s' % (topic, x)) for topic in self.head.topics]}

    def on_expect(self, reader):
        """What has to be so."""
        return {'expects': expectation(self, reader)}
