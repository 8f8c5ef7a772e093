"""Makes random scripts of the whole machine: every kind of event, with losses, halts, restarts, seeks, keys, lists and moves.

A number and a kind give one script, on every machine the same. Some things go on at once in it, each a few events long: a client
connects, a line is done, a session begins, entries are carried, a snapshot is taken, messages are offered; between them trouble comes,
and single events that nobody expects. KIND says what a script is rich in:

  all        everything, on up to four clusters and two topics    seeks      seeks of subscriptions
  failover   consumers that move, snapshots, updates              selective  lists of clusters
  halts      stops between two durable writes                     sessions   resets, lost and repeated packets
  keys       Shared and Key_Shared subscriptions with keys        settle     settling, and stops of everything
  path       one producer, lost sessions, duplicates              snaps      snapshots on two to four clusters
  restarts   restarts and stops of everything                     subs       subscriptions of all types that come and go

usage: geo_tools random NUMBER KIND            prints the script
       geo_tools random compare FOLDER FIRST COUNT [--program FILE] [KIND ..]
           writes COUNT scripts from the number FIRST on, of each kind named or of all, to FOLDER, with the program's report beside each,
           and has the definitions compute them (geo_tools definitions check), whose status it ends with. FILE is a built geo to run in
           place of .built/geo
"""
import argparse
import os
import sys
import zlib

from ..program import Failed, Program
from . import definitions, guesses

MASK = (1 << 64) - 1
# how many in a hundred of the events that are likely to do nothing are kept
IN_VAIN = 4


class Numbers:
    """SplitMix64, so that a number gives the same script with every version of Python."""

    def __init__(self, seed):
        self.state = seed & MASK

    def next(self):
        self.state = (self.state + 0x9E3779B97F4A7C15) & MASK
        mixed = self.state
        mixed = ((mixed ^ (mixed >> 30)) * 0xBF58476D1CE4E5B9) & MASK
        mixed = ((mixed ^ (mixed >> 27)) * 0x94D049BB133111EB) & MASK
        return mixed ^ (mixed >> 31)

    def below(self, bound):
        return self.next() % bound

    def between(self, low, high):
        return low + self.below(high - low + 1)

    def chance(self, percent):
        return self.below(100) < percent

    def pick(self, items):
        return items[self.below(len(items))]

    def weighted(self, weights):
        """A key of a table, as often as its weight says."""
        at = self.below(sum(weights.values()))
        for name, weight in weights.items():
            if at < weight:
                return name
            at -= weight
        raise AssertionError('no weight is left')


# how often each kind of action is begun, where a kind says nothing else
USUAL = {'connect': 10, 'work': 40, 'session': 8, 'carry': 30, 'snapshot': 3, 'consume': 20, 'drop': 2, 'restart': 1, 'halt': 2, 'seek': 1,
         'settle': 0, 'stop': 0, 'noise': 4}


class Kind:
    """What the scripts of a kind have: ranges of counts, chances in percent, and weights of actions that differ from the usual ones."""

    def __init__(self, clusters=(2, 3), topics=(1, 1), clients=(2, 5), actions=(40, 80), lists=10, keys=30, moves=20, replicated=60, unsound=8,
                 types=('exclusive', 'exclusive', 'failover', 'shared', 'keyshared'), **weights):
        self.clusters, self.topics, self.clients, self.actions = clusters, topics, clients, actions
        self.lists, self.keys, self.moves, self.replicated, self.unsound, self.types = lists, keys, moves, replicated, unsound, types
        self.weights = dict(USUAL, **weights)


KINDS = {
    'all': Kind((2, 4), (1, 2), (3, 7), (60, 120), lists=20, restart=2, halt=4, seek=2, settle=1, stop=1, noise=8),
    'failover': Kind((2, 3), clients=(2, 4), moves=90, replicated=95, keys=0, lists=0, snapshot=8, consume=30, types=('exclusive', 'failover')),
    'halts': Kind(halt=20, snapshot=5, replicated=80),
    'keys': Kind(keys=85, replicated=40, types=('shared', 'keyshared', 'keyshared'), consume=30, moves=5),
    'path': Kind((2, 2), clients=(1, 2), actions=(40, 80), moves=0, connect=25, drop=12, session=12, unsound=15),
    'restarts': Kind(restart=10, stop=1),
    'seeks': Kind(seek=10, snapshot=6, replicated=80),
    'selective': Kind((3, 4), lists=75, snapshot=5, replicated=85),
    'sessions': Kind((2, 4), session=25, unsound=35),
    'settle': Kind(settle=4, stop=2, snapshot=5, halt=3),
    'snaps': Kind((2, 4), snapshot=14, replicated=100, carry=40, lists=5),
    'subs': Kind(clients=(3, 6), consume=30, types=('exclusive', 'failover', 'shared', 'keyshared'), moves=40, keys=40),
}


class Client:
    """A client of a script in the making. `does` are its lines; how many are done and where it is then is a guess (guesses)."""

    def __init__(self, name, topic, cluster, produces, consumes):
        self.name, self.topic, self.cluster, self.produces, self.consumes = name, topic, cluster, produces, consumes
        self.at, self.done, self.does = cluster, 0, []


class Maker:
    """Makes one script."""

    def __init__(self, number, kind):
        self.random = Numbers(number * 0x100000001 + zlib.crc32(kind.encode()))
        self.kind = KINDS[kind]
        random = self.random
        self.clusters = list('abcd')[:random.between(*self.kind.clusters)]
        self.topics = ['t%d' % at for at in range(random.between(*self.kind.topics))]
        self.pairs = [(x, y) for x in self.clusters for y in self.clusters if x != y]
        self.clients = [self.client(at) for at in range(random.between(*self.kind.clients))]
        self.published = {topic: [] for topic in self.topics}
        self.subs = {topic: [] for topic in self.topics}
        for client in self.clients:
            if client.produces:
                self.producing(client)
        for client in self.clients:
            if client.consumes:
                self.consuming(client)
        self.guesses = guesses.Guesses(self.clusters, self.clients)

    # what is declared

    def client(self, at):
        random = self.random
        produces = at == 0 or random.chance(40)
        return Client('c%d' % at, random.pick(self.topics), random.pick(self.clusters), produces, not produces or random.chance(30))

    def to(self):
        """The TO of a message."""
        if not self.random.chance(self.kind.lists):
            return '*'
        chosen = [cluster for cluster in self.clusters if self.random.chance(45)]
        return ','.join(chosen or [self.random.pick(self.clusters)])

    def producing(self, client):
        random, seq = self.random, 0
        client.does.append('produce')
        for _ in range(random.between(2, 8)):
            key = random.pick('abcde') if random.chance(self.kind.keys) else '-'
            client.does.append('pub %d %s %s m%d' % (seq, self.to(), key, random.below(100)))
            self.published[client.topic].append((client.cluster, client.name, seq))
            # now and then a number that was used, which is a duplicate
            seq += 0 if random.chance(self.kind.unsound) else random.between(1, 2)
        if random.chance(15):
            client.does += ['closep', 'produce']

    def consuming(self, client):
        random = self.random
        for _ in range(random.between(1, 2)):
            sub = random.pick(['s', 's', 'u'])
            if sub not in self.subs[client.topic]:
                self.subs[client.topic].append(sub)
            client.does.append('sub %s %s %s %s' % (sub, random.pick(self.kind.types), 'latest' if random.chance(15) else 'earliest',
                                                    'replicated' if random.chance(self.kind.replicated) else 'local'))
            client.does.append('flow %d' % random.pick([1, 2, 3, 10, 10]))
            client.does += [self.acknowledging(client) for _ in range(random.between(1, 4))]
            if not client.produces and random.chance(self.kind.moves):
                client.does.append('move ' + random.pick(self.clusters))
                client.does += ['ackall'] * random.between(1, 2)
            if random.chance(12):
                client.does.append(random.pick(['close', 'unsub', 'ping']))

    def acknowledging(self, client):
        known = self.published[client.topic][:3]
        if known and self.random.chance(35):
            return '%s %s %s %d' % ((self.random.pick(['ack', 'ack', 'ackto']),) + self.random.pick(known))
        return 'ackall'

    # what happens: each action is the list of its events

    def fate(self):
        if not self.random.chance(self.kind.unsound):
            return 'good'
        return self.random.pick(['lost', 'twice'])

    def connect(self):
        client = self.random.pick(self.clients)
        count = self.random.between(2, 6)
        return ['reconnect ' + client.name] + ['serve %s %s' % (client.at, client.name)] * count + ['get ' + client.name] * count

    def work(self):
        """A client's next lines, their serving, and now and then what comes back."""
        client, events = self.random.pick([client for client in self.clients if client.done < len(client.does)] or self.clients), []
        for _ in range(self.random.between(1, 3)):
            events += ['go ' + client.name] + ['serve %s %s' % (cluster, client.name) for cluster in self.clusters]
            events += ['get ' + client.name] * self.random.below(3)
        return events

    def session(self):
        where = '%s %s %s' % ((self.random.pick(self.topics),) + self.random.pick(self.pairs))
        return ['reset ' + where, 'take %s %s' % (where, self.fate()), 'receipt %s %s' % (where, self.fate())]

    def carried(self, where, count):
        """So many entries read and taken over, and most of the receipts."""
        events = []
        for _ in range(count):
            events += ['read ' + where, 'take %s %s' % (where, self.fate())]
            if not self.random.chance(self.kind.unsound):
                events.append('receipt %s %s' % (where, self.fate()))
        return events

    def opened(self, topic, x, y):
        """A session where none is likely to be open."""
        link, where = (topic, x, y), '%s %s %s' % (topic, x, y)
        if self.guesses.is_open(link):
            return []
        return ['reset ' + where, 'take %s good' % where, 'receipt %s good' % where]

    def carry(self):
        link = (self.random.pick(self.topics),) + self.random.pick(self.pairs)
        begin = self.opened(*link) if self.random.chance(50) else []
        return begin + self.carried('%s %s %s' % link, self.random.between(1, 6))

    def snapshot(self):
        """A request, and what brings it and its answers about; then the next entries of a subscription."""
        topic, x = self.random.pick(self.topics), self.random.pick(self.clusters)
        events = ['snap %s %s' % (topic, x)]
        for y in self.clusters:
            if y != x:
                events += self.opened(topic, x, y) + self.opened(topic, y, x)
        for _ in range(1 if len(self.clusters) == 2 else 2):
            for y in self.clusters:
                if y != x:
                    events += self.carried('%s %s %s' % (topic, x, y), 10) + self.carried('%s %s %s' % (topic, y, x), 10)
            events += ['read %s %s %s' % (topic, x, y) for y in self.clusters if y != x] * 6
        return events + (['offer %s %s %s' % (topic, x, self.random.pick(self.subs[topic]))] * 8 if self.subs[topic] else [])

    def consume(self):
        takers = [client for client in self.clients if client.consumes]
        if not takers:
            return self.noise()
        taker = self.random.pick(takers)
        subs = [line.split(' ')[1] for line in taker.does[:taker.done] if line.startswith('sub ')] or self.subs[taker.topic]
        events = ['offer %s %s %s' % (taker.topic, taker.at, subs[-1])] * self.random.between(3, 10)
        events += ['get ' + taker.name] * self.random.between(1, 10) + ['go ' + taker.name] * 2
        return events + ['serve %s %s' % (cluster, taker.name) for cluster in self.clusters] * 2

    def drop(self):
        client = self.random.pick(self.clients)
        return ['drop %s %s' % (client.at, client.name)] + (['reconnect ' + client.name] if self.random.chance(60) else [])

    def restart(self):
        return ['restart %s %s' % (self.random.pick(self.topics), self.random.pick(self.clusters))]

    def halt(self):
        """A stop inside an event that is likely to do something."""
        event = self.random.pick(self.carry() + self.snapshot()[:1] + self.consume() + self.work() + self.session())
        if event.split(' ')[0] in ('go', 'get', 'reconnect'):
            event = self.random.pick(self.carry())
        return ['halt %d %s' % (self.random.pick([0, 1, 1, 2, 3]), event)] + self.session()

    def seek(self):
        topic = self.random.pick(self.topics)
        if not self.subs[topic]:
            return self.noise()
        to = 'end' if self.random.chance(25) else '%d:%d' % (self.random.pick([0, 0, 0, 1]), self.random.below(6))
        return ['seek %s %s %s %s' % (topic, self.random.pick(self.clusters), self.random.pick(self.subs[topic]), to)] + self.connect()

    def settle(self):
        return ['settle']

    def stop(self):
        return ['stop'] + (self.connect() if self.random.chance(70) else [])

    def noise(self):
        """One event that nobody expects."""
        random = self.random
        topic, (x, y), client = random.pick(self.topics), random.pick(self.pairs), random.pick(self.clients)
        return [random.pick(['go ' + client.name, 'get ' + client.name, 'reconnect ' + client.name, 'serve %s %s' % (x, client.name),
                             'drop %s %s' % (x, client.name), 'reset %s %s %s' % (topic, x, y), 'read %s %s %s' % (topic, x, y),
                             'take %s %s %s %s' % (topic, x, y, self.fate()), 'receipt %s %s %s %s' % (topic, x, y, self.fate()),
                             'snap %s %s' % (topic, x)])]

    def beginning(self):
        """All clients connect and most sessions begin, so that what comes is not in vain."""
        running = [['reconnect ' + client.name, 'serve %s %s' % (client.at, client.name), 'get ' + client.name] for client in self.clients]
        for topic in self.topics:
            for x, y in self.pairs:
                where = '%s %s %s' % (topic, x, y)
                if self.random.chance(85):
                    running.append(['reset ' + where, 'take %s good' % where, 'receipt %s good' % where])
        return running

    def events(self):
        """The schedule: some actions go on at once, and each time one of them does its next event."""
        random, running = self.random, self.beginning()
        left = random.between(*self.kind.actions)
        while running or left:
            while left and len(running) < 3:
                running.append(list(getattr(self, random.weighted(self.kind.weights))()))
                left -= 1
            chosen = running[random.below(min(len(running), 3))]
            event = chosen.pop(0)
            if not chosen:
                running = [action for action in running if action is not chosen]
            if self.guesses.does(event.split(' ')) or random.chance(IN_VAIN):
                yield event
        if random.chance(30) and self.kind.weights['settle']:
            yield 'settle'

    def lines(self):
        """The script."""
        yield 'geo 1'
        if self.random.chance(40):
            yield 'ledger %d' % self.random.between(1, 4)
        yield from ('cluster ' + cluster for cluster in self.clusters)
        yield from ('topic ' + topic for topic in self.topics)
        yield from ('client %s %s %s' % (client.name, client.topic, client.cluster) for client in self.clients)
        yield from ('do %s %s' % (client.name, line) for client in self.clients for line in client.does)
        yield from self.events()


def script(number, kind):
    return '\n'.join(Maker(number, kind).lines()) + '\n'


def compare(folder, first, count, kinds, program):
    """Writes scripts with the program's reports, and has the definitions compute them; gives the status of that."""
    os.makedirs(folder, exist_ok=True)
    texts = {os.path.join(folder, '%s_%d' % (kind, number)): script(number, kind) for kind in kinds for number in range(first, first + count)}
    reports = program.reports([text.encode('ascii') for text in texts.values()])
    for (path, text), report in zip(texts.items(), reports):
        for ending, content in (('.geo', text), ('.report', report.text)):
            with open(path + ending, 'w', encoding='ascii') as file:
                file.write(content)
    return definitions.check([path + '.geo' for path in texts])


def comparing(words):
    """The words behind `compare`."""
    parser = argparse.ArgumentParser(prog='geo_tools random compare')
    parser.add_argument('folder', metavar='FOLDER')
    parser.add_argument('first', metavar='FIRST', type=int)
    parser.add_argument('count', metavar='COUNT', type=int)
    parser.add_argument('kinds', metavar='KIND', nargs='*', help='one of ' + ', '.join(KINDS))
    parser.add_argument('--program', metavar='FILE')
    told = parser.parse_args(words)
    if any(kind not in KINDS for kind in told.kinds):
        parser.error('a KIND is one of ' + ', '.join(KINDS))
    try:
        return compare(told.folder, told.first, told.count, told.kinds or list(KINDS), Program(told.program))
    except Failed as failed:
        print(failed, file=sys.stderr)
        return failed.status


def main(words):
    if len(words) == 2 and words[0].isdigit() and words[1] in KINDS:
        sys.stdout.write(script(int(words[0]), words[1]))
    elif words[:1] == ['compare']:
        return comparing(words[1:])
    elif words in (['-h'], ['--help']):
        print(__doc__)
    else:
        print(__doc__, file=sys.stderr)
        return 2
    return 0
