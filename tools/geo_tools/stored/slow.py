"""Prints scripts that are slow where a broker or a client walks what it could look up, in any size, each with its report.

usage: geo_tools slow CASE SIZE ..           prints the script
       geo_tools slow report CASE SIZE ..    prints the report that the rules give
       geo_tools slow test OUT               writes each case at small sizes into OUT, NAME.geo and NAME.report

  resent RESENT MESSAGES          one producer sends RESENT messages again (at most 256), behind MESSAGES of another one
  acknowledged MESSAGES ORDER     single acknowledgements with all MESSAGES out: the first or the last one first, or mixed; upto acknowledges
                                  all up to each message in turn
  clients TOPICS CLIENTS MESSAGES MESSAGES on the last of TOPICS, each of which has CLIENTS connected clients (at most 32), each with
                                  a subscription of its own
  late ENTRIES ROUNDS             a topic of ENTRIES markers, and behind them ROUNDS of a local and a replicated message, each offered
                                  and acknowledged
  told ROUNDS                     ROUNDS of a message, a snapshot and the update that tells it, each behind all entries of the rounds before
                                  (what is slow is their trace)

What one more message costs is seen by two sizes: the time should rise as the size. What an event costs late is seen by four runs: `late E R`
should take as much longer than `late E 0` as `late 0 R` takes longer than `late 0 0`. A script stays below 2,000,000 events and 67,108,864
bytes, or it is refused. Sizes that serve:

  resent 256 20000 · acknowledged 40000 first · acknowledged 40000 last · clients 16 32 10000 · late 1000000 50000 · told 60000
"""
import os
import sys

PER_LEDGER = 50000
MOST_EVENTS, MOST_BYTES = 2000000, 67108864
STRIDE = 7919
SMALL = ['resent 2 3', 'resent 3 1', 'acknowledged 3 first', 'acknowledged 3 last', 'acknowledged 5 mixed', 'acknowledged 3 upto', 'clients 2 2 2', 'clients 1 3 1', 'late 0 2', 'late 3 2', 'told 1', 'told 3']


class Case:
    """A script and its report. Cluster a has number 0, b has 1."""

    def __init__(self, topics, clients):
        """Clients by name, with topic and cluster."""
        self.topics, self.clients = topics, clients
        self.lines = {name: [] for name in clients}
        self.got = {name: [] for name in clients}
        self.answers = {name: 'receipts 0 duplicates 0 errors 0' for name in clients}
        self.brokers = {(topic, cluster): [] for topic in topics for cluster in 'ab'}
        self.events = []

    def do(self, client, *lines):
        self.lines[client] += lines

    def say(self, *events):
        self.events += events

    def goes(self, client, count=1):
        """The client does so many lines, and its broker takes what it sends."""
        self.say(*['go %s' % client, 'serve %s %s' % (self.clients[client][1], client)] * count)

    def connects(self, client, lines):
        """The client connects and does its first lines; of the answers to CONNECT and to the first line it hears."""
        self.say('reconnect %s' % client, 'serve %s %s' % (self.clients[client][1], client))
        self.goes(client, lines)
        self.say(*['get %s' % client] * 2)

    def opens(self, topic, x, y):
        self.say('reset %s %s %s' % (topic, x, y), 'take %s %s %s good' % (topic, x, y), 'receipt %s %s %s good' % (topic, x, y))

    def replicates(self, topic, x, y):
        self.say('read %s %s %s' % (topic, x, y), 'take %s %s %s good' % (topic, x, y), 'receipt %s %s %s good' % (topic, x, y))

    def script(self):
        out = ['geo 1', 'cluster a', 'cluster b'] + ['topic ' + topic for topic in self.topics]
        out += ['client %s %s %s' % (name, *at) for name, at in self.clients.items()]
        out += ['do %s %s' % (name, line) for name in self.clients for line in self.lines[name]]
        return out + self.events

    def report(self):
        out = ['events %d idle 0 rounds 0' % len(self.events)]
        for topic in self.topics:
            for cluster in 'ab':
                out += ['topic %s at %s' % (topic, cluster)] + self.brokers[topic, cluster]
            for name, (of, at) in self.clients.items():
                if of == topic:
                    done = len(self.lines[name])
                    out += ['client %s at %s lines %d/%d %s' % (name, at, done, done, self.answers[name])]
                    out += ['got ' + ident for ident in self.got[name]]
        return out


def placed(idents, ledger=0):
    """Entry lines of messages from the start of a ledger on: origin, producer and sequence id, and the text."""
    return ['entry %d:%d %s * data - %s' % (ledger + i // PER_LEDGER, i % PER_LEDGER, ident, text)
            for i, (ident, text) in enumerate(idents)]


def place(i):
    """The position of an index, where no ledger was left before it was full."""
    return '%d:%d' % divmod(i, PER_LEDGER)


def published(cluster, client, count):
    return [('%s %s %d' % (cluster, client, i), '%s%d' % (client, i)) for i in range(count)]


def pubs(client, count):
    return ['pub %d * - %s%d' % (i, client, i) for i in range(count)]


def acks(idents, order='first'):
    """Each message by itself; mixed is an order in which the next message stands far away."""
    if order == 'upto':
        return ['ackto ' + ident for ident, _ in idents]
    if order == 'last':
        idents = idents[::-1]
    if order == 'mixed':
        assert len(idents) % STRIDE
        idents = [idents[i * STRIDE % len(idents)] for i in range(len(idents))]
    return ['ack ' + ident for ident, _ in idents]


def flow(permits):
    return 'flow %d' % max(1, permits)


def sender(cluster, session='session 0 closed', mark=0):
    return 'sender %s %s mark %d' % (cluster, session, mark)


def resent(again, messages):
    assert 1 <= int(again) <= 256
    again, messages = int(again), int(messages)
    case = Case(['t'], {'p': ('t', 'a'), 'q': ('t', 'a')})
    case.do('p', 'produce', *pubs('p', again))
    case.do('q', 'produce', *pubs('q', messages))
    case.say('reconnect p', 'serve a p')
    case.goes('p', 1 + again)
    case.connects('q', 1)
    for _ in range(messages):
        case.goes('q')
        case.say('get q')
    # CONNECT, PRODUCER and each SEND; the answers of the first connection, which are discarded, and of the second
    case.say('reconnect p', *['serve a p'] * (2 + again), *['get p'] * (2 * (2 + again)))
    case.brokers['t', 'a'] = placed(published('a', 'p', again) + published('a', 'q', messages)) + [sender('b')]
    case.brokers['t', 'b'] = [sender('a')]
    case.answers['p'] = 'receipts 0 duplicates %d errors 0' % again
    case.answers['q'] = 'receipts %d duplicates 0 errors 0' % messages
    return case


def acknowledged(messages, order):
    assert order in ('first', 'last', 'mixed', 'upto')
    messages = int(messages)
    idents = published('a', 'p', messages)
    case = Case(['t'], {'p': ('t', 'a'), 'c': ('t', 'a')})
    case.do('p', 'produce', *pubs('p', messages))
    case.do('c', 'sub s exclusive earliest local', flow(messages), *acks(idents, order))
    case.connects('p', 1)
    case.connects('c', 2)
    for _ in range(messages):
        case.goes('p')
        case.say('get p')
    case.say(*['offer t a s'] * messages, *['get c'] * messages)
    case.goes('c', messages)
    case.brokers['t', 'a'] = placed(idents) + [sender('b'), 'sub s exclusive local mark %d backlog 0' % messages]
    case.brokers['t', 'b'] = [sender('a')]
    case.answers['p'] = 'receipts %d duplicates 0 errors 0' % messages
    case.got['c'] = [ident for ident, _ in idents]
    return case


def clients(topics, of_each, messages):
    assert 1 <= int(topics) <= 16 and 1 <= int(of_each) <= 32
    topics, of_each, messages = int(topics), int(of_each), int(messages)
    names = ['t%d' % t for t in range(topics)]
    case = Case(names, {'c%d_%d' % (t, c): (topic, 'a') for t, topic in enumerate(names) for c in range(of_each)})
    last, busy = names[-1], ['c%d_%d' % (topics - 1, c) for c in range(of_each)]
    idents = published('a', busy[-1], messages)
    for client in case.clients:
        case.do(client, 'sub s%s exclusive earliest local' % client.split('_')[1])
        case.connects(client, 1)
    for client in busy:
        case.do(client, flow(messages))
        case.goes(client)
    case.do(busy[-1], 'produce')
    case.goes(busy[-1])
    case.say('get ' + busy[-1])
    for i, (ident, text) in enumerate(idents):
        case.do(busy[-1], 'pub %d * - %s' % (i, text))
        case.goes(busy[-1])
        case.say('get ' + busy[-1])
        for c, client in enumerate(busy):
            case.do(client, 'ack ' + ident)
            case.say('offer %s a s%d' % (last, c), 'get ' + client)
            case.goes(client)
            case.got[client].append(ident)
    for topic in names:
        stored = messages if topic == last else 0
        case.brokers[topic, 'a'] = placed(idents[:stored]) + [sender('b')]
        case.brokers[topic, 'a'] += ['sub s%d exclusive local mark %d backlog 0' % (c, stored) for c in range(of_each)]
        case.brokers[topic, 'b'] = [sender('a')]
    case.answers[busy[-1]] = 'receipts %d duplicates 0 errors 0' % messages
    return case


def late(entries, rounds):
    entries, rounds = int(entries), int(rounds)
    case = Case(['t'], {'w': ('t', 'a'), 'p': ('t', 'a'), 'c': ('t', 'a'), 'r': ('t', 'b')})
    here, there = published('a', 'p', rounds), published('b', 'r', rounds)
    both = [message for pair in zip(here, there) for message in pair]
    # a replicated subscription, so that snapshots may be asked for: a stop behind the write of a request is an event an entry
    case.do('w', 'sub quiet failover earliest replicated')
    case.connects('w', 1)
    case.say(*['halt 1 snap t a'] * entries)
    case.do('p', 'produce', *pubs('p', rounds))
    case.do('c', 'sub s exclusive latest local', flow(2 * rounds), *acks(both))
    case.do('r', 'produce', *pubs('r', rounds))
    case.connects('p', 1)
    case.connects('c', 2)
    case.connects('r', 1)
    case.opens('t', 'b', 'a')
    for _ in range(rounds):
        for client in 'pr':
            case.goes(client)
            case.say('get ' + client)
            if client == 'r':
                case.replicates('t', 'b', 'a')
            case.say('offer t a s', 'get c')
            case.goes('c')
    # each stop opens a ledger
    case.brokers['t', 'a'] = ['entry %d:0 a pulsar.marker %d * request a:%d:0 a' % (i, i, i) for i in range(entries)]
    case.brokers['t', 'a'] += placed(both, entries) + [sender('b')]
    case.brokers['t', 'a'] += ['sub quiet failover replicated mark 0 backlog %d' % (2 * rounds)]
    case.brokers['t', 'a'] += ['sub s exclusive local mark %d backlog 0' % (entries + 2 * rounds)]
    case.brokers['t', 'b'] = placed(there) + [sender('a', 'session 1 open', rounds)]
    for client in 'pr':
        case.answers[client] = 'receipts %d duplicates 0 errors 0' % rounds
    case.got['c'] = [ident for ident, _ in both]
    return case


def told(rounds):
    rounds = int(rounds)
    case = Case(['t'], {'p': ('t', 'a'), 'c': ('t', 'a')})
    messages = published('a', 'p', rounds)
    case.do('p', 'produce', *pubs('p', rounds))
    case.do('c', 'sub s exclusive earliest replicated', flow(rounds), *acks(messages))
    case.connects('p', 1)
    case.connects('c', 2)
    case.opens('t', 'a', 'b')
    case.opens('t', 'b', 'a')
    here, there = [], []
    for i, message in enumerate(messages):
        case.goes('p')
        case.say('get p', 'snap t a')
        # b stores the message and the request, passes over the message, and answers the request
        case.say(*['read t a b'] * 2, *['take t a b good'] * 2, *['receipt t a b good'] * 2, *['read t b a'] * 3)
        # a stores the response and, once it has read it, the snapshot
        case.say('take t b a good', 'receipt t b a good', 'read t a b', *['offer t a s'] * 4, 'get c')
        # the acknowledgement passes the snapshot: a stores an update, passes over the snapshot and sends the update, which b reads
        case.goes('c')
        case.say('offer t a s', 'read t a b')
        case.replicates('t', 'a', 'b')
        case.say('read t b a')
        of, cut = 'a:' + place(len(here) + 1), 'b=' + place(len(there) + 1)
        request = ('a pulsar.marker %d *' % (3 * i), 'request %s a' % of)
        response = ('b pulsar.marker %d a' % i, 'response %s %s' % (of, cut))
        snapshot = ('a pulsar.marker %d a' % (3 * i + 1), 'snapshot %s %s %s' % (of, place(len(here) + 2), cut))
        update = ('a pulsar.marker %d *' % (3 * i + 2), 'update s ' + cut)
        data = (message[0] + ' *', 'data - ' + message[1])
        here += [data, request, response, snapshot, update]
        there += [data, request, response, update]
    for cluster, other, entries, mark in (('a', 'b', here, len(here)), ('b', 'a', there, max(0, len(there) - 2))):
        case.brokers['t', cluster] = ['entry %s %s %s' % (place(i), *entry) for i, entry in enumerate(entries)]
        case.brokers['t', cluster] += [sender(other, 'session 1 open', len(entries))]
        case.brokers['t', cluster] += ['sub s exclusive replicated mark %d backlog 0' % mark]
    case.answers['p'] = 'receipts %d duplicates 0 errors 0' % rounds
    case.got['c'] = [ident for ident, _ in messages]
    return case


CASES = {'resent': resent, 'acknowledged': acknowledged, 'clients': clients, 'late': late, 'told': told}


def text(lines):
    return ''.join(line + '\n' for line in lines)


def script_of(case):
    script = text(case.script())
    if len(case.events) > MOST_EVENTS or len(script) > MOST_BYTES:
        sys.exit('geo_tools slow: %d events and %d bytes are more than a script may have' % (len(case.events), len(script)))
    return script


def made(words):
    return CASES[words[0]](*words[1:])


def test(out):
    for words in SMALL:
        case, path = made(words.split()), os.path.join(out, words.replace(' ', '_'))
        for end, content in (('.geo', script_of(case)), ('.report', text(case.report()))):
            with open(path + end, 'w') as file:
                file.write(content)


def main(words):
    try:
        if words[:1] == ['test'] and len(words) == 2:
            test(words[1])
        elif words[:1] == ['report']:
            sys.stdout.write(text(made(words[1:]).report()))
        else:
            sys.stdout.write(script_of(made(words)))
    except (AssertionError, IndexError, KeyError, TypeError, ValueError):
        print(__doc__, file=sys.stderr)
        return 2
    return 0
