"""What a drill expects: read once, judged by the report of the run up to its line."""
from collections import namedtuple

from ..report import identity
from .words import Refused, near

# `text` stands behind the word expect. `differs` is a function of what is seen (the report, and the cause where the line before was in
# vain) that gives what is so instead, or None where the expectation is met
Expectation = namedtuple('Expectation', 'text differs')
Seen = namedtuple('Seen', 'report vain')

GOT = 'expect CLIENT got MESSAGE, .. [once | again | never | N times | in order]; expect CLIENT got nothing, or expect CLIENT got N'
COUNTED = 'expect CLIENT receipts N, duplicates N, or errors N; expect CLIENT at CLUSTER'
NOBODY = 'expect nobody got MESSAGE, .., or expect nobody has MESSAGE, ..'
ONLY = 'expect only CLUSTER [and CLUSTER ..] has MESSAGE, ..'
HAS = 'expect [TOPIC at] CLUSTER has MESSAGE, .., or lacks MESSAGE, .., or lacks N'
SAME = 'expect [TOPIC at] CLUSTER and CLUSTER hold the same'
SESSION = 'expect CLUSTER to CLUSTER open, opening, closed, or mark N'
SUB = 'expect SUBSCRIPTION at CLUSTER backlog N, mark N, seeks N, replicated, local, or missing'
MARKERS = 'expect N snapshots at CLUSTER, updates, or requests; no for 0'
AGAIN = 'expect again N [at CLIENT]'
IDLE = 'expect idle [since CAUSE]'
FORMS = (GOT, COUNTED, NOBODY, ONLY, HAS, SAME, SESSION, SUB, MARKERS, AGAIN, IDLE)
OF_CLIENT = ('got', 'at', 'receipts', 'duplicates', 'errors')
# how often a message is got that is got so
TIMES = {'again': 2, 'never': 0, 'once': 1}


def expectation(drill, reader):
    """What stands behind the word expect."""
    if reader.peek() is None:
        raise Refused('the forms are:\n  ' + '\n  '.join(FORMS) + '\n  a MESSAGE is CLUSTER PRODUCER SEQ, or its text where one message alone has it', 1)
    text = ' '.join(word.text for word in reader.words[1:])
    drill.by_text, drill.text_of = drill.head.texts()
    return Expectation(text, Judge(drill, reader).judged())


def number_differs(seen, wanted):
    """What is said of a number."""
    return None if seen == wanted else 'it is %s' % seen


def listed(texts):
    """Some texts as one, None where there are none."""
    return '; '.join(texts) or None


def times_text(count):
    """How often."""
    return {0: 'never', 1: 'once'}.get(count, '%d times' % count)


class Judge:
    """Reads one expectation."""

    def __init__(self, drill, reader):
        self.drill, self.reader, self.head, self.own = drill, reader, drill.head, drill.own

    def judged(self):
        """The function that judges it, by its first words."""
        reader, head = self.reader, self.head
        for word, form, judge in (('idle', IDLE, self.idle), ('again', AGAIN, self.again), ('nobody', NOBODY, self.nobody), ('only', ONLY, self.only)):
            if reader.is_next(word):
                reader.form = form
                return judge()
        if reader.peek() == 'no' or reader.is_number():
            reader.form = MARKERS
            return self.markers()
        first, following = self.drill.names.of.get(reader.peek(), reader.peek()), reader.peek(1)
        subs = [sub for topic in head.topics for sub in head.subs(topic)]
        if first in head.clients and (first not in head.clusters or following in OF_CLIENT):
            return self.client(subs)
        # a topic before a subscription, or before a cluster
        if first in subs and first not in head.clusters and following == 'at' or reader.peek(2) == 'at' and first in head.topics:
            reader.form = SUB
            return self.subscription()
        if first in head.topics and following == 'at':
            topic = self.drill.topic_name(reader)
            reader.one_of('at', 'at')
            return self.cluster([topic])
        if first in head.clusters:
            return self.cluster(head.topics)
        names = [self.own(name) for name in head.clients + subs + head.topics + head.clusters]
        raise Refused('%s is no client, subscription, topic or cluster, and begins no form of expect' % reader.peek(), reader.words[1].column,
                      'expect alone lists the forms', near(reader.peek(), names + ['nobody', 'only', 'again', 'idle', 'no']), len(reader.peek()))

    # ---- messages ----

    def holders(self, report, message):
        """The clusters where a message stands."""
        return [x for x in self.head.clusters if any(identity(entry) == message for topic in self.head.topics for entry in report.messages(topic, x))]

    def messages(self):
        """Messages with commas between them: as CLUSTER PRODUCER SEQ, or by their text."""
        found, reader, drill = [], self.reader, self.drill
        while True:
            if reader.peek() is None:
                raise reader.refuse('a message is missing')
            bare = reader.peek().rstrip(',')
            if bare in drill.by_text:
                last = reader.take('a message').text
                found.append(drill.by_text[bare])
            elif drill.names.of.get(bare) in self.head.clusters:
                x = drill.cluster_name(reader)
                producer = drill.of_kind(reader, 'producer', self.head.clients)
                last = reader.take('a sequence id').text
                found.append((x, producer, last.rstrip(',')))
            else:
                raise reader.refuse('%s is the text of no one message, and no cluster' % bare, [*drill.by_text, *map(self.own, self.head.clusters)])
            if not last.endswith(','):
                return found

    # ---- the forms ----

    def idle(self):
        """The line before did nothing, and the cause that is told has these words."""
        cause = ''
        if self.reader.is_next('since'):
            cause = ' '.join(word.text for word in self.reader.words[self.reader.at:])
            if not cause:
                raise self.reader.refuse('a cause is missing')
            self.reader.at = len(self.reader.words)
        return lambda seen: 'it did something' if not seen.vain else None if cause in seen.vain else 'it is idle, since ' + seen.vain

    def again(self):
        """How many messages came again, in all or at a client."""
        count = self.reader.number()
        client = self.drill.client_name(self.reader) if self.reader.is_next('at') else None
        return lambda seen: number_differs(seen.report.again(client), count)

    def nobody(self):
        """Nobody got, or has, a message."""
        if self.reader.one_of('got or has', 'got', 'has') == 'has':
            wanted = self.messages()
            return lambda seen: listed('%s has %s' % (self.own(x), self.drill.message(message)) for message in wanted for x in self.holders(seen.report, message))
        wanted = self.messages()

        def differs(seen):
            got = [(name, message) for message in wanted for name, client in seen.report.clients.items() if message in client.got]
            return listed('%s got %s' % (self.own(name), self.drill.message(message)) for name, message in got)
        return differs

    def only(self):
        """These clusters have a message, and no other."""
        wanted_at = {self.drill.cluster_name(self.reader)}
        while self.reader.is_next('and'):
            wanted_at.add(self.drill.cluster_name(self.reader))
        self.reader.one_of('has or have', 'has', 'have')
        wanted = self.messages()

        def differs(seen):
            at = [(message, self.holders(seen.report, message)) for message in wanted]
            return listed('%s stands at %s' % (self.drill.message(message), ', '.join(map(self.own, there)) or 'no cluster')
                          for message, there in at if set(there) != wanted_at)
        return differs

    def markers(self):
        """How many markers of a kind a cluster stored as its own."""
        reader = self.reader
        count = 0 if reader.is_next('no') else reader.number()
        kind = reader.one_of('snapshots, updates or requests', 'snapshots', 'updates', 'requests', 'snapshot', 'update', 'request').rstrip('s')
        reader.one_of('at', 'at')
        x = self.drill.cluster_name(reader)
        return lambda seen: number_differs(sum(entry.kind == kind and entry.origin == x for topic in self.head.topics
                                               for entry in seen.report.entries[topic, x]), count)

    def client(self, subs):
        """What is so of a client. A name may be a subscription's as well."""
        reader, drill = self.reader, self.drill
        if reader.peek(1) == 'at' and reader.peek(3) is not None and drill.names.of.get(reader.peek()) in subs:
            reader.form = SUB
            return self.subscription()
        client = drill.client_name(reader)
        reader.form = GOT if reader.peek() == 'got' else COUNTED
        if reader.is_next('at'):
            x = drill.cluster_name(reader)
            return lambda seen: None if seen.report.clients[client].cluster == x else 'it is at ' + self.own(seen.report.clients[client].cluster)
        word = reader.one_of('got, at, receipts, duplicates or errors', *OF_CLIENT)
        if word != 'got':
            count = reader.number()
            return lambda seen: number_differs(seen.report.clients[client].counts[word], count)
        return self.got(client)

    def got(self, client):
        """What a client got."""
        reader, message_of = self.reader, self.drill.message
        if reader.is_next('nothing'):
            return lambda seen: listed(map(message_of, seen.report.clients[client].got))
        if reader.is_number():
            count = reader.number()
            return lambda seen: number_differs(len(seen.report.clients[client].got), count)
        wanted = self.messages()
        if reader.is_next('in', 'order'):
            def order(seen):
                got = [message for message in seen.report.clients[client].got if message in wanted]
                return None if got == wanted else 'it got ' + (', '.join(map(message_of, got)) or 'none of them')
            return order
        fits = self.how_often()

        def differs(seen):
            got = [(message, seen.report.clients[client].got.count(message)) for message in wanted]
            return listed('%s %s' % (message_of(message), times_text(count)) for message, count in got if not fits(count))
        return differs

    def how_often(self):
        """Which counts of a message are meant: `again` is twice or more, without a word it is once or more."""
        reader = self.reader
        if reader.is_number():
            wanted = reader.number()
            reader.one_of('times', 'times')
            return lambda count: count == wanted
        how = reader.peek()
        if how is None:
            return lambda count: count > 0
        if how not in TIMES:
            raise reader.refuse('once, again, never, N times or in order is expected, not ' + how, TIMES)
        reader.at += 1
        return lambda count: count >= TIMES[how] if how == 'again' else count == TIMES[how]

    def subscription(self):
        """What is so of a subscription at a cluster."""
        reader = self.reader
        topic, sub = self.drill.sub_name(reader)
        reader.one_of('at', 'at')
        x = self.drill.cluster_name(reader)
        word = reader.one_of('backlog, mark, seeks, replicated, local or missing', 'backlog', 'mark', 'seeks', 'replicated', 'local', 'missing')
        wanted = reader.number() if word in ('backlog', 'mark', 'seeks') else None

        def differs(seen):
            state = seen.report.subs[topic, x].get(sub)
            if word == 'missing':
                return 'it is there' if state else None
            if state is None:
                return 'it is missing'
            if wanted is None:
                return None if state.replicated == word else 'it is ' + state.replicated
            return number_differs(getattr(state, word), wanted)
        return differs

    def cluster(self, topics):
        """What is so at a cluster, of one topic or of all."""
        reader = self.reader
        reader.form = HAS
        x = self.drill.cluster_name(reader)
        if reader.is_next('and'):
            reader.form = SAME
            return self.same(topics, x)
        if reader.is_next('to'):
            reader.form = SESSION
            return self.session(topics, x)
        word = reader.one_of('has, lacks, and or to', 'has', 'lacks')
        if word == 'lacks' and reader.is_number():
            count = reader.number()
            return lambda seen: number_differs(len(lacking(self.head.clusters, seen.report, topics, x)), count)
        wanted = self.messages()

        def differs(seen):
            at = {identity(entry) for topic in topics for entry in seen.report.messages(topic, x)}
            if word == 'has':
                return listed('it lacks ' + self.drill.message(message) for message in wanted if message not in at)
            return listed('it has ' + self.drill.message(message) for message in wanted if message in at)
        return differs

    def same(self, topics, x):
        """Two clusters hold the same messages."""
        y = self.drill.cluster_name(self.reader)
        for word in ('hold', 'the', 'same'):
            self.reader.one_of(word, word)

        def differs(seen):
            texts = []
            for topic in topics:
                at = {cluster: [identity(entry) for entry in seen.report.messages(topic, cluster)] for cluster in (x, y)}
                for a, b in ((x, y), (y, x)):
                    texts += ['%s alone has %s' % (self.own(a), self.drill.message(message)) for message in at[a] if message not in at[b]]
            return listed(texts)
        return differs

    def session(self, topics, x):
        """The session of a replicator, and up to where it has receipts."""
        y = self.drill.cluster_name(self.reader)
        word = self.reader.one_of('open, opening, closed or mark', 'open', 'opening', 'closed', 'mark')
        wanted = self.reader.number() if word == 'mark' else word

        def differs(seen):
            senders = [seen.report.senders[topic, x, y] for topic in topics]
            found = [sender.mark if word == 'mark' else sender.state for sender in senders]
            return listed('it is %s' % it for it in found if it != wanted)
        return differs


def lacking(clusters, report, topics, x):
    """The messages that stand at another cluster, are meant for x, and are not at x."""
    found = []
    for topic in topics:
        here = {identity(entry) for entry in report.messages(topic, x)}
        for y in clusters:
            found += [identity(entry) for entry in report.messages(topic, y) if identity(entry) not in here and identity(entry) not in found
                      and (entry.targets == '*' or x in entry.targets.split(','))]
    return found
