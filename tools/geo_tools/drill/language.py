"""The drill language: a drill's lines become statements, and each statement events (meanings.py). Names are the machine's behind `Drill`."""
from ..script import DECLARING, in_force
from .meanings import FORMS, Meanings, Part
from .names import MACHINE, OWN, Names, declared
from .words import Reader, Refused, near, unknown, words_of

# the events of a script, each with which of its words is the cluster where it happens; None for one that is at a client or everywhere
EVENTS = {'reconnect': None, 'go': None, 'get': None, 'settle': None, 'stop': None, 'serve': 1, 'drop': 1, 'take': 3, 'reset': 2, 'read': 2,
          'receipt': 2, 'snap': 2, 'offer': 2, 'seek': 2, 'restart': 2, 'halt': None}
# how often an event is tried at first; it is doubled until the last try is idle, at most to so many
FIRST_TRIES, MOST_TRIES = 16, 1 << 16


class Statement:
    """A line of a drill: the parts that it is in events, and what is known of it before a run."""

    def __init__(self, number, text, word, parts=(), **known):
        self.number, self.text, self.word, self.parts = number, text, word, list(parts)
        self.tries = FIRST_TRIES
        # the client of which it says something, and where that is behind it
        self.client, self.cluster = known.get('client'), None
        # the directions (topic, from, to) of what it delivers, the (topic, subscription, cluster) that it gives
        self.pairs, self.sub = known.get('pairs', ()), known.get('sub')
        # the (topic, cluster, subscription or None) whose snapshot has to end, whether it is of a planned move
        self.snapshot, self.planned = known.get('snapshot'), known.get('planned', False)
        self.expects = known.get('expects')
        # what no event says, for who reads the script: `lost east`, `cut east west`
        self.signs = known.get('signs', ())

    def events(self):
        """Each event with its part, and whether it is of the last try."""
        for part in self.parts:
            for at in range(self.tries if part.tried else 1):
                for event in part.events:
                    yield event, part, part.tried and at == self.tries - 1


class Head:
    """What a drill declares, in the machine's names."""

    def __init__(self):
        self.clusters, self.topics, self.clients, self.lines = [], [], [], []
        self.topic_of, self.first, self.does = {}, {}, {}

    def with_probe(self, probe):
        """The declarations with one more topic, client and subscription, which no other topic knows of."""
        new = ['topic ' + probe, 'client %s %s %s' % (probe, probe, self.clusters[0]), 'do %s sub %s exclusive latest local' % (probe, probe)]
        return sorted(self.lines + new, key=lambda line: KINDS[line.split(' ')[0]])

    def sub_of(self, client, done):
        """The subscription that is in force behind so many lines."""
        return in_force(self.does[client][:done])

    def subs(self, topic):
        """The subscriptions that clients of a topic name."""
        return list(dict.fromkeys(line.split(' ')[1] for client in self.clients if self.topic_of[client] == topic
                                  for line in self.does[client] if line.startswith('sub ')))

    def texts(self):
        """Each message by its text, where one alone has it, and the text of each message."""
        by_text, text_of = {}, {}
        for client in self.clients:
            for line in self.does[client]:
                words = line.split(' ', 4)
                if words[0] == 'pub' and len(words) == 5:
                    message = (self.first[client], client, words[1])
                    by_text.setdefault(words[4], set()).add(message)
                    text_of.setdefault(message, words[4])
        return ({text: next(iter(of)) for text, of in by_text.items() if len(of) == 1},
                {message: text for message, text in text_of.items() if len(by_text[text]) == 1})


# the order of the kinds of line that declare; `ledger` and `chance` stand in either order
KINDS = dict(zip(DECLARING, (0, 1, 1, 2, 3, 4, 5)))


class Drill(Meanings):
    """The statements of a drill, with where clients, links and regions are as they go by."""

    def __init__(self, text, file='-'):
        self.file, self.head, self.statements = file, Head(), []
        self.at, self.done = {}, {}
        self.cuts, self.holds, self.lost = set(), set(), set()
        # the line of the drill of each line of the head
        self.declared_at = []
        lines = text.split('\n')
        self.names = Names(declared(lines))
        for number, line in enumerate(lines, 1):
            try:
                self.read(number, line.rstrip('\r'))
            except Refused as refused:
                raise refused.at(file, number, line.rstrip('\r')) from None
        self.by_text, self.text_of = self.head.texts()
        for kind, found in (('cluster', self.head.clusters), ('topic', self.head.topics)):
            if not found:
                raise Refused('no %s is declared' % kind).at(file, len(lines), None)

    # ---- lines ----

    def read(self, number, text):
        """Takes one line."""
        if not text.strip() or text.startswith('#'):
            self.statements.append(Statement(number, text, '#'))
            return
        reader = Reader(text)
        word = reader.words[0]
        if word.text in DECLARING:
            self.head.lines.append(self.declare(text, reader))
            self.declared_at.append(number)
            self.statements.append(Statement(number, text, 'declare'))
            return
        if word.text in FORMS and not (word.text == 'restart' and len(reader.words) == 3):
            reader.form, reader.at = FORMS[word.text], 1
            made = getattr(self, 'on_' + word.text)(reader)
            reader.end()
            statement = Statement(number, text, word.text, made.pop('parts', ()), **made)
        elif word.text in EVENTS:
            statement = Statement(number, text, 'event', [Part([self.plain(reader)])])
        else:
            raise Refused('%s begins no line of a drill or of a script' % word.text, word.column, None,
                          near(word.text, [*FORMS, *EVENTS, *DECLARING]), len(word.text))
        statement.cluster = self.at.get(statement.client)
        self.statements.append(statement)

    def declare(self, text, reader):
        """A line that declares, in the machine's names."""
        kind, words = reader.words[0].text, [word.text for word in reader.words]
        if any(it.word not in ('#', 'declare') for it in self.statements):
            raise Refused('%s declares, and an event stands before it' % kind, 1, None, None, len(kind))
        if kind in ('cluster', 'topic', 'client') and (len(words) < 2 or not OWN.fullmatch(words[1])):
            reader.at = 1
            raise reader.refuse('a name is expected')
        return getattr(self, 'declare_' + kind, lambda reader, text: text)(reader, text)

    def declare_cluster(self, reader, _):
        """A cluster."""
        self.head.clusters.append(self.names.of[reader.words[1].text])
        return 'cluster ' + self.head.clusters[-1]

    def declare_topic(self, reader, _):
        """A topic."""
        self.head.topics.append(self.names.of[reader.words[1].text])
        return 'topic ' + self.head.topics[-1]

    def declare_client(self, reader, _):
        """A client, with its topic and its first cluster."""
        reader.form, reader.at = 'client NAME TOPIC CLUSTER', 2
        topic, cluster, head = self.topic_name(reader), self.cluster_name(reader), self.head
        name = self.names.of[reader.words[1].text]
        head.clients.append(name)
        head.topic_of[name], head.first[name], head.does[name] = topic, cluster, []
        self.at[name], self.done[name] = cluster, 0
        return 'client %s %s %s' % (name, topic, cluster)

    def declare_do(self, reader, text):
        """A line of a client. The text of a message stays."""
        reader.form, reader.at = 'do CLIENT LINE', 1
        name, of = self.client_name(reader), self.names.of
        rest = text.split(' ', 2)[2] if text.startswith('do %s ' % reader.words[1].text) else ' '.join(word.text for word in reader.words[2:])
        words = rest.split(' ')
        if words[0] == 'pub' and len(words) > 4:
            cut = rest.split(' ', 4)
            cut[2] = ','.join(of.get(word, word) for word in cut[2].split(','))
            rest = ' '.join(cut)
        else:
            rest = ' '.join([words[0]] + [of.get(word, word) for word in words[1:]])
        self.head.does[name].append(rest)
        return 'do %s %s' % (name, rest)

    # ---- names ----

    def of_kind(self, reader, kind, choices):
        """Takes the name of something of a kind."""
        word = reader.take('a ' + kind)
        name = self.names.of.get(word.text)
        if name not in choices:
            refused = unknown(word, kind, [self.own(it) for it in choices])
            refused.form = reader.form
            raise refused
        return name

    def cluster_name(self, reader):
        """Takes a cluster."""
        return self.of_kind(reader, 'cluster', self.head.clusters)

    def client_name(self, reader):
        """Takes a client."""
        return self.of_kind(reader, 'client', self.head.clients)

    def topic_name(self, reader):
        """Takes a topic."""
        return self.of_kind(reader, 'topic', self.head.topics)

    def topics(self, reader):
        """The topic that is named, or all."""
        word = self.names.of.get(reader.peek())
        if word in self.head.topics and (word not in self.head.clusters or len(reader.words) - reader.at > 2):
            return [self.topic_name(reader)]
        return self.head.topics

    def sub_name(self, reader):
        """Takes a subscription, with the topic before it where several have one of this name; gives its topic and its name."""
        named = reader.peek(1) not in ('at', None) and self.names.of.get(reader.peek()) in self.head.topics
        topics = [self.topic_name(reader)] if named else self.head.topics
        several = [(sub, topic) for topic in topics for sub in self.head.subs(topic)]
        sub, at = self.of_kind(reader, 'subscription', [sub for sub, _ in several]), reader.at
        of = [topic for name, topic in several if name == sub]
        if len(of) > 1:
            reader.at = at - 1
            raise reader.refuse('%s is a subscription of several topics: name one before it' % self.own(sub))
        return of[0], sub

    def own(self, name):
        """The drill's name of one of the machine."""
        return self.names.back.get(name, name)

    def owned(self, text):
        """A text of the machine's with the drill's own names."""
        return MACHINE.sub(lambda found: self.own(found.group()), text)

    def message(self, message):
        """A message by its text, where one alone has it."""
        return self.text_of.get(tuple(message), ' '.join(self.own(word) for word in message))

    def plain(self, reader):
        """An event of a script, in the machine's names. What it may be is the program's matter; where it is, is known here."""
        words = [word.text for word in reader.words]
        inner = words[2:] if words[0] == 'halt' else words
        before = len(words) - len(inner)
        if inner[:1] == ['settle']:
            self.may_settle(reader)
        if inner[:1] == ['go'] and len(inner) > 1:
            reader.at = before + 1
            self.goes(self.client_name(reader), reader)
        place = EVENTS.get(inner[0] if inner else '')
        if place and place < len(inner):
            reader.at = before + place
            self.living(reader)
        if inner[:1] in (['take'], ['receipt']) and inner[-1] != 'lost' and len(inner) > 3:
            x, y = (self.names.of.get(name, name) for name in inner[2:4])
            self.may_pass(reader, [self.names.of.get(inner[1], inner[1])], x, y)
        return ' '.join([words[0]] + [self.names.of.get(word, word) for word in words[1:]])


def is_drill(path, text):
    """Whether a file is a drill and no script: its name says so, or one of its lines is no line of a script."""
    first = [words[0].text for words in map(words_of, text.split('\n')) if words and not words[0].text.startswith('#')]
    return path.endswith('.drill') or any(word in FORMS and word != 'restart' for word in first)
