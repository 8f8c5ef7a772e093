"""Reports as tables (docs/REPORT.md), read whole or step by step."""
import copy
import functools
from collections import namedtuple

# `position` is LEDGER:ENTRY; `key` and `text` are a message's, `what` is the rest of the line
Entry = namedtuple('Entry', 'position origin producer seq targets kind what key text')
Sender = namedtuple('Sender', 'session state mark')
Sub = namedtuple('Sub', 'kind replicated mark backlog seeks')


class Client:
    """A client's lines of a report: its cluster, its counts, and what it got, each as (origin, producer, seq)."""

    def __init__(self, topic, words):
        self.topic, self.cluster = topic, words[3]
        done, total = words[5].split('/')
        self.done, self.total = int(done), int(total)
        self.counts = {'receipts': int(words[7]), 'duplicates': int(words[9]), 'errors': int(words[11])}
        self.got = []


@functools.lru_cache(maxsize=None)
def entry_of(line):
    """The entry of a line `entry ..`; the same one for the same line, since most lines stand in each later report too."""
    _, position, origin, producer, seq, targets, what = line.split(' ', 6)
    if what.startswith('data '):
        _, key, text = what.split(' ', 2)
        return Entry(position, origin, producer, seq, targets, 'data', what, key, text)
    return Entry(position, origin, producer, seq, targets, what.split(' ')[0], what, None, None)


def is_message(entry):
    """Whether an entry is a message, and no marker."""
    return entry.kind == 'data'


def identity(entry):
    """What tells a message from each other one of its topic."""
    return (entry.origin, entry.producer, entry.seq)


def sub_of(words):
    """The subscription of a line `sub ..`."""
    return Sub(words[2], words[3], int(words[5]), int(words[7]), int(words[9]) if len(words) > 8 else 0)


class Report:
    """A report, as tables: entries and subscriptions by (topic, cluster), senders by (topic, cluster, to), clients by name."""

    def __init__(self, text=''):
        self.text = text
        self.events = self.idle = self.rounds = 0
        self.entries, self.senders, self.subs, self.clients = {}, {}, {}, {}
        self._read(text.splitlines())

    def after(self, lines):
        """The report behind a step that changed these lines: each is a line of that report, or `gone SUBSCRIPTION`."""
        new = copy.copy(self)
        new.text = None
        new.entries, new.senders, new.subs, new.clients = dict(self.entries), dict(self.senders), dict(self.subs), dict(self.clients)
        new._read(lines)
        return new

    def _read(self, lines):
        """Reads lines of a report. What stood before is another report's, so it is copied before it changes."""
        place, client, own = None, None, set()
        for line in lines:
            words = line.split(' ')
            word = words[0]
            if word == 'events':
                self.events, self.idle, self.rounds = int(words[1]), int(words[3]), int(words[5])
            elif word == 'topic':
                place = (words[1], words[3])
                if place not in own:
                    self.entries[place], self.subs[place] = list(self.entries.get(place, ())), dict(self.subs.get(place, {}))
                    own.add(place)
            elif word == 'entry':
                self.entries[place].append(entry_of(line))
            elif word == 'sender':
                self.senders[place + (words[1],)] = Sender(int(words[3]), words[4], int(words[6]))
            elif word == 'sub':
                self.subs[place][words[1]] = sub_of(words)
            elif word == 'gone':
                del self.subs[place][words[1]]
            elif word == 'client':
                old = self.clients.get(words[1])
                client = self.clients[words[1]] = Client(old.topic if old else place[0], words)
                client.got = list(old.got) if old else []
            elif word == 'got':
                client.got.append(tuple(words[1:4]))

    def messages(self, topic, cluster):
        """The messages of a topic at a cluster, without its markers."""
        return [entry for entry in self.entries[topic, cluster] if is_message(entry)]

    def times_got(self):
        """How often each client got each message, by (topic, identity) and client."""
        times = {}
        for name, client in self.clients.items():
            for message in client.got:
                of = times.setdefault((client.topic, message), {})
                of[name] = of.get(name, 0) + 1
        return times

    def again(self, client=None):
        """How many `got` lines repeat one of the same client; of one client alone where it is named."""
        return sum(len(it.got) - len(set(it.got)) for name, it in self.clients.items() if client in (None, name))
