"""The forms of a script's lines, word by word (docs/SCRIPT.md), as far as it takes to point at the word that is wrong.

Nothing is judged here: the program has refused the line, and by which rule. These forms only find the place in it.
"""
import difflib
import re

MOST_SEQUENCE = 9223372036854775807
MOST_POSITION = 18446744073709551615
NAME = re.compile('[a-z0-9_]+')
NUMBER = re.compile('0|[1-9][0-9]*')
# letters, digits and these in a drill's names, which the drill tool writes as the machine's
DRILL_NAME = re.compile('[A-Za-z0-9_][A-Za-z0-9_.:/-]*')


def near(word, choices):
    """The one of these that is nearest to the word; None where none is near."""
    found = difflib.get_close_matches(word, list(choices), 1, 0.6)
    return found[0] if found else None


class Word:
    """What one place of a line takes; `shown` stands in the form."""

    def __init__(self, shown):
        self.shown = shown

    def fault(self, word):
        """What is wrong with the word's form, and the nearest right one; None where nothing is."""
        return None


class Exactly(Word):
    def fault(self, word):
        return None if word == self.shown else ('%s is expected, not %s' % (self.shown, word), self.shown)


class OneOf(Word):
    def __init__(self, shown, *choices):
        super().__init__(shown)
        self.choices = choices

    def fault(self, word):
        if word in self.choices:
            return None
        return '%s is no %s: it is one of %s' % (word, self.shown, ', '.join(self.choices)), near(word.lower(), self.choices)


class Number(Word):
    def __init__(self, shown, least, most):
        super().__init__(shown)
        self.least, self.most = least, most

    def fault(self, word):
        if not NUMBER.fullmatch(word):
            if word.isdigit():
                return '%s has a leading zero' % word, word.lstrip('0') or '0'
            return '%s is expected to be a number, not %s' % (self.shown, word), None
        if not self.least <= int(word) <= self.most:
            return '%s is %s, and goes from %d to %d' % (self.shown, word, self.least, self.most), None
        return None


class Name(Word):
    """A name; `of` is what it names: cluster, topic, client or subscription where it has to be declared, None where it is new or free."""

    def __init__(self, shown, of=None):
        super().__init__(shown)
        self.of = of

    def fault(self, word):
        return name_fault(word)


def name_fault(word):
    """What is wrong with a name's bytes, and the name that it may be."""
    if NAME.fullmatch(word):
        return None
    if '-' in word and NAME.fullmatch(word.replace('-', '').lower()):
        return ('%s has a hyphen, and a name has small letters, digits and _ alone (a drill takes it as it is: ./geo drill)' % word,
                word.replace('-', '_').lower())
    if word.lower() != word and NAME.fullmatch(word.lower()):
        return '%s has a capital, and a name has small letters, digits and _ alone' % word, word.lower()
    odd = next((byte for byte in word if not NAME.fullmatch(byte)), '')
    return '%s is no name: it has %s, and a name has small letters, digits and _ alone' % (word, odd), None


class Key(Name):
    def fault(self, word):
        return None if word == '-' else name_fault(word)


class Targets(Name):
    """`*`, or names of clusters with commas between."""

    def fault(self, word):
        if word == '*':
            return None
        names = word.split(',')
        if '' in names:
            return '%s has a comma without a cluster beside it' % word, ','.join(name for name in names if name)
        return next((fault for fault in map(name_fault, names) if fault), None)


class Place(Word):
    """A position, or `end`."""

    def fault(self, word):
        if word == 'end':
            return None
        parts = word.split(':')
        if len(parts) != 2 or not all(NUMBER.fullmatch(part) for part in parts):
            return '%s is no position: LEDGER:ENTRY, as 0:3, or end' % word, None
        if any(int(part) > MOST_POSITION for part in parts):
            return '%s is past the greatest position' % word, None
        return None


class Text(Word):
    """All that is left of the line, spaces included."""


def cluster(shown='X'):
    return Name(shown, 'cluster')


def topic(shown='T'):
    return Name(shown, 'topic')


def client(shown='C'):
    return Name(shown, 'client')


FATE = OneOf('FATE', 'good', 'lost', 'twice')
DECLARING = {
    'geo': [Exactly('1')],
    'ledger': [Number('N', 1, 1000000)],
    'chance': [Number('NUMBER', 0, 4294967295), Number('LOST', 0, 1000), Number('TWICE', 0, 1000), Number('RESTART', 0, 1000)],
    'cluster': [Name('X')],
    'topic': [Name('T')],
    'client': [Name('C'), topic(), cluster()],
}
MESSAGE = [cluster(), client('P'), Number('SEQ', 0, MOST_SEQUENCE)]
DOING = {
    'produce': [],
    'pub': [Number('SEQ', 0, MOST_SEQUENCE), Targets('TO', 'cluster'), Key('KEY'), Text('TEXT')],
    'sub': [Name('S'), OneOf('TYPE', 'exclusive', 'shared', 'failover', 'keyshared'), OneOf('INIT', 'earliest', 'latest'),
            OneOf('REPL', 'replicated', 'local')],
    'flow': [Number('N', 1, 1000000)],
    'ack': MESSAGE,
    'ackto': MESSAGE,
    'ackall': [],
    'unsub': [],
    'close': [],
    'closep': [],
    'ping': [],
    'move': [cluster()],
}
PAIR = [topic(), cluster('X'), cluster('Y')]
HAPPENING = {
    'reconnect': [client()],
    'go': [client()],
    'get': [client()],
    'serve': [cluster(), client()],
    'drop': [cluster(), client()],
    'reset': PAIR,
    'read': PAIR,
    'take': PAIR + [FATE],
    'receipt': PAIR + [FATE],
    'snap': [topic(), cluster()],
    'offer': [topic(), cluster(), Name('S', 'subscription')],
    'seek': [topic(), cluster(), Name('S', 'subscription'), Place('L:E')],
    'restart': [topic(), cluster()],
    'settle': [],
    'stop': [],
}
# the events that a broker can stop in
STOPPING = ('serve', 'drop', 'reset', 'read', 'take', 'receipt', 'snap', 'offer', 'seek')
FIRST_WORDS = [*DECLARING, 'do', *HAPPENING, 'halt']
# the words of drill lines, which are no script's
DRILL_WORDS = ('connect', 'run', 'link', 'send', 'deliver', 'exchange', 'cut', 'partition', 'heal', 'hold', 'release', 'give', 'snapshot',
               'lose', 'return', 'expect', 'move')
# in the order in which a script has them
ORDER = {'geo': 0, 'ledger': 1, 'chance': 1, 'cluster': 2, 'topic': 3, 'client': 4, 'do': 5}


class Line:
    """A line's words with the columns where they begin, from 0, and the form that its first words choose."""

    def __init__(self, text):
        self.text = text
        self.words, at = [], 0
        for word in text.split(' '):
            self.words.append((word, at))
            at += len(word) + 1
        self.form, self.front = self._form()

    def _form(self):
        """What each word is to be, and how many words stand before these; None where the first words choose no form."""
        first = self.word(0)
        if first in DECLARING:
            return DECLARING[first], 1
        if first in HAPPENING:
            return HAPPENING[first], 1
        if first == 'do':
            if len(self.words) < 3:
                return [client(), Word('LINE')], 1
            known = DOING.get(self.word(2))
            return (None, 0) if known is None else ([client(), Exactly(self.word(2)), *known], 1)
        if first == 'halt':
            event = HAPPENING.get(self.word(2)) if self.word(2) in STOPPING else []
            return [Number('K', 0, 8), OneOf('EVENT', *STOPPING), *event], 1
        return None, 0

    def word(self, at):
        return self.words[at][0] if at < len(self.words) else None

    def shown(self):
        """The form as docs/SCRIPT.md writes it."""
        if self.form is None:
            return None
        return ' '.join([self.word(0)] + [it.shown for it in self.form])

    def places(self):
        """Each place of the form with its word and its column; the word is None where the line ends before it."""
        for at, wanted in enumerate(self.form or [], self.front):
            word, column = self.words[at] if at < len(self.words) else (None, len(self.text) + 1)
            if isinstance(wanted, Text) and word is not None:
                word = self.text[column:]
            yield wanted, word, column

    def has_text(self):
        return any(isinstance(it, Text) for it in self.form or [])

    def kind(self):
        return ORDER.get(self.word(0), 6)
