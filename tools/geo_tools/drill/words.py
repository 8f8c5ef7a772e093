"""Lines as words with their columns, and refusals that point at them."""
import difflib
import re
from collections import namedtuple

# how much alike, of 1, a word is to one that it may have been meant for
NEAR_ENOUGH = 0.6

# `column` counts from 1
Word = namedtuple('Word', 'text column')


def words_of(text):
    """The words of a line; several spaces, or tabs, between two are one space."""
    return [Word(found.group(), found.start() + 1) for found in re.finditer(r'[^ \t]+', text)]


class Refused(Exception):
    """A line of a drill that cannot be meant: what is wrong, where, the form that was expected, and the nearest word."""

    def __init__(self, said, column=None, form=None, near_word=None, width=1):
        super().__init__(said)
        self.said, self.column, self.form, self.near, self.width = said, column, form, near_word, width
        self.file = self.line = self.text = None

    def at(self, file, line, text):
        """Says where it stands."""
        self.file, self.line, self.text = file, line, text
        return self

    def message(self):
        """What is wrong, with the remedy."""
        return self.said + (' (did you mean %s?)' % self.near if self.near else '')

    def shown(self):
        """The lines that tell it: place and message, the line, a caret under the word, the form."""
        place = ':'.join(str(part) for part in (self.file, self.line, self.column) if part)
        lines = ['%s: %s' % (place, self.message())]
        if self.text is not None:
            lines.append('  ' + self.text.replace('\t', ' '))
            if self.column:
                lines.append('  ' + ' ' * (self.column - 1) + '^' * self.width)
        if self.form:
            lines.append('  expected: ' + self.form)
        return '\n'.join(lines)


def whole(said, text):
    """A refusal of a whole line."""
    return Refused(said, 1, None, None, max(1, len(text.rstrip())))


def near(word, choices):
    """The one of the choices that is nearest to a word, where one is near."""
    found = difflib.get_close_matches(word, list(choices), 1, NEAR_ENOUGH)
    return found[0] if found else None


def unknown(word, kind, choices):
    """The refusal of a name that is no such thing."""
    choices = list(choices)
    meant = near(word.text, choices)
    known = '; declared: ' + ', '.join(choices) if choices and not meant else ''
    return Refused('%s is no %s%s' % (word.text, kind, known), word.column, None, meant, len(word.text))


class Reader:
    """The words of one line, taken from the left."""

    def __init__(self, text, form=None):
        self.text, self.words, self.at, self.form = text, words_of(text), 0, form

    def peek(self, ahead=0):
        """The next word, or one behind it; None behind the last."""
        return self.words[self.at + ahead].text if self.at + ahead < len(self.words) else None

    def is_next(self, *texts):
        """Takes these words where they are next."""
        found = [word.text for word in self.words[self.at:self.at + len(texts)]] == list(texts)
        self.at += len(texts) if found else 0
        return found

    def refuse(self, said, choices=()):
        """A refusal at the next word."""
        word = self.words[self.at] if self.at < len(self.words) else None
        column = word.column if word else len(self.text.rstrip()) + 2
        return Refused(said, column, self.form, near(word.text, choices) if word else None, len(word.text) if word else 1)

    def take(self, what):
        """Takes the next word."""
        if self.at == len(self.words):
            raise self.refuse('%s is missing' % what)
        self.at += 1
        return self.words[self.at - 1]

    def one_of(self, what, *texts):
        """Takes one of these words."""
        if self.peek() not in texts:
            raise self.refuse('%s is %s' % (what, 'missing' if self.peek() is None else 'expected, not ' + self.peek()), texts)
        return self.take(what).text

    def is_number(self):
        """Whether a number is next."""
        return re.fullmatch('0|[1-9][0-9]*', self.peek() or '') is not None

    def number(self, what='a number'):
        """Takes a number."""
        if self.peek() is None:
            raise self.refuse('%s is missing' % what)
        if not self.is_number():
            raise self.refuse('%s is expected, not %s' % (what, self.peek()))
        return int(self.take(what).text)

    def end(self):
        """Nothing may stand behind."""
        if self.at < len(self.words):
            raise self.refuse('%s stands after the end of the line' % ' '.join(word.text for word in self.words[self.at:]))
