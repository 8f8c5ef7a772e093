"""Of a script's line that a rule refuses: the word that breaks it."""
from .forms import DOING, DRILL_WORDS, FIRST_WORDS, Line, Name, Targets, Text, near
from .told import Refusal

MOST_NAME, MOST_TEXT = 16, 1024
# the rules at which the line's form is shown
FORM_SHOWN = (4, 14, 15, 17, 18, 19)
# where the line has no place of its own
WHOLE = (None, None, None)


class Script:
    """A script's lines as text, a byte a letter, from the first one on; `above` are lines that stand before line 1, as a state has them."""

    def __init__(self, raw, above=b'', is_live=False):
        self.lines = raw.decode('latin-1').split('\n')
        self.is_whole = self.lines[-1] == ''
        if self.is_whole:
            self.lines.pop()
        self.above = [line for line in above.decode('latin-1').split('\n') if line]
        self.is_live = is_live

    def line(self, number):
        return self.lines[number - 1] if number <= len(self.lines) else None

    def before(self, number):
        """The lines that count before this one, each with its number; 0 for those of a state."""
        return ([(0, Line(text)) for text in self.above]
                + [(at, Line(text)) for at, text in enumerate(self.lines[:number - 1], 1) if text and text[0] != '#'])

    def declared(self, of, number):
        """The names of a kind that are declared before the line, each with where."""
        names = {}
        for at, line in self.before(number):
            if line.word(0) == of and line.word(1):
                names.setdefault(line.word(1), at)
        return names

    def declared_below(self, of, name, number):
        """The number of a line from this one on that declares the name; None without one."""
        for at, text in enumerate(self.lines[number - 1:], number):
            words = text.split(' ')
            if words[:2] == [of, name]:
                return at
        return None


def told(script, file, number, rule):
    """The refusal of the line of this number by this rule."""
    text = script.line(number)
    line = Line(text) if text is not None else None
    find = FINDING.get(rule)
    said = WHOLE
    expected = None
    if line is None:
        said = (at_the_end(script, rule), None, None)
    elif find is not None:
        said = find(script, number, line)
        expected = line.shown() if rule in FORM_SHOWN else None
    what, near_one, place = said
    column, width = place if place else (None, None)
    return Refusal(file=file, line=number, column=column, width=width, said=what or 'the line breaks rule %d' % rule, near=near_one,
                   text=text, expected=expected, rule_of='script', rule=rule)


def at(column, word):
    """The place of a word that begins at the column, which counts from 0."""
    return column + 1, max(1, len(word))


def at_the_end(script, rule):
    if rule == 2:
        return 'the script ends without its first line, geo 1'
    if rule == 10:
        return 'the script ends without a topic line'
    return 'the script ends here'


def odd_byte(script, number, line):
    """Rule 1."""
    advice = {'\r': 'a carriage return, as editors of Windows write; `tr -d "\\r"` takes them away', '\t': 'a tab, where one space is meant'}
    for column, byte in enumerate(line.text):
        if not ' ' <= byte <= '~':
            what = advice.get(byte)
            if what is None and line.text.startswith('\xef\xbb\xbf'):
                return 'the file begins with a byte order mark; save it as plain text (ASCII)', None, (1, 3)
            if what is None:
                what = 'the byte %02X, as of an accent, a dash or a curly quote; a line has plain ASCII, 20 to 7E, and only a comment has more' % ord(byte)
            return 'the line has ' + what, None, (column + 1, 1)
    return 'the last line has no line feed at its end', None, (len(line.text) + 1, 1)


def first_line(script, number, line):
    """Rule 2."""
    if line.text.strip().lower() == 'geo 1':
        return 'the first line is not quite geo 1', 'geo 1', (1, len(line.text))
    return 'the first line is to be: geo 1', None, (1, max(1, len(line.text)))


def unknown_word(script, number, line):
    """Rule 3."""
    first = line.word(0)
    if first == '':
        return 'a space stands before the first word', None, (1, 1)
    if first == 'do' and len(line.words) > 2:
        word, column = line.words[2]
        if word == '':
            return 'two spaces stand in a row, or one at the end', None, (column, 1)
        return '%s is nothing that a client does' % word, near(word.lower(), DOING), at(column, word)
    if first in DRILL_WORDS:
        return '%s begins a line of a drill, and this is read as a script: ./geo drill FILE plays drills' % first, None, at(0, first)
    return '%s begins no line of a script' % first, near(first.lower(), FIRST_WORDS), at(0, first)


def wrong_form(script, number, line):
    """Rule 4."""
    if line.form is None:
        return 'the line has no known form', None, None
    for wanted, word, column in line.places():
        if word is None:
            if isinstance(wanted, Text):
                return '%s is missing: a space and the text, which may be empty' % wanted.shown, None, (len(line.text) + 1, 1)
            return '%s is missing' % wanted.shown, None, (len(line.text) + 1, 1)
        if word == '' and not isinstance(wanted, Text):
            is_last = column >= len(line.text)
            return ('a space stands at the end of the line' if is_last else 'two spaces stand in a row'), None, (column, 1)
        fault = wanted.fault(word)
        if fault:
            return fault[0], fault[1], at(column, word)
    rest = line.words[line.front + len(line.form):]
    if rest and not line.has_text():
        word, column = rest[0]
        if not any(it for it, _ in rest):
            return 'a space stands at the end of the line', None, (column, 1)
        return '%s stands after the end of the line' % ' '.join(it for it, _ in rest), None, (column + 1, len(line.text) - column)
    numbers = [word for _, word, _ in line.places()]
    if line.word(0) == 'chance' and int(numbers[1]) + int(numbers[2]) > 1000:
        return 'LOST and TWICE are %d together, and 1000 at most' % (int(numbers[1]) + int(numbers[2])), None, at(line.words[2][1], numbers[1])
    return 'the words do not have the form of the line', None, None


def names(line):
    """Each name of the line with what it names and its column; those of TO one by one."""
    for wanted, word, column in line.places():
        if word is None or not isinstance(wanted, Name):
            continue
        if isinstance(wanted, Targets):
            for name in word.split(',') if word != '*' else []:
                yield wanted, name, column
                column += len(name) + 1
        else:
            yield wanted, word, column


def long_name(script, number, line):
    """Rule 5."""
    for _, name, column in names(line):
        if len(name) > MOST_NAME:
            return ('%s has %d bytes, and a name has 16 at most (a drill takes it as it is: ./geo drill)' % (name, len(name)), None, at(column, name))
    return WHOLE


def wrong_order(script, number, line):
    """Rule 6."""
    words = {6: 'an event', 5: 'a do line', 4: 'a client line', 3: 'a topic line', 2: 'a cluster line', 1: 'a ledger or chance line', 0: 'geo'}
    before = script.before(number)
    if script.above and line.kind() < 6:
        return 'after a state only events stand, and this is %s' % words[line.kind()], None, at(0, line.word(0))
    last, above = before[-1]
    return ('%s stands below %s (line %d): the order is geo, ledger and chance, cluster, topic, client, do, events'
            % (words[line.kind()], words[above.kind()], last)), None, at(0, line.word(0))


def second(script, number, line):
    """Rule 7."""
    for where, above in script.before(number):
        if above.word(0) == line.word(0):
            return '%s stands a second time; the first is line %d' % (line.word(0), where), None, at(0, line.word(0))
    return WHOLE


def too_many(what):
    """Rules 8, 11 and 12."""
    return lambda script, number, line: ('it is %s' % what, None, at(0, line.word(0)))


def twice_declared(script, number, line):
    """Rule 9."""
    name = line.word(1)
    where = script.declared(line.word(0), number).get(name)
    return 'the %s %s is declared twice; the first is line %s' % (line.word(0), name, where), None, at(line.words[1][1], name)


def topic_too_early(script, number, line):
    """Rule 10."""
    count = len(script.declared('cluster', number))
    return 'a topic stands below two cluster lines at least, and here %s' % ('is one' if count == 1 else 'is none'), None, at(0, line.word(0))


def too_many_subscriptions(script, number, line):
    """Rule 13."""
    name, column = line.words[3]
    return '%s is the 33rd subscription of its topic' % name, None, at(column, name)


def long_text(script, number, line):
    """Rule 14."""
    for wanted, word, column in line.places():
        if isinstance(wanted, Text):
            return 'TEXT has %d bytes, and 1024 at most' % len(word), None, (column + MOST_TEXT + 1, len(word) - MOST_TEXT)
    return WHOLE


def undeclared(script, number, line):
    """Rule 15."""
    for wanted, name, column in names(line):
        if wanted.of not in ('cluster', 'topic', 'client'):
            continue
        known = script.declared(wanted.of, number)
        if name in known:
            continue
        below = script.declared_below(wanted.of, name, number)
        if below:
            return 'the %s %s is declared below, at line %d' % (wanted.of, name, below), None, at(column, name)
        like = near(name, known)
        said = '%s is no %s' % (name, wanted.of)
        other = next((of for of in ('cluster', 'topic', 'client') if name in script.declared(of, number)), None)
        if other:
            said += ', but a ' + other
        if not like:
            said += '; declared: %s' % (', '.join(known) or 'none')
        return said, like, at(column, name)
    return WHOLE


def stays(script, number, line):
    """Rule 16."""
    other = 'move' if line.word(2) == 'produce' else 'produce'
    for where, above in script.before(number):
        if above.word(0) == 'do' and above.word(1) == line.word(1) and above.word(2) == other:
            return ('%s has a %s line before it (line %d), and a producer stays at its cluster: declare another client for the one of the two'
                    % (line.word(1), other, where)), None, at(*reversed(line.words[2]))
    return WHOLE


def no_subscription(script, number, line):
    """Rule 17."""
    of = dict((client.word(1), client.word(2)) for _, client in script.before(number) if client.word(0) == 'client')
    here, elsewhere = [], {}
    for _, above in script.before(number):
        if above.word(0) == 'do' and above.word(2) == 'sub' and above.word(3):
            if of.get(above.word(1)) == topic_in(line):
                here.append(above.word(3))
            else:
                elsewhere[above.word(3)] = of.get(above.word(1))
    for wanted, name, column in names(line):
        if wanted.of == 'subscription':
            like = near(name, here)
            said = '%s is no subscription of %s' % (name, topic_in(line))
            if name in elsewhere:
                said += ', but of ' + elsewhere[name]
            elif not like:
                said += '; those that a sub line names: %s' % (', '.join(dict.fromkeys(here)) or 'none')
            return said, like, at(column, name)
    return WHOLE


def topic_in(line):
    return next((name for wanted, name, _ in names(line) if wanted.of == 'topic'), None)


def same_pair(script, number, line):
    """Rule 18."""
    of = [(name, column) for wanted, name, column in names(line) if wanted.of == 'cluster']
    return 'the two clusters are the same, %s' % of[1][0], None, at(of[1][1], of[1][0])


def target_twice(script, number, line):
    """Rule 19."""
    seen = set()
    for wanted, name, column in names(line):
        if isinstance(wanted, Targets):
            if name in seen:
                return 'TO names %s twice' % name, None, at(column, name)
            seen.add(name)
    return WHOLE


def schedules(script, number, line):
    """Rule 20."""
    return 'a run on threads makes its schedule itself, so live takes no event: leave out the lines from here on', None, at(0, line.word(0))


FINDING = {
    1: odd_byte, 2: first_line, 3: unknown_word, 4: wrong_form, 5: long_name, 6: wrong_order, 7: second, 8: too_many('the ninth cluster, and 8 are the most'),
    9: twice_declared, 10: topic_too_early, 11: too_many('the 17th topic, and 16 are the most'), 12: too_many('the 33rd client of its topic, and 32 are the most'),
    13: too_many_subscriptions, 14: long_text, 15: undeclared, 16: stays, 17: no_subscription, 18: same_pair, 19: target_twice, 20: schedules,
}
