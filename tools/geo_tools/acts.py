"""The acts of a run: what a page or a story shows as one row. An act is a line of a drill with its events, as far as the script's
comments say them, or else events that belong together: of one client, one pair of clusters, one subscription.

The comments of a script that are read here (docs/PAGE.md), besides headings:

    #: 37 deliver east west      line 37 of a drill; its events follow. What was seen of it may stand behind it, after ` = `
    # lost X, # returned X       from here on X is lost, and no more
    # cut X Y, # mended X Y      the link between X and Y is cut, of all topics or of the one before X, and no more
    # held X Y, # released X Y   what X sends to Y waits, and no more
    # name M N                   the name M of the script stands for the name N of a drill
"""
import re
from collections import Counter, namedtuple

# `line` is the number that is shown, `own` whether it is a line of a drill, `seen` what stands behind its ` = `, `at` the line of the script
Act = namedtuple('Act', 'line own text seen moments facts at')

# `topic` is None where all are meant
Fact = namedtuple('Fact', 'word topic clusters')


class Heading(namedtuple('Heading', 'line lines')):
    """Comments that stand together, for a reader."""

    @property
    def text(self):
        return ' '.join(self.lines)


# how many clusters each of these words has behind it
FACTS = {'lost': 1, 'returned': 1, 'cut': 2, 'mended': 2, 'held': 2, 'released': 2}
OWN_LINE = re.compile(r':\s*([0-9]+)\s(.*?)(?: = (yes|NO: .*|IN VAIN: .*))?')
MANY = ' \u00d7'


def own_line(text):
    """Of a comment that is a line of a drill: its number, its words and what was seen of it."""
    found = OWN_LINE.fullmatch(text)
    return (int(found.group(1)), found.group(2), found.group(3) or '') if found else None


def fact_of(script, text):
    """Of a comment that says what no event does: what it says."""
    words = text.split(' ')
    count = FACTS.get(words[0])
    if count is None:
        return None
    topic, clusters = None, words[1:]
    if count == 2 and len(clusters) == 3 and clusters[0] in script.topics:
        topic, clusters = clusters[0], clusters[1:]
    fits = len(clusters) == count == len(set(clusters)) and all(name in script.clusters for name in clusters)
    return Fact(words[0], topic, tuple(clusters)) if fits else None


def facts_of(script):
    """All that comments say, in order."""
    found = [fact_of(script, other.text) for other in script.others if other.kind == 'comment']
    return [fact for fact in found if fact]


def own_names(script):
    """The names of a drill by those of its script."""
    found = {}
    for other in script.others:
        words = other.text.split(' ')
        if other.kind == 'comment' and words[0] == 'name' and len(words) == 3:
            found[words[1]] = words[2]
    return found


def is_heading(script, text):
    """Whether a comment is one of a person, for a reader."""
    return bool(text) and not own_line(text) and not fact_of(script, text) and not text.startswith('name ')


# ---- events that belong together ----


def thing(words):
    """What an event is about: events of one thing that follow each other are one act. None: it is an act alone."""
    word = words[0]
    if word in ('reconnect', 'go', 'get') and len(words) > 1:
        return ('client', words[1])
    if word == 'serve' and len(words) > 2:
        return ('client', words[2])
    if word in ('reset', 'read', 'take', 'receipt') and len(words) > 3:
        return ('pair', words[1]) + tuple(sorted(words[2:4]))
    if word == 'offer' and len(words) > 3:
        return ('sub',) + tuple(words[1:4])
    return None


class Together:
    """Whether the next event goes on with the act at hand."""

    def __init__(self, script):
        self.script = script
        self.end()

    def end(self):
        self.of, self.words = None, set()

    def goes_on(self, words):
        """Takes the next event; gives whether it belongs to those before it."""
        of, word = thing(words), words[0]
        same = of is not None and of == self.of
        if self.of and self.of[0] == 'sub' and word == 'get':
            # what a client takes behind an offer of its topic
            same, of = self.script.topic_of.get(words[-1]) == self.of[1], self.of
        if word == 'reconnect' or (word == 'go' and 'reconnect' in self.words) or (word == 'reset' and 'read' in self.words):
            same = False
        self.words = (self.words if same else set()) | {word}
        self.of = of if same or word != 'get' else thing(words)
        return same


def joined_words(moments):
    """Several events in one line: which, and how often."""
    of = thing(moments[0].event.words)
    counts = Counter()
    for moment in moments:
        words = moment.event.words
        if of[0] == 'pair':
            name = ' '.join([words[0]] + [word for word in words[4:] if word != 'good'])
        else:
            name = words[0] if of[0] == 'client' or words[0] == 'offer' else ' '.join(words)
        counts[name] += 1
    told = ', '.join(name + (MANY + str(count) if count > 1 else '') for name, count in counts.items())
    head = of[1] if of[0] == 'client' else '%s at %s' % (of[3], of[2]) if of[0] == 'sub' else '%s, %s' % of[2:]
    return '%s: %s' % (head, told)


# ---- from lines to acts ----


class Walk:
    """Goes through comments and events in the order of the script."""

    def __init__(self, script):
        self.script, self.nodes, self.together = script, [], Together(script)
        self.heading, self.act = None, None

    def comment(self, other):
        own, fact = own_line(other.text), fact_of(self.script, other.text)
        if fact and self.act and not self.act.moments and self.act.facts is not None:
            self.act.facts.append(fact)
        elif own or fact:
            line, text, seen = own or (other.line, other.text, '')
            self.begin(Act(line, bool(own), text, seen, [], [fact] if fact else [], other.line))
        elif is_heading(self.script, other.text):
            if self.heading:
                self.nodes[-1] = Heading(self.heading.line, self.heading.lines + (other.text,))
            else:
                self.nodes.append(Heading(other.line, (other.text,)))
            self.heading, self.act = self.nodes[-1], None
            self.together.end()

    def begin(self, act):
        self.heading, self.act = None, act
        self.nodes.append(act)
        self.together.end()

    def moment(self, moment):
        goes_on = self.together.goes_on(moment.event.words)
        if not (self.act and (self.act.own or (self.act.moments and goes_on))):
            words = moment.event.words
            self.begin(Act(moment.event.line, False, ' '.join(words), '', [], [], moment.event.line))
            self.together.goes_on(words)
        self.heading = None
        self.act.moments.append(moment)

    def done(self):
        """The acts and headings; the words of an act that is no line of a drill are told when all its events are known."""
        return [node._replace(text=joined_words(node.moments)) if isinstance(node, Act) and not node.own and len(node.moments) > 1 else node
                for node in self.nodes]


def acts_of(script, moments):
    """The acts and headings of these moments, and the facts that stand before them."""
    above = len(script.above())
    comments = [other for other in script.others[above:] if other.kind == 'comment']
    begin = moments[0].event.line if moments else 0
    # the comments of the first event that is shown are shown with it; those behind the last one where no other follows
    first = max([event.line for event in script.events if event.line < begin], default=0)
    is_end = not moments or moments[-1].event.line == script.events[-1].line
    last = len(script.raw) if is_end else moments[-1].event.line
    before = [fact_of(script, other.text) for other in comments if other.line < first]
    walk = Walk(script)
    items = [(other.line, None, other) for other in comments if first <= other.line < last] + [(it.event.line, it, None) for it in moments]
    for _, moment, other in sorted(items, key=lambda item: item[0]):
        if moment:
            walk.moment(moment)
        else:
            walk.comment(other)
    return walk.done(), [fact for fact in before if fact]
