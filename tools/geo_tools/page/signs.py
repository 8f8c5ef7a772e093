"""The signs of a row: each change as an element of a grid whose columns are lanes and clients.

A lane is a topic at a cluster. An arrow goes from its source's lane to its target's in the line where the entry arrived, so it crosses
no label: one to the right ends before its label, one to the left stands above it.
"""
import html

from .. import steps as m
from ..changes import folded_changes
from ..report import identity, is_message
from .lanes import inner, node_of

# how many stored entries, and as many got messages, a folded row shows in one column
MOST_SHOWN = 8
# a bar shows at most so many pieces, since a pixel is the least
MOST_PIECES = 24

# what a comment's word is called in a row
FACT_WORDS = {'lost': '%s is lost', 'returned': '%s is back', 'cut': '\u2702 cut: %s, %s', 'mended': 'linked: %s, %s', 'held': 'held: %s to %s',
              'released': 'released: %s to %s', 'silent': 'no event at %s until its restart'}


def safe(text):
    """A text for the page: escaped, and without control characters."""
    return html.escape(text if text.isprintable() else ''.join(letter if letter.isprintable() else '\ufffd' for letter in text))


def hidden(text):
    """A text for those who hear the page."""
    return '<span class="v">%s </span>' % safe(text)


class Columns:
    """The columns of a page, numbered from 0: lanes in the order of topics and clusters, then clients."""

    def __init__(self, script, names):
        self.script, self.names = script, names
        self.lanes = [(topic, cluster) for topic in script.topics for cluster in script.clusters]
        self.clients = list(script.clients)
        self.at = {thing: at for at, thing in enumerate(self.lanes + self.clients)}
        self.colour = {cluster: at for at, cluster in enumerate(script.clusters)}
        at = '' if len(script.topics) > 1 else 'at '
        self.said = [hidden(at + self.lane(*lane)) for lane in self.lanes] + [hidden(self.name(client)) for client in self.clients]

    def name(self, name):
        return self.names.get(name, name)

    def lane(self, topic, cluster):
        name = self.name(cluster)
        return '%s at %s' % (self.name(topic), name) if len(self.script.topics) > 1 else name


def marker_name(entry):
    """A marker in two words: its kind, and its snapshot's id or its subscription."""
    return ' '.join(entry.what.split(' ')[:2])


def message_label(columns, entry):
    """A message by producer, sequence id, key and text."""
    key = '' if entry.key in (None, '-', '') else ' <span class="ky">[%s]</span>' % safe(entry.key)
    return '%s %s%s %s' % (safe(columns.name(entry.producer)), entry.seq, key, safe(entry.text))


def entry_label(columns, entry):
    said = message_label(columns, entry) if is_message(entry) else safe(marker_name(entry))
    return '<span class="lb">%s<span class="po">%s</span> %s</span>' % (
        hidden('stored' if is_message(entry) else 'marker stored'), entry.position, said)


def title_of(entry):
    return safe(' '.join((entry.origin, entry.producer, entry.seq, entry.what)))


def pieces_of(mark, length, ranges):
    """The acknowledged pieces of a bar, as (first, end): below the mark-delete, and each range above it."""
    pieces = [(0, mark)] if mark else []
    for low, high in ranges[:MOST_PIECES]:
        if high >= mark:
            pieces.append((max(low, mark), min(high + 1, length)))
    return pieces


def bar(mark, length, total, ranges):
    """A bar: dark where entries are acknowledged, light where they are not, blank where no entry stands yet."""
    part = 100 / max(1, total)
    stops, at = [], 0
    for first, end in pieces_of(mark, length, ranges) + [(length, length)]:
        if first > at:
            stops.append('var(--li) %.1f%% %.1f%%' % (at * part, first * part))
        if end > first:
            stops.append('var(--da) %.1f%% %.1f%%' % (first * part, end * part))
        at = max(at, end)
    stops.append('transparent %.1f%%' % (length * part))
    return '<i class="br" style="background:linear-gradient(90deg,%s)"></i>' % ','.join(stops)


class Signs:
    """Draws rows. `cursors` has to be read on as events go by; `texts` has each message's label, `most` each topic's most entries."""

    def __init__(self, columns, cursors, texts, most):
        self.columns, self.cursors, self.texts, self.most = columns, cursors, texts, most

    def row(self, moments, folded, facts=(), most=MOST_SHOWN):
        """The signs of these events in one row, below what comments say: its grid, and how many lines it takes."""
        row = Row(self, folded, most)
        row.facts(facts)
        row.of(moments)
        return row.grid()


class Row:
    """A row in the making: the next free line of each column."""

    def __init__(self, signs, folded, most=MOST_SHOWN):
        self.signs, self.columns, self.folded, self.most = signs, signs.columns, folded, most
        self.free, self.cells = [0] * len(self.columns.at), {}
        self.drawn, self.shown, self.senders = [], {}, {}

    def of(self, moments):
        marks = {}
        for moment in moments:
            self.packet(moment)
            for node, text in self.marks(moment):
                marks.setdefault(node, text)
        for node, text in marks.items():
            self.lane_text(node, '<b class="x" aria-hidden="true">\u21bb</b><span class="lb">%s</span>' % text)
        for change in self.changes(moments):
            getattr(self, '_' + type(change).__name__)(change)
        for column, count in self.shown.items():
            if self.folded and count > self.most:
                self.put(column[1], '<span class="lb mu">and %d more</span>' % (count - self.most))
        if self.senders:
            # below all arrows, since such a label may take several lines
            self.free = [max(self.free)] * len(self.free)
        for (at, state), names in self.senders.items():
            self.put(at, '<span class="lb mu">%s to %s</span>' % (state, safe(', '.join(names))))

    def grid(self):
        """The row's grid. What a client did stands in one cell beside all lines of the lanes, so that neither spreads the other."""
        lines = max(self.free)
        for column, cells in self.cells.items():
            self.drawn.append('<span class="cl k%d" style="grid-area:1/%d/span %d">%s</span>' % (column, column + 1, lines + 1, ''.join(cells)))
        rows = ' style="grid-template-rows:repeat(%d,auto) 1fr"' % lines if lines and self.cells else ''
        return '<span class="g"%s>%s</span>' % (rows, ''.join(self.drawn)), max([1, lines] + [len(cells) for cells in self.cells.values()])

    def changes(self, moments):
        """The changes to draw: all of one event; of a folded row without those that later ones replace."""
        changes = [change for moment in moments for change in moment.changes]
        return folded_changes(changes) if self.folded else changes

    # ---- places ----

    def lines(self, first, last):
        """Takes a line that is free in these columns, below all that stands in them."""
        line = max(self.free[first:last + 1])
        self.free[first:last + 1] = [line + 1] * (last + 1 - first)
        return line + 1

    def put(self, column, content, kind='', title=''):
        """An element in the next line of a column, with the column's name for who hears it."""
        if column < len(self.columns.lanes):
            self.at(self.lines(column, column), column, content, kind, title)
        else:
            self.cells.setdefault(column, []).append('<span class="i c"%s>%s%s</span>' % (
                ' title="%s"' % title if title else '', self.columns.said[column], content))

    def at(self, line, column, content, kind='', title=''):
        """An element in a line of a lane."""
        self.drawn.append('<span class="i k%d%s" style="grid-area:%d/%d"%s>%s%s</span>' % (
            column, ' ' + kind if kind else '', line, column + 1, ' title="%s"' % title if title else '', self.columns.said[column], content))

    def lane_text(self, node, content, kind=''):
        if node in self.columns.at:
            self.put(self.columns.at[node], content, kind)

    def may_show(self, what, column):
        """Whether there is room for one more of these in this column of a folded row."""
        count = self.shown[what, column] = self.shown.get((what, column), 0) + 1
        return not self.folded or count <= self.most

    # ---- what comments say ----

    def facts(self, facts):
        """Labels on the lanes, or between the lanes, that comments are about."""
        links = {}
        for fact in facts:
            for topic in [fact.topic] if fact.topic else self.columns.script.topics:
                if len(fact.clusters) == 1:
                    self.on_lane(fact, topic)
                else:
                    links.setdefault((fact.word, topic), []).append(fact.clusters)
        for (word, topic), pairs in links.items():
            self.between_lanes(word, topic, pairs)

    def on_lane(self, fact, topic):
        is_lost = fact.word == 'lost'
        self.put(self.columns.at[topic, fact.clusters[0]], '<b class="x" aria-hidden="true">%s</b><span class="lb %s">%s</span>' % (
            {'lost': '\u2717', 'returned': '\u21bb'}.get(fact.word, '\u2026'), 'bad' if is_lost else 'mu' if fact.word == 'silent' else '', FACT_WORDS[fact.word] % safe(self.columns.name(fact.clusters[0]))))

    def between_lanes(self, word, topic, pairs):
        """One label for all links of which the same is said at once."""
        lanes = sorted(self.columns.at[topic, cluster] for pair in pairs for cluster in pair)
        told = [FACT_WORDS[word] % tuple(safe(self.columns.name(cluster)) for cluster in pair) for pair in pairs]
        said = told[0] if len(told) == 1 else '%s: %d links' % (told[0].split(':')[0], len(told))
        line = self.lines(lanes[0], lanes[-1])
        self.drawn.append('<span class="bd k%d k%d" style="grid-area:%d/%d/auto/%d" title="%s"><span>%s</span></span>' % (
            lanes[0], lanes[-1], line, lanes[0] + 1, lanes[-1] + 1, '; '.join(told), said))

    # ---- arrows ----

    def arrow(self, source, target, kind, said):
        """An arrow between two lanes; gives the line where it ends."""
        low, high = min(source, target), max(source, target)
        line = self.lines(low, high - 1 if target < source else high)
        self.drawn.append('<b class="a %s %s" style="grid-area:%d/%d/auto/%d">%s</b>' % (
            'rt' if source < target else 'lf', kind, line, low + 1, high + 1, hidden(said)))
        return line

    def packet(self, moment):
        """The way of a packet between clusters that brought no entry; of a folded row only one that was lost."""
        words = inner(moment.event.words)
        if moment.idle or words[0] not in ('take', 'receipt') or len(words) < 5:
            return
        lost, (_, topic, x, y, *_) = words[4] == 'lost', words
        source, target = ((topic, x), (topic, y)) if words[0] == 'take' else ((topic, y), (topic, x))
        if any(isinstance(change, m.Stored) and change.entry.origin == source[1] for change in moment.changes) or (self.folded and not lost):
            return
        if source in self.columns.at and target in self.columns.at and source != target:
            kind = 'lo' if lost else 'pk' if words[0] == 'take' else 'pk an'
            name = self.columns.name
            self.arrow(self.columns.at[source], self.columns.at[target], kind, '%s from %s to %s%s' % (
                'packet' if words[0] == 'take' else 'answer', name(source[1]), name(target[1]), ' lost' if lost else ''))

    def marks(self, moment):
        """Halts, restarts and stops, each as its lane and its words."""
        words = moment.event.words
        if words[0] == 'halt' and len(words) > 2:
            yield node_of(self.columns.script, words), 'halted after %s write%s, restarted' % (safe(words[1]), '' if words[1] == '1' else 's')
        elif words[0] == 'restart' and not moment.idle:
            yield node_of(self.columns.script, words), 'restarted'
        elif words[0] == 'stop':
            yield from ((lane, 'stopped, restarted') for lane in self.columns.lanes)

    # ---- changes ----

    def _Stored(self, change):
        entry, at = change.entry, self.columns.at[change.topic, change.cluster]
        source = self.columns.at.get((change.topic, entry.origin), at)
        colour = self.columns.colour.get(entry.origin, 0)
        sign = '<b class="%s q%d"></b>' % ('d' if is_message(entry) else 'm', colour)
        if not self.may_show('entry', at):
            return
        label, title = entry_label(self.columns, entry), title_of(entry)
        if source == at:
            self.put(at, sign + label, '', title)
            return
        line = self.arrow(source, at, 'q%d' % colour, 'brought from ' + self.columns.name(entry.origin))
        if source < at:
            self.at(line, at, sign + label, '', title)
        else:
            self.drawn.append('<span class="i k%d th" style="grid-area:%d/%d">%s</span>' % (at, line, at + 1, sign))
            self.put(at, label, '', title)

    def _SubChange(self, change):
        at, name, sub = self.columns.at[change.topic, change.cluster], self.columns.name(change.name), change.after
        if sub is None:
            self.put(at, '<span class="lb mu">%s is gone</span>' % safe(name))
            return
        length = self.signs.cursors.length.get((change.topic, change.cluster), sub.mark)
        ranges = self.signs.cursors.above(change.topic, change.cluster, change.name, sub.mark)
        said = '<span class="lb sb">%s</span><span class="lb">mark %d, backlog %d%s</span>' % (
            safe(name), sub.mark, sub.backlog, ', <span class="ho">hole</span>' if ranges else '')
        new = '' if change.before else ' new, %s, %s' % (sub.kind, sub.replicated)
        self.put(at, bar(sub.mark, length, self.signs.most[change.topic], ranges) + said, 'b', safe(
            '%s%s: mark %d, backlog %d%s' % (name, new, sub.mark, sub.backlog, held(ranges))))

    def _SenderChange(self, change):
        new, at = change.after, self.columns.at[change.topic, change.cluster]
        if self.folded:
            # of a folded row all replicators of a lane by their state
            self.senders.setdefault((at, new.state), []).append(self.columns.name(change.to))
            return
        self.put(at, '<span class="lb mu">to %s: %s, mark %d</span>' % (safe(self.columns.name(change.to)), new.state, new.mark))

    def _Did(self, change):
        at = self.columns.at[change.client]
        if self.may_show('line', at):
            self.put(at, '<span class="lb mu">%s</span>' % safe(self.said(change.line)), title=safe(change.line))

    def said(self, line):
        """A `do` line, as short as it can be told."""
        words = line.split(' ', 4)
        if words[0] == 'pub' and len(words) == 5:
            to = '' if words[2] == '*' else ' to ' + words[2]
            return 'pub %s%s%s %s' % (words[1], to, '' if words[3] == '-' else ' [%s]' % words[3], words[4])
        return line

    def _Moved(self, change):
        self.put(self.columns.at[change.client], '<span class="lb mv q%d">now at %s</span>' % (
            self.columns.colour[change.after], safe(self.columns.name(change.after))))

    def _Counted(self, change):
        kind = 'mu' if change.word == 'receipts' else 'bad'
        self.put(self.columns.at[change.client], '<span class="lb %s">%s %d</span>' % (kind, change.word, change.after))

    def _Got(self, change):
        at = self.columns.at[change.client]
        if not self.may_show('got', at):
            return
        topic = self.columns.script.topic_of[change.client]
        label = self.signs.texts.get((topic, change.message), safe(' '.join(change.message[1:])))
        tags = (['again'] if change.again else []) + (['after ' + ', '.join(map(self.columns.name, change.others))] if change.others else [])
        before = '<b class="re" aria-hidden="true">\u21ba</b>' if tags else ''
        said = ''.join('<span class="tg %s">%s</span>' % (tag.split(' ')[0], safe(tag)) for tag in tags)
        self.put(at, '%s<span class="lb gt">got %s</span>%s' % (before, label, said), title=safe(' '.join(change.message + tuple(tags))))


def held(ranges):
    """The ranges that are acknowledged above a hole, in words."""
    return ', acknowledged beyond it: entries ' + ', '.join('%d' % low if low == high else '%d to %d' % (low, high) for low, high in ranges) if ranges else ''


def text_labels(columns, moments):
    """Each message's label, by topic and identity."""
    texts = {}
    for moment in moments:
        for change in moment.changes:
            if isinstance(change, m.Stored) and is_message(change.entry):
                texts.setdefault((change.topic, identity(change.entry)), message_label(columns, change.entry))
    return texts
