"""The rows of a page: acts folded over their events, headings, and the stretches in which the lanes' state is one.

A page of many events keeps most of its rows as texts, which its script makes into elements as they are seen; the first ones stand in
the page itself, for readers without a script.
"""
import json
from collections import namedtuple

from ..acts import Act
from ..story import counted
from .lanes import silences, silent_fact
from .signs import safe

# a page of more events has most of its rows made as they are seen; so many stand in it all the same
MOST_WHOLE, STANDING = 3000, 400
# rows in one piece of such a page; events in one piece of an act
ROWS, EVENTS = 60, 250
# a row that is no folded one shows all
NO_END = 1 << 30
# pixels, as far as a row's height is guessed before it is seen
LINE, PAD, HEADING = 17, 8, 38

# a row's text, its height as guessed, the state of the lanes, and how many events it has
Row = namedtuple('Row', 'text height state events')


def events_of(act):
    """How many events an act is; those of a settle count."""
    return sum(moment.events if moment.event.words[0] == 'settle' else 1 for moment in act.moments)


class Rows:
    """Makes rows of acts, in their order, since cursors and lanes go on from row to row."""

    def __init__(self, script, signs, standing, pieces, teller):
        self.script, self.signs, self.standing, self.pieces, self.teller = script, signs, standing, pieces, teller

    def made(self, nodes, places):
        """The row of each heading and act."""
        begins, ends = silences(self.script, nodes, places)
        silent = []
        for at, node in enumerate(nodes):
            silent += [silent_fact(cluster) for cluster in begins.get(at, ())]
            if not isinstance(node, Act):
                yield Row('<h3 class="he" id="h%d"><span>%s</span></h3>' % (node.line, safe(node.text)), HEADING, self.standing.state(), 0)
                continue
            # a silence is said in the first row that it has
            node, silent = node._replace(facts=silent + node.facts), []
            for fact in node.facts:
                self.standing.take(fact)
            self.standing.silent.difference_update(ends.get(at, ()))
            state = self.standing.state()
            for moment in node.moments:
                self.standing.moves(moment.changes)
            yield self.act(node, state)

    # ---- an act ----

    def act(self, act, state):
        """An act's row: alone where it is one event, else folded over its events."""
        events = [(inside, bool(moment.inside)) for moment in act.moments for inside in moment.inside or (moment,)]
        if len(events) <= 1 and not (events and act.own):
            return self.single(act, [event for event, _ in events], state)
        packets = [self.packet(event, act.own or is_inside) for event, is_inside in events]
        self.read_on(act)
        drawn, lines = self.signs.row(act.moments, True, act.facts)
        head = '<summary class="w st">%s%s</summary>' % (self.event_cell(act), drawn)
        text = '<details class="r" id="%s">%s%s</details>' % (self.name(act), head, self.folded(packets))
        return Row(text, lines * LINE + PAD, state, events_of(act))

    def single(self, act, events, state):
        self.read_on(act)
        # a settle whose events nobody tells is one event with all that it changed
        is_settle = bool(events) and events[0].event.words[0] == 'settle'
        drawn, lines = self.signs.row(events, is_settle, act.facts, NO_END)
        kind = ' id' if events and events[0].idle else ''
        text = '<div class="r w st%s" id="%s" tabindex="-1">%s%s</div>' % (
            kind, self.name(act), self.event_cell(act, events), drawn)
        return Row(text, lines * LINE + PAD, state, events_of(act))

    def folded(self, packets):
        """The events of an act; of a large act in pieces of their own, which the page's script makes."""
        if not self.pieces or len(packets) <= EVENTS:
            return ''.join(packets)
        told = []
        for begin in range(0, len(packets), EVENTS):
            piece = packets[begin:begin + EVENTS]
            name = self.pieces.keep(''.join(piece))
            told.append('<details class="pt"><summary class="w"><span class="ev">events %d to %d</span></summary><div data-k="%s"></div></details>' % (
                begin + 1, begin + len(piece), name))
        return ''.join(told)

    def name(self, act):
        return ('l%d' if act.own else 'e%d') % act.line

    def read_on(self, act):
        if act.moments:
            self.signs.cursors.up_to(act.moments[-1].number)

    def packet(self, moment, is_made):
        """One event's row. Under a line of a drill or a settle it has no number: the line that it would stand in is nobody's."""
        self.signs.cursors.up_to(moment.number)
        drawn, _ = self.signs.row([moment], False)
        return '<div class="w p%s">%s%s</div>' % (' id' if moment.idle else '', self.packet_cell(moment, is_made), drawn)

    # ---- the event's column ----

    def packet_cell(self, moment, is_made):
        words = safe(' '.join(moment.event.words))
        idle = self.idle_text(moment) if moment.idle else ''
        return '<span class="ev"><span class="no">%s</span><span class="tx">%s%s</span></span>' % ('' if is_made else moment.event.line, words, idle)

    def idle_text(self, moment):
        """That an event was idle, and why."""
        return ' <span class="il">%s</span>' % safe(self.teller.idle_text(moment))

    def event_cell(self, act, events=()):
        name, begin, extra, count = self.name(act), '', '', events_of(act)
        if act.seen == 'yes':
            begin = '<span class="ok">\u2713<span class="v">met:</span></span> '
        elif act.seen:
            extra = ' <span class="bad">\u2717 %s</span>' % safe(act.seen)
        if events and events[0].idle:
            extra += self.idle_text(events[0])
        elif count > 1 or act.own:
            idle = sum(moment.idle for moment in act.moments)
            rounds = sum(moment.rounds for moment in act.moments)
            told = ([counted(count, 'event')] if count else []) + ([counted(rounds, 'round')] if rounds else [])
            told += ['<span class="il">%d idle</span>' % idle] if idle else []
            extra += ' <span class="ct">%s</span>' % ', '.join(told) if told else ''
        return '<span class="ev"><a class="no" href="#%s">%d</a><span class="tx%s">%s%s%s</span></span>' % (
            name, act.line, ' ex' if act.text.startswith('expect') else '', begin, safe(act.text), extra)


# ---- stretches ----


class Stretches:
    """The lanes themselves, drawn once for each stretch of rows in which nothing of them changes."""

    def __init__(self, columns):
        self.columns = columns

    def of(self, rows):
        """Rows as stretches."""
        told, state = [], None
        for row in rows:
            if row.state != state:
                told += ['</div>'] if state else []
                told.append('<div class="sp">' + self.lanes(row.state))
                state = row.state
            told.append(row.text)
        return ''.join(told) + ('</div>' if state else '')

    def lanes(self, state):
        """What lies below the rows of a stretch."""
        columns, told = self.columns, []
        for topic, *pair in sorted(state.cuts):
            told.append(self.band('cu', topic, pair))
        for topic, *pair in sorted(state.holds):
            told.append(self.band('wa', topic, pair))
        for topic, cluster in columns.lanes:
            kind = ' ls' if cluster in state.lost else ' si' if cluster in state.silent else ''
            told.append('<i class="ax%s" style="grid-column:%d"></i>' % (kind, columns.at[topic, cluster] + 1))
        for client, cluster in state.places:
            kind = ' ls' if cluster in state.lost else ' si' if cluster in state.silent else ''
            told.append('<i class="at q%d%s" style="grid-column:%d"></i>' % (columns.colour[cluster], kind, columns.at[client] + 1))
        return '<div class="ov" aria-hidden="true">%s</div>' % ''.join(told)

    def band(self, kind, topic, pair):
        low, high = sorted(self.columns.at[topic, cluster] for cluster in pair)
        return '<i class="%s" style="grid-column:%d/%d"></i>' % (kind, low + 1, high + 1)


# what stands in most rows, as one letter of those that are nobody's (Unicode's private use), which no text of a page has
SHORT = (
    '<div class="w p"><span class="ev"><span class="no">', '</span></span><span class="g"></span></div>', '</span></span><span class="g">',
    '</span><span class="tx">', '<div class="r w st" id="e', '" tabindex="-1"><span class="ev"><a class="no" href="#e', '</a><span class="tx">',
    '<details class="r" id="e', '"><summary class="w st"><span class="ev"><a class="no" href="#e', '</span></summary>', '</span></div>', '</details>',
    '<span class="i k', '" style="grid-area:', '<span class="cl k', '<span class="i c" title="', '<span class="i c">', '"><span class="v">', '<span class="v">',
    '<i class="br" style="background:linear-gradient(90deg,', 'var(--da) ', 'var(--li) ', 'transparent ', '%)"></i>', '<span class="lb sb">',
    '<span class="lb mu">', '<span class="lb gt">', '<span class="lb">', ' </span></b>', '</span></span>', ' title="', '<b class="a rt ', '<b class="a lf ',
    '<b class="d q', '<span class="po">', '<span class="ct">', '/auto/', '</span>', 'brought from ', 'stored ', '"></b>', ', backlog ', ': mark ', ' orders ')
FIRST_SHORT = 0xe000


def shortened(text):
    """A text in which the letters of SHORT stand for what they mean; the page's script makes it whole."""
    for at, long in enumerate(SHORT):
        text = text.replace(long, chr(FIRST_SHORT + at))
    return text


class Pieces:
    """Texts that the page's script makes into elements as they are seen."""

    def __init__(self):
        self.texts = []

    def keep(self, text):
        self.texts.append(shortened(text))
        return 'k%d' % (len(self.texts) - 1)

    def drawn(self):
        """They hold no `<` of a text that is not a page's own, so none can end its element."""
        table = '<script type="application/json" id="short">%s</script>\n' % json.dumps(SHORT).replace('</', '<\\/')
        return table + ''.join('<script type="text/plain" id="k%d">%s</script>\n' % (at, text) for at, text in enumerate(self.texts))


def pieces_of_rows(rows, size):
    """Rows in pieces of this many."""
    rows = list(rows)
    return [rows[at:at + size] for at in range(0, len(rows), size)]

