"""Makes one page of a script's run, to be looked at in a browser: one file, with nothing fetched, that also works without its script.

Time goes down. A row is a line of a drill, or events that belong together; it opens to its events. Each topic at a cluster has a lane:
a dot is a message that was stored, a square a marker, an arrow shows where replication brought an entry from, a bar is what a
subscription has acknowledged. A lost region's lane is grey, a cut or held link a hatched band. Each client has a column with the lines
that it did, its moves, and what it got, `again` where it got the same message before. Above stands a table of all messages, in which a
message that a survivor never gets is red. The page is printed: geo page FILE > page.html
"""
import argparse

from .. import command, steps
from ..acts import Act, acts_of, facts_of, own_names
from ..measures import Measures, by_names, chosen, counts, rows_of
from ..progress import silent
from ..steps import Got, Stored
from ..story import Teller, counted
from .cursors import Cursors, appended
from .lanes import Standing
from .messages import PIECE, Receipts, fates, head, legend, row
from .rows import LINE, MOST_WHOLE, PAD, ROWS, STANDING, Pieces, Rows, Stretches, pieces_of_rows
from .signs import Columns, Signs, hidden, safe, text_labels
from .style import chooser_rules, column_rules, key, open_topics, script_text, style_text


# of a run all is shown, and no row is measured but those at which a region goes
SHOWN = argparse.Namespace(first=1, last=None, at=())


class Page:
    """What is drawn of a run, and what it is drawn with: the lines of its trace, None where there is none, who tells an event, and the
    measures of rows, None where none are taken."""

    def __init__(self, run, trace, teller, tell, measures=None):
        self.script, self.moments, self.whole, self.teller, self.tell, self.run = run.script, run.moments, run.whole, teller, tell, run
        self.measures = measures
        script = run.script
        self.names = own_names(script)
        self.columns = Columns(script, self.names)
        self.nodes, self.before = acts_of(script, self.moments)
        self.large = sum(max(1, len(moment.inside)) for moment in self.moments) > MOST_WHOLE
        self.pieces = Pieces() if self.large else None
        self.has_trace, self.trace = trace is not None, trace or list(appended(run))

    def name(self, name):
        return self.names.get(name, name)

    def standing(self):
        return Standing(self.script, self.run.places, self.before)

    def lost(self):
        """What is lost at the end of the run, also where only a part of it is shown."""
        standing = Standing(self.script, {}, [])
        for fact in facts_of(self.script):
            standing.take(fact)
        return standing.lost

    def most(self):
        """The most entries of each topic, which a bar's length stands for."""
        return {topic: max([len(self.whole.entries[topic, cluster]) for cluster in self.script.clusters] + [1]) for topic in self.script.topics}


# ---- messages ----


def message_tables(page):
    """A table of each topic's messages."""
    cursors, receipts, lost = Cursors(page.trace), Receipts(page.script, page.run.begin), page.lost()
    cursors.up_to(page.whole.events)
    receipts.take(page.run.answers)
    for topic in page.script.topics:
        found = list(fates(topic, page.script, page.whole, cursors if page.has_trace else None, receipts, lost))
        if not found:
            continue
        yield legend(found, lost, page.name)
        yield '<div class="tb" tabindex="0" role="region" aria-label="messages of %s">' % safe(page.name(topic)) + head(page.script, topic, page.name)
        found.sort(key=lambda fate: not fate.lacks)
        yield from table_pieces(page, [row(page.script, fate, page.name) for fate in found])
        yield '</table></div>'


def table_pieces(page, rows):
    """The rows of a table; those of a large page in pieces."""
    if not page.large or len(rows) <= PIECE:
        yield '<tbody>%s</tbody>' % ''.join(rows)
        return
    yield '<tbody>%s</tbody>' % ''.join(rows[:PIECE])
    for begin in range(PIECE, len(rows), PIECE):
        piece = rows[begin:begin + PIECE]
        yield '<tbody data-k="%s"><tr><td colspan="99" style="height:%dpx"></td></tr></tbody>' % (page.pieces.keep(''.join(piece)), 22 * len(piece))


# ---- the drawing ----


def chooser(page):
    """Boxes for topics, clusters and clients; the columns of those that are not chosen fold to a line."""
    columns, script = page.columns, page.script
    groups = [('Topics', 't', [(topic, at < open_topics(columns)) for at, topic in enumerate(script.topics)] if len(script.topics) > 1 else []),
              ('Clusters', 'x', [(cluster, True) for cluster in script.clusters]), ('Clients', 'c', [(client, True) for client in columns.clients])]
    yield '<div class="cz no-print">'
    for title, kind, things in groups:
        if things:
            yield '<fieldset><legend>%s</legend>' % title
            yield from ('<label><input type="checkbox" id="%s%d"%s> %s</label>' % (kind, at, ' checked' if chosen else '', safe(page.name(name)))
                        for at, (name, chosen) in enumerate(things))
            yield '</fieldset>'
    yield '</div>'


def heads(page):
    """The names of the columns, which stay in sight."""
    columns = page.columns
    yield '<div class="hd"><div class="w"><span class="ev"><span class="no">line</span><span class="tx">what is done</span></span><span class="g">'
    for at, (topic, cluster) in enumerate(columns.lanes):
        yield '<span class="i k%d" style="grid-area:1/%d"><b class="sq q%d"></b><span class="lb">%s</span></span>' % (
            at, at + 1, columns.colour[cluster], safe(columns.lane(topic, cluster)))
    for client in columns.clients:
        at = columns.at[client]
        yield '<span class="i c k%d" style="grid-area:1/%d"><span class="lb">%s%s</span></span>' % (at, at + 1, hidden('client'), safe(columns.name(client)))
    yield '</span></div></div>'


def first_message(nodes):
    """How many nodes stand before the act in which the first message is stored, and the events of these."""
    for at, node in enumerate(nodes):
        if isinstance(node, Act) and any(isinstance(change, Stored) and change.entry.kind == 'data' for moment in node.moments for change in moment.changes):
            # a heading stands with what follows it
            while at and not isinstance(nodes[at - 1], Act):
                at -= 1
            return at
    return 0


def protocol(page, nodes, rows, stretches):
    """What stands before the first message, folded."""
    events, names = sum(row.events for row in rows), {}
    for node in nodes:
        if isinstance(node, Act):
            names[node.text.split(':')[0] if not node.own else node.text.split(' ')[0]] = None
    lines = sum(isinstance(node, Act) for node in nodes)
    if not lines:
        return stretches.of(rows)
    return '<details class="pr" id="before"><summary class="w st"><span class="ev">Before the first message: %s, %s <span class="ct">(%s)</span></span></summary>%s</details>' % (
        counted(lines, 'line'), counted(events, 'event'), safe(', '.join(list(names)[:6])), stretches.of(rows))


def measured(page, node, row):
    """The row of a heading or an act, and folded below it what is lost if a region goes behind it."""
    found = page.measures.of.get((node.line, node.own), ()) if page.measures and isinstance(node, Act) else ()
    told = ''.join(fold(page, measure) for measure in found)
    return row._replace(text=row.text + told, height=row.height + len(found) * (LINE + PAD)) if told else row


def fold(page, measure):
    """What is lost if a region goes: what counts, and behind it every line."""
    lines = [by_names(line, page.name) for line in measure.lines]
    return '<details class="ms"><summary><span>If %s goes here: %s</span></summary><pre>%s</pre></details>' % (
        safe(page.name(measure.cluster)), safe('; '.join(counts(lines)) or 'all numbers are 0'), '\n'.join(map(safe, lines)))


def drawing(page):
    """The rows."""
    columns = page.columns
    signs = Signs(columns, Cursors(page.trace), text_labels(columns, page.moments), page.most())
    rows = []
    for node, row in zip(page.nodes, Rows(page.script, signs, page.standing(), page.pieces, page.teller).made(page.nodes, page.run.places)):
        rows.append(measured(page, node, row))
        page.tell('drawing rows', len(rows), len(page.nodes))
    stretches = Stretches(columns)
    begin = first_message(page.nodes)
    begin = begin if begin <= STANDING else 0
    yield '<div class="run">'
    yield from heads(page)
    if begin:
        yield protocol(page, page.nodes[:begin], rows[:begin], stretches)
    yield from standing_rows(page, rows, begin, stretches)
    yield '</div>'


def standing_rows(page, rows, begin, stretches):
    """The rows of a page from the first message on; of a large one those that stand in it, and pieces for the others."""
    if not page.large:
        yield stretches.of(rows[begin:])
        return
    end = max(begin, STANDING)
    yield stretches.of(rows[begin:end])
    for piece in pieces_of_rows(rows[end:], ROWS):
        yield '<div class="k" data-k="%s" style="height:%dpx"></div>' % (page.pieces.keep(stretches.of(piece)), sum(row.height for row in piece))
    yield ('<noscript><p class="warn">Without a script this page shows the first %d of %d rows, which are %d of %d events. '
           'geo story has all of them.</p></noscript>' % (min(end, len(rows)), len(rows), sum(row.events for row in rows[:end]), sum(row.events for row in rows)))


def told_table(page):
    """All that happened, as a table for those who hear the page."""
    if page.large:
        return
    yield '<details class="al"><summary>What happened, as a table</summary><table><caption>Each event with what it did</caption><thead><tr>'
    yield '<th scope="col">line</th><th scope="col">event</th><th scope="col">what it did</th></tr></thead><tbody>'
    for node in page.nodes:
        if not isinstance(node, Act):
            yield '<tr><th colspan="3" scope="rowgroup">%s</th></tr>' % safe(node.text)
            continue
        if node.own or node.facts:
            yield '<tr><td>%d</td><td colspan="2"><b>%s</b>%s</td></tr>' % (node.line, safe(node.text), ' ' + safe(node.seen) if node.seen else '')
        for moment in node.moments:
            for event in moment.inside or (moment,):
                told = '; '.join(page.teller.effects(event))
                yield '<tr><td>%s</td><td>%s</td><td>%s</td></tr>' % (event.event.line, safe(' '.join(event.event.words)), safe(told))
    yield '</tbody></table></details>'


# ---- the page ----


def summary(page):
    """A sentence of counts, and what is left out."""
    whole, script = page.whole, page.script
    after = sum(isinstance(change, Got) and bool(change.others) for moment in page.moments for change in moment.changes)
    yield '<p>%s, %d idle, %s of settling.' % (counted(whole.events, 'event'), whole.idle, counted(whole.rounds, 'round'))
    yield 'Got again by the same client: %d; got by a client after another one of its subscription: %d.</p>' % (whole.again(), after)
    if not page.has_trace:
        yield '<p>It goes on from a state, whose trace nobody has: holes in cursors, and where a message is acknowledged, are not told.</p>'
    if len(page.moments) < len(script.events):
        yield '<p><b>%d of %d lines of events are shown</b>, from line %s on.</p>' % (
            len(page.moments), len(script.events), page.moments[0].event.line if page.moments else '\u2013')
    if page.measures and page.measures.left_out:
        yield '<p>What is lost if a region goes is not told at %s where one goes: <code>--at ROW</code> says it.</p>' % counted(page.measures.left_out, 'row')


def tools_bar():
    """What only the page's script can do; it shows the bar."""
    return ('<div class="bar no-print" hidden><label for="find">Find a message</label> <input id="find" type="search" placeholder="order2" autocomplete="off">'
            '<output id="found" for="find"></output><button type="button" id="theme">Dark</button>'
            '<button type="button" id="all">Open all</button><span class="ks">Keys: <kbd>j</kbd> next row, <kbd>k</kbd> row before, <kbd>o</kbd> open or fold, '
            '<kbd>/</kbd> find, <kbd>n</kbd> next one found</span></div>')


def drawn(name, run, trace, teller, tell=silent, measures=None):
    """The page, part by part."""
    page = Page(run, trace, teller, tell, measures)
    yield '<!DOCTYPE html>\n<html lang="en"><head><meta charset="utf-8"><meta name="viewport" content="width=device-width, initial-scale=1">'
    yield '<title>%s</title><style>%s%s%s</style></head><body>' % (safe(name), style_text(page.columns), column_rules(page.columns), chooser_rules(page.columns))
    yield '<header><h1>%s</h1>' % safe(name)
    if page.script.title():
        yield '<p>%s</p>' % safe(page.script.title())
    yield from summary(page)
    yield '</header>' + tools_bar() + '<main><section><h2 id="messages">Messages</h2>'
    yield from message_tables(page)
    yield '</section><section class="wh"><h2 id="run">What happened</h2>' + key()
    yield from chooser(page)
    if page.nodes:
        yield from drawing(page)
    yield '</section>'
    yield from told_table(page)
    yield '<details class="rp"><summary>The report</summary><pre>%s</pre></details></main>' % '\n'.join(map(safe, page.whole.text.split('\n')))
    if page.pieces:
        yield page.pieces.drawn()
    yield '<script>%s</script></body></html>' % script_text()


def measures_of(run, given, program, numbers, tell=silent):
    """The measures of the rows of these numbers, and of those at which a region goes."""
    measures, found = Measures(given, program, tell), list(rows_of(run, acts_of(run.script, run.moments)[0], False))
    measures.take(run, chosen(run.script, found, numbers))
    measures.take_going(run, found)
    return measures


def page_of(name, given, program, words=SHOWN, tell=silent):
    """The lines of the page of a script, or of a state with what goes on from it: of a run that tells its steps, one that tells its trace,
    where it is a script's, and one for each row that is measured. `words` say which lines of events are shown, and which rows are measured."""
    run = steps.run(given, program, words.first, words.last, tell)
    measures = measures_of(run, given, program, words.at, tell)
    trace = list(program.lines('trace', given.raw, tell)) if given.is_script else None
    yield from drawn(name, run, trace, Teller(run.script, program if given.is_script else None), tell, measures)


def main(words):
    parser = command.arguments(argparse.ArgumentParser(prog='geo page', description=__doc__, formatter_class=argparse.RawDescriptionHelpFormatter))
    words = parser.parse_args(words)

    def show(given, name, program, tell):
        for part in page_of(name, given, program, words, tell):
            print(part)
    return command.shown(show, parser, words)
