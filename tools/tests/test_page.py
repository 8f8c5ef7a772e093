"""The page as it is written: what is drawn, and that it is well formed. What a browser makes of it is tests/test_page_browser.py."""
import re
import unittest
from html.parser import HTMLParser

from geo_tools import steps
from geo_tools.acts import Fact, acts_of
from geo_tools.page import document, signs
from geo_tools.page.cursors import Cursor, Cursors
from geo_tools.page.lanes import Standing, node_of, silences
from geo_tools.page.rows import FIRST_SHORT, SHORT
from geo_tools.page.messages import Receipts, lacking
from geo_tools.report import Report, entry_of
from geo_tools.script import Script
from geo_tools.story import Teller

from .runs import LOST_TRACE, Stored, behind, lost

# elements that have no end
VOID = ('meta', 'input', 'br')

MOVED = '''geo 1
cluster a
cluster b
topic t
client p t a
client c t a
do p produce
do c move b
do c ackall
reconnect p
serve a p
go c
serve b c
go c
restart t a
'''


class Elements(HTMLParser):
    """Elements of a page, opened and closed, with their classes, and the names that are given."""

    def __init__(self, page):
        super().__init__()
        self.open, self.wrong, self.ids, self.classes, self.tags = [], [], [], [], []
        self.feed(page)

    def handle_starttag(self, tag, attrs):
        attrs = dict(attrs)
        self.tags.append(tag)
        self.classes += (attrs.get('class') or '').split(' ')
        if 'id' in attrs:
            self.ids.append(attrs['id'])
        if tag not in VOID:
            self.open.append(tag)

    def handle_endtag(self, tag):
        if not self.open or self.open.pop() != tag:
            self.wrong.append(tag)


def page_of_lost():
    run = lost()
    return '\n'.join(document.drawn('lost.geo', run, LOST_TRACE.splitlines(), Teller(run.script)))


class PageTest(unittest.TestCase):
    def has(self, text, page):
        """A page is too long to be shown where it lacks something."""
        self.assertTrue(text in page, 'the page lacks ' + text)

    def test_it_is_well_formed(self):
        elements = Elements(page_of_lost())
        self.assertEqual(([], []), (elements.wrong, elements.open))
        self.assertEqual(len(elements.ids), len(set(elements.ids)))
        self.assertEqual(1, elements.tags.count('script'))

    def test_rows(self):
        page = page_of_lost()
        self.assertEqual(['21', '22', '24', '25'], re.findall(r'<(?:details|div) class="r[^>]* id="l(\d+)"', page))
        self.has('<span class="ky">[k1]</span> first', page)
        # an arrow from the first lane to the second in the event that brought the message
        self.assertRegex(page, r'<b class="a rt q0" style="grid-area:1/1/auto/2"><span class="v">brought from east </span></b>')
        self.has('mark 0, backlog 1, <span class="ho">hole</span>', page)
        self.has('east is lost', page)
        self.has('<i class="cu" style="grid-column:1/2">', page)

    def test_a_settle_has_its_events(self):
        page = page_of_lost()
        self.has('take t east west good', page)
        self.has('reset t east west', page)

    def test_the_message_table(self):
        page = page_of_lost()
        rows = re.findall(r'<tr class="ro([^"]*)">(.*?)</tr>', page)
        cells = [(kind, re.findall(r'<t[hd][^>]*>(.*?)</t[hd]>', re.sub(r'<span[^>]*>|</span>', '', row))) for kind, row in rows]
        # the second stands at east alone, which is lost
        self.assertEqual([(' gone', ['lost: east p 1', 'second', 'all', '0:1', '\u2717 never', 'none', 'c', '\u2013', 's: east']),
                          ('', ['east p 0 [k1]', 'first', 'all', '0:0', '0:0', 'yes', 'nobody', '\u2013', '\u2013'])], cells)
        self.has('1 message is red: a region that survives never gets it.', page)

    def test_what_goes_on_from_a_state(self):
        """What stood before is known; of where it is acknowledged, and of holes, nothing is."""
        run = behind()
        page = '\n'.join(document.drawn('state', run, None, Teller(run.script)))
        elements = Elements(page)
        self.assertEqual(([], []), (elements.wrong, elements.open))
        self.has('holes in cursors, and where a message is acknowledged, are not told', page)
        row = re.search(r'<tr class="ro">(.*?)</tr>', page).group(1)
        self.assertEqual(['a p 0', 'hi', 'all', '0:0', '1:0', 'yes', 'nobody', '\u2013', 'not told'], re.findall(r'<t[hd][^>]*>(.*?)</t[hd]>', row))
        self.has('brought from a', page)

    def test_texts_are_escaped(self):
        for text in ('<b>', '&amp;', '"', "'", '\x07'):
            self.assertNotRegex(signs.safe(text), '[<>"\'\x07]|&(?!amp;|lt;|gt;|quot;|#x27;)')

    def test_a_large_page_keeps_rows_as_texts(self):
        script = Script(('geo 1\ncluster a\ncluster b\ntopic t\nclient p t a\n' + 'go p\nget p\nsnap t a\n' * 2000).encode())
        told = ('steps\nevents 0 idle 0 rounds 0\ntopic t at a\nsender b session 0 closed mark 0\ntopic t at b\nsender a session 0 closed mark 0\n'
                'client p at a lines 0/0 receipts 0 duplicates 0 errors 0\n')
        told += ''.join('step %d line %d %s\n' % (at, event.line, ' '.join(event.words)) for at, event in enumerate(script.events, 1))
        run = steps.run(script, Stored(script.raw, told + 'events 6000 idle 0 rounds 0\n'))
        page = '\n'.join(document.drawn('large', run, ['trace'], Teller(script)))
        elements = Elements(page)
        self.assertEqual(([], []), (elements.wrong, elements.open))
        said = re.search('<noscript><p class="warn">(.*?)</p>', page).group(1)
        self.assertEqual('Without a script this page shows the first 400 of 4000 rows, which are 600 of 6000 events. geo story has all of them.', said)
        standing, _, kept = page.partition('<script type="application/json"')
        self.assertEqual(400, len(re.findall(r' id="e\d+"', standing)))
        for at, long in enumerate(SHORT):
            kept = kept.replace(chr(FIRST_SHORT + at), long)
        self.assertEqual(3600, len(re.findall(r' id="e\d+"', kept)))


class SignsTest(unittest.TestCase):
    def test_a_bar_shows_holes(self):
        self.assertEqual([(0, 3), (4, 5)], signs.pieces_of(3, 6, [(0, 2), (4, 4)]))
        self.assertEqual([], signs.pieces_of(0, 6, []))
        self.assertIn('var(--da) 0.0% 25.0%,var(--li) 25.0% 50.0%,var(--da) 50.0% 75.0%,transparent 75.0%', signs.bar(1, 3, 4, [(2, 2)]))

    def test_a_label_to_the_left_stands_below_its_arrow(self):
        script = Script(b'geo 1\ncluster a\ncluster b\ncluster c\ntopic t\n')
        columns = signs.Columns(script, {})
        drawn = {}
        for origin, cluster in (('c', 'a'), ('a', 'c')):
            row = signs.Row(signs.Signs(columns, Cursors(['trace']), {}, {'t': 1}), True)
            row._Stored(steps.Stored('t', cluster, entry_of('entry 0:0 %s p 0 * data - x' % origin)))
            drawn[origin] = ''.join(row.drawn)
        self.assertRegex(drawn['c'], r'class="a lf q2" style="grid-area:1/1/auto/3".*class="i k0 th" style="grid-area:1/1".*class="i k0" style="grid-area:2/1"')
        self.assertRegex(drawn['a'], r'class="a rt q0" style="grid-area:1/1/auto/3".*class="i k2" style="grid-area:1/3"')

    def test_a_folded_row_has_an_end(self):
        script = Script(b'geo 1\ncluster a\ncluster b\ntopic t\n')
        row = signs.Row(signs.Signs(signs.Columns(script, {}), Cursors(['trace']), {}, {'t': 1}), True)
        changes = [steps.Stored('t', 'a', entry_of('entry 0:%d a p %d * data - x' % (at, at))) for at in range(signs.MOST_SHOWN + 5)]
        row.of([steps.Moment(script_event('serve a p'), False, 1, 0, changes, (), 1, None)])
        drawn, lines = row.grid()
        self.assertEqual(signs.MOST_SHOWN + 1, lines)
        self.assertEqual(signs.MOST_SHOWN, drawn.count('class="d q0"'))
        self.assertIn('and 5 more', drawn)


def script_event(line):
    return Script(('geo 1\n' + line + '\n').encode()).events[0]


class CursorsTest(unittest.TestCase):
    TRACE = '''geo 1
trace
event 1
append t a 0:0 a p 0 * data - x
append t a 0:1 a p 1 * data - x
event 2
create t a s latest
event 3
append t a 0:2 a p 2 * data - x
append t a 0:3 a p 3 * data - x
append t a 0:4 a p 4 * data - x
event 4
ack t a s 3-3 client
event 5
ack t a s 2-2,4-4 update 0:1
event 6
seek t a s 1
ack t a s - client
event 7
delete t a s
'''

    def test_ranges_as_events_go_by(self):
        cursors, seen = Cursors(self.TRACE.splitlines()), []
        for number in range(1, 7):
            cursors.up_to(number)
            seen.append(cursors.of['t', 'a', 's'].ranges if cursors.of else None)
        self.assertEqual([None, [(0, 1)], [(0, 1)], [(0, 1), (3, 3)], [(0, 4)], [(0, 0)]], seen)
        self.assertEqual(5, cursors.length['t', 'a'])
        cursors.up_to(7)
        self.assertEqual({}, cursors.of)

    def test_holes_and_reasons(self):
        cursors = Cursors(self.TRACE.splitlines())
        cursors.up_to(4)
        self.assertEqual([(3, 3)], cursors.above('t', 'a', 's', 2))
        self.assertEqual([], cursors.above('t', 'a', 'other', 0))
        self.assertEqual({0: 'latest', 1: 'latest', 3: 'client'}, cursors.of['t', 'a', 's'].reasons())
        cursors.up_to(5)
        self.assertEqual('update', cursors.of['t', 'a', 's'].reasons()[2])

    def test_ranges_join(self):
        cursor = Cursor()
        for first, last in ((5, 6), (1, 1), (3, 4), (2, 2)):
            cursor.gain(first, last, 'client')
        self.assertEqual([(1, 6)], cursor.ranges)


class LanesTest(unittest.TestCase):
    def test_where_an_event_happens(self):
        script = Script(MOVED.encode())
        cases = (('serve a p', ('t', 'a')), ('drop b c', ('t', 'b')), ('take t a b lost', ('t', 'b')), ('receipt t a b good', ('t', 'a')),
                 ('read t a b', ('t', 'a')), ('offer t b s', ('t', 'b')), ('halt 2 take t a b good', ('t', 'b')), ('go p', None), ('settle', None))
        for line, node in cases:
            self.assertEqual(node, node_of(script, line.split(' ')), line)

    def test_standing(self):
        standing = Standing(Script(b'geo 1\ncluster a\ncluster b\ntopic t\ntopic u\n'), {}, [Fact('lost', None, ('a',))])
        standing.take(Fact('cut', None, ('b', 'a')))
        standing.take(Fact('held', 'u', ('b', 'a')))
        self.assertEqual(({'a'}, {('t', 'a', 'b'), ('u', 'a', 'b')}, {('u', 'b', 'a')}), (standing.lost, standing.cuts, standing.holds))
        standing.take(Fact('mended', 't', ('a', 'b')))
        standing.take(Fact('returned', None, ('a',)))
        standing.take(Fact('released', None, ('b', 'a')))
        self.assertEqual((set(), {('u', 'a', 'b')}, set()), (standing.lost, standing.cuts, standing.holds))

    def silent(self, text):
        script = Script(text.encode())
        moments = [steps.Moment(event, False, 1, 0, [], (), 1, None) for event in script.events]
        moves = [steps.Did('c', 'move b'), steps.Moved('c', 'a', 'b')]
        first = next((moment for moment in moments if moment.event.words == ['go', 'c']), None)
        moments = [moment._replace(changes=moves) if moment is first else moment for moment in moments]
        return silences(script, acts_of(script, moments)[0], {'p': 'a', 'c': 'a'})

    def test_a_silence_until_a_restart(self):
        """From behind its last event on, where a client leaves meanwhile; not where a comment says what is lost."""
        self.assertEqual(({1: ['a']}, {2: ['a']}), self.silent(MOVED))
        self.assertEqual(({}, {}), self.silent(MOVED.replace('go c', 'go p')))
        self.assertEqual(({}, {}), self.silent(MOVED.replace('restart t a', '# lost a\nrestart t a')))


class MessagesTest(unittest.TestCase):
    SCRIPT = Script(b'geo 1\ncluster a\ncluster b\ncluster c\ntopic t\nclient p t a\ndo p produce\n')

    def test_survivors_that_never_get_it(self):
        entry = entry_of('entry 0:0 a p 0 * data - x')
        self.assertEqual([], lacking(self.SCRIPT, entry, {'a': '0:0'}, set()))
        self.assertEqual(['b', 'c'], lacking(self.SCRIPT, entry, {'a': '0:0'}, {'a'}))
        self.assertEqual(['c'], lacking(self.SCRIPT, entry, {'a': '0:0', 'b': '0:0'}, {'a'}))
        # a region that is lost itself is no survivor, and one that it is not for lacks nothing
        self.assertEqual([], lacking(self.SCRIPT, entry, {'a': '0:0', 'b': '0:0'}, {'a', 'c'}))
        self.assertEqual([], lacking(self.SCRIPT, entry_of('entry 0:0 a p 0 a,b data - x'), {'a': '0:0', 'b': '0:0'}, {'a'}))
        self.assertEqual([], lacking(self.SCRIPT, entry, {'a': '0:0'}, {'b'}))

    def test_receipts_come_in_the_order_of_publishes(self):
        receipts = Receipts(self.SCRIPT, Report())
        receipts.take([steps.Did('p', 'produce'), steps.Did('p', 'pub 0 * - x'), steps.Did('p', 'pub 7 * - y'), steps.Did('p', 'pub 8 * - z')])
        receipts.take([steps.Counted('p', 'receipts', 0, 1), steps.Counted('p', 'duplicates', 0, 1)])
        found = [receipts.of(entry_of('entry 0:0 a p %d * data - x' % seq)) for seq in (0, 7, 8)]
        self.assertEqual(['yes', 'of a duplicate', 'none'], found)


if __name__ == '__main__':
    unittest.main()
