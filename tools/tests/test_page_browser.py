"""The page in a real browser: what a reader sees, does and hears.

It needs a browser (Debian: apt-get install chromium) and a built program; without one of them all of it is skipped, and says so. With
GEO_SCREENSHOTS a folder, pictures of the pages are put there, to be looked at. From the folder tools: python3 -m unittest tests.test_page_browser
"""
import atexit
import functools
import json
import os
import subprocess
import sys
import tempfile
import time
import unittest

from geo_tools import command, steps
from geo_tools.acts import acts_of
from geo_tools.page import document
from geo_tools.program import ROOT, Program
from geo_tools.report import is_message
from geo_tools.script import Script
from geo_tools.story import Teller
from . import browser

PROGRAM = Program()
REASON = ('there is no browser: none of %s is in the path' % ', '.join(browser.BROWSERS) if not browser.path() else
          'there is no built program (tools/build, or GEO_PROGRAM)' if not PROGRAM.path else None)
DRILLS = ('again_0', 'again_1', 'again_3', 'behind_back', 'created_at_latest', 'halted_update', 'keyed_detach', 'link_cut', 'no_snapshot_ends',
          'producer_retries', 'receipts_lost', 'region_lost', 'seek_in_one_region', 'selective_lists')
WIDTHS = (1400, 800, 390)
# a page has to be open within so many seconds
OPEN = 2
# WCAG 2, level AA, for text below 18 points; for large text and for signs
CONTRAST = 4.5

# five clusters and two topics: keys, a list of targets, a lost region, cut and held links, a hole, a halt and a restart
FIVE = '''# Five regions and two topics.
geo 1
cluster rome
cluster oslo
cluster lima
cluster cairo
cluster delhi
topic orders
topic refunds
client shop orders rome
client bill orders rome
client mail orders rome
client desk refunds oslo
do shop produce
do shop pub 0 * eu1 order0
do shop pub 1 rome,lima eu2 order1
do shop pub 2 * - order2
do shop pub 3 * - order3
do bill sub billing shared earliest replicated
do bill flow 3
do bill ack rome shop 1
do bill move oslo
do mail sub billing shared earliest replicated
do mail flow 100
do desk produce
do desk pub 0 * - refund0
# The shop connects.
#: 30 connect shop
reconnect shop
serve rome shop
get shop
#: 31 run shop's next 4 lines
go shop
serve rome shop
get shop
go shop
serve rome shop
get shop
go shop
serve rome shop
get shop
go shop
serve rome shop
get shop
#: 32 connect bill
reconnect bill
serve rome bill
get bill
#: 33 run bill's next 2 lines
go bill
serve rome bill
get bill
go bill
serve rome bill
#: 34 give billing at rome
offer orders rome billing
offer orders rome billing
offer orders rome billing
get bill
get bill
get bill
#: 35 run bill's next line
go bill
serve rome bill
# All regions but the last one are linked to rome, and rome sends.
reset orders rome oslo
take orders rome oslo good
receipt orders rome oslo good
reset orders rome lima
take orders rome lima good
receipt orders rome lima good
reset orders lima rome
take orders lima rome good
receipt orders lima rome good
read orders rome oslo
take orders rome oslo good
read orders rome lima
take orders rome lima lost
# hold
#: 50 hold rome oslo
# held rome oslo
#: 51 cut rome lima
# cut rome lima
#: 52 expect oslo has order0 = yes
#: 53 expect lima has order0 = NO: it lacks 1
# A halt and a restart.
get bill
halt 0 serve rome shop
restart orders lima
# What bill did not acknowledge is offered to somebody else.
reconnect mail
serve rome mail
get mail
go mail
serve rome mail
get mail
go mail
serve rome mail
offer orders rome billing
offer orders rome billing
offer orders rome billing
get mail
get mail
get mail
# Rome is lost.
#: 60 lose rome
# lost rome
#: 61 run desk's next 2 lines
reconnect desk
serve oslo desk
go desk
serve oslo desk
go desk
serve oslo desk
'''


def six(count):
    """Six clusters, so many messages at one of them, and a settle."""
    return '\n'.join(['geo 1'] + ['cluster c%d' % at for at in range(6)] + ['topic t', 'client p t c5', 'do p produce'] + [
        'do p pub %d * k%d text%d' % (at, at, at) for at in range(count)] + ['reconnect p', 'serve c5 p', 'go p', 'serve c5 p'] + [
        'go p', 'serve c5 p'] * count + ['# name c0 reykjavik-is', 'settle', '']) + '\n'


SIX = six(12)
# of so many messages the settle has more events than stand in a page
SETTLE = six(90)

HOSTILE = '''# <script>document.title = 'taken'</script> & <b class="d">
geo 1
cluster a
cluster b
topic t
client p t a
do p produce
do p pub 0 * - <script>document.title = 'taken'</script><i class="tg">&amp;"
reconnect p
serve a p
go p
serve a p
# </span><b class="d"></b> \u00ff
go p
serve a p
settle
'''

WRITTEN = {'five': FIVE, 'six': SIX, 'hostile': HOSTILE, 'settle': SETTLE}
ALL = ('five', 'six', 'hostile') + DRILLS
# a run on threads: its schedule has more than 40,000 events
LIVE = '\n'.join(
    ['geo 1', 'chance 7 8 8 3', 'cluster east', 'cluster west', 'cluster north', 'topic orders', 'client bill orders east'] +
    ['client shop_%s orders %s' % (name[0], name) for name in ('east', 'west', 'north')] +
    [line for letter in 'ewn' for line in ['do shop_%s produce' % letter] + ['do shop_%s pub %d * - %s_%d' % (letter, at, letter, at) for at in range(600)]] +
    ['do bill sub billing exclusive earliest replicated', 'do bill flow 100000'] + ['do bill ackall'] * 80) + '\n'

# functions of the tests in the page
HELP = r'''
window.lane = name => [...document.querySelectorAll('.hd .i')].findIndex(e => e.textContent.replace(/^client /, '').trim() === name);
window.axis = name => { const e = document.querySelectorAll('.hd .i')[lane(name)].getBoundingClientRect(); return e.left + 11; };
window.openAll = () => document.querySelectorAll('.run details').forEach(e => { e.open = true; });
window.shown = e => e.checkVisibility() && e.getClientRects().length > 0;
window.rgb = text => { const c = document.createElement('canvas').getContext('2d'); c.fillStyle = '#000'; c.fillStyle = text; c.fillRect(0, 0, 1, 1); const d = c.getImageData(0, 0, 1, 1).data; return [d[0], d[1], d[2]]; };
window.light = c => { const p = c.map(v => { v /= 255; return v <= 0.04045 ? v / 12.92 : ((v + 0.055) / 1.055) ** 2.4; }); return 0.2126 * p[0] + 0.7152 * p[1] + 0.0722 * p[2]; };
window.contrast = (a, b) => { const [x, y] = [light(a), light(b)].sort((m, n) => n - m); return (x + 0.05) / (y + 0.05); };
window.clear = c => /rgba\(\d+, \d+, \d+, 0\)|transparent/.test(c);
'''
# each text that is shown with its contrast to what lies below it; the lanes' grey is taken for all of them, since a label may stand on it
CONTRASTS = r'''(() => {
  const bad = [], grey = rgb(getComputedStyle(document.documentElement).getPropertyValue('--ls'));
  const walk = document.createTreeWalker(document.body, NodeFilter.SHOW_TEXT);
  for (let node; (node = walk.nextNode());) {
    const e = node.parentElement;
    if (!node.data.trim() || !shown(e) || e.closest('script,style,noscript,.v')) continue;
    let at = e; while (at && clear(getComputedStyle(at).backgroundColor)) at = at.parentElement;
    const below = [rgb(at ? getComputedStyle(at).backgroundColor : '#fff')].concat(e.closest('.g') && !e.closest('.hd') && (!at || !at.closest('.g')) ? [grey] : []);
    const least = Math.min(...below.map(b => contrast(rgb(getComputedStyle(e).color), b)));
    if (least < LEAST) bad.push(e.className + ' ' + node.data.trim().slice(0, 30) + ' ' + least.toFixed(2));
  }
  return [...new Set(bad)];
})()'''.replace('LEAST', str(CONTRAST))
# each label that an arrow's line crosses
CROSSED = r'''(() => {
  const bad = [];
  for (const g of document.querySelectorAll('.run .g')) {
    if (!shown(g)) continue;
    const labels = [...g.querySelectorAll('.lb, .tg, .bd > span')].filter(shown).map(e => [e, e.getBoundingClientRect()]);
    for (const a of g.querySelectorAll('.a')) {
      const r = a.getBoundingClientRect();
      for (const [e, b] of labels)
        if (b.width > 1 && r.top + 1 > b.top + 1 && r.top + 1 < b.bottom - 1 && Math.min(r.right, b.right) - Math.max(r.left, b.left) > 1) bad.push(e.textContent + ' under ' + a.className);
    }
  }
  return bad;
})()'''
# each arrow that does not begin at its source's lane and end at its target's
ASTRAY = r'''(() => {
  const heads = [...document.querySelectorAll('.hd .i:not(.c)')].map(e => e.getBoundingClientRect().left + 11), bad = [];
  for (const a of document.querySelectorAll('.run .p .a, .run .r.w .a')) {
    if (!shown(a) || a.classList.contains('lo')) continue;
    const r = a.getBoundingClientRect(), right = a.classList.contains('rt');
    const begin = right ? r.left : r.right, end = right ? r.right : r.left;
    const near = (x, most) => heads.some(h => Math.abs(h - x) <= most);
    if (!near(begin, 2) || !near(end, 8)) bad.push(a.className + ' ' + begin + ' ' + end);
  }
  return bad;
})()'''


class Pages:
    """Pages in a folder, and the browser that opens them. Made once, for tests that are run one by one too."""

    def __init__(self):
        self.folder = tempfile.TemporaryDirectory()
        self.browser = browser.Browser()
        self.made = {}
        atexit.register(self.close)

    def close(self):
        self.browser.close()
        self.folder.cleanup()

    def page(self, name):
        """The file of a page and its script; a drill's page is made when it is asked for."""
        if name not in self.made:
            path = os.path.join(ROOT, *(('examples', 'failover_drill.geo') if name == 'failover' else ('drills', name + '.drill')))
            raw = WRITTEN[name].encode('utf-8') if name in WRITTEN else command.script_of(path, PROGRAM).raw
            self.made[name] = (self.written(name, document.page_of(name, Script(raw), PROGRAM)), Script(raw))
        return self.made[name]

    def written(self, name, lines):
        file = os.path.join(self.folder.name, name + '.html')
        with open(file, 'w', encoding='utf-8') as out:
            out.write('\n'.join(lines))
        return file

    @functools.cached_property
    def large(self):
        """The run and the page of a schedule that `geo live` made."""
        said = subprocess.run([PROGRAM.path, 'live', '1', '75000'], input=LIVE, capture_output=True, text=True, check=True).stdout
        script = Script((LIVE + said.partition('\nschedule\n')[2]).encode())
        run, trace = steps.run(script, PROGRAM), list(PROGRAM.lines('trace', script.raw))
        return run, self.written('large', document.drawn('large', run, trace, Teller(script, PROGRAM)))


@functools.lru_cache(maxsize=None)
def pages():
    return Pages()


@unittest.skipIf(REASON, REASON)
class PageTest(unittest.TestCase):
    """Pages of drills, opened one after the other in one browser."""

    def setUp(self):
        self.browser = pages().browser

    def open(self, name, width=1400, fragment=''):
        """Opens a page at a width."""
        self.browser.scripts(True)
        self.browser.scheme('light')
        self.browser.size(width, 900)
        self.browser.errors.clear()
        self.browser.open(pages().page(name)[0], fragment)
        self.assertEqual([], self.browser.errors)
        self.ask(HELP)

    def ask(self, expression):
        return self.browser.ask(expression)

    def count(self, selector):
        return self.ask('document.querySelectorAll(%s).length' % json.dumps(selector))

    def shot(self, name):
        folder = os.environ.get('GEO_SCREENSHOTS')
        if folder:
            os.makedirs(folder, exist_ok=True)
            self.browser.shot(os.path.join(folder, name + '.png'), whole=True)

    # ---- what is drawn ----

    def test_marks_are_those_of_the_report(self):
        """Dots, squares, arrows and `again` of the events are those that the report tells."""
        for name in DRILLS + ('five', 'six'):
            with self.subTest(name):
                self.open(name)
                report = PROGRAM.report(pages().page(name)[1].raw)
                entries = [(cluster, entry) for (_, cluster), stored in report.entries.items() for entry in stored]
                messages = sum(is_message(entry) for _, entry in entries)
                wanted = [messages, len(entries) - messages, sum(entry.origin != cluster for cluster, entry in entries), report.again()]
                rows = '.run .p %s, .run .r.w %s'
                given = [self.count(rows % (sign, sign)) for sign in ('.d', '.m', '.a[class*=" q"]', '.tg.again')]
                self.assertEqual(wanted, given)

    def test_a_lost_region_is_grey(self):
        self.open('five')
        grey = self.ask('getComputedStyle(document.querySelector("#l60").closest(".sp").querySelector(".ov .ax.ls")).backgroundColor')
        self.assertEqual(self.ask('"rgb(" + rgb(getComputedStyle(document.documentElement).getPropertyValue("--ls")).join(", ") + ")"'), grey)
        self.assertIn('rome is lost', self.ask('document.querySelector("#l60").textContent'))
        # of both topics, and the bars of its clients; before it none
        self.assertEqual(2, self.ask('document.querySelector("#l61").closest(".sp").querySelectorAll(".ax.ls").length'))
        self.assertEqual(3, self.ask('document.querySelector("#l61").closest(".sp").querySelectorAll(".at.ls").length'))
        self.assertEqual(0, self.ask('document.querySelector("#l52").closest(".sp").querySelectorAll(".ls").length'))

    def test_a_lost_region_comes_back(self):
        self.open('region_lost')
        rows = self.ask('[...document.querySelectorAll(".run .r")].map(e => [e.textContent.includes("lose east"), e.textContent.includes("return east"), '
                        '!!e.closest(".sp").querySelector(".ls")])')
        lost = [at for at, row in enumerate(rows) if row[0]]
        back = [at for at, row in enumerate(rows) if row[1]]
        self.assertEqual((1, 1), (len(lost), len(back)))
        self.assertEqual([lost[0] <= at < back[0] for at in range(len(rows))], [row[2] for row in rows])

    def test_bands_lie_between_their_lanes(self):
        self.open('five')
        for kind, row, pair in (('cu', 'l51', ('orders at rome', 'orders at lima')), ('wa', 'l50', ('orders at rome', 'orders at oslo'))):
            band = self.ask('(() => { const e = document.querySelector("#%s").closest(".sp").querySelector(".ov > .%s"); const r = e.getBoundingClientRect(); '
                            'return [r.left, r.right, getComputedStyle(e).backgroundImage.startsWith("repeating-linear-gradient")]; })()' % (row, kind))
            axes = sorted(self.ask('axis(%s)' % json.dumps(lane)) for lane in pair)
            self.assertTrue(abs(band[0] - axes[0]) < 2 and abs(band[1] - axes[1]) < 2 and band[2], (kind, band, axes))
        self.assertIn('cut: rome, lima', self.ask('document.querySelector("#l51").textContent'))
        self.assertIn('held: rome to oslo', self.ask('document.querySelector("#l50").textContent'))

    def test_halts_and_restarts_are_marks(self):
        self.open('five')
        text = self.ask('document.querySelector(".run").textContent')
        self.assertIn('halted after 0 writes, restarted', text)
        self.assertIn('\u21bbrestarted', text)
        self.assertEqual('orders at lima', self.ask(
            '(() => { const e = [...document.querySelectorAll(".run .r.w .i")].find(e => e.textContent.endsWith("restarted") && !e.textContent.includes("halted")); '
            'return document.querySelectorAll(".hd .i")[+/k(\\d+)/.exec(e.className)[1]].textContent; })()'))

    def test_what_survivors_never_get_is_red(self):
        self.open('five')
        rows = self.ask('[...document.querySelectorAll("table.ms tr.gone")].map(e => [e.textContent, getComputedStyle(e.children[0]).color, '
                        '[...e.children].map(c => c.textContent)])')
        # rome is lost at the end; order0 alone has reached oslo, and no other region
        self.assertEqual([['order0', 'yes'], ['order1', 'yes'], ['order2', 'yes']], [[cells[1], cells[8]] for _, _, cells in rows])
        self.assertEqual(['0:0', '0:0', '\u2717 never', '\u2717 never', '\u2717 never'], rows[0][2][3:8])
        self.assertEqual(['0:1', 'not for it', '\u2717 never', 'not for it', 'not for it'], rows[1][2][3:8])
        self.assertTrue(all(colour == 'rgb(176, 0, 32)' for _, colour, _ in rows))
        self.assertIn('The producer has the receipt of all of them', self.ask('document.querySelector(".warn").textContent'))

    def test_columns_of_the_table(self):
        self.open('region_lost')
        heads = self.ask('[...document.querySelectorAll("table.ms thead th")].map(e => e.textContent)')
        self.assertEqual(['message', 'text', 'for', 'at east', 'at west', 'receipt', 'got by', 'again', 'acknowledged'], heads)
        rows = self.ask('[...document.querySelectorAll("table.ms tbody tr")].map(e => [...e.children].map(c => c.textContent))')
        # of the drill's own words: order2 to order4 come again, billing knows of order0 and order1 at west by an update
        self.assertEqual(['\u2013', '\u2013', 'bill 1\u00d7', 'bill 1\u00d7', 'bill 1\u00d7', '\u2013'], [row[7] for row in rows])
        self.assertEqual(['billing: east, west (told)'] * 2 + ['billing: east, west'] * 2 + ['billing: west', '\u2013'], [row[8] for row in rows])
        self.assertEqual('bill 2\u00d7', rows[2][6])

    def test_a_hole_is_drawn_and_bars_say_their_units(self):
        self.open('five')
        row = self.ask('(() => { const e = document.querySelector("#l35 > summary .b"); return [e.textContent, e.querySelector(".br").style.background, '
                       'e.title]; })()')
        # bill acknowledged the second message alone
        self.assertEqual('orders at rome billingmark 0, backlog 2, hole', row[0].replace('\n', ''))
        self.assertIn('acknowledged beyond it: entries 1', row[2])
        self.assertRegex(row[1], r'var\(--li\) 0(\.0)?% 33\.3%, ?var\(--da\) 33\.3% 66\.7%, ?var\(--li\) 66\.7% 100')
        texts = self.ask('[...document.querySelectorAll(".run .b")].map(e => e.textContent)')
        self.assertTrue(texts and all(' backlog ' in text and 'mark ' in text for text in texts))

    def test_keys_stand_in_labels(self):
        self.open('five')
        self.assertIn('shop 0 [eu1] order0', self.ask('document.querySelector("#l31 > summary").textContent'))
        self.assertIn('got shop 0 [eu1] order0', self.ask('document.querySelector("#l34 > summary").textContent'))
        self.assertIn('[eu1]', self.ask('document.querySelector("table.ms tbody th").textContent'))

    def test_own_names(self):
        self.open('six')
        self.assertEqual('reykjavik-is', self.ask('document.querySelector(".hd .i .lb").textContent'))

    def test_labels_and_arrows(self):
        """At each width no label is crossed by an arrow, each arrow goes from lane to lane, and no message is clipped beside its tag."""
        for name in ('five', 'six', 'region_lost', 'link_cut', 'no_snapshot_ends'):
            for width in WIDTHS:
                with self.subTest(name=name, width=width):
                    self.open(name, width)
                    self.ask('openAll()')
                    self.assertEqual([], self.ask(CROSSED))
                    self.assertEqual([], self.ask(ASTRAY))
                    clipped = self.ask('[...document.querySelectorAll(".run .gt")].filter(e => shown(e) && e.nextElementSibling && '
                                       '(e.scrollWidth > e.clientWidth + 1 || e.scrollHeight > e.clientHeight + 1)).map(e => e.textContent)')
                    self.assertEqual([], clipped)
                    self.ask('document.querySelectorAll(".run details").forEach(e => { e.open = e.classList.contains("pr"); })')
                    self.assertEqual([], self.ask(CROSSED))

    # ---- rows ----

    def test_rows_are_lines_of_the_drill_and_open(self):
        self.open('region_lost')
        self.assertEqual(0, self.count('.run details.r[open]'))
        row = self.ask('[...document.querySelectorAll(".run > .sp > .r, .run > .sp > details")].find(e => e.textContent.includes("deliver east west")).id')
        self.assertEqual('deliver east west', self.ask('document.querySelector("#%s .tx").firstChild.data.trim()' % row))
        self.assertLess(0, self.ask('[...document.querySelectorAll("#%s > summary .a")].filter(shown).length' % row))
        self.assertEqual(0, self.ask('[...document.querySelectorAll("#%s > .p")].filter(shown).length' % row))
        self.browser.click('#%s > summary .tx' % row)
        words = self.ask('[...document.querySelectorAll("#%s > .p")].filter(shown).map(e => e.querySelector(".tx").textContent)' % row)
        self.assertEqual(['read orders east west', 'take orders east west good', 'receipt orders east west good'] * 3, words)
        self.assertEqual(0, self.ask('[...document.querySelectorAll("#%s > summary .a")].filter(shown).length' % row))

    def test_what_is_lost_opens_below_its_row(self):
        """Where a region is lost: by a click, also without the page's script."""
        for scripts in (True, False):
            self.open('region_lost')
            self.browser.scripts(scripts)
            self.browser.open(pages().page('region_lost')[0])
            self.assertEqual(1, self.count('.run .ms'))
            row = self.ask('document.querySelector(".run .ms").previousElementSibling.id')
            self.assertEqual('lose east', self.ask('document.querySelector("#%s .tx").firstChild.data.trim()' % row))
            self.assertIn('missing at west 1; again sub billing at west 2', self.ask('document.querySelector(".ms > summary").textContent'))
            lines = 'document.querySelector(".ms > pre").checkVisibility({ contentVisibilityAuto: true })'
            self.assertFalse(self.ask(lines))
            self.browser.click('.ms > summary')
            self.assertTrue(self.ask(lines))
            self.assertIn('backlog sub billing at west 3', self.ask('document.querySelector(".ms > pre").textContent'))
            # it stands below its row, and above the lanes
            self.assertTrue(self.ask('(() => { const e = document.querySelector(".ms > pre").getBoundingClientRect(); '
                                     'return !!document.elementFromPoint(e.left + 70, e.top + e.height / 2).closest(".ms"); })()'))
        self.browser.scripts(True)

    def test_the_first_screen_is_the_drill(self):
        for name in ('region_lost', 'five', 'again_3'):
            self.open(name)
            self.assertFalse(self.ask('document.querySelector("details.pr").open'), name)
            first = self.ask('(() => { const e = [...document.querySelectorAll(".run .r")].find(shown); return [e.textContent, e.getBoundingClientRect().top]; })()')
            self.assertIn('0:0', first[0])
            self.assertLess(first[1], 900)

    def test_a_settle_opens_to_its_events(self):
        self.open('six')
        settle = '[...document.querySelectorAll(".run details.r")].find(e => e.querySelector(".tx").textContent.startsWith("settle"))'
        words = self.ask('[...%s.querySelectorAll(".p .tx")].map(e => e.textContent.split(" ")[0])' % settle)
        # all are reset, then rounds of take, receipt and read
        self.assertEqual(['reset'] * 30, words[:30])
        self.assertNotIn('reset', words[30:])
        report = PROGRAM.report(pages().page('six')[1].raw)
        self.assertEqual(report.events - sum(event.words[0] != 'settle' for event in pages().page('six')[1].events), len(words))

    def test_a_settle_of_many_events_opens_piece_by_piece(self):
        self.open('settle')
        settle = '#e%d' % pages().page('settle')[1].events[-1].line
        self.open('settle', fragment=settle)
        self.browser.key('o')
        events = int(self.ask('document.querySelector("%s .ct").textContent.split(" ")[0]' % settle))
        self.assertLess(3000, events)
        pieces = self.ask('[...document.querySelectorAll("%s .pt > summary")].map(e => e.textContent)' % settle)
        self.assertEqual(['events %d to %d' % (at + 1, min(at + 250, events)) for at in range(0, events, 250)], pieces)
        self.assertEqual(0, self.count(settle + ' .p'))
        self.browser.click(settle + ' .pt > summary')
        self.assertEqual(250, self.ask('[...document.querySelectorAll("%s .p")].filter(shown).length' % settle))

    def test_a_silence_is_grey_and_said(self):
        """A script that nobody wrote as a drill: a region is silent until its restart, and its client leaves it."""
        self.open('failover')
        rows = self.ask('[...document.querySelectorAll(".run .r")].map(e => [e.textContent, !!e.closest(".sp").querySelector(".ax.si")])')
        silent = [at for at, (_, is_silent) in enumerate(rows) if is_silent]
        restart = [at for at, (text, _) in enumerate(rows) if 'restart orders east' in text]
        self.assertEqual((list(range(silent[0], silent[-1] + 1)), [silent[-1] + 1]), (silent, restart))
        self.assertIn('no event at east until its restart', rows[silent[0]][0])

    def test_not_by_colour_alone(self):
        """What is red, grey, hatched or yellow is said in words beside it."""
        self.open('five')
        self.ask('openAll()')
        self.assertEqual([], self.ask('[...document.querySelectorAll("tr.gone")].filter(e => !e.textContent.includes("\u2717 never") || !e.textContent.includes("lost:")).length ? ["red"] : []'))
        self.assertEqual([], self.ask('[...document.querySelectorAll(".run .id")].filter(e => !e.textContent.includes("idle")).length ? ["yellow"] : []'))
        for words in ('rome is lost', 'cut: rome, lima', 'held: rome to oslo'):
            self.assertTrue(self.ask('document.querySelector(".run").textContent.includes("%s")' % words), words)
        self.assertEqual([], self.ask('[...document.querySelectorAll(".run .tg")].filter(e => getComputedStyle(e).textDecorationLine !== "underline" || !e.textContent).length ? ["tag"] : []'))

    def test_verdicts_and_idle_events_have_words(self):
        self.open('five')
        self.assertIn('\u2713met:', self.ask('document.querySelector("#l52").textContent'))
        self.assertIn('\u2717 NO: it lacks 1', self.ask('document.querySelector("#l53").textContent'))
        self.assertIn('idle', self.ask('[...document.querySelectorAll(".id")].map(e => e.textContent).join()'))

    # ---- widths ----

    def test_five_clusters_and_two_topics_fit(self):
        self.open('five')
        self.assertLessEqual(self.ask('document.documentElement.scrollWidth'), 1400)
        # the event beside its row
        self.assertTrue(self.ask('(() => { const e = document.querySelector("#l31 > summary"); return e.querySelector(".g").getBoundingClientRect().left >= '
                                 'e.querySelector(".ev").getBoundingClientRect().right - 1; })()'))
        widths = '[...document.querySelectorAll(".hd .i")].map(e => Math.round(e.getBoundingClientRect().width))'
        self.assertEqual([26] * 5, self.ask(widths)[5:10])
        self.browser.click('#t0')
        self.browser.click('#t1')
        self.assertEqual([26] * 5, self.ask(widths)[:5])
        self.assertTrue(all(width > 80 for width in self.ask(widths)[5:10]))
        self.assertEqual(0, self.ask('[...document.querySelectorAll(".run .k0 .lb")].filter(shown).length'))
        self.browser.click('#x1')
        self.assertEqual(26, self.ask(widths)[6])
        self.assertTrue(all(width > 80 for width in self.ask(widths)[7:10]))

    def test_drills_fit_into_each_width(self):
        for name in DRILLS:
            for width in WIDTHS:
                self.open(name, width)
                self.assertLessEqual(self.ask('document.documentElement.scrollWidth'), width, name)

    def test_what_does_not_fit_keeps_its_events_in_sight(self):
        self.open('five', 390)
        self.ask('window.scrollTo(400, document.querySelector("#l34").getBoundingClientRect().top - 200)')
        self.assertLess(300, self.ask('window.scrollX'))
        for row in ('#l34', '#l52'):
            left, right = self.ask('(() => { const r = document.querySelector("%s .ev").getBoundingClientRect(); return [r.left, r.right]; })()' % row)
            self.assertTrue(0 <= left < right <= 390, (row, left, right))

    def test_at_390_pixels_the_event_stands_above_its_row(self):
        for name in DRILLS:
            self.open(name, 390)
            self.assertEqual([], self.ask('[...document.querySelectorAll(".run .r.w, .run summary.w")].filter(shown).filter(e => e.querySelector(".g") && '
                                          'e.querySelector(".ev").getBoundingClientRect().bottom > e.querySelector(".g").getBoundingClientRect().top + 1).length'
                                          ' ? ["beside"] : []'))

    # ---- one file, with and without its script ----

    def test_nothing_is_fetched_and_texts_stay_texts(self):
        for name in ALL:
            with open(pages().page(name)[0], encoding='utf-8') as file:
                text = file.read()
            self.assertFalse([word for word in ('http:', 'https:', ' src=', '@import', 'url(', '<link') if word in text], name)
        self.open('hostile')
        self.assertEqual('hostile', self.ask('document.title'))
        self.assertEqual([2, 1], [self.count('.run .p .d, .run .r.w .d'), self.count('script')])
        self.assertEqual(0, self.count('.tg:not(.ky-list .tg)'))

    def test_without_its_script(self):
        self.open('region_lost')
        self.browser.scripts(False)
        self.browser.open(pages().page('region_lost')[0])
        self.assertEqual('none', self.ask('getComputedStyle(document.querySelector(".bar")).display'))
        row = self.ask('document.querySelector(".run > .sp details.r").id')
        self.browser.click('#%s > summary .tx' % row)
        self.assertTrue(self.ask('document.querySelector("#%s").open' % row))
        self.assertLess(0, self.ask('document.querySelector("#%s > .p").getClientRects().length' % row))
        self.browser.click('#x0')
        self.assertEqual(26, self.ask('Math.round(document.querySelector(".hd .k0").getBoundingClientRect().width)'))
        self.browser.scripts(True)

    # ---- keys, links, search ----

    def test_step_by_step(self):
        self.open('region_lost')
        seen = []
        for key in 'jjojjk':
            self.browser.key(key)
            seen.append(self.ask('(document.activeElement.querySelector(".tx") || document.activeElement).textContent'))
        self.assertTrue(seen[0].startswith('Before the first message') or 'first message' in seen[0], seen)
        self.assertEqual(2, self.count('.run details[open], .run .cur'))
        self.assertEqual(seen[3], seen[5])
        self.assertNotEqual(seen[3], seen[4])
        self.assertIn('#', self.ask('location.hash'))
        top = self.ask('document.activeElement.getBoundingClientRect().top')
        self.assertTrue(0 <= top < 900)

    def test_a_link_to_a_row(self):
        self.open('region_lost')
        row = self.ask('[...document.querySelectorAll(".run details.r")].pop().id')
        self.open('region_lost', fragment='#' + row)
        self.assertEqual(row, self.ask('document.activeElement.parentElement.id'))
        self.assertTrue(0 <= self.ask('document.activeElement.getBoundingClientRect().top') < 900)
        # and one into what is folded
        inside = self.ask('document.querySelector("details.pr .r").id')
        self.open('region_lost', fragment='#' + inside)
        self.assertTrue(self.ask('document.querySelector("details.pr").open'))
        self.assertEqual('#' + row, self.ask('document.querySelector("#%s a.no").getAttribute("href")' % row))

    def test_finding_a_message(self):
        self.open('region_lost')
        self.browser.key('/')
        self.browser.type('order5')
        found = self.ask('document.getElementById("found").textContent')
        rows = self.ask('[...document.querySelectorAll(".run .r")].filter(e => e.textContent.includes("order5")).length')
        self.assertEqual('%d rows' % rows, found)
        self.assertEqual(rows, self.count('.hit'))
        self.browser.key('Enter')
        self.assertIn('order5', self.ask('document.activeElement.closest(".r").textContent'))
        self.browser.key('/')
        self.browser.type(' no such')
        self.assertEqual('in no row', self.ask('document.getElementById("found").textContent'))

    # ---- light and dark, and who hears the page ----

    def test_contrast_in_light_and_dark(self):
        for name in ('five', 'region_lost'):
            for scheme in ('light', 'dark'):
                self.open(name)
                self.browser.scheme(scheme)
                self.ask('openAll()')
                self.assertEqual([], self.ask(CONTRASTS), (name, scheme))
        self.assertGreater(self.ask('light(rgb(getComputedStyle(document.body).color))'), 0.5)

    def test_the_button_changes_the_light(self):
        self.open('region_lost')
        dark = 'light(rgb(getComputedStyle(document.body).backgroundColor)) < 0.1'
        self.assertFalse(self.ask(dark))
        self.browser.click('#theme')
        self.assertTrue(self.ask(dark))
        self.assertEqual('Light', self.ask('document.getElementById("theme").textContent'))
        self.browser.click('#theme')
        self.assertFalse(self.ask(dark))

    def test_what_is_heard(self):
        self.open('region_lost')
        heard = self.browser.heard()
        roles = [role for role, _ in heard]
        names = ' '.join(name for _, name in heard)
        self.assertTrue({'table', 'columnheader', 'rowheader', 'caption', 'heading'} <= set(roles))
        self.assertIn(('table', 'Messages of orders at the end of the run'), heard)
        names = ' '.join(names.split())
        for words in ('brought from east', 'at west stored 0:0 shop 0 order0', 'at east marker stored', 'east is lost', 'at east billing mark 0, backlog 2', 'bill got shop 0 order0'):
            self.assertIn(words, names)
        self.assertEqual([], [role for role, name in heard if role in ('image', 'button', 'checkbox', 'searchbox', 'link') and not name.strip()])
        # the table of all that happened: each event, in order
        told = self.ask('[...document.querySelectorAll(".al tbody tr")].map(e => e.children.length === 3 ? e.children[1].textContent : "").filter(e => e)')
        run = steps.run(pages().page('region_lost')[1], PROGRAM)
        self.assertEqual([' '.join(event.event.words) for moment in run.moments for event in moment.inside or (moment,)], told)

    # ---- paper ----

    def test_print(self):
        self.open('region_lost')
        self.browser.call('Emulation.setEmulatedMedia', media='print')
        self.assertEqual(['none', 'static', 'none'], self.ask('[getComputedStyle(document.querySelector(".bar")).display, getComputedStyle(document.querySelector(".hd")).position, '
                                                              'getComputedStyle(document.querySelector(".tb")).maxHeight]'))
        self.browser.call('Emulation.setEmulatedMedia', media='')
        file = os.path.join(os.environ.get('GEO_SCREENSHOTS') or pages().folder.name, 'region_lost.pdf')
        os.makedirs(os.path.dirname(file), exist_ok=True)
        self.browser.printed(file)
        self.assertLess(10000, os.path.getsize(file))

    def test_pictures(self):
        """Pictures to be looked at, where a folder is named."""
        if not os.environ.get('GEO_SCREENSHOTS'):
            self.skipTest('GEO_SCREENSHOTS names no folder')
        for name in ALL:
            for width in WIDTHS:
                self.open(name, width)
                self.shot('%s_%d' % (name, width))


@unittest.skipIf(REASON, REASON)
class LargePageTest(unittest.TestCase):
    """The page of a schedule of more than 40,000 events, made by `geo live`."""

    def setUp(self):
        self.browser = pages().browser
        self.run_, self.file = pages().large
        self.script = self.run_.script

    def open(self, fragment=''):
        self.browser.scripts(True)
        self.browser.size(1400, 900)
        self.browser.open(self.file, fragment)

    def test_it_opens_within_two_seconds(self):
        self.assertGreater(self.run_.whole.events, 40000)
        # the time of a processor, since others may want it too: the least of three
        self.browser.call('Performance.enable')
        took = []
        for _ in range(3):
            before = self.browser.processor()
            self.open()
            took.append(self.browser.processor() - before)
        self.assertLess(min(took), OPEN)
        # rows are made as they are seen
        self.assertLess(self.browser.ask('document.querySelectorAll("*").length'), 20000)
        self.browser.ask('window.scrollTo(0, document.documentElement.scrollHeight / 2)')
        self.browser.ask('new Promise(done => setTimeout(done, 500))')
        self.assertTrue(self.browser.ask('!!document.elementFromPoint(200, 450).closest(".r, .p")'))
        shots = os.environ.get('GEO_SCREENSHOTS')
        if shots:
            os.makedirs(shots, exist_ok=True)
            self.browser.shot(os.path.join(shots, 'large.png'))

    def test_a_link_a_search_and_a_step_reach_rows_that_were_not_made(self):
        line = self.script.events[len(self.script.events) * 2 // 3].line
        rows = [node.line for node in acts_of(self.script, self.run_.moments)[0] if node.line >= line]
        self.open('#e%d' % rows[0])
        self.assertEqual('e%d' % rows[0], self.browser.ask('document.activeElement.id || document.activeElement.parentElement.id'))
        self.assertTrue(0 <= self.browser.ask('document.activeElement.getBoundingClientRect().top') < 900)
        self.browser.key('j')
        self.assertEqual('e%d' % rows[1], self.browser.ask('document.activeElement.id || document.activeElement.parentElement.id'))
        self.browser.key('/')
        begun = time.time()
        self.browser.type('w_599')
        self.assertRegex(self.browser.ask('document.getElementById("found").textContent'), '^[1-9][0-9]* rows?$')
        self.assertLess(time.time() - begun, 10)
        self.browser.key('Enter')
        self.assertIn('w_599', self.browser.ask('document.activeElement.closest(".r").textContent'))

    def test_without_its_script_it_says_how_much_it_shows(self):
        self.browser.scripts(False)
        self.browser.open(self.file)
        said = self.browser.ask('document.querySelector("noscript").textContent')
        self.assertRegex(said, r'shows the first \d+ of \d+ rows, which are \d+ of %d events' % self.run_.whole.events)
        shown = self.browser.ask('document.querySelectorAll(".run .r").length')
        self.assertLess(100, shown)
        self.browser.scripts(True)


@unittest.skipUnless(PROGRAM.path, 'there is no built program (tools/build, or GEO_PROGRAM)')
class StoredPageTest(unittest.TestCase):
    def test_the_stored_page_is_the_page_of_its_script(self):
        folder = os.path.join(ROOT, 'examples')
        with open(os.path.join(folder, 'failover_drill.geo'), 'rb') as script, open(os.path.join(folder, 'failover_drill.html'), 'rb') as stored:
            page = '\n'.join(document.page_of('failover_drill.geo', Script(script.read()), PROGRAM)) + '\n'
            self.assertTrue(page.encode() == stored.read(), './geo page examples/failover_drill.geo makes another page than is stored')


if __name__ == '__main__':
    sys.exit(unittest.main())
