"""What is lost at a row of a run: which rows, of which regions, of what the program is asked, and how a story and a page show it."""
import unittest

from geo_tools import measures, steps
from geo_tools.acts import acts_of
from geo_tools.page import document
from geo_tools.program import WRONG_WORDS, Failed
from geo_tools.script import Behind, Script
from geo_tools.story import Teller, measured, records, story

from .runs import EVENTS, LOST, LOST_TRACE, STATE, behind, lost

# what the program is taken to say; a message is named where it is asked for a state
NUMBERS = '''lost east topic t
making 0
untold sub s 0
missing at west 1
again sub s at west 0
backlog sub s at west 1
lost 1
alone 0
differ 0
'''
NAMED = NUMBERS.replace('lost 1\n', 'lost 1\n  east p 1\n')


class Asked:
    """In the place of the program: what it was asked, and one answer to all of it."""

    path = 'asked'

    def __init__(self, answer=NUMBERS):
        self.asked, self.answer = [], answer

    def lines(self, command, raw, tell=None):
        self.asked.append((command, raw))
        return iter(self.answer.splitlines())


def rows(run, is_apart=False):
    return list(measures.rows_of(run, acts_of(run.script, run.moments)[0], is_apart))


def moved(text):
    """A run of a script in which each `go c` moves the client from east to west, or back."""
    script, told, at = Script(text.encode()), [], ['east', 'west']
    for event in script.events:
        changes = [steps.Moved('c', *at)] if event.words == ['go', 'c'] else []
        at = at[::-1] if changes else at
        told.append(steps.Moment(event, False, 1, 0, changes, (), len(told) + 1, None))
    return steps.Run(script, told, 0, None, None, {'c': 'east'}, [])


DECLARED = 'geo 1\ncluster east\ncluster west\ntopic t\nclient p t east\nclient c t east\n'


class RowsTest(unittest.TestCase):
    def test_rows_end_where_their_events_do(self):
        """A line of a drill is a row; what has no events ends where the row before it does."""
        ends = {row.key: LOST[:row.end].decode().splitlines()[-1] for row in rows(lost())}
        self.assertEqual({(21, True): 'get p', (22, True): 'settle', (24, True): 'settle', (25, True): 'go p'}, ends)
        self.assertEqual(rows(lost()), rows(lost(), True))

    def test_rows_of_a_story_are_events(self):
        run = moved(DECLARED + 'reconnect p\nserve east p\nget p\nreconnect c\n')
        self.assertEqual([(7, False), (10, False)], [row.key for row in rows(run)])
        self.assertEqual([(7, False), (8, False), (9, False), (10, False)], [row.key for row in rows(run, True)])

    def test_a_region_goes_where_it_is_lost_or_left(self):
        run = moved(DECLARED + 'reconnect p\ngo c\nreconnect p\n# lost west\nreconnect c\ngo c\nreconnect p\n# returned west\nreconnect p\ngo c\n'
                    'reconnect p\ngo c\n')
        # west is left where it is lost already, and again when it is back
        self.assertEqual([((8, False), ['east']), ((10, False), ['west']), ((16, False), ['east']), ((18, False), ['west'])],
                         [(row.key, clusters) for row, clusters in measures.going(rows(run))])

    def test_chosen_rows(self):
        found = rows(lost())
        self.assertEqual([((22, True), ['east', 'west']), ((24, True), ['east'])], [(row.key, of) for row, of in measures.chosen(lost().script, found, [24, 22])])
        with self.assertRaises(Failed) as caught:
            measures.chosen(lost().script, found, [23])
        self.assertEqual(('no row has the number 23', WRONG_WORDS), (str(caught.exception), caught.exception.status))


class AskingTest(unittest.TestCase):
    def test_what_the_program_is_asked(self):
        """The script up to the row: of the region that is lost there, or of each."""
        program = Asked()
        found = measured(lost(), Script(LOST), program, [21, 24])
        to = {line: LOST[:LOST.index(behind_it) + len(behind_it)] for line, behind_it in ((21, b'get p\n'), (24, b'settle\n'))}
        self.assertEqual([('lost east numbers', to[21]), ('lost west numbers', to[21]), ('lost east numbers', to[24])], program.asked)
        self.assertEqual(['east', 'west'], [measure.cluster for measure in found[21, True]])
        self.assertEqual(NUMBERS.splitlines(), found[24, True][0].lines)

    def test_of_a_state_the_messages_are_left_out(self):
        program = Asked(NAMED)
        found = measured(behind(), Behind(STATE, EVENTS), program, [2])
        self.assertEqual([('lost %s from' % cluster, STATE + EVENTS[:EVENTS.index(b'settle')]) for cluster in 'ab'], program.asked)
        self.assertEqual(NUMBERS.splitlines(), found[2, False][0].lines)

    def test_of_a_part_of_a_run(self):
        """What is left out before the first row is done all the same."""
        program, run = Asked(), lost()
        part = run._replace(moments=[moment for moment in run.moments if moment.event.line > 28], left_out=12)
        measured(part, Script(LOST), program, [24])
        self.assertEqual([('lost east numbers', LOST[:LOST.index(b'settle\n') + 7])], program.asked)

    def test_a_page_asks_so_much_and_no_more(self):
        run = moved(DECLARED + 'go c\nreconnect p\n' * (measures.MOST_ROWS + 3))
        program = Asked()
        # one of the rows at which a region goes is asked for too, and another one, at which none does
        found = document.measures_of(run, run.script, program, [7, 8])
        self.assertEqual((1, 2), (len(found.of[7, False]), len(found.of[8, False])))
        self.assertEqual((measures.MOST_ROWS + 2, 2), (len(found.of), found.left_out))
        self.assertEqual(measures.MOST_ROWS + 3, len(program.asked))


class ShownTest(unittest.TestCase):
    def test_lines_by_the_names_of_a_drill(self):
        lines = ('lost a topic b', 'making 0', 'untold sub sub 1', 'missing at a 0', 'again sub sub at a 2', 'lost 3')
        self.assertEqual(['lost A topic B', 'making 0', 'untold sub SUB 1', 'missing at A 0', 'again sub SUB at A 2', 'lost 3'],
                         [measures.by_names(line, {'a': 'A', 'b': 'B', 'sub': 'SUB', 'at': 'AT', 'lost': 'LOST'}.get) for line in lines])

    def test_what_counts(self):
        lines = NUMBERS.splitlines()
        self.assertEqual(['missing at west 1', 'backlog sub s at west 1', 'lost 1'], list(measures.counts(lines)))
        self.assertEqual(['t: missing at west 1', 't: backlog sub s at west 1', 't: lost 1', 'u: alone 2'],
                         list(measures.counts(lines + ['lost east topic u', 'alone 2'])))

    def test_a_story(self):
        run = lost()
        told = list(story(run, Teller(run.script), measures={(24, True): [measures.Measure('east', NUMBERS.splitlines())]}))
        at = told.index('24  lose east')
        self.assertEqual(['      lost east topic t', '        making 0', '        untold sub s 0', '        missing at west 1'], told[at + 1:at + 5])
        self.assertEqual('        differ 0', told[at + 9])
        # nothing else of it is another one
        self.assertEqual(list(story(run, Teller(run.script))), told[:at + 1] + told[at + 10:])

    def test_records(self):
        run, found = lost(), {(24, True): [measures.Measure('east', NUMBERS.splitlines())]}
        lines = records(run, Teller(run.script), found)['lines']
        self.assertEqual([[{'line': 24, 'region': 'east', 'lines': NUMBERS.splitlines()}]], [it['measures'] for it in lines if 'measures' in it])

    def test_a_page(self):
        """Below the row that loses the region, folded, and of each other row nothing."""
        run, given = lost(), Script(LOST)
        found = document.measures_of(run, given, Asked(), [])
        page = '\n'.join(document.drawn('lost.geo', run, LOST_TRACE.splitlines(), Teller(run.script), measures=found))
        self.assertEqual(1, page.count('<details class="ms">'))
        told = page[page.index('<details class="ms">'):]
        self.assertTrue(told.startswith('<details class="ms"><summary><span>If east goes here: missing at west 1; backlog sub s at west 1; lost 1</span></summary><pre>lost east topic t\nmaking 0\n'))
        self.assertLess(page.index('id="l24"'), page.index('<details class="ms">'))
        self.assertLess(page.index('<details class="ms">'), page.index('id="l25"'))


if __name__ == '__main__':
    unittest.main()
