"""The reader of steps: lines to moments."""
import unittest

from geo_tools import steps
from geo_tools.changes import folded_changes
from geo_tools.program import NO_ANSWER, Failed
from geo_tools.report import Sub
from geo_tools.script import Script

from .runs import LOST, LOST_REPORT, LOST_STEPS, Stored, behind, lost


class StepsTest(unittest.TestCase):
    def setUp(self):
        self.run_ = lost()
        self.script, self.moments = self.run_.script, self.run_.moments

    def test_each_event_is_a_moment(self):
        self.assertEqual([event.line for event in self.script.events], [moment.event.line for moment in self.moments])
        self.assertEqual([26, 35], [moment.event.line for moment in self.moments if moment.idle])

    def test_numbers_count_events_that_were_not_idle(self):
        self.assertEqual([1, 2, 3, 4, 5, 6, 7, 8, 9, 9, 10, 11, 13, 13], [moment.number for moment in self.moments])
        self.assertEqual([(2, 2)], [(moment.events, moment.rounds) for moment in self.moments if moment.event.words == ['settle']])

    def test_changes(self):
        self.assertEqual([steps.Did('p', 'produce'), steps.Did('p', 'pub 0 * k1 first')], self.moments[0].changes)
        self.assertEqual([('t', 'east', '0:0', 'k1', 'first')], [(it.topic, it.cluster, it.entry.position, it.entry.key, it.entry.text)
                                                                for it in self.moments[1].changes])
        self.assertEqual([steps.Counted('p', 'receipts', 0, 1)], self.moments[4].changes)
        self.assertEqual([steps.SubChange('t', 'east', 's', None, Sub('shared', 'replicated', 0, 2, 0))], self.moments[6].changes)
        self.assertEqual([], self.moments[7].changes)
        self.assertEqual([steps.Got('c', ('east', 'p', '1'), False, ())], self.moments[8].changes)

    def test_a_settle_has_its_events_inside(self):
        settle = self.moments[12]
        self.assertEqual([['reset', 't', 'east', 'west'], ['take', 't', 'east', 'west', 'good']], [event.event.words for event in settle.inside])
        self.assertEqual([12, 13], [event.number for event in settle.inside])
        self.assertEqual([change for event in settle.inside for change in event.changes], settle.changes)

    def test_an_idle_go_says_which_line_waits(self):
        self.assertEqual('', self.moments[13].waits)
        self.assertIsNone(self.moments[9].waits)

    def test_again_and_after(self):
        reader = steps.Reader(self.script)
        reader.read('client c at east lines 1/2 receipts 0 duplicates 0 errors 0')
        self.assertEqual((steps.Got('c', ('east', 'p', '0'), False, ()),), reader.read('got east p 0'))
        self.assertEqual((steps.Got('c', ('east', 'p', '0'), True, ()),), reader.read('got east p 0'))
        seen = steps.Seen()
        seen.got('t', 's', 'c', ('east', 'p', '0'))
        self.assertEqual(steps.Got('d', ('east', 'p', '0'), False, ('c',)), seen.got('t', 's', 'd', ('east', 'p', '0')))

    def test_a_subscription_goes(self):
        reader = steps.Reader(self.script)
        reader.read('topic t at west')
        reader.read('sub s shared local mark 1 backlog 0 seeks 2')
        self.assertEqual((steps.SubChange('t', 'west', 's', Sub('shared', 'local', 1, 0, 2), None),), reader.read('gone s'))

    def test_a_window(self):
        run = steps.run(self.script, Stored(LOST, LOST_STEPS), 24, 26)
        self.assertEqual([24, 25, 26], [moment.event.line for moment in run.moments])
        self.assertEqual(7, run.left_out)
        self.assertEqual({'p': 'east', 'c': 'east', 'd': 'east'}, run.places)

    def test_what_is_kept_is_the_report(self):
        self.assertEqual(LOST_REPORT, self.run_.whole.text)
        self.assertEqual((0, {'p': 0, 'c': 0, 'd': 0}), (self.run_.begin.events, {name: client.done for name, client in self.run_.begin.clients.items()}))

    def test_no_end_is_no_answer(self):
        """Steps that a pipe cut off, of which one is missing, or whose counts are other ones."""
        lines = LOST_STEPS.splitlines()
        step = lines.index('step 5 line 20 get p')
        for told in (lines[:-1], lines[:-2], lines[:5], [], lines[:step] + lines[step + 2:], lines[:-1] + ['events 14 idle 2 rounds 2']):
            with self.assertRaises(Failed) as caught:
                steps.run(self.script, Stored(LOST, '\n'.join(told)))
            self.assertIn('the steps have no end', str(caught.exception))
            self.assertEqual(NO_ANSWER, caught.exception.status)

    def test_a_script_without_events(self):
        raw = LOST[:LOST.index(b'# The producer')]
        told = LOST_STEPS[:LOST_STEPS.index('step 1 ')] + 'events 0 idle 0 rounds 0\n'
        run = steps.run(Script(raw), Stored(raw, told))
        self.assertEqual(([], 0), (run.moments, run.whole.events))

    def test_what_goes_on_from_a_state(self):
        """What is declared comes from the program, lines count in the events' file, and what stood before is known."""
        run = behind()
        self.assertEqual((['a', 'b'], {'p': ['produce', 'pub 0 * - hi']}), (run.script.clusters, run.script.does))
        self.assertEqual([(2, 17, 1), (3, 19, 2)], [(moment.event.line, moment.number, moment.events) for moment in run.moments])
        self.assertEqual(([18, 19], 1), ([event.number for event in run.moments[1].inside], run.moments[1].rounds))
        self.assertEqual((16, 2, 19), (run.begin.events, run.begin.clients['p'].done, run.whole.events))

    def test_several_events_as_one(self):
        folded = list(folded_changes(change for moment in self.moments for change in moment.changes))
        subs = [change for change in folded if isinstance(change, steps.SubChange)]
        self.assertEqual([steps.SubChange('t', 'east', 's', None, Sub('shared', 'replicated', 0, 1, 0))], subs)
        self.assertEqual(3, sum(isinstance(change, steps.Stored) for change in folded))
        # what is as before is no change
        there = [steps.Counted('p', 'receipts', 0, 1), steps.Counted('p', 'receipts', 1, 0)]
        self.assertEqual([], list(folded_changes(there)))


if __name__ == '__main__':
    unittest.main()
