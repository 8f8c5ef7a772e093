"""Stories and pages of the stored scripts. It needs a program, and without one is skipped and says so."""
import glob
import os
import unittest

from geo_tools import steps
from geo_tools.page import page_of
from geo_tools.program import ROOT, Program
from geo_tools.report import Report
from geo_tools.script import Script
from geo_tools.story import Teller, story

from .test_page import Elements

PROGRAM = Program()
plays = unittest.skipUnless(PROGRAM.path, 'there is no program: neither GEO_PROGRAM nor a build of this source')


def content(path):
    with open(path, 'rb') as file:
        return file.read()


@plays
class StoredTest(unittest.TestCase):
    def test_stories_have_what_the_reports_have(self):
        """Of each example and drill: as many entries, messages that came again, and idle events as its stored report tells."""
        paths = sorted(path for folder in ('examples', 'drills') for path in glob.glob(os.path.join(ROOT, folder, '*.geo')))
        self.assertLess(20, len(paths))
        for path in paths:
            with self.subTest(path):
                script = Script(content(path))
                report = Report(content(path[:-len('.geo')] + '.report').decode())
                told = '\n'.join(story(steps.run(script, PROGRAM), Teller(script)))
                effects = [line for line in told.rsplit('\n\n', 1)[0].split('\n') if not line.startswith('# ')]
                given = [sum(' entry ' in line and ' at ' in line and '  idle: ' not in line for line in effects), sum(' got ' in line and 'again' in line.split(' ') for line in effects),
                         sum(line.endswith('  idle') or '  idle: ' in line for line in effects)]
                self.assertEqual([sum(map(len, report.entries.values())), report.again(), report.idle], given)

    def test_an_idle_event_has_its_cause(self):
        script = Script(content(os.path.join(ROOT, 'examples', 'stop_everything.geo')))
        told = list(story(steps.run(script, PROGRAM), Teller(script, PROGRAM)))
        self.assertEqual(['60  serve a p           idle: a has taken all that p sent', '61  get c               idle: nothing waits for c',
                          '62  take t a b good     idle: nothing is on its way from a to b', '63  receipt t a b good  idle: nothing is on its way from b to a'],
                         [line for line in told if '  idle' in line])

    def test_causes_that_are_asked(self):
        """Idle events whose cause is read off the report, or found by an experiment, each in a run of its own."""
        declared = ('geo 1\ncluster a\ncluster b\ntopic t\nclient p t a\nclient c t a\ndo p produce\ndo p pub 0 * - x\n'
                    'do c sub s shared earliest replicated\ndo c flow 1\ndo c ack a p 0\n')
        connected = 'reconnect p\nserve a p\ngo p\nserve a p\ngo p\nserve a p\nreconnect c\nserve a c\ngo c\nserve a c\n'
        cases = (('read t a b', 'nothing was read: a has no open session to b (link a b)'), ('offer t b s', 'nothing was given: s is not at b: no consumer subscribed there, and no update came'),
                 ('go p\nserve a p\nget p\nget p\nget p\nget p\nget p', 'nothing waits for p'), ('snap t b', 'no subscription at b is replicated'),
                 ('go c\nserve a c\ngo c', 'ack a p 0 waits: c does not hold x (give s at a)'), ('drop b c', 'c has no session at b'),
                 ('go p', 'p has no line left'), ('offer t a s', 'nothing was given: c has no permit left (flow)'))
        for events, wanted in cases:
            with self.subTest(events):
                script = Script((declared + connected + events + '\n').encode())
                told = list(story(steps.run(script, PROGRAM), Teller(script, PROGRAM)))
                idle = [line.split('  idle: ')[1] for line in told if '  idle: ' in line]
                self.assertEqual(wanted.replace('nothing was given: ', ''), (idle or ['none'])[-1].replace('nothing was given: ', ''))

    def test_pages_are_well_formed(self):
        for path in glob.glob(os.path.join(ROOT, 'examples', '*.geo')):
            with self.subTest(path):
                elements = Elements('\n'.join(page_of(os.path.basename(path), content(path), PROGRAM)))
                self.assertEqual(([], []), (elements.wrong, elements.open))
                self.assertEqual(len(elements.ids), len(set(elements.ids)))


if __name__ == '__main__':
    unittest.main()
