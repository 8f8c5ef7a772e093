"""The story: a run in words. What is expected stands in full, worked out by the rules of docs/."""
import unittest

from geo_tools import steps
from geo_tools.script import Script
from geo_tools.story import Teller, records, story

from .runs import Stored, behind, lost

SMALL = b'''# A small run.
geo 1
cluster a
cluster b
topic t
client p t a
do p produce
do p pub 0 * - hi
reconnect p
serve a p
go p
serve a p
get p
# Two answers wait, and no third one.
get p
get p
go p
serve a p
'''
SMALL_STEPS = '''steps
events 0 idle 0 rounds 0
topic t at a
sender b session 0 closed mark 0
topic t at b
sender a session 0 closed mark 0
client p at a lines 0/2 receipts 0 duplicates 0 errors 0
step 1 line 9 reconnect p
step 2 line 10 serve a p
step 3 line 11 go p
  client p at a lines 1/2 receipts 0 duplicates 0 errors 0
step 4 line 12 serve a p
step 5 line 13 get p
step 6 line 15 get p
step 7 line 16 idle get p
step 8 line 17 go p
  client p at a lines 2/2 receipts 0 duplicates 0 errors 0
step 9 line 18 serve a p
  topic t at a
  entry 0:0 a p 0 * data - hi
events 8 idle 1 rounds 0
'''
SMALL_STORY = '''# A small run.
 2  geo 1
 3  cluster a
 4  cluster b
 5  topic t
 6  client p t a
 7  do p produce
 8  do p pub 0 * - hi
 9  reconnect p  -
10  serve a p    -
11  go p         p does: produce
12  serve a p    -
13  get p        -
# Two answers wait, and no third one.
15  get p        -
16  get p        idle: nothing waits for p
17  go p         p does: pub 0 * - hi
18  serve a p    at a entry 0:0 a p 0 * data - hi

idle: line 16
again: none
events 8 idle 1 rounds 0'''
LOST_FOLDED = '''# The producer sends.
21  run p's next 3 lines  p does: produce
                          p does: pub 0 * k1 first
                          at east entry 0:0 east p 0 * data k1 first
                          p does: pub 1 * - second
                          at east entry 0:1 east p 1 * data - second
                          p receipts 0 -> 1
22  give s at east        2 rounds, 2 events
                          c does: sub s shared earliest replicated
                          c got east p 1
                          c does: ack east p 1
                          at east sub s shared replicated mark 0 backlog 1
                          at east sender west session 0 -> 1, closed -> opening
                          at west entry 0:0 east p 0 * data k1 first
                          idle: nothing waits for d
# East goes.
24  lose east
25  cut east west         idle: p has no line left

idle: line 22, 25
again: none
events 13 idle 2 rounds 2'''


class WithCauses(Teller):
    """Tells by words alone why an event was idle, since no program is asked here."""

    def idle_text(self, moment):
        words = moment.event.words
        return 'idle: ' + ('nothing waits for %s' % words[1] if words[0] == 'get' else '%s has no line left' % words[1])


class StoryTest(unittest.TestCase):
    def test_a_small_run(self):
        run = steps.run(Script(SMALL), Stored(SMALL, SMALL_STEPS))
        self.assertEqual(SMALL_STORY, '\n'.join(story(run, WithCauses(run.script))))

    def test_lines_of_a_drill_are_folded(self):
        run = lost()
        told = '\n'.join(story(run, WithCauses(run.script)))
        self.assertEqual(LOST_FOLDED, told[told.index('# The producer'):])

    def test_packets(self):
        run = lost()
        told = list(story(run, WithCauses(run.script), True))
        at = told.index('21  run p\'s next 3 lines')
        wanted = (('  go p', 'p does: produce'), ('', 'p does: pub 0 * k1 first'), ('  serve east p', 'at east entry 0:0 east p 0 * data k1 first'))
        # the columns are as wide as the longest words, those of the settle's second event
        width = len('    take t east west good')
        self.assertEqual(['    %s  %s' % (words.ljust(width), effect) for words, effect in wanted], told[at + 1:at + 4])
        # a settle opens to its events
        self.assertIn('        take t east west good  at west entry 0:0 east p 0 * data k1 first', told)

    def test_what_goes_on_from_a_state(self):
        """What the state declares has no lines; those of the events count from 1."""
        run = behind()
        self.assertEqual('\n'.join([
            '   geo 1', '   cluster a', '   cluster b', '   topic t', '   client p t a', '   do p produce', '   do p pub 0 * - hi', '# On it goes.',
            '2  reconnect p  -', '3  settle       1 round, 2 events', '                at a sender b session 1 -> 2, closed -> opening',
            '                at b entry 1:0 a p 0 * data - hi', '', 'idle: none', 'again: none', 'events 19 idle 1 rounds 1']),
            '\n'.join(story(run, WithCauses(run.script))))

    def test_records(self):
        run = lost()
        told = records(run, WithCauses(run.script))
        self.assertEqual({'line': 14, 'heading': 'The producer sends.'}, told['lines'][0])
        first = told['lines'][1]
        self.assertEqual((21, "run p's next 3 lines", True, 5), (first['line'], first['words'], first['own'], len(first['events'])))
        settle = told['lines'][2]['events'][-1]
        self.assertEqual(['reset t east west', 'take t east west good'], [event['words'] for event in settle['events']])
        self.assertEqual((13, 2, 2), (told['events'], told['idle'], told['rounds']))

    def test_an_idle_go_without_a_program(self):
        run = lost()
        self.assertEqual('idle: no line is left', Teller(run.script).idle_text(run.moments[-1]))


if __name__ == '__main__':
    unittest.main()
