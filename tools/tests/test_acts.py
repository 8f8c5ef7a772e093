"""Comments and events to acts."""
import unittest

from geo_tools.acts import Act, Fact, Heading, acts_of, fact_of, own_line, own_names
from geo_tools.script import Script
from geo_tools.steps import Moment

from .runs import lost

SCRIPT = '''geo 1
# name us_east_1 us-east-1
cluster us_east_1
cluster b
topic t
client p t b
client c t b
do c sub s shared earliest local
'''


def acts(events):
    """The acts and headings of these lines, none of whose events did anything."""
    script = Script((SCRIPT + events).encode())
    return acts_of(script, [Moment(event, False, 1, 0, [], (), 1, None) for event in script.events])


class ActsTest(unittest.TestCase):
    def test_lines_of_a_drill(self):
        self.assertEqual((37, 'deliver east west', ''), own_line(': 37 deliver east west'))
        self.assertEqual((38, 'expect a got x once', 'yes'), own_line(': 38 expect a got x once = yes'))
        self.assertEqual((38, 'expect a got x', 'NO: it is 3'), own_line(': 38 expect a got x = NO: it is 3'))
        self.assertEqual((9, 'deliver a b', 'IN VAIN: b has all'), own_line(': 9 deliver a b = IN VAIN: b has all'))
        self.assertEqual((9, 'expect a has x = y', ''), own_line(': 9 expect a has x = y'))
        for text in ('37 deliver', ': deliver', 'a: 3 b'):
            self.assertIsNone(own_line(text))

    def test_what_no_event_says(self):
        script = Script(SCRIPT.encode())
        self.assertEqual(Fact('lost', None, ('b',)), fact_of(script, 'lost b'))
        self.assertEqual(Fact('cut', None, ('us_east_1', 'b')), fact_of(script, 'cut us_east_1 b'))
        self.assertEqual(Fact('held', 't', ('b', 'us_east_1')), fact_of(script, 'held t b us_east_1'))
        for text in ('lost', 'lost c', 'lost b for good', 'cut b', 'cut b b', 'cut u b us_east_1', 'b is lost', 'Lost b'):
            self.assertIsNone(fact_of(script, text), text)

    def test_own_names(self):
        self.assertEqual({'us_east_1': 'us-east-1'}, own_names(Script(SCRIPT.encode())))

    def test_headings_and_lines(self):
        nodes, before = acts('# One,\n# and two.\n#: 12 send a b\nread t b us_east_1\nread t b us_east_1\n#: 13 lose b\n# lost b\n# Three.\nsettle\n')
        self.assertEqual([Heading(9, ('One,', 'and two.')), 'send a b', 'lose b', Heading(16, ('Three.',)), 'settle'],
                         [node if isinstance(node, Heading) else node.text for node in nodes])
        self.assertEqual([(12, True, 2, []), (13, True, 0, [Fact('lost', None, ('b',))]), (17, False, 1, [])],
                         [(act.line, act.own, len(act.moments), act.facts) for act in nodes if isinstance(act, Act)])
        self.assertEqual([], before)

    def test_a_fact_by_hand_is_an_act(self):
        nodes, _ = acts('read t b us_east_1\n# cut us_east_1 b\n# lost b\nread t b us_east_1\n')
        self.assertEqual([('read t b us_east_1', 0), ('cut us_east_1 b', 2), ('read t b us_east_1', 0)], [(act.text, len(act.facts)) for act in nodes])

    def test_events_that_belong_together(self):
        cases = (
            ('reconnect p\nserve b p\nget p\ngo p\nserve b p\ngo p\nserve b p\n', ['p: reconnect, serve, get', 'p: go \u00d72, serve \u00d72']),
            ('reset t b us_east_1\ntake t b us_east_1 good\nreset t us_east_1 b\nread t b us_east_1\nreset t b us_east_1\n',
             ['b, us_east_1: reset \u00d72, take, read', 'reset t b us_east_1']),
            ('take t b us_east_1 lost\ntake t b us_east_1 good\n', ['b, us_east_1: take lost, take']),
            ('offer t b s\noffer t b s\nget c\nget c\ngo c\n', ['s at b: offer \u00d72, get c \u00d72', 'go c']),
            ('snap t b\nsnap t b\nstop\nsettle\nhalt 1 serve b p\n', ['snap t b', 'snap t b', 'stop', 'settle', 'halt 1 serve b p']),
            ('go p\ngo c\ngo p\n', ['go p', 'go c', 'go p']))
        for events, wanted in cases:
            self.assertEqual(wanted, [act.text for act in acts(events)[0]])

    def test_a_window_has_the_facts_before_it(self):
        script = Script((SCRIPT + '# lost b\ngo p\n# A heading.\ngo c\n').encode())
        moments = [Moment(event, False, 1, 0, [], (), 1, None) for event in script.events]
        nodes, before = acts_of(script, moments[1:])
        self.assertEqual([Fact('lost', None, ('b',))], before)
        self.assertEqual([Heading(11, ('A heading.',)), 'go c'], [node if isinstance(node, Heading) else node.text for node in nodes])
        # a heading of the next event is none of this window
        self.assertEqual(['lost b', 'go p'], [node.text for node in acts_of(script, moments[:1])[0]])

    def test_of_a_run(self):
        run = lost()
        script = run.script
        nodes, _ = acts_of(script, run.moments)
        self.assertEqual(['The producer sends.', "run p's next 3 lines", 'give s at east', 'East goes.', 'lose east', 'cut east west'],
                         [node.text for node in nodes])


if __name__ == '__main__':
    unittest.main()
