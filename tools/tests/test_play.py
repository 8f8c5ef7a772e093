"""Drills, played: what is told, what is in vain and why, what is refused by what came of it, and that a fault is told by its line."""
import json
import unittest

from geo_tools.drill.did import of_trace
from geo_tools.drill.language import Drill
from geo_tools.drill.play import Play
from geo_tools.program import Program

from .played import PROGRAM, content, plays, said

HEAD = '''geo 1
cluster east
cluster west
topic orders
client shop orders east
client bill orders east
do shop produce
do shop pub 0 * - order0
do shop pub 1 * - order1
do bill sub billing exclusive earliest replicated
do bill flow 1
do bill ackall
'''
# so many lines stand before what a case adds
BEFORE = HEAD.count('\n')
PUBLISHED = "connect shop\nrun shop's next 2 lines\n"
SUBSCRIBED = "connect bill\nrun bill's next 2 lines\n"

# lines, and what is told of the last of them, which is in vain
VAIN = (
    (PUBLISHED + 'deliver east west', 'nothing was delivered: east has no open session to west (link east west)'),
    (PUBLISHED + 'send east west', 'nothing was sent: east has no open session to west (link east west)'),
    ('link east west\ndeliver east west', 'nothing was delivered: west has all that east has for it'),
    ('link east west\nexchange east west', 'nothing was delivered: each has all that the others have for it'),
    ('give billing at west', 'nothing was given: billing is not at west: no consumer subscribed there, and no update came'),
    ("connect bill\nrun bill's next line\ngive billing at east", 'nothing was given: billing has no backlog at east'),
    (PUBLISHED + "connect bill\nrun bill's next line\ngive billing at east", 'nothing was given: bill has no permit left (flow)'),
    (PUBLISHED + SUBSCRIBED + 'restart east\ngive billing at east', 'nothing was given: bill is not connected to east (connect bill)'),
    (PUBLISHED + SUBSCRIBED + 'give billing at east\ngive billing at east',
     'nothing was given: all 1 of the backlog are out with bill, which did not acknowledge them'),
    ('link east west\nhold east west\nrelease east west', 'nothing waited there'),
    ('snap orders east', 'no subscription at east is replicated'),
    ('go bill', 'bill is not connected (connect bill)'),
)

# lines, and what is refused of the last of them for what came of it
REFUSED = (
    ("run shop's next line", 'shop is not connected (connect shop)'),
    (PUBLISHED + SUBSCRIBED + "run bill's next line", 'ackall waits: bill holds no message (give billing at east)'),
    ('connect shop\nlink east west\nsnapshot at east', 'no subscription at east is replicated'),
    (PUBLISHED + SUBSCRIBED + 'snapshot at east', 'no snapshot ended: no session is open from east to west, from west to east'),
    (PUBLISHED + SUBSCRIBED + 'link east west\nhold west east\nsnapshot at east', 'no snapshot ended: what goes from west to east is held'),
    (PUBLISHED + SUBSCRIBED + 'link east west\nsnapshot billing at east',
     'the snapshot ended, and billing has not passed it: of what stands before it 1 is not acknowledged at east'),
    ('link east west\ndeliver east west losing 1', 'nothing is on its way from east to west'),
    (PUBLISHED + 'read orders east\n', ' (rule '),
    (PUBLISHED + 'seek orders east billing 0:x\n', ' (rule '),
)


@plays
class Plays(unittest.TestCase):
    def test_vain(self):
        for lines, cause in VAIN:
            with self.subTest(lines):
                text = HEAD + lines + '\n'
                status, out, err = said(['drill', '--strict'], text)
                last = text.rstrip().split('\n')[-1]
                self.assertEqual((status, err.strip().split('\n')[-1]), (71, 'x.drill:%d: %s: %s' % (text.count('\n'), last, cause)))
                self.assertIn('IN VAIN ' + cause, out)
                self.assertEqual(said(['drill'], text)[0], 0)
                self.assertEqual(said(['drill', '--strict'], text + 'expect idle since %s\n' % cause)[0], 0)

    def test_one_direction(self):
        """A link that was not begun is told where another one of an exchange was."""
        head = HEAD.replace('cluster west\n', 'cluster west\ncluster north\n')
        status, _, err = said(['drill', '--strict'], head + 'link east west\n' + PUBLISHED + 'exchange east west north\nexpect west has order0\n')
        self.assertEqual((status, err), (71, 'x.drill:17: exchange east west north: nothing went there: east has no open session to north; '
                                             'west has no open session to north; north has no open session to east; '
                                             'north has no open session to west (link east north, link north west)\n'))

    def test_refused(self):
        for lines, cause in REFUSED:
            with self.subTest(lines):
                status, out, err = said(['drill'], HEAD + lines)
                self.assertEqual((status, out), (3, ''))
                self.assertIn('%s' % cause, err.split('\n')[0])
                self.assertEqual(err.split(':')[1], str((HEAD + lines).rstrip().count('\n') + 1))

    def test_expectations(self):
        text = HEAD + 'link east west\n' + PUBLISHED + 'deliver east west\nexpect west has order0\nexpect west has order1\nexpect bill got 1\n'
        status, out, err = said(['drill'], text)
        self.assertEqual((status, err), (72, 'x.drill:18: expect west has order1: it lacks order1\nx.drill:19: expect bill got 1: it is 0\n'))
        self.assertIn('NO: it lacks order1', out)
        self.assertIn('1 of 3 expectations met', out)
        # it stands before a line in vain
        self.assertEqual(said(['drill', '--strict'], text + 'deliver east west\n')[0], 72)

    def test_outputs(self):
        text = HEAD + 'link east west\n' + PUBLISHED + 'deliver east west\nexpect west has order0\n'
        script = said(['drill', '--script'], text)[1]
        self.assertIn('\nread orders east west\n', script)
        self.assertEqual(said(['drill', '--script'], script)[1], script)
        self.assertEqual(said(['drill', '--report'], text)[1], Program(PROGRAM).report(script.encode()).text)
        self.assertIn('  entry 0:0 east shop 0 * data - order0', said(['drill', '--steps'], text)[1])
        self.assertTrue(said(['drill', '--page'], text)[1].startswith('<!DOCTYPE html>'))
        told = json.loads(said(['drill', '--json'], text)[1])
        self.assertEqual([line.get('met') for line in told['lines']], [None, None, None, None, True])
        self.assertEqual(told['lines'][2]['changes'], [{'word': 'stored', 'topic': 'orders', 'at': 'east', 'what': ['order0']}])

    def test_told(self):
        out = said(['drill'], content('drills/region_lost.drill'))[1]
        for line in ('        moved    west -> east: an answer', '        AGAIN    bill: order2, order3, order4', '    122 events; 3 came again; 12 of 12 expectations met'):
            self.assertIn(line.strip(), out)

    def test_own_names_are_told(self):
        out = said(['drill'], content('drills/own_names.drill'))[1]
        self.assertIn('moved    us-east-1 -> us-east-2: order0, order1', out)
        self.assertIn('the snapshot us-east-1:', out)

    def test_annotated(self):
        from geo_tools.drill import annotated
        text = annotated(HEAD + 'cut east west\nlose west\nexpect again 1\n', 'x', Program(PROGRAM)).decode()
        self.assertEqual(text.split('\n')[BEFORE:-1], ['#: 13 cut east west', '# cut east west', '#: 14 lose west', '# lost west', '#: 15 expect again 1 = NO: it is 0'])

    def test_without_steps(self):
        """A program that has no command `steps` tells the same by a probe in its trace, and by beginnings."""
        class Old(Program):
            def has(self, word):
                return word != 'steps' and super().has(word)
        drill = content('drills/burst.drill')
        told = []
        for program in (Program(PROGRAM), Old(PROGRAM)):
            play = Play(Drill(drill), program).go()
            told.append((play.events, [seen for _, seen in play.differing()], list(play.vain()), play.played[-1].report.clients['bill'].got))
        self.assertEqual(told[0], told[1])

    def test_many_topics(self):
        """Where no topic is left for a probe."""
        topics = ''.join('topic t%d\n' % number for number in range(16))
        text = 'geo 1\ncluster a\ncluster b\n' + topics + 'client p t3 a\ndo p produce\ndo p pub 0 * - x\nlink t3 a b\nconnect p\nrun p 2\ndeliver t3 a b\nexpect b has x\n'
        self.assertEqual(said(['drill', '--strict'], text)[0], 0)

    def test_faults_are_told_by_their_line(self):
        """Each line of a drill left out, and each name in it misspelt: told by the line of the fault, or by that of what it led to."""
        lines = content('drills/region_lost.drill').rstrip('\n').split('\n')
        events = [at for at, line in enumerate(lines) if line and line.split(' ')[0] in ('link', 'connect', 'run', 'snap', 'exchange', 'deliver', 'give')]
        for at in events:
            with self.subTest(left_out=lines[at]):
                status, _, err = said(['drill', '--strict'], '\n'.join(lines[:at] + lines[at + 1:]) + '\n')
                self.assertIn(status, (3, 71, 72))
                self.assertGreaterEqual(int(err.split(':')[1]), at)
            words = lines[at].split(' ')
            words[1] = words[1][0] + words[1][2] + words[1][1] + words[1][3:]
            with self.subTest(misspelt=' '.join(words)):
                status, _, err = said(['drill'], '\n'.join(lines[:at] + [' '.join(words)] + lines[at + 1:]) + '\n')
                self.assertEqual((status, int(err.split(':')[1])), (3, at + 1))


class Traces(unittest.TestCase):
    def test_probe(self):
        trace = 'geo 1\ntrace\nevent 1\nevent 2\nseek p a p 0\nevent 3\nappend t a 0:0 x\nevent 4\nseek p a p 0\nevent 5\nseek p a p 0\n'
        self.assertEqual([it.events for it in of_trace(trace, 'p a p')], [1, 1, 0])


if __name__ == '__main__':
    unittest.main()
