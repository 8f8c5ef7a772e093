"""What is told of refusals: every case of refused/cases.txt has its place, and planted mistakes are told with a place and a remedy."""
import os
import subprocess
import tempfile
import unittest

from geo_tools.program import ROOT, built_program
from geo_tools.refusals import refusal, states
from geo_tools.refusals.told import words_of
from geo_tools.stored.examples import refusals
from geo_tools.stored.states import BROKEN, rich

# the script that most mistakes are planted in
SCRIPT = '''geo 1
cluster east
cluster west
topic orders
client shop orders east
client bill orders east
do shop produce
do shop pub 0 * - order0
do bill sub billing exclusive earliest replicated
do bill flow 10
do bill ack east shop 0
reconnect shop
go shop
serve east shop
settle
'''

# of a script: what stands there, what is planted, the place, and words of what is told, the remedy among them
SCRIPTS = [
    ('a carriage return', 'topic orders\n', 'topic orders\r\n', '4:13', ['carriage return', "tr -d"]),
    ('a tab', 'go shop', 'go\tshop', '13:3', ['a tab, where one space is meant']),
    ('a capital', 'cluster west', 'cluster West', '3:9', ['has a capital', 'did you mean west?']),
    ('a hyphen', 'cluster west', 'cluster us-west', '3:9', ['has a hyphen', 'did you mean us_west?', './geo drill']),
    ('a word that is missing', ' - order0', '', '8:16', ['KEY is missing', 'expected: do C pub SEQ TO KEY TEXT']),
    ('two spaces', 'go shop', 'go  shop', '13:3', ['two spaces stand in a row']),
    ('a typing error in a word', 'settle', 'setle', '15:1', ['begins no line of a script', 'did you mean settle?']),
    ('a typing error in a name', 'serve east shop', 'serve eats shop', '14:7', ['eats is no cluster', 'did you mean east?']),
    ('a drill line in a script', 'go shop', 'connect shop', '13:1', ['a line of a drill', './geo drill FILE']),
    ('a declaration below events', 'settle', 'client late orders east', '15:1', ['stands below an event (line 14)', 'the order is geo']),
    ('a name that is declared below', 'client shop orders east', 'client shop orders north', '5:20', ['north is no cluster', 'declared: east, west']),
    ('a wrong choice', 'exclusive earliest', 'exclusive first', '9:31', ['first is no INIT', 'earliest, latest']),
    ('a number with a zero before it', 'pub 0 *', 'pub 00 *', '8:13', ['leading zero', 'did you mean 0?']),
    ('a subscription that no line names', 'settle', 'offer orders east biling', '15:19', ['no subscription of orders', 'did you mean billing?']),
    ('the same cluster twice', 'settle', 'reset orders east east', '15:19', ['the two clusters are the same']),
    ('a producer that moves', 'do bill flow 10', 'do shop move west', '10:9', ['a producer stays at its cluster', 'declare another client']),
    ('no line feed at the end', 'settle\n', 'settle', '15:7', ['no line feed']),
]

# the drill that mistakes are planted in, and of a drill the same as of a script
DRILL = SCRIPT[:SCRIPT.index('reconnect shop')] + """link east west
connect shop
run shop's next 2 lines
connect bill
run bill's next 2 lines
deliver east west
give billing at east
run bill's next line
"""
DRILLS = [
    ('a typing error in a name', 'deliver east west', 'deliver east wets', '17:14', ['wets is no cluster', 'did you mean west?', 'expected: deliver']),
    ('a typing error in a word', 'deliver east', 'delivr east', '17:1', ['begins no line of a drill', 'did you mean deliver?']),
    ('a subscription that no line names', 'give billing', 'give biling', '18:6', ['biling is no subscription', 'did you mean billing?']),
    ('a step that is left out', 'give billing at east\n', '', '18:1', ['bill does not hold order0', 'give billing at east']),
    ('more lines than there are', "run bill's next line\n", "run bill's next 3 lines\n", '19:1', ['bill has 3 lines']),
    ('a text of no message', 'deliver east west', 'expect west has order9', '17:17', ['order9 is the text of no one message', 'did you mean order0?']),
    ('an expectation that differs', 'deliver east west', 'expect west has order0', '17', ['expect west has order0: it lacks order0']),
]


def told(words, name, raw):
    """What ./geo says on standard error of a call with this file, and its status."""
    with tempfile.TemporaryDirectory() as folder:
        path = os.path.join(folder, name)
        with open(path, 'wb') as file:
            file.write(raw)
        how = {'stdout': subprocess.DEVNULL, 'stderr': subprocess.PIPE, 'env': {**os.environ, 'GEO_PROGRAM': built_program()}}
        done = subprocess.run([os.path.join(ROOT, 'geo'), *words, path], check=False, **how)
        return done.returncode, done.stderr.decode().replace(path, name)


class Cases(unittest.TestCase):
    """refused/cases.txt: the program's answer stands there, so no program is needed."""

    def test_each_has_a_place(self):
        count = 0
        for name, raw, answer in refusals():
            with self.subTest(name):
                lines = words_of(refusal(3, answer.decode(), raw, 'f', ['run']))
                self.assertNotIn('breaks rule', lines[0])
                self.assertNotIn('known form', lines[0])
                self.assertTrue(lines[0].startswith('f:%s:' % answer.split()[3].decode()), lines[0])
                if 'the script ends' not in lines[0]:
                    self.assertIn('^', '\n'.join(lines))
                count += 1
        self.assertGreater(count, 150)


class States(unittest.TestCase):
    """Broken state files, by the table that the gate has the program refuse."""

    def test_each_item_is_named(self):
        state = rich()
        for name, rule, label, changes in BROKEN:
            with self.subTest(name):
                lines = words_of(refusal(9, 'bad state at %d rule %d\n' % (state.offset(label), rule), state.changed(changes), 'f', ['resume']))
                said = 'this is' if label == 'magic' else 'which is '
                self.assertIn(said, lines[0])
                self.assertNotIn('in no item', lines[0])

    def test_items_are_those_of_the_writer(self):
        """The reader walks over just the items that the writer wrote, and comes to the file's end."""
        state = rich()
        found = states.Items(state.file()).found
        own, at = [], 0
        for _, some in state.items():
            own.append(at)
            at += len(some)
        self.assertEqual([offset for offset, _ in found], own + [at])


@unittest.skipUnless(built_program(), 'no program: tools/build or tools/compile makes one')
class Planted(unittest.TestCase):
    """Mistakes as a person makes them, each asked of ./geo: the place and the remedy."""

    def check(self, words, name, raw, place, said):
        status, text = told(words, name, raw)
        self.assertNotEqual(status, 0)
        self.assertIn('%s:%s:' % (name, place) if place else name, text)
        for some in said:
            self.assertIn(some, text)

    def test_scripts(self):
        for what, old, new, place, said in SCRIPTS:
            with self.subTest(what):
                self.assertEqual(SCRIPT.count(old), 1, old)
                self.check(['run'], 'drill.geo', SCRIPT.replace(old, new).encode(), place, said)

    def test_drills(self):
        for what, old, new, place, said in DRILLS:
            with self.subTest(what):
                self.assertEqual(DRILL.count(old), 1, old)
                self.check(['drill'], 'order.drill', DRILL.replace(old, new).encode(), place, said)

    def test_events_behind_a_state(self):
        saved = subprocess.run([built_program(), 'save'], input=SCRIPT.encode(), stdout=subprocess.PIPE, check=True).stdout
        self.check(['resume'], 'orders.state', saved + b'settle\nreset orders east wets\n', None, ['(behind the state):2:19', 'did you mean west?'])
        self.check(['resume'], 'orders.state', SCRIPT.encode(), None, ['this is a script', './geo save SCRIPT'])
        self.check(['run'], 'orders.state', saved, None, ['this is a state file', './geo resume'])
        at = saved.index(b'cluster west')
        self.check(['resume'], 'orders.state', saved[:at] + b'cluster West' + saved[at + 12:], None, ['which is the declarations', 'canonical'])

    def test_traces(self):
        trace = subprocess.run([built_program(), 'trace'], input=SCRIPT.encode() + b'serve east shop\ngo shop\nserve east shop\nsettle\n',
                               stdout=subprocess.PIPE, check=True).stdout.decode()
        lines = trace.split('\n')
        first = next(at for at, line in enumerate(lines) if line.startswith('append orders west'))
        changed = lines[:first] + [lines[first].replace('order0', 'order9')] + lines[first + 1:]
        self.check(['audit'], 'run.trace', '\n'.join(changed).encode(), '%d' % (first + 1), ['order9', 'made up or changed on the way', 'audit 4'])
        twice = lines[:first + 1] + lines[first:]
        self.check(['audit'], 'run.trace', '\n'.join(twice).encode(), '%d' % (first + 2), ['put between others, or stored twice'])
        self.check(['audit'], 'run.trace', SCRIPT.encode(), None, ['no line `trace` stands'])
        self.check(['audit'], 'run.trace', trace.replace('append orders west', 'apend orders west', 1).encode(), '%d' % (first + 1),
                   ['apend begins no line of a trace', 'did you mean append?'])
        self.check(['audit'], 'run.trace', trace.replace('\nevent 3\n', '\n', 1).encode(), None, ['the next event is to be `event 3`'])
        self.check(['audit'], 'run.trace', trace[:-1].encode(), '%d' % (len(lines) - 1), ['no line feed'])

    def test_gaps(self):
        with open(ROOT + '/answers/gaps.trace', 'rb') as file:
            whole = file.read()
        missing = whole.replace(b'append t b 0:0 a p 0 * data - m0', b'create t b s1 earliest')
        self.assertEqual((told(['audit'], 'run.trace', missing)[0], told(['audit', 'whole'], 'run.trace', whole)[0]), (0, 0))
        line = missing.split(b'\n').index(b'append t b 0:1 a p 1 * data - m1') + 1
        self.check(['audit', 'whole'], 'run.trace', missing, '%d' % line,
                   ['append t b 0:1 a p 1 * data - m1', 'an entry before it is missing', './geo why --explain audit 12'])
        changed = missing.replace(b'append t b 0:1 a p 1 * data - m1', b'append t b 0:1 a p 1 * data - m2')
        self.check(['audit', 'whole'], 'run.trace', changed, '%d' % line, ['made up or changed on the way', './geo why --explain audit 4'])

    def test_words(self):
        status, text = told(['runn'], 'drill.geo', b'')
        self.assertEqual(status, 2)
        self.assertIn('runn is no command (did you mean run?)', text)
        self.assertIn('hole is no word of audit (did you mean whole?)', told(['audit', 'hole'], 'run.trace', b'')[1])


if __name__ == '__main__':
    unittest.main()
