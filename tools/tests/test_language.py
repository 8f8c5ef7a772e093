"""The language: what is refused, by place and remedy, and what lines mean. No program is needed."""
import unittest

from geo_tools.drill.language import Drill, is_drill
from geo_tools.drill.names import MACHINE, Names
from geo_tools.drill.words import Refused

HEAD = '''geo 1
cluster east
cluster north
cluster west
topic orders
client shop orders east
client bill orders east
do shop produce
do shop pub 0 * - order0
do shop pub 1 * - order1
do bill sub billing exclusive earliest replicated
do bill move west
'''

# a line, and the refusal's text with its column and remedy
REFUSED = (
    ('delivr east west', ':13:1: delivr begins no line of a drill or of a script (did you mean deliver?)'),
    ('deliver east wets', ':13:14: wets is no cluster (did you mean west?)'),
    ('deliver east xyz', ':13:14: xyz is no cluster; declared: east, north, west'),
    ('deliver east east', ':13:14: east is named twice'),
    ('deliver east west twise', ':13:19: twice, losing or without receipts is expected, not twise (did you mean twice?)'),
    ('deliver east west without rceeipts', ':13:27: receipts is expected, not rceeipts (did you mean receipts?)'),
    ('deliver east west losing two', ':13:26: a number of packets is expected, not two'),
    ('deliver east west losing', ':13:26: a number of packets is missing'),
    ('deliver east', ':13:14: a cluster is missing'),
    ('deliver east west twice over', ':13:25: over stands after the end of the line'),
    ('run shops next 2 lines', ':13:5: shops is no client (did you mean shop?)'),
    ("run shop's next 4 lines", ':13:1: shop has 3 lines, and all are done before it'),
    ('give biling at east', ':13:6: biling is no subscription (did you mean billing?)'),
    ('give billing to east', ':13:14: at is expected, not to'),
    ('release east west', ':13:1: nothing is held from east to west (hold east west does it)'),
    ('return east', ':13:8: east is not lost'),
    ('heal', ':13:1: no link is cut'),
    ('partition east north', ':13:22: / is missing'),
    ('lose east\nconnect bill', ':14:9: bill is at east, which is lost'),
    ('lose east\nsettle', ':14:1: it settles, which would reach east, which is lost'),
    ('lose east\nsnapshot at north', ':14:1: no snapshot ends while east is lost: all clusters have to answer'),
    ('lose east\nread orders east west', ':14:13: east is lost (return east brings it back)'),
    ('lose east\nhalt 1 read orders east west', ':14:20: east is lost (return east brings it back)'),
    ('cut east west\ndeliver east west', ':14:1: the link between east and west is cut (link east west mends it)'),
    ('cut east west\nsettle', ':14:1: it settles, which would pass the link between east and west, which is cut'),
    ('partition east / north\nexchange east west north', ':14:1: the link between east and north is cut (link east north mends it)'),
    ('hold east west\ndeliver east west', ':14:1: what east sends to west is held (send, or release before)'),
    ('hold east west\nlink east west', ':14:1: east and west are held apart (release them first)'),
    ('move bill to west planned', ':13:1: the next line of bill has to be: move west; it is: sub billing exclusive earliest replicated'),
    ('connect shop\ncluster south', ':14:1: cluster declares, and an event stands before it'),
)


def statement(line, before=''):
    """The last line of a drill, each event tried once."""
    it = Drill(HEAD + before + line).statements[-1]
    it.tries = 1
    return it


def events(line, before=''):
    """Its events."""
    return [event for event, _, _ in statement(line, before).events()]


class Language(unittest.TestCase):
    def test_refused(self):
        for lines, said in REFUSED:
            with self.subTest(lines), self.assertRaises(Refused) as caught:
                Drill(HEAD + lines, 'x')
            self.assertEqual(caught.exception.shown().split('\n')[0], 'x' + said)

    def test_caret(self):
        with self.assertRaises(Refused) as caught:
            Drill(HEAD + 'deliver east wets', 'x')
        self.assertEqual(caught.exception.shown().split('\n')[1:], [
            '  deliver east wets', '               ^^^^', '  expected: deliver [TOPIC] FROM TO [twice | losing N | without receipts]'])

    def test_no_declaration(self):
        with self.assertRaises(Refused) as caught:
            Drill('# nothing\n', 'x')
        self.assertEqual(caught.exception.shown(), 'x:2: no cluster is declared')

    def test_half_a_drill(self):
        """What a script may not be is refused too, and not stumbled over."""
        for text, said in (('geo 1\ncluster a\ncluster b\nsnapshot at a\n', 'x:4:10: no topic is declared'),
                           ('cluster a\ntopic t\nclient c t a\ndo c\ndo c move\nrun c 3\n', 'x:6:1: c has 2 lines, and all are done before it')):
            with self.subTest(text), self.assertRaises(Refused) as caught:
                Drill(text, 'x')
            self.assertEqual(caught.exception.shown().split('\n')[0], said)

    def test_spaces_and_line_ends(self):
        plain, odd = Drill(HEAD + 'deliver east west\n'), Drill((HEAD + 'deliver  east\twest').replace('\n', '\r\n'))
        self.assertEqual(plain.head.lines, odd.head.lines)
        self.assertEqual(list(event[0] for event in plain.statements[-2].events()), list(event[0] for event in odd.statements[-1].events()))

    def test_is_drill(self):
        self.assertTrue(is_drill('x.drill', ''))
        self.assertTrue(is_drill('-', HEAD + 'deliver east west\n'))
        self.assertFalse(is_drill('x.geo', HEAD + '# deliver east west\nrestart orders east\nsettle\n'))


class Meanings(unittest.TestCase):
    def test_replication(self):
        self.assertEqual(events('deliver east west'), ['read orders east west', 'take orders east west good', 'receipt orders east west good'])
        self.assertEqual(events('deliver east west without receipts'), ['read orders east west', 'take orders east west good'])
        self.assertEqual(events('deliver east west twice'), ['read orders east west', 'take orders east west twice'] + ['receipt orders east west good'] * 2)
        self.assertEqual(events('send east west'), ['read orders east west'])
        self.assertEqual(events('deliver east west losing 1')[:5], [
            'read orders east west', 'take orders east west lost', 'take orders east west good', 'reset orders east west', 'take orders east west good'])
        self.assertEqual(len(events('exchange survivors', 'lose east\n')), 6)

    def test_links(self):
        self.assertEqual(events('link east west')[:3], ['reset orders east west', 'take orders east west good', 'receipt orders east west good'])
        self.assertEqual(events('cut east west', 'lose east\n'), ['take orders east west lost', 'receipt orders west east lost'])
        self.assertEqual(len(events('partition east / north west')), 8)
        self.assertEqual(events('heal', 'partition east / north west\nlose west\n')[::3], ['reset orders east north', 'reset orders north east'])
        self.assertEqual(events('exchange east west', 'hold east west\n'), ['read orders east west', 'read orders west east', 'take orders west east good'])
        self.assertEqual(events('release east west', 'hold east west\n'), ['take orders east west good', 'receipt orders west east good'])

    def test_clients(self):
        self.assertEqual(events('connect bill'), ['reconnect bill', 'serve east bill', 'get bill'])
        self.assertEqual(events("run bill's next 2 lines"), ['go bill', 'serve east bill', 'get bill', 'go bill', 'serve west bill', 'get bill'])
        self.assertEqual(events('run bill', 'lose east\n'), ['go bill', 'get bill'])
        self.assertEqual(events('give billing at east', 'run bill\n'), ['offer orders east billing', 'get bill'])
        self.assertEqual(events('give billing at west', 'run bill\n'), ['offer orders west billing'])

    def test_snapshots_and_moves(self):
        self.assertEqual(events('snapshot at east')[0], 'snap orders east')
        self.assertEqual(events('snapshot billing at east', 'run bill\n').count('offer orders east billing'), 1)
        planned = events('move bill to west planned', 'run bill\n')
        self.assertEqual(planned, ['settle', 'snap orders east', 'settle', 'offer orders east billing', 'settle', 'go bill', 'serve west bill', 'get bill'])

    def test_regions(self):
        self.assertEqual(events('return east', 'lose east\n'), ['restart orders east'])
        self.assertEqual(events('restart east'), ['restart orders east'])
        self.assertEqual(events('restart orders east'), ['restart orders east'])

    def test_signs(self):
        self.assertEqual(statement('cut east west').signs, ['cut east west'])
        self.assertEqual(statement('link east west', 'cut east west\n').signs, ['mended east west'])
        self.assertEqual(statement('link east west').signs, ())
        self.assertEqual(statement('partition east / north west').signs, ['cut east north', 'cut east west'])
        self.assertEqual(statement('heal', 'partition east / north west\n').signs, ['mended east north', 'mended east west'])
        self.assertEqual([statement(line, before).signs for line, before in (
            ('hold east west', ''), ('release east west', 'hold east west\n'), ('lose east', ''), ('return east', 'lose east\n'))],
            [['held east west'], ['released east west'], ['lost east'], ['returned east']])


class OfNames(unittest.TestCase):
    def test_one_for_one(self):
        names = Names(['us-east-1', 'us_east_1', 'persistent://a/b/orders', 'a' * 40, 'a' * 41])
        self.assertEqual(names.of['us_east_1'], 'us_east_1')
        self.assertEqual(len(set(names.of.values())), 5)
        self.assertTrue(all(MACHINE.fullmatch(machine) for machine in names.of.values()))
        self.assertEqual(names.fresh('us_east_1'), 'us_east_12')

    def test_in_lines(self):
        drill = Drill('geo 1\ncluster us-east-1\ncluster eu\ntopic a/b\nclient the-shop a/b us-east-1\ndo the-shop pub 0 eu,us-east-1 - us-east-1  eu\n'
                      'do the-shop sub the-subscription-of-all exclusive earliest local\noffer a/b us-east-1 the-subscription-of-all\n')
        self.assertEqual(drill.head.lines[1:], ['cluster us_east_1', 'cluster eu', 'topic a_b', 'client the_shop a_b us_east_1',
                                                'do the_shop pub 0 eu,us_east_1 - us-east-1  eu', 'do the_shop sub the_subscription exclusive earliest local'])
        self.assertEqual([event for event, _, _ in drill.statements[-2].events()], ['offer a_b us_east_1 the_subscription'])
        self.assertEqual(drill.owned('us_east_1:0:2'), 'us-east-1:0:2')


if __name__ == '__main__':
    unittest.main()
