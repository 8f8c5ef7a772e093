"""Each form of expect, met and not met, on a report that stands here. No program is needed."""
import unittest

from geo_tools.drill.expect import Seen
from geo_tools.drill.language import Drill
from geo_tools.report import Report

HEAD = '''geo 1
cluster east
cluster west
topic orders
client shop orders east
client bill orders east
do shop produce
do shop pub 0 * - order0
do shop pub 1 * - order1
do shop pub 2 east - order2
do bill sub billing exclusive earliest replicated
'''
REPORT = Report('''events 9 idle 0 rounds 0
topic orders at east
entry 0:0 east shop 0 * data - order0
entry 0:1 east shop 1 * data - order1
entry 0:2 east pulsar.marker 0 * request east:0:2 east
entry 0:3 east shop 2 east data - order2
sender west session 1 open mark 1
sub billing exclusive replicated mark 1 backlog 2
topic orders at west
entry 0:0 east shop 0 * data - order0
sender east session 0 closed mark 0
client shop at east lines 4/4 receipts 3 duplicates 0 errors 0
client bill at west lines 1/1 receipts 0 duplicates 0 errors 0
got east shop 1
got east shop 0
got east shop 0
''')

# what is expected, and what is seen instead; None where it is met
CASES = (
    ('bill got order0', None), ('bill got order0, order1', None), ('bill got order2', 'order2 never'),
    ('bill got order0 again', None), ('bill got order1 again', 'order1 once'),
    ('bill got order1 once', None), ('bill got order0 once', 'order0 2 times'),
    ('bill got order2 never', None), ('bill got order1 never', 'order1 once'),
    ('bill got east shop 0 2 times', None), ('bill got order1 2 times', 'order1 once'), ('bill got east shop 0, order1', None),
    ('bill got order1, order0, order0 in order', None), ('bill got order0, order1 in order', 'it got order1, order0, order0'),
    ('bill got 3', None), ('bill got nothing', 'order1; order0; order0'), ('shop got nothing', None),
    ('bill at west', None), ('bill at east', 'it is at west'), ('shop receipts 3', None), ('shop errors 1', 'it is 0'),
    ('nobody got order2', None), ('nobody got order1', 'bill got order1'),
    ('nobody has order0', 'east has order0; west has order0'), ('nobody has east shop 7', None),
    ('only east has order1, order2', None), ('only east has order0', 'order0 stands at east, west'), ('only east and west have order0', None),
    ('west has order0', None), ('west has order1', 'it lacks order1'), ('west lacks order1', None), ('west lacks order0', 'it has order0'),
    # order2 is not meant for west
    ('west lacks 1', None), ('east lacks 0', None), ('west lacks 2', 'it is 1'), ('orders at west has order0', None),
    ('orders at west has east shop 5', 'it lacks east shop 5'),
    ('east and west hold the same', 'east alone has order1; east alone has order2'), ('orders at east and east hold the same', None),
    ('east to west open', None), ('east to west mark 1', None), ('west to east open', 'it is closed'),
    ('billing at east backlog 2', None), ('billing at east mark 2', 'it is 1'), ('billing at east replicated', None),
    ('billing at east local', 'it is replicated'), ('billing at west missing', None), ('billing at east missing', 'it is there'),
    ('billing at west backlog 0', 'it is missing'), ('orders billing at east backlog 2', None), ('billing at east seeks 0', None),
    ('1 requests at east', None), ('no snapshots at east', None), ('no requests at east', 'it is 1'), ('no requests at west', None),
    ('again 1', None), ('again 1 at bill', None), ('again 0', 'it is 1'),
    ('idle', 'it did something'),
)
# what is refused, by column and remedy
REFUSED = (
    ('bil got order0', (8, 'bill')), ('bill got ordr0', (17, 'order0')), ('billing at west backlg 0', (24, 'backlog')),
    ('bill got order0 onse', (24, 'once')), ('bill got order0,', (25, None)), ('west has', (17, None)), ('again', (14, None)),
    ('east to wets open', (16, 'west')), ('nobody gt order0', (15, 'got')), ('bill got order0 once more', (29, None)), ('idle since', (19, None)),
)


class Expects(unittest.TestCase):
    def test_forms(self):
        for text, seen in CASES:
            with self.subTest(text):
                expects = Drill(HEAD + 'expect ' + text).statements[-1].expects
                self.assertEqual(expects.differs(Seen(REPORT, False)), seen)

    def test_idle(self):
        expects = Drill(HEAD + 'expect idle since no open session').statements[-1].expects
        self.assertIsNone(expects.differs(Seen(REPORT, 'east has no open session to west (link east west)')))
        self.assertEqual(expects.differs(Seen(REPORT, 'billing has no backlog at east')), 'it is idle, since billing has no backlog at east')

    def test_refused(self):
        from geo_tools.drill.words import Refused
        for text, wanted in REFUSED:
            with self.subTest(text), self.assertRaises(Refused) as caught:
                Drill(HEAD + 'expect ' + text)
            self.assertEqual((caught.exception.column, caught.exception.near), wanted)

    def test_forms_are_listed(self):
        from geo_tools.drill.words import Refused
        with self.assertRaises(Refused) as caught:
            Drill(HEAD + 'expect')
        self.assertIn('expect [TOPIC at] CLUSTER and CLUSTER hold the same', caught.exception.shown())


if __name__ == '__main__':
    unittest.main()
