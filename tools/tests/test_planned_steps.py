"""A planned move, in three regions, with each step of its procedure left out: which steps are needed."""
import os
import unittest

from geo_tools.program import ROOT
from tests.played import plays, said

DRILL = os.path.join(ROOT, 'drills', 'planned_switchover.drill')
# the procedure, as the drill has it, and what comes again at the third region where one step is left out: all four messages that were
# acknowledged in the first one, but for the first settle, before which all had come over
PROCEDURE = ['settle', 'snap orders east', 'settle', 'give billing at east', 'settle']
ALL = ['order0', 'order1', 'sale0', 'sale1']


def played(steps):
    """The drill with other steps in the place of its procedure: what its last client gets at the third region."""
    with open(DRILL, encoding='utf-8') as file:
        lines = [line for line in file.read().split('\n') if not line.startswith(('expect ', '#'))]
    begin = next(at for at in range(len(lines)) if lines[at:at + len(PROCEDURE)] == PROCEDURE)
    lines[begin:begin + len(PROCEDURE)] = steps
    status, out, err = said(['drill', '--report'], '\n'.join(lines))
    if status:
        raise AssertionError(err)
    section, got = None, []
    for line in out.split('\n'):
        words = line.split(' ')
        if words[0] == 'client':
            section = words[1]
        elif words[0] == 'got' and section == 'bill2':
            got.append(words[1:])
    return got


@plays
class PlannedStepsTest(unittest.TestCase):
    def test_the_whole_procedure_repeats_nothing(self):
        self.assertEqual([], played(PROCEDURE))

    def test_the_first_settle_may_be_left_out_where_all_had_come_over(self):
        self.assertEqual([], played(PROCEDURE[1:]))

    def test_without_any_other_step_all_comes_again(self):
        left_out = {'snap': PROCEDURE[:1] + PROCEDURE[2:], 'the settle behind snap': PROCEDURE[:2] + PROCEDURE[3:], 'the offers': PROCEDURE[:3] + PROCEDURE[4:],
                    'the last settle': PROCEDURE[:4], 'the offers are done before snap': ['settle', 'give billing at east', 'snap orders east', 'settle', 'settle']}
        for name, steps in left_out.items():
            with self.subTest(name):
                self.assertEqual(len(ALL), len(played(steps)))


if __name__ == '__main__':
    unittest.main()
