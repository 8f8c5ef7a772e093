"""What tools/check counts: a test that is skipped did not pass, and a drill is not what is stored beside it where it differs."""
import io
import os
import sys
import tempfile
import unittest
from contextlib import redirect_stdout
from unittest import mock

from geo_tools import check
from geo_tools.program import Program

from .played import PROGRAM, content, plays

INNER = '''import unittest

class Some(unittest.TestCase):
    @classmethod
    def setUpClass(cls):
        cls.one = 1
    def test_right(self):
        self.assertEqual(self.one, 1)
    def test_wrong(self):
        self.assertEqual(self.one, 2)
    def test_parts(self):
        for number in (1, 2, 3):
            with self.subTest(number):
                self.assertEqual(number, 1)
    @unittest.skip('it cannot')
    def test_skipped(self):
        pass
    @unittest.skip('there is none')
    def test_in_a_browser(self):
        pass
    @unittest.skip('no shell of that name')
    def test_zsh(self):
        pass
'''


class Counts(unittest.TestCase):
    def counted(self, is_quick):
        with tempfile.TemporaryDirectory() as folder, mock.patch.object(check, 'TESTS', os.path.join(folder, 'inner_tests')):
            os.mkdir(check.TESTS)
            for name, text in (('__init__.py', ''), ('test_some.py', INNER)):
                with open(os.path.join(check.TESTS, name), 'w', encoding='ascii') as file:
                    file.write(text)
            out, count, before = io.StringIO(), check.Count(), list(sys.path)
            with redirect_stdout(out):
                check.tests(count, is_quick)
            sys.path[:] = before
            for name in [name for name in sys.modules if name.startswith('inner_tests')]:
                del sys.modules[name]
        return count.passed, count.failed, out.getvalue()

    def test_tests(self):
        passed, failed, said = self.counted(False)
        # one right; one wrong, two parts, and one that did not run
        self.assertEqual((passed, failed), (1, 4))
        self.assertIn('FAILED inner_tests.test_some.Some.test_skipped: not run: it cannot', said)
        self.assertIn('skipped inner_tests.test_some.Some.test_in_a_browser: there is none', said)
        self.assertIn('skipped inner_tests.test_some.Some.test_zsh: no shell of that name', said)

    def test_quick(self):
        self.assertNotIn('browser', self.counted(True)[2])

    @plays
    def test_drill(self):
        text = content('drills/again_0.drill')
        with tempfile.TemporaryDirectory() as folder:
            def with_text(text):
                for ending, stored in (('.drill', text), ('.geo', content('drills/again_0.geo')), ('.report', content('drills/again_0.report'))):
                    with open(os.path.join(folder, 'x' + ending), 'w', encoding='utf-8') as file:
                        file.write(stored)
                return check.drill(os.path.join(folder, 'x.drill'), Program(PROGRAM))
            self.assertIsNone(with_text(text))
            self.assertIn('biling is no subscription (did you mean billing?)', with_text(text.replace('give billing', 'give biling', 1)))
            self.assertEqual(with_text(text + '# more\n'), 'the stored .geo is another one')
            self.assertIn('expect again 7: it is 0', with_text(text + 'expect again 7\n'))


if __name__ == '__main__':
    unittest.main()
