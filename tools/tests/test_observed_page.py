"""What docs/OBSERVED.md says of tools/observed: its rules, its words, and what it quotes of a drill."""
import os
import tempfile
import unittest

from geo_tools.observed import findings
from geo_tools.program import ROOT

from .dumps import observed
from .played import content, plays

COMMAND = '    $ tools/observed '


class Page(unittest.TestCase):
    """docs/OBSERVED.md has each rule with its sentence."""

    def test_rules(self):
        text = content('docs/OBSERVED.md')
        for rule, sentence in [*findings.FAULTS.items(), *findings.NOTES.items()]:
            self.assertIn('| `%s` | %s |' % (rule, sentence), text)

    def test_help(self):
        self.assertTrue(os.access(os.path.join(ROOT, 'tools', 'observed'), os.X_OK))
        for word in ([], ['collect'], ['made'], ['planted'], ['moving']):
            with self.assertRaises(SystemExit) as ended:
                observed(*word, '--help')
            self.assertEqual(ended.exception.code, 0)


class Quotes(unittest.TestCase):
    @plays
    def test_quotes(self):
        """What docs/OBSERVED.md quotes of a drill: the commands are done one by one, and print what stands behind them."""
        lines = content('docs/OBSERVED.md').split('\n')
        at = [number for number, line in enumerate(lines) if line.startswith(COMMAND)]
        self.assertTrue(at)
        with tempfile.TemporaryDirectory() as folder:
            for number in at:
                words = [os.path.join(folder, word[5:]) if word.startswith('/tmp/') else os.path.join(ROOT, word) if word.endswith('.geo') else word
                         for word in lines[number][len(COMMAND):].split(' ')]
                wanted = []
                for line in lines[number + 1:]:
                    if not line.startswith('    ') or line.startswith('    $'):
                        break
                    wanted.append(line[4:])
                with self.subTest(lines[number]):
                    status, out, err = observed(*words)
                    self.assertEqual((status, out.split('\n')[:-1], err), (0, wanted, ''))


if __name__ == '__main__':
    unittest.main()
