"""What documents quote of drills: behind each line `$ ./geo drill FILE` the lines of its output in their order, `..` for those left out."""
import glob
import os
import re
import unittest

from geo_tools.drill.causes import WAITS
from geo_tools.drill.meanings import FORMS
from geo_tools.program import ROOT

from .played import content, plays, said

QUOTING = '    $ ./geo drill '
PAGES = ('docs/DRILLS.md',)


def quotes(text):
    """Each quoted drill with the line of the page and the lines behind it."""
    found, into = [], None
    for number, line in enumerate(text.split('\n'), 1):
        if line.startswith(QUOTING):
            into = []
            found.append((line[len(QUOTING):], number, into))
        elif not line.startswith('    '):
            into = None
        elif into is not None:
            into.append(line[4:])
    return found


class Quotes(unittest.TestCase):
    @plays
    def test_quotes(self):
        for page in PAGES:
            for path, number, lines in quotes(content(page)):
                with self.subTest('%s:%d: %s' % (page, number, path)):
                    status, out, _ = said(['drill', '--strict', os.path.join(ROOT, path)])
                    self.assertEqual(status, 0)
                    left = iter(out.split('\n'))
                    for line in lines:
                        # `in` goes on behind the line that it found
                        self.assertTrue(line == '..' or line in left, 'not there, or not in this order: ' + line)

    def test_each_drill_has_its_question(self):
        text = content('docs/DRILLS.md')
        for path in glob.glob(os.path.join(ROOT, 'drills', '*.drill')):
            name = os.path.basename(path)[:-len('.drill')]
            self.assertIn('`%s`' % name, text)

    def test_each_line_of_the_language_is_told(self):
        text = content('docs/DRILLS.md')
        for word in FORMS:
            self.assertTrue(re.search(r'\| `[^|]*\b%s\b[^|]*` *\|' % word, text), word)

    def test_what_lines_wait_for(self):
        """The lines of a client that wait are those of the table of docs/SCRIPT.md."""
        table = content('docs/SCRIPT.md').split('\n## What clients do\n')[1].split('\n## ')[0]
        rows = re.findall(r'^\| `([a-z]+)[^`]*` \|[^|]*\|([^|]*)\|$', table, re.MULTILINE)
        self.assertEqual({word for word, waits in rows if waits.strip()}, set(WAITS))


if __name__ == '__main__':
    unittest.main()
