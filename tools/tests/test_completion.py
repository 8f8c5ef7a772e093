"""The completions, tried in the shells themselves: bash by its function, zsh at a terminal, as a person has it."""
import os
import pty
import re
import select
import shutil
import subprocess
import tempfile
import time
import unittest

from geo_tools import completion
from geo_tools.program import ROOT

# how long a shell may take to answer, in seconds; it waits only until the answer is there
PATIENCE = 30
CONTROL = re.compile(r'\x1b\[[0-9;?]*[A-Za-z]|[\x07\x08\r]')


class Bash(unittest.TestCase):
    """What bash offers of a line whose last word is being written."""

    def offered(self, *line):
        words = ' '.join("'%s'" % word for word in line)
        script = '%s\nCOMP_WORDS=(%s); COMP_CWORD=%d; _geo; printf "%%s\\n" "${COMPREPLY[@]}"' % (completion.completion('bash'), words, len(line) - 1)
        done = subprocess.run(['bash', '--norc', '-c', script], cwd=ROOT, capture_output=True, text=True, check=True)
        self.assertEqual(done.stderr, '')
        return done.stdout.split()

    def test_bash(self):
        self.assertEqual(self.offered('./geo', 'com'), ['compact', 'completion'])
        self.assertEqual(self.offered('./geo', 'lo'), ['lost'])
        self.assertEqual(self.offered('./geo', '--j'), ['--json'])
        self.assertEqual(self.offered('./geo', 'help', 's'), ['save', 'steps', 'show', 'story'])
        self.assertEqual(self.offered('./geo', 'completion', ''), ['bash', 'zsh'])
        self.assertEqual(self.offered('./geo', 'run', '--v'), ['--version'])
        self.assertEqual(self.offered('./geo', 'run', 'crates.t'), ['crates.txt'])


class Terminal:
    """A zsh that a person sits at."""

    def __init__(self, home):
        self.said = ''
        self.child, self.end = pty.fork()
        if self.child == 0:
            os.chdir(ROOT)
            os.execvpe('zsh', ['zsh', '-f', '-i'], {'HOME': home, 'PATH': os.environ['PATH'], 'TERM': 'dumb', 'PS1': 'ready> ', 'COLUMNS': '250'})

    def write(self, text):
        os.write(self.end, text.encode())

    def wait(self, wanted):
        """Whether this came before the patience was at its end, after all that came before."""
        until = time.monotonic() + PATIENCE
        while wanted not in self.said:
            if not select.select([self.end], [], [], max(0, until - time.monotonic()))[0]:
                return False
            try:
                self.said += CONTROL.sub('', os.read(self.end, 65536).decode(errors='replace'))
            except OSError:
                return False
        self.said = self.said.split(wanted, 1)[1]
        return True

    def close(self):
        os.close(self.end)
        os.waitpid(self.child, 0)


@unittest.skipUnless(shutil.which('zsh'), 'no zsh: its completion was not tried')
class Zsh(unittest.TestCase):
    """Each line is written as far as it says, with a tab; what is wanted has to come."""

    def setUp(self):
        self.home = tempfile.TemporaryDirectory()
        self.addCleanup(self.home.cleanup)
        with open(os.path.join(self.home.name, 'geo.zsh'), 'w', encoding='utf-8') as file:
            file.write(completion.completion('zsh'))
        self.terminal = Terminal(self.home.name)
        self.addCleanup(self.terminal.close)
        self.assertTrue(self.terminal.wait('ready> '))

    def said(self, text, *wanted):
        self.terminal.write(text)
        for it in wanted:
            self.assertTrue(self.terminal.wait(it), '%r: %r did not come, but %r' % (text, it, self.terminal.said[-500:]))

    def test_zsh(self):
        self.said('source ~/geo.zsh\n', 'geo: zsh has no completion yet', 'ready> ')
        self.said('autoload -U compinit; compinit -u -D; source ~/geo.zsh\n', 'source ~/geo.zsh', 'ready> ')
        for line, wanted in (('./geo com\t\t', ['compact     -- runs a script', 'completion  -- prints the completion']),
                             ('./geo sa\t', ['save ']),
                             ('./geo help s\t\t', ["save   -- writes the state file of a script's run", 'story  -- prints a script']),
                             ('./geo --v\t', ['--version ']),
                             ('./geo run --j\t', ['--json ']),
                             ('./geo completion \t\t', ['bash  zsh']),
                             ('geo run crates.t\t', ['crates.txt'])):
            with self.subTest(line):
                self.said(line, *wanted)
                # the line is taken back, and the next prompt is the one after `given up`
                self.said("\x15echo given' 'up\n", 'given up', 'ready> ')


if __name__ == '__main__':
    unittest.main()
