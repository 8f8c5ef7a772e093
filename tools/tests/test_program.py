"""How the program is found and asked, with a stand-in: a file of answers by script."""
import io
import os
import stat
import tempfile
import unittest
from unittest import mock

from geo_tools import program as of_program
from geo_tools.program import Failed, Program
from geo_tools.progress import Progress

STAND_IN = '''#!/bin/sh
case "$*" in
'') echo 'usage: geo run, trace, steps'; exit 2 ;;
run) sed 's/^/got /' ;;
trace) echo 'bad script line 1 rule 3'; exit 3 ;;
steps) cat; exit 3 ;;
'steps from') echo 'usage: geo run, trace, steps'; exit 2 ;;
esac
'''


class Programs(unittest.TestCase):
    def setUp(self):
        folder = tempfile.TemporaryDirectory()
        self.addCleanup(folder.cleanup)
        self.folder = folder.name
        self.path = self.executable('stand_in', STAND_IN)

    def executable(self, name, text):
        path = os.path.join(self.folder, name)
        os.makedirs(os.path.dirname(path), exist_ok=True)
        with open(path, 'w', encoding='ascii') as file:
            file.write(text)
        os.chmod(path, os.stat(path).st_mode | stat.S_IXUSR)
        return path

    def test_answers(self):
        program = Program(self.path)
        self.assertEqual(program.answers('run', [b'a\n', b'b\n', b'a\n']), ['got a\n', 'got b\n', 'got a\n'])
        self.assertEqual(program.runs, 2)
        with self.assertRaises(Failed) as caught:
            program.answer('trace', b'a\n')
        self.assertEqual((str(caught.exception), caught.exception.status), ('bad script line 1 rule 3', 3))

    def test_lines(self):
        """One by one; of what is refused none, and an older program has no such command."""
        program = Program(self.path)
        self.assertEqual(list(program.lines('run', b'a\nb\n')), ['got a', 'got b'])
        for command, raw, wanted in (('trace', b'', ('bad script line 1 rule 3', 3)), ('steps', b'a\nb\nc\n', ('c', 3)), ('steps', b'', ('geo steps ended with status 3', 3))):
            with self.assertRaises(Failed) as caught:
                list(program.lines(command, raw))
            self.assertEqual((str(caught.exception), caught.exception.status), wanted)
        with self.assertRaises(Failed) as caught:
            list(program.lines('steps from', b''))
        self.assertIn('the program has no command steps from', str(caught.exception))
        self.assertEqual(of_program.NO_PROGRAM, caught.exception.status)

    def test_commands(self):
        program = Program(self.path)
        self.assertEqual([program.has(word) for word in ('steps', 'run', 'lost')], [True, True, False])

    def test_missing(self):
        with self.assertRaises(Failed) as caught:
            Program(os.path.join(self.folder, 'nothing')).answer('run', b'')
        self.assertEqual(caught.exception.status, of_program.NO_PROGRAM)

    def test_found(self):
        """The build before the gate's program, and none that is older than a source."""
        os.makedirs(os.path.join(self.folder, 'crates', 'geo_cli', 'src'))
        source = os.path.join(self.folder, 'crates', 'geo_cli', 'src', 'main.rt')
        for path in (source, os.path.join(self.folder, 'crates.txt')):
            with open(path, 'w', encoding='ascii'):
                pass
            os.utime(path, (100, 100))
        with mock.patch.object(of_program, 'ROOT', self.folder), mock.patch.dict(os.environ, {'GEO_PROGRAM': ''}):
            self.assertIsNone(of_program.built_program())
            gate = self.executable('crates/geo_cli/out/geo_cli', STAND_IN)
            self.assertEqual(of_program.built_program(), gate)
            built = self.executable('.built/geo', STAND_IN)
            self.assertEqual(of_program.built_program(), built)
            os.utime(built, (50, 50))
            self.assertEqual(of_program.built_program(), gate)
            with mock.patch.dict(os.environ, {'GEO_PROGRAM': self.path}):
                self.assertEqual(of_program.built_program(), self.path)


class Progresses(unittest.TestCase):
    def test_what_takes_long_says_so(self):
        """Nothing within two seconds; then a line a second, of how far of how much."""
        times, out = iter([0, 1, 1.9, 2, 2.5, 3.1, 65]), io.StringIO()
        tell = Progress(out, lambda: next(times))
        for at in (1, 2, 3000, 4, 5000):
            tell('reading steps', at, 41579)
        tell('the program runs')
        self.assertEqual('geo: reading steps, 3,000 of 41,579, 2 s\ngeo: reading steps, 5,000 of 41,579, 3 s\ngeo: the program runs, 65 s\n', out.getvalue())


if __name__ == '__main__':
    unittest.main()
