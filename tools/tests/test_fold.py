"""The steps that the program prints, read by the reader that tells and draws them, are its reports: of each script that stands in the
repository with its report, of random ones, and, where it is short, behind each of its steps. GEO_RANDOM says how many random scripts of
each of the twelve kinds are tried (1). It needs a program, and without one is skipped and says so."""
import glob
import os
import subprocess
import sys
import unittest

from geo_tools import steps
from geo_tools.computed.random_runs import KINDS, script
from geo_tools.program import ROOT, Program
from geo_tools.script import Behind, Script
from .outside import steps_outside

PROGRAM = Program()
plays = unittest.skipUnless(PROGRAM.path, 'there is no program: neither GEO_PROGRAM nor a build of this source')
FOLDERS = ('examples', 'drills', 'runs')
# of more events a script is not run at each of its beginnings
MOST_EVENTS = 40
# how many random scripts of each kind
RANDOM = int(os.environ.get('GEO_RANDOM') or 1)


def content(path):
    with open(path, 'rb') as file:
        return file.read()


def stored():
    """The scripts that stand in the repository with their report."""
    found = [path for folder in FOLDERS for path in glob.glob(os.path.join(ROOT, folder, '*.geo'))]
    return sorted(path for path in found if os.path.exists(path[:-len('.geo')] + '.report'))


def step_by_step(raw):
    """The program's steps in the form of steps_outside: of a settle what the reader has behind it."""
    reader, told, is_settle = steps.Reader(Script(raw)), [], False
    lines = PROGRAM.lines('steps', raw)
    while next(lines) != 'steps':
        pass
    for line in lines:
        if line.startswith('step '):
            is_settle = line.endswith(' settle')
        elif not line.startswith('  event '):
            reader.read(line.lstrip(' '))
        if line.startswith('step ') or (told and not is_settle):
            told.append(line.lstrip(' '))
        elif is_settle and line.startswith('  events '):
            told.append(reader.report().text)
            is_settle = False
    return told


@plays
class FoldTest(unittest.TestCase):
    def test_stored_scripts(self):
        paths = stored()
        self.assertLess(100, len(paths))
        for path in paths:
            with self.subTest(path):
                raw = content(path)
                run = steps.run(Script(raw), PROGRAM)
                self.assertEqual(content(path[:-len('.geo')] + '.report').decode(), run.whole.text)
                self.assertEqual(len(run.script.events), len(run.moments))
                self.assertEqual([run.whole.events, run.whole.idle, run.whole.rounds], [
                    sum(moment.events for moment in run.moments), sum(moment.idle for moment in run.moments), sum(moment.rounds for moment in run.moments)])

    def test_random_scripts(self):
        for kind in KINDS:
            for number in range(1, RANDOM + 1):
                with self.subTest(kind=kind, number=number):
                    raw = script(number, kind).encode()
                    self.assertEqual(PROGRAM.report(raw).text, steps.run(Script(raw), PROGRAM).whole.text)

    def test_behind_each_step(self):
        """What each event changed, seen from outside: by a run of each beginning."""
        paths = [path for path in stored() if 0 < len(Script(content(path)).events) <= MOST_EVENTS]
        self.assertLess(20, len(paths))
        for path in paths:
            with self.subTest(path):
                raw = content(path)
                self.assertEqual(steps_outside(PROGRAM, raw), step_by_step(raw))

    def test_what_goes_on_from_a_state(self):
        """The first half of a script saved, and the other half told behind the state."""
        for kind in KINDS:
            raw = script(1, kind).encode()
            whole = Script(raw)
            begin = whole.beginning(len(whole.events) // 2)
            state = subprocess.run([PROGRAM.path, 'save'], input=begin, capture_output=True, check=True).stdout
            with self.subTest(kind):
                given = Behind(state, raw[len(begin):])
                wanted = subprocess.run([PROGRAM.path, 'resume'], input=given.raw, capture_output=True, check=True).stdout.decode()
                try:
                    run = steps.run(given, PROGRAM)
                except steps.Failed as failed:
                    if 'no command steps from' not in str(failed):
                        raise
                    print('not run: %s' % failed, file=sys.stderr)
                    return
                self.assertEqual(wanted, run.whole.text)
                # the saved state's report is where it begins
                saved = subprocess.run([PROGRAM.path, 'resume'], input=state, capture_output=True, check=True).stdout.decode()
                self.assertEqual(saved, run.begin.text)
                self.assertEqual([event.words for event in whole.events[len(whole.events) // 2:]], [moment.event.words for moment in run.moments])


if __name__ == '__main__':
    unittest.main()
