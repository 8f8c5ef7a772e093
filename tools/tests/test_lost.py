"""`geo lost`: what is stored of it, and what the trace, the steps and the report of a run say by themselves."""
import glob
import io
import os
import re
import subprocess
import unittest
from contextlib import redirect_stdout

from geo_tools.computed import definitions, lost_runs
from geo_tools.drill import written
from geo_tools.drill.language import Drill
from geo_tools.drill.play import Play
from geo_tools.program import ROOT, Program
from geo_tools.script import Script
from geo_tools.stored import losses
from geo_tools.stored.examples import answers_in

from .played import PROGRAM, content, plays

# runs of all kinds: lists of clusters, a region that is lost for good, snapshots in the making, told and untold, a restart, a halt
SCRIPTS = ('region_lost', 'lost_for_good', 'nine_behind', 'selective_lists', 'burst', 'restart_forgets', 'halted_update', 'no_snapshot_ends', 'deleted_comes_back')


ORDERS = 80


def staying_behind(count):
    """A drill in which a snapshot ends behind each order, and billing stays so many orders behind what it was given."""
    lines = ['geo 1', 'cluster east', 'cluster west', 'topic orders', 'client shop orders east', 'client bill orders east', 'do shop produce']
    lines += ['do shop pub %d * - order%d' % (at, at) for at in range(ORDERS)] + ['do bill sub billing exclusive earliest replicated', 'do bill flow 1000']
    lines += ['do bill ack east shop %d' % at for at in range(ORDERS - count)]
    lines += ['link east west', 'connect shop', "run shop's next line", 'connect bill', "run bill's next 2 lines"]
    for at in range(ORDERS):
        lines += ["run shop's next line", 'snapshot at east', 'give billing at east'] + (["run bill's next line"] if at >= count else [])
    return '\n'.join(lines + ['exchange east west', ''])


def asked(words, given):
    """The status and the output of the program."""
    done = subprocess.run([PROGRAM, *words.split(' ')], input=given, capture_output=True, check=False)
    return done.returncode, done.stdout


@plays
class Answers(unittest.TestCase):
    def test_stored_cases(self):
        for file in ('lost', 'lost_words'):
            for case in answers_in(file):
                with self.subTest(case.name):
                    given = asked('save', case.given)[1] if case.saved else case.given
                    status, said = asked(case.words, given + case.behind)
                    self.assertEqual(case.answer.decode(), 'status %d\n%s' % (status, said.decode()))

    def test_told_apart_from_the_command(self):
        """Of each cluster of each script, at its end and half way."""
        program = Program(PROGRAM)
        for name in SCRIPTS:
            script = Script(content('drills/%s.geo' % name).encode())
            for raw in (script.raw, script.beginning(len(script.events) // 2)):
                for cluster in script.clusters:
                    with self.subTest('%s, %s of %d bytes' % (name, cluster, len(raw))):
                        self.assertEqual(losses.losses(raw, program, cluster), program.answer('lost ' + cluster, raw).splitlines())

    def test_a_consumer_that_stays_behind(self):
        """The table of docs/DRILLS.md: so many orders of 80 are given and not acknowledged."""
        rows = re.findall(r'^\| (\d+) \| (\d+) \| (\d+) of (\d+) \|$', content('docs/DRILLS.md').replace('**', ''), re.M)
        self.assertEqual([5, 9, 10, 20, 40], [int(row[0]) for row in rows])
        program = Program(PROGRAM)
        for count, updates, again, acknowledged in (map(int, row) for row in rows):
            with self.subTest(count):
                raw = written.script(Play(Drill(staying_behind(count), 'behind.drill'), program).go())
                report, told = program.report(raw), program.answer('lost east numbers', raw)
                self.assertEqual(updates, sum(entry.kind == 'update' for entry in report.entries['orders', 'east']))
                self.assertIn('again sub billing at west %d\nbacklog sub billing at west %d\n' % (again, again + count), told)
                self.assertEqual(ORDERS, acknowledged + count)

    def test_what_is_written_is_stored(self):
        self.assertEqual(content('answers/lost.txt'), losses.written(Program(PROGRAM)))


class Cases(unittest.TestCase):
    def test_each_script_with_a_replicated_subscription(self):
        files = [case.file for case in answers_in('lost')]
        scripts = [os.path.relpath(path, ROOT) for folder in ('drills', 'examples') for path in sorted(glob.glob(os.path.join(ROOT, folder, '*.geo')))]
        self.assertEqual([path for path in scripts if ' replicated\n' in content(path)], files)

    def test_the_first_place_of_a_subscription(self):
        script = Script(b'geo 1\ncluster a\ncluster b\ntopic t\nclient p t a\nclient q t b\ndo p sub s shared earliest local\ndo q sub s shared earliest replicated\n')
        self.assertEqual('b', losses.first_place(script))
        self.assertIsNone(losses.first_place(Script(script.raw.replace(b' replicated', b' local'))))


class Computed(unittest.TestCase):
    """What the checker is given. It is not asked here."""

    def test_what_is_refused_is_no_run(self):
        runs = list(lost_runs.runs_of('lost_words'))
        told = [case for case in answers_in('lost_words') if case.answer.startswith(b'status 0\n')]
        self.assertEqual(len(told), len(runs))
        self.assertEqual(len(runs), len({run.name for run in runs}))
        self.assertEqual({True, False}, {run.names for run in runs})
        # a state is that of its script, which stops
        behind = [run for run in runs if run.name.endswith('_from')]
        self.assertEqual([True, True], ['\nstop\n' in run.script for run in behind])

    def test_nothing_to_compute_is_no_success(self):
        out = io.StringIO()
        with redirect_stdout(out):
            self.assertEqual(definitions.NOT_COMPUTED, lost_runs.check(['answers/views.txt']))
        self.assertIn('no script is answered', out.getvalue())

    def test_a_module(self):
        run = lost_runs.Run('x', content('examples/one_message.geo'), 'b', False, ['lost b topic t', 'asked 0'])
        text = lost_runs.module(run)
        self.assertIn('told : same_lines (lost_lines false setup (run setup schedule) 1) shown ≡ true\n', text)
        self.assertIn('    (codes "lost b topic t") ∷\n    (codes "asked 0") ∷\n', text)
        self.assertNotIn('Rattle.geo_base.specs.Types', text)


if __name__ == '__main__':
    unittest.main()
