"""tools/live: a script gets a seed, a run is the same for the same one, and its schedule is answered by the same report."""
import contextlib
import io
import os
import tempfile
import unittest

from geo_tools import live_runs
from geo_tools.program import ROOT, built_program
from geo_tools.report import Report

DECLARED = b'geo 1\ncluster a\ncluster b\ntopic t\n'


def script():
    with open(os.path.join(ROOT, 'examples', 'live.geo'), 'rb') as file:
        return file.read()


class Seeds(unittest.TestCase):
    def test_a_seed_stands_in_the_chance_line(self):
        self.assertEqual(live_runs.seeded(b'geo 1\nchance 7 1 2 3\ncluster a\n', 9), b'geo 1\nchance 9 1 2 3\ncluster a\n')

    def test_a_script_without_chances_gets_none(self):
        self.assertEqual(live_runs.seeded(DECLARED, 9), DECLARED.replace(b'geo 1\n', b'geo 1\nchance 9 0 0 0\n'))

    def test_what_a_cluster_lacks(self):
        report = Report('events 1 idle 0 rounds 0\ntopic t at a\nentry 0:0 a p 0 * data - m\nentry 0:1 a p 1 a data - own\ntopic t at b\n')
        self.assertEqual(live_runs.lacking(report), {('t', 'b'): 1})


@unittest.skipUnless(built_program(), 'no program: tools/build or tools/compile makes one')
class Runs(unittest.TestCase):
    def test_a_seed_makes_one_run(self):
        runs = live_runs.Runs(built_program(), script(), 1, 500)
        status, report, schedule = runs.run(3)
        self.assertEqual(status, 0)
        self.assertEqual(runs.run(3), (status, report, schedule))
        self.assertTrue(runs.is_same(report, schedule))
        self.assertFalse(runs.is_same(report.replace(b'events ', b'events 1', 1), schedule))

    def test_files_and_verdicts(self):
        with tempfile.TemporaryDirectory() as folder:
            out = io.StringIO()
            with contextlib.redirect_stdout(out):
                status = live_runs.main([os.path.join(ROOT, 'examples', 'live.geo'), '--seeds', '2', '--turns', '300', '--out', folder])
            self.assertEqual(status, 0)
            self.assertEqual(sorted(os.listdir(folder)), ['1.geo', '1.report', '2.geo', '2.report'])
            self.assertRegex(out.getvalue(), r'\Aseed 1: \d+ events; `run` prints the same; .*\nseed 2: ')

    def test_a_script_with_a_schedule_is_refused(self):
        with tempfile.TemporaryDirectory() as folder, contextlib.redirect_stderr(io.StringIO()) as said:
            status = live_runs.main([os.path.join(ROOT, 'examples', 'one_message.geo'), '--seeds', '1', '--out', folder])
            self.assertEqual(status, 3)
            self.assertIn('rule 20', said.getvalue())


if __name__ == '__main__':
    unittest.main()
