"""What is said of computed runs, by what the checker says, and what it is given of the steps of a run. No checker is needed."""
import os
import tempfile
import unittest
from contextlib import redirect_stdout
from io import StringIO
from unittest import mock

from geo_tools.computed import step_runs
from geo_tools.computed.definitions import NOT_COMPUTED, Verdict
from geo_tools.computed.planted import worded

PROVED = 'fn geo_base::a: proved\nlogic=proved functions=1\n'
RUN = "./proofs/Run_two.antt:3:5: error: `reported`: expected type `a`, but this has type `b`\nlogic=not-proved\n"
LEMMA = "./proofs/Picks.antt:62:65: error: `pick_has`: expected type `a`, but this has type `b`\nlogic=not-proved\n"
FUNCTION = 'fn geo_base::limits::numbers: no proof: `search` did not prove `returns-clause-cached`\nlogic=not-proved\n'
READING = "./specs/Broker.antt:6:1: error: `b` is not known\nlogic=not-proved\n"
MISSING = "crates.txt names no crate of src/lib.rt: error: arrayvec\n"


class Verdicts(unittest.TestCase):
    def test_proof_of_everything_alone_agrees(self):
        self.assertTrue(Verdict(PROVED).is_proved)
        for said in (RUN, LEMMA, READING, MISSING, '', RUN + PROVED, 'fn geo_base::a: proved\n'):
            self.assertFalse(Verdict(said).is_proved, said)

    def test_who_refused(self):
        self.assertEqual((Verdict(RUN).runs, Verdict(RUN).other), ({'two'}, []))
        self.assertEqual((Verdict(LEMMA).runs, len(Verdict(LEMMA).lemmas)), (set(), 1))

    def test_planted(self):
        self.assertEqual(worded(Verdict(RUN)), 'refused by 1: two')
        self.assertTrue(worded(Verdict(LEMMA)).startswith('refused by a lemma: ./proofs/Picks'))
        self.assertEqual(worded(Verdict(FUNCTION)), 'refused by a function: geo_base::limits::numbers')
        # a broken check is not taken for a refusal
        for said in (READING, MISSING, READING + RUN, READING + FUNCTION, 'the toolchain failed\n'):
            self.assertTrue(worded(Verdict(said)).startswith('NOT COMPUTED'), said)


# a script, with comments between its lines, and an answer to `steps` whose declarations are left out here
SCRIPT = '# one step\ngeo 1\ncluster a\ncluster b\ntopic t\nclient p t a\ndo p produce\n\n# the seventh line is a client\'s\nreconnect p\n'
ANSWER = 'status 0\ngeo 1\nsteps\nevents 0 idle 0 rounds 0\nstep 1 line 10 reconnect p\nevents 1 idle 0 rounds 0\n'


class Steps(unittest.TestCase):
    def test_lines_from_steps_on(self):
        self.assertEqual(step_runs.run('one', SCRIPT, ANSWER).steps[:2], ['steps', 'events 0 idle 0 rounds 0'])

    def test_first_step_stands_in_its_line(self):
        text = step_runs.module(step_runs.run('one', SCRIPT, ANSWER))
        self.assertIn('(said_in (Some 10) (with_line_feeds said))', text)
        self.assertIn('(codes "step 1 line 10 reconnect p")', text)
        # the line that is empty is counted as any other
        self.assertIn('(codes "do p produce") ∷ \n    [] ∷ \n    (codes "# the seventh', text)

    def test_types_are_named_from_outside(self):
        text = step_runs.module(step_runs.run('one', SCRIPT, ANSWER))
        self.assertIn('use Rattle.geo_base.specs.declared.event.Step.TheVariants as step\n', text)
        self.assertNotIn('.specs.Types', text)

    def test_answers_that_are_no_refusals(self):
        runs = step_runs.runs_of('answers/steps.txt')
        self.assertTrue(len(runs) > 2 and all(run.steps[0] == 'steps' for run in runs))
        # lines that a case has behind its file are of its script
        self.assertTrue(any(run.script.endswith('reconnect p\nsettle\n') for run in runs))

    def test_definitions_are_those_of_their_crates(self):
        with tempfile.TemporaryDirectory() as where, mock.patch.object(step_runs, 'BELOW', []):
            os.mkdir(os.path.join(where, 'crates'))
            crate = step_runs.copy_for_steps(where, [step_runs.run('one', SCRIPT, ANSWER)])
            with open(os.path.join(crate, 'specs', 'Steps.antt'), encoding='utf-8') as file:
                text = file.read()
            with open(os.path.join(step_runs.ROOT, 'crates', 'step_laws', 'specs', 'Steps.antt'), encoding='utf-8') as file:
                self.assertEqual(text, file.read().replace('Rattle.script_text.', 'Rattle.step_runs.').replace('Rattle.step_laws.', 'Rattle.step_runs.'))
            self.assertEqual(sorted(os.listdir(os.path.join(crate, 'proofs'))), ['Lib.antt', 'Run_one.antt'])

    def test_nothing_to_compute_is_no_success(self):
        out = StringIO()
        with redirect_stdout(out):
            self.assertEqual(step_runs.check(['answers/views.txt']), NOT_COMPUTED)
        self.assertIn('no script is answered', out.getvalue())


if __name__ == '__main__':
    unittest.main()
