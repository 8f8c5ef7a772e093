"""Computes the steps of runs by the definitions of crates/step_laws, inside the checker, and compares them with what ./geo steps prints,
or with the answers of a file of answers/.

A crate of its own stands for this on copies of geo_base and script_rows: with the definitions of steps and of the lines that say them,
as they stand in their crates, and a proof for each run, which holds by computation alone. What `steps` prints before its line `steps`, the
declarations, is not computed.
"""
import os
import re
import subprocess
from collections import namedtuple

from ..program import ROOT
from ..stored.examples import answers_in
from .definitions import IMPORTS, TEST, TEST_IMPORTS, UNFOLDED, Script, as_definitions, copy_of_crates, items, name_of, run_of, text, used
from . import definitions

# the crates whose declared types and definitions are used where they stand, and the modules of others
BELOW = ['geo_base', 'script_rows']
TAKEN = ('step_laws/specs/Steps', 'script_text/specs/Said', 'script_text/specs/Lines', 'script_text/specs/Naming')
CRATE = 'step_runs'
STEP_IMPORTS = '''use Rattle.geo_base.specs.Report.{with_line_feeds}
use Rattle.geo_base.specs.World.{opening_world}
use Rattle.script_rows.specs.Written.{step_line}
use Rattle.step_runs.specs.Naming.{names_of}
use Rattle.step_runs.specs.Said.{said_in}
use Rattle.step_runs.specs.Steps.{step_told, steps_lines}
'''
STATEMENT = ('same_lines (steps_lines (step_line (names_of setup)) all_limits setup (record { world = opening_world setup; ended = None }) '
             '(said_in (%s) (with_line_feeds said)) schedule) shown ≡ true')

# a script with the lines of its steps, from the line `steps` on
Run = namedtuple('Run', 'name script steps')


def run(name, script, answer):
    lines = answer.split('\n')[:-1]
    return Run(name, script, lines[lines.index('steps'):])


def script_run(path):
    """The run of a script, as the program tells it."""
    done = subprocess.run([os.path.join(ROOT, 'geo'), 'steps', path], capture_output=True, text=True, check=True)
    with open(path, encoding='ascii') as file:
        return run(run_of(path), file.read(), done.stdout)


def answered_runs(file):
    """The runs of a file of answers/: of each script that `steps` is given there and does not refuse."""
    cases = [case for case in answers_in(file) if case.words == 'steps' and case.answer.startswith(b'status 0\n')]
    return [run(re.sub('[^a-z0-9]', '_', case.name), (case.given + case.behind).decode('ascii'), case.answer.decode('ascii')) for case in cases]


def runs_of(path):
    """The runs that a path names."""
    return answered_runs(run_of(path)) if path.endswith('.txt') else [script_run(path)]


def from_outside(imports):
    """Imports of the lowest crate's own names for its types, as another crate has to write them: by the lines that give them these names."""
    with open(os.path.join(ROOT, 'crates', 'geo_base', 'specs', 'Types.antt'), encoding='utf-8') as file:
        lines = re.findall(r'^pub (use \S+?(?: as |\.\{)(\w+)\}?)$', file.read(), re.MULTILINE)
    named = {name: line for line, name in lines}
    return re.sub(r'use Rattle\.geo_base\.specs\.Types\.\{?(\w+)\}?', lambda found: named[found.group(1)], imports)


def module(given):
    """The text of the proof module of a run."""
    script = Script(given.script)
    first = 'None' if script.first_event is None else 'Some %d' % script.first_event
    said = ['said : List (List ℕ)', 'said = %s' % items(['\n    ' + text(line) for line in given.script.split('\n')[:-1]]), '']
    stated = ['stepped : ' + STATEMENT % first, 'unfolding %s said report_lines step_told same_lines' % UNFOLDED, 'stepped = refl']
    body = '\n'.join([TEST, *as_definitions(script, given.steps), *said, *stated]) + '\n'
    head = '-- The steps of the run %s, computed. Written by tools/geo_tools definitions.\n' % given.name
    return head + from_outside(used(IMPORTS + STEP_IMPORTS + TEST_IMPORTS, body)) + '\n' + body


def copy_for_steps(where, runs):
    """A crate for runs; gives its folder."""
    copy_of_crates(where, BELOW)
    crate = os.path.join(where, 'crates', CRATE)
    for folder in ('src', 'specs', 'proofs'):
        os.makedirs(os.path.join(crate, folder))
    files = {'src/lib.rt': '#![tactic(auto)]\n', 'specs/Lib.antt': '', 'proofs/Lib.antt': ''}
    for taken in TAKEN:
        with open(os.path.join(ROOT, 'crates', taken + '.antt'), encoding='utf-8') as file:
            files['specs/%s.antt' % os.path.basename(taken)] = re.sub(r'Rattle\.(step_laws|script_text)\.specs\.', 'Rattle.%s.specs.' % CRATE, file.read())
        files['specs/Lib.antt'] += 'pub mod %s\n' % os.path.basename(taken)
    for given in runs:
        files['proofs/%s.antt' % name_of(given.name)] = module(given)
        files['proofs/Lib.antt'] += 'mod %s\n' % name_of(given.name)
    for name, content in files.items():
        with open(os.path.join(crate, name), 'w', encoding='utf-8') as file:
            file.write(content)
    with open(os.path.join(where, 'crates.txt'), 'a', encoding='utf-8') as file:
        file.write('%s: %s\n' % (CRATE, ' '.join(BELOW)))
    return crate


def check(paths):
    """Computes the steps of runs, and says which agree; gives the status."""
    given = [found for path in paths for found in runs_of(path)]
    runs = {found.name: found for found in given}
    if not given or len(runs) < len(given):
        print('not computed: %s' % ('two runs have one name' if given else 'no script is answered by `steps` there'))
        return definitions.NOT_COMPUTED
    return definitions.check(list(runs), lambda where, names: copy_for_steps(where, [runs[name] for name in names]))
