"""Computes what is lost if a cluster goes at the end of a run, by the definitions of crates/loss_laws, inside the checker, and compares that
with the answers of files of answers/.

A crate of its own stands for this on a copy of geo_base, with these definitions and a proof for each run, which holds by computation alone.
"""
import os
from collections import namedtuple

from ..program import ROOT
from ..stored.examples import answers_in
from .definitions import IMPORTS, TEST, TEST_IMPORTS, UNFOLDED, Script, as_definitions, copy_of_crates, name_of, run_of, used
from .step_runs import from_outside
from . import definitions

BELOW, CRATE, TAKEN = 'geo_base', 'lost_runs', ('Lost', 'LostLines')
LOST_IMPORTS = 'use Rattle.lost_runs.specs.LostLines.{lost_lines}\n'
# the words behind the cluster that leave the messages out, and that have a state read
NUMBERS, FROM = 'numbers', 'from'

# a script, the cluster that goes, whether the messages are named, and the lines that are told
Run = namedtuple('Run', 'name script cluster names lines')


def runs_of(file):
    """The runs of a file of answers/: of each script that `lost` is given there and does not refuse. What goes on from the state of a script is
    one run with it, which stops between."""
    for case in answers_in(file):
        command, *words = case.words.split(' ')
        if command == 'lost' and case.saved == (words[1:] == [FROM]) and case.answer.startswith(b'status 0\n'):
            name = '_'.join(filter(None, [*case.name.split('/')[1:], run_of(case.file), *words]))
            script = case.given + (b'stop\n' if case.saved else b'') + case.behind
            yield Run(name, script.decode('ascii'), words[0], words[1:] != [NUMBERS], case.answer.decode('ascii').split('\n')[1:-1])


def module(given):
    """The text of the proof module of a run."""
    script = Script(given.script)
    lines = 'lost_lines %s setup (run setup schedule) %d' % ('true' if given.names else 'false', script.clusters.index(given.cluster))
    stated = ['told : same_lines (%s) shown ≡ true' % lines, 'unfolding %s same_lines' % UNFOLDED, 'told = refl']
    body = '\n'.join([TEST, *as_definitions(script, given.lines), *stated]) + '\n'
    head = '-- What is lost at the end of the run %s, computed. Written by tools/geo_tools definitions.\n' % given.name
    return head + from_outside(used(IMPORTS + LOST_IMPORTS + TEST_IMPORTS, body)) + '\n' + body


def copy_for_losses(where, runs):
    """A crate for runs; gives its folder."""
    copy_of_crates(where, [BELOW])
    crate = os.path.join(where, 'crates', CRATE)
    for folder in ('src', 'specs', 'proofs'):
        os.makedirs(os.path.join(crate, folder))
    files = {'src/lib.rt': '#![tactic(auto)]\n', 'specs/Lib.antt': ''.join('pub mod %s\n' % name for name in TAKEN),
             'proofs/Lib.antt': ''.join('mod %s\n' % name_of(given.name) for given in runs)}
    for name in TAKEN:
        with open(os.path.join(ROOT, 'crates', 'loss_laws', 'specs', name + '.antt'), encoding='utf-8') as file:
            files['specs/%s.antt' % name] = file.read().replace('Rattle.loss_laws.specs.', 'Rattle.%s.specs.' % CRATE)
    files.update({'proofs/%s.antt' % name_of(given.name): module(given) for given in runs})
    for name, content in files.items():
        with open(os.path.join(crate, name), 'w', encoding='utf-8') as file:
            file.write(content)
    with open(os.path.join(where, 'crates.txt'), 'a', encoding='utf-8') as file:
        file.write('%s: %s\n' % (CRATE, BELOW))
    return crate


def check(files):
    """Computes what is lost in runs, and says which agree; gives the status."""
    runs = {given.name: given for file in files for given in runs_of(run_of(file))}
    if not runs:
        print('not computed: no script is answered by `lost` there')
        return definitions.NOT_COMPUTED
    return definitions.check(list(runs), lambda where, names: copy_for_losses(where, [runs[name] for name in names]))
