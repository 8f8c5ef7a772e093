"""Many folders of runs: with faults planted, and without.

    tools/observed planted [--folders 1000] [--first 0] [--kind KIND] [SCRIPT ..]   each fault is found and named, and no other is said
    tools/observed moving [--folders 200] [--first 0] [--kind KIND] [SCRIPT ..]     read while all moved: no fault is said

Each of these folders is judged by the program (`geo observe`) and by the rules of this package, and both are to find the same; but for folders
with beginnings deleted, which the program does not judge.

The runs are of the scripts that are named, of each kind of random script (geo_tools random) where none is. Of a healthy folder of each run no fault may be
said, at rest also none of the trace, before faults are planted. --unseen leaves out a cluster of each folder, --trimmed deletes beginnings.
"""
import argparse
import collections
import itertools
import os
import random
import shutil
import sys
import tempfile

from ..command import read_script
from ..computed import random_runs
from ..program import Failed, Program
from ..script import Script
from . import made as of_runs
from .folder import read_folder
from .judge import Judge
from .plants import KINDS, Files
from .second_opinion import audited, explainable
from .trace import Explained
from .verdict import compared

# how many faults of those that went wrong are shown
SHOWN = 3


def scripts(words):
    """Names and scripts: those of the paths, else random ones without end."""
    for path in words.scripts:
        yield path, Script(read_script(path))
    for number in itertools.count(words.first) if not words.scripts else ():
        for kind in words.kind or random_runs.KINDS:
            yield 'random %d %s' % (number, kind), Script(random_runs.script(number, kind).encode('ascii'))


class Count:
    """What was tried and what went wrong, told as it goes. `program`: the program that judges too; none where it is not compared."""

    def __init__(self, program=None):
        self.tried, self.wrong, self.program, self.compared = collections.Counter(), 0, program, 0

    def add(self, kind, name, failure=None):
        self.tried[kind] += 1
        if failure:
            self.wrong += 1
            print('WRONG %s: %s: %s' % (name, kind, failure), flush=True)

    def differs(self, folder):
        """In which findings the two judges of a folder differ, '' for none and where the program is not asked."""
        if not self.program:
            return ''
        self.compared += 1
        ours, theirs, agrees = compared(folder, self.program)
        told = ['said here alone: %s' % (it,) for it in sorted(ours, key=str)[:SHOWN]] + ['said by the program alone: %s' % (it,) for it in sorted(theirs, key=str)[:SHOWN]]
        return '\n  '.join(told + ([] if agrees else ['the program answers otherwise than it found']))


def faults(folder):
    """The faults that are said of a folder."""
    return [(seen.topic, it) for seen in read_folder(folder)[0] for it in Judge(seen).judged() if it.is_fault]


def shown(found):
    return '; '.join('%s: %s' % it for it in found[:SHOWN])


def unexplained(folder, program):
    """What the second opinion has against a healthy folder."""
    for seen in read_folder(folder)[0]:
        if explainable(seen) is None:
            explained = Explained(Judge(seen))
            status, answer = audited(program.path, explained.text().encode('ascii'))
            if status or explained.unexplained:
                return '%s %s' % (answer, explained.unexplained[:SHOWN])
    return None


def planted_one(kind, healthy, folder, name):
    """Plants a fault of one kind into a copy of a folder, and judges it. Gives None where there is no place for it, else what went wrong, '' for nothing."""
    chosen = random.Random('%s %s' % (name, kind.__name__))
    files = Files(healthy, chosen.choice(read_folder(healthy)[0]), chosen)
    plant = kind(files)
    if plant is None:
        return None
    shutil.copytree(healthy, folder)
    files.write(folder)
    found = Judge(next(seen for seen in read_folder(folder)[0] if seen.topic == files.topic)).judged()
    wrong = []
    if not plant.is_found(found):
        wrong.append('missed: %s, and said is: %s' % (plant, '; '.join(str(it) for it in found[:SHOWN])))
    wrong += ['said, and not planted: %s (planted: %s)' % (it, plant) for it in plant.astray(found)]
    return '\n  '.join(wrong)


def plant_all(name, script, program, count, folders):
    """A healthy folder of a run, and each kind of fault planted into it, until there are so many folders."""
    with tempfile.TemporaryDirectory() as top:
        healthy = os.path.join(top, 'healthy')
        of_runs.at_rest(script, program).write(healthy)
        count.add('healthy', name, shown(faults(healthy)) or unexplained(healthy, program) or count.differs(healthy))
        for kind in KINDS:
            if count.tried.total() - count.tried['healthy'] < folders:
                folder = os.path.join(top, kind.__name__)
                wrong = planted_one(kind, healthy, folder, name)
                if wrong is not None:
                    count.add(kind.__name__, name, wrong or count.differs(folder))
                    shutil.rmtree(folder)


def planted(words, program):
    """Plants so many faults; gives what was tried."""
    count = Count(program.path)
    for name, script in scripts(words):
        if count.tried.total() - count.tried['healthy'] >= words.folders:
            break
        plant_all(name, script, program, count, words.folders)
    return count


def moving(words, program):
    """Judges so many folders that were read while all moved."""
    count = Count(None if words.trimmed else program.path)
    for number, (name, script) in enumerate(scripts(words)):
        if count.tried.total() >= words.folders:
            break
        # in every second folder the logs do not say which message a line is of
        named = words.unseen or words.trimmed or number % 2 == 0
        made = of_runs.in_motion(script, program, number, named) if words.moving else of_runs.at_rest(script, program)
        if words.trimmed:
            of_runs.trim(made, number)
        unseen = [made.clusters[number % len(made.clusters)]] if words.unseen else []
        with tempfile.TemporaryDirectory() as folder:
            made.write(folder, unseen, words.trimmed)
            count.add('in motion' if words.moving else 'at rest', name, shown(faults(folder)) or count.differs(folder))
    return count


def main(words):
    """words: which of the two, and its words. Gives the status."""
    parser = argparse.ArgumentParser(prog='tools/observed ' + words[0], description=__doc__, formatter_class=argparse.RawDescriptionHelpFormatter)
    parser.add_argument('scripts', nargs='*', metavar='SCRIPT')
    parser.add_argument('--folders', type=int, default=1000 if words[0] == 'planted' else 200)
    parser.add_argument('--first', type=int, default=0, help='the first number of the random scripts')
    parser.add_argument('--kind', action='append', choices=list(random_runs.KINDS), help='random scripts of this kind alone; it may stand several times')
    if words[0] == 'moving':
        parser.add_argument('--unseen', action='store_true', help='a cluster of each folder is not read')
        parser.add_argument('--trimmed', action='store_true', help='beginnings are deleted')
        parser.add_argument('--at-rest', dest='moving', action='store_false', help='read at the end of each run')
    parser.add_argument('--program', metavar='FILE', help='a built geo to run in place of the one that ./geo runs')
    known = parser.parse_args(words[1:])
    try:
        count = (planted if words[0] == 'planted' else moving)(known, Program(known.program))
    except Failed as failed:
        print('tools/observed: %s' % failed, file=sys.stderr)
        return failed.status
    for kind, tried in sorted(count.tried.items()):
        print('%5d  %s' % (tried, kind))
    folders = count.tried.total() - count.tried['healthy']
    print('%d folders, %d wrong%s' % (folders, count.wrong, ', %d judged by the program too' % count.compared if count.program else ''))
    return 1 if count.wrong or folders < known.folders else 0
