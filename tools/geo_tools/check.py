"""Checks the tools, the drills and what is stored beside scripts, on a build: tools/check [--quick]

--quick leaves out the pages in a browser, planted errors, refused memory, and lines of drills that no expectation needs.
"""
import argparse
import glob
import io
import os
import shutil
import subprocess
import sys
import tempfile
import time
import traceback
import unittest
from contextlib import redirect_stdout

from .apart import memory
from .computed import definitions, planted
from .drill import written
from .drill.language import Drill
from .drill.needed import not_needed
from .drill.play import Play
from .drill.words import Refused
from .program import ROOT, Failed, Program, built_program
from .stored import examples

TESTS = os.path.join(ROOT, 'tools', 'tests')
# tests of this name need a browser: they are left out of a quick check, and skipped where there is none
BROWSER = 'browser'
# what tests of these names need may be missing: then it is said that they did not run, and nothing fails
MAY_BE_MISSING = (BROWSER, 'zsh')
# the run that the definitions compute, once with its report and once with another one: what stands there, and in its place
RIGHT = os.path.join('examples', 'one_message')
WRONG = ('mark 1', 'mark 0')
# an error that is planted, and a command whose allocations are refused
PLANTED = 'an equal sequence id'
MEMORY = ['trace', os.path.join(ROOT, 'examples', 'one_message.geo')]


class Count:
    """What passed and what failed, told as it goes."""

    def __init__(self):
        self.passed = self.failed = 0

    def add(self, name, failure=None):
        """One check; `failure` says what is wrong."""
        if failure is None:
            self.passed += 1
        else:
            self.failed += 1
            print('FAILED %s: %s' % (name, failure), flush=True)


class Results(unittest.TestResult):
    """Counts unit tests. One that is skipped did not run, so it did not pass; but for those that need what may be missing."""

    def __init__(self, count):
        super().__init__()
        self.count = count

    def addSuccess(self, test):
        self.count.add(test.id())

    def addError(self, test, err):
        super().addError(test, err)
        self.count.add(test.id(), self.errors[-1][1])

    def addFailure(self, test, err):
        super().addFailure(test, err)
        self.count.add(test.id(), self.failures[-1][1])

    def addSubTest(self, test, subtest, err):
        if err is not None:
            self.count.add(subtest.id(), ''.join(traceback.format_exception(*err)))

    def addSkip(self, test, reason):
        if any(name in test.id() for name in MAY_BE_MISSING):
            print('skipped %s: %s' % (test.id(), reason), flush=True)
        else:
            self.count.add(test.id(), 'not run: ' + reason)


def tests(count, is_quick):
    """The unit tests."""
    sys.path.insert(0, os.path.dirname(TESTS))
    found = unittest.defaultTestLoader.discover(TESTS, top_level_dir=os.path.dirname(TESTS))
    unittest.TestSuite(case for case in cases(found) if not (is_quick and BROWSER in case.id())).run(Results(count))


def cases(suite):
    """The tests of a suite, one by one."""
    for it in suite:
        if isinstance(it, unittest.TestSuite):
            yield from cases(it)
        else:
            yield it


def drill(path, program):
    """What is wrong with a drill: its stored script and report, an expectation that is not met, a line in vain; None where nothing is."""
    with open(path, encoding='utf-8') as file:
        text = file.read()
    try:
        play = Play(Drill(text, os.path.relpath(path, ROOT)), program).go()
    except (Refused, Failed) as refused:
        return refused.shown() if isinstance(refused, Refused) else str(refused)
    for ending, made in (('.geo', written.script(play)), ('.report', play.whole.text.encode())):
        with open(path[:-len('.drill')] + ending, 'rb') as file:
            if file.read() != made:
                return 'the stored %s is another one' % ending
    wrong = ['line %d: %s: %s' % (it.statement.number, it.statement.text, said) for it, said in [*play.differing(), *play.vain()]]
    return '\n'.join(wrong) or None


def lines_differ(path, program):
    """Which lines nothing depends on, against those that drills/needed.txt names; None where they are the same."""
    name = os.path.basename(path)[:-len('.drill')]
    with open(os.path.join(ROOT, 'drills', 'needed.txt'), encoding='utf-8') as file:
        wanted = {line[len(name) + 2:].rstrip('\n') for line in file if line.startswith(name + ': ')}
    with open(path, encoding='utf-8') as file:
        found = {text for _, text in not_needed(file.read(), name, program)}
    wrong = ['nothing depends on it: ' + text for text in sorted(found - wanted)] + ['named, and something depends on it: ' + text for text in sorted(wanted - found)]
    return '\n'.join(wrong) or None


def drills(count, program, is_quick):
    """Each stored drill is played."""
    for path in sorted(glob.glob(os.path.join(ROOT, 'drills', '*.drill'))):
        name = os.path.relpath(path, ROOT)
        count.add(name, drill(path, program))
        if not is_quick:
            count.add(name + ', lines that nothing depends on', lines_differ(path, program))


def quietly(call, *words):
    """What a tool ends with, and what it printed."""
    out = io.StringIO()
    with redirect_stdout(out):
        try:
            status = call(*words)
        except SystemExit as ended:
            status = ended.code
    return status, out.getvalue()


def computed(count):
    """The definitions agree with a right report and refuse a wrong one."""
    if not shutil.which('rt'):
        count.add('computed runs', 'not run: rt, the command of the Rattle kit, is not in the path')
        return
    with tempfile.TemporaryDirectory() as folder:
        paths = []
        with open(os.path.join(ROOT, RIGHT + '.geo'), encoding='ascii') as script, open(os.path.join(ROOT, RIGHT + '.report'), encoding='ascii') as report:
            texts = {'.geo': script.read(), '.report': report.read()}
        for name in ('right', 'wrong'):
            paths.append(os.path.join(folder, name + '.geo'))
            for ending, text in texts.items():
                with open(os.path.join(folder, name + ending), 'w', encoding='ascii') as file:
                    file.write(text.replace(*WRONG) if name == 'wrong' and ending == '.report' else text)
        said, verdict = definitions.verdicts(paths)
    wanted = dict(zip(paths, ('agrees', 'REFUSED')))
    for path in paths:
        name = os.path.basename(path)[:-len('.geo')]
        count.add('a %s report, computed' % name, None if said[path] == wanted[path] else '%s\n%s' % (said[path], '\n'.join(verdict.said[-definitions.SHOWN:])))


def whole(count):
    """What a quick check leaves out, beside pages and lines of drills."""
    status, text = quietly(planted.main, [PLANTED])
    count.add('a planted error', None if status == 0 else text)
    if not shutil.which('cc'):
        count.add('refused memory', 'not run: there is no C compiler (cc)')
        return
    status, text = quietly(memory.main, MEMORY)
    count.add('refused memory', None if status == 0 else text)


def found_program():
    """A program of this source, which tools/build makes where there is none."""
    path = built_program()
    if path is None:
        print('tools/check: there is no build of this source: tools/build makes one', flush=True)
        subprocess.run([os.path.join(ROOT, 'tools', 'build')], check=False)
        path = built_program()
    return path


def main(words):
    """Checks; gives the status."""
    parser = argparse.ArgumentParser(prog='tools/check', description=__doc__, formatter_class=argparse.RawDescriptionHelpFormatter)
    parser.add_argument('--quick', action='store_true', help='in at most three minutes beside a build')
    is_quick, began, count = parser.parse_args(words).quick, time.time(), Count()
    path = found_program()
    if path is None:
        count.add('all that plays', 'not run: there is no program of this source')
    else:
        # the tests of the package ask for the program by themselves
        os.environ['GEO_PROGRAM'] = path
        print('tools/check: the program is ' + os.path.relpath(path, ROOT), flush=True)
        tests(count, is_quick)
        drills(count, Program(path), is_quick)
    status, text = quietly(examples.main, ['check'])
    count.add('the input and output of geo_examples', None if status == 0 else '%s%s' % (text, status))
    computed(count)
    if not is_quick:
        whole(count)
    print('tools/check: %.0f seconds' % (time.time() - began))
    print('%d passed, %d failed' % (count.passed, count.failed))
    return 1 if count.failed else 0
