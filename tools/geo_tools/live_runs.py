"""Runs a script without events on threads, for many seeds, and says of each run what came of it, a line each.

Of each seed two files are left in the folder: SEED.report, the report of the run, and SEED.geo, the script with the schedule that the
threads made, which `geo run` takes, `geo story` tells and `geo page` draws. With one worker a seed's run is the same each time, so that
this is a simulator with seeds; with more, threads take turns in any order, and two calls may make two runs.

A line says how many events were done, whether `geo run` of the schedule printed the same report, which clients have lines left, how many
messages came again, and how many messages each cluster lacks that another one has for all.
"""
import argparse
import os
import subprocess
import sys

from .command import read_script
from .program import NO_PROGRAM, kept_program
from .report import Report, identity, is_message

# what differs from the machine's run, and where a run was refused
DIFFERS = 1
MOST_SEED = 4294967295


def seeded(raw, seed):
    """The script with this number in its `chance` line; one without losses where it has none."""
    lines = raw.split(b'\n')
    for at, line in enumerate(lines):
        words = line.split(b' ')
        if words[0] == b'chance' and len(words) == 5:
            lines[at] = b' '.join([words[0], b'%d' % seed] + words[2:])
            return b'\n'.join(lines)
    after = next((at for at, line in enumerate(lines) if line.startswith(b'geo ')), -1)
    return b'\n'.join(lines[:after + 1] + [b'chance %d 0 0 0' % seed] + lines[after + 1:])


def lacking(report):
    """How many messages for all each cluster lacks that stand at another one of the same topic, by (topic, cluster)."""
    have = {place: {identity(entry) for entry in entries if is_message(entry) and entry.targets == '*'} for place, entries in report.entries.items()}
    lacks = {}
    for (topic, cluster), own in have.items():
        everywhere = set().union(*(some for (of, _), some in have.items() if of == topic))
        if everywhere - own:
            lacks[topic, cluster] = len(everywhere - own)
    return lacks


def verdict(report, is_same):
    """What a line says of a run."""
    left = ['%s %d/%d' % (name, client.done, client.total) for name, client in report.clients.items() if client.done < client.total]
    said = ['%d events' % report.events, '`run` prints the same' if is_same else '`run` PRINTS ANOTHER REPORT',
            'lines left: ' + ', '.join(left) if left else 'all lines done', '%d came again' % report.again()]
    said += ['%s at %s lacks %d' % (topic, cluster, count) for (topic, cluster), count in lacking(report).items()]
    return '; '.join(said)


class Runs:
    """Runs of one script, by the program."""

    def __init__(self, program, raw, workers, turns):
        self.program, self.raw, self.turns = program, raw, [str(workers), str(turns)]

    def _asked(self, words, raw):
        done = subprocess.run([self.program, *words], input=raw, stdout=subprocess.PIPE, check=False)
        return done.returncode, done.stdout

    def run(self, seed):
        """The status of one run, its report, and its script with the schedule; where it is refused the program's line in place of the report."""
        script = seeded(self.raw, seed)
        status, out = self._asked(['live', *self.turns], script)
        if status:
            return status, out, b''
        report, _, schedule = out.partition(b'\nschedule\n')
        whole = script if script.endswith(b'\n') else script + b'\n'
        return 0, report + b'\n', whole + schedule

    def is_same(self, report, script):
        """Whether `run` answers the schedule by that report."""
        return self._asked(['run'], script) == (0, report)


def arguments():
    parser = argparse.ArgumentParser(prog='tools/live', description=__doc__, formatter_class=argparse.RawDescriptionHelpFormatter)
    parser.add_argument('script', metavar='SCRIPT', help='a script without events; - is standard input')
    parser.add_argument('--seeds', type=int, default=10, metavar='N', help='how many seeds (10)')
    parser.add_argument('--first', type=int, default=1, metavar='SEED', help='the first of them (1)')
    parser.add_argument('--workers', type=int, default=1, metavar='N', help='threads, 1 to 64 (1)')
    parser.add_argument('--turns', type=int, default=4000, metavar='N', help='turns of each thread (4000)')
    parser.add_argument('--out', default='live', metavar='FOLDER', help='where the files are left (live)')
    parser.epilog = 'The status is 0; 1 where `run` printed another report; the program\'s own where it refuses the script.'
    return parser


def write(path, some):
    with open(path, 'wb') as file:
        file.write(some)


def main(words):
    said = arguments().parse_args(words)
    program = kept_program()
    if not program:
        print('tools/live: there is no program: tools/build or tools/compile makes one', file=sys.stderr)
        return NO_PROGRAM
    os.makedirs(said.out, exist_ok=True)
    runs = Runs(program, read_script(said.script), said.workers, said.turns)
    ended = 0
    for seed in range(said.first, min(said.first + said.seeds, MOST_SEED + 1)):
        status, report, script = runs.run(seed)
        if status:
            print('tools/live: ' + report.decode('latin-1').strip(), file=sys.stderr)
            return status
        write('%s/%d.report' % (said.out, seed), report)
        write('%s/%d.geo' % (said.out, seed), script)
        is_same = runs.is_same(report, script)
        print('seed %d: %s' % (seed, verdict(Report(report.decode('ascii', errors='replace')), is_same)), flush=True)
        if not is_same:
            ended = DIFFERS
    return ended
