"""Makes what `geo tiered KEEP` prints, from a script and its report: how many closed ledgers of each topic at each cluster moved, and
its entries.

A report shows no ledger that has no entry, so the closed ledgers are told for two kinds of script alone: where no broker restarts,
from the last entry's position and what a ledger takes; and where no ledger is full, from the restarts, each of which opens a ledger.
A halt is a restart behind some writes of an event: scripts that have one are left out. The program is not asked: the gate compares.

usage: geo_tools tiered SCRIPT REPORT KEEP         prints it, or that it is not told
"""
import sys

from . import compacted

# entries of a ledger where a script names no number: Pulsar's default
LEDGER_ENTRIES = 50_000


def lines(script):
    return [line for line in script.split('\n') if line and not line.startswith('#')]


def per_ledger(script):
    """How many entries a ledger takes."""
    named = [int(line.split(' ')[1]) for line in lines(script) if line.startswith('ledger ')]
    return named[0] if named else LEDGER_ENTRIES


def restarts(script, topic, cluster):
    """How often the broker of a topic at a cluster restarts."""
    return sum(line in ('stop', 'restart %s %s' % (topic, cluster)) for line in lines(script))


def closed(script, topic, cluster, entries):
    """How many ledgers are closed; nothing where it is not told."""
    per, opened = per_ledger(script), restarts(script, topic, cluster)
    if any(line.startswith('halt ') for line in lines(script)):
        return None
    if opened == 0:
        ledger, entry = map(int, entries[-1].split(' ')[1].split(':')) if entries else (0, -1)
        return ledger + (entry + 1 == per)
    return opened if len(entries) < per else None


def tiered(script, report, keep):
    """What is printed; nothing where it is not told."""
    shown = ''
    for topic, cluster, entries in compacted.topics(report):
        count = closed(script, topic, cluster, entries)
        if count is None:
            return None
        shown += 'tiered %s at %s offloaded %d\n' % (topic, cluster, max(count - keep, 0))
        shown += ''.join(entry + '\n' for entry in entries)
    return shown


def moves(script, report, keep):
    """Whether it is told, and a ledger moves."""
    shown = tiered(script, report, keep)
    return shown is not None and any(line.startswith('tiered ') and not line.endswith(' 0') for line in shown.split('\n'))


def main(words):
    if len(words) != 3 or not words[2].isdecimal():
        print(__doc__, file=sys.stderr)
        return 2
    with open(words[0], encoding='utf-8') as script, open(words[1], encoding='utf-8') as report:
        shown = tiered(script.read(), report.read(), int(words[2]))
    if shown is None:
        print('the script does not tell which ledgers are closed', file=sys.stderr)
        return 1
    sys.stdout.write(shown)
    return 0
