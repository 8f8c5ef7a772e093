"""What `rt plant` prints of a crate: the wrong bodies that its contracts let through, and how many it tried.

    proves      src/passing.rs:15 runs: { 0 }       the body meets the contract
    no-ensures  src/passing.rs:90 look()            the function has no clause, so any body does
    untested    src/passing.rs:40 apply()           no body could be judged
    plants crate=replicated_subs planted-in=3 .. not-run=0
"""
import collections
import re

from . import toolchain

PROVES, NO_CLAUSE, UNJUDGED = KINDS = ('proves', 'no-ensures', 'untested')
ROW = re.compile(r'(%s) +(\S+?):\d+ (.*)' % '|'.join(KINDS))
LAST = re.compile(r'plants crate=(\w+) ((?:[\w-]+=\d+ ?)+)')
# where one stands, wrong bodies were left out, or none was tried that calls a function
NOT_WHOLE = ('note: some plants may not have been tried', 'note: the crate is not proved')
# a body that answers want of memory and nothing else: no clause says when memory suffices, so good contracts let it pass
WANT_OF_MEMORY = re.compile(r'\{ Err\((?:[\w:]+\()*(?:\w+::)*Memory\)+ \}')
# bodies of one crate: more than any has, so that the minutes alone are the bound
MOST = 10000

Survivor = collections.namedtuple('Survivor', 'kind file function body')
# `counts` is the last line's, and how many bodies that answer want of memory are left out; `why_cut` says what is missing, if anything is
Planted = collections.namedtuple('Planted', 'survivors counts why_cut')


def survivor(line):
    """What a line tells of a body that a contract lets through; None for another line."""
    row = ROW.fullmatch(line)
    if not row:
        return None
    kind, file, rest = row.groups()
    rest = re.sub(r'  \(and in \d+ more impls\)$', '', rest)
    if kind != PROVES:
        return Survivor(kind, file, rest.removesuffix('()'), '')
    function, _, body = rest.partition(': {')
    return Survivor(kind, file, function, '{' + body)


def planted(said):
    """What the lines of a call tell; None where it came to no end."""
    last = next((found for found in map(LAST.fullmatch, said) if found), None)
    if not last:
        return None
    found = list(dict.fromkeys(filter(None, map(survivor, said))))
    survivors = [it for it in found if not WANT_OF_MEMORY.fullmatch(it.body)]
    notes = [line[len('note: '):] for line in said if line.startswith(NOT_WHOLE)]
    if notes:
        # a function whose bodies were left out is called untested as well
        survivors = [it for it in survivors if it.kind != UNJUDGED]
    counts = '%s memory=%d' % (last[2].strip(), sum(bool(WANT_OF_MEMORY.fullmatch(it.body)) for it in found))
    return Planted(survivors, counts, '; '.join(notes))


def plant(folder, minutes, jobs):
    """Plants in the crate of this folder; what came of it (or None), and the lines that were printed."""
    words = ['plant', '--all', '--max', str(MOST), '--minutes', str(minutes), *(['--jobs', str(jobs)] if jobs else [])]
    said = list(toolchain.lines(words, folder))
    return planted(said), said
