"""Judges what Pulsar clusters that really run tell after a drill: their topics' entries, their cursors, and what clients logged. It reads,
has the program judge what it read (`geo observe`), and says what is found in Pulsar's words.

  tools/observed FOLDER [--trace FILE]     says what is lost, doubled, skipped, missing, and what would come again
  tools/observed collect ..                writes a folder from the admin services of clusters
  tools/observed made ..                   writes a folder of a script's run, as Pulsar would tell it
  tools/observed text FOLDER               prints the text of a folder that the program judges
  tools/observed planted ..                plants faults into folders of many runs, and asks whether each is found and named
  tools/observed moving ..                 folders that were read while all moved, and asks whether a fault is said

A folder has drill.json, clients.jsonl, and CLUSTER/TOPIC/entries.jsonl and stats-internal.json (docs/OBSERVED.md).
"""
import argparse
import importlib
import sys

from ..program import Failed
from .folder import read_folder
from .judge import Judge
from .places import Refused
from .second_opinion import given
from .verdict import Verdict
from .words import lines

FAULT, NOT_EXPLAINED, NOT_READ = 1, 3, 65
WORDS = {'collect': 'collect', 'made': 'made', 'text': 'observation_text', 'planted': 'many', 'moving': 'many'}
ENDING = ('status: 0 no fault; 1 a fault; 3 no fault, but the trace that was asked for can\'t be built or is not accepted; 65 the folder can\'t be '
          'read, with its file and line; 2 wrong words; 69 without a program, which judges')


def judged(words):
    """Judges a folder; gives the status."""
    status, (seen, others) = 0, read_folder(words.folder)
    verdict = Verdict(seen, words.program)
    for observation in seen:
        judge = Judge(observation)
        found = judge.judged(verdict)
        print('\n'.join(lines(judge, found)))
        explained = True
        if words.trace:
            said, explained = given(judge, words.trace if len(seen) == 1 else '%s.%s' % (words.trace, observation.topic.replace('/', '_')), words.program)
            print('\n'.join(said))
        if any(it.is_fault for it in found):
            status = FAULT
        elif not explained and status == 0:
            status = NOT_EXPLAINED
    if others:
        print('clients.jsonl: %d lines are of topics that are not in drill.json, and are not judged' % others)
    return status


def main(words):
    """Judges, or does what the first word says; gives the status."""
    if words[:1] and words[0] in WORDS:
        return importlib.import_module('.' + WORDS[words[0]], __package__).main(words if WORDS[words[0]] == 'many' else words[1:])
    parser = argparse.ArgumentParser(prog='tools/observed', description=__doc__, epilog=ENDING, formatter_class=argparse.RawDescriptionHelpFormatter)
    parser.add_argument('folder', metavar='FOLDER', help='the folder of dumps; one that has the name of a word above, as ./collect')
    parser.add_argument('--trace', metavar='FILE', help='a second opinion: writes a trace that explains what was read (of several topics FILE.TOPIC), '
                        'and has the program audit it')
    parser.add_argument('--program', metavar='FILE', help='a built geo that judges, in place of the one that ./geo runs')
    try:
        return judged(parser.parse_args(words))
    except Refused as refused:
        print('tools/observed: refused: %s' % refused, file=sys.stderr)
        return NOT_READ
    except Failed as failed:
        print('tools/observed: %s' % failed, file=sys.stderr)
        return failed.status
