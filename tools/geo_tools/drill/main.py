"""Plays a drill and tells it by its own lines: under each what it brought about, and whether what is expected is so.

A drill is a script (docs/SCRIPT.md) whose events may be said by lines such as `deliver east west`; docs/DRILLS.md has them all.
"""
import argparse
import json
import os
import sys

from ..command import ended, read_text
from ..page import page_of
from ..program import Program
from . import written
from .language import Drill
from .needed import not_needed
from .play import Play
from .tell import Telling

# the statuses, beside those of every command and of the program
IN_VAIN, DIFFERS = 71, 72
EPILOG = ('The status is 0; 1 where the file cannot be read; 2 for wrong words; 3 where the drill is refused; 71 with --strict where a line '
          'did nothing; 72 where an expectation is not met; else that of the program (docs/REPORT.md), 69 without a build and a toolchain, '
          '70 where the toolchain failed.')


def arguments():
    """The words of the command."""
    parser = argparse.ArgumentParser(prog='geo drill', description=__doc__, epilog=EPILOG, formatter_class=argparse.RawDescriptionHelpFormatter)
    shown = parser.add_mutually_exclusive_group()
    for word, text in (('--script', 'prints the script'), ('--report', 'prints the report'), ('--steps', 'prints the script with what each event changed'),
                       ('--page', 'prints a page for a browser'), ('--json', 'prints the lines as one JSON document'),
                       ('--needed', 'says without which lines the drill passes all the same'), ('--count', 'prints how much was run')):
        shown.add_argument(word, action='store_true', help=text)
    parser.add_argument('--strict', action='store_true', help='a line that does nothing, and is not expected to, fails')
    parser.add_argument('--program', metavar='FILE', help='a built geo to run in place of .built/geo')
    parser.add_argument('file', metavar='FILE', help='the drill; - is standard input')
    return parser


def shown(play, words):
    """What is printed of a play in place of its lines; None where its lines are told."""
    if words.script:
        return written.script(play).decode()
    if words.report:
        return play.whole.text
    if words.steps:
        return ''.join(line + '\n' for line in play.program.lines('steps', written.script(play)))
    if words.page:
        return ''.join(line + '\n' for line in page_of(os.path.basename(words.file), written.annotated(play), play.program))
    if words.count:
        return '%s: runs %d passes %d events %d\n' % (words.file, play.program.runs, play.passes, play.whole.events)
    return None


def play_and_tell(text, words):
    """Plays and prints; gives the status."""
    program = Program(words.program)
    if words.needed:
        found = not_needed(text, words.file, program)
        print(''.join('%s:%d: %s: nothing that is expected depends on it\n' % (words.file, *line) for line in found), end='')
        return DIFFERS if found else 0
    play = Play(Drill(text, words.file), program).go()
    instead = shown(play, words)
    if instead is not None:
        print(instead, end='')
        return 0
    telling = Telling(play, sys.stdout.isatty() and 'NO_COLOR' not in os.environ)
    print(json.dumps(telling.records(), indent=1) if words.json else '\n'.join(telling.lines()))
    sys.stdout.flush()
    for line in telling.complaints():
        print(line, file=sys.stderr)
    return DIFFERS if telling.differs else IN_VAIN if telling.causes and words.strict else 0


def main(words):
    """The command."""
    words = arguments().parse_args(words)
    return ended(lambda: play_and_tell(read_text(words.file), words))
