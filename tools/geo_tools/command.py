"""What the commands share: their words, the script that they read, and the status that they end with."""
import os
import sys

from . import drill
from .drill.words import Refused
from .program import Failed, Program
from .progress import Progress
from .script import Behind, Script

# the statuses of a file that cannot be read, and of a drill that cannot be meant
UNREAD, REFUSED = 1, 3


# the word before a state
FROM = 'from'


def arguments(parser):
    """The words that the story and the page share."""
    parser.usage = '%(prog)s [options] SCRIPT, or %(prog)s [options] from STATE [EVENTS ..]'
    parser.add_argument('files', nargs='+', metavar='SCRIPT', help='the script; - is standard input. Or the word from, a state, and files of '
                        'events that go on from it')
    parser.add_argument('--from', dest='first', type=int, default=1, metavar='LINE', help='the first line of the events to show')
    parser.add_argument('--to', dest='last', type=int, metavar='LINE', help='the last line of the events to show')
    parser.add_argument('--at', type=int, action='append', default=[], metavar='ROW', help='says of the row of this number what is lost, what comes '
                        'again and what was never told, if a region goes behind it (geo lost): of the regions that are lost or left there, else of '
                        'each; may be said again')
    parser.add_argument('--program', metavar='FILE', help='a built geo to run in place of the one that ./geo runs')
    parser.epilog = ('What each event did is told by one run, `geo steps` or `geo steps from`. What takes longer than two seconds says on '
                     'standard error how far it is. Without a build the sources are compiled once, in one to two minutes, and the program is '
                     'kept. The status is 0; 1 where a file cannot be read; 2 for wrong words; 3 where the drill is refused; where the '
                     'program refuses the script, its own (docs/REPORT.md); 69 without a build and a toolchain, or where the program that is '
                     'named is too old for the command; 70 where the toolchain failed, or the program told no end.')
    return parser


def read_script(path):
    with (open(path, 'rb') if path != '-' else open(sys.stdin.fileno(), 'rb', closefd=False)) as file:
        return file.read()


def read_text(path):
    """The text of a file; what is no text as replacement characters."""
    return read_script(path).decode('utf-8', errors='replace')


def script_of(path, program):
    """The script in a file; of a drill the one that it makes, with the drill's own lines as comments."""
    raw = read_script(path)
    text = raw.decode('utf-8', errors='replace')
    return Script(drill.annotated(text, path, program) if drill.is_drill(path, text) else raw)


def ended(work):
    """Does the work, and gives the status that says how that went: the work's own, or that of what it could not read, mean or run, with
    a line on standard error. A reader of the output that has gone is no fault."""
    try:
        status = work()
        sys.stdout.flush()
        return status
    except Refused as refused:
        print(refused.shown(), file=sys.stderr)
        return REFUSED
    except Failed as failed:
        print(failed, file=sys.stderr)
        return failed.status
    except BrokenPipeError:
        os.dup2(os.open(os.devnull, os.O_WRONLY), sys.stdout.fileno())
        return 0
    except OSError as error:
        print('%s: %s' % (error.filename, error.strerror), file=sys.stderr)
        return UNREAD


def given(parser, words, program):
    """What the files are: a script, or a state with the events behind it; and their name."""
    if words.files[0] == FROM and len(words.files) > 1:
        state, *events = words.files[1:]
        return Behind(read_script(state), b''.join(map(read_script, events))), os.path.basename(state)
    if len(words.files) > 1:
        parser.error('one script, or from STATE EVENTS: ' + ' '.join(words.files))
    return script_of(words.files[0], program), os.path.basename(words.files[0])


def shown(show, parser, words):
    """Shows a script, or a state with what goes on from it, and gives the status that says how that went."""
    def work():
        program, tell = Program(words.program), Progress()
        show(*given(parser, words, program), program, tell)
        return 0
    return ended(work)
