"""The program: where it is found, and its answers to scripts."""
import os
import re
import select
import shutil
import subprocess
import tempfile

from .progress import silent
from .report import Report

# the top of the repository
ROOT = os.path.dirname(os.path.dirname(os.path.dirname(os.path.realpath(__file__))))

# the statuses of ./geo where it is not the program that answers
NO_PROGRAM, NO_ANSWER = 69, 70

# the status of the program for words that it does not know
WRONG_WORDS = 2
# how often it is told that the program still runs, in seconds
WAIT = 0.5

# what `rt try` may take to run one script, in seconds
TRY_SECONDS = '600'

# where a program of this source may stand, the surest first: of tools/build, of the gate in this checkout, and one that is compiled alone
BUILT = ('.built/geo', 'crates/geo_cli/out/geo_cli', '.built/unproved')


class Failed(Exception):
    """The program gave no answer: what it said, and the status to end with."""

    def __init__(self, said, status):
        super().__init__(said)
        self.status = status


def sources():
    """The files that a program is made of."""
    yield os.path.join(ROOT, 'crates.txt')
    for crate in os.listdir(os.path.join(ROOT, 'crates')):
        for folder, _, files in os.walk(os.path.join(ROOT, 'crates', crate, 'src')):
            # the folders count as well, so that a removed file does
            yield folder
            yield from (os.path.join(folder, file) for file in files)


def built_program():
    """The path of the program: the one that GEO_PROGRAM names; else one of BUILT, where no source is newer; else None."""
    if os.environ.get('GEO_PROGRAM'):
        return os.environ['GEO_PROGRAM']
    there = [path for path in (os.path.join(ROOT, name) for name in BUILT) if os.access(path, os.X_OK)]
    if not there:
        return None
    newest = max(os.path.getmtime(source) for source in sources())
    return next((path for path in there if os.path.getmtime(path) >= newest), None)


def kept_program():
    """The same, compiled and kept where there is none yet (tools/compile); None where it can't be kept."""
    if not built_program() and shutil.which('rt'):
        subprocess.run([os.path.join(ROOT, 'tools', 'compile')], check=False)
    return built_program()


class Program:
    """The built program, or one compilation that serves all scripts that are given together. What it answered is kept."""

    def __init__(self, path=None):
        self.path = path or kept_program()
        self.runs = 0
        self.known, self.tables, self.words = {}, {}, None

    def has(self, word):
        """Whether the program has a command of this name: its usage line says so."""
        if self.words is None:
            self.words = set(re.findall(r'[a-z]+', self._answer('', b'')[1].partition('geo ')[2])) if self.path else set()
        return word in self.words

    def answers(self, command, scripts):
        """What a command prints for each script; fails at the first that is not answered with status 0."""
        new = [raw for raw in dict.fromkeys(scripts) if (command, raw) not in self.known]
        for raw, (status, said) in zip(new, self._answers(command, new)):
            if status != 0:
                raise Failed(said.strip() or 'geo %s ended with status %d' % (command, status), status)
            self.known[command, raw] = said
        return [self.known[command, raw] for raw in scripts]

    def answer(self, command, raw):
        """What a command prints for a script."""
        return self.answers(command, [raw])[0]

    def lines(self, command, raw, tell=silent):
        """The lines of what a command prints, one by one as they come, so that the whole is never kept; fails where the status is not 0."""
        self.runs += 1
        tell('the program runs')
        if not self.path:
            status, said = self._compiled(command, [raw])[0]
            given = iter(said.split('\n')[:-1])
            yield from self.held_back(command, given, lambda: status)
            return
        with tempfile.TemporaryFile() as file:
            file.write(raw)
            file.seek(0)
            try:
                process = subprocess.Popen([self.path, *command.split()], stdin=file, stdout=subprocess.PIPE)
            except OSError as error:
                raise Failed('%s: %s' % (self.path, error.strerror), NO_PROGRAM) from error
            with process:
                while not select.select([process.stdout], [], [], WAIT)[0]:
                    tell('the program runs')
                given = (line.decode('ascii', errors='replace').removesuffix('\n') for line in process.stdout)
                yield from self.held_back(command, given, process.wait)

    @staticmethod
    def held_back(command, given, ended):
        """The lines that are given, each when the next one is there: what is refused has one line, which is none of an answer."""
        last = next(given, None)
        for line in given:
            yield last
            last = line
        status = ended()
        if status == WRONG_WORDS:
            raise Failed('the program has no command %s: it is an older build than this source (tools/compile makes one, tools/build a proved one)'
                         % command, NO_PROGRAM)
        if status != 0:
            raise Failed(last or 'geo %s ended with status %d' % (command, status), status)
        if last is not None:
            yield last

    def reports(self, scripts):
        """The report of each script."""
        for raw, said in zip(scripts, self.answers('run', scripts)):
            if raw not in self.tables:
                self.tables[raw] = Report(said)
        return [self.tables[raw] for raw in scripts]

    def report(self, raw):
        """The report of a script."""
        return self.reports([raw])[0]

    def _answers(self, command, scripts):
        """The status and the output of each."""
        if not scripts:
            return []
        self.runs += len(scripts)
        if self.path:
            return [self._answer(command, raw) for raw in scripts]
        return self._compiled(command, scripts)

    def _answer(self, command, raw):
        try:
            done = subprocess.run([self.path, *command.split()], input=raw, capture_output=True, check=False)
        except OSError as error:
            raise Failed('%s: %s' % (self.path, error.strerror), NO_PROGRAM) from error
        return done.returncode, done.stdout.decode('ascii', errors='replace')

    @staticmethod
    def _compiled(command, scripts):
        """The answers of the sources, compiled once, without their proof."""
        if not shutil.which('rt'):
            raise Failed('there is no build of this source, and no toolchain: rt, the command of the Rattle kit, is not in the path', NO_PROGRAM)
        with tempfile.TemporaryDirectory() as folder:
            for number, raw in enumerate(scripts):
                with open(os.path.join(folder, '%07d' % number), 'wb') as file:
                    file.write(raw)
            words = ['rt', 'try', '--seconds', TRY_SECONDS, '--cases', folder, '--', *command.split()]
            done = subprocess.run(words, cwd=os.path.join(ROOT, 'crates', 'geo_cli'), capture_output=True, text=True, check=False)
        said = dict(re.findall(r'^== (\d{7})\n((?:(?!== |case=).*\n)*)', done.stdout, re.MULTILINE))
        ended = dict(re.findall(r'^case=(\d{7}) run=ended status=(\d+)', done.stderr + done.stdout, re.MULTILINE))
        names = ['%07d' % number for number in range(len(scripts))]
        if any(name not in ended for name in names):
            raise Failed(done.stdout[-2000:] + done.stderr + 'the toolchain gave no answer of the program', NO_ANSWER)
        return [(int(ended[name]), said.get(name, '')) for name in names]
