"""Makes the input and the expected output of crates/geo_examples from the scripts of the repository.

The input has each script NAME.geo of examples/, drills/, runs/, edges/ and states/ behind a line `== DIRECTORY/NAME`, the output has that
line and the report NAME.report that lies beside the script. Behind them stand each case of refused/cases.txt as `== refused/LINE`, by its line in that
file, with the line that refuses it; each script with a `stop` line as `== stop DIRECTORY/NAME`, which the program saves there and resumes,
with its report once more; the state files of stored/states.py; each script whose messages have keys as `== compact HORIZON
DIRECTORY/NAME`, at two horizons, with the views that stored/compacted.py makes of its report; and each script that tells which of its
ledgers are closed as `== tiered KEEP DIRECTORY/NAME`, with none and with one to stay, where a ledger moves, with what stored/tiered.py
makes of its report; and each case of answers/*.txt as `== ask answers/FILE/LINE WORD..`, by the line that it begins with, with its input in
hexadecimal, and with its status and its answer; the vectors and packets of bytes/ as `== vectors bytes/NAME` and `== packets
bytes/packets`; and the scripts that stored/written_back.py writes again, as `== back DIRECTORY/NAME`. The program's own output is never read.

usage: geo_tools examples write     writes crates/geo_examples/stdin and crates/geo_examples/stdout
       geo_tools examples check     says whether they are what `write` would write
       geo_tools examples compare FILE     says which scripts have another report in FILE, an output of the program
"""
import os
import sys

from ..program import ROOT
from . import compacted, states, tiered, written_back

DIRECTORIES = ('examples', 'drills', 'runs', 'edges', 'states')
CRATE = os.path.join(ROOT, 'crates', 'geo_examples')
HEADING = b'== '


def names():
    """The scripts, each as DIRECTORY/NAME, in order."""
    for directory in DIRECTORIES:
        for file in sorted(os.listdir(os.path.join(ROOT, directory))):
            if file.endswith('.geo'):
                yield directory + '/' + file[:-len('.geo')]


def content(name, ending):
    with open(os.path.join(ROOT, name + ending), 'rb') as file:
        text = file.read()
    if text and not text.endswith(b'\n'):
        sys.exit('%s%s does not end in a line feed' % (name, ending))
    if any(line.startswith(HEADING) for line in text.split(b'\n')):
        sys.exit('%s%s has a line that names a script' % (name, ending))
    return text


# the rule that a word breaks which begins no line
UNKNOWN_WORD = 3


def refusals():
    """The cases of refused/cases.txt, each as its name, its script and the line that refuses it."""
    begins = b''
    with open(os.path.join(ROOT, 'refused', 'cases.txt'), encoding='ascii') as file:
        for number, line in enumerate(file.read().splitlines(), 1):
            if line.startswith('== '):
                name = line[len('== '):].split(':')[0]
                begins = b'' if name == 'nothing' else content('refused/' + name, '.geo')
            elif line and not line.startswith('#'):
                said, script = line.split(' ', 1) if line.startswith('ok ') else (' '.join(line.split(' ', 2)[:2]), line.split(' ', 2)[2])
                text = begins + script.replace('|', '\n').replace('\\t', '\t').replace('\\r', '\r').encode()
                if said == 'ok':
                    said = '%d %d' % (text.count(b'\n') + 1, UNKNOWN_WORD)
                    text += b'foo\n'
                yield 'refused/%d' % number, text, ('bad script line %s rule %s\n' % tuple(said.split())).encode()


def compactions():
    """The scripts with keys, compacted at a third of their longest topic and as a whole."""
    for name in names():
        report = content(name, '.report').decode()
        if compacted.has_keys(report):
            for horizon in (compacted.longest(report) // 3, compacted.MOST_HORIZON):
                yield 'compact %d %s' % (horizon, name), content(name, '.geo'), compacted.compacted(report, horizon).encode()


def tierings():
    """The scripts that tell which of their ledgers are closed, with none to stay and with one, where a ledger moves."""
    for name in names():
        script, report = content(name, '.geo').decode(), content(name, '.report').decode()
        for keep in (0, 1):
            if tiered.moves(script, report, keep):
                yield 'tiered %d %s' % (keep, name), script.encode(), tiered.tiered(script, report, keep).encode()


class Case:
    """A case of answers/: a command's words, its input, and what it answers. answers/README.md has the form of its lines."""

    def __init__(self, name, line):
        words, _, given = line.partition(' < ')
        self.name, self.words = name, words
        given, _, to = given.partition(' to ')
        self.saved, self.file = given.startswith('save '), given.rpartition(' ')[2]
        self.given = entire(self.file) if given else b''
        if to:
            self.given = b''.join(self.given.splitlines(keepends=True)[:int(to)])
        self.behind, self.left_out, self.answer = b'', None, b''

    def add(self, line):
        begins, _, rest = line.partition(b' ')
        if begins == b'>':
            self.behind += rest + b'\n'
        elif begins == b'>>':
            self.behind += rest
        elif begins == b'>x':
            self.behind += bytes.fromhex(rest.decode())
        elif begins == b'-':
            self.left_out = rest + b'\n'
        elif begins == b'+':
            lines = self.given.splitlines(keepends=True)
            if lines.count(self.left_out) != 1:
                sys.exit('%s: no single line is the one that is left out' % self.name)
            lines[lines.index(self.left_out)] = rest + b'\n'
            self.given = b''.join(lines)
        elif begins == b'=':
            self.answer += entire(rest.decode())
        else:
            self.answer += line + b'\n'

    def section(self):
        if not self.answer.startswith(b'status '):
            sys.exit('%s has no status' % self.name)
        text = states.in_hex(self.given) + b'stop\n' + states.in_hex(self.behind) if self.saved else states.in_hex(self.given + self.behind)
        return 'ask %s %s' % (self.name, self.words), text, self.answer


def entire(path):
    with open(os.path.join(ROOT, path), 'rb') as file:
        return file.read()


def answers_in(file):
    """The cases of a file of answers/, which is named without its ending, each named by the line that it begins with."""
    cases = []
    for number, line in enumerate(entire('answers/%s.txt' % file).split(b'\n'), 1):
        if line.startswith(HEADING):
            cases.append(Case('answers/%s/%d' % (file, number), line[len(HEADING):].decode()))
        elif line and not line.startswith(b'#'):
            cases[-1].add(line)
    return cases


def asked():
    """The cases of answers/*.txt, each as its name with the command's words, its input and what is answered."""
    for file in sorted(os.listdir(os.path.join(ROOT, 'answers'))):
        if file.endswith('.txt'):
            yield from (case.section() for case in answers_in(file[:-len('.txt')]))


def told():
    """The vectors and the packets of bytes/, with their answers, which stand in files beside them or behind each."""
    for kind in ('vectors', 'packets'):
        name = 'bytes/' + kind
        yield kind + ' ' + name, content(name, '.txt'), content(name, '.answers')
    lines = [line for line in content('bytes/rules', '.txt').split(b'\n') if line and not line.startswith(b'#')]
    rules = [line.split(b' = ') for line in lines]
    yield 'vectors bytes/rules', *(b''.join(rule[part] + b'\n' for rule in rules) for part in (0, 1))


def sections():
    """All that the program is given, in order: a name, a script, and what is to be answered."""
    for name in names():
        yield name, content(name, '.geo'), content(name, '.report')
    yield from refusals()
    for name in names():
        if b'\nstop\n' in content(name, '.geo'):
            yield 'stop ' + name, content(name, '.geo'), content(name, '.report')
    yield from states.sections(lambda name: content(name, '.report'))
    yield from compactions()
    yield from tierings()
    yield from asked()
    yield from told()
    yield from written_back.sections()


def joined(part):
    return b''.join(HEADING + section[0].encode() + b'\n' + section[part] for section in sections())


def parts(text):
    """The answers of an output, by the name in their heading."""
    answers, name = {}, None
    for line in text.splitlines(keepends=True):
        if line.startswith(HEADING):
            name = line[len(HEADING):].strip().decode()
            answers[name] = b''
        elif name is not None:
            answers[name] += line
    return answers


def compare(path):
    with open(path, 'rb') as file:
        answers = parts(file.read())
    wrong, all_of_them = 0, list(sections())
    for name, _, wanted in all_of_them:
        given = answers.get(name)
        if given == wanted:
            continue
        wrong += 1
        print('%s: %s' % (name, 'no answer' if given is None else 'another report'))
        wanted, given = wanted.decode().splitlines(), (given or b'').decode(errors='replace').splitlines()
        for at in range(max(len(wanted), len(given))):
            left = wanted[at] if at < len(wanted) else '(nothing)'
            right = given[at] if at < len(given) else '(nothing)'
            if left != right:
                print('  line %d\n    wanted %s\n    given  %s' % (at + 1, left, right))
                break
    print('%d scripts, %d with another report' % (len(all_of_them), wrong))
    return wrong


def main(words):
    files = {'stdin': joined(1), 'stdout': joined(2)}
    if words == ['write']:
        for name, text in files.items():
            with open(os.path.join(CRATE, name), 'wb') as file:
                file.write(text)
    elif words == ['check']:
        for name, text in files.items():
            with open(os.path.join(CRATE, name), 'rb') as file:
                if file.read() != text:
                    sys.exit('crates/geo_examples/%s is not what the scripts say' % name)
    elif len(words) == 2 and words[0] == 'compare':
        return 1 if compare(words[1]) else 0
    else:
        print(__doc__, file=sys.stderr)
        return 2
    return 0
