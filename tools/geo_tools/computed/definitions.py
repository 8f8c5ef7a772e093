"""Computes runs by the definitions of crates/geo_base, inside the checker.

A run is a script NAME.geo with its report NAME.report beside it, and NAME.bytes (the bytes of all frames sent) where that is
known. From these a module of proofs is written whose statements hold by computation alone: the machine's report of the run
over the script's schedule is the report, line by line, and the frames have these bytes. Nothing is typed by hand.
"""
import os
import re
import shutil
import subprocess
import tempfile
import time

from ..program import ROOT

KINDS = {'exclusive': 'Exclusive', 'shared': 'Shared', 'failover': 'Failover', 'keyshared': 'KeyShared'}
WORDS = {'produce': 'Produce', 'ackall': 'AckAll', 'unsub': 'Unsub', 'close': 'Close', 'closep': 'CloseProducer', 'ping': 'Ping'}
UNFOLDED = ('setup schedule shown digits go get reconnect serve drop_client reset take_packet receipt read snap offer seek '
            'restart planned broker_does broker_halts client_does happens stops settled_world steps')
IMPORTS = '''use Rattle.std.specs.Prelude.{◌≡◌, ℕ, ◌∷◌, [], List, true, false, Some, None, codes, refl}
use Rattle.std.specs.Fmt.{digits}
use Rattle.geo_base.specs.Types.{Step}
use Rattle.geo_base.specs.Types.event
use Rattle.geo_base.specs.Types.fate
use Rattle.geo_base.specs.Types.line
use Rattle.geo_base.specs.Types.step
use Rattle.geo_base.specs.Types.sub_kind
use Rattle.geo_base.specs.Types.targets
use Rattle.geo_base.specs.Client.{reconnect}
use Rattle.geo_base.specs.Forwarding.{receipt, reset, take_packet}
use Rattle.geo_base.specs.Getting.{get}
use Rattle.geo_base.specs.Going.{go}
use Rattle.geo_base.specs.Happening.{broker_does, broker_halts, client_does, happens, stops}
use Rattle.geo_base.specs.Markers.{snap}
use Rattle.geo_base.specs.Offering.{offer}
use Rattle.geo_base.specs.Planned.{planned}
use Rattle.geo_base.specs.Reading.{read}
use Rattle.geo_base.specs.Report.{report_lines}
use Rattle.geo_base.specs.Run.{all_limits, run, run_under, settled_world, steps}
use Rattle.geo_base.specs.Seeking.{restart, seek}
use Rattle.geo_base.specs.Serving.{drop_client, serve}
use Rattle.geo_base.specs.Setup.{Setup}
'''


def text(t):
    return '(codes "%s")' % t.replace('\\', '\\\\').replace('"', '\\"') if t else '[]'


def items(parts):
    return '(%s)' % ' ∷ '.join(parts + ['[]']) if parts else '[]'


class Script:
    """The declarations and the schedule of a script that is known to be accepted."""

    def __init__(self, text):
        self.per_ledger = 50000
        self.clusters, self.topics, self.clients, self.events = [], [], [], []
        self.at, self.lines, self.subs = {}, {}, {}
        # the number of the line of the first event, where there is one
        self.first_event = None
        for number, line in enumerate(text.split('\n'), 1):
            if line and not line.startswith('#'):
                self.read(line, line.split(' '))
                if self.events and self.first_event is None:
                    self.first_event = number
        for client in self.clients:
            subs = self.subs.setdefault(self.at[client][0], [])
            for words, _ in self.lines[client]:
                if words[0] == 'sub' and words[1] not in subs:
                    subs.append(words[1])

    def read(self, line, words):
        if words[0] == 'ledger':
            self.per_ledger = int(words[1])
        elif words[0] == 'cluster':
            self.clusters.append(words[1])
        elif words[0] == 'topic':
            self.topics.append(words[1])
        elif words[0] == 'client':
            self.clients.append(words[1])
            self.at[words[1]] = (self.topics.index(words[2]), self.clusters.index(words[3]))
            self.lines[words[1]] = []
        elif words[0] == 'do':
            self.lines[words[1]].append((words[2:], line.split(' ', 2)[2]))
        elif words[0] not in ('geo', 'chance'):
            self.events.append(words)

    def targets(self, to):
        if to == '*':
            return 'targets.All'
        return '(targets.Only %d)' % sum(1 << self.clusters.index(name) for name in to.split(','))

    def ident(self, origin, producer, seq):
        return '(record { origin = %d; producer = %s; seq = %s })' % (self.clusters.index(origin), text(producer), seq)

    def line(self, words, line):
        word = words[0]
        if word == 'pub':
            _, seq, to, key, payload = line.split(' ', 4)
            key = 'None' if key == '-' else '(Some %s)' % text(key)
            return 'line.Pub %s %s %s %s' % (seq, self.targets(to), key, text(payload))
        if word == 'sub':
            flags = ('true' if words[3] == 'earliest' else 'false', 'true' if words[4] == 'replicated' else 'false')
            return 'line.Sub %s sub_kind.%s %s %s' % (text(words[1]), KINDS[words[2]], *flags)
        if word == 'flow':
            return 'line.Flow %s' % words[1]
        if word in ('ack', 'ackto'):
            return 'line.%s %s' % ('Ack' if word == 'ack' else 'AckTo', self.ident(*words[1:]))
        if word == 'move':
            return 'line.Move %d' % self.clusters.index(words[1])
        return 'line.%s' % WORDS[word]

    def event(self, words):
        word, name = words[0], words[0].capitalize()
        if word in ('go', 'get', 'reconnect'):
            return 'event.%s %d' % (name, self.clients.index(words[1]))
        if word in ('serve', 'drop'):
            return 'event.%s %d %d' % (name, self.clusters.index(words[1]), self.clients.index(words[2]))
        topic, at = self.topics.index(words[1]), self.clusters.index(words[2])
        if word in ('reset', 'read', 'take', 'receipt'):
            fate = ' fate.' + words[4].capitalize() if len(words) > 4 else ''
            return 'event.%s %d %d %d%s' % (name, topic, at, self.clusters.index(words[3]), fate)
        if word in ('snap', 'restart'):
            return 'event.%s %d %d' % (name, topic, at)
        sub = self.subs[topic].index(words[3])
        if word == 'offer':
            return 'event.Offer %d %d %d' % (topic, at, sub)
        to = 'None' if words[4] == 'end' else '(Some (record { ledger = %s; entry = %s }))' % tuple(words[4].split(':'))
        return 'event.Seek %d %d %d %s' % (topic, at, sub, to)

    def step(self, words):
        if words[0] in ('settle', 'stop'):
            return 'step.' + words[0].capitalize()
        if words[0] == 'halt':
            return 'step.Halt %s (%s)' % (words[1], self.event(words[2:]))
        return 'step.Plain (%s)' % self.event(words)

    def declared(self, client):
        topic, cluster = self.at[client]
        lines = ''.join('\n      %s ∷' % self.line(*line) for line in self.lines[client])
        return 'record { name = %s; topic = %d; cluster = %d; lines =%s [] } ∷' % (text(client), topic, cluster, lines)


# the report as a test: where it fails, the checker says so at once, and does not show both reports
TEST = '''
same_lines : List (List ℕ) → List (List ℕ) → Bool
same_lines [] [] = true
same_lines (x ∷ xs) [] = false
same_lines [] (y ∷ ys) = false
same_lines (x ∷ xs) (y ∷ ys) = bytes_eq x y && same_lines xs ys
'''
TRACE_IMPORTS = '''use Rattle.geo_base.specs.Traced.{event_items, halt_items, step_items, traced}
use Rattle.geo_base.specs.TraceText.{item_line, trace_lines}
'''
TEST_IMPORTS = '''use Rattle.std.specs.Prelude.{Bool, ◌&&◌}
use Rattle.std.specs.Str.{bytes_eq}
'''


def trace_of(path):
    """The lines of a script's trace, from its line `trace` on, as ./geo writes them."""
    done = subprocess.run([os.path.join(ROOT, 'geo'), 'trace', path], capture_output=True, text=True, check=True)
    lines = done.stdout.split('\n')[:-1]
    return lines[lines.index('trace'):]


def as_definitions(script, shown):
    """The definitions that a run is computed from: what is declared, the schedule, and the lines that it is to have."""
    out = ['setup : Setup', 'setup = record {', '  per_ledger = %d;' % script.per_ledger]
    out += ['  clusters = %s;' % items([text(name) for name in script.clusters])]
    out += ['  topics = %s;' % items([text(name) for name in script.topics]), '  clients =']
    out += ['    ' + script.declared(client) for client in script.clients] + ['    [];', '}', '']
    out += ['schedule : List Step', 'schedule ='] + ['    %s ∷' % script.step(words) for words in script.events] + ['    []', '']
    return out + ['shown : List (List ℕ)', 'shown ='] + ['    %s ∷' % text(line) for line in shown] + ['    []', '']


def module(path, as_test=False, as_trace=False):
    """The text of the proof module of a script."""
    base = path[:-len('.geo')]
    with open(path) as file:
        script = Script(file.read())
    if as_trace:
        report = trace_of(path)
    else:
        with open(base + '.report') as file:
            report = file.read().split('\n')[:-1]
    out = ([TEST] if as_test else []) + as_definitions(script, report)
    report = 'trace_lines setup (traced all_limits setup schedule)' if as_trace else 'report_lines setup (run setup schedule)'
    equal = 'same_lines (%s) shown ≡ true' % report if as_test else report + ' ≡ shown'
    unfolded = UNFOLDED + (' item_line event_items halt_items step_items' if as_trace else ' report_lines') + (' same_lines' if as_test else '')
    out += ['reported : ' + equal, 'unfolding ' + unfolded, 'reported = refl']
    if os.path.exists(base + '.bytes') and not as_trace:
        with open(base + '.bytes') as file:
            out += ['', 'sent : (run_under all_limits setup schedule).world.frame_bytes ≡ %s' % file.read().strip()]
        out += ['unfolding ' + UNFOLDED + ' report_lines', 'sent = refl']
    body = '\n'.join(out) + '\n'
    head = '-- The run %s, computed: the definitions give its report. Written by tools/geo_tools definitions.\n' % os.path.basename(base)
    imports = IMPORTS + (TRACE_IMPORTS if as_trace else '') + (TEST_IMPORTS if as_test else '')
    return head + used(imports, body) + '\n' + body


def used(imports, body):
    """The lines of imports, with the names that a body uses alone."""
    words = set(re.findall(r'[^\s(){};.]+', body))
    kept = []
    for line in imports.strip().split('\n'):
        path, names = re.fullmatch(r'use (\S+?)(?:\.\{(.*)\})?', line).groups()
        if names is None:
            if path.split('.')[-1] in words:
                kept.append(line)
            continue
        found = [name for name in names.split(', ') if name.strip('◌') in words]
        if found:
            kept.append('use %s.{%s}' % (path, ', '.join(found)))
    return '\n'.join(kept) + '\n'


def run_of(path):
    """What a run is called."""
    return os.path.splitext(os.path.basename(path))[0]


def name_of(path):
    return 'Run_' + run_of(path)


def write(out, paths, as_test=False, as_trace=False):
    for path in paths:
        with open(os.path.join(out, name_of(path) + '.antt'), 'w') as file:
            file.write(module(path, as_test, as_trace))


def copy_of_crates(where, names):
    """A copy of crates of the repository, with their rows of crates.txt."""
    for name in names:
        shutil.copytree(os.path.join(ROOT, 'crates', name), os.path.join(where, 'crates', name), symlinks=True)
    shutil.copy(os.path.join(ROOT, 'HANDLES'), where)
    with open(os.path.join(ROOT, 'crates.txt'), encoding='utf-8') as file:
        rows = [line for line in file if line.split(':')[0].split()[:1] in [[name] for name in names]]
    with open(os.path.join(where, 'crates.txt'), 'w', encoding='utf-8') as file:
        file.writelines(rows)


def copy_of_crate(where, paths, as_test=False, as_trace=False):
    """A copy of the repository's lowest crate with these runs in place of its own; gives its folder."""
    copy_of_crates(where, ['geo_base'])
    crate = os.path.join(where, 'crates', 'geo_base')
    proofs = os.path.join(crate, 'proofs')
    for old in os.listdir(proofs):
        if old.startswith('Run_'):
            os.remove(os.path.join(proofs, old))
    write(proofs, paths, as_test, as_trace)
    with open(os.path.join(proofs, 'Lib.antt')) as file:
        kept = [line for line in file.read().split('\n') if line and 'Run_' not in line]
    with open(os.path.join(proofs, 'Lib.antt'), 'w') as file:
        file.write('\n'.join(kept + ['mod ' + name_of(path) for path in paths]) + '\n')
    return crate


def copy_for_traces(where, paths):
    """The same, where each run is to have the trace that the program writes of it."""
    return copy_of_crate(where, paths, as_test=True, as_trace=True)


NO_CHECKER = 'rt, the command of the Rattle kit, is not in the path'


class Verdict:
    """What the checker said of a copy of the crate: `runs` were refused, `other` are errors elsewhere, of which `lemmas` are those of the
    crate's own proofs, `functions` are those of the crate that are not proved, `said` is all of it.

    What it proved it computed. Where it refused something nothing is known of the rest.
    """

    def __init__(self, said):
        self.said = said.split('\n')
        errors = [line for line in self.said if re.search(r'\berror\b', line)]
        self.runs = {found.group(1) for line in errors for found in [re.search(r'Run_(\w+)\.antt', line)] if found}
        self.other = [line for line in errors if 'Run_' not in line]
        self.lemmas = [line for line in self.other if line.startswith('./proofs/')]
        self.functions = [found.group(1) for line in self.said for found in [re.match(r'fn (\S+): (?:no proof|not proved)', line)] if found]
        self.is_proved = any(line.startswith('logic=proved') for line in self.said) and not errors


def checked(crate):
    """Has the checker compute the runs of a copy of the crate."""
    if not shutil.which('rt'):
        return Verdict(NO_CHECKER)
    done = subprocess.run(['rt', 'check'], cwd=crate, capture_output=True, text=True, check=False)
    return Verdict(done.stdout + done.stderr)


# the statuses of a check: a run was refused, or nothing is known of one
REFUSED, NOT_COMPUTED = 1, 2
# how many lines of the checker are shown where it came to nothing
SHOWN = 20


def verdicts(paths, copied=copy_of_crate):
    """What becomes of each run, and what the checker said last; `copied` makes a crate of them in a folder.

    Of those that stand beside a run that is refused nothing is known, so they are computed again without it.
    """
    said, left = {path: 'not computed' for path in paths}, list(paths)
    while left:
        with tempfile.TemporaryDirectory() as where:
            verdict = checked(copied(where, left))
        refused = [path for path in left if run_of(path) in verdict.runs]
        if verdict.is_proved:
            said.update(dict.fromkeys(left, 'agrees'))
        if verdict.is_proved or verdict.other or not refused:
            break
        said.update(dict.fromkeys(refused, 'REFUSED'))
        left = [path for path in left if path not in refused]
    return said, verdict


def check(paths, copied=copy_of_crate):
    """Computes runs, and says which agree; gives the status."""
    began = time.time()
    said, verdict = verdicts(paths, copied)
    for path, word in said.items():
        print('%s %s' % (word, run_of(path)))
    if 'not computed' in said.values():
        print('\n'.join(verdict.said[-SHOWN:]))
    count = {word: list(said.values()).count(word) for word in ('agrees', 'REFUSED', 'not computed')}
    print('%d runs: %d agree, %d refused, %d not computed, %.0f seconds' % (len(paths), *count.values(), time.time() - began))
    return REFUSED if count['REFUSED'] else NOT_COMPUTED if count['not computed'] else 0
