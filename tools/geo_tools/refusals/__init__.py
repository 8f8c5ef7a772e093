"""Says why the program refuses an input: the place, what is wrong, the nearest right word, what is expected.

usage: geo why FILE                          of a script, a trace, an observation, or a state with events behind it
       geo why --explain [audit | observation | state] RULE     a rule's whole text

./geo calls it by itself behind each refused call, so it is seldom needed: `geo why FILE` runs the file again and says the same. It judges
nothing: the program says which line or item breaks which rule, and this finds the word in it.
"""
import os
import re
import subprocess
import sys

from ..program import ROOT
from . import audits, rules, scripts, states
from .forms import near
from .told import Refusal, document, words_of

COMMANDS = {'run': 0, 'live': 2, 'big': 1, 'save': 0, 'resume': 0, 'audit': 0, 'compact': 1, 'tiered': 1, 'trace': 0, 'steps': 0, 'lost': 1, 'observe': 0}
# the word that may stand behind audit, so that it judges gaps as well
WHOLE = 'whole'
TOOLS = ('drill', 'story', 'page', 'why', 'check', 'help')
# what goes on from a state as resume does
STEPS_FROM = ['steps', 'from']
# what the words of `lost` may be
LOST = 'geo lost CLUSTER FILE, geo lost CLUSTER numbers FILE, or geo lost CLUSTER from STATE EVENTS'
# what the words of `steps` may be
STEPS = 'geo steps FILE, geo steps from FILE, or geo steps big NUMBER; NUMBER is 0 to 4294967295'
TOO_LARGE = {
    1: 'more than 67,108,864 bytes came: a script of fewer lines, or the run in parts, by save and resume',
    2: 'events and idle events together would pass 2,000,000: fewer events, or the run in parts, by save and resume, does not help, since the '
       'count goes on; leave out idle events (the report of a shorter script counts them)',
    3: 'the frames that are sent would pass 1 GiB together: shorter texts, or fewer reconnects while publishes wait for their receipts',
}


def of_words(words, usage=''):
    """The refusal of words that are no command of the program, whose usage line has those that are."""
    first = words[0] if words else None
    if first not in COMMANDS and first in re.findall('[a-z]+', usage.partition('usage: geo ')[2]):
        return Refusal(file='geo', said='%s does not take these words' % first, expected=usage.strip())
    if first is None:
        return Refusal(file='geo', said='no command is named', expected='geo COMMAND; ./geo help lists them')
    if first not in COMMANDS:
        return Refusal(file='geo', said='%s is no command' % first, near=near(first.lower(), [*COMMANDS, *TOOLS]), expected='./geo help lists the commands')
    if first == 'steps':
        return Refusal(file='geo', said='steps does not take %s' % ' '.join(words[1:]), expected=STEPS)
    if first == 'lost':
        return Refusal(file='geo', said='lost does not take %s' % ' '.join(words[1:]) if words[1:] else 'lost takes the cluster that goes', expected=LOST)
    shown = {'live': 'live WORKERS TURNS', 'big': 'big NUMBER', 'compact': 'compact HORIZON', 'tiered': 'tiered KEEP'}.get(first, first)
    ranges = {'live': 'WORKERS is 1 to 64, and WORKERS times TURNS 2000000 at most', 'big': 'NUMBER is 0 to 4294967295',
              'compact': 'HORIZON is 0 to 2000000, or end', 'tiered': 'KEEP is 0 to 1000000'}.get(first)
    count = len(words) - 1
    if first == 'audit' and count and words[1] != WHOLE:
        return Refusal(file='geo', said='%s is no word of audit' % words[1], near=near(words[1].lower(), [WHOLE]), expected='geo audit FILE, or geo audit whole FILE')
    if count != COMMANDS[first]:
        said = '%s takes %d word%s, and here %s %d' % (first, COMMANDS[first], '' if COMMANDS[first] == 1 else 's', 'is' if count == 1 else 'are', count)
    else:
        said = '%s does not take %s' % (first, ' '.join(words[1:]))
    return Refusal(file='geo', said=said, expected='geo %s FILE%s' % (shown, '; ' + ranges if ranges else '') if first != 'big' else 'geo big NUMBER; ' + ranges)


def of_script(raw, name, line, rule, command):
    """The refusal of a line of a script, of the declarations of a trace, or of what stands behind a state."""
    state = states.split(raw) if goes_on(command) else None
    if state:
        declared, events = state
        script = scripts.Script(events, declared)
        told = of_lost(script, name, command) if is_lost(script, line, rule, command) else scripts.told(script, name + ' (behind the state)', line, rule)
        if rule in (3, 6) and told.text is not None and told.text.startswith('GEOSTATE'):
            return told._replace(said='a second state stands here: %s goes on from one' % ' '.join(command))
        return told
    if command[:1] == ['audit']:
        head = raw.split(b'\ntrace\n', 1)
        raw = head[0] + b'\n' if len(head) > 1 else raw
    if command[:1] == ['observe']:
        head = re.split(rb'\nobserved(?: quiet)?\n', raw, maxsplit=1)
        raw = head[0] + b'\n' if len(head) > 1 else raw
    if states.is_state(raw):
        return Refusal(file=name, line=line, said='this is a state file, not a script: ./geo resume goes on from it', rule_of='script', rule=rule)
    script = scripts.Script(raw)
    return of_lost(script, name, command) if is_lost(script, line, rule, command) else scripts.told(script, name, line, rule)


def goes_on(command):
    """Whether a command reads a state with events behind it."""
    return command[:1] == ['resume'] or command[:2] == STEPS_FROM or (command[:1] == ['lost'] and command[2:] == ['from'])


def is_lost(script, line, rule, command):
    """Whether it is the command's own cluster that is refused: no line of the script names it."""
    return rule == 15 and command[:1] == ['lost'] and script.line(line) is None


def of_lost(script, name, command):
    """The refusal of a cluster that is not declared."""
    known = script.declared('cluster', len(script.lines) + 1)
    like = near(command[1].lower(), known)
    said = '%s, of which lost is asked, is no cluster of the script%s' % (command[1], '' if like else '; declared: ' + ', '.join(known))
    return Refusal(file=name, said=said, near=like, rule_of='script', rule=15)


def of_audit(raw, name, event, rule, command=('audit',)):
    """The refusal of a line of a trace, by the words of an audit."""
    row = rules.row('audit', rule)
    told = Refusal(file=name, said='of event %d a line is refused: %s' % (event, row[0]), rule_of='audit', rule=rule, remedy='it would mean: %s' % row[1])
    program = os.environ.get('GEO_PROGRAM')
    found = audits.refused_line(raw, event, program, command) if program else None
    if found is None:
        if not raw.endswith(b'\n'):
            return told._replace(said='the last line has no line feed', remedy=None)
        if b'\ntrace\n' not in b'\n' + raw:
            return told._replace(said='no line `trace` stands behind the declarations: a trace is what ./geo trace prints, with the declarations '
                                      'above it', remedy=None)
        return told
    line, text = found
    if rule == 1:
        is_cut = line == raw.count(b'\n') + 1
        said, like = ('the last line has no line feed', None) if is_cut else audits.form_fault(text, event)
        return told._replace(line=line, text=text, said=said, near=like)
    return told._replace(line=line, text=text, said='the line is refused, after the line `event %d`: %s' % (event, row[0]))


def of_observation(raw, name, line, rule):
    """The refusal of a line of an observation."""
    lines = raw.split(b'\n')
    text = lines[line - 1].decode('utf-8', errors='replace') if line <= len(lines) and lines[line - 1] else None
    if not any(it in (b'observed', b'observed quiet') for it in lines[:-1]):
        return Refusal(file=name, line=line, said='no line `observed` stands behind the declarations', rule_of='observation', rule=rule)
    if line == len(lines):
        return Refusal(file=name, line=line, text=text, said='the last line has no line feed', rule_of='observation', rule=rule)
    return Refusal(file=name, line=line, text=text, said=rules.row('observation', rule)[0], rule_of='observation', rule=rule)


def of_state(raw, name, offset, rule):
    """The refusal of an item of a state."""
    told = Refusal(file=name, rule_of='state', rule=rule)
    if not states.is_state(raw):
        what = 'a script' if raw.lstrip(b'#\n').startswith(b'geo 1') or b'\ngeo 1\n' in raw[:4096] else 'no state file'
        remedy = './geo save SCRIPT > STATE makes one' if what == 'a script' else None
        return told._replace(said='this is %s, and a state file begins with GEOSTATE' % what, remedy=remedy)
    item = states.Items(raw).item(offset)
    words = rules.row('state', rule)[0]
    return told._replace(said='at byte %d, which is %s: %s' % (offset, item or 'in no item', words))


def refusal(status, answer, raw, name, command):
    """What is to be told of an answer of the program; None where nothing is."""
    found = re.fullmatch(r'bad script line (\d+) rule (\d+)\n', answer)
    if found:
        return of_script(raw, name, int(found[1]), int(found[2]), command)
    found = re.fullmatch(r'bad observation line (\d+) rule (\d+)\n', answer)
    if found:
        return of_observation(raw, name, int(found[1]), int(found[2]))
    found = re.fullmatch(r'audit refused (\d+) rule (\d+)\n', answer)
    if found:
        return of_audit(raw, name, int(found[1]), int(found[2]), command or ('audit',))
    found = re.fullmatch(r'bad state at (\d+) rule (\d+)\n', answer)
    if found:
        return of_state(raw, name, int(found[1]), int(found[2]))
    found = re.fullmatch(r'bad state version (\d+)\n', answer)
    if found:
        return Refusal(file=name, said='it is a state file of version %s, and this program reads 1 and 2' % found[1],
                       remedy='./geo save of this program writes version 2 from the script')
    found = re.fullmatch(r'too large ([123])\n', answer)
    if found:
        return Refusal(file=name, said=TOO_LARGE[int(found[1])])
    if status == 2:
        return of_words(command, answer)
    if answer == 'read fault\n':
        return Refusal(file=name, said='it can\'t be read; a file behind the command is read in place of standard input')
    if status == 8:
        return Refusal(file=name, said='no memory was found: a smaller script, or a machine with more')
    return None


def read(path):
    with open(path, 'rb') as file:
        return file.read()


def explain(words):
    of = words[0] if words and words[0] in rules.PAGES else 'script'
    rest = words[1:] if words and words[0] in rules.PAGES else words
    lines = None
    if len(rest) == 1 and rest[0].isdigit():
        lines = rules.explained(of, int(rest[0]))
    if lines is None:
        print('geo why: --explain takes a rule\'s number, with audit, observation or state before it for theirs', file=sys.stderr)
        return 2
    print('\n'.join(lines))
    return 0


def main(words):
    if words[:1] == ['--explain']:
        return explain(words[1:])
    if len(words) != 1 or words[0] in ('-h', '--help'):
        print(__doc__.strip())
        return 0 if words and words[0] in ('-h', '--help') else 2
    # the wrapper runs it and tells
    raw = read(words[0])
    command = 'resume' if states.is_state(raw) else 'audit' if b'\ntrace\n' in raw else 'observe' if re.search(rb'\nobserved(?: quiet)?\n', raw) else 'run'
    return subprocess.run([ROOT + '/geo', command, words[0]], check=False).returncode
