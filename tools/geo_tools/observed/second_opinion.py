"""The audit of a trace that explains what was observed, by the program. It tells the first line that it refuses; the judge tells all."""
import subprocess

from ..program import NO_PROGRAM, Failed, kept_program
from ..refusals import audits, rules
from .trace import Explained

# the status of an audit that refuses a line, and the words of its answer: `audit refused EVENT rule R`
REFUSED, EVENT_WORD, RULE_WORD = 10, 2, 4


def explainable(seen):
    """Why no trace can be built; None where it can."""
    if len(seen.seen()) < len(seen.clusters):
        return 'a cluster was not read'
    if any(topic.trimmed for topic in seen.topics.values()):
        return 'a beginning may be deleted'
    return None if seen.quiet else 'not all was at rest'


def audited(program, raw):
    """The status and the answer of the program's audit."""
    try:
        done = subprocess.run([program, 'audit'], input=raw, capture_output=True, check=False)
    except OSError as error:
        raise Failed('%s: %s' % (program, error.strerror), NO_PROGRAM) from error
    if done.returncode not in (0, REFUSED):
        raise Failed('geo audit ended with status %d: %s' % (done.returncode, done.stdout.decode('latin-1').strip()), done.returncode)
    return done.returncode, done.stdout.decode('ascii').strip()


def given(judge, path, program=None):
    """Writes the trace; gives the lines that say how it was audited, and whether all of it is explained and accepted."""
    topic, why = judge.seen.topic, explainable(judge.seen)
    if why:
        return ['%s: no trace: %s' % (topic, why)], False
    program = program or kept_program()
    if program is None:
        raise Failed('there is no program of this source, which an audit needs: tools/build makes one', NO_PROGRAM)
    explained = Explained(judge)
    raw = explained.text().encode('ascii')
    with open(path, 'wb') as file:
        file.write(raw)
    status, answer = audited(program, raw)
    lines = ['%s: unexplained: %s' % (topic, text) for text in explained.unexplained] + ['%s: trace: %s' % (topic, answer)]
    if status == REFUSED:
        words = answer.split(' ')
        row, found = rules.row('audit', words[RULE_WORD]), audits.refused_line(raw, int(words[EVENT_WORD]), program)
        if found:
            lines.append('%s: trace: %s:%d: %s' % (topic, path, *found))
        if row:
            lines.append('%s: trace: refused where %s' % (topic, row[0]))
    return lines, status == 0 and not explained.unexplained
