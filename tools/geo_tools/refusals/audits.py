"""Of a trace that an audit refuses: the line. The program names the event alone, so it is asked of beginnings of the trace."""
import subprocess

from .forms import near


def lines_of_event(raw, event):
    """The offsets behind each line that may be the refused one: those behind `event N`, up to and with the next `event` line."""
    begin = raw.find(b'\ntrace\n')
    if raw.startswith(b'trace\n'):
        begin = -1
    elif begin < 0:
        return []
    at = begin + 1 + len(b'trace\n')
    if event:
        head = b'event %d\n' % event
        if not raw.startswith(head, at):
            at = raw.find(b'\n' + head, at - 1)
            if at < 0:
                return []
            at += 1
        at += len(head)
    ends = []
    while at < len(raw):
        line_end = raw.find(b'\n', at)
        is_event = raw.startswith(b'event ', at)
        at = len(raw) if line_end < 0 else line_end + 1
        ends.append(at)
        if is_event and len(ends) >= 1:
            break
    return ends


def refused_line(raw, event, program, command=('audit',)):
    """The number of the refused line, from 1, and its text; None where the trace has no such line. The words are those of the audit."""
    ends = lines_of_event(raw, event)
    if not ends:
        return None

    def is_refused(end):
        done = subprocess.run([program, *command], input=raw[:end], stdout=subprocess.PIPE, check=False)
        return not done.stdout.startswith(b'audit ok')
    low, high = 0, len(ends) - 1
    while low < high:
        middle = (low + high) // 2
        if is_refused(ends[middle]):
            high = middle
        else:
            low = middle + 1
    end = ends[low]
    begin = raw.rfind(b'\n', 0, end - 1) + 1
    line = raw[begin:end]
    return raw.count(b'\n', 0, begin) + 1, (line[:-1] if line.endswith(b'\n') else line).decode('latin-1')


# the words that begin a line behind `trace`
WORDS = ('event', 'append', 'create', 'delete', 'ack', 'seek')


def form_fault(text, event):
    """What is wrong with a line that has no form: in words, and the nearest right one."""
    word = text.split(' ')[0]
    if word == 'event':
        return 'the next event is to be `event %d`' % (event + 1), None
    if not text:
        return 'the line is empty', None
    if word not in WORDS:
        return '%s begins no line of a trace' % word, near(word, WORDS)
    if not event:
        return 'a line of a write stands before the first `event` line', None
    return 'the line has none of the forms of docs/TRACE.md, or names what is not declared', None
