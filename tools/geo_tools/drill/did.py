"""What each event of a drill's script did, by one run.

Where the program has the command `steps`, that says it. Else a probe does: a topic, a client and a subscription more, of names that are
nobody's, and behind each event a seek of that subscription, which is never idle and stands in the trace. What stands between two of
them is what one event did: without a line `event` it was idle. Topics know nothing of each other, so it is the same run. A script of as
many topics as there may be is run by its beginnings.
"""
from ..program import NO_ANSWER, Failed
from ..script import Script

# docs/SCRIPT.md
MOST_TOPICS = 16


class Done:
    """What one event did: how many events that were not idle it was, and the lines of the report that it changed, None where only a report says them."""

    def __init__(self, lines):
        self.events, self.lines = 0, lines


def did(program, drill, events):
    """What each of the events did."""
    head = drill.head
    if program.has('steps'):
        done = by_steps(program.answer('steps', text_of(head.lines + events)))
        if len(done) != len(events):
            raise Failed('steps tells %d of %d events' % (len(done), len(events)), NO_ANSWER)
        return done
    if len(head.topics) < MOST_TOPICS:
        return by_probe(program, drill, events)
    script = Script(text_of(head.lines + events))
    return by_reports(program.reports([script.beginning(count) for count in range(len(events) + 1)]))


def text_of(lines):
    """A script of these lines."""
    return ('\n'.join(lines) + '\n').encode('utf-8', errors='replace')


def by_steps(text):
    """What each event did, of the steps of its script."""
    done = []
    _, _, rest = text.partition('\nsteps\n')
    for line in rest.splitlines():
        line = line.lstrip(' ')
        word, _, words = line.partition(' ')
        if word == 'step':
            is_idle, is_settle = words.split(' ')[3] == 'idle', words.endswith(' settle')
            done.append(Done([]))
            done[-1].events = 0 if is_idle or is_settle else 1
        elif word == 'event':
            done[-1].events += 1
        elif word != 'events' and done:
            done[-1].lines.append(line)
    return done


def by_reports(reports):
    """What each event did, of the reports of a script's beginnings."""
    done = []
    for before, after in zip(reports, reports[1:]):
        done.append(Done(None))
        done[-1].events = after.events - before.events
    return done


def by_probe(program, drill, events):
    """What each event did, of the trace of its script with a probe in it."""
    probe, cluster = drill.names.fresh('probe'), drill.head.clusters[0]
    sought = 'seek %s %s %s end' % (probe, cluster, probe)
    lines = drill.head.with_probe(probe)
    lines += ['reconnect ' + probe, 'serve %s %s' % (cluster, probe), 'go ' + probe, 'serve %s %s' % (cluster, probe), sought]
    for event in events:
        lines += [event, sought]
    # what stands before the first seek is the probe's own
    return of_trace(program.answer('trace', text_of(lines)), '%s %s %s' % (probe, cluster, probe))[1:]


def of_trace(trace, probe):
    """What each event did, of the trace of a script in which a seek of the probe's subscription stands behind each event."""
    done, at = [], Done(None)
    for line in trace[trace.index('\ntrace\n'):].splitlines():
        if line.startswith('event '):
            at.events += 1
        elif line.startswith('seek %s ' % probe):
            at.events -= 1
            done.append(at)
            at = Done(None)
    return done
