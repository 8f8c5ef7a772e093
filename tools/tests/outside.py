"""The steps of a script as they are seen from outside: by a run of each of its beginnings, without the command `geo steps`."""
from geo_tools.script import Script


def client_line(name, client):
    """The line of a client, as a report has it."""
    counts = client.counts
    return 'client %s at %s lines %d/%d receipts %d duplicates %d errors %d' % (
        name, client.cluster, client.done, client.total, counts['receipts'], counts['duplicates'], counts['errors'])


def broker_lines(before, after, place):
    """What changed at one topic of a cluster, under its line."""
    topic, cluster = place
    found = ['entry ' + ' '.join((it.position, it.origin, it.producer, it.seq, it.targets, it.what))
             for it in after.entries[place][len(before.entries[place]):]]
    found += ['sender %s session %d %s mark %d' % (name[2], *sender) for name, sender in after.senders.items()
              if name[:2] == place and before.senders[name] != sender]
    old, new = before.subs[place], after.subs[place]
    found += ['gone ' + name for name in old if name not in new]
    found += ['sub %s %s %s mark %d backlog %d' % (name, *sub[:4]) + (' seeks %d' % sub.seeks if sub.seeks else '')
              for name, sub in new.items() if old.get(name) != sub]
    return ['topic %s at %s' % (topic, cluster)] + found if found else []


def changed(before, after):
    """The lines of a report that are new or other than in one before, in a report's order, each under the line that it stands under."""
    found = [line for place in after.entries for line in broker_lines(before, after, place)]
    for name, client in after.clients.items():
        old = before.clients[name]
        got = ['got ' + ' '.join(message) for message in client.got[len(old.got):]]
        if got or client_line(name, client) != client_line(name, old):
            found += [client_line(name, client)] + got
    return found


def steps_outside(program, raw):
    """The lines of the steps, from the first step on to the counts at the end; of a settle the report behind it in place of its lines."""
    script, told = Script(raw), []
    reports = program.reports([script.beginning(count) for count in range(len(script.events) + 1)])
    for number, (event, before, after) in enumerate(zip(script.events, reports, reports[1:]), 1):
        is_idle = after.idle > before.idle and after.events == before.events
        told.append('step %d line %d %s%s' % (number, event.line, 'idle ' if is_idle else '', ' '.join(event.words)))
        told += [after.text] if event.words == ['settle'] else [] if is_idle else changed(before, after)
    return told + [reports[-1].text.split('\n', 1)[0]]
