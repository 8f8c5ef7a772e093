"""The table of messages: where each stands, whether its producer has the receipt, who got it, how often again, and where it is
acknowledged. A message that a survivor never gets is red, and said to be so."""
from collections import namedtuple

from .. import steps as m
from ..report import identity, is_message
from .cursors import LATEST, SEEK
from .signs import hidden, safe

# what a table has of a message; `lacks` are the survivors that never get it
Fate = namedtuple('Fate', 'entry places receipt got again acknowledged lacks')
YES, DUPLICATE, NO, UNKNOWN = 'yes', 'of a duplicate', 'none', 'not told'
# how an acknowledgement that no client made is told
WHY = {'update': 'told', LATEST: 'began behind it', SEEK: 'sought past it', 'client': '', 'marker': ''}
# a table of more rows is in pieces that are made as they are seen
PIECE = 60


class Receipts:
    """Which publishes were answered: a client's answers come in the order of its publishes."""

    def __init__(self, script, begin):
        self.script = script
        self.waiting, self.answered, self.unsure = {}, {}, set()
        for name, client in begin.clients.items():
            self.before(name, client)

    def before(self, name, client):
        """What a client published before the run begins, as behind a state: told where it has a receipt of each."""
        published = [line.split(' ')[1] for line in self.script.does.get(name, [])[:client.done] if line.startswith('pub ')]
        if client.counts != {'receipts': len(published), 'duplicates': 0, 'errors': 0}:
            self.unsure.add(name)
        self.answered.update({(name, seq): {'receipts'} for seq in published})

    def take(self, changes):
        for change in changes:
            if isinstance(change, m.Did) and change.line.startswith('pub '):
                self.waiting.setdefault(change.client, []).append(change.line.split(' ')[1])
            elif isinstance(change, m.Counted):
                self.counted(change)

    def counted(self, change):
        """An answer; an error may also be one to another command, and then nobody knows which publish waits still."""
        waiting = self.waiting.get(change.client, [])
        if change.word == 'errors':
            if any(line.startswith(('sub ', 'unsub')) for line in self.script.does.get(change.client, [])):
                self.unsure.add(change.client)
            del waiting[:change.after - change.before]
            return
        for seq in waiting[:change.after - change.before]:
            self.answered.setdefault((change.client, seq), set()).add(change.word)
        del waiting[:change.after - change.before]

    def of(self, entry):
        if entry.producer in self.unsure:
            return UNKNOWN
        answers = self.answered.get((entry.producer, entry.seq), ())
        return YES if 'receipts' in answers else DUPLICATE if answers else NO


def acknowledged(reasons, script, indexes):
    """Where a message is acknowledged at the end: by subscription, each cluster with how."""
    found = {}
    for (cluster, name), why in reasons.items():
        if indexes.get(cluster) in why:
            found.setdefault(name, {})[cluster] = WHY.get(why[indexes[cluster]], why[indexes[cluster]])
    return {name: {cluster: places[cluster] for cluster in script.clusters if cluster in places} for name, places in found.items()}


def fates(topic, script, whole, cursors, receipts, lost):
    """Each message of a topic with all that is known of it at the end of a run. Without cursors nobody knows where it is acknowledged."""
    entries = {cluster: whole.entries[topic, cluster] for cluster in script.clusters}
    found = {}
    for cluster in script.clusters:
        for index, entry in enumerate(entries[cluster]):
            if is_message(entry):
                found.setdefault(identity(entry), (entry, {}, {}))
                found[identity(entry)][1][cluster], found[identity(entry)][2][cluster] = entry.position, index
    times = whole.times_got()
    reasons = cursors and {(cluster, name): cursor.reasons() for (of, cluster, name), cursor in cursors.of.items() if of == topic}
    for name, (entry, places, indexes) in found.items():
        got = times.get((topic, name), {})
        again = {client: count - 1 for client, count in got.items() if count > 1}
        yield Fate(entry, places, receipts.of(entry), got, again, cursors and acknowledged(reasons, script, indexes),
                   lacking(script, entry, places, lost))


def targets_of(script, entry):
    return script.clusters if entry.targets == '*' else entry.targets.split(',')


def lacking(script, entry, places, lost):
    """The survivors that a message is for and that never get it: it comes from its origin alone, and that is lost."""
    if entry.origin not in lost:
        return []
    return [cluster for cluster in targets_of(script, entry) if cluster in script.clusters and cluster not in lost and cluster not in places]


# ---- the table ----


def head(script, topic, names):
    clusters = ''.join('<th scope="col">at %s</th>' % safe(names(cluster)) for cluster in script.clusters)
    return ('<table class="ms"><caption>%s</caption><thead><tr><th scope="col">message</th><th scope="col">text</th><th scope="col">for</th>%s'
            '<th scope="col">receipt</th><th scope="col">got by</th><th scope="col">again</th><th scope="col">acknowledged</th></tr></thead>' % (
                'Messages of %s at the end of the run' % safe(names(topic)), clusters))


def row(script, fate, names):
    """A message's row."""
    entry = fate.entry
    key = '' if entry.key in (None, '-', '') else ' <span class="ky">[%s]</span>' % safe(entry.key)
    title = '%s %s %s' % (names(entry.origin), names(entry.producer), entry.seq)
    cells = ['<th scope="row">%s%s%s</th>' % (hidden('lost:') if fate.lacks else '', safe(title), key), '<td>%s</td>' % safe(entry.text),
             '<td>%s</td>' % ('all' if entry.targets == '*' else safe(', '.join(map(names, entry.targets.split(',')))))]
    cells += [place_cell(script, fate, cluster) for cluster in script.clusters]
    cells += ['<td class="%s">%s</td>' % ('none' if fate.receipt in (NO, UNKNOWN) else '', fate.receipt), counted_cell(fate.got, names, 'nobody'),
              counted_cell(fate.again, names, '\u2013', 'tw'), acknowledged_cell(fate.acknowledged, names)]
    return '<tr class="ro%s">%s</tr>' % (' gone' if fate.lacks else '', ''.join(cells))


def place_cell(script, fate, cluster):
    if cluster in fate.places:
        return '<td>%s</td>' % fate.places[cluster]
    if cluster in fate.lacks:
        return '<td class="never">\u2717 never</td>'
    return '<td class="none">%s</td>' % ('\u2013' if cluster in targets_of(script, fate.entry) else 'not for it')


def counted_cell(counts, names, nobody, kind=''):
    if not counts:
        return '<td class="none">%s</td>' % nobody
    told = ', '.join('%s %d\u00d7' % (safe(names(client)), count) if count > 1 or kind else safe(names(client)) for client, count in counts.items())
    return '<td%s>%s</td>' % (' class="%s"' % kind if kind else '', told)


def acknowledged_cell(found, names):
    """Clusters by subscription; a single subscription of a topic is named all the same, since the next one may be another."""
    if not found:
        return '<td class="none">%s</td>' % (UNKNOWN if found is None else '\u2013')
    told = ['%s: %s' % (safe(names(name)), ', '.join(safe(names(cluster)) + (' (%s)' % why if why else '') for cluster, why in places.items()))
            for name, places in found.items()]
    return '<td>%s</td>' % '; '.join(told)


def legend(all_fates, lost, names):
    """What a red row means, where there is one."""
    gone = [fate for fate in all_fates if fate.lacks]
    if not gone:
        return ''
    one, held = len(gone) == 1, sum(fate.receipt in (YES, DUPLICATE) for fate in gone)
    return ('<p class="warn"><b>\u2717 %d message%s red: a region that survives never gets %s.</b> Only %s could bring %s, and is lost. '
            'The producer has the receipt of %s.</p>' % (
                len(gone), ' is' if one else 's are', 'it' if one else 'them', safe(' or '.join(map(names, sorted(lost)))), 'it' if one else 'them',
                'it' if one and held else 'all of them' if held == len(gone) else '%d of them' % held))
