"""Tells a drill by its own lines: under each what it brought about, then what is expected and whether it is so."""
from collections import namedtuple

from ..report import identity, is_message

# what a line changed: `word` says of what kind, `facts` has the parts by name, `text` is told
Change = namedtuple('Change', 'word facts text')
# how wide the words at the left are, and where the verdict of an expectation stands
WORDS, VERDICT = 8, 54
# what is told in red on a terminal
LOUD = ('AGAIN', 'LOST', 'IN VAIN', 'NO')
RED, PLAIN = '\033[1;31m', '\033[0m'


def loud(text, colours):
    """A text, red on a terminal where it is one of LOUD."""
    return RED + text + PLAIN if colours and text.rstrip() in LOUD else text


class Changes:
    """What changed from one report to the next, in the drill's own names."""

    def __init__(self, drill, before, after):
        self.drill, self.own, self.before, self.after = drill, drill.own, before, after
        self.is_several = len(drill.head.topics) > 1

    def all(self):
        """Each change."""
        yield from self.entries()
        yield from self.subs()
        yield from self.sessions()
        yield from self.clients()

    def place(self, topic, x):
        """A cluster, with the topic where there are several."""
        return '%s at %s' % (self.own(topic), self.own(x)) if self.is_several else self.own(x)

    def named(self, entry):
        """An entry in words."""
        if is_message(entry):
            return self.drill.message(identity(entry))
        kind, *rest = entry.what.split(' ')
        if kind == 'snapshot':
            return 'the snapshot ' + self.drill.owned(rest[0])
        if kind == 'update':
            return 'an update of %s (%s)' % (self.own(rest[0]), self.drill.owned(' '.join(rest[1:])))
        return {'request': 'a request for a snapshot', 'response': 'an answer'}.get(kind, kind)

    def entries(self):
        """What was stored, moved, and made as a marker."""
        for (topic, x), entries in self.after.entries.items():
            new, place = entries[len(self.before.entries[topic, x]):], self.place(topic, x)
            stored = [self.named(entry) for entry in new if is_message(entry) and entry.origin == x]
            facts = {'topic': self.own(topic), 'at': self.own(x)}
            if stored:
                yield Change('stored', {**facts, 'what': stored}, 'at %s: %s' % (place, ', '.join(stored)))
            for y in self.drill.head.clusters:
                moved = [self.named(entry) for entry in new if entry.origin == y != x]
                if moved:
                    yield Change('moved', {**facts, 'from': self.own(y), 'what': moved}, '%s -> %s: %s' % (self.own(y), place, ', '.join(moved)))
            markers = [self.named(entry) for entry in new if not is_message(entry) and entry.origin == x]
            if markers:
                yield Change('markers', {**facts, 'what': markers}, '%s stored %s' % (place, ', '.join(markers)))

    def subs(self):
        """Subscriptions that are new, changed or gone."""
        for (topic, x), subs in self.after.subs.items():
            old = self.before.subs[topic, x]
            for sub in dict.fromkeys([*old, *subs]):
                was, now = old.get(sub), subs.get(sub)
                if was == now:
                    continue
                facts = {'topic': self.own(topic), 'at': self.own(x), 'subscription': self.own(sub), 'before': was and was._asdict(), 'after': now and now._asdict()}
                yield Change('sub', facts, '%s at %s: %s' % (self.own(sub), self.place(topic, x), sub_text(was, now)))

    def sessions(self):
        """Sessions of replicators that opened or closed."""
        for word in ('closed', 'open'):
            pairs = [(x, y) for (topic, x, y), now in self.after.senders.items() for was in [self.before.senders[topic, x, y]]
                     if (now.state == 'open') == (word == 'open') and (was.state == 'open') != (word == 'open')
                     or word == 'open' == now.state == was.state and now.session != was.session]
            ways = ['%s -> %s' % tuple(map(self.own, pair)) for pair in dict.fromkeys(pairs)]
            if ways:
                yield Change('session', {'state': word, 'ways': ways}, '%s %s' % (', '.join(ways), word))

    def clients(self):
        """Where clients are, what they got, and what they were told."""
        for name, client in self.after.clients.items():
            old, facts = self.before.clients[name], {'client': self.own(name)}
            if client.cluster != old.cluster:
                yield Change('client', {**facts, 'at': self.own(client.cluster)}, '%s is at %s' % (self.own(name), self.own(client.cluster)))
            yield from self.got(name, client, old, facts)
            for word in ('duplicates', 'errors'):
                more = client.counts[word] - old.counts[word]
                if more:
                    yield Change(word, {**facts, 'more': more}, '%s: %d' % (self.own(name), more))

    def got(self, name, client, old, facts):
        """What a client got for the first time, and what again."""
        seen, first, again = set(old.got), [], []
        for message in client.got[len(old.got):]:
            (again if message in seen else first).append(message)
            seen.add(message)
        elsewhere = {message: other for other, it in self.before.clients.items() if other != name and it.topic == client.topic for message in it.got}
        if first:
            texts = [self.drill.message(it) + (' (%s got it before)' % self.own(elsewhere[it]) if it in elsewhere else '') for it in first]
            yield Change('got', {**facts, 'what': list(map(self.drill.message, first))}, '%s: %s' % (self.own(name), ', '.join(texts)))
        if again:
            texts = list(map(self.drill.message, again))
            yield Change('AGAIN', {**facts, 'what': texts}, '%s: %s' % (self.own(name), ', '.join(texts)))


def sub_text(was, now):
    """What changed of a subscription."""
    if now is None:
        return 'gone'
    if was is None:
        return 'new, %s, mark %d, backlog %d' % (now.replicated, now.mark, now.backlog)
    return ', '.join('%s %s -> %s' % (name, getattr(was, name), getattr(now, name)) for name in ('mark', 'backlog', 'replicated', 'seeks', 'kind')
                     if getattr(was, name) != getattr(now, name))


def changes(drill, played):
    """What a statement changed."""
    if played.events:
        yield from Changes(drill, played.report_before, played.report).all()
    lost = sum(event.split(' ')[0] in ('take', 'receipt') and event.endswith(' lost') for event in played.events)
    if lost:
        yield Change('LOST', {'packets': lost}, '%d on the way' % lost)


class Telling:
    """What is told of a play: the text, or the same as records."""

    def __init__(self, play, colours=False):
        self.play, self.drill, self.colours = play, play.drill, colours
        self.differs = {id(played): seen for played, seen in play.differing()}
        self.causes = {id(played): cause for played, cause in play.vain()}

    def lines(self):
        """The lines of the output."""
        width = len(str(self.play.played[-1].statement.number))
        for played in self.play.played:
            it = played.statement
            if it.word == '#' and it.text.strip():
                yield '%*s  %s' % (width, '', it.text)
            elif it.word == 'expect':
                yield '%*d  %-*s  %s' % (width, it.number, VERDICT, it.text, self.verdict(played))
            elif it.word not in ('#', 'declare'):
                yield '%*d  %s' % (width, it.number, it.text)
                for word, text in self.under(played):
                    yield '%*s      %s %s' % (width, '', loud(word, self.colours), text)
        yield ''
        yield self.closing()

    def under(self, played):
        """What stands under a line."""
        if id(played) in self.causes:
            yield 'IN VAIN', self.causes[id(played)]
        for change in changes(self.drill, played):
            yield '%-*s' % (WORDS, change.word), change.text

    def verdict(self, played):
        """Of an expectation."""
        return loud('NO', self.colours) + ': ' + self.differs[id(played)] if id(played) in self.differs else 'yes'

    def closing(self):
        """The line of counts."""
        count = sum(played.statement.word == 'expect' for played in self.play.played)
        vain = '; %d lines in vain' % len(self.causes) if self.causes else ''
        return '%d events; %d came again; %d of %d expectations met%s' % (
            self.play.whole.events, self.play.whole.again(), count - len(self.differs), count, vain)

    def complaints(self):
        """A line for each line in vain and each expectation that is not met."""
        for played in self.play.played:
            said = self.causes.get(id(played)) or self.differs.get(id(played))
            if said:
                yield '%s:%d: %s: %s' % (self.drill.file, played.statement.number, played.statement.text, said)

    def records(self):
        """The lines as records."""
        found = []
        for played in self.play.played:
            it = played.statement
            if it.word in ('#', 'declare'):
                continue
            record = {'line': it.number, 'text': it.text}
            if it.word == 'expect':
                record['met'], record['seen'] = id(played) not in self.differs, self.differs.get(id(played))
            else:
                record['events'] = played.events
                record['changes'] = [{'word': change.word.lower(), **change.facts} for change in changes(self.drill, played)]
                record['in_vain'] = self.causes.get(id(played))
            found.append(record)
        return {'file': self.drill.file, 'events': self.play.whole.events, 'again': self.play.whole.again(), 'lines': found}
