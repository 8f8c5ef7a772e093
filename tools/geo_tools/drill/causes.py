"""Why a line did nothing: read off a report, or asked of the program by an experiment.

An experiment runs the beginning of the script again with one thing done that would help; it is the cause if it helps. No rule of the
machine stands here but what a client's line waits for, which docs/SCRIPT.md has in a table.
"""
from .did import text_of

# what an experiment tries of each event: enough to take all that waited, at each of which it is idle behind the last
MANY = 64
# what a client is permitted in an experiment
PERMITS = 100

# what a line of a client waits for, by its first word (docs/SCRIPT.md); {client}, {held} and {give} are filled in
WAITS = {
    'ack': '{client} does not hold {held}{give}',
    'ackto': '{client} does not hold {held}{give}',
    'ackall': '{client} holds no message{give}',
    'pub': 'no produce line is in force, or a publish has no answer yet',
    'closep': 'no produce line is in force, or a publish has no answer yet',
    'flow': 'no sub line is in force',
    'unsub': 'no sub line is in force',
    'close': 'no sub line is in force',
}


class Causes:
    """The causes in one play."""

    def __init__(self, play):
        self.play, self.drill, self.program = play, play.drill, play.program

    def report(self, events):
        """The report behind these events."""
        return self.program.report(text_of(self.drill.head.lines + events))

    # ---- events that had to do something ----

    def of_idle(self, event, before):
        """Why an event, behind these, did nothing."""
        words, own = event.split(' '), self.drill.own
        if words[0] == 'go':
            return self.of_go(words[1], before)
        if words[0] == 'snap':
            return self.of_snap(words[1], words[2], self.report(before))
        if words[0] == 'take':
            return 'nothing is on its way from %s to %s' % (own(words[2]), own(words[3]))
        return '%s does nothing' % self.drill.owned(event)

    def of_go(self, client, before):
        """Why a client could not do its next line."""
        own, report = self.drill.own, self.report(before)
        if not self.answers(client, before):
            return '%s is not connected (connect %s)' % (own(client), own(client))
        done = report.clients[client].done
        line = self.drill.head.does[client][done]
        sub = self.drill.head.sub_of(client, done)
        give = ' (give %s at %s)' % (own(sub), own(report.clients[client].cluster)) if sub else ''
        waits = WAITS.get(line.split(' ')[0], 'it can not be done').format(
            client=own(client), held=self.drill.message(line.split(' ')[1:4]), give=give)
        return '%s waits: %s' % (self.drill.owned(line), waits)

    def of_snap(self, topic, x, report):
        """Why a request for a snapshot is idle."""
        if not any(sub.replicated == 'replicated' for sub in report.subs[topic, x].values()):
            return 'no subscription at %s is replicated' % self.drill.own(x)
        return 'a snapshot of %s is in the making' % self.drill.own(x)

    def of_open_snapshot(self, played, topic, x):
        """Why a snapshot did not end."""
        closed = ['from %s to %s' % (self.drill.own(a), self.drill.own(b)) for (of, a, b), sender in played.report.senders.items()
                  if of == topic and x in (a, b) and sender.state != 'open']
        if closed:
            return 'no session is open ' + ', '.join(closed)
        held = ['from %s to %s' % (self.drill.own(a), self.drill.own(b)) for a, b in sorted(self.drill.holds)]
        return 'what goes %s is held' % ', '.join(held) if held else 'not all have answered'

    # ---- lines all of whose events were idle ----

    def of_vain(self, played):
        """Why a line did nothing."""
        it, before = played.statement, played.report_before
        events = self.play.events[:played.first]
        if it.pairs:
            return self.of_pairs(it.pairs, before, 'sent' if it.word == 'send' else 'delivered')
        if it.sub:
            return 'nothing was given: ' + self.of_given(*it.sub, before, events)
        if it.word == 'release':
            return 'nothing waited there'
        words = played.events[0].split(' ') if played.events else ['']
        if words[0] == 'snap':
            return self.of_snap(words[1], words[2], before)
        if words[0] == 'go':
            return self.of_go(words[1], events)
        return 'it is idle'

    def of_closed(self, played):
        """Of a line that did something: where it did nothing since no session is open. None where there is no such direction."""
        closed = [pair for pair in self.closed(played.statement.pairs, played.report) if pair in self.closed(played.statement.pairs, played.report_before)]
        return 'nothing went there: ' + self.of_sessions(closed) if closed else None

    @staticmethod
    def closed(pairs, report):
        """The directions whose session is not open."""
        return list(dict.fromkeys((x, y) for topic, x, y in pairs if report.senders[topic, x, y].state != 'open'))

    def of_sessions(self, closed):
        """What is said of directions whose session is not open."""
        own = self.drill.own
        links = dict.fromkeys('link %s %s' % tuple(map(own, sorted(pair))) for pair in closed)
        return '%s (%s)' % ('; '.join('%s has no open session to %s' % tuple(map(own, pair)) for pair in closed), ', '.join(links))

    def of_pairs(self, pairs, before, word):
        """Why nothing came over: a session that is not open, or nothing new."""
        own, closed = self.drill.own, self.closed(pairs, before)
        if closed:
            return 'nothing was %s: %s' % (word, self.of_sessions(closed))
        ways = list(dict.fromkeys((x, y) for _, x, y in pairs))
        if len(ways) > 1:
            return 'nothing was %s: each has all that the others have for it' % word
        return 'nothing was %s: %s has all that %s has for it' % (word, own(ways[0][1]), own(ways[0][0]))

    def of_given(self, topic, sub, x, before, events):
        """Why nobody got anything of a subscription."""
        own, head, state = self.drill.own, self.drill.head, before.subs[topic, x].get(sub)
        if state is None:
            return '%s is not at %s: no consumer subscribed there, and no update came' % (own(sub), own(x))
        takers = [client for client in head.clients if head.topic_of[client] == topic and before.clients[client].cluster == x
                  and head.sub_of(client, before.clients[client].done) == sub]
        if not takers:
            return 'no client of %s is at %s' % (own(sub), own(x))
        silent = [client for client in takers if not self.answers(client, events)]
        if len(silent) == len(takers):
            return ', '.join('%s is not connected to %s (connect %s)' % (own(client), own(x), own(client)) for client in silent)
        if state.backlog == 0:
            return '%s has no backlog at %s' % (own(sub), own(x))
        for client in takers:
            if self.takes_more(client, topic, sub, x, events):
                return '%s has no permit left (flow)' % own(client)
        return 'all %d of the backlog are out with %s, which did not acknowledge them' % (state.backlog, ', '.join(map(own, takers)))

    # ---- experiments ----

    def line_instead(self, client, line, events, behind):
        """The report where a client's next line is this one, before its own, and these events come behind."""
        head, done = self.drill.head, self.report(events).clients[client].done
        lines = [it for it in head.lines if not it.startswith('do ')]
        for name in head.clients:
            does = head.does[name][:done] + [line] + head.does[name][done:] if name == client else head.does[name]
            lines += ['do %s %s' % (name, it) for it in does]
        return self.program.report(text_of(lines + events + behind))

    def answers(self, client, events):
        """Whether the client's broker answers it: it pings, and what waited and the answer are taken."""
        x = self.report(events).clients[client].cluster
        took = ['serve %s %s' % (x, client)] * MANY + ['get ' + client] * MANY
        with_ping = self.line_instead(client, 'ping', events, ['go ' + client] + took)
        # with it: the go, the serve and the get of the answer
        return with_ping.events >= self.report(events + took).events + 3

    def takes_more(self, client, topic, sub, x, events):
        """Whether a permit would help."""
        behind = ['go ' + client] + ['serve %s %s' % (x, client)] * MANY + ['offer %s %s %s' % (topic, x, sub)] * MANY + ['get ' + client] * MANY
        after = self.line_instead(client, 'flow %d' % PERMITS, events, behind)
        return len(after.clients[client].got) > len(self.report(events).clients[client].got)
