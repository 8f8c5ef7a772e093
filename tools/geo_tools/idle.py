"""Why an event did nothing. What waits is told by the steps; all else as for the lines of a drill (drill/causes.py): read off the
report before the event, or asked of the program by an experiment."""
import functools

from .drill.language import Drill
from .drill.play import Play
from .drill.words import Refused

# experiments are runs of a script's beginning: so many events are asked about, as long as their beginnings have together so many events
MOST_ASKED, MOST_EVENTS = 60, 60000


class Idle:
    """The causes of a script's idle events. Without a program, as of what goes on from a state, only their words tell."""

    def __init__(self, script, program):
        self.script, self.program, self.known = script, program, {}
        self.asked_of = self.walked = 0
        self.at = {event.line: at for at, event in enumerate(script.events)}

    @functools.cached_property
    def causes(self):
        """Who asks the program; None where that cannot be."""
        try:
            # what is declared is enough for them, and of events a drill takes fewer than a script
            head = self.script.raw[:self.script.begin].decode('utf-8', errors='replace')
            return Play(Drill(head, '-'), self.program).causes if self.program else None
        except Refused:
            # then only the words of the event tell
            return None

    def cause(self, event):
        """Why this event of the script was idle, '' where nobody knows."""
        if event.line not in self.known:
            self.known[event.line] = self.found(event)
        return self.known[event.line]

    def found(self, event):
        """The cause: told by the event's words, or asked."""
        words = event.words
        told = {'take': lambda: 'nothing is on its way from %s to %s' % tuple(words[2:4]),
                'receipt': lambda: 'nothing is on its way from %s to %s' % (words[3], words[2]),
                'serve': lambda: '%s has taken all that %s sent' % tuple(words[1:3]),
                'get': lambda: 'nothing waits for %s' % words[1],
                'drop': lambda: '%s has no session at %s' % (words[2], words[1]),
                'seek': lambda: 'no entry stands there, or %s is not at %s' % (words[3], words[2])}.get(words[0])
        if told:
            return told()
        self.asked_of, self.walked = self.asked_of + 1, self.walked + self.at[event.line]
        if self.asked_of > MOST_ASKED or self.walked > MOST_EVENTS or self.causes is None:
            return ''
        return self.asked(words, [' '.join(before.words) for before in self.script.events[:self.at[event.line]]])

    def asked(self, words, before):
        """The cause, of the report before an event and of experiments."""
        causes, word = self.causes, words[0]
        if word == 'offer':
            return causes.of_given(words[1], words[3], words[2], causes.report(before), before)
        if word == 'snap':
            return causes.of_snap(words[1], words[2], causes.report(before))
        if word == 'read':
            return causes.of_pairs([tuple(words[1:4])], causes.report(before), 'read')
        if word == 'go':
            return self.of_go(words[1], before)
        return ''

    def of_go(self, client, before):
        """Why a client did not do its next line; none may be left."""
        if self.causes.report(before).clients[client].done == len(self.script.does.get(client, [])):
            return '%s has no line left' % client
        return self.causes.of_go(client, before)
