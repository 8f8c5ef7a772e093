"""Plays a drill: tries events, leaves out those that were idle, and judges what was to be done and what is expected."""
import re

from ..program import Failed
from ..refusals import scripts
from .causes import Causes
from .did import did, text_of
from .expect import Seen
from .language import MOST_TRIES
from .words import Refused, whole

# a statement of these does what it says where all of its events are idle
NEVER_IN_VAIN = ('cut', 'partition')


class Played:
    """What a statement did: its events that are kept, those of them that were idle, and the reports before and behind it."""

    def __init__(self, play, statement, done):
        self.play, self.statement = play, statement
        kept = [(event, part, did_it) for event, part, did_it in done if not part.tried or did_it.events]
        self.events = [event for event, _, _ in kept]
        self.idle = [event for event, _, did_it in kept if not did_it.events]
        self.is_vain = bool(done) and statement.word not in NEVER_IN_VAIN and not any(did_it.events for _, _, did_it in done)
        # how many events of the script stand before it
        self.first = len(play.events)
        self.changed = [line for _, _, did_it in done for line in did_it.lines or ()]
        self.is_told = all(did_it.lines is not None for _, _, did_it in done)
        self.before = play.played[-1] if play.played else None
        self._report = None

    @property
    def report(self):
        """The report of the run up to here: of the lines that changed where they are told, else by a run of the beginning."""
        if self._report is None:
            if self.play.is_stepped:
                self._report = self.report_before.after(self.changed) if self.changed else self.report_before
            else:
                self._report = self.play.program.report(self.play.script(self.first + len(self.events)))
        return self._report

    @property
    def report_before(self):
        """The report of the run up to the line before."""
        return self.before.report if self.before else self.play.begin


class Play:
    """A drill that is played by a program."""

    def __init__(self, drill, program):
        self.drill, self.program = drill, program
        self.passes, self.is_stepped = 0, program.has('steps')
        self.played, self.events = [], []
        self.begin = self.whole = None
        self.causes = Causes(self)

    def script(self, count=None):
        """The script of the first events, all without a number, as the program reads it."""
        return text_of(self.drill.head.lines + self.events[:count])

    def go(self):
        """Plays."""
        done = self.tried()
        self.begin = self.program.report(self.script(0))
        has_waited = False
        for statement in self.drill.statements:
            mine = done.get(id(statement), [])
            played = Played(self, statement, mine)
            for at, (event, part, did_it) in enumerate(mine):
                if part.must and not did_it.events and event != 'settle':
                    self.refuse(statement, self.causes.of_idle(event, self.events + [it for it, of, what in mine[:at] if not of.tried or what.events]))
            self.events += played.events
            self.played.append(played)
            has_waited = has_waited or any(event.startswith('go ') for event in played.idle)
            if self.is_stepped:
                # one behind the other, so that each stands on the one before
                assert played.report
            self.check(played, has_waited)
        self.compare()
        return self

    def compare(self):
        """Whatever was left out was idle: the script without it is run, and counts as idle just what a drill has in a script's own words."""
        scripts = [self.script()]
        if not self.program.path:
            # each call compiles the program, so all that may be asked is asked at once
            scripts += [self.script(played.first + len(played.events)) for played in self.played]
        self.whole = self.program.reports(scripts)[0]
        if self.whole.idle != sum(len(played.idle) for played in self.played):
            raise Refused('the script has another report without its idle events').at(self.drill.file, 1, None)

    def tried(self):
        """Tries until each last try is idle; gives, for each statement, its events with their parts and what they did."""
        while True:
            meant = [(it, event, part, is_last) for it in self.drill.statements for event, part, is_last in it.events()]
            try:
                done = did(self.program, self.drill, [event for _, event, _, _ in meant])
            except Failed as failed:
                raise self.placed(failed, meant) from None
            self.passes += 1
            short = {id(it): it for (it, _, _, is_last), what in zip(meant, done) if is_last and what.events}
            if not short:
                found = {}
                for (it, event, part, _), what in zip(meant, done):
                    found.setdefault(id(it), []).append((event, part, what))
                return found
            for it in short.values():
                it.tries *= 2
                if it.tries > MOST_TRIES:
                    self.refuse(it, 'it does not come to an end')

    def placed(self, failed, meant):
        """A refusal of the script by the line of the drill: the program speaks of a script that nobody sees."""
        lines = self.drill.head.lines
        raw = text_of(lines + [event for _, event, _, _ in meant])
        try:
            self.program.answer('run', raw)
        except Failed as plain:
            failed = plain
        found = re.fullmatch(r'bad script line ([0-9]+) rule ([0-9]+)', str(failed))
        if not found:
            return failed
        number, rule = int(found.group(1)), int(found.group(2))
        if number <= len(lines):
            it = self.drill.statements[self.drill.declared_at[number - 1] - 1]
        else:
            it = meant[min(number - len(lines), len(meant)) - 1][0] if meant else self.drill.statements[-1]
        told = scripts.told(scripts.Script(raw), self.drill.file, number, rule)
        said = '%s (rule %d)' % (told.said, rule)
        if told.text == it.text:
            refused = Refused(said, told.column or 1, told.expected, told.near, told.width or max(1, len(it.text)))
        else:
            refused = whole('the program takes no such line: ' + said, it.text)
        return refused.at(self.drill.file, it.number, it.text)

    def refuse(self, statement, why):
        """Refuses a line for what came of it."""
        raise whole(why, statement.text).at(self.drill.file, statement.number, statement.text)

    # ---- what a statement says of itself ----

    def check(self, played, has_waited):
        """Refuses what a statement says of itself and did not come to."""
        it, own = played.statement, self.drill.own
        if has_waited and it.client and played.report.clients[it.client].cluster != it.cluster:
            self.refuse(it, '%s is not at %s, since a go before did nothing' % (own(it.client), own(it.cluster)))
        if it.snapshot:
            self.check_snapshot(played, *it.snapshot)

    def check_snapshot(self, played, topic, x, sub):
        """A snapshot has to end, and where a subscription is named its update has to be stored."""
        it, own = played.statement, self.drill.own
        if it.planned:
            state = played.report_before.subs[topic, x].get(sub)
            if state is None or state.backlog:
                self.refuse(it, '%s at %s has a backlog of %s: give and acknowledge it before' % (own(sub), own(x), state.backlog if state else 'nothing'))
        new = played.report.entries[topic, x][len(played.report_before.entries[topic, x]):]
        if not any(entry.kind == 'snapshot' and entry.origin == x for entry in new):
            self.refuse(it, 'no snapshot ended: ' + self.causes.of_open_snapshot(played, topic, x))
        if sub and not any(entry.what.startswith('update %s ' % sub) and entry.origin == x for entry in new):
            left = played.report.subs[topic, x][sub].backlog
            self.refuse(it, 'the snapshot ended, and %s has not passed it: of what stands before it %d %s not acknowledged at %s'
                        % (own(sub), left, 'is' if left == 1 else 'are', own(x)))

    # ---- what is told of it ----

    def vain(self):
        """Each line that did nothing, or nothing in some direction, and was not expected to, with its cause."""
        lines = [played for played in self.played if played.statement.word not in ('#', 'declare')]
        following = dict(zip(lines, [played.statement.expects for played in lines[1:]] + [None]))
        for played, expects in following.items():
            if played.is_vain:
                if not (expects and expects.text.split(' ')[0] == 'idle'):
                    yield played, self.causes.of_vain(played)
            elif self.causes.of_closed(played):
                yield played, self.causes.of_closed(played)

    def differing(self):
        """Each expectation that is not met, with what is seen."""
        last = None
        for played in self.played:
            if played.statement.expects:
                is_idle = played.statement.expects.text.split(' ')[0] == 'idle'
                cause = self.causes.of_vain(last) if is_idle and last and last.is_vain else False
                seen = played.statement.expects.differs(Seen(played.report, cause))
                if seen is not None:
                    yield played, seen
            elif played.statement.word not in ('#', 'declare'):
                last = played
