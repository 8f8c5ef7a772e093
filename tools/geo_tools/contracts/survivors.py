"""The page edits/SURVIVORS.md: of each crate when wrong bodies were planted in it last, and those that its contracts let through.

What the tool reads and writes of it is, below its introduction, for each crate in which something was planted

    ## CRATE

    Planted on DAY for N minutes by `TOOLCHAIN`, whole, text `SUM`: planted-in=.. proves=.. ..

    - proves `src/FILE` `FUNCTION` `{ BODY }`
      equal in meaning: WHY

with `cut off` in place of `whole` where bodies were left out, and `unread` where nobody has given a reason yet.
"""
import collections
import re

from .plants import KINDS, PROVES, Survivor

UNREAD = 'unread'
# why a wrong body may stand: it is none, or no answer differs, or the contract is to say more
REASONS = ('equal in meaning: ', 'speed alone: ', 'issue: ')
# and where no body was judged, or there is no clause: what else shows a wrong one
SHOWN = 'shown by: '
ISSUE = REASONS[2]
PASS = re.compile(r'Planted on (\d{4}-\d\d-\d\d) for (\d+) minutes by `(.+)`, (whole|cut off), text `([0-9a-f]{16})`: (.+)')
ROW = re.compile(r'- (%s) `([^`]+)` `([^`]+)`(?: `(.*)`)?' % '|'.join(KINDS))

Pass = collections.namedtuple('Pass', 'day minutes toolchain is_whole text counts')


class Bad(Exception):
    """A line of the page that is none of its form."""


def reason_of(survivor, line):
    """The reason in a line of the page; None where it is none."""
    text = line.strip()
    allowed = (*REASONS, *([SHOWN] if survivor.kind != PROVES else []))
    is_reason = line.startswith('  ') and (text == UNREAD or text.startswith(allowed))
    return text if is_reason else None


class Page:
    """The page: its introduction, and of each crate the last pass and the reason of each survivor."""

    def __init__(self, text=''):
        head, *sections = re.split(r'^## ', text, flags=re.MULTILINE)
        self.head, self.passes, self.rows, self.at = head.rstrip('\n'), {}, {}, head.count('\n')
        for section in sections:
            self._read(section)

    def _read(self, section):
        name, *lines = section.rstrip('\n').split('\n')
        found = PASS.fullmatch(lines[1]) if lines[1:] and not lines[0] else None
        if not found or lines[2:3] not in ([], ['']) or name in self.passes:
            raise Bad('%s: no line says when it was planted, or it has two sections' % name)
        self.passes[name] = Pass(found[1], int(found[2]), found[3], found[4] == 'whole', found[5], found[6])
        rows = self.rows[name] = {}
        for line, below in zip(lines[3::2], [*lines[4::2], '']):
            row = ROW.fullmatch(line)
            survivor = row and Survivor(*row.groups(''))
            reason = row and reason_of(survivor, below)
            if not reason or survivor in rows or (survivor.kind == PROVES) != bool(survivor.body):
                raise Bad('%s: %s / %s' % (name, line, below))
            rows[survivor] = reason

    def written(self):
        """The text of the page."""
        out = [self.head]
        for name, it in sorted(self.passes.items()):
            out += ['', '## ' + name, '', 'Planted on %s for %d minutes by `%s`, %s, text `%s`: %s' % (
                it.day, it.minutes, it.toolchain, 'whole' if it.is_whole else 'cut off', it.text, it.counts)]
            out += [''] * bool(self.rows[name])
            for survivor, reason in self.rows[name].items():
                out += ['- %s `%s` `%s`%s' % (*survivor[:3], ' `%s`' % survivor.body if survivor.body else ''), '  ' + reason]
        return '\n'.join(out) + '\n'

    def take(self, name, made, survivors):
        """Takes a pass of a crate; gives the survivors that are new, and those that are no more: a pass that was cut off ends none."""
        before = self.rows.get(name, {})
        after = {it: before.get(it, UNREAD) for it in survivors}
        gone = [it for it in before if it not in after]
        if not made.is_whole:
            after.update((it, before[it]) for it in gone)
            gone = []
        self.passes[name], self.rows[name] = made, after
        return [it for it in after if it not in before], gone

    def unread(self, names=None):
        """The survivors without a reason, each with its crate."""
        return [(name, it) for name, rows in sorted(self.rows.items()) if names is None or name in names for it, reason in rows.items() if reason == UNREAD]

    def count(self, word):
        """How many survivors have a reason that begins with a word."""
        return sum(reason.startswith(word) for rows in self.rows.values() for reason in rows.values())
