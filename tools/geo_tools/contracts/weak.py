"""Looks for contracts that say too little: has `rt plant` put wrong bodies under them, and prints those that are new among the ones that prove.

What survives is written into edits/SURVIVORS.md after each crate, at first as `unread`: whoever reads it gives it a reason there, or
makes the clause stronger, so that it is gone after the next pass. Without a name it plants in the crates whose text changed since they were
planted last, or whose pass was cut off after fewer minutes; the text is what the crate and those below it show: code without comments and
bodies of functions, definitions, lemmas. Bodies that only answer want of memory are counted and left out, since no clause says when memory
suffices. A crate is to be proved before (`rt check`), and so are those below it; else that is done first. Another toolchain may plant
other bodies: --all plants whatever is written.
"""
import argparse
import os
import sys
import time

from ..command import ended
from ..program import ROOT
from . import plants, survivors, toolchain
from .files import locked, read, replace
from .sums import Crates

PAGE = os.path.join('edits', 'SURVIVORS.md')
# what a call holds while it reads and writes the page, so that several may plant at a time
LOCK = os.path.join('.built', 'survivors.lock')
# how many hexadecimal digits of a sum stand on the page
DIGITS = 16
# the minutes for a crate after its own check, so that a pass over all takes some five hours
MINUTES = 5
# how much of what the toolchain said is shown where it planted nothing
SHOWN_LINES = 5
# the statuses, beside those of every command: where a crate is not planted whole, and where a survivor is unread
NOT_WHOLE, UNREAD = 71, 72
EPILOG = ('The status is 0; 71 where a crate was not planted, or its pass was cut off; 72 where a survivor of these crates has no reason yet; '
          '1 where the page cannot be read; 2 for wrong words; 69 without a toolchain.')


def shown(name, survivor):
    """A survivor as a line tells it."""
    return ' '.join(filter(None, [survivor.kind, name, survivor.file, survivor.function, survivor.body]))


def pass_told(last):
    """The last pass of a crate that is not to be planted again."""
    return 'planted on %s for %d minutes, %s' % (last.day, last.minutes, 'whole' if last.is_whole else 'cut off: only more minutes would do more')


class Passes:
    """The crates, the page, and what came of the crates that were planted in this call."""

    def __init__(self, root, path):
        self.crates, self.path = Crates(root), path
        self.page = self.read_page()
        self.planted = self.cut = self.failed = 0

    def read_page(self):
        return survivors.Page(read(self.path) if os.path.exists(self.path) else '# Survivors\n')

    def write_page(self):
        replace(self.path, self.page.written())

    def text(self, name):
        return self.crates.shown_with_below(name)[:DIGITS]

    def why_due(self, name, minutes):
        """Why a crate is to be planted; None where it is not."""
        last = self.page.passes.get(name)
        if not last:
            return 'it never was'
        if last.text != self.text(name):
            return 'it changed since %s' % last.day
        return 'it was cut off after %d minutes' % last.minutes if not last.is_whole and last.minutes < minutes else None

    def drop_strangers(self):
        """Takes from the page what is no crate any more."""
        strangers = [it for it in self.page.passes if it not in self.crates.stands_on]
        for name in strangers:
            print('%s: it is no crate any more, and its %d survivors are left out' % (name, len(self.page.rows[name])))
            del self.page.passes[name], self.page.rows[name]
        if strangers:
            self.write_page()

    def plant(self, name, minutes, jobs, by):
        """Plants in a crate, and says what came of it."""
        text = self.text(name)
        found, said = plants.plant(self.crates.folder(name), minutes, jobs)
        if not found:
            self.fail(name, 'the toolchain came to no end', said[-SHOWN_LINES:])
        elif Crates(self.crates.root).shown_with_below(name)[:DIGITS] != text:
            self.fail(name, 'its text changed meanwhile', [])
        else:
            self.take(name, found, survivors.Pass(time.strftime('%Y-%m-%d'), minutes, by, not found.why_cut, text, found.counts))

    def fail(self, name, why, lines):
        self.failed += 1
        print('%s: NOT PLANTED, %s' % (name, why), *lines, sep='\n    ')

    def take(self, name, found, made):
        """Takes what came of a crate into the page as it stands by now, since its reader may be at it."""
        try:
            with locked(os.path.join(self.crates.root, LOCK)):
                self.page = self.read_page()
                new, gone = self.page.take(name, made, found.survivors)
                self.write_page()
        except survivors.Bad as bad:
            self.fail(name, 'for the page has a line that is none of its form (%s), so these are not written' % bad,
                      [shown(name, it) for it in found.survivors])
            return
        self.planted += 1
        self.cut += not made.is_whole
        print('%s: %d survive, %d of them new: %s' % (name, len(found.survivors), len(new), found.counts))
        if not made.is_whole:
            print('    CUT OFF after %d minutes: %s' % (made.minutes, found.why_cut))
        for it in new:
            print('    new: ' + shown(name, it))
        for it in gone:
            print('    gone: ' + shown(name, it))

    def end(self, names, told):
        """Says what is unread, and gives the status."""
        unread = self.page.unread(names)
        for name, it in unread:
            print('unread: ' + shown(name, it))
        print('%s; of these crates %d survivors are unread; on the page %d crates are cut off, and %d survivors wait for a stronger contract' % (
            told, len(unread), sum(not it.is_whole for it in self.page.passes.values()), self.page.count(survivors.ISSUE)))
        return UNREAD if unread else NOT_WHOLE if self.cut or self.failed else 0


def run(root, said):
    """Plants in the crates that are meant; gives the status."""
    passes = Passes(root, said.page or os.path.join(root, PAGE))
    names = said.names or list(passes.crates.stands_on)
    due = {name: passes.why_due(name, said.minutes) for name in names}
    if said.list:
        passes.failed = sum(bool(why) for why in due.values())
        for name in names:
            print('%s: %s' % (name, due[name] or pass_told(passes.page.passes[name])))
        return passes.end(names, '%d crates are to be planted' % passes.failed)
    by = toolchain.version()
    passes.drop_strangers()
    for name in names:
        if due[name] or said.all or said.names:
            print('%s: planting, %d minutes at most after its own check' % (name, said.minutes), flush=True)
            passes.plant(name, said.minutes, said.jobs, by)
            sys.stdout.flush()
    return passes.end(names, '%d crates planted (%d cut off), %d not planted' % (passes.planted, passes.cut, passes.failed))


def positive(word):
    number = int(word)
    if number < 1:
        raise ValueError(word)
    return number


def arguments():
    parser = argparse.ArgumentParser(prog='tools/weak', description=__doc__, epilog=EPILOG, formatter_class=argparse.RawDescriptionHelpFormatter)
    parser.add_argument('names', metavar='NAME', nargs='*', help='plants in these crates; without one, in those that changed')
    parser.add_argument('--all', action='store_true', help='plants in all crates')
    parser.add_argument('--minutes', type=positive, default=MINUTES, metavar='N', help='for each crate, after its own check (%d)' % MINUTES)
    parser.add_argument('--jobs', type=positive, metavar='N', help='how many checks at a time, for the toolchain')
    parser.add_argument('--list', action='store_true', help='plants nothing: says which crates would be planted and why, and what is unread')
    parser.add_argument('--page', metavar='FILE', help='a page in place of %s' % PAGE)
    return parser


def main(words, root=ROOT):
    parser = arguments()
    said = parser.parse_args(words)
    for name in said.names:
        if name not in Crates(root).stands_on:
            parser.error('%s is no crate' % name)

    def work():
        try:
            return run(root, said)
        except survivors.Bad as bad:
            print('tools/weak: the page has a line that is none of its form: %s' % bad, file=sys.stderr)
            return 1
    return ended(work)
