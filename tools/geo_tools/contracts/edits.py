"""Tries the edits of edits/NAME: wrong bodies of a crate, each of which the prover has to refuse.

An edit that was refused is tried again only where something changed that its verdict stands on: the toolchain, the edit, the crate's own code,
definitions and proofs, and of the crates below it their definitions, lemmas, and code without the bodies of functions. Verdicts are kept
in .built/edits.json of this checkout, of each edit the last four. Beside that the toolchain keeps its own for all checkouts of a machine, by all
files of the crates below. What is tried begins with what `rt check` left in this checkout, and with the libraries that it left of the crates
below; those that it did not are proved first, which is said, and takes an hour for all.
"""
import argparse
import collections
import glob
import json
import os
import re
import shutil
import sys
import tempfile
import time

from ..command import ended
from ..program import ROOT
from . import toolchain
from .files import locked, read, replace
from .sums import CODE, DEFINITIONS, PROOFS, Crates, sum_of

KEPT = os.path.join('.built', 'edits.json')
# how many verdicts of one edit are kept: checkouts that share a file may stand at different texts
VERDICTS_EACH = 4
# what the toolchain says of an edit, by the words that it begins with; whatever else it says, nothing is known
REFUSED, MISSED, BAD, UNTRIED = 'refused', 'NOT REFUSED', 'BAD', 'NOT TRIED'
SAID = {'refused, as it must be': REFUSED, 'NOT REFUSED': MISSED, 'BAD EDIT': BAD}
LINE = re.compile(r'rt: must-fail (\w+)/(\S+)\.edit: (.*)')
# the refusals that show little: by a limit of the prover, and by a name that a proof file lacks then
SHOWS_LITTLE = '(only '
# the statuses, beside those of every command: where an edit was not tried, and where one is not refused
NOT_TRIED, NOT_REFUSED = 71, 72
EPILOG = ('The status is 0 where all were refused; 71 where one could not be tried; 72 where one is not refused, or cannot be applied or read; '
          '2 for wrong words; 69 without a toolchain.')

Edit = collections.namedtuple('Edit', 'crate name text')
Verdict = collections.namedtuple('Verdict', 'kind said')


def edits_of(root, crate):
    """The edits of a crate, in the order of their names."""
    paths = sorted(glob.glob(os.path.join(glob.escape(root), 'edits', crate, '*.edit')))
    return [Edit(crate, os.path.basename(path)[:-len('.edit')], read(path)) for path in paths]


class Kept:
    """The verdicts of earlier calls: refusals, each by the sum of what it stands on."""

    def __init__(self, path):
        self.path, self.lost = path, None
        self.known = self._read()

    def _read(self):
        try:
            known = json.loads(read(self.path))
            return {name: [(found, said) for found, said in rows] for name, rows in known.items()}
        except FileNotFoundError:
            return {}
        except (OSError, ValueError, TypeError, AttributeError) as error:
            self.lost = '%s cannot be read as verdicts, so none are kept: %s' % (self.path, error)
            return {}

    def verdict(self, edit, of):
        """What is known of an edit whose verdict stands on what this is the sum of; else None."""
        rows = self.known.get('%s/%s' % edit[:2], [])
        return next((Verdict(REFUSED, said) for found, said in rows if found == of), None)

    def keep(self, refused):
        """Adds refusals, by edit and sum, to what the file holds by now."""
        with locked(self.path + '.lock'):
            self.known = self._read()
            for (edit, of), said in refused.items():
                rows = self.known.setdefault('%s/%s' % edit[:2], [])
                rows[:] = [(of, said), *(row for row in rows if row[0] != of)][:VERDICTS_EACH]
            replace(self.path, json.dumps(self.known, indent=0, sort_keys=True) + '\n')


def verdict_of(said):
    """The verdict in what the toolchain says of an edit."""
    return Verdict(next((kind for words, kind in SAID.items() if said.startswith(words)), UNTRIED), said)


def libraries(crates, edits):
    """The crates below those of the edits, and which of them have no library here: the toolchain marks the one that its checks made."""
    below = {it for edit in edits for it in crates.below(edit.crate)}
    return below, [it for it in crates.stands_on if it in below and not os.path.exists(os.path.join(crates.folder(it), 'out', 'rlib', 'stamp'))]


def lay_out(room, crates, edits):
    """Copies what a try of these edits reads: their crates, those below, what was proved of both, and the edits where the toolchain looks."""
    tried = {edit.crate for edit in edits}
    needed = tried | libraries(crates, edits)[0]
    lines = read(os.path.join(crates.root, 'crates.txt')).split('\n')
    with open(os.path.join(room, 'crates.txt'), 'w', encoding='utf-8') as file:
        file.write(''.join(line + '\n' for line in lines if re.split('[ :]', line)[0] in needed))
    shutil.copy2(os.path.join(crates.root, 'HANDLES'), room)
    for name in needed:
        for part in (CODE, DEFINITIONS, PROOFS, 'out/rlib', *(['out/incremental'] if name in tried else [])):
            if os.path.isdir(os.path.join(crates.folder(name), part)):
                shutil.copytree(os.path.join(crates.folder(name), part), os.path.join(room, 'crates', name, part), symlinks=True)
    for edit in edits:
        path = os.path.join(room, 'crates', edit.crate, 'must-fail', edit.name + '.edit')
        os.makedirs(os.path.dirname(path), exist_ok=True)
        with open(path, 'w', encoding='utf-8') as file:
            file.write(edit.text)


class Tries:
    """The edits of a repository, and what is known of each."""

    def __init__(self, root, kept):
        self.crates, self.kept, self.toolchain = Crates(root), kept, toolchain.version()

    def sum(self, edit, crates=None):
        """The sum of all that the verdict on an edit stands on."""
        return sum_of((crates or self.crates).whole(edit.crate, self.toolchain), edit.text)

    def known(self, edits):
        """The verdicts that are kept."""
        found = {edit: self.kept.verdict(edit, self.sum(edit)) for edit in edits}
        return {edit: verdict for edit, verdict in found.items() if verdict}

    def tried(self, edits, is_anew):
        """The verdict of the toolchain on each; keeps the refusals, by what stood in the copy that was tried."""
        found = dict.fromkeys(edits, Verdict(UNTRIED, 'the toolchain said nothing of it'))
        by_name = {edit[:2]: edit for edit in edits}
        lacking = libraries(self.crates, edits)[1]
        if lacking:
            print('proved first, for this call alone, unless the toolchain keeps them: %s (`rt check` above them leaves their libraries here)'
                  % ' '.join(lacking), flush=True)
        with tempfile.TemporaryDirectory(prefix='geo-edits-') as room:
            lay_out(room, self.crates, edits)
            copied = Crates(room)
            sums = {edit: self.sum(edit, copied) for edit in edits}
            for line in toolchain.lines(['must-fail', *(['--anew'] if is_anew else []), *dict.fromkeys(edit.crate for edit in edits)], room):
                said = LINE.fullmatch(line)
                edit = said and by_name.get((said[1], said[2]))
                if edit:
                    found[edit] = verdict_of(said[3])
                else:
                    print('    ' + line, flush=True)
        self.kept.keep({(edit, sums[edit]): verdict.said for edit, verdict in found.items() if verdict.kind == REFUSED})
        return found


def told(known, tried):
    """Prints what the verdicts come to, and gives the status."""
    for edit, verdict in sorted(tried.items()):
        print('%s %s/%s: %s' % (verdict.kind, edit.crate, edit.name, verdict.said))
    for edit, verdict in sorted(known.items()):
        if SHOWS_LITTLE in verdict.said:
            print('kept %s/%s: %s' % (edit.crate, edit.name, verdict.said))
    count = collections.Counter(verdict.kind for verdict in tried.values())
    little = sum(SHOWS_LITTLE in verdict.said for verdict in [*known.values(), *tried.values()] if verdict.kind == REFUSED)
    print('%d edits: %d refused (%d kept, %d tried now; %d of them show little), %d not refused, %d bad, %d not tried' % (
        len(known) + len(tried), len(known) + count[REFUSED], len(known), count[REFUSED], little, count[MISSED], count[BAD], count[UNTRIED]))
    return NOT_REFUSED if count[MISSED] or count[BAD] else NOT_TRIED if count[UNTRIED] else 0


def arguments():
    parser = argparse.ArgumentParser(prog='tools/edits', description=__doc__, epilog=EPILOG, formatter_class=argparse.RawDescriptionHelpFormatter)
    parser.add_argument('names', metavar='NAME', nargs='*', help='a crate with edits; without one, all of them')
    parser.add_argument('--anew', action='store_true', help='tries all, whatever is kept')
    parser.add_argument('--kept', metavar='FILE', help='the file of the verdicts (%s); checkouts may share one' % KEPT)
    return parser


def run(root, names, kept, is_anew):
    """Tries the edits of these crates; gives the status."""
    if kept.lost:
        print('tools/edits: ' + kept.lost, file=sys.stderr)
    tries, began = Tries(root, kept), time.time()
    edits = [edit for name in names for edit in edits_of(root, name)]
    lost = {edit: Verdict(BAD, 'crates.txt has no crate of this name') for edit in edits if edit.crate not in tries.crates.stands_on}
    known = {} if is_anew else tries.known([edit for edit in edits if edit not in lost])
    new = [edit for edit in edits if edit not in known and edit not in lost]
    for name in names:
        count = collections.Counter(edit in known for edit in edits if edit.crate == name)
        print('%s: %d kept%s' % (name, count[True], ', %d to try' % count[False] if count[False] else ''), flush=True)
    status = told(known, {**lost, **(tries.tried(new, is_anew) if new else {})})
    print('tools/edits: %.0f seconds' % (time.time() - began))
    return status


def main(words, root=ROOT):
    parser = arguments()
    said = parser.parse_args(words)
    there = sorted(name for name in os.listdir(os.path.join(root, 'edits')) if edits_of(root, name))
    for name in said.names:
        if name not in there:
            parser.error('%s has no edits: edits/%s/*.edit' % (name, name))
    names = [name for name in there if name in said.names or not said.names]
    return ended(lambda: run(root, names, Kept(said.kept or os.path.join(root, KEPT)), said.anew))
