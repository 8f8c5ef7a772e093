"""The crates of a repository, and the sums by which it is known whether what a verdict stands on has changed.

A verdict on a crate stands on the toolchain, on all of the crate's own code, definitions and proofs, and on what the crates below it show:
their code without the bodies of functions, their definitions, and their lemmas. A check of a crate reads no body of a function below, nor
the proof of one, so a change there changes no verdict: the library that the toolchain builds for the crates above has no body either.
"""
import hashlib
import os
import re

from ..pages import crates, files_below
from .files import read

# the folders of a crate that a proof reads
CODE, DEFINITIONS, PROOFS = 'src', 'specs', 'proofs'
# the proof of one function stands in files of these names
OF_A_FUNCTION = ('Answers.antt', 'Invariants.antt', 'Proof.antt')
# the line with which a function begins whose body nobody above reads; that of a constant one may be read, and is left
FUNCTION = re.compile(r'( *)(?:pub(?:\([\w:, ]+\))? )?(?:unsafe )?fn ')
CLAUSE = re.compile(r' *(?:requires|ensures|ghost)\b')
COMMENT = re.compile(r' *--( |$)')
# the form of a sum: where another number stands here, all sums are others
FORM = 'sums 1'


def without_bodies(text):
    """A file of code in the layout of `rt fmt`, without comments and bodies of functions; the file as it is where a macro writes code, or
    where the layout is another one."""
    if 'macro_rules!' in text:
        return text
    # `indent` is that of the function whose head or body is read, `is_body` says which, and `open_clause` is how deep in a clause
    shown, indent, is_body, open_clause = [], None, False, 0
    for line in text.split('\n'):
        if is_body:
            if line == indent + '}':
                indent, is_body = None, False
            continue
        if not line.strip() or line.lstrip().startswith('//'):
            continue
        shown.append(line)
        begins = FUNCTION.match(line)
        if begins and indent is not None:
            return text
        if begins:
            indent = begins[1]
        if indent is None:
            continue
        is_clause = open_clause > 0 or CLAUSE.match(line)
        if is_clause:
            open_clause += line.count('{') - line.count('}')
        else:
            is_body = line.endswith('{')
        if open_clause == 0 and line.endswith(';' if is_clause else (';', '{}')):
            indent = None
    return '\n'.join(shown) if indent is None else text


def without_comments(text):
    """A file of definitions or lemmas, without the comments that have lines of their own."""
    return '\n'.join(line for line in text.split('\n') if line.strip() and not COMMENT.match(line))


def sum_of(*parts):
    """One sum of texts, each told from the next."""
    made = hashlib.sha256()
    for part in (FORM, *parts):
        raw = part.encode()
        made.update(b'%d:' % len(raw) + raw)
    return made.hexdigest()


class Crates:
    """The crates of a repository, by its crates.txt; each is read once."""

    def __init__(self, root):
        self.root, self.shows, self.wholes = root, {}, {}
        self.stands_on = {name: below for name, below in crates(root) if name is not None}

    def folder(self, name):
        return os.path.join(self.root, 'crates', name)

    def below(self, name):
        """The crates of the repository that one stands on, by way of others too, in the order of crates.txt."""
        found, new = set(), {name}
        while new:
            found |= new
            new = {it for known in new for it in self.stands_on[known] if it in self.stands_on} - found
        return [it for it in self.stands_on if it in found - {name}]

    def files(self, name, *folders):
        """The paths of the files in these folders of a crate."""
        return [path for folder in folders for path in files_below(os.path.join(self.folder(name), folder), '')]

    def shown(self, name):
        """A sum of what a crate shows to those above it."""
        if name not in self.shows:
            parts = [name, *self.stands_on[name]]
            for path in self.files(name, CODE):
                parts += [self._inside(name, path), without_bodies(read(path))]
            lemmas = [path for path in self.files(name, PROOFS) if os.path.basename(path) not in OF_A_FUNCTION]
            for path in [*self.files(name, DEFINITIONS), *lemmas]:
                parts += [self._inside(name, path), without_comments(read(path))]
            self.shows[name] = sum_of(*parts)
        return self.shows[name]

    def _inside(self, name, path):
        return os.path.relpath(path, self.folder(name))

    def shown_with_below(self, name):
        """A sum of what a crate shows, and of what those below it do."""
        return sum_of(*(self.shown(it) for it in [*self.below(name), name]))

    def whole(self, name, toolchain):
        """A sum of all that a verdict of this toolchain on a crate, or on an edit of it, stands on."""
        if (name, toolchain) not in self.wholes:
            handles = os.path.join(self.root, 'HANDLES')
            parts = [toolchain, read(handles) if os.path.exists(handles) else '', name, *self.stands_on[name]]
            for path in self.files(name, CODE, DEFINITIONS, PROOFS):
                parts += [self._inside(name, path), read(path)]
            self.wholes[name, toolchain] = sum_of(*parts, *(self.shown(it) for it in self.below(name)))
        return self.wholes[name, toolchain]
