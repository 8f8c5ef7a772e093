"""Prints what the heads of crates, functions and proofs say, so that no page repeats them.

usage: tools/pages crates              each crate: what it stands on (crates.txt), and what its head says
       tools/pages heads [CRATE ..]    the whole head of each crate: what it keeps and how
       tools/pages claims [CRATE ..]   each public function with clauses: what its doc line says, and the clauses' names
       tools/pages specs [CRATE ..]    each module of definitions in its order, and what its head says
       tools/pages proofs [CRATE ..]   each file of proofs, and what its head says
       tools/pages promises            what is claimed of each run that the program does: the fields of HoldsOf, each with its sentence
"""
import os
import re
import sys

from .program import ROOT

WRONG_WORDS = 2
# the record of what is claimed of a run
PROMISES, RECORD = 'crates/run_report/specs/Claims.antt', 'pub record HoldsOf '
# how much of a head is printed, in sentences
SENTENCES = 2


def crates(root=ROOT):
    """The crates in the order of crates.txt, each with what it stands on; a comment of that file is a heading, under None."""
    with open(root + '/crates.txt', encoding='utf-8') as file:
        for line in file:
            line = line.strip()
            if line.startswith('#') and 'NAME:' not in line:
                yield None, line[1:].strip()
            elif line and not line.startswith('#'):
                name, _, below = line.partition(':')
                yield name.split(' ')[0], below.split()


def sentences(text, count=SENTENCES):
    """The first sentences of a text, on one line."""
    return ' '.join(re.split(r'(?<=[.:]) (?=[A-Z`])', ' '.join(text.split()))[:count])


def head(path, mark, whole=False):
    """The comment at a file's top, whose lines begin with this mark; of a crate its first paragraph, or the whole."""
    lines = []
    with open(path, encoding='utf-8') as file:
        for line in file:
            if not line.startswith(mark):
                break
            lines.append(line[len(mark):].strip())
    if mark == '--':
        return ' '.join(lines).strip()
    return '\n'.join(lines) if whole else '\n'.join(lines).split('\n\n')[0]


def crate_head(crate, whole=False):
    for name in ('lib.rt', 'main.rt'):
        path = '%s/crates/%s/src/%s' % (ROOT, crate, name)
        if os.path.exists(path):
            return head(path, '//!', whole)
    return ''


def files_below(folder, ending):
    for at, _, names in sorted(os.walk(folder)):
        for name in sorted(names):
            if name.endswith(ending):
                yield os.path.join(at, name)


def functions(path):
    """Each public function of a file that has clauses: its name with its type, its doc, and the clauses' names."""
    doc, of, name, clauses = [], '', None, []
    with open(path, encoding='utf-8') as file:
        for line in file:
            text = line.strip()
            if name is None:
                if text.startswith('///'):
                    doc.append(text[3:].strip())
                    continue
                block = re.match(r'(?:impl|(?:pub )?trait)(?:<.*?>)? (?:.* for )?(\w+)', text)
                if block and not line.startswith(' '):
                    of = block[1] + '::'
                elif line.startswith('}'):
                    of = ''
                found = re.match(r'pub (?:const )?fn (\w+)', text)
                if found:
                    name, clauses = of + found[1], []
                elif text and not text.startswith(('#', '//')):
                    doc = []
            if name is not None:
                clause = re.match(r'ensures (?:(\w+) )?\{', text)
                if clause:
                    clauses.append(clause[1] or 'the clause')
                if text in ('{', '{}', ';') or (text.endswith('{') and not text.startswith(('ensures', 'requires'))) or text.endswith(';'):
                    if clauses:
                        yield name, ' '.join(doc), clauses
                    doc, name = [], None


def print_crates(words):
    for crate, below in crates():
        if crate is None:
            print('\n%s\n' % (below[0].upper() + below[1:]))
        else:
            print('%s (%s)\n    %s' % (crate, ', '.join(below) or 'on nothing', sentences(crate_head(crate))))
    return 0


def print_heads(words):
    for crate, _ in crates():
        if crate is not None and (not words or crate in words):
            print('\n%s\n' % crate)
            print(crate_head(crate, whole=True))
    return 0


def print_claims(words):
    for crate, _ in crates():
        if crate is None or (words and crate not in words):
            continue
        found = [it for path in files_below('%s/crates/%s/src' % (ROOT, crate), '.rt') for it in functions(path)]
        if found:
            print('\n%s\n' % crate)
        for name, doc, clauses in found:
            print('%s: %s\n    %s' % (name, ', '.join(clauses), sentences(doc)))
    return 0


def modules(crate):
    """The modules of a crate's definitions, in the order of its Lib.antt; none where it has no definitions."""
    path = '%s/crates/%s/specs/Lib.antt' % (ROOT, crate)
    if not os.path.exists(path):
        return []
    with open(path, encoding='utf-8') as file:
        return re.findall(r'^(?:pub )?mod (\w+)$', file.read(), re.M)


def print_specs(words):
    for crate, _ in crates():
        if crate is None or (words and crate not in words) or not modules(crate):
            continue
        print('\n%s\n' % crate)
        for name in modules(crate):
            print('%s\n    %s' % (name, sentences(head('%s/crates/%s/specs/%s.antt' % (ROOT, crate, name), '--'))))
    return 0


def print_proofs(words):
    for crate, _ in crates():
        folder = '%s/crates/%s/proofs' % (ROOT, crate)
        if crate is None or (words and crate not in words) or not os.path.isdir(folder):
            continue
        print('\n%s\n' % crate)
        for path in files_below(folder, '.antt'):
            said = sentences(head(path, '--'))
            if said:
                print('%s\n    %s' % (os.path.relpath(path, folder)[:-len('.antt')], said))
    return 0


def promises():
    """Each field of HoldsOf with the sentence above it; a field without one of its own belongs to the sentence before."""
    with open(os.path.join(ROOT, PROMISES), encoding='utf-8') as file:
        record = file.read().split('\n' + RECORD)[1].split('\n\n')[0]
    said, is_new = [], True
    for line in record.split('\n')[1:]:
        field = re.match(r'  pub (\w+) : ', line)
        if field:
            yield field[1], ' '.join(said)
            is_new = True
        elif line.startswith('  -- '):
            said = [line[5:]] if is_new else said + [line[5:]]
            is_new = False


def print_promises(words):
    for field, said in promises():
        print('%s\n    %s' % (field, said))
    return 0


PRINTING = {'promises': print_promises, 'crates': print_crates, 'heads': print_heads, 'claims': print_claims, 'specs': print_specs, 'proofs': print_proofs}


def main(words):
    if not words or words[0] not in PRINTING:
        print(__doc__.strip(), file=sys.stderr)
        return WRONG_WORDS
    known = [crate for crate, _ in crates() if crate]
    for word in words[1:]:
        if word not in known:
            print('tools/pages: %s is no crate' % word, file=sys.stderr)
            return WRONG_WORDS
    return PRINTING[words[0]](words[1:])
