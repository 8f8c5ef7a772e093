"""The rules' own words, out of the pages that have them."""
import re

from ..program import ROOT

# where each has its rules, below the top; a crate's head is a page as well
PAGES = {'script': 'docs/SCRIPT.md', 'audit': 'docs/AUDIT.md', 'state': 'docs/STATE.md', 'observation': 'crates/observed_text/src/lib.rt'}


def row(of, rule):
    """The cells of a rule's row, behind its number; None where the page has none."""
    with open('%s/%s' % (ROOT, PAGES[of]), encoding='utf-8') as page:
        for line in page:
            cells = [re.sub(r'\[([^]]*)\]\([^)]*\)', r'\1', cell.strip()) for cell in line.removeprefix('//! ').strip().strip('|').split('|')]
            if len(cells) > 1 and cells[0] == str(rule):
                return cells[1:]
    return None


def explained(of, rule):
    """The rule's whole text, as lines."""
    cells = row(of, rule)
    if cells is None:
        return None
    if of == 'script':
        return ['rule %d of a script: a line breaks it where %s' % (rule, cells[0])] + (['most often it is: %s' % cells[1]] if cells[1:] and cells[1] else [])
    if of == 'audit':
        return ['rule %d of an audit: a line is refused where %s' % (rule, cells[0]), 'what that would mean: %s' % cells[1]]
    if of == 'observation':
        return ['rule %d of an observation: a line is refused where %s' % (rule, cells[0])]
    return ['rule %d of a state file: it is broken where %s' % (rule, cells[0])]
