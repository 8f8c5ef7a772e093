"""tools/edits and tools/weak, on a small repository and with a stand-in for the toolchain, which says what a file has it say."""
import io
import os
import subprocess
import tempfile
import unittest
from contextlib import redirect_stderr, redirect_stdout
from unittest import mock

from geo_tools.contracts import edits, files, plants, sums, survivors, weak
from geo_tools.contracts.plants import Survivor
from geo_tools.program import ROOT

# answers of the toolchain are files beside it: NAME.edit.said, CRATE.planted; what it was called for stands in `calls`
RT = r'''#!/bin/sh
here=$(dirname "$0")
case $1 in
version) cat "$here/version" ;;
must-fail)
    echo "$*" >>"$here/calls"
    [ -e "$here/dies" ] && kill -9 $$
    [ -e "$here/stops" ] && { echo 'rt: there is no room'; exit 2; }
    echo 'rt: some progress'
    for edit in crates/*/must-fail/*.edit; do
        name=$(basename "$edit")
        crate=$(basename "$(dirname "$(dirname "$edit")")")
        [ -e "$here/$name.said" ] && echo "rt: must-fail $crate/$name: $(cat "$here/$name.said")"
    done
    exit 1 ;;
plant)
    echo "$* in $(basename "$PWD")" >>"$here/calls"
    [ -e "$here/dies" ] && kill -9 $$
    cat "$here/$(basename "$PWD").planted" ;;
esac
'''

CODE = '''//! A counter.
use low::Low;

/// One more.
pub fn more(n: u64) -> u64
    requires { n < 9 }
    ensures grows { result ≡ n + 1 }
    ensures long { (a : Thing)
        → Leads { a } }
{
    if n == 0 {
        return 1;
    }
    n + 1
}

trait Counts {
    /// How many.
    fn count(&self) -> u64
        ensures { result ≡ 1 };

    fn none(&self) {}

    fn two(
        &self,
        most: u64,
    ) -> u64 {
        2
    }
}

const MOST: u64 = 9;
'''
SHOWN = '''use low::Low;
pub fn more(n: u64) -> u64
    requires { n < 9 }
    ensures grows { result ≡ n + 1 }
    ensures long { (a : Thing)
        → Leads { a } }
{
trait Counts {
    fn count(&self) -> u64
        ensures { result ≡ 1 };
    fn none(&self) {}
    fn two(
        &self,
        most: u64,
    ) -> u64 {
}
const MOST: u64 = 9;'''

REFUSED = 'refused, as it must be: src/lib.rt:5:1: error: `grows` is not proved'
MISSED = 'NOT REFUSED: the crate is still proved with this edit'
LIMIT = 'refused, as it must be (only by a limit of the prover): src/lib.rt:5:1: error'

WHOLE = '''rt: checking the crate as it stands
proves      src/lib.rt:5 more: { 0 }
proves      src/lib.rt:9 <Ones as Counts<u64>>::count: { Self { a: { 1 } } }  (and in 3 more impls)
proves      src/lib.rt:12 made: { Err(Memory) }
proves      src/lib.rt:15 ready: { Err(RunFault::Part(Fault::Memory)) }
refused     src/lib.rt:5 more: { 1 }  (grows)
no-ensures  src/lib.rt:20 Ones::look()
untested    src/lib.rt:30 hard()
note: 1 functions have a proof by hand, where a refusal by the tactics says little
plants crate=high planted-in=3 untested=1 no-ensures=1 proves=4 same=0 refused=1 elsewhere=0 not-judged=0 not-source=1 not-run=0
'''
CUT = '''proves      src/lib.rt:6 more: { 7 }
untested    src/lib.rt:30 hard()
untested    src/lib.rt:40 others()
note: some plants may not have been tried: raise --max or --minutes, or give --only
plants crate=high planted-in=3 untested=2 no-ensures=0 proves=1 same=0 refused=0 elsewhere=0 not-judged=0 not-source=1 not-run=9
'''
ROWS = [Survivor('proves', 'src/lib.rt', 'more', '{ 0 }'), Survivor('proves', 'src/lib.rt', '<Ones as Counts<u64>>::count', '{ Self { a: { 1 } } }'),
        Survivor('no-ensures', 'src/lib.rt', 'Ones::look', ''), Survivor('untested', 'src/lib.rt', 'hard', '')]


def write(path, text):
    os.makedirs(os.path.dirname(path), exist_ok=True)
    with open(path, 'w', encoding='utf-8') as file:
        file.write(text)


class Repository(unittest.TestCase):
    """Three crates: `high` on `low`, and `apart`; with a toolchain in the path that says what is written for it."""

    def setUp(self):
        room = tempfile.TemporaryDirectory()
        self.addCleanup(room.cleanup)
        self.root, self.kit = room.name + '/top', room.name + '/kit'
        self.write('crates.txt', '# NAME: the crates it stands on\nlow: std_thing\nhigh may_wait=1: low\napart:\n')
        self.write('HANDLES', 'Handles allowed: none.\n')
        for name in ('low', 'high', 'apart'):
            self.write('crates/%s/src/lib.rt' % name, CODE)
            self.write('crates/%s/specs/Lib.antt' % name, '-- A head.\npub mod Counts\n')
            self.write('crates/%s/proofs/more/Answers.antt' % name, 'grows = omega\n')
            self.write('crates/%s/proofs/Lib.antt' % name, 'pub mod Lemma\n')
        for name, text in (('version', 'kit 1'), ('calls', '')):
            write('%s/%s' % (self.kit, name), text + '\n' * bool(text))
        write(self.kit + '/rt', RT)
        os.chmod(self.kit + '/rt', 0o755)
        path = mock.patch.dict(os.environ, PATH='%s:%s' % (self.kit, os.environ['PATH']))
        path.start()
        self.addCleanup(path.stop)

    def write(self, path, text):
        write('%s/%s' % (self.root, path), text)

    def says(self, name, text):
        """Has the toolchain say this of an edit or a crate."""
        write('%s/%s' % (self.kit, name), text)

    def calls(self):
        """What the toolchain was called for since the last look."""
        with open(self.kit + '/calls', encoding='utf-8') as file:
            found = file.read().split('\n')[:-1]
        write(self.kit + '/calls', '')
        return found

    def said(self, tool, *words):
        """The status of a tool, and what it printed."""
        out, err = io.StringIO(), io.StringIO()
        with redirect_stdout(out), redirect_stderr(err):
            status = tool.main(list(words), self.root)
        return status, out.getvalue() + err.getvalue()


class Sums(Repository):
    def test_what_is_shown_has_no_bodies(self):
        self.assertEqual(sums.without_bodies(CODE), SHOWN)
        # where a macro writes code, or the layout is none that is known, all counts
        for text in ('macro_rules! one {\n}\nfn f() {\n    1\n}\n', 'fn f() -> u64 { 1 }\nfn g() {\n    1\n}\n', 'fn f() {\n    1\n  }\n'):
            self.assertEqual(sums.without_bodies(text), text)
        self.assertIn('1', sums.without_bodies('pub const fn f() -> u64 {\n    1\n}\n'))

    def test_below(self):
        self.write('crates.txt', 'low:\nhigh: low\napart: std_thing\ntop: high\n')
        crates = sums.Crates(self.root)
        self.assertEqual([crates.below(name) for name in ('top', 'high', 'apart')], [['low', 'high'], ['low'], []])

    def changed(self, path, text):
        """Whether a change is seen: in the whole of `low`, `high` and `apart`, and in what `high` and those below it show."""
        before = self.all_sums()
        with open('%s/%s' % (self.root, path), encoding='utf-8') as file:
            stood = file.read()
        self.write(path, text)
        after = self.all_sums()
        self.write(path, stood)
        return [one != other for one, other in zip(before, after)]

    def all_sums(self):
        crates = sums.Crates(self.root)
        return [*(crates.whole(name, 'kit 1') for name in ('low', 'high', 'apart')), crates.shown_with_below('high')]

    def test_what_a_change_touches(self):
        body, comment = CODE.replace('n + 1\n}', '1 + n\n}'), CODE.replace('One more', 'Another')
        clause = CODE.replace('result ≡ n + 1', 'result ≡ n + 2')
        self.assertNotIn(CODE, (body, comment, clause))
        for path, text, seen in (
                ('crates/low/src/lib.rt', body, [True, False, False, False]),
                ('crates/low/src/lib.rt', comment, [True, False, False, False]),
                ('crates/low/proofs/more/Answers.antt', 'grows = grind\n', [True, False, False, False]),
                ('crates/low/src/lib.rt', clause, [True, True, False, True]),
                ('crates/low/specs/Lib.antt', '-- A head.\npub mod Counted\n', [True, True, False, True]),
                ('crates/low/specs/Lib.antt', '-- Another head.\npub mod Counts\n', [True, False, False, False]),
                ('crates/low/proofs/Lib.antt', 'pub mod Lemmas\n', [True, True, False, True]),
                ('crates/high/src/lib.rt', body, [False, True, False, False]),
                ('crates/high/src/lib.rt', clause, [False, True, False, True]),
                ('crates/apart/src/lib.rt', clause, [False, False, True, False]),
                ('HANDLES', 'Handles allowed: Wait.\n', [True, True, True, False]),
                ('crates.txt', 'low: std_other\nhigh: low\napart:\n', [True, True, False, True])):
            with self.subTest(path=path, text=text[-40:]):
                self.assertEqual(self.changed(path, text), seen)

    def test_all_bodies_of_this_repository_are_seen(self):
        crates = sums.Crates(ROOT)
        for name in crates.stands_on:
            for path in crates.files(name, sums.CODE):
                text = files.read(path)
                lines = sums.without_bodies(text).split('\n')
                with self.subTest(path):
                    self.assertEqual(sum(bool(sums.FUNCTION.match(it)) for it in lines), sum(bool(sums.FUNCTION.match(it)) for it in text.split('\n')))
                    self.assertTrue('macro_rules!' in text or not any(it.lstrip().startswith('let ') for it in lines))


class Edits(Repository):
    def setUp(self):
        super().setUp()
        for crate, name in (('low', 'wrong'), ('high', 'one'), ('high', 'two')):
            self.write('edits/%s/%s.edit' % (crate, name), 'file: src/lib.rt\nold:     n + 1\nnew:     n + 2\n')
            self.says(name + '.edit.said', REFUSED)

    def counted(self, *words):
        """The status, and the line that counts."""
        status, out = self.said(edits, *words)
        return status, next(line for line in out.split('\n') if ' edits: ' in line)

    def test_each_is_tried_once(self):
        self.assertEqual(self.counted(), (0, '3 edits: 3 refused (0 kept, 3 tried now; 0 of them show little), 0 not refused, 0 bad, 0 not tried'))
        self.assertEqual(self.calls(), ['must-fail high low'])
        self.assertEqual(self.counted(), (0, '3 edits: 3 refused (3 kept, 0 tried now; 0 of them show little), 0 not refused, 0 bad, 0 not tried'))
        self.assertEqual(self.calls(), [])
        self.assertEqual(self.counted('--anew', 'low')[1], '1 edits: 1 refused (0 kept, 1 tried now; 0 of them show little), 0 not refused, 0 bad, 0 not tried')
        self.assertEqual(self.calls(), ['must-fail --anew low'])

    def test_again_where_something_changed(self):
        self.counted()
        self.calls()
        for path, text, tried in (
                ('crates/low/src/lib.rt', CODE.replace('n + 1\n}', '1 + n\n}'), ['must-fail low']),
                ('crates/low/specs/Lib.antt', 'pub mod Counted\n', ['must-fail high low']),
                ('edits/high/two.edit', 'file: src/lib.rt\nold:     n + 1\nnew:     n + 3\n', ['must-fail high']),
                ('crates/apart/src/lib.rt', '', [])):
            self.write(path, text)
            with self.subTest(path):
                self.assertEqual(self.counted()[0], 0)
                self.assertEqual(self.calls(), tried)
        self.says('version', 'kit 2\n')
        self.assertIn('(0 kept, 3 tried now', self.counted()[1])

    def test_only_the_changed_edit_is_tried(self):
        self.counted()
        self.write('edits/high/two.edit', 'file: src/lib.rt\nold:     n + 1\nnew:     n + 3\n')
        status, out = self.said(edits)
        self.assertEqual(status, 0)
        self.assertIn('high: 1 kept, 1 to try\nlow: 1 kept\n', out)
        self.assertIn('\nrefused high/two: ' + REFUSED, out)
        self.assertNotIn('high/one', out)

    def test_one_that_is_not_refused_fails_each_time(self):
        self.says('one.edit.said', MISSED)
        for known in (0, 2):
            status, out = self.said(edits)
            self.assertEqual(status, edits.NOT_REFUSED)
            self.assertIn('NOT REFUSED high/one: ' + MISSED, out)
            self.assertIn('3 edits: 2 refused (%d kept, %d tried now; 0 of them show little), 1 not refused' % (known, 2 - known), out)

    def test_bad_and_not_tried(self):
        self.says('two.edit.said', 'BAD EDIT: an old text is in src/lib.rt 0 times, and not once')
        os.remove(self.kit + '/one.edit.said')
        status, out = self.said(edits)
        self.assertEqual(status, edits.NOT_REFUSED)
        self.assertIn('NOT TRIED high/one: the toolchain said nothing of it', out)
        self.assertIn('0 not refused, 1 bad, 1 not tried', out)
        self.says('two.edit.said', REFUSED)
        self.says('one.edit.said', 'NOT TRIED: its check was killed')
        self.assertEqual(self.counted(), (edits.NOT_TRIED, '3 edits: 2 refused (1 kept, 1 tried now; 0 of them show little), 0 not refused, 0 bad, 1 not tried'))

    def test_a_toolchain_that_comes_to_no_end(self):
        for name, said in (('stops', '    rt: there is no room\n    `rt must-fail` ended with status 2\n'), ('dies', '    `rt must-fail` was killed by signal 9\n')):
            self.says(name, '')
            with self.subTest(name):
                status, out = self.said(edits)
                self.assertEqual(status, edits.NOT_TRIED)
                self.assertIn(said, out)
                self.assertIn('3 edits: 0 refused (0 kept, 0 tried now; 0 of them show little), 0 not refused, 0 bad, 3 not tried', out)

    def test_what_shows_little_is_said_again(self):
        self.says('one.edit.said', LIMIT)
        for kept in (0, 3):
            status, out = self.said(edits)
            self.assertEqual(status, 0)
            self.assertIn('%s high/one: %s' % ('kept' if kept else 'refused', LIMIT), out)
            self.assertIn('3 refused (%d kept, %d tried now; 1 of them show little)' % (kept, 3 - kept), out)

    def test_kept_files(self):
        shared = self.kit + '/shared.json'
        self.counted('--kept', shared)
        self.assertIn('(3 kept', self.counted('--kept', shared)[1])
        # of each edit the last few
        with open(shared, encoding='utf-8') as file:
            whole = file.read()
        kept = edits.Kept(shared)
        edit = edits.edits_of(self.root, 'low')[0]
        for number in range(9):
            kept.keep({(edit, str(number)): REFUSED})
        self.assertEqual([of for of, _ in edits.Kept(shared).known['low/wrong']], ['8', '7', '6', '5'])
        write(shared, whole[:-9])
        status, out = self.said(edits, '--kept', shared)
        self.assertEqual(status, 0)
        self.assertIn('cannot be read as verdicts, so none are kept', out)
        self.assertIn('(0 kept, 3 tried now', out)

    def test_wrong_words_and_no_toolchain(self):
        with self.assertRaises(SystemExit) as ended:
            self.said(edits, 'apart')
        self.assertEqual(ended.exception.code, 2)
        with mock.patch.dict(os.environ, PATH=self.root):
            self.assertEqual(self.said(edits)[0], 69)

    def test_edits_of_no_crate(self):
        self.write('edits/gone/one.edit', '')
        status, out = self.said(edits)
        self.assertEqual(status, edits.NOT_REFUSED)
        self.assertIn('BAD gone/one: crates.txt has no crate of this name', out)

    def test_what_is_copied(self):
        self.assertIn('proved first, for this call alone, unless the toolchain keeps them: low (', self.said(edits, 'high')[1])
        self.write('crates/low/out/rlib/low.rlib', 'made')
        self.write('crates/low/out/rlib/stamp', 'made')
        self.assertNotIn('proved first', self.said(edits, 'high', '--anew')[1])
        self.write('crates/low/out/incremental/more', 'proved')
        self.write('crates/high/out/incremental/more', 'proved')
        with tempfile.TemporaryDirectory() as room:
            edits.lay_out(room, sums.Crates(self.root), edits.edits_of(self.root, 'high'))
            found = sorted(os.path.relpath(os.path.join(at, name), room) for at, _, names in os.walk(room) for name in names)
            self.assertEqual(files.read(room + '/crates.txt'), 'low: std_thing\nhigh may_wait=1: low\n')
        kept = ['crates/high/must-fail/one.edit', 'crates/high/must-fail/two.edit', 'crates/high/out/incremental/more', 'crates/low/out/rlib/low.rlib', 'crates/low/out/rlib/stamp']
        own = ['crates/%s/%s' % (name, path) for name in ('high', 'low') for path in ('src/lib.rt', 'specs/Lib.antt', 'proofs/Lib.antt', 'proofs/more/Answers.antt')]
        self.assertEqual(found, sorted(['HANDLES', 'crates.txt', *kept, *own]))


class Plants(unittest.TestCase):
    def test_whole(self):
        found = plants.planted(WHOLE.split('\n'))
        self.assertEqual((found.survivors, found.why_cut), (ROWS, ''))
        self.assertTrue(found.counts.startswith('planted-in=3 untested=1 ') and found.counts.endswith(' not-run=0 memory=2'))
        for body in ('{ Err(Fault::TooLarge) }', '{ Ok(Memory) }', '{ Err(Memory, 1) }'):
            self.assertIsNone(plants.WANT_OF_MEMORY.fullmatch(body))

    def test_cut_off(self):
        found = plants.planted(CUT.split('\n'))
        # what was not run is no survivor
        self.assertEqual(found.survivors, [Survivor('proves', 'src/lib.rt', 'more', '{ 7 }')])
        self.assertTrue(found.why_cut.startswith('some plants may not have been tried'))
        self.assertIn('the crate is not proved', plants.planted(['note: the crate is not proved, and no plant calls one', *WHOLE.split('\n')]).why_cut)

    def test_no_end(self):
        self.assertIsNone(plants.planted(['rt: nothing was planted', *ROWS[0].body]))


PAGE = '''# Survivors

Words.

## high

Planted on 2025-11-30 for 5 minutes by `kit 1`, whole, text `0123456789abcdef`: planted-in=3 not-run=0

- proves `src/lib.rt` `more` `{ 0 }`
  equal in meaning: it is none

## low

Planted on 2025-12-01 for 7 minutes by `kit 1`, cut off, text `0123456789abcdef`: planted-in=0 not-run=2
'''


class Pages(unittest.TestCase):
    def test_read_and_written(self):
        page = survivors.Page(PAGE)
        self.assertEqual(page.written(), PAGE)
        self.assertEqual(page.passes['low'], survivors.Pass('2025-12-01', 7, 'kit 1', False, '0123456789abcdef', 'planted-in=0 not-run=2'))
        self.assertEqual((page.rows['high'], page.rows['low']), ({ROWS[0]: 'equal in meaning: it is none'}, {}))

    def test_lines_of_another_form(self):
        row = '- proves `src/lib.rt` `more` `{ 0 }`\n  equal in meaning: it is none\n'
        for old, new in (
                (' `{ 0 }`', ''), ('- proves', '- untested'), ('- proves', '- refused'), ('  equal', 'equal'), ('equal in meaning: it is none', 'equal in meaning:'),
                ('equal in meaning', 'equal'), (row, row + row), (row, row + '  unread\n'), (row, row[:row.index('  ')]), ('Planted', 'planted'), (', whole', ''),
                ('## low', '## high'), (' text `0', ' text `')):
            with self.subTest(old=old, new=new):
                self.assertIn(old, PAGE)
                with self.assertRaises(survivors.Bad):
                    survivors.Page(PAGE.replace(old, new, 1))


class Weak(Repository):
    def setUp(self):
        super().setUp()
        os.mkdir(self.root + '/edits')
        self.says('high.planted', WHOLE)
        for name in ('low', 'apart'):
            self.says(name + '.planted', 'plants crate=%s planted-in=0 untested=0 proves=0 not-run=0\n' % name)

    def page(self):
        return survivors.Page(files.read(self.root + '/edits/SURVIVORS.md'))

    def give(self, *reasons):
        """Gives the survivors of `high` these reasons."""
        text = files.read(self.root + '/edits/SURVIVORS.md')
        for reason in reasons:
            text = text.replace('  unread\n', '  %s\n' % reason, 1)
        self.write('edits/SURVIVORS.md', text)

    def test_all_once_and_then_what_changed(self):
        status, out = self.said(weak, '--jobs', '1')
        self.assertEqual(status, weak.UNREAD)
        self.assertEqual(self.calls(), ['plant --all --max 10000 --minutes 5 --jobs 1 in ' + name for name in ('low', 'high', 'apart')])
        self.assertIn('high: 4 survive, 4 of them new: planted-in=3', out)
        self.assertIn('    new: proves high src/lib.rt more { 0 }\n', out)
        self.assertIn('unread: untested high src/lib.rt hard\n', out)
        self.assertIn('3 crates planted (0 cut off), 0 not planted; of these crates 4 survivors are unread; on the page 0 crates are cut off, and 0 survivors wait', out)
        self.give('equal in meaning: none asks for more than 0', 'issue: how many is not said', 'speed alone: a hint', 'shown by: an edit')
        status, out = self.said(weak)
        self.assertEqual((status, self.calls()), (0, []))
        self.assertIn('0 survivors are unread; on the page 0 crates are cut off, and 1 survivors wait for a stronger contract', out)
        self.write('crates/high/src/lib.rt', CODE.replace('n + 1\n}', '1 + n\n}'))
        self.assertEqual((self.said(weak)[0], self.calls()), (0, []))
        self.write('crates/high/src/lib.rt', CODE.replace('n < 9', 'n < 8'))
        self.says('high.planted', WHOLE.replace('more: { 0 }', 'more: { 3 }'))
        status, out = self.said(weak)
        self.assertEqual((status, self.calls()), (weak.UNREAD, ['plant --all --max 10000 --minutes 5 in high']))
        self.assertIn('    new: proves high src/lib.rt more { 3 }\n    gone: proves high src/lib.rt more { 0 }\n', out)
        # the reasons of the others stay
        self.assertEqual([*self.page().rows['high'].values()], ['unread', 'issue: how many is not said', 'speed alone: a hint', 'shown by: an edit'])

    def test_below(self):
        self.said(weak)
        self.calls()
        self.write('crates/low/specs/Lib.antt', 'pub mod Counted\n')
        self.said(weak)
        self.assertEqual([call.split(' in ')[1] for call in self.calls()], ['low', 'high'])
        self.said(weak, '--all')
        self.assertEqual(len(self.calls()), 3)
        self.said(weak, 'apart')
        self.assertEqual(len(self.calls()), 1)

    def test_cut_off(self):
        self.said(weak, 'high')
        self.give(*['issue: one'] * 4)
        self.says('high.planted', CUT)
        status, out = self.said(weak, 'high', '--minutes', '2')
        self.assertEqual(status, weak.UNREAD)
        self.assertIn('CUT OFF after 2 minutes: some plants may not have been tried', out)
        self.assertNotIn('gone:', out)
        # what was read before stays, since it was perhaps not tried
        self.assertEqual(len(self.page().rows['high']), 5)
        self.give('issue: another')
        self.assertEqual(self.said(weak, 'high', '--minutes', '2')[0], weak.NOT_WHOLE)
        self.assertIn('high: planted on', self.said(weak, '--list', '--minutes', '2')[1])
        self.assertIn('high: it was cut off after 2 minutes\n', self.said(weak, '--list')[1])
        self.calls()
        for minutes, calls in (('2', 2), ('3', 1)):
            self.said(weak, '--minutes', minutes)
            self.assertEqual(len(self.calls()), calls)

    def test_not_planted(self):
        self.says('high.planted', "rt: nothing was planted, since the crate's own check did not come to its functions\n")
        status, out = self.said(weak)
        self.assertEqual(status, weak.NOT_WHOLE)
        self.assertIn("high: NOT PLANTED, the toolchain came to no end\n    rt: nothing was planted, since", out)
        self.assertNotIn('high', self.page().passes)
        self.assertIn('2 crates planted (0 cut off), 1 not planted', out)
        self.says('dies', '')
        status, out = self.said(weak, 'low')
        self.assertEqual(status, weak.NOT_WHOLE)
        self.assertIn('low: NOT PLANTED, the toolchain came to no end\n    `rt plant` was killed by signal 9\n', out)

    def test_the_page_is_read_anew_for_each_crate(self):
        """Who gives reasons while crates are planted loses none; where the page cannot be read then, nothing is lost either."""
        self.said(weak)
        self.give('issue: one')
        seen = []
        real = plants.plant

        def plant(folder, minutes, jobs):
            if not seen:
                self.give('issue: two')
            seen.append(folder)
            return real(folder, minutes, jobs)
        with mock.patch.object(plants, 'plant', plant):
            self.said(weak, '--all')
        self.assertEqual([*self.page().rows['high'].values()], ['issue: one', 'issue: two', 'unread', 'unread'])
        self.write('crates/high/specs/Lib.antt', 'pub mod Counted\n')
        self.says('high.planted', WHOLE.replace('more: { 0 }', 'more: { 3 }'))
        seen.clear()
        with mock.patch.object(plants, 'plant', lambda *words: (self.give('because'), real(*words))[1]):
            status, out = self.said(weak)
        self.assertEqual(status, weak.UNREAD)
        self.assertIn('high: NOT PLANTED, for the page has a line that is none of its form', out)
        self.assertIn('    proves high src/lib.rt more { 3 }\n', out)

    def test_list(self):
        status, out = self.said(weak, '--list')
        self.assertEqual((status, self.calls()), (weak.NOT_WHOLE, []))
        self.assertIn('low: it never was\nhigh: it never was\napart: it never was\n', out)
        self.said(weak)
        self.assertEqual(self.said(weak, '--list')[0], weak.UNREAD)
        self.give(*['issue: one'] * 4)
        self.assertEqual(self.said(weak, '--list')[0], 0)

    def test_what_is_no_crate_any_more(self):
        self.said(weak)
        self.write('crates.txt', 'low: std_thing\nhigh: low\n')
        self.assertIn('apart: it is no crate any more, and its 0 survivors are left out', self.said(weak, 'low')[1])
        self.assertNotIn('apart', self.page().passes)

    def test_lines_of_another_form(self):
        self.said(weak)
        for wrong in ('because', 'equal in meaning: ', 'shown by: a test'):
            self.give(wrong)
            with self.subTest(wrong):
                status, out = self.said(weak, '--list')
                self.assertEqual(status, 1)
                self.assertIn('the page has a line that is none of its form: high: - proves', out)
            self.write('edits/SURVIVORS.md', files.read(self.root + '/edits/SURVIVORS.md').replace('  %s\n' % wrong, '  unread\n'))

    def test_wrong_words_and_no_toolchain(self):
        for words in (['other'], ['--minutes', '0'], ['--jobs', 'x']):
            with self.subTest(words), self.assertRaises(SystemExit) as ended:
                self.said(weak, *words)
            self.assertEqual(ended.exception.code, 2)
        with mock.patch.dict(os.environ, PATH=self.root):
            self.assertEqual(self.said(weak)[0], 69)


class Stored(unittest.TestCase):
    def test_the_page_is_in_its_form(self):
        text = files.read(os.path.join(ROOT, weak.PAGE))
        page = survivors.Page(text)
        self.assertEqual(page.written(), text)
        self.assertEqual([name for name in page.passes if name not in sums.Crates(ROOT).stands_on], [])

    def test_each_folder_of_edits_is_of_a_crate(self):
        crates = sums.Crates(ROOT).stands_on
        self.assertEqual([name for name in os.listdir(ROOT + '/edits') if '.' not in name and name not in crates], [])

    def test_the_tools_are_called(self):
        for name in ('edits', 'weak'):
            done = subprocess.run([os.path.join(ROOT, 'tools', name), '--help'], stdout=subprocess.PIPE, text=True, check=False)
            self.assertEqual(done.returncode, 0)
            self.assertIn('usage: tools/' + name, done.stdout)


if __name__ == '__main__':
    unittest.main()
