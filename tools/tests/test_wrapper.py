"""./geo around the program: files, statuses, words of its own, and what it says on standard error."""
import json
import os
import shutil
import subprocess
import tempfile
import unittest

from geo_tools.program import ROOT, built_program

ONE = 'examples/one_message.geo'
USAGE, BAD_SCRIPT, READ_FAULT, WRITE_FAULT, NO_FILE, NO_TOOLCHAIN = 2, 3, 4, 5, 66, 69


def content(name):
    with open(os.path.join(ROOT, name), encoding='utf-8') as file:
        return file.read()


def asked(*words, given=None, top=ROOT, **more):
    """The status, standard output and standard error of a call."""
    env = {**os.environ, 'GEO_PROGRAM': built_program() or '', **more}
    done = subprocess.run([os.path.join(top, 'geo'), *words], input=given, cwd=top, env=env, capture_output=True, text=True, check=False)
    return done.returncode, done.stdout, done.stderr


@unittest.skipUnless(built_program(), 'no program: tools/build or tools/compile makes one')
class Files(unittest.TestCase):
    def test_a_file_and_standard_input_are_the_same(self):
        report = content('examples/one_message.report')
        self.assertEqual(asked('run', ONE), (0, report, ''))
        self.assertEqual(asked('run', given=content(ONE)), (0, report, ''))
        self.assertEqual(asked('run', '-', given=content(ONE)), (0, report, ''))

    def test_several(self):
        status, out, said = asked('run', ONE, 'examples/leave.geo')
        self.assertEqual((status, said), (0, ''))
        self.assertEqual(out, '== %s\n%s== examples/leave.geo\n%s' % (ONE, content('examples/one_message.report'), content('examples/leave.report')))

    def test_the_first_status_of_several(self):
        with tempfile.TemporaryDirectory() as folder:
            bad = os.path.join(folder, 'bad.geo')
            with open(bad, 'w', encoding='utf-8') as file:
                file.write('geo 1\nclustr a\n')
            status, out, said = asked('run', bad, ONE)
            self.assertEqual(status, BAD_SCRIPT)
            self.assertIn('== %s\nbad script line 2 rule 3\n' % bad, out)
            self.assertIn('%s:2:1: clustr begins no line of a script (did you mean cluster?)' % bad, said)

    def test_a_state_and_its_events(self):
        status, out, said = asked('resume', '-', given='')
        self.assertNotEqual(status, 0)
        command = './geo save %s > "$1"/state && echo settle > "$1"/events && ./geo resume "$1"/state "$1"/events' % ONE
        with tempfile.TemporaryDirectory() as folder:
            env = {**os.environ, 'GEO_PROGRAM': built_program()}
            done = subprocess.run(['bash', '-c', command, '-', folder], cwd=ROOT, env=env, capture_output=True, text=True, check=False)
        self.assertEqual(done.returncode, 0)
        self.assertTrue(done.stdout.startswith('events 23 idle 0 rounds 1\n'))

    def test_steps_of_a_state_and_its_events(self):
        with tempfile.TemporaryDirectory() as folder:
            state, events = os.path.join(folder, 'state'), os.path.join(folder, 'events')
            with open(state, 'wb') as file:
                subprocess.run([ROOT + '/geo', 'save', ONE], cwd=ROOT, env={**os.environ, 'GEO_PROGRAM': built_program()}, stdout=file, check=True)
            with open(events, 'w', encoding='utf-8') as file:
                file.write('# what goes on\nsettle\n')
            status, out, said = asked('steps', 'from', state, events)
            self.assertEqual((status, said), (0, ''))
            self.assertIn('\nsteps\nevents 16 idle 0 rounds 0\n', out)
            self.assertIn('\nstep 1 line 2 settle\n  event 17 ', out)
            self.assertTrue(out.endswith('\nevents 23 idle 0 rounds 1\n'))
            self.assertEqual(asked('show', state), asked('steps', 'from', state))
            # a line that is refused is counted in the events
            with open(events, 'w', encoding='utf-8') as file:
                file.write('settle\ngo q\n')
            status, out, said = asked('steps', 'from', state, events)
            self.assertEqual((status, out), (BAD_SCRIPT, 'bad script line 2 rule 15\n'))
            self.assertIn('(behind the state):2:4', said)

    def test_steps_of_a_script(self):
        status, out, said = asked('steps', ONE)
        self.assertEqual((status, said), (0, ''))
        self.assertEqual(asked('steps', given=content(ONE)), (0, out, ''))
        self.assertTrue(out.endswith('\n' + content('examples/one_message.report').splitlines()[0] + '\n'))
        status, out, said = asked('steps', 'big')
        self.assertEqual(status, USAGE)
        self.assertIn('steps big NUMBER', said)

    def test_what_is_lost(self):
        """Of a script, of standard input, by numbers, and of a state with its events; the words behind the cluster are no files."""
        script, lines = content('drills/behind_lost.geo'), content('answers/lost.txt').split('== lost east < drills/behind_lost.geo to 115\nstatus 0\n')[1]
        script, wanted = ''.join(script.splitlines(keepends=True)[:115]), lines.split('\n\n')[0] + '\n'
        numbers = ''.join(line for line in wanted.splitlines(keepends=True) if not line.startswith('  '))
        with tempfile.TemporaryDirectory() as folder:
            for name, text in (('numbers', script), ('from', script), ('events', 'settle\n'), ('wrong', 'settle\nstops\n')):
                with open(os.path.join(folder, name), 'w', encoding='utf-8') as file:
                    file.write(text)
            file, state, events, wrong = (os.path.join(folder, name) for name in ('numbers', 'state', 'events', 'wrong'))
            self.assertEqual(asked('lost', 'east', file), (0, wanted, ''))
            self.assertEqual(asked('lost', 'east', given=script), (0, wanted, ''))
            self.assertEqual(asked('lost', 'east', 'numbers', file), (0, numbers, ''))
            self.assertEqual(asked('lost', 'east', 'numbers', given=script), (0, numbers, ''))
            with open(state, 'wb') as out:
                subprocess.run([built_program(), 'save'], input=script.encode(), stdout=out, check=True)
            self.assertEqual(asked('lost', 'east', 'from', state), (0, wanted, ''))
            self.assertIn('\nlost 0\n', asked('lost', 'east', 'from', state, events)[1])
            status, out, said = asked('lost', 'east', 'from', state, wrong)
            self.assertEqual((status, out), (BAD_SCRIPT, 'bad script line 2 rule 3\n'))
            self.assertIn('(behind the state):2:1', said)
            status, out, said = asked('lost', 'eats', 'from', state, events)
            self.assertEqual((status, out), (BAD_SCRIPT, 'bad script line 2 rule 15\n'))
            self.assertIn('eats, of which lost is asked, is no cluster of the script (did you mean east?)', said)
            status, out, said = asked('lost', 'nowhere', file)
            self.assertEqual((status, out), (BAD_SCRIPT, 'bad script line 116 rule 15\n'))
            self.assertIn('nowhere, of which lost is asked, is no cluster of the script; declared: east, west', said)
        for words in (('lost',), ('lost', 'east', 'names', ONE), ('lost', 'east', 'numbers', ONE, ONE)):
            status, out, said = asked(*words)
            self.assertEqual(status, USAGE, words)
            self.assertIn('geo lost CLUSTER numbers FILE', said)

    def test_what_cannot_be_read(self):
        status, out, said = asked('run', 'nowhere.geo')
        self.assertEqual((status, out, said), (NO_FILE, '', "geo: nowhere.geo can't be read\n"))
        self.assertEqual(asked('run', 'docs')[0], NO_FILE)
        done = subprocess.run(ROOT + '/geo run < ' + ROOT + '/docs', shell=True, capture_output=True, text=True, check=False,
                              env={**os.environ, 'GEO_PROGRAM': built_program()})
        self.assertEqual((done.returncode, done.stdout), (READ_FAULT, 'read fault\n'))

    @unittest.skipUnless(os.path.exists('/dev/full'), 'no /dev/full here')
    def test_a_sink_that_fails(self):
        done = subprocess.run(ROOT + '/geo run %s/%s > /dev/full' % (ROOT, ONE), shell=True, check=False, stderr=subprocess.PIPE,
                              env={**os.environ, 'GEO_PROGRAM': built_program()})
        self.assertEqual(done.returncode, WRITE_FAULT)

    def test_the_horizon_of_a_whole_topic(self):
        self.assertEqual(asked('compact', 'end', 'examples/compacted_keys.geo'), asked('compact', '2000000', 'examples/compacted_keys.geo'))


@unittest.skipUnless(built_program(), 'no program: tools/build or tools/compile makes one')
class Words(unittest.TestCase):
    def test_a_refusal_keeps_the_programs_line(self):
        status, out, said = asked('run', given='geo 2\n')
        self.assertEqual((status, out), (BAD_SCRIPT, 'bad script line 1 rule 2\n'))
        self.assertTrue(said.startswith(out))
        self.assertIn('standard input:1:1:', said)

    def test_usage(self):
        status, out, said = asked('runn')
        self.assertEqual(status, USAGE)
        self.assertTrue(out.startswith('usage: geo run'))
        self.assertIn('did you mean run?', said)

    def test_live_says_what_is_left(self):
        status, out, said = asked('live', '1', '50', 'examples/live.geo')
        self.assertEqual(status, 0)
        self.assertIn('\nschedule\n', out)
        self.assertRegex(said, r'geo: shop did \d of its 9 lines in these turns')

    def test_json(self):
        status, out, said = asked('run', '--json', ONE)
        made = json.loads(out)
        self.assertEqual((status, made['status'], made['command']), (0, 0, ['run']))
        self.assertEqual(made['report']['events'], 15)
        first = made['report']['topics'][0]
        self.assertEqual(first['entries'], [{'position': '0:0', 'origin': 'a', 'producer': 'p', 'sequence': 0, 'targets': [], 'kind': 'data', 'key': None, 'text': 'hi'}])
        self.assertEqual(first['senders'], [{'to': 'b', 'session': 1, 'state': 'open', 'mark': 1}])
        status, out, said = asked('run', '--json', given='geo 2\n')
        made = json.loads(out)
        self.assertEqual((status, made['answer'], made['refused']['rule']), (BAD_SCRIPT, 'bad script line 1 rule 2', 2))
        self.assertEqual(asked('save', '--json', ONE)[0], USAGE)

    def test_help_and_version(self):
        for words in (['help'], ['--help'], ['-h']):
            status, out, _ = asked(*words)
            self.assertEqual(status, 0)
            self.assertIn('usage: ./geo COMMAND', out)
        self.assertIn('usage: ./geo run SCRIPT', asked('run', '--help')[1])
        self.assertIn('usage: ./geo audit [whole] TRACE', asked('help', 'audit')[1])
        self.assertEqual(asked('help', 'nothing')[0], USAGE)
        status, out, _ = asked('--version')
        self.assertEqual(status, 0)
        for word in ('scripts of version 1', 'source: ', 'program: ', 'toolchain: '):
            self.assertIn(word, out)

    def test_rules_are_explained(self):
        self.assertIn('rule 4 of a script', asked('why', '--explain', '4')[1])
        self.assertIn('rule 4 of an audit', asked('why', '--explain', 'audit', '4')[1])
        self.assertIn('rule 12 of an audit', asked('why', '--explain', 'audit', '12')[1])
        self.assertIn('rule 4 of a state file', asked('why', '--explain', 'state', '4')[1])
        self.assertEqual(asked('why', '--explain', '99')[0], USAGE)


class Unbuilt(unittest.TestCase):
    """A checkout without a build and without a toolchain."""

    def test_no_build_and_no_toolchain(self):
        with tempfile.TemporaryDirectory() as folder:
            shutil.copy(ROOT + '/geo', folder)
            os.mkdir(folder + '/crates')
            with open(folder + '/crates.txt', 'w', encoding='utf-8'):
                pass
            words = {'GEO_PROGRAM': '', 'PATH': '/usr/bin:/bin'}
            if shutil.which('rt', path=words['PATH']):
                self.skipTest('the toolchain is in the system\'s path')
            status, out, said = asked('big', '7', top=folder, **words)
            self.assertEqual((status, out), (NO_TOOLCHAIN, ''))
            self.assertIn('no toolchain', said)


if __name__ == '__main__':
    unittest.main()
