"""Reports, read whole and step by step, and scripts. No program is needed."""
import unittest

from geo_tools.drill.did import by_steps
from geo_tools.report import Report
from geo_tools.script import Script

from .outside import changed

BEGIN = '''events 0 idle 0 rounds 0
topic t at a
sender b session 0 closed mark 0
topic t at b
sender a session 0 closed mark 0
client c at a lines 0/2 receipts 0 duplicates 0 errors 0
'''
STEPS = '''geo 1
steps
''' + BEGIN + '''step 1 line 7 go c
  client c at a lines 1/2 receipts 0 duplicates 0 errors 0
step 2 line 8 serve a c
  topic t at a
  entry 0:0 a p 0 * data - hi there
  sub s exclusive local mark 0 backlog 1
step 3 line 9 idle get c
step 4 line 10 settle
  event 3 reset t a b
    topic t at a
    sender b session 1 opening mark 0
  event 4 take t a b good
    topic t at b
    entry 0:0 a p 0 * data - hi there
  events 4 idle 1 rounds 1
step 5 line 11 get c
  topic t at a
  gone s
  client c at b lines 2/2 receipts 0 duplicates 0 errors 0
  got a p 0
events 5 idle 1 rounds 1
'''


class Reports(unittest.TestCase):
    def test_whole(self):
        report = Report('events 3 idle 1 rounds 0\ntopic t at a\nentry 0:0 a p 0 * data - hi there\nsender b session 1 open mark 1\n'
                        'sub s exclusive local mark 0 backlog 1\ntopic t at b\nclient c at a lines 1/2 receipts 0 duplicates 0 errors 0\ngot a p 0\ngot a p 0\n')
        self.assertEqual(report.messages('t', 'a')[0].text, 'hi there')
        self.assertEqual((report.again(), report.again('c'), report.subs['t', 'a']['s'].backlog, report.events), (1, 1, 1, 3))
        self.assertEqual(report.times_got(), {('t', ('a', 'p', '0')): {'c': 2}})

    def test_step_by_step(self):
        begin, done = Report(BEGIN), by_steps(STEPS)
        self.assertEqual([it.events for it in done], [1, 1, 0, 2, 1])
        reports = [begin]
        for it in done:
            reports.append(reports[-1].after(it.lines))
        end = reports[-1]
        self.assertEqual((len(end.entries['t', 'a']), len(end.entries['t', 'b']), end.subs['t', 'a'], end.clients['c'].cluster), (1, 1, {}, 'b'))
        self.assertEqual(end.senders['t', 'a', 'b'], (1, 'opening', 0))
        # what was before is as it was
        self.assertEqual((begin.entries['t', 'a'], begin.clients['c'].got, list(reports[2].subs['t', 'a'])), ([], [], ['s']))
        # and what changed between reports is what the steps say
        self.assertEqual([changed(before, after) for before, after in zip(reports, reports[1:])], [it.lines for it in done])


class Scripts(unittest.TestCase):
    def test_read(self):
        script = Script(b'# title\ngeo 1\ncluster a\ncluster b\ntopic t\nclient c t a\ndo c sub s shared latest local\ndo c close\n# why\nreconnect c\ngo c\n')
        self.assertEqual((script.title(), script.clusters, script.events[0].comments, script.events[1].line), ('title', ['a', 'b'], ['why'], 11))
        self.assertEqual([script.subscription('c', done) for done in range(3)], [None, 's', None])
        self.assertEqual(script.beginning(1).split(b'\n')[-2], b'reconnect c')


if __name__ == '__main__':
    unittest.main()
