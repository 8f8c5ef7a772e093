"""The text of a folder that the program judges, and the program's answers in the words of this package."""
import io
import os
import tempfile
import unittest
from contextlib import redirect_stdout

from geo_tools.observed import many
from geo_tools.observed.folder import read_folder
from geo_tools.observed.markers import Snapshot
from geo_tools.observed.observation_text import ObservationText
from geo_tools.observed.verdict import Answer, own
from geo_tools.program import ROOT

from .dumps import carried, log, marker, observed
from .played import plays


def text_of(made):
    """The text of a folder."""
    with tempfile.TemporaryDirectory() as folder:
        made.write(folder)
        return ObservationText(read_folder(folder)[0])


class Text(unittest.TestCase):
    def test_text(self):
        """Positions become indexes, acknowledgements messages, markers numbers."""
        made = carried()
        made.entries['east'].append(marker('0:3', Snapshot('id-1', (0, 2), (('west', (0, 2)),)), replicated_to='east'))
        made.cursor('west', 'billing', '0:0', '[(0:1..0:2]]')
        made.cursor('east', 'pulsar.repl.west', '0:1')
        made.log = [log('ack', 'west', '0:1', cumulative=True), log('created', 'east', initial='latest', end='0:0'),
                    log('receipt', 'east', '0:1', producer='shop', sequence=1), log('receipt', 'east', '-1:-1', producer='shop', sequence=0)]
        # the hash of a text stands for it; the letters are those of sha256
        lines = [line for line in text_of(made).text().splitlines() if not line.startswith('entry orders west')]
        self.assertEqual([line if ' data ' not in line else line[:line.index(' data ')] for line in lines], [
            'geo 1', 'cluster east', 'cluster west', 'topic orders', 'observed quiet',
            'entry orders east 0:0 east shop 0 *', 'entry orders east 0:1 east shop 1 *', 'entry orders east 0:2 east shop 2 *',
            'entry orders east 0:3 east pulsar.marker 0 east snapshot id-1 0:2 west=0:2',
            'cursor orders east billing -', 'brought orders east west 0-1', 'cursor orders west billing 0-0,2-2',
            'done orders billing east shop 0', 'done orders billing east shop 1', 'below orders east billing 1', 'receipt orders east shop 1 0:1'])

    def test_not_read(self):
        """Of a cluster that was not read nothing stands there; what was done there with a message that is not told is unsure."""
        made = carried(unseen=['east'], quiet=False)
        made.log = [log('ack', 'east', '0:1')]
        lines = text_of(made).text().splitlines()
        self.assertEqual([line for line in lines if not line.startswith('entry')], [
            'geo 1', 'cluster east', 'cluster west', 'topic orders', 'observed', 'unread orders east', 'cursor orders west billing -', 'unsure orders east billing'])

    def test_names(self):
        """Names that a text can't have get others."""
        made = carried()
        made.cursor('west', 'a subscription of a longer name', '0:-1')
        self.assertIn('cursor orders west s1 -', text_of(made).text().splitlines())

    def test_refused(self):
        made = carried()
        made.entries['east'][0]['headers']['X-Pulsar-sequence-id'] = '-1'
        with tempfile.TemporaryDirectory() as folder:
            made.write(folder)
            status, out, err = observed('text', folder)
        self.assertEqual((status, out), (65, ''))
        self.assertIn('entries.jsonl line 1: a position or a sequence id below 0', err)


class Answers(unittest.TestCase):
    def test_words(self):
        """What the program answers is what is found here."""
        made = carried()
        del made.entries['west'][1]
        made.cursor('east', 'pulsar.repl.west', '0:1')
        made.cursor('west', 'billing', '0:2')
        made.log = [log('receipt', 'east', '0:1', producer='shop', sequence=7)]
        text = text_of(made)
        answer = Answer(text, ['observed lost orders east shop 7 0:1', 'observed gap orders west east 1', 'observed unreceived orders east west 1',
                               'observed skipped orders west billing 0', 'observed skipped orders west billing 1'])
        self.assertEqual(answer.found, set().union(*(own(seen) for seen in text.observations)))
        self.assertEqual(Answer(text, ['observed safe entries 5']).found, set())

    @plays
    def test_program(self):
        """The program and this package's rules find the same of planted folders."""
        out = io.StringIO()
        with redirect_stdout(out):
            many.main(['planted', os.path.join(ROOT, 'examples', 'failover_drill.geo'), '--folders', '8'])
        self.assertEqual(out.getvalue().split('\n')[-2], '8 folders, 0 wrong, 9 judged by the program too', out.getvalue())


if __name__ == '__main__':
    unittest.main()
