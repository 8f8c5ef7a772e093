"""tools/observed on folders of runs: planted faults, folders read while all moved; the collector and the log.

A thousand and more are tried by `tools/observed planted` and `tools/observed moving`; here is a sample.
"""
import http.server
import io
import json
import os
import tempfile
import threading
import unittest
from contextlib import redirect_stdout

from geo_tools.observed import many
from geo_tools.observed.client_log import Log
from geo_tools.observed.places import shown
from geo_tools.program import ROOT

from .dumps import Dumps, carried, log, observed
from .played import plays

# runs with losses, moves, updates, lists and keys
SAMPLE = ('failover_drill', 'selective_update', 'targets_and_keys')


def tried(*words):
    """The status of many folders, and what was printed."""
    out = io.StringIO()
    with redirect_stdout(out):
        status = many.main(list(words))
    return status, out.getvalue()


class Many(unittest.TestCase):
    @plays
    def test_planted(self):
        paths = [os.path.join(ROOT, 'examples', name + '.geo') for name in SAMPLE]
        status, out = tried('planted', '--folders', '25', *paths)
        self.assertEqual((status, out.split('\n')[-2]), (0, '25 folders, 0 wrong, 28 judged by the program too'), out)

    @plays
    def test_moving(self):
        for more in ([], ['--unseen'], ['--trimmed']):
            status, out = tried('moving', '--folders', '3', '--kind', 'failover', '--kind', 'all', *more)
            too = '' if '--trimmed' in more else ', 3 judged by the program too'
            self.assertEqual((status, out.split('\n')[-2]), (0, '3 folders, 0 wrong' + too), out)


class StandIn(http.server.BaseHTTPRequestHandler):
    """An admin service of the folder's cluster: stats-internal and entries of the topic public/default/orders."""

    def do_GET(self):
        made, cluster, asked = self.server.made
        asked.append((cluster, self.path.split('/')[-1] == 'internalStats'))
        words = self.path.split('/admin/v2/persistent/public/default/orders/')[-1].split('/')
        place = '%s:%s' % tuple(words[1::2]) if words[0] == 'ledger' else None
        line = next((line for line in made.entries[cluster] if line['headers']['X-Pulsar-Message-ID'] == place), None)
        if words != ['internalStats'] and line is None or self.headers['Authorization'] != 'Bearer key':
            self.send_error(404)
            return
        self.send_response(200)
        body = b'order ' + words[-1].encode()
        if line is None:
            body = json.dumps({'lastConfirmedEntry': '0:2', 'ledgers': [{'ledgerId': 0, 'entries': 0}], 'cursors': made.cursors[cluster]}).encode()
        for name, value in line['headers'].items() if line else ():
            for one in value if isinstance(value, list) else [value]:
                self.send_header(name, one)
        self.send_header('Content-Length', str(len(body)))
        self.end_headers()
        self.wfile.write(body)

    def log_message(self, *_):
        pass


class Collected(unittest.TestCase):
    def serve(self, made, cluster, asked):
        server = http.server.HTTPServer(('127.0.0.1', 0), StandIn)
        server.made = made, cluster, asked
        threading.Thread(target=server.serve_forever, daemon=True).start()
        self.addCleanup(server.server_close)
        self.addCleanup(server.shutdown)
        return '%s=http://127.0.0.1:%d/' % (cluster, server.server_port)

    def collected(self, folder, *more):
        made, asked = carried(), []
        for cluster in made.entries:
            made.entries[cluster][1]['headers']['X-Pulsar-replicated-to'] = ['east', 'west']
        urls = [self.serve(made, cluster, asked) for cluster in made.entries]
        return observed('collect', folder, 'public/default/orders', *urls, *more), asked

    def test_collected(self):
        with tempfile.TemporaryDirectory() as folder:
            (status, out, err), asked = self.collected(folder, '--token', 'key', '--quiet')
            self.assertEqual((status, out, err), (0, 'the logs of the clients are to stand in %s\n' % os.path.join(folder, 'clients.jsonl'), ''))
            # first the cursors of all clusters, then the entries of all
            self.assertEqual(asked[:2], [('east', True), ('west', True)])
            self.assertEqual(sum(not is_stats for _, is_stats in asked), 6)
            name = 'public_default_orders'
            with open(os.path.join(folder, 'west', name, 'entries.jsonl'), encoding='utf-8') as file:
                self.assertEqual(json.loads(file.readlines()[1])['headers']['X-Pulsar-replicated-to'], ['east', 'west'])
            with open(os.path.join(folder, 'clients.jsonl'), 'w', encoding='utf-8') as file:
                file.write(json.dumps(dict(log('ack', 'west', '0:0'), topic=name)) + '\n')
            status, out, err = observed(folder)
            self.assertEqual((status, err, out.split('\n')[-2]), (0, '', name + ': no fault; 6 entries and 1 lines of logs read, 0 lost'))

    def test_not_collected(self):
        with tempfile.TemporaryDirectory() as folder:
            (status, _, err), _ = self.collected(folder)
            self.assertEqual(status, 65)
            self.assertIn('HTTP Error 404', err)


class Message:
    """A stand-in for a message, a consumer and a producer of pulsar-client."""

    def __init__(self, place):
        self.place, self.done = place, []

    def message_id(self):
        return self

    def ledger_id(self):
        return self.place[0]

    def entry_id(self):
        return self.place[1]

    def batch_index(self):
        return -1

    def receive(self):
        return self

    def acknowledge(self, message):
        self.done.append(message)

    def send(self, content):
        return self

    def producer_name(self):
        return 'shop'

    def last_sequence_id(self):
        return 0


class Logged(unittest.TestCase):
    def test_logged(self):
        """What the wrapper writes is what is read."""
        with tempfile.TemporaryDirectory() as folder:
            made = carried()
            made.cursor('east', 'billing', '0:0')
            made.write(folder)
            it = Log(os.path.join(folder, 'clients.jsonl'), cluster='east', topic='orders', client='bill')
            message = Message((0, 0))
            consumer = it.consumer(message, 'billing', with_receipts=True)
            it.producer(message).send(b'order 0')
            consumer.acknowledge(consumer.receive())
            it.file.close()
            with open(os.path.join(folder, 'clients.jsonl'), encoding='utf-8') as file:
                lines = [json.loads(line) for line in file]
            self.assertEqual([(line['did'], line['position']) for line in lines], [(did, shown((0, 0))) for did in ('receipt', 'got', 'ack', 'acked')])
            status, out, err = observed(folder)
            self.assertEqual((status, err), (0, ''))
            self.assertIn('sub billing acknowledged 1 passed-over 0', out)


class Made(unittest.TestCase):
    def test_empty(self):
        """A folder without topics, and one whose topic is empty."""
        made = Dumps('east', 'west')
        status, out, _ = made.judged()
        self.assertEqual((status, out), (0, 'orders: no fault; 0 entries and 0 lines of logs read, 0 lost\n'))


if __name__ == '__main__':
    unittest.main()
