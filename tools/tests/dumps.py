"""Folders of dumps, written by hand as Pulsar's admin and clients write them: for the tests of tools/observed."""
import base64
import io
import json
import os
import tempfile
from contextlib import redirect_stderr, redirect_stdout

from geo_tools.observed.main import main
from geo_tools.observed.markers import NUMBERS, payload_of


def entry(place, producer='shop', sequence=0, text='x', **headers):
    """The line of a message; further headers by their names, with _ for -."""
    more = {'X-Pulsar-' + name.replace('_', '-'): value for name, value in headers.items()}
    return {'headers': {'X-Pulsar-Message-ID': place, 'X-Pulsar-producer-name': producer, 'X-Pulsar-sequence-id': str(sequence), **more},
            'payload': base64.b64encode(text.encode()).decode()}


def marker(place, made, **headers):
    """The line of a marker."""
    line = entry(place, 'pulsar.marker', 0, marker_type=str(NUMBERS[type(made)]), **headers)
    line['payload'] = base64.b64encode(payload_of(made)).decode()
    return line


def log(did, cluster, position=None, **more):
    """A line of the log, of the topic orders, the client bill and the subscription billing; of a receipt without."""
    line = {'at': more.pop('at', 1), 'did': did, 'cluster': cluster, 'topic': 'orders', 'client': 'bill', **more}
    if did != 'receipt':
        line.setdefault('sub', 'billing')
    if position is not None:
        line['position'] = position
    return line


class Dumps:
    """A folder in the making, of the topic orders: entries and cursors by cluster, and the log."""

    def __init__(self, *clusters, quiet=True, trimmed=False, unseen=()):
        self.drill = {'clusters': list(clusters), 'topics': ['orders'], 'unseen': list(unseen), 'quiet': quiet, 'trimmed': trimmed}
        self.entries = {cluster: [] for cluster in clusters if cluster not in unseen}
        self.cursors = {cluster: {'pulsar.dedup': {'markDeletePosition': '0:-1'}} for cluster in self.entries}
        self.log = []

    def cursor(self, cluster, name, mark, ranges='[]'):
        self.cursors[cluster][name] = {'markDeletePosition': mark, 'individuallyDeletedMessages': ranges}

    def write(self, folder):
        files = {'drill.json': json.dumps(self.drill), 'clients.jsonl': ''.join(json.dumps(line) + '\n' for line in self.log)}
        for cluster, lines in self.entries.items():
            files[cluster + '/orders/entries.jsonl'] = ''.join(json.dumps(line) + '\n' for line in lines)
            files[cluster + '/orders/stats-internal.json'] = json.dumps({'lastConfirmedEntry': '0:0', 'ledgers': [], 'cursors': self.cursors[cluster]})
        for name, text in files.items():
            os.makedirs(os.path.dirname(os.path.join(folder, name)), exist_ok=True)
            with open(os.path.join(folder, name), 'w', encoding='utf-8') as file:
                file.write(text)

    def judged(self, *words):
        """The status of tools/observed, what it printed, and what it complained."""
        with tempfile.TemporaryDirectory() as folder:
            self.write(folder)
            return observed(folder, *words)


def observed(*words):
    out, err = io.StringIO(), io.StringIO()
    with redirect_stdout(out), redirect_stderr(err):
        status = main(list(words))
    return status, out.getvalue(), err.getvalue()


def carried(count=3, **more):
    """Two clusters: east has so many messages, west has them all from there, and nobody acknowledged anything."""
    made = Dumps('east', 'west', **more)
    for cluster in made.entries:
        origin = {} if cluster == 'east' else {'replicated_from': 'east'}
        made.entries[cluster] = [entry('0:%d' % number, sequence=number, text='order %d' % number, **origin) for number in range(count)]
        made.cursor(cluster, 'billing', '0:-1')
    return made
