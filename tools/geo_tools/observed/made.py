"""Makes a folder of a script's run, as Pulsar's admin and the clients would tell it, from what the program says of it alone.

    tools/observed made SCRIPT FOLDER [--to LINE] [--unseen CLUSTER] [--moving NUMBER] [--trimmed NUMBER]

Entries, cursors, acknowledgements and what operators did come from `geo trace`, replicators' cursors from `geo run`, and deliveries from
the reports of the script's beginnings. Markers have the sequence id 0 and UUIDs, as a broker writes them. Each message of a cluster's own
counts as one whose producer has a receipt. A trace does not tell which client acknowledged, so each line is of the client `c`.
"""
import argparse
import base64
import hashlib
import json
import os
import random
import sys
import uuid

from ..command import read_script
from ..program import Failed, Program
from ..script import Script
from . import markers as m
from .cursors import DEDUPLICATION, REPLICATOR
from .main import NOT_READ
from .places import Refused, position, shown

# what the machine writes behind the id of a snapshot's second round; Pulsar gives both rounds the same
SECOND_ROUND = '/2'
# of an append: the words of a trace before the entry's, and those of an entry before what it is
APPEND_WORDS, ENTRY_WORDS = 3, 5
# before the first entry
BEGINNING = (-1, -1)


def snapshot_id(word):
    """A UUID, the same in both rounds."""
    return str(uuid.UUID(hashlib.md5(word.replace(SECOND_ROUND, '').encode()).hexdigest()))


def pair(word):
    cluster, place = word.split('=')
    return cluster, position(place, word)


def marker_of(words):
    """The marker that the words of a trace tell; None for a message."""
    if words[0] == 'request':
        return m.Request(snapshot_id(words[1]), words[2])
    if words[0] == 'response':
        return m.Response(snapshot_id(words[1]), pair(words[2]))
    if words[0] == 'snapshot':
        return m.Snapshot(snapshot_id(words[1]), position(words[2], words[2]), tuple(pair(word) for word in words[3:]))
    if words[0] == 'update':
        return m.Update(words[1], tuple(pair(word) for word in (words[2:-2] if 'by' in words[2:] else words[2:])))
    return None


def entry_headers(cluster, words, marker):
    """The headers of an entry, from the words of its append behind the cluster's name."""
    place, origin, producer, sequence, to = words[:ENTRY_WORDS]
    headers = {'X-Pulsar-Message-ID': place, 'X-Pulsar-producer-name': producer, 'X-Pulsar-sequence-id': '0' if marker else sequence}
    if origin != cluster:
        headers['X-Pulsar-replicated-from'] = origin
    if to != '*':
        headers['X-Pulsar-replicated-to'] = [name for name in to.split(',') if name != '?']
    if marker:
        headers['X-Pulsar-marker-type'] = str(m.NUMBERS[type(marker)])
    elif words[ENTRY_WORDS + 1] != '-':
        headers['X-Pulsar-partition-key'] = words[ENTRY_WORDS + 1]
    return headers


def indexes(word):
    """The indexes of a trace's ranges."""
    for part in [] if word == '-' else word.split(','):
        first, last = part.split('-')
        yield from range(int(first), int(last) + 1)


class Place:
    """A topic at a cluster while a trace is read: positions, lines and messages of its entries, and cursors as sets of indexes."""

    def __init__(self):
        self.positions, self.lines, self.identities, self.cursors = [], [], [], {}

    def end(self):
        return shown(self.positions[-1] if self.positions else BEGINNING)

    def append(self, cluster, words):
        """Stores an entry; gives its message's identity, None for a marker's."""
        marker = marker_of(words[ENTRY_WORDS:])
        payload = m.payload_of(marker) if marker else ' '.join(words[ENTRY_WORDS + 2:]).encode()
        self.positions.append(position(words[0], words[0]))
        self.lines.append({'headers': entry_headers(cluster, words, marker), 'payload': base64.b64encode(payload).decode()})
        self.identities.append([words[1], words[2], int(words[3])])
        return None if marker or words[2] == m.PRODUCER else self.identities[-1]

    def cursor(self, have):
        """A set of indexes as stats-internal tells it."""
        count = 0
        while count in have:
            count += 1
        ranges = []
        for index in sorted(index for index in have if index > count):
            ledger, entry = self.positions[index]
            if ranges and ranges[-1][1] == (ledger, entry - 1) and index - 1 in have:
                ranges[-1][1] = (ledger, entry)
            else:
                ranges.append([(ledger, entry - 1), (ledger, entry)])
        first = self.positions[0][0] if self.positions else 0
        return {'markDeletePosition': shown(self.positions[count - 1]) if count else '%d:-1' % first,
                'individuallyDeletedMessages': '[%s]' % ','.join('(%s..%s]' % (shown(after), shown(upto)) for after, upto in ranges), 'state': 'Open'}

    def shown_cursors(self):
        return {sub: self.cursor(have) for sub, have in self.cursors.items()}


def stats_internal(lines, cursors):
    """stats-internal of a topic; the open ledger, which is the last, is told to have no entry."""
    places = [position(line['headers']['X-Pulsar-Message-ID'], '') for line in lines]
    counts = {}
    for ledger, entry in places:
        counts[ledger] = entry + 1
    ledgers = [{'ledgerId': ledger, 'entries': 0 if ledger == places[-1][0] else count, 'size': 0, 'offloaded': False} for ledger, count in counts.items()]
    return {'lastConfirmedEntry': shown(places[-1]) if places else '0:-1', 'state': 'LedgerOpened', 'ledgers': ledgers,
            'cursors': {**cursors, DEDUPLICATION: {'markDeletePosition': shown(places[-1]) if places else '0:-1', 'individuallyDeletedMessages': '[]'}}}


class Made:
    """What a folder of a run has: its clusters and topics, the log, and for each topic at a cluster entries and cursors.

    `reading`: by (topic, cluster) behind which event its cursors are read, and behind which its entries; the end where none is named.
    """

    def __init__(self, trace, reading=None, with_identities=True):
        head, self.events = trace[:trace.index('trace')], trace[trace.index('trace') + 1:]
        self.clusters = [line.split(' ')[1] for line in head if line.startswith('cluster ')]
        self.topics = [line.split(' ')[1] for line in head if line.startswith('topic ')]
        self.last = sum(line.startswith('event ') for line in self.events)
        self.places = {(topic, cluster): Place() for topic in self.topics for cluster in self.clusters}
        self.reading = reading or {key: (self.last, self.last) for key in self.places}
        self.entries, self.cursors, self.log = {}, {}, []
        self.with_identities = with_identities
        self._play()

    def _play(self):
        event = 0
        for line in self.events:
            words = line.split(' ')
            if words[0] == 'event':
                self._read(event)
                event = int(words[1])
            else:
                self._write(event, words)
        self._read(event)

    def _read(self, event):
        for key, (early, late) in self.reading.items():
            if event == early:
                self.cursors[key] = self.places[key].shown_cursors()
            if event == late:
                self.entries[key] = list(self.places[key].lines)

    def _say(self, event, did, words, **more):
        self.log.append(dict(at=event, did=did, topic=words[1], cluster=words[2], client='c', **more))

    def _write(self, event, words):
        """One line of the trace."""
        place, end = self.places[words[1], words[2]], self.places[words[1], words[2]].end()
        if words[0] == 'append':
            identity = place.append(words[2], words[APPEND_WORDS:])
            if identity and identity[0] == words[2]:
                self._say(event, 'receipt', words, producer=identity[1], sequence=identity[2], position=place.end())
            return
        sub = words[3]
        if words[0] == 'create':
            place.cursors[sub] = set(range(len(place.positions))) if words[4] == 'latest' else set()
            self._say(event, 'created', words, sub=sub, initial=words[4], end=end)
        elif words[0] == 'delete':
            del place.cursors[sub]
            self._say(event, 'deleted', words, sub=sub)
        elif words[0] == 'seek':
            index = int(words[4])
            place.cursors[sub] = set(range(index))
            self._say(event, 'seek', words, sub=sub, end=end, position=shown(place.positions[index]) if index < len(place.positions) else 'end')
        else:
            self._gain(event, place, words)

    def _gain(self, event, place, words):
        gained = list(indexes(words[4]))
        place.cursors[words[3]].update(gained)
        for index in gained if words[5] == 'client' else ():
            named = {'ident': place.identities[index]} if self.with_identities else {}
            for did in ('ack', 'acked'):
                self._say(event, did, words, sub=words[3], position=shown(place.positions[index]), cumulative=False, **named)

    def senders(self, key, report):
        """Adds the replicators' cursors of a topic at a cluster, as a report has them."""
        for (topic, cluster, to), sender in report.senders.items():
            if (topic, cluster) == key:
                self.cursors[key][REPLICATOR + to] = self.places[key].cursor(set(range(sender.mark)))

    def deliveries(self, script, program):
        """Adds what consumers got, from the reports of the script's beginnings."""
        reports = program.reports([script.beginning(count) for count in range(len(script.events) + 1)])
        for before, after in zip(reports, reports[1:]):
            for name, client in after.clients.items():
                for message in client.got[len(before.clients[name].got):]:
                    self._delivered(script, after.events, name, client, message)
        self.log.sort(key=lambda line: line['at'])

    def _delivered(self, script, events, name, client, message):
        place = self.places[client.topic, client.cluster]
        identity = [*message[:2], int(message[2])]
        sub = script.subscription(name, client.done)
        if sub and identity in place.identities:
            self.log.append({'at': events, 'did': 'got', 'topic': client.topic, 'cluster': client.cluster, 'client': name, 'sub': sub,
                             'position': shown(place.positions[place.identities.index(identity)]), 'ident': identity})

    def trim(self, key, upto):
        """Deletes the first entries of a topic at a cluster."""
        self.entries[key] = self.entries[key][upto:]

    def write(self, folder, unseen=(), trimmed=False):
        """Writes the folder."""
        quiet = all(early == late == self.last for early, late in self.reading.values())
        os.makedirs(folder, exist_ok=True)
        drill = {'clusters': self.clusters, 'topics': self.topics, 'unseen': list(unseen), 'quiet': quiet, 'trimmed': trimmed}
        write_json(os.path.join(folder, 'drill.json'), drill)
        write_lines(os.path.join(folder, 'clients.jsonl'), self.log)
        for (topic, cluster), lines in self.entries.items():
            if cluster not in unseen:
                here = os.path.join(folder, cluster, topic)
                os.makedirs(here, exist_ok=True)
                write_lines(os.path.join(here, 'entries.jsonl'), lines)
                write_json(os.path.join(here, 'stats-internal.json'), stats_internal(lines, self.cursors[topic, cluster]))


def write_json(path, made):
    with open(path, 'w', encoding='utf-8') as file:
        json.dump(made, file)


def write_lines(path, lines):
    with open(path, 'w', encoding='utf-8') as file:
        file.writelines(json.dumps(line) + '\n' for line in lines)


def traced(script, program):
    return program.answer('trace', script.raw).splitlines()


def at_rest(script, program):
    """The end of a run."""
    made = Made(traced(script, program))
    report = program.report(script.raw)
    for key in made.places:
        made.senders(key, report)
    return made


def in_motion(script, program, number, with_identities=True):
    """A run that goes on while it is read, in the order of docs/OBSERVED.md: each cluster's cursors at a moment of their own, then each
    one's entries, and the logs at the end. The moments of the cursors are between events of the script, so that reports tell the replicators'."""
    chosen, trace = random.Random(number), traced(script, program)
    keys = list(Made(trace).places)
    last = sum(line.startswith('event ') for line in trace)
    counts = {key: chosen.randint(len(script.events) // 3, len(script.events)) for key in keys}
    reports = {key: program.report(script.beginning(count)) for key, count in counts.items()}
    latest = max(report.events for report in reports.values())
    made = Made(trace, {key: (reports[key].events, chosen.randint(latest, last)) for key in keys}, with_identities)
    for key in keys:
        made.senders(key, reports[key])
    return made


def trim(made, number):
    """Deletes in each topic at each cluster some of the first entries that all cursors have, as retention does."""
    chosen = random.Random(number)
    for key, place in made.places.items():
        all_have = [position(cursor['markDeletePosition'], '') for cursor in made.cursors[key].values()]
        bound = sum(1 for it in place.positions if all(it <= mark for mark in all_have))
        made.trim(key, chosen.randint(0, bound))


def main(words):
    parser = argparse.ArgumentParser(prog='tools/observed made', description=__doc__, formatter_class=argparse.RawDescriptionHelpFormatter)
    parser.add_argument('script', metavar='SCRIPT')
    parser.add_argument('folder', metavar='FOLDER')
    parser.add_argument('--to', type=int, metavar='LINE', help='the last line of the script that happens')
    parser.add_argument('--unseen', action='append', default=[], metavar='CLUSTER', help='a cluster that is not read')
    parser.add_argument('--moving', type=int, metavar='NUMBER', help='the clusters are read at moments of their own, chosen by a number')
    parser.add_argument('--trimmed', type=int, metavar='NUMBER', help='beginnings are deleted, chosen by a number')
    parser.add_argument('--program', metavar='FILE', help='a built geo to run in place of the one that ./geo runs')
    words = parser.parse_args(words)
    try:
        program, script = Program(words.program), Script(read_script(words.script))
        if words.to is not None:
            script = Script(script.beginning(sum(event.line <= words.to for event in script.events)))
        made = at_rest(script, program) if words.moving is None else in_motion(script, program, words.moving)
        made.deliveries(script, program)
        if words.trimmed is not None:
            trim(made, words.trimmed)
        made.write(words.folder, words.unseen, words.trimmed is not None)
    except (Failed, Refused, OSError) as failed:
        print('tools/observed made: %s' % failed, file=sys.stderr)
        return failed.status if isinstance(failed, Failed) else NOT_READ
    return 0
