"""Writes a folder of dumps from the admin services of running clusters. It was tried against a stand-in server alone.

    tools/observed collect FOLDER TENANT/NAMESPACE/TOPIC .. NAME=http://ADMIN:8080 .. [--token TOKEN] [--quiet] [--trimmed] [--unseen NAME]

What makes dumps of clusters that go on fit is the order: first the cursors of all clusters, then the entries of all, and last the logs of
the clients, which the caller puts beside as clients.jsonl. A partition is a topic of its own. One request an entry.
"""
import argparse
import base64
import json
import os
import sys
import urllib.error
import urllib.request

from .entries import HEADER
from .main import NOT_READ
from .places import Refused, position, shown

# in seconds
PATIENCE = 30
MANY = HEADER + 'replicated-to'


class Admin:
    """The admin service of one cluster."""

    def __init__(self, url, token):
        self.url, self.token = url.rstrip('/'), token

    def get(self, path):
        """The headers and the body of an answer."""
        request = urllib.request.Request('%s/admin/v2/persistent/%s' % (self.url, path))
        if self.token:
            request.add_header('Authorization', 'Bearer ' + self.token)
        try:
            with urllib.request.urlopen(request, timeout=PATIENCE) as answer:
                return answer.headers, answer.read()
        except (OSError, ValueError) as fault:
            raise Refused('%s: %s' % (request.full_url, fault)) from None

    def stats(self, topic):
        """The answer to stats-internal."""
        try:
            told = json.loads(self.get(topic + '/internalStats')[1])
        except ValueError:
            raise Refused('%s: %s: no JSON' % (self.url, topic)) from None
        if not isinstance(told, dict) or not isinstance(told.get('ledgers'), list):
            raise Refused('%s: %s: stats-internal has no ledgers' % (self.url, topic))
        return told


def places(stats, where):
    """Each position from the first ledger that is left to the last confirmed entry. The open ledger is told to have no entry."""
    last_ledger, last = position(stats.get('lastConfirmedEntry'), where)
    for ledger in sorted(stats['ledgers'], key=lambda ledger: ledger['ledgerId']):
        number = ledger['ledgerId']
        if number <= last_ledger:
            yield from ((number, at) for at in range(last + 1 if number == last_ledger else ledger['entries']))


def entry_line(admin, topic, place):
    """The line of an entry."""
    answered, body = admin.get('%s/ledger/%d/entry/%d' % (topic, *place))
    headers = {}
    for name, value in answered.items():
        if name.lower() == MANY:
            headers.setdefault(name, []).append(value)
        elif name.lower().startswith(HEADER):
            headers[name] = value
    headers['X-Pulsar-Message-ID'] = shown(place)
    return json.dumps({'headers': headers, 'payload': base64.b64encode(body).decode()}) + '\n'


def collect(folder, topics, admins, said):
    """Writes all but the logs; `said` goes into drill.json. First all cursors, then all entries."""
    names = {topic: topic.replace('/', '_') for topic in topics}
    os.makedirs(folder, exist_ok=True)
    with open(os.path.join(folder, 'drill.json'), 'w', encoding='utf-8') as file:
        json.dump({'clusters': list(admins) + said['unseen'], 'topics': list(names.values()), **said}, file)
    for cluster, admin in admins.items():
        for topic, name in names.items():
            stats = admin.stats(topic)
            os.makedirs(os.path.join(folder, cluster, name), exist_ok=True)
            with open(os.path.join(folder, cluster, name, 'stats-internal.json'), 'w', encoding='utf-8') as file:
                json.dump(stats, file)
    for cluster, admin in admins.items():
        for topic, name in names.items():
            with open(os.path.join(folder, cluster, name, 'entries.jsonl'), 'w', encoding='utf-8') as file:
                # asked again: entries that came since belong to it
                file.writelines(entry_line(admin, topic, place) for place in places(admin.stats(topic), '%s of %s' % (topic, cluster)))


def main(words):
    parser = argparse.ArgumentParser(prog='tools/observed collect', description=__doc__, formatter_class=argparse.RawDescriptionHelpFormatter)
    parser.add_argument('folder', metavar='FOLDER')
    parser.add_argument('words', nargs='+', metavar='TOPIC|NAME=URL', help='topics, as public/default/orders, and the admin service of each cluster')
    parser.add_argument('--token', help='goes with each request as a bearer token')
    parser.add_argument('--quiet', action='store_true', help='producers and consumers had stopped, and replication was at rest')
    parser.add_argument('--trimmed', action='store_true', help='the beginning of topics may be deleted')
    parser.add_argument('--unseen', action='append', default=[], metavar='NAME', help='a cluster that can\'t be read')
    words = parser.parse_intermixed_args(words)
    admins = {name: Admin(url, words.token) for name, url in (word.split('=', 1) for word in words.words if '=' in word)}
    topics = [word for word in words.words if '=' not in word]
    if not admins or not topics:
        parser.error('a topic and a cluster are needed')
    try:
        collect(words.folder, topics, admins, {'unseen': words.unseen, 'quiet': words.quiet, 'trimmed': words.trimmed})
    except Refused as refused:
        print('tools/observed collect: %s' % refused, file=sys.stderr)
        return NOT_READ
    print('the logs of the clients are to stand in %s' % os.path.join(words.folder, 'clients.jsonl'))
    return 0
