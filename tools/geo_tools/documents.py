"""Answers of the program as one document in JSON (docs/REPORT.md has the form). ./geo calls it where --json is among the words."""
import json
import sys

from . import refusals
from .refusals.told import document
from .report import Report

WRONG_WORDS = 2
# the commands whose answer is a report, and those whose answer is lines
REPORTS, LINES = ('run', 'resume', 'live'), ('trace', 'audit', 'compact', 'tiered', 'big', 'steps', 'lost')


def entry_document(entry):
    made = {'position': entry.position, 'origin': entry.origin, 'producer': entry.producer, 'sequence': int(entry.seq),
            'targets': [] if entry.targets == '*' else entry.targets.split(','), 'kind': entry.kind}
    if entry.kind == 'data':
        made.update(key=None if entry.key == '-' else entry.key, text=entry.text)
    else:
        made['marker'] = entry.what
    return made


def subscription_document(name, sub):
    return {'name': name, 'kind': sub.kind, 'replicated': sub.replicated == 'replicated', 'mark': sub.mark, 'backlog': sub.backlog, 'seeks': sub.seeks}


def client_document(name, client):
    return {'name': name, 'topic': client.topic, 'cluster': client.cluster, 'done': client.done, 'lines': client.total, **client.counts,
            'got': [{'origin': origin, 'producer': producer, 'sequence': int(seq)} for origin, producer, seq in client.got]}


def report_document(report):
    """A report as tables of the same order."""
    topics = []
    for topic, cluster in report.entries:
        place = (topic, cluster)
        topics.append({
            'topic': topic, 'cluster': cluster,
            'entries': [entry_document(entry) for entry in report.entries[place]],
            'senders': [{'to': to, 'session': sender.session, 'state': sender.state, 'mark': sender.mark}
                        for (of, at, to), sender in report.senders.items() if (of, at) == place],
            'subscriptions': [subscription_document(name, sub) for name, sub in report.subs[place].items()]})
    return {'events': report.events, 'idle': report.idle, 'rounds': report.rounds, 'topics': topics,
            'clients': [client_document(name, client) for name, client in report.clients.items()]}


def answer_document(status, answer, raw, name, command):
    """The document of one answer; None where it has none, as a state file has."""
    made = {'command': command, 'status': status}
    if status:
        made['answer'] = answer.decode('latin-1').rstrip('\n')
        told = refusals.refusal(status, answer.decode('latin-1'), raw, name, command)
        if told:
            made['refused'] = document(told)
        return made
    if not command or command[0] not in REPORTS + LINES:
        return None
    text = answer.decode('ascii', errors='replace')
    if command[0] == 'live':
        text, _, schedule = text.partition('\nschedule\n')
        made['schedule'] = schedule.splitlines()
    if command[0] in REPORTS:
        made['report'] = report_document(Report(text))
    else:
        made['lines'] = text.splitlines()
    return made


def main(words):
    """STATUS ANSWER-FILE INPUT-FILE NAME COMMAND .."""
    status, answer, given, name = words[:4]
    raw = b'' if given == '/dev/null' else refusals.read(given)
    made = answer_document(int(status), refusals.read(answer), raw, name, words[4:])
    if made is None:
        print('geo: the answer of %s is bytes, and --json is of text' % ' '.join(words[4:]), file=sys.stderr)
        return WRONG_WORDS
    print(json.dumps(made, indent=1, ensure_ascii=False))
    return 0
