"""Makes the compacted views of a run from its report: what `geo compact HORIZON` prints, told from the lines of the entries alone.

Of each topic at each cluster, the horizon is the given one, or the number of entries where that is less. Below it a message stays that
has no key, or that is the last of its key there and has a text; behind it every message stays. Markers are in no view. The program is
not asked: it prints the same from its own table of keys, and the gate compares the two.

usage: geo_tools compacted HORIZON < REPORT        prints the views
       geo_tools compacted check SCRIPT ..         runs each script with `./geo run` and, at some horizons, with `./geo compact`, and
                                                 says which answer is not the one that its report makes
"""
import os
import subprocess
import sys

from ..program import ROOT

# no run stores more entries than it has events, and it has at most so many
MOST_HORIZON = 2_000_000
# words of an entry's line before its text: entry, position, origin, producer, sequence id, targets, data, key
WORDS_BEFORE_TEXT = 8


def topics(report):
    """Each topic at each cluster: its name, the cluster's, and the lines of its entries."""
    found = []
    for line in report.split('\n'):
        word = line.split(' ', 1)[0]
        if word == 'topic':
            _, topic, _, cluster = line.split(' ')
            found.append((topic, cluster, []))
        elif word == 'entry':
            found[-1][2].append(line)
    return found


def message(line):
    """The key and the text of an entry that is a message, the key `-` where it has none; nothing for a marker."""
    words = line.split(' ', WORDS_BEFORE_TEXT)
    return (words[7], words[8]) if words[6] == 'data' else None


def view(entries, horizon):
    """The lines of the entries that are in the view."""
    last = {}
    for index, line in enumerate(entries[:horizon]):
        said = message(line)
        if said and said[0] != '-':
            last[said[0]] = index
    for index, line in enumerate(entries):
        said = message(line)
        if said and (index >= horizon or said[0] == '-' or (said[1] and last[said[0]] == index)):
            yield line


def compacted(report, horizon):
    lines = []
    for topic, cluster, entries in topics(report):
        at = min(horizon, len(entries))
        lines.append('compacted %s at %s horizon %d' % (topic, cluster, at))
        lines += view(entries, at)
    return ''.join(line + '\n' for line in lines)


def longest(report):
    """How many entries the longest topic has."""
    return max(len(entries) for _, _, entries in topics(report))


def has_keys(report):
    """Whether a message has a key."""
    said = [message(line) for _, _, entries in topics(report) for line in entries]
    return any(key != '-' for key, _ in filter(None, said))


def horizons(report):
    """Horizons worth asking for: none, each length of a topic and one below it, a third of the longest one, and the greatest."""
    lengths = {len(entries) for _, _, entries in topics(report)}
    return sorted({0, MOST_HORIZON, longest(report) // 3} | lengths | {length - 1 for length in lengths if length})


def geo(words, path):
    with open(path, 'rb') as script:
        done = subprocess.run([os.path.join(ROOT, 'geo'), *words], stdin=script, stdout=subprocess.PIPE, check=False)
    return done.returncode, done.stdout.decode()


def check(paths):
    asked, wrong = 0, 0
    for path in paths:
        status, report = geo(['run'], path)
        for horizon in horizons(report) if status == 0 else [0, MOST_HORIZON]:
            wanted = (0, compacted(report, horizon)) if status == 0 else (status, report)
            asked += 1
            if geo(['compact', str(horizon)], path) != wanted:
                wrong += 1
                print('%s: compact %d has another answer' % (path, horizon))
    print('%d answers to %d scripts, %d of them others' % (asked, len(paths), wrong))
    return wrong


def main(words):
    if len(words) > 1 and words[0] == 'check':
        return 1 if check(words[1:]) else 0
    if len(words) != 1 or not words[0].isascii() or not words[0].isdecimal():
        print(__doc__, file=sys.stderr)
        return 2
    sys.stdout.write(compacted(sys.stdin.read(), int(words[0])))
    return 0
