"""How scripts are written again that were read: sections of the input and of the expected output of crates/geo_examples.

The scripts are each NAME.geo of examples/ and some of runs/. What is written of one is its declarations in their canonical order (geo,
ledger where it is not 50000, chance, clusters, topics, clients, the `do` lines client by client, each TO list in the order of the
clusters), then the lines of its schedule as they stand in the file. The program's own output is never read. examples.py calls `sections`.
"""
import os
import re

from ..program import ROOT

# of the random schedules one of each kind, and those of all kinds
RUNS = re.compile(r'.*_1\.geo|all_.\.geo')
DECLARES = ('geo', 'ledger', 'chance', 'cluster', 'topic', 'client', 'do')


def names():
    """The scripts, each as DIRECTORY/NAME, in order."""
    for directory, wanted in (('examples', re.compile(r'.*\.geo')), ('runs', RUNS)):
        for file in sorted(os.listdir(os.path.join(ROOT, directory))):
            if wanted.fullmatch(file):
                yield directory + '/' + file[:-len('.geo')]


def script(name):
    with open(os.path.join(ROOT, name + '.geo'), encoding='ascii') as file:
        return file.read()


def in_order(line, clusters):
    """A `do` line with its TO list in the order of the clusters."""
    words = line.split(' ', 6)
    if words[2] == 'pub' and words[4] != '*':
        words[4] = ','.join(sorted(words[4].split(','), key=clusters.index))
    return ' '.join(words)


def written(text):
    """The lines that write a script again."""
    lines = [line for line in text.split('\n') if line and not line.startswith('#')]
    by = {word: [line for line in lines if line.split(' ')[0] == word] for word in DECLARES}
    clusters = [line.split(' ')[1] for line in by['cluster']]
    clients = [line.split(' ')[1] for line in by['client']]
    done = [in_order(line, clusters) for client in clients for line in by['do'] if line.split(' ')[1] == client]
    schedule = [line for line in lines if line.split(' ')[0] not in DECLARES]
    ledger = [line for line in by['ledger'] if line != 'ledger 50000']
    return by['geo'] + ledger + by['chance'] + by['cluster'] + by['topic'] + by['client'] + done + schedule


def sections():
    """The scripts, each as its name, its text and what is written of it."""
    for name in names():
        text = script(name)
        yield 'back ' + name, text.encode(), ('\n'.join(written(text)) + '\n').encode()
