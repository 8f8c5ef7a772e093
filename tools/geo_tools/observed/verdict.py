"""The program's verdict on a folder: `geo observe` judges its text, and this package's rules put the findings into words.

Each finding is its topic, rule, cluster, what it is of, and the subscription where it has one. The program says of an update at each
cluster where it stands what is said here where it was stored first; it has no rule `update`; and it refuses topics whose beginning may be
deleted, which this package's rules judge alone.
"""
import subprocess

from ..program import NO_PROGRAM, Failed, kept_program
from .findings import Finding
from .folder import read_folder
from .judge import Judge
from .observation_text import ObservationText

# how the program's answer ends: safe, found, and refused
SAFE, FOUND = 0, 11
# the program's words that are other ones here
RULES = {'unplaced': 'cut', 'apart': 'order'}
# of these a finding is of a marker, so of its entry
OF_ENTRY = ('cut', 'told')
# the rule that the program does not have
ALONE = 'update'


def answered(program, text):
    """The status and the lines that the program answers to a text."""
    try:
        done = subprocess.run([program, 'observe'], input=text.encode('ascii'), capture_output=True, check=False)
    except OSError as error:
        raise Failed('%s: %s' % (program, error.strerror), NO_PROGRAM) from error
    if done.returncode not in (SAFE, FOUND):
        raise Failed('geo observe ended with status %d: %s' % (done.returncode, done.stdout.decode('latin-1').strip()), done.returncode)
    return done.returncode, done.stdout.decode('ascii').splitlines()


class Answer:
    """The program's findings about a folder, in this package's words."""

    def __init__(self, text, lines):
        self.seen = {text.topics.of(seen.topic): seen for seen in text.observations}
        names = text.words
        self.clusters, self.subs = ({alias: name for name, alias in of.known.items()} for of in (names.clusters, names.subs))
        self.producers = {alias: name for name, alias in names.producers.known.items()}
        self.said = {self._finding(line.split(' ')[1:]): line for line in lines if not line.startswith('observed safe ')}
        self.found = set(self.said)

    def _entry(self, seen, cluster, index):
        return seen.topics[self.clusters[cluster]].entries[int(index)]

    def _finding(self, words):
        rule, seen = words[0], self.seen[words[1]]
        of, sub = None, None
        if rule == 'lost':
            cluster, of = words[2], (self.clusters[words[2]], self.producers[words[3]], int(words[4]))
        elif rule == 'skipped':
            cluster, sub, of = words[2], self.subs[words[3]], self._entry(seen, words[2], words[4])
        elif rule == 'gap':
            cluster, of = words[2], self._entry(seen, words[3], words[4])
        elif rule == 'unreceived':
            cluster, of = words[3], self._entry(seen, words[2], words[4])
        elif rule == 'apart':
            cluster, of = words[5], self._entry(seen, words[5], words[6])
        else:
            cluster, of = words[2], self._entry(seen, words[2], words[3])
        rule = RULES.get(rule, rule)
        if rule == 'told' and of.identity.origin != self.clusters[cluster] and seen.topics[of.identity.origin].seen:
            # what is said where it was stored first is enough
            rule = 'told elsewhere'
        key = of if rule == 'lost' else of.where if rule.split(' ')[0] in OF_ENTRY else tuple(of.identity)
        return seen.topic, rule, self.clusters[cluster], key, sub


def key_of(seen, it):
    """A finding of this package, as those of the program are told."""
    return seen.topic, it.rule, it.cluster, it.where if it.rule in OF_ENTRY else tuple(it.identity), it.sub if it.rule == 'skipped' else None


def own(seen):
    """What this package finds against one observation."""
    judge = Judge(seen)
    judge.judged()
    return {key_of(seen, it) for it in judge.found if it.is_fault and it.rule != ALONE}


class Verdict:
    """What the program finds against the topics of a folder that it judges: all but those whose beginning may be deleted."""

    def __init__(self, observations, program=None):
        self.judged = [seen for seen in observations if not any(topic.trimmed for topic in seen.topics.values())]
        self.answer = None
        if self.judged:
            program = program or kept_program()
            if program is None:
                raise Failed('there is no program of this source, which judges: tools/build makes one', NO_PROGRAM)
            text = ObservationText(self.judged)
            self.answer = Answer(text, answered(program, text.text())[1])

    def faults(self, seen, found):
        """The findings of a topic, of which the program says which are faults: one that it does not find is none, and one that has no
        words here is told by the program's line."""
        if seen not in self.judged:
            return found
        theirs = {key: line for key, line in self.answer.said.items() if key[0] == seen.topic}
        kept = [it for it in found if not it.is_fault or it.rule == ALONE or key_of(seen, it) in theirs]
        ours = {key_of(seen, it) for it in kept if it.is_fault and it.rule != ALONE}
        return kept + [Finding(key[1].split(' ')[0], key[2], 'the program says: ' + line) for key, line in sorted(theirs.items(), key=str)
                       if key not in ours and not _follows(key, ours)]


def compared(folder, program):
    """What this package alone finds, what the program alone finds, and whether it answers as it found."""
    observations = read_folder(folder)[0]
    text = ObservationText(observations)
    status, lines = answered(program, text.text())
    theirs = Answer(text, lines).found
    ours = {it for seen in observations for it in own(seen)}
    return ours - theirs, {it for it in theirs - ours if not _follows(it, ours)}, (status == SAFE) == (not theirs)


def _follows(it, ours):
    """Whether what the program says follows from what is said here: it says of what stands a second time that it is out of order as well."""
    topic, rule, *what = it
    return rule == 'told elsewhere' or rule == 'order' and (topic, 'twice', *what) in ours
