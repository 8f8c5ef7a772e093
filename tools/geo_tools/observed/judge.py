"""Judges an observation: every rule over what was read, and what they share."""
from bisect import bisect_left

from . import cursor_rules, entry_rules, marker_rules, relaxed
from .findings import Finding, joined
from .markers import Update
from .settled import Settled

# of what never stands here: an index above all
NEVER = 2 ** 63


class Judge:
    """An observation with what the rules look up: messages by identity, what the logs settle, and what updates let pass."""

    def __init__(self, seen):
        self.seen, self.found, self.assumed, self.opens = seen, [], set(), {}
        self.by_identity = {cluster: {} for cluster in seen.clusters}
        for cluster, topic in seen.topics.items():
            for entry in topic.entries:
                self.by_identity[cluster].setdefault(entry.identity, entry)
        self.settled = Settled(seen, self.say)
        self.updates = self._updates()

    def say(self, rule, cluster, text, identity=None, sub=None, where=''):
        """Takes a finding; of a line of the log the same one once."""
        if rule == 'assumed':
            if where in self.assumed:
                return
            self.assumed.add(where)
        self.found.append(Finding(rule, cluster, text, identity, sub, where))

    def say_of(self, rule, cluster, text, entry, sub=None, identity=None):
        """Takes a finding of an entry, with its file and line."""
        self.say(rule, cluster, text, identity or entry.identity, sub, entry.where)

    def judged(self, verdict=None):
        """All findings in order; those that are faults by a verdict, where there is one."""
        for rule in (entry_rules.once, entry_rules.carried, entry_rules.survivors, entry_rules.receipts, cursor_rules.cursors,
                     cursor_rules.repeats, cursor_rules.redelivered, marker_rules.own_markers, marker_rules.told, relaxed.relaxed):
            rule(self)
        return joined(verdict.faults(self.seen, self.found) if verdict else self.found)

    def may_be_settled(self, sub, entry):
        """Whether a line whose message can't be told may have dealt with it: the message is not to be seen in that line's cluster."""
        return any(entry.identity not in self.by_identity[cluster] for cluster in self.settled.unsure.get(sub, ()))

    def _updates(self):
        """By cluster, subscription and the update's cluster: the updates in the topic's order, and how far they let pass by then."""
        found = {}
        for cluster, topic in self.seen.topics.items():
            for entry in topic.entries:
                if not isinstance(entry.marker, Update) or entry.identity.origin == cluster:
                    continue
                named = [place for of, place in entry.marker.remote if of == cluster]
                if len(named) == 1 and named[0] in topic.at:
                    them, far = found.setdefault((cluster, entry.marker.sub), {}).setdefault(entry.identity.origin, ([], []))
                    them.append(entry)
                    far.append(max(topic.at[named[0]], far[-1] if far else -1))
        return found

    def passes(self, cluster, sub, index):
        """The first update in a cluster's topic that lets a subscription pass over an index, or None."""
        entry, found = self.seen.topics[cluster].entries[index], []
        for origin, (them, far) in self.updates.get((cluster, sub), {}).items():
            at = bisect_left(far, index)
            if at < len(far) and (not entry.is_message() or entry.is_for(origin)):
                found.append(them[at])
        return min(found, key=lambda update: update.index, default=None)

    def first_open(self, topic, sub):
        """The first entry that a cursor does not have; None where it has all."""
        key = (topic.cluster, sub)
        if key not in self.opens:
            cursor = topic.cursors[sub]
            self.opens[key] = next((entry for entry in topic.entries if not cursor.has(entry.position)), None)
        return self.opens[key]

    def needed(self, cluster, there):
        """For each index of another cluster's topic the greatest index here of what is meant for this cluster up to it."""
        out, most = [], -1
        absent = -1 if self.seen.topics[cluster].trimmed else NEVER
        for entry in there.entries:
            if entry.is_message() and entry.is_for(cluster):
                mine = self.by_identity[cluster].get(entry.identity)
                most = max(most, mine.index if mine and mine.content == entry.content else absent)
            out.append(most)
        return out
