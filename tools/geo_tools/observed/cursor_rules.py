"""Rules of subscriptions: what a cursor has that nobody dealt with, what came again, and what would come again now."""


def _of_transaction(entry):
    return '; it is of the transaction %s, and of an aborted one dispatch passes over a message' % entry.transaction if entry.transaction else ''


def cursors(judge):
    """Each message in a cursor was acknowledged by a client in some cluster, or an operator set the subscription past it."""
    for cluster, topic in judge.seen.topics.items():
        for sub, cursor in topic.cursors.items():
            acked, settled = judge.settled.acked.get((cluster, sub), set()), judge.settled.of(sub)
            for entry in topic.entries:
                if not entry.is_message() or not cursor.has(entry.position):
                    continue
                if entry.identity not in settled:
                    _unsettled(judge, topic, sub, entry)
                elif entry.index not in acked and not judge.passes(cluster, sub, entry.index) and not judge.settled.was_set(cluster, sub, entry.index):
                    judge.say_of('untold', cluster, 'subscription %s is done with the %s at %s, which a client acknowledged elsewhere; no update says so' % (
                        sub, entry, entry.place), entry, sub)


def _unsettled(judge, topic, sub, entry):
    done = 'subscription %s is done with the %s at %s' % (sub, entry, entry.place)
    if judge.may_be_settled(sub, entry):
        judge.say_of('unsure', topic.cluster, done + '; a line of the log in a cluster where the message is not to be seen may have dealt with it', entry, sub)
        return
    update = judge.passes(topic.cluster, sub, entry.index)
    why = 'the update of %s at %s names it' % (update.identity.origin, update.place) if update else 'no update of another cluster names it'
    judge.say_of('skipped', topic.cluster, '%s, which no client acknowledged in any cluster; %s%s' % (done, why, _of_transaction(entry)), entry, sub)


def repeats(judge):
    """What a client acknowledged and the cursor here does not have."""
    for cluster, topic in judge.seen.topics.items():
        for sub, cursor in topic.cursors.items():
            by_client = judge.settled.by_client.get(sub, set())
            for entry in topic.entries:
                if entry.is_message() and entry.identity in by_client and not cursor.has(entry.position):
                    judge.say_of('repeats', cluster, 'subscription %s has not the %s at %s, which a client acknowledged: it would come again' % (
                        sub, entry, entry.place), entry, sub)


def redelivered(judge):
    """A message that came although the cluster had given a receipt for its acknowledgement, with no seek and no new subscription between."""
    done = {}
    for line in judge.seen.log:
        key = (line.cluster, line.sub)
        if line.did == 'acked':
            done.setdefault(key, {})[line.position, line.batch] = line
        elif line.did in ('seek', 'deleted', 'created'):
            done.pop(key, None)
        elif line.did == 'got' and (line.position, line.batch) in done.get(key, {}):
            entry = judge.seen.topics[line.cluster].entry_at(line.position)
            acked = done[key][line.position, line.batch]
            judge.say('again', line.cluster, '%s got %s at %d:%d again on subscription %s, after %s had a receipt there for its acknowledgement' % (
                line.client, 'the %s' % entry if entry else 'the message', *line.position, line.sub, acked.client),
                entry and entry.identity, line.sub, line.where)
