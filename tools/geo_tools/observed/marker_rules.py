"""Rules of markers: whether a snapshot is a cut, an update has a snapshot, and what updates tell was dealt with."""
from .markers import Snapshot, Update
from .places import shown


def own_markers(judge):
    """The snapshots and updates of each cluster, in its own topic."""
    for cluster, topic in judge.seen.topics.items():
        snapshots, needs = {}, {}
        for entry in topic.entries:
            if entry.identity.origin != cluster:
                continue
            if isinstance(entry.marker, Snapshot):
                _snapshot(judge, topic, entry, needs)
                snapshots.setdefault(tuple(sorted(entry.marker.remote)), []).append(entry)
            elif isinstance(entry.marker, Update):
                _update(judge, topic, entry, snapshots)


def _snapshot(judge, topic, entry, needs):
    """It names its own position and one of each other cluster, and what is meant to come from there up to it stands here by then."""
    cluster, local = topic.cluster, entry.marker.local
    name = 'the snapshot at %s' % entry.place
    if local not in topic.at or topic.at[local] >= entry.index:
        if not topic.is_gone(local):
            judge.say_of('cut', cluster, '%s names its own position %s, where nothing stands before it' % (name, shown(local)), entry)
        return
    for there in judge.seen.topics.values():
        if there is topic:
            continue
        named = [place for of, place in entry.marker.remote if of == there.cluster]
        if len(named) != 1:
            judge.say_of('cut', cluster, '%s names %s %d times' % (name, there.cluster, len(named)), entry)
        elif there.seen and not there.is_gone(named[0]) and (judge.seen.quiet or not there.is_newer(named[0])):
            if there.cluster not in needs:
                needs[there.cluster] = judge.needed(cluster, there)
            _covered(judge, topic, entry, there, named[0], needs[there.cluster])


def _covered(judge, topic, entry, there, place, needs):
    """What another cluster has for this one up to a position that a snapshot names stands here at or before its local position."""
    name, local = 'the snapshot at %s' % entry.place, topic.at[entry.marker.local]
    if place not in there.at:
        judge.say_of('cut', topic.cluster, '%s names %s of %s, where nothing stands' % (name, shown(place), there.cluster), entry)
    elif needs[there.at[place]] > local:
        for source in there.entries[:there.at[place] + 1]:
            mine = judge.by_identity[topic.cluster].get(source.identity)
            if source.is_message() and source.is_for(topic.cluster) and (mine is None or mine.content != source.content or mine.index > local):
                judge.say_of('cut', topic.cluster, '%s covers the %s at %s of %s, which did not stand here by then' % (
                    name, source, source.place, there.cluster), entry, identity=source.identity)
                return


def _update(judge, topic, entry, snapshots):
    """It has the positions of a snapshot before it, whose local position its cursor has passed."""
    cluster, sub = topic.cluster, entry.marker.sub
    name = 'the update of subscription %s at %s' % (sub, entry.place)
    told = snapshots.get(tuple(sorted(entry.marker.remote)))
    if not told:
        if not topic.trimmed:
            judge.say_of('update', cluster, name + ' has the positions of no snapshot before it', entry, sub)
        return
    # a cursor that was read before the entries may be older than the update, and one that was set back tells nothing
    if not judge.seen.quiet or (cluster, sub) in judge.settled.moved_back:
        return
    if sub not in topic.cursors:
        judge.say_of('update', cluster, name + ' is of a subscription that is not here', entry, sub)
        return
    local = min(snapshot.marker.local for snapshot in told)
    unsettled = judge.first_open(topic, sub)
    if unsettled is not None and unsettled.position <= local:
        judge.say_of('update', cluster, '%s says that it is done up to %s, and it is not done with the %s at %s; '
                     'the broker may have come back with an older cursor' % (
            name, shown(local), unsettled, unsettled.place), entry, sub, unsettled.identity)


def told(judge):
    """What an update lets others pass over, as far as it was meant for the update's own cluster, somebody dealt with. It asks no cursor,
    so it also judges an update on which nobody has acted yet."""
    first = {}
    for cluster, topic in judge.seen.topics.items():
        for update in topic.entries:
            origin = update.identity.origin
            if not isinstance(update.marker, Update) or origin != cluster and judge.seen.topics[origin].seen:
                continue
            for of, place in update.marker.remote:
                there, sub = judge.seen.topics[of], update.marker.sub
                if not there.seen or of == origin:
                    continue
                if _is_unplaced(judge, there, place):
                    judge.say_of('told', cluster, 'the update of subscription %s at %s names %s of %s, where nothing stands' % (
                        sub, update.place, shown(place), of), update, sub)
                    continue
                if (origin, sub, of) not in first:
                    first[origin, sub, of] = _first_unsettled(judge, there, origin, sub)
                entry = first[origin, sub, of]
                if entry is not None and entry.position <= place:
                    judge.say_of('told', cluster, 'the update of subscription %s at %s names %s of %s, and nobody acknowledged the %s at %s there' % (
                        sub, update.place, shown(place), of, entry, entry.place), update, sub)


def _is_unplaced(judge, there, place):
    """Whether nothing stands at a position, which was neither deleted nor stored later than what was read."""
    return place not in there.at and not there.is_gone(place) and (judge.seen.quiet or not there.is_newer(place))


def _first_unsettled(judge, there, origin, sub):
    """The first message of a topic that is meant for a cluster and that nobody dealt with."""
    settled = judge.settled.of(sub)
    return next((entry for entry in there.entries if entry.is_message() and entry.is_for(origin) and entry.identity not in settled
                 and not judge.may_be_settled(sub, entry)), None)
