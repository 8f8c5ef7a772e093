"""Several events as one: what changed from before the first to behind the last."""
from . import steps as m


def thing_of(change):
    """What a change is of, where a later one of it replaces it."""
    return (type(change).__name__,) + change[:-2] if isinstance(change, (m.SubChange, m.SenderChange, m.Counted)) else None


def is_change(change, before):
    """Whether something changed in the end. Of a replicator its mark alone is none: it is told by what it brought over."""
    if isinstance(change, m.SenderChange):
        return before is None or (before.session, before.state) != (change.after.session, change.after.state)
    return before != change.after


def folded_changes(changes):
    """Of the changes of several events those that the last one of each thing does not replace."""
    changes, first, last = list(changes), {}, {}
    for at, change in enumerate(changes):
        thing = thing_of(change)
        if thing:
            first.setdefault(thing, change.before)
            last[thing] = at
    for at, change in enumerate(changes):
        thing = thing_of(change)
        if not thing:
            yield change
        elif last[thing] == at and is_change(change, first[thing]):
            yield change._replace(before=first[thing])
