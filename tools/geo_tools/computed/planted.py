"""Plants errors in the definitions of crates/geo_base, one at a time, and says which computed runs refuse each.

An error is one that a reader could overlook: one line of a definition changed. It is planted in a copy of the crate that
computes the runs of examples/ and runs/. An error that no run refuses is reported as STANDS, and the exit status is 1.

usage: geo_tools planted [WORD ..]   only the errors whose names have one of the words
"""
import glob
import os
import tempfile
import time

from ..program import ROOT
from . import definitions

# name: module of specs/, what stands there once, what is put in its place; then, where the new text needs it, the same for an import
ERRORS = {
    'an equal sequence id is accepted': ('Topic', 'nat_lt e.ident.seq i.seq)', 'nat_lt e.ident.seq (i.seq + 1))'),
    'duplicates by the producer alone': ('Entry', 'same_stream a b = (a.origin == b.origin) && bytes_eq', 'same_stream a b = bytes_eq'),
    'a ledger takes one entry more': ('Topic', '    if nat_lt (last_length ledgers) per\n    then slice_set', '    if nat_lt (last_length ledgers) (per + 1)\n    then slice_set'),
    'the mark moves over a hole': ('Cursor', 'if x == m then mark_from xs (m + 1) else m', 'mark_from xs (m + 1)'),
    'a target list is read by another bit': ('Entry', '(bits / (2 ^ y)) % 2 == 1', '(bits / (2 ^ (y % 2))) % 2 == 1'),
    'reset reads on': ('Replicator', 'state = replicator_state.Opening; read_index = 0;', 'state = replicator_state.Opening; read_index = s.read_index;'),
    'reset keeps the pending numbers': ('Replicator', 'state = replicator_state.Opening; read_index = 0; next = 0; pending = [] }', 'state = replicator_state.Opening; read_index = 0; next = 0; pending = s.pending }'),
    'a restart forgets the session number': ('Replicator', 'replicator_restarted s = record { cursor = s.cursor; session = s.session;', 'replicator_restarted s = record { cursor = s.cursor; session = 0;'),
    'a restart keeps the sender open': ('Replicator', 'session = s.session; state = replicator_state.Closed;', 'session = s.session; state = s.state;'),
    'a restart keeps the receiver open': ('Broker', 'receivers = map (λ r. None) b.receivers', 'receivers = b.receivers'),
    'a restart keeps the builder': ('Broker', '  sessions = map (λ s. None) b.sessions;\n  builder = None;', '  sessions = map (λ s. None) b.sessions;\n  builder = b.builder;'),
    'a restart keeps the consumers': ('Broker', 'subs = map cleared b.subs', 'subs = b.subs'),
    'a stop behind two writes opens no ledger': ('Plan', '(take k p.writes ++ write.Ledger ∷ [])', '(take k p.writes)'),
    'a halt does no write': ('Plan', '(take k p.writes ++ write.Ledger ∷ [])', '(write.Ledger ∷ [])'),
    'a halt does all writes': ('Plan', '(take k p.writes ++ write.Ledger ∷ [])', '(p.writes ++ write.Ledger ∷ [])'),
    'twice looks at the first state': ('Plan', 'let q = f (done per b p) in', 'let q = f b in'),
    'a lost packet keeps the session': ('Forwarding', 'take_fate h b x p fate.Lost = closes x', 'take_fate h b x p fate.Lost = quiet_plan []'),
    'a packet of another session is taken': ('Forwarding', 'if is_open (receiver_at b x) p.session then', 'if is_open (Some p.session) p.session then'),
    'a receipt of another session counts': ('Forwarding', 'if p.session == (replicator_at b y).session then', 'if p.session == p.session then'),
    'a duplicate gets no receipt': ('Storing', 'then next_position per b.ledgers else no_position)', 'then next_position per b.ledgers else next_position per b.ledgers)'),
    'a target list is not respected': ('Reading', '(e.ident.origin == h.own) && goes_to y e.to', 'e.ident.origin == h.own'),
    'replicated messages are replicated again': ('Reading', '(e.ident.origin == h.own) && goes_to y e.to', 'goes_to y e.to'),
    'a response names its own position': ('Markers', 'position = position_at b.ledgers (length b.entries - 1)', 'position = next_position h.per_ledger b.ledgers'),
    'a snapshot while one is made': ('Markers', 'list_any (λ (s : Subscription). s.replicated) b.subs && is_none b.builder', 'list_any (λ (s : Subscription). s.replicated) b.subs'),
    'a snapshot without a replicated subscription': ('Markers', 'list_any (λ (s : Subscription). s.replicated) b.subs && is_none b.builder', 'is_none b.builder'),
    'done after one round': ('SnapshotBuilder', 'if b.second || (b.clusters == 2) then', 'if b.second || nat_lt 1 b.clusters then'),
    'the first id counts in the second round': ('SnapshotBuilder', 'current_id b = if b.second then second_id b.id else b.id', 'current_id b = b.id'),
    'an answer of the first round counts in the second': ('SnapshotBuilder', 'bytes_eq id (current_id b) &&', '(bytes_eq id b.id || bytes_eq id (current_id b)) &&'),
    'the earliest local position is kept': ('Position', 'later_position p q = if position_lt p q then q else p', 'later_position p q = if position_lt p q then p else q'),
    'the last local position is kept': ('Position', 'later_position p q = if position_lt p q then q else p', 'later_position p q = q'),
    'the second round replaces positions': ('SnapshotBuilder', 'if b.second then b.cut.remote else slice_set', 'if b.second then slice_set b.cut.remote c (Some remote) else slice_set'),
    'a cluster is heard twice in a round': ('SnapshotBuilder', ' && not (has b.heard c)', ''),
    'an eleventh snapshot is kept': ('Cache', 'most_cached = 10', 'most_cached = 11'),
    'only the passed snapshot is given up': ('Cache', 'if any_passed mark (c ∷ cs) then not_passed mark cs else c ∷ cs', 'if nat_lt c.index mark then cs else c ∷ not_passed mark cs'),
    'the first passed snapshot is told': ('Cache', 'if any_passed mark cs then last_passed mark cs else if nat_lt c.index mark then Some c.cut else None', 'if nat_lt c.index mark then Some c.cut else last_passed mark cs'),
    'an update at an equal mark': ('Storing', 'last_passed (mark s.cursor) s.cache', 'last_passed (suc (mark s.cursor)) s.cache', 'Prelude.{', 'Prelude.{suc, '),
    'an update is judged before the write': ('Storing', 'w ∷ update_after h b (with_write w s)', 'w ∷ update_after h b s'),
    'an acknowledgement tells no update': ('Storing', 'with_write (write.Acks n is) s = with_acks is s', 'with_write (write.Acks n is) s = s'),
    'an update is judged before the offered snapshot': ('Offering', 'cursor_write h b (record s { cache = cached s.cache c })', 'cursor_write h b s'),
    'an update stops one short': ('Updating', 'updated_indexes y 0 (j + 1) b.entries', 'updated_indexes y 0 j b.entries'),
    'an update passes over all': ('Updating', 'is_updated y e = not (is_data e.content) || meant_for y e', 'is_updated y e = true'),
    'an update creates at Latest': ('Updating', 'write.Create n sub_kind.Exclusive true false', 'write.Create n sub_kind.Exclusive true true'),
    'cumulative stops one short': ('Acknowledging', 'up_to (Some i) = below (i + 1)', 'up_to (Some i) = below i'),
    'shared allows cumulative': ('Acknowledging', 'allows_cumulative sub_kind.Shared = false', 'allows_cumulative sub_kind.Shared = true'),
    'a detach drops what was due before': ('Subscription', 'due = with_indexes s.due (filter', 'due = with_indexes [] (filter'),
    'a detach drops what was out': ('Subscription', '(out_with c s.out));', '[]);'),
    'consumers of two kinds': ('Subscribing', '(not (same_kind kind s.kind) || same_kind kind sub_kind.Exclusive)', 'same_kind kind sub_kind.Exclusive'),
    'two exclusive consumers': ('Subscribing', '(not (same_kind kind s.kind) || same_kind kind sub_kind.Exclusive)', 'not (same_kind kind s.kind)'),
    'a subscription stays local': ('Subscribing', 'write.Alter s.name kind (s.replicated || replicated)', 'write.Alter s.name kind s.replicated'),
    'unsubscribe with another consumer': ('Subscribing', 'if nat_lt 1 (length sub.consumers) then', 'if nat_lt 9 (length sub.consumers) then'),
    'no permit is used': ('Dispatcher', 'used k = record k { permits = k.permits - 1 }', 'used k = k'),
    'shared keeps the order': ('Dispatcher', 'served sub_kind.Shared ks at = take at ks ++ drop (at + 1) ks ++ used (consumer_at ks at) ∷ []', 'served sub_kind.Shared ks at = slice_set ks at (used (consumer_at ks at))'),
    'failover serves the last': ('Dispatcher', 'pick sub_kind.Failover ks key = if_permitted ks 0', 'pick sub_kind.Failover ks key = if_permitted ks (length ks - 1)'),
    'a key goes to whoever has a permit': ('Dispatcher', 'pick sub_kind.KeyShared (k ∷ ks) key = if_permitted (k ∷ ks) (key_number key % length (k ∷ ks))', 'pick sub_kind.KeyShared (k ∷ ks) key = first_permitted 0 (k ∷ ks)'),
    'a key is counted by another number': ('Dispatcher', '(sum * 31 + byte) % 65536', '(sum * 33 + byte) % 65536'),
    'an offered index stays due': ('Dispatcher', 'due = filter (λ j. not (j == i)) s.due;', 'due = s.due;'),
    'a seek keeps the cache': ('Broker', 'changed b (change.Cleared n) = at_sub b n cleared', 'changed b (change.Cleared n) = at_sub b n (λ s. record (cleared s) { cache = s.cache })'),
    'a seek keeps the consumers': ('Broker', 'changed b (change.Cleared n) = at_sub b n cleared', 'changed b (change.Cleared n) = at_sub b n (λ s. record (cleared s) { consumers = s.consumers })'),
    'a seek passes the position': ('Seeking', 'cursor_write h b s (write.Seek s.name i)', 'cursor_write h b s (write.Seek s.name (suc i))', 'Prelude.{', 'Prelude.{suc, '),
    'a seek makes no update': ('Seeking', 'plan_of (cursor_write h b s (write.Seek s.name i))', 'plan_of (write.Seek s.name i ∷ [])'),
    'a reconnect keeps what is held': ('Client', 'connection = k.connection + 1; connected = true; held = [] }', 'connection = k.connection + 1; connected = true; held = k.held }'),
    'a reconnect sends no publish again': ('Client', 'commands_at s d k (i ∷ is) = command_at s d k (Some i) ++ commands_at s d k is', 'commands_at s d k (i ∷ is) = []'),
    'a sub line keeps the flow': ('Going', 'sub = Some k.done; flow = None; held = [] }', 'sub = Some k.done; flow = k.flow; held = [] }'),
    'an acknowledged message stays held': ('Going', 'held = without_first k.held i', 'held = k.held'),
    'every publish of a number is answered': ('Getting', 'if publishes d n i then is else i', 'if publishes d n i then without_seq d is n else i'),
    'a packet of another connection is got': ('Getting', 'if packet.session == k.connection then', 'if packet.session == packet.session then'),
    'CONNECT detaches nobody': ('Serving', 'session_becomes c s = change.Detach c ∷ change.Client c s ∷ []', 'session_becomes c s = change.Client c s ∷ []'),
    'a stop leaves packets under way': ('Link', 'discarded l = record { sent = l.sent; taken = length l.sent }', 'discarded l = l'),
    'settling counts idle events': ('Run', 'goes_on limits r (record (happens s r.world e) { idle = r.world.idle })', 'goes_on limits r (happens s r.world e)'),
    'settling counts its last round': ('Run', "[ true ↦ r' | false", "[ true ↦ counting_round r' | false"),
    'settling does not reset': ('Run', '(all_settle limits s r (resets_of (pairs s)))', 'r'),
    'the receipt of a halt goes out': ('Happening', '      links = taken_from p.takes w.links;\n      events = w.events + 1;\n    }\n\nabbrev pub halts', '      links = taken_from p.takes (delivered (from_broker s p.topic p.cluster) 0 p.plan.sent w.links);\n      events = w.events + 1;\n    }\n\nabbrev pub halts'),
    'a halt leaves its packet': ('Happening', '      links = taken_from p.takes w.links;\n      events = w.events + 1;\n    }\n\nabbrev pub halts', '      links = w.links;\n      events = w.events + 1;\n    }\n\nabbrev pub halts'),
    'the backlog counts markers': ('Cursor', '(if d && not (has set i) then 1 else 0)', '(if not (has set i) then 1 else 0)'),
}

def planted(text, edit):
    for old, new in zip(edit[::2], edit[1::2]):
        if text.count(old) != 1:
            sys.exit('an error does not fit its module: %r stands there %d times' % (old, text.count(old)))
        text = text.replace(old, new)
    return text


def refusing(crate, module, edit):
    """What the checker says of a copy of the crate with an error planted in it."""
    path = os.path.join(crate, 'specs', module + '.antt')
    with open(path) as file:
        sound = file.read()
    with open(path, 'w') as file:
        file.write(planted(sound, edit))
    verdict = definitions.checked(crate)
    with open(path, 'w') as file:
        file.write(sound)
    return verdict


def worded(said):
    """What is told where the crate was not proved. A lemma that is refused, or a function that says a number of the definitions, is known
    before any run is computed."""
    if said.runs and not said.other:
        return 'refused by %d: %s' % (len(said.runs), ' '.join(sorted(said.runs)[:4]))
    if said.lemmas and said.lemmas == said.other:
        return 'refused by a lemma: ' + said.lemmas[0]
    if said.functions and not said.other and not said.runs:
        return 'refused by a function: ' + said.functions[0]
    return 'NOT COMPUTED: ' + (said.other or [line for line in said.said if line])[-1]


def main(words):
    chosen = {name: error for name, error in ERRORS.items() if not words or any(word in name for word in words)}
    stands = 0
    with tempfile.TemporaryDirectory() as where:
        # the worked examples first: they are short, and a run that is refused takes the checker longest
        copies = []
        for folder in ('examples', 'runs'):
            os.makedirs(os.path.join(where, folder))
            runs = sorted(glob.glob(os.path.join(ROOT, folder, '*.geo')))
            copies.append(definitions.copy_of_crate(os.path.join(where, folder), runs, as_test=True))
        for name, (module, *edit) in chosen.items():
            began, verdict = time.time(), 'STANDS'
            for crate in copies:
                said = refusing(crate, module, edit)
                if not said.is_proved:
                    verdict = worded(said)
                    break
            stands += not verdict.startswith('refused')
            print('%-48s %s (%.0f s)' % (name, verdict, time.time() - began), flush=True)
    print('%d errors, %d not refused' % (len(chosen), stands))
    return 1 if stands else 0
