"""tools/observed: each rule on a folder that is written by hand, what is refused and what is relaxed, and broken files."""
import os
import random
import tempfile
import unittest

from geo_tools.observed import markers
from geo_tools.observed.cursors import read_ranges
from geo_tools.observed.main import FAULT, NOT_EXPLAINED, NOT_READ
from geo_tools.observed.markers import Request, Response, Snapshot, Update

from .dumps import Dumps, carried, entry, log, marker, observed
from .played import plays

FORTY = 'the-subscription/of the billing service-1'


class Says(unittest.TestCase):
    """What tests of findings share."""

    def says(self, made, *lines, status=FAULT):
        """The findings are these, no more and no other, each by the beginning of its line; gives the output."""
        ended, out, err = made.judged()
        said = [line for line in out.split('\n') if line.startswith(('orders: FAULT', 'orders: note'))]
        self.assertEqual(err, '')
        self.assertEqual(len(said), len(lines), out)
        for line, wanted in zip(said, lines):
            self.assertTrue(line.startswith('orders: ' + wanted), '%s\nand not %s' % (line, wanted))
        self.assertEqual(ended, status, out)
        return out


class Said(Says):
    """Each test changes a healthy folder, and says what is found."""

    def test_healthy(self):
        out = self.says(carried(), status=0)
        self.assertEqual(out, 'orders: sub billing acknowledged 0 passed-over 0 again 0 after-move 0 backlog east=3 west=3 would-repeat east=0 west=0\n'
                              'orders: no fault; 6 entries and 0 lines of logs read, 0 lost\n')

    def test_twice(self):
        made = carried()
        made.entries['west'].append(entry('0:3', sequence=1, text='order 1', replicated_from='east'))
        self.says(made, 'FAULT twice at west: the message east shop 1 stands at 0:1 and again at 0:3 (also order) [west/orders/entries.jsonl line 4]')

    def test_out_of_order(self):
        made = carried()
        made.entries['east'].append(entry('0:3', sequence=9))
        made.entries['east'].append(entry('0:4', sequence=5))
        self.says(made, 'FAULT twice at east: the message east shop 5 stands at 0:4, after the sequence id 9 of its producer [', 'note missing', 'note missing')

    def test_missing_in_the_midst_and_at_the_end(self):
        made = carried(4)
        del made.entries['west'][3], made.entries['west'][1]
        out = self.says(made, 'FAULT gap at west: the message east shop 1, at 0:1 in the topic of east, is missing, though the later message east shop 2 is here [east/orders/entries.jsonl line 2]',
                        'note missing at west: the message east shop 3, at 0:3 in the topic of east, is not here yet')
        self.assertIn('west lacks 1 message of east, which is lost if east never returns', out)

    def test_nowhere(self):
        made = carried()
        made.entries['west'][2]['payload'] = 'AAAA'
        made.entries['west'].append(entry('0:3', 'else', replicated_from='east'))
        self.says(made, 'FAULT nowhere at west: the message east shop 2 at 0:2 is another one than at 0:2 in the topic of east [west/orders/entries.jsonl line 3]',
                  'FAULT nowhere at west: the message east else 0 at 0:3 stands nowhere in the topic of east', 'note missing at west: the message east shop 2')

    def test_not_meant(self):
        made = carried()
        for cluster, targets in (('east', 'north, south'), ('west', ['south', 'north'])):
            made.entries[cluster][2]['headers']['X-Pulsar-replicated-to'] = targets
        self.says(made, 'FAULT nowhere at west: the message east shop 2 at 0:2 was not meant for west')

    def test_order(self):
        made = carried()
        lines = made.entries['west']
        lines[0]['headers']['X-Pulsar-producer-name'] = made.entries['east'][0]['headers']['X-Pulsar-producer-name'] = 'other'
        lines[0], lines[1] = lines[1], lines[0]
        lines[0]['headers']['X-Pulsar-Message-ID'], lines[1]['headers']['X-Pulsar-Message-ID'] = '0:0', '0:1'
        self.says(made, 'FAULT order at west: the message east other 0 at 0:1 stands after the message east shop 1, before which it stands in the topic of east')

    def test_replicator(self):
        made = carried()
        del made.entries['west'][2]
        made.cursor('east', 'pulsar.repl.west', '0:0', '[(0:1..0:2]]')
        self.says(made, 'FAULT unreceived at west: the message east shop 2, at 0:2 in the topic of east, is not here, and the cursor of its replicator has it', 'note missing')

    def test_lost(self):
        made = carried()
        made.log = [log('receipt', 'east', '0:%d' % number, producer='shop', sequence=number) for number in range(4)]
        made.log.append(log('receipt', 'east', '-1:-1', producer='shop', sequence=9))
        self.says(made, 'FAULT lost at east: message east shop 3, for which bill has a receipt of 0:3, does not stand there nor anywhere else [clients.jsonl line 4]')

    def test_receipt_of_another_position(self):
        made = carried()
        made.log = [log('receipt', 'east', '0:1', producer='shop', sequence=2)]
        self.says(made, 'note elsewhere at east: message east shop 2, for which bill has a receipt of 0:1, stands at 0:2 [clients.jsonl line 1]', status=0)

    def test_skipped(self):
        made = carried()
        made.cursor('west', 'billing', '0:1')
        made.log = [log('ack', 'east', '0:0')]
        self.says(made, 'FAULT skipped at west: subscription billing is done with the message east shop 1 at 0:1, which no client acknowledged in any cluster; '
                        'no update of another cluster names it [west/orders/entries.jsonl line 2]',
                  'note repeats at east: subscription billing has not the message east shop 0 at 0:0, which a client acknowledged: it would come again',
                  'note untold at west: subscription billing is done with the message east shop 0 at 0:0')

    def test_explained_by_a_client_latest_and_seek(self):
        made = carried()
        made.cursor('west', 'billing', '0:1')
        for line in (log('ack', 'west', '0:1', cumulative=True), log('created', 'west', initial='latest', end='0:1'), log('seek', 'west', '0:2'),
                     log('seek', 'west', 'end', end='0:1')):
            made.log = [line]
            out = made.judged()[1]
            self.assertNotIn('FAULT', out)
            self.assertNotIn('untold', out)

    def test_again(self):
        made = carried()
        made.cursor('east', 'billing', '0:0')
        made.log = [log(did, 'east', '0:0') for did in ('got', 'ack', 'acked', 'got')]
        out = self.says(made, 'note repeats at west: subscription billing has not the message east shop 0',
                        'note again at east: bill got the message east shop 0 at 0:0 again on subscription billing, after bill had a receipt there for its acknowledgement [clients.jsonl line 4]',
                        status=0)
        self.assertIn('again 1 after-move 0', out)

    def test_log_without_end_and_of_another_topic(self):
        made = carried()
        made.log = [log('created', 'east', initial='latest', at=1), log('got', 'east', '0:2', at=2), log('got', 'east', '0:2', topic='bills')]
        made.cursor('east', 'billing', '0:1')
        out = self.says(made, 'note assumed at east: subscription billing is created at Latest, and `end` does not say where: taken to be below 0:2, which it got first', status=0)
        self.assertIn('clients.jsonl: 1 lines are of topics that are not in drill.json, and are not judged', out)

    def test_not_read(self):
        made = carried(unseen=['east'])
        made.cursor('west', 'billing', '0:1')
        made.log = [log('ack', 'east', '0:0', ident=['east', 'shop', 0]), log('receipt', 'east', '0:7', producer='shop', sequence=7)]
        self.says(made, 'FAULT skipped at west: subscription billing is done with the message east shop 1', 'note missing at east: message east shop 7, for which bill has a receipt, '
                  'stands in no cluster that was read', 'note untold at west')
        made.log.append(log('ack', 'east', '0:1'))
        self.says(made, 'note missing', 'note untold', 'note unsure at west: subscription billing is done with the message east shop 1',
                  'note unplaced at east: subscription billing acknowledges 0:1 of east, which was not read, and `ident` does not say', status=0)

    def test_survivors(self):
        made = Dumps('east', 'west', 'north', unseen=['east'])
        for cluster, text in (('west', 'a'), ('north', 'b')):
            made.entries[cluster] = [entry('0:0', text=text, replicated_from='east')]
        self.says(made, 'FAULT order at north: of the cluster east, which was not read, west has the message east shop 0 at 0:0, where north has the message east shop 0 at 0:0')

    def test_newer_where_all_moves(self):
        made = carried(quiet=False)
        del made.entries['east'][2]
        self.says(made, 'note newer at west: the message east shop 2 at 0:2 is newer than what was read of east', status=0)
        made.drill['quiet'] = True
        self.says(made, 'FAULT nowhere at west: the message east shop 2')


class Markers(Says):
    """A snapshot of east: what of west's goes with its position 0:1."""

    def made(self, remote='0:1', mark='0:9', local='0:1'):
        made = carried(2)
        for cluster, line in (('east', marker('0:2', Snapshot('s', (0, int(local[2:])), (('west', (0, int(remote[2:]))),)))),
                              ('east', marker('0:3', Update('billing', (('west', (0, int(remote[2:]))),))))):
            made.entries[cluster].append(line)
        made.log = [log('ack', 'east', '0:1', cumulative=True)]
        made.cursor('east', 'billing', mark)
        made.entries['west'] += [marker('0:2', Snapshot('s', (0, int(local[2:])), (('west', (0, int(remote[2:]))),)), replicated_from='east'),
                                 marker('0:3', Update('billing', (('west', (0, int(remote[2:]))),)), replicated_from='east')]
        made.cursor('west', 'billing', remote)
        return made

    def test_encoding(self):
        # by PulsarMarkers.proto and the encoding of Protocol Buffers: field 1 a text, field 2 a position of two numbers
        self.assertEqual(markers.payload_of(Response('s', ('w', (300, 2)))), b'\x0a\x01s\x12\x0a\x0a\x01w\x12\x05\x08\xac\x02\x10\x02')
        for kind in (Request('s', 'east'), Response('s', ('w', (300, 2))), Snapshot('s', (1, 2), (('w', (3, 4)), ('n', (2 ** 40, 0)))), Update('b', (('w', (3, 4)),))):
            self.assertEqual(markers.read_marker(markers.NUMBERS[type(kind)], markers.payload_of(kind)), kind)

    def test_followed(self):
        self.says(self.made(), status=0)

    def test_cut(self):
        made = self.made('0:4')
        made.entries['west'].append(entry('0:4', 'west_shop'))
        made.log.append(log('ack', 'west', '0:4'))
        self.says(made, 'FAULT cut at east: the snapshot at 0:2 covers the message west west_shop 0 at 0:4 of west, which did not stand here by then',
                  'note missing at east: the message west west_shop 0')
        self.says(self.made('0:9'), 'FAULT cut at east: the snapshot at 0:2 names 0:9 of west, where nothing stands',
                  'FAULT told at east: the update of subscription billing at 0:3 names 0:9 of west, where nothing stands', 'note untold', 'note untold')
        self.says(self.made(local='0:7'), 'FAULT cut at east: the snapshot at 0:2 names its own position 0:7, where nothing stands before it')

    def test_told_and_skipped(self):
        made = self.made()
        made.log = [log('ack', 'east', '0:0')]
        self.says(made, 'FAULT told at east: the update of subscription billing at 0:3 names 0:1 of west, and nobody acknowledged the message east shop 1 at 0:1 there',
                  'FAULT skipped at east: subscription billing is done with the message east shop 1 at 0:1, which no client acknowledged in any cluster; no update',
                  'FAULT skipped at west: subscription billing is done with the message east shop 1 at 0:1, which no client acknowledged in any cluster; the update of east at 0:3 names it')

    def test_update(self):
        made = self.made(mark='0:0')
        self.says(made, 'FAULT update at east: the update of subscription billing at 0:3 says that it is done up to 0:1, and it is not done with the message east shop 1 at 0:1',
                  'note repeats at east: subscription billing has not the message east shop 1')
        made = self.made()
        for cluster in made.entries:
            del made.entries[cluster][2]
        self.says(made, 'FAULT update at east: the update of subscription billing at 0:3 has the positions of no snapshot before it')

    @plays
    def test_second_opinion(self):
        with tempfile.TemporaryDirectory() as folder:
            path = os.path.join(folder, 'x.trace')
            status, out, _ = self.made().judged('--trace', path)
            # eight entries, two subscriptions, of each cursor the messages and the markers
            self.assertEqual((status, out.split('\n')[-2]), (0, 'orders: trace: audit ok events 14'))
            made = self.made()
            made.cursor('east', 'billing', '0:1')
            made.cursor('east', FORTY, '0:0')
            status, out, _ = made.judged('--trace', path)
            self.assertEqual(status, FAULT)
            self.assertIn('orders: trace: audit refused', out)
            self.assertIn('and nothing explains it', out)
            status, out, _ = carried(quiet=False).judged('--trace', path)
            self.assertEqual((status, out.split('\n')[-2]), (NOT_EXPLAINED, 'orders: no trace: not all was at rest'))


class Relaxed(Says):
    """Each relaxation is said, with the entry and its line."""

    def batched(self):
        made = carried()
        for cluster in made.entries:
            made.entries[cluster][1]['headers'].update({'X-Pulsar-num-batch-message': '3', 'X-Pulsar-highest-sequence-id': '3'})
            made.entries[cluster][2]['headers']['X-Pulsar-sequence-id'] = '4'
        made.cursor('east', 'billing', '0:-1', '[(0:0..0:1]]')
        return made

    def test_batch(self):
        made = self.batched()
        made.log = [log('ack', 'east', '0:1', batch=index) for index in (0, 2, 1)] + [log('receipt', 'east', '0:1', producer='shop', sequence=3)]
        one = 'note batch at %s: 1 entries are batches, the first at 0:1: '
        self.says(made, 'note repeats at west: subscription billing has not the message east shop 1', one % 'east', one % 'west', status=0)
        del made.log[1]
        self.says(made, 'FAULT skipped at east: subscription billing is done with the message east shop 1 at 0:1', one % 'east',
                  'note batch at east: of the batch at 0:1 subscription billing acknowledges 2 messages of 3: it counts as not acknowledged [east/orders/entries.jsonl line 2]', one % 'west')
        made.log = [log('ack', 'east', '0:1', batch=2, cumulative=True)]
        made.cursor('east', 'billing', '0:1')
        self.assertNotIn('FAULT', made.judged()[1])
        made.log[0]['batch'] = 3
        self.assertIn('unplaced at east: subscription billing acknowledges the index 3 of the batch at 0:1, which has 3 messages', made.judged()[1])

    def test_transaction(self):
        made = carried()
        made.entries['east'][2]['headers'].update({'X-Pulsar-txnid-most-bits': '0', 'X-Pulsar-txnid-least-bits': '7', 'X-Pulsar-txn-aborted': 'true'})
        made.entries['east'].append(entry('0:3', 'pulsar.marker', marker_type='22'))
        made.cursor('east', 'billing', '0:-1', '[(0:1..0:2]]')
        self.says(made, 'FAULT skipped at east: subscription billing is done with the message east shop 2 at 0:2, which no client acknowledged in any cluster; no update of another cluster '
                        'names it; it is of the transaction 0:7, aborted, and of an aborted one dispatch passes over a message',
                  'note transaction at east: the message east shop 2 at 0:2 is of the transaction 0:7, aborted: it is judged as any other, whether that was committed or not [east/orders/entries.jsonl line 3]',
                  'note transaction at east: the marker at 0:3 is of a transaction (abort): it is passed over [east/orders/entries.jsonl line 4]')

    def test_compaction(self):
        made = carried()
        made.cursor('east', '__compaction', '0:1')
        self.says(made, 'note compacted at east: it is compacted up to the message east shop 1 at 0:1: all entries are judged', status=0)

    def test_trimmed(self):
        made = carried(trimmed=True)
        del made.entries['east'][0]
        made.cursor('west', 'billing', '0:0')
        made.log = [log('ack', 'west', '0:0'), log('receipt', 'east', '0:0', producer='shop', sequence=0)]
        self.says(made, 'note trimmed at east: its beginning may be deleted: it is judged from the message east shop 1 at 0:1 on, and markers are not compared [east/orders/entries.jsonl line 1]',
                  'note trimmed at west: its beginning', status=0)

    def test_no_deduplication(self):
        made = carried()
        del made.cursors['east']['pulsar.dedup']
        made.entries['east'].append(entry('0:3', sequence=2, text='order 2'))
        self.says(made, 'FAULT twice at east: the message east shop 2 stands at 0:2 and again at 0:3; no cursor of deduplication is here, and without it what a producer sends again is stored again '
                        '[east/orders/entries.jsonl line 4]')


class Refusals(unittest.TestCase):
    """What can't be judged is refused with its file and line."""

    def refused(self, made, said):
        status, out, err = made.judged()
        self.assertEqual((status, out), (NOT_READ, ''))
        self.assertIn(said, err)

    def changed(self, headers, said, index=1):
        made = carried()
        made.entries['west'][index]['headers'].update(headers)
        self.refused(made, 'refused: west/orders/entries.jsonl line %d: %s' % (index + 1, said))

    def test_entries(self):
        self.changed({'X-Pulsar-num-chunks-from-msg': '3', 'X-Pulsar-chunk-id': '0'}, 'the entry at 0:1 is a chunk of a message: chunks are not judged')
        self.changed({'X-Pulsar-producer-name': 'pulsar.marker'}, 'an entry of pulsar.marker without the header X-Pulsar-marker-type')
        self.changed({'X-Pulsar-marker-type': '31'}, 'a marker of the type 31')
        self.changed({'X-Pulsar-sequence-id': 'one'}, "the header X-Pulsar-sequence-id is no number: 'one'")
        self.changed({'X-Pulsar-Message-ID': '0'}, "no position LEDGER:ENTRY: '0'")
        self.changed({'X-Pulsar-Message-ID': '0:0'}, 'the position 0:0 is not above the last one')
        self.changed({'X-Pulsar-producer-name': ''}, 'no header X-Pulsar-producer-name')
        self.changed({'X-Pulsar-replicated-from': 'south'}, 'the entry at 0:1 names the cluster south, which is not in drill.json')
        self.changed({'X-Pulsar-num-batch-message': '0'}, 'the entry at 0:1 is a batch of 0 messages')

    def test_logs(self):
        for line, said in ((log('acknowledged', 'east', '0:0'), "'acknowledged' is none of got, ack"), (log('ack', 'south', '0:0'), "the cluster 'south' is not in drill.json"),
                           (log('ack', 'east'), 'no position'), (log('ack', 'east', '0:0', sub=None), 'no subscription is named'),
                           (log('receipt', 'east', '0:0', producer='shop'), 'no message is named'), (log('created', 'east'), 'initial is neither')):
            made = carried()
            made.log = [log('ack', 'east', '0:0'), line]
            self.refused(made, 'refused: clients.jsonl line 2: ' + said)

    def test_cursors(self):
        made = carried()
        made.cursor('east', 'billing', '0:0', '[(0:1...0:2]]')
        self.refused(made, 'refused: east/orders/stats-internal.json: the cursor billing: no ranges: [(0:1...0:2]]')

    def test_files(self):
        with tempfile.TemporaryDirectory() as folder:
            carried().write(folder)
            path = os.path.join(folder, 'east', 'orders', 'entries.jsonl')
            with open(path, 'a', encoding='ascii') as file:
                file.write('{"headers"\n')
            self.assertIn('east/orders/entries.jsonl line 4: no JSON', observed(folder)[2])
            os.remove(path)
            self.assertIn('east/orders/entries.jsonl: No such file', observed(folder)[2])

    def test_broken(self):
        """Random changes of bytes: refused, or judged; no other end."""
        chosen = random.Random(1)
        with tempfile.TemporaryDirectory() as folder:
            made = Markers().made()
            made.log += [log('got', 'east', '0:0'), log('receipt', 'east', '0:0', producer='shop', sequence=0), log('created', 'west', initial='latest', end='0:0')]
            made.write(folder)
            names = [os.path.join(folder, name) for name in ('drill.json', 'clients.jsonl', 'east/orders/entries.jsonl', 'west/orders/stats-internal.json')]
            for _ in range(150):
                path = chosen.choice(names)
                with open(path, 'rb') as file:
                    right = file.read()
                broken = bytearray(right)
                for _ in range(chosen.randint(1, 3)):
                    at = chosen.randrange(len(broken))
                    broken[at:at + chosen.randint(0, 2)] = chosen.choice((b'', b'9', b'-', b'"', b'[', b'null', b'\n', b'\xff', b'east'))
                with open(path, 'wb') as file:
                    file.write(broken)
                status, _, err = observed(folder)
                self.assertIn(status, (0, FAULT, NOT_READ), err)
                self.assertEqual(status == NOT_READ, bool(err))
                with open(path, 'wb') as file:
                    file.write(right)

    def test_ranges(self):
        for word, wanted in (('[]', []), ('[(1:2..1:4]]', [((1, 2), (1, 4))]), ('[(1:2..1:4],(2:-1..2:0]]', [((1, 2), (1, 4)), ((2, -1), (2, 0))]),
                             ('[[1:3..1:4]]', [((1, 2), (1, 4))]), ('[(1:2..1:5)]', [((1, 2), (1, 4))]), ('[[1:3..1:5), (1:6..1:7]]', [((1, 2), (1, 4)), ((1, 6), (1, 7))])):
            self.assertEqual(read_ranges(word, 'x'), wanted)


if __name__ == '__main__':
    unittest.main()
