"""A client that keeps the log, by the pulsar-client library. It stands alone: copy it beside your clients. It was not tried against a broker.

    log = Log('clients.jsonl', cluster='east', topic='orders', client='billing-1')
    consumer = log.consumer(client.subscribe(TOPIC, 'billing', ..), 'billing')
    message = consumer.receive()
    consumer.acknowledge(message)
    producer = log.producer(client.create_producer(TOPIC))
    producer.send(b'..')

An acknowledgement is logged before it is sent, a receipt and a delivery after it came. So no acknowledgement that a broker has is missing
in the log, and no receipt stands there that a producer did not get. Operators write their own lines (docs/OBSERVED.md).
"""
import json
import time


class Log:
    """The log of one client: a line an event, written at once."""

    def __init__(self, path, **always):
        self.file, self.always = open(path, 'a', buffering=1, encoding='utf-8'), always

    def say(self, did, message_id=None, **more):
        line = dict(at=time.time(), did=did, **self.always, **more)
        if message_id is not None:
            line['position'] = '%d:%d' % (message_id.ledger_id(), message_id.entry_id())
            line['batch'] = message_id.batch_index()
        self.file.write(json.dumps(line) + '\n')

    def consumer(self, consumer, sub, with_receipts=False):
        """`with_receipts`: acknowledgements wait for the broker's receipt (ack receipts are on)."""
        return Consumer(self, consumer, sub, with_receipts)

    def producer(self, producer):
        return Producer(self, producer)


class Consumer:
    """A consumer whose deliveries and acknowledgements are logged."""

    def __init__(self, log, consumer, sub, with_receipts):
        self.log, self.consumer, self.sub, self.with_receipts = log, consumer, sub, with_receipts

    def receive(self, *more):
        message = self.consumer.receive(*more)
        self.log.say('got', message.message_id(), sub=self.sub)
        return message

    def acknowledge(self, message):
        self._acknowledge(message, self.consumer.acknowledge, False)

    def acknowledge_cumulative(self, message):
        self._acknowledge(message, self.consumer.acknowledge_cumulative, True)

    def _acknowledge(self, message, call, cumulative):
        self.log.say('ack', message.message_id(), sub=self.sub, cumulative=cumulative)
        call(message)
        if self.with_receipts:
            self.log.say('acked', message.message_id(), sub=self.sub, cumulative=cumulative)


class Producer:
    """A producer whose receipts are logged."""

    def __init__(self, log, producer):
        self.log, self.producer = log, producer

    def send(self, *content, **more):
        message_id = self.producer.send(*content, **more)
        self.log.say('receipt', message_id, producer=self.producer.producer_name(), sequence=self.producer.last_sequence_id())
        return message_id
