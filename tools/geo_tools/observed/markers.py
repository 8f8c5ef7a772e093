"""The markers of replicated subscriptions, and their payloads (PulsarMarkers.proto of Apache Pulsar, in the encoding of Protocol Buffers)."""
from collections import namedtuple

# the numbers of MarkerType
REQUEST, RESPONSE, SNAPSHOT, UPDATE = 10, 11, 12, 13
TRANSACTION_MARKERS = {20: 'committing', 21: 'commit', 22: 'abort'}
# what the broker names itself where it writes a marker
PRODUCER = 'pulsar.marker'

Request = namedtuple('Request', 'snapshot source')
Response = namedtuple('Response', 'snapshot pair')
# `remote` are pairs of a cluster and a position
Snapshot = namedtuple('Snapshot', 'snapshot local remote')
Update = namedtuple('Update', 'sub remote')
# a marker without a reading: `kind` is its number
Unread = namedtuple('Unread', 'kind')

NUMBERS = {Request: REQUEST, Response: RESPONSE, Snapshot: SNAPSHOT, Update: UPDATE}
WORDS = {Request: 'request', Response: 'response', Snapshot: 'snapshot', Update: 'update', Unread: 'marker'}

# of a tag of Protocol Buffers: the bits of the wire type, and the two types that the markers have
TYPE_BITS, NUMBER_TYPE, BYTES_TYPE = 3, 0, 2
# of a byte of a number: its bits, and the bit that says that another one follows
DIGIT_BITS, MORE = 7, 128


def varint(number):
    """A number in the encoding of Protocol Buffers."""
    out = bytearray()
    while number >= MORE:
        out.append(number % MORE | MORE)
        number >>= DIGIT_BITS
    return bytes(out + bytes([number]))


def read_varint(some, at):
    """The number that stands there, and where it ends."""
    value = shift = 0
    while True:
        byte = some[at]
        value |= byte % MORE << shift
        shift, at = shift + DIGIT_BITS, at + 1
        if byte < MORE:
            return value, at


def fields(some):
    """The fields of a message: number and value."""
    at = 0
    while at < len(some):
        tag, at = read_varint(some, at)
        value, at = read_varint(some, at)
        if tag % (1 << TYPE_BITS) == BYTES_TYPE:
            if at + value > len(some):
                raise ValueError('a field is cut off')
            value, at = some[at:at + value], at + value
        elif tag % (1 << TYPE_BITS) != NUMBER_TYPE:
            raise ValueError('a field of another type')
        yield tag >> TYPE_BITS, value


def number_field(number, value):
    return varint(number << TYPE_BITS | NUMBER_TYPE) + varint(value)


def bytes_field(number, value):
    some = value.encode() if isinstance(value, str) else value
    return varint(number << TYPE_BITS | BYTES_TYPE) + varint(len(some)) + some


def read_position(some):
    found = dict(fields(some))
    return found[1], found[2]


def position_bytes(place):
    return number_field(1, place[0]) + number_field(2, place[1])


def read_pair(some):
    found = dict(fields(some))
    return found[1].decode(), read_position(found[2])


def pair_bytes(pair):
    return bytes_field(1, pair[0]) + bytes_field(2, position_bytes(pair[1]))


def read_marker(kind, payload):
    """The marker of a number and a payload; Unread where it has no reading."""
    try:
        found = list(fields(payload))
        first = dict(found)
        if kind == REQUEST:
            return Request(first[1].decode(), first[2].decode())
        if kind == RESPONSE:
            return Response(first[1].decode(), read_pair(first[2]))
        if kind == SNAPSHOT:
            return Snapshot(first[1].decode(), read_position(first[2]), tuple(read_pair(value) for number, value in found if number == 3))
        if kind == UPDATE:
            return Update(first[1].decode(), tuple(read_pair(value) for number, value in found if number == 2))
    except (KeyError, ValueError, IndexError, TypeError, AttributeError):
        pass
    return Unread(kind)


def payload_of(marker):
    """The payload of a marker, as a broker writes it."""
    if isinstance(marker, Update):
        return bytes_field(1, marker.sub) + b''.join(bytes_field(2, pair_bytes(pair)) for pair in marker.remote)
    first = bytes_field(1, marker.snapshot)
    if isinstance(marker, Request):
        return first + bytes_field(2, marker.source)
    if isinstance(marker, Response):
        return first + bytes_field(2, pair_bytes(marker.pair))
    return first + bytes_field(2, position_bytes(marker.local)) + b''.join(bytes_field(3, pair_bytes(pair)) for pair in marker.remote)
