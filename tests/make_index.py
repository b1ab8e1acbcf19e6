"""Index tables by chance, as values, bodies and forms, good and damaged; all from a seed."""
# SPDX-License-Identifier: MIT
import make_fields as make
from make_fields import END, LIVE, MOST_BODY, SHORT, TOP

KIND = 0xFD


# ---- tables as values


def table(chance):
    return {'messages': [message(chance) for _ in range(make.some(chance, 5))], 'signature': make.data(chance, 70)}


def message(chance, resources=None, channel=True):
    resources = make.some(chance, 5) if resources is None else resources
    return {
        'identifier': make.identifier(chance),
        'network': make.number(chance, 0xFFFF),
        'start': make.time(chance),
        'end': LIVE if chance.random() < 0.25 else make.time(chance),
        'type': bytes(make.number(chance, 0x7F) for _ in range(5)),
        'class': chance.randint(1, 4),
        'level': chance.randint(1, 4),
        'resources': [make.digits(chance, 23) for _ in range(resources)],
        'channel': channel_by_chance(chance) if channel and chance.random() < 0.6 else None}


def channel_by_chance(chance):
    return channel_of(chance, descriptors(chance), [stream(chance) for _ in range(make.some(chance, 4))])


def channel_of(chance, its_descriptors, streams):
    return {
        'network': make.number(chance, 0xFFFF),
        'stream': make.number(chance, 0xFFFF),
        'program': make.number(chance, 0xFFFF),
        'PCR PID': make.number(chance, 0x1FFF),
        'descriptors': its_descriptors,
        'streams': streams}


def stream(chance, its_descriptors=None):
    return {'type': make.number(chance, 0xFF), 'PID': make.number(chance, 0x1FFF),
            'descriptors': descriptors(chance) if its_descriptors is None else its_descriptors}


def descriptors(chance):
    return [{'tag': make.number(chance, 0xFF), 'data': make.data(chance)} for _ in range(make.some(chance, 4))]


def descriptors_of(chance, size):
    """Descriptors that are so many bytes together; not one byte."""
    found = []
    while size:
        step = size if size <= 257 else min(257, size - 2)
        found.append({'tag': make.number(chance, 0xFF), 'data': chance.randbytes(step - 2)})
        size -= step
    return found


def message_of(chance, size):
    """A message of so many bytes, most of them streams: 50 are no streams, and a stream has from 5 to 1,028."""
    streams, left = [], size - 50
    while left:
        step = left if left <= 1028 else min(1028, left - 7)
        streams.append(stream(chance, descriptors_of(chance, step - 5)))
        left -= step
    return {**message(chance, 0), 'channel': channel_of(chance, [], streams)}


def one(chance, **fields):
    """A table of one message with some fields given."""
    return {'messages': [{**message(chance), **fields}], 'signature': make.data(chance)}


def sample_table(chance):
    """A table with every field."""
    streams = [stream(chance, descriptors_of(chance, 5)), stream(chance, [])]
    channel = channel_of(chance, descriptors_of(chance, 7), streams)
    return {'messages': [message(chance, 2, False), {**message(chance, 1), 'channel': channel}], 'signature': b'ab'}


def large(chance):
    """Each count and length at its most or near it."""
    yield {'messages': [message(chance, 0, False) for _ in range(255)], 'signature': b''}
    yield {'messages': [message(chance) for _ in range(255)], 'signature': make.data(chance)}
    for resources in 254, 255:
        yield one(chance, resources=[make.digits(chance, 23) for _ in range(resources)])
    for size in 257, 1022, 1023:
        yield one(chance, channel=channel_of(chance, descriptors_of(chance, size), []))
        yield one(chance, channel=channel_of(chance, [], [stream(chance, descriptors_of(chance, size))]))
        yield one(chance, channel=channel_of(chance, [{'tag': 1, 'data': b''}] * (size // 2), [stream(chance)] * 3))
    for size in 65534, 65535:
        yield {'messages': [message_of(chance, size)] * 2, 'signature': b'\0'}
        yield {'messages': [], 'signature': chance.randbytes(size)}
    yield one(chance, resources=[], channel=channel_of(chance, [], [stream(chance, [])] * 13097))


def largest(chance):
    """A body of 1,045,504 bytes, and one of a byte less."""
    for size in MOST_BODY, MOST_BODY - 1:
        yield {'messages': [message_of(chance, 65535)] * 15, 'signature': chance.randbytes(size - 3 - 15 * 65537)}


# ---- bodies


def items(table):
    return [('message count', bytes([len(table['messages'])])),
            *(item for message in table['messages'] for item in message_items(message)),
            ('signature length', 2), ('signature', table['signature']), END]


def message_items(message):
    channel = message['channel']
    return [
        ('EBM_length', 2),
        ('identifier', make.digit_bytes(make.checked(message['identifier']))),
        ('network', message['network'].to_bytes(2, 'big')),
        ('start', message['start'].to_bytes(5, 'big')),
        ('end', message['end'].to_bytes(5, 'big')),
        ('type', message['type']),
        ('class and level', bytes([message['class'] * 16 + message['level']])),
        ('resource count', bytes([len(message['resources'])])),
        *(('resource', make.digit_bytes(resource)) for resource in message['resources']),
        ('channel flag', bytes([0xFE if channel is None else 0xFF])),
        *([] if channel is None else channel_items(channel)),
        END]


def channel_items(channel):
    return [
        ('channel network', channel['network'].to_bytes(2, 'big')),
        ('channel stream', channel['stream'].to_bytes(2, 'big')),
        ('channel program', channel['program'].to_bytes(2, 'big')),
        ('PCR PID', (0xE000 + channel['PCR PID']).to_bytes(2, 'big')),
        *descriptor_items(channel['descriptors'], 'program'),
        ('stream info length', 2),
        *(item for stream in channel['streams'] for item in stream_items(stream)),
        END]


def stream_items(stream):
    return [
        ('stream type', bytes([stream['type']])),
        ('stream PID', (0xE000 + stream['PID']).to_bytes(2, 'big')),
        *descriptor_items(stream['descriptors'], 'ES')]


def descriptor_items(descriptors, whose):
    found = [(whose + ' info length', SHORT)]
    for descriptor in descriptors:
        found += [(whose + ' descriptor tag', bytes([descriptor['tag']])), (whose + ' descriptor length', 1),
                  (whose + ' descriptor data', descriptor['data']), END]
    return found + [END]


BAD = {
    'message count': [make.count_changed],
    'identifier': [make.cleared(4), make.digit_above_nine, make.with_unreal_day],
    'start': [make.time_wrong],
    'end': [make.time_wrong],
    'type': [make.one_byte(0x80, 0xFF)],
    'class and level': [make.one_byte(0, 0xFF), make.one_of(b'\x01', b'\x10', b'\x51', b'\x15', b'\x00', b'\x55')],
    'resource count': [make.count_changed],
    'resource': [make.cleared(4), make.digit_above_nine],
    'channel flag': [make.cleared(7), make.low_bits(1)],
    'PCR PID': [make.cleared(3)],
    'stream PID': [make.cleared(3)]}


def bodies_always(chance, sample):
    """Short bodies, and bodies near a sample table."""
    return [*make.all_short(), *make.near(items(sample)),
            *make.every_value(items(sample), ('class and level', 'channel flag', 'message count', 'resource count'))]


# ---- forms


def form_of(chance, table):
    made = make.Form()
    made.count('message count', table['messages'])
    for message in table['messages']:
        form_message(chance, made, message)
    made.span('signature', table['signature'])
    return made


def form_message(chance, made, message):
    made.digits('identifier', make.checked(message['identifier']), chance)
    for name in 'network', 'start', 'end':
        made.number(name, message[name])
    made.span('type', message['type'])
    made.number('class', message['class'])
    made.number('level', message['level'])
    made.count('resource count', message['resources'])
    for resource in message['resources']:
        made.digits('resource', resource, chance)
    if message['channel'] is None:
        made.number('channel flag', 0)
    else:
        made.number('channel flag', 1)
        form_channel(made, message['channel'])


def form_channel(made, channel):
    for name in 'network', 'stream', 'program':
        made.number('channel ' + name, channel[name])
    made.number('PCR PID', channel['PCR PID'])
    form_descriptors(made, channel['descriptors'], 'program')
    made.count('stream count', channel['streams'])
    for stream in channel['streams']:
        made.number('stream type', stream['type'])
        made.number('stream PID', stream['PID'])
        form_descriptors(made, stream['descriptors'], 'ES')


def form_descriptors(made, descriptors, whose):
    made.count(whose + ' descriptor count', descriptors)
    for descriptor in descriptors:
        made.number(whose + ' descriptor tag', descriptor['tag'])
        made.span(whose + ' descriptor data', descriptor['data'])


BAD_ENTRIES = {
    'network': lambda chance: 65536 + make.number(chance, 65535),
    'start': make.bad_time,
    'end': make.bad_time,
    'class': lambda chance: chance.choice((0, 5, 15, 16, 17, 257)),
    'level': lambda chance: chance.choice((0, 5, 15, 16, 17, 257)),
    'channel flag': lambda chance: chance.choice((2, 3, 255, 256, 257, TOP - 1)),
    'channel network': lambda chance: 65536 + make.number(chance, 65535),
    'channel stream': lambda chance: 65536 + make.number(chance, 65535),
    'channel program': lambda chance: 65536 + make.number(chance, 65535),
    'PCR PID': lambda chance: 0x2000 + make.number(chance, 0x1FFF),
    'stream PID': lambda chance: 0x2000 + make.number(chance, 0x1FFF),
    'stream type': lambda chance: 256 + make.number(chance, 255),
    'program descriptor tag': lambda chance: 256 + make.number(chance, 255),
    'ES descriptor tag': lambda chance: 256 + make.number(chance, 255)}
COUNTS = ('message count', 'resource count', 'program descriptor count', 'stream count', 'ES descriptor count')

# In a pool of the letter a, digits are 6 and 1, and every span of right length from 0 on is good.
HEAD = [0, 18, 7, 0xECC9074500, LIVE, 0, 5, 4, 1]


def with_channel(descriptors, streams):
    """The tape of a table of one message, from descriptors' lengths and each stream's descriptors' lengths."""
    return [1, *HEAD, 0, 1, 1, 2, 3, 0x1FFF, *lengths(descriptors), len(streams),
            *(entry for stream in streams for entry in (2, 0x1FFE, *lengths(stream))), 0, 0]


def lengths(descriptors):
    return [len(descriptors), *(entry for length in descriptors for entry in (9, 0, length))]


def too_large():
    """Tapes with each count and length at its most and above it."""
    for count in 254, 255, 256, 257, 511, 512:
        yield [count, *(HEAD + [0, 0]) * count, 0, 0]
        yield [1, *HEAD, count, *[0, 12] * count, 0, 0, 0]
    for parts in ([254], [255], [256], [512], [255, 255, 255, 249], [255, 255, 255, 250], [255, 255, 255, 251],
                  [255, 255, 255, 255], [255] * 8, [0] * 511, [0] * 512):
        yield with_channel(parts, [])
        yield with_channel([], [[], parts])
    for streams in ([[]] * 13096, [[]] * 13097, [[]] * 13098, [[]] * 13095 + [[3]], [[]] * 13095 + [[4]], [[]] * 13107,
                    [[]] * 13108, [[255, 255, 255, 250]] * 64):
        yield with_channel([], streams)
    for length in 65534, 65535, 65536, 65537:
        yield [0, 0, length]


def around_most_body():
    """Fifteen messages of 65,535 bytes, and a signature with which the body is as long as it may be, or longer."""
    message = with_channel([], [[255, 255, 255, 250]] * 63 + [[255, 255, 200]])[1:-2]
    for rest in 62445, 62446, 62447, 65535:
        yield [15, *message * 15, 0, rest]
    yield [16, *message * 16, 0, 0]
    yield [255, *message * 255, 0, 65535]


def forms_always():
    """Forms around the most of each count and length."""
    for tape in too_large():
        yield from make.with_faults(make.pool_of(b'a', 65537), tape, 66000)
    for tape in around_most_body():
        yield from make.in_large_rooms(make.pool_of(b'a', 65535), tape)
