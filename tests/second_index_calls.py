"""The second program's answers to the index table's calls, no code shared with the library, in calls.c's order."""
# SPDX-License-Identifier: MIT
import functools

import second_content
import second_index
import second_times
from second_calls import Part, answered, digit, inside, joined, lent, measured, part, span, unrefused, up_to, written
from second_fields import refuse


# ---- whole bodies and forms


@functools.lru_cache(maxsize=None)
def table_of(kind, body):
    """The table of a body, read once for all that is asked of it."""
    return second_index.read(kind, body)


def index_read(kind, body, offset):
    """Of an accepted body every field, taken from the whole table that was read."""
    table = table_of(kind, body)
    found = unrefused(len(table['messages']))
    for record, message in zip(table['records'], table['messages'], strict=True):
        found += message_items(record, message, offset)
    return 0, *found, *unrefused(span(table['signature']))


def message_items(record, message, offset):
    at, length, *_ = record
    channel = message['channel']
    found = unrefused(
        part(at, length), span(message['identifier']), extension_of(message['identifier']), message['network'],
        message['start'], message['end'], span(message['type']), message['class'], message['level'],
        len(message['resources']), int(channel is not None))
    resources_end = at + 37 + 12 * len(message['resources'])
    found += channel_items(resources_end + 1, channel) if channel else [19, 0] * 6
    found += [message['identifier'][2], *local(message['start'], offset), *local(message['end'], offset)]
    for resource in message['resources']:
        found += [*unrefused(span(resource)), resource[2]]
    return found + (things_in(resources_end + 1, channel) if channel else [])


def extension_of(digits):
    """The extension of a message's content table, from the digits of its identifier."""
    return second_content.extension(bytes.fromhex('F' + digits[2]))


def local(field, offset):
    return answered(lambda: second_times.time_unpack(field, offset)[0])


def size_of(descriptors):
    return sum(2 + descriptor['data'][1] for descriptor in descriptors)


def channel_items(at, channel):
    """The channel that begins at some place: the parts' places and lengths follow from what stands in them."""
    descriptors = size_of(channel['descriptors'])
    streams = sum(5 + size_of(stream['descriptors']) for stream in channel['streams'])
    return unrefused(channel['network'], channel['stream'], channel['program'], channel['PCR PID'],
                     part(at + 10, descriptors), part(at + 12 + descriptors, streams))


def things_in(at, channel):
    """The channel's descriptors and streams, each list after its count."""
    found = descriptor_items(channel['descriptors'])
    at += 12 + size_of(channel['descriptors'])
    found += unrefused(len(channel['streams']))
    for stream in channel['streams']:
        size = size_of(stream['descriptors'])
        found += unrefused(stream['type'], stream['PID'], part(at + 5, size)) + descriptor_items(stream['descriptors'])
        at += 5 + size
    return found


def descriptor_items(descriptors):
    return unrefused(len(descriptors)) + [item for one in descriptors for item in unrefused(one['tag'], span(one['data']))]


def index_records(kind, body, numbers):
    """A list of records is six numbers for each."""
    count, after = lent(numbers, lambda: [number for record in table_of(kind, body)['records'] for number in record])
    return count // 6, after


def index_lay(kind, body, tape):
    return lent(tape, lambda: second_index.tape_of(table_of(kind, body)))


def index_measure(pool, tape):
    return measured(second_index.write, pool, tape)


def index_write(pool, tape, out):
    body, after = written(second_index.write, pool, tape, out)
    return len(body), after


# ---- fields asked for, each judged alone where it stands, whatever else is wrong


def index_message_count(body):
    return Part(body, 0, len(body)).number('message count', 1)


def after_messages(body, count):
    """At the length that stands after so many messages, which are passed by theirs."""
    reader = Part(body, 1, len(body))
    for _ in range(count):
        reader.taken(reader.length('EBM_length', 2))
    return reader


def index_message(body, i):
    return after_messages(body, up_to(i, index_message_count(body))).counted('EBM_length', 2)


def index_signature(body):
    return after_messages(body, index_message_count(body)).counted('signature length', 2)


def identifier(*message):
    return inside(*message, 0).identifier()


def class_or_level(message, which):
    reader = inside(*message, 35)
    place = reader.at
    both = divmod(reader.number('class', 1), 16)
    if not all(1 <= value <= 4 for value in both):
        refuse(19, 'class or level', place)
    return both[which]


def resource_count(*message):
    return inside(*message, 36).number('resource count', 1)


def resource(body, at, length, i):
    up_to(i, resource_count(body, at, length))
    return inside(body, at, length, 37 + 12 * i).digits('resource', 12)


def channel_flag(*message):
    return inside(*message, 37 + 12 * resource_count(*message)).shared('channel flag', 7)


def in_channel(message, place):
    """At a place of a message's channel."""
    if not channel_flag(*message):
        refuse(19, 'channel')
    return inside(*message, 38 + 12 * resource_count(*message) + place)


def descriptors(*message):
    reader = in_channel(message, 8)
    return reader.span(reader.short_length('program info length'))


def streams(*message):
    reader = in_channel(message, 8)
    reader.taken(reader.short_length('program info length'))
    return reader.counted('stream info length', 2)


# What is asked of a message without a further number, in the order of calls.c.
OF_MESSAGE = (
    lambda *message: span(identifier(*message)),
    lambda *message: extension_of(identifier(*message)),
    lambda *message: inside(*message, 18).number('network', 2),
    lambda *message: inside(*message, 20).time('start', live=False),
    lambda *message: inside(*message, 25).time('end', live=True),
    lambda *message: span(second_index.read_type(inside(*message, 30))),
    lambda *message: class_or_level(message, 0),
    lambda *message: class_or_level(message, 1),
    resource_count,
    channel_flag,
    lambda *message: in_channel(message, 0).number('channel network', 2),
    lambda *message: in_channel(message, 2).number('channel stream', 2),
    lambda *message: in_channel(message, 4).number('channel program', 2),
    lambda *message: in_channel(message, 6).pid('PCR PID'),
    descriptors,
    streams)


def message_fields(*message):
    return joined(answered(call, *message) for call in OF_MESSAGE)


def message_local_times(body, at, length, offset):
    def local_time(place, live):
        second_times.seconds_of(offset)
        field = inside(body, at, length, place).time('time', live)
        return second_times.time_unpack(field, offset)[0]
    return joined((answered(local_time, 20, False), answered(local_time, 25, True)))


def message_identifier_digit(body, at, length, i):
    return digit(identifier(body, at, length)[2], i)


def message_resource(body, at, length, i):
    return span(resource(body, at, length, i))


def message_resource_digit(body, at, length, i, j):
    return digit(resource(body, at, length, i)[2], j)


def in_part(body, at, length, place):
    """At a place of a descriptor or a stream, in a part that has so many bytes from there on."""
    if length == 0:
        refuse(19, 'part')
    return inside(body, at, length, place)


def descriptor_fields(body, at, length):
    return joined((answered(lambda: in_part(body, at, length, 0).number('tag', 1)),
                   answered(lambda: in_part(body, at, length, 1).counted('descriptor length', 1))))


def stream_fields(body, at, length):
    def its_descriptors():
        reader = in_part(body, at, length, 3)
        return reader.span(reader.short_length('ES info length'))
    return joined((answered(lambda: in_part(body, at, length, 0).number('stream type', 1)),
                   answered(lambda: in_part(body, at, length, 1).pid('stream PID')), answered(its_descriptors)))


def descriptor_count(body, at, length):
    reader = inside(body, at, length, 0)
    return len(reader.repeated(length, lambda: second_index.read_descriptor(reader, 'asked')))


def stream_count(body, at, length):
    reader = inside(body, at, length, 0)
    return len(reader.repeated(length, lambda: second_index.read_stream(reader)))
