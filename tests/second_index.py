"""The second program for the index table, no code shared with the library: read, written, laid on a tape."""
# SPDX-License-Identifier: MIT
from second_fields import (Reader, Tape, counted, digits, entries, opaque, part, places, refuse, short_part, things,
                           within)

KIND = 0xFD


# ---- reading


def read(kind, body):
    """The table, with its message records."""
    reader, records = Reader(kind, KIND, body), []
    messages = reader.several('message count', lambda: read_message(reader, records))
    return {'messages': messages, 'signature': reader.signature(), 'records': records}


def read_message(reader, records):
    """A message; its record says where it begins, its length, its start, end, class and level."""
    length = reader.length('EBM_length', 2)
    begin = reader.at
    message = reader.filled('message', length, lambda: message_fields(reader))
    records.append((begin, length, message['start'], message['end'], message['class'], message['level']))
    return message


def message_fields(reader):
    message = {
        'identifier': reader.identifier(),
        'network': reader.number('network', 2),
        'start': reader.time('start', live=False),
        'end': reader.time('end', live=True),
        'type': read_type(reader)}
    message['class'], message['level'] = class_and_level(reader)
    message['resources'] = reader.several('resource count', lambda: reader.digits('resource', 12))
    message['channel'] = read_channel(reader) if reader.shared('channel flag', 7) else None
    return message


def read_type(reader):
    reader.need('type', 5)
    if max(reader.body[reader.at:reader.at + 5]) > 0x7F:
        refuse(19, 'type', reader.at)
    return reader.taken(5)


def class_and_level(reader):
    place = reader.at
    found = divmod(reader.number('class', 1), 16)
    for field, value in zip(('class', 'level'), found):
        if not 1 <= value <= 4:
            refuse(19, field, place)
    return found


def read_channel(reader):
    return {
        'network': reader.number('channel network', 2),
        'stream': reader.number('channel stream', 2),
        'program': reader.number('channel program', 2),
        'PCR PID': reader.pid('PCR PID'),
        'descriptors': read_descriptors(reader, 'program'),
        'streams': reader.repeated(reader.length('stream info length', 2), lambda: read_stream(reader))}


def read_stream(reader):
    return {
        'type': reader.number('stream type', 1),
        'PID': reader.pid('stream PID'),
        'descriptors': read_descriptors(reader, 'ES')}


def read_descriptor(reader, whose):
    return {'tag': reader.number(whose + ' descriptor tag', 1), 'data': reader.opaque(whose + ' descriptor length', 1)}


def read_descriptors(reader, whose):
    return reader.repeated(reader.short_length(whose + ' info length'), lambda: read_descriptor(reader, whose))


# ---- forms


def form(pool, tape):
    """The table that a form asks for; its byte fields have their places in the pool."""
    taken = Tape(pool, tape)
    return {'messages': taken.several('message count', lambda: form_message(taken)), 'signature': taken.signature()}


def form_message(taken):
    return {
        'identifier': taken.identifier(),
        'network': taken.number('network', 0xFFFF),
        'start': taken.time('start', live=False),
        'end': taken.time('end', live=True),
        'type': form_type(taken),
        'class': taken.number('class', 4, least=1),
        'level': taken.number('level', 4, least=1),
        'resources': taken.several('resource count', lambda: taken.digits('resource', 12)),
        'channel': form_channel(taken) if taken.number('channel flag', 1) else None}


def form_type(taken):
    begin = taken.at
    span = taken.span('type', 5)
    if max(span[2]) > 0x7F:
        refuse(19, 'type', begin)
    return span


def form_channel(taken):
    return {
        'network': taken.number('channel network', 0xFFFF),
        'stream': taken.number('channel stream', 0xFFFF),
        'program': taken.number('channel program', 0xFFFF),
        'PCR PID': taken.number('PCR PID', 0x1FFF),
        'descriptors': form_descriptors(taken, 'program'),
        'streams': taken.several('stream count', lambda: form_stream(taken))}


def form_stream(taken):
    return {
        'type': taken.number('stream type', 0xFF),
        'PID': taken.number('stream PID', 0x1FFF),
        'descriptors': form_descriptors(taken, 'ES')}


def form_descriptors(taken, whose):
    def one():
        return {'tag': taken.number(whose + ' descriptor tag', 0xFF), 'data': taken.span(whose + ' descriptor data')}
    return taken.several(whose + ' descriptor count', one)


# ---- writing


def write(pool, tape, room):
    """The body that a form asks for."""
    return within(written(form(pool, tape)), room)


def written(table):
    return (things('message count', table['messages'], lambda message: part('EBM_length', message_bytes(message), 2))
            + opaque('signature length', table['signature'], 2))


def message_bytes(message):
    return b''.join((
        digits(message['identifier']),
        counted('network', message['network'], 2),
        counted('start', message['start'], 5),
        counted('end', message['end'], 5),
        message['type'][2],
        bytes([message['class'] << 4 | message['level']]),
        things('resource count', message['resources'], digits),
        b'\xFE' if message['channel'] is None else b'\xFF' + channel_bytes(message['channel'])))


def channel_bytes(channel):
    return b''.join((
        counted('channel network', channel['network'], 2),
        counted('channel stream', channel['stream'], 2),
        counted('channel program', channel['program'], 2),
        pid_bytes(channel['PCR PID']),
        short_part('program info length', descriptor_bytes(channel['descriptors'], 'program')),
        part('stream info length', b''.join(map(stream_bytes, channel['streams'])), 2)))


def stream_bytes(stream):
    return (bytes([stream['type']]) + pid_bytes(stream['PID'])
            + short_part('ES info length', descriptor_bytes(stream['descriptors'], 'ES')))


def pid_bytes(pid):
    return (0xE000 | pid).to_bytes(2, 'big')


def descriptor_bytes(descriptors, whose):
    return b''.join(bytes([descriptor['tag']]) + opaque(whose + ' descriptor length', descriptor['data'], 1)
                    for descriptor in descriptors)


# ---- laying


def tape_of(table):
    """The tape that asks for a table, with what it was read from as the pool."""
    return entries(table['messages'], message_entries) + places(table['signature'])


def message_entries(message):
    channel = message['channel']
    return [
        *places(message['identifier']), message['network'], message['start'], message['end'],
        *places(message['type']), message['class'], message['level'],
        *entries(message['resources'], places),
        *([0] if channel is None else [1] + channel_entries(channel))]


def channel_entries(channel):
    return [
        channel['network'], channel['stream'], channel['program'], channel['PCR PID'],
        *entries(channel['descriptors'], descriptor_entries),
        *entries(channel['streams'], stream_entries)]


def stream_entries(stream):
    return [stream['type'], stream['PID'], *entries(stream['descriptors'], descriptor_entries)]


def descriptor_entries(descriptor):
    return [descriptor['tag'], *places(descriptor['data'])]
