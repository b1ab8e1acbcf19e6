"""The second program for the configuration table, no code shared with the library: read, written, laid."""
# SPDX-License-Identifier: MIT
import datetime
import re

from second_fields import Reader, Tape, counted, digits, entries, opaque, part, places, refuse, things, within

KIND = 0xFB
# The least length of a command's content, by its tag.
LEAST = {1: 7, 2: 13, 3: 10, 4: 3, 5: 5, 6: 2, 7: 2}
FIRST_DATE, LAST_DATE = datetime.date(1900, 3, 1), datetime.date(2038, 4, 22)
# A name without a colon, a colon, a port of one to five digits.
NAME_AND_PORT = re.compile(rb'[\x21-\x39\x3B-\x7E]+:([0-9]{1,5})')


# ---- what holds of the fields, read or to be written


def is_day(year, month, day):
    try:
        return FIRST_DATE <= datetime.date(year, month, day) <= LAST_DATE
    except (ValueError, OverflowError):
        return False


def is_time(hour, minute, second):
    return hour <= 23 and minute <= 59 and second <= 59


def wrong_length(kind, length):
    """Whether an address of this kind has another length. The third kind has no stated one."""
    return kind == 1 and length != 11 or kind == 2 and length != 6


def is_address(kind, address):
    """Whether an address of right length is of the kind's form."""
    if kind == 1:
        return all(0x30 <= digit <= 0x39 for digit in address)
    if kind == 2:
        return True
    found = NAME_AND_PORT.fullmatch(address)
    return found is not None and int(found[1]) <= 65535


# ---- reading


def read(kind, body):
    reader = Reader(kind, KIND, body)
    return {'commands': reader.several('command count', lambda: read_command(reader)),
            'signature': reader.signature()}


def read_command(reader):
    tag = reader.number('tag', 1)
    command, field, place = 'command %d' % tag, length_field(tag), reader.at
    length = reader.length(field, 2)
    if length < LEAST.get(tag, 0):
        refuse(15, field, place)
    if tag not in CONTENTS:
        return {'tag': tag, 'content': reader.taken(length)}
    content = reader.filled(command, length, lambda: CONTENTS[tag](reader, command))
    return {'tag': tag, **content}


def length_field(tag):
    return 'length of command %s' % (tag if tag in LEAST else 'of other tag')


def read_clock(reader, command):
    place = reader.at
    date = {'year': reader.number('year', 2), 'month': reader.number('month', 1), 'day': reader.number('day', 1)}
    if not is_day(**date):
        refuse(20, 'year', place)
    place = reader.at
    time = {name: reader.number(name, 1) for name in ('hour', 'minute', 'second')}
    if not is_time(**time):
        refuse(20, 'hour', place)
    return {**date, **time}


def read_resource_setting(reader, command):
    return {'address': reader.opaque(command + ' address length', 1),
            'resource': reader.digits(command + ' resource', 12)}


def read_frequency(reader, command):
    return {'frequency': reader.number('frequency', 4),
            'symbol rate': reader.number('symbol rate', 4),
            'mapping': up_to(reader, 'mapping', 5),
            'terminals': read_terminals(reader, command)}


def read_return_address(reader, command):
    place = reader.at
    kind = reader.number('address kind', 1)
    if not 1 <= kind <= 3:
        refuse(19, 'address kind', place)
    place = reader.at
    length = reader.length(command + ' address length', 1)
    if wrong_length(kind, length):
        refuse(15, '%s address length, kind %d' % (command, kind), place)
    address = reader.taken(length)
    if not is_address(kind, address[2]):
        refuse(19, '%s address, kind %d' % (command, kind), address[0])
    return {'kind': kind, 'address': address, 'terminals': read_terminals(reader, command)}


def read_period(reader, command):
    return {'period': reader.number('period', 4), 'terminals': read_terminals(reader, command)}


def read_volume(reader, command):
    return {'volume': up_to(reader, 'volume', 100), 'terminals': read_terminals(reader, command)}


def read_query(reader, command):
    return {'parameters': reader.several('parameter count', lambda: reader.number('parameter', 1)),
            'terminals': read_terminals(reader, command)}


def up_to(reader, field, most):
    place = reader.at
    value = reader.number(field, 1)
    if value > most:
        refuse(19, field, place)
    return value


def read_terminals(reader, command):
    return reader.several(command + ' terminal count', lambda: reader.digits(command + ' terminal', 12))


CONTENTS = {1: read_clock, 2: read_resource_setting, 3: read_frequency, 4: read_return_address, 5: read_period,
            6: read_volume, 7: read_query}


# ---- forms


def form(pool, tape):
    """The table that a form asks for; its byte fields have their places in the pool."""
    taken = Tape(pool, tape)
    return {'commands': taken.several('command count', lambda: form_command(taken)), 'signature': taken.signature()}


def form_command(taken):
    tag = taken.number('tag', 0xFF)
    if tag not in FORMS:
        return {'tag': tag, 'content': taken.span('content')}
    return {'tag': tag, **FORMS[tag](taken, 'command %d' % tag)}


def form_clock(taken, command):
    """The day is judged when its three numbers are taken, the time when its three are: too large ones are impossible."""
    begin = taken.at
    date = {name: taken.entry(name) for name in ('year', 'month', 'day')}
    if not is_day(**date):
        refuse(20, 'year', begin)
    begin = taken.at
    time = {name: taken.entry(name) for name in ('hour', 'minute', 'second')}
    if not is_time(**time):
        refuse(20, 'hour', begin)
    return {**date, **time}


def form_resource_setting(taken, command):
    return {'address': taken.span(command + ' address'), 'resource': taken.digits(command + ' resource', 12)}


def form_frequency(taken, command):
    return {'frequency': taken.number('frequency', 2**32 - 1),
            'symbol rate': taken.number('symbol rate', 2**32 - 1),
            'mapping': taken.number('mapping', 5),
            'terminals': form_terminals(taken, command)}


def form_return_address(taken, command):
    kind = taken.number('address kind', 3, least=1)
    begin = taken.at
    address = taken.span(command + ' address')
    if wrong_length(kind, address[1]):
        refuse(15, '%s address, kind %d' % (command, kind), begin)
    if not is_address(kind, address[2]):
        refuse(19, '%s address, kind %d' % (command, kind), begin)
    return {'kind': kind, 'address': address, 'terminals': form_terminals(taken, command)}


def form_period(taken, command):
    return {'period': taken.number('period', 2**32 - 1), 'terminals': form_terminals(taken, command)}


def form_volume(taken, command):
    return {'volume': taken.number('volume', 100), 'terminals': form_terminals(taken, command)}


def form_query(taken, command):
    return {'parameters': taken.several('parameter count', lambda: taken.number('parameter', 0xFF)),
            'terminals': form_terminals(taken, command)}


def form_terminals(taken, command):
    return taken.several(command + ' terminal count', lambda: taken.digits(command + ' terminal', 12))


FORMS = {1: form_clock, 2: form_resource_setting, 3: form_frequency, 4: form_return_address, 5: form_period,
         6: form_volume, 7: form_query}


# ---- writing


def write(pool, tape, room):
    """The body that a form asks for."""
    return within(written(form(pool, tape)), room)


def written(table):
    return things('command count', table['commands'], command_bytes) + opaque('signature length', table['signature'], 2)


def command_bytes(command):
    tag = command['tag']
    return bytes([tag]) + part(length_field(tag), content_bytes(command, 'command %d' % tag), 2)


def content_bytes(command, name):
    tag = command['tag']
    if tag == 1:
        return counted('year', command['year'], 2) + bytes(
            command[field] for field in ('month', 'day', 'hour', 'minute', 'second'))
    if tag == 2:
        return opaque(name + ' address length', command['address'], 1) + digits(command['resource'])
    if tag not in LEAST:
        return command['content'][2]
    return before_terminals(command, name) + things(name + ' terminal count', command['terminals'], digits)


def before_terminals(command, name):
    tag = command['tag']
    if tag == 3:
        return (counted('frequency', command['frequency'], 4) + counted('symbol rate', command['symbol rate'], 4)
                + bytes([command['mapping']]))
    if tag == 4:
        return bytes([command['kind']]) + opaque(name + ' address length', command['address'], 1)
    if tag == 5:
        return counted('period', command['period'], 4)
    if tag == 6:
        return bytes([command['volume']])
    return things('parameter count', command['parameters'], lambda parameter: bytes([parameter]))


# ---- laying


def tape_of(table):
    """The tape that asks for a table, with what it was read from as the pool."""
    return entries(table['commands'], command_entries) + places(table['signature'])


def command_entries(command):
    """The fields stand in the order of the tape."""
    laid = []
    for name, value in command.items():
        if name == 'terminals':
            laid += entries(value, places)
        elif name == 'parameters':
            laid += entries(value, lambda parameter: [parameter])
        else:
            laid += places(value) if isinstance(value, tuple) else [value]
    return laid
