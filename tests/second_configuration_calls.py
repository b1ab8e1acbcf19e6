"""The second program's answers to the configuration table's calls, no code shared with the library."""
# SPDX-License-Identifier: MIT
import functools

import second_configuration
from second_calls import Part, answered, digit, joined, lent, measured, part, span, unrefused, up_to, written
from second_fields import refuse


# ---- whole bodies and forms


@functools.lru_cache(maxsize=None)
def table_of(kind, body):
    """The table of a body, read once for all that is asked of it."""
    return second_configuration.read(kind, body)


def configuration_read(kind, body):
    """Of an accepted body every field, taken from the whole table that was read."""
    table = table_of(kind, body)
    found, at = unrefused(len(table['commands']), span(table['signature'])), 1
    for command in table['commands']:
        length = int.from_bytes(body[at + 1:at + 3], 'big')
        found += unrefused(part(at, 3 + length)) + command_items(command, part(at + 3, length))
        at += 3 + length
    return 0, *found


# The fields that are asked for without a further number, in the order of calls.c: the tag of their command, and the
# name that the table has for them.
NAMES = ((1, 'year'), (1, 'month'), (1, 'day'), (1, 'hour'), (1, 'minute'), (1, 'second'),
         (2, 'address'), (2, 'resource'), (3, 'frequency'), (3, 'symbol rate'), (3, 'mapping'),
         (4, 'kind'), (4, 'address'), (5, 'period'), (6, 'volume'), (7, 'parameters'))


def command_items(command, content):
    """A command's fields, and 19 for those of other tags; then what is counted in it."""
    tag, found = command['tag'], unrefused(command['tag'], content)
    for its_tag, name in NAMES:
        found += unrefused(plain_value(command[name])) if tag == its_tag else [19, 0]
    found += unrefused(len(command['terminals'])) if 'terminals' in command else [19, 0]
    found += [command['resource'][2]] if tag == 2 else []
    found += unrefused(*command.get('parameters', []))
    for terminal in command.get('terminals', []):
        found += [*unrefused(span(terminal)), terminal[2]]
    return found


def plain_value(value):
    """A number, a part, or of a list its count."""
    if isinstance(value, tuple):
        return span(value)
    return len(value) if isinstance(value, list) else value


def configuration_lay(kind, body, tape):
    return lent(tape, lambda: second_configuration.tape_of(table_of(kind, body)))


def configuration_measure(pool, tape):
    return measured(second_configuration.write, pool, tape)


def configuration_write(pool, tape, out):
    body, after = written(second_configuration.write, pool, tape, out)
    return len(body), after


# ---- fields of the body asked for, each judged alone where it stands, whatever else is wrong


def command_count(body):
    return Part(body, 0, len(body)).number('command count', 1)


def pass_commands(reader, count):
    """Past some commands, by their tags and lengths."""
    for _ in range(count):
        reader.number('tag', 1)
        reader.taken(reader.length('command length', 2))
    return reader


def signature(body):
    return pass_commands(Part(body, 1, len(body)), command_count(body)).counted('signature length', 2)


def configuration_command(body, i):
    """From its tag to the end of its content."""
    begin = pass_commands(Part(body, 1, len(body)), up_to(i, command_count(body))).at
    return part(begin, pass_commands(Part(body, begin, len(body)), 1).at - begin)


def configuration_fields(body):
    return joined((answered(command_count, body), answered(signature, body)))


# ---- fields of a command asked for, which is told by where its tag stands


def at_command(body, p):
    if p >= len(body):
        refuse(19, 'command')
    return Part(body, p, len(body))


def tag(body, p):
    return at_command(body, p).number('tag', 1)


def content(body, p):
    """The content's part, not below the least length of its tag."""
    reader = at_command(body, p)
    least = second_configuration.LEAST.get(reader.number('tag', 1), 0)
    place = reader.at
    length = reader.length('command length', 2)
    if length < least:
        refuse(15, 'command length', place)
    return reader.at, length


def inside(body, p, its_tag, place):
    """At a place of the content of a command that must have some tag."""
    if tag(body, p) != its_tag:
        refuse(19, 'tag')
    begin, length = content(body, p)
    return Part(body, begin + place, begin + length)


def day(which):
    """Year, month or day, judged together."""
    def part_of(body, p):
        reader = inside(body, p, 1, 0)
        place = reader.at
        found = reader.number('year', 2), reader.number('month', 1), reader.number('day', 1)
        if not second_configuration.is_day(*found):
            refuse(20, 'year', place)
        return found[which]
    return part_of


def time(which):
    """Hour, minute or second, judged together, whether or not the day is good."""
    def part_of(body, p):
        reader = inside(body, p, 1, 4)
        place = reader.at
        found = [reader.number(name, 1) for name in ('hour', 'minute', 'second')]
        if not second_configuration.is_time(*found):
            refuse(20, 'hour', place)
        return found[which]
    return part_of


def code_address(body, p):
    return inside(body, p, 2, 0).counted('address length', 1)


def code_resource(body, p):
    reader = inside(body, p, 2, 0)
    reader.taken(reader.length('address length', 1))
    return reader.digits('resource', 12)


def number_at(its_tag, place, width, most):
    """A number that is 19 at its place above some most."""
    def asked(body, p):
        reader = inside(body, p, its_tag, place)
        begin = reader.at
        value = reader.number('number', width)
        if value > most:
            refuse(19, 'number', begin)
        return value
    return asked


def read_kind(reader):
    place = reader.at
    kind = reader.number('address kind', 1)
    if not 1 <= kind <= 3:
        refuse(19, 'address kind', place)
    return kind


def return_kind(body, p):
    return read_kind(inside(body, p, 4, 0))


def past_return_address(body, p):
    """The return address, and the reader after it."""
    reader = inside(body, p, 4, 0)
    kind, place = read_kind(reader), reader.at
    length = reader.length('address length', 1)
    if second_configuration.wrong_length(kind, length):
        refuse(15, 'address length', place)
    address = reader.taken(length)
    if not second_configuration.is_address(kind, address[2]):
        refuse(19, 'address', address[0])
    return address, reader


def return_address(body, p):
    return span(past_return_address(body, p)[0])


def parameter_count(body, p):
    return inside(body, p, 7, 0).number('parameter count', 1)


def at_terminals(body, p):
    """At the terminal count. Of the parameters their count is enough to find it."""
    its_tag = tag(body, p)
    if not 3 <= its_tag <= 7:
        refuse(19, 'tag')
    if its_tag == 4:
        return past_return_address(body, p)[1]
    if its_tag == 7:
        return inside(body, p, 7, 1 + parameter_count(body, p))
    return inside(body, p, its_tag, {3: 9, 5: 4, 6: 1}[its_tag])


def terminal_count(body, p):
    return at_terminals(body, p).number('terminal count', 1)


# What is asked of a command without a further number, in the order of calls.c.
OF_COMMAND = (
    tag, lambda body, p: part(*content(body, p)),
    day(0), day(1), day(2), time(0), time(1), time(2),
    code_address, lambda body, p: span(code_resource(body, p)),
    number_at(3, 0, 4, 2**32 - 1), number_at(3, 4, 4, 2**32 - 1), number_at(3, 8, 1, 5),
    return_kind, return_address, number_at(5, 0, 4, 2**32 - 1), number_at(6, 0, 1, 100), parameter_count,
    terminal_count)


def command_fields(body, p):
    return joined(answered(call, body, p) for call in OF_COMMAND)


def command_code_digit(body, p, j):
    return digit(code_resource(body, p)[2], j)


def command_parameter(body, p, i):
    up_to(i, parameter_count(body, p))
    return inside(body, p, 7, 1 + i).number('parameter', 1)


def terminal(body, p, i):
    reader = at_terminals(body, p)
    up_to(i, reader.number('terminal count', 1))
    reader.at += 12 * i
    return reader.digits('terminal', 12)


def command_terminal(body, p, i):
    return span(terminal(body, p, i))


def command_terminal_digit(body, p, i, j):
    return digit(terminal(body, p, i)[2], j)
