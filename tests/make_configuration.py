"""Configuration tables by chance, as values, bodies and forms, good and damaged; all from a seed."""
# SPDX-License-Identifier: MIT
import datetime
import itertools

import make_fields as make
from make_fields import END, MOST_BODY

KIND = 0xFB
FIRST_DATE, LAST_DATE = datetime.date(1900, 3, 1), datetime.date(2038, 4, 22)
DATES = (FIRST_DATE, LAST_DATE, datetime.date(2000, 2, 29), datetime.date(1999, 12, 31), datetime.date(2024, 2, 29))
# The standard's example of a name and port, without its space and with it.
EXAMPLE, EXAMPLE_WITH_SPACE = b'www.chinaeb-lab.org:8080', b'www.chinaeb-lab.org: 8080'
GOOD_NAMES = (EXAMPLE, b'a:0', b'!:65535', b'~:00000', b'x.y:00080', b'/:8')
BAD_NAMES = (
    EXAMPLE_WITH_SPACE, b'', b':', b'a:', b':80', b'a', b'8080', b'a:65536', b'a:99999', b'a:000080', b'a:080808',
    b'a:b', b'a:8b', b'a:80 ', b'a:80:', b'a::80', b'a:b:80', b'a b:80', b' a:80', b'a\x7F:80', b'a\x80:80', b'a\0:80',
    b'\n:80', b'a:-1', b'a:+1', b'a:1.', b'a;80', b'a:\xB1', b'a:80\n', b'a:/', b'a::', b'a:8:8')


# ---- tables as values


def table(chance):
    return table_of(chance, [command(chance) for _ in range(make.some(chance, 8))])


def table_of(chance, commands, signature=None):
    return {'commands': commands, 'signature': make.data(chance, 70) if signature is None else signature}


def command(chance, tag=None, most=5):
    """A command of a tag, or of any, with some terminals."""
    tag = chance.choice((1, 2, 3, 4, 4, 4, 5, 6, 7, 0, 8, 255, chance.randint(8, 255))) if tag is None else tag
    if tag == 1:
        return clock(chance)
    if tag == 2:
        address = chance.randbytes(chance.choice((0, 6, 6, 255, chance.randrange(256))))
        return {'tag': 2, 'address': address, 'resource': make.digits(chance, 23)}
    if not 3 <= tag <= 7:
        return {'tag': tag, 'content': make.data(chance, 50)}
    return {'tag': tag, **before_terminals(chance, tag), 'terminals': terminals(chance, make.some(chance, most))}


def terminals(chance, count):
    return [make.digits(chance, 23) for _ in range(count)]


def clock(chance):
    date = datetime.date.fromordinal(chance.randint(FIRST_DATE.toordinal(), LAST_DATE.toordinal()))
    date = chance.choice((date, date, *DATES))
    parts = [chance.choice((0, most, chance.randint(0, most))) for most in (23, 59, 59)]
    return {'tag': 1, 'year': date.year, 'month': date.month, 'day': date.day,
            'hour': parts[0], 'minute': parts[1], 'second': parts[2]}


def before_terminals(chance, tag):
    if tag == 3:
        return {'frequency': make.number(chance, 2**32 - 1), 'symbol rate': make.number(chance, 2**32 - 1),
                'mapping': chance.randint(0, 5)}
    if tag == 4:
        kind = chance.randint(1, 3)
        return {'kind': kind, 'address': address(chance, kind)}
    if tag == 5:
        return {'period': make.number(chance, 2**32 - 1)}
    if tag == 6:
        return {'volume': make.number(chance, 100)}
    return {'parameters': [make.number(chance, 255) for _ in range(make.some(chance, 9))]}


def address(chance, kind):
    if kind == 1:
        return bytes(chance.choices(b'0123456789', k=11))
    if kind == 2:
        return chance.randbytes(6)
    return chance.choice((*GOOD_NAMES, name_and_port(chance, chance.randint(3, 60)), name_and_port(chance, 255)))


def name_and_port(chance, size):
    """A good address of so many bytes."""
    port = b':%d' % chance.choice((0, 9, 80, 65535, chance.randrange(65536)))
    port = port if len(port) < size else b':7'
    name = bytes(chance.choices([byte for byte in range(0x21, 0x7F) if byte != 0x3A], k=size - len(port)))
    return name + port


def samples(chance):
    """Tables of one command with every field."""
    for kind in 1, 2, 3:
        fields = {'tag': 4, 'kind': kind, 'address': address(chance, kind)[-20:]}
        yield table_of(chance, [{**fields, 'terminals': terminals(chance, 1)}], b'')
    for tag in 3, 5, 6, 7:
        fields = {'tag': tag, **before_terminals(chance, tag)}
        yield table_of(chance, [{**fields, 'terminals': terminals(chance, 2)}], b'')
    yield table_of(chance, [{'tag': 7, 'parameters': [1, 2], 'terminals': terminals(chance, 1)}], b'')
    yield table_of(chance, [{'tag': 2, 'address': b'abc', 'resource': make.digits(chance, 23)}], b'')
    yield table_of(chance, [clock(chance), {'tag': 8, 'content': b'abc'}], b'')


def sample_table(chance):
    """A table with every field."""
    return table_of(chance, [command for one in samples(chance) for command in one['commands']], b'sig')


def large(chance):
    """Each count and length at its most or near it."""
    for count in 254, 255:
        yield table_of(chance, [command(chance) for _ in range(count)])
        yield table_of(chance, [{'tag': 8, 'content': b''}] * count, b'')
        for tag in 3, 4, 5, 6, 7:
            yield table_of(chance, [{**command(chance, tag), 'terminals': terminals(chance, count)}])
        yield table_of(chance, [{'tag': 7, 'parameters': list(chance.randbytes(count)), 'terminals': []}])
        yield table_of(chance, [{'tag': 2, 'address': bytes(count), 'resource': make.digits(chance, 23)}])
        yield table_of(chance, [{'tag': 4, 'kind': 3, 'address': name_and_port(chance, count), 'terminals': []}])
    for size in 255, 256, 65534, 65535:
        yield table_of(chance, [{'tag': chance.choice((0, 8, 255)), 'content': chance.randbytes(size)}])
        yield table_of(chance, [command(chance)], chance.randbytes(size))


def largest(chance):
    """A body of 1,045,504 bytes, and one of a byte less."""
    for size in MOST_BODY, MOST_BODY - 1:
        commands = [{'tag': 99, 'content': chance.randbytes(65535)}] * 15
        yield table_of(chance, commands, chance.randbytes(size - 3 - 15 * 65538))


# ---- bodies


def items(table):
    return [('command count', bytes([len(table['commands'])])),
            *(item for command in table['commands'] for item in command_items(command)),
            ('signature length', 2), ('signature', table['signature']), END]


def command_items(command):
    tag = command['tag']
    name = 'command %d' % tag if 1 <= tag <= 7 else 'other command'
    return [('tag', bytes([tag])), (name + ' length', 2), *content_items(command, tag, name), END]


def content_items(command, tag, name):
    if tag == 1:
        return [('year', command['year'].to_bytes(2, 'big')),
                *((part, bytes([command[part]])) for part in ('month', 'day', 'hour', 'minute', 'second'))]
    if tag == 2:
        return [('command 2 address length', 1), ('command 2 address', command['address']), END,
                ('command 2 resource', make.digit_bytes(command['resource']))]
    if not 3 <= tag <= 7:
        return [('content', command['content'])]
    return [*items_before_terminals(command, tag), (name + ' terminal count', bytes([len(command['terminals'])])),
            *((name + ' terminal', make.digit_bytes(terminal)) for terminal in command['terminals'])]


def items_before_terminals(command, tag):
    if tag == 3:
        return [('frequency', command['frequency'].to_bytes(4, 'big')),
                ('symbol rate', command['symbol rate'].to_bytes(4, 'big')), ('mapping', bytes([command['mapping']]))]
    if tag == 4:
        return [('address kind', bytes([command['kind']])), ('command 4 address length', 1),
                ('address of kind %d' % command['kind'], command['address']), END]
    if tag == 5:
        return [('period', command['period'].to_bytes(4, 'big'))]
    if tag == 6:
        return [('volume', bytes([command['volume']]))]
    return [('parameter count', bytes([len(command['parameters'])])),
            *(('parameter', bytes([parameter])) for parameter in command['parameters'])]


def other_length(*sizes):
    """Digits of one of some lengths."""
    return lambda chance, what: b'1' * chance.choice(sizes)


BAD_YEARS = (0, 1, 1899, 1900, 2001, 2038, 2039, 9999, 10000, 65535)
RESOURCE = [make.cleared(4), make.digit_above_nine]
BAD = {
    'command count': [make.count_changed],
    'tag': [make.one_byte(0, 8)],
    'year': [make.one_of(*(year.to_bytes(2, 'big') for year in BAD_YEARS))],
    'month': [make.one_of(b'\0', b'\2', b'\4', b'\x0D', b'\xFF')],
    'day': [make.one_of(b'\0', b'\x1D', b'\x1E', b'\x1F', b'\x20', b'\xFF')],
    'hour': [make.one_byte(24, 255)],
    'minute': [make.one_byte(60, 255)],
    'second': [make.one_byte(60, 255)],
    'command 2 resource': RESOURCE,
    'mapping': [make.one_byte(6, 255)],
    'address kind': [make.one_byte(0, 4), make.one_byte(4, 255)],
    'address of kind 1': [make.one_byte(0, 0x2F), make.one_byte(0x3A, 0xFF), other_length(0, 1, 6, 10, 12, 255)],
    'address of kind 2': [other_length(0, 1, 4, 5, 7, 11, 255)],
    'address of kind 3': [make.one_of(*BAD_NAMES), make.one_byte(0, 0x20), make.one_byte(0x7F, 0xFF),
                          make.one_byte(0x3A, 0x3A)],
    'volume': [make.one_byte(101, 255)],
    'parameter count': [make.count_changed],
    **{'command %d terminal count' % tag: [make.count_changed] for tag in (3, 4, 5, 6, 7)},
    **{'command %d terminal' % tag: RESOURCE for tag in (3, 4, 5, 6, 7)}}


DAYS = tuple(itertools.product((0, 1, 1899, 1900, 1904, 1999, 2000, 2001, 2024, 2037, 2038, 2039, 9999, 10000, 65535),
                               (*range(14), 255), (0, 1, 22, 23, 28, 29, 30, 31, 32, 255)))
TIMES = tuple(itertools.product((0, 23, 24, 60, 255), (0, 59, 60, 255), (0, 59, 60, 61, 255)))


def clocks():
    """Days and times, possible and not, as six numbers."""
    for day, time in itertools.chain(zip(DAYS, itertools.cycle(((0, 0, 0), (23, 59, 59), (24, 0, 0)))),
                                     zip(itertools.cycle(((2024, 11, 3), (1900, 2, 28))), TIMES)):
        yield *day, *time


def clock_body(year, *parts):
    return bytes([1, 1, 0, 7]) + year.to_bytes(2, 'big') + bytes(parts) + b'\0\0'


def address_body(kind, address):
    """A body of one command 4."""
    content = bytes([kind, len(address)]) + address + b'\0'
    return b'\1\4' + len(content).to_bytes(2, 'big') + content + b'\0\0'


def content_bodies():
    """Each tag with contents of every length up to some more than the least, at the body's end and before it."""
    for tag, size, byte, rest in itertools.product((0, 1, 2, 3, 4, 5, 6, 7, 8, 255), range(20), (0, 1, 0xF1),
                                                   (b'', b'\0\0', bytes(40))):
        yield bytes([1, tag, 0, size]) + bytes([byte]) * size + rest


def resource_bodies():
    """Command 2 with addresses that leave too little, enough and too much of the content."""
    for size, length, rest in itertools.product(range(13, 17), range(20), (b'', b'\0\0', bytes(40))):
        resource = b'\xF1' + bytes(size - 2 - length) if length < size - 1 else b''
        content = (bytes([length]) + b'a' * length + resource)[:size]
        yield bytes([1, 2, 0, size]) + content + rest


def bodies_always(chance, sample):
    """Bodies near a sample table, and of clocks, addresses and contents of every kind."""
    return [
        *make.all_short(), *content_bodies(), *resource_bodies(), *(clock_body(*clock) for clock in clocks()),
        *(address_body(3, address) for address in (*GOOD_NAMES, *BAD_NAMES)),
        *(address_body(kind, b'1' * size) for kind in (1, 2, 3) for size in range(14)),
        *(address_body(1, b'1' * at + bytes([value]) + b'1' * (10 - at)) for at in (0, 5, 10) for value in range(256)),
        *(address_body(3, b'a%cb:8%c' % (byte, other)) for byte in range(256) for other in (0x30, byte)),
        *(address_body(3, b'a:%d' % port) for port in range(65500, 65600)),
        *make.near(items(sample)), *(body for one in samples(chance) for body in make.near(items(one))),
        *make.every_value(items(sample), ('command count', 'tag', 'mapping', 'address kind', 'volume'))]


# ---- forms


def form_of(chance, table):
    made = make.Form()
    made.count('command count', table['commands'])
    for command in table['commands']:
        made.number('tag', command['tag'])
        form_content(chance, made, command, 'command %d' % command['tag'])
    made.span('signature', table['signature'])
    return made


def form_content(chance, made, command, name):
    """The fields after the tag, in the order of the tape."""
    for field, value in list(command.items())[1:]:
        if field == 'terminals':
            made.count(name + ' terminal count', value)
            for terminal in value:
                made.digits(name + ' terminal', terminal, chance)
        elif field == 'parameters':
            made.count('parameter count', value)
            for parameter in value:
                made.number('parameter', parameter)
        elif field == 'resource':
            made.digits('command 2 resource', value, chance)
        elif field == 'address':
            made.span(name + ' address' + (' of kind %d' % command['kind'] if 'kind' in command else ''), value)
        elif field == 'content':
            made.span('content', value)
        else:
            made.number('address kind' if field == 'kind' else field, value)


BAD_ENTRIES = {
    'tag': lambda chance: chance.choice((0, 1, 2, 3, 4, 5, 6, 7, 8, 255, 256, 257, 2**32 + 1)),
    'year': lambda chance: chance.choice((0, 1899, 1900, 2038, 2039, 9999, 10000, 65535, 65536, 65536 + 2024)),
    'month': lambda chance: chance.choice((0, 2, 4, 13, 255, 256, 257)),
    'day': lambda chance: chance.choice((0, 29, 30, 31, 32, 255, 256, 257)),
    'hour': lambda chance: chance.choice((24, 60, 255, 256, 257)),
    'minute': lambda chance: chance.choice((60, 255, 256, 257)),
    'second': lambda chance: chance.choice((60, 61, 255, 256, 257)),
    'mapping': lambda chance: chance.choice((6, 255, 256)),
    'frequency': lambda chance: 2**32 + make.number(chance, 2**32 - 1),
    'symbol rate': lambda chance: 2**32 + make.number(chance, 2**32 - 1),
    'period': lambda chance: 2**32 + make.number(chance, 2**32 - 1),
    'address kind': lambda chance: chance.choice((0, 1, 2, 3, 4, 255, 257, 258, 259)),
    'volume': lambda chance: chance.choice((101, 255, 256, 356)),
    'parameter': lambda chance: 256 + make.number(chance, 255),
    'command 2 address length': lambda chance: chance.choice((256, 257)),
    'command 4 address of kind 1 length': lambda chance: chance.choice((0, 10, 12, 6)),
    'command 4 address of kind 2 length': lambda chance: chance.choice((0, 5, 7, 11))}
COUNTS = ('command count', 'parameter count', *('command %d terminal count' % tag for tag in (3, 4, 5, 6, 7)))

# What stands before a command's terminals. In a pool of the digit 1, digits are 3 and 1, and a number of 11 is good.
HEADS = ([3, 500000, 6875, 3], [4, 1, 0, 11], [4, 2, 0, 6], [5, 86400], [6, 100], [7, 0], [7, 2, 1, 255])


def too_large():
    """Tapes with each count and length at its most and above it."""
    for count in 254, 255, 256, 257, 511, 512:
        yield [count, *[8, 0, 0] * count, 0, 0]
        yield [count, *[6, 100, 0] * count, 0, 0]
        yield [1, 7, count, *[9] * count, 0, 0, 0]
        yield [1, 7, count, *[9] * count, count, *[0, 12] * count, 0, 0]
        yield [1, 2, 0, count, 0, 12, 0, 0]
        yield [1, 4, 1, 0, count, 0, 0, 0]
        yield [1, 4, 2, 0, count, 0, 0, 0]
        yield [1, 4, 3, 0, count, 0, 0, 0]
        for head in HEADS:
            yield [1, *head, count, *[0, 12] * count, 0, 0]
    for length in 65534, 65535, 65536, 65537:
        yield [1, 0, 0, length, 0, 0]
        yield [2, 255, 0, length, 6, 100, 0, 0, 0]
        yield [0, 0, length]


def name_forms():
    """Names and ports, good and bad, short and longer than a length can say."""
    for size, ending in itertools.product((1, 100, 249, 250, 251, 252, 253, 254, 255, 256, 300, 70000),
                                          (b':80', b':8', b':65535', b':65536', b'', b' :80')):
        pool = b'1' * size + ending
        yield pool, [1, 4, 3, 0, len(pool), 1, 0, 12, 0, 0]
        yield pool, [1, 4, 3, 0, len(pool), 1, 0, 11, 0, 0]
    for address in (*GOOD_NAMES, *BAD_NAMES):
        yield address, [1, 4, 3, 0, len(address), 0, 0, 0]


def around_most_body():
    """Fifteen contents of 65,535 bytes, and a signature with which the body is as long as it may be, or longer."""
    for rest in 62430, 62431, 62432, 65535:
        yield [15, *[200, 0, 65535] * 15, 0, rest]
    yield [16, *[200, 0, 65535] * 16, 0, 0]
    yield [255, *[200, 0, 65535] * 255, 0, 65535]


def forms_always():
    """Clocks and addresses of every kind, and forms around the most of each count and length."""
    yield from ((b'', [1, 1, *clock, 0, 0], 13) for clock in clocks())
    yield from ((pool, tape, 400) for pool, tape in name_forms())
    for tape in too_large():
        yield from make.with_faults(b'1' * 65537, tape, 66000)
    for tape in around_most_body():
        yield from make.in_large_rooms(b'1' * 65535, tape)
