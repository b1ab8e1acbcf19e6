"""Index bodies, forms, fields asked for, good, damaged, by chance: as the library takes them and a second program."""
# SPDX-License-Identifier: MIT
import itertools
import random

import index_cases
import make_fields
import make_index
import second_index
import second_index_calls
import table_checks as checks
from make_index import KIND, MOST_BODY
from table_checks import COUNT, SEED, TOP

chance = random.Random(SEED)

# Offsets on both sides of the ends of their range, and some within it.
OFFSETS = (-720, -721, 840, 841, 0, 1, -1, 480, 1440, -2**31, 2**31 - 1)


def by_hand():
    for body, expected in index_cases.BODIES:
        yield ('index_read', KIND, bytes.fromhex(body), 0), expected and '%d %d' % expected
    yield from index_cases.CALLS


# ---- bodies


def list_of(records):
    """A lent list of so many records, six numbers for each."""
    return checks.lent_tape(6 * records)


def whole(kind, body, table):
    """An accepted body: its records, its tape, the body written again, each with room enough and too little."""
    count, laid = len(table['messages']), second_index.tape_of(table)
    assert len(laid) <= len(body) // 2 * 3 + 1
    rooms = checks.ways(chance, body)
    for more in rooms:
        yield 'index_records', kind, body, list_of(max(count + more, 0))
    yield from checks.laid_and_written('index', kind, body, laid, rooms)


def refused(i, kind, body):
    """A refused body: a list of records, or a tape, that stays as it is."""
    room, too_long = chance.choice((0, 1, 2, 3, 5)), len(body) > MOST_BODY
    if i % 2 or too_long:
        yield 'index_records', kind, body, list_of(room)
    if i % 2 == 0 or too_long:
        yield 'index_lay', kind, body, checks.lent_tape(12 * room)


def readings(bodies, tables):
    """Each body read, and then what can be asked of a whole body that is accepted, or that is refused."""
    for i, (kind, body) in enumerate(bodies):
        yield 'index_read', kind, body, chance.choice((*OFFSETS, chance.randint(-720, 840)))
        table = tables.get((kind, body))
        if table:
            yield from whole(kind, body, table)
        else:
            yield from refused(i, kind, body)


# ---- fields asked for


def lengths_of(body):
    return checks.parts_by_length(body, 1, body[0] if body else 0, 2)


def of_message(body, at, length):
    """All that is asked of a message."""
    message = body, at, length
    yield 'message_fields', *message
    yield 'message_local_times', *message, chance.choice((*OFFSETS, chance.randint(-720, 840)))
    yield 'message_identifier_digit', *message, chance.choice(checks.numbers_near(chance, 35))
    count = body[at + 36] if at + 36 < len(body) else 2
    for i in chance.sample(checks.numbers_near(chance, count), 2):
        yield 'message_resource', *message, i
        yield 'message_resource_digit', *message, i, chance.choice(checks.numbers_near(chance, 23))


def of_body(body):
    """The body's own fields, and those of its first messages."""
    yield 'index_message_count', body
    yield 'index_signature', body
    found = lengths_of(body)
    count = body[0] if body else 0
    for i in sorted({0, len(found), count, max(count, 1) - 1, chance.choice((255, 256, 2**32, TOP - 1))}):
        yield 'index_message', body, i
    for at, length in found[:2]:
        for near in checks.parts_near(chance, body, at, length, chance.choice((17, 19, 36, 37, 38))):
            yield from of_message(body, *near)


def parts_of(body, table):
    """Where each descriptor or stream of an accepted body begins, and how many bytes its part has from there on."""
    for (at, _, *_), message in zip(table['records'], table['messages']):
        if message['channel']:
            begin = at + 48 + 12 * len(message['resources'])
            end = begin + second_index_calls.size_of(message['channel']['descriptors'])
            for descriptor in message['channel']['descriptors']:
                yield descriptor['data'][0] - 2, end - descriptor['data'][0] + 2
            begin = end + 2
            end = begin + int.from_bytes(body[end:begin], 'big')
            for stream in message['channel']['streams']:
                yield begin, end - begin
                begin += 5 + second_index_calls.size_of(stream['descriptors'])
                for descriptor in stream['descriptors']:
                    yield descriptor['data'][0] - 2, begin - descriptor['data'][0] + 2


def of_things(body, at, length):
    """A descriptor and a stream there, and as many of them as fill the part."""
    for call in 'descriptor_fields', 'stream_fields', 'descriptor_count', 'stream_count':
        yield call, body, at, length


def of_part(body, at, length):
    """What begins there, and what begins or ends elsewhere, as a descriptor and as a stream."""
    rest = len(body) - at
    lengths = length, length - 1, chance.randrange(6), rest, rest + 1
    for near in (*((at, size) for size in lengths), (at + 1, length - 1), (at + length, 0)):
        yield from of_things(body, *near)


def damaged_near(body, p):
    """A body with a byte of a descriptor or a stream changed."""
    at = min(p + chance.randrange(5), len(body) - 1)
    value = chance.choice((0, 1, 0x7F, 0xDF, 0xE0, 0xF0, 0xF4, 0xF8, 0xFC, 0xFF, chance.randrange(256)))
    return body[:at] + bytes([value]) + body[at + 1:]


def of_sample(body):
    """One body in every way: each message with every length, each place as a message, each beginning with each end."""
    for at, length in lengths_of(body):
        for size in range(length + 4):
            yield 'message_fields', body, at, size
            yield 'message_identifier_digit', body, at, size, 34
            yield 'message_resource_digit', body, at, size, 0, 22
            yield 'message_local_times', body, at, size, 480
        for i in range(37):
            yield 'message_identifier_digit', body, at, length, i
        for i, j in itertools.product(range(4), range(25)):
            yield 'message_resource_digit', body, at, length, i, j
        for offset in OFFSETS:
            yield 'message_local_times', body, at, length, offset
    for at in range(len(body) + 2):
        yield 'message_fields', body, at, max(len(body) - at, 0)
    for at, length in checks.NOT_IN_BODY:
        yield from of_message(body, at, length)
    begins = (*range(0, len(body) + 1, 2), 2**32, 2**63, TOP - 2, TOP - 1)
    ends = (*range(1, len(body) + 2, 3), len(body), len(body) + 1, 2**32, 2**63, TOP - 1)
    parts = [(at, max(end - at, 0)) for at, end in itertools.product(begins, ends)]
    for at, length in [*parts, *checks.NOT_IN_BODY]:
        yield from of_things(body, at, length)


def askings(bodies, tables):
    """One body in every way; those made by hand and some of the others, good and damaged, in a few ways."""
    sample = make_fields.body_of(make_index.items(make_index.sample_table(chance)))
    yield from of_sample(sample)
    small = [(kind, body) for kind, body in bodies if len(body) < 1000]
    by_hand = [bytes.fromhex(body) for body, _ in index_cases.BODIES]
    for body in by_hand + [body for _, body in chance.sample(small, 1200)]:
        yield from of_body(body)
    good = [(body, tables[kind, body]) for kind, body in small if (kind, body) in tables and len(body) > 60]
    for body, table in chance.sample(good, 400):
        places = list(parts_of(body, table))
        for at, length in chance.sample(places, min(len(places), 4)):
            yield from of_part(body, at, length)
            yield from of_part(damaged_near(body, at), at, length)
    for body in bytes(MOST_BODY + 1), b'\1' * (MOST_BODY + 1):
        yield from of_body(body)


def main():
    checks.there_and_back(chance, second_index.read, second_index.write, make_index)
    library = checks.Comparison(second_index_calls, 'index_', 'message_', 'descriptor_', 'stream_')
    bodies = [*make_fields.readings(make_index, SEED, COUNT)]
    tables = checks.tables_of(second_index_calls.table_of, bodies)
    assert len(set(bodies)) > COUNT and len(tables) > COUNT // 4

    told = library.compare([*checks.hand_made(second_index_calls, by_hand()), *readings(bodies, tables)])
    library.must_meet('index_read', index_cases.READ)
    body_numbers = {0, 2, 14, 15, 16, 17, 18, 19, 20, 22}
    assert told['index_read'] == body_numbers and told['index_records'] == told['index_lay'] == body_numbers | {21}

    library.compare_writings('index', make_index, {0, 18, 19, 20, 21, 22}, index_cases.WRITE)

    cases = [*askings(bodies, tables)]
    told = library.compare(cases)
    assert told['index_message_count'] == told['index_signature'] == {0, 14} and told['index_message'] == {0, 14, 19}
    digits = {0, 14, 15, 17, 18, 19}
    assert told['message_resource'] == told['message_resource_digit'] == digits
    assert told['message_fields'] == told['message_identifier_digit'] == digits | {20}
    assert told['message_local_times'] == {0, 14, 15, 18, 19, 20}
    assert told['descriptor_count'] == {0, 14, 15, 19} and told['stream_count'] == {0, 14, 15, 17, 19}
    assert len(cases) > COUNT
    checks.days_made()


main()
