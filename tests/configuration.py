"""Configuration bodies, forms, fields asked for, good, damaged, by chance: as the library and a second program do."""
# SPDX-License-Identifier: MIT
import random

import configuration_cases
import make_configuration
import make_fields
import second_configuration
import second_configuration_calls
import table_checks as checks
from make_configuration import KIND, MOST_BODY
from table_checks import COUNT, SEED, TOP

chance = random.Random(SEED)


def by_hand():
    for body, expected in configuration_cases.BODIES:
        yield ('configuration_read', KIND, bytes.fromhex(body)), expected and '%d %d' % expected
    yield from configuration_cases.CALLS


# ---- bodies


def readings(bodies, tables):
    """Each body read and laid; an accepted one also written again from its tape."""
    for i, (kind, body) in enumerate(bodies):
        yield 'configuration_read', kind, body
        table = tables.get((kind, body))
        if table:
            laid = second_configuration.tape_of(table)
            assert len(laid) <= len(body)
            yield from checks.laid_and_written('configuration', kind, body, laid, checks.ways(chance, body))
        elif i % 2 or len(body) > MOST_BODY:
            yield 'configuration_lay', kind, body, checks.lent_tape(chance.choice((0, 1, 3, 12, 40)))


# ---- fields asked for


def places_of(body):
    """Where commands begin, by their lengths alone, and where the signature does."""
    found = [1]
    for _ in range(body[0] if body else 0):
        length = body[found[-1] + 1:found[-1] + 3]
        if len(length) < 2 or found[-1] > len(body):
            break
        found.append(found[-1] + 3 + int.from_bytes(length, 'big'))
    return found


def number_near(count):
    return chance.choice(checks.numbers_near(chance, count))


def of_command(body, p):
    """All that is asked of a command; the first bytes of some contents are counts."""
    yield 'command_fields', body, p
    yield 'command_code_digit', body, p, number_near(23)
    first = body[p + 3] if p + 3 < len(body) else 2
    for i in {0, number_near(first)}:
        yield 'command_parameter', body, p, i
    for i in {0, number_near(2)}:
        yield 'command_terminal', body, p, i
        yield 'command_terminal_digit', body, p, i, number_near(23)


def of_body(body):
    """The body's own fields, those of its first commands, and what is found elsewhere."""
    yield 'configuration_fields', body
    for i in {0, number_near(body[0] if body else 0)}:
        yield 'configuration_command', body, i
    found = places_of(body)
    elsewhere = found[0] + 1, found[-1] - 1, len(body) - 1, len(body), len(body) + 1, chance.randrange(len(body) + 1)
    for p in sorted({*found[:4], found[-1], chance.choice(found), *chance.sample(elsewhere, 2)}):
        if p >= 0:
            yield from of_command(body, p)


def of_sample(body):
    """One body in every way: each place as a command, each command with each tag, each terminal and digit."""
    for p in (*range(len(body) + 3), 2**32, 2**32 + 1, 2**63, 2**63 + 1, TOP - 4, TOP - 3, TOP - 2, TOP - 1):
        yield from of_command(body, p)
    for p in places_of(body)[:-1]:
        for tag in (*range(9), 255):
            yield from of_command(body[:p] + bytes([tag]) + body[p + 1:], p)
        for size in range(p, len(body)):
            yield 'command_fields', body[:size], p
        for j in range(25):
            yield 'command_code_digit', body, p, j
        for i in range(4):
            yield 'command_parameter', body, p, i
            yield 'command_terminal', body, p, i
            for j in range(25):
                yield 'command_terminal_digit', body, p, i, j
    for size in range(len(body) + 1):
        yield 'configuration_fields', body[:size]
        for i in range(body[0] + 2):
            yield 'configuration_command', body[:size], i


def askings(bodies):
    """One body in every way; those made by hand and some of the others, good and damaged, in a few ways."""
    yield from of_sample(make_fields.body_of(make_configuration.items(make_configuration.sample_table(chance))))
    small = [body for _, body in bodies if len(body) < 1000]
    for body in [bytes.fromhex(body) for body, _ in configuration_cases.BODIES] + chance.sample(small, 2500):
        yield from of_body(body)
    for byte in b'\0', b'\1':
        yield from of_body(byte * (MOST_BODY + 1))


# The numbers with which each field of a command is answered, in the order of calls.c.
OPAQUE = {0, 14, 15, 19}
DATED = OPAQUE | {20}
DIGITS = OPAQUE | {17, 18}
OF_COMMAND = ({0, 19}, OPAQUE, *[DATED] * 6, OPAQUE, DIGITS, *[OPAQUE] * 9)


def main():
    checks.there_and_back(chance, second_configuration.read, second_configuration.write, make_configuration)
    library = checks.Comparison(second_configuration_calls, 'configuration_', 'command_')
    bodies = [*make_fields.readings(make_configuration, SEED, COUNT)]
    tables = checks.tables_of(second_configuration_calls.table_of, bodies)
    assert len(set(bodies)) > COUNT and len(tables) > COUNT // 4

    told = library.compare([*checks.hand_made(second_configuration_calls, by_hand()), *readings(bodies, tables)])
    library.must_meet('configuration_read', configuration_cases.READ)
    body_numbers = {0, 2, 14, 15, 16, 17, 18, 19, 20, 22}
    assert told['configuration_read'] == body_numbers and told['configuration_lay'] == body_numbers | {21}

    numbers = {0, 15, 18, 19, 20, 21, 22}
    library.compare_writings('configuration', make_configuration, numbers, configuration_cases.WRITE)

    cases = [*askings(bodies)]
    told = library.compare(cases)
    checks.fields_met(told, 'configuration_fields', {0, 14}, {0, 14})
    checks.fields_met(told, 'command_fields', *OF_COMMAND)
    assert told['configuration_command'] == {0, 14, 19}
    assert told['command_parameter'] == OPAQUE
    assert told['command_code_digit'] == told['command_terminal'] == told['command_terminal_digit'] == DIGITS
    assert len(cases) > COUNT


main()
