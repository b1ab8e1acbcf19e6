"""Forms measured: a good one needs the room that is told, and of one with one field spoiled that field's entry is told."""
# SPDX-License-Identifier: MIT
import random

import calls
import make_configuration
import make_content
import make_fields
import make_index

chance = random.Random(86)
# A table, the variant that its calls take, if any, and what makes its forms.
TABLES = [('index', (), make_index), ('configuration', (), make_configuration),
          *(('content', (variant,), make_content.of_variant(variant)) for variant in make_content.VARIANTS)]

# A value that spoils an entry of this name, and the refusal that it gets: by document 01, not by another program.
SPOILED = {
    'network': (2**16, 19), 'start': (0, 20), 'end': (2**40 - 2, 18), 'class': (0, 19), 'level': (5, 19),
    'channel flag': (2, 19), 'channel network': (2**16, 19), 'channel stream': (2**16, 19), 'channel program': (2**16, 19),
    'PCR PID': (0x2000, 19), 'stream type': (256, 19), 'stream PID': (0x2000, 19), 'program descriptor tag': (256, 19),
    'ES descriptor tag': (256, 19), 'language count': (6, 19), 'character set': (5, 19), 'auxiliary count': (3, 19),
    'auxiliary type': (256, 19), 'tag': (256, 19), 'frequency': (2**32, 19), 'symbol rate': (2**32, 19), 'mapping': (6, 19),
    'address kind': (4, 19), 'period': (2**32, 19), 'volume': (101, 19), 'parameter': (256, 19),
    'year': (1899, 20), 'month': (13, 20), 'day': (32, 20), 'hour': (24, 20), 'minute': (60, 20), 'second': (60, 20)}
# The day and the time of a clock are judged together: so many entries before this one is the first of them.
BEFORE = {'month': 1, 'day': 2, 'minute': 1, 'second': 2}


def is_span(names, at):
    return names[at].endswith(' start')


def begin(names, at):
    """Where the field begins that an entry belongs to: bytes are two entries."""
    return at - 1 if names[at].endswith(' length') else at


def numbers_spoiled(names, pool, tape):
    for at, name in enumerate(names):
        if name in SPOILED:
            value, refusal = SPOILED[name]
            yield pool, tape[:at] + [value] + tape[at + 1:], refusal, at - BEFORE.get(name, 0)


def spans_spoiled(names, pool, tape):
    """Each start and each length so that the bytes pass the pool's end."""
    for at in range(len(tape)):
        if is_span(names, at):
            yield pool, tape[:at] + [len(pool) + 1] + tape[at + 1:], 19, at
            yield pool, tape[:at + 1] + [len(pool) + 1] + tape[at + 2:], 19, at


def digits_spoiled(names, pool, tape):
    """The last digit of each identifier, resource and terminal is none."""
    for at in range(len(tape)):
        if names[at].endswith(('identifier start', 'resource start', 'terminal start')):
            last = tape[at] + tape[at + 1] - 1
            yield pool[:last] + bytes([pool[last] | 0x0F]) + pool[last + 1:], tape, 18, at


def days_spoiled(names, pool, tape):
    """The month of each identifier is 13."""
    for at in range(len(tape)):
        if names[at] == 'identifier start':
            month = tape[at] + 14
            yield pool[:month] + b'\x13' + pool[month + 1:], tape, 20, at


def tapes_spoiled(names, pool, tape):
    """The tape ends before each entry; and goes on after the last."""
    for size in range(len(tape)):
        yield pool, tape[:size], 19, begin(names, size)
    yield pool, tape + [0], 19, len(tape)


def spoiled(names, pool, tape):
    for how in numbers_spoiled, spans_spoiled, digits_spoiled, days_spoiled, tapes_spoiled:
        yield from how(names, pool, tape)


def main():
    requests, expected, met = [], [], set()
    for table, variant, make in TABLES:
        for value in [make.sample_table(chance), *(make.table(chance) for _ in range(60))]:
            form = make.form_of(chance, value)
            pool, need = form.laid(chance), len(make_fields.body_of(make.items(value)))
            for room in need, need - 1:
                requests.append(calls.request(table + '_write', *variant, pool, form.tape, bytes(room)))
                expected.append('0' if room == need else '21 0')
            requests.append(calls.request(table + '_measure', *variant, pool, form.tape))
            expected.append('0 %d' % need)
            for changed, tape, refusal, entry in spoiled(form.names, pool, form.tape):
                requests.append(calls.request(table + '_measure', *variant, changed, tape))
                expected.append('%d %d' % (refusal, entry))
            met.update(form.names)
    assert SPOILED.keys() <= met, SPOILED.keys() - met
    for request, wanted, got in zip(requests, expected, calls.answers(requests), strict=True):
        assert (got + ' ').startswith(wanted + ' '), (request, wanted, got)
    print('measuring: %d forms, each told its length or the entry that was spoiled' % len(requests))


main()
