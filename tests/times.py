"""Times as numbers, fields and text, and messages at instants: the library's answers and a second program's."""
# SPDX-License-Identifier: MIT
import itertools
import random

import calls
import second_times as second

DOCUMENT_01 = {
    ('time_pack', 2024, 11, 3, 7, 45, 0, 480): '0 %d' % 0xECC8234500,
    ('time_pack', 1900, 3, 1, 0, 0, 0, 480): '20 0',
    ('time_unpack', 15078 << 24, 0): '20 0',
    ('time_unpack', 0x00FFFFFFFF, 0): '18 0',
    ('time_unpack', 0xFFFFFFFFFF, 0): '18 0',
    ('time_read_text', b'03/11/2024 07:45:00', 0): '0 %d' % 0xECC9074500,
    ('time_read_text', b'13/11/2024 00:00:00', 0): '0 %d' % 0xECD3000000,
    ('time_read_text', b'11/13/2024 00:00:00', 0): '20 0',
    ('time_read_text', b'', 0): '24 0',
    ('time_showing', 0xECC9074500, 0xFFFFFFFFFF, 65535, 86399): '0 1',
    ('time_showing', 0xFFFFFFFFFF, 0xFFFFFFFFFF, 65535, 86399): '18 0',
    ('time_showing', 0xECC9074500, 0x00FFFFFFFF, 65535, 86399): '18 0',
}

OFFSETS = range(-721, 842)
WIDE_OFFSETS = [-2**31, -2**31 + 480, -2**16 + 480, -2**8, -1440, 2**8 + 480, 1440, 2**16 + 480, 2**31 - 1]
# Both ends of the range, where the least and the greatest offset just reach over them, and other turns of a day.
MOMENTS = [
    *((1900, 3, 1, *time) for time in [(0, 0, 0), (11, 59, 59), (12, 0, 0), (13, 59, 59), (14, 0, 0), (23, 59, 59)]),
    *((2038, 4, 22, *time) for time in [(0, 0, 0), (9, 59, 59), (10, 0, 0), (11, 59, 59), (12, 0, 0), (23, 59, 59)]),
    (1999, 12, 31, 23, 59, 59), (2000, 2, 29, 23, 59, 59), (2000, 3, 1, 0, 0, 0), (2024, 11, 3, 7, 45, 0)]
FIELDS = [second.time_pack(*moment, 0) for moment in MOMENTS]
# A digit above 9, a day out of range, an hour, minute or second too large, more than 40 bits; then two of these at once.
BAD_FIELDS = [0x00FFFFFFFF, 0xFFFFFFFFFF, 0xECC907450A, 0xECC90745A0, 0x3AE6000000, 0xECC9240000, 0xECC9006000,
              0xECC9000060, 2**40, 2**40 + 0xECC9074500, 2**64 - 1, 0x3AE60A0000, 2**40 + 0xECC90A0000]
# What people and spreadsheets write; the last two are of the form, and no times.
OTHER_TEXTS = [
    b'2024/11/03 07:45:00', b'2024-11-03 07:45:00', b'03-11-2024 07:45:00', b'03.11.2024 07:45:00', b'03/11/24 07:45:00',
    b'3/11/2024 07:45:00', b'3/11/02024 07:45:00', b'03/11/2024T07:45:00', b'03/11/2024 07.45.00', b'03/11/2024 7:45:00',
    b'03/11/2024  7:45:00', b'03/11/2024 07:45', b'03/11/2024', b'03/11/2024 07:45:00Z', b' 03/11/2024 07:45:00', b'\n',
    b'03/11/2024 07:45:0O', b'03/11/2024 07:45:-1', b'+3/11/2024 07:45:00', b'\xEF\xBB\xBF03/11/2024 07:45:00',
    b'03/11/2024 07:45:00\n', b'03/11/2024 07:45:00\r', b'03/11/2024 07:45:00\r\n', b'03/11/2024 07:45:00\0',
    b'11/13/2024 00:00:00', b'24/11/2024 24:00:00']
chance = random.Random(86)


def text(year, month, day, *time):
    return b'%02d/%02d/%04d %02d:%02d:%02d' % (day, month, year, *time)


def months():
    """Every month of the range and around it, with the first, the last and impossible days."""
    for year, month, day in itertools.product(range(1899, 2040), range(14), (0, 1, 28, 29, 30, 31, 32)):
        yield 'time_pack', year, month, day, *chance.choice(MOMENTS)[3:], chance.choice(OFFSETS)


def offsets():
    for (moment, field), offset in itertools.product(zip(MOMENTS, FIELDS), (*OFFSETS, *WIDE_OFFSETS)):
        yield 'time_pack', *moment, offset
        yield 'time_read_text', text(*moment), offset
        yield 'time_unpack', field, offset


def numbers():
    """Each of the six numbers replaced by others, such as a narrower type would take for a good one."""
    for moment, i, offset in itertools.product(MOMENTS, range(6), (0, 480, 841)):
        for n in (0, 1, 12, 13, 23, 24, 25, 59, 60, 61, 99, 100, *(2**k + moment[i] for k in (8, 16, 31)), 2**32 - 1):
            yield 'time_pack', *moment[:i], n, *moment[i + 1:], offset


def fields():
    """Every byte in each place of two digits, days of the range and around it, more than 40 bits, two faults at once."""
    for day, offset in itertools.product((0, 15078, 15079, 60617, 65535), (-720, 0, 840)):
        for place, byte in itertools.product((0, 8, 16), range(256)):
            yield 'time_unpack', day << 24 | byte << place, offset
    for day in (*range(15000, 15200), *range(0, 2**16, 5), *range(2**16 - 100, 2**16)):
        yield 'time_unpack', day << 24 | chance.choice(FIELDS) % 2**24, chance.choice(OFFSETS)
    for field, offset in itertools.product(BAD_FIELDS, (-721, -720, 0, 840, 841)):
        yield 'time_unpack', field, offset
    for field, high in itertools.product(FIELDS, range(40, 64)):
        yield 'time_unpack', field + 2**high, 0


def texts():
    """Every byte in every place, every length, every two digits, every year, and what people type."""
    for moment, place, byte in itertools.product((MOMENTS[0], MOMENTS[-1]), range(19), range(256)):
        good = text(*moment)
        yield 'time_read_text', good[:place] + bytes([byte]) + good[place + 1:], 0
        yield 'time_read_text', good[:place] + bytes([byte]) + good[place:], 0
    for filler, length in itertools.product((b'\0', b'\n', b'\r', b' ', b'0', b'03/11/'), range(26)):
        yield 'time_read_text', (text(*MOMENTS[-1]) + filler * 6)[:length], 0
    for place, n in itertools.product((0, 3, 11, 14, 17), range(100)):
        good = text(*MOMENTS[-1])
        yield 'time_read_text', good[:place] + b'%02d' % n + good[place + 2:], chance.choice(OFFSETS)
    for year in range(10000):
        yield 'time_read_text', text(year, *MOMENTS[-1][1:]), 0
    for other, offset in itertools.product(OTHER_TEXTS, (-721, 0, 841)):
        yield 'time_read_text', other, offset


def showings():
    """Instants at the start and the end, a second around both, and impossible ones, with good and bad fields."""
    instants = [divmod(second.read_field(f) + around, second.DAY) for f in FIELDS for around in (-1, 0, 1)]
    instants += [(0, 0), (15078, 86399), (60617, 86400), (60617, 2**32 - 1), (2**16 + 60617, 0), (2**32 - 1, 0)]
    for start, end, instant in itertools.product((*FIELDS, *BAD_FIELDS), (*FIELDS, *BAD_FIELDS), instants):
        yield 'time_showing', start, end, *instant


def printings():
    """Fields good and bad at every offset around the range, with too little room, just enough and more, which stays as it was."""
    for field, offset in itertools.product((*FIELDS, *BAD_FIELDS), (*OFFSETS, *WIDE_OFFSETS)):
        yield chance.choice(('time_print_start', 'time_print_end')), field, offset, bytes([0xA5] * chance.choice((0, 3, 4, 18, 19, 20, 40)))
    for field, offset, room in itertools.product((*FIELDS, *BAD_FIELDS), (-721, -720, 0, 480, 840, 841), range(22)):
        yield 'time_print_start', field, offset, bytes(room)
        yield 'time_print_end', field, offset, bytes(room)
    for day in range(second.FIRST, second.LAST + 1, 7):
        yield 'time_print_start', second.field_of(day * second.DAY + chance.randrange(second.DAY)), chance.choice(OFFSETS), bytes(19)


def typings():
    """Starts and ends good and bad, a live end asked for by 1 and by other numbers."""
    texts = [*(text(*moment) for moment in MOMENTS), *OTHER_TEXTS, b'live', b'']
    for start, end, live in itertools.product(texts, texts, (0, 1, 2, 256, 2**32 - 1)):
        yield 'times_read_text', start, end, live, chance.choice((-720, 0, 480, 840, *OFFSETS)), [7, 2**64 - 1]
    for moment, offset, live in itertools.product(MOMENTS, OFFSETS, (0, 1)):
        yield 'times_read_text', text(*moment), text(*chance.choice(MOMENTS)), live, offset, [0, 0]


for (call, *arguments), answer in DOCUMENT_01.items():
    assert calls.told(getattr(second, call), *arguments) == answer
cases = [*DOCUMENT_01, *months(), *offsets(), *numbers(), *fields(), *texts(), *showings(), *printings(), *typings()]
calls.compare('a second program', second, cases)
