"""The section program's output on sections, damaged ones and other inputs, beside a second program's."""
# SPDX-License-Identifier: MIT
import random

import calls
import programs
import second_sections as second

MOST = 65536
chance = random.Random(86)


def report(data):
    if len(data) > MOST:
        return b'refused 22\n'
    try:
        number = second.section_read(data)[5]
    except calls.Refused as refusal:
        return b'refused %d\n' % refusal.args
    return b'%d %d\n' % (number, len(data) - 12)


def section(number=3, length=300, current=1):
    return second.printed(0xFD, 0xC29, 17, current, number, 255, chance.randbytes(length))


def whole_inputs():
    """Inputs that come in one piece."""
    yield from (section(number) for number in (0, 1, 9, 10, 99, 100, 254, 255))
    yield from (section(length=length) for length in (0, 1, 9, 10, 99, 100, 176, 999, 1000, 4083, 4084))
    yield from (second.printed(kind, 0, 0, 1, 0, 0, b'') for kind in range(0xFA, 0x100))
    yield from (section(current=0), second.printed(0xFE, 0, 0, 1, 2, 1, b''), GOOD[:-1] + bytes([GOOD[-1] ^ 1]))
    yield from (GOOD[:1] + b'\x71' + GOOD[2:], GOOD[:5] + b'\x63' + GOOD[6:])
    yield from (GOOD[:1] + length + GOOD[3:] for length in (b'\xF0\x08', b'\xFF\xFE', b'\xF0\x09'))
    yield from (GOOD[:n] for n in (1, 8, 11, 12, 311))
    yield from (GOOD + b'\n', GOOD + GOOD)
    for n in (0, 1, 11, 12, 4096, 4097, MOST - 1, MOST, MOST + 1, 2**20):
        yield from (bytes(n), (GOOD + bytes(n))[:n])


GOOD = section()
INPUTS = [[data] for data in whole_inputs()] + [
    [GOOD[:2], GOOD[2:200], GOOD[200:]], [GOOD, b''], [GOOD, b'\n'],
    [bytes(MOST - 1), b'\0'], [bytes(MOST - 1), b'\0\0']]

assert {report(b''.join(pieces)) for pieces in INPUTS} > {b'refused %d\n' % n for n in (1, 2, 3, 4, 5, 6, 7, 22)}
assert report(GOOD) == b'3 300\n'
programs.compare(INPUTS, report)
