"""The date program's whole output on generated inputs, beside a second program's."""
# SPDX-License-Identifier: MIT
import random

import calls
import programs
import second_times

EXAMPLE = b'03/11/2024 07:45:00\n13/11/2024 00:00:00\n11/13/2024 00:00:00\n'
EXAMPLE_OUTPUT = b'line field weekday\n1 ECC9074500 7\n2 ECD3000000 3\n3 refused 20\n'
LINE = EXAMPLE[:20]
MOST = 65536
chance = random.Random(86)


def answer(line):
    try:
        field = second_times.time_read_text(line, 0)
    except calls.Refused as refusal:
        return b'refused %d' % refusal.args
    return b'%010X %d' % (field, (field // 2**24 + 2) % 7 + 1)


def report(data):
    lines = data.split(b'\n')
    if lines[-1] == b'':
        lines.pop()
    answers = enumerate(map(answer, lines), 1) if len(data) <= MOST else [(0, b'refused 22')]
    return b'line field weekday\n' + b''.join(b'%d %s\n' % each for each in answers)


def line():
    """A line by chance: most are times, in the range or not; some are damaged, and some are anything."""
    text = b'%02d/%02d/%04d %02d:%02d:%02d' % tuple(
        chance.randint(*ends) for ends in ((1, 31), (1, 12), (1899, 2039), (0, 24), (0, 59), (0, 59)))
    at = chance.randrange(20)
    damaged = text[:at] + chance.randbytes(1) + text[at + chance.randrange(2):]
    return chance.choices((text, damaged, b'', chance.randbytes(chance.randrange(300))), (12, 3, 1, 1))[0]


def whole_inputs():
    """Inputs that come in one piece."""
    yield from (EXAMPLE, EXAMPLE[:-1], b'', b'\n', b'\n\n', b'\n' + LINE, LINE + b'\n' + LINE, LINE + b'\n')
    yield from (EXAMPLE.replace(b'\n', end) for end in (b'\r\n', b'\r', b'\0', b' \n', b'\n\n'))
    yield from (b'\r', b'\r\n', b'\0', b'\0\n', b' ' + EXAMPLE, b'\xEF\xBB\xBF' + EXAMPLE)
    for n in range(21):
        yield from (LINE[:n], LINE[:n] + b'\n' + LINE)
    yield from (LINE * n + b'\n' + LINE for n in (9, 99, 999))
    yield from (b'0' * 999 + b'\n' + LINE, b'0' * MOST, b'0' * (MOST - 1) + b'\n', b'0' * (MOST - 20) + b'\n' + LINE[:-1])
    yield from (b'\n' * (MOST - 19) + LINE[:-1], b'\n' * (MOST - 20) + LINE, b'\n' * (MOST - 19) + LINE)
    for n in (MOST - 17, MOST - 16, MOST - 1, MOST, MOST + 1, 2**20):
        yield from (b'\n' * n, (LINE * n)[:n])
    yield from (b'\n'.join(line() for _ in range(chance.randrange(200))) for _ in range(30))
    yield from (b'\n'.join(line() for _ in range(4000))[:n] for n in (MOST - 1, MOST, MOST + 1))


INPUTS = [[data] for data in whole_inputs()] + [
    [EXAMPLE[:7], EXAMPLE[7:20], EXAMPLE[20:]], [EXAMPLE, b''], [EXAMPLE, LINE],
    [b'\n' * 60000, b'\n' * 5536], [b'\n' * 60000, b'\n' * 5537]]

assert report(EXAMPLE) == EXAMPLE_OUTPUT
assert report(b'\n' * 65537) == b'line field weekday\n0 refused 22\n'
programs.compare(INPUTS, report)
