"""Captures whole, with pieces cut out, bits changed and sections in payloads: salvaged as a second program does it."""
# SPDX-License-Identifier: MIT
import random

import calls
import second_salvage as second
from second_sections import printed

chance = random.Random(110)


def section(payload, current=None):
    last = chance.choice((0, 1, 127, 255))
    return printed(chance.randint(0xFB, 0xFE), chance.randrange(2**16), chance.randrange(32),
                   chance.randrange(2) if current is None else current, chance.randint(0, last), last, payload)


def payload():
    """Bytes by chance, bytes that look like headings, or other sections, one in the other."""
    kind = chance.randrange(4)
    if kind == 0:
        return b''.join(section(chance.randbytes(chance.randrange(9))) for _ in range(chance.randrange(1, 4)))
    if kind == 1:
        return section(section(section(b'') + chance.randbytes(3)) + b'\xFE')
    return chance.choice((b'', chance.randbytes(chance.randrange(60)), b'\xFD\xF0\x09' * chance.randrange(20)))


def capture(count):
    return b''.join(section(payload()) for _ in range(count))


def cut_out(s):
    """Without a piece."""
    at = chance.randrange(len(s) + 1)
    return s[:at] + s[at + chance.choice((1, 2, 11, 12, 40)):]


def turned(s):
    """With a bit changed."""
    if not s:
        return s
    at = chance.randrange(len(s))
    return s[:at] + bytes([s[at] ^ 1 << chance.randrange(8)]) + s[at + 1:]


def with_junk(s):
    at = chance.randrange(len(s) + 1)
    junk = bytes(chance.choices((0x47, 0xFB, 0xFD, 0xFE, 0xFF, 0xF0, 0, 9, 12), k=chance.randrange(1, 30)))
    return s[:at] + junk + s[at:]


def captures():
    """Whole ones, damaged in several ways one after the other, and the longest."""
    yield b''
    yield from (section(bytes(n), current) for n in (0, 1, 4084) for current in (0, 1))
    yield from (section(bytes(n))[:-1] for n in (0, 1, 300))
    yield from (bytes([b]) * n for b in (0, 0xFB, 0xFE, 0xFF) for n in (1, 2, 11, 12, 13, 4000))
    yield section(section(b'in a payload'))  # kept whole, and not the section inside it
    yield turned(section(b'')) + section(b'') + section(b'')[1:]
    for _ in range(900):
        s = capture(chance.randrange(1, 9))
        yield s
        for _ in range(chance.randrange(1, 5)):
            s = chance.choice((cut_out, turned, with_junk))(s)
            yield s
    whole = b''.join(section(chance.randbytes(chance.choice((0, 3, 900, 4084)))) for _ in range(60))
    for n in (second.MOST - 1, second.MOST, second.MOST + 1, second.MOST + 4096):
        yield (whole * 2)[:n]
        yield bytes(n)
    twelve = section(b'')
    yield (b'\0' + twelve) * 5041 + b'\0\0\0'  # the most runs: 10,083
    yield (twelve * 5462)[:second.MOST]
    yield turned(cut_out((whole * 2)[:second.MOST]))


def cases():
    """Each with all the room that any needs; and with what it needs, or a byte or a number less of it."""
    for s in captures():
        most = (2 * len(s) + 11) // 13 * 12
        yield 'salvage', s, b'\x5a' * len(s), b'\xa5' * most
        if len(s) > second.MOST:
            yield 'salvage', s, b'', b''
            continue
        runs = second.runs_of(s)
        kept, listed = len(second.kept_of(s, runs)), 12 * len(runs)
        if len(s) > 20000 and chance.randrange(2):
            continue
        for less, fewer in ((0, 0), (1, 0), (0, 4), (0, 12), (kept, listed)):
            yield 'salvage', s, b'\x5a' * max(0, kept - less), b'\xa5' * max(0, listed - fewer)


got = calls.compare('the second program', second, list(cases()))
numbers = {line.split(' ', 1)[0] for line in got}
if numbers != {'0', '21', '36'} or not any(line.split(' ')[2] == '10083' for line in got if line[0] == '0'):
    raise SystemExit('not every answer was seen: %s' % sorted(numbers))
