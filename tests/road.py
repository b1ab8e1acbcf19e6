"""The road from a form to a screen: forms made by chance go through tests/road.c, and each screen has to show its form, character by character.

Of 10,000 forms every offset of the range has some, and so have both ends of the days, live ends, both variants, and content tables of 200 sections.
Days and times are Python's own datetime.
"""
# SPDX-License-Identifier: MIT
import datetime
import os
import random
import subprocess
import sys

TESTS = os.path.dirname(os.path.abspath(__file__))
FORMS, LONG = 10000, 6
OFFSETS = range(-720, 841)
FIRST, LAST = datetime.datetime(1900, 3, 1), datetime.datetime(2038, 4, 22, 23, 59, 59)
PAYLOAD = 4084
chance = random.Random(113)


def local_time(offset):
    """A local time of the range whose UTC is in it too: often the first or the last second that is."""
    east = datetime.timedelta(minutes=offset)
    first, last = max(FIRST, FIRST + east), min(LAST, LAST + east)
    seconds = int((last - first).total_seconds())
    turn = chance.randrange(10)
    at = 0 if turn == 0 else seconds if turn == 1 else chance.randrange(seconds + 1)
    return (first + datetime.timedelta(seconds=at)).strftime('%d/%m/%Y %H:%M:%S')


def digits(n):
    return ''.join(chance.choices('0123456789', k=n))


def identifier():
    day = FIRST + datetime.timedelta(days=chance.randrange((LAST - FIRST).days + 1))
    return digits(23) + day.strftime('%Y%m%d') + digits(4)


def some_bytes(n):
    return chance.randbytes(n).hex() or '-'


def message(offset):
    end = 'live' if chance.randrange(4) == 0 else local_time(offset)
    resources = [digits(23) for _ in range(chance.choice((0, 1, 1, 2, 5)))]
    kind = bytes(chance.choices(range(128), k=5)).hex()
    return ['message', identifier(), chance.randrange(65536), local_time(offset), end, kind, chance.randint(1, 4), chance.randint(1, 4), *resources]


def language(long):
    text = 65535 if long else chance.choice((0, 1, 30, 200, chance.randrange(2000)))
    files = [98000] if long else chance.choice(([], [], [0], [chance.randrange(300)], [5, chance.randrange(40)]))
    letters = ''.join(chance.choices('abcdefghijklmnopqrstuvwxyz', k=3))
    words = ['language', letters, chance.randint(0, 4), some_bytes(text), some_bytes(chance.randrange(40))]
    for n in files:
        words += [chance.randrange(256), some_bytes(n)]
    return words


def form(number):
    """The lines of a form, the first of which says how it travels and is not shown."""
    long = number % (FORMS // LONG) == 1
    offset = OFFSETS[number % len(OFFSETS)]
    count = chance.choice((1, 1, 1, 2, 3, 8)) if chance.randrange(200) else chance.randint(60, 255)
    lines = [['form', offset, 24 + number % 2 * 8, chance.randrange(32), chance.randrange(1, 2**60)]]
    lines += [message(offset) for _ in range(count)]
    with_content = sorted(chance.sample(range(count), min(count, chance.choice((0, 1, 1, 1, 2)) or long)))
    for i in with_content:
        lines += [['content', i], *(language(long) for _ in range(5 if long else chance.choice((1, 1, 2))))]
    return ['\t'.join(map(str, line)) for line in [*lines, ['go']]]


def sections(lines):
    """How many sections a form's largest content table has at least: the bytes of its texts and files, in hexadecimal."""
    return sum(len(line) for line in lines if line.startswith('language')) // 2 // PAYLOAD


forms = [form(i) for i in range(FORMS)]
run = subprocess.run([os.path.join(TESTS, os.pardir, 'tools', 'c-side'), os.path.join(TESTS, 'road.c')],
                     input=''.join(line + '\n' for lines in forms for line in lines), stdout=subprocess.PIPE, encoding='ascii')
if run.returncode:
    sys.exit(run.returncode if run.returncode == 77 else 'road.c: status %d' % run.returncode)
screens = run.stdout.splitlines()
shown = [line for lines in forms for line in lines[1:]]
if screens != shown:
    i = next((i for i, (a, b) in enumerate(zip(screens, shown)) if a != b), min(len(screens), len(shown)))
    sys.exit('line %d of the screens is %.200r, and of the forms %.200r' % (i, screens[i:i + 1], shown[i:i + 1]))
messages = [line.split('\t') for line in shown if line.startswith('message')]
assert {int(lines[0].split('\t')[1]) for lines in forms} == set(OFFSETS)
assert sum(sections(lines) >= 200 for lines in forms) >= LONG - 1
live, contents = sum(m[4] == 'live' for m in messages), sum(line.startswith('content') for line in shown)
print('%d forms, with %d messages of which %d are live and %d content tables, %d of them of 200 sections and more, are shown as they were filled in'
      % (FORMS, len(messages), live, contents, sum(sections(lines) >= 200 for lines in forms)))
