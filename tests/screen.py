"""What a screen box shows, by hand and by chance: as the package answers and as a second program does.

Tables are made of few levels, starts and codes, so that messages tie at each step of the order; ends are live, or at the instant and a second to
either side of it; codes differ in one digit, the first or the last. Bodies are damaged too, and codes and instants are wrong in each way.
"""
# SPDX-License-Identifier: MIT
import collections
import os
import random
import subprocess
import sys

import make_fields
import make_index
from calls import Refused
from second_screen import candidates, choose
from second_times import DAY, FIRST, LAST, LIVE, field_of

STEPS = 'level', 'start', 'number'
KIND, COUNT, TESTS = 0xFD, 20000, os.path.dirname(os.path.abspath(__file__))
chance = random.Random(108)
met = collections.Counter()


# ---- requests by hand: the answers are read off the request's words

OWN = '36543200000000303010103'
CODE = bytes(map(int, OWN))
NOW = 60617 * DAY + 8 * 3600


def message(level=4, start=-60, end=60, codes=(OWN,)):
    """A message by its start and end, in seconds from the instant."""
    return {**make_index.message(chance, 0, False), 'level': level, 'start': field_of(NOW + start),
            'end': LIVE if end is None else field_of(NOW + end), 'resources': list(codes)}


def body(*messages):
    return make_fields.body_of(make_index.items({'messages': list(messages), 'signature': b''}))


def shows(messages, expected):
    """The number of the message that is to be shown, none by None."""
    asked = KIND, body(*messages), CODE, NOW // DAY, NOW % DAY
    return asked, 'none' if expected is None else expected


BY_HAND = [
    shows([], None), shows([message()], 0), shows([message(codes=())], None),
    # a code that differs in its first, its last digit only; the code as the second of two
    shows([message(codes=('4' + OWN[1:],))], None), shows([message(codes=(OWN[:-1] + '4',))], None),
    shows([message(codes=(OWN[:-1] + '4', OWN))], 0),
    # on from its start's second on, and up to the one before its end's; a live one does not end
    shows([message(start=0)], 0), shows([message(start=1)], None), shows([message(end=1)], 0), shows([message(end=0)], None),
    shows([message(end=-1)], None), shows([message(end=None)], 0), shows([message(start=1, end=None)], None),
    # the smallest level number, then the earliest start, then the first in the table
    shows([message(level=3, start=-9), message(level=2, start=0), message(level=3, start=-9)], 1),
    shows([message(level=2, start=-1), message(level=2, start=-2), message(level=2, start=-2)], 1),
    shows([message(level=2), message(level=2), message(level=2)], 0),
    # the last of as many messages and codes as there can be, which begins some 790,000 bytes on
    shows([message(codes=['4' + OWN[1:]] * 255)] * 254 + [message(codes=['4' + OWN[1:]] * 254 + [OWN])], 254),
    # the first of them does not concern the box, the second has ended, the third has not begun
    shows([message(1, codes=()), message(1, end=0), message(1, start=1), message(4), message(4)], 3)]

# 18 before 20, 20 before the reader's 2, 22 and the fields; a body's refusal as the reader has it
GOOD = body(message())
REFUSED = [
    ((KIND, GOOD, CODE[:22], 0, DAY), '18 0'), ((KIND, GOOD, CODE + b'\0', 60617, 0), '18 0'), ((0, b'', b'', 60617, 0), '18 0'),
    ((KIND, GOOD, CODE[:22] + b'\x0a', 60617, 0), '18 0'), ((KIND, GOOD, b'\xff' + CODE[1:], 60617, 0), '18 0'),
    ((0xFC, GOOD, CODE, FIRST - 1, 0), '20 0'), ((0xFC, GOOD, CODE, LAST + 1, 0), '20 0'), ((0xFC, GOOD, CODE, LAST, DAY), '20 0'),
    ((0xFC, bytes(1045505), CODE, LAST, DAY - 1), '2 0'), ((KIND, bytes(1045505), CODE, FIRST, 0), '22 0'),
    ((KIND, bytes(2), CODE, FIRST, 0), '14 1'), ((KIND, bytes(4), CODE, LAST, DAY - 1), '16 3')]


# ---- requests by chance

def near(moment):
    """A moment at the instant, next to it, or far off."""
    moved = moment + chance.choice((0, 0, 1, -1, chance.randint(-9, 9), chance.randint(-10**6, 10**6)))
    return min(max(moved, FIRST * DAY), LAST * DAY + DAY - 1)


def changed(digits):
    """The same digits, most often; else with another one at an end or anywhere."""
    i = chance.choice((0, 22, chance.randrange(23)))
    return digits if chance.random() < 0.6 else digits[:i] + str((int(digits[i]) + chance.randint(1, 9)) % 10) + digits[i + 1:]


def table(now, own):
    levels = chance.choice(((1,), (4,), (1, 2), (1, 2, 3, 4)))
    few = [near(now) for _ in range(2)]
    messages = []
    for _ in range(chance.choice((0, 1, 2, 3, 5, 8, 20))):
        messages.append({
            **make_index.message(chance, 0), 'level': chance.choice(levels), 'start': field_of(chance.choice(few)),
            'end': LIVE if chance.random() < 0.4 else field_of(near(now)),
            'resources': [changed(own) for _ in range(chance.choice((0, 1, 1, 2, 3)))]})
    return {'messages': messages, 'signature': make_fields.data(chance)}


def by_chance():
    for _ in range(COUNT):
        now = chance.choice((FIRST * DAY, LAST * DAY + DAY - 1, chance.randrange(FIRST * DAY, (LAST + 1) * DAY)))
        own = chance.choice(('0' * 23, '9' * 23, make_fields.digits(chance, 23)))
        sent, kind, code = make_fields.body_of(make_index.items(table(now, own))), KIND, bytes(map(int, own))
        day, second = divmod(now, DAY)
        how = chance.randrange(20)
        if how == 0:
            sent = bytes(chance.choice((b ^ 1 << chance.randrange(8), b, b, b)) for b in sent)
        elif how == 1:
            sent = sent[:chance.randrange(len(sent) + 1)]
        elif how == 2:
            kind = chance.choice((0xFB, 0xFC, 0xFE, 0, 2**32 - 1))
        elif how == 3:
            code = chance.choice((code[1:], code + b'\0', b'', code[:-1] + bytes([chance.randint(10, 255)])))
        elif how == 4:
            day, second = chance.choice(((FIRST - 1, second), (LAST + 1, second), (day, DAY), (2**32 - 1, 2**32 - 1)))
        yield kind, sent, code, day, second


# ---- the answers

def told(asked):
    try:
        found = choose(*asked)
    except Refused as refusal:
        return '%d %d' % (refusal.args[0], refusal.place)
    note(asked)
    return '0 none' if found == 'none' else '0 %d %d %d' % found


def note(asked):
    """What decided between the first two that may be shown, and whether something is shown at an edge of the instants."""
    on = sorted(candidates(*asked))
    if len(on) > 1:
        met['by ' + next(step for step, a, b in zip(STEPS, *on[:2]) if a != b)] += 1
    if on and tuple(asked[3:]) in [(FIRST, 0), (LAST, DAY - 1)]:
        met['at day %d' % asked[3]] += 1


def line(kind, sent, code, day, second):
    return '%d %s %s %d %d' % (kind, sent.hex() or '-', code.hex() or '-', day, second)


def main():
    chosen = [asked for asked, _ in BY_HAND]
    requests = chosen + [asked for asked, _ in REFUSED] + list(by_chance())
    run = subprocess.run([os.path.join(TESTS, os.pardir, 'tools', 'c-side'), '--screen', os.path.join(TESTS, 'screen.c')],
                         input=''.join(line(*asked) + '\n' for asked in requests), stdout=subprocess.PIPE, encoding='ascii')
    if run.returncode == 77:
        sys.exit(77)
    got = run.stdout.splitlines()
    if run.returncode or len(got) != len(requests):
        sys.exit('screen: status %d, %d answers to %d requests' % (run.returncode, len(got), len(requests)))
    for (asked, expected), answer in zip(BY_HAND, got):
        if answer.split()[1] != str(expected) or answer.split()[0] != '0':
            sys.exit('by hand: %s, and not %s' % (answer, expected))
    for (asked, expected), answer in zip(REFUSED, got[len(chosen):]):
        if answer != expected:
            sys.exit('by hand: %s, and not %s' % (answer, expected))
    wrong = [i for i, asked in enumerate(requests) if got[i] != told(asked)]
    for i in wrong[:5]:
        print('%.200s: %s, and the second program %s' % (line(*requests[i]), got[i], told(requests[i])))
    met.update(answer.split()[0] if answer[:2] != '0 ' else 'none' if answer == '0 none' else 'shown' for answer in got)
    rare = [what for what in ('shown', 'none', *('by ' + step for step in STEPS), 'at day %d' % FIRST, 'at day %d' % LAST) if met[what] < COUNT // 100]
    if wrong or rare or sum(what.isdigit() for what in met) < 7:
        sys.exit('%d of %d answers differ; met: %s' % (len(wrong), len(requests), dict(met)))
    print('%d answers are those of the second program: %s' % (len(requests), ', '.join('%s %d' % one for one in sorted(met.items()))))


main()
