"""The slow gathering beside the quick one, and beside a second program.

teaching.py PROGRAM: tests/teaching.c, compiled for this processor. A million feeds and more, in runs made by chance, go to both gatherings by it: answers,
headings, missing numbers and bodies have to be the same. Some thousands of runs, and buffers of any bytes, are put to the slow one of the archive that ships
and to a second program (second_teaching), which in turn is held to the second program of the quick one. What the requests and readings say of single calls
stands here by hand.
"""
# SPDX-License-Identifier: MIT
import collections
import multiprocessing
import os
import random
import re
import struct
import subprocess
import sys
import tempfile
import zlib

from calls import Refused
from second_gathering import Gathering
from second_sections import checked, printed
from second_teaching import MOST_PAYLOAD, Slow, row

FEEDS, RUNS_AT_ONCE, RUNS = 1000000, 2500, 1500
ROOT = os.path.join(os.path.dirname(os.path.abspath(__file__)), os.pardir)
chance = random.Random(112)
often = chance.random
counted = collections.Counter()


class Differs(Exception):
    """Two that have to agree do not."""


def c_side(words, data=b'', source=('tests', 'teaching.c')):
    done = subprocess.run([os.path.join(ROOT, 'tools', 'c-side'), os.path.join(ROOT, *source), *words], input=data, stdout=subprocess.PIPE, check=False)
    if done.returncode == 77:
        sys.exit(77)
    if done.returncode:
        raise Differs('%s ended with %d' % (source[-1], done.returncode))
    return done.stdout


# ---- the two of the library, in C

def lockstep_of(task):
    """So many runs from a number on: how many feeds there were, and how many had each answer."""
    program, first = task
    done = subprocess.run([program, 'run', str(first), str(RUNS_AT_ONCE)], stdout=subprocess.PIPE, check=False)
    if done.returncode:
        raise Differs('%s ended with %d' % (program, done.returncode))
    feeds, *answers = done.stdout.decode().split()
    return int(feeds), collections.Counter({int(k): int(n) for k, n in (word.split(':') for word in answers)})


def lockstep(program):
    feeds, answers, first = 0, collections.Counter(), 0
    with multiprocessing.Pool() as pool:
        while feeds < FEEDS:
            starts = range(first, first + 8 * RUNS_AT_ONCE, RUNS_AT_ONCE)
            for some, of_them in pool.imap_unordered(lockstep_of, [(program, start) for start in starts]):
                feeds += some
                answers += of_them
            first += 8 * RUNS_AT_ONCE
    # Each answer but 12, which no run of feeds gets.
    if set(answers) != {*range(12), 37, 256}:
        raise Differs('not every answer is met: %s' % sorted(answers))
    return feeds, answers


# ---- requests to the slow one of the library, and what the second program answers

class Asked:
    """Requests, and beside them the answers that they are to have."""

    def __init__(self):
        self.requests, self.expected, self.slow = [], [], None

    def lend(self, buffer, used, store_bytes):
        self.slow = Slow(buffer, used, store_bytes)
        self.requests.append(b'B' + struct.pack('>QQQ', store_bytes, used, len(buffer)) + buffer)

    def call(self, name, *arguments):
        """The second program's value or None, and its 64 bits."""
        try:
            value, number, place = getattr(self.slow, name)(*arguments), 0, 0
        except Refused as refusal:
            value, number, place = None, refusal.args[0], refusal.place
        counted[name, number] += 1
        return value, number | place << 8

    def feed(self, s):
        value, bits = self.call('feed', s)
        self.requests.append(b'F' + struct.pack('>Q', len(s)) + s)
        self.expected.append(struct.pack('>QQQ', bits | (value or 0) << 8, self.slow.used, zlib.crc32(self.slow.buffer)))
        return bits & 0xFF if value is None else -value

    def hand_out(self, room):
        body, bits = self.call('hand_out', room)
        self.requests.append(b'H' + struct.pack('>Q', room))
        told = body or b''
        self.expected.append(struct.pack('>QQ', bits | len(told) << 8, len(told)) + told)
        return body, bits

    def heading(self):
        value, bits = self.call('heading')
        packed = 0 if value is None else int('%02X%04X%02X%02X%02X%02X' % value, 16)
        self.requests.append(b'A')
        self.expected.append(struct.pack('>Q', bits | packed << 8))
        return value, bits

    def missing(self):
        value, bits = self.call('missing')
        self.requests.append(b'M')
        self.expected.append(struct.pack('>Q', bits | (value or 0) << 8))
        return value, bits

    def hold(self, what):
        got, wanted = c_side([], b''.join(self.requests)), b''.join(self.expected)
        at = 0
        for number, each in enumerate(self.expected):
            if got[at:at + len(each)] != each:
                raise Differs('%s, answer %d: the library %s.., the second program %s..' % (what, number, got[at:at + 24].hex(), each[:24].hex()))
            at += len(each)
        if len(got) != len(wanted):
            raise Differs('%s: the library answers more than was asked' % what)


# ---- by hand: what the request and its readings say

def section(version, number, last, payload, current=1, kind=0xFE, extension=2018):
    return printed(kind, extension, version, current, number, last, payload)


def refused_with(number, place=0):
    return None, number | place << 8


def by_hand(a):
    one, two = section(3, 0, 1, b'old'), section(3, 1, 1, b'text')
    # "back to back", "an eight-byte length before each", high byte first; the buffer may hold anything before.
    a.lend(b'\x5A' * 200, 0, 2 * MOST_PAYLOAD)
    assert a.heading() == a.missing() == a.hand_out(9) == refused_with(13)
    assert a.feed(one) == 0 and a.slow.buffer[:8 + len(one)] == bytes(7) + bytes([len(one)]) + one
    assert a.missing() == (1, 0) and a.hand_out(9) == refused_with(13, 1)
    # Refused strings and repeats are kept too, 8 + n bytes each, the string of no bytes included.
    assert a.feed(one) == -1 and a.feed(b'') == 1 and a.feed(one[:-1] + b'x') == 7
    assert a.slow.used == 3 * (8 + len(one)) + 8
    assert a.feed(two) == 0 and a.missing() == (0, 0) and a.hand_out(7) == (b'oldtext', 0) and a.hand_out(6) == refused_with(21)
    # 37, "before all others", is not kept, and nothing changes; handing out never gives it.
    assert a.slow.used == 4 * (8 + len(one)) + 9 and a.feed(bytes(1000)) == 37 and a.hand_out(7) == (b'oldtext', 0)
    # A takeover: the heading is of the latest one, and nothing of the old table counts.
    a.lend(bytes(2000), 0, 2 * MOST_PAYLOAD)
    assert [a.feed(s) for s in (one, two, section(2, 0, 1, b'older'), section(4, 1, 1, b'new'))] == [0, 0, 9, 0]
    assert a.heading() == ((0xFE, 2018, 4, 1, 1, 1), 0) and a.missing() == (1, 0) and a.hand_out(9) == refused_with(13, 0)
    assert a.feed(section(5, 0, 2, b'')) == 10 and a.heading()[0][2] == 4
    # A contradiction: 11 from then on; what was missing before it is missing still, and a newer table starts over.
    assert a.feed(section(4, 1, 1, b'other')) == 11 and a.feed(section(4, 0, 1, b'more')) == 11
    assert a.missing() == (1, 0) and a.hand_out(99) == refused_with(11)
    assert a.feed(section(6, 0, 0, b'whole')) == 0 and a.hand_out(5) == (b'whole', 0)
    # What is kept is told by the number in use. No whole rows: 12, before 1 to 7, and after 37.
    for bad in (b'\0' * 7, row(one)[:-1], row(one) + b'\1', (2**64 - 1).to_bytes(8, 'big'), (2**63).to_bytes(8, 'big') + one):
        a.lend(bad + bytes(60), len(bad), 2 * MOST_PAYLOAD)
        assert a.feed(b'') == 12 and a.feed(bytes(61)) == 37
        assert a.heading() == a.missing() == a.hand_out(9) == refused_with(12)
    # More in use than there are bytes: nothing fits, and to other calls they are no whole rows.
    for used in 9, 2**63, 2**64 - 1:
        a.lend(bytes(8), used, 2 * MOST_PAYLOAD)
        assert a.feed(b'') == 37
        assert a.heading() == a.missing() == a.hand_out(9) == refused_with(12)
    # A buffer of no bytes; one row that fills its buffer; a byte less.
    a.lend(b'', 0, 0)
    assert a.feed(b'') == 37 and a.heading() == refused_with(13)
    a.lend(bytes(8 + len(one)), 0, 2 * MOST_PAYLOAD)
    assert a.feed(one) == 0 and a.feed(b'') == 37
    a.lend(bytes(7 + len(one)), 0, 2 * MOST_PAYLOAD)
    assert a.feed(one) == 37 and a.slow.used == 0


# ---- the lesson of examples/teach.c, and docs/TEACHING.md

def lesson_told(said):
    """Of each step that the program shows: the answer as the page's table begins it, and how many are missing."""
    for step in re.split(r'^\d+\. Here come ', said, flags=re.M)[1:]:
        refused = re.search(r'The slow one refuses it, (\d+)', step)
        answer = refused[1] if refused else 'held already' if 'The slow one has it already' in step else 'taken'
        yield answer, re.search(r'(\d+) of \d+ sections missing', step)[1]


def lesson():
    with open(os.path.join(ROOT, 'docs', 'TEACHING.md'), encoding='utf-8') as file:
        page = re.findall(r'^\| \d+ \| .*? \| (taken|held already|\d+)\b.*? \| (\d+)\b.*? \|', file.read(), re.M)
    told = list(lesson_told(c_side([], source=('examples', 'teach.c')).decode()))
    if page != told or len(page) < 12:
        raise Differs('the lesson: the page has %s, and the program %s' % (page, told))
    return len(page)


def lesson_slips():
    """A file that can't be read is named with the system's reason before anything is taught; bytes of a file do not steer the terminal."""
    with tempfile.TemporaryDirectory() as folder:
        path = os.path.join(folder, 'file')
        with open(path, 'wb') as file:
            file.write(printed(0xFE, 0x1234, 3, 1, 0, 0, b'\x1B[2J\0\x07well\xFF'))
        for name, wanted in ((folder, (2, b'', "teach: %s can't be read: Is a directory\n" % folder)),
                             (path + '.none', (2, b'', "teach: %s.none can't be opened: No such file or directory\n" % path)), (path, (0, None, ''))):
            done = subprocess.run([os.path.join(ROOT, 'tools', 'c-side'), os.path.join(ROOT, 'examples', 'teach.c'), name], capture_output=True, check=False)
            told = done.returncode, wanted[1] if wanted[1] is None else done.stdout, done.stderr.decode()
            if told != wanted or any(byte < 0x20 and byte != 0x0A or byte > 0x7E for byte in done.stdout):
                raise Differs('teach %s: %r and not %r; it says %r' % (name, told, wanted, done.stdout))
        if b'both hand out 11 bytes, ".[2J..well.".' not in done.stdout:
            raise Differs('teach on a file says %r' % done.stdout)


# ---- by chance

def damaged(s):
    at = chance.randrange(len(s))
    turned = s[:at] + bytes([s[at] ^ 1 << chance.randrange(8)]) + s[at + 1:]
    short = s[:1] + b'\xF0\x08' + s[3:]
    return chance.choice((s[:at], s + b'\xFF', turned, checked(turned[:-4]), short, chance.randbytes(at), b''))


def string(heading, payloads, quarrels):
    kind, extension, version, last = heading
    number = chance.randrange(last + 1)
    payload = payloads[number]
    if often() < quarrels:
        payload = chance.choice((payload[:-1], payload + b'\0', chance.randbytes(len(payload))))[:MOST_PAYLOAD]
    if often() < 0.1:
        version = (version + chance.randrange(32)) % 32
    if often() < 0.1:
        last = chance.randrange(7)
    if often() < 0.05:
        kind, extension = chance.choice(((kind, extension ^ 1), (chance.randint(0xFB, 0xFE), extension)))
    s = printed(kind, extension, version, int(often() < 0.95), number, last, payload)
    return damaged(s) if often() < 0.1 else s


def same_as_quick(a, quick, s, answer):
    """The second programs agree too: the slow one's with the quick one's, up to the first 37."""
    told = quick.gathering_feed(s)
    if (told[1] and -1 or told[0]) != answer:
        raise Differs('the second programs answer %s and %d' % (told, answer))
    try:
        missing = a.slow.missing()
    except Refused:
        missing = 0
    if missing != quick.kept[0]:
        raise Differs('of the second programs one has %d missing, and one %d' % (missing, quick.kept[0]))
    try:
        body = a.slow.hand_out(10**6)
    except Refused as refusal:
        body = refusal.args[0], refusal.place
    try:
        other = quick.body(10**6)
    except Refused as refusal:
        other = refusal.args
    if body != other:
        raise Differs('the second programs hand out %s and %s' % (body, other))


def run(a):
    last = chance.randrange(6)
    heading = chance.randint(0xFB, 0xFE), chance.randrange(2**16), chance.randrange(32), last
    payloads = [chance.randbytes(chance.choice((0, 1, 5, 9, MOST_PAYLOAD) if often() < 0.05 else (0, 1, 5, 9))) for _ in range(7)]
    store_bytes, quarrels = (last + 1) * MOST_PAYLOAD + chance.choice((0, 0, 0, -1, 1, 7 * MOST_PAYLOAD)), chance.choice((0, 0, 0.1))
    a.lend(bytes([chance.randrange(256)]) * chance.choice((6000, 6000, 300, 100)), 0, store_bytes)
    quick = Gathering()
    quick.gathering_store(bytes(store_bytes))
    for _ in range(chance.randint(1, 14)):
        s = string(heading, payloads, quarrels)
        answer = a.feed(s)
        if answer == 37:
            break
        same_as_quick(a, quick, s, answer)
        for ask in chance.sample((a.heading, a.missing, lambda: a.hand_out(chance.choice((0, 20, 30000)))), 2):
            ask()


def any_buffer(a):
    """A buffer of rows that something happened to, and a number in use beside their end."""
    kept = bytearray(b''.join(row(string((0xFC, 7, 3, 2), [b'a', b'', b'bc'] * 3, 0.1)) for _ in range(chance.randrange(5))))
    used = len(kept) + chance.choice((0, 0, 0, -1, 1, -8, 8))
    if kept and often() < 0.5:
        kept[chance.randrange(min(len(kept), 16))] ^= 1 << chance.randrange(8)
    a.lend(bytes(kept) + bytes(chance.randrange(40)), max(0, used), 3 * MOST_PAYLOAD)
    a.heading()
    a.missing()
    a.hand_out(chance.choice((0, 9)))
    a.feed(string((0xFC, 7, 3, 2), [b'a', b'', b'bc'] * 3, 0.1))


def asked():
    a = Asked()
    by_hand(a)
    for _ in range(RUNS):
        run(a)
        any_buffer(a)
    return a


def main(program):
    a = asked()
    for name, numbers in (('feed', {*range(13), 37}), ('hand_out', {0, 11, 12, 13, 21}), ('heading', {0, 12, 13}), ('missing', {0, 12, 13})):
        if {number for call, number in counted if call == name} != numbers:
            raise Differs('%s: not every refusal is met, or another: %s' % (name, counted))
    a.hold('the second program')
    steps = lesson()
    lesson_slips()
    feeds, answers = lockstep(program)
    print('%d feeds to both gatherings: the same answers, headings, missing numbers and bodies; answers by refusal, 256 for held already: %s' %
          (feeds, ', '.join('%d: %d' % pair for pair in sorted(answers.items()))))
    print('%d answers of the slow one are those of a second program; the lesson has the %d steps of its page' % (len(a.expected), steps))


if __name__ == '__main__':
    try:
        main(sys.argv[1])
    except Differs as fault:
        sys.exit(str(fault))
