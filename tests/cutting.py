"""Bodies counted and cut into sections: the library's answers and outputs, a second program's, and crcmod's check."""
# SPDX-License-Identifier: MIT
import itertools
import random
import sys

import calls
import second_sections as second

chance = random.Random(86)
WIDE = [2**k + n for k in (8, 16, 31) for n in (0, 1, 17, 0xFD, 2018)] + [2**16 - 1, 2**32 - 1]


def counts():
    for length in range(20001):
        yield 'section_count', length
    for k, around in itertools.product(range(1, 260), (-1, 0, 1)):
        yield 'section_count', k * 4084 + around
    for k, around in itertools.product((16, 20, 31, 32, 48, 63, 64), (-4085, -4084, -4083, -1, 0, 1, 4084, 1045504)):
        yield 'section_count', (2**k + around) % 2**64


def cuts():
    """Each section of a body, and two past the last, into outputs too small, just large enough and larger."""
    for length in (1, 2, 188, 4083, 4084, 4085, 4086, 8167, 8168, 8169, 12252, 12253):
        body = chance.randbytes(length)
        for number in range(-(-length // 4084) + 2):
            whole = max(0, min(4084, length - number * 4084)) + 12
            for room in (0, 11, 12, whole - 1, whole, whole + 1, 5000):
                heading = chance.randint(0xFB, 0xFE), chance.randrange(2**16), chance.randrange(32)
                yield 'section_cut', body, *heading, number, chance.randbytes(room)


def other_numbers():
    """Each number of a good request replaced by others, such as a narrower type would take for a good one."""
    numbers = (0xFD, 2018, 17, 1)
    for i, n in itertools.product(range(4), (*range(300), *WIDE)):
        yield 'section_cut', b'\xA5' * 5000, *numbers[:i], n, *numbers[i + 1:], b'\x11' * 1000


def two_faults():
    """Every choice of good and bad arguments together, which shows the order of refusals; and the longest bodies."""
    lengths = (0, 5000, 1045503, 1045504, 1045505)
    headings = itertools.product((0xFA, 0xFE, 0xFF), (65535, 65536), (31, 32))
    for length, heading, number, room in itertools.product(lengths, headings, (0, 2, 255, 256), (11, 4096)):
        yield 'section_cut', b'\x5A' * length, *heading, number, b'\x22' * room


def whole_bodies():
    """All sections of a body, with and without some room left."""
    for length in (0, 1, 4083, 4084, 4085, 4086, 8168, 8169, 100000, 1045503, 1045504, 1045505):
        room = length + 12 * -(-length // 4084) + chance.choice((0, 5))
        yield 'section_cut_all', chance.randbytes(length), chance.randint(0xFB, 0xFE), 0xC29, 17, chance.randbytes(room)


def sections_of(out, count):
    """So many sections, one right after the other, by their section_length."""
    for _ in range(count):
        n = out[1] % 16 * 256 + out[2] + 3
        yield out[:n]
        out = out[n:]


def hold(bodies, outputs):
    """Ends the program unless the payloads, joined, are the bodies, and crcmod's register over each section is 0."""
    cut = [list(sections_of(out, second.section_count(len(body)))) for body, out in zip(bodies, outputs)]
    if [b''.join(s[8:-4] for s in sections) for sections in cut] != bodies:
        sys.exit('the payloads, joined, are not the bodies')
    print('the payloads of %d sections, joined, are the bodies' % sum(map(len, cut)))
    try:
        import crcmod
    except ImportError:
        print('not run: the check by crcmod, which is not installed')
        return
    register = crcmod.mkCrcFun(0x104C11DB7, initCrc=0xFFFFFFFF, rev=False, xorOut=0)
    if any(register(s) != 0 for sections in cut for s in sections):
        sys.exit("crcmod's register over a section is not 0")
    print("crcmod's register over each is 0")


def main():
    calls.compare('a second program', second, [*counts(), *cuts(), *other_numbers(), *two_faults()])
    whole = list(whole_bodies())
    got = calls.compare('a second program', second, whole)
    taken = [(body, bytes.fromhex(answer[4:])) for (_, body, *_), answer in zip(whole, got) if answer.startswith('6 0 ')]
    hold(*map(list, zip(*taken)))


main()
