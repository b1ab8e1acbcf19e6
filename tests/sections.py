"""Sections good, damaged in one or two ways, and made by chance: read and measured as a second program does it."""
# SPDX-License-Identifier: MIT
import itertools
import random

import calls
import second_sections as second
from second_sections import checked

chance = random.Random(86)


def good(length):
    """A section with a payload of some length."""
    last = chance.choice((0, 1, 127, 254, 255))
    return second.printed(chance.randint(0xFB, 0xFE), chance.randrange(2**16), chance.randrange(32), chance.randrange(2),
                          chance.randint(0, last), last, chance.randbytes(length))


def rechecked(s):
    """The section with its check made right."""
    return checked(s[:-4])


# ---- damage: what it does to a section. It leaves alone what is too short for it


def changed(at, change):
    return lambda s: s[:at] + bytes(map(change, s[at:][:1])) + s[at:][1:]


def with_byte(at, value):
    return changed(at, lambda _: value)


def with_length(n):
    """Another section_length."""
    return lambda s: with_byte(2, n % 256)(changed(1, lambda b: b & 0xF0 | n // 256)(s))


def of_length(n):
    """Another section_length, and a string as long as it says."""
    return lambda s: (with_length(n)(s) + bytes(4096))[:n + 3]


def numbered(number, last):
    return lambda s: with_byte(6, number)(with_byte(7, last)(s))


def cut_to(n):
    return lambda s: s[:n]


def longer(n):
    return lambda s: s + bytes(n)


def without(at, bits):
    return changed(at, lambda b: b & ~bits)


def turned(at):
    return changed(at, lambda b: b ^ 1)


# Each with the refusal that it earns.
DAMAGES = [
    *((1, cut_to(n)) for n in range(12)),
    *((2, with_byte(0, kind)) for kind in (0x00, 0x7B, 0x7D, 0xFA, 0xFF)),
    *((3, without(1, bits)) for bits in (128, 64, 32, 16, 240)),
    *((3, without(5, bits)) for bits in (128, 64, 192)),
    *((4, with_length(n)) for n in (0, 1, 8, 4094, 4095)),
    *((4, of_length(n)) for n in (4094, 4095)),
    *((5, with_length(n)) for n in (9, 10, 2000, 4093)),
    *((5, longer(n)) for n in (1, 2, 256, 4096)),
    (5, cut_to(-1)),
    *((6, numbered(number, last)) for number, last in ((1, 0), (255, 0), (255, 254), (128, 127))),
    *((7, turned(at)) for at in (3, 4, 5, 8, -5, -4, -3, -2, -1)),
]


def damaged_twice():
    """In every pair of ways, which shows the order of refusals, with the check made right again or not."""
    for length, (_, one), (_, other) in itertools.product((1, 3, 30, 300), DAMAGES, DAMAGES):
        s = other(one(good(length)))
        yield s
        yield rechecked(s)


def bits_turned():
    """Each bit of a section turned, with the check made right again or not."""
    for length in (0, 1, 30):
        s = good(length)
        for bit in range(8 * len(s)):
            t = (int.from_bytes(s, 'big') ^ 1 << bit).to_bytes(len(s), 'big')
            yield t
            yield rechecked(t)


def headings():
    """Every kind, every byte of version and current, extensions, and pairs of a number and a last number."""
    s = good(5)
    for kind in range(256):
        yield rechecked(with_byte(0, kind)(s))
    for byte, high, low in itertools.product(range(256), (0, 1, 255), (0, 1, 255)):
        yield rechecked(with_byte(3, high)(with_byte(4, low)(with_byte(5, byte)(s))))
    for number, last in itertools.product((0, 1, 2, 127, 128, 129, 253, 254, 255), repeat=2):
        yield rechecked(numbered(number, last)(s))


def by_chance():
    """Byte strings with nothing and with something of a section; and sections with 65,536 bytes after them."""
    for _ in range(2000):
        yield chance.randbytes(chance.randrange(40))
        yield of_length(chance.randint(9, 99))(b'\xFD\xFF\0' + chance.randbytes(100))
    for length in (0, 1, 4083, 4084):
        yield longer(65536)(good(length))


def lengths():
    """Every two bytes that have section_length, few bytes and more; all of the strings above begin a section too."""
    for high, low in itertools.product(range(256), range(256)):
        yield bytes((chance.randrange(256), high, low)) + chance.randbytes(chance.choice((0, 0, 0, 1, 9, 30)))
    for length in range(4):
        yield chance.randbytes(length)


def main():
    for number, damage in DAMAGES:
        s = damage(good(30))
        assert calls.told(second.section_read, rechecked(s) if number < 5 else s) == '%d 0' % number
    strings = [*map(good, range(4085)), *damaged_twice(), *bits_turned(), *headings(), *by_chance()]
    calls.compare('a second program', second, [('section_read', s) for s in strings])
    calls.compare('a second program', second, [('section_length', s) for s in [*strings, *lengths()]])


main()
