"""The extensions of 10,000 identifiers: the library's, and those of a program that divides whole numbers as polynomials."""
# SPDX-License-Identifier: MIT
import binascii
import random

import calls
import make_fields

KIND, COUNT = 0xFE, 10000
# A polynomial is a whole number, a bit for each term: x^16 + x^12 + x^5 + 1.
DIVISOR = 0x11021
# What follows the identifier in the smallest body: one language `aaa` with nothing in it, and no signature.
REST = bytes.fromhex('f1' '00000008' '616161' 'f8' '0000' '00' 'f0' '0000')


def remainder(polynomial):
    """Divided by the divisor: it is added under the highest term as long as that is not below its own."""
    while polynomial.bit_length() >= DIVISOR.bit_length():
        polynomial ^= DIVISOR << polynomial.bit_length() - DIVISOR.bit_length()
    return polynomial


def checksum(bits, count):
    """The CRC-16 of so many bits, 16 or more. A register of ones at the start is ones added to the first 16 bits."""
    return remainder((bits ^ 0xFFFF << count - 16) << 16)


def cases(digits):
    """Requests about an identifier, and how the answer to each begins."""
    identifier = bytes.fromhex('F' + digits)
    extension = checksum(int(digits, 16), 140)
    found = '0 18 0 %d' % extension
    # As content tables had it before M-103: over the 18 bytes, by Python's own function.
    old = binascii.crc_hqx(identifier, 0xFFFF)
    # The identifier alone is as good as a body, or a message, for its own fields.
    yield ('content_fields', identifier), found
    yield ('message_fields', identifier, 0, len(identifier)), found
    yield ('content_read', KIND, 24, extension, identifier + REST), '0 0 ' + found
    yield ('content_read', KIND, 24, old, identifier + REST), '23 0'
    pool, tape = identifier + b'aaa', [0, 18, 1, 18, 3, 0, 0, 0, 0, 0, 0, 0, 0]
    yield ('content_write', 24, pool, tape, bytes(33)), '0 %d %d 33' % (extension * 2**24 + 33, extension)


def main():
    # The published value of the check, so that the second program is known to be right.
    assert checksum(int.from_bytes(b'123456789', 'big'), 72) == 0x29B1
    chance = random.Random(103)
    every = {make_fields.identifier(chance) for _ in range(COUNT + 100)}
    assert len(every) >= COUNT
    asked, expected = zip(*(case for digits in sorted(every) for case in cases(digits)))
    requests = [calls.request(*call) for call in asked]
    begins = [' '.join(answer.split()[:len(begin.split())])
              for answer, begin in zip(calls.answers(requests), expected, strict=True)]
    calls.agree('division of polynomials', requests, begins, list(expected))


main()
