"""CRC_32 and CRC-16 of 1,000 byte strings: the library's, a plain bit-by-bit register's, and crcmod's."""
# SPDX-License-Identifier: MIT
import random

import calls

# The name of each call, the width of its register and its polynomial.
CHECKS = [('crc32', 32, 0x04C11DB7), ('crc16', 16, 0x1021)]
EDGES = [*range(41), *range(250, 261), *range(4084, 4097)]


def register(data, width, polynomial):
    """Starts all ones, takes the high bit first, and isn't changed at the end."""
    ones = (1 << width) - 1
    held = ones
    for byte in data:
        for place in range(7, -1, -1):
            out = held >> (width - 1) ^ byte >> place & 1
            held = held << 1 & ones ^ (polynomial if out else 0)
    return held


def byte_strings():
    chance = random.Random(86)
    lengths = EDGES + [chance.randint(0, 5000) for _ in range(1000 - len(EDGES))]
    return [chance.randbytes(n) for n in lengths]


def main():
    # The published values of the two checks, so that the second program is known to be right.
    assert register(b'123456789', 32, 0x04C11DB7) == 0x0376E6E7
    assert register(b'123456789', 16, 0x1021) == 0x29B1
    cases = [(check, data) for data in byte_strings() for check in CHECKS]
    requests = ['%s %s' % (name, calls.hexadecimal(data)) for (name, _, _), data in cases]
    got = calls.answers(requests)
    calls.agree('a register bit by bit', requests, got, [str(register(data, w, p)) for (_, w, p), data in cases])
    try:
        import crcmod
    except ImportError:
        print('not run: the comparison with crcmod, which is not installed')
        return
    of = {name: crcmod.mkCrcFun(1 << w | p, initCrc=(1 << w) - 1, rev=False, xorOut=0) for name, w, p in CHECKS}
    calls.agree('crcmod', requests, got, [str(of[name](data)) for (name, _, _), data in cases])


main()
