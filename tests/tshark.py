"""Sections that the library cuts, whole and with a bit changed, in a transport stream: as tshark reads them and the library."""
# SPDX-License-Identifier: MIT
import collections
import os
import random
import subprocess
import sys
import tempfile

import calls

chance = random.Random(86)
PID = 0x200
FIELDS = ('tid', 'syntax_indicator', 'reserved', 'len', 'crc', 'crc.status')


def bodies():
    """What is cut: a body, its kind, extension and version."""
    for length in (1, 170, 171, 172, 4083, 4084, 4085, 8169, 100000, 1045504):
        yield chance.randbytes(length), chance.randint(0xFB, 0xFE), chance.randrange(2**16), chance.randrange(32)


def sections():
    """All sections of each body, as the library cuts them."""
    requests = [calls.request('section_cut_all', body, *heading, bytes(len(body) + 12 * -(-len(body) // 4084)))
                for body, *heading in bodies()]
    for answer in calls.answers(requests):
        out = bytes.fromhex(answer.split()[-1])
        while out:
            n = out[1] % 16 * 256 + out[2] + 3
            yield out[:n]
            out = out[n:]


def changed(section):
    """The section with one bit changed after its section_length."""
    at = chance.randrange(3, len(section))
    return section[:at] + bytes([section[at] ^ 1 << chance.randrange(8)]) + section[at + 1:]


def packets(strings):
    """A transport stream: each string from the start of a packet on, and ones after its end."""
    count = 0
    for string in strings:
        rest, first = b'\0' + string, 0x40
        while rest:
            yield bytes([0x47, first | PID >> 8, PID % 256, 0x10 | count % 16]) + rest[:184].ljust(184, b'\xFF')
            rest, first, count = rest[184:], 0, count + 1


def by_tshark(strings):
    """What tshark finds: a row of fields for each section."""
    with tempfile.TemporaryDirectory() as folder:
        stream = os.path.join(folder, 'sections.ts')
        with open(stream, 'wb') as file:
            file.write(b''.join(packets(strings)))
        words = [word for field in FIELDS for word in ('-e', 'mpeg_sect.' + field)]
        run = subprocess.run(['tshark', '-n', '-r', stream, '-o', 'mpeg_sect.verify_crc:TRUE', '-Y', 'mpeg_sect', '-T', 'fields', *words],
                             stdout=subprocess.PIPE, stderr=subprocess.PIPE, encoding='ascii')
    if run.returncode:
        sys.exit('tshark ended with %d: %s' % (run.returncode, run.stderr))
    return [[int(word, 0) for word in line.split('\t')] for line in run.stdout.splitlines()]


def row(string, good):
    """What tshark is to find: one syntax indicator, three reserved ones, and the check, which is good or bad."""
    return [string[0], 1, 7, len(string) - 3, int.from_bytes(string[-4:], 'big'), int(good)]


def main():
    whole = list(sections())
    strings = whole + [changed(section) for section in whole for _ in range(2)]
    chance.shuffle(strings)
    refusals = [int(answer.split()[0]) for answer in calls.answers([calls.request('section_read', s) for s in strings])]
    found = by_tshark(strings)
    if len(found) != len(strings):
        sys.exit('tshark finds %d sections, and not %d' % (len(found), len(strings)))
    for string, refusal, fields in zip(strings, refusals, found):
        if fields != row(string, refusal == 0):
            sys.exit('refusal %d by the library, by tshark %s, of the section that begins %s' % (refusal, fields, string[:12].hex()))
    print('tshark agrees on %d sections; refusals by the library: %s' % (len(strings), dict(sorted(collections.Counter(refusals).items()))))


main()
