"""Transport streams as tshark and the library read them: those that the library packs, those of a second muxer, and those of ffmpeg's tables.

The second muxer puts sections one right behind the other, with adaptation fields and other PIDs between. Of a stream that ffmpeg makes the packets
of its tables are taken, with nothing changed but their PID. Each time the library completes the sections that were sent, and tshark finds these.
"""
# SPDX-License-Identifier: MIT
import os
import random
import shutil
import subprocess
import sys
import tempfile

import packets
from second_packets import PACKET, STATE, packed
from second_sections import checked, printed

chance = random.Random(21)
TABLES = {0x0000: 'association', 0x0011: 'service', 0x1000: 'map'}  # ffmpeg's, by the PIDs that it gives them
FIELDS = ('tid', 'len', 'crc', 'crc.status')


def by_tshark(stream):
    """What tshark finds: table_id, length and check of each section on PID 0x21, and whether the check is right."""
    with tempfile.TemporaryDirectory() as folder:
        name = os.path.join(folder, 'packets.ts')
        with open(name, 'wb') as file:
            file.write(stream)
        run = subprocess.run(['tshark', '-n', '-r', name, '--disable-protocol', 'scte35', '-o', 'mpeg_sect.verify_crc:TRUE',
                              '-Y', 'mpeg_sect.tid && mp2t.pid == 0x21', '-T', 'fields', '-E', 'occurrence=a',
                              *(word for field in FIELDS for word in ('-e', 'mpeg_sect.' + field))], capture_output=True, encoding='ascii', check=False)
    if run.returncode:
        sys.exit('tshark ended with %d: %s' % (run.returncode, run.stderr))
    rows = []
    for line in run.stdout.splitlines():
        rows += zip(*(word.split(',') for word in line.split('\t')), strict=True)
    return [tuple(int(word, 0) for word in row) for row in rows]


def row(s):
    return s[0], len(s) - 3, int.from_bytes(s[-4:], 'big'), 1


def apart(data):
    """Sections that stand one right after the other."""
    found = []
    while data:
        n = 3 + ((data[1] & 0x0F) << 8 | data[2])
        found.append(data[:n])
        data = data[n:]
    return found


def by_library(stream):
    """The sections that the library completes, and how many packets it refuses."""
    requests = [b'S' + bytes(STATE)] + [packets.packet_request(stream[at:at + PACKET], 65535) for at in range(0, len(stream), PACKET)]
    got, at, found, refused = packets.run(requests), 0, [], 0
    while at < len(got):
        refused += got[at] != 0
        n = got[at + 1] << 8 | got[at + 2]
        found += apart(got[at + 3:at + 3 + n])
        at += 3 + n + 5
    return found, refused


def hold(what, stream, sections, others):
    """Both find the sections, and the library refuses the packets of other PIDs alone."""
    given, refused = by_library(stream)
    if given != sections or refused != others:
        sys.exit('%s: the library completes %d sections and refuses %d packets, and %d were sent, with %d others'
                 % (what, len(given), refused, len(sections), others))
    found = by_tshark(stream)
    if found != [row(s) for s in sections]:
        sys.exit('%s: tshark finds %d sections, and %d were sent' % (what, len(found), len(sections)))
    return len(stream) // PACKET, len(sections)


def good_sections(count):
    for _ in range(count):
        n = chance.choice((0, 1, 100, 170, 171, 172, 173, 355, 356, 800, 4084, chance.randrange(4085)))
        yield printed(chance.randint(0xFB, 0xFE), chance.randrange(2**16), chance.randrange(32), 1, 0, 0, chance.randbytes(n))


def by_the_library(sections, counter):
    """The stream that the library's packer makes, each section from the counter after the last packet's."""
    requests, stream = [], b''
    for s in sections:
        n = PACKET * (1 + len(s) // 184)
        requests.append(b'K' + counter.to_bytes(4, 'big') + len(s).to_bytes(2, 'big') + n.to_bytes(2, 'big') + s)
        counter = (counter + n // PACKET) % 16
    got = packets.run(requests)
    for _ in sections:
        n = got[1] << 8 | got[2]
        stream, got = stream + got[3:3 + n], got[3 + n:]
    return stream


def with_others(made):
    """The packets with others between: null packets, another PID's sections, adaptation fields alone; and how many are of other PIDs."""
    counter, others, stream = 0, 0, b''
    for p in made:
        if chance.random() < 0.2:
            stream += bytes([0x47, 0x1F, 0xFF, 0x10]) + bytes(184)
            others += 1
        if chance.random() < 0.2:
            (other,) = packed(checked(b'\x42\xF0\x0D' + chance.randbytes(9)), counter)
            stream += other[:1] + bytes([other[1] | 0x01, 0x11]) + other[3:]
            counter = (counter + 1) % 16
            others += 1
        if chance.random() < 0.1:
            stream += bytes([0x47, 0x00, 0x21, 0x20 | p[3] - 1 & 0x0F, 183, 0]) + b'\xFF' * 182
        stream += p
    return stream, others


def by_ffmpeg():
    """A stream of three seconds of silence in 60 channels, by ffmpeg, so that its map table takes several packets."""
    with tempfile.TemporaryDirectory() as folder:
        name = os.path.join(folder, 'made.ts')
        made = subprocess.run(['ffmpeg', '-loglevel', 'error', '-f', 'lavfi', '-i', 'anullsrc', '-t', '3', *['-map', '0:a'] * 60, '-c:a', 'mp2', '-f', 'mpegts', name],
                              stderr=subprocess.PIPE, encoding='utf-8', check=False)
        if made.returncode:
            sys.exit('ffmpeg ended with %d: %s' % (made.returncode, made.stderr))
        with open(name, 'rb') as file:
            return file.read()


def of_pid(stream, pid):
    """The packets of a PID, which becomes 0x0021."""
    cut = (stream[at:at + PACKET] for at in range(0, len(stream), PACKET))
    return [p[:1] + bytes([p[1] & 0xE0, 0x21]) + p[3:] for p in cut if (p[1] & 0x1F) << 8 | p[2] == pid]


def begun_fresh(made):
    """The sections of packets in which each begins with a fresh packet and ends before the next."""
    runs = []
    for p in made:
        if p[1] & 0x40:
            runs.append(b'')
        runs[-1] += p[5:] if p[1] & 0x40 else p[4:]
    return [apart(run)[0] for run in runs]


def hold_ffmpeg():
    stream = by_ffmpeg()
    for pid, name in TABLES.items():
        made = of_pid(stream, pid)
        sections = begun_fresh(made)
        if len(sections) < 5 or any(checked(s[:-4]) != s for s in sections):
            sys.exit('ffmpeg makes %d sections of its %s table, of which some are not whole' % (len(sections), name))
        print("ffmpeg's %s table, with its PID changed: %d packets, %d sections as tshark finds them" % (name, *hold(name, b''.join(made), sections, 0)))


def main():
    counts = []
    for counter in range(16):
        sections = list(good_sections(40))
        counts.append(hold("the library's packer", by_the_library(sections, counter), sections, 0))
    print("the library's packer, from each counter: %d packets, %d sections as tshark finds them" % tuple(map(sum, zip(*counts))))
    sections = list(good_sections(300))
    stream, others = with_others(packets.close(sections, 5)[0])
    print('a second muxer, with %d packets of other PIDs: %d packets, %d sections as tshark finds them' % (others, *hold('a second muxer', stream, sections, others)))
    if shutil.which('ffmpeg'):
        hold_ffmpeg()
    else:
        print('no ffmpeg: its tables are not tried')


main()
