"""Long captures: they are read in bounded memory, and above 10 MB progress is told: nw_long.py HOW SPARE MEGABYTES PROGRAM..

A capture of so many megabytes is handed to nw through a pipe, under a limit of memory: SPARE megabytes more than what nw takes for a short one. What it
tells of both is the same but for the counts.
"""
# SPDX-License-Identifier: MIT
import os
import pty
import re
import resource
import subprocess
import sys
import tempfile
import threading

import make_captures as make
from second_packets import packed

HOW, SPARE, MEGABYTES, PROGRAM = sys.argv[1], int(sys.argv[2]), int(sys.argv[3]), sys.argv[4:]
MB = 1000000
wrong = []


def expect(what, told, real):
    if told != real:
        wrong.append('%s: %.300r and not %.300r' % (what, told, real))


# ---- a stream, some 100 kB of it at a time


def rounds():
    """The packets of two tables again and again, each round with the counters where the last one ended, among twice as many of other PIDs."""
    sections = make.Index([make.DRILL], 5).sections() + make.Content(make.DRILL, [('eng', 0, make.LONG_TEXT, '', [])], 5).sections()
    others = make.NULL_PACKET * 9
    made, counter = {}, 0
    while True:
        if counter not in made:
            packets, at = [], counter
            for section in sections:
                packets += packed(section, at)
                at = (counter + len(packets)) % 16
            made[counter] = b''.join(packet + others for packet in packets), at
        data, counter = made[counter]
        yield data


def feed(process, size):
    """Hands so many bytes to a process. Answers how many it was."""
    sent = 0
    for data in rounds():
        if sent >= size:
            break
        process.stdin.write(data)
        sent += len(data)
    process.stdin.close()
    return sent


def limited(size):
    def limit():
        if size is not None:
            resource.setrlimit(resource.RLIMIT_AS, (size, size))
    return limit


def told(words, size, limit=None):
    """Status, output and standard error of nw on so many bytes, under a limit of memory."""
    process = subprocess.Popen([*PROGRAM, 'show', *words, '-'], stdin=subprocess.PIPE, stdout=subprocess.PIPE, stderr=subprocess.PIPE,
                               preexec_fn=limited(limit), env={**os.environ, 'LC_ALL': 'C.UTF-8'})
    got, readers = [b'', b''], []

    def read(place, stream):
        got[place] = stream.read()
    for place, stream in enumerate((process.stdout, process.stderr)):
        readers.append(threading.Thread(target=read, args=(place, stream)))
        readers[-1].start()
    try:
        sent = feed(process, size)
    except BrokenPipeError:
        sent = 0
    for reader in readers:
        reader.join()
    return process.wait(), got[0].decode(), got[1].decode(), sent


def least():
    """The least limit in megabytes under which a short capture is told."""
    low, high = 1, 1024
    while high - low > 1:
        middle = (low + high) // 2
        low, high = (low, middle) if told([], 1, middle * MB)[0] == 0 else (middle, high)
    return high


def uncounted(output):
    return re.sub(r'\d+ repeats|all in all: .*|packets: .*', '', output)


def try_memory():
    short, limit = told([], 1), (least() + SPARE) * MB
    for words in [], ['--json'], ['--html', '-']:
        status, output, said, sent = told(words, MEGABYTES * MB, limit)
        expect('%r on %d MB in %d' % (words, MEGABYTES, limit // MB), (status, said), (0, ''))
        if not words:
            expect('what is told', uncounted(output), uncounted(short[1]))
            expect('how much', re.search(r'all in all: (\d+) bytes', output)[1], str(sent))
    return limit // MB


# ---- progress


def try_progress():
    with tempfile.NamedTemporaryFile() as long, tempfile.NamedTemporaryFile() as short:
        size = 0
        for data in rounds():
            if size > 23 * MB:
                break
            long.write(data)
            size += len(data)
        long.flush()
        short.write(make.section(make.INDEX, 0, 0, 0, 0, b'\0\0\0'))
        short.flush()
        run = [*PROGRAM, 'show', '--progress']
        said = subprocess.run([*run, long.name], capture_output=True, check=False).stderr.decode()
        parts = [int(part) for part in re.findall(r'^nw show: (\d+) of %d MB read$' % (size // MB), said, re.M)]
        expect('progress in tenths', [9 <= len(parts) <= 10, parts == sorted(parts), len(said.splitlines()) == len(parts)], [True, True, True])
        expect('progress of a short capture', subprocess.run([*run, short.name], capture_output=True, check=False).stderr, b'')
        expect('progress that nobody asks for', subprocess.run([*PROGRAM, 'show', long.name], capture_output=True, check=False).stderr, b'')
        expect('progress of a pipe', told(['--progress'], 12 * MB)[2][:13], 'nw show: 10 M')
        expect('progress on a terminal', on_terminal(long.name), (True, True, True))
        expect('none on a terminal', on_terminal(short.name), (False, True, True))


def on_terminal(name):
    """Whether a terminal that is standard error gets progress; that its line is empty at the end; and that nothing else steers it."""
    ours, theirs = pty.openpty()
    process = subprocess.Popen([*PROGRAM, 'show', name], stdout=subprocess.DEVNULL, stderr=theirs)
    os.close(theirs)
    got = b''
    while True:
        try:
            more = os.read(ours, 65536)
        except OSError:
            break
        if not more:
            break
        got += more
    os.close(ours)
    process.wait()
    last = got.decode().rsplit('\r', 2)
    return b' MB read' in got, not got or last[-1] == '' and last[-2].strip() == '', re.fullmatch(rb'[\r\n -~]*', got) is not None


limit = try_memory()
try_progress()
if wrong:
    sys.exit('%s\n%s: %d faults' % ('\n'.join(wrong), HOW, len(wrong)))
print('%s: %d MB through a pipe are told three ways in %d MB of address space; progress above 10 MB' % (HOW, MEGABYTES, limit))
