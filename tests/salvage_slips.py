"""What nw-salvage writes, says and ends with, slip by slip: salvage_slips.py HOW FOLDER RUNNER.."""
# SPDX-License-Identifier: MIT
import os
import random
import subprocess
import sys
import tempfile

import calls
import second_salvage as second
from second_sections import printed

HOW, FOLDER = sys.argv[1:3]
RUNNER = sys.argv[3:]
CRATE = os.path.join(os.path.dirname(os.path.abspath(__file__)), os.pardir, 'crates', 'program_salvage')
SECONDS = 300
chance = random.Random(110)
wrong, tried = [], 0

ONE, TWO = printed(0xFD, 0, 0, 1, 0, 0, b'one'), printed(0xFE, 0xC29, 17, 0, 3, 255, bytes(300))
HEADER = 'run first length\n'
REFUSED = HEADER + 'refused 36\n'
LONG = 'nw-salvage: the capture has more than 65,536 bytes: nothing is salvaged\n'
USAGE = 'usage: nw-salvage [--output OUT] [FILE]; nw-salvage --help says more\n'
NOT_WRITTEN = "nw-salvage: the output can't be written: "


def run(words, data=b'', **more):
    """Runs the command in the scratch folder. Answers its status, its output and what stands on standard error."""
    given = {'input': data} if 'stdin' not in more else {}
    more.setdefault('stdout', subprocess.PIPE)
    done = subprocess.run([*RUNNER, os.path.join(FOLDER, 'nw-salvage'), *words], stderr=subprocess.PIPE, timeout=SECONDS, check=False,
                          env={**os.environ, 'LC_ALL': 'C.UTF-8'}, **given, **more)
    return done.returncode, done.stdout or b'', done.stderr.decode()


def expect(what, got, status, output, said):
    """Notes a fault unless status, output and standard error are these."""
    global tried
    tried += 1
    output = output if isinstance(output, bytes) else output.encode()
    for name, here, there in zip(('status', 'output', 'standard error'), got, (status, output, said)):
        if here != there:
            wrong.append('%.200s: %s %.300r and not %.300r' % (what, name, here, there))


def written(name):
    """What stands in a file, which goes."""
    if not os.path.exists(name):
        return None
    with open(name, 'rb') as file:
        data = file.read()
    os.remove(name)
    return data


def try_capture(data):
    """A capture, as the second program salvages it: the list on standard error, or with --output on standard output."""
    long = len(data) > second.MOST
    runs = [] if long else second.runs_of(data)
    kept, lines = second.kept_of(data, runs), REFUSED if long else second.lines_of(runs)
    status, what = int(kept != data), 'nw-salvage on %d bytes, %.60r' % (len(data), data)
    expect(what, run([], data), status, kept, lines + (LONG if long else ''))
    expect(what + ' --output', run(['--output', 'out', '-'], data), status, lines, LONG if long else '')
    if written('out') != (None if long else kept):
        wrong.append(what + ': OUT has something else, or is there')


def captures():
    yield b''
    yield ONE
    yield TWO + ONE + TWO
    yield ONE[:-1]
    yield b'noise' + ONE + TWO[5:] + ONE
    yield printed(0xFB, 0, 0, 1, 0, 0, ONE)
    yield printed(0xFB, 0, 0, 1, 0, 0, ONE)[:-1] + b'!'
    yield bytes(second.MOST)
    yield (TWO * 300)[:second.MOST]
    yield bytes(second.MOST + 1)
    yield ONE * 6000
    for _ in range(20):
        s = b''.join(chance.choice((ONE, TWO)) for _ in range(chance.randrange(1, 20)))
        at = chance.randrange(len(s))
        yield s[:at] + chance.randbytes(chance.randrange(4)) + s[at + chance.randrange(30):]


def try_words():
    """Names and words."""
    with open('capture', 'wb') as file:
        file.write(ONE + b'!')
    lines = HEADER + 'kept 0 %d\nskipped %d 1\n' % (len(ONE), len(ONE))
    for words in (['capture'], ['--', 'capture']):
        expect(words, run(words), 1, ONE, lines)
    for words in (['--output', 'out', 'capture'], ['capture', '--output', 'out'], ['--output', 'out', '--', 'capture']):
        expect(words, run(words), 1, lines, '')
        if written('out') != ONE:
            wrong.append('%r: OUT has something else' % words)
    for words, said in ((['none'], "none can't be opened: No such file or directory"), (['folder'], "folder can't be read: Is a directory"),
                        (['--output', 'out', 'none'], "none can't be opened: No such file or directory")):
        expect(words, run(words), 2, '', 'nw-salvage: %s\n' % said)
    for words, said in (
            (['--outputs'], '--outputs: there is no such word'), (['-o', 'out'], '-o: there is no such word'),
            (['capture', 'more'], 'more: there is a FILE already, and one capture is read'),
            (['--output'], '--output: OUT has to follow, a file\'s name'), (['--output', ''], '--output: OUT has to follow, a file\'s name'),
            (['--output', 'out', '--output', 'out'], '--output: it is given already')):
        expect(words, run(words, ONE), 2, '', 'nw-salvage: %s\n%s' % (said, USAGE))
    if written('out') is not None:
        wrong.append('OUT is written without a capture')
    for out, said in (('none/out', "none/out can't be opened: No such file or directory"), ('folder', "folder can't be opened: Is a directory"),
                      ('/dev/full', "/dev/full is not whole, it can't be written: No space left on device")):
        expect('--output ' + out, run(['--output', out], ONE), 2, '', 'nw-salvage: %s\n' % said)
    expect('--version', run(['--version']), 0, 'nw-salvage %s\n' % calls.version(), '')
    status, output, said = run(['--help'])
    expect('--help', (status, output[:17], said), 0, 'usage: nw-salvage', '')
    for word in ('--output OUT', 'FILE', '--help', '--version', 'Exit status: 0, ', '; 1, ', '; 2, '):
        if word not in ' '.join(output.decode().split()):
            wrong.append('--help does not say ' + word)


def try_streams():
    """Input and output that are folders, full, closed, or a pipe that nobody reads."""
    folder = os.open('folder', os.O_RDONLY)
    for words in ([], ['--output', 'out'], ['--help']):
        with open('/dev/full', 'wb') as full:
            expect('%r on a full disk' % words, run(words, ONE, stdout=full), 2, '', NOT_WRITTEN + 'No space left on device\n')
        expect('%r, output closed' % words, run(words, ONE, preexec_fn=lambda: os.close(1)), 2, '', NOT_WRITTEN + 'Bad file descriptor\n')
        unread, pipe = os.pipe()
        os.close(unread)
        expect('%r, output not read' % words, run(words, ONE, stdout=pipe), 2, '', NOT_WRITTEN + 'Broken pipe\n')
        os.close(pipe)
    expect('a folder', run([], stdin=folder), 2, '', "nw-salvage: standard input can't be read: Is a directory\n")
    os.close(folder)


def try_proved():
    """The proved program's own file: its standard output is the command's."""
    data, output = (open(os.path.join(CRATE, name), 'rb').read() for name in ('stdin', 'stdout'))
    expect('the file of program_salvage', run([], data), 1, output, second.lines_of(second.runs_of(data)))


with tempfile.TemporaryDirectory() as scratch:
    os.chdir(scratch)
    os.mkdir('folder')
    for capture in captures():
        try_capture(capture)
    for part in try_words, try_streams, try_proved:
        part()
    os.chdir('/')
if wrong or tried < 80:
    sys.exit('%s\n%s: %d of %d answers are not what they should be' % ('\n'.join(wrong), HOW, len(wrong), tried))
print('%s: %d answers of nw-salvage, each with its sentence and its status' % (HOW, tried))
