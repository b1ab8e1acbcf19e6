"""What nw-dates and nw-section write, say and end with, slip by slip: command_slips.py HOW FOLDER RUNNER.."""
# SPDX-License-Identifier: MIT
import os
import random
import subprocess
import sys
import tempfile

import calls
import second_sections
import second_times

HOW, FOLDER = sys.argv[1:3]
RUNNER = sys.argv[3:]
CRATES = os.path.join(os.path.dirname(os.path.abspath(__file__)), os.pardir, 'crates')
MOST, SECONDS = 65536, 300
chance = random.Random(86)
wrong, tried = [], 0

LINE = b'03/11/2024 07:45:00\n'
FIELDS, TIMES = 'line field weekday', 'line time weekday'
TAKEN = FIELDS + '\n1 ECC9074500 7\n'
USAGE = {'nw-dates': 'usage: nw-dates [--fields] [--offset MINUTES] [FILE]; nw-dates --help says more',
         'nw-section': 'usage: nw-section [FILE]; nw-section --help says more'}
VERSION = ' ' + calls.version() + '\n'

RETURNS = 'lines that end with CR LF: %d, the first of them line %d; they are refused, as LF alone has to end a line'
MARK = 'line 1 begins with a byte order mark, EF BB BF: it is refused, as a line has to begin with its digits'
WIDE = 'the input begins with a byte order mark of UTF-16: its lines are refused, as they have to be plain ASCII'
EMPTY = 'the input is empty: there is no line'
LONG = 'the input has more than 65536 bytes: none of its lines is read'
LONG_SECTION = 'the input has more than 65536 bytes, and a section has at most 4096'
NO_WORD, MINUTES = '%s: there is no such word', '%s: MINUTES have to be a whole number from -720 to 840'
WANTED, TWICE = '--offset: MINUTES have to follow', '--offset: it is given already'
ANOTHER = '%s: there is a FILE already, and one is read'
ANOTHER_SECTION = '%s: there is a FILE already, and one section is read'
NO_FILE, FOLDERS = "%s can't be opened: No such file or directory", "%s can't be read: Is a directory"
NOT_WRITTEN = "the output can't be written: "


def refused(number, *rows):
    """The report of lines that are refused, or of rows before them."""
    return FIELDS + '\n' + ''.join('%d refused %d\n' % (at, number) for at in rows)


# ---- input and words: what goes in, the status, the whole output, what is said

DATES = [
    ([], LINE, 0, TAKEN, []),
    ([], LINE[:-1], 0, TAKEN, []),
    ([], LINE + b'11/13/2024 00:00:00', 1, TAKEN + '2 refused 20\n', []),
    ([], b'', 0, FIELDS + '\n', [EMPTY]),
    ([], b'\n', 1, refused(24, 1), []),
    ([], b'\n' + LINE, 1, refused(24, 1) + '2 ECC9074500 7\n', []),
    ([], b' ' + LINE, 1, refused(24, 1), []),
    ([], LINE[:-1] + b' \n', 1, refused(24, 1), []),
    ([], b'\0' + LINE, 1, refused(24, 1), []),
    ([], b'3/11/2024 07:45:00\n', 1, refused(24, 1), []),
    ([], b'29/02/1900 00:00:00\n', 1, refused(20, 1), []),
    ([], LINE.replace(b'\n', b'\r\n'), 1, refused(24, 1), [RETURNS % (1, 1)]),
    ([], LINE[:-1] + b'\r', 1, refused(24, 1), [RETURNS % (1, 1)]),
    ([], b'\r\n', 1, refused(24, 1), [RETURNS % (1, 1)]),
    ([], LINE + LINE[:-1] + b'\r\n' + b'\n\r\n', 1, TAKEN + '2 refused 24\n3 refused 24\n4 refused 24\n', [RETURNS % (2, 2)]),
    ([], b'\r' + LINE, 1, refused(24, 1), []),
    ([], b'\xEF\xBB\xBF' + LINE + LINE, 1, refused(24, 1) + '2 ECC9074500 7\n', [MARK]),
    ([], b'\xEF\xBB\xBF' + LINE[:-1] + b'\r\n', 1, refused(24, 1), [MARK, RETURNS % (1, 1)]),
    ([], b'\xEF\xBB\xBF', 1, refused(24, 1), [MARK]),
    ([], b'\xEF\xBB', 1, refused(24, 1), []),
    ([], LINE.decode().encode('utf-16'), 1, refused(24, 1, 2), [WIDE]),
    ([], b'\xFE\xFF' + LINE.decode().encode('utf-16-be'), 1, refused(24, 1), [WIDE]),
    ([], b'x' * MOST, 1, refused(24, 1), []),
    ([], b'x' * (MOST + 1), 1, refused(22, 0), [LONG]),
    ([], b'\n' * MOST, 1, refused(24, *range(1, MOST + 1)), []),
    ([], b'\r\n' * MOST, 1, refused(22, 0), [LONG]),
    (['--offset', '0'], LINE, 0, TAKEN, []),
    (['--offset', '-0'], LINE, 0, TAKEN, []),
    (['--offset', '480'], LINE, 0, FIELDS + '\n1 ECC8234500 7\n', []),
    (['--offset', '+840'], LINE, 0, FIELDS + '\n1 ECC8174500 7\n', []),
    (['--offset', '-720'], LINE, 0, FIELDS + '\n1 ECC9194500 7\n', []),
    (['--offset', '480'], b'01/03/1900 07:59:59\n01/03/1900 08:00:00\n', 1, refused(20, 1) + '2 3AE7000000 4\n', []),
    (['--offset', '480'], b'', 0, FIELDS + '\n', [EMPTY]),
    (['--offset', '480'], LINE[:-1] + b'\r\n', 1, refused(24, 1), [RETURNS % (1, 1)]),
    (['--offset', '480'], b'\n' * MOST, 1, refused(24, *range(1, MOST + 1)), []),
    (['--offset', '480'], b'\n' * (MOST + 1), 1, refused(22, 0), [LONG]),
    (['--fields'], b'ECC9074500\n', 0, TIMES + '\n1 03/11/2024 07:45:00 7\n', []),
    (['--fields'], b'ecc9074500', 0, TIMES + '\n1 03/11/2024 07:45:00 7\n', []),
    (['--fields', '--offset', '480'], b'ECC8234500\n', 0, TIMES + '\n1 03/11/2024 07:45:00 7\n', []),
    (['--offset', '-480', '--fields'], b'ECC9074500\n', 0, TIMES + '\n1 02/11/2024 23:45:00 6\n', []),
    (['--fields'], b'FFFFFFFFFF\n3AE6000000\nECC9240000\nFFFF235959\n', 1,
     TIMES + '\n1 refused 18\n2 refused 20\n3 refused 20\n4 22/04/2038 23:59:59 4\n', []),
    (['--fields', '--offset', '1'], b'FFFF235959\n', 1, TIMES + '\n1 refused 20\n', []),
    (['--fields'], b'ECC907450\nECC90745000\n0xECC90745\nECC90745 0\n\nGCC9074500\n', 1,
     TIMES + '\n' + ''.join('%d refused 24\n' % at for at in range(1, 7)), []),
    (['--fields'], LINE, 1, TIMES + '\n1 refused 24\n', []),
    (['--fields'], b'ECC9074500\r\n', 1, TIMES + '\n1 refused 24\n', [RETURNS % (1, 1)]),
    (['--fields'], b'\xEF\xBB\xBFECC9074500\n', 1, TIMES + '\n1 refused 24\n', [MARK]),
    (['--fields'], b'', 0, TIMES + '\n', [EMPTY]),
    (['--fields'], b'\n' * MOST, 1, TIMES + '\n' + refused(24, *range(1, MOST + 1))[19:], []),
    (['--fields'], b'\n' * (MOST + 1), 1, TIMES + '\n0 refused 22\n', [LONG]),
    (['-'], LINE, 0, TAKEN, []),
    (['times'], b'', 0, TAKEN, []),
    (['--', 'times'], b'', 0, TAKEN, []),
    (['--', '--fields'], b'', 0, FIELDS + '\n1 ECD3000000 3\n', []),
    (['times', '--offset', '480'], b'', 0, FIELDS + '\n1 ECC8234500 7\n', []),
    (['--version'], b'', 0, 'nw-dates' + VERSION, []),
    (['none'], b'', 2, '', [NO_FILE % 'none']),
    ([''], b'', 2, '', [NO_FILE % '(an empty word)']),
    (['folder'], b'', 2, '', [FOLDERS % 'folder']),
    (['\x1B[2J\x07演\u202E'], b'', 2, '', [NO_FILE % '\\x1B[2J\\x07演\\xE2\\x80\\xAE']),
    (['x' * 4000], b'', 2, '', ["%s.. can't be opened: File name too long" % ('x' * 1004)]),
]
GOOD = second_sections.printed(0xFD, 0xC29, 17, 1, 3, 255, bytes(300))
SECTIONS = [
    ([], GOOD, 0, '3 300\n', []),
    (['good'], b'', 0, '3 300\n', []),
    (['-'], GOOD, 0, '3 300\n', []),
    (['--', 'good'], b'', 0, '3 300\n', []),
    ([], b'', 1, 'refused 1\n', ['the section is shorter than 12 bytes']),
    ([], GOOD[:11], 1, 'refused 1\n', ['the section is shorter than 12 bytes']),
    ([], b'\xEF\xBB\xBF' + GOOD, 1, 'refused 2\n', ['the table is of another kind']),
    ([], b'\xFD\x31' + GOOD[2:], 1, 'refused 3\n', ['a fixed bit of the heading is 0']),
    ([], b'\xFD\xF0\x08' + GOOD[3:], 1, 'refused 4\n', ['section_length is below 9 or above 4,093']),
    ([], GOOD + b'\n', 1, 'refused 5\n', ['the section is not as long as its section_length says']),
    ([], GOOD + GOOD, 1, 'refused 5\n', ['the section is not as long as its section_length says']),
    ([], second_sections.printed(0xFD, 0, 0, 1, 2, 1, b''), 1, 'refused 6\n', ['the section number is above the last']),
    ([], GOOD[:-1] + bytes([GOOD[-1] ^ 1]), 1, 'refused 7\n', ["the section's CRC_32 is wrong"]),
    ([], (GOOD + bytes(MOST))[:MOST], 1, 'refused 5\n', ['the section is not as long as its section_length says']),
    ([], GOOD + bytes(MOST), 1, 'refused 22\n', [LONG_SECTION]),
    ([], bytes(MOST + 1), 1, 'refused 22\n', [LONG_SECTION]),
    (['--version'], b'', 0, 'nw-section' + VERSION, []),
    (['none'], b'', 2, '', [NO_FILE % 'none']),
    (['folder'], b'', 2, '', [FOLDERS % 'folder']),
]

# ---- wrong usage: nothing is read, and nothing written

MISUSED = {
    'nw-dates': [
        *(([word], NO_WORD % word) for word in ('--field', '--Fields', '--offset=480', '--helpme', '-h', '-x', '---', '-480')),
        *((['--offset', minutes], MINUTES % minutes) for minutes in (
            '841', '-721', '4x', 'x', '480 ', ' 480', '4 8', '1e2', '+', '-', '--1', '+-1', '0x10', '8.5', '−480', '9' * 40,
            '4294967296', '18446744073709552096', '+0800', '0000', '--fields', 'times')),
        (['--offset', ''], MINUTES % '(an empty word)'), (['--offset'], WANTED), (['times', '--offset'], WANTED),
        (['--offset', '480', '--offset', '480'], TWICE), (['times', 'other'], ANOTHER % 'other'), (['times', '480'], ANOTHER % '480'),
        (['-', '-'], ANOTHER % '-'), (['--', 'times', '--fields'], ANOTHER % '--fields'), (['--bad', '--help'], NO_WORD % '--bad'),
        (['-\x1B[2J'], NO_WORD % '-\\x1B[2J')],
    'nw-section': [
        *(([word], NO_WORD % word) for word in ('--fields', '--offset', '-h', '-x', '--help=1')),
        (['good', 'more'], ANOTHER_SECTION % 'more'), (['good', ''], ANOTHER_SECTION % '(an empty word)')],
}


def run(command, words, data=b'', **more):
    """Runs a command in the scratch folder. Answers its status, its output and what it says on standard error."""
    given = {'input': data} if 'stdin' not in more else {}
    more.setdefault('stdout', subprocess.PIPE)
    done = subprocess.run([*RUNNER, os.path.join(FOLDER, command), *words], stderr=subprocess.PIPE, timeout=SECONDS, check=False,
                          env={**os.environ, 'LC_ALL': 'C.UTF-8'}, **given, **more)
    return done.returncode, (done.stdout or b'').decode(), done.stderr.decode()


def expect(what, got, status, output, said):
    """Notes a fault unless status, output and standard error are these."""
    global tried
    tried += 1
    wanted = status, output, ''.join(line + '\n' for line in said)
    for name, here, there in zip(('status', 'output', 'standard error'), got, wanted):
        if here != there:
            wrong.append('%.200s: %s %.300r and not %.300r' % (what, name, here, there))


def says(command, sentences):
    return ['%s: %s' % (command, sentence) for sentence in sentences]


def try_tables():
    for command, table in (('nw-dates', DATES), ('nw-section', SECTIONS)):
        for words, data, status, output, said in table:
            expect('%s %r on %d bytes, %.60r' % (command, words, len(data), data), run(command, words, data), status, output,
                   says(command, said))
        for words, sentence in MISUSED[command]:
            expect('%s %r' % (command, words), run(command, words, LINE), 2, '', [*says(command, [sentence]), USAGE[command]])


def try_streams():
    """Input and output that are folders, full, closed, or a pipe that nobody reads."""
    folder = os.open('folder', os.O_RDONLY)
    for command, data in (('nw-dates', LINE), ('nw-dates', b'\n' * MOST), ('nw-section', GOOD), ('nw-section', b'')):
        ways = [[], ['--help'], ['--version']] + ([['--fields'], ['--offset', '480']] if command == 'nw-dates' else [])
        for words in ways:
            with open('/dev/full', 'wb') as full:
                expect('%s %r on a full disk' % (command, words), run(command, words, data, stdout=full), 2, '',
                       says(command, [NOT_WRITTEN + 'No space left on device']))
            expect('%s %r, output closed' % (command, words), run(command, words, data, preexec_fn=lambda: os.close(1)), 2, '',
                   says(command, [NOT_WRITTEN + 'Bad file descriptor']))
            unread, written = os.pipe()
            os.close(unread)
            expect('%s %r, output not read' % (command, words), run(command, words, data, stdout=written), 2, '',
                   says(command, [NOT_WRITTEN + 'Broken pipe']))
            os.close(written)
        expect(command + ' on a folder', run(command, [], stdin=folder), 2, '', says(command, [FOLDERS % 'standard input']))
        expect(command + ', input closed', run(command, [], stdin=None, preexec_fn=lambda: os.close(0)), 2, '',
               says(command, ["standard input can't be read: Bad file descriptor"]))
    expect('a file, output closed', run('nw-dates', ['times'], preexec_fn=lambda: os.close(1)), 2, '',
           says('nw-dates', [NOT_WRITTEN + 'Bad file descriptor']))
    os.close(folder)


def try_help():
    """--help says how the command is used, and each of its words and statuses."""
    for command, words in (('nw-dates', ['--fields', '--offset MINUTES', 'FILE', '-720 to 840']), ('nw-section', ['FILE'])):
        status, output, said = run(command, ['--help'])
        expect(command + ' --help', (status, output[:7 + len(command)], said), 0, 'usage: ' + command, [])
        for word in [*words, '--help', '--version', 'Exit status: 0, ', '; 1, ', '; 2, ']:
            if word not in ' '.join(output.split()):
                wrong.append('%s --help does not say %s' % (command, word))


# ---- the proved programs' own files, and a second program


def try_proved():
    for command, crate in (('nw-dates', 'program_dates'), ('nw-section', 'program_section')):
        data, output = (open(os.path.join(CRATES, crate, name), 'rb').read() for name in ('stdin', 'stdout'))
        expect(command + ' on the file of ' + crate, run(command, [], data), int(b'refused' in output), output.decode(), [])


def field_row(line, offset):
    field = second_times.time_read_text(line, offset)
    local = second_times.time_unpack(field, offset)
    return '%010X %d' % (field, (second_times.DAY_OF[local[1:4]] + 2) % 7 + 1)


def time_row(line, offset):
    if len(line) != 10:
        raise calls.Refused(24)
    year, month, day, *clock = second_times.time_unpack(int(line, 16), offset)[1:]
    return '%02d/%02d/%04d %02d:%02d:%02d %d' % (day, month, year, *clock, (second_times.DAY_OF[year, month, day] + 2) % 7 + 1)


def row(way, line, offset):
    try:
        return way(line, offset)
    except calls.Refused as refusal:
        return 'refused %d' % refusal.args


def try_second():
    """Times and fields by chance, at the ends of the range of days too, at offsets by chance."""
    for offset in (-720, -719, -1, 0, 1, 330, 480, 839, 840):
        for header, words, way in ((FIELDS, [], field_row), (TIMES, ['--fields'], time_row)):
            lines = []
            for _ in range(300):
                day = chance.choice((15078, 15079, 15080, 65534, 65535, chance.randrange(15079, 65536)))
                clock = chance.choice((0, 59, chance.randrange(60))), chance.choice((0, 59, chance.randrange(62)))
                hour = chance.choice((0, 23, chance.randrange(25)))
                date = second_times.DATES[day]
                lines.append(b'%04X%02d%02d%02d' % (day, hour, *clock) if words else
                             b'%02d/%02d/%04d %02d:%02d:%02d' % (*date[::-1], hour, *clock))
            rows = [row(way, line, offset) for line in lines]
            output = header + '\n' + ''.join('%d %s\n' % pair for pair in enumerate(rows, 1))
            expect('%r at %d' % (words, offset), run('nw-dates', [*words, '--offset', str(offset)], b'\n'.join(lines)),
                   int('refused' in output), output, [])


with tempfile.TemporaryDirectory() as scratch:
    os.chdir(scratch)
    os.mkdir('folder')
    for name, data in (('times', LINE), ('--fields', b'13/11/2024 00:00:00\n'), ('other', LINE), ('good', GOOD)):
        with open(name, 'wb') as file:
            file.write(data)
    for part in try_tables, try_streams, try_help, try_proved, try_second:
        part()
    os.chdir('/')
if wrong or tried < 180:
    sys.exit('%s\n%s: %d faults in %d answers' % ('\n'.join(wrong), HOW, len(wrong), tried))
print('%s: %d answers, each with its sentence and its status' % (HOW, tried))
