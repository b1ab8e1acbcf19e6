"""What `nw` says, writes and ends with, slip by slip, and on captures of invented head ends: nw_slips.py HOW PROGRAM.."""
# SPDX-License-Identifier: MIT
import copy
import json
import os
import re
import shlex
import subprocess
import sys
import tempfile

import make_captures as make
import stream_slips as streams
from make_captures import line

HOW, PROGRAM = sys.argv[1], sys.argv[2:]
SECONDS = 300
wrong, tried = [], 0
ROOT = os.path.join(os.path.dirname(os.path.abspath(__file__)), os.pardir)
with open(os.path.join(ROOT, 'VERSION'), encoding='ascii') as version:
    VERSION = version.read()
USAGE = 'usage: nw COMMAND ..; nw --help says more'
SHOW_USAGE = 'usage: nw show [--bytes | --json | --html FILE [--replace]] [--auxiliary BITS] [--offset OFFSET] CAPTURE; nw show --help says more'
OFFSETS = 'nw show: %s: an OFFSET has to be a whole number of minutes from -720 to 840, or as +08:00'
NOT_WRITTEN = "the output can't be written: "


def run(words, data=b'', where='C.UTF-8', **more):
    """Status, output and standard error, as bytes."""
    given = {'input': data} if 'stdin' not in more else {}
    more.setdefault('stdout', subprocess.PIPE)
    done = subprocess.run([*PROGRAM, *words], stderr=subprocess.PIPE, timeout=SECONDS, check=False, env={**os.environ, 'LC_ALL': where},
                          **given, **more)
    return done.returncode, done.stdout or b'', done.stderr


def expect(what, got, status, output, said):
    """Notes a fault unless status, output (None for any) and the lines on standard error are these."""
    global tried
    tried += 1
    wanted = status, output, ''.join(part + '\n' for part in said).encode()
    for name, here, there in zip(('status', 'output', 'standard error'), got, wanted):
        if there is not None and here != there:
            wrong.append('%.200s: %s %.300r and not %.300r' % (what, name, here, there))


def expect_lines(what, words, data, status, lines, **more):
    """Notes a fault unless the output has these lines, in this order, and nothing in it steers a terminal."""
    got = run(words, data, **more)
    expect(what, got, status, None, [])
    told = got[1].decode('utf-8').split('\n')
    at = 0
    for wanted in lines:
        if wanted not in told[at:]:
            wrong.append('%s: it does not say %r after %r' % (what, wanted, told[at - 1] if at else 'its begin'))
            return told
        at = told.index(wanted, at) + 1
    if any(ord(c) < 0x20 and c != '\n' or 0x7F <= ord(c) < 0xA0 or c in '\u202A\u202E\u2066\u2028' for c in got[1].decode('utf-8')):
        wrong.append('%s: something in it steers a terminal' % what)
    return told


# ---- wrong usage: nothing is read, and nothing written


def try_usage():
    command = 'nw: %s: there is no such command'
    for words, said in [([], ['nw: COMMAND is wanted', USAGE]), (['shwo'], [command % 'shwo', USAGE]), ([''], [command % '(an empty word)', USAGE]),
                        (['--halp'], [command % '--halp', USAGE]), (['\x1B[2J'], [command % '\\x1B[2J', USAGE]),
                        (['help', 'shwo'], ['nw: shwo: there is no such topic; there are show, screen, compare, form, make, salvage, dates, section and refusals', USAGE]),
                        (['help', 'show', 'more'], ['nw: more: one TOPIC is told of at a time', USAGE]),
                        (['show'], ['nw show: CAPTURE is wanted: a file\'s name, or - for standard input', SHOW_USAGE]),
                        (['show', '--byte', 'good'], ['nw show: --byte: there is no such word', SHOW_USAGE]),
                        (['show', '-x'], ['nw show: -x: there is no such word', SHOW_USAGE]),
                        (['show', 'good', 'more'], ['nw show: more: there is a CAPTURE already, and one is read', SHOW_USAGE]),
                        (['show', '--', 'good', '--bytes'], ['nw show: --bytes: there is a CAPTURE already, and one is read', SHOW_USAGE]),
                        (['show', '--bytes', '--json', 'good'], ['nw show: --json: one of --bytes, --json and --html is given already', SHOW_USAGE]),
                        (['show', '--bytes', '--bytes', 'good'], ['nw show: --bytes: one of --bytes, --json and --html is given already', SHOW_USAGE]),
                        (['show', '--html', 'page', '--html', 'page', 'good'], ['nw show: --html: one of --bytes, --json and --html is given already', SHOW_USAGE]),
                        (['show', '--replace', 'good'], ['nw show: --replace: it goes with --html', SHOW_USAGE]),
                        (['show', '--html', './good', '--replace', 'good'], ['nw show: ./good: this is the CAPTURE, and it would be lost', SHOW_USAGE]),
                        (['show', 'good', '--html'], ['nw show: --html: a FILE has to follow, or - for standard output', SHOW_USAGE]),
                        (['show', 'good', '--offset'], ['nw show: --offset: an OFFSET has to follow', SHOW_USAGE]),
                        (['show', '--offset', '1', '--offset', '2', 'good'], ['nw show: --offset: it is given already', SHOW_USAGE])]:
        expect('nw %r' % words, run(words), 2, b'', said)
    for offset in ('841', '-721', '+14:01', '-12:01', '08:00', '+8:00', '+08:60', '+0800', '+08:0', '+08:000', 'x', '480 ', ' 480', '1e2', '--1',
                   '0x10', '8.5', '9' * 40, '18446744073709552096', '+', '+99:99', 'good', '--json'):
        expect('offset ' + offset, run(['show', '--offset', offset, 'good']), 2, b'', [OFFSETS % offset, SHOW_USAGE])
    expect('an empty offset', run(['show', '--offset', '', 'good']), 2, b'', [OFFSETS % '(an empty word)', SHOW_USAGE])


def try_files():
    os.mkdir('folder')
    for name, said in (('none', "none can't be opened: No such file or directory"), ('folder', "folder can't be read: Is a directory"),
                       ('x' * 4000, "%s.. can't be opened: File name too long" % ('x' * 1004)), ('', "(an empty word) can't be opened: No such file or directory"),
                       ('\x1B[2J\u202E', "\\x1B[2J\\xE2\\x80\\xAE can't be opened: No such file or directory")):
        for way in [], ['--json'], ['--bytes']:
            expect('%r %r' % (name, way), run(['show', *way, name]), 2, b'', ['nw show: ' + said])
    expect('input closed', run(['show', '-'], stdin=None, preexec_fn=lambda: os.close(0)), 2, b'',
           ["nw show: standard input can't be read: Bad file descriptor"])
    empty = ['all in all: 0 bytes; sections: 0 taken, 0 held already, 0 refused; 0 bytes skipped', 'the capture is empty']
    expect_lines('an empty capture', ['show', '-'], b'', 1, ['capture standard input', *empty])
    expect_lines('junk', ['show', '-'], b'x' * 5000, 1, ['bytes 0 to 4999 are skipped: the table is of another kind (refusal 2)', 'no table has come'])
    expect_lines('a byte', ['show', '-'], b'\xFD', 1, ['bytes 0 to 0 are skipped: the section is shorter than 12 bytes (refusal 1)'])
    expect_lines('a name with signs', ['show', 'a "quoted"\x1B name'], b'', 0, ['capture a "quoted"\\x1B name', make.ALL_WELL])
    told = json.loads(run(['show', '--json', 'a "quoted"\x1B name'])[1])
    expect('a name in JSON', (0, told['capture'].encode(), b''), 0, b'a "quoted"\\x1B name', [])


def try_streams():
    """Output that is full, closed, or a pipe that nobody reads."""
    for words in ['show', 'good'], ['show', '--bytes', 'good'], ['show', '--json', 'good'], ['show', '--html', '-', 'good'], ['show', '--html', '/dev/null', 'good'], ['show', '--help'], ['--help'], ['--version'], ['show', '-'], ['help', 'refusals']:
        name = 'nw: ' if words[0] != 'show' else 'nw show: '
        with open('/dev/full', 'wb') as full:
            expect('%r on a full disk' % words, run(words, stdout=full), 2, b'', [name + NOT_WRITTEN + 'No space left on device'])
        expect('%r, output closed' % words, run(words, preexec_fn=lambda: os.close(1)), 2, b'', [name + NOT_WRITTEN + 'Bad file descriptor'])
        unread, written = os.pipe()
        os.close(unread)
        expect('%r, output not read' % words, run(words, stdout=written), 2, b'', [name + NOT_WRITTEN + 'Broken pipe'])
        os.close(written)


def try_help():
    expect('version', run(['--version']), 0, b'nw ' + VERSION.encode(), [])
    expect('help show', run(['help', 'show']), 0, run(['show', '--help'])[1], [])
    expect('help', run(['help']), 0, run(['--help'])[1], [])
    for words, needed in ((['--help'], ['nw show CAPTURE', 'nw screen CAPTURE', 'nw compare A B', 'nw form CAPTURE', 'nw make FORM STREAM', 'nw salvage IN OUT', 'nw dates', 'nw section', 'nw help TOPIC',
                                        'nw help form', 'nw help refusals', '--version']),
                          (['show', '--help'], ['CAPTURE', '--bytes', '--json', '--html FILE', '--replace', '--progress', '--offset OFFSET', '-720 to 840', '+08:00'])):
        output = ' '.join(run(words)[1].decode().split())
        for word in [*needed, 'Exit status: 0, ', '; 1, ', '2, wrong usage']:
            if word not in output:
                wrong.append('%r does not say %s' % (words, word))
    names = re.findall(r'^  nw ([a-z]+) ', run(['--help'])[1].decode(), re.M)
    for words in ['--help'], *(['help', name] for name in (*names, 'refusals') if name != 'help'):
        wide = [part for part in run(words)[1].decode().split('\n') if len(part) > 80 and not part.startswith('usage: ')]
        expect('%r on a terminal of 80 columns' % words, (0, '\n'.join(wide).encode(), b''), 0, b'', [])


def try_small():
    """The small programs under one roof: tests/check-commands has their whole tables."""
    line_in = b'03/11/2024 07:45:00\n'
    dates = 'usage: nw dates [--fields] [--offset MINUTES] [FILE]; nw dates --help says more'
    for words, data, status, output, said in (
            (['dates'], line_in, 0, b'line field weekday\n1 ECC9074500 7\n', []),
            (['dates', '--offset', '480'], line_in, 0, b'line field weekday\n1 ECC8234500 7\n', []),
            (['dates', '--fields'], b'ECC9074500\n', 0, b'line time weekday\n1 03/11/2024 07:45:00 7\n', []),
            (['dates'], b'11/13/2024 00:00:00\n', 1, b'line field weekday\n1 refused 20\n', []),
            (['dates', '--offset', '+0800'], b'', 2, b'', ['nw dates: +0800: MINUTES have to be a whole number from -720 to 840', dates]),
            (['dates', 'none'], b'', 2, b'', ["nw dates: none can't be opened: No such file or directory"]),
            (['section', 'good'], b'', 0, b'0 3\n', []),
            (['section'], b'x', 1, b'refused 1\n', ['nw section: the section is shorter than 12 bytes']),
            (['section', '-x'], b'', 2, b'', ['nw section: -x: there is no such word', 'usage: nw section [FILE]; nw section --help says more']),
            (['section', '--version'], b'', 0, b'nw section ' + VERSION.encode(), [])):
        expect('%r' % words, run(words, data), status, output, said)
    for name in 'dates', 'section', 'compare', 'screen':
        expect('help ' + name, run(['help', name]), 0, run([name, '--help'])[1], [])


def try_refusals():
    """`nw help refusals` has each refusal of the header, with the header's words."""
    with open(os.path.join(ROOT, 'include', 'neapwillow.h'), encoding='ascii') as file:
        header = file.read()
    numbers = dict(re.findall(r'\b(NW_\w+) = (\d+)', re.search(r'enum nw_refusal \{(.*?)\};', header, re.S)[1]))
    words = re.findall(r'case (NW_\w+): return "(.*)";', header)
    wanted = ['%3d  %s' % pair for pair in sorted((int(numbers[name]), text) for name, text in words) if pair[0] != 0]
    output = run(['help', 'refusals'])
    expect('help refusals', output, 0, None, [])
    told = [part for part in output[1].decode('ascii').split('\n') if re.match(r' *\d+  ', part)]
    expect('the refusals', (0, '\n'.join(told).encode(), b''), 0, '\n'.join(wanted).encode(), [])


# ---- captures


def try_captures():
    for name, made in make.CAPTURES.items():
        data, words, status, lines = made()
        if len(PROGRAM) > 1:
            lines = [fact for fact in lines if '|' not in fact]  # an emulator's C library may have no conversions
        expect_lines(name, ['show', *words, '-'], data, status, lines)
        bytes_told = run(['show', '--bytes', *words, '-'], data)
        expect(name + ' in bytes', bytes_told, status, None, [])
        told = run(['show', '--json', *words, '-'], data)
        expect(name + ' in JSON', told, status, None, [])
        summed = json.loads(told[1].decode('ascii'))['sum']
        expect(name + ' summed', (0, str((summed['bytes'], summed['status'])).encode(), b''), 0, str((len(data), status)).encode(), [])


def try_bench():
    """docs/BENCH.md: each block of output is what the command in the block before it writes, or lines of that in a row."""
    with open(os.path.join(ROOT, 'docs', 'BENCH.md'), encoding='utf-8') as file:
        blocks = [re.sub('^    ', '', block, flags=re.M) for block in re.findall(r'(?:^    .*\n)+', file.read(), flags=re.M)]
    subprocess.run([sys.executable, '-B', os.path.join(ROOT, 'tests', 'make_captures.py'), 'samples'], check=True)
    shown = []
    for block in blocks[1:]:  # the first writes the samples
        if block.startswith('nw '):
            words, _, kept = block[3:].partition(' > ')
            output = run(shlex.split(words))[1].decode()
            if kept:
                with open(kept.strip(), 'w', encoding='utf-8') as file:
                    file.write(output)
            continue
        if '\n' + block not in '\n' + output:
            wrong.append('docs/BENCH.md: nw %s does not write %.300r' % (words.strip(), block))
        shown.append(block)
    if len(shown) < 11:
        wrong.append('docs/BENCH.md shows few commands')


REFUSED = '      ^ refused: %s (refusal %d, %s at byte %d of the body)'


def try_packets():
    """Transport streams: each loss is told, and counted; the status is 0 only where nothing is lost, skipped or missing."""
    for number, (data, status, events, counted, _) in enumerate(streams.streams()):
        losses = sum(told.startswith('packet at byte') for _, told in events)
        lines = [*(told for _, told in events), counted + '; losses: %d' % losses]
        expect_lines('stream %d' % number, ['show', '-'], data, 1 if events else status, lines)
        told = run(['show', '--json', '-'], data)
        summed = json.loads(told[1].decode('ascii'))
        here = [(event['event'], event['at']) for event in summed['events'] if event['event'] in ('lost', 'skipped')]
        there = [(('lost' if told.startswith('packet') else 'skipped'), int(re.search(r'(?:at byte|^bytes) (\d+)', told)[1])) for _, told in events]
        expect('stream %d in JSON' % number, (told[0], str(here).encode(), b''), 1 if events else status, str(there).encode(), [])
        numbers = tuple(summed['sum']['packets'][name] for name in ('ours', 'repeats', 'others', 'errors', 'refused'))
        expect('stream %d counted' % number, (0, streams.counted(*numbers).encode(), b''), 0, counted.encode(), [])
    expect_compared('a stream and its sections', streams.sent(streams.ONE, streams.TWO), [streams.ONE, streams.TWO], 0, ['differences: 0'])


def try_refused():
    """Bodies that are refused: the field, why, where, and what is left unread; the fields before it are told."""
    index = make.Index([make.DRILL, make.DRILL], 0)
    body = index.body()
    at = 3 + 18 + 2  # the start of the first message
    for place, new, label, name, number, why in (
            (at, 'ECC8245500', 'start', 'EBM_start_time', 20, 'the day or the time is impossible or out of range'),
            (at, 'FFFFFFFFFF', 'start', 'EBM_start_time', 18, 'a decimal digit is above 9'),
            (at + 15, '39', 'level', 'EBM_level', 19, 'a value is outside its set'),
            (at + 15, '04', 'class', 'EBM_class', 19, 'a value is outside its set'),
            (3, '73', 'reserved bits', 'reserved', 17, 'a reserved bit is wrong')):
        data = bytes.fromhex(new)
        changed = body[:place] + data + body[place + len(data):]
        lines = ['  message 1 of 2', line(1, label, data.hex(' ').upper()), REFUSED % (why, number, name, place)]
        lines += [line(0, 'verdict', 'refused: %s (refusal %d at byte %d of the body)' % (why, number, place))]
        expect_lines('%s at %d' % (new, place), ['show', '-'], b''.join(make.cut(make.INDEX, 0, 0, changed)), 1, lines)
        told = run(['show', '--bytes', '-'], b''.join(make.cut(make.INDEX, 0, 0, changed)))[1].decode()
        if '  %7d  ^ refused here: %s (refusal %d, %s)\n' % (place, why, number, name) not in told:
            wrong.append('%s at %d is not marked among the bytes' % (new, place))
    content = make.Content(make.DRILL, [('eng', 0, 'x', '', [])], 0)
    sections = b''.join(make.cut(make.CONTENT, 0x1234, 0, content.body()))
    expect_lines('another extension', ['show', '-'], sections, 1, [line(0, 'verdict', 'refused: the extension is not the CRC-16 of the identifier '
                 '(refusal 23); its identifier\'s is %04X' % content.extension)])
    data = make.counted(b'eng\xF8' + make.counted(b'x', 2) + b'\0\xF1\x09' + make.counted(b'picture', 4), 4)
    wide = make.digits(content.identifier) + b'\xF1' + data + b'\0\0'
    sections = b''.join(make.cut(make.CONTENT, content.extension, 0, wide))
    expect_lines('lengths of 32 bits', ['show', '-'], sections, 1, [line(0, '', 'with auxiliary lengths of 32 bits it is accepted: nw show --auxiliary 32')])
    expect_lines('lengths of 32 bits, told', ['show', '--auxiliary', '32', '-'], sections, 1, [
        line(1, 'file 1', 'type 9, ' + make.opaque(b'picture')), line(0, 'verdict', 'accepted')])
    for bits in '16', '33', '024', '', '32x':
        expect('auxiliary ' + bits, run(['show', '--auxiliary', bits, 'good']), 2, b'', ['nw show: %s: BITS have to be 24 or 32' % (bits or '(an empty word)'), SHOW_USAGE])
    expect('auxiliary twice', run(['show', '--auxiliary', '24', '--auxiliary', '24', 'good']), 2, b'', ['nw show: --auxiliary: it is given already', SHOW_USAGE])
    expect('auxiliary alone', run(['show', '--auxiliary']), 2, b'', ['nw show: --auxiliary: BITS have to follow, 24 or 32', SHOW_USAGE])
    expect_lines('bytes left over', ['show', '-'], make.section(make.INDEX, 0, 0, 0, 0, b'\0\0\0\1\2'), 1,
                 [line(0, 'left over', '01 02'), '    ^ refused: bytes are left after the signature (refusal 16, (left over) at byte 3 of the body)'])
    expect_lines('an empty body', ['show', '-'], make.section(make.INDEX, 0, 0, 0, 0, b''), 1,
                 [line(0, 'messages', 'no byte'), '    ^ refused: the body ends too early (refusal 14, EBM_number at byte 0 of the body)'])


def try_gathering():
    """Contradictions, more tables than are held, versions without end."""
    one, other = (make.section(make.INDEX, 0, 0, 0, 0, data) for data in (b'\0\0\0', b'\0\0\1'))
    expect_lines('a contradiction', ['show', '-'], one + other, 1, [
        'section at byte 15, number 0 of index table 0000, version 0 is refused: two payloads contradict each other under one section number (refusal 11)',
        line(0, 'verdict', "not whole: two payloads contradict each other under one section number (refusal 11)")])
    content = make.Content(make.DRILL, [('eng', 0, 'x' * 90, '', []), ('zho', 0, 'y', '', [])], 0)
    first, second, third = content.sections(60)
    front = [line(0, 'missing', '1'), line(0, 'front of the body', '60 bytes, those before section 1, as far as they can be read:'),
             line(0, 'identifier', make.DRILL.identifier), line(1, 'length', '00 00 00 62'),
             '      ^ refused: the body ends too early (refusal 14, multilingual_content_length at byte 19 of the body)',
             line(0, 'not read', '37 bytes after it, from byte 23 of the body on'),
             line(0, 'verdict', 'not whole: a section is missing (refusal 13, number 1)'), 'tables: 1, of which 0 whole and 0 accepted']
    expect_lines('a front', ['show', '-'], first + third, 1, front)
    expect_lines('no front', ['show', '-'], second + third, 1, [line(0, 'missing', '0'), line(0, 'verdict', 'not whole: a section is missing '
                                                                '(refusal 13, number 0)')])
    many = b''.join(make.section(make.CERTIFICATE, n, 0, 0, 0, b'\0\0\0\0') for n in range(513))
    expect_lines('513 tables', ['show', '-'], many, 1, [
        'section at byte 8192, number 0 of certificate table 0200, version 0 is left out: it belongs to one more table than the 512 that are held',
        'tables: 512, of which 512 whole and 512 accepted', make.NOT_WELL])
    turns = b''.join(make.section(make.INDEX, 0, n % 32, 0, 0, b'\0\0\0') for n in range(40))
    expect_lines('40 versions', ['show', '-'], turns, 0, [
        line(0, 'versions seen', '7 before these, %s, then 7' % ', '.join('%d (whole)' % (n % 32) for n in range(7, 39)))])


def try_texts():
    """Texts that would steer a terminal, that are no characters, and a terminal that hasn't them."""
    nasty = 'a\x1B[31m\x07\x9B\u202Eb\r\nc\td'
    content = make.Content(make.DRILL, [('eng', 2, nasty, '演练', [])], 0)
    index = make.Index([make.DRILL], 0)
    data = b''.join(index.sections() + content.sections())
    steer = "      (characters that steer a terminal, or that its set, %s, has not, are written as \\u{..})"
    expect_lines('a nasty text', ['show', '-'], data, 0, ['      | a\\u{1B}[31m\\u{7}\\u{9B}\\u{202E}b', '      | c\\u{9}d', steer % 'UTF-8', '      | 演练'])
    expect_lines('a plain terminal', ['show', '-'], data, 0, ['      | \\u{6F14}\\u{7EC3}', steer % 'ANSI_X3.4-1968'], where='C')
    bad = content.body().replace('演练'.encode(), b'\xFF\xC0\x80abc'[:6])
    expect_lines('no characters', ['show', '-'], b''.join(index.sections() + make.cut(make.CONTENT, content.extension, 0, bad)), 0,
                 ['      | \\xFF\\xC0\\x80abc', '      (bytes that are no character of the set: 3, written as \\xNN)'])
    strange = content.body().replace(b'eng\xFA', b'bod\xFC')
    expect_lines('a set without conversion', ['show', '-'], b''.join(index.sections() + make.cut(make.CONTENT, content.extension, 0, strange)), 0,
                 [line(1, 'character set', 'GB 16959-1997'), '      | \\xE6\\xBC\\x94\\xE7\\xBB\\x83',
                  '      (the C library has no conversion from this set: ASCII is shown, other bytes as \\xNN)'])


# ---- two captures


def write(name, *sections):
    with open(name, 'wb') as file:
        file.write(b''.join(sections))


def changed(thing, **fields):
    """A copy of a message or a table with other fields."""
    other = copy.copy(thing)
    other.__dict__.update(fields)
    return other


def expect_compared(what, a, b, status, lines, words=()):
    """Notes a fault unless just these lines are said of two captures."""
    write('a', *a)
    write('b', *b)
    begins = lines[-1] is None  # how the output begins
    said = ''.join(part + '\n' for part in ['A is a', 'B is b', *lines] if part is not None).encode()
    got = run(['compare', *words, 'a', 'b'])
    output = re.sub(rb', in \d+ fields\n', b'\n', got[1])
    expect(what, (got[0], output[:len(said)] if begins else output, got[2]), status, said, [])


COMPARE_USAGE = 'usage: nw compare [--auxiliary BITS] [--offset OFFSET] A B; nw compare --help says more'


def try_compare():
    drill, flood = make.DRILL, make.FLOOD
    index = make.Index([drill, flood], 3, signature=b'sig')
    content = make.Content(drill, [('eng', 2, 'One.\nTwo.\nThree.', 'County', [(9, b'picture')])], 1)
    whole = index.sections() + content.sections()
    none = ['differences: 0']
    expect_compared('the same', whole, whole, 0, none)
    expect_compared('cut, ordered and repeated otherwise, with junk', whole, [*content.sections(30)[::-1], b'junk', *index.sections(99) * 2], 0, none)
    expect_compared('messages in another order', whole, changed(index, messages=[flood, drill]).sections() + content.sections(), 0, none)
    one = 'index table 0000, message %s, ' % drill.identifier
    start = make.in_words(drill.start, -330), make.in_words(drill.start.replace(month=11, day=11), -330)
    other = changed(drill, start=drill.start.replace(month=11, day=11), level=2, resources=drill.resources[:1])
    expect_compared('another drill', whole, changed(index, messages=[flood, other]).sections() + content.sections(), 1, [
        one + 'start: A has %s; B has %s' % start, one + 'level: A has 4, ordinary; B has 2, grave',
        one + 'resource 2: only A has it, ' + drill.resources[1], 'differences: 3'], ['--offset', '-05:30'])
    channel = make.Channel(10, 20, 30, 0x1FFF, [], [(0x1B, 0x101, [(5, b'\1')])])
    two = 'index table 0000, message %s, channel, ' % flood.identifier
    expect_compared('another channel', index.sections(), changed(index, messages=[drill, changed(flood, channel=channel)]).sections(), 1, [
        two + 'descriptor 1, tag: only A has it, 0x44', two + 'descriptor 1: only A has it, 11 bytes ' + bytes(range(11)).hex(' ').upper(),
        *(two + 'stream 2, %s: only A has it, %s' % pair for pair in (
            ('type', '0x03'), ('PID', '0x0102'), ('descriptor 1, tag', '0x0A'), ('descriptor 1', '4 bytes 7A 68 6F 00'),
            ('descriptor 2, tag', '0x52'), ('descriptor 2', '1 byte 01'))),
        two + 'stream 1, descriptor 1, tag: only B has it, 0x05', two + 'stream 1, descriptor 1: only B has it, 1 byte 01', 'differences: 10'])
    moved = changed(index, extension=7, version=4)
    expect_compared('another extension and version', whole, moved.sections() + content.sections(), 1, [
        'index table 0000: A has extension 0000; B has extension 0007', 'index table 0000: A has version 3; B has version 4', 'differences: 2'])
    text = changed(content, languages=[('eng', 0, 'One.\nTwo!\n\n\x1B[mFour.', 'County', [(9, b'')])])
    first = 'content table %04X, language 1, ' % content.extension
    expect_compared('another text', whole, index.sections() + text.sections(), 1, [
        first + 'character set: A has %s; B has %s' % (make.SETS[2], make.SETS[0]), first + 'text, line 2: A has Two.; B has Two!',
        first + 'text, line 3: A has Three.; B has an empty line',
        first + 'file 1: A has %s; B has none' % make.opaque(b'picture'), first + 'text, line 4: only B has it, \\u{1B}[mFour.', 'differences: 5'])
    expect_compared('a table less', whole, index.sections(), 1, ['content table %04X: only A has it' % content.extension, 'differences: 1'])
    expect_compared('a section less', whole, index.sections() + content.sections(30)[1:], 1, [
        'content table %04X: of B it is not whole, a section is missing (refusal 13)' % content.extension, 'differences: 1'])
    body = index.body()
    expect_compared('a refused body', index.sections(), make.cut(make.INDEX, 0, 3, body[:23] + b'\0' * 5 + body[28:]), 1, [
        one + 'start: A has %s; B has refused, the day or the time is impossible or out of range (refusal 20)' % make.in_words(drill.start, None)]
        + [None])
    expect_compared('nothing', [], [b'junk'], 1, ['no table has come in either'])
    for words, said in (([], ['nw compare: A and B are wanted: two captures\' names, of which one may be - for standard input', COMPARE_USAGE]),
                        (['a'], ['nw compare: A and B are wanted: two captures\' names, of which one may be - for standard input', COMPARE_USAGE]),
                        (['a', 'b', 'c'], ['nw compare: c: there are two captures already', COMPARE_USAGE]),
                        (['-', '-'], ['nw compare: -: standard input can be one of the two', COMPARE_USAGE]),
                        (['--json', 'a', 'b'], ['nw compare: --json: there is no such word', COMPARE_USAGE]),
                        (['--offset', '+0800', 'a', 'b'], [(OFFSETS % '+0800').replace('nw show', 'nw compare'), COMPARE_USAGE]),
                        (['a', 'none'], ["nw compare: none can't be opened: No such file or directory"]),
                        (['folder', 'a'], ["nw compare: folder can't be read: Is a directory"])):
        expect('compare %r' % words, run(['compare', *words]), 2, b'', said)
    expect('compare with standard input', run(['compare', '-', 'good'], make.section(make.INDEX, 0, 0, 0, 0, b'\0\0\0')), 0,
           b'A is standard input\nB is good\ndifferences: 0, in 1 fields\n', [])


def try_long():
    """A capture of more than the window, with a section across each of its ends."""
    one = make.section(make.CERTIFICATE, 0, 0, 0, 0, b'\0\0' + make.counted(bytes(4000), 2))
    expect_lines('a long capture', ['show', '-'], one * 500, 0, [make.summed(one * 500, 1, 499, 0, 0)])
    expect_lines('a long one with damage', ['show', '-'], (one + b'x' * 7) * 300, 1, [make.summed((one + b'x' * 7) * 300, 1, 299, 0, 2100)])


with tempfile.TemporaryDirectory() as scratch:
    os.chdir(scratch)
    for file_name in ('good', 'a "quoted"\x1B name'):
        with open(file_name, 'wb') as file:
            file.write(make.section(make.INDEX, 0, 0, 0, 0, b'\0\0\0'))
    for part in try_usage, try_files, try_streams, try_help, try_small, try_refusals, try_captures, try_packets, try_bench, try_refused, try_gathering, try_texts, try_compare, try_long:
        part()
    os.chdir('/')
if wrong or tried < 90:
    sys.exit('%s\n%s: %d faults in %d answers' % ('\n'.join(wrong), HOW, len(wrong), tried))
print('%s: %d answers, each with its words and its status' % (HOW, tried))
