"""What `nw make`, `nw form`, `nw compare` of a form and `nw salvage` say and write, slip by slip: nw_form_slips.py HOW PROGRAM.."""
# SPDX-License-Identifier: MIT
import os
import re
import subprocess
import sys
import tempfile

import make_captures as make
import second_salvage

HOW, PROGRAM = sys.argv[1], sys.argv[2:]
ROOT = os.path.join(os.path.dirname(os.path.abspath(__file__)), os.pardir)
CONVERTS = len(PROGRAM) == 1  # an emulator's C library may have no conversions
wrong, tried = [], 0
MAKE_USAGE = 'usage: nw make [--auxiliary BITS] [--replace] FORM STREAM; nw make --help says more'
FORM_USAGE = 'usage: nw form [--auxiliary BITS] [--offset OFFSET] CAPTURE; nw form --help says more'
SALVAGE_USAGE = 'usage: nw salvage [--replace] IN OUT; nw salvage --help says more'
ONE_FAULT = 'typed has 1 fault: nothing is made of it'

GOOD = '''\
table index
  extension 0x0007
  version 5
  message 36543200000000303010103202411030001
    network 1
    start 02/11/2024 23:45:00 +00:00
    end 03/11/2024 00:15:00 +00:00
    type 11A01
    class 3
    level 4
    resource 36543200000000303010103
    channel
      network 10
      transport 20
      program 30
      pcr 0x1FFF
      descriptor 0x44
        data 0102
      stream 0x1B
        pid 0x0101
        descriptor 0x0A
          data none
  signature 736967

table content
  version 5
  message 36543200000000303010103202411030001
  language eng
    set GB/T 13000
    text One.
    text
    text Two: \\x1B \\\\ 演.
    agency County
    file 9
      data 616263
  signature none

table certificate
  extension 0x0000
  version 0
  authorization 6C
  certificate 63
  signature none

table configuration
  extension 0x0000
  version 31
  clock 03/11/2024 07:45:09
  code 001B
    resource 36543200000000303010103
  frequency 355000
    rate 6875
    mapping 3
    terminal 36543200000000303010103
  return 1
    address 13800138000
  return 2
    address 192.0.2.7:8080
  return 3
    address back.example.org:8080
  period 86400
  volume 50
  query
    parameter 1
    terminal 36543200000000303010103
  command 153
    data 1B
  signature none
'''


def run(words, data=b'', where='C.UTF-8', **more):
    """Status, output and standard error, as bytes."""
    given = {'input': data} if 'stdin' not in more else {}
    more.setdefault('stdout', subprocess.PIPE)
    done = subprocess.run([*PROGRAM, *words], stderr=subprocess.PIPE, timeout=300, check=False, env={**os.environ, 'LC_ALL': where}, **given, **more)
    return done.returncode, done.stdout or b'', done.stderr


def expect(what, got, status, output, said):
    """Notes a fault unless status, output (None for any) and the lines on standard error are these."""
    global tried
    tried += 1
    output = output.encode() if isinstance(output, str) else output
    for name, here, there in zip(('status', 'output', 'standard error'), got, (status, output, ''.join(part + '\n' for part in said).encode())):
        if there is not None and here != there:
            wrong.append('%.200s: %s %.600r and not %.600r' % (what, name, here, there))


def write(name, data):
    with open(name, 'wb') as file:
        file.write(data.encode() if isinstance(data, str) else data)


def content(name):
    """What stands in a file, which goes; None where there is none."""
    if not os.path.exists(name):
        return None
    with open(name, 'rb') as file:
        data = file.read()
    os.remove(name)
    return data


# ---- forms with a slip


def expect_faults(what, form, faults):
    """A form is refused with just these faults, and nothing is written."""
    write('typed', form)
    count = len(faults)
    said = ['nw make: ' + (fault if fault.startswith('typed') else 'typed, line ' + fault) for fault in faults]
    said.append('nw make: typed has %d fault%s: nothing is made of it' % (count, '' if count == 1 else 's'))
    expect(what, run(['make', 'typed', 'made']), 1, b'', said)
    if content('made') is not None:
        wrong.append('%s: something is written' % what)


WHOLE = 'has to be a whole number from %d to %d'
DIGITS = 'here %d digits have to stand, and %s'
TIME = 'it has to be dd/mm/yyyy hh:mm:ss +hh:mm, day first, with the offset from UTC'
HEXES = 'hexadecimal digits, two for each byte; or the word none; or from and a file\'s name'
DAY = 'digits 24 to 31 have to be a day of the calendar, year, month and day, from 19000301 to 20380422'
SETS = 'there is no such character set; there are GB/T 2312, GB/T 18030, GB/T 13000, GB/T 21669 and GB 16959'
IP = 'of kind 2 it has to be an IP address and a port, as 192.0.2.7:8080'
NAME = 'of kind 3 it has to be a name, a colon and a port up to 65535, all in printed ASCII without spaces'
# A word of the good form and another value; then the column, what was typed and what is wrong with it.
VALUES = (
    ('extension', '65536', 13, '65536', 'extension ' + WHOLE % (0, 65535)), ('extension', '0x', 13, '0x', 'extension ' + WHOLE % (0, 65535)),
    ('extension', '-1', 13, '-1', 'extension ' + WHOLE % (0, 65535)), ('version', '32', 11, '32', 'version ' + WHOLE % (0, 31)),
    ('version', '', 3, 'version', 'version ' + WHOLE % (0, 31)), ('version', '5 6', 11, '5 6', 'version ' + WHOLE % (0, 31)),
    ('version', '18446744073709551617', 11, '18446744073709551617', 'version ' + WHOLE % (0, 31)),
    ('table', 'indx', 7, 'indx', 'there is no such kind of table; there are index, content, certificate and configuration'),
    ('message', '3654', 11, '3654', DIGITS % (35, 'there are 4')),
    ('message', '365432O0000000303010103202411030001', 17, 'O', DIGITS % (35, 'this is none')),
    ('message', '36543200000000303010103202413110001', 34, '20241311', DAY),
    ('message', '36543200000000303010103190002290001', 34, '19000229', DAY),
    ('network', '65536', 13, '65536', 'network ' + WHOLE % (0, 65535)),
    ('start', '11/13/2024 07:45:00 +08:00', 11, '11/13/2024 07:45:00 +08:00', 'there is no such month (the day comes first, then the month)'),
    ('start', '31/11/2024 07:45:00 +08:00', 11, '31/11/2024 07:45:00 +08:00', 'there is no such day in the calendar'),
    ('start', '29/02/1900 07:45:00 +08:00', 11, '29/02/1900 07:45:00 +08:00', 'there is no such day in the calendar'),
    ('start', '03/11/2024 24:00:00 +08:00', 11, '03/11/2024 24:00:00 +08:00', 'there is no such time of day'),
    ('start', '23/04/2038 07:45:00 +08:00', 11, '23/04/2038 07:45:00 +08:00', 'the day is out of the range 01/03/1900 to 22/04/2038'),
    ('start', '01/03/1900 07:45:00 +08:00', 11, '01/03/1900 07:45:00 +08:00',
     'in UTC, less the offset, the day is out of the range 01/03/1900 to 22/04/2038'),
    ('start', '03/11/2024 07:45:00', 11, '03/11/2024 07:45:00', TIME), ('start', '3/11/2024 07:45:00 +08:00', 11, '3/11/2024 07:45:00 +08:00', TIME),
    ('start', '2024-11-03 07:45:00 +08:00', 11, '2024-11-03 07:45:00 +08:00', TIME), ('start', 'live', 11, 'live', TIME),
    ('start', '03/11/2024 07:45:00 8:00', 31, '8:00', 'the offset has to be from -12:00 to +14:00, as +08:00'),
    ('start', '03/11/2024 07:45:00 +14:01', 31, '+14:01', 'the offset has to be from -12:00 to +14:00, as +08:00'),
    ('end', 'Live', 9, 'Live', TIME + '; or the word live'),
    ('type', '11A0', 10, '11A0', 'it has to be five ASCII characters, a space at its ends as \\x20'),
    ('type', '11A0\\xFF', 10, '11A0\\xFF', 'it has to be five ASCII characters, a space at its ends as \\x20'),
    ('type', '11A0é', 14, 'é', 'it is no ASCII'), ('class', '5', 11, '5', 'class ' + WHOLE % (1, 4)),
    ('level', '0', 11, '0', 'level ' + WHOLE % (1, 4)),
    ('resource', '3', 14, '3', DIGITS % (23, 'there are 1')), ('channel', '1', 13, '1', 'nothing stands after the word channel'),
    ('pcr', '0x2000', 11, '0x2000', 'pcr ' + WHOLE % (0, 8191)), ('descriptor', '256', 18, '256', 'descriptor ' + WHOLE % (0, 255)),
    ('data', '010', 16, '0', 'a byte has two hexadecimal digits, and after this there is none'),
    ('data', '01 0g', 17, '0', 'a byte has two hexadecimal digits, and after this there is none'),
    ('data', '01 g0', 17, 'g', 'here have to stand ' + HEXES), ('data', '', 9, 'data', HEXES.replace('digits,', 'digits have to follow,')),
    ('data', 'from missing', 19, 'missing', 'the file can\'t be opened: No such file or directory'),
    ('data', 'from folder', 19, 'folder', 'the file can\'t be read: Is a directory'),
    ('data', 'from long', 19, 'long', 'the file has more than 255 bytes, the most that there can be'),
    ('data', '00' * 256, 9, 'data', 'with this line it has more than 255 bytes, the most that there can be'),
    ('language', 'En', 12, 'En', 'it has to be three letters a to z'), ('set', 'UTF-8', 9, 'UTF-8', SETS),
    ('set', 'GB/T 2312-1980', 9, 'GB/T 2312-1980', SETS),
    ('text', 'a\\b', 11, '\\', 'after a backslash has to stand x and two hexadecimal digits, or another backslash'),
    ('text', 'a\\x1', 11, '\\', 'after a backslash has to stand x and two hexadecimal digits, or another backslash'),
    ('text', '演\tb', 11, '\\x09', 'a tab is written \\x09'),
    ('agency', 'x' * 256, 5, 'agency', 'with this line it has more than 255 bytes, the most that there can be'),
    ('file', '256', 10, '256', 'file ' + WHOLE % (0, 255)),
    ('clock', '31/11/2024 07:45:09', 9, '31/11/2024 07:45:09', 'there is no such day in the calendar'),
    ('clock', '03/11/2024 07:45:09 +08:00', 9, '03/11/2024 07:45:09 +08:00', 'it has to be dd/mm/yyyy hh:mm:ss, day first, without an offset'),
    ('frequency', '4294967296', 13, '4294967296', 'frequency ' + WHOLE % (0, 2**32 - 1)), ('mapping', '6', 13, '6', 'mapping ' + WHOLE % (0, 5)),
    ('volume', '101', 10, '101', 'volume ' + WHOLE % (0, 100)), ('parameter', '-', 15, '-', 'parameter ' + WHOLE % (0, 255)),
    ('command', '6', 11, '6', 'a command of this tag is written with the word volume'), ('command', '256', 11, '256', 'command ' + WHOLE % (0, 255)),
    ('address', '1380013800', 13, '1380013800', 'of kind 1 it has to be the 11 digits of a telephone'),
    ('address 192', '192.0.2.7', 13, '192.0.2.7', IP), ('address 192', '192.0.2.256:1', 13, '192.0.2.256:1', IP),
    ('address 192', '1.2.3.4:65536', 13, '1.2.3.4:65536', IP), ('address 192', '1.2.3.4.5:6', 13, '1.2.3.4.5:6', IP),
    ('address back', 'www.chinaeb-lab.org: 8080', 13, 'www.chinaeb-lab.org: 8080', NAME), ('address back', '', 5, 'address', NAME),
    ('address back', 'x' * 300 + ':80', 13, 'x' * 80 + '..', 'it has 303 bytes, and an address has at most 255'))


def try_values():
    """A value of the good form replaced: what is said of it, at its line and column."""
    for word, value, column, typed, why in VALUES:
        form, count = re.subn(r'^( *)%s\S*( ?).*$' % word, lambda found: '%s%s %s' % (found[1], word.split()[0], value), GOOD, count=1, flags=re.M)
        number = 1 + next(i for i, (a, b) in enumerate(zip(form.split('\n'), GOOD.split('\n'))) if a != b)
        expect_faults('%s %s' % (word, value), form, ['%d, column %d: %s: %s' % (number, column, typed, why)])


# Forms with lines that are missing, misplaced, misspelt or too many, and what is said of them.
ORDERS = (
    (GOOD.replace('    class 3\n', ''), ['9, column 5: level: class is wanted before it']),
    (GOOD.replace('class 3', 'klass 3'), ['9, column 5: klass: there is no such word; class is wanted here']),
    (GOOD.replace('    class 3\n    level 4\n', '    level 4\n    class 3\n'),
     ['9, column 5: level: class is wanted before it', '10, column 5: class: signature is wanted before it']),
    (GOOD.replace('  signature 736967\n', ''), ['24, column 1: table: signature is wanted before it']),
    (GOOD.replace('  signature 736967\n', '  signature 736967\n  signature none\n'),
     ['24, column 3: signature: here the form has to end, or the next table to begin, with the word table']),
    ('index\n', ['1, column 1: index: here the form has to end, or the next table to begin, with the word table']),
    ('table\n', ['1, column 1: table: there is no such kind of table; there are index, content, certificate and configuration']),
    ('table index\n', ['typed, at its end: extension is wanted, and the form ends']),
    ('# only\n\n   # remarks\n', ['typed has no table']), ('', ['typed has no table']),
    (GOOD.replace('        pid 0x0101\n', ''), ['20, column 9: descriptor: pid is wanted before it']),
    (GOOD.replace('  language eng\n', '').replace('    set GB/T 13000\n', ''), ['28, column 5: text: language is wanted before it']),
    (GOOD.replace('    text One.\n    text\n', '').replace('    text Two', '    test Two'), ['30, column 5: test: there is no such word; text is wanted here']),
    (GOOD.replace('data none', 'data none\n            hex 01'), ['23, column 13: hex: nothing is added to none']),
    (GOOD.replace('    channel\n', '    channel\n' + GOOD[GOOD.index('      network 10'):GOOD.index('  signature')] + '    channel\n', 1),
     ['23, column 5: channel: one more than there can be: 1 stand before it']),
    (GOOD.replace('      data 616263\n', '      data 616263\n    file 1\n      data none\n    file 2\n      data none\n'),
     ['38, column 5: file: one more than there can be: 2 stand before it']),
    (GOOD.replace('    text One.', '    text \x1B[31mOne.'),
     ['30, column 10: \\x1B: a control character can\'t stand in a form: in a text it is written \\x1B']),
    (GOOD + '\n' + GOOD[:GOOD.index('\ntable content')],
     ['typed, line 70: index table 0007: one of this kind and extension stands already at line 1']))


def try_order():
    for form, faults in ORDERS:
        expect_faults('a form', form, faults)


def try_whole():
    """Forms of which more is wrong than a line."""
    many = '\n'.join(GOOD.replace('    level 4', '    level 5').split('\n')[:23]) + '\n'
    write('typed', ''.join(many.replace('0x0007', '%d' % k) for k in range(25)))
    told = ['nw make: typed, line %d, column 11: 5: level has to be a whole number from 1 to 4' % (10 + 23 * k) for k in range(20)]
    expect('many faults', run(['make', 'typed', 'made']), 1, b'', [*told, 'nw make: typed has 20 faults so far: the rest of it is not read',
                                                                'nw make: typed has 20 faults: nothing is made of it'])
    write('typed', b'\xFF\xFEt\0a\0')
    expect('UTF-16', run(['make', 'typed', 'made']), 2, b'', ["nw make: typed can't be read: it is in UTF-16, and has to be in UTF-8"])
    write('typed', b'x' * (2**22 + 1))
    expect('a long line', run(['make', 'typed', 'made']), 2, b'', ["nw make: typed can't be read: it has a line of more than 4194304 bytes"])
    write('typed', GOOD.encode().replace('演'.encode(), b'\xE6\xBC'))
    expect('no UTF-8', run(['make', 'typed', 'made']), 1, b'', [
        'nw make: typed, line 32, column 23: \\xE6\\xBC: it is no character of UTF-8, in which a form has to be', 'nw make: ' + ONE_FAULT])


def try_lengths():
    """Parts that become too long are told at the line with which they do; one byte less is taken."""
    lines = GOOD.split('\n')
    head, start, resource = '\n'.join(lines[:10]) + '\n', '\n'.join(lines[11:16]) + '\n', lines[10] + '\n'
    end = '\n'.join(lines[22:23]) + '\n'
    data = '        data ' + '00' * 255 + '\n'
    for more, fits, why in (
            (('      descriptor 1\n' + data) * 3 + '      descriptor 1\n        data ' + '00' * 250 + '\n', True, ''),
            (('      descriptor 1\n' + data) * 3 + '      descriptor 1\n        data ' + '00' * 251 + '\n', False,
             '23, column 9: data: with this line the descriptors would pass 1023 bytes, the most that there can be'),
            ('      stream 1\n        pid 1\n' * 13097, True, ''),
            ('      stream 1\n        pid 1\n' * 13098, False,
             '%d, column 7: stream: with this line the message would pass 65535 bytes, the most that there can be' % (17 + 2 * 13097 - 1)),
            ('      stream 1\n        pid 1\n' * 13108, False,
             '%d, column 7: stream: with this line the message would pass 65535 bytes, the most that there can be' % (17 + 2 * 13097 - 1))):
        form = head + start + more + end
        if fits:
            write('typed', form)
            expect('a part at its most', run(['make', '--replace', 'typed', 'made']), 0, None, [])
        else:
            write('typed', form)
            got = run(['make', 'typed', 'made'])
            expect('a part above its most', (got[0], got[1], got[2].split(b'\n')[0] + b'\n'), 1, b'', ['nw make: typed, line ' + why])
        content('made')
    form = head + resource * 256 + end
    expect_faults('256 resources', form, ['266, column 5: resource: one more than there can be: 255 stand before it'])
    files = ('  language eng\n    set GB 16959\n    text\n    agency\n' + '    file 1\n      data from half\n' * 2) * 2
    write('half', b'x' * 400000)
    start = GOOD[GOOD.index('table content'):GOOD.index('  language')]
    expect_faults('a long table', start + files + '  signature none\n', [
        '17, column 7: data: with this line the table would pass 1045504 bytes, the most that there can be'])


# ---- forms that are taken


def try_good():
    """What is made, told and given back; remarks, spaces, line ends and other ways of writing make no difference."""
    write('typed', GOOD)
    told = ['index table 0007, version 5: %d bytes in 1 section', 'content table 7CBC, version 5: %d bytes in 1 section',
            'certificate table 0000, version 0: 9 bytes in 1 section', 'configuration table 0000, version 31: %d bytes in 1 section']
    drill = make.Message(make.DRILL.identifier, make.DRILL.start, make.DRILL.end, 4, [make.RESOURCE],
                         make.Channel(10, 20, 30, 0x1FFF, [(0x44, b'\1\2')], [(0x1B, 0x101, [(10, b'')])]))
    index = make.Index([drill], 5, 7, b'sig')
    text = make.Content(drill, [('eng', 2, 'One.\n\nTwo: \x1B \\ 演.', 'County', [(9, b'abc')])], 5)
    certificates = make.Certificates([b'l'], [b'c'], 0)
    codes = make.terminals([make.RESOURCE])
    commands = [(1, bytes.fromhex('07E80B03072D09')), (2, b'\2\0\x1B' + make.digits(make.RESOURCE)),
                (3, make.number(355000, 4) + make.number(6875, 4) + b'\3' + codes), (4, b'\1\x0B13800138000\0'), (4, b'\2\6\xC0\0\2\7\x1F\x90\0'),
                (4, b'\3\x15back.example.org:8080\0'), (5, make.number(86400, 4) + b'\0'), (6, b'\x32\0'), (7, b'\1\1' + codes), (153, b'\x1B')]
    configuration = make.Configuration([(*pair, []) for pair in commands], 31)
    tables = [index, text, certificates, configuration]
    sections = b''.join(section for table in tables for section in table.sections())
    told = '\n'.join(told) % (len(index.body()), len(text.body()), len(configuration.body()))
    expect('make', run(['make', 'typed', 'made']), 0, '%s\nmade has %d bytes: 4 sections\n' % (told, len(sections)), [])
    if content('made') != sections:
        wrong.append('nw make writes other sections')
    packets, counts = [], 0
    for table in tables:
        for section in table.sections():
            packets += make.packed(section, len(packets) % 16)
            counts += 1
    expect('make a stream', run(['make', '-', 'made.ts'], GOOD.encode()), 0,
           '%s\nmade.ts has %d bytes: 4 sections in %d packets on PID 0x0021\n' % (told, 188 * len(packets), len(packets)), [])
    expect('form', run(['form', 'made.ts']), 0, GOOD, [])
    if content('made.ts') != b''.join(packets):
        wrong.append('nw make writes other packets')
    expect('form of a form', run(['form', 'typed']), 0, GOOD, [])
    expect('form in ASCII', run(['form', 'typed'], where='C'), 0, GOOD.replace('演', '\\xE6\\xBC\\x94'), [])
    expect('form, local', run(['form', '--offset', '-05:30', 'typed']), 0, GOOD.replace('02/11/2024 23:45:00 +00:00', '02/11/2024 18:15:00 -05:30').replace(
        '03/11/2024 00:15:00 +00:00', '02/11/2024 18:45:00 -05:30'), [])
    other = '\ufeff# a remark\n\n' + GOOD.replace('\n', ' \t\r\n').replace('  ', '\t').replace('0x0007', '7').replace('version 5', 'version 0x05').replace(
        'data 616263', 'data 61 62\n hex 63').replace('736967', 'from signature').replace('02/11/2024 23:45:00 +00:00', '03/11/2024 07:45:00 +08:00').replace(
            'Two:', '\\x54wo:').replace('192.0.2.7:8080', '192.000.02.7:08080')
    write('signature', b'sig')
    write('typed', other)
    expect('another way of writing', run(['form', 'typed']), 0, GOOD, [])


def try_remarks():
    """What a box would make little of is told, and made."""
    index = GOOD[:GOOD.index('\ntable content')]
    write('typed', index.replace('class 3', 'class 4').replace('end 03/11/2024 00:15:00', 'end 02/11/2024 23:45:00'))
    name = 'message ' + make.DRILL.identifier
    got = run(['make', '--replace', 'typed', 'made'])
    expect('remarks', (got[0], b'\n'.join(got[1].split(b'\n')[1:4]), got[2]), 0, '\n'.join((
        name + ': class 4, emergency broadcast: this is no drill', name + ': its end is not after its start, so that it is never shown',
        name + ': the form has no content table for it')), [])
    write('typed', GOOD[GOOD.index('table content'):GOOD.index('\ntable certificate')])
    got = run(['make', '--replace', 'typed', 'made'])
    expect('a content alone', (got[0], got[1].split(b'\n')[1], got[2]), 0, 'content table 7CBC: the form has no message for it', [])
    content('made')


def try_sets():
    """Typed characters in each set, where the C library converts."""
    start = 'table content\n  version 5\n  message %s\n  language zho\n    set %%s\n    text %%s\n    agency\n  signature none\n' % make.DRILL.identifier
    for its_set, text, data in (('GB/T 2312', '演练 a', 'D1DDC1B72061'),
                                ('GB/T 18030', '演练€🌊', 'D1DDC1B7A2E3' + '🌊'.encode('gb18030').hex()),
                                ('GB/T 13000', 'é🌊', 'C3A9F09F8C8A'), ('GB/T 21669', 'a\\xFF', '61FF'), ('GB 16959', '\\x20a\\x20', '206120')):
        if not CONVERTS and its_set in ('GB/T 2312', 'GB/T 18030'):
            continue
        write('typed', start % (its_set, text))
        expect(its_set, run(['make', '--replace', 'typed', 'made']), 0, None, [])
        expect(its_set + ' again', run(['form', 'made']), 0, start % (its_set, text), [])
        if bytes.fromhex(data) not in (content('made') or b''):
            wrong.append('%s: the text is not converted' % its_set)
    none = 'the C library has no conversion to this character set: its bytes are written as \\xNN'
    expect_faults('GB/T 21669', start % ('GB/T 21669', 'aé'), ['6, column 11: é: ' + none])
    expect_faults('GB/T 2312', start % ('GB/T 2312', 'a🌊'), ['6, column 11: 🌊: ' + ('it is no character of this character set' if CONVERTS else none)])


# ---- files and words


WANTED = ' are wanted: two files\' names, or - and one for a form on standard input'
# Words that are wrong, and what is said of them.
WORDS = (
    (['make'], 'nw make: FORM and STREAM' + WANTED, MAKE_USAGE), (['make', 'typed'], 'nw make: FORM and STREAM' + WANTED, MAKE_USAGE),
    (['make', 'typed', 'out', 'more'], 'nw make: more: there are FORM and STREAM already', MAKE_USAGE),
    (['make', 'typed', '-'], 'nw make: -: a STREAM has to be a file\'s name', MAKE_USAGE),
    (['make', 'typed', ''], 'nw make: (an empty word): a STREAM has to be a file\'s name', MAKE_USAGE),
    (['make', '--replace', 'typed', './typed'], 'nw make: ./typed: this is the FORM, and it would be lost', MAKE_USAGE),
    (['make', '--offset', '0', 'typed', 'out'], 'nw make: --offset: there is no such word', MAKE_USAGE),
    (['make', '--auxiliary', '16', 'typed', 'out'], 'nw make: 16: BITS have to be 24 or 32', MAKE_USAGE),
    (['form'], 'nw form: CAPTURE is wanted: a file\'s name, or - for standard input', FORM_USAGE),
    (['form', 'typed', 'more'], 'nw form: more: there is a CAPTURE already, and one is read', FORM_USAGE),
    (['form', '--replace', 'typed'], 'nw form: --replace: there is no such word', FORM_USAGE),
    (['salvage', 'typed'], 'nw salvage: IN and OUT are wanted: a capture\'s name, or - for standard input, and a file\'s', SALVAGE_USAGE),
    (['salvage', 'typed', 'out', 'x'], 'nw salvage: x: there are IN and OUT already', SALVAGE_USAGE),
    (['salvage', 'typed', '-'], 'nw salvage: -: an OUT has to be a file\'s name', SALVAGE_USAGE),
    (['salvage', '--replace', 'typed', 'typed'], 'nw salvage: typed: this is IN, and it would be lost', SALVAGE_USAGE),
    (['salvage', '--output', 'typed', 'out'], 'nw salvage: --output: there is no such word', SALVAGE_USAGE))


def try_files():
    write('typed', GOOD)
    write('there', b'old')
    stays = 'nw make: there is there already, and stays as it is; --replace replaces it'
    expect('a file that is there', run(['make', 'typed', 'there']), 2, b'', [stays])
    expect('replaced', run(['make', '--replace', 'typed', 'there']), 0, None, [])
    if content('there') in (None, b'old') or os.path.exists('there.new'):
        wrong.append('a file is not replaced')
    write('there', b'old')
    write('there.new', b'')
    expect('half of it there', run(['make', '--replace', 'typed', 'there']), 2, b'', ["nw make: there.new can't be opened: File exists"])
    os.remove('there.new')
    for out, said in (('none/out', "none/out can't be opened: No such file or directory"), ('folder', "folder can't be opened: Is a directory"),
                      ('/dev/full', "/dev/full is not whole, it can't be written: No space left on device")):
        expect('make ' + out, run(['make', 'typed', out]), 2, b'', ['nw make: ' + said])
    for words, said in ((['none', 'out'], "none can't be opened: No such file or directory"), (['folder', 'out'], "folder can't be read: Is a directory")):
        expect('make %r' % words, run(['make', *words]), 2, b'', ['nw make: ' + said])
    with open('/dev/full', 'wb') as full:
        for words in ['make', '--replace', 'typed', 'there'], ['form', 'typed'], ['salvage', '--replace', 'typed', 'there'], ['help', 'form']:
            name = 'nw' if words[0] == 'help' else 'nw ' + words[0]
            expect('%r on a full disk' % words, run(words, stdout=full), 2, b'', [name + ": the output can't be written: No space left on device"])
    content('there')


def try_words():
    for words, said, usage in WORDS:
        expect('%r' % words, run(words), 2, b'', [said, usage])
    for name in 'make', 'form', 'salvage':
        output = run([name, '--help'])
        expect(name + ' --help', (output[0], output[1][:13 + len(name)], output[2]), 0, 'usage: nw %s [-' % name, [])
    said = run(['help', 'form'])[1].decode()
    expect('help form', (0, said[:said.index('A form is')].encode(), b''), 0, run(['form', '--help'])[1] + b'\n', [])
    with open(os.path.join(ROOT, 'man', 'nw.1.in'), encoding='ascii') as file:
        try_document('man/nw.1.in', file.read())
    try_document('nw help form', said)


def try_document(name, text):
    """The lines that a document shows are a form: with digits, bytes and strings filled in it is taken, and has all words of a form in their order."""
    shown = text[text.index('\ntable index') + 1:].split('\n')
    shown = shown[:max(i for i, part in enumerate(shown) if part.startswith('  signature BYTES')) + 1]
    filled = []
    for part in shown:
        word, value = (re.split(' {2,}', part.strip())[0].replace('*', '') + ' ').split(' ', 1)
        digits = make.DRILL.identifier if word == 'message' else make.RESOURCE
        value = value.strip().replace('DIGITS', digits).replace('BYTES', '00').replace('STRING', 'name:80' if word == 'address' else 'x')
        filled.append((word, value))
    write('typed', ''.join('%s %s\n' % pair for pair in filled))
    expect('the form in ' + name, run(['make', '--replace', 'typed', 'made']), 0, None, [])
    words = [part.split()[0] for part in run(['form', 'made'])[1].decode().split('\n') if part]
    if words != [word for word, _ in filled] or not {part.split()[0] for part in GOOD.split('\n') if part} <= set(words):
        wrong.append('%s shows other words than a form has' % name)
    for word in 'hex', 'none', 'from', 'live':
        if not re.search(r'\b%s\b' % word, text):
            wrong.append('%s does not have the word %s' % (name, word))
    content('made')


# ---- captures as forms, and beside forms


def try_captures():
    expect('no table', run(['form', '-'], b'junk'), 1, b'', ['nw form: standard input: no table has come'])
    body = make.Index([make.DRILL], 3)
    bad = make.section(make.INDEX, 0, 3, 0, 0, body.body()[:-1])
    expect('a refused table', run(['form', '-'], bad), 1, b'', [
        'nw form: index table 0000, version 3 is left out: it is refused, the body ends too early (refusal 14)'])
    half = make.Content(make.DRILL, [('eng', 0, 'x' * 90, '', [])], 1).sections(60)[0]
    status, output, said = run(['form', '-'], half + b''.join(body.sections()))
    expect('a table that is not whole', (status, output[:32], said), 1, 'table index\n  extension 0x0000\n ', [
        'nw form: content table 7CBC, version 1 is left out: it is not whole, a section is missing (refusal 13)'])
    many = b''.join(make.section(make.CERTIFICATE, n, 0, 0, 0, b'\0\0\0\0') for n in range(514))
    left = ' has more tables than the 512 that are held, or than there is memory for: sections left out: 2'
    expect('514 tables', run(['form', '-'], many), 1, None, ['nw form: standard input' + left])
    write('many', many)
    expect('514 tables twice', run(['compare', 'many', '-'], many), 1,
           'A is many\nA%s\nB is standard input\nB%s\ndifferences: 2, in 512 fields\n' % (left, left), [])
    write('typed', GOOD)
    run(['make', 'typed', 'made.ts'])
    expect('a form and its stream', run(['compare', 'typed', 'made.ts']), 0, None, [])
    output = run(['compare', 'made.ts', 'typed'])[1].split(b', in')[0]
    expect('the stream and its form', (0, output, b''), 0, 'A is made.ts\nB is typed, a form\ndifferences: 0', [])
    write('other', GOOD.replace('level 4', 'level 2'))
    expect('another form', (0, run(['compare', 'other', 'made.ts'])[1].split(b', in')[0], b''), 0, (
        'A is other, a form\nB is made.ts\nindex table 0007, message %s, level: A has 2, grave; B has 4, ordinary\ndifferences: 1' % make.DRILL.identifier), [])
    write('other', GOOD.replace('level 4', 'level 5'))
    expect('a form with a fault', run(['compare', 'other', 'made.ts']), 2, b'', [
        'nw compare: other, line 10, column 11: 5: level has to be a whole number from 1 to 4', 'nw compare: other has 1 fault: nothing is made of it'])
    steering = make.Content(make.DRILL, [('eng', 2, 'a\x1B[31m\x07\x9B\u202Eb\r\nc\td ', '\u2028', [])], 0).sections()
    output = run(['form', '-'], b''.join(steering))[1].decode()
    if any(ord(c) < 0x20 and c != '\n' or 0x7F <= ord(c) < 0xA0 or c in '\u202A\u202E\u2066\u2028' for c in output):
        wrong.append('nw form: something in it steers a terminal')
    if '    text a\\x1B[31m\\x07\\xC2\\x9B\\xE2\\x80\\xAEb\\x0D\n    text c\\x09d\\x20\n    agency \\xE2\\x80\\xA8\n' not in output:
        wrong.append('nw form writes %r' % output)
    content('made.ts')


def try_salvage():
    """Runs and sections as the second program has them, of captures longer than a window too."""
    one, two = make.section(make.INDEX, 0, 0, 0, 0, b'\0\0\0'), make.section(make.CERTIFICATE, 1, 0, 0, 0, b'\0\0' + make.counted(bytes(3900), 2))
    for data in (b'', one, b'noise' + one + two[:-1] + b'!' + one, two * 40, (two + b'junk' + one) * 40, b'x' * 70000 + one, two[:-1] * 20 + one,
                 one * 9000 + b'x'):
        write('in', data)
        runs = second_salvage.runs_of(data)
        kept = second_salvage.kept_of(data, runs)
        expect('salvage of %d bytes' % len(data), run(['salvage', 'in', 'out']), int(kept != data), second_salvage.lines_of(runs), [])
        if content('out') != kept:
            wrong.append('salvage of %d bytes: other sections' % len(data))
    write('in', b''.join(make.packed(one, 0)) * 9)
    expect('salvage of a stream', run(['salvage', 'in', 'out']), 1, b'', [
        'nw salvage: in is a transport stream, whose sections stand in packets: nw show and nw form read it'])
    expect('salvage of a folder', run(['salvage', 'folder', 'out']), 2, b'', ["nw salvage: folder can't be read: Is a directory"])
    expect('salvage of none', run(['salvage', 'none', 'out']), 2, b'', ["nw salvage: none can't be opened: No such file or directory"])
    if content('out') is not None:
        wrong.append('nw salvage leaves a file')


with tempfile.TemporaryDirectory() as scratch:
    os.chdir(scratch)
    os.mkdir('folder')
    write('long', bytes(256))
    for part in try_values, try_order, try_whole, try_lengths, try_good, try_remarks, try_sets, try_files, try_words, try_captures, try_salvage:
        part()
    os.chdir('/')
if wrong or tried < 120:
    sys.exit('%s\n%s: %d faults in %d answers' % ('\n'.join(wrong), HOW, len(wrong), tried))
print('%s: %d answers about forms, each with its words and its status' % (HOW, tried))
