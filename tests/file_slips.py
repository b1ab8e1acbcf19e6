"""Slips in a file of sections and in the box's call, with the sentences and the status that have to come: by hand, from the rules."""
# SPDX-License-Identifier: MIT
import binascii
import random
import re

from form_slips import BITS, NO_BITS, NOT_BITS
from second_content import extension
from second_sections import cut, printed

INDEX, CONTENT, CERTIFICATE, CONFIGURATION = 0xFD, 0xFE, 0xFC, 0xFB
DIGITS = '36543200000000303010103202411030001'
OTHER_DIGITS = DIGITS[:-1] + '2'
START, END, LIVE = 'ECC8234500', 'ECC9001500', 'FFFFFFFFFF'  # 2 November 2024 23:45:00, and half an hour later
chance = random.Random(86)


def message(digits=DIGITS, start=START, end=END, kind=b'11A01', class_level=0x34, tail=b'\xFE'):
    """A message of an index table, with its length before it."""
    data = bytes.fromhex('F' + digits + '0001' + start + end) + kind + bytes([class_level, 1])
    data += bytes.fromhex('F' + DIGITS[:23]) + tail
    return len(data).to_bytes(2, 'big') + data


def language(text=b'This is a drill.\n', letters=b'eng', number=0, agency=b'', files=b'\xF0'):
    """A language of a content table, with its length before it."""
    data = letters + bytes([0xF8 | number]) + len(text).to_bytes(2, 'big') + text + bytes([len(agency)]) + agency + files
    return len(data).to_bytes(4, 'big') + data


def table(kind, body, its_extension=0, version=0):
    """The sections of a table."""
    return [cut(body, kind, its_extension, version, number, 4096) for number in range(-(-len(body) // 4084))]


def apart(data):
    """The sections that stand one right after the other in good bytes."""
    while data:
        length = 3 + ((data[1] & 0x0F) << 8 | data[2])
        yield data[:length]
        data = data[length:]


def index(*messages, version=0):
    return table(INDEX, bytes([len(messages)]) + b''.join(messages) + b'\0\0', version=version)


def content(*languages, digits=DIGITS, version=0):
    identifier = bytes.fromhex('F' + digits)
    body = identifier + bytes([0xF0 | len(languages)]) + b''.join(languages) + b'\0\0'
    return table(CONTENT, body, extension(identifier), version)


def shown_extension(digits):
    """An identifier's extension, as the box shows it."""
    return '%04X' % extension(bytes.fromhex('F' + digits))


EXTENSION = shown_extension(DIGITS)
(ONE,) = index(message())
(TWO,) = content(language())
LONG = content(language(b'Go on foot.\n' * 1000))
DRILL = ONE + TWO
HEAD = ['message ' + DIGITS, '  start       02/11/2024 23:45:00 Saturday, UTC', '  end         03/11/2024 00:15:00 Sunday, UTC']
SHOWN = [*HEAD, '    | This is a drill.']
NONE_CAME = '  text        none has come whole; its sections have extension '
NO_TEXT = NONE_CAME + EXTENSION
UNKNOWN = '; what was lost there is not known'
ELSEWHERE = '; it came whole elsewhere'
CHECK = ' are no good section: the section\'s CRC_32 is wrong (refusal 7)'
KIND = ' are no good section: the table is of another kind (refusal 2)'
SHORT = ' are no good section: the section is shorter than 12 bytes (refusal 1)'
CUT_OFF = ' are no good section: the section is not as long as its section_length says (refusal 5)'
NO_CONVERSION = '    (the C library has no conversion from this character set: of its bytes ASCII is shown, others as \\xNN)'
NO_CHARACTER = '    (bytes that are no character of this set: %d, written as \\xNN)'
STEERS = "    (characters that steer a terminal, or that this one's set, UTF-8, has not, are written as \\u{..})"


def faults(count):
    return 'faults: %d, each of them named above' % count


# How far a table has come, told once for each section that is taken, and for no repeat.
PROGRESS = re.compile(rb'^[a-z]+ table, extension [0-9A-F]{4}, version \d+: \d+ of \d+ sections, \d+ bytes$', re.M)
TAKEN = re.compile(rb'^sections: (\d+) taken,', re.M)


def progress(name, its_extension, version, last, *sections):
    """What is said as these sections of a table come in, one after the other."""
    said = '%s table, extension %s, version %d: %%d of %d sections, %%d bytes' % (name, its_extension, version, last + 1)
    return [said % (count, sum(len(section) - 12 for section in sections[:count])) for count in range(1, len(sections) + 1)]


def changed(section, at):
    """A section with a bit changed at a byte."""
    return section[:at] + bytes([section[at] ^ 1]) + section[at + 1:]


def whole():
    """Files with status 0: the file, and lines that are shown, in their order."""
    came = [*progress('index', '0000', 0, 0, ONE), *progress('content', EXTENSION, 0, 0, TWO)]
    yield DRILL, [*came, 'sections: 2 taken, 0 held already, 0 refused', *SHOWN]
    yield TWO + ONE + TWO, [*came[::-1], 'sections: 2 taken, 1 held already, 0 refused', *SHOWN]
    yield (ONE + b''.join(LONG[::-1]), [*progress('content', EXTENSION, 0, 2, *LONG[::-1]),
                                        'sections: 4 taken, 0 held already, 0 refused', '    | Go on foot.',
                                        '    (more lines: 996, which box --whole shows)'])
    last = len(TWO) - 1
    yield changed(TWO, last) + DRILL, ['bytes 0 to %d' % last + CHECK + ELSEWHERE, *SHOWN]
    yield (changed(TWO, 30) + changed(ONE, 30) + DRILL,
           ['bytes 0 to %d' % last + CHECK + ELSEWHERE, 'bytes %d to %d' % (len(TWO), len(DRILL) - 1) + CHECK + ELSEWHERE, *SHOWN])
    yield DRILL + ONE[:40], ['bytes %d to %d' % (len(DRILL), len(DRILL) + 39) + CUT_OFF + ELSEWHERE, *SHOWN]
    later = printed(INDEX, 0, 1, 0, 0, 0, b'\0\0\0')
    yield DRILL + later, ['section at byte %d: not taken, the section is not current (refusal 8)' % len(DRILL), *SHOWN]
    yield from taken_over()
    yield index()[0], ['index table, extension 0000, version 0: it has no message']
    certificate, = table(CERTIFICATE, b'\0\0\0\0')
    setting, = table(CONFIGURATION, b'\x01\x06\0\x02\x64\0\0\0', 0xBEEF, 3)
    yield (DRILL + certificate + setting, [
        *SHOWN, 'certificate table, extension 0000, version 0: whole and accepted, 4 bytes, not shown',
        'configuration table, extension BEEF, version 3: whole and accepted, 8 bytes, not shown'])
    yield index(message(end=LIVE))[0] + TWO, [HEAD[0], HEAD[1], '  end         live, until it is called off']
    yield index(message(end='ECC8234459'))[0] + TWO, ['  (its end is not after its start: it is never shown)']
    yield (index(message(), message(OTHER_DIGITS))[0] + content(language(b'Two.\n'), digits=OTHER_DIGITS)[0] + TWO,
           [*SHOWN, 'message ' + OTHER_DIGITS, '    | Two.'])
    g = b'G' * 60000
    yield b''.join(content(language(g))) + ONE, ['    | ' + g.decode()]  # 0x47 nearly everywhere, and no transport stream


TAKES_OVER = 'section at byte %d: version %d of the %s table, extension %s, takes over from version %d'
LEFT_OUT = 'section at byte %d: left out, its version %d is not ahead of version %d, which is held (refusal 9)'
(NEWER,) = index(message(class_level=0x24), version=1)
(CORRECTED,) = content(language(b'The drill is later.\n'), version=15)
CONTRADICTS = 'two payloads contradict each other under one section number (refusal 11)'
(AGAINST,) = content(language(b'That is a drill.\n'))


def taken_over():
    """A newer version takes over, also from a spoiled table, with fewer sections or more; the old one's damage is no loss."""
    index_over = TAKES_OVER % (len(ONE), 1, 'index', '0000', 0)
    simulated = [*HEAD, '  class       2, simulated drill', '  version     1']
    yield ONE + NEWER + TWO, [index_over, 'sections: 3 taken, 0 held already, 0 refused', *simulated, '    | This is a drill.']
    text_over = TAKES_OVER % (len(DRILL), 15, 'content', EXTENSION, 0)
    corrected = [*HEAD, '    | The drill is later.']
    yield DRILL + CORRECTED, [text_over, 'sections: 3 taken, 0 held already, 0 refused', *corrected]
    yield (DRILL + AGAINST + CORRECTED,
           ['section at byte %d: not taken, %s' % (len(DRILL), CONTRADICTS),
            TAKES_OVER % (len(DRILL + AGAINST), 15, 'content', EXTENSION, 0), *corrected])
    yield (changed(ONE, 30) + NEWER + TWO,
           ['bytes 0 to %d' % (len(ONE) - 1) + CHECK + '; it was of an older version than is held', *simulated])
    yield (ONE + b''.join(LONG) + CORRECTED,
           [TAKES_OVER % (len(ONE) + sum(map(len, LONG)), 15, 'content', EXTENSION, 0), *corrected])
    longer = content(language(b'Go on foot.\n' * 1000), version=15)
    yield (DRILL + b''.join(longer), [text_over, *progress('content', EXTENSION, 15, 2, *longer),
                                      'sections: 5 taken, 0 held already, 0 refused', *HEAD, '    | Go on foot.'])


def texts():
    """Texts, the character set of each, and the lines that show them; a set of lines where the C library decides."""
    yield b'\x1B[2J\x07\r\0\x7F\t!', 0, ['    | \\u{1B}[2J\\u{7}\\u{D}\\u{0}\\u{7F}\\u{9}!', STEERS]
    yield ('\u0085\u009b31m\u202edrill\u2066\u2028'.encode(), 2,
           ['    | \\u{85}\\u{9B}31m\\u{202E}drill\\u{2066}\\u{2028}', STEERS])
    yield '演练 ok é'.encode(), 2, ['    | 演练 ok é']
    yield b'a\xFFb\xE6\xBC', 2, ['    | a\\xFFb\\xE6\\xBC', NO_CHARACTER % 3]
    yield '演练'.encode('gb2312'), 0, [{'    | 演练', '    | \\xD1\\xDD\\xC1\\xB7'}]
    yield '演练'.encode('gb18030'), 1, [{'    | 演练', '    | \\xD1\\xDD\\xC1\\xB7'}]
    yield b'\xA1', 0, ['    | \\xA1', {NO_CONVERSION, NO_CHARACTER % 1}]
    yield b'ab\x81', 3, ['    | ab\\x81', NO_CONVERSION]
    yield b'ab', 4, ['    | ab', NO_CONVERSION]
    yield b'', 0, ['  text        eng, version 0, character set 0 (GB/T 2312-1980), 0 bytes']
    yield b'1\n2\n3\n4', 0, ['    | 1', '    | 2', '    | 3', '    | 4']
    yield b'1\n\n3\n4\n5', 0, ['    | 1', '    | ', '    | 3', '    | 4', '    (more lines: 1, which box --whole shows)']


def faulty():
    """Files with status 1: the file, and lines that are shown, in their order."""
    nowhere = 'no table has come: no good section begins anywhere in the file'
    yield b'', ['sections: 0 taken, 0 held already, 0 refused', 'no table has come: the file is empty', faults(1)]
    yield b'noise', ['bytes 0 to 4' + SHORT + UNKNOWN, nowhere, faults(2)]
    yield b'This is a text and no section at all.\n', ['bytes 0 to 37' + KIND + UNKNOWN, nowhere]
    yield bytes(100000), ['bytes 0 to 99999' + KIND + UNKNOWN, nowhere]
    yield (b'\xFE\xF0\x08' + bytes(20),
           ['bytes 0 to 22 are no good section: a fixed bit of the heading is 0 (refusal 3)' + UNKNOWN, nowhere])
    yield (b'\xFE\xF0\x08\0\0\xC1' + bytes(20),
           ['bytes 0 to 25 are no good section: section_length is below 9 or above 4,093 (refusal 4)' + UNKNOWN, nowhere])
    yield ONE[:-1], ['bytes 0 to %d' % (len(ONE) - 2) + CUT_OFF + UNKNOWN, nowhere]
    yield (b'noise' + DRILL,
           ['bytes 0 to 4' + KIND + UNKNOWN, 'sections: 2 taken, 0 held already, 1 refused', *SHOWN, faults(1)])
    yield DRILL + b'!', ['bytes %d to %d' % (len(DRILL), len(DRILL)) + SHORT + UNKNOWN, *SHOWN]
    alone = 'content table, extension %s, version 0: no message %s has come that it would be the text of' % (EXTENSION, DIGITS)
    yield ONE, [*HEAD, NO_TEXT, faults(1)]
    yield TWO, [alone, '    | This is a drill.', faults(1)]
    yield index(message(OTHER_DIGITS))[0] + TWO, [
        'message ' + OTHER_DIGITS, NONE_CAME + shown_extension(OTHER_DIGITS), alone, '    | This is a drill.', faults(2)]
    yield ONE + changed(TWO, 30), ['bytes %d to %d' % (len(ONE), len(DRILL) - 1) + CHECK + UNKNOWN, NO_TEXT, faults(2)]
    yield changed(TWO, 3) + DRILL, ['bytes 0 to %d' % (len(TWO) - 1) + CHECK + UNKNOWN, *SHOWN, faults(1)]
    lost = 'content table, extension %s, version 0: not whole, ' % EXTENSION
    yield ONE + LONG[0] + LONG[2], [lost + '1 of its 3 sections is missing, the first of them number 1', NO_TEXT, faults(2)]
    yield (ONE + changed(LONG[0], 99) + LONG[0] + LONG[2],
           ['bytes %d to %d' % (len(ONE), len(ONE) + 4095) + CHECK + ELSEWHERE, NO_TEXT, faults(2)])
    yield DRILL + TWO[:30] + TWO, ['bytes %d to %d' % (len(DRILL), len(DRILL) + 29) + CHECK + UNKNOWN, *SHOWN, faults(1)]
    yield (ONE + LONG[2] + LONG[2], [*progress('content', EXTENSION, 0, 2, LONG[2]),
                                     lost + '2 of its 3 sections are missing, the first of them number 0'])
    yield (ONE + printed(CONTENT, 7, 0, 1, 0, 255, b''), [
        'content table, extension 0007, version 0: not whole, 255 of its 256 sections are missing, the first of them number 1'])
    yield DRILL + AGAINST, ['section at byte %d: not taken, %s' % (len(DRILL), CONTRADICTS), lost + CONTRADICTS, faults(2)]
    yield NEWER + ONE + TWO, [LEFT_OUT % (len(NEWER), 0, 1), *HEAD, '  class       2, simulated drill', faults(1)]
    (far,) = index(message(), version=17)
    yield NEWER + far + TWO, [LEFT_OUT % (len(NEWER), 17, 1), '  version     1', faults(1)]
    half_new = content(language(b'Go on foot.\n' * 1000), version=1)[1]
    yield (DRILL + half_new, [
        TAKES_OVER % (len(DRILL), 1, 'content', EXTENSION, 0),
        'content table, extension %s, version 1: not whole, 2 of its 3 sections are missing, the first of them number 0' % EXTENSION,
        NO_TEXT, faults(2)])
    yield (DRILL + printed(INDEX, 0, 0, 1, 0, 1, b''), [
        'section at byte %d: left out, its last number is 1, and that of its table 0 (refusal 9)' % len(DRILL), *SHOWN, faults(1)])
    yield from refused_bodies()
    yield from long_files()


def refused_bodies():
    """Whole tables whose body is refused: by which rule, and at which byte."""
    outside = 'a value is outside its set (refusal 19 at byte %d of its body)'
    early = 'the body ends too early (refusal 14 at byte 1 of its body)'
    impossible = 'the day or the time is impossible or out of range (refusal 20 at byte 23 of its body)'
    other = 'the extension is not the CRC-16 of the identifier (refusal 23 at byte 0 of its body)'
    old = binascii.crc_hqx(TWO[8:26], 0xFFFF)  # over the identifier's 18 bytes, as it was before M-103
    for (section,), name, why in (
            (index(message(class_level=0x54)), 'index table, extension 0000', outside % 38),
            (index(message(start='ECC8240000')), 'index table, extension 0000', impossible),
            (table(INDEX, b'\0\0'), 'index table, extension 0000', early),
            (table(CONTENT, TWO[8:-4], 0x1234), 'content table, extension 1234', other),
            (table(CONTENT, TWO[8:-4], old), 'content table, extension %04X' % old, other),
            (content(language(letters=b'Eng')), 'content table, extension ' + EXTENSION, outside % 23),
            (table(CERTIFICATE, b'\x01'), 'certificate table, extension 0000', early),
            (table(CONFIGURATION, b'\x01\x06\0\x02\x65\0\0\0'), 'configuration table, extension 0000', outside % 4)):
        yield section, ['%s, version 0: whole but refused, %s' % (name, why), faults(1)]
    later = printed(INDEX, 0, 0, 0, 0, 0, b'\0\0\0')
    yield (later, ['section at byte 0: not taken, the section is not current (refusal 8)',
                   'no table has come: no section in the file is taken', faults(1)])


def long_files():
    """More tables than the box holds; good sections in junk, and in junk of false headings; files of several windows."""
    nowhere = 'no table has come: no good section begins anywhere in the file'
    many = b''.join(printed(CERTIFICATE, n, 0, 1, 0, 0, b'\0\0\0\0') for n in range(17))
    yield many, ['section at byte 256: left out, it belongs to one more table than the 16 that this box can hold',
                 'sections: 16 taken, 0 held already, 1 refused', faults(1)]
    junk = chance.randbytes(500000)
    found = re.compile(r'sections: 2 taken, 0 held already, \d+ refused')
    yield junk + DRILL, [found, *SHOWN]
    # Each 0xFE that 3,840 others follow begins a heading of 3,841 bytes that fails its check. What is left is cut off.
    false = b'\xFE' * 100000
    yield false, ['bytes 0 to 3840' + CHECK + UNKNOWN, 'bytes 96025 to 99865' + CHECK + UNKNOWN, 'bytes 99866 to 99999' + CUT_OFF + UNKNOWN,
                  'sections: 0 taken, 0 held already, 27 refused', nowhere]
    yield DRILL + false + DRILL, [re.compile(r'sections: 2 taken, 2 held already, \d+ refused'), *SHOWN]
    # The library salvages 65,536 bytes at a time: good sections before and behind each place where it goes on, and over it.
    for before in range(61300, 65700, 400):
        yield bytes(before) + DRILL, ['bytes 0 to %d' % (before - 1) + KIND + UNKNOWN, 'sections: 2 taken, 0 held already, 1 refused', *SHOWN]
    yield changed(TWO, 3) + bytes(130000) + DRILL * 700 + bytes(70000), [
        'bytes %d to %d' % (len(TWO), len(TWO) + 129999) + KIND + UNKNOWN, 'sections: 2 taken, 1398 held already, 3 refused', *SHOWN]


# The words of a call, and what is said: status 2.
USAGE = 'usage: box [--whole] [--auxiliary BITS] FILE [MINUTES]; box --help says more'
RANGE = 'MINUTES %s: they have to be a whole number from -720 to 840'
WANTED = 'a FILE is wanted, and perhaps MINUTES; words given: %d'
CALLS = [([], WANTED % 0), (['--whole'], WANTED % 0), (['received', '480', 'more'], WANTED % 3),
         (['--hole', 'received'], 'there is no word --hole'), (['--whole', '--help'], 'there is no word --help'),
         (['--auxiliary'], NO_BITS), (['--whole', '--auxiliary'], NO_BITS), (['--auxiliary', '32'], WANTED % 0),
         (['--auxiliary', 'received'], BITS % 'received'), (['--auxiliary', '--whole', 'received'], BITS % '--whole'),
         (['--auxiliary32', 'received'], 'there is no word --auxiliary32'),
         *((['--auxiliary', bits, 'received'], BITS % bits) for bits in NOT_BITS),
         *((['received', minutes], RANGE % minutes) for minutes in (
             '841', '-721', '4294967776', '-4294966816', '8.5', '+08:00', '480x', '', 'x', '+', '0x10', '18446744073709552096'))]

# Minutes that are taken, and the start at them.
MINUTES = [('480', '03/11/2024 07:45:00 Sunday, UTC+08:00'), ('+480', '03/11/2024 07:45:00 Sunday, UTC+08:00'),
           ('-720', '02/11/2024 11:45:00 Saturday, UTC-12:00'), ('840', '03/11/2024 13:45:00 Sunday, UTC+14:00'),
           ('0', '02/11/2024 23:45:00 Saturday, UTC'), ('-30', '02/11/2024 23:15:00 Saturday, UTC-00:30')]
