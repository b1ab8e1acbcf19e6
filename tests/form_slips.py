"""Slips in a form and in the adapter's call, with the sentences and the status that have to come: by hand, from the rules."""
# SPDX-License-Identifier: MIT

# The good form, a line to a number from 1 on.
LINES = (
    b'identifier 36543200000000303010103202411030001', b'offset 480', b'start 03/11/2024 07:45:00', b'end 03/11/2024 08:15:00',
    b'type 11A01', b'class 3', b'level 4', b'network 1', b'version 0', b'resource 36543200000000303010103', b'language eng 0',
    b'text This is a drill.')
WORDS = [line.split()[0].decode() for line in LINES]
(IDENTIFIER, OFFSET, START, END, TYPE, CLASS, LEVEL, NETWORK, VERSION, RESOURCE, LANGUAGE, TEXT) = range(1, 13)

FOUR = 'it has to be a whole number from 1 to 4'
MINUTES = 'it has to be a whole number from -720 to 840'
NETWORKS = 'it has to be a whole number from 0 to 65535'
VERSIONS = 'it has to be a whole number from 0 to 31'
FORM = 'it has to be dd/mm/yyyy hh:mm:ss, day first, 19 characters'
END_FORM = FORM + ', or the word live'
MONTH = 'there is no such month (the day comes first, then the month)'
DAY = 'there is no such day in the calendar'
TIME = 'there is no such time of day'
RANGE = 'the day is out of the range 01/03/1900 to 22/04/2038'
RANGE_IN_UTC = 'in UTC, less the offset, ' + RANGE
REAL_DAY = 'it has to be a day of the calendar, year, month and day, from 19000301 to 20380422'
TYPES = 'it has to be 5 ASCII characters, none of them a space'
LETTERS = 'it has to be three letters a to z, a space and the number of a character set'
SET = 'the character set has to be a whole number from 0 to 4'
NOTHING = 'nothing stands after the word'

# A value in the place of the good form's: the line's number, the value, why it is refused.
VALUES = [
    (CLASS, '4294967300', FOUR), (CLASS, '4294967299', FOUR), (CLASS, '0', FOUR), (CLASS, '5', FOUR), (CLASS, '-3', FOUR),
    (CLASS, '+3', FOUR), (CLASS, '3.0', FOUR), (CLASS, '3,', FOUR), (CLASS, '3 4', FOUR), (CLASS, '0x3', FOUR),
    (CLASS, '3e0', FOUR), (CLASS, 'drill', FOUR), (CLASS, '18446744073709551619', FOUR), (CLASS, '3 # a drill', FOUR),
    (CLASS, '', NOTHING),
    (LEVEL, '4294967297', FOUR), (LEVEL, '0', FOUR), (LEVEL, '5', FOUR), (LEVEL, 'IV', FOUR),
    (NETWORK, '65536', NETWORKS), (NETWORK, '4294967297', NETWORKS), (NETWORK, '-1', NETWORKS), (NETWORK, '1 2', NETWORKS),
    (VERSION, '4294967297', VERSIONS), (VERSION, '32', VERSIONS), (VERSION, '-1', VERSIONS), (VERSION, '1.0', VERSIONS),
    (OFFSET, '4294967776', MINUTES), (OFFSET, '841', MINUTES), (OFFSET, '-721', MINUTES), (OFFSET, '-4294966816', MINUTES),
    (OFFSET, '8:00', MINUTES), (OFFSET, '+08:00', MINUTES), (OFFSET, '480 min', MINUTES), (OFFSET, '--480', MINUTES),
    (OFFSET, '+', MINUTES), (OFFSET, '+ 480', MINUTES), (OFFSET, '', NOTHING),
    (IDENTIFIER, '3654320000000030301010320241103001', 'it has to be 35 digits, and has 34'),
    (IDENTIFIER, '365432000000003030101032024110300001', 'it has to be 35 digits, and has 36'),
    (IDENTIFIER, '3654320O000000303010103202411030001', 'it has to be 35 digits, and byte 8 of it is none'),
    (IDENTIFIER, '36543200000000303010103 202411030001', 'it has to be 35 digits, and byte 24 of it is none'),
    (IDENTIFIER, '-6543200000000303010103202411030001', 'it has to be 35 digits, and byte 1 of it is none'),
    *((IDENTIFIER, '36543200000000303010103' + day + '0001', 'its day, digits 24 to 31, is %s: ' % day + REAL_DAY) for day in (
        '20240231', '20230229', '19000228', '20380423', '03112024', '20241303', '20241100', '20240011', '00000000', '99999999')),
    (IDENTIFIER, '', NOTHING),
    (RESOURCE, '12', 'it has to be 23 digits, and has 2'),
    (RESOURCE, '365432000000003030101034', 'it has to be 23 digits, and has 24'),
    (RESOURCE, '3654320000000030301010A', 'it has to be 23 digits, and byte 23 of it is none'),
    (START, '11/13/2024 07:45:00', MONTH), (START, '03/00/2024 07:45:00', MONTH), (START, '30/02/2024 07:45:00', DAY),
    (START, '29/02/2023 07:45:00', DAY), (START, '29/02/1900 07:45:00', DAY), (START, '31/04/2024 07:45:00', DAY),
    (START, '00/11/2024 07:45:00', DAY), (START, '03/11/2024 24:00:00', TIME), (START, '03/11/2024 07:60:00', TIME),
    (START, '03/11/2024 07:45:60', TIME), (START, '28/02/1900 12:00:00', RANGE), (START, '23/04/2038 00:00:00', RANGE),
    (START, '03/11/1824 07:45:00', RANGE), (START, '01/03/1900 07:59:59', RANGE_IN_UTC), (START, '3/11/2024 07:45:00', FORM),
    (START, '2024-11-03 07:45:00', FORM), (START, '03.11.2024 07:45:00', FORM), (START, '03/11/24 07:45:00', FORM),
    (START, '03/11/2024 07:45', FORM), (START, '03/11/2024  07:45:00', FORM), (START, '03/11/2024T07:45:00', FORM),
    (START, '03/11/2024 7:45:00 AM', FORM), (START, 'live', FORM), (START, '', NOTHING),
    (END, '03/11/2024 07:44:59', 'it is before the start, 03/11/2024 07:45:00'),
    (END, '02/11/2024 08:15:00', 'it is before the start, 03/11/2024 07:45:00'),
    (END, '03/11/2023 08:15:00', 'it is before the start, 03/11/2024 07:45:00'),
    (END, '03/11/2024 07:45:00', 'it is the start itself, so the message would never be shown'),
    (END, '11/13/2024 07:45:00', MONTH), (END, '03/11/2024 08:15:99', TIME), (END, '23/04/2038 00:00:00', RANGE),
    (END, 'Live', END_FORM), (END, 'live!', END_FORM), (END, 'never', END_FORM), (END, '', NOTHING),
    (TYPE, '11A0', TYPES), (TYPE, '11A012', TYPES), (TYPE, '11 01', TYPES), (TYPE, '', NOTHING),
    (LANGUAGE, 'en 0', LETTERS), (LANGUAGE, 'ENG 0', LETTERS), (LANGUAGE, 'engl 0', LETTERS), (LANGUAGE, 'eng0', LETTERS),
    (LANGUAGE, 'eng', LETTERS), (LANGUAGE, 'eng 5', SET), (LANGUAGE, 'eng 4294967296', SET), (LANGUAGE, 'eng -0', SET),
    (LANGUAGE, 'eng 0 0', SET), (LANGUAGE, 'eng GB2312', SET), (LANGUAGE, '', LETTERS)]


def form(*lines):
    return b''.join(line + b'\n' for line in lines)


def typed(number, line):
    """The good form with another line in the place of one; none where it is None."""
    return form(*LINES[:number - 1], *([] if line is None else [line]), *LINES[number:])


def told(*sentences):
    """What the adapter writes of these faults."""
    end = '%d fault%s: nothing is written' % (len(sentences), '' if len(sentences) == 1 else 's')
    return [*sentences, end]


def absent(word):
    return 'the form has no line that begins with ' + word


NO_TEXT = 'line 11, language eng 0: no text that is taken comes after it'
SIRENS = '演练'.encode()


def refused():
    """Forms that are refused with status 1: the form and each sentence, in their order."""
    for number, value, why in VALUES:
        line = (WORDS[number - 1] + ' ' + value).rstrip()
        yield typed(number, line.encode()), told('line %d, %s: %s' % (number, line, why))
    for number in range(IDENTIFIER, LANGUAGE):
        yield typed(number, None), told(absent(WORDS[number - 1]))
    yield (typed(LANGUAGE, None),
           told('line 11, text This is a drill.: a text has to come after its language', absent('language')))
    yield typed(TEXT, None), told(absent('text'), NO_TEXT)
    for number in range(IDENTIFIER, RESOURCE):
        line = LINES[number - 1].decode()
        again = 'line 13, %s: %s stands at line %d already' % (line, WORDS[number - 1], number)
        yield form(*LINES, line.encode()), told(again)
    yield form(*LINES, b'class 4'), told('line 13, class 4: class stands at line 6 already')
    yield from refused_lists()
    yield from refused_bytes()


def refused_lists():
    yield form(*LINES, LINES[9]), told('line 13, resource 36543200000000303010103: the same resource stands at line 10 already')
    yield (form(*LINES, b'language eng 2', b'text Two.'),
           told('line 13, language eng 2: the same language stands at line 11 already'))
    yield form(*LINES, b'language zho 2'), told('line 13, language zho 2: no text that is taken comes after it')
    languages = [line for letter in b'abcde' for line in (b'language xx%c 0' % letter, b'text x')]
    yield (form(*LINES, *languages),
           told('line 21, language xxe 0: there are 5 languages already, the most a message can have'))
    resources = [b'resource %023d' % n for n in range(255)]
    yield (form(*LINES, *resources), told(
        'line 267, resource 00000000000000000000254: there are 255 resources already, the most a message can have'))
    line, too_long = b'text ' + b'x' * 999, 'with it the text of the language at line 11 is longer than 65535 bytes'
    yield form(*LINES, *[line] * 66), told('line 78, text %s.. (999 bytes): %s' % ('x' * 80, too_long))
    yield (form(*LINES[:-1], *[line] * 65, b'text ' + b'y' * 535),
           told('line 77, text %s.. (535 bytes): %s' % ('y' * 80, too_long)))


def refused_bytes():
    """What an editor or a hand may leave in a form: each byte that isn't printed ASCII is shown as its number."""
    control, wide = "the control character \\x%02X can't stand in a form", form(*LINES).decode()
    utf16 = ['the form is in UTF-16: it has to be saved as UTF-8 or plain text']
    yield b'', ['the form is empty']
    yield b'# nothing but a remark\n', told(*map(absent, WORDS))
    yield b'\n\n', told(*map(absent, WORDS))
    yield from ((b'\xFF\xFE' + wide.encode('utf-16-le'), utf16), (b'\xFE\xFF' + wide.encode('utf-16-be'), utf16))
    yield b'#' * (1 << 20) + b'\n', ['the form is longer than 1048576 bytes']
    yield typed(CLASS, b'class 3\0'), told('line 6, class 3\\x00: ' + control % 0, absent('class'))
    yield typed(CLASS, b'class \x003'), told('line 6, class \\x003: ' + control % 0, absent('class'))
    yield form(b'# \0', *LINES), told('line 1, # \\x00: ' + control % 0)
    yield typed(CLASS, b'class 3\r4'), told('line 6, class 3\\x0D4: ' + control % 13, absent('class'))
    yield (typed(TEXT, b'text \x1B[2JAll clear.'),
           told('line 12, text \\x1B[2JAll clear.: ' + control % 27, absent('text'), NO_TEXT))
    yield typed(TEXT, b'text All\x7F'), told('line 12, text All\\x7F: ' + control % 127, absent('text'), NO_TEXT)
    yield typed(TEXT, b'text a\tb'), told("line 12, text a\\x09b: a tab (\\x09) can't stand inside a text", NO_TEXT)
    yield typed(TEXT, b'text'), told('line 12, text: ' + NOTHING, NO_TEXT)
    yield typed(CLASS, b'Class 3'), told('line 6, Class 3: there is no such word', absent('class'))
    yield typed(CLASS, b'class=3'), told('line 6, class=3: there is no such word', absent('class'))
    yield typed(CLASS, b'class\xC2\xA03'), told('line 6, class\\xC2\\xA03: there is no such word', absent('class'))
    yield form(*LINES, b'channel 1'), told('line 13, channel 1: there is no such word')
    yield typed(CLASS, 'class ３'.encode()), told('line 6, class \\xEF\\xBC\\x93: ' + FOUR)
    yield typed(OFFSET, 'offset −480'.encode()), told('line 2, offset \\xE2\\x88\\x92480: ' + MINUTES)
    yield typed(START, b'start 03/11/2024\t07:45:00'), told('line 3, start 03/11/2024\\x0907:45:00: ' + FORM)
    yield typed(TYPE, b'type 11A0\xE9'), told('line 5, type 11A0\\xE9: ' + TYPES)
    yield typed(LANGUAGE, b'language \xE9ng 0'), told('line 11, language \\xE9ng 0: ' + LETTERS)
    shown = '\\xE6\\xBC\\x94\\xE7\\xBB\\x83'
    yield typed(TEXT, b'text ' + SIRENS), told('line 12, text %s: \\x94 begins no character of character set 0' % shown, NO_TEXT)
    yield (form(*LINES, b'language zho 2', b'text ' + SIRENS[:-1]), told(
        'line 14, text %s: \\xE7 begins no character of character set 2' % shown[:-4],
        'line 13, language zho 2: no text that is taken comes after it'))
    for number, text in ((0, 'A1'), (0, 'F8A1'), (0, 'A1A0'), (1, '81'), (1, '81FF'), (1, '813081'), (2, '80'), (2, 'C080'),
                         (2, 'E08080'), (2, 'EDA080'), (2, 'F0808080'), (2, 'F4908080'), (2, 'F8888080')):
        data = bytes.fromhex(text)
        shown = ''.join(chr(byte) if byte < 0x80 else '\\x%02X' % byte for byte in data)
        yield (form(*LINES, b'language zho %d' % number, b'text ' + data), told(
            'line 14, text %s: %s begins no character of character set %d' % (shown, shown[:4], number),
            'line 13, language zho %d: no text that is taken comes after it' % number))
    yield (form(b'class 9', b'level 9', b'text x', b'colour 1'), told(
        'line 1, class 9: ' + FOUR, 'line 2, level 9: ' + FOUR, 'line 3, text x: a text has to come after its language',
        'line 4, colour 1: there is no such word', *(absent(word) for word in WORDS if word not in ('class', 'level', 'text'))))


# Forms that say what the good form says: their sections are its sections.
SAME = [
    form(*LINES).replace(b'\n', b'\r\n'), b'\xEF\xBB\xBF' + form(*LINES), form(*LINES)[:-1], form(*LINES)[:-1] + b'\r',
    form(*(line + b' \t ' for line in LINES)), form(*(line.replace(b' ', b'\t', 1) for line in LINES)),
    form(*(b'\t ' + line.replace(b' ', b' \t  ', 1) for line in LINES)), form(b'# a remark', b'', *LINES, b' \t', b'\t# another'),
    form(*LINES[1:], LINES[0]), form(*LINES[::-1][2:], *LINES[-2:]), typed(OFFSET, b'offset +480'), typed(NETWORK, b'network 00001'),
    b'\xEF\xBB\xBF' + form(*(line + b' ' for line in LINES)).replace(b'\n', b'\r\n'), typed(LANGUAGE, b'language eng \t 0')]

# Other good forms: the lines in the place of the good form's, what the box shows of them at 480 minutes, what is remarked.
OTHERS = [
    ({}, ['  start       03/11/2024 07:45:00 Sunday, UTC+08:00', '  end         03/11/2024 08:15:00 Sunday, UTC+08:00',
          '  class       3, actual drill', '  level       4, ordinary', '  type        11A01', '  network     1', '  version     0',
          '  resource    36543200000000303010103', '    | This is a drill.'], []),
    ({END: b'end live'}, ['  end         live, until it is called off'], []),
    ({CLASS: b'class 4'}, ['  class       4, emergency broadcast'], ['line 6, class 4: this is an emergency and no drill']),
    ({CLASS: b'class 1', LEVEL: b'level 1'}, ['  class       1, drill of the issuing system', '  level       1, very grave'], []),
    ({CLASS: b'class 2', LEVEL: b'level 2'}, ['  class       2, simulated drill', '  level       2, grave'], []),
    ({NETWORK: b'network 65535', VERSION: b'version 31', TYPE: b'type ~!azZ'},
     ['  type        ~!azZ', '  network     65535', '  version     31'], []),
    ({START: b'start 01/03/1900 08:00:00'}, ['  start       01/03/1900 08:00:00 Thursday, UTC+08:00'], []),
    ({END: b'end 22/04/2038 23:59:59'}, ['  end         22/04/2038 23:59:59 Thursday, UTC+08:00'], []),
    ({START: b'start 29/02/2024 00:00:00', OFFSET: b'offset -720'}, ['  start       29/02/2024 20:00:00 Thursday, UTC+08:00'], []),
    ({OFFSET: b'offset 840', START: b'start 03/11/2024 13:45:00', END: b'end 03/11/2024 14:15:00'},
     ['  start       03/11/2024 07:45:00 Sunday, UTC+08:00'], []),
    ({LANGUAGE: b'language zho 2', TEXT: b'text ' + SIRENS}, ['    | 演练'], []),
    ({TEXT: b'text One.\ntext Two.'}, ['    | One.', '    | Two.'], []),
    ({TEXT: (b'text ' + b'x' * 999 + b'\n') * 65 + b'text ' + b'y' * 534},
     ['  text        eng, version 0, character set 0 (GB/T 2312-1980), 65535 bytes',
      '    (more lines: 62, which box --whole shows)'], []),
    ({TEXT: b'text # no remark'}, ['    | # no remark'], [])]

USAGE = 'usage: adapter [--auxiliary BITS] FILE, with the form on standard input'

# No variant of auxiliary lengths, and what is said of it.
BITS, NO_BITS = "BITS %s: an auxiliary file's length has 24 or 32 of them", '--auxiliary: BITS have to follow, 24 or 32'
NOT_BITS = ('25', '31', '23', '33', '0', '-24', '+24', '24x', '0x20', '24.0', '4', '3', '', 'x', '280', '4294967320',
            '18446744073709551648')

# The words of a call, and what is said: status 2.
CALLS = [
    ([], '0 words are given, and one is wanted'), (['sent', 'more'], '2 words are given, and one is wanted'),
    (['--version'], "'--version' is taken for no file's name"), (['-'], "'-' is taken for no file's name"),
    ([''], "'' is taken for no file's name"), (['--auxiliary', '32'], '0 words are given, and one is wanted'),
    (['--auxiliary', '24', 'sent', 'more'], '2 words are given, and one is wanted'), (['--auxiliary'], NO_BITS),
    (['--auxiliary', '32', '--auxiliary'], "'--auxiliary' is taken for no file's name"),
    (['sent', '--auxiliary', '32'], '3 words are given, and one is wanted'),
    *((['--auxiliary', bits, 'sent'], BITS % bits) for bits in (*NOT_BITS, 'sent'))]
