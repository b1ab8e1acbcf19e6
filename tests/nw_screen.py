"""What `nw screen` says a box shows, and why, of captures by hand and by chance: nw_screen.py HOW SECONDS PROGRAM..

Which message is shown is a second program's word (second_screen), and so it has to be of the requests by hand; why the others are not is worked out here
from the values that the bytes are made of. Every line of the output is held to that.
"""
# SPDX-License-Identifier: MIT
import datetime
import os
import random
import subprocess
import sys
import tempfile
import time

import make_captures as make
import make_fields
from make_captures import line
from second_packets import packed
from second_screen import choose

HOW, SECONDS, PROGRAM = sys.argv[1], float(sys.argv[2]), sys.argv[3:]
USAGE = 'usage: nw screen --code DIGITS --at TIME [--auxiliary BITS] [--offset OFFSET] CAPTURE; nw screen --help says more'
OWN, OTHER = make.RESOURCE, make.NEIGHBOUR
NOW = datetime.datetime(2024, 11, 2, 23, 50)
EPOCH = datetime.datetime(1858, 11, 17)
NOT_WELL = 'not everything is whole and accepted: a box may show something else'
UNTOLD = "no index table is whole and accepted: what is shown can't be told"
CHINESE = '这是演练。' if len(PROGRAM) == 1 else 'A drill.'  # an emulator's C library may have no such locale
chance = random.Random(108)
wrong, tried = [], 0


def run(words, data=b'', **more):
    given = {'input': data} if 'stdin' not in more else {}
    more.setdefault('stdout', subprocess.PIPE)
    done = subprocess.run([*PROGRAM, 'screen', *words], stderr=subprocess.PIPE, timeout=300, check=False, env={**os.environ, 'LC_ALL': 'C.UTF-8'},
                          **given, **more)
    return done.returncode, (done.stdout or b'').decode(), done.stderr.decode()


def expect(what, got, wanted):
    """Notes a fault unless status, output (None for any) and standard error are these."""
    global tried
    tried += 1
    for name, here, there in zip(('status', 'output', 'standard error'), got, wanted):
        if there is not None and here != there:
            wrong.append('%s: %s\n%s\nand not\n%s' % (what, name, here, there))


# ---- what has to be said


def shown_of(index, code, now):
    """The message to show, by the second program, or None."""
    since = now - EPOCH
    found = choose(make.INDEX, index.body(), bytes(map(int, code)), since.days, since.seconds)
    return None if found == 'none' else found[0]


def why_not(messages, at, shown, code, now, offset):
    """Why a message is not the one."""
    m, best = messages[at], messages[shown] if shown is not None else None
    start, end = line(1, 'start', make.in_words(m.start, offset)), line(1, 'end', make.in_words(m.end, offset))
    if code not in m.resources:
        others = len(m.resources)
        return ['it lists no code' if not others else 'it does not list this code: it has %d other%s' % (others, '' if others == 1 else 's')]
    if m.end is not None and m.end <= m.start:
        return ['its end is not after its start, so that it is never shown', start, end]
    if now < m.start:
        return ['it has not begun', start]
    if m.end is not None and m.end <= now:
        return ['it has ended', end]
    before = 'message %d has ' % (shown + 1)
    if best.level < m.level:
        return [before + 'a smaller level number', line(1, 'level', '%d, %s' % (m.level, make.LEVELS[m.level]))]
    if best.level == m.level and best.start < m.start:
        return [before + 'the same level and an earlier start', start]
    assert (best.level, best.start) == (m.level, m.start) and shown < at, 'the second program chooses otherwise'
    return [before + 'the same level and start, and stands before it']


def content_said(message, contents):
    """Of a message that is shown: its content table's texts, in whichever state it came."""
    extension, content = message.extension(), contents.get(message.identifier)
    if content is None:
        return [line(0, 'content', 'none has come whole; it would be content table %04X' % extension)]
    return [line(0, 'content', 'content table %04X, version %d' % (extension, content.version)), *content.said(None)[1:-1]]


def index_said(index, code, now, offset, contents, before=''):
    """The lines of an index table, and the message that is shown."""
    messages, count, shown = index.messages, len(index.messages), shown_of(index, code, now)
    on = sum(code in m.resources and m.start <= now and (m.end is None or now < m.end) for m in messages)
    told = 'message %d of %d is shown' % (shown + 1, count) if shown is not None else 'no message is shown' if count else 'it has no message'
    said = ['', '%s: %s' % (index.name(), told), *index.whole(len(index.sections()), before=before)[1:]]
    if shown is not None:
        m = messages[shown]
        said += [line(0, 'identifier', m.identifier), line(0, 'level', '%d, %s' % (m.level, make.LEVELS[m.level])),
                 line(0, 'class', '%d, %s' % (m.class_, make.CLASSES[m.class_])), line(0, 'start', make.in_words(m.start, offset)),
                 line(0, 'end', make.in_words(m.end, offset)), *content_said(m, contents)]
    for at, m in enumerate(messages):
        said.append('  message %d of %d, %s' % (at + 1, count, m.identifier))
        if at == shown:
            said.append(line(1, 'shown', 'it alone lists this code and is on' if on == 1 else 'of the %d that list this code and are on, it goes first' % on))
        else:
            reason, *facts = why_not(messages, at, shown, code, now, offset)
            said += [line(1, 'not shown', reason), *facts]
    return said, shown


def question(name, code, now, offset):
    how = ', as TIME is without --offset' if offset is None else ''
    return ['%s' % name, line(0, 'code', code), line(0, 'time', make.in_words(now, offset) + how)]


def words_of(code, now, offset):
    local = now + datetime.timedelta(minutes=offset or 0)
    return ['--code', code, '--at', local.strftime('%d/%m/%Y %H:%M:%S'), *([] if offset is None else ['--offset', str(offset)]), '-']


def said_of(indexes, contents, code, now, offset):
    """All lines of a capture in which every table is whole, its status and the numbers that are shown."""
    data = b''.join(s for table in [*indexes, *contents] for s in table.sections())
    lines, numbers = question('capture standard input', code, now, offset), []
    by_identifier = {content.identifier: content for content in contents}
    for index in indexes:
        said, shown = index_said(index, code, now, offset, by_identifier)
        lines += said
        numbers.append(shown)
    sections, tables = sum(len(table.sections()) for table in [*indexes, *contents]), len(indexes) + len(contents)
    identifiers = [m.identifier for index in indexes for m in index.messages]
    missing, strays = sum(one not in by_identifier for one in identifiers), sum(one not in identifiers for one in by_identifier)
    lines += ['', make.summed(data, sections, 0, 0, 0), 'tables: %d, of which %d whole and %d accepted' % (tables, tables, tables)]
    lines += ['messages without their content table: %d' % missing] * (missing > 0) + ['content tables without their message: %d' % strays] * (strays > 0)
    lines += ['index tables: %d; which of them a box takes, the standard does not say' % len(indexes)] * (len(indexes) > 1)
    shown = [(index, number) for index, number in zip(indexes, numbers) if number is not None]
    if len(shown) == 1:
        lines.append('message %s is shown' % shown[0][0].messages[shown[0][1]].identifier)
    else:
        lines.append('a message is shown of %d index tables' % len(shown) if shown else 'nothing is shown')
    lines += [NOT_WELL] * (missing + strays > 0)
    return data, lines, 1 if missing + strays else 0 if shown else 3, numbers


def try_whole(what, indexes, contents=(), code=OWN, now=NOW, offset=None, wanted=None):
    """Every line of the output; by hand, also the numbers that have to be shown."""
    data, lines, status, numbers = said_of(indexes, list(contents), code, now, offset)
    if wanted is not None and numbers != wanted:
        wrong.append('%s: the second program shows %r and not %r' % (what, numbers, wanted))
    expect(what, run(words_of(code, now, offset), data), (status, '\n'.join(lines) + '\n', ''))


# ---- by hand


def message(number, level=4, start=-60, end=60, codes=(OWN,), class_=3):
    """A message by its start and end, in seconds from the instant; None is live."""
    def at(seconds):
        return None if seconds is None else NOW + datetime.timedelta(seconds=seconds)
    return make.Message(OWN + '20241103' + '%04d' % number, at(start), at(end), level, list(codes), class_=class_)


def texts(m, *more, version=1):
    return make.Content(m, [('eng', 2, 'Go on foot: %s.\nTo the yard.' % m.identifier[-4:], 'County', []), *more], version)


def try_order():
    """Ties at each step, edges and live ends, codes that differ in one digit."""
    def one(what, messages, wanted):
        numbered = [message(i + 1, **fields) for i, fields in enumerate(messages)]
        try_whole(what, [make.Index(numbered, 3)], [texts(m) for m in numbered], wanted=[wanted])
    first, last = '4' + OWN[1:], OWN[:-1] + '4'
    one('no message', [], None)
    one('one', [{}], 0)
    one('no codes', [{'codes': ()}], None)
    one('another first digit', [{'codes': (first,)}], None)
    one('another last digit', [{'codes': (last,)}], None)
    one('the second code', [{'codes': (last, OWN)}], 0)
    one('at its start', [{'start': 0}], 0)
    one('a second before its start', [{'start': 1}], None)
    one('a second before its end', [{'end': 1}], 0)
    one('at its end', [{'end': 0}], None)
    one('after its end', [{'end': -1}], None)
    one('live', [{'end': None}], 0)
    one('live, not begun', [{'start': 1, 'end': None}], None)
    one('never on', [{'start': 5, 'end': 5}, {'start': -5, 'end': -9}, {'start': 9, 'end': 5}], None)
    one('the smallest level', [{'level': 3, 'start': -9}, {'level': 2, 'start': 0}, {'level': 3, 'start': -9}], 1)
    one('the earliest start', [{'level': 2, 'start': -1}, {'level': 2, 'start': -2}, {'level': 2, 'start': -2}], 1)
    one('the first', [{'level': 2}, {'level': 2}, {'level': 2}], 0)
    one('each step', [{'level': 1, 'codes': ()}, {'level': 1, 'end': 0}, {'level': 1, 'start': 1}, {}, {}, {'start': -9}, {'level': 3},
                      {'level': 3, 'class_': 4}], 6)


def try_times():
    """Local time, both ends of the days that there are, and the clock."""
    m = message(1)
    for offset in None, 0, 480, -330, 840, -720:
        try_whole('at %r' % offset, [make.Index([m], 0)], [texts(m)], offset=offset, wanted=[0])
    ends = datetime.datetime(1900, 3, 1), datetime.datetime(2038, 4, 22, 23, 59, 59)
    edge = make.Message(OWN + '203804220001', *ends, 1, [OWN])
    for now, wanted in (ends[0], 0), (ends[1] - datetime.timedelta(seconds=1), 0), (ends[1], None):
        try_whole('at %s' % now, [make.Index([edge], 0)], [texts(edge)], now=now, wanted=[wanted])
    live = make.Message(OWN + '202411030001', ends[0], None, 1, [OWN])
    data = b''.join(make.Index([live], 0).sections() + texts(live).sections())
    before = datetime.datetime.now(datetime.timezone.utc).replace(tzinfo=None, microsecond=0)
    got = run(['--code', OWN, '--at', 'now', '-'], data)
    after = datetime.datetime.now(datetime.timezone.utc).replace(tzinfo=None, microsecond=0)
    told = [line(0, 'time', (before + datetime.timedelta(seconds=n)).strftime("%A %d/%m/%Y %H:%M:%S UTC, by this computer's clock"))
            for n in range((after - before).seconds + 1)]
    expect('now', (got[0], got[1].split('\n')[2] in told, got[2]), (0, True, ''))


def try_tables():
    """Several index tables, several languages, messages without their texts, and what no message has."""
    one, two = message(1), message(2, level=1, codes=(OTHER,))
    try_whole('two index tables, one of them shows', [make.Index([one], 3), make.Index([two], 4, 7)], [texts(one), texts(two)], wanted=[0, None])
    try_whole('two that show', [make.Index([one], 3), make.Index([one, two], 4, 7)], [texts(one), texts(two)], wanted=[0, 0])
    try_whole('two that do not', [make.Index([], 3), make.Index([two], 4, 7)], [texts(two)], wanted=[None, None])
    try_whole('no texts', [make.Index([one], 3)], wanted=[0])
    try_whole('texts that no message has', [make.Index([one], 3)], [texts(one), texts(two)], wanted=[0])
    try_whole('two languages', [make.Index([one], 3)], [texts(one, ('zho', 2, CHINESE, CHINESE, [(9, b'picture')]))], wanted=[0])
    many = [message(n, level=1 + n % 4, start=-n) for n in range(255)]
    try_whole('255 messages', [make.Index(many, 0)], list(map(texts, many)), wanted=[252])


# ---- damage: it is said, and the status is 1


def lines_in(what, data, wanted, status=1, words=()):
    """Notes a fault unless the output has these lines in this order."""
    got = run([*words, '--code', OWN, '--at', NOW.strftime('%d/%m/%Y %H:%M:%S'), '-'], data)
    expect(what, (got[0], None, got[2]), (status, None, ''))
    told, at = got[1].split('\n'), 0
    for fact in wanted:
        if fact not in told[at:]:
            wrong.append('%s: it does not say %r after %r:\n%s' % (what, fact, told[at - 1] if at else 'its begin', got[1]))
            return
        at = told.index(fact, at) + 1


def try_damage():
    m, content = message(1), texts(message(1))
    index = make.Index([m, message(2, level=1, codes=())], 3)
    shown, ends = 'index table 0000, version 3: message 1 of 2 is shown', ['message %s is shown' % m.identifier, NOT_WELL, '']
    sent = index.sections() + content.sections()
    lines_in('junk before it', b'junk' + b''.join(sent), [shown, line(0, 'content', 'content table %04X, version 1' % content.extension),
             'all in all: %d bytes; sections: 2 taken, 0 held already, 0 refused; 4 bytes skipped' % len(b'junk' + b''.join(sent)), *ends])
    pieces = index.sections(60)
    lines_in('an index table in pieces, twice', b''.join(pieces * 2 + content.sections()), [shown, *ends])
    missing = ['index table 0000, version 3: what is shown can\'t be told', line(0, 'sections', '1 of 2, 60 bytes; 0 repeats, 0 refused'),
               line(0, 'versions seen', '3'), line(0, 'missing', '1'), line(0, 'verdict', 'not whole: a section is missing (refusal 13, number 1)'),
               UNTOLD, NOT_WELL]
    lines_in('a section is missing', b''.join([pieces[0], *content.sections()]), missing)
    body = index.body()
    refused = b''.join(make.cut(make.INDEX, 0, 3, body[:23] + b'\0' * 5 + body[28:]) + content.sections())
    lines_in('a refused index table', refused, ['index table 0000, version 3: what is shown can\'t be told', line(
        0, 'verdict', 'refused: the day or the time is impossible or out of range (refusal 20 at byte 23 of the body)'), NOT_WELL])
    other = make.Index([m], 4, 7)
    lines_in('one refused, one good', refused + b''.join(other.sections()), ['index table 0007, version 4: message 1 of 1 is shown', *ends])
    parts = content.sections(40)
    lines_in('texts that are not whole', b''.join(index.sections() + parts[1:]), [
        shown, line(0, 'content', 'none has come whole; it would be content table %04X' % content.extension),
        '', content.name(), line(0, 'missing', '0'), line(0, 'verdict', 'not whole: a section is missing (refusal 13, number 0)'), *ends])
    spoiled = content.body().replace(b'eng\xFA', b'eng\x0A')
    lines_in('texts that are refused', b''.join(index.sections() + make.cut(make.CONTENT, content.extension, 1, spoiled)), [
        shown, line(0, 'content', 'content table %04X, version 1, is refused, as is said below' % content.extension), content.name(),
        line(0, 'verdict', 'refused: a reserved bit is wrong (refusal 17 at byte %d of the body)' % (spoiled.index(b'eng\x0A') + 3)), *ends])
    nasty = make.Content(m, [('eng', 2, 'a\x1B[2J\x9B\u202Eb', '', [])], 1)
    lines_in('texts that would steer a terminal', b''.join(make.Index([m], 3).sections() + nasty.sections()), [
        '      | a\\u{1B}[2J\\u{9B}\\u{202E}b', 'message %s is shown' % m.identifier], 0)
    older, newer = make.Index([], 2), make.Index([m], 3)
    lines_in('a newer version', b''.join(older.sections() + newer.sections() + content.sections()), [
        'index table 0000, version 3: message 1 of 1 is shown', line(0, 'versions seen', '2 (whole), then 3'), 'message %s is shown' % m.identifier], 0)
    lines_in('nothing', b'', ['the capture is empty', UNTOLD, NOT_WELL])
    lines_in('no index table', b''.join(make.Certificates([], [], 0).sections()), ['tables: 1, of which 1 whole and 1 accepted',
             UNTOLD])


def try_packets():
    """The same in a transport stream; with a packet lost."""
    m = message(1)
    index, content = make.Index([m], 3), texts(m, ('zho', 2, CHINESE * 90, '', []))
    packets = []
    for section in index.sections() + content.sections():
        packets += packed(section, len(packets) % 16)
    said = ['index table 0000, version 3: message 1 of 1 is shown', 'packets: %d on PID 0x0021, of which 0 repeated, 0 of other PIDs, 0 with the error bit, '
            '0 refused; losses: 0' % len(packets), 'message %s is shown' % m.identifier]
    lines_in('packets', b''.join(packets), said, 0)
    lines_in('a packet lost', b''.join(packets[:3] + packets[4:] + packets), [said[0], 'message %s is shown' % m.identifier, NOT_WELL])


# ---- words


def try_words():
    good, at = ['--code', OWN], ['--at', '02/11/2024 23:50:00']
    times = ": a TIME has to be 'dd/mm/yyyy hh:mm:ss', day first and in quotes, or now"
    for words, said in (
            ([], '--code is wanted: the 23 digits of the box\'s resource code'), (['good'], '--code is wanted: the 23 digits of the box\'s resource code'),
            ([*good, 'good'], '--at is wanted: a TIME in quotes, or now'), ([*good, *at], 'CAPTURE is wanted: a file\'s name, or - for standard input'),
            (['--code'], '--code: DIGITS have to follow, the 23 of a resource code'), ([*good, *good], '--code: it is given already'),
            (['--at'], '--at: a TIME has to follow, in quotes, or now'), ([*at, *at], '--at: it is given already'),
            ([*good, *at, 'good', 'more'], 'more: there is a CAPTURE already, and one is read'), (['--json', 'good'], '--json: there is no such word'),
            ([*good, *at, '--', 'good', '--at'], '--at: there is a CAPTURE already, and one is read'),
            (['--code', OWN[:-1]], '%s: a resource code has 23 digits, and here are 22' % OWN[:-1]),
            (['--code', OWN + '0'], '%s0: a resource code has 23 digits, and here are 24' % OWN),
            (['--code', OWN[:-1] + 'x'], '%sx: a resource code is 23 digits and nothing else' % OWN[:-1]),
            (['--code', OWN[:11] + ' ' + OWN[12:]], '%s %s: a resource code is 23 digits and nothing else' % (OWN[:11], OWN[12:])),
            (['--code', ''], '(an empty word): a resource code is 23 digits and nothing else'),
            (['--code', '\x1B[2J'], '\\x1B[2J: a resource code is 23 digits and nothing else'),
            (['--code', '\x80' * 23], '%s: a resource code is 23 digits and nothing else' % ('\\xC2\\x80' * 23)),
            (['--at', '02/11/2024', '23:50:00', 'good'], '02/11/2024' + times), (['--at', 'NOW'], 'NOW' + times), (['--at', ''], '(an empty word)' + times),
            (['--at', '2/11/2024 23:50:00'], '2/11/2024 23:50:00' + times), (['--at', '2024-11-02 23:50:00'], '2024-11-02 23:50:00' + times),
            (['--at', '02/11/2024 23:50:00 '], '02/11/2024 23:50:00 ' + times), (['--at', '02/11/2024 23:50'], '02/11/2024 23:50' + times),
            ([*good, '--at', '13/24/2024 07:50:00', 'good'], '13/24/2024 07:50:00: there is no such month (the day comes first, then the month)'),
            ([*good, '--at', '30/02/2024 07:50:00', 'good'], '30/02/2024 07:50:00: there is no such day in the calendar'),
            ([*good, '--at', '28/02/2024 24:00:00', 'good'], '28/02/2024 24:00:00: there is no such time of day'),
            ([*good, '--at', '28/02/1900 00:00:00', 'good'], '28/02/1900 00:00:00: the day is out of the range 01/03/1900 to 22/04/2038'),
            ([*good, '--at', '01/03/1900 07:59:59', '--offset', '+08:00', 'good'],
             '01/03/1900 07:59:59: in UTC, less the offset, the day is out of the range 01/03/1900 to 22/04/2038'),
            ([*good, *at, '--offset', '+0800', 'good'], '+0800: an OFFSET has to be a whole number of minutes from -720 to 840, or as +08:00'),
            ([*good, *at, '--auxiliary', '16', 'good'], '16: BITS have to be 24 or 32')):
        expect('%r' % words, run(words), (2, '', 'nw screen: %s\n%s\n' % (said, USAGE)))
    for name, said in ('none', "none can't be opened: No such file or directory"), ('folder', "folder can't be read: Is a directory"):
        expect(name, run([*good, *at, name]), (2, '', 'nw screen: %s\n' % said))
    for words in [*good, *at, 'good'], ['--help']:
        with open('/dev/full', 'wb') as full:
            expect('a full disk', run(words, stdout=full), (2, '', "nw screen: the output can't be written: No space left on device\n"))
        expect('output closed', run(words, preexec_fn=lambda: os.close(1)), (2, '', "nw screen: the output can't be written: Bad file descriptor\n"))
    told = ' '.join(run(['--help'])[1].split())
    for word in '--code DIGITS', '--at TIME', 'now', '--offset OFFSET', 'else UTC', 'Exit status: 0, ', '3, no message', '1, something', '2, wrong usage':
        if word not in told:
            wrong.append('--help does not say %s' % word)


FORM = """table index
  extension 0x0000
  version 5
  message %s
    network 1
    start 03/11/2024 07:45:00 +08:00
    end live
    type 11A01
    class 3
    level 4
    resource %s
  signature none
""" % (OWN + '202411030001', OWN)


def try_form():
    """A form stands for a capture; one with a fault is refused by its line."""
    for name, text in ('form', FORM), ('faulty', FORM.replace('level 4', 'level 5')):
        with open(name, 'w', encoding='utf-8') as file:
            file.write(text)
    words = ['--code', OWN, '--at', '03/11/2024 07:50:00', '--offset', '+08:00']
    got = run([*words, 'form'])
    expect('a form', (got[0], got[1].split('\n')[0], got[2]), (1, 'form form', ''))
    ends = ['tables: 1, of which 1 whole and 1 accepted', 'messages without their content table: 1', 'message %s202411030001 is shown' % OWN,
            'messages and content tables do not all belong together', '']
    expect('the end of it', ('index table 0000, version 5: message 1 of 1 is shown' in got[1].split('\n'), got[1].split('\n')[-5:]), (True, ends))
    expect('a faulty form', run([*words, 'faulty']), (2, '', "nw screen: faulty, line 10, column 11: 5: level has to be a whole number from 1 to 4\n"
                                                      'nw screen: faulty has 1 fault: nothing is made of it\n'))


# ---- by chance


def near():
    return NOW + datetime.timedelta(seconds=chance.choice((0, 0, 1, -1, chance.randint(-9, 9), chance.randint(-10**6, 10**6))))


def message_by_chance(number, levels, starts):
    codes = [chance.choice((OWN, OWN, OTHER, '0' + OWN[1:])) for _ in range(chance.choice((0, 1, 1, 2, 3)))]
    identifier = OTHER + make_fields.real_day(chance.randrange(10**8)) + '%04d' % number
    return make.Message(identifier, chance.choice(starts), None if chance.random() < 0.4 else near(), chance.choice(levels), codes,
                        class_=chance.randint(1, 4))


def try_by_chance():
    indexes, contents = [], []
    for extension in range(chance.choice((1, 1, 1, 2, 3))):
        levels, starts = chance.choice(((1,), (4,), (1, 2), (1, 2, 3, 4))), [near() for _ in range(2)]
        messages = [message_by_chance(20 * extension + n, levels, starts) for n in range(chance.choice((0, 1, 2, 3, 5, 8, 20)))]
        indexes.append(make.Index(messages, chance.randrange(32), extension))
        contents += [texts(m, version=chance.randrange(32)) for m in messages if chance.random() < 0.95]
    if len({content.extension for content in contents}) == len(contents):  # else two are one table
        try_whole('by chance', indexes, contents, offset=chance.choice((None, 0, 480, -330)))


with tempfile.TemporaryDirectory() as scratch:
    os.chdir(scratch)
    os.mkdir('folder')
    with open('good', 'wb') as file:
        file.write(b''.join(make.Index([], 0).sections()))
    for part in try_order, try_times, try_tables, try_damage, try_packets, try_words, try_form:
        part()
    began = time.monotonic()
    while not wrong and (tried < 150 or time.monotonic() - began < SECONDS):
        try_by_chance()
    os.chdir('/')
if wrong or tried < 100:
    sys.exit('%s\n%s: %d faults in %d answers' % ('\n'.join(wrong[:10]), HOW, len(wrong), tried))
print('%s: %d answers of nw screen, each message with the reason why it is shown or not' % (HOW, tried))
