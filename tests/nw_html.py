"""The page of `nw show --html` beside what `--json` tells of the same capture: nw_html.py HOW PROGRAM..

The page is read strictly, by a parser of our own and, where Debian's html5lib is there, by that too; it runs nothing and loads nothing.
"""
# SPDX-License-Identifier: MIT
import datetime
import json
import os
import random
import re
import subprocess
import sys
import tempfile

import html_tree
import make_captures as make
import stream_slips as streams

try:
    import html5lib
except ImportError:
    html5lib = None

HOW, PROGRAM = sys.argv[1], sys.argv[2:]
wrong, pages, rows = [], 0, 0
ODD = [(0, 0x1F), (0x7F, 0x9F), (0x61C, 0x61C), (0x200B, 0x200F), (0x2028, 0x202E), (0x2060, 0x206F), (0xFEFF, 0xFEFF), (0xFFFE, 0xFFFF)]


def run(words, data=b'', where='C.UTF-8', **more):
    done = subprocess.run([*PROGRAM, *words], input=data, capture_output=True, timeout=300, check=False, env={**os.environ, 'LC_ALL': where}, **more)
    return done.returncode, done.stdout, done.stderr.decode()


def expect(what, told, real):
    if told != real:
        wrong.append('%s: %.400r and not %.400r' % (what, told, real))


# ---- what has to stand in a page, by what JSON tells


def bits(field):
    """A field's bytes, with dots for bits that are not its own."""
    data, stop, out = bytes.fromhex(field['bytes']), field['bit'] + field['bits'], []
    for at, byte in enumerate(data):
        own = [at * 8 + i >= field['bit'] and at * 8 + i < stop for i in range(8)]
        halves = [own[:4], own[4:]]
        if all(all(half) or not any(half) for half in halves):
            out.append(''.join('%X' % (byte >> 4 - 4 * i & 15) if all(half) else '.' for i, half in enumerate(halves)))
        else:
            out.append(''.join(str(byte >> 7 - i & 1) if is_own else '.' for i, is_own in enumerate(own)))
    return ' '.join(out) or 'no byte'


def value(field):
    if field['refusal']:
        return 'refused here: %s (refusal %d)' % (field['words'], field['refusal'])
    size = len(field['bytes']) // 2
    if field['role'] == 'hex':
        return '%d bytes' % size
    return None if field['role'] == 'text' else field['words']


def spelt(text):
    text = text.replace('\r\n', '\n')
    return ''.join('\\u{%X}' % ord(c) if c != '\n' and any(a <= ord(c) <= b for a, b in ODD) else c for c in text)


def check_bytes(what, section, fields):
    told = [row for row in section.all('tr') if 'group' not in row.classes()][1:]
    real = [field for field in fields if field['bits'] or field['refusal']]
    expect(what + ': how many fields', len(told), len(real))
    for row, field in zip(told, real):
        cells = [cell.text() for cell in row.inside if isinstance(cell, html_tree.Element)]
        wanted = value(field)
        expect('%s: %s' % (what, field['path']), cells[:3] + ([cells[3]] if wanted is not None else []),
               [str(field['at']), bits(field), field['name']] + ([wanted] if wanted is not None else []))
        expect('%s: %s is marked' % (what, field['path']), 'refused' in row.classes(), field['refusal'] != 0)


def check_words(what, section, fields):
    """What a person wants to know stands in the words too, in its order."""
    told, at = section.one_list.text(), 0
    for field in fields:
        if field['role'] in ('value', 'time', 'opaque') and not field['refusal']:
            found = told.find(field['words'], at)
            if found < 0:
                wrong.append('%s: %s, %s, is not told in words' % (what, field['path'], field['words']))
                return
            at = found + len(field['words'])
    texts = [spelt(field['text']) for field in fields if field['role'] == 'text' and not field['refusal'] and field['text'] and field['bare'] == 0]
    shown = [quote.text() for quote in section.all(of_class='text')]
    for text in texts:
        expect(what + ': a text', text in shown, True)
    for field in fields:
        if field['refusal']:
            link = '%s at byte %d of the body)' % (field['name'], field['at'])
            expect('%s: %s' % (what, link), link in told and field['words'] in told, True)


def check_table(page, number, table):
    what = '%s table %04X' % (table['kind'], table['extension'])
    section, its_bytes = page.of_id('table-%d' % number), page.of_id('bytes-%d' % number)
    section.one_list = next(section.all('dl'))
    expect(what, section.one('h2').text(), '%s, version %d' % (what, table['version']))
    verdict = 'accepted' if table['accepted'] else 'refused' if table['whole'] else 'not whole'
    expect(what + ' verdict', section.one('p', 'verdict').text()[2:], verdict)
    cells = list(section.one('ol', 'cells').all('li'))
    expect(what + ' sections', len(cells), table['last'] + 1)
    expect(what + ' missing', [i for i, cell in enumerate(cells) if 'missing' in cell.classes()], table['missing'])
    check_bytes(what, its_bytes, table['fields'])
    check_words(what, section, table['fields'])


def check_marks(page, told):
    """The picture of the capture has every section that came, and each kind and extension a band."""
    counts = {'taken': 0, 'held already': 0, 'refused': 0}
    for title in page.of_id('capture').all('title'):
        mark = re.match(r'bytes \d+ to \d+: (taken|held already|refused): (\d+)$', title.text())
        if mark:
            counts[mark[1]] += int(mark[2])
    summed = told['sum']
    if summed['tables'] < 60:
        expect('marks', list(counts.values()), [summed['taken'], summed['held'], summed['refused']])


def moments(words):
    return [datetime.datetime.strptime(part, '%d/%m/%Y %H:%M') for part in re.findall(r'\d\d/\d\d/\d{4} \d\d:\d\d', words)]


def check_messages(page, told):
    """Each message with its identifier, start, end, class and level; and the bars and the axis go by one scale."""
    names = 'EBM_id', 'EBM_start_time', 'EBM_end_time', 'EBM_class', 'EBM_level'
    real = []
    for table in told['tables']:
        fields = {field['path']: 'refused' if field['refusal'] else field['words'] for field in table['fields'] if table['kind'] == 'index'}
        count = len({path.split('.')[0] for path in [f['path'] for f in table['fields']] if path.startswith('EBM[')}) if table['kind'] == 'index' else 0
        real += [[fields.get('EBM[%d].%s' % (i, name), 'not read') for name in names] for i in range(count)]
    part = page.of_id('messages')
    if part is None:
        expect('messages', [], real)
        return
    rows_told = [[cell.text() for cell in row.inside if isinstance(cell, html_tree.Element)] for row in part.one('tbody').all('tr')]
    expect('messages', [row[1:6] for row in rows_told], real)
    none = 'not read', 'refused'
    starts = [row for row in real if row[1] not in none][:60]
    bars = list(part.all('rect', 'message'))
    expect('bars', len(bars), len(starts))
    ticks = list(part.all('text'))
    points = [(moments('%s %s' % (day.text(), clock.text()))[0], float(day.get('x')[:-1])) for day, clock in zip(ticks, ticks[1:]) if 'day' in day.classes()]
    for bar, row in zip(bars, starts):
        x, width = float(bar.get('x')[:-1]), float(bar.get('width')[:-1])
        points.append((moments(row[1])[0], x))
        expect('a live end', 'live' in bar.classes(), row[2] in ('live', *none))
        if row[2] not in ('live', *none) and moments(row[2])[0] > moments(row[1])[0]:
            points.append((moments(row[2])[0], x + width))
    if not points:
        return
    first, last = min(points), max(points)
    span, wide = (last[0] - first[0]).total_seconds(), last[1] - first[1]
    for when, x in points:
        at = first[1] + wide * (when - first[0]).total_seconds() / span if span else x
        if abs(at - x) > 0.1 + (wide * 60 / span if span else 0):  # words have seconds, which are not read here
            wrong.append('%s stands at %.2f, and should at %.2f' % (when, x, at))


def check_page(what, data, words=(), where='C.UTF-8'):
    """The page of a capture, and what JSON tells of it."""
    global pages, rows
    status, output, said = run(['show', '--html', '-', *words, '-'], data, where)
    told = json.loads(run(['show', '--json', *words, '-'], data, where)[1].decode('ascii'))
    expect(what + ' ends', (status, said), (told['sum']['status'], ''))
    expect(what + ' begins', output.startswith(b'<!DOCTYPE html>\n<html lang="en">\n'), True)
    try:
        page = html_tree.read(output)
        html_tree.needs_nothing(page)
        if html5lib:
            html5lib.HTMLParser(strict=True).parse(output.decode())
    except AssertionError as fault:
        wrong.append('%s: %s' % (what, fault))
        return None
    before = len(wrong)
    expect('its name', page.one('h1').text(), 'capture ' + told['capture'])
    verdict = make.ALL_WELL if status == 0 else make.NOT_WELL.split(':')[0]
    expect('its verdict', page.one('header').one('p', 'verdict').text()[2:], verdict)
    expect('its title', page.one('head').one('title').text(), '%s: %s' % (told['capture'], verdict))
    lines = run(['show', *words, '-'], data, where)[1].decode().split('\n')
    events = [item.text() for item in page.of_id('events').all('li')]
    expect('events', events, lines[1:1 + min(len(told['events']), 2000)])
    places = [int(re.search(r'bytes? (\d+)', event)[1]) for event in events]
    expect('places', places, [event['at'] for event in told['events']][:2000])
    expect('in all', [item.text() for item in page.one('header').all('li')], lines[next(i for i, told in enumerate(lines) if told.startswith('all in all')):-2])
    for number, table in enumerate(told['tables']):
        check_table(page, number, table)
    check_marks(page, told)
    check_messages(page, told)
    wrong[before:] = ['%s: %s' % (what, fault) for fault in wrong[before:]]
    pages, rows = pages + 1, rows + sum(len(table['fields']) for table in told['tables'])
    return page


# ---- captures


def nasty():
    """Signs that HTML, a browser or a terminal would take for something else, wherever a capture has text."""
    text = '</blockquote><script>alert("1")</script>&amp;&lt;\x1B[31m\x07\x9B\u202E\u200F\uFEFF\u2028b\r\nc\td\r\'x\'=<!-- ]]> \U0001F6A8'
    drill = make.Message(make.DRILL.identifier, make.DRILL.start, make.DRILL.end, 4, [make.RESOURCE], kind='<b>&"')
    content = make.Content(drill, [('eng', 2, text, '<h1>演练', []), ('eng', 2, '\n\n  two lines before', '', [(9, b'<i>')])], 0)
    return b''.join(make.Index([drill], 0).sections() + content.sections())


def refused():
    """Bodies that are refused, at the front, in the middle and in a row."""
    body = make.Index([make.DRILL, make.FLOOD, make.DRILL], 0).body()
    for extension, (place, new) in enumerate(((23, 'ECC8245500'), (28, 'FFFF000000'), (38, '39'), (3, '73'), (40, '00'), (0, '09'), (0, '00'))):
        yield from make.cut(make.INDEX, extension, 0, body[:place] + bytes.fromhex(new) + body[place + len(new) // 2:])
    yield make.section(make.INDEX, 0x100, 0, 0, 0, b'')
    content = make.Content(make.DRILL, [('eng', 0, 'x' * 90, '', [])], 0)
    yield content.sections(60)[0]
    strange = content.body().replace(b'eng\xF8', b'bod\xFC').replace(b'xxx', b'\xE6\xFF<')
    yield from make.cut(make.CONTENT, content.extension ^ 1, 0, strange)


def versions():
    """Versions that come and go; and one that two payloads contradict."""
    turns = [make.section(make.INDEX, 0, n % 32, n % 2, n % 3, b'\0\0\0') for n in range(45)]
    contradicting = [make.section(make.INDEX, 9, 0, 0, 0, data) for data in (b'\0\0\0', b'\0\0\1')]
    return turns + contradicting + [make.section(make.CERTIFICATE, 1, 0, 0, 0, b'\0\0\0\0', 0)]


def days():
    """Messages from one end of the calendar to the other, at one moment, and before their start."""
    when = [datetime.datetime(1900, 3, 1), datetime.datetime(2024, 2, 29, 23, 59, 59), datetime.datetime(2038, 4, 22, 23, 59, 59)]
    pairs = [(a, b) for a in when for b in [*when, None]]
    return [[make.Message(make.RESOURCE + '20240229%04d' % i, *pair, 1, []) for i, pair in enumerate(pairs[some:to])] for some, to in ((0, 12), (5, 6), (7, 8))]


def by_chance(chance):
    """Bodies of all four kinds with bytes changed, cut anywhere, of which a section may be missing."""
    texts = [('eng', 2, 'Go <on> foot & wait.\n' * 3, 'Office', [(9, b'picture')]), ('zho', 1, '请步行到集合点。', '', [])]
    tables = [make.Index([make.DRILL, make.FLOOD], 0), make.Content(make.DRILL, texts, 1), make.Certificates([b'list'], [b'one', b''], 2),
              make.Configuration(list(make.all_commands([make.RESOURCE])), 3)]
    for table in tables:
        body = bytearray(table.body())
        for _ in range(chance.choice((0, 1, 1, 3))):
            body[chance.randrange(len(body))] = chance.choice((0, 0x3C, 0xFF, chance.randrange(256)))
        sections = make.cut(table.kind, table.extension, table.version, bytes(body), chance.choice((30, 100, 4084)))
        if chance.random() < 0.2:
            del sections[chance.randrange(len(sections))]
        chance.shuffle(sections)
        yield from sections


def try_captures():
    for name, made in make.CAPTURES.items():
        data, words, _, _ = made()
        check_page(name, data, words)
    page = check_page('nasty', nasty(), ['--offset', '-05:30'])
    check_page('nasty on a plain terminal', nasty(), where='C')
    if page and any(element.name in ('script', 'b', 'i') for element in page.all()):
        wrong.append('something in a capture becomes an element')
    check_page('refused', b''.join(refused()))
    check_page('versions', b''.join(versions()))
    for messages in days():
        check_page('days', b''.join(make.Index(messages, 0).sections()), ['--offset', '840'])
    check_page('80 messages', b''.join(make.Index([make.DRILL] * 80, 0).sections()))
    check_page('nothing', b'')
    check_page('junk', b'x' * 5000)
    check_page('80 tables', b''.join(make.section(make.CERTIFICATE, n, 0, 0, 0, b'\0\0\0\0') for n in range(80)))
    check_page('3000 events', (make.section(make.CERTIFICATE, 0, 0, 0, 0, b'\0\0\0\0') + b'x') * 3000)
    for number in range(25):
        check_page('by chance %d' % number, b''.join(by_chance(random.Random(number))), ['--offset', '+08:00'])
    for number, (data, *_) in enumerate(list(streams.streams())[::4]):
        check_page('stream %d' % (4 * number), data)


def try_files():
    """The page's file: whole or not at all, and nothing is replaced unless that is asked for."""
    good = make.section(make.INDEX, 0, 0, 0, 0, b'\0\0\0')
    with open('good', 'wb') as file:
        file.write(good)
    os.mkdir('folder')
    written = run(['show', '--html', '-', 'good'])[1]
    for words in [], ['--replace']:
        expect('a page', run(['show', '--html', 'page.html', *words, 'good']), (0, b'page.html is written: ' + make.ALL_WELL.encode() + b'\n', ''))
        with open('page.html', 'rb') as file:
            expect('what is in it', file.read(), written)
    there = 'nw show: page.html is there already, and stays as it is; --replace replaces it\n'
    left = 'nw show: %s\n'
    for words, said in ((['page.html', 'good'], there), (['none/page', 'good'], left % "none/page can't be opened: No such file or directory"),
                        (['folder', 'good'], left % "folder can't be opened: Is a directory"),
                        (['/dev/full', 'good'], left % "/dev/full is not whole, it can't be written: No space left on device"),
                        (['other.html', 'none'], left % "none can't be opened: No such file or directory"),
                        (['other.html', 'folder'], left % "folder can't be read: Is a directory")):
        expect('%r' % words, run(['show', '--html', *words]), (2, b'', said))
    expect('the files', sorted(os.listdir('.')), ['folder', 'good', 'page.html'])
    with open('page.html', 'rb') as file:
        expect('the page', file.read(), written)
    expect('a bad capture', run(['show', '--html', 'bad.html', '-'], b'x'), (1, b'bad.html is written: not everything is whole and accepted\n', ''))
    name = 'a <b> & "c" \x1B\u202E 演.sec'
    with open(name, 'wb') as file:
        file.write(good)
    page = html_tree.read(run(['show', '--html', '-', name])[1])
    expect('a name', page.one('h1').text(), 'capture a <b> & "c" \\x1B\\xE2\\x80\\xAE 演.sec')
    page = html_tree.read(run(['show', '--html', '-', name], where='C')[1])
    expect('a name on a plain terminal', page.one('h1').text(), 'capture a <b> & "c" \\x1B\\xE2\\x80\\xAE \\xE6\\xBC\\x94.sec')


with tempfile.TemporaryDirectory() as scratch:
    os.chdir(scratch)
    try_captures()
    try_files()
    os.chdir('/')
if wrong:
    sys.exit('%s\n%s: %d faults in %d pages' % ('\n'.join(wrong[:30]), HOW, len(wrong), pages))
print('%s: %d pages have all %d fields that JSON has%s' % (HOW, pages, rows, '' if html5lib else '; html5lib is not there to read them too'))
