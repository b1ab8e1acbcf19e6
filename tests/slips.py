"""What adapter, boxes, screen and cable say of slips in forms, files and calls, and their status: slips.py CABLE HOW FOLDER RUNNER.."""
# SPDX-License-Identifier: MIT
import os
import subprocess
import sys
import tempfile
import unicodedata

import border_slips as border
import file_slips as files
import form_slips as forms
import screen_slips as screen
import stream_slips as streams

CABLE, HOW, FOLDER = sys.argv[1:4]
RUNNER = sys.argv[4:]
STEERING = {chr(c) for c in (*range(0x202A, 0x202F), *range(0x2066, 0x206A), 0x2028, 0x2029)}
SECONDS = 300
wrong, tried = [], 0


def run(program, words, data=b'', terminal='C.UTF-8', **more):
    """Runs a program in the scratch folder. Answers its status, its output and what it says on standard error."""
    command = [sys.executable, '-B', CABLE] if program == 'cable' else [*RUNNER, os.path.join(FOLDER, program), *words]
    given = {'input': data} if 'stdin' not in more else {}
    more.setdefault('stdout', subprocess.PIPE)
    done = subprocess.run(command, stderr=subprocess.PIPE, env={**os.environ, 'LC_ALL': terminal}, timeout=SECONDS, check=False,
                          **given, **more)
    return done.returncode, done.stdout or b'', done.stderr


def steers(text):
    """Whether a character of a text would steer a terminal."""
    return any(c in STEERING or (c != '\n' and unicodedata.category(c) == 'Cc') for c in text)


def in_order(wanted, lines):
    """The first wanted line that does not stand after the others; None if all do. One may be several, of which one stands."""
    lines = iter(lines)
    for want in wanted:
        ways = want if isinstance(want, set) else {want}
        if not any(line in ways or (hasattr(want, 'fullmatch') and want.fullmatch(line)) for line in lines):
            return want
    return None


def expect(what, got, status, wanted=(), exactly=None):
    """Notes a fault unless the status is this one, the lines stand in the output or are the whole of it, and none steers."""
    global tried
    tried += 1
    text = (got[1] + got[2]).decode(errors='surrogateescape')
    lines = text.split('\n')[:-1]
    missing = in_order(wanted, lines)
    if got[0] != status:
        wrong.append('%s: status %d and not %d: %s' % (what, got[0], status, text[-600:]))
    elif missing is not None:
        wrong.append('%s: %r is not said, but %s' % (what, missing, text[-600:]))
    elif exactly is not None and lines != exactly:
        wrong.append('%s: it says %r and not %r' % (what, lines, exactly))
    elif steers(text) or any('\udc80' <= c <= '\udcff' for c in text):
        wrong.append('%s: bytes reach the terminal raw: %r' % (what, text))


def write(name, data):
    with open(name, 'wb') as file:
        file.write(data)


def read(name):
    with open(name, 'rb') as file:
        return file.read()


def said(sentences):
    return ['adapter: ' + sentence for sentence in sentences]


# ---- the adapter


def try_forms():
    good = forms.form(*forms.LINES)
    expect('the good form', run('adapter', ['sent'], good), 0, exactly=[])
    sent = read('sent')
    for form, sentences in forms.refused():
        write('kept', b'as it was')
        expect('the form %.300r' % form, run('adapter', ['kept'], form), 1, exactly=said(sentences))
        if read('kept') != b'as it was':
            wrong.append('the form %.300r: it is refused and a file is written' % form)
    for bits in '24', '32':
        expect('adapter --auxiliary ' + bits, run('adapter', ['--auxiliary', bits, 'same'], good), 0, exactly=[])
        if read('same') != sent:
            wrong.append('adapter --auxiliary %s: without files its sections are others' % bits)
    for form in forms.SAME:
        write('same', b'')
        expect('the form %.300r' % form, run('adapter', ['same'], form), 0, exactly=[])
        if read('same') != sent:
            wrong.append('the form %.300r: its sections are others' % form)
    for changes, shown, remarks in forms.OTHERS:
        lines = (changes.get(number, line) for number, line in enumerate(forms.LINES, 1))
        expect('the form with %.300r' % changes, run('adapter', ['other'], forms.form(*lines)), 0, exactly=said(remarks))
        expect('the sections of %.300r' % changes, run('box', ['other', '480']), 0, shown)


def try_adapter_calls():
    good = forms.form(*forms.LINES)
    for words, sentence in forms.CALLS:
        expect('adapter %r' % words, run('adapter', words, good), 2, exactly=['adapter: ' + sentence, forms.USAGE])
    expect('adapter --help', run('adapter', ['--help']), 0, [forms.USAGE])
    for name, why in (('none/sent', 'No such file or directory'), ('folder', 'Is a directory')):
        expect('adapter ' + name, run('adapter', [name], good), 2, exactly=["adapter: %s can't be opened: %s" % (name, why)])
    expect('adapter /dev/full', run('adapter', ['/dev/full'], good), 2,
           exactly=["adapter: /dev/full is not whole, it can't be written: No space left on device"])
    folder = os.open('folder', os.O_RDONLY)
    expect('adapter with a folder as its form', run('adapter', ['kept'], stdin=folder), 2,
           exactly=["adapter: the form can't be read: Is a directory"])
    os.close(folder)


# ---- the box at a border


def try_border():
    write('one', files.DRILL)
    write('two', files.DRILL)
    for words, sentence in border.CALLS:
        expect('border %r' % words, run('border', words), 2, exactly=['border: ' + sentence, border.USAGE])
    expect('border --help', run('border', ['--help']), 0, ['usage: border [--rooms N] FILE1 FILE2'])
    for words, name in (['none', 'two'], 'none'), (['one', 'none'], 'none'):
        expect('border %r' % words, run('border', words), 2, exactly=["border: %s can't be opened: No such file or directory" % name])
    expect('border on a folder', run('border', ['one', 'folder']), 2, exactly=["border: folder can't be read: Is a directory"])
    for words, one, two, status, wanted in border.pairs():
        write('one', one)
        write('two', two)
        expect('border %r on %d and %d bytes' % (words, len(one), len(two)), run('border', [*words, 'one', 'two']), status, wanted)


# ---- the screen box


def try_screen():
    write('table', screen.TABLE)
    for words, sentence in screen.CALLS:
        expect('screen %r' % words, run('screen', words), 2, exactly=['screen: ' + sentence, screen.USAGE])
    expect('screen --help', run('screen', ['--help']), 0, ['usage: screen FILE CODE MINUTES [TIME SECONDS]'])
    for name, why in ('none', 'No such file or directory'), ('folder', 'Is a directory'):
        expect('screen ' + name, run('screen', [name, screen.OWN, *screen.EIGHT, '1']), 2, exactly=["screen: %s can't be read: %s" % (name, why)])
    for words, table, status, lines in screen.TABLES:
        write('table', table)
        expect('screen %r' % words, run('screen', ['table', *words]), status, exactly=lines)
    with open('/dev/full', 'wb') as full:
        expect('screen without room', run('screen', ['table', screen.OWN, *screen.EIGHT, '1'], stdout=full), 2,
               exactly=["screen: the output can't be written: No space left on device"])


def try_screen_by_the_clock():
    """The table is put in its place, replaced and spoiled while the box runs. It says each once, and goes on until it is stopped."""
    tables = [None, screen.body(), screen.body(screen.LASTING), screen.BROKEN, screen.body(screen.LASTING), None]
    wanted = ["nothing, the file can't be read: No such file or directory", 'nothing to show', 'message %s, level 4' % screen.LASTING['identifier'],
              'nothing, the table is refused: the body ends too early (refusal 14, at byte 1)']
    wanted += [wanted[2], wanted[0]]
    box = subprocess.Popen([*RUNNER, os.path.join(FOLDER, 'screen'), 'now', screen.OWN, '0'], stdout=subprocess.PIPE, encoding='ascii')
    lines = []
    for table in tables:
        if table is None:
            if os.path.exists('now'):
                os.remove('now')
        else:
            write('next', table)
            os.rename('next', 'now')
        lines.append(box.stdout.readline())
    box.terminate()
    box.wait()
    said = ''.join(lines).encode()
    if len(lines) != len(wanted) or not all((' UTC: ' + want) in line for want, line in zip(wanted, lines)):
        wrong.append('the screen by the clock says %r' % lines)
    expect('the screen by the clock', (box.returncode, said, box.stdout.read().encode()), box.returncode, exactly=said.decode().splitlines())


# ---- the box


def try_file(data, status, wanted, words=(), **more):
    write('received', data)
    what, got = 'box on %d bytes, %.60r %r' % (len(data), data, words), run('box', [*words, 'received'], **more)
    expect(what, got, status, wanted)
    told, taken = len(files.PROGRESS.findall(got[1])), files.TAKEN.search(got[1])
    if told != (int(taken[1]) if taken else 0):
        wrong.append('%s: progress is told %d times: %r' % (what, told, got[1][:600]))


def try_files():
    for data, shown in files.whole():
        try_file(data, 0, shown)
    for data, shown in files.faulty():
        try_file(data, 1, shown)
    for data, status, events, counted, shown in streams.streams():
        try_file(data, status, [*(box for box, _ in events), counted, *shown])
    for text, number, shown in files.texts():
        try_file(files.ONE + files.content(files.language(text, number=number))[0], 0, shown)
        in_agency = ['  agency', *shown] if text else []
        try_file(files.ONE + files.content(files.language(agency=text, number=number))[0], 0, in_agency)
    try_file(files.ONE + b''.join(files.LONG), 0, ['    | Go on foot.'] * 1000, ['--whole'])
    two = files.content(files.language(files=b'\xF2\x03\0\0\x02xy\x04\0\0\0'))[0]
    wide = files.content(files.language(files=b'\xF2\x03\0\0\0\x02xy\x04\0\0\0\0'))[0]
    shown = ['  file        type 3, 2 bytes, not shown', '  file        type 4, 0 bytes, not shown']
    for data, bits, other in (two, '24', '32'), (wide, '32', '24'):
        try_file(files.ONE + data, 0, shown, ['--auxiliary', bits])
        try_file(files.ONE + data, 0, shown, ['--whole', '--auxiliary', other, '--auxiliary', bits])
        try_file(files.ONE + data, 1, ['  (with auxiliary lengths of %s bits it is accepted: box --auxiliary %s)' % (bits, bits)],
                 ['--auxiliary', other])
    try_file(files.ONE + two, 0, shown)
    try_file(files.DRILL, 0, [], ['--auxiliary', '32'])
    (chinese,) = files.content(files.language('演练'.encode(), number=2))
    in_ascii = files.STEERS.replace('UTF-8', 'ANSI_X3.4-1968')
    try_file(files.ONE + chinese, 0, ['    | \\u{6F14}\\u{7EC3}', in_ascii], terminal='C')
    (steering,) = files.index(files.message(kind=b'\x1B[2J\x7F'))
    try_file(steering + files.TWO, 0, ['  type        \\u{1B}[2J\\u{7F}'])


def try_box_calls():
    write('received', files.DRILL)
    for words, sentence in files.CALLS:
        expect('box %r' % words, run('box', words), 2, exactly=['box: ' + sentence, files.USAGE])
    for minutes, start in files.MINUTES:
        expect('box at ' + minutes, run('box', ['received', minutes]), 0, ['  start       ' + start])
    late = files.index(files.message(end='FFFF235959'))[0] + files.TWO
    write('received', late)
    expect('box out of the range', run('box', ['received', '1']), 0, [
        '  end         22/04/2038 23:59:59 Thursday, UTC: its local day is out of the range 01/03/1900 to 22/04/2038'])
    expect('box --help', run('box', ['--help']), 0, ['usage: box [--whole] [--auxiliary BITS] FILE [MINUTES]'])
    expect('box none', run('box', ['none']), 2, exactly=["box: none can't be opened: No such file or directory"])
    expect('box folder', run('box', ['folder']), 2, exactly=["box: folder can't be read: Is a directory"])
    with open('/dev/full', 'wb') as full:
        expect('box on a full disk', run('box', ['received'], stdout=full), 2,
               exactly=["box: what is shown can't be written: No space left on device"])
    with open('large', 'wb') as large:
        large.truncate(2**26 + 1)
    expect('box large', run('box', ['large']), 2, exactly=['box: large has more than 67108864 bytes, the most that this box takes'])
    os.remove('large')


# ---- the cable


def try_cable():
    """Any drill, and then the box: 0 exactly for what was made of whole tables."""
    one, two = files.ONE, files.TWO
    changed = two[:-1] + bytes([two[-1] ^ 1])
    for data, passed, status in (
            (b'', b'', 1), (b'x', b'yxx', 1), (b'xy', b'xxxyxy', 1), (one + two, changed + two + one + one + two, 0),
            (files.index()[0], files.changed(files.index()[0], 14) + files.index()[0] * 2, 0)):
        got = run('cable', [], data)
        expect('the cable on %.60r' % data, (got[0], b'', got[2]), 0, exactly=[])
        if got[1] != passed:
            wrong.append('the cable on %.60r passes on %.200r' % (data, got[1]))
        write('received', got[1])
        expect('the box after the cable on %.60r' % data, run('box', ['received']), status)
    for name, shown in (('drill.txt', '  class       3, actual drill'), ('short.txt', '  end         live, until it is called off')):
        form = read(os.path.join(os.path.dirname(CABLE), name))
        for sent in 'sent', 'sent.ts':
            expect(name, run('adapter', [sent], form), 0, exactly=[])
            write('received', run('cable', [], read(sent))[1])
            expect('the box on %s in %s' % (name, sent), run('box', ['received']), 0, [shown])
        if read('sent.ts') != b''.join(streams.sent(*files.apart(read('sent')))):
            wrong.append('%s: the packets are not those of its sections' % name)


def try_cable_of_packets():
    """Neighbours change places; of longer sections one packet is lost and one marked, by turns, of a short one one is damaged; all come again, with
    counters that go on."""
    short, long = files.ONE, files.content(files.language(b'Go.\n' * 160))[0]
    first, second, third, fourth = (streams.sent(long, first=number) for number in (0, 4, 10, 14))
    passed = [first[0], streams.NULL, first[2], first[2], first[3], streams.NULL, *second]
    passed += [streams.byte(streams.sent(short, first=8)[0], 16, short[11] ^ 1), streams.NULL, *streams.sent(short, first=9)]
    passed += [third[0], streams.marked(third[1]), third[2], third[2], third[3], streams.NULL, *fourth]
    got = run('cable', [], b''.join(streams.sent(short, long, long)))
    expect('the cable on packets', (got[0], b'', got[2]), 0, exactly=[])
    if got[1] != b''.join(passed) or len(first) != 4:
        wrong.append('the cable on packets passes on %.2000r' % got[1])
    write('received', got[1])
    expect('the box after the cable on packets', run('box', ['received']), 0, ['    | Go.'])


with tempfile.TemporaryDirectory() as scratch:
    os.chdir(scratch)
    os.mkdir('folder')
    for part in try_forms, try_adapter_calls, try_files, try_box_calls, try_border, try_screen, try_screen_by_the_clock, try_cable, try_cable_of_packets:
        part()
    os.chdir('/')
if wrong or tried < 200:
    sys.exit('%s\n%s: %d of %d answers are not what they should be' % ('\n'.join(wrong), HOW, len(wrong), tried))
print('%s: %d answers, each with its sentence and its status' % (HOW, tried))
