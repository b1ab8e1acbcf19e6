"""Forms and tables, both ways, by chance and at the most of each length: nw_forms.py HOW SECONDS PROGRAM..

`nw make` of the form that a second program prints makes the generator's bodies; `nw form` of those bodies, cut at any places, prints that form.
Of texts that the second program does not tell, the form is made again and printed again.
"""
# SPDX-License-Identifier: MIT
import os
import random
import subprocess
import sys
import tempfile
import time

import make_configuration
import make_content
import make_fields as make
import make_index
import second_form
from second_packets import Unpacker
from second_sections import fields_of, printed, register

HOW, SECONDS, PROGRAM = sys.argv[1], float(sys.argv[2]), sys.argv[3:]
INDEX, CONTENT, CERTIFICATE, CONFIGURATION = ORDER = 0xFD, 0xFE, 0xFC, 0xFB
SLIPS = 120  # forms with slips that are tried
HANZI = '这是演练七时四十五分警报响一分钟请步行到集合点水利局大水来了'
chance = random.Random(135)
wrong = []


# ---- tables


def certificate_items(table):
    def rows(name, width, all_of_them):
        return [item for data in all_of_them for item in ((name + ' length', width), (name, data), make.END)]
    return [('lists', bytes([len(table['lists'])])), *rows('list', 2, table['lists']), ('certificates', bytes([len(table['certificates'])])),
            *rows('certificate', 1, table['certificates']), ('signature length', 2), ('signature', table['signature']), make.END]


def certificate_table():
    def several(most):
        return [make.data(chance, most) for _ in range(make.some(chance, 5))]
    return {'lists': several(300), 'certificates': several(255), 'signature': make.data(chance, 70)}


def readable(octets, its_set):
    """A text that the second program tells: of characters, of ASCII with controls, or of any bytes where no conversion is asked."""
    if its_set in second_form.CONVERTED:
        text = ''.join(chance.choice((*HANZI, 'a', ' ', '\\', '\n', '\x1B', '\x7F', '#')) for _ in octets)
        return text.encode(second_form.CONVERTED[its_set])
    if chance.random() < 0.5:
        return octets
    signs = '演 é\u202E\u200B\n\\x\u3000\U0001F30A\uFEFF\u0085 \uFFFE\U000E0001z'
    return ''.join(chance.choice(signs) for _ in octets).encode()


def content_table(told):
    table = make_content.table(chance)
    for language in table['languages'] if told else []:
        language['text'] = readable(language['text'], language['character set'])
        language['agency'] = readable(language['agency'][:60], language['character set'])[:255]
        if language['character set'] in second_form.CONVERTED and second_form.common(language['character set'], language['agency']) is None:
            language['agency'] = b''
    return table


def table_by_chance(kind, told):
    made = {INDEX: make_index.table, CONFIGURATION: make_configuration.table}
    return made[kind](chance) if kind in made else content_table(told) if kind == CONTENT else certificate_table()


def body_of(kind, table, variant):
    items = {INDEX: make_index.items, CONFIGURATION: make_configuration.items, CERTIFICATE: certificate_items}
    return make.body_of(make_content.items(table, variant) if kind == CONTENT else items[kind](table))


def numbered(kind, table):
    """A table with its kind, extension and version."""
    return kind, second_form.extension_of(table) if kind == CONTENT else chance.choice((0, 7, chance.randrange(65536))), chance.randrange(32), table


def tables_by_chance(count, told):
    """Tables by chance, of a kind and extension one each, by their kinds."""
    found = {}
    while len(found) < count:
        kind = chance.choice(ORDER)
        one = numbered(kind, table_by_chance(kind, told))
        found.setdefault(one[:2], one)
    return sorted(found.values(), key=lambda one: ORDER.index(one[0]))


# ---- the program


def run(*words, status=0, where='C.UTF-8'):
    done = subprocess.run([*PROGRAM, *words], capture_output=True, check=False, timeout=300, env={**os.environ, 'LC_ALL': where})
    if done.returncode != status or done.stderr:
        wrong.append('nw %s: status %d and not %d, %.500s' % (' '.join(words), done.returncode, status, done.stderr.decode()))
    return done.stdout


def sections_of(data, is_stream):
    if is_stream:
        unpacker = Unpacker()
        for at in range(0, len(data), 188):
            yield from unpacker.unpack(data[at:at + 188], 2**20)
        return
    while data:
        size = 3 + (data[1] % 16 << 8 | data[2])
        yield data[:size]
        data = data[size:]


def bodies_made(name):
    """Kind, extension, version and body of each table in a stream, in its order."""
    found = {}
    with open(name, 'rb') as file:
        data = file.read()
    for section in sections_of(data, name.endswith('.ts')):
        kind, ones, _, extension, more_ones, version, current, number, last = fields_of(section[:8])
        if register(section) or ones != 15 or more_ones != 3 or current != 1:
            wrong.append('%s: a section is not good' % name)
        parts = found.setdefault((kind, extension, version, last), [])
        if number != len(parts) or number < last and len(section) != 4096:
            wrong.append('%s: section %d of %d comes after %d others, with %d bytes' % (name, number, last, len(parts), len(section)))
        parts.append(section[8:-4])
    return [(*heading[:3], b''.join(parts)) for heading, parts in found.items()]


def cut(kind, extension, version, body):
    """The sections of a body cut anywhere, in any order."""
    cuts = {0, len(body), *range(4084, len(body), 4084), *(chance.randint(0, len(body)) for _ in range(chance.choice((0, 0, 1, 3))))}
    cuts = sorted(cuts)
    parts = [body[begin:end] for begin, end in zip(cuts, cuts[1:])]
    if len(parts) > 256:
        parts = [body[at:at + 4084] for at in range(0, len(body), 4084)]
    made = [printed(kind, extension, version, 1, number, len(parts) - 1, part) for number, part in enumerate(parts)]
    chance.shuffle(made)
    return b''.join(made)


def write(name, data):
    with open(name, 'wb') as file:
        file.write(data)


def differ(what, here, there):
    if here != there:
        pairs = [pair for pair in zip(here.splitlines(), there.splitlines()) if pair[0] != pair[1]]
        wrong.append('%s: %.200r and not %.200r' % (what, *(pairs or [(here[-200:], there[-200:])])[0]))


# ---- both ways


def try_told(tables, variant, offset, ascii_only):
    """The form is the second program's, and makes the generator's bodies."""
    said = '\n'.join('\n'.join(second_form.form(*one, offset, ascii_only)) + '\n' for one in tables).encode()
    bodies = [(*one[:3], body_of(one[0], one[3], variant)) for one in tables]
    name, bits = chance.choice(('made.ts', 'made.sec')), ['--auxiliary', str(variant)]
    write('typed', said)
    run('make', *bits, '--replace', 'typed', name)
    if bodies_made(name) != bodies:
        wrong.append('nw make makes other tables')
    write('capture', b''.join(cut(*one) for one in bodies))
    differ('nw form', run('form', *bits, '--offset', str(offset), 'capture', where='C' if ascii_only else 'C.UTF-8'), said)


def try_untold(tables, variant, name='made.ts'):
    """What is printed makes the bodies that it was printed of, and is printed of these again."""
    bodies, bits = [(*one[:3], body_of(one[0], one[3], variant)) for one in tables], ['--auxiliary', str(variant)]
    write('capture', b''.join(cut(*one) for one in bodies))
    said = run('form', *bits, 'capture')
    write('typed', said)
    run('make', *bits, '--replace', 'typed', name)
    if bodies_made(name) != bodies:
        wrong.append('nw make makes other tables than nw form was told')
    differ('nw form of what nw make made', run('form', *bits, name), said)
    if len(said) < 2**22:
        differ('nw form of the form', run('form', *bits, 'typed'), said)
        run('compare', *bits, 'typed', 'capture')


def long_tables():
    """Each count and length at its most, and bodies of 1,045,504 bytes."""
    for kind, maker in ((INDEX, make_index), (CONTENT, make_content), (CONFIGURATION, make_configuration)):
        most = maker.largest(chance, 24) if kind == CONTENT else maker.largest(chance)
        yield from (numbered(kind, table) for table in (*maker.large(chance), *most))
    yield numbered(CERTIFICATE, {'lists': [b'a' * size for size in range(255)], 'certificates': [b'b' * size for size in range(1, 256)], 'signature': b''})
    yield numbered(CERTIFICATE, {'lists': [chance.randbytes(65535)], 'certificates': [], 'signature': chance.randbytes(65535)})


def try_long():
    found = {}
    for one in long_tables():
        while one[:2] in found:
            one = (one[0], chance.randrange(65536), *one[2:]) if one[0] != CONTENT else one[:1] + (None,)
        if one[1] is not None:
            found[one[:2]] = one
    tables = sorted(found.values(), key=lambda one: ORDER.index(one[0]))
    try_untold(tables, 24, 'made.sec')
    return len(tables)


# ---- forms with any slips


def slipped(lines):
    """A form with some lines gone, doubled, moved, mixed or changed in a byte."""
    lines = list(lines)
    for _ in range(chance.choice((1, 1, 2, 5))):
        at, other = chance.randrange(len(lines)), chance.randrange(len(lines))
        how = chance.randrange(6)
        if how == 0:
            del lines[at]
        elif how == 1:
            lines.insert(other, lines[at])
        elif how == 2:
            lines[at], lines[other] = lines[other], lines[at]
        elif how == 3:
            lines[at] = lines[at][:chance.randint(0, len(lines[at]))] + lines[other][chance.randint(0, len(lines[other])):]
        elif lines[at]:
            place = chance.randrange(len(lines[at]))
            lines[at] = lines[at][:place] + bytes([chance.choice((*b' \\x0#f9', 0x1B, 0, 0xE6, 0xFF))]) + lines[at][place + (how == 4):]
        lines = lines or [b'table index']
    return b'\n'.join(lines)


def try_slipped(count):
    """Each fault is a sentence with a place, and nothing is written; what is taken all the same comes back."""
    taken = 0
    for _ in range(count):
        tables = tables_by_chance(chance.choice((1, 2, 3)), True)
        lines = b'\n'.join('\n'.join(second_form.form(*one)).encode() for one in tables).split(b'\n')
        write('typed', slipped(lines))
        done = subprocess.run([*PROGRAM, 'make', 'typed', 'fresh.ts'], capture_output=True, check=False, timeout=300, env={**os.environ, 'LC_ALL': 'C.UTF-8'})
        said = done.stderr.decode('utf-8').splitlines()
        bad = [part for part in said if not part.startswith('nw make: typed') or any(ord(c) < 0x20 or 0x7F <= ord(c) < 0xA0 for c in part)]
        if done.returncode not in (0, 1, 2) or bad or (done.returncode == 0) != (not said) or (done.returncode == 0) != os.path.exists('fresh.ts'):
            wrong.append('a slipped form: status %d, %.300r, %.300r' % (done.returncode, bad, said))
        if done.returncode == 0:
            differ('nw form of a slipped form', run('form', 'fresh.ts'), run('form', 'typed'))
            os.remove('fresh.ts')
            taken += 1
    return taken


def main():
    rounds, count, taken = 0, 0, 0
    if SECONDS > 0:
        count += try_long()
        taken = try_slipped(SLIPS)
    began = time.monotonic()
    while rounds < 3 or time.monotonic() - began < SECONDS:
        variant, offset = (24, 32)[rounds % 2], (0, 480, -330)[rounds % 3]
        if rounds % 3 == 2:
            try_untold(tables_by_chance(400, False), variant)
        else:
            try_told(tables_by_chance(400, True), variant, offset, rounds % 4 == 3)
        rounds, count = rounds + 1, count + 400
        if wrong:
            sys.exit('%s\n%s: %d faults in %d tables' % ('\n'.join(wrong[:20]), HOW, len(wrong), count))
    print('%s: %d tables as forms and back, byte for byte; of forms with slips %d are taken' % (HOW, count, taken))


with tempfile.TemporaryDirectory() as scratch:
    os.chdir(scratch)
    try:
        main()
    finally:
        os.chdir('/')
