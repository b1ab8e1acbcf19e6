"""What the fuzz targets of nw begin with: fuzz_seeds.py TARGET FOLDER: captures as fuzz/nw_capture.c takes them, or forms, of tables by chance."""
# SPDX-License-Identifier: MIT
import os
import random
import sys

import make_configuration
import make_content
import make_fields
import make_index
import second_form

COUNT = 60
CONFIGURATION, CERTIFICATE, INDEX, CONTENT = 0xFB, 0xFC, 0xFD, 0xFE
chance = random.Random(86)
NASTY = '<b>&"\x1B[31m\x9B\u202E\u2028\uFEFF演练\n\\x</td>'.encode() + b'\xFF\x80'


def tables(sets):
    """An index table, content tables of its messages with texts that would do harm, of some character sets, and a configuration table."""
    index = make_index.table(chance)
    made = [(INDEX, index, make_index.items(index))]
    for message in index['messages'][:2]:
        content = make_content.table(chance)
        content['identifier'] = message['identifier']
        for language in content['languages']:
            language.update({'text': NASTY, 'agency': NASTY, 'files': [], 'character set': chance.choice(sets)})
        made.append((CONTENT, content, make_content.items(content, 24)))
    settings = make_configuration.table(chance)
    return [*made, (CONFIGURATION, settings, make_configuration.items(settings))]


def capture():
    steps = bytes([chance.randrange(8)])
    for kind, _, items in tables((0, 1, 2, 3, 4)):
        body = make_fields.body_of(items)[:2047]
        steps += bytes([kind - CONFIGURATION]) + len(body).to_bytes(2, 'big') + body + bytes([chance.randrange(200), chance.randrange(32)])
    if chance.random() < 0.5:
        steps += bytes([chance.choice((5, 6, 7))]) + chance.randbytes(3)
    return steps


def form():
    lines = []
    for kind, table, _ in tables((2, 3, 4)):  # of the others the second program does not tell all
        extension = second_form.extension_of(table) if kind == CONTENT else 0
        lines += second_form.form(kind, extension, chance.randrange(32), table)
    return bytes(chance.randrange(256) for _ in range(2)) + '\n'.join(lines).encode()


target, folder = sys.argv[1:]
for number in range(COUNT):
    with open(os.path.join(folder, 'seed-%d' % number), 'wb') as file:
        file.write({'nw_capture': capture, 'nw_form': form}[target]())
