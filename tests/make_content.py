"""Content tables by chance, as values, bodies of both variants and forms, good and damaged; all from a seed."""
# SPDX-License-Identifier: MIT
import binascii
import functools
import itertools
import random
import types

import make_fields as make
from make_fields import END, MOST_BODY, TOP

KIND = 0xFE
LETTERS = (b'zho', b'eng', b'bod', b'uig', b'aaa', b'zzz')
# The bits of an auxiliary file's length; others, some of which end in the bits of one, are no variant.
VARIANTS = (24, 32)
NO_VARIANTS = (0, 1, 3, 4, 8, 16, 23, 25, 31, 33, 40, 56, 64, 24 + 2**8, 32 + 2**8, 24 + 2**16, 32 + 2**31, 2**32 - 1)


def extension(body):
    """The extension of a table: the CRC-16 of its identifier's 140 bits, by the standard library.

    It takes whole bytes: from 0x00E1 on, the four reserved ones lead to 0xFFFF, where the 140 bits start.
    """
    return binascii.crc_hqx(bytes(byte | 0xF0 for byte in body[:1]) + body[1:18], 0x00E1)


# ---- tables as values


def table(chance):
    return table_of(chance, [language(chance) for _ in range(chance.choice((1, 1, 2, 3, 4, 5)))])


def table_of(chance, languages, signature=None):
    return {'identifier': make.identifier(chance), 'languages': languages,
            'signature': make.data(chance, 70) if signature is None else signature}


def language(chance, **fields):
    """A language, with some fields given."""
    return {
        'letters': chance.choice((*LETTERS, bytes(chance.randint(0x61, 0x7A) for _ in range(3)))),
        'character set': chance.randint(0, 4),
        'text': make.data(chance, 40),
        'agency': make.data(chance, 20),
        'files': [file(chance, make.data(chance, 30)) for _ in range(chance.choice((0, 1, 2)))],
        **fields}


def file(chance, data):
    return {'type': make.number(chance, 0xFF), 'data': data}


def large(chance):
    """Each length at its most or near it."""
    for size in 255, 256, 65534, 65535:
        yield table_of(chance, [language(chance, text=chance.randbytes(size))])
        yield table_of(chance, [language(chance)], chance.randbytes(size))
    for size in 254, 255:
        yield table_of(chance, [language(chance, agency=chance.randbytes(size)) for _ in range(5)])
    for size in 255, 256, 65535, 65536, 70000:
        yield table_of(chance, [language(chance), language(chance, files=[file(chance, chance.randbytes(size))] * 2)])
    yield table_of(chance, [language(chance, files=[file(chance, b'')] * 2) for _ in range(5)])


def overhead(variant):
    """The bytes of a body with one file that are not the file's: 33, its type and its length."""
    return 34 + variant // 8


def largest(chance, variant):
    """A body of 1,045,504 bytes, and one of a byte less."""
    for size in MOST_BODY, MOST_BODY - 1:
        data = chance.randbytes(size - overhead(variant))
        yield table_of(chance, [language(chance, text=b'', agency=b'', files=[file(chance, data)])], b'')


def sample_table(chance):
    """A table with every field."""
    files = [file(chance, b'abc'), file(chance, b'')]
    languages = [language(chance, files=[]), language(chance, text=b't', agency=b'ag', files=files)]
    return table_of(chance, languages, b'sig')


def smallest():
    return {'identifier': '0' * 23 + '19000301' + '0' * 4, 'languages': [
        {'letters': b'zho', 'character set': 0, 'text': b'', 'agency': b'', 'files': []}], 'signature': b''}


# ---- bodies


def items(table, variant):
    return [('identifier', make.digit_bytes(make.checked(table['identifier']))),
            ('language count', bytes([0xF0 + len(table['languages'])])),
            *(item for language in table['languages'] for item in language_items(language, variant)),
            ('signature length', 2), ('signature', table['signature']), END]


def language_items(language, variant):
    return [
        ('language length', 4),
        ('letters', language['letters']),
        ('character set', bytes([0xF8 + language['character set']])),
        ('text length', 2), ('text', language['text']), END,
        ('agency length', 1), ('agency', language['agency']), END,
        ('auxiliary count', bytes([0xF0 + len(language['files'])])),
        *(item for file in language['files'] for item in file_items(file, variant)),
        END]


def file_items(file, variant):
    return [('auxiliary type', bytes([file['type']])), ('auxiliary length', variant // 8), ('auxiliary data', file['data']), END]


def of_both(chance):
    """A table whose 24-bit body is a 32-bit one too, of other files: an empty file, and one whose type is the other's length."""
    size, left = chance.randint(3, 40), chance.randrange(30)
    data = chance.randbytes(size - 2) + left.to_bytes(4, 'big') + chance.randbytes(left)
    files = [file(chance, b''), {'type': size, 'data': data}]
    return table_of(chance, [language(chance, files=[]), language(chance, files=files)])


def count_in_low_bits(chance, what):
    """A count in four bits is one more or less, or any."""
    old = what[0] % 16 if what else 0
    return bytes([0xF0 + chance.choice((old + 1, old - 1, 0, 3, 6, 15, chance.randrange(16))) % 16])


BAD = {
    'identifier': [make.cleared(4), make.digit_above_nine, make.with_unreal_day],
    'language count': [make.cleared(4), count_in_low_bits, count_in_low_bits],
    'letters': [make.one_byte(0, 0x60), make.one_byte(0x7B, 0xFF), make.one_of(b'ZHO', b'zh ', b'zh0', b'\xFAho')],
    'character set': [make.cleared(5), make.low_bits(3)],
    'auxiliary count': [make.cleared(4), count_in_low_bits, count_in_low_bits]}


def right_and_wrong(chance, body):
    """The body's extension, or now and then another one."""
    right = extension(body)
    wrong = chance.choice((right ^ 1 << chance.randrange(16), right ^ 0xFFFF, right + 65536, 0, 0xFFFF,
                           chance.randrange(65536), binascii.crc_hqx(body[:18], 0), binascii.crc_hqx(body[:18], 0xFFFF),
                           (right >> 8 | right << 8) & 0xFFFF))
    return right if chance.random() < 0.85 else wrong


def bodies_of(chance, count, variant):
    """About so many bodies of a variant by chance, good and damaged, each with an extension; some that are always the same."""
    sample, in_variant = sample_table(chance), functools.partial(items, variant=variant)
    names = ('language count', 'character set', 'auxiliary count')
    found = [*make.near(in_variant(sample)), *make.every_value(in_variant(sample), (*names, 'letters'))]
    if variant == 24:  # these have no files, and are the same in both
        found += [*make.all_short(), *make.near(in_variant(smallest())), *make.every_value(in_variant(smallest()), names)]
    tables = (table(chance) for _ in range(count // 5))
    more = map(make.body_of, map(in_variant, (*largest(chance, variant), *(of_both(chance) for _ in range(count // 12)))))
    yield from ((body, extension(body)) for body in (*found, *more))
    yield from ((body, right_and_wrong(chance, body))
                for body in make.bodies(chance, tables, in_variant, BAD, large(chance)))


def readings(seed, count):
    """What `read` takes: of each variant a third as many bodies, each read by both variants, now and then by none."""
    chance = random.Random(seed)
    for variant in VARIANTS:
        for body, given in bodies_of(chance, count // 3, variant):
            yield from ((KIND, read_by, body, given) for read_by in VARIANTS)
            if chance.random() < 0.05:
                yield KIND, chance.choice(NO_VARIANTS), body, given
    sample = make.body_of(items(sample_table(chance), 24))
    for (kind, body), variant in itertools.product([*make.kinds_and_sizes(KIND, sample)], (*VARIANTS, *NO_VARIANTS[-3:])):
        yield kind, variant, body, extension(body)
        yield kind, variant, body, 0


# ---- forms


def form_of(chance, table):
    made = make.Form()
    made.digits('identifier', make.checked(table['identifier']), chance)
    made.count('language count', table['languages'])
    for language in table['languages']:
        made.span('letters', language['letters'])
        made.number('character set', language['character set'])
        made.span('text', language['text'])
        made.span('agency', language['agency'])
        made.count('auxiliary count', language['files'])
        for file in language['files']:
            made.number('auxiliary type', file['type'])
            made.span('auxiliary data', file['data'])
    made.span('signature', table['signature'])
    return made


BAD_ENTRIES = {
    'language count': lambda chance: chance.choice((0, 6, 15, 16, 17, 257, 2**32 + 1, TOP - 1)),
    'character set': lambda chance: chance.choice((5, 7, 8, 255, 256, 2**32)),
    'auxiliary count': lambda chance: chance.choice((3, 15, 16, 256, 2**32, 2**63, TOP - 1)),
    'auxiliary type': lambda chance: chance.choice((256, 257, 511, 65536, 2**32, TOP - 1))}
COUNTS = ('language count', 'auxiliary count')


def tape(text=0, agency=0, files=(), signature=0, languages=1):
    """The tape of languages all alike, from lengths: in a pool of the letter a all of these are good."""
    language = [0, 3, 4, 0, text, 0, agency, len(files), *(entry for size in files for entry in (7, 0, size))]
    return [0, 18, languages, *language * languages, 0, signature]


def too_large():
    """Tapes with each length at its most and above it, and with counts that are none."""
    for length in 254, 255, 256, 257, 511, 512:
        yield tape(agency=length)
        yield tape(agency=length, files=(3, 0))
    for length in 65534, 65535, 65536, 65537:
        yield tape(text=length)
        yield tape(text=length, languages=5)
        yield tape(files=(length, length))
        yield tape(signature=length)
    for languages in 0, 1, 2, 5, 6, 16, 17:
        yield tape(languages=languages)
    for files in range(5):
        yield tape(files=(1,) * files)


def around_most_body(variant):
    """One file with which the body is as long as it may be, or longer, also longer than 24 bits can say."""
    most = MOST_BODY - overhead(variant)
    for size in most - 1, most, most + 1, 2**24 - 1, 2**24, 2**24 + 5:
        yield tape(files=(size,))
    yield tape(text=65535, files=(300000, 600000))
    yield tape(text=65535, agency=255, files=(65535, 65535), languages=5, signature=61600)
    yield tape(text=65535, agency=255, files=(65535, 65535), languages=5, signature=65535)


def forms_always(variant):
    """Forms around the most of each count and length."""
    for one in too_large():
        yield from make.with_faults(make.pool_of(b'a', 65537), one, sum(one) + 100)
    for one in around_most_body(variant):
        yield from make.in_large_rooms(make.pool_of(b'a', max(65535, *one)), one)


def of_variant(variant):
    """What makes tables of one variant, as the tests of every table take it."""
    return types.SimpleNamespace(
        KIND=KIND, table=table, large=large, sample_table=sample_table, form_of=form_of, BAD_ENTRIES=BAD_ENTRIES, COUNTS=COUNTS,
        items=functools.partial(items, variant=variant), forms_always=functools.partial(forms_always, variant))
