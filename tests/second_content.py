"""The second program for the content table, no code shared with the library: read, written, laid on a tape."""
# SPDX-License-Identifier: MIT
from second_fields import Reader, Tape, counted, digits, entries, opaque, part, places, refuse, within

KIND = 0xFE
# The bytes of an auxiliary file's length, by the variant.
WIDTHS = {24: 3, 32: 4}


def width_of(variant):
    if variant not in WIDTHS:
        refuse(19, 'variant')
    return WIDTHS[variant]


def checksum(data, first=0):
    """The CRC-16 of a byte string's bits, from the bit `first` on, one after the other."""
    register = 0xFFFF
    for place in range(first, 8 * len(data)):
        out = register >> 15 ^ data[place // 8] >> 7 - place % 8 & 1
        register = register << 1 & 0xFFFF
        if out:
            register ^= 0x1021
    return register


def extension(identifier):
    """The CRC-16 of the identifier's 140 bits: in its 18 bytes the four reserved ones stand before them."""
    return checksum(identifier, 4)


# ---- reading


def judge_extension(body, given):
    """23 if the extension that is given isn't the identifier's."""
    if given != extension(body[:18]):
        refuse(23, 'extension')


def read(kind, variant, body):
    """The table, whatever the extension. The variant is judged after the kind and before the size."""
    if kind == KIND:
        width_of(variant)
    reader = Reader(kind, KIND, body)
    return {'identifier': reader.identifier(),
            'languages': read_languages(reader, width_of(variant)),
            'signature': reader.signature()}


def read_languages(reader, width):
    place = reader.at
    count = reader.shared('language count', 4)
    if not 1 <= count <= 5:
        refuse(19, 'language count', place)
    return [reader.filled('language', reader.length('language length', 4), lambda: language_fields(reader, width))
            for _ in range(count)]


def language_fields(reader, width):
    return {
        'letters': read_letters(reader),
        'character set': read_character_set(reader),
        'text': reader.opaque('text length', 2),
        'agency': reader.opaque('agency length', 1),
        'files': read_files(reader, width)}


def are_letters(data):
    return all(0x61 <= letter <= 0x7A for letter in data)


def read_letters(reader):
    reader.need('letters', 3)
    if not are_letters(reader.body[reader.at:reader.at + 3]):
        refuse(19, 'letters', reader.at)
    return reader.taken(3)


def read_character_set(reader):
    place = reader.at
    value = reader.shared('character set', 5)
    if value > 4:
        refuse(19, 'character set', place)
    return value


def read_files(reader, width):
    place = reader.at
    count = reader.shared('auxiliary count', 4)
    if count > 2:
        refuse(19, 'auxiliary count', place)
    return [{'type': reader.number('auxiliary type', 1), 'data': reader.opaque('auxiliary length', width)}
            for _ in range(count)]


# ---- forms


def form(pool, tape):
    """The table that a form asks for; its byte fields have their places in the pool."""
    taken = Tape(pool, tape)
    return {'identifier': taken.identifier(),
            'languages': [form_language(taken) for _ in range(taken.number('language count', 5, least=1))],
            'signature': taken.signature()}


def form_language(taken):
    return {
        'letters': form_letters(taken),
        'character set': taken.number('character set', 4),
        'text': taken.span('text'),
        'agency': taken.span('agency'),
        'files': [form_file(taken) for _ in range(taken.number('auxiliary count', 2))]}


def form_letters(taken):
    begin = taken.at
    span = taken.span('letters', 3)
    if not are_letters(span[2]):
        refuse(19, 'letters', begin)
    return span


def form_file(taken):
    return {'type': taken.number('auxiliary type', 0xFF), 'data': taken.span('auxiliary data')}


# ---- writing


def write(variant, pool, tape, room):
    """The body that a form asks for. Its extension is that of its first 18 bytes. The variant is judged before all fields."""
    width = width_of(variant)
    return within(written(form(pool, tape), width), room)


def written(table, width):
    languages = table['languages']
    return b''.join((
        digits(table['identifier']),
        bytes([0xF0 | len(languages)]),
        *(part('language length', language_bytes(language, width), 4) for language in languages),
        opaque('signature length', table['signature'], 2)))


def language_bytes(language, width):
    return b''.join((
        language['letters'][2],
        bytes([0xF8 | language['character set']]),
        opaque('text length', language['text'], 2),
        opaque('agency length', language['agency'], 1),
        bytes([0xF0 | len(language['files'])]),
        *(counted('auxiliary type', file['type'], 1) + opaque('auxiliary length', file['data'], width)
          for file in language['files'])))


# ---- laying


def tape_of(table):
    """The tape that asks for a table, with what it was read from as the pool."""
    return places(table['identifier']) + entries(table['languages'], language_entries) + places(table['signature'])


def language_entries(language):
    return [
        *places(language['letters']), language['character set'],
        *places(language['text']), *places(language['agency']),
        *entries(language['files'], lambda file: [file['type'], *places(file['data'])])]
