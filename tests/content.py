"""Content bodies, forms, fields asked for, good, damaged, by chance: as the library takes them and a second program."""
# SPDX-License-Identifier: MIT
import functools
import random

import content_cases
import make_content
import make_fields
import second_content
import second_content_calls
import table_checks as checks
from make_content import KIND, MOST_BODY, NO_VARIANTS, VARIANTS
from table_checks import COUNT, SEED

chance = random.Random(SEED)

# Entries that are always enough to lay a body, as the header says.
MOST_ENTRIES = 75


def by_hand():
    """A body is also refused with 23 by another extension if nothing else is wrong with it, and else as ever."""
    right = content_cases.EXTENSION
    for variant, bodies in content_cases.BODIES.items():
        for body, expected in bodies:
            told, data = expected and '%d %d' % expected, bytes.fromhex(body)
            yield ('content_read', KIND, variant, right, data), told
            yield ('content_read', KIND, variant, right ^ 0x8000, data), told or '23 0'
            yield ('content_read', KIND, chance.choice(NO_VARIANTS), right, data), '19 0'
        assert min(len(body) // 2 for body, expected in bodies if expected is None) == 33
    assert second_content.checksum(b'123456789') == 0x29B1
    yield from content_cases.VARIED + content_cases.CALLS


# ---- bodies


def readings(bodies, tables):
    """Each body read and laid; an accepted one also written again from its tape."""
    for i, (kind, variant, body, given) in enumerate(bodies):
        yield 'content_read', kind, variant, given, body
        table = tables.get((kind, variant, body))
        if table:
            laid = second_content.tape_of(table)
            assert len(laid) <= MOST_ENTRIES
            yield from checks.laid_and_written('content', kind, body, laid, checks.ways(chance, body), variant)
        elif i % 2 or len(body) > MOST_BODY:
            yield 'content_lay', kind, variant, body, checks.lent_tape(chance.choice((0, 1, 13, 30, MOST_ENTRIES)))


def by_the_other(bodies, tables):
    """What becomes of bodies with files that are read by the other variant: refused, or read as another table; says how many."""
    refused = other = alike = 0
    for kind, body in {(kind, body) for kind, _, body, _ in bodies}:
        narrow, wide = (tables.get((kind, variant, body)) for variant in VARIANTS)
        if narrow or wide:
            filed = any(language['files'] for table in (narrow, wide) if table for language in table['languages'])
            assert filed == (narrow != wide)
            alike, refused, other = alike + (not filed), refused + (not narrow or not wide), other + (filed and bool(narrow and wide))
    assert min(alike, refused, other) > COUNT // 100
    print('of %d accepted bodies with files, the other variant refuses %d and reads %d as another table; it reads %d without '
          'files alike' % (refused + other, refused, other, alike))


# ---- fields asked for


def lengths_of(body):
    return checks.parts_by_length(body, 19, body[18] % 16 if len(body) > 18 else 0, 4)


def of_language(body, at, length):
    """All that is asked of a language, its files by one variant or the other, and now and then by none."""
    yield 'language_fields', body, at, length
    for i in 0, 1, chance.choice(checks.numbers_near(chance, 2)):
        variant = chance.choice(NO_VARIANTS if chance.random() < 0.05 else VARIANTS)
        yield 'auxiliary_fields', variant, body, at, length, i


def of_body(body):
    """The body's own fields, and those of its languages."""
    yield 'content_fields', body
    yield 'content_identifier_digit', body, chance.choice(checks.numbers_near(chance, 35))
    found = lengths_of(body)
    for i in sorted({0, 1, len(found), *checks.numbers_near(chance, 5)}):
        yield 'content_language', body, i
    for at, length in found[:3]:
        for near in checks.parts_near(chance, body, at, length, chance.choice((2, 3, 4, 6, 7, 8, 12))):
            yield from of_language(body, *near)


def of_sample(body):
    """One body in every way: each language with every length, each place as a language, each beginning of the body."""
    for at, length in lengths_of(body):
        for size in range(length + 4):
            yield from of_language(body, at, size)
            yield from of_language(body[:at + size], at, size)
    for at in range(len(body) + 2):
        yield from of_language(body, at, max(len(body) - at, 0))
        yield from of_body(body[:at])
    for at, length in checks.NOT_IN_BODY:
        yield from of_language(body, at, length)
    for i in range(37):
        yield 'content_identifier_digit', body, i


def askings(bodies):
    """A body of each variant in every way; those made by hand and some of the others, good and damaged, in a few ways."""
    by_hand = [bytes.fromhex(body) for made in content_cases.BODIES.values() for body, _ in made]
    for variant in VARIANTS:
        yield from of_sample(make_fields.body_of(make_content.items(make_content.sample_table(chance), variant)))
    small = sorted({body for _, _, body, _ in bodies if len(body) < 1000})
    for body in by_hand + chance.sample(small, 1200):
        yield from of_body(body)
    for byte in b'\0', b'\xF1':
        yield from of_body(byte * (MOST_BODY + 1))


def main():
    for variant in VARIANTS:
        checks.there_and_back(chance, lambda kind, body: second_content.read(kind, variant, body),
                              functools.partial(second_content.write, variant), make_content.of_variant(variant))
    library = checks.Comparison(second_content_calls, 'content_', 'language_', 'auxiliary_')
    bodies = [*make_content.readings(SEED, COUNT)]
    tables = checks.tables_of(second_content_calls.table_of, (body[:3] for body in bodies))
    assert len(set(bodies)) > COUNT and len(tables) > COUNT // 6
    by_the_other(bodies, tables)

    told = library.compare([*checks.hand_made(second_content_calls, by_hand()), *readings(bodies, tables)])
    library.must_meet('content_read', content_cases.READ)
    body_numbers = {0, 2, 14, 15, 16, 17, 18, 19, 20, 22}
    assert told['content_read'] == body_numbers | {23} and told['content_lay'] == body_numbers | {21}

    for variant in VARIANTS:
        library.compare_writings('content', make_content.of_variant(variant), {0, 18, 19, 20, 21, 22}, content_cases.WRITE, variant,
                                 count=COUNT // 2)

    cases = [*askings(bodies)]
    told = library.compare(cases)
    digits, count = {0, 14, 17, 18, 20}, {0, 14, 17, 19}
    checks.fields_met(told, 'content_fields', digits, digits, count, count)
    assert told['content_identifier_digit'] == digits | {19} and told['content_language'] == count
    opaque, shared = {0, 14, 15, 19}, {0, 14, 15, 17, 19}
    checks.fields_met(told, 'language_fields', opaque, shared, opaque, opaque, shared)
    checks.fields_met(told, 'auxiliary_fields', shared, shared)
    assert len(cases) > COUNT
    checks.days_made()


main()
