"""The second program's answers to the content table's calls, no code shared with the library, in calls.c's order."""
# SPDX-License-Identifier: MIT
import functools

import second_content
from second_calls import Part, answered, digit, inside, joined, lent, measured, part, span, unrefused, up_to, written
from second_fields import refuse


# ---- whole bodies and forms


@functools.lru_cache(maxsize=None)
def table_of(kind, variant, body):
    """The table of a body whatever its extension, read once for all that is asked of it."""
    return second_content.read(kind, variant, body)


def content_read(kind, variant, given, body):
    """Of an accepted body every field, taken from the whole table that was read."""
    table = table_of(kind, variant, body)
    second_content.judge_extension(body, given)
    identifier, languages = table['identifier'], table['languages']
    found = unrefused(span(identifier), given, len(languages), span(table['signature'])) + [identifier[2]]
    for language in languages:
        found += language_items(language, second_content.WIDTHS[variant])
    return 0, *found


def language_items(language, width):
    """A language begins with its letters and fills what its fields fill: eight bytes, the texts, the files."""
    files = language['files']
    length = 8 + language['text'][1] + language['agency'][1] + sum(1 + width + file['data'][1] for file in files)
    found = unrefused(part(language['letters'][0], length), span(language['letters']), language['character set'],
                      span(language['text']), span(language['agency']), len(files))
    for file in files:
        found += unrefused(file['type'], span(file['data']))
    return found


def content_lay(kind, variant, body, tape):
    return lent(tape, lambda: second_content.tape_of(table_of(kind, variant, body)))


def content_measure(variant, pool, tape):
    return measured(functools.partial(second_content.write, variant), pool, tape)


def content_write(variant, pool, tape, out):
    """The extension stands above 24 bits of length, and both are also given by themselves."""
    body, after = written(functools.partial(second_content.write, variant), pool, tape, out)
    extension = second_content.extension(body[:18])
    return part(extension, len(body)), extension, len(body), after


# ---- fields of the body asked for, each judged alone where it stands, whatever else is wrong


def identifier(body):
    return Part(body, 0, len(body)).identifier()


def extension(body):
    """The identifier's refusal where it can't be read."""
    identifier(body)
    return second_content.extension(body[:18])


def count_within(reader, field, least, most):
    """A count in four bits."""
    place = reader.at
    count = reader.shared(field, 4)
    if not least <= count <= most:
        refuse(19, field, place)
    return count


def language_count(body):
    return count_within(Part(body, 18, len(body)), 'language count', 1, 5)


def after_languages(body, count):
    """At the length that stands after so many languages, which are passed by theirs."""
    reader = Part(body, 19, len(body))
    for _ in range(count):
        reader.taken(reader.length('language length', 4))
    return reader


def signature(body):
    return after_languages(body, language_count(body)).counted('signature length', 2)


def content_fields(body):
    return joined(answered(call, body) for call in (
        lambda body: span(identifier(body)), extension, language_count, signature))


def content_identifier_digit(body, i):
    return digit(identifier(body)[2], i)


def content_language(body, i):
    return after_languages(body, up_to(i, language_count(body))).counted('language length', 4)


# ---- fields of a language asked for


def letters(*language):
    return span(second_content.read_letters(inside(*language, 0)))


def character_set(*language):
    return second_content.read_character_set(inside(*language, 3))


def text(*language):
    return inside(*language, 4).counted('text length', 2)


def after_text(*language):
    reader = inside(*language, 4)
    reader.taken(reader.length('text length', 2))
    return reader


def agency(*language):
    return after_text(*language).counted('agency length', 1)


def at_files(*language):
    """At the auxiliary count, which stands after the agency."""
    reader = after_text(*language)
    reader.taken(reader.length('agency length', 1))
    return reader


def auxiliary_count(*language):
    return count_within(at_files(*language), 'auxiliary count', 0, 2)


def language_fields(*language):
    return joined(answered(call, *language) for call in (letters, character_set, text, agency, auxiliary_count))


def at_file(width, language, i):
    """At a file, those before it passed by their types and lengths."""
    reader = at_files(*language)
    up_to(i, count_within(reader, 'auxiliary count', 0, 2))
    for _ in range(i):
        pass_file(reader, width)
    return reader


def pass_file(reader, width):
    reader.number('auxiliary type', 1)
    reader.taken(reader.length('auxiliary length', width))


def file_type(variant, language, i):
    """The variant is judged before the language is looked at."""
    return at_file(second_content.width_of(variant), language, i).number('auxiliary type', 1)


def file_data(variant, language, i):
    """The type stands before the length."""
    width = second_content.width_of(variant)
    reader = at_file(width, language, i)
    reader.number('auxiliary type', 1)
    return reader.counted('auxiliary length', width)


def auxiliary_fields(variant, body, at, length, i):
    language = body, at, length
    return joined((answered(file_type, variant, language, i), answered(file_data, variant, language, i)))
