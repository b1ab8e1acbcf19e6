"""Certificate bodies and forms, good, damaged, too large, by chance: as the library takes them and a second program."""
# SPDX-License-Identifier: MIT
import itertools
import random

import calls
import make_fields
import second_certificate as second
import table_checks as checks
from second_certificate import KIND, MOST_BODY

chance = random.Random(86)


def strings(count, most):
    """Some byte strings, each of 0 to some number of bytes."""
    return [chance.randbytes(chance.randint(0, most)) for _ in range(count)]


def fields(lists, certificates, most):
    """The fields of a table with so many authorization lists and certificates."""
    return strings(lists, most), strings(certificates, most), *strings(1, most)


def good(lists, certificates, most):
    return second.written(*fields(lists, certificates, most))


# ---- bodies


def prefixes(body):
    return (body[:n] for n in range(len(body) + 1))


def changed(body, places):
    """Each byte of some places changed to a few values."""
    for at in places:
        for value in {0, 1, 255, body[at] ^ 0x80, (body[at] + 1) % 256, (body[at] - 1) % 256} - {body[at]}:
            yield body[:at] + bytes([value]) + body[at + 1:]


def near(body):
    """The body, what it begins with, with a byte more, and with a byte changed."""
    return [*prefixes(body), body + b'\0', body + b'\xFF', *changed(body, range(len(body)))]


SMALL = [good(lists, certificates, most)
         for lists, certificates, most in itertools.product(range(4), range(4), (0, 1, 3, 9))]
# 255 is the most that a count can be.
MANY = [good(*how) for how in ((255, 0, 0), (0, 255, 0), (255, 255, 0), (255, 2, 3), (2, 255, 3), (254, 255, 2))]


def at_ends_of_fields():
    """The longest parts, and lengths on both sides of a byte's end: what ends within some bytes of a field's end."""
    for length in 127, 128, 254, 255, 256, 257, 511, 512, 32767, 32768, 65279, 65280, 65534, 65535:
        data = chance.randbytes(length)
        for asked in ([data], [], b''), ([b'', data], [b'x'], b'y'), ([], [], data), ([b'x'], [data[:255]], b''):
            body = second.written(*asked)
            yield body
            yield body + b'\0'
            for end in {1, 2, 3, 4, 5, len(body) // 2, *range(len(body) - 6, len(body))} & set(range(len(body))):
                yield body[:end]


def damaged(body):
    """Some bytes changed, taken out or put in."""
    for _ in range(chance.choice((1, 1, 1, 2, 3))):
        at = chance.randrange(len(body) + 1)
        middle = chance.choice((b'', chance.randbytes(1), bytes([chance.randrange(4)])))
        body = body[:at] + middle + body[at + chance.randrange(2):]
    return body


def by_chance():
    """Good bodies, each with its damaged ones; and bytes by chance, most of them small."""
    for _ in range(1200):
        body = good(chance.randrange(6), chance.randrange(6), chance.choice((1, 5, 30)))
        yield body
        for _ in range(4):
            yield damaged(body)
    for _ in range(2500):
        yield bytes(chance.choices((0, 1, 2, 3, chance.randrange(256)), (6, 4, 2, 1, 1), k=chance.randrange(24)))


def all_short():
    """Every body of up to five bytes that are 0, 1 or 2."""
    return (bytes(body) for n in range(6) for body in itertools.product(range(3), repeat=n))


def large():
    """Around 1,045,504 bytes. A body of one byte over and over can be good: of 1,040,386 bytes of 63."""
    yield from (bytes([byte]) * n for byte in (0, 1, 64, 255) for n in (MOST_BODY, MOST_BODY + 1, MOST_BODY + 65536))
    yield from (b'\x3F' * n for n in (1040385, 1040386, 1040387))
    full = second.written([b'\x5A' * 65535] * 15, [], b'\xA5' * 62445)
    assert len(full) == MOST_BODY
    yield from (full, full[:-1], full + b'\0')


def kinds():
    """Every kind, with a body that is good, one that ends too soon, one that goes on, and one that is too long."""
    others = KIND + 2**8, KIND + 2**16, KIND << 8, KIND << 24, KIND + 2**31, 2**32 - 1
    for kind, body in itertools.product((*range(256), *others), (SMALL[-1], SMALL[-1][:-1], SMALL[-1] + b'\0')):
        yield kind, body
    for kind in 0, 0xFB, KIND, 0xFD, 2**32 - 1:
        yield kind, bytes(MOST_BODY + 1)


def readings():
    bodies = [body for small in SMALL for body in near(small)]
    for body in MANY:
        bodies += [*prefixes(body), body + b'\0', *changed(body, chance.sample(range(len(body)), 40))]
    for body in (*bodies, *at_ends_of_fields(), *by_chance(), *all_short(), *large()):
        yield 'certificate_read', KIND, body
    for kind, body in kinds():
        yield 'certificate_read', kind, body


def askings():
    """Fields that are there and that aren't, the latter with numbers that end in the bits of one that is."""
    for body in (*SMALL, *MANY, b'\x3F' * 1040386):
        for call, found in zip(('certificate_authorization', 'certificate_certificate'), second.fields(KIND, body)):
            last = len(found) - 1
            for i in {0, 1, max(last, 0), last + 1, 255, 256, 2**8 + 1, 2**16, 2**32, 2**32 + 1, 2**63, 2**64 - 1}:
                yield call, body, i


def layings():
    """Bodies laid onto tapes of every length up to two entries more than they need."""
    for kind, body in [(KIND, body) for small in SMALL for body in (small, small[:-1], small + b'\0')] + list(kinds())[:300]:
        for entries in range(24):
            yield 'certificate_lay', kind, body, [2**64 - 1 - k for k in range(entries)]
    for body in (*MANY, bytes(4)):
        lists, certificates, _ = second.fields(KIND, body)
        needed = 2 * (len(lists) + len(certificates)) + 4
        assert needed <= len(body) + 255  # NW_CERTIFICATE_ENTRIES
        for entries in needed - 1, needed, needed + 2:
            yield 'certificate_lay', KIND, body, [7] * entries


# ---- forms: the fields, laid in a pool of bytes and a tape of numbers


def laid(lists, certificates, signature):
    """The pool and the tape of some fields."""
    form = make_fields.Form()
    for name, parts in ('list', lists), ('certificate', certificates):
        form.count(name + ' count', parts)
        for part in parts:
            form.span(name, part)
    form.span('signature', signature)
    return form.laid(chance), form.tape


def rooms(form):
    """A form with outputs just long enough, one byte short, longer, and of no bytes."""
    pool, tape = form
    need = len(second.written(*second.form(pool, tape)))
    return [('certificate_write', pool, tape, checks.out(room)) for room in (need, need - 1, need + 1, need + 40, 0, 1)]


FORMS = [laid(*fields(lists, certificates, most))
         for lists, certificates, most in itertools.product(range(4), range(4), (0, 1, 3, 9))]


def entries_changed(pool, tape):
    """Each entry of the tape changed: also to numbers that pass the pool's end, or 64 bits when something is added."""
    top, n = 2**64, len(pool)
    for at, entry in enumerate(tape):
        less = max(entry, 1)
        for value in {0, 1, entry + 1, less - 1, n, n + 1, 255, 256, entry + 2**8, entry + 2**32, entry + 2**63,
                      2**61, 2**62, 2**63, top - 1, top - 2, top - less} - {entry}:
            yield pool, tape[:at] + [value] + tape[at + 1:]


def spans_changed(pool, tape):
    """The last span: just inside the pool, just outside, and with a sum that passes 64 bits."""
    top, n = 2**64, len(pool)
    for begin, length in ((n, 0), (0, n), (n + 1, 0), (n, 1), (0, n + 1), (1, n), (2**32, 0), (0, 2**32),
                          (2**63, 2**63), (top - 1, 0), (top - 1, 1), (top - 1, 2),
                          (0, top - 1), (1, top - 1), (2, top - 1)):
        yield pool, tape[:-2] + [begin, length]


def malformed():
    """And well formed ones between them: tapes cut, with entries more, entries changed; pools cut."""
    for pool, tape in FORMS[2::4]:
        yield from ((pool, tape[:n]) for n in range(len(tape)))
        yield from ((pool, tape + more) for more in ([0], [0, 0], [2**64 - 1], [1] * 7))
        yield from ((pool[:n], tape) for n in range(len(pool)))
        yield from entries_changed(pool, tape)
        yield from spans_changed(pool, tape)


def wrapping():
    """Counts whose double, or whose double and some more, is a small number of 64 bits."""
    for count, tail in itertools.product((2**63, 2**63 + 1, 2**64 - 1, 2**62, 2**32, 2**32 + 1), range(7)):
        yield b'abc', [count] + [0] * tail
        yield b'abc', [0, count] + [0] * tail
        yield b'abc', [1, 0, 1, count] + [0] * tail


def too_large():
    """Each count and length at its most and above it, alone and where the form is malformed too."""
    pool = b'\x5A' * 65537
    for count in 254, 255, 256, 257, 511, 512, 65536:
        yield pool, [count, *[3, 0] * count, 0, 0, 0]
        yield pool, [0, count, *[3, 0] * count, 0, 0]
        yield pool, [count, *[3, 0] * count, 0, 0]
        yield pool, [0, count, *[3, 0] * count, 65537, 1]
    for length in 254, 255, 256, 257, 511, 512, 65534, 65535, 65536, 65537:
        for tape in ([1, 0, length, 0, 0, 0], [0, 1, 0, length, 0, 0], [0, 0, 0, length],
                     [1, 0, length, 1, 0, length, 0, length]):
            yield pool, tape
            yield pool, tape[:-1]
            yield pool, tape + [0]
            yield pool[:-1], tape
            yield pool, tape[:-2] + [2**64 - 1, 1]


def at_most_body():
    """Bodies around 1,045,504 bytes: the spans may lie one upon the other."""
    for rest in 62444, 62445, 62446:
        yield b'\x5A' * 65535, [15, *[0, 65535] * 15, 0, 0, rest]
    yield b'\x5A' * 65535, [16, *[0, 65535] * 16, 0, 0, 0]
    yield b'\x5A' * 65535, [255, *[0, 65535] * 255, 255, *[0, 255] * 255, 0, 65535]


def writings():
    for form in FORMS:
        yield from rooms(form)
    for _ in range(600):
        yield from rooms(laid(*fields(chance.randrange(6), chance.randrange(6), chance.choice((1, 5, 30)))))
    for lists, certificates in (255, 0), (0, 255), (255, 255), (254, 255):
        yield from rooms(laid(*fields(lists, certificates, 4)))
    for form in (*malformed(), *wrapping()):
        for room in 300, 0:
            yield 'certificate_write', *form, checks.out(room)
    for form in too_large():
        for room in 3, 66000:
            yield 'certificate_write', *form, checks.out(room)
    for form in at_most_body():
        for pool, tape, room in make_fields.in_large_rooms(*form):
            yield 'certificate_write', pool, tape, checks.out(room)


# ---- what was written, read back


def bytes_of(body, answer):
    """The byte strings that the library says a body's fields are."""
    items = list(map(int, answer.split()))
    assert items[:2] == [0, 0] and set(items[2::2]) == {0}
    values = iter(items[3::2])

    def part():
        begin, length = divmod(next(values), 2**24)
        return body[begin:begin + length]

    read = [part() for _ in range(next(values))], [part() for _ in range(next(values))], part()
    assert not list(values)
    return read


def read_back(cases, got):
    """Each body that the library wrote is put to it again, and has the fields of the form."""
    wrote = []
    for (_, pool, tape, _), answer in zip(cases, got):
        refusal, length, printed = answer.split()
        if refusal == '0':
            wrote.append((pool, tape, bytes.fromhex(printed[:2 * int(length)])))
    read = calls.answers([calls.request('certificate_read', KIND, body) for _, _, body in wrote])
    for (pool, tape, body), answer in zip(wrote, read):
        assert bytes_of(body, answer) == second.form(pool, tape), 'not the form that was written: %.200s' % body.hex()
    assert len(wrote) > 1000
    print('%d written bodies read back as they were asked for' % len(wrote))


def main():
    # Answers that document 01's words give at once.
    for body, answer in ((b'', '14 0'), (b'\0', '14 1'), (bytes(3), '14 2'), (bytes(5), '16 4'), (b'\1', '14 1'),
                         (b'\1\0\1', '14 1'), (b'\0\1\2a', '14 2'), (b'\1\0\1ab', '14 5'),
                         (bytes(4), '0 0 0 0 0 0 0 %d' % (4 * 2**24))):
        assert calls.told(second.certificate_read, KIND, body) == answer, body
    others, writes = [*readings(), *askings(), *layings()], [*writings()]
    others += [('certificate_measure', pool, tape) for _, pool, tape, _ in writes]
    cases = others + writes
    got = calls.compare('a second program', second, cases)
    assert checks.by_refusal(cases, got) == {
        'certificate_read': {0, 2, 14, 16, 22}, 'certificate_authorization': {0, 19}, 'certificate_certificate': {0, 19},
        'certificate_lay': {0, 2, 14, 16, 21}, 'certificate_measure': {0, 19, 22}, 'certificate_write': {0, 19, 21, 22}}
    assert len(got) > 20000
    read_back(writes, got[-len(writes):])


main()
