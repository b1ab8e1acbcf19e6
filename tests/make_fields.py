"""What the generators of tables share: parts by chance, damage to bodies and forms, whole readings and writings."""
# SPDX-License-Identifier: MIT
import collections
import datetime
import itertools
import random

MOST_BODY = 1045504
LIVE = 2**40 - 1
TOP = 2**64
SHORT = 12

# A body is a list of items, each a name and what stands there: bytes; or the number of bytes of a length field, with
# which a counted part begins (SHORT is four reserved bits and a 12-bit length); or END, with which that part ends.
END = ('end of a part', None)


# ---- parts by chance


def number(chance, most):
    """A number up to some most, often one of the two."""
    return chance.choice((0, most, chance.randint(0, most), chance.randint(0, most)))


def some(chance, most):
    """A count: mostly small."""
    return chance.choice((0, 1, 1, 2, 2, 3, chance.randint(0, most)))


def data(chance, most=12):
    return chance.randbytes(chance.choice((0, 1, 2, chance.randint(0, most))))


def digits(chance, count):
    """So many digits, as text."""
    return ''.join(chance.choices('0123456789', k=count))


# The days that an identifier may have, in Python's count, and those among them at which a calendar goes wrong.
DAYS = range(datetime.date(1900, 3, 1).toordinal(), datetime.date(2038, 4, 22).toordinal() + 1)
ENDS = DAYS[0], DAYS[-1]
MONTH_ENDS = [day for day in DAYS if datetime.date.fromordinal(day + 1).day == 1]
LEAP_DAYS = [day for day in MONTH_ENDS if datetime.date.fromordinal(day).day == 29]


def real_day(x):
    """A day as YYYYMMDD, by any number: every second one any day, the others an end, a 29 February, a month's last."""
    days = (DAYS, DAYS, DAYS, ENDS, LEAP_DAYS, MONTH_ENDS)[x % 6]
    return datetime.date.fromordinal(days[x // 6 % len(days)]).strftime('%Y%m%d')


def identifier(chance):
    """The 35 digits of a good identifier: the real day is worked out from the digits drawn in its place."""
    text = digits(chance, 35)
    return text[:23] + real_day(int(text[23:31])) + text[31:]


def unreal_day(chance):
    """Eight digits that are no day of the range: just outside it, past a month's end, no month, day 0 or any."""
    year = chance.randint(1899, 2039)
    text = chance.choice((
        chance.choice(('19000228', '19000229', '20380423', '18991231', '20380501')),
        '%d%s' % (year, chance.choice(('0230', '0231', '0431', '0631', '0931', '1131', '0132', '1232'))),
        '%d0229' % (year - year % 4 + chance.randint(1, 3)),
        '%d%02d%02d' % (year, chance.choice((0, 13, 20, chance.randint(13, 99))), chance.randint(1, 28)),
        '%d%02d%02d' % (year, chance.randint(1, 12), chance.choice((0, 32, 40, chance.randint(32, 99)))),
        digits(chance, 4) + '1103', digits(chance, 8)))
    try:
        day = datetime.date(int(text[:4]), int(text[4:6]), int(text[6:])).toordinal()
    except ValueError:
        return text
    return '19000228' if day in DAYS else text


def with_unreal_day(chance, what):
    """The 18 bytes of an identifier with an unreal day, now and then also with a digit above 9."""
    text = what.hex()
    found = bytes.fromhex(text[:24] + unreal_day(chance) + text[32:])
    return digit_above_nine(chance, found) if chance.randrange(4) == 0 else found


# How often each day is that of an identifier made as good.
days_made = collections.Counter()


def checked(text):
    """The digits of an identifier made as good: its day, read anew, is held to Python's calendar and counted."""
    day = datetime.date(int(text[23:27]), int(text[27:29]), int(text[29:31])).toordinal()
    assert len(text) == 35 and text.isdecimal() and day in DAYS, text
    days_made[day] += 1
    return text


def time(chance):
    """A good time: 16 bits of day, six digits."""
    day = chance.choice((15079, 65535, chance.randint(15079, 65535)))
    parts = [chance.choice((0, most, chance.randint(0, most))) for most in (23, 59, 59)]
    return int('%04X%02d%02d%02d' % (day, *parts), 16)


def bad_time(chance):
    """A digit above 9, a day or a time of day that there isn't, or more than one of these."""
    day, parts = 60617, ['07', '45', '00']
    how = chance.randrange(8)
    if how in (0, 4, 5):
        day = chance.choice((0, 15078, chance.randrange(15079)))
    if how in (1, 4):
        parts[0] = '%02d' % chance.choice((24, 99, chance.randint(24, 99)))
    if how in (2, 7):
        parts[chance.choice((1, 2))] = '%02d' % chance.choice((60, 99, chance.randint(60, 99)))
    if how in (3, 5, 7):
        i = chance.randrange(3)
        parts[i] = chance.choice(('%X' + parts[i][0], parts[i][0] + '%X')) % chance.randint(10, 15)
    if how == 6:
        return chance.choice((LIVE, 0xFFFFFFFF, LIVE - 1, 2**39 - 1, 0))
    return int('%04X' % day + ''.join(parts), 16)


def digit_bytes(text):
    """Four reserved bits and the digits."""
    return bytes.fromhex('F' + text)


def pool_of(letter, size):
    """A pool of one letter whose two digits are good, but for the day of the identifier with which it begins."""
    pool = letter * 12 + bytes.fromhex('20240229') + letter * (size - 16)
    checked(pool[:18].hex()[1:])
    return pool


# ---- bodies


def joined(items):
    """The body; where each item begins; its length fields: a name, a place and a width each."""
    body, begins, lengths, opened = bytearray(), [], [], []
    for name, what in items:
        begins.append(len(body))
        if what is None:
            begin, width = opened.pop()
            put_length(body, begin, width, len(body) - begin - bytes_of(width))
        elif isinstance(what, bytes):
            body += what
        else:
            lengths.append((name, len(body), what))
            opened.append((len(body), what))
            body += bytes(bytes_of(what))
    return bytes(body), begins, lengths


def bytes_of(width):
    return 2 if width == SHORT else width


def put_length(body, at, width, value):
    """A length in its field, whatever of it the field can't hold left out."""
    if width == SHORT:
        value = 0xF000 | value % 2**10
    body[at:at + bytes_of(width)] = (value % 256**bytes_of(width)).to_bytes(bytes_of(width), 'big')


def body_of(items):
    return joined(items)[0]


def picked(chance, names):
    """The place of one of some names; those that are there seldom are as likely as those that are there often."""
    by_name = {}
    for i, name in enumerate(names):
        by_name.setdefault(name, []).append(i)
    return chance.choice(by_name[chance.choice(list(by_name))])


def pick(chance, items):
    return picked(chance, [name for name, _ in items])


def field(chance, items):
    """The place of an item that is bytes."""
    places = [i for i, (_, what) in enumerate(items) if isinstance(what, bytes)]
    return places[picked(chance, [items[i][0] for i in places])]


# Damage to items: the lengths are worked out afterwards, so they count what is there.


def value_changed(chance, items, bad):
    """A field gets a bad value of its own."""
    places = [i for i, (name, _) in enumerate(items) if name in bad]
    i = places[picked(chance, [items[i][0] for i in places])]
    name, what = items[i]
    return items[:i] + [(name, chance.choice(bad[name])(chance, what))] + items[i + 1:]


def ends_after(items, i):
    """Where the parts that an item is in end, the innermost first."""
    depth, ends = 0, []
    for k in range(i, len(items)):
        what = items[k][1]
        if what is None and depth == 0:
            ends.append(k)
        elif what is None:
            depth -= 1
        elif not isinstance(what, bytes):
            depth += 1
    return ends


def cut_field(chance, items, i):
    """An item that is bytes, without some or all of its last bytes."""
    name, what = items[i]
    return name, what[:chance.choice((0, max(len(what) - 1, 0), chance.randrange(len(what) + 1)))]


def part_ended(chance, items, bad):
    """The part that a field is in ends inside it; what follows the part stays."""
    i = field(chance, items)
    ends = ends_after(items, i)
    return items[:i] + [cut_field(chance, items, i)] + (items[ends[0]:] if ends else [])


def all_ended(chance, items, bad):
    """All parts that a field is in end inside it, and the body too."""
    i = field(chance, items)
    return items[:i] + [cut_field(chance, items, i)] + [END] * len(ends_after(items, i))


def field_cut(chance, items, bad):
    """A field lacks some of its bytes; all others stay."""
    i = field(chance, items)
    return items[:i] + [cut_field(chance, items, i)] + items[i + 1:]


def bytes_added(chance, items, bad):
    """Some bytes before an item or the end of a part."""
    i = pick(chance, items)
    return items[:i] + [('added', chance.randbytes(chance.choice((1, 1, 2, 5))))] + items[i:]


def part_repeated(chance, items, bad):
    """A part, or a field, stands there twice."""
    i = pick(chance, items)
    if items[i][1] is None:
        return items
    end = i if isinstance(items[i][1], bytes) else ends_after(items, i + 1)[0]
    return items[:end + 1] + items[i:]


MENDED = (value_changed, value_changed, value_changed, value_changed, part_ended, part_ended, all_ended, all_ended,
          field_cut, bytes_added, bytes_added, part_repeated)


# Damage to bytes: the lengths stay as they were, but for the one that is changed.


def cut(chance, body, begins, lengths):
    """The body ends at any byte, or within one byte of where a field begins."""
    at = chance.choice((chance.randrange(len(body) + 1), chance.choice(begins) + chance.choice((-1, 0, 1))))
    return body[:max(at, 0)]


def prolonged(chance, body, begins, lengths):
    return body + chance.randbytes(chance.choice((1, 1, 2, 20)))


def length_changed(chance, body, begins, lengths):
    """A length is smaller or larger than it was, none, the most, or just reaches the body's end or passes it."""
    name, at, width = lengths[picked(chance, [name for name, _, _ in lengths])]
    changed, after = bytearray(body), at + bytes_of(width)
    old = int.from_bytes(body[at:after], 'big') % (2**10 if width == SHORT else TOP)
    step = chance.choice((1, 2, 3, 12, 256))
    new = chance.choice((old + 1, max(old - 1, 0), old + step, max(old - step, 0), 0, 256**bytes_of(width) - 1,
                         len(body) - after, len(body) - after + 1))
    if width != SHORT or chance.random() < 0.7:
        put_length(changed, at, width, new)
    if width == SHORT and chance.random() < 0.6:
        changed[at] ^= chance.choice((0x04, 0x08, 0x0C, 0x10, 0x20, 0x40, 0x80, 0x84, 0xF0))
    return bytes(changed)


def bytes_changed(chance, body, begins, lengths):
    changed = bytearray(body)
    for _ in range(chance.choice((1, 1, 2, 3))):
        at = chance.choice((chance.randrange(len(body)), min(chance.choice(begins), len(body) - 1)))
        changed[at] = chance.choice((chance.randrange(256), changed[at] ^ 1 << chance.randrange(8), 0, 1, 255))
    return bytes(changed)


def byte_lost_or_won(chance, body, begins, lengths):
    at = chance.randrange(len(body) + 1)
    return body[:at] + chance.choice((b'', b'\0', chance.randbytes(1))) + body[at + chance.randrange(2):]


RAW = (cut, cut, prolonged, length_changed, length_changed, length_changed, bytes_changed, bytes_changed,
       byte_lost_or_won)


def damaged(chance, items, bad):
    """A body with a fault, or two."""
    how = chance.randrange(10)
    for _ in range((1, 1, 1, 1, 1, 0, 0, 0, 1, 2)[how]):
        items = chance.choice(MENDED)(chance, items, bad)
    found = joined(items)
    if 5 <= how <= 8 and found[0] and found[2]:
        return chance.choice(RAW)(chance, *found)
    return found[0]


# Bad values of fields, from the bytes that stood there.


def cleared(bits):
    """One of the reserved bits at the top of a field is 0, or all are."""
    def change(chance, what):
        mask = chance.choice((2**bits - 1, *(1 << bit for bit in range(bits)))) << (8 - bits)
        return bytes([what[0] & ~mask]) + what[1:] if what else what
    return change


def digit_above_nine(chance, what):
    text = what.hex()
    if len(text) < 2:
        return what
    at = chance.choice((1, len(text) - 1, chance.randrange(1, len(text))))
    return bytes.fromhex(text[:at] + chance.choice('abcdef') + text[at + 1:])


def time_wrong(chance, what):
    return bad_time(chance).to_bytes(5, 'big')


def low_bits(bits):
    """Any value in the low bits of a byte."""
    def change(chance, what):
        return bytes([what[0] >> bits << bits | chance.randrange(2**bits)]) if what else what
    return change


def count_changed(chance, what):
    """An 8-bit count is one more or less, none, the most, or any."""
    old = what[0] if what else 0
    return bytes([chance.choice((old + 1, old - 1, 0, 255, chance.randrange(256))) % 256])


def one_byte(least, most):
    """A byte's place gets a value from a range, its ends often."""
    def change(chance, what):
        at = chance.randrange(len(what)) if what else 0
        value = chance.choice((least, most, chance.randint(least, most)))
        return what[:at] + bytes([value]) + what[at + 1:]
    return change


def one_of(*values):
    """The field is one of some byte strings."""
    return lambda chance, what: chance.choice(values)


# ---- whole readings, of a table whose maker is its generator's module


FEW_VALUES = (0, 1, 2, 3, 4, 5, 6, 7, 9, 0x0A, 0x10, 0x44, 0x55, 0x7F, 0x80, 0x90, 0xA0, 0xEF, 0xF0, 0xF8, 0xFE, 0xFF)


def near(items):
    """Parts that end early, lengths changed; the body's beginnings, a byte more, each byte changed to a few values."""
    yield from every_end(items)
    yield from every_length(items)
    body = body_of(items)
    for at in range(len(body) + 1):
        yield body[:at]
    yield body + b'\0'
    for at, value in itertools.product(range(len(body)), FEW_VALUES):
        yield body[:at] + bytes([value]) + body[at + 1:]


def every_end(items):
    """The part that an item is in, or all parts and the body, end before the item or inside it."""
    for i, (name, what) in enumerate(items):
        if what is not None:
            whole = what if isinstance(what, bytes) else b'\xF0\0' if what == SHORT else bytes(what)
            ends = ends_after(items, i)
            for size in {0, 1, 2, len(whole) - 1} & set(range(len(whole) or 1)):
                kept = items[:i] + [(name, whole[:size])]
                yield body_of(kept + [END] * len(ends))
                yield body_of(kept + (items[ends[0]:] if ends else []))


def every_length(items):
    """Each length field one more and less, none, the most, just to the body's end and past it; its bits changed."""
    body, _, lengths = joined(items)
    for name, at, width in lengths:
        after = at + bytes_of(width)
        old = int.from_bytes(body[at:after], 'big') % (2**10 if width == SHORT else TOP)
        rest = len(body) - after
        for new in (old + 1, old + 2, max(old - 1, 0), max(old - 2, 0), 0, 256**bytes_of(width) - 1, rest, rest + 1):
            changed = bytearray(body)
            put_length(changed, at, width, new)
            yield bytes(changed)
            for bit in range(2, 8) if width == SHORT else ():
                yield bytes(changed[:at]) + bytes([changed[at] ^ 1 << bit]) + bytes(changed[at + 1:])
        for bit in range(8 * bytes_of(width)):
            yield (int.from_bytes(body, 'big') ^ 1 << 8 * rest + bit).to_bytes(len(body), 'big')


def every_value(items, names):
    """Each field of one byte and of some name has each of its 256 values."""
    body, begins, _ = joined(items)
    for at in [begin for begin, (name, _) in zip(begins, items) if name in names]:
        for value in range(256):
            yield body[:at] + bytes([value]) + body[at + 1:]


KINDS = (*range(256), 256 + 0xFB, 256 + 0xFD, 256 + 0xFE, 0xFD00, 0xFE00, 0xFB00, 2**16 + 0xFD, 2**31 + 0xFE, 2**32 - 1)


def all_short():
    """Every body of up to four bytes from a few values."""
    return (bytes(body) for n in range(5) for body in itertools.product((0, 1, 2, 0xF1), repeat=n))


def bodies(chance, tables, items, bad, large):
    """Good bodies, each with damaged ones; of the large ones only a few cuts and changes."""
    for table in tables:
        good = items(table)
        yield body_of(good)
        for _ in range(4):
            yield damaged(chance, good, bad)
    for table in large:
        good = items(table)
        yield body_of(good)
        yield body_of(good)[:-1]
        yield body_of(good) + b'\0'
        for _ in range(6):
            yield damaged(chance, good, bad)


def readings(maker, seed, count):
    """What `read` takes: about so many bodies by chance, good and damaged, and some more that are always the same."""
    chance = random.Random(seed)
    sample = maker.sample_table(chance)
    found = [*maker.bodies_always(chance, sample)]
    tables = (maker.table(chance) for _ in range(count // 5))
    yield from ((maker.KIND, body) for body in found)
    yield from ((maker.KIND, body) for body in bodies(chance, tables, maker.items, maker.BAD, maker.large(chance)))
    yield from ((maker.KIND, body_of(maker.items(one))) for one in maker.largest(chance))
    yield from kinds_and_sizes(maker.KIND, body_of(maker.items(sample)))


def kinds_and_sizes(right_kind, body):
    """Other kinds, with bodies that are good and bad; bodies around the largest size."""
    yield from itertools.product(KINDS, (body, body[:-1]))
    for kind, byte, size in itertools.product((right_kind, 0, 0xFC), (0, 0xFF), (MOST_BODY, MOST_BODY + 1)):
        yield kind, bytes([byte]) * size


# ---- forms


class Form:
    """A tape in the making: a name for each entry, and the byte strings that are still to be laid in a pool."""

    def __init__(self):
        self.names, self.tape, self.strings = [], [], []

    def number(self, name, value):
        self.names.append(name)
        self.tape.append(value)

    def count(self, name, things):
        self.number(name, len(things))

    def span(self, name, string):
        self.strings.append((len(self.tape), string))
        self.number(name + ' start', 0)
        self.number(name + ' length', len(string))

    def digits(self, name, text, chance):
        """As in a body, but the first four bits are anything."""
        self.span(name, bytes.fromhex('%X' % chance.randrange(16) + text))

    def laid(self, chance):
        """The pool: the strings shuffled, with bytes between them that belong to none. The tape gets their places."""
        pool = bytearray(chance.randbytes(chance.randrange(3)))
        for at, string in chance.sample(self.strings, len(self.strings)):
            self.tape[at] = len(pool)
            pool += string + chance.randbytes(chance.randrange(3))
        return bytes(pool)


def entry_changed(chance, form, pool, tape, bad):
    """An entry is one of the numbers at the ends of fields, sets and the pool, or passes a width by some bits."""
    i = picked(chance, form.names)
    old, n = tape[i], len(pool)
    numbers = (0, 1, 2, 3, 4, 5, 6, 7, 100, 101, 254, 255, 256, 0x1FFF, 0x2000, 65535, 65536, 2**32 - 1, 2**32,
               2**40 - 1, 2**40, 2**63, TOP - 1, old + 1, max(old - 1, 0), n, n + 1, max(n - 1, 0), TOP - max(old, 1),
               old + 2**8, old + 2**13, old + 2**16, old + 2**24, old + 2**32, old + 2**40, old + 2**63)
    return pool, tape[:i] + [chance.choice(numbers) % TOP] + tape[i + 1:]


def value_of_its_own(chance, form, pool, tape, bad):
    """A bad value for this very entry."""
    places = [i for i, name in enumerate(form.names) if name in bad]
    if not places:
        return entry_changed(chance, form, pool, tape, bad)
    i = places[picked(chance, [form.names[i] for i in places])]
    return pool, tape[:i] + [bad[form.names[i]](chance)] + tape[i + 1:]


def span_start(chance, form):
    """Where on the tape a span begins."""
    places = [i for i, _ in form.strings]
    return places[picked(chance, [form.names[i] for i in places])]


def span_changed(chance, form, pool, tape, bad):
    """A span just inside the pool, just outside, or with a sum that passes 64 bits."""
    i, n = span_start(chance, form), len(pool)
    length = tape[i + 1]
    begin, length = chance.choice((
        (n - min(length, n), length), (n - min(length, n) + 1, length), (n, 0), (n + 1, 0), (n, 1), (0, n), (0, n + 1),
        (TOP - 1, 1), (TOP - 1, 2), (1, TOP - 1), (2**63, 2**63), (TOP - max(length, 1), length),
        (0, length + 1), (0, max(length - 1, 0)), (0, 0), (0, 2 * length), (0, length % 256 + 256)))
    return pool, tape[:i] + [begin % TOP, length] + tape[i + 2:]


def pool_changed(chance, form, pool, tape, bad):
    """A byte of some span is another one."""
    i = span_start(chance, form)
    begin, length = tape[i:i + 2]
    if not 0 < length <= len(pool) - begin:
        return pool[:-1], tape
    at = begin + chance.choice((0, length - 1, chance.randrange(length)))
    value = chance.choice((chance.randrange(256), pool[at] ^ 1 << chance.randrange(8), 0x0A, 0xA0, 0x60, 0x7B, 0x80))
    return pool[:at] + bytes([value]) + pool[at + 1:], tape


def day_changed(chance, form, pool, tape, bad):
    """The identifier of some message has an unreal day."""
    places = [i for i, name in enumerate(form.names) if name == 'identifier start']
    if not places or tape[places[0]] + 18 > len(pool):
        return pool_changed(chance, form, pool, tape, bad)
    begin = tape[chance.choice(places)]
    return pool[:begin] + with_unreal_day(chance, pool[begin:begin + 18]) + pool[begin + 18:], tape


def tape_cut(chance, form, pool, tape, bad):
    return pool, tape[:picked(chance, form.names)]


def tape_prolonged(chance, form, pool, tape, bad):
    return pool, tape + chance.choice(([0], [0, 0], [TOP - 1], [1] * 7))


def entries_lost_or_won(chance, form, pool, tape, bad):
    at = chance.randrange(len(tape) + 1)
    return pool, tape[:at] + chance.choice(([], [0], [1], [TOP - 1])) + tape[at + chance.randrange(3):]


def pool_cut(chance, form, pool, tape, bad):
    return pool[:chance.choice((len(pool) // 2, max(len(pool) - 1, 0), max(len(pool) - 4, 0)))], tape


KEEP_LENGTH = (entry_changed, entry_changed, entry_changed, value_of_its_own, value_of_its_own, value_of_its_own,
               span_changed, span_changed, span_changed, pool_changed, pool_changed, pool_changed, pool_cut,
               day_changed)
END_WITH = (tape_cut, tape_cut, tape_prolonged, entries_lost_or_won)


def damaged_form(chance, form, pool, tape, bad):
    """A form with a fault, or two."""
    how = chance.randrange(10)
    for _ in range((1, 1, 1, 1, 1, 1, 2, 0, 0, 1)[how]):
        pool, tape = chance.choice(KEEP_LENGTH)(chance, form, pool, tape, bad)
    if how >= 7:
        pool, tape = chance.choice(END_WITH)(chance, form, pool, tape, bad)
    return pool, tape


def room_for(chance, size):
    """Room that is just enough, one byte less, more, or none."""
    return chance.choice((size, size, size + 1, size + 40, max(size - 1, 0), 0))


def writings(maker, seed, count):
    """What `write` takes: about so many forms by chance, good and damaged, and some more that are always the same."""
    chance = random.Random(seed)
    tables = itertools.chain((maker.table(chance) for _ in range(count // 5)), maker.large(chance))
    yield from forms(chance, tables, maker.items, maker.form_of, maker.BAD_ENTRIES)
    yield from maker.forms_always()
    yield from near_form(chance, maker.form_of(chance, maker.sample_table(chance)), maker.COUNTS)


def forms(chance, tables, items, form_of, bad):
    """Good forms, each with damaged ones and with little room."""
    for table in tables:
        size = len(body_of(items(table)))
        form = form_of(chance, table)
        pool = form.laid(chance)
        yield pool, form.tape, size
        yield pool, form.tape, room_for(chance, size)
        for _ in range(3):
            yield *damaged_form(chance, form, pool, form.tape, bad), size + 40


def near_form(chance, form, counts):
    """A form laid in a pool, with each of some counts huge and each part changed, in room that is enough."""
    pool = form.laid(chance)
    for changed in (*huge_counts(pool, form.names, form.tape, counts), *each_changed(pool, form.tape)):
        yield *changed, 1000


def each_changed(pool, tape):
    """Tapes that end early or go on, each entry changed, each byte of the pool changed."""
    yield from ((pool, tape[:size]) for size in range(len(tape)))
    yield from ((pool, tape + more) for more in ([0], [0, 0], [TOP - 1]))
    yield from ((pool[:size], tape) for size in range(len(pool)))
    for i, old in enumerate(tape):
        for new in (0, 1, 2, 5, 6, 101, 256, 65536, 2**32, 2**40, 2**63, TOP - 1, old + 1, old - 1, len(pool),
                    old + 256, old + 2**13, old + 2**16, old + 2**32, old + 2**40, TOP - old):
            yield pool, tape[:i] + [new % TOP] + tape[i + 1:]
    for at, value in itertools.product(range(len(pool)), (0x0A, 0x7F, 0x80, 0xA0, 0xF0, 0x3A)):
        yield pool[:at] + bytes([value]) + pool[at + 1:], tape


def with_faults(pool, tape, size):
    """A form that is large or too large: by itself, with little room, and malformed at its end and at its beginning."""
    yield pool, tape, size
    yield pool, tape, 3
    yield pool, tape[:-1], size
    yield pool, tape + [0], size
    yield pool, tape[:-2] + [TOP - 1, 1], size
    yield pool, tape[:-2] + [0, 65536], size


def in_large_rooms(pool, tape):
    """A form around the largest body, with no room, room for it, and a byte less."""
    return ((pool, tape, room) for room in (0, MOST_BODY - 1, MOST_BODY))


def huge_counts(pool, names, tape, counts):
    """Each count of a form is huge, or some multiple of it is a small number of 64 bits; the tape stays as it is."""
    for i, name in enumerate(names):
        if name in counts:
            for more in (2**32, 2**56, 2**60, 2**61, 2**62, 2**63, TOP - 1):
                for count in (more, (more + tape[i]) % TOP):
                    yield pool, tape[:i] + [count] + tape[i + 1:]
