"""What the second programs for index, content and configuration share: bodies by fields, tapes by entries."""
# SPDX-License-Identifier: MIT
import datetime

from calls import Refused

MOST_BODY = 1045504
LIVE = 2**40 - 1
FIRST_DAY = 15079
# The days that an identifier may have, as eight digits of it.
REAL_DAYS = '19000301', '20380422'

# A byte field, in a table that was read and in a form: where it begins, its length, and what it is (bytes, or text of
# digits). In a table that was read the places are those of the body, in a form those of the pool.


def refuse(number, field, place=0):
    """Raises the refusal. It also says at which field, so that a test can count what it has met."""
    refusal = Refused(number, place=place)
    refusal.field = field
    raise refusal


def only_digits(data):
    """Whether all digits but the first, whose place the reserved bits take, are decimal."""
    return data.hex()[1:].isdecimal()


def is_real_day(identifier):
    """Whether the 24th to the 31st of an identifier's digits are a day of the range, by Python's calendar."""
    day = identifier[23:31]
    try:
        datetime.date(int(day[:4]), int(day[4:6]), int(day[6:]))
    except ValueError:
        return False
    return REAL_DAYS[0] <= day <= REAL_DAYS[1]


def time_fault(value, live):
    """18, 20, or 0 for a good time; the live mark is good where it is allowed."""
    if live and value == LIVE:
        return 0
    day, digits = value >> 24, '%06X' % (value % 2**24)
    if not digits.isdecimal():
        return 18
    if day < FIRST_DAY or digits[:2] > '23' or digits[2:4] > '59' or digits[4:] > '59':
        return 20
    return 0


# ---- reading


class Reader:
    """A body, the place reached in it, and the end of the counted part that is being read (at first the body's end)."""

    def __init__(self, kind, right_kind, body):
        if kind != right_kind:
            refuse(2, 'kind')
        if len(body) > MOST_BODY:
            refuse(22, 'body')
        self.body, self.at, self.end = body, 0, len(body)

    def fits(self, field, place, width):
        """So many bytes from here on must lie in the body and in the part."""
        if self.at + width > len(self.body):
            refuse(14, field, place)
        if self.at + width > self.end:
            refuse(15, field, place)

    def need(self, field, width):
        self.fits(field, self.at, width)

    def number(self, field, width):
        self.need(field, width)
        self.at += width
        return int.from_bytes(self.body[self.at - width:self.at], 'big')

    def taken(self, width):
        """So many bytes, known to be there."""
        begin = self.at
        self.at += width
        return begin, width, self.body[begin:self.at]

    def reserved(self, field, bits):
        """The reserved bits at the top of the byte that comes next. The byte isn't passed."""
        self.need(field + ' reserved', 1)
        if self.body[self.at] >> (8 - bits) != 2**bits - 1:
            refuse(17, field + ' reserved', self.at)

    def shared(self, field, reserved_bits):
        """What stands in a byte below its reserved bits."""
        self.reserved(field, reserved_bits)
        return self.number(field, 1) % 2**(8 - reserved_bits)

    def digits(self, field, width):
        """Four reserved bits and decimal digits, so many bytes together."""
        self.reserved(field, 4)
        self.need(field, width)
        if not only_digits(self.body[self.at:self.at + width]):
            refuse(18, field, self.at)
        begin, width, data = self.taken(width)
        return begin, width, data.hex()[1:]

    def identifier(self):
        """The digits of an identifier, and then their day."""
        found = self.digits('identifier', 18)
        if not is_real_day(found[2]):
            refuse(20, 'identifier', found[0])
        return found

    def pid(self, field):
        self.reserved(field, 3)
        return self.number(field, 2) % 2**13

    def time(self, field, live):
        place = self.at
        value = self.number(field, 5)
        fault = time_fault(value, live)
        if fault:
            refuse(fault, field, place)
        return value

    def length(self, field, width):
        """A length field whose part lies where it must."""
        place = self.at
        length = self.number(field, width)
        self.fits(field, place, length)
        return length

    def short_length(self, field):
        """Four reserved bits and a 12-bit length, of which the low ten bits count."""
        self.reserved(field, 4)
        place = self.at
        value = self.number(field, 2)
        self.fits(field, place, value % 2**10)
        if value >> 10 & 0b11:
            refuse(17, field, place)
        return value % 2**10

    def opaque(self, field, width):
        """A length field and its bytes."""
        return self.taken(self.length(field, width))

    def filled(self, field, length, one):
        """One thing that must fill its part."""
        outer, self.end = self.end, self.at + length
        found = one()
        if self.at < self.end:
            refuse(15, field + ' left over', self.at)
        self.end = outer
        return found

    def repeated(self, length, one):
        """Things that follow each other to the end of their part."""
        outer, self.end = self.end, self.at + length
        found = []
        while self.at < self.end:
            found.append(one())
        self.end = outer
        return found

    def several(self, field, one):
        """An 8-bit count and so many things."""
        return [one() for _ in range(self.number(field, 1))]

    def signature(self):
        """The signature, which ends the body."""
        found = self.opaque('signature length', 2)
        if self.at < len(self.body):
            refuse(16, 'body left over', self.at)
        return found


# ---- forms


class Tape:
    """A form's pool and tape, and the entry that comes next. A field is refused at the entry where it begins."""

    def __init__(self, pool, tape):
        self.pool, self.tape, self.at = pool, tape, 0

    def entry(self, field, begin=None):
        """An entry, which may belong to a field that began before it."""
        if self.at >= len(self.tape):
            refuse(19, field + ', tape ends', self.at if begin is None else begin)
        self.at += 1
        return self.tape[self.at - 1]

    def number(self, field, most, least=0):
        place, value = self.at, self.entry(field)
        if not least <= value <= most:
            refuse(19, field, place)
        return value

    def span(self, field, width=None):
        """A part of the pool, of the stated length if there is one."""
        place = self.at
        begin, length = self.entry(field + ' start'), self.entry(field + ' length', place)
        if begin + length > len(self.pool):
            refuse(19, field + ', outside the pool', place)
        if width is not None and length != width:
            refuse(19, field + ', wrong length', place)
        return begin, length, self.pool[begin:begin + length]

    def digits(self, field, width):
        """Digits as they stand in a body; the pool's first four bits aren't looked at."""
        place = self.at
        begin, length, data = self.span(field, width)
        if not only_digits(data):
            refuse(18, field, place)
        return begin, length, data.hex()[1:]

    def identifier(self):
        """The digits of an identifier, and then their day."""
        place = self.at
        found = self.digits('identifier', 18)
        if not is_real_day(found[2]):
            refuse(20, 'identifier', place)
        return found

    def time(self, field, live):
        place, value = self.at, self.number(field, LIVE)
        fault = time_fault(value, live)
        if fault:
            refuse(fault, field, place)
        return value

    def several(self, field, one):
        """A count and so many things, all of them on the tape however many they are."""
        left, found = self.entry(field), []
        while len(found) < left:
            found.append(one())
        return found

    def signature(self):
        """The signature, with which the tape ends."""
        found = self.span('signature')
        if self.at < len(self.tape):
            refuse(19, 'tape left over', self.at)
        return found


# ---- writing


def counted(field, value, width):
    """A count or length in its field."""
    if value >= 256**width:
        refuse(22, field)
    return value.to_bytes(width, 'big')


def opaque(field, span, width):
    """The length and the bytes of a part."""
    return part(field, span[2], width)


def part(field, data, width):
    return counted(field, len(data), width) + data


def short_part(field, data):
    """Four reserved bits, a 12-bit length whose top two bits are 0, the part."""
    if len(data) >= 2**10:
        refuse(22, field)
    return (0xF000 | len(data)).to_bytes(2, 'big') + data


def digits(span):
    """Four reserved bits and the digits."""
    return bytes.fromhex('F' + span[2])


def things(field, found, one):
    """An 8-bit count and the things."""
    return counted(field, len(found), 1) + b''.join(map(one, found))


def within(body, room):
    """The body, if it is none too long and there is room for it."""
    if len(body) > MOST_BODY:
        refuse(22, 'body')
    if len(body) > room:
        refuse(21, 'room')
    return body


# ---- laying


def places(span):
    """A byte field's two entries."""
    return list(span[:2])


def entries(found, one):
    """A count and the entries of so many things."""
    laid = [len(found)]
    for thing in found:
        laid += one(thing)
    return laid


def plain(table):
    """A table without its places: each byte field is its bytes or its digits."""
    if isinstance(table, dict):
        return {name: plain(value) for name, value in table.items() if name != 'records'}
    if isinstance(table, list):
        return [plain(value) for value in table]
    return table[2] if isinstance(table, tuple) else table
