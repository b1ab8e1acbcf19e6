"""What the second programs' answers to calls share, in the order of calls.c: parts, lent outputs, fields asked for."""
# SPDX-License-Identifier: MIT
from calls import Refused
from second_fields import MOST_BODY, Reader, refuse


def part(begin, length):
    """As the library answers with a part: where it begins, above 24 bits of length."""
    return begin * 2**24 + length


def span(field):
    return part(*field[:2])


def unrefused(*values):
    """An answer with each value: no refusal, and the value."""
    return [item for value in values for item in (0, value)]


def answered(call, *arguments):
    """An answer: no refusal and the value, or the refusal's number and its place."""
    try:
        return [0, call(*arguments)]
    except Refused as refusal:
        return [refusal.args[0], refusal.place]


def joined(answers):
    """Answers as calls.c prints them, one after the other; the first one's 0 is put there by who asks."""
    items = [item for answer in answers for item in answer]
    if items[0]:
        raise Refused(items[0], *items[2:], place=items[1])
    return tuple(items[1:])


# ---- lent outputs


def with_lent(refusal, lent):
    """A refusal after which what was lent is as it was."""
    after = Refused(*refusal.args, lent, place=refusal.place)
    after.field = refusal.field
    return after


def lent(tape, entries):
    """A lent tape after the entries that a function gives were laid on it."""
    try:
        laid = entries()
        if len(laid) > len(tape):
            refuse(21, 'tape')
    except Refused as refusal:
        raise with_lent(refusal, tape)
    return len(laid), laid + tape[len(laid):]


def written(write, pool, tape, out):
    """The body that a writer writes, and the output after it."""
    try:
        body = write(pool, tape, len(out))
    except Refused as refusal:
        refusal.place = 0
        raise with_lent(refusal, out)
    return body, body + out[len(body):]


def measured(write, pool, tape):
    """The length of the body that a writer writes where there is room, refused at the entry of the tape."""
    return len(write(pool, tape, MOST_BODY))


# ---- fields asked for, each judged alone where it stands, whatever else is wrong


class Part(Reader):
    """A counted part of any body, read from some place on."""

    def __init__(self, body, at, end):
        self.body, self.at, self.end = body, at, end

    def span(self, length):
        return part(self.at, length)

    def counted(self, field, width):
        """A length field's part, which is not passed."""
        return self.span(self.length(field, width))


def inside(body, at, length, place):
    """At a place of a part that is told by where it begins and its length."""
    if at + length > len(body):
        refuse(19, 'part')
    return Part(body, at + place, at + length)


def digit(text, i):
    """The field's own refusal comes first: it is met before there is a text."""
    if i >= len(text):
        refuse(19, 'digit number')
    return int(text[i])


def up_to(i, count):
    """The number of a thing of which there are so many."""
    if i >= count:
        refuse(19, 'number past the count')
    return i
