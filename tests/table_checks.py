"""What the tests of tables share: the library held to a second program, what must be met."""
# SPDX-License-Identifier: MIT
import collections
import types

import calls
import make_fields
import second_fields

SEED, COUNT = 86, 20000
TOP = 2**64
# A body above this many bytes is put in fewer ways.
LARGE = 20000


# ---- the library beside a second program


class Comparison:
    """The library held to a second program's calls, whose refusals are noted."""

    def __init__(self, second, *beginnings):
        self.met = collections.Counter()
        self.program = types.SimpleNamespace(**{
            name: self.noted(call) for name, call in vars(second).items()
            if name.startswith(beginnings) and callable(call)})

    def noted(self, call):
        """A second program's function, which also notes its refusals."""
        def run(*arguments):
            try:
                return call(*arguments)
            except calls.Refused as refusal:
                self.met[call.__name__, refusal.args[0], getattr(refusal, 'field', None)] += 1
                raise
        return run

    def compare(self, cases):
        """The numbers with which each call, and each field of one that asks for several, was answered."""
        return by_refusal(cases, calls.compare('a second program', self.program, cases))

    def compare_writings(self, table, make, numbers, refusals, *before, count=COUNT):
        """The generator's forms written and measured: these numbers are answered, these refusals met, and no others."""
        write, measure = table + '_write', table + '_measure'
        forms = [*make_fields.writings(make, SEED, count)]
        cases = [(write, *before, pool, tape, out(room)) for pool, tape, room in forms]
        cases += [(measure, *before, pool, tape) for pool, tape, _ in forms]
        assert self.compare(cases) == {write: numbers, measure: numbers - {21}} and len(forms) > count
        self.must_meet(write, refusals)
        self.must_meet(measure, refusals - {(21, 'room')})

    def must_meet(self, call, expected):
        """Every refusal of a call that can be met, with the field that it is of, was met, and no other."""
        found = {(number, field) for name, number, field in self.met if name == call}
        assert found == expected, found ^ expected


def by_refusal(cases, got):
    """How often each refusal number was answered by each call; calls of fields answer for each with two items."""
    found = {}
    for (call, *_), answer in zip(cases, got, strict=True):
        numbers = answer.split()[::2] if call.endswith('_fields') else [answer.split(None, 1)[0]]
        for k, number in enumerate(numbers):
            found.setdefault('%s %d' % (call, k) if k else call, collections.Counter())[int(number)] += 1
    for call, numbers in found.items():
        shown = ', '.join('%d: %d' % pair for pair in sorted(numbers.items()))
        print('  %s, %d times: %s' % (call, sum(numbers.values()), shown))
    return {call: set(numbers) for call, numbers in found.items()}


def fields_met(told, call, *expected):
    """Each field of a call that asks for several was answered with these numbers, and no others."""
    found = [told.get('%s %d' % (call, k) if k else call) for k in range(len(expected))]
    assert found == list(expected) and '%s %d' % (call, len(expected)) not in told, (call, found)


# ---- the second program by itself


def hand_made(second, cases):
    """It says what document 01's words give at once (None: accepted); so the library, which is held to it, does too."""
    for case, expected in cases:
        told = calls.told(getattr(second, case[0]), *case[1:])
        assert told == expected or expected is None and told.startswith('0 0 '), (case, told, expected)
        yield case


def there_and_back(chance, read, write, make):
    """It reads each table from the body that the generator made of its values, and writes that body from its form."""
    tables = [make.table(chance) for _ in range(400)] + [*make.large(chance)]
    for table in tables:
        body = make_fields.body_of(make.items(table))
        assert second_fields.plain(read(make.KIND, body)) == table
        form = make.form_of(chance, table)
        assert write(form.laid(chance), form.tape, len(body)) == body
    print('%d tables are read and written by the second program as they were made' % len(tables))


def days_made():
    """Says how many identifiers make_fields.checked found good; both ends and every 29 February were among their days."""
    made = make_fields.days_made
    ends, leap, others = (sum(made[day] for day in days) for days in (
        make_fields.ENDS, make_fields.LEAP_DAYS, {*make_fields.MONTH_ENDS} - {*make_fields.LEAP_DAYS}))
    assert {*made} >= {*make_fields.ENDS, *make_fields.LEAP_DAYS}
    print('%d identifiers made as good have a real day, of %d days: %d times the first or last, %d a 29 February, %d '
          "another month's end" % (made.total(), len(made), ends, leap, others))


def tables_of(table_of, bodies):
    """The tables of those bodies, each with its kind, and its variant if any, that are accepted."""
    found = {}
    for body in bodies:
        try:
            found[body] = table_of(*body)
        except calls.Refused:
            pass
    return found


# ---- lent outputs


def lent_tape(entries):
    """A lent tape, all its numbers others, and none of them one that a body can have."""
    return [10**7 + k for k in range(entries)]


def out(room):
    """An output, whose bytes are seen to stay or go."""
    return b'\xE5' * room


def ways(chance, body):
    """Room that is just enough, too little by one, more; for a large body one of these."""
    return (0, -1, 2) if len(body) < LARGE else (chance.choice((0, 2)),)


def laid_and_written(table, kind, body, laid, rooms, *variant):
    """An accepted body laid on a tape, and written again from it; in a variant, where the table has some."""
    for more in rooms:
        yield table + '_lay', kind, *variant, body, lent_tape(len(laid) + more)
        yield table + '_write', *variant, body, laid, out(len(body) + more)


# ---- places and numbers for what is asked for

# Many of these end in the body if their sum is taken in 64 bits.
NOT_IN_BODY = ((TOP - 1, 1), (TOP - 1, 2), (1, TOP - 1), (TOP - 3, 45), (3, TOP - 3), (2**63, 2**63),
               (2**63 + 3, 2**63 + 38), (2**32, 0), (0, 2**32), (TOP - 1, 0), (0, TOP - 1))


def parts_by_length(body, at, count, width):
    """Where parts begin and how long they are, by their lengths alone, as far as these lie in the body."""
    found = []
    for _ in range(count):
        if at + width > len(body):
            break
        found.append((at + width, int.from_bytes(body[at:at + width], 'big')))
        at += width + found[-1][1]
    return found


def parts_near(chance, body, at, length, *sizes):
    """The part, and what begins or ends elsewhere, in the body and not."""
    rest = len(body) - at
    near = {length, length - 1, length + 1, rest, rest + 1, chance.randrange(max(length, 1)), *sizes}
    yield from ((at, size) for size in sorted(near) if size >= 0)
    yield at + chance.choice((1, -1, -2)), length
    yield chance.randrange(len(body) + 2), chance.randrange(60)


def numbers_near(chance, most):
    """Numbers of things of which there are so many: of the last, of none, and some that end in the bits of one."""
    far = chance.sample((0, 255, 256, 2**8 + 1, 2**32, 2**63, TOP - 1), 2)
    return max(most - 1, 0), most, chance.randrange(max(most, 1)), *far


# ---- every refusal that can be met


def pairs(text):
    """The numbers and fields of lines like `field: 14 15`."""
    for line in text.strip().splitlines():
        field, numbers = line.split(': ')
        for number in numbers.split():
            yield int(number), field


def on_tape(counts, numbers, spans, fixed):
    """What every entry of a kind can be refused for: names divided by commas."""
    kinds = counts, numbers, spans, fixed
    counts, numbers, spans, fixed = ([name.strip() for name in names.split(',') if name] for names in kinds)
    found = {(19, name + ', tape ends') for name in counts + numbers} | {(19, name) for name in numbers}
    for name in spans + fixed:
        found |= {(19, name + end) for end in (' start, tape ends', ' length, tape ends', ', outside the pool')}
    return found | {(19, name + ', wrong length') for name in fixed} | {(19, 'tape left over'), (21, 'room')}
