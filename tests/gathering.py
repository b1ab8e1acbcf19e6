"""Gatherings by chance and by hand: the library's answers, states, stores and bodies, and a second program's."""
# SPDX-License-Identifier: MIT
import collections
import itertools
import random
import zlib

import calls
from second_gathering import LAYOUT, MOST_BODY, MOST_PAYLOAD, Gathering, counted, packed
from second_sections import checked, printed

SEQUENCES = 12000
FRESH = bytes(LAYOUT.size)
chance = random.Random(86)

requests, expected = [], []
# Where the last number and the mark of a spoiled gathering stand in a state.
LAST, SPOILED = 10, 11
# How often each call was given each refusal.
told = {call: collections.Counter() for call in ('gathering_feed', 'gathering_hand_out', 'gathering_pack')}
box = Gathering()


def ask(call, *arguments):
    """Puts a request on the list, and beside it the second program's answer, which it returns."""
    requests.append(calls.request(call, *arguments))
    items = getattr(box, call)(*arguments)
    expected.append(' '.join((item.hex() or '-') if isinstance(item, bytes) else str(item) for item in items))
    if call in told:
        told[call][items[0]] += 1
    return items


def lend(state, store):
    ask('gathering_state', state)
    ask('gathering_store', store)


def feed(s):
    """Feeds a byte string, and asks what is missing and held after it."""
    answer = ask('gathering_feed', s)
    ask('gathering_counts')
    return answer


def counts():
    """How many sections are missing, and how many bytes are held."""
    return ask('gathering_counts')


def hand_out(room):
    return ask('gathering_hand_out', chance.randbytes(1) * room)


def pack():
    """Packs the store, and asks what it and the state are after that."""
    answer = ask('gathering_pack')
    ask('gathering_show')
    return answer


def filled(length):
    """A store of some length, all of one byte, so that its request is short."""
    return chance.randbytes(1) * max(0, length)


def room_for(last):
    return (last + 1) * MOST_PAYLOAD


# ---- what document 01 says, held to the second program


def examples():
    index = 0xFD, 2018, 17

    def section(number, last, payload, current=1):
        return printed(*index, current, number, last, payload)

    assert LAYOUT.size == 524
    lend(FRESH, filled(room_for(1)))
    assert hand_out(9)[:2] == (13, 0)
    assert counts() == (0, 0)
    # Joined by number, not by arrival, and not padded; a repeat completes nothing, and is not counted.
    assert feed(section(1, 1, b'late')) == (0, 0)
    assert counts() == (1, 4)
    assert feed(section(1, 1, b'late')) == (0, 1)
    assert counts() == (1, 4)
    assert hand_out(9)[:2] == (13, 0)
    assert feed(section(0, 1, b'early', current=0)) == (8, 0)
    assert feed(section(0, 0, b'early')) == (9, 0)
    assert feed(section(0, 1, b'early')) == (0, 0)
    assert counts() == (0, 9)
    assert ask('gathering_hand_out', b'\x5A' * 11) == (0, 9, b'earlylate\x5A\x5A')
    assert hand_out(8)[0] == 21
    # A contradiction spoils: its heading is 11 from then on, another one 9.
    assert feed(section(0, 1, b'earl')) == (11, 0)
    assert counts() == (0, 9)
    assert feed(section(0, 1, b'early')) == (11, 0)
    assert feed(section(0, 2, b'early')) == (9, 0)
    assert hand_out(9)[:2] == (11, 0)
    # 10 begins nothing.
    lend(FRESH, filled(room_for(1)))
    assert feed(section(0, 2, b'')) == (10, 0)
    assert ask('gathering_show')[1:] == (0, 0, 0, 0, 0, 0, 0)
    # The empty body.
    assert feed(section(1, 1, b'')) == (0, 0)
    assert hand_out(0)[:2] == (13, 0)
    assert feed(section(0, 1, b'')) == (0, 0)
    assert hand_out(0) == (0, 0, b'')
    assert ask('gathering_show')[1:] == (0, 0, 2018, 0xFD, 17, 1, 0, 0, 1, 1, 1)


def takeovers():
    """A newer version starts over, from a whole and from a spoiled gathering too, and nothing of the old table counts."""

    def section(version, number, last, payload, current=1, extension=2018):
        return printed(0xFE, extension, version, current, number, last, payload)

    lend(FRESH, filled(room_for(1)))
    assert feed(section(30, 0, 1, b'old')) == feed(section(30, 1, 1, b'text')) == (0, 0)
    assert hand_out(7)[:2] == (0, 7)
    # Not current, no room for its table, 16 steps ahead, another extension: all is as before.
    assert feed(section(31, 0, 1, b'new', current=0)) == (8, 0)
    assert feed(section(31, 0, 2, b'new')) == (10, 0)
    assert feed(section(14, 0, 1, b'new')) == (9, 0)
    assert feed(section(31, 0, 1, b'new', extension=2019)) == (9, 0)
    assert ask('gathering_hand_out', bytes(7)) == (0, 7, b'oldtext')
    # Number 1 is held with another payload, but not of this table. The old number 0 is missing from then on.
    assert feed(section(13, 1, 1, b'newer')) == (0, 0)
    assert ask('gathering_show')[1:] == (5, 1, 2018, 0xFE, 13, 1, 0, 1, 6)
    assert hand_out(9)[:2] == (13, 0)
    assert feed(section(30, 0, 1, b'old')) == (9, 0)
    # A spoiled gathering is given up too, for a table with fewer sections.
    assert feed(section(13, 1, 1, b'other')) == (11, 0)
    assert feed(section(14, 0, 2, b'')) == (10, 0)
    assert feed(section(13, 1, 1, b'newer')) == (11, 0)
    assert feed(section(14, 0, 0, b'whole')) == (0, 0)
    assert ask('gathering_hand_out', bytes(5)) == (0, 5, b'whole')
    assert feed(section(14, 0, 0, b'whole')) == (0, 1)
    ask('gathering_show')


def packings():
    """Packing joins where the payloads stand, ends the gathering, and keeps every byte beyond the body."""

    def section(number, last, payload, version=17):
        return printed(0xFD, 2018, version, 1, number, last, payload)

    lend(FRESH, b'\x5A' * room_for(1))
    assert pack() == (13, 0, b'')
    assert feed(section(1, 1, b'late')) == (0, 0)
    assert pack() == (13, 0, b'')
    assert feed(section(0, 1, b'early')) == (0, 0)
    assert counts() == (0, 9)
    assert ask('gathering_pack') == (0, 9, b'earlylate')
    # Beyond the body old copies stay too; of the table nothing is remembered.
    rest = b'\x5A' * (MOST_PAYLOAD - 9) + b'late' + b'\x5A' * (MOST_PAYLOAD - 4)
    assert ask('gathering_show') == (zlib.adler32(b'earlylate' + rest), 0, 0, 0, 0, 0, 0, 0)
    assert pack() == (13, 0, b'')
    # An older version, another payload, another last number: the next table is the first again.
    assert feed(section(0, 0, b'other', version=16)) == (0, 0)
    assert pack() == (0, 5, b'other')
    # A spoiled gathering is not packed, nor one whose store is too short, and all stays.
    lend(FRESH, b'\x5A' * room_for(0))
    assert feed(section(0, 0, b'once')) == (0, 0)
    assert feed(section(0, 0, b'more')) == (11, 0)
    assert pack() == (11, 0, b'')
    ask('gathering_store', b'\x5A' * (MOST_PAYLOAD - 1))
    assert pack() == (10, 0, b'')
    # Payloads of 4,084 bytes stand where they go; one byte less, and what is read and what is written overlap.
    for first in MOST_PAYLOAD, MOST_PAYLOAD - 1, MOST_PAYLOAD - 100, 1, 0:
        parts = [chance.randbytes(first), chance.randbytes(MOST_PAYLOAD), b'', chance.randbytes(MOST_PAYLOAD)]
        lend(FRESH, filled(room_for(3) + 1))
        for number, part in enumerate(parts):
            feed(section(number, 3, part))
        assert pack() == (0, first + 2 * MOST_PAYLOAD, b''.join(parts))


def steps_round(held, new):
    """How often one goes on from the held version, from 31 to 0, until the new one is there."""
    steps = 0
    while held != new:
        held, steps = 0 if held == 31 else held + 1, steps + 1
    return steps


def pairs_of_versions():
    """Every held version with every new one, the last number the same or not, the gathering spoiled or not."""
    for held, new, last, spoiled in itertools.product(range(32), range(32), (1, 2), (0, 1)):
        steps = steps_round(held, new)
        lend(packed((0xFB, 7, held, 1), spoiled, {0: 2}), b'\x55' * room_for(2))
        answer = feed(printed(0xFB, 7, new, 1, 1, last, b'new'))
        if 1 <= steps <= 15:
            assert answer == (0, 0)
            assert ask('gathering_show')[1:] == (3, last, 7, 0xFB, new, last, 0, 1, 4)
        else:
            assert answer == ((9, 0) if steps or last == 2 else (11, 0) if spoiled else (0, 0))
            ask('gathering_show')


# ---- every fault with every other, which shows the order of refusals


def with_byte(at, value):
    return lambda s: s[:at] + bytes([value]) + s[at + 1:]


def rechecked(s):
    return checked(s[:-4])


# The fault at place k earns refusal k.
SECTION_FAULTS = [
    lambda s: s,
    lambda s: s[:11],
    lambda s: rechecked(with_byte(0, 0xFA)(s)),
    lambda s: rechecked(with_byte(1, 0x70)(s)),
    lambda s: rechecked(with_byte(2, 8)(s)),
    lambda s: s + b'\0',
    lambda s: rechecked(with_byte(6, 3)(s)),
    with_byte(8, 0),
]


def orders_of_feeding():
    """State, section, current, heading (the same, 31 steps ahead, 1 step), store, contradiction; and to a fresh state."""
    for impossible, number, current, version, short, spoiled, length in itertools.product(
            (0, 1), range(8), (1, 0), (31, 30, 0), (0, 1), (0, 1), (5, 6)):
        s = SECTION_FAULTS[number](printed(0xFE, 0x0C29, version, current, 1, 2, b'\x77' * length))
        begun = packed((0xFE, 0x0C29, 31, 2), spoiled, {1: 5, 2 + impossible: 0})
        for state in begun, with_byte(SPOILED, impossible)(FRESH):
            lend(state, b'\x77' * (room_for(2) - short))
            answer = feed(s)
            assert answer[0] == 12 if impossible else answer[0] == number or number == 0
            ask('gathering_show')


def orders_of_handing_out():
    for impossible, begun, short, spoiled, missing, less in itertools.product((0, 1), repeat=6):
        lengths = {0: 6, 1: 7, 2 + impossible: 8}
        if missing:
            del lengths[1]
        state = packed((0xFB, 1, 0, 2), spoiled, lengths) if begun else with_byte(LAST, impossible)(FRESH)
        lend(state, filled(room_for(2) - short))
        hand_out(21 - less)
        ask('gathering_show')
        pack()


# ---- states by hand


def states():
    """The fresh state with one byte changed; then good states with each field at, and past, its ends."""
    for at, value in itertools.product(range(LAYOUT.size), (1, 128, 0xFD)):
        yield with_byte(at, value)(FRESH)
    for n in range(256):
        yield packed((n, 7, 3, 2), 0, {0: 1, 1: 2, 2: 3})
        yield packed((0xFC, 7, n, 2), 0, {0: 1, 1: 2, 2: 3})
        yield packed((0xFC, 7, 3, n), 0, {0: 1, 1: 2, 2: 3})
        yield packed((0xFC, 7, 3, 2), n, {0: 1, 1: 2, 2: 3})
        yield packed((0xFC, 7, 3, 2), 0, {0: 1, 1: 2, n: 3})
        yield packed((0xFC, 7, 3, n), 1, {n: 4084})
        yield packed((0xFC, 7, 3, 254), 0, {n: 4084})
        yield packed((0xFC, 7, 3, 255), n % 2, {n: 4085})
    for extension, length in itertools.product((0, 1, 7, 255, 256, 65535), (0, 1, 4083, 4084, 4085, 8191, 65534)):
        yield packed((0xFC, extension, 3, 2), 0, {0: 1, 1: length, 2: 3})
    # What is kept, and near it: a state that counts wrong is not possible.
    for last, lengths in (2, {0: 1, 1: 2, 2: 3}), (2, {1: 2}), (0, {0: 0}), (255, {1: 2}):
        missing, held = counted(last, lengths)
        for more, longer in itertools.product((-1, 0, 1, 256), (-1, 0, 1, 65536)):
            yield packed((0xFC, 7, 3, last), 0, lengths, (max(0, missing + more), max(0, held + longer)))


def by_hand():
    """Each state fed a section that some hold, handed out, and fed no section, a stranger or a contradiction."""
    for state in states():
        lend(state, b'\x33' * room_for(2))
        feed(printed(0xFC, 7, 3, 1, 1, 2, b'\x33' * 2))
        hand_out(chance.choice((6, 5)))
        feed(chance.choice((b'', printed(0xFB, 7, 3, 1, 0, 0, b''), printed(0xFC, 7, 3, 1, 1, 2, b'\x33'))))
        ask('gathering_show')
        pack()


# ---- by chance


def heading_by_chance(last):
    return chance.randint(0xFB, 0xFE), chance.randrange(2**16), chance.choice((0, 31, chance.randrange(32))), last


def length_by_chance():
    return chance.choices((0, 1, chance.randrange(40), 4083, 4084), (200, 100, 1000, 4, 8))[0]


def state_by_chance(heading):
    """Mostly fresh; else some numbers are held; a third of those states with a byte changed."""
    if chance.random() < 0.85:
        return FRESH
    numbers = chance.sample(range(heading[3] + 1), chance.randint(1, heading[3] + 1))
    state = packed(heading, int(chance.random() < 0.2), {number: length_by_chance() for number in numbers})
    return chance.choice((state, state, with_byte(chance.randrange(LAYOUT.size), chance.randrange(256))(state)))


def store_by_chance(last):
    """Mostly just long enough; else too short, or longer."""
    need = room_for(last)
    lengths = need, need - 1, need + 1, need - MOST_PAYLOAD, need + MOST_PAYLOAD, 0, chance.randrange(need)
    return filled(chance.choices(lengths, (30, 4, 4, 2, 2, 1, 1))[0])


def stranger(kind, extension, version, last):
    """The heading with one part changed, or of a version ahead."""
    part = chance.randrange(5)
    if part == 0:
        kind = chance.choice([other for other in range(0xFB, 0xFF) if other != kind])
    elif part == 1:
        extension ^= 1 << chance.randrange(16)
    elif part == 2:
        version ^= 1 << chance.randrange(5)
    if part == 4:
        version = (version + chance.randint(1, 17)) % 32
    if part >= 3:
        last = chance.choice([other for other in (0, 1, 2, abs(last - 1), last + 1, 255) if other != last])
    return kind, extension, version, last


def quarrel(number):
    """Not the held payload, but near it: less of it, a bit turned, or with the store's next byte."""
    held, at, bit = box.payload(number), number * MOST_PAYLOAD, 1 << chance.randrange(8)
    place = chance.randrange(len(held) + 1)
    turned = held[:place] + bytes(byte ^ bit for byte in held[place:place + 1]) + held[place + 1:]
    longer = bytes(box.store[at:at + min(len(held) + 1, MOST_PAYLOAD)])
    return chance.choice([other for other in (held[:place], turned, longer) if other != held])


def payload_for(number, own, peaceful):
    """What is held of a number, or, where there is no peace, something near it; else its own payload."""
    if box.lengths.get(number, MOST_PAYLOAD + 1) > MOST_PAYLOAD or len(box.store) < room_for(number):
        return own
    return box.payload(number) if peaceful or chance.random() < 0.7 else quarrel(number)


def damaged(s):
    at = chance.randrange(len(s))
    turned = with_byte(at, s[at] ^ 1 << chance.randrange(8))(s)
    above = rechecked(with_byte(6, 255)(with_byte(7, chance.randrange(255))(s)))
    return chance.choice((s[:at], s + b'\xFF', turned, rechecked(turned), above, chance.randbytes(at)))


def section_by_chance(heading, payloads, peaceful):
    """Of the table, mostly one not held yet; now and then a stranger's, not current, damaged, or several of these."""
    missing = [number for number in payloads if number not in box.lengths]
    number = chance.choice(missing if missing and chance.random() < 0.7 else list(payloads))
    payload = payload_for(number, payloads[number], peaceful)
    if chance.random() < 0.15:
        heading = stranger(*heading)
    s = printed(*heading[:3], int(chance.random() < 0.93), min(number, heading[3]), heading[3], payload)
    return damaged(s) if chance.random() < 0.15 else s


def hand_out_by_chance():
    """Into an output just as long as all that is held, one byte shorter or longer, or of no bytes."""
    held = sum(box.lengths.values())
    if held > room_for(5):
        held = 9
    hand_out(max(0, chance.choice((held, held, held - 1, held + 1, 0))))


def sequence():
    last = chance.choice((0, 0, 1, 1, 1, 2, 2, 3, 4, 5))
    heading, peaceful = heading_by_chance(last), chance.random() < 0.7
    payloads = {number: chance.randbytes(length_by_chance()) for number in range(last + 1)}
    ask('gathering_state', state_by_chance(heading))
    # Now and then the store is as the sequence before has left it.
    if chance.random() < 0.85:
        ask('gathering_store', store_by_chance(last))
    for _ in range(chance.randint(2, 8) + 2 * last):
        feed(section_by_chance(heading, payloads, peaceful))
        if chance.random() < 0.15:
            hand_out_by_chance()
        if chance.random() < 0.08:
            pack()
        if chance.random() < 0.01:
            ask('gathering_store', store_by_chance(last))
    for number in chance.choice(([], list(payloads))):
        feed(printed(*heading[:3], 1, number, last, payload_for(number, payloads[number], peaceful)))
    hand_out_by_chance()
    ask('gathering_show')
    if chance.random() < 0.5:
        pack()


# ---- tables of 256 sections


def long_table(payloads):
    """Fed in some order, some sections twice, and handed out when the last to come is missing, and when it is there."""
    kind, extension, version, last = heading_by_chance(255)
    numbers = [*range(256), *chance.choices(range(256), k=20)]
    chance.shuffle(numbers)
    lend(FRESH, filled(MOST_BODY))
    for number in numbers:
        feed(printed(kind, extension, version, 1, number, last, payloads[number]))
        if len(box.lengths) == 255:
            hand_out(0)
    body = b''.join(payloads)
    assert len(body) <= MOST_BODY
    assert hand_out(len(body)) == (0, len(body), body)
    assert hand_out(len(body) - 1)[0] == 21
    ask('gathering_show')
    assert pack() == (0, len(body), body)


def long_tables():
    for _ in range(20):
        long_table([chance.randbytes(chance.randrange(30)) for _ in range(256)])
    # 256 full sections: 1,045,504 bytes, the longest body that there is
    long_table([chance.randbytes(MOST_PAYLOAD) for _ in range(256)])
    # one byte less each: every payload but the first is moved, over a part of the one before
    long_table([chance.randbytes(MOST_PAYLOAD - 1) for _ in range(256)])
    for missing in (0, 1, 127, 128, 254, 255):
        lend(packed((0xFE, 1, 2, 255), 0, {number: 9 for number in range(256) if number != missing}), filled(MOST_BODY))
        assert hand_out(10)[:2] == pack()[:2] == (13, missing)
    ask('gathering_store', filled(MOST_BODY - 1))
    assert hand_out(10)[:2] == pack()[:2] == (10, 0)


def main():
    by_rule = examples, takeovers, packings, pairs_of_versions, orders_of_feeding, orders_of_handing_out
    for part in *by_rule, by_hand, long_tables:
        part()
    for _ in range(SEQUENCES):
        sequence()
    # Every answer that there is.
    assert sorted(told['gathering_feed']) == list(range(13))
    assert sorted(told['gathering_hand_out']) == [0, 10, 11, 12, 13, 21]
    assert sorted(told['gathering_pack']) == [0, 10, 11, 12, 13]
    calls.agree('a second program', requests, calls.answers(requests), expected)
    print('%d sequences by chance; answers by refusal, 0 for none:' % SEQUENCES)
    for call in told:
        print(call, ', '.join('%d: %d' % pair for pair in sorted(told[call].items())))


main()
