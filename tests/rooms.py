"""Two networks over one store, by chance and by hand: the library's answers, states, stores, bodies and counts, and a second program's.

Runs of calls for either network in any interleaving, over tight and roomy stores: sections that are new, repeated, of newer versions, contradicting,
damaged; ends, begun or not, whole or not; handings out. Each is put to the library twice, with the networks exchanged (tests/rooms.c). Then states
that no call left, each of them 12 exactly if the second program finds it impossible.
"""
# SPDX-License-Identifier: MIT
import collections
import multiprocessing
import os
import random
import struct
import subprocess
import sys
import zlib

import calls
from second_rooms import LAYOUT, MOST_ROOMS, PART, ROOM, Networks, possible
from second_sections import checked, printed

RUNS, AT_ONCE, CALLS = 1000, 250, 40
TESTS = os.path.dirname(os.path.abspath(__file__))
chance = random.Random(109)
often = chance.random


class Differs(Exception):
    """The library does not do as the second program."""


# ---- requests, each with the answer that it is to have

counted = collections.Counter()


class Asked:
    """A box of the second program, the requests that were put to it, and its answers. A store is made of one byte."""

    def __init__(self, size, byte):
        self.box, self.size = Networks(bytes([byte]) * size), size
        self.requests = [b'N' + struct.pack('>IB', size, byte)]
        self.expected = [struct.pack('>I', self.box.count) + self.checks()]

    def checks(self):
        return struct.pack('>II', zlib.crc32(self.box.packed()), zlib.crc32(self.box.store))

    def put(self, what, request, answered, after=b''):
        """Puts a request, with a refusal and a place, or 0 and a value."""
        counted[what, answered[0]] += 1
        self.requests.append(what.encode() + request)
        self.expected.append(struct.pack('>BI', *answered) + after + self.checks())
        return answered

    def feed_quietly(self, network, s):
        """A feed of which only the answer is compared."""
        answered = told(network, True, lambda: self.box.feed(network, s))
        self.requests.append(b'f' + struct.pack('>IIH', network, self.size, len(s)) + s)
        self.expected.append(struct.pack('>BI', *answered))
        return answered

    def feed(self, network, s, size=None):
        size = self.size if size is None else size
        return self.put('F', struct.pack('>IIH', network, size, len(s)) + s, told(network, size == self.size, lambda: self.box.feed(network, s)))

    def hand_out(self, network, room, size=None):
        size, body = self.size if size is None else size, []

        def length():
            body.append(self.box.body(network, room))
            return len(body[0])

        answered = told(network, size == self.size, length)
        return self.put('H', struct.pack('>III', network, size, room), answered, b''.join(body))

    def end(self, network, size=None):
        size = self.size if size is None else size
        return self.put('E', struct.pack('>II', network, size), told(network, size == self.size, lambda: self.box.end(network) or 0))

    def count(self, size=None):
        """Held and free rooms, which are what was taken and given back."""
        size = self.size if size is None else size
        takes, returns = sum(self.box.takes.values()), sum(self.box.returns.values())
        held, free = takes - returns, self.box.count - takes + returns
        if (held, free) != (len(self.box.held()), self.box.free()):
            raise Differs('the second program counts its rooms wrong')
        answers = ((0, held), (0, free)) if size == self.size else ((12, 0), (12, 0))
        counted['C', answers[0][0]] += 1
        self.requests.append(b'C' + struct.pack('>I', size))
        self.expected.append(b''.join(struct.pack('>BI', *a) for a in answers) + struct.pack('>I', zlib.crc32(self.box.packed())))
        return answers


def told(network, same_store, call):
    """A refusal and its place, or 0 and the value; 19 comes first, and then 12 for a store of another length."""
    if network not in (1, 2):
        return 19, 0
    if not same_store:
        return 12, 0
    try:
        return 0, call()
    except calls.Refused as refused:
        return refused.args[0], (refused.args[1:] or (0,))[0]


def run(requests):
    """What the library answers."""
    done = subprocess.run([os.path.join(TESTS, os.pardir, 'tools', 'c-side'), os.path.join(TESTS, 'rooms.c')], input=b''.join(requests),
                          stdout=subprocess.PIPE)
    if done.returncode == 77:
        sys.exit(77)
    if done.returncode:
        raise Differs('rooms: status %d' % done.returncode)
    return done.stdout


def hold(asked, what):
    """Ends with an error unless the library answered so."""
    got, at = run([r for a in asked for r in a.requests]), 0
    for i, a in enumerate(asked):
        for number, (request, wanted) in enumerate(zip(a.requests, a.expected)):
            if got[at:at + len(wanted)] != wanted:
                raise Differs('%s, run %d, request %d, %.60s: the library answers %s.., and the second program %s..' % (
                    what, i, number, request.hex(), got[at:at + 40].hex(), wanted[:40].hex()))
            at += len(wanted)
    if at != len(got):
        raise Differs('%s: the library answers more than was asked' % what)


# ---- by hand, from the request's words

def section(number, last, payload=b'', version=17, extension=2018, kind=0xFE, current=1):
    return printed(kind, extension, version, current, number, last, payload)


def tight():
    """Two rooms, three sections: the third is refused for room, and taken once a gathering has ended. Repeats and contradictions need none."""
    x = Asked(2 * ROOM + ROOM - 1, 0x5A)
    assert x.box.count == 2
    assert x.count() == ((0, 0), (0, 2))
    assert x.feed(1, section(0, 1, b'one')) == (0, 0)
    assert x.feed(2, section(0, 1, b'two')) == (0, 0)
    assert x.count() == ((0, 2), (0, 0))
    assert x.feed(1, section(1, 1, b'more')) == (35, 0)
    assert x.feed(1, section(0, 1, b'one')) == (0, 1)
    assert x.feed(1, section(1, 1, current=0)) == (8, 0)
    assert x.feed(1, section(1, 2)) == (9, 0)
    assert x.hand_out(1, 9) == (13, 1)
    # A takeover gives its rooms back before it takes one: it is never refused for room.
    assert x.feed(1, section(1, 1, b'newer', version=18)) == (0, 0)
    assert x.feed(1, section(0, 1, b'newer', version=18)) == (35, 0)
    # A contradiction needs no room, and spoils one network alone.
    assert x.feed(2, section(0, 1, b'other')) == (11, 0)
    assert x.feed(2, section(1, 1, b'two')) == (11, 0)
    assert x.hand_out(2, 9) == (11, 0)
    assert x.end(2) == (0, 0)
    assert x.count() == ((0, 1), (0, 1))
    assert x.feed(1, section(0, 1, b'all ', version=18)) == (0, 0)
    assert x.hand_out(1, 8) == (21, 0)
    assert x.hand_out(1, 9) == (0, 9)
    # Handing out gives nothing back. The end of what is not begun is no fault.
    assert x.count() == ((0, 2), (0, 0))
    assert x.end(2) == x.end(2) == (0, 0)
    assert x.feed(2, section(0, 0)) == (35, 0)
    assert x.hand_out(2, 0) == (13, 0)
    assert x.end(1) == (0, 0)
    assert x.feed(2, section(0, 0)) == (0, 0)
    assert x.hand_out(2, 0) == (0, 0)
    return x


def order():
    """19, 12, 1 to 7, 8, 9, 11, 35: of each two the first is given."""
    x = Asked(ROOM, 0)
    for network in 0, 3, 2**31, 2**32 - 1:
        for size in ROOM, ROOM - 1:
            assert x.feed(network, b'', size) == x.hand_out(network, 0, size) == x.end(network, size) == (19, 0)
    for size in ROOM - 1, ROOM + 1, 0:
        assert x.feed(1, b'', size) == x.hand_out(1, 0, size) == x.end(1, size) == (12, 0)
        assert x.count(size) == ((12, 0), (12, 0))
    good = section(0, 1, b'held')
    assert x.feed(1, good) == (0, 0)
    later = section(1, 1, b'later')
    assert x.feed(1, later) == (35, 0)
    refused = (good[:11], checked(b'\xFA' + later[1:-4]), checked(later[:1] + b'\x70' + later[2:-4]), checked(later[:2] + b'\x08' + later[3:-4]),
               later + b'\0', checked(later[:6] + b'\2' + later[7:-4]), later[:-1] + bytes([later[-1] ^ 1]))
    for number, s in enumerate(refused, 1):
        assert x.feed(1, s) == (number, 0)
    assert x.feed(1, section(1, 2, current=0)) == (8, 0)
    assert x.feed(1, section(1, 2)) == (9, 0)
    assert x.feed(1, section(0, 1, b'other')) == (11, 0)
    assert x.feed(1, later) == (11, 0)
    return x


def whole_store():
    """512 rooms and no more, of a store that has bytes for two more: 256 sections of either network, and not one of them refused."""
    x = Asked((MOST_ROOMS + 1) * ROOM + 5, 0x11)
    assert x.box.count == MOST_ROOMS
    for number in range(256):
        for network in 1, 2:
            assert x.feed_quietly(network, section(number * 77 % 256, 255, bytes([network, number]), kind=0xFC + network)) == (0, 0)
    assert x.count() == ((0, MOST_ROOMS), (0, 0))
    assert x.hand_out(1, 512) == x.hand_out(2, 512) == (0, 512)
    assert x.feed(2, section(9, 255, b'newer', version=18, kind=0xFE)) == (0, 0)
    assert x.count() == ((0, 257), (0, 255))
    return x


def no_room():
    """A store of no room: nothing is ever taken, or begun."""
    x = Asked(ROOM - 1, 0xFF)
    assert x.feed(1, section(0, 0)) == x.feed(2, section(0, 0)) == (35, 0)
    assert x.hand_out(1, 9) == (13, 0)
    assert x.count() == ((0, 0), (0, 0))
    return x


# ---- by chance

def damaged(s):
    at = chance.randrange(len(s))
    turned = s[:at] + bytes([s[at] ^ 1 << chance.randrange(8)]) + s[at + 1:]
    return chance.choice((s[:at], s + b'\xFF', turned, checked(turned[:-4]), chance.randbytes(at)))


def section_for(part, table):
    """A section of a network's table, mostly one that it misses; now and then of a newer version, of another table, contradicting, damaged."""
    kind, extension, version, last = part.heading or table
    missing = [k for k in range(last + 1) if k not in part.payloads]
    number = chance.choice(missing) if missing and often() < 0.6 else chance.randrange(last + 1)
    payload = part.payloads.get(number, bytes([number]) * chance.choice((0, 1, 3, number, 40)))
    if often() < 0.02:
        payload = chance.randbytes(chance.choice((1, 4084)))
    happens = often()
    if happens < 0.06:
        version, last = (version + chance.randint(1, 17)) % 32, chance.randint(number, number + 3)
        payload = chance.randbytes(chance.randrange(9))
    elif happens < 0.09:
        kind, extension = chance.choice(((0xFB, extension), (kind, extension ^ 1)))
    elif happens < 0.12:
        payload = chance.choice((payload + b'x', payload[:-1], b''))[:ROOM]
    s = printed(kind, extension, version, int(often() > 0.03), number, min(last, 255), payload)
    return damaged(s) if often() < 0.06 else s


def run_by_chance():
    rooms = chance.choice((0, 1, 1, 2, 2, 3, 3, 4, 5, 8, 12))
    x = Asked(rooms * ROOM + chance.choice((0, 0, 1, ROOM - 1)), chance.randrange(256))
    tables = {n: (chance.randint(0xFB, 0xFE), chance.randrange(2**16), chance.randrange(32), chance.choice((0, 1, 2, 3, 5, 9))) for n in (1, 2)}
    if often() < 0.3:
        tables[2] = tables[1]
    for _ in range(CALLS):
        network = chance.choice((1, 2)) if often() < 0.98 else chance.choice((0, 3, 2**32 - 1))
        size = x.size if often() < 0.98 else chance.choice((max(0, x.size - 1), x.size + 1))
        part, kind = x.box.parts.get(network, x.box.parts[1]), often()
        if kind < 0.78:
            x.feed(network, section_for(part, tables.get(network, tables[1])), size)
        elif kind < 0.92:
            held = sum(map(len, part.payloads.values()))
            x.hand_out(network, max(0, held + chance.choice((0, 0, 0, 1, 50, -1))), size)
        elif kind < 0.95:
            x.end(network, size)
        else:
            x.count(size)
    return x


# ---- states that no call left

def with_room(state, network, number, room):
    at = 8 + (network - 1) * PART.size + PART.size - 512 + 2 * number
    return state[:at] + struct.pack('<H', room) + state[at + 2:]


def with_held(state, network, number, n):
    at = 8 + (network - 1) * PART.size + PART.size - 1024 + 2 * number
    return state[:at] + struct.pack('<H', n) + state[at + 2:]


def damaged_states(x):
    """The states that the request lists as impossible, and near ones, from a box in which both networks hold something."""
    state, held = x.box.packed(), [(n, k) for n in (1, 2) for k in sorted(x.box.parts[n].rooms)]
    yield state
    for bytes_ in (x.size + 1, x.size - 1, 0, 2**64 - 1):
        yield struct.pack('<Q', bytes_) + state[8:]
    for n, k in held:
        yield with_room(state, n, k, 0)
        yield with_held(state, n, k, 0)
        for room in (x.box.count, x.box.count + 1, MOST_ROOMS, MOST_ROOMS + 1, 65535, *(x.box.parts[m].rooms[l] + 1 for m, l in held)):
            yield with_room(state, n, k, room)
    for n in 1, 2:
        for k in range(256):
            if (n, k) not in held:
                yield with_room(state, n, k, chance.randint(1, MOST_ROOMS))
                yield with_held(state, n, k, chance.randint(1, ROOM + 2))
    for _ in range(600):
        at = chance.randrange(LAYOUT.size) if often() < 0.5 else chance.choice((*range(24), *range(1044, 1060)))
        yield state[:at] + bytes([state[at] ^ 1 << chance.randrange(8)]) + state[at + 1:]


def hold_states():
    """An impossible state is 12 to every call and stays; a possible one refuses the empty string as no section, and counts."""
    x = Asked(4 * ROOM, 0)
    for network, number in (1, 0), (2, 1), (1, 2), (2, 0):
        x.feed(network, section(number, 3, bytes([network, number])))
    requests, expected, seen = list(x.requests), list(x.expected), collections.Counter()
    store = struct.pack('>I', zlib.crc32(x.box.store))
    for state in damaged_states(x):
        good = possible(state, x.size)
        seen[good] += 1
        check = struct.pack('>I', zlib.crc32(state))
        network = chance.choice((1, 2))
        requests += [b'S' + state, b'F' + struct.pack('>IIH', network, x.size, 0)]
        expected.append(struct.pack('>BI', 1 if good else 12, 0) + check + store)
        if good:
            continue
        requests += [b'H' + struct.pack('>III', network, x.size, 100), b'E' + struct.pack('>II', network, x.size), b'C' + struct.pack('>I', x.size),
                     b'E' + struct.pack('>II', 7, x.size)]
        expected += [struct.pack('>BI', 12, 0) + check + store] * 2 + [struct.pack('>BIBI', 12, 0, 12, 0) + check, struct.pack('>BI', 19, 0) + check + store]
    if run(requests) != b''.join(expected):
        raise Differs('a state that no call left is not told as the second program does')
    if not seen[True] or not seen[False]:
        raise Differs('states of one kind alone: %s' % seen)
    return seen


# ---- all

def hold_some(number):
    chance.seed(109000 + number)
    counted.clear()
    hold([run_by_chance() for _ in range(AT_ONCE)], 'runs %d' % number)
    return counted


MET = {'F': {0, 1, 2, 3, 4, 5, 6, 7, 8, 9, 11, 12, 19, 35}, 'H': {0, 11, 12, 13, 19, 21}, 'E': {0, 12, 19}, 'C': {0, 12}}


def main():
    hand = [tight(), order(), whole_store(), no_room()]
    hold(hand, 'by hand')
    by_hand = collections.Counter(counted)
    states = hold_states()
    with multiprocessing.Pool() as pool:
        all_counted = sum(pool.imap_unordered(hold_some, range(RUNS // AT_ONCE)), collections.Counter())
    for call, refusals in MET.items():
        met = {refusal for (what, refusal) in all_counted | by_hand if what == call}
        if met != refusals:
            raise Differs('%s: %s were met, and not %s' % (call, met, refusals))
    fed = {refusal: n for (what, refusal), n in sorted(all_counted.items()) if what == 'F'}
    print('%d calls of %d runs for two networks as a second program answers them, and exchanged, state after state: feeds %s; %d runs by hand; %d states '
          'that no call left, %d of them impossible' % (sum(all_counted.values()), RUNS, fed, len(hand), sum(states.values()), states[False]))


if __name__ == '__main__':
    try:
        main()
    except Differs as fault:
        sys.exit(str(fault))
