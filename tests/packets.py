"""Packets by chance and by hand: what the library unpacks, the states it leaves and what it packs, beside a second program.

A hundred thousand streams of a few packets are made of sections and damaged: packets lost, repeated once and more, marked with the error bit, cut,
scrambled, of another PID, with adaptation fields, with pointers anywhere; some begin in a state of any bytes. After each packet the refusal, the
sections and what is held are compared.
"""
# SPDX-License-Identifier: MIT
import collections
import multiprocessing
import os
import random
import struct
import subprocess
import sys
import zlib

import calls
from second_packets import PACKET, STATE, Unpacker, held, judged, packed
from second_sections import printed, section_read

STREAMS, AT_ONCE, SECTIONS = 100000, 5000, 3000
TESTS = os.path.dirname(os.path.abspath(__file__))
chance = random.Random(106)
often = chance.random


class Differs(Exception):
    """The library does not do as the second program."""


# ---- streams

def section():
    """A section, good or only framed, short or long."""
    if often() < 0.3:
        n = chance.choice((0, 1, 5, 170, 180, 181, 182, 183, 184, 4084))
        return printed(chance.randint(0xFB, 0xFE), chance.randrange(2**16), chance.randrange(32), 1, 0, 0, chance.randbytes(n))
    n = chance.choice((0, 1, 2, 9, 60, 178, 179, 180, 181, 182, 183, 184, 185, 366, 367, 400, 700, 4092, 4093, 4094, 4095))
    table = chance.choice((0x00, 0x02, 0xFB, 0xFE, chance.randrange(0xFF)))
    return bytes([table, 0xF0 | n >> 8, n & 0xFF]) + chance.randbytes(min(n, 4093))


def with_payload(counter, start, payload):
    """A packet with an adaptation field that fills what the payload leaves."""
    if len(payload) == 184:
        return bytes([0x47, start, 0x21, 0x10 | counter]) + payload
    field = 183 - len(payload)
    return bytes([0x47, start, 0x21, 0x30 | counter, field]) + b'\0' * (field > 0) + b'\xFF' * (field - 1) + payload


def close(sections, counter):
    """The packets of sections one right behind the other, with pointers where sections begin, some with adaptation fields."""
    stream, begins = b'', []
    for s in sections:
        begins.append(len(stream))
        stream += s
    at, made = 0, []
    while at < len(stream):
        room = 184 if often() < 0.8 else chance.randint(2, 183)
        first = next((b for b in begins if at <= b < at + room - 1), None)
        start, pointer = (0, b'') if first is None else (0x40, bytes([first - at]))
        payload = pointer + stream[at:at + room - len(pointer)]
        at += len(payload) - len(pointer)
        if at == len(stream) and often() < 0.5:
            payload = payload.ljust(184, b'\xFF')
        made.append(with_payload(counter, start, payload))
        counter = (counter + 1) % 16
    return made, counter


def foreign():
    """A packet of any bytes behind the sync byte: on our PID, a null packet, one with the error bit, without a payload, or of any PID."""
    p = bytearray(chance.randbytes(PACKET))
    p[0] = 0x47
    kind = chance.randrange(5)
    if kind == 0:
        p[1:5] = p[1] & 0x60, 0x21, p[3] & 0x0F | 0x10 * chance.randrange(1, 4), chance.choice((0, 1, 7, 182, 183, 184, p[4]))
    elif kind == 1:
        p[1:3] = 0x1F, 0xFF
    elif kind == 2:
        p[1] |= 0x80
    elif kind == 3:
        p[1:5] = p[1] & 0x40, 0x21, 0x20 | p[3] & 0x0F, chance.choice((0, 1, 182, 183, 184, 255))
    return bytes(p)


def with_bit(p, at):
    return p[:at] + bytes([p[at] ^ 1 << chance.randrange(8)]) + p[at + 1:]


def happens(p):
    """What comes of a packet to which something happens."""
    return chance.choice((
        lambda: [], lambda: [], lambda: [], lambda: [p, p], lambda: [p, p], lambda: [p, p], lambda: [p, p, p], lambda: [p, p, p, p],
        lambda: [with_bit(p, chance.randrange(PACKET))], lambda: [with_bit(p, chance.choice((0, 1, 1, 2, 3, 3, 4, 5, 6, 7)))],
        lambda: [p[:1] + bytes([p[1] | 0x80]) + p[2:]], lambda: [chance.choice((p[:-1], p + b'\xFF', b'', p[:3], p * 2))],
        lambda: [foreign(), p], lambda: [foreign(), p], lambda: [p, foreign(), p],
        lambda: [p[:4] + bytes([chance.choice((0, 1, 50, 181, 182, 183, 184, 255))]) + p[5:]]))()


def stream():
    """At most twelve packets of a few sections, and of each third something happens."""
    made, counter = [], chance.randrange(16)
    for _ in range(chance.choice((1, 1, 2, 3))):
        sections = [section() for _ in range(chance.choice((1, 1, 2, 4)))]
        if often() < 0.5:
            more, counter = close(sections, counter)
            made += more
            continue
        for s in sections:
            more = packed(s, counter)
            made += more
            counter = (counter + len(more)) % 16
    at = chance.randrange(max(len(made) - 11, 1))
    return [came for p in made[at:at + 12] for came in (happens(p) if often() < 0.3 else [p])]


def any_state():
    """Bytes for a state: fresh, any behind a mark that means nothing, what an unpacker left, or that with bytes changed."""
    kind = often()
    if kind < 0.8:
        return bytes(1) + chance.randbytes(STATE - 1) if kind < 0.1 else bytes(STATE)
    u = Unpacker()
    for p in stream():
        try:
            u.unpack(p, 65535)
        except calls.Refused:
            pass
    mark, last, begun = u.state()
    s = bytearray((bytes([mark]) + len(begun).to_bytes(2, 'big') + last.ljust(PACKET, b'\0') + begun).ljust(STATE, bytes([chance.randrange(256)])))
    for _ in range(chance.choice((1, 1, 2, 300)) if kind > 0.9 else 0):
        at = chance.choice((*range(9), chance.randrange(3, 191), chance.randrange(191, 200), chance.randrange(STATE)))
        s[at] = chance.randrange(256)
    return bytes(s)


# ---- by hand

LONG, SHORT = bytes([0x02, 0xB0, 197]) + bytes([7]) * 197, b'\xFD\xF0\0'


def packet(start, counter, payload):
    return bytes([0x47, 0x40 if start else 0, 0x21, 0x10 | counter]) + payload.ljust(184, b'\xFF')


def raw(*front):
    return bytes(front).ljust(PACKET, b'\0')


def readings():
    """The runs that the checker computes (Readings of packet_arrival), one for each reading of the request: the packets and the sections that they give."""
    first, last = packed(LONG, 15)
    end = LONG[183:]
    yield [first, last], [LONG]
    yield [first, first, last], [LONG]
    yield [first, first, first, last], [LONG]
    yield [first, last, last], [LONG]
    yield [first, packet(False, 1, end), last], []
    yield [first, packet(True, 3, b'\0' + SHORT)], [SHORT]
    yield [first, raw(0x47, 0x9F, 0xFF, 0x10), last], []
    yield [first, raw(0x47, 0x80), first, last], [LONG]
    yield [first, raw(0x47, 0x40, 0x21, 0x27, 183), last], [LONG]
    yield [first, raw(0x47, 0, 0x21, 0x30, 183), packet(False, 1, end)], [LONG]
    yield [packet(True, 0, b'\0' + SHORT * 2)], [SHORT, SHORT]
    yield [first, packet(True, 0, bytes([17]) + end + SHORT)], [LONG, SHORT]
    yield [first, packet(True, 0, bytes([16]) + end[:16] + SHORT)], [SHORT]
    yield [packet(True, 0, b'\0\xFF' + SHORT)], []
    yield [packet(True, 0, b'\0' + SHORT + b'\xFD\xFF\xFE' + SHORT)], [SHORT]


def refused_readings():
    """And the packets that they refuse, with which number, for an output of so many bytes."""
    yield raw(0x47, 0x40, 0x21, 0x30, 183), 0, 34
    yield raw(0x47, 0x40, 0x21, 0x10, 183), 0, 34
    yield raw(0x47, 0, 0x21, 0), 0, 34
    yield raw(0x47, 0, 0x21, 0x50), 0, 33
    yield raw(0x47, 0, 0x22, 0x10), 0, 32
    yield packet(True, 0, b'\0' + SHORT * 2), 5, 21


def more_runs():
    """Repeats, error bits, adaptation fields, pointers and lengths at their edges, for both programs to agree on."""
    s = bytes([0xFD, 0xF0, 0xC5]) + bytes(range(197))
    one, two = packed(s, 3)
    short = bytes([0xFE, 0xF0, 0x09]) + bytes(9)
    yield from ([one, two], [one, one, two], [one, one, one, two], [one, one, one, one, two])
    yield [one, bytes([0x47, 0x80 | one[1]]) + one[2:], two]
    yield [one, b'\x47\x9F\xFF' + one[3:], two]
    yield [one, b'\x47\x1F\xFF' + two[3:], two]
    yield [one, two[:3] + bytes([two[3] + 1]) + two[4:]]
    for length in (0, 1, 182, 183, 184):
        yield [one, raw(0x47, 0x00, 0x21, 0x2F, length), two]
        yield [one, raw(0x47, 0x40, 0x21, 0x34, length), two]
    for pointer in (0, 1, 16, 17, 18, 170, 181, 182, 183, 255):
        yield [one, raw(0x47, 0x40, 0x21, 0x14, pointer, *s[183:], *short * 13)]
    yield [packet(True, 0, b'\0'), one, two]
    for length in (4093, 4094, 4095):
        yield [raw(0x47, 0x40, 0x21, 0x10, 0, 0xFB, 0xF0 | length >> 8, length & 0xFF), one]
        yield [packet(True, 0, bytes([182, *bytes(182), 0xFB])), raw(0x47, 0, 0x21, 0x11, 0xF0 | length >> 8, length & 0xFF)]


def hold_readings():
    """The library gives what the readings say, whatever the second program does. Answers how many runs there are."""
    runs = [(packets, 65535, 0, b''.join(sections)) for packets, sections in readings()]
    runs += [([p], room, number, b'') for p, room, number in refused_readings()]
    for packets, room, number, wanted in runs:
        got, given, refused = run([b'S' + bytes(STATE), *(packet_request(p, room) for p in packets)]), b'', 0
        while got:
            refused, n = refused or got[0], got[1] << 8 | got[2]
            given, got = given + got[3:3 + n], got[3 + n + 5:]
        if (refused, given) != (number, wanted):
            raise Differs('%s.. gives %s, refused with %d' % (b''.join(packets)[:40].hex(), given.hex(), refused))
    return len(runs)


# ---- the library

def run(requests):
    """What packets.c answers to requests."""
    done = subprocess.run([os.path.join(TESTS, os.pardir, 'tools', 'c-side'), os.path.join(TESTS, 'packets.c')], input=b''.join(requests),
                          stdout=subprocess.PIPE, check=False)
    if done.returncode:
        raise Differs('packets.c ended with %d' % done.returncode)
    return done.stdout


def packet_request(p, room):
    return b'P' + struct.pack('>HH', len(p), room) + p


# ---- unpacking

counted = collections.Counter()


def told_state(u):
    mark, last, begun = u.state()
    return bytes([mark]) + (zlib.crc32(last + begun) if mark else 0).to_bytes(4, 'big')


def answer(u, p, room):
    """The second program's refusal, and the sections."""
    try:
        found, refusal = b''.join(u.unpack(p, room)), 0
    except calls.Refused as refused:
        found, refusal = b'', refused.args[0]
    counted[refusal] += 1
    counted['sections'] += len(found) > 0
    return refusal, found


def expect_stream(state, packets, rooms):
    """The requests for a stream and the answers that they are to have, with the state after each. Bytes that mean nothing may stay as they are."""
    u = held(state)
    meaningless = u.last is None and state[0] != 0
    requests, expected = [b'S' + state], []
    for p, room in zip(packets, rooms):
        refusal, found = answer(u, p, room)
        meaningless = meaningless and u.last is None and (refusal != 0 or judged(p) != 'error')
        requests.append(packet_request(p, room))
        expected.append((bytes([refusal]) + struct.pack('>H', len(found)) + found, None if meaningless else told_state(u)))
    return requests, expected


def hold(expected, got, what):
    """Ends with an error unless the library answered so."""
    at = 0
    for number, (wanted, state) in enumerate(expected):
        if got[at:at + len(wanted)] != wanted:
            raise Differs('%s, packet %d: the library answers %s.., and the second program %s..' % (what, number, got[at:at + 40].hex(), wanted[:40].hex()))
        at += len(wanted)
        if state is not None and got[at:at + 5] != state:
            raise Differs('%s, packet %d: the library holds %s, and the second program %s' % (what, number, got[at:at + 5].hex(), state.hex()))
        at += 5
    if at != len(got):
        raise Differs('%s: the library answers more than was asked' % what)


def hold_streams(streams, what):
    requests, wanted = [], []
    for state, packets in streams:
        rooms = [chance.choice((65535, 65535, 65535, 0, 12, 183, 4096)) for _ in packets]
        asked, expected = expect_stream(state, packets, rooms)
        requests += asked
        wanted += expected
    hold(wanted, run(requests), what)


def hold_some(number):
    """Some of the streams, by a chance of their own; answers what was counted."""
    chance.seed(106000 + number)
    counted.clear()
    hold_streams([(any_state(), stream()) for _ in range(AT_ONCE)], 'streams %d' % number)
    return counted


# ---- packing

def some_section():
    """A good section, current or not, or one that is changed or of another length."""
    n = chance.choice((0, 1, 170, 171, 172, 355, 356, 4084, chance.randrange(4085)))
    s = printed(chance.randint(0xFB, 0xFE), chance.randrange(2**16), chance.randrange(32), chance.randrange(2), 0, 0, chance.randbytes(n))
    kind = often()
    return s if kind > 0.3 else with_bit(s, chance.randrange(len(s))) if kind > 0.1 else chance.choice((s[:-1], s[:11], b'', s + b'x', s * 2))


def packing(s, counter, room):
    """The second program's refusal, and the packets."""
    try:
        section_read(s)
    except calls.Refused as refused:
        return refused.args[0], b''
    made = b''.join(packed(s, counter % 16))
    return (19, b'') if counter > 15 else (21, b'') if room < len(made) else (0, made)


def hold_packing():
    requests, expected = [], []
    for _ in range(SECTIONS):
        s, counter = some_section(), chance.choice((16, 17, 255, 256, 2**32 - 1)) if often() < 0.1 else chance.randrange(16)
        whole = PACKET * (1 + len(s) // 184)
        room = chance.choice((whole, whole, whole - 1, 65535, 0, PACKET))
        refusal, made = packing(s, counter, room)
        packings[refusal] += 1
        requests.append(b'K' + struct.pack('>IHH', counter, len(s), room) + s)
        expected.append(bytes([refusal]) + struct.pack('>H', len(made)) + made)
    if run(requests) != b''.join(expected):
        raise Differs('the library packs other packets than the second program, or refuses with another number')


packings = collections.Counter()


def main():
    hand = [(bytes(STATE), packets) for packets in (*more_runs(), *(packets for packets, _ in readings()))]
    if any(len(p) != PACKET for _, packets in hand for p in packets):
        raise Differs('a packet made by hand has not 188 bytes')
    hold_streams(hand, 'by hand')
    read = hold_readings()
    hold_packing()
    with multiprocessing.Pool() as pool:
        all_counted = sum(pool.imap_unordered(hold_some, range(STREAMS // AT_ONCE)), collections.Counter())
    with_sections = all_counted.pop('sections')
    if set(all_counted) != {0, 21, 30, 31, 32, 33, 34} or not {0, 1, 2, 3, 5, 6, 7, 19, 21} <= set(packings):
        raise Differs('not every refusal is met: %s, %s' % (all_counted, packings))
    print('%d packets of %d damaged streams as a second program takes them, state after state: refusals %s; %d complete sections; %d runs by hand, '
          '%d as the readings say; %d sections packed: refusals %s' % (sum(all_counted.values()), STREAMS, dict(sorted(all_counted.items())), with_sections,
                                                                       len(hand), read, SECTIONS, dict(sorted(packings.items()))))


if __name__ == '__main__':
    try:
        main()
    except Differs as fault:
        sys.exit(str(fault))
