"""What `nw show --json` tells of captures that are damaged by chance, beside a model of its own: nw_damage.py HOW SECONDS PROGRAM..

Sections of some tables in several versions, repeated, out of order, not current, contradicting each other, with bytes changed, lost and
added between and inside them; or in transport packets, of which some are lost, repeated, marked with the error bit or of another PID. The model
finds the sections, gathers them and says which bytes were skipped, which sections refused, and where the counters show a gap.
"""
# SPDX-License-Identifier: MIT
import json
import random
import subprocess
import sys
import time

import packets
from calls import Refused
from second_packets import PACKET, Unpacker, judged as judged_packet, packed
from second_sections import printed, section_length, section_read

HOW, SECONDS, PROGRAM = sys.argv[1], float(sys.argv[2]), sys.argv[3:]
chance = random.Random(110)


# ---- captures by chance


def some_sections():
    """The sections of a few tables that look alike."""
    made = []
    for _ in range(chance.randint(1, 4)):
        kind, extension, version = chance.choice((0xFB, 0xFC, 0xFD, 0xFE)), chance.choice((0, 1, 0xFFFF)), chance.randrange(32)
        last = chance.choice((0, 0, 1, 2, 5, 255))
        for number in range(min(last, 6) + 1):
            payload = chance.randbytes(chance.choice((0, 1, 3, 40, chance.randrange(300), 4084)))
            made.append(printed(kind, extension, version, int(chance.random() < 0.95), number, last, payload))
            if chance.random() < 0.05:
                made.append(printed(kind, extension, version, 1, number, last, payload + b'x' if len(payload) < 4084 else b''))
    return made


def changed(section):
    at = chance.randrange(len(section))
    how = chance.randrange(4)
    if how == 0:
        return section[:at] + bytes([section[at] ^ 1 << chance.randrange(8)]) + section[at + 1:]
    if how == 1:
        return section[:at] + section[at + chance.choice((1, 2, 50)):]
    if how == 2:
        return section[:at] + chance.randbytes(chance.choice((1, 5, 60))) + section[at:]
    return section[:at] + printed(0xFD, 9, 1, 1, 0, 0, b'\0\0\0') + section[at:]  # a good one inside


def capture():
    made = some_sections()
    sent = [chance.choice(made) for _ in range(len(made) * chance.choice((1, 2)))]
    if chance.random() < 0.7:
        sent = [changed(section) if chance.random() < 0.2 else section for section in sent]
    if chance.random() < 0.5:
        sent.insert(chance.randrange(len(sent) + 1), chance.choice((b'\xFD', b'\xFE\xF0\x09', bytes(30), chance.randbytes(200), b'\xFB' * 40)))
    return b''.join(sent)


NULL = b'\x47\x1F\xFF\x10' + bytes(184)


def stream():
    """A transport stream of some sections, with bits changed behind their lengths, and damaged packet by packet."""
    made, counter = [], chance.randrange(16)
    for section in some_sections() * 2:
        if chance.random() < 0.1:
            at = chance.randrange(3, len(section))
            section = section[:at] + bytes([section[at] ^ 1 << chance.randrange(8)]) + section[at + 1:]
        more = packed(section, counter) if chance.random() < 0.5 else packets.close([section, section], counter)[0]
        counter = (counter + len(more)) % 16
        made += more
    loss = chance.choice((0, 0.01, 0.1))
    came = [chance.choices(([], [p, p], [p[:1] + bytes([p[1] | 0x80]) + p[2:]], [NULL, p], [p]), (loss, 0.1, loss, 0.1, 1))[0] for p in made]
    return b''.join(map(b''.join, came))


# ---- the model


def found_in(data):
    """As found, in a transport stream; and each gap as its place and how many packets are lost."""
    unpacker, counter = Unpacker(), None
    for at in range(0, len(data), PACKET):
        packet = data[at:at + PACKET]
        try:
            kind = judged_packet(packet)
        except Refused:
            continue
        if kind not in ('error', 'skipped') and not (packet == unpacker.last and not unpacker.repeated):
            if counter is not None and kind[0] != (counter + 1) % 16:
                yield at, (kind[0] - counter - 1) % 16, 'gap'
            counter = kind[0]
        for section in unpacker.unpack(packet, 65535):
            try:
                section_read(section)
                yield at, section, None
            except Refused as refusal:
                yield at, len(section), refusal.args[0]


def judged(data):
    """The length that is judged where bytes begin, and what is refused there, 0 for nothing."""
    try:
        length = section_length(data)
    except Refused:
        length = 12
    try:
        section_read(data[:length])
        return min(length, len(data)), 0
    except Refused as refusal:
        return min(length, len(data)), refusal.args[0]


def found(data):
    """Each good section as its place and bytes; each skipped stretch as its place, length and refusal."""
    at = 0
    while at < len(data):
        length, refusal = judged(data[at:at + 4096])
        if refusal == 0:
            yield at, data[at:at + length], None
            at += length
            continue
        begin, stop = at, at + length if refusal == 7 else len(data)
        at += 1
        while at < stop and judged(data[at:at + 4096])[1] != 0:
            at += 1
        yield begin, at - begin, refusal


class Gathered:
    def __init__(self):
        self.version = None
        self.given_up, self.repeats, self.refused = [], 0, 0

    def begin(self, version, last):
        self.version, self.last, self.held, self.spoiled = version, last, {}, False

    def feed(self, version, current, number, last, payload):
        """The refusal, 0 for taken, -1 for held already, -2 for a takeover."""
        if not current:
            return 8
        if self.version is None:
            self.begin(version, last)
        elif 1 <= (version - self.version) % 32 <= 15:
            self.given_up.append((self.version, len(self.held), self.last, self.spoiled))
            self.begin(version, last)
            self.held[number] = payload
            return -2
        elif version != self.version or last != self.last:
            return 9
        if self.spoiled or self.held.get(number, payload) != payload:
            self.spoiled = True
            return 11
        if number in self.held:
            return -1
        self.held[number] = payload
        return 0


def modelled(data, find):
    """Events, tables and sums, of what a finder finds."""
    tables, events, taken, held, refused, skipped = {}, [], 0, 0, 0, 0
    for at, what, refusal in find(data):
        if refusal == 'gap':
            events.append(('lost', at, what))
            continue
        if refusal is not None:
            events.append(('skipped', at, what, refusal))
            skipped += what
            continue
        _, kind, extension, version, current, number, last = section_read(what)
        table = tables.setdefault((kind, extension), Gathered())
        answer = table.feed(version, current, number, last, what[8:-4])
        if table.version is None:
            del tables[kind, extension]
        taken += answer in (0, -2)
        held += answer == -1
        table.repeats += answer == -1
        refused += answer > 0
        table.refused += answer > 0
        if answer > 0:
            events.append(('refused', at, (kind, extension, version, number, last), answer))
        if answer == -2:
            events.append(('takeover', at, (kind, extension, version, number, last)))
    return events, tables, (len(data), taken, held, refused, skipped)


# ---- what is told


def event_told(event):
    if event['event'] == 'lost':
        return 'lost', event['at'], event['packets']
    if event['event'] == 'skipped':
        return 'skipped', event['at'], event['bytes'], event['refusal']
    heading = tuple(event[name] for name in ('table_id', 'extension', 'version', 'number', 'last'))
    return (event['event'], event['at'], heading) + ((event['refusal'],) if event['event'] == 'refused' else ())


def table_told(t):
    versions = [(v['version'], v['sections'], v['last'], v['spoiled']) for v in t['versions']]
    return (t['version'], t['last'], t['sections'], t['bytes'], t['missing'], t['repeats'], t['refused'], t['spoiled'], versions, t['whole'])


def table_modelled(t):
    missing = [n for n in range(t.last + 1) if n not in t.held]
    return (t.version, t.last, len(t.held), sum(map(len, t.held.values())), missing, t.repeats, t.refused, t.spoiled, t.given_up,
            not missing and not t.spoiled)


def try_one():
    data, find = (capture(), found) if chance.random() < 0.6 else (stream(), found_in)
    done = subprocess.run([*PROGRAM, 'show', '--json', '-'], input=data, capture_output=True, check=False, timeout=100)
    if done.returncode not in (0, 1) or done.stderr:
        sys.exit('status %d on %s: %.2000s' % (done.returncode, data.hex(), done.stderr.decode()))
    told = json.loads(done.stdout.decode('ascii'))
    events, tables, sums = modelled(data, find)
    counted = [event for event in map(event_told, told['events']) if event[0] != 'lost' or event[2] != 0]  # other losses have no packets
    pairs = [(counted, events),
             ({(t['table_id'], t['extension']): table_told(t) for t in told['tables']}, {key: table_modelled(t) for key, t in tables.items()}),
             (tuple(told['sum'][name] for name in ('bytes', 'taken', 'held', 'refused', 'skipped')), sums)]
    for here, there in pairs:
        if here != there:
            sys.exit('%s: of %.400s it tells\n%.1000r\nand not\n%.1000r' % (HOW, data.hex(), here, there))
    return len(events)


began, captures, events = time.monotonic(), 0, 0
while captures < 30 or time.monotonic() - began < SECONDS:
    events += try_one()
    captures += 1
print('%s: %d events of %d damaged captures, and their tables, are those of a model' % (HOW, events, captures))
