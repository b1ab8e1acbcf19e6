"""The second program for two networks over one store, which shares no code with the library: what each network holds is kept as contents,
and rooms are numbers of a set of free ones.

From request M-109's words: rooms of 4,084 bytes, at most 512; one taken for each section whose number isn't yet held; given back when a
network ends its own gathering or a takeover does, which gives its rooms back before it takes one. Order: 19, 12, 1 to 7, 8, 9, 11, 35.
"""
# SPDX-License-Identifier: MIT
import struct

import second_gathering
from calls import Refused

ROOM = 4084
MOST_ROOMS = 512
# As C has a state: the store's length at the start, then for each network a gathering and by section number its room and one more, or 0.
PART = struct.Struct('<IHH4B256H256H')
LAYOUT = struct.Struct('<Q%ds%ds' % (PART.size, PART.size))


class Part:
    """What one network has gathered: its heading, whether it is spoiled, and of each held number its payload and its room."""

    def __init__(self):
        self.heading, self.spoiled, self.payloads, self.rooms = None, False, {}, {}

    def packed(self):
        kind, extension, version, last = self.heading or (0, 0, 0, 0)
        lengths = {k: len(p) for k, p in self.payloads.items()}
        missing, held = second_gathering.counted(last, lengths) if self.heading else (0, 0)
        return PART.pack(held, missing, extension, kind, version, last, self.spoiled, *(lengths.get(k, -1) + 1 for k in range(256)),
                         *(self.rooms.get(k, -1) + 1 for k in range(256)))


class Networks:
    """A possible state with its store, and the calls for network 1 or 2."""

    def __init__(self, store):
        self.store = bytearray(store)
        self.count = min(MOST_ROOMS, len(store) // ROOM)
        self.parts = {1: Part(), 2: Part()}
        self.takes, self.returns = {1: 0, 2: 0}, {1: 0, 2: 0}

    def held(self):
        """The rooms that are held, each with its network: no room is held twice."""
        rooms = [r for part in self.parts.values() for r in part.rooms.values()]
        assert len(set(rooms)) == len(rooms) and all(r < self.count for r in rooms)
        return set(rooms)

    def free(self):
        return self.count - len(self.held())

    def part(self, network):
        if network not in (1, 2):
            raise Refused(19)
        return self.parts[network]

    def give_back(self, network):
        self.returns[network] += len(self.parts[network].rooms)
        self.parts[network] = Part()

    def feed(self, network, s):
        part = self.part(network)
        _, kind, extension, version, current, number, last = second_gathering.section_read(bytes(s))
        heading, payload = (kind, extension, version, last), bytes(s[8:-4])
        if not current:
            raise Refused(8)
        begun = part.heading is not None
        newer = begun and (kind, extension) == part.heading[:2] and (version - part.heading[2]) % 32 in range(1, 16)
        if begun and not newer and heading != part.heading:
            raise Refused(9)
        if begun and not newer:
            if part.spoiled:
                raise Refused(11)
            if number in part.payloads:
                if part.payloads[number] == payload:
                    return 1
                part.spoiled = True
                raise Refused(11)
        if newer:
            self.give_back(network)
            part = self.parts[network]
        free = sorted(set(range(self.count)) - self.held())
        if not free:
            assert not newer
            raise Refused(35)
        room = free[0]
        part.heading = heading
        part.payloads[number], part.rooms[number] = payload, room
        self.takes[network] += 1
        self.store[room * ROOM:room * ROOM + len(payload)] = payload
        return 0

    def body(self, network, room):
        part = self.part(network)
        if part.heading is None:
            raise Refused(13, 0)
        if part.spoiled:
            raise Refused(11)
        missing = [k for k in range(part.heading[3] + 1) if k not in part.payloads]
        if missing:
            raise Refused(13, missing[0])
        body = b''.join(part.payloads[k] for k in range(part.heading[3] + 1))
        if room < len(body):
            raise Refused(21)
        return body

    def end(self, network):
        self.part(network)
        self.give_back(network)

    def packed(self):
        return LAYOUT.pack(len(self.store), self.parts[1].packed(), self.parts[2].packed())


def possible(state, size):
    """Is this a state of two networks over a store of `size` bytes? 12 is for one that is not."""
    length, *parts = LAYOUT.unpack(state)
    rooms = []
    for part in parts:
        fields = PART.unpack(part)
        held, by_number = fields[7:263], fields[263:]
        alone = second_gathering.Gathering()
        alone.heading = (fields[3], fields[2], fields[4], fields[5])
        alone.spoiled, alone.kept = fields[6], (fields[1], fields[0])
        alone.lengths = {k: n - 1 for k, n in enumerate(held) if n}
        if not alone.possible():
            return False
        if any((n == 0) != (r == 0) for n, r in zip(held, by_number)):
            return False
        rooms += [r for r in by_number if r]
    return length == size and all(r <= min(MOST_ROOMS, size // ROOM) for r in rooms) and len(set(rooms)) == len(rooms)
