"""The second program for the gathering, which shares no code with the library: a state and a store, fed, handed out, packed and shown."""
# SPDX-License-Identifier: MIT
import functools
import struct
import zlib

import second_sections
from calls import Refused

MOST_PAYLOAD = 4084
MOST_BODY = 1045504
# As C has a state: bytes, missing, extension, kind, version, last, spoiled; by section number the payload's length and one more, or 0.
LAYOUT = struct.Struct('<IHH4B256H')
section_read = functools.lru_cache(4096)(second_sections.section_read)


def counted(last, lengths):
    """Of a table that is begun, counted afresh: how many of its sections are missing, and how many bytes are held."""
    return sum(number not in lengths for number in range(last + 1)), sum(lengths.values())


def packed(heading, spoiled, lengths, kept=None):
    """A state, as C has it; what it keeps is counted, unless it is given."""
    kind, extension, version, last = heading
    missing, held = kept or counted(last, lengths)
    return LAYOUT.pack(held, missing, extension, kind, version, last, spoiled, *(lengths.get(k, -1) + 1 for k in range(256)))


class Gathering:
    """A state, possible or not, and a store, with the calls of calls.c. The lengths are those of the held numbers.

    What the state keeps, missing and bytes, is never updated: it is counted afresh whenever a section is taken.
    """

    heading, spoiled, lengths, kept, store = (0, 0, 0, 0), 0, {}, (0, 0), bytearray()

    def possible(self):
        kind, _, version, last = self.heading
        if (self.heading, self.spoiled, self.lengths, self.kept) == ((0, 0, 0, 0), 0, {}, (0, 0)):
            return True
        begun = 0xFB <= kind <= 0xFE and version <= 31 and self.spoiled in (0, 1) and len(self.lengths) > 0
        held = begun and max(self.lengths) <= last and max(self.lengths.values()) <= MOST_PAYLOAD
        return held and self.kept == counted(last, self.lengths)

    def payload(self, number):
        """What is held of a number."""
        at = number * MOST_PAYLOAD
        return bytes(self.store[at:at + self.lengths[number]])

    def feed(self, s):
        if not self.possible():
            raise Refused(12)
        _, kind, extension, version, current, number, last = section_read(s)
        heading, payload = (kind, extension, version, last), s[8:-4]
        if not current:
            raise Refused(8)
        newer = (kind, extension) == self.heading[:2] and (version - self.heading[2]) % 32 in range(1, 16)
        begins = newer or not self.lengths
        if not begins and heading != self.heading:
            raise Refused(9)
        if len(self.store) < (last + 1) * MOST_PAYLOAD:
            raise Refused(10)
        if begins:
            self.spoiled, self.lengths = 0, {}
        if self.spoiled:
            raise Refused(11)
        if number not in self.lengths:
            at = number * MOST_PAYLOAD
            self.store[at:at + len(payload)] = payload
            self.heading, self.lengths = heading, {**self.lengths, number: len(payload)}
            self.kept = counted(last, self.lengths)
            return 0
        if payload != self.payload(number):
            self.spoiled = 1
            raise Refused(11)
        return 1

    def body(self, room):
        if not self.possible():
            raise Refused(12, 0)
        if not self.lengths:
            raise Refused(13, 0)
        numbers = range(self.heading[3] + 1)
        if len(self.store) < len(numbers) * MOST_PAYLOAD:
            raise Refused(10, 0)
        if self.spoiled:
            raise Refused(11, 0)
        for number in numbers:
            if number not in self.lengths:
                raise Refused(13, number)
        body = b''.join(map(self.payload, numbers))
        if len(body) > room:
            raise Refused(21, 0)
        return body

    # ---- the calls: each gives its answer, as numbers and bytes

    def gathering_state(self, state):
        held_bytes, missing, extension, kind, version, last, self.spoiled, *held = LAYOUT.unpack(state)
        self.heading, self.kept = (kind, extension, version, last), (missing, held_bytes)
        self.lengths = {number: n - 1 for number, n in enumerate(held) if n > 0}
        return ()

    def gathering_store(self, store):
        self.store = bytearray(store)
        return ()

    def gathering_feed(self, s):
        try:
            return 0, self.feed(s)
        except Refused as refusal:
            return refusal.args[0], 0

    def gathering_hand_out(self, out):
        try:
            body = self.body(len(out))
            return 0, len(body), body + out[len(body):]
        except Refused as refusal:
            return *refusal.args, out

    def gathering_pack(self):
        """The body is shown with the answer: it stands at the front of the store. It is never longer than the store."""
        try:
            body = self.body(len(self.store))
        except Refused as refusal:
            return *refusal.args, b''
        self.store[:len(body)] = body
        self.heading, self.spoiled, self.lengths, self.kept = (0, 0, 0, 0), 0, {}, (0, 0)
        return 0, len(body), body

    def gathering_show(self):
        kind, extension, version, last = self.heading
        held = (item for number in sorted(self.lengths) for item in (number, self.lengths[number] + 1))
        return zlib.adler32(self.store), *reversed(self.kept), extension, kind, version, last, self.spoiled, *held

    def gathering_counts(self):
        return self.kept
