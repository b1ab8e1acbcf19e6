"""The second program for the slow gathering, which shares no code with the library: what is kept of feeds, and what follows from it.

Written from documents 01 and 02. Kept strings are rows of an eight-byte length and a string. Their account is a heading and the sections of its table
from the latest takeover on, in the order of their feeding; every answer is told by it.
"""
# SPDX-License-Identifier: MIT
import functools

import second_sections
from calls import Refused

LENGTH_BYTES, MOST_PAYLOAD = 8, 4084
section_read = functools.lru_cache(65536)(second_sections.section_read)


# ---- what is kept

def row(s):
    return len(s).to_bytes(LENGTH_BYTES, 'big') + s


def strings_in(kept):
    """The strings that some bytes keep; None where they are no whole rows."""
    strings = []
    while kept:
        n = int.from_bytes(kept[:LENGTH_BYTES], 'big')
        if len(kept) < LENGTH_BYTES or len(kept) < LENGTH_BYTES + n:
            return None
        strings.append(bytes(kept[LENGTH_BYTES:LENGTH_BYTES + n]))
        kept = kept[LENGTH_BYTES + n:]
    return strings


# ---- the account of what is kept

def heard(s):
    """A good, current section: its heading without the number, the number and the payload; else None."""
    try:
        _, kind, extension, version, current, number, last = section_read(s)
    except Refused:
        return None
    return ((kind, extension, version, last), number, s[8:-4]) if current else None


def newer(held, new):
    """Same kind and extension, and 1 to 15 steps ahead, round the ring of 32."""
    return held[:2] == new[:2] and 1 <= (new[2] - held[2]) % 32 <= 15


def roomy(store_bytes, heading):
    return store_bytes >= (heading[3] + 1) * MOST_PAYLOAD


def account(strings, store_bytes):
    """The heading of the table, with the number of the section that began it, and the table's sections since; None and none, if nothing is begun."""
    table, sections = None, []
    for s in strings:
        said = heard(s)
        if said is None:
            continue
        heading, number, payload = said
        if table is None or newer(table[0], heading):
            if roomy(store_bytes, heading):
                table, sections = (heading, number), [(number, payload)]
        elif heading == table[0]:
            sections.append((number, payload))
    return table, sections


def undisputed(sections):
    """The sections before the first that contradicts one before it."""
    first = {}
    for at, (number, payload) in enumerate(sections):
        if first.setdefault(number, payload) != payload:
            return sections[:at]
    return sections


def agree(sections):
    return len(undisputed(sections)) == len(sections)


def answer_to(strings, store_bytes, s):
    """What feeding a string answers after these: 0 taken, 1 held already, or a refusal."""
    _, kind, extension, version, current, number, last = section_read(s)
    if not current:
        raise Refused(8)
    heading, payload = (kind, extension, version, last), s[8:-4]
    table, sections = account(strings, store_bytes)
    begins = table is None or newer(table[0], heading)
    if not begins and heading != table[0]:
        raise Refused(9)
    if not roomy(store_bytes, heading):
        raise Refused(10)
    if begins:
        return 0
    if not agree(sections + [(number, payload)]):
        raise Refused(11)
    return int(number in dict(sections))


# ---- the calls

class Slow:
    """A teaching buffer, of which so many bytes are said to be in use."""

    def __init__(self, buffer, used, store_bytes):
        self.buffer, self.used, self.store_bytes = bytearray(buffer), used, store_bytes

    def kept(self):
        strings = None if self.used > len(self.buffer) else strings_in(self.buffer[:self.used])
        if strings is None:
            raise Refused(12)
        return strings

    def feed(self, s):
        end = self.used + LENGTH_BYTES + len(s)
        if end > len(self.buffer):
            raise Refused(37)
        strings = self.kept()
        self.buffer[self.used:end] = row(s)
        self.used = end
        return answer_to(strings, self.store_bytes, s)

    def table(self):
        table, sections = account(self.kept(), self.store_bytes)
        if table is None:
            raise Refused(13)
        return table, sections

    def heading(self):
        """Kind, extension, version, current, number and last."""
        ((kind, extension, version, last), number), _ = self.table()
        return kind, extension, version, 1, number, last

    def missing(self):
        (heading, _), sections = self.table()
        return heading[3] + 1 - len(dict(undisputed(sections)))

    def hand_out(self, room):
        (heading, _), sections = self.table()
        if not agree(sections):
            raise Refused(11)
        payloads = dict(sections)
        for number in range(heading[3] + 1):
            if number not in payloads:
                raise Refused(13, place=number)
        body = b''.join(payloads[number] for number in range(heading[3] + 1))
        if len(body) > room:
            raise Refused(21)
        return body
