"""A second program for transport packets on PID 0x21: written from document 02 and ISO/IEC 13818-1, it shares no code with the library.

What the unpacker holds is a section begun, the last packet taken and whether its repeat was ignored. `held` reads that out of the 4,286 bytes
that a caller lends: a mark, two bytes of length, the last packet, the section begun; their layout is taken from the library.
"""
# SPDX-License-Identifier: MIT
import calls

PACKET, PID, LONGEST, STATE = 188, 0x21, 4096, 4286


def length_of(d):
    """The bytes of the section that begins with these; None while its section_length is not there."""
    return None if len(d) < 3 else 3 + ((d[1] & 0x0F) << 8 | d[2])


def grown(begun, more):
    """A section begun with more bytes: the section, if it is whole, and what is still begun."""
    if not begun:
        return [], b''
    d = begun + more
    n = length_of(d)
    if n is None or len(d) < n <= LONGEST:
        return [], d
    return ([d[:n]] if n <= LONGEST else []), b''


def from_pointer(d):
    """The sections from a pointer on, and what is begun after them."""
    found = []
    while d and d[0] != 0xFF:
        n = length_of(d)
        if n is None or len(d) < n <= LONGEST:
            return found, d
        if n > LONGEST:
            break
        found.append(d[:n])
        d = d[n:]
    return found, b''


def judged(p):
    """A packet by itself: its counter, its pointer or None, and the payload behind it; 'error' or 'skipped'. Else it is refused."""
    if len(p) != PACKET:
        raise calls.Refused(30)
    if p[0] != 0x47:
        raise calls.Refused(31)
    if p[1] & 0x80:
        return 'error'
    if (p[1] & 0x1F) << 8 | p[2] != PID:
        raise calls.Refused(32)
    if p[3] & 0xC0:
        raise calls.Refused(33)
    adaptation, carried = p[3] & 0x20, p[3] & 0x10
    start = 4 if not adaptation else 5 + p[4]
    if not adaptation and not carried or start > PACKET:
        raise calls.Refused(34)
    if not carried:
        return 'skipped'
    payload = p[start:]
    if not p[1] & 0x40:
        return p[3] & 0x0F, None, payload
    if not payload or 1 + payload[0] >= len(payload):
        raise calls.Refused(34)
    return p[3] & 0x0F, payload[0], payload[1:]


class Unpacker:
    def __init__(self, begun=b'', last=None, repeated=False):
        self.begun, self.last, self.repeated = begun, last, repeated

    def unpack(self, p, room):
        """The sections that the packet completes; a refusal changes nothing."""
        kind = judged(p)
        if kind == 'error':
            self.__init__()
            return []
        if kind == 'skipped':
            return []
        if p == self.last and not self.repeated:
            self.repeated = True
            return []
        counter, pointer, payload = kind
        begun = self.begun if self.last is None or counter == (self.last[3] + 1) & 0x0F else b''
        if pointer is None:
            found, begun = grown(begun, payload)
        else:
            ended, _ = grown(begun, payload[:pointer])
            found, begun = from_pointer(payload[pointer:])
            found = ended + found
        if sum(map(len, found)) > room:
            raise calls.Refused(21)
        self.__init__(begun, p)
        return found

    def state(self):
        """What a state means: the mark, the last packet and the section begun."""
        if self.last is None:
            return 0, b'', b''
        return 2 if self.repeated else 1, self.last, self.begun


def held(state):
    """The unpacker that some bytes mean; one that holds nothing, where none can have left them."""
    mark, kept, last = state[0], state[1] << 8 | state[2], state[3:191]
    begun = state[191:191 + kept]
    if mark not in (1, 2) or kept > LONGEST - 1:
        return Unpacker()
    try:
        kind = judged(last)
    except calls.Refused:
        return Unpacker()
    if isinstance(kind, str):
        return Unpacker()
    if begun and (begun[0] == 0xFF or grown(begun, b'')[1] != begun):
        return Unpacker()
    _, pointer, payload = kind
    if pointer is None:
        left = not begun or len(begun) > len(payload) and begun.endswith(payload)
    else:
        left = begun == from_pointer(payload[pointer:])[1]
    return Unpacker(begun, last, mark == 2) if left else Unpacker()


def packed(section, counter):
    """The packets of a section, in a fresh packet with pointer 0."""
    rest, first, made = b'\0' + section, 0x40, []
    while rest:
        made.append(bytes([0x47, first, PID, 0x10 | counter]) + rest[:184].ljust(184, b'\xFF'))
        rest, first, counter = rest[184:], 0, (counter + 1) % 16
    return made
