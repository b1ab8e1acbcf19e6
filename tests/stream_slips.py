"""Transport streams with slips, and what box and nw have to say of them: by hand, from document 02 and ISO/IEC 13818-1.

The packets are a second program's (second_packets); the byte of a packet is 188 times its place, where nothing else is said.
"""
# SPDX-License-Identifier: MIT
from file_slips import EXTENSION, LONG, NEWER, NO_TEXT, ONE, SHOWN, TWO, UNKNOWN, changed, content, faults, language
from second_packets import PACKET, packed

NULL = b'\x47\x1F\xFF\x10' + bytes(184)
ERROR = 'an error bit came, and what was unfinished is dropped'
EARLY = 'a section begins in it before the last one has ended'
TOO_LONG = 'a section_length in it is above 4,093'
NO_BEGINNING = 'it has bytes of a section whose beginning did not come'
NO_END = 'the stream ends after it, and a section has not ended'
REFUSED = {7: "the section's CRC_32 is wrong", 2: 'the table is of another kind', 30: 'the packet has not 188 bytes',
           31: 'the packet does not begin with the sync byte 0x47', 33: 'the packet is scrambled',
           34: "a pointer or an adaptation field passes the packet's end"}
TEXT_WAS = 'number %d, the last being 2, of content table ' + EXTENSION + ', version 0'


def gap(packets):
    return 'packets before it are lost, %d by the counters' % packets


def sent(*sections, first=0):
    """The packets of sections, each from the counter after the last packet's."""
    made = []
    for section in sections:
        made += packed(section, (first + len(made)) % 16)
    return made


def byte(packet, at, new):
    """A packet with another byte at a place."""
    return packet[:at] + bytes([new]) + packet[at + 1:]


def marked(packet):
    """A packet with the error bit."""
    return byte(packet, 1, packet[1] | 0x80)


def counted(ours, repeats=0, others=0, errors=0, refused=0):
    return ('packets: %d on PID 0x0021, of which %d repeated, %d of other PIDs, %d with the error bit, %d refused'
            % (ours, repeats, others, errors, refused))


# ---- what is told: of each event the line of the box, and that of nw


def lost(at, what, was=None, elsewhere=False):
    """A loss at a packet; was: the section by its heading, if nothing else can be lost."""
    box = '; the section came whole elsewhere' if elsewhere else UNKNOWN
    return 'packet at byte %d: %s' % (at, what) + box, 'packet at byte %d: %s' % (at, what) + ('; by its heading the section was ' + was if was else UNKNOWN)


def no_packet(first, last, number):
    told = '%s (refusal %d)' % (REFUSED[number], number)
    return 'bytes %d to %d are no good packet: %s' % (first, last, told) + UNKNOWN, 'bytes %d to %d are skipped: %s' % (first, last, told)


def bad(at, number, was=None, elsewhere=False):
    """A section that is not good; was: by its heading."""
    told = 'section that the packet at byte %d completes is %%s: %s (refusal %d)' % (at, REFUSED[number], number)
    return told % 'not good' + ('; it came whole elsewhere' if elsewhere else UNKNOWN), told % 'skipped' + ('; by its heading it was ' + was if was else '')


def streams():
    """Each stream: its bytes, the box's status, the events in their order, the packets counted, and lines that the box shows."""
    drill, long = sent(ONE, TWO), sent(ONE, *LONG)  # 2 packets; 1, 23, 23 and more
    whole = 'sections: 2 taken, 0 held already, 0 refused'
    yield b''.join(drill), 0, [], counted(2), [whole, *SHOWN]
    yield b''.join(sent(ONE, TWO, first=15)), 0, [], counted(2), [whole, *SHOWN]
    yield b''.join(long), 0, [], counted(len(long)), ['    | Go on foot.']
    yield b''.join([NULL, drill[0], NULL, byte(NULL, 2, 0x21), drill[1], NULL]), 0, [], counted(2, others=4), SHOWN
    # Other PIDs in plenty, and only they.
    yield NULL * 400 + drill[0] + NULL * 400 + drill[1] + NULL * 400, 0, [], counted(2, others=1200), SHOWN
    yield NULL * 7, 1, [], counted(0, others=7), ['sections: 0 taken, 0 held already, 0 refused', 'no table has come: no packet completes a section', faults(1)]
    for made in repeats(drill, long), losses(long), bad_sections(drill), no_packets(drill, long), made_by_others():
        yield from made


def repeats(drill, long):
    """A packet twice is ignored once; three times it is a gap, and read at its own pointer."""
    yield b''.join([drill[0], drill[0], drill[1], drill[1]]), 0, [], counted(4, repeats=2), SHOWN
    yield b''.join([drill[0]] * 3 + drill[1:]), 1, [lost(2 * PACKET, gap(15))], counted(4, repeats=1), ['sections: 2 taken, 1 held already, 0 refused', *SHOWN, faults(1)]
    yield b''.join(p + p for p in long), 0, [], counted(2 * len(long), repeats=len(long)), ['    | Go on foot.']


def losses(long):
    """Packets lost and marked with the error bit, in the middle of a section and between two; the first and the last ones."""
    more = sent(*LONG, first=len(long))
    count = len(long)
    of_first, of_second = TEXT_WAS % 0, TEXT_WAS % 1
    # The third of the first text section's 23: it lacks more than a packet, so that nothing else is lost; 23 packets later it comes again.
    yield (b''.join(long[:3] + long[4:]), 1, [lost(3 * PACKET, gap(1), of_first)], counted(count - 1), [NO_TEXT, faults(3)])
    yield (b''.join(long[:3] + long[4:] + more), 0, [lost(3 * PACKET, gap(1), of_first, True)], counted(count - 1 + len(more)), ['    | Go on foot.'])
    yield (b''.join(long[:3] + long[4:9] + long[12:] + more), 0, [lost(3 * PACKET, gap(1), of_first, True), lost(8 * PACKET, gap(3), of_first, True)],
           counted(count - 4 + len(more)), ['    | Go on foot.'])
    yield (b''.join(long[:3] + [marked(long[3])] + long[4:] + more), 0, [lost(4 * PACKET, gap(1), of_first, True)],
           counted(count - 1 + len(more), errors=1), ['    | Go on foot.'])
    yield (b''.join(long[:3] + [marked(NULL)] + long[3:] + more), 0, [lost(4 * PACKET, ERROR, of_first, True)],
           counted(count + len(more), errors=1), ['    | Go on foot.'])
    # An error bit where nothing is unfinished, and no packet of ours is lost, costs nothing.
    yield b''.join([long[0], marked(NULL)] + long[1:]), 0, [], counted(count, errors=1), ['    | Go on foot.']
    yield b''.join(long + more + [marked(NULL)]), 1, [lost((count + len(more)) * PACKET, ERROR)], counted(count + len(more), errors=1), ['    | Go on foot.', faults(1)]
    # The last packet of a section: it may have carried another's beginning. The first one: what it was is not known.
    yield (b''.join(long[:23] + long[24:] + more), 1, [lost(23 * PACKET, gap(1))], counted(count - 1 + len(more)), ['    | Go on foot.', faults(1)])
    yield (b''.join(long[:24] + long[25:] + more), 1, [lost(24 * PACKET, gap(1))], counted(count - 1 + len(more)), ['    | Go on foot.', faults(1)])
    # A capture begins and ends in the middle of a section.
    yield (b''.join(long[2:] + sent(ONE, *LONG, first=count)), 1, [lost(0, NO_BEGINNING)], counted(2 * count - 2), ['    | Go on foot.', faults(1)])
    yield (b''.join(long + more[:30]), 0, [lost((count + 29) * PACKET, NO_END, of_second, True)], counted(count + 30), ['    | Go on foot.'])
    yield b''.join(long + more[:3] + more[4:9]), 0, [lost((count + 3) * PACKET, gap(1), of_first, True)], counted(count + 8), ['    | Go on foot.']
    # 16 lost packets: the counters go on, and the next section begins too soon.
    yield (b''.join(long[:8] + long[24:] + more), 0, [lost(8 * PACKET, EARLY, of_first, True)], counted(count - 16 + len(more)), ['    | Go on foot.'])


def bad_sections(drill):
    """Sections that come whole and are not good, a length that can't be, bytes that belong to no section."""
    damaged = sent(changed(TWO, 30), ONE, TWO)
    text_was = 'number 0, the last being 0, of content table %s, version 0' % EXTENSION
    yield b''.join(damaged), 0, [bad(0, 7, text_was, True)], counted(3), ['sections: 2 taken, 0 held already, 1 refused', *SHOWN]
    yield b''.join(damaged[:2]), 1, [bad(0, 7, text_was)], counted(2), ['sections: 1 taken, 0 held already, 1 refused', NO_TEXT, faults(2)]
    foreign = b'\x42\xF0\x09' + bytes(9)
    yield b''.join(sent(foreign, ONE, TWO)), 1, [bad(0, 2)], counted(3), [*SHOWN, faults(1)]
    too_long = b'\x47\x40\x21\x12\0\xFE\xFF\xFE'.ljust(PACKET, b'\0')
    yield b''.join([*drill, too_long]), 1, [lost(2 * PACKET, TOO_LONG)], counted(3), [*SHOWN, faults(1)]
    stray = b'\x47\x00\x21\x12' + bytes(184)
    yield b''.join([*drill, stray]), 1, [lost(2 * PACKET, NO_BEGINNING)], counted(3), [*SHOWN, faults(1)]
    yield b''.join([*drill, b'\x47\x00\x21\x12' + b'\xFF' * 184]), 0, [], counted(3), SHOWN
    yield b''.join(sent(ONE, TWO, NEWER)), 0, [], counted(3), ['  version     1']


def no_packets(drill, long):
    """Bytes that are no packet, cut packets, packets that are refused."""
    more = b''.join(sent(ONE, *LONG, first=len(long)))
    count = len(long)
    yield b''.join(long)[100:] + more, 1, [no_packet(0, 87, 31)], counted(2 * count - 1), ['    | Go on foot.', faults(1)]
    yield b''.join(long[1:])[100:] + more, 1, [no_packet(0, 87, 31), lost(88, NO_BEGINNING)], counted(2 * count - 2), ['    | Go on foot.', faults(2)]
    yield (b''.join(long + sent(TWO, first=count))[:-100], 1, [no_packet(count * PACKET, count * PACKET + 87, 30)], counted(count, refused=1),
           ['    | Go on foot.', faults(1)])
    between = b''.join(long[:3]) + b'noise' + b''.join(long[3:])
    yield between, 1, [no_packet(564, 568, 31)], counted(count), ['    | Go on foot.', faults(1)]
    # 50 sync bytes begin what looks like a packet of PID 0x0747, with the front of the next: the rest of that one is none.
    yield (b''.join(long[:3]) + b'\x47' * 50 + b''.join(long[3:]) + more, 1, [no_packet(752, 801, 31), lost(802, gap(1), TEXT_WAS % 0, True)],
           counted(2 * count - 1, others=1), ['    | Go on foot.', faults(1)])
    no_sync = byte(long[5], 0, 0)
    yield (b''.join(long[:5]) + no_sync + b''.join(long[6:]) + more, 1, [no_packet(5 * PACKET, 6 * PACKET - 1, 31), lost(6 * PACKET, gap(1), TEXT_WAS % 0, True)],
           counted(2 * count - 1), ['    | Go on foot.', faults(1)])
    for changed_packet, number in ((byte(drill[1], 3, drill[1][3] | 0x80), 33), (byte(drill[1], 3, drill[1][3] & 0x0F), 34), (byte(drill[1], 4, 183), 34)):
        yield (b''.join([drill[0], changed_packet, drill[1]]), 1, [no_packet(188, 375, number)], counted(2, refused=1), [*SHOWN, faults(1)])


def made_by_others():
    """Sections close behind each other over two packets, an adaptation field before a payload and one alone, a pointer behind a section's end."""
    (text,) = content(language(b'This is a drill.\n' * 10))
    first = b'\x47\x40\x21\x10\0' + (ONE + text)[:183]
    rest = (ONE + text)[183:]
    field = 182 - len(rest) - len(ONE)
    second = b'\x47\x40\x21\x31' + bytes([field]) + bytes(field) + bytes([len(rest)]) + rest + ONE
    alone = b'\x47\x00\x21\x2F\xB7' + bytes(183)
    yield first + alone + second, 0, [], counted(3), ['sections: 2 taken, 1 held already, 0 refused', *SHOWN]
