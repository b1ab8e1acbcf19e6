"""What happens on the way, from standard input to standard output, to transport packets or, if they are bare, to sections.

Packets: each two neighbouring sections change places, and each section is sent twice, as head ends do, with counters that go on. On its first
way every third packet comes twice, and of a section of three packets or more the second is lost, or marked with the error bit, by turns; of a
shorter one a bit is damaged. Packets of another PID stand between. Sections: the last comes first, each comes twice, and one is damaged. It takes anything: of nothing it makes nothing, and bytes at
the end that are no whole section are passed on.
"""
# SPDX-License-Identifier: MIT
import itertools
import sys

PACKET, SYNC, START, ERROR, PAYLOAD = 188, 0x47, 0x40, 0x80, 5 + 11  # byte 11 of a section is none of its heading
NULL = bytes([SYNC, 0x1F, 0xFF, 0x10]) + bytes(PACKET - 4)


def with_bit(s, at, bit):
    return s[:at] + bytes([s[at] ^ bit]) + s[at + 1:]


def sections_in(packets):
    """The packets of each section: it begins where the start indicator is."""
    found = []
    for packet in packets:
        if packet[1] & START or not found:
            found.append([])
        found[-1].append(packet)
    return found


def exchanged(sections):
    """Each two neighbours in the other order."""
    return [section for at in range(0, len(sections), 2) for section in sections[at:at + 2][::-1]]


def first_way(packets, loses):
    """What comes of a section's packets."""
    for number, packet in enumerate(packets):
        if len(packets) < 3 and number == 0:
            packet = with_bit(packet, PAYLOAD, 1)
        if len(packets) >= 3 and number == 1:
            packet = NULL if loses else with_bit(packet, 1, ERROR)
        yield packet
        if number % 3 == 2:
            yield packet


def packets_through(packets):
    counter, loses = itertools.count(), itertools.cycle((True, False))
    for section in exchanged(sections_in(packets)):
        sent = [[packet[:3] + bytes([packet[3] & 0xF0 | next(counter) % 16]) + packet[4:] for packet in section] for _ in range(2)]
        yield from first_way(sent[0], len(section) >= 3 and next(loses))
        yield NULL
        yield from sent[1]


def sections_through(data):
    sections = []
    while data:
        length = (data[1] & 0x0F) * 256 + data[2] + 3 if len(data) >= 3 else len(data)
        sections.append(data[:length])
        data = data[length:]
    damaged = [with_bit(last, len(last) - 1, 1) for last in sections[-1:]]  # in its check: its heading still tells what it was
    return damaged + sections[::-1] + sections


def main():
    if len(sys.argv) > 1:
        sys.exit('cable.py: %s: no word is wanted; it goes from standard input to standard output' % sys.argv[1])
    data = sys.stdin.buffer.read()
    packets = [data[at:at + PACKET] for at in range(0, len(data), PACKET)]
    is_stream = packets and len(packets[-1]) == PACKET and all(packet[0] == SYNC for packet in packets)
    sys.stdout.buffer.write(b''.join(packets_through(packets) if is_stream else sections_through(data)))


main()
