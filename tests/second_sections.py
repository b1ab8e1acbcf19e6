"""The second program for sections, which shares no code with the library: one printed, read, counted and cut."""
# SPDX-License-Identifier: MIT
import zlib

from calls import Refused

MOST_PAYLOAD = 4084
MOST_BODY = 1045504
# table_id, four one bits, section_length, extension, two one bits, version, current, section_number, last_section_number
WIDTHS = (8, 4, 12, 16, 2, 5, 1, 8, 8)


REVERSED = bytes(int(format(byte, '08b')[::-1], 2) for byte in range(256))


def register(data):
    """zlib's takes the low bit first and is inverted at the end: the bits are turned round on the way in and out."""
    return int(format(zlib.crc32(data.translate(REVERSED)) ^ 0xFFFFFFFF, '032b')[::-1], 2)


assert register(b'123456789') == 0x0376E6E7


def checked(data):
    """The bytes and their CRC_32."""
    return data + register(data).to_bytes(4, 'big')


def printed(kind, extension, version, current, number, last, payload):
    """A section."""
    fields = (kind, 0b1111, len(payload) + 9, extension, 0b11, version, current, number, last)
    bits = ''.join(format(field, '0%db' % width) for field, width in zip(fields, WIDTHS))
    return checked(int(bits, 2).to_bytes(8, 'big') + payload)


def fields_of(heading):
    """The fields of eight bytes."""
    bits, at = format(int.from_bytes(heading, 'big'), '064b'), 0
    for width in WIDTHS:
        yield int(bits[at:at + width], 2)
        at += width


def cut(body, kind, extension, version, number, room):
    if not 0xFB <= kind <= 0xFE:
        raise Refused(2)
    if version > 31 or extension > 0xFFFF:
        raise Refused(19)
    count = section_count(len(body))
    if number >= count:
        raise Refused(6)
    payload = body[number * MOST_PAYLOAD:][:MOST_PAYLOAD]
    if room < len(payload) + 12:
        raise Refused(21)
    return printed(kind, extension, version, 1, number, count - 1, payload)


# ---- the calls


def section_read(s):
    if len(s) < 12:
        raise Refused(1)
    kind, ones, length, extension, more_ones, version, current, number, last = fields_of(s[:8])
    if not 0xFB <= kind <= 0xFE:
        raise Refused(2)
    if ones != 0b1111 or more_ones != 0b11:
        raise Refused(3)
    if not 9 <= length <= 4093:
        raise Refused(4)
    if len(s) != length + 3:
        raise Refused(5)
    if number > last:
        raise Refused(6)
    if register(s) != 0:
        raise Refused(7)
    parts = (kind, extension, version, current, number, last)
    return int('%02X%04X%02X%02X%02X%02X' % parts, 16), *parts


def section_length(s):
    """By the heading that the bytes at hand would begin, filled up with zeros."""
    if len(s) < 3:
        raise Refused(1)
    length = list(fields_of(s[:8].ljust(8, b'\0')))[2]
    if not 9 <= length <= 4093:
        raise Refused(4)
    return length + 3


def section_count(length):
    if length == 0:
        raise Refused(14)
    if length > MOST_BODY:
        raise Refused(22)
    return -(-length // MOST_PAYLOAD)


def section_cut(body, kind, extension, version, number, out):
    try:
        section = cut(body, kind, extension, version, number, len(out))
    except Refused as refusal:
        raise Refused(*refusal.args, out)
    return len(section), section + out[len(section):]


def section_cut_all(body, kind, extension, version, out):
    sections, number = b'', 0
    while True:
        try:
            sections += cut(body, kind, extension, version, number, len(out) - len(sections))
        except Refused as refusal:
            raise Refused(*refusal.args, sections + out[len(sections):])
        number += 1
