"""The written form of tables, by a second program from the values that the generators make: what `nw form` has to print.

Texts of GB/T 2312 and GB/T 18030 are told here for ASCII and common characters alone: of other bytes the C library says what they are.
"""
# SPDX-License-Identifier: MIT
import datetime

import second_content

KINDS = {0xFD: 'index', 0xFE: 'content', 0xFC: 'certificate', 0xFB: 'configuration'}
SETS = ('GB/T 2312', 'GB/T 18030', 'GB/T 13000', 'GB/T 21669', 'GB 16959')
CONVERTED = {0: 'gb2312', 1: 'gb18030'}
UTF8 = 2
FIRST, LAST = datetime.datetime(1900, 3, 1), datetime.datetime(2038, 4, 22, 23, 59, 59)
# Characters above ASCII that are not printed as themselves: controls, those that can't be seen, those that turn writing round.
UNSEEN = {*range(0x80, 0xA0), 0xAD, 0x61C, *range(0x200B, 0x2010), *range(0x2028, 0x202F), *range(0x2060, 0x2070), 0xFEFF, *range(0xFFF0, 0xFFFC)}


def seen(character):
    code = ord(character)
    return code not in UNSEEN and code % 0x10000 < 0xFFFE and not 0xE0000 <= code < 0xE1000


# ---- values


def line(depth, word, value=''):
    return '  ' * depth + (word + ' ' + value if value else word)


def data(depth, word, octets):
    text = octets.hex().upper()
    first, rest = text[:64] or 'none', [text[at:at + 64] for at in range(64, len(text), 64)]
    return [line(depth, word, first), *(line(depth + 1, 'hex', part) for part in rest)]


def octet(value, at_end):
    if value == 0x5C:
        return '\\\\'
    return '\\x%02X' % value if not 0x20 <= value < 0x7F or value == 0x20 and at_end else chr(value)


def common(its_set, octets):
    """The characters of a text in a set that the C library converts; None where some are not common, or bytes are of none."""
    try:
        text = octets.decode(CONVERTED[its_set])
        text.encode('gb2312')
    except UnicodeError:
        return None
    return text if all(c < '\x80' or '\u4E00' <= c <= '\u9FA5' for c in text) else None


def characters(octets):
    """The bytes of a text as UTF-8: its characters, and bytes that are of none."""
    at = 0
    while at < len(octets):
        for size in 1, 2, 3, 4:
            try:
                found = octets[at:at + size].decode('utf-8')
                break
            except UnicodeDecodeError:
                found = ''
        yield octets[at:at + max(1, len(found.encode()))], found
        at += max(1, len(found.encode()))


def string(its_set, octets, ascii_only=False):
    """A line of a text. Of sets that the C library converts, None where it has characters that are not common."""
    said, at = '', 0
    parts = ((bytes([value]), '') for value in octets)
    if its_set in CONVERTED and not ascii_only:
        text = common(its_set, octets)
        if text is None:
            return None
        parts = ((c.encode(CONVERTED[its_set]), c) for c in text)
    if its_set == UTF8 and not ascii_only:
        parts = characters(octets)
    for part, found in parts:
        if len(part) > 1 and seen(found):
            said += found
        else:
            said += ''.join(octet(value, at + i in (0, len(octets) - 1)) for i, value in enumerate(part))
        at += len(part)
    return said


def moment(field, offset):
    if field == 2**40 - 1:
        return 'live'
    day, digits = field >> 24, '%06X' % (field % 2**24)
    utc = datetime.datetime(1858, 11, 17) + datetime.timedelta(days=day, hours=int(digits[:2]), minutes=int(digits[2:4]), seconds=int(digits[4:]))
    local = utc + datetime.timedelta(minutes=offset)
    if not FIRST <= local <= LAST:
        local, offset = utc, 0
    return '%02d/%02d/%04d %02d:%02d:%02d %s%02d:%02d' % (
        local.day, local.month, local.year, local.hour, local.minute, local.second, '-' if offset < 0 else '+', abs(offset) // 60, abs(offset) % 60)


# ---- tables


def descriptors(depth, those):
    return [fact for one in those for fact in (line(depth, 'descriptor', '0x%02X' % one['tag']), *data(depth + 1, 'data', one['data']))]


def channel(its):
    if its is None:
        return []
    said = [line(2, 'channel'), line(3, 'network', str(its['network'])), line(3, 'transport', str(its['stream'])),
            line(3, 'program', str(its['program'])), line(3, 'pcr', '0x%04X' % its['PCR PID']), *descriptors(3, its['descriptors'])]
    for stream in its['streams']:
        said += [line(3, 'stream', '0x%02X' % stream['type']), line(4, 'pid', '0x%04X' % stream['PID']), *descriptors(4, stream['descriptors'])]
    return said


def message(its, offset):
    return [line(1, 'message', its['identifier']), line(2, 'network', str(its['network'])), line(2, 'start', moment(its['start'], offset)),
            line(2, 'end', moment(its['end'], offset)), line(2, 'type', string(None, its['type'])), line(2, 'class', str(its['class'])),
            line(2, 'level', str(its['level'])), *(line(2, 'resource', code) for code in its['resources']), *channel(its['channel'])]


def language(its, ascii_only):
    lines = [string(its['character set'], part, ascii_only) for part in its['text'].split(b'\n')]
    agency = string(its['character set'], its['agency'], ascii_only)
    if None in lines or agency is None:
        raise ValueError('not told here')
    said = [line(1, 'language', its['letters'].decode()), line(2, 'set', SETS[its['character set']]), *(line(2, 'text', text) for text in lines),
            line(2, 'agency', agency)]
    for file in its['files']:
        said += [line(2, 'file', str(file['type'])), *data(3, 'data', file['data'])]
    return said


def command(its):
    tag, terminals = its['tag'], [line(2, 'terminal', code) for code in its.get('terminals', [])]
    if tag == 1:
        return [line(1, 'clock', '%02d/%02d/%04d %02d:%02d:%02d' % tuple(its[part] for part in ('day', 'month', 'year', 'hour', 'minute', 'second')))]
    if tag == 2:
        return [*data(1, 'code', its['address']), line(2, 'resource', its['resource'])]
    if tag == 3:
        return [line(1, 'frequency', str(its['frequency'])), line(2, 'rate', str(its['symbol rate'])), line(2, 'mapping', str(its['mapping'])), *terminals]
    if tag == 4:
        where = its['address']
        typed = '%d.%d.%d.%d:%d' % (*where[:4], where[4] * 256 + where[5]) if its['kind'] == 2 else string(None, where)
        return [line(1, 'return', str(its['kind'])), line(2, 'address', typed), *terminals]
    if tag in (5, 6):
        word = {5: 'period', 6: 'volume'}[tag]
        return [line(1, word, str(its[word])), *terminals]
    if tag == 7:
        return [line(1, 'query'), *(line(2, 'parameter', str(one)) for one in its['parameters']), *terminals]
    return [line(1, 'command', str(tag)), *data(2, 'data', its['content'])]


def form(kind, extension, version, table, offset=0, ascii_only=False):
    """The lines of a table's form; ValueError where texts of it are not told here."""
    said = ['table ' + KINDS[kind], *([line(1, 'extension', '0x%04X' % extension)] if kind != 0xFE else []), line(1, 'version', str(version))]
    if kind == 0xFD:
        said += [fact for one in table['messages'] for fact in message(one, offset)]
    elif kind == 0xFE:
        said += [line(1, 'message', table['identifier']), *(fact for one in table['languages'] for fact in language(one, ascii_only))]
    elif kind == 0xFC:
        said += [fact for one in table['lists'] for fact in data(1, 'authorization', one)]
        said += [fact for one in table['certificates'] for fact in data(1, 'certificate', one)]
    else:
        said += [fact for one in table['commands'] for fact in command(one)]
    return [*said, *data(1, 'signature', table['signature'])]


def extension_of(table):
    return second_content.extension(bytes.fromhex('F' + table['identifier']))
