"""Content bodies and calls made by hand, with what document 01's words say of them; every refusal that can be met."""
# SPDX-License-Identifier: MIT
from make_fields import checked, pool_of
from table_checks import on_tape, pairs

KIND = 0xFE

# An identifier, whose day is 3 November 2024, and the CRC-16 of its 140 bits, by the division of extensions.py. That of its 18
# bytes, by Python's own binascii.crc_hqx, was the extension before M-103.
DIGITS = checked('0' * 23 + '20241103' + '0' * 4)
IDENTIFIER, EXTENSION, OLD_EXTENSION = 'f' + DIGITS, 0x3FB5, 0xDEF2
# The standard writes `zho` as 0111 1010 0110 1000 0110 1111.
ZHO = '%06x' % 0b011110100110100001101111


def language(rest='f8' '0000' '00' 'f0', letters=ZHO, length=None):
    """A language: its length at 19, letters at 23, character set at 26, text length at 27, agency length at 29."""
    fields = letters + rest
    return '%08x' % (len(fields) // 2 if length is None else length) + fields


def body(*languages, more='0000', day='20241103'):
    return IDENTIFIER[:24] + day + IDENTIFIER[32:] + 'f%x' % len(languages) + ''.join(languages) + more


SMALLEST = body(language())

# An empty file, and one of 5 bytes, with lengths of 24 bits; of 32, a file of 3 bytes and an empty one.
OF_BOTH = body(language('f8' '0000' '00' 'f2' '01' '000000' '03' '000005' '0900000000'))

# A body of the 24-bit variant, and the number and place of its refusal.
NARROW = [
    (SMALLEST, None), (SMALLEST[:-2], (14, 31)), (body(language(), more='000000'), (16, 33)),
    (body(language(), more='0001'), (14, 31)), (body(language(), more='0001aa'), None),
    (body(language(length=7)), (15, 30)), (body(language(length=9)), (15, 31)), (body(language(length=10)), (15, 31)),
    (body(language(length=11)), (14, 19)), (body(language(length=2**32 - 1)), (14, 19)),
    (body(language() + 'aa'), (14, 31)), (body(language('f8' '0000' '00' 'f0' 'aa')), (15, 31)),
    # Identifier and language count: reserved bits need only their byte.
    ('', (14, 0)), ('e0', (17, 0)), ('f0', (14, 0)), ('f0' + '00' * 16, (14, 0)), ('f0' + '0a' * 17, (18, 0)),
    ('fa' + '00' * 17, (18, 0)), (IDENTIFIER, (14, 18)), (IDENTIFIER + 'e0', (17, 18)), (IDENTIFIER + 'e1', (17, 18)),
    (IDENTIFIER + 'f0' + SMALLEST[38:], (19, 18)), (IDENTIFIER + 'f6', (19, 18)), (IDENTIFIER + 'f5', (14, 19)),
    (body(*[language()] * 5), None), (body(*[language()] * 6), (19, 18)), (body(*[language()] * 5, more=''), (14, 79)),
    # The identifier's day: a date from 1 March 1900 to 22 April 2038, year first, after its 18 and before what follows it. A body with another
    # good day comes as far as its extension, which is another.
    (body(language(), day='20240231'), (20, 0)), (body(language(), day='19000228'), (20, 0)), (body(language(), day='19000301'), (23, 0)),
    (body(language(), day='20380422'), (23, 0)), (body(language(), day='20380423'), (20, 0)), (body(language(), day='20000229'), (23, 0)),
    (body(language(), day='20241311'), (20, 0)), (body(language(), day='03112024'), (20, 0)), (body(language(), day='2024023a'), (18, 0)),
    (body(day='20240231', more=''), (20, 0)), (IDENTIFIER[:-8] + 'a' + '0' * 7, (18, 0)),
    # Letters, character set, text, agency.
    (body(language(letters='7a6860')), (19, 23)), (body(language(letters='7a687b')), (19, 23)),
    (body(language(letters='5a484f')), (19, 23)), (body(language(letters='617a61')), None),
    (body(language('fc' '0000' '00' 'f0')), None), (body(language('fd' '0000' '00' 'f0')), (19, 26)),
    (body(language('ff' '0000' '00' 'f0')), (19, 26)), (body(language('f7' '0000' '00' 'f0')), (17, 26)),
    (body(language('fc' '0003' '00' 'f0')), (15, 27)), (body(language('fc' '0005' '00' 'f0')), (14, 27)),
    (body(language('fc' '0002' '00' 'f0')), (15, 31)), (body(language('fc' '0002' '6162' '01' '63' 'f0')), None),
    (body(language('fc' '0000' '02' 'f0')), (15, 29)), (body(language('fc' '0000' '04' 'f0')), (14, 29)),
    # Auxiliary files, whose lengths have 24 bits.
    (body(language('f8' '0000' '00' 'e3')), (17, 30)), (body(language('f8' '0000' '00' 'f3')), (19, 30)),
    (body(language('f8' '0000' '00' 'f1')), (15, 31)), (body(language('f8' '0000' '00' 'f1'), more=''), (14, 31)),
    (body(language('f8' '0000' '00' 'f1' 'ff' '000001' 'aa')), None),
    (body(language('f8' '0000' '00' 'f1' 'ff' '000002' 'aa')), (15, 32)),
    (body(language('f8' '0000' '00' 'f1' 'ff' '000004' 'aa')), (14, 32)),
    (body(language('f8' '0000' '00' 'f1' 'ff' '0000')), (15, 32)),
    (body(language('f8' '0000' '00' 'f2' 'ff' '000000' '00' '000000')), None),
    (body(language('f8' '0000' '00' 'f2' 'ff' '000000')), (15, 35)),
    (body(language('f8' '0000' '00' 'f0' 'ff' '000000')), (15, 31)),
    # Made for 32 bits: the length's last byte is the first of the data, and what is left is left over.
    (body(language('f8' '0000' '00' 'f1' 'ff' '00000001' 'aa')), (15, 35)),
    (body(language('f8' '0000' '00' 'f1' 'ff' '00000000')), (15, 35)), (OF_BOTH, None)]

# And of the 32-bit variant.
WIDE = [
    (SMALLEST, None), (body(*[language()] * 5), None), (body(language(letters='7a687b')), (19, 23)),
    (body(language(), more='000000'), (16, 33)), (body(language('f8' '0000' '00' 'f1')), (15, 31)),
    (body(language('f8' '0000' '00' 'f1' 'ff' '00000001' 'aa')), None),
    (body(language('f8' '0000' '00' 'f1' 'ff' '00000002' 'aa')), (15, 32)),
    (body(language('f8' '0000' '00' 'f1' 'ff' '00000003' 'aa')), (15, 32)),
    (body(language('f8' '0000' '00' 'f1' 'ff' '00000004' 'aa')), (14, 32)),
    (body(language('f8' '0000' '00' 'f1' 'ff' '01000001' 'aa')), (14, 32)),
    (body(language('f8' '0000' '00' 'f1' 'ff' 'ffffffff' 'aa')), (14, 32)),
    (body(language('f8' '0000' '00' 'f2' 'ff' '00000000' '00' '00000000')), None),
    (body(language('f8' '0000' '00' 'f2' 'ff' '00000000')), (15, 36)),
    (body(language('f8' '0000' '00' 'f1' 'ff' '00000000' 'aa')), (15, 36)),
    # Made for 24 bits: the first byte of the data is the length's last, and an empty file has none.
    (body(language('f8' '0000' '00' 'f1' 'ff' '000000')), (15, 32)),
    (body(language('f8' '0000' '00' 'f1' 'ff' '000000'), more=''), (14, 32)),
    (body(language('f8' '0000' '00' 'f1' 'ff' '000001' 'aa')), (14, 32)), (OF_BOTH, None)]

BODIES = {24: NARROW, 32: WIDE}

LEAST = bytes.fromhex(SMALLEST)
NO_DAY = bytes.fromhex(body(language(), day='20240231'))
# Letters at 23, text at 29, agency at 32, the file's type at 34 and its data at 38, the signature at 43.
FULL = bytes.fromhex(body(language('f9' '0002' '6162' '01' '63' 'f1' '07' '000003' '646566'), more='000167'))
# The same table in the other variant: its file's data at 39, the signature at 44.
FULL_32 = bytes.fromhex(body(language('f9' '0002' '6162' '01' '63' 'f1' '07' '00000003' '646566'), more='000167'))
FULL_TAPE = [0, 18, 1, 23, 3, 1, 29, 2, 32, 1, 1, 7, 38, 3, 43, 1]
LONG = bytes(1045505)
# In a pool of the identifier and letters.
SMALLEST_POOL = bytes.fromhex('0' + DIGITS) + b'zho'
SMALLEST_TAPE = [0, 18, 1, 18, 3, 0, 0, 0, 0, 0, 0, 0, 0]


def part(begin, length):
    return '0 %d' % (begin * 2**24 + length)


def files_of_both(*files):
    """What OF_BOTH is read as, by its files' types and parts."""
    return ' '.join(('0 0', part(0, 18), '0 %d' % EXTENSION, '0 1', part(46, 0), DIGITS, part(23, 21), part(23, 3), '0 0',
                     part(29, 0), part(30, 0), '0 2', *files))


# Calls with variants, and the whole answer: 19 after 2 and before 22, before all fields of a form and all else that is asked for.
VARIED = [
    (('content_read', 0xFD, 25, EXTENSION, LONG), '2 0'), (('content_read', KIND, 25, EXTENSION, LONG), '19 0'),
    (('content_read', KIND, 32, EXTENSION, LONG), '22 0'), (('content_read', 0xFD, 0, 0, b''), '2 0'),
    (('content_read', KIND, 0, 0, b''), '19 0'), (('content_read', KIND, 25, EXTENSION, LEAST), '19 0'),
    (('content_read', KIND, 3, EXTENSION, FULL), '19 0'), (('content_read', KIND, 4, EXTENSION, FULL_32), '19 0'),
    (('content_read', KIND, 2**32 - 8, EXTENSION, LEAST), '19 0'),
    (('content_lay', 0xFD, 25, FULL, [9]), '2 0 9'), (('content_lay', KIND, 25, LONG, [9]), '19 0 9'),
    (('content_lay', KIND, 25, LEAST, []), '19 0 -'),
    (('content_measure', 25, SMALLEST_POOL, SMALLEST_TAPE), '19 0'), (('content_measure', 25, b'\xAA' * 99, [0, 18, 0]), '19 0'),
    (('content_measure', 24, b'\xAA' * 99, [0, 18, 0]), '18 0'),
    (('content_write', 25, SMALLEST_POOL, SMALLEST_TAPE, b'\xE5' * 34), '19 0 ' + 'e5' * 34),
    (('content_write', 25, b'\xAA' * 99, [0, 18, 0], b''), '19 0 -'),
    (('content_write', 31, pool_of(b'a', 256), [0, 18, 1, 0, 3, 0, 0, 0, 0, 256, 0, 0, 0], b''), '19 0 -'),
    (('auxiliary_fields', 25, FULL, 23, 18, 0), '19 0 19 0'), (('auxiliary_fields', 25, FULL, 23, 11, 0), '19 0 19 0'),
    (('auxiliary_fields', 23, FULL, 23, 17, 0), '19 0 19 0'),
    # A table in its two variants; and one body that both read, as two tables.
    (('content_read', KIND, 32, EXTENSION, FULL_32),
     ' '.join(('0 0', part(0, 18), '0 %d' % EXTENSION, '0 1', part(44, 1), DIGITS, part(23, 19), part(23, 3), '0 1',
               part(29, 2), part(32, 1), '0 1', '0 7', part(39, 3)))),
    (('content_read', KIND, 32, EXTENSION, FULL), '14 35'), (('content_read', KIND, 24, EXTENSION, FULL_32), '15 38'),
    (('content_lay', KIND, 32, FULL_32, [9] * 17), '0 16 0,18,1,23,3,1,29,2,32,1,1,7,39,3,44,1,9'),
    (('content_measure', 32, FULL, FULL_TAPE), '0 45'), (('content_measure', 24, FULL, FULL_TAPE), '0 44'),
    (('content_write', 32, FULL, FULL_TAPE, b'\xE5' * 46), '%s %d 45 %se5' % (part(EXTENSION, 45), EXTENSION, FULL_32.hex())),
    (('content_write', 32, FULL, FULL_TAPE, b'\xE5' * 44), '21 0 ' + 'e5' * 44),
    (('content_write', 32, SMALLEST_POOL, SMALLEST_TAPE, b'\xE5' * 34),
     '%s %d 33 %se5' % (part(EXTENSION, 33), EXTENSION, SMALLEST)),
    (('auxiliary_fields', 32, FULL_32, 23, 19, 0), '0 7 ' + part(39, 3)), (('auxiliary_fields', 32, FULL, 23, 18, 0), '0 7 14 35'),
    (('auxiliary_fields', 24, FULL_32, 23, 19, 0), '0 7 ' + part(38, 0)),
    (('content_read', KIND, 24, EXTENSION, bytes.fromhex(OF_BOTH)), files_of_both('0 1', part(35, 0), '0 3', part(39, 5))),
    (('content_read', KIND, 32, EXTENSION, bytes.fromhex(OF_BOTH)), files_of_both('0 1', part(36, 3), '0 9', part(44, 0)))]

# A call with 24-bit lengths, and the whole answer.
CALLS = [
    # Kind, then size, then fields; the extension last.
    (('content_read', 0xFD, 24, EXTENSION, LONG), '2 0'), (('content_read', KIND, 24, EXTENSION, LONG), '22 0'),
    (('content_read', 0xFD, 24, 0, b''), '2 0'), (('content_read', KIND, 24, EXTENSION ^ 1, LEAST), '23 0'),
    (('content_read', KIND, 24, OLD_EXTENSION, LEAST), '23 0'), (('content_read', KIND, 24, OLD_EXTENSION, FULL), '23 0'),
    (('content_read', KIND, 24, EXTENSION + 65536, LEAST), '23 0'), (('content_read', KIND, 24, 0, LEAST + b'\0'), '16 33'),
    (('content_read', KIND, 24, 0, LEAST[:-1]), '14 31'), (('content_read', 0xFD, 24, 0, LEAST), '2 0'),
    (('content_read', KIND, 24, EXTENSION, FULL),
     ' '.join(('0 0', part(0, 18), '0 %d' % EXTENSION, '0 1', part(43, 1), DIGITS, part(23, 18), part(23, 3), '0 1',
               part(29, 2), part(32, 1), '0 1', '0 7', part(38, 3)))),
    # The tape last, and no extension.
    (('content_lay', KIND, 24, FULL, [9] * 17), '0 16 0,18,1,23,3,1,29,2,32,1,1,7,38,3,43,1,9'),
    (('content_lay', KIND, 24, FULL, [9] * 15), '21 0 ' + ','.join('9' * 15)),
    (('content_lay', KIND, 24, FULL + b'\0', [9]), '16 44 9'), (('content_lay', 0xFD, 24, FULL, []), '2 0 -'),
    # A writer gives the extension, above the length and by itself; its 22 comes before its 21, both after the fields.
    (('content_write', 24, SMALLEST_POOL, SMALLEST_TAPE, b'\xE5' * 34),
     '%s %d 33 %se5' % (part(EXTENSION, 33), EXTENSION, SMALLEST)),
    (('content_write', 24, SMALLEST_POOL, SMALLEST_TAPE, b'\xE5' * 32), '21 0 ' + 'e5' * 32),
    (('content_write', 24, pool_of(b'a', 256), [0, 18, 1, 0, 3, 0, 0, 0, 0, 256, 0, 0, 0], b''), '22 0 -'),
    (('content_write', 24, pool_of(b'a', 256), [0, 18, 1, 0, 3, 0, 0, 0, 0, 255, 0, 0, 0], b''), '21 0 -'),
    (('content_write', 24, pool_of(b'a', 256), [0, 18, 1, 0, 3, 0, 0, 0, 0, 256, 3, 0, 0], b''), '19 0 -'),
    (('content_write', 24, pool_of(b'a', 99), [0, 18, 2**64 - 1], b''), '19 0 -'),
    (('content_write', 24, pool_of(b'a', 99), [0, 18, 6], b''), '19 0 -'),
    (('content_write', 24, pool_of(b'A', 99), [0, 18, 1, 0, 3], b''), '19 0 -'),
    (('content_write', 24, b'\xAA' * 99, [0, 18, 0], b''), '18 0 -'),
    # A day is 20 at 0 from a writer, before what follows it; from measuring, at the identifier's entry, which is the first.
    (('content_write', 24, NO_DAY[:18] + b'zho', SMALLEST_TAPE, b'\xE5' * 33), '20 0 ' + 'e5' * 33),
    (('content_write', 24, NO_DAY, [0, 18, 6], b''), '20 0 -'), (('content_measure', 24, NO_DAY, [0, 18, 6]), '20 0'),
    (('content_write', 24, NO_DAY[:17] + b'\xAA', [0, 18, 6], b''), '18 0 -'),
    # The identifier, its digits and its extension are judged as they are read, and no other field for them.
    (('content_fields', NO_DAY), '20 0 20 0 0 1 ' + part(33, 0)), (('content_identifier_digit', NO_DAY, 0), '20 0'),
    (('content_identifier_digit', NO_DAY, 35), '20 0'),
    # Fields asked for, in bodies of which little is good: the language count is at 18 whatever stands before it.
    (('content_fields', b''), '14 0 14 0 14 18 14 18'),
    (('content_fields', bytes(18) + b'\xF6'), '17 0 17 0 19 18 19 18'),
    (('content_fields', bytes(18) + LEAST[18:]), '17 0 17 0 0 1 ' + part(33, 0)),
    (('content_fields', FULL), '%s 0 %d 0 1 %s' % (part(0, 18), EXTENSION, part(43, 1))),
    (('content_identifier_digit', LEAST, 34), '0 0'), (('content_identifier_digit', LEAST, 35), '19 0'),
    (('content_identifier_digit', LEAST[:17], 35), '14 0'),
    (('content_language', LEAST, 0), part(23, 8)), (('content_language', LEAST, 1), '19 0'),
    (('content_language', LEAST[:18], 9), '14 18'), (('content_language', LEAST[:19], 0), '14 19'),
    (('content_language', LEAST[:30], 0), '14 19'), (('content_language', LEAST[:18] + b'\xF0', 0), '19 18'),
    (('language_fields', FULL, 23, 18), '%s 0 1 %s %s 0 1' % (part(23, 3), part(29, 2), part(32, 1))),
    (('language_fields', FULL, 23, 22), '19 0 19 0 19 0 19 0 19 0'),
    (('language_fields', FULL, 23, 3), part(23, 3) + ' 15 26 15 27 15 27 15 27'),
    (('language_fields', FULL, 23, 9), '%s 0 1 %s 15 31 15 31' % (part(23, 3), part(29, 2))),
    (('language_fields', FULL, 43, 1), '14 43 14 46 14 47 14 47 14 47'),
    (('auxiliary_fields', 24, FULL, 23, 18, 0), '0 7 ' + part(38, 3)), (('auxiliary_fields', 24, FULL, 23, 18, 1), '19 0 19 0'),
    (('auxiliary_fields', 24, FULL, 23, 17, 0), '0 7 15 35'), (('auxiliary_fields', 24, FULL, 23, 11, 0), '15 34 15 34'),
    (('auxiliary_fields', 24, LEAST, 23, 8, 0), '19 0 19 0'), (('auxiliary_fields', 24, LEAST, 23, 11, 0), '19 0 19 0')]


# ---- every refusal that can be met


READ = {*pairs("""
kind: 2
variant: 19
body: 22
identifier reserved: 14 17
identifier: 14 18 20
language count reserved: 14 17
language count: 19
language length: 14
letters: 14 15 19
character set reserved: 14 15 17
character set: 19
text length: 14 15
agency length: 14 15
auxiliary count reserved: 14 15 17
auxiliary count: 19
auxiliary type: 14 15
auxiliary length: 14 15
language left over: 15
signature length: 14
body left over: 16
extension: 23
""")}

WRITE = on_tape(
    '', 'language count, character set, auxiliary count, auxiliary type', 'text, agency, auxiliary data, signature',
    'identifier, letters') | {*pairs("""
variant: 19
identifier: 18 20
letters: 19
text length: 22
agency length: 22
auxiliary length: 22
signature length: 22
body: 22
""")}
