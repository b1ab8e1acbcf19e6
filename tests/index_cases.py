"""Index bodies and calls made by hand, with what document 01's words say of them; every refusal that can be met."""
# SPDX-License-Identifier: MIT
from make_fields import checked
from table_checks import on_tape, pairs

KIND = 0xFD
# Its day is 3 November 2024; its extension is by the division of extensions.py.
IDENTIFIER, EXTENSION = 'f' + checked('1' + '23' * 11 + '20241103' + '23' * 2), 0x1971


def message(start='ecc9074500', end='ffffffffff', rest='11' '00' 'fe', day='20241103'):
    """A message: identifier at 3, network at 21, start at 23, end at 28, type at 33, class and level at 38."""
    return IDENTIFIER[:24] + day + IDENTIFIER[32:] + '0007' + start + end + '3131413031' + rest


def body(message, more='0000'):
    return '01' + '%04x' % (len(message) // 2) + message + more


# A message's rest up to its channel's PCR PID; the 12-bit length of its descriptors is at 49.
CHANNEL = '11' '00' 'ff' '0001' '0002' '0003' 'ffff'

# A body, and the number and place of its refusal.
BODIES = [
    ('000000', None), ('0000', (14, 1)), ('00000000', (16, 3)), ('', (14, 0)), ('00', (14, 1)), ('01', (14, 1)),
    ('0100', (14, 1)), ('010001', (14, 1)), ('010000', (14, 3)), ('0100000000', (15, 3)),
    # Reserved bits need only their byte; digits that pass the body's end are 14, the part's end 15.
    ('010001f1', (14, 3)), ('010001e1', (17, 3)), ('010001f1' + '00' * 17, (15, 3)), ('010001f1' + '00' * 16, (14, 3)),
    ('010001' '7a' + '00' * 17, (17, 3)), ('010012' 'fa' + '00' * 17, (18, 3)), ('010012' 'f0' + '0a' * 17, (18, 3)),
    (body(message()), None), (body(message() + '00'), (15, 41)), (body(message(), '0001'), (14, 41)),
    (body(message(), '000000'), (16, 43)),
    # The identifier's day: a date from 1 March 1900 to 22 April 2038, year first, at its first byte, after its 18 and before what follows it.
    (body(message(day='20240231')), (20, 3)), (body(message(day='19000228')), (20, 3)), (body(message(day='19000301')), None),
    (body(message(day='20380422')), None), (body(message(day='20380423')), (20, 3)), (body(message(day='20000229')), None),
    (body(message(day='20241311')), (20, 3)), (body(message(day='03112024')), (20, 3)), (body(message(day='00000000')), (20, 3)),
    (body(message(day='2024023a')), (18, 3)), (body(message(day='20240231', start='ffffffffff', rest='')), (20, 3)),
    ('010012' 'f0' + '00' * 17, (20, 3)), ('010011' 'f0' + '00' * 17, (15, 3)), ('010012' 'e0' + '00' * 17, (17, 3)),
    # Times: the live mark only at the end, digits before days, an end before its start is good.
    (body(message(start='ffffffffff')), (18, 23)), (body(message(start='00ffffffff')), (18, 23)),
    (body(message(end='00ffffffff')), (18, 28)), (body(message(start='3ae6000000')), (20, 23)),
    (body(message(start='3ae7000000', end='3ae7000000')), None), (body(message(start='3ae600000a')), (18, 23)),
    (body(message(start='ecc9240000')), (20, 23)), (body(message(end='ecc9236000')), (20, 28)),
    (body(message(end='ecc9235960')), (20, 28)), (body(message(end='3ae7000000')), None),
    # Class and level, resources, channel flag.
    (body(message(rest='01' '00' 'fe')), (19, 38)), (body(message(rest='15' '00' 'fe')), (19, 38)),
    (body(message(rest='44' '01' 'f0' + '99' * 11 + 'fe')), None),
    (body(message(rest='44' '01' 'f0' + '99' * 11)), (15, 52)),
    (body(message(rest='44' '01' 'e0' + '9a' * 11 + 'fe')), (17, 40)),
    (body(message(rest='44' '02' 'f0' + '9a' * 11 + 'fe')), (18, 40)),
    (body(message(rest='44' '01' 'fe')), (14, 40)), (body(message(rest='11' '00' 'fc')), (17, 40)),
    # 12-bit lengths: 17 of the reserved bits, 14 and 15 of the part, 17 of the top two bits, then the descriptors.
    (body(message(rest=CHANNEL + 'f000' '0000')), None), (body(message(rest=CHANNEL + 'e001' '0000')), (17, 49)),
    (body(message(rest=CHANNEL + 'f400' '0000')), (17, 49)), (body(message(rest=CHANNEL + 'f405' '0000')), (14, 49)),
    (body(message(rest=CHANNEL + 'f403' '0000')), (15, 49)),
    (body(message(rest=CHANNEL + 'f801' 'aa' '0000')), (17, 49)),
    (body(message(rest=CHANNEL + 'f001' 'aa' '0000')), (15, 52)),
    (body(message(rest=CHANNEL + 'f002' 'aa01' '0000')), (15, 52)),
    (body(message(rest=CHANNEL + 'f002' 'aa00' '0000')), None),
    (body(message(rest=CHANNEL + 'f000' '0001' 'aa')), (15, 54)),
    (body(message(rest=CHANNEL + 'f000' '0001' 'aa'), ''), (14, 54)),
    (body(message(rest=CHANNEL + 'f000' '0005' 'aae000f000')), None),
    (body(message(rest=CHANNEL + 'f000' '0005' 'aae000f400')), (17, 56)),
    (body(message(rest=CHANNEL + 'f000' '0005' 'aac000f000')), (17, 54)),
    (body(message(rest=CHANNEL + 'f000' '0005' 'aae000f001')), (15, 56)),
    (body(message(rest=CHANNEL + 'f000')), (15, 51))]

ONE = bytes.fromhex(body(message()))
NO_DAY = bytes.fromhex(body(message(day='20240231')))
# Their messages as forms: the identifier is at 3 of the pool, the type at 33.
TAPE = [1, 3, 18, 7, 0xECC9074500, 2**40 - 1, 33, 5, 1, 1, 0, 0, 0, 0]
BAD_TIMES = bytes.fromhex(body(message(start='ecc907450a', end='ecc9240000')))
LAST_DAY = bytes.fromhex(body(message(start='ffff230000')))
RECORD = [3, 38, 0xECC9074500, 2**40 - 1, 1, 1]
FULL = bytes.fromhex(body(message(rest=CHANNEL + 'f003' '0901aa' '0008' '1bffeef003' '0a01bb'), '0001cc'))
LONG = bytes(1045505)

# A call, and the whole answer.
CALLS = [
    # Kind, then size, then fields; the list of records and the tape last.
    (('index_read', 0xFC, LONG, 0), '2 0'), (('index_read', KIND, LONG, 0), '22 0'),
    (('index_read', 0xFC, b'', 0), '2 0'), (('index_read', KIND, bytes(3), 0), '0 0 0 0 0 %d' % (3 * 2**24)),
    (('index_records', KIND, ONE, RECORD), '0 1 3,38,%d,%d,1,1' % (0xECC9074500, 2**40 - 1)),
    (('index_records', KIND, ONE, []), '21 0 -'), (('index_records', KIND, ONE + b'\0', []), '16 43 -'),
    (('index_records', KIND, ONE + b'\0', [7] * 6), '16 43 7,7,7,7,7,7'),
    (('index_records', KIND, bytes(3), [7] * 6), '0 0 7,7,7,7,7,7'),
    (('index_lay', KIND, ONE, [9] * 15), '0 14 1,3,18,7,%d,%d,33,5,1,1,0,0,43,0,9' % (0xECC9074500, 2**40 - 1)),
    (('index_lay', KIND, ONE, [9] * 13), '21 0 9,9,9,9,9,9,9,9,9,9,9,9,9'),
    # A writer's 22 before its 21, both after the fields.
    (('index_write', bytes(65536), [0, 0, 65536], b''), '22 0 -'),
    (('index_write', bytes(65535), [0, 0, 65535], b''), '21 0 -'),
    (('index_write', bytes(65535), [0, 0, 65536], b''), '19 0 -'),
    (('index_write', b'ab', [0, 1, 1], b'\xE5' * 6), '0 4 00000162e5e5'),
    (('index_write', b'ab', [0, 1, 1], b'\xE5' * 3), '21 0 e5e5e5'),
    (('index_write', b'ab', [0, 1, 1, 0], b'\xE5' * 6), '19 0 e5e5e5e5e5e5'),
    # A day is 20 at 0 from a writer, at the entry where its identifier begins from measuring.
    (('index_write', ONE, TAPE, b'\xE5' * 43), '0 43 ' + ONE.hex()), (('index_write', NO_DAY, TAPE, b'\xE5' * 43), '20 0 ' + 'e5' * 43),
    (('index_write', NO_DAY, TAPE[:3] + [2**16], b''), '20 0 -'), (('index_measure', NO_DAY, TAPE), '20 1'),
    (('index_measure', NO_DAY[:20] + b'\xAA' + NO_DAY[21:], TAPE), '18 1'),
    # The identifier, its digits and its extension are judged as they are read, and no other field for them.
    (('message_identifier_digit', NO_DAY, 3, 38, 0), '20 3'), (('message_identifier_digit', NO_DAY, 3, 38, 35), '20 3'),
    (('message_fields', NO_DAY, 3, 22), '20 3 20 3 0 7 15 23 15 28 15 33 15 38 15 38' + ' 15 39' * 8),
    # Fields asked for: the resource count is at 39, the channel's parts at 51 and 56.
    (('index_message_count', b''), '14 0'), (('index_message', b'', 9), '14 0'), (('index_message', b'\1', 1), '19 0'),
    (('index_message', b'\1', 0), '14 1'), (('index_message', ONE, 0), '0 %d' % (3 * 2**24 + 38)),
    (('index_signature', ONE), '0 %d' % (43 * 2**24)), (('index_signature', ONE[:-1]), '14 41'),
    (('message_resource', ONE, 3, 38, 0), '19 0'), (('message_resource', ONE, 3, 36, 0), '15 39'),
    (('message_resource', ONE, 6, 38, 0), '19 0'), (('message_identifier_digit', ONE, 3, 38, 34), '0 3'),
    (('message_identifier_digit', ONE, 3, 38, 35), '19 0'), (('message_identifier_digit', ONE, 3, 17, 0), '15 3'),
    # Of a message that ends with its identifier, only this and its extension; without the last byte neither.
    (('message_fields', ONE, 3, 18),
     '0 %d 0 %d 15 21 15 23 15 28 15 33 15 38 15 38' % (3 * 2**24 + 18, EXTENSION) + ' 15 39' * 8),
    (('message_fields', ONE, 3, 17), '15 3 15 3 15 21 15 23 15 28 15 33 15 38 15 38' + ' 15 39' * 8),
    (('descriptor_fields', FULL, 51, 3), '0 9 0 %d' % (53 * 2**24 + 1)),
    (('descriptor_fields', FULL, 51, 2), '0 9 15 52'), (('descriptor_fields', FULL, 51, 0), '19 0 19 0'),
    (('stream_fields', FULL, 56, 8), '0 27 0 8174 0 %d' % (61 * 2**24 + 3)),
    (('stream_fields', FULL, 56, 7), '0 27 0 8174 15 59'), (('stream_fields', FULL, 56, 1), '0 27 15 57 15 59'),
    (('stream_fields', FULL, 56, len(FULL) - 55), '19 0 19 0 19 0'),
    # No bytes hold nothing; a part that is cut is refused where its last thing is.
    (('descriptor_count', FULL, 51, 3), '0 1'), (('descriptor_count', FULL, 51, 0), '0 0'),
    (('descriptor_count', FULL, 51, 2), '15 52'), (('descriptor_count', FULL, 51, len(FULL) - 50), '19 0'),
    (('stream_count', FULL, 56, 8), '0 1'), (('stream_count', FULL, 56, 7), '15 59'), (('stream_count', FULL, 56, 0), '0 0'),
    # 3 November 2024 07:45:00 at +480; a live end is 18, after the offset's 19.
    (('message_local_times', ONE, 3, 38, 480), '0 %d 18 0' % int('7E80B030F2D00', 16)),
    (('message_local_times', ONE, 3, 38, 841), '19 0 19 0'),
    # The offset's 19 comes before a message that is not in the body, a start that passes it, and a digit above 9.
    (('message_local_times', ONE, 3, 41, 480), '19 0 19 0'), (('message_local_times', ONE, 3, 41, -721), '19 0 19 0'),
    (('message_local_times', ONE, 3, 20, 480), '15 23 15 28'), (('message_local_times', ONE, 3, 20, 841), '19 0 19 0'),
    (('message_local_times', BAD_TIMES, 3, 38, 480), '18 23 20 28'),
    (('message_local_times', BAD_TIMES, 3, 38, 841), '19 0 19 0'),
    # The last day of the range has no local time east of its end.
    (('message_local_times', LAST_DAY, 3, 38, 60), '20 0 18 0')]


# ---- every refusal that can be met


READ = {*pairs("""
kind: 2
body: 22
message count: 14
EBM_length: 14
identifier reserved: 14 15 17
identifier: 14 15 18 20
network: 14 15
start: 14 15 18 20
end: 14 15 18 20
type: 14 15 19
class: 14 15 19
level: 19
resource count: 14 15
resource reserved: 14 15 17
resource: 14 15 18
channel flag reserved: 14 15 17
channel network: 14 15
channel stream: 14 15
channel program: 14 15
PCR PID reserved: 14 15 17
PCR PID: 14 15
program info length reserved: 14 15 17
program info length: 14 15 17
program descriptor length: 14 15
stream info length: 14 15
stream PID reserved: 14 15 17
stream PID: 14 15
ES info length reserved: 14 15 17
ES info length: 14 15 17
ES descriptor length: 14 15
message left over: 15
signature length: 14
body left over: 16
""")}

WRITE = on_tape(
    'message count, resource count, program descriptor count, stream count, ES descriptor count',
    'network, start, end, class, level, channel flag, channel network, channel stream, channel program, PCR PID,'
    'program descriptor tag, stream type, stream PID, ES descriptor tag',
    'program descriptor data, ES descriptor data, signature', 'identifier, type, resource') | {*pairs("""
identifier: 18 20
start: 18 20
end: 18 20
type: 19
resource: 18
message count: 22
resource count: 22
program descriptor length: 22
program info length: 22
ES descriptor length: 22
ES info length: 22
stream info length: 22
EBM_length: 22
signature length: 22
body: 22
""")}
