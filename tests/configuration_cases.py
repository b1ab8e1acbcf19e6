"""Configuration bodies and calls made by hand, with what 01's words say of them; every refusal that can be met."""
# SPDX-License-Identifier: MIT
from table_checks import on_tape, pairs

KIND = 0xFB


def body(tag, content, more='0000'):
    """A body of one command: its tag at 1, its length at 2, its content from 4 on."""
    return '01%02x%04x' % (tag, len(content) // 2) + content + more


def name(address, more='00'):
    """The content of a return address of kind 3, which begins at 6."""
    return '03%02x' % len(address) + address.hex() + more


RESOURCE = 'f0' + '12' * 11
LEAST = {1: 7, 2: 13, 3: 10, 4: 3, 5: 5, 6: 2, 7: 2}
# The standard's year 2014, and its period of a day in seconds.
YEAR, DAY = '07de', '%08x' % 86400

# A body, and the number and place of its refusal.
BODIES = [
    ('000000', None), ('0000', (14, 1)), ('00000000', (16, 3)), ('', (14, 0)), ('01', (14, 1)), ('0101', (14, 2)),
    (body(6, '6400'), None), (body(6, '6500'), (19, 4)), (body(6, '0000'), None), (body(6, 'ff00'), (19, 4)),
    # A content one shorter than its least length, which comes after 14; a content that is too long.
    *((body(tag, 'ff' * (least - 1)), (15, 2)) for tag, least in LEAST.items()),
    *((body(tag, 'ff' * (least - 1), ''), (15, 2)) for tag, least in LEAST.items()),
    *((body(tag, ''), (15, 2)) for tag in LEAST), ('01010007', (14, 2)), ('0101000607de01020304', (15, 2)),
    ('0101000707de01020304', (14, 2)), (body(6, '640000'), (15, 6)), (body(6, '650000'), (19, 4)),
    (body(0, ''), None), (body(8, 'abcd'), None), (body(255, '00'), None), (body(8, '')[:-2], (14, 4)),
    # Days and times: those of the calendar from 1 March 1900 to 22 April 2038.
    (body(1, YEAR + '0101000000'), None), (body(1, '07e80b03072d00'), None), (body(1, '07e80b03173b3b'), None),
    (body(1, '07e80b03173b3c'), (20, 8)), (body(1, '07e80b03173c3b'), (20, 8)), (body(1, '07e80b03180000'), (20, 8)),
    (body(1, '07e80b1f180000'), (20, 4)), (body(1, '07e80200000000'), (20, 4)), (body(1, '07e80d01000000'), (20, 4)),
    (body(1, '07e80001000000'), (20, 4)), (body(1, '076c0301000000'), None), (body(1, '076c021c000000'), (20, 4)),
    (body(1, '07f60416000000'), None), (body(1, '07f60417000000'), (20, 4)), (body(1, '07d0021d000000'), None),
    (body(1, '07d1021d000000'), (20, 4)), (body(1, '07e80b0300000000'), (15, 11)),
    # Resources after an address of any length.
    (body(2, '00' + RESOURCE), None), (body(2, '01aa' + RESOURCE), None), (body(2, '01' + RESOURCE), (17, 6)),
    (body(2, '01aa' + RESOURCE[:-2]), (15, 6)), (body(2, '01aa' + RESOURCE[:-2], ''), (14, 6)),
    (body(2, '0d' + RESOURCE), (15, 4)), (body(2, '0f' + RESOURCE), (14, 4)), (body(2, '0c' + RESOURCE), (15, 17)),
    (body(2, '00' 'fa' + '12' * 11), (18, 5)), (body(2, 'ff' + 'aa' * 255 + RESOURCE), None),
    # Return addresses of kinds 1 and 2.
    (body(4, '010b' + '31' * 11 + '00'), None), (body(4, '010a' + '31' * 10 + '00'), (15, 5)),
    (body(4, '010b' + '31' * 10 + '3a' '00'), (19, 6)), (body(4, '010b' + '2f' + '31' * 10 + '00'), (19, 6)),
    (body(4, '0206' '0a0000011f90' '00'), None), (body(4, '0207' '0a0000011f9000' '00'), (15, 5)),
    (body(4, '0205' '0a0000011f' '00'), (15, 5)), (body(4, '010000'), (15, 5)), (body(4, '04ff00'), (19, 4)),
    (body(4, '000b' + '31' * 11 + '00'), (19, 4)), (body(4, '0303' '613a30'), (15, 9)),
    (body(4, '0303' '613a30', ''), (14, 9)), (body(4, '0304' '613a30'), (15, 5)), (body(4, '0306' '613a30'), (14, 5)),
    # The standard's example without its space and with it; ports up to 65535, of up to five digits.
    (body(4, name(b'www.chinaeb-lab.org:8080')), None), (body(4, name(b'www.chinaeb-lab.org: 8080')), (19, 6)),
    (body(4, name(b'a:65535')), None), (body(4, name(b'a:65536')), (19, 6)), (body(4, name(b'a:0')), None),
    (body(4, name(b'a:00080')), None), (body(4, name(b'a:000080')), (19, 6)), (body(4, name(b'a:')), (19, 6)),
    (body(4, name(b':80')), (19, 6)), (body(4, name(b'a:8:8')), (19, 6)), (body(4, name(b'')), (19, 6)),
    (body(4, name(b'a80')), (19, 6)), (body(4, name(b'!~:80')), None), (body(4, name(b'a\x7F:80')), (19, 6)),
    # The other commands.
    (body(3, '00000000' 'ffffffff' '05' '00'), None), (body(3, '00000000' 'ffffffff' '06' '00'), (19, 12)),
    (body(5, DAY + '01' + RESOURCE), None), (body(5, DAY + '02' + RESOURCE), (15, 21)),
    (body(5, DAY + '02' + RESOURCE, ''), (14, 21)), (body(5, DAY + '01' + 'e0' + RESOURCE[2:]), (17, 9)),
    (body(7, '00' '00'), None), (body(7, '02' '0102' '00'), None), (body(7, '01' '00'), (15, 6)),
    (body(7, '02' '00'), (15, 6)), (body(7, '02' '00', ''), (14, 6)), (body(7, 'ff' '00'), (15, 6))]

EMPTY = bytes(3)
CLOCK = bytes.fromhex(body(1, YEAR + '0102030405'))
# The second command's tag is at 11, its content from 14 on: a terminal at 19, and a signature at 33.
TWO = bytes.fromhex('02' + body(1, YEAR + '0102030405', '')[2:] + body(5, DAY + '01' + RESOURCE)[2:])
# The parameters are at 5 and 6, the terminal at 8.
QUERY = bytes.fromhex(body(7, '02' '0908' '01' + RESOURCE))
# The address is at 5, the resource at 7.
CODE = bytes.fromhex(body(2, '02' '6162' + RESOURCE))
BY_NAME = bytes.fromhex(body(4, name(b'www.chinaeb-lab.org:8080')))
LONG = bytes(1045505)


def part(begin, length):
    return '0 %d' % (begin * 2**24 + length)


def fields(tag, content, **told):
    """The answers about a command: its tag and content, and those of its fields that are there; 19 for the others."""
    names = ('year month day hour minute second code_address code_resource frequency symbol_rate mapping return_kind'
             ' return_address period volume parameters terminals').split()
    return ' '.join(('0 %d' % tag, content, *(told.get(name, '19 0') for name in names)))


CLOCK_FIELDS = fields(1, part(4, 7), year='0 2014', month='0 1', day='0 2', hour='0 3', minute='0 4', second='0 5')
DIGITS = '0' + '12' * 11

# A call, and the whole answer.
CALLS = [
    # Kind, then size, then fields; the tape last.
    (('configuration_read', 0xFC, LONG), '2 0'), (('configuration_read', KIND, LONG), '22 0'),
    (('configuration_read', 0xFC, b''), '2 0'), (('configuration_read', KIND, EMPTY), '0 0 0 0 ' + part(3, 0)),
    (('configuration_read', KIND, TWO),
     ' '.join(('0 0', '0 2', part(33, 0), part(1, 10), CLOCK_FIELDS, part(11, 20),
               fields(5, part(14, 17), period='0 86400', terminals='0 1'), part(19, 12), DIGITS))),
    (('configuration_read', KIND, QUERY),
     ' '.join(('0 0', '0 1', part(22, 0), part(1, 19), fields(7, part(4, 16), parameters='0 2', terminals='0 1'),
               '0 9', '0 8', part(8, 12), DIGITS))),
    (('configuration_read', KIND, CODE),
     ' '.join(('0 0', '0 1', part(21, 0), part(1, 18),
               fields(2, part(4, 15), code_address=part(5, 2), code_resource=part(7, 12)), DIGITS))),
    (('configuration_lay', KIND, TWO, [9] * 14), '21 0 ' + ','.join('9' * 14)),
    (('configuration_lay', KIND, TWO, [9] * 16), '0 15 2,1,2014,1,2,3,4,5,5,86400,1,19,12,33,0,9'),
    (('configuration_lay', KIND, CODE, [9] * 8), '0 8 1,2,5,2,7,12,21,0'),
    (('configuration_lay', KIND, CODE + b'\0', []), '16 21 -'),
    # Writers: a wrong length of kinds 1 and 2 is 15 however long, a name is judged first and then 22.
    (('configuration_write', b'', [1, 6, 100, 0, 0, 0], b'\xE5' * 9), '0 8 0106000264000000e5'),
    (('configuration_write', b'', [1, 6, 100, 0, 0, 0], b'\xE5' * 7), '21 0 ' + 'e5' * 7),
    (('configuration_write', b'', [1, 6, 101, 0, 0, 0], b'\xE5' * 9), '19 0 ' + 'e5' * 9),
    (('configuration_write', b'', [1, 1, 2014, 2, 29, 0, 0, 0, 0, 0], b''), '20 0 -'),
    (('configuration_write', b'', [1, 1, 2014, 2, 28, 24, 0, 0, 0, 0], b''), '20 0 -'),
    (('configuration_write', b'', [1, 1, 2014, 2, 28, 0, 0, 0, 0, 0], b'\xE5' * 13),
     '0 13 01010007' + YEAR + '021c0000000000'),
    # A clock's number that is too large for its field is 20, where the tape goes on past its day or its time: before a
    # later field's refusal, after an earlier one's.
    *((('configuration_write', b'', [1, 1, *clock, 0, 0], b''), '20 0 -') for clock in (
        (2024, 257, 1, 0, 0, 0), (65536, 1, 1, 0, 0, 0), (65536 + 2024, 1, 1, 0, 0, 0), (2024, 1, 257, 0, 0, 0),
        (2024, 1, 1, 256, 0, 0), (2024, 1, 1, 0, 256, 0), (2024, 1, 1, 0, 0, 256), (2**64 - 1,) * 6)),
    (('configuration_write', b'', [1, 1, 2024, 257], b''), '19 0 -'),
    (('configuration_write', b'', [1, 1, 2024, 257, 1], b''), '20 0 -'),
    (('configuration_write', b'', [1, 1, 2024, 1, 1, 256, 0], b''), '19 0 -'),
    (('configuration_write', b'', [2, 1, 2024, 257, 1, 0, 0, 0, 6, 101, 0, 0, 0], b''), '20 0 -'),
    (('configuration_write', b'', [2, 6, 101, 0, 1, 2024, 257, 1, 0, 0, 0, 0, 0], b''), '19 0 -'),
    (('configuration_write', b'1' * 300, [1, 4, 1, 0, 300, 0, 0, 0], b''), '15 0 -'),
    (('configuration_write', b'a' * 300 + b':1', [1, 4, 3, 0, 302, 0, 0, 0], b''), '22 0 -'),
    (('configuration_write', b'a' * 300, [1, 4, 3, 0, 300, 0, 0, 0], b''), '19 0 -'),
    (('configuration_write', b'a: 1', [1, 4, 3, 0, 4, 0, 0, 0], b''), '19 0 -'),
    (('configuration_write', bytes(65536), [0, 0, 65536], b''), '22 0 -'),
    # Fields asked for: those of another tag, and those past a count, are 19 with place 0.
    (('configuration_fields', b''), '14 0 14 0'), (('configuration_fields', b'\1'), '0 1 14 1'),
    (('configuration_fields', b'\1\1'), '0 1 14 2'),
    (('configuration_fields', bytes([1, 1, 0, 0, 0, 0])), '0 1 ' + part(6, 0)),
    # Commands by their numbers, from the tag to the end of the content, whatever its least length.
    (('configuration_command', TWO, 0), part(1, 10)), (('configuration_command', TWO, 1), part(11, 20)),
    (('configuration_command', TWO, 2), '19 0'), (('configuration_command', TWO, 2**64 - 1), '19 0'),
    (('configuration_command', EMPTY, 0), '19 0'), (('configuration_command', b'', 0), '14 0'),
    (('configuration_command', b'\1', 0), '14 1'), (('configuration_command', b'\1\1', 0), '14 2'),
    (('configuration_command', b'\1\1', 1), '19 0'), (('configuration_command', TWO[:30], 1), '14 12'),
    (('configuration_command', TWO[:30], 0), part(1, 10)), (('configuration_command', TWO[:10], 1), '14 2'),
    (('configuration_command', bytes([1, 1, 0, 0]), 0), part(1, 3)),
    (('command_fields', CLOCK, 1), CLOCK_FIELDS), (('command_fields', TWO, 1), CLOCK_FIELDS),
    (('command_fields', TWO, 11), fields(5, part(14, 17), period='0 86400', terminals='0 1')),
    (('command_fields', EMPTY, 4), ' '.join(['19 0'] * 19)),
    (('command_fields', EMPTY, 2**64 - 1), ' '.join(['19 0'] * 19)),
    (('command_fields', BY_NAME, 1),
     fields(4, part(4, 27), return_kind='0 3', return_address=part(6, 24), terminals='0 0')),
    # A wrong day leaves the time; too short a content leaves nothing but the tag.
    (('command_fields', bytes.fromhex(body(1, YEAR + '021d030405')), 1),
     fields(1, part(4, 7), year='20 4', month='20 4', day='20 4', hour='0 3', minute='0 4', second='0 5')),
    (('command_fields', bytes.fromhex(body(1, YEAR + '021c180405')), 1),
     fields(1, part(4, 7), year='0 2014', month='0 2', day='0 28', hour='20 8', minute='20 8', second='20 8')),
    (('command_fields', bytes.fromhex(body(6, '65')), 1), fields(6, '15 2', volume='15 2', terminals='15 2')),
    (('command_fields', bytes.fromhex(body(6, '6500')), 1), fields(6, part(4, 2), volume='19 4', terminals='0 0')),
    (('command_fields', bytes.fromhex(body(4, name(b'a:65536'))), 1),
     fields(4, part(4, 10), return_kind='0 3', return_address='19 6', terminals='19 6')),
    (('command_code_digit', CODE, 1, 22), '0 2'), (('command_code_digit', CODE, 1, 23), '19 0'),
    (('command_code_digit', CLOCK, 1, 0), '19 0'), (('command_parameter', QUERY, 1, 1), '0 8'),
    (('command_parameter', QUERY, 1, 2), '19 0'), (('command_parameter', CODE, 1, 0), '19 0'),
    (('command_parameter', bytes.fromhex(body(7, '0200')), 1, 1), '15 6'),
    (('command_terminal', QUERY, 1, 0), part(8, 12)), (('command_terminal', QUERY, 1, 1), '19 0'),
    (('command_terminal', CODE, 1, 0), '19 0'), (('command_terminal', TWO, 11, 0), part(19, 12)),
    (('command_terminal_digit', TWO, 11, 0, 0), '0 0'), (('command_terminal_digit', TWO, 11, 0, 22), '0 2'),
    (('command_terminal_digit', TWO, 11, 0, 23), '19 0'), (('command_terminal_digit', TWO, 11, 1, 0), '19 0')]


# ---- every refusal that can be met


READ = {*pairs("""
kind: 2
body: 22
command count: 14
tag: 14
length of command of other tag: 14
year: 20
hour: 20
command 2 address length: 14 15
command 2 resource reserved: 14 15 17
command 2 resource: 14 15 18
mapping: 19
address kind: 19
command 4 address length: 14 15
command 4 address length, kind 1: 15
command 4 address length, kind 2: 15
command 4 address, kind 1: 19
command 4 address, kind 3: 19
command 4 terminal count: 14 15
volume: 19
parameter: 14 15
command 7 terminal count: 14 15
signature length: 14
body left over: 16
""")}
for tag in range(1, 8):
    READ |= {*pairs('length of command %d: 14 15\ncommand %d left over: 15' % (tag, tag))}
for tag in range(3, 8):
    READ |= {*pairs('command %d terminal reserved: 14 15 17\ncommand %d terminal: 14 15 18' % (tag, tag))}

TERMINALS = ['command %d terminal' % tag for tag in range(3, 8)]
WRITE = on_tape(
    # A clock's numbers are taken as they are, as counts are.
    'command count, parameter count, year, month, day, hour, minute, second,'
    + ','.join(name + ' count' for name in TERMINALS),
    'tag, frequency, symbol rate, mapping, address kind, period, volume,'
    'parameter', 'command 2 address, command 4 address, content, signature',
    'command 2 resource,' + ','.join(TERMINALS)) | {*pairs("""
year: 20
hour: 20
command 2 resource: 18
command 4 address, kind 1: 15 19
command 4 address, kind 2: 15
command 4 address, kind 3: 19
command count: 22
parameter count: 22
command 2 address length: 22
command 4 address length: 22
length of command of other tag: 22
signature length: 22
body: 22
""")} | {(number, name + end) for name in TERMINALS for number, end in ((18, ''), (22, ' count'))}
