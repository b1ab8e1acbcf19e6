"""Every field that `nw show --json` tells of bodies by chance, good and damaged: nw_fields.py HOW SECONDS PROGRAM..

Of a good body the fields are those that the generator laid down, with the standard's names, places, widths and values; of a damaged
one the refusal and its place are a second program's, the marked field begins there, and together the fields are the whole body.
"""
# SPDX-License-Identifier: MIT
import datetime
import hashlib
import json
import os
import random
import subprocess
import sys
import tempfile
import time

import make_configuration
import make_content
import make_fields as make
import make_index
import second_certificate
import second_configuration
import second_content
import second_index
from calls import Refused
from make_fields import END
from second_sections import printed

HOW, SECONDS, PROGRAM = sys.argv[1], float(sys.argv[2]), sys.argv[3:]
INDEX, CONTENT, CERTIFICATE, CONFIGURATION = 0xFD, 0xFE, 0xFC, 0xFB
OFFSET = 480
variant = 24  # of the round
chance = random.Random(86)
wrong = []

# The standard's names, from its tables, of what the generators call something: names and widths in bits, None for all bytes.
IDENTIFIER = [('reserved', 4), ('EBM_id', 140)]
INDEX_NAMES = {
    'message count': [('EBM_number', 8)], 'EBM_length': [('EBM_length', 16)], 'identifier': IDENTIFIER,
    'network': [('EBM_original_network_id', 16)], 'start': [('EBM_start_time', 40)], 'end': [('EBM_end_time', 40)],
    'type': [('EBM_type', 40)], 'class and level': [('EBM_class', 4), ('EBM_level', 4)],
    'resource count': [('EBM_resource_number', 8)], 'resource': [('reserved', 4), ('EBM_resource_code', 92)],
    'channel flag': [('reserved', 7), ('details_channel_indicate', 1)], 'channel network': [('details_channel_network_id', 16)],
    'channel stream': [('details_channel_transport_stream_id', 16)], 'channel program': [('details_channel_program_number', 16)],
    'PCR PID': [('reserved', 3), ('details_channel_PCR_PID', 13)],
    'program info length': [('reserved', 4), ('details_channel_program_info_length', 12)],
    'stream info length': [('stream_info_length', 16)], 'stream type': [('stream_type', 8)],
    'stream PID': [('reserved', 3), ('elementary_PID', 13)], 'ES info length': [('reserved', 4), ('ES_info_length', 12)],
    **{whose + ' descriptor tag': [('descriptor_tag', 8)] for whose in ('program', 'ES')},
    **{whose + ' descriptor length': [('descriptor_length', 8)] for whose in ('program', 'ES')},
    **{whose + ' descriptor data': [('data', None)] for whose in ('program', 'ES')}}
CONTENT_NAMES = {
    'identifier': IDENTIFIER, 'language count': [('reserved', 4), ('multilingual_content_number', 4)],
    'language length': [('multilingual_content_length', 32)], 'letters': [('language_code', 24)],
    'character set': [('reserved', 5), ('code_character_set', 3)], 'text length': [('message_text_length', 16)],
    'text': [('message_text', None)], 'agency length': [('agency_name_length', 8)], 'agency': [('agency_name', None)],
    'auxiliary count': [('reserved', 4), ('auxiliary_data_number', 4)], 'auxiliary type': [('auxiliary_data_type', 8)],
    'auxiliary length': [('auxiliary_data_length', None)], 'auxiliary data': [('auxiliary_data', None)]}
CERTIFICATE_NAMES = {
    'list count': [('CertAuth_number', 8)], 'list length': [('CertAuth_length', 16)], 'list': [('CertAuth_data', None)],
    'certificate count': [('cert_number', 8)], 'certificate length': [('cert_length', 8)], 'certificate': [('cert_data', None)]}
CODE = [('reserved', 4), ('resource_code', 92)]
CONFIGURATION_NAMES = {
    'command count': [('configure_cmd_number', 8)], 'tag': [('configure_cmd_tag', 8)],
    **{'command %d length' % tag: [('configure_cmd_length', 16)] for tag in range(1, 8)},
    'other command length': [('configure_cmd_length', 16)], 'content': [('configure_cmd_char', None)], 'year': [('wYear', 16)],
    'month': [('iMonth', 8)], 'day': [('iDay', 8)], 'hour': [('iHour', 8)], 'minute': [('iMinute', 8)], 'second': [('iSecond', 8)],
    'command 2 address length': [('terminal_address_length', 8)], 'command 2 address': [('terminal_address', None)],
    'command 2 resource': CODE, 'frequency': [('freq', 32)], 'symbol rate': [('symbolrate', 32)],
    'mapping': [('constellation_mapping', 8)], 'address kind': [('reback_type', 8)],
    'command 4 address length': [('reback_address_length', 8)], 'period': [('reback_period', 32)], 'volume': [('volume', 8)],
    'parameter count': [('parameter_number', 8)], 'parameter': [('parameter_tag', 8)],
    **{'address of kind %d' % kind: [('reback_address', None)] for kind in (1, 2, 3)},
    **{'command %d terminal count' % tag: [('terminal_number', 8)] for tag in range(3, 8)},
    'command 3 terminal': [('reserved', 4), ('resource_address', 92)],
    **{'command %d terminal' % tag: CODE for tag in range(4, 8)}}
SIGNATURE = {'signature length': [('signature_length', 16)], 'signature': [('signature_data()', None)]}


def certificate_items(table):
    lists = [[('list length', 2), ('list', data), END] for data in table['lists']]
    certificates = [[('certificate length', 1), ('certificate', data), END] for data in table['certificates']]
    return [('list count', bytes([len(lists)])), *sum(lists, []), ('certificate count', bytes([len(certificates)])),
            *sum(certificates, []), ('signature length', 2), ('signature', table['signature']), END]


def certificate_table():
    def several():
        return [make.data(chance, 80) for _ in range(make.some(chance, 5))]
    return {'lists': several(), 'certificates': several(), 'signature': make.data(chance, 70)}


KINDS = {
    INDEX: (INDEX_NAMES, lambda: make_index.items(make_index.table(chance)), make_index.BAD, second_index.read),
    CONTENT: (CONTENT_NAMES, lambda: make_content.items(make_content.table(chance), variant), make_content.BAD,
              lambda kind, body: second_content.read(kind, variant, body)),
    CERTIFICATE: (CERTIFICATE_NAMES, lambda: certificate_items(certificate_table()),
                  {'list count': [make.count_changed], 'certificate count': [make.count_changed]}, second_certificate.fields),
    CONFIGURATION: (CONFIGURATION_NAMES, lambda: make_configuration.items(make_configuration.table(chance)), make_configuration.BAD,
                    second_configuration.read)}


def laid_down(names, items):
    """The fields of a good body: name, first bit and width of each."""
    body, begins, _ = make.joined(items)
    fields = []
    for (name, what), begin in zip(items, begins):
        if what is None:
            continue
        at, size = 8 * begin, 8 * (len(what) if isinstance(what, bytes) else make.bytes_of(what))
        for field, width in {**names, **SIGNATURE}[name]:
            width = size if width is None else width
            fields.append((field, at, width))
            at += width
        assert at == 8 * begin + size, (name, what)
    return body, fields


def sections(kind, body, extension, version):
    """A body cut into sections at places by chance, some of them empty, in an order by chance."""
    cuts = sorted(chance.randint(0, len(body)) for _ in range(chance.choice((0, 0, 1, 3))))
    parts = [body[begin:end] for begin, end in zip([0, *cuts], [*cuts, len(body)])]
    while any(len(part) > 4084 for part in parts):
        parts = [piece for part in parts for piece in ([part[:4084], part[4084:]] if len(part) > 4084 else [part])]
    made = [printed(kind, extension, version, 1, number, len(parts) - 1, part) for number, part in enumerate(parts)]
    chance.shuffle(made)
    return made


def made_case(kind, good):
    """A body with what is to be told of it: fields or None, refusal, place, and the extension that its sections have."""
    names, items, bad, second = KINDS[kind]
    items, fields = items(), None
    if good:
        body, fields = laid_down(names, items)
    else:
        body = make.damaged(chance, items, bad)
    try:
        second(kind, body)
        refusal, place = 0, 0
    except Refused as fault:
        refusal, place = fault.args[0], fault.place
    extension = second_content.extension(body[:18]) if kind == CONTENT and len(body) >= 18 else chance.randrange(65536)
    if kind == CONTENT and refusal == 0 and chance.random() < 0.1:
        extension ^= 1 << chance.randrange(16)
        refusal = 23
    return body, fields, refusal, place, extension


# ---- what is told


def value(body, at, width):
    return int.from_bytes(body[at // 8:(at + width + 7) // 8], 'big') >> -(at + width) % 8 & 2**width - 1


def expect(what, told, real):
    if told != real:
        wrong.append('%s: %.200r and not %.200r' % (what, told, real))


def utc(field, offset=0):
    day, digits = field >> 24, '%06X' % (field % 2**24)
    clock = datetime.timedelta(days=day - 40587, hours=int(digits[:2]), minutes=int(digits[2:4]), seconds=int(digits[4:]) + 60 * offset)
    return datetime.datetime(1970, 1, 1) + clock


FIRST, LAST = datetime.datetime(1900, 3, 1), datetime.datetime(2038, 4, 22, 23, 59, 59)


def time_told(field):
    """The local time and UTC of a field, as JSON and words have them."""
    if field == make.LIVE:
        return None, None, 'live'
    here, there = utc(field), utc(field, OFFSET)
    inside = FIRST <= there <= LAST
    day_first = '%A %d/%m/%Y %H:%M:%S '
    local = there.strftime(day_first) if inside else 'a day out of the range at '
    return (here.isoformat() + 'Z', there.isoformat() + '+08:00' if inside else None,
            '%sUTC+08:00, %sUTC' % (local, here.strftime(day_first)))


def check_value(body, field):
    """What is told of a field that is taken, beside its name and place."""
    data = bytes.fromhex(field['bytes'])
    at, width, role = 8 * field['at'] + field['bit'], field['bits'], field['role']
    expect(field['path'] + ' bytes', data, body[field['at']:][:len(data)])
    if 'value' in field:
        expect(field['path'] + ' value', field['value'], value(body, at, width))
    if role == 'time':
        expect(field['path'], (field['utc'], field['local'], field['words']), time_told(value(body, at, width)))
    if role == 'opaque':
        digest = '%d byte%s, SHA-256 %s' % (len(data), '' if len(data) == 1 else 's', hashlib.sha256(data).hexdigest())
        expect(field['path'], field['words'], digest if data else 'none')
    if field['name'] in ('EBM_id', 'EBM_resource_code', 'resource_code', 'resource_address'):
        expect(field['path'], field['words'], data.hex()[1:])
    if role == 'text' and field['path'].startswith('multilingual_content'):
        expect(field['path'] + ' bare', field['converted'] or field['bare'] == sum(byte > 127 for byte in data), True)


def check_fields(what, body, told, case):
    """The fields of a body, in a row without gaps, up to a refused one, which is marked at its place."""
    fields, refusal, place = case[1:4]
    at, marked = 0, 0 if refusal == 23 else refusal
    for field in told:
        expect(what + ' begins', 8 * field['at'] + field['bit'], at)
        at += min(field['bits'], 8 * len(field['bytes']) // 2 - field['bit'])
        if field['refusal'] == 0:
            check_value(body, field)
    expect(what + ' ends', at, 8 * len(body))
    refused = [(field['refusal'], field['at']) for field in told if field['refusal'] != 0]
    expect(what + ' marks', refused, [(marked, place)] if marked else [])
    if marked:
        expect(what + ' goes on', [field['role'] for field in told[-2:]].count('unread') + (told[-1]['refusal'] != 0), 1)
    if fields is not None:
        expect(what + ' has', [(field['name'], 8 * field['at'] + field['bit'], field['bits']) for field in told], fields)


def show(capture):
    """What the program tells of a capture, and its status."""
    with tempfile.NamedTemporaryFile() as file:
        file.write(capture)
        file.flush()
        done = subprocess.run([*PROGRAM, 'show', '--json', '--auxiliary', str(variant), '--offset', str(OFFSET), file.name], capture_output=True, check=False,
                              timeout=300, env={**os.environ, 'LC_ALL': 'C.UTF-8'})
    if done.returncode not in (0, 1) or done.stderr:
        sys.exit('status %d, %.2000s' % (done.returncode, done.stderr.decode()))
    return json.loads(done.stdout.decode('ascii')), done.returncode


def round_of(count, good):
    """So many tables in one capture, told and checked. Answers how many fields were."""
    cases, capture = {}, []
    while len(cases) < count:
        kind = chance.choice(list(KINDS))
        case = made_case(kind, good)
        if (kind, case[4]) not in cases:
            cases[kind, case[4]] = case
            capture.append(sections(kind, case[0], case[4], chance.randrange(32)))
    chance.shuffle(capture)
    told, status = show(b''.join(section for table in capture for section in table))
    expect('tables', sorted((t['table_id'], t['extension']) for t in told['tables']), sorted(cases))
    for table in told['tables']:
        case = cases[table['table_id'], table['extension']]
        what = '%s table %04X' % (table['kind'], table['extension'])
        expect(what, (table['whole'], table['accepted'], table['refusal'], table['place']), (True, case[2] == 0, case[2], case[3]))
        check_fields(what, case[0], table['fields'], case)
    expect('status', status, told['sum']['status'])
    return sum(len(table['fields']) for table in told['tables'])


def main():
    began, fields, tables, rounds = time.monotonic(), 0, 0, 0
    global variant
    while rounds < 4 or time.monotonic() - began < SECONDS:
        variant = (24, 32)[rounds % 2]
        fields += round_of(60, rounds % 3 == 0)
        tables += 60
        rounds += 1
        if wrong:
            sys.exit('%s\n%s: %d faults in %d tables' % ('\n'.join(wrong[:20]), HOW, len(wrong), tables))
    print('%s: %d fields of %d tables are told as they are, refusals at their places' % (HOW, fields, tables))


main()
