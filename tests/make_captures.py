"""Captures of invented head ends with different habits, good and bad, and what `nw show` has to say of them; no code is shared with the library.

Alder fills its sections, sends each table several times in order, and numbers its index tables with extension 0; in its transport stream each
section begins a packet of its own, which is filled up with 0xFF. Birch cuts wherever it likes, turns the order round, mixes tables, announces
versions before they are current; in its transport stream sections follow each other within a packet, with pointers to where the first begins,
adaptation fields fill packets up or stand alone, and packets are sent twice. Of each there is a good stream; in a bad one Alder makes mistakes
itself, and Birch's line loses and spoils packets. Cedar's capture is a transport stream, from which packets are missing.
What has to be said is worked out here from the same values that the bytes are made of.
"""
# SPDX-License-Identifier: MIT
import datetime
import hashlib
import os
import random
import sys

from second_packets import packed

INDEX, CONTENT, CERTIFICATE, CONFIGURATION = 0xFD, 0xFE, 0xFC, 0xFB
KINDS = {INDEX: 'index', CONTENT: 'content', CERTIFICATE: 'certificate', CONFIGURATION: 'configuration'}
CLASSES = {1: 'drill of the issuing system', 2: 'simulated drill', 3: 'actual drill', 4: 'emergency broadcast'}
LEVELS = {1: 'very grave', 2: 'grave', 3: 'serious', 4: 'ordinary'}
SETS = {0: 'GB/T 2312-1980', 1: 'GB/T 18030-2005', 2: 'GB/T 13000-2010, read as UTF-8', 3: 'GB/T 21669-2008', 4: 'GB 16959-1997'}
CODECS = {0: 'gb2312', 1: 'gb18030', 2: 'utf-8'}
LABELS = 20


# ---- bits and checks


def crc(data, width, polynomial, first_bit=0):
    register = 2**width - 1
    for place in range(first_bit, 8 * len(data)):
        bit = data[place // 8] >> 7 - place % 8 & 1 ^ register >> width - 1
        register = (register << 1 ^ (polynomial if bit else 0)) & 2**width - 1
    return register


def number(value, size):
    return value.to_bytes(size, 'big')


def counted(data, size):
    return number(len(data), size) + data


def digits(text):
    return bytes.fromhex('F' + text)


def section(kind, extension, version, part, last, payload, current=1):
    head = number(kind, 1) + number(0xF000 | len(payload) + 9, 2) + number(extension, 2)
    data = head + number(0xC0 | version << 1 | current, 1) + number(part, 1) + number(last, 1) + payload
    return data + number(crc(data, 32, 0x04C11DB7), 4)


def cut(kind, extension, version, body, size=4084, current=1):
    """The sections of a body, all but the last of so many bytes."""
    parts = [body[at:at + size] for at in range(0, len(body), size)] or [b'']
    return [section(kind, extension, version, i, len(parts) - 1, part, current) for i, part in enumerate(parts)]


# ---- tables: their bytes, and what has to be said of them


def line(depth, label, value):
    return '  ' * (depth + 1) + label.ljust(LABELS - 2 * depth) + ' ' + value


def moment(when):
    """A time of UTC as its field; None is live."""
    return b'\xFF' * 5 if when is None else number((when.date() - datetime.date(1858, 11, 17)).days, 2) + bytes.fromhex(when.strftime('%H%M%S'))


def in_words(when, offset):
    if when is None:
        return 'live'
    here = when.strftime('%A %d/%m/%Y %H:%M:%S UTC')
    if offset is None:
        return here
    sign = '-' if offset < 0 else '+'
    local = (when + datetime.timedelta(minutes=offset)).strftime('%A %d/%m/%Y %H:%M:%S UTC')
    return '%s%s%02d:%02d, %s' % (local, sign, abs(offset) // 60, abs(offset) % 60, here)


def opaque(data):
    return '%d byte%s, SHA-256 %s' % (len(data), '' if len(data) == 1 else 's', hashlib.sha256(data).hexdigest()) if data else 'none'


class Message:
    def __init__(self, identifier, start, end, level, resources, channel=None, network=1, kind='11A01', class_=3):
        self.identifier, self.start, self.end, self.level, self.resources = identifier, start, end, level, resources
        self.channel, self.network, self.kind, self.class_ = channel, network, kind, class_

    def extension(self):
        return crc(digits(self.identifier), 16, 0x1021, 4)

    def body(self):
        data = digits(self.identifier) + number(self.network, 2) + moment(self.start) + moment(self.end) + self.kind.encode()
        data += number(self.class_ << 4 | self.level, 1) + number(len(self.resources), 1) + b''.join(map(digits, self.resources))
        return counted(data + (b'\xFE' if self.channel is None else b'\xFF' + self.channel.body()), 2)

    def said(self, at, count, offset):
        return ['  message %d of %d' % (at, count), line(1, 'identifier', self.identifier), line(1, 'network', str(self.network)),
                line(1, 'start', in_words(self.start, offset)), line(1, 'end', in_words(self.end, offset)), line(1, 'type', self.kind),
                line(1, 'class', '%d, %s' % (self.class_, CLASSES[self.class_])),
                line(1, 'level', '%d, %s' % (self.level, LEVELS[self.level])),
                *(line(1, 'resource %d' % i, code) for i, code in enumerate(self.resources, 1)),
                line(1, 'channel', 'none' if self.channel is None else 'given'),
                *([] if self.channel is None else self.channel.said())]


def described(descriptors):
    return b''.join(number(tag, 1) + counted(data, 1) for tag, data in descriptors)


def descriptors_said(depth, descriptors):
    return [line(depth, 'descriptor %d' % i, 'tag 0x%02X, %d byte%s %s' % (tag, len(data), '' if len(data) == 1 else 's', data.hex(' ').upper()))
            for i, (tag, data) in enumerate(descriptors, 1)]


class Channel:
    def __init__(self, network, stream, program, pid, descriptors, streams):
        self.numbers, self.pid, self.descriptors, self.streams = (network, stream, program), pid, descriptors, streams

    def body(self):
        streams = b''.join(number(kind, 1) + number(0xE000 | pid, 2) + number(0xF000 | len(described(inner)), 2) + described(inner)
                           for kind, pid, inner in self.streams)
        return (b''.join(number(n, 2) for n in self.numbers) + number(0xE000 | self.pid, 2)
                + number(0xF000 | len(described(self.descriptors)), 2) + described(self.descriptors) + counted(streams, 2))

    def said(self):
        said = [line(2, label, str(n)) for label, n in zip(('network', 'transport stream', 'program'), self.numbers)]
        said += [line(2, 'PCR PID', '0x%04X' % self.pid), *descriptors_said(2, self.descriptors)]
        for i, (kind, pid, inner) in enumerate(self.streams, 1):
            said += ['      stream %d' % i, line(3, 'type', '0x%02X' % kind), line(3, 'PID', '0x%04X' % pid), *descriptors_said(3, inner)]
        return said


class Table:
    """What every kind has: a heading, its sections, a signature and a verdict."""

    def __init__(self, kind, extension, version, signature):
        self.kind, self.extension, self.version, self.signature = kind, extension, version, signature

    def name(self):
        return '%s table %04X, version %d' % (KINDS[self.kind], self.extension, self.version)

    def title(self):
        return '%s (table_id 0x%02X, extension 0x%04X)' % (self.name(), self.kind, self.extension)

    def sections(self, size=4084, current=1):
        return cut(self.kind, self.extension, self.version, self.body(), size, current)

    def whole(self, count, repeats=0, refused=0, before=''):
        """The lines before the body of a table of so many sections, that came whole."""
        return [self.title(), line(0, 'sections', '%d of %d, %d bytes; %d repeats, %d refused' % (count, count, len(self.body()), repeats, refused)),
                line(0, 'versions seen', before + str(self.version))]


class Index(Table):
    def __init__(self, messages, version, extension=0, signature=b''):
        super().__init__(INDEX, extension, version, signature)
        self.messages = messages

    def body(self):
        return number(len(self.messages), 1) + b''.join(m.body() for m in self.messages) + counted(self.signature, 2)

    def said(self, offset):
        count = len(self.messages)
        return [fact for i, m in enumerate(self.messages, 1) for fact in m.said(i, count, offset)] + [
            line(0, 'signature', opaque(self.signature))]

    def contents(self, *versions):
        return [line(0, 'content', 'of message %d: %s' % (i, 'content table %04X, version %d' % (m.extension(), version)
                                                          if version is not None
                                                          else 'none has come whole; it would be content table %04X' % m.extension()))
                for i, (m, version) in enumerate(zip(self.messages, versions), 1)]


class Content(Table):
    """Languages are letters, character set, text, agency and files."""

    def __init__(self, message, languages, version, signature=b''):
        super().__init__(CONTENT, message.extension(), version, signature)
        self.identifier, self.languages = message.identifier, languages

    def body(self):
        made = []
        for letters, its_set, text, agency, files in self.languages:
            data = letters.encode() + number(0xF8 | its_set, 1) + counted(text.encode(CODECS[its_set]), 2)
            data += counted(agency.encode(CODECS[its_set]), 1) + number(0xF0 | len(files), 1)
            made.append(counted(data + b''.join(number(kind, 1) + counted(file, 3) for kind, file in files), 4))
        return digits(self.identifier) + number(0xF0 | len(made), 1) + b''.join(made) + counted(self.signature, 2)

    def said(self, offset):
        count, said = len(self.languages), [line(0, 'identifier', self.identifier)]
        for i, (letters, its_set, text, agency, files) in enumerate(self.languages, 1):
            said += ['  language %d of %d' % (i, count), line(1, 'language', letters), line(1, 'character set', SETS[its_set]),
                     *text_said('text', its_set, text), *text_said('agency', its_set, agency)]
            said += [line(1, 'file %d' % j, 'type %d, %s' % (kind, opaque(file))) for j, (kind, file) in enumerate(files, 1)]
            said += [] if files else [line(1, 'auxiliary files', 'none')]
        return [*said, line(0, 'signature', opaque(self.signature))]


def text_said(label, its_set, text):
    size = len(text.encode(CODECS[its_set]))
    return [line(1, label, '%d bytes' % size if size else 'none'), *('      | ' + part for part in text.splitlines())]


class Certificates(Table):
    def __init__(self, lists, certificates, version, signature=b''):
        super().__init__(CERTIFICATE, 0, version, signature)
        self.lists, self.certificates = lists, certificates

    def body(self):
        return (number(len(self.lists), 1) + b''.join(counted(data, 2) for data in self.lists) + number(len(self.certificates), 1)
                + b''.join(counted(data, 1) for data in self.certificates) + counted(self.signature, 2))

    def said(self, offset):
        return [*(line(0, 'authorization list %d' % i, opaque(data)) for i, data in enumerate(self.lists, 1)),
                *(line(0, 'certificate %d' % i, opaque(data)) for i, data in enumerate(self.certificates, 1)),
                line(0, 'signature', opaque(self.signature))]


class Configuration(Table):
    """Commands are a tag, the content's bytes, and what has to be said of them: labels and values."""

    def __init__(self, commands, version, extension=0, signature=b''):
        super().__init__(CONFIGURATION, extension, version, signature)
        self.commands = commands

    def body(self):
        return (number(len(self.commands), 1) + b''.join(number(tag, 1) + counted(data, 2) for tag, data, _ in self.commands)
                + counted(self.signature, 2))

    def said(self, offset):
        said = []
        for i, (_, _, facts) in enumerate(self.commands, 1):
            said += ['  command %d of %d' % (i, len(self.commands)), *(line(1, label, value) for label, value in facts)]
        return [*said, line(0, 'signature', opaque(self.signature))]


def terminals(codes):
    return number(len(codes), 1) + b''.join(map(digits, codes))


def terminals_said(codes):
    return [('terminal %d' % i, code) for i, code in enumerate(codes, 1)] or [('terminals', 'none')]


def all_commands(codes):
    """One of each command of the standard, return addresses of all three kinds, and one that the standard hasn't."""
    when = datetime.datetime(2024, 11, 3, 7, 45, 9)
    yield (1, number(when.year, 2) + bytes([when.month, when.day, when.hour, when.minute, when.second]),
           [('command', '1, set the clock'), ('year', '2024'), ('month', '11'), ('day', '3, ' + when.strftime('%A')), ('hour', '7'),
            ('minute', '45'), ('second', '9')])
    yield (2, counted(b'\x00\x1B\x44\x11\x3A\xB7', 1) + digits(codes[0]),
           [('command', '2, set the resource code'), ('address', '6 bytes 00 1B 44 11 3A B7'), ('resource', codes[0])])
    yield (3, number(355000, 4) + number(6875, 4) + b'\x03' + terminals(codes),
           [('command', '3, set the locked frequency'), ('frequency, kHz', '355000'), ('symbol rate, kBd', '6875'),
            ('constellation', '3, QAM64'), *terminals_said(codes)])
    for kind, way, address, shown in ((1, 'short message', b'13800138000', '13800138000'),
                                      (2, 'IP address and port', bytes([192, 0, 2, 7, 0x1F, 0x90]), '192.0.2.7, port 8080'),
                                      (3, 'domain name and port', b'back.example.org:8080', 'back.example.org:8080')):
        yield (4, number(kind, 1) + counted(address, 1) + terminals(codes[:1]),
               [('command', '4, set the return address'), ('return by', '%d, %s' % (kind, way)), ('return address', shown),
                *terminals_said(codes[:1])])
    yield (5, number(86400, 4) + terminals([]), [('command', '5, set the return period'), ('period, seconds', '86400'), ('terminals', 'none')])
    yield (6, b'\x32' + terminals(codes), [('command', '6, set the default volume'), ('volume, percent', '50'), *terminals_said(codes)])
    yield (7, b'\x02\x01\x05' + terminals(codes[:1]),
           [('command', '7, query status or parameters'), ('parameter 1', '1'), ('parameter 2', '5'), *terminals_said(codes[:1])])
    content = b'\x1B]0;not a title\x07'
    yield 0x99, content, [('command', "153, not one of the standard's seven"), ('content', opaque(content))]


# ---- the head ends

RESOURCE, NEIGHBOUR = '36543200000000303010103', '36543200000000303010104'
DRILL = Message(RESOURCE + '20241103' + '0001', datetime.datetime(2024, 11, 2, 23, 45), datetime.datetime(2024, 11, 3, 0, 15), 4,
                [RESOURCE, NEIGHBOUR])
FLOOD = Message(NEIGHBOUR + '20240229' + '0042', datetime.datetime(2024, 2, 29, 23, 59, 59), None, 1, [],
                Channel(10, 20, 30, 0x1FFF, [(0x44, bytes(range(11)))], [(0x1B, 0x101, []), (3, 0x102, [(10, b'zho\0'), (0x52, b'\1')])]),
                65535, 'F\0\x1B[m', 4)
FLOOD_TYPE = 'F\\x00\\x1B[m'
LONG_TEXT = '\n'.join('Street %d: by the north stairs to the school yard, warden %d.' % (n, n % 7) for n in range(150))


def verdict():
    return line(0, 'verdict', 'accepted')


def belongs(message, index):
    return line(0, 'belongs to', 'message %d of index table %04X, version %d' % (message, index.extension, index.version))


def summed(data, taken, held, refused, skipped):
    return 'all in all: %d bytes; sections: %d taken, %d held already, %d refused; %d bytes skipped' % (len(data), taken, held, refused, skipped)


ALL_WELL = 'everything is whole and accepted'
NOT_WELL = 'not everything is whole and accepted: it is said above'


def alder():
    """All is well: every table three times over."""
    index = Index([DRILL], 5, signature=bytes(range(64)))
    content = Content(DRILL, [('eng', 0, LONG_TEXT, 'County office', []), ('zho', 0, '这是演练。\n请步行到集合点。', '县应急办', [])], 5)
    certificates = Certificates([b'list'], [b'one', b'', b'three'], 0, b'signed')
    settings = Configuration(list(all_commands([RESOURCE, NEIGHBOUR])), 31, 0xBEEF)
    tables = [index, content, certificates, settings]
    sent = [section for table in tables for section in table.sections()]
    data = b''.join(sent * 3)
    said = []
    for table in tables:
        count = len(table.sections())
        said += [*table.whole(count, 2 * count), *table.said(480)]
        said += {INDEX: index.contents(5), CONTENT: [belongs(1, index)]}.get(table.kind, []) + [verdict()]
    return data, ['--offset', '+08:00'], 0, [*said, summed(data, len(sent), 2 * len(sent), 0, 0),
                                             'tables: 4, of which 4 whole and 4 accepted', ALL_WELL]


def birch():
    """A correction takes over, its line spoils and loses bytes, and a table stays unfinished."""
    chance = random.Random(86)
    old, index = Index([DRILL], 30, 7), Index([DRILL, FLOOD], 0, 7)
    content = Content(DRILL, [('eng', 2, 'Go on foot.\n' * 300, '', [(9, b'picture')])], 2)
    lost = Content(FLOOD, [('zho', 1, '大水。\n' * 400, '水利局', [])], 3)
    pieces = content.sections(1000)[::-1]
    spoiled = bytearray(pieces[0])
    spoiled[100] ^= 0x10
    unfinished = lost.sections(700)
    runs = [(b'\x47\x11noise\xFD\xB0', 'skipped'), *((s, None) for s in old.sections(50)), (bytes(spoiled), 'spoiled'),
            *((s, None) for s in index.sections(60)[::-1]), *((s, None) for s in pieces), (old.sections(50)[0], 'older'),
            (index.sections(60)[0], None), (lost.sections(700, 0)[0], 'not current'), *((s, None) for s in unfinished[1:3]),
            (chance.randbytes(40).replace(b'\xFB', b'\0').replace(b'\xFC', b'\0').replace(b'\xFD', b'\0').replace(b'\xFE', b'\0'), 'skipped'),
            (pieces[1][:500], 'cut')]
    data, said = b''.join(run for run, _ in runs), []
    at = 0
    for run, what in runs:
        end = at + len(run) - 1
        if what == 'skipped':
            said.append('bytes %d to %d are skipped: the table is of another kind (refusal 2)' % (at, end))
        if what == 'cut':
            said[-1] = said[-1].replace('to %d' % (at - 1), 'to %d' % end)  # a run of skipped bytes goes on until a good section
        if what == 'spoiled':
            said.append("bytes %d to %d are skipped: the section's CRC_32 is wrong (refusal 7); by its heading it was number %d, the last "
                        'being %d, of content table %04X, version 2' % (at, end, len(pieces) - 1, len(pieces) - 1, content.extension))
        if what == 'older':
            said.append('section at byte %d, number 0 of index table 0007, version 30 is refused: version 0 with %d sections is held, and '
                        'this is not ahead of it (refusal 9)' % (at, len(index.sections(60))))
        if what == 'not current':
            said.append('section at byte %d, number 0 of content table %04X, version 3 is refused: the section is not current (refusal 8)'
                        % (at, lost.extension))
        if run == index.sections(60)[-1]:
            said.append('section at byte %d, number %d of index table 0007, version 0: it takes over from version 30'
                        % (at, len(index.sections(60)) - 1))
        at = end + 1
    first = len(index.sections(60))
    said += [*index.whole(first, 1, 1, '30 (whole), then '), *[fact.replace(FLOOD.kind, FLOOD_TYPE) for fact in index.said(None)],
             *index.contents(2, None), verdict(),
             *content.whole(len(pieces)), *content.said(None), belongs(1, index), verdict(), lost.title(),
             line(0, 'sections', '2 of %d, 1400 bytes; 0 repeats, 0 refused' % len(unfinished)), line(0, 'versions seen', '3'),
             line(0, 'missing', '0, %s' % ('3' if len(unfinished) == 4 else '3, 4' if len(unfinished) == 5 else '3 to %d' % (len(unfinished) - 1))),
             line(0, 'verdict', "not whole: a section is missing (refusal 13, number 0)"),
             summed(data, len(old.sections(50)) + first + len(pieces) + 2, 1, 2, sum(len(r) for r, what in runs if what in ('skipped', 'spoiled', 'cut'))),
             'tables: 3, of which 2 whole and 2 accepted', 'messages without their content table: 1', NOT_WELL]
    return data, [], 1, said


def cedar():
    """A transport stream, each table twice over: the first time a packet is lost and one marked with the error bit. Another PID's packets stand between."""
    index = Index([DRILL], 5)
    content = Content(DRILL, [('eng', 0, LONG_TEXT, 'County office', [])], 5)
    sections = index.sections() + content.sections()
    packets, null = [], b'\x47\x1F\xFF\x10' + bytes(184)
    for section in sections * 2:
        packets += packed(section, len(packets) % 16)
    packets[30] = packets[30][:1] + bytes([packets[30][1] | 0x80]) + packets[30][2:]
    came = [packet for number, packet in enumerate(packets) if number != 5]
    data = b''.join(packet + null * (number % 10 == 9) for number, packet in enumerate(came))
    gap = ('packet at byte %d: packets before it are lost, 1 by the counters; by its heading the section was number %d, the last being %d, of '
           'content table ' + '%04X' % content.extension + ', version 5')
    last, count = len(content.sections()) - 1, len(sections)
    said = [gap % (5 * 188, 0, last), gap % (33 * 188, 1, last), *index.whole(1, 1), *index.said(None), *index.contents(5), verdict(),
            *content.whole(last + 1, last - 1), *content.said(None), belongs(1, index), verdict(), summed(data, count, count - 2, 0, 0),
            'packets: %d on PID 0x0021, of which 0 repeated, %d of other PIDs, 1 with the error bit, 0 refused; losses: 2' % (len(came) - 1, len(came) // 10),
            'tables: 2, of which 2 whole and 2 accepted', NOT_WELL]
    return data, [], 1, said


# ---- the transport streams of Alder and Birch

NULL_PACKET, FIRST_PID = b'\x47\x1F\xFF\x10' + bytes(184), b'\x47\x40\x00\x10\x00' + bytes(183)


def packets_said(ours, repeats, others, errors=0, refused=0, losses=0):
    return ('packets: %d on PID 0x0021, of which %d repeated, %d of other PIDs, %d with the error bit, %d refused; losses: %d'
            % (ours, repeats, others, errors, refused, losses))


def adapted(counter, start, payload):
    """A packet that an adaptation field fills up, if its payload does not; without a payload it stands alone."""
    room = 184 - len(payload)
    field = b'' if room == 0 else bytes([room - 1]) + (b'\0' + b'\xFF' * (room - 2) if room > 1 else b'')
    return bytes([0x47, start, 0x21, (0x20 if room else 0) | (0x10 if payload else 0) | counter]) + field + payload


def birch_packets(sections, counter=0):
    """Sections right behind each other: packets with and without pointers, of which every third leaves room for an adaptation field. Answers pairs
    of a packet and the numbers of the sections that it has bytes of."""
    stream, begins = b'', []
    for one in sections:
        begins.append(len(stream))
        stream += one
    at, made = 0, []
    while at < len(stream):
        room = 184 if len(made) % 3 else 150
        first = next((b for b in begins if at <= b < at + room - 1), None)
        pointer = b'' if first is None else bytes([first - at])
        part = stream[at:at + room - len(pointer)]
        numbers = {i for i, (begin, one) in enumerate(zip(begins, sections)) if begin < at + len(part) and at < begin + len(one)}
        made.append((adapted(counter, 0 if first is None else 0x40, pointer + part), numbers))
        at, counter = at + len(part), (counter + 1) % 16
    return made


def alder_stream():
    """All is well: every table three times over, null packets between."""
    index, content = Index([DRILL], 6, signature=bytes(range(64))), Content(DRILL, [('eng', 0, LONG_TEXT, 'County office', [])], 6)
    sections, packets = index.sections() + content.sections(), []
    for section in sections * 3:
        packets += packed(section, len(packets) % 16)
    data = b''.join(packet + NULL_PACKET for packet in packets)
    said = [*index.whole(1, 2), *index.said(480), *index.contents(6), verdict(), *content.whole(3, 6), *content.said(480), belongs(1, index), verdict(),
            summed(data, 4, 8, 0, 0), packets_said(len(packets), 0, len(packets)), 'tables: 2, of which 2 whole and 2 accepted', ALL_WELL]
    return data, ['--offset', '480'], 0, said


def birch_tables():
    index = Index([FLOOD, DRILL], 12, 7)
    drill = Content(DRILL, [('eng', 2, 'Go on foot.\n' * 200, 'Office', [(9, b'picture')]), ('zho', 1, '请步行到集合点。', '县应急办', [])], 1)
    flood = Content(FLOOD, [('zho', 0, '大水。\n' * 200, '水利局', [])], 31)
    return index, drill, flood


def birch_sections(tables):
    index, drill, flood = tables
    return index.sections(61)[::-1] + drill.sections(700) + flood.sections(333)[::-1]


def birch_said(tables, repeats):
    """What has to be said of the tables, each section of which came so many times more."""
    index, drill, flood = tables
    return [*index.whole(len(index.sections(61)), repeats * len(index.sections(61))), *[fact.replace(FLOOD.kind, FLOOD_TYPE) for fact in index.said(None)],
            *index.contents(31, 1), verdict(), *drill.whole(len(drill.sections(700)), repeats * len(drill.sections(700))), *drill.said(None),
            belongs(2, index), verdict(), *flood.whole(len(flood.sections(333)), repeats * len(flood.sections(333))), *flood.said(None),
            belongs(1, index), verdict()]


def birch_stream():
    """All is well: the tables twice over in packets that are close, every fifth sent twice, adaptation fields alone and other PIDs between."""
    tables = birch_tables()
    sections = birch_sections(tables)
    made, sent, repeats = birch_packets(sections * 2, 9), [], 0
    for number, (packet, _) in enumerate(made):
        sent += [packet, packet] if number % 5 == 4 else [packet]
        sent += [adapted(packet[3] & 15, 0, b'')] if number % 7 == 6 else []
        sent += [FIRST_PID] if number % 10 == 9 else []
        repeats += number % 5 == 4
    data, count = b''.join(sent), len(sections)
    others = len(made) // 10
    return data, [], 0, [*birch_said(tables, 1), summed(data, count, count, 0, 0), packets_said(len(sent) - others, repeats, others),
                         'tables: 3, of which 3 whole and 3 accepted', ALL_WELL]


def alder_mistakes():
    """Alder's own mistakes, three times over, as no damage is: hour 24 in a start, an extension from 144 bits, and a section that is never sent."""
    index, content = Index([DRILL], 7), Content(DRILL, [('eng', 0, 'This is a drill.', 'County office', [])], 7)
    body = index.body()
    place = 3 + 18 + 2  # of the start
    body = body[:place + 2] + b'\x24' + body[place + 3:]
    content.extension = crc(digits(content.identifier), 16, 0x1021)
    certificates = Certificates([b'list' * 40], [], 1)
    three = certificates.sections(60)
    sections, packets = [*cut(INDEX, 0, 7, body), *content.sections(), three[0], three[2]], []
    for section in sections * 3:
        packets += packed(section, len(packets) % 16)
    data = b''.join(packets)
    why = 'the day or the time is impossible or out of range (refusal 20'
    said = [*index.whole(1, 2), '  message 1 of 1', line(1, 'identifier', DRILL.identifier), line(1, 'start', body[place:place + 5].hex(' ').upper()),
            '      ^ refused: %s, EBM_start_time at byte %d of the body)' % (why, place),
            line(0, 'not read', '%d bytes after it, from byte %d of the body on' % (len(body) - place - 5, place + 5)),
            line(0, 'content', 'of message 1: none has come whole; it would be content table %04X' % DRILL.extension()),
            line(0, 'verdict', 'refused: %s at byte %d of the body)' % (why, place)), *content.whole(1, 2), *content.said(None),
            line(0, 'belongs to', 'no message that has come'),
            line(0, 'verdict', "refused: the extension is not the CRC-16 of the identifier (refusal 23); its identifier's is %04X" % DRILL.extension()),
            certificates.title(), line(0, 'sections', '2 of 3, %d bytes; 4 repeats, 0 refused' % (len(certificates.body()) - 60)),
            line(0, 'versions seen', '1'), line(0, 'missing', '1'),
            line(0, 'front of the body', '60 bytes, those before section 1, as far as they can be read:'),
            line(0, 'verdict', 'not whole: a section is missing (refusal 13, number 1)'), summed(data, 4, 8, 0, 0), packets_said(len(packets), 0, 0),
            'tables: 3, of which 2 whole and 0 accepted', 'messages without their content table: 1', 'content tables without their message: 1', NOT_WELL]
    return data, [], 1, said


def birch_damage():
    """Birch's line: a packet is lost, one scrambled, bytes stand between packets, a bit of a section is changed, and the capture ends in a section.
    Each falls into the middle of a section of a round of its own; the last round but the end is as it was sent."""
    tables = birch_tables()
    sections = birch_sections(tables)
    target = len(tables[0].sections(61)) + 1  # a section of the drill's text, with 712 bytes
    by_heading = 'number %d, the last being %d, of content table %04X, version 1' % (1, len(tables[1].sections(700)) - 1, tables[1].extension)
    made = birch_packets(sections * 4)
    inside = [[i for i, (_, numbers) in enumerate(made) if numbers == {target + turn * len(sections)}][1] for turn in range(4)]
    sent, events, at, end = [], [], 0, inside[3] + 1
    for number, (packet, _) in enumerate(made[:end]):
        if number == inside[0]:
            continue  # it is lost
        if number in (inside[0] + 1, inside[1] + 1):
            events.append('packet at byte %d: packets before it are lost, 1 by the counters; by its heading the section was %s' % (at, by_heading))
        if number == inside[1]:
            packet = packet[:3] + bytes([packet[3] | 0x80]) + packet[4:]
            events.append('bytes %d to %d are skipped: the packet is scrambled (refusal 33)' % (at, at + 187))
        if number == inside[2]:
            packet = packet[:120] + bytes([packet[120] ^ 1]) + packet[121:] + b'between packets'
        sent.append(packet)
        at += len(packet)
        if number == inside[2]:
            events.append('bytes %d to %d are skipped: the packet does not begin with the sync byte 0x47 (refusal 31)' % (at - 15, at - 1))
        if number > inside[2] and target + 2 * len(sections) in made[number][1] and target + 2 * len(sections) not in made[number + 1][1]:
            events.append("section that the packet at byte %d completes is skipped: the section's CRC_32 is wrong (refusal 7); by its heading it was %s"
                          % (at - 188, by_heading))
    events.append('packet at byte %d: the stream ends after it, and a section has not ended; by its heading the section was %s' % (at - 188, by_heading))
    data, count = b''.join(sent), len(sections)
    index, drill, flood = tables
    cuts = len(index.sections(61)), len(drill.sections(700)), len(flood.sections(333))
    said = [*events, *index.whole(cuts[0], 3 * cuts[0]), *[fact.replace(FLOOD.kind, FLOOD_TYPE) for fact in index.said(None)], *index.contents(31, None),
            verdict(), drill.title(), line(0, 'sections', '%d of %d, %d bytes; %d repeats, 0 refused' % (
                cuts[1] - 1, cuts[1], len(drill.body()) - 700, 3 + 2 * (cuts[1] - 2))),
            line(0, 'versions seen', '1'), line(0, 'missing', '1'), line(0, 'verdict', 'not whole: a section is missing (refusal 13, number 1)'),
            *flood.whole(cuts[2], 2 * cuts[2]), *flood.said(None), belongs(1, index), verdict(),
            summed(data, count - 1, 3 * cuts[0] + 3 + 2 * (cuts[1] - 2) + 2 * cuts[2], 0, 188 + 15 + 712), packets_said(len(sent) - 1, 0, 0, 0, 1, 3),
            'tables: 3, of which 2 whole and 2 accepted', 'messages without their content table: 1', NOT_WELL]
    return data, [], 1, said


CAPTURES = {'alder.sec': alder, 'birch.sec': birch, 'cedar.ts': cedar, 'alder.ts': alder_stream, 'birch.ts': birch_stream,
            'alder-mistakes.ts': alder_mistakes, 'birch-damaged.ts': birch_damage}


def main():
    """make_captures.py FOLDER: writes the captures as files, and beside each, in NAME.txt, what has to be said of it, line by line in this order."""
    folder = sys.argv[1]
    os.makedirs(folder, exist_ok=True)
    for name, made in CAPTURES.items():
        data, words, status, said = made()
        with open(os.path.join(folder, name), 'wb') as file:
            file.write(data)
        with open(os.path.join(folder, name + '.txt'), 'w', encoding='utf-8') as file:
            file.write('\n'.join([' '.join(['nw show', *words, name]) + ' ends with %d and says' % status, *said, '']))


if __name__ == '__main__':
    main()
