"""What the shared libraries export, read from their bytes: their headers' functions alone, the soname and the version's name: exports.py FOLDER."""
# SPDX-License-Identifier: MIT
import os
import re
import struct
import sys

ROOT = os.path.join(os.path.dirname(os.path.abspath(__file__)), os.pardir)
DYNAMIC, DYNSYM, VERDEF = 6, 11, 0x6FFFFFFD
SONAME, UNDEFINED, OF_SECTION = 14, 0, 3


def read(*path):
    with open(os.path.join(ROOT, *path), encoding='utf-8') as file:
        return file.read()


class Elf:
    """A 64-bit little-endian ELF file: its sections, each as its type, its bytes and the section of its names."""

    def __init__(self, data):
        if data[:6] != b'\x7fELF\x02\x01':
            sys.exit('no 64-bit little-endian ELF file')
        start, = struct.unpack_from('<Q', data, 40)
        size, count = struct.unpack_from('<HH', data, 58)
        headers = [struct.unpack_from('<IIQQQQI', data, start + i * size) for i in range(count)]
        self.sections = [(kind, data[at:at + length], link) for _, kind, _, _, at, length, link in headers]

    def of(self, wanted):
        """The bytes of the section of a kind, and what tells its names."""
        for kind, data, link in self.sections:
            if kind == wanted:
                names = self.sections[link][1]
                return data, lambda at: names[at:names.index(b'\0', at)].decode('ascii')
        return sys.exit('there is no section of kind %d' % wanted)

    def exported(self):
        """The names of all symbols that are defined, but for those that stand for a section."""
        data, name = self.of(DYNSYM)
        symbols = [struct.unpack_from('<IBBHQQ', data, at) for at in range(0, len(data), 24)]
        return sorted(name(symbol[0]) for symbol in symbols if symbol[3] != UNDEFINED and symbol[1] & 15 != OF_SECTION)

    def soname(self):
        data, name = self.of(DYNAMIC)
        return next(name(value) for tag, value in struct.iter_unpack('<QQ', data) if tag == SONAME)

    def versions(self):
        """The names of the versions that are defined, the library's own first."""
        data, name = self.of(VERDEF)
        found, at, step = [], 0, 1
        while step:
            _, _, _, _, _, auxiliary, step = struct.unpack_from('<HHHHIII', data, at)
            found.append(name(struct.unpack_from('<I', data, at + auxiliary)[0]))
            at += step
        return found


def look(name, least):
    """One library: it exports what its header declares, at least so many functions."""
    with open(os.path.join(sys.argv[1], 'lib%s.so' % name), 'rb') as file:
        library = Elf(file.read())
    series = '.'.join(read('VERSION').split('.')[:2])
    soname, version = 'lib%s.so.%s' % (name, series), '%s_%s' % (name.upper().replace('-', '_'), series)
    header = re.sub(r'/\*.*?\*/', '', read('include', name + '.h'), flags=re.S)
    declared = sorted(re.findall(r'^\w+ (nw_\w+)\(', header, flags=re.M))
    exported = [symbol for symbol in library.exported() if symbol != version]
    wrong = sorted(set(exported) ^ set(declared))
    if wrong or library.soname() != soname or library.versions() != [soname, version] or len(declared) < least:
        sys.exit('soname %s, versions %s; not both exported and declared: %s' % (library.soname(), library.versions(), ' '.join(wrong)))
    print('%s exports the %d functions of its header and nothing else' % (soname, len(exported)))


look('neapwillow', 40)
look('neapwillow-screen', 1)
