"""The C headers against the source: exports' parameters and shapes of answer, lent structs, refusals, what takes answers apart."""
# SPDX-License-Identifier: MIT
import glob
import os
import re
import sys

ROOT = os.path.join(os.path.dirname(os.path.abspath(__file__)), os.pardir)
RECORDS = 'crates/index_records/src/lib.rt'

# The headers, and the crates that each declares.
HEADERS = {'include/neapwillow.h': ['neapwillow', 'neapwillow_rooms', 'neapwillow_teaching'], 'programs/c_commands.h': ['c_commands']}
# The package above the library, and its header.
SCREEN, SCREEN_HEADER = 'neapwillow_screen', 'include/neapwillow-screen.h'

# What the commands' header calls a constant of the source.
CONSTANTS = {'NW_MOST_INPUT': 'program_printing::MOST_INPUT', 'NW_MOST_REPORT': 'program_date_lines::MOST_OUTPUT',
             'NW_MOST_LINE': 'program_section_line::MOST_OUTPUT', 'NW_MOST_LIST': 'program_salvage_lines::MOST_OUTPUT'}
# The library's header has one too, for what C lends as an array.
LENT = {'NW_UNPACKER_BYTES': 'packet_memory::STATE_BYTES'}

# What C lends as a struct: its name there, and where the source has it under which name.
ROOMS = 'crates/rooms_state/src/lib.rt'
STRUCTS = [('nw_gathering', 'crates/gathering_state/src/lib.rt', 'Gathering'), ('nw_record', RECORDS, 'Record'), ('nw_network', ROOMS, 'Part'),
           ('nw_networks', ROOMS, 'Networks')]

# What a type of the source is in C: a slice is a pointer and a length.
IN_C = {
    'u8': ['uint8_t'], 'u16': ['uint16_t'], 'u32': ['uint32_t'], 'u64': ['uint64_t'], 'usize': ['size_t'], 'i32': ['int32_t'],
    '&[u8]': ['const uint8_t *', 'size_t'], '&mut [u8]': ['uint8_t *', 'size_t'],
    '&[u64]': ['const uint64_t *', 'size_t'], '&mut [u64]': ['uint64_t *', 'size_t'],
    '&Gathering': ['const nw_gathering *'], '&mut Gathering': ['nw_gathering *'], 'Gathering': ['nw_gathering'],
    '&Networks': ['const nw_networks *'], '&mut Networks': ['nw_networks *'], 'Part': ['nw_network'],
    '&mut [Record]': ['nw_record *', 'size_t'], '&mut [u32]': ['uint32_t *', 'size_t'], '&mut usize': ['size_t *'],
}


# The shape of an answer in C, by the definition that an export's contract cites; a number for every other one.
SHAPES = {'part_answer': 'nw_part', 'date_answer': 'nw_date', 'local_answer': 'nw_time', 'local_field_answer': 'nw_time',
          'section_answer': 'nw_heading', 'headed_answer': 'nw_heading', 'content_answer': 'nw_written', 'salvaged_answer': 'nw_salvaged',
          'choice_answer': 'nw_choice'}

# The shape that each record of c_answers' Taking says the fields of, and of the screen box's Told; and how many bits a type has.
RECORDS_OF = {'TellsDate': 'nw_date', 'TellsTime': 'nw_time', 'TellsHeading': 'nw_heading', 'TellsPart': 'nw_part',
              'TellsContent': 'nw_written', 'TellsSalvaged': 'nw_salvaged'}
SCREEN_RECORDS = {'TellsChoice': 'nw_choice'}
BITS = {'unsigned': 32, 'size_t': 64, 'uint64_t': 64}


def read(*path):
    with open(os.path.join(ROOT, *path), encoding='utf-8') as file:
        return file.read()


def without_comments(text):
    return re.sub(r'/\*.*?\*/|//[^\n]*', '', text, flags=re.S)


def parameter_in_c(kind):
    """What a parameter of the source is in C: a lent array is a pointer that the header writes with the array's length."""
    array = re.fullmatch(r'&mut \[(u8|u64); (\S+)\]', kind)
    return ['%s [%s]' % (IN_C[array[1]][0], array[2])] if array else IN_C[kind]


def result_in_c(kind, contract):
    """What a result of the source is in C: one that the contract says to be an answer has that answer's shape."""
    answer = re.search(r'\bresult ≡ (\w+_answer)\b', contract)
    return [SHAPES.get(answer[1], 'nw_answer')] if answer else IN_C[kind]


def exports(crate):
    """Each function that a crate's static library exports: its result and its parameters, as C has them."""
    found = {}
    for path in sorted(glob.glob(os.path.join(ROOT, 'crates', crate + '_c', 'src', '*.rt'))):
        for name, parameters, result, contract in re.findall(
                r'pub extern "C" fn (\w+)\(([^)]*)\)\s*->\s*(\w+)(.*?)\n\{', without_comments(read(path)), re.S):
            types = [p.split(':', 1)[1].strip() for p in parameters.split(',') if p.strip()]
            found[name] = result_in_c(result, contract), [c for t in types for c in parameter_in_c(t)]
    return found


def in_c(declared):
    """A parameter's type without its name, one space before a star; an array with the source's name for its length."""
    array = re.fullmatch(r'(\w+) \w+\[(\w+)\]', declared.strip())
    if array:
        return '%s [%s]' % (array[1], array[2] if array[2].isdigit() else {**CONSTANTS, **LENT}.get(array[2]))
    kind = re.sub(r'\s*\*\s*', ' * ', declared.strip())
    kind = kind if kind.endswith('* ') else re.sub(r'\w+$', '', kind)
    return kind.strip()


def declarations(header):
    """Each function that the header declares."""
    found = {}
    for result, name, parameters in re.findall(r'^(\w+) (nw_\w+)\(([^)]*)\);', header, flags=re.M):
        found[name] = [result], [in_c(p) for p in re.sub(r'\s+', ' ', parameters).split(',') if p != 'void']
    return found


def source_version():
    """The version by the file VERSION, the text and then each number, which the definition must have too."""
    text = read('VERSION').strip()
    numbers = [int(n) for n in re.search(r'^version = version_number (\d+) (\d+) (\d+)$', read('crates', 'c_answers', 'specs', 'Version.antt'), re.M).groups()]
    return {'text': text, **dict(zip(['MAJOR', 'MINOR', 'PATCH'], map(int, text.split('.')))), 'defined': numbers, 'latest': text}


def header_version(header):
    """The same of the header's macros, and the version that CHANGELOG.md has first."""
    found = {name: int(number) for name, number in re.findall(r'^#define NW_VERSION_(MAJOR|MINOR|PATCH) (\d+)$', header, re.M)}
    return {'text': re.search(r'^#define NW_VERSION "(.*)"$', header, re.M)[1], **found, 'defined': list(found.values()),
            'latest': re.search(r'^## (\S+)$', read('CHANGELOG.md'), re.M)[1]}


def source_constants(names):
    found = {}
    for name, constant in names.items():
        crate, _, word = constant.partition('::')
        value = re.search(r'pub const %s: \w+ = ([\d_]+);' % word, read('crates', crate, 'src', 'lib.rt'))[1]
        found[name] = int(value.replace('_', ''))
    return found


def header_constants(header):
    return {name: int(value) for name, value in re.findall(r'#define (NW_\w+) (\d+)u', header)}


def source_variants():
    """The variants of content tables that the source takes, named as the header does."""
    return {'NW_AUXILIARY_' + bits: bits for bits in re.findall(r'variant == (\d+)', read('crates', 'content_variant', 'src', 'lib.rt'))}


def header_variants(header):
    return dict(re.findall(r'(NW_\w+) = (\d+)', re.search(r'enum nw_variant \{(.*?)\}', header, re.S)[1]))


def source_fields(path, name):
    """A struct's fields in their order, as C has them: name, type, and how many of it where it is an array."""
    body = re.search(r'pub struct %s \{(.*?)\}' % name, without_comments(read(path)), re.S).group(1)
    fields = re.findall(r'pub (\w+): (?:\[(\w+);\s*(\d+)\]|(\w+))', body)
    return [(field, IN_C[each or kind][0], count) for field, each, count, kind in fields]


def header_fields(header, name):
    """The same of the header, where a word that C++ keeps for itself has an underscore after it."""
    body = re.search(r'typedef struct %s \{(.*?)\}' % name, header, re.S).group(1)
    return [(field.rstrip('_'), kind, count) for kind, field, count in re.findall(r'(\w+) (\w+)(?:\[(\d+)\])?;', body)]


def source_refusals():
    """Each case of the enum and its number, the name as the header writes it."""
    source = read('crates', 'ground_refusal', 'src', 'lib.rt')
    arms = re.findall(r'Refusal::(\w+)(?:\(\w+\))? => (\d+),', source[source.index('fn number('):source.index('fn place(')])
    cases = re.findall(r'^    (\w+)(?:\(usize\))?,$', source[source.index('pub enum Refusal'):source.index('fn number(')], flags=re.M)
    if [case for case, _ in arms] != cases:
        sys.exit('not every case of the enum has a number')
    return {'NW' + re.sub(r'([A-Z])', r'_\1', case).upper(): int(number) for case, number in arms}


def header_refusals(header):
    body = re.search(r'enum nw_refusal \{(.*?)\}', header, re.S).group(1)
    return {name: int(number) for name, number in re.findall(r'(NW_\w+) = (\d+)', body) if number != '0'}


def source_fields_told(records, *path):
    """What takes each field of a value: the shape it is of, how many bits stand below it in the 64, and how many it has."""
    found = {}
    for record, shape in records.items():
        body = re.search(r'pub record %s .*?(?=\npub |\Z)' % record, read('crates', *path), re.S).group(0)
        for field, below, width in re.findall(r'pub (\S+) : field_told (\d+) (\d+) a', body):
            found['%s_%s' % (shape, re.sub('_(is|are)$', '', field))] = shape, 8 + int(below), int(width)
    return found


def header_fields_told(header):
    """The same of the header's functions of one answer: a mask says the width, or the type of the result."""
    found = {}
    for kind, name, shape, body in re.findall(r'static inline (\w+) (nw_\w+)\((nw_\w+) a\) \{ return (.*?); \}', header):
        form = re.fullmatch(r'(?:\((\w+)\)\()?a\.packed >> (\d+)(?: & 0x(F+)u)?\)?', body)
        cast, below, mask = form.groups() if form else (None, -1, None)
        found[name] = shape, int(below), 4 * len(mask) if mask else BITS[cast or kind]
    return found


# The low byte is the refusal, and the place stands above it: Taking's refusal_told and above_told.
MACROS = {'NW_REFUSAL': '((unsigned)((answer).packed & 0xFFu))', 'NW_PLACE': '((answer).packed >> 8)'}


def header_macros(header):
    return dict(re.findall(r'#define (\w+)\(answer\) (.*)', header))


def shapes(header):
    return dict(re.findall(r'typedef struct (nw_\w+) \{ (uint64_t packed;) \}', header))


def main():
    header, commands = (without_comments(read(path)) for path in HEADERS)
    screen = without_comments(read(SCREEN_HEADER))
    functions = [('function of ' + ' and '.join(crates), {name: said for crate in crates for name, said in exports(crate).items()}, declarations(text))
                 for crates, text in zip(HEADERS.values(), (header, commands))]
    pairs = [functions[0], ('version', source_version(), header_version(header)), ('refusal', source_refusals(), header_refusals(header)),
             ('struct', {lent: source_fields(path, name) for lent, path, name in STRUCTS},
              {lent: header_fields(header, lent) for lent, _, _ in STRUCTS}),
             ('shape', dict.fromkeys(['nw_answer', *SHAPES.values()], 'uint64_t packed;'), {**shapes(header), **shapes(screen)}),
             ('field told', {'nw_value': ('nw_answer', 8, 64), **source_fields_told(RECORDS_OF, 'c_answers', 'specs', 'Taking.antt')},
              header_fields_told(header)), ('macro', MACROS, header_macros(header)),
             ('variant', source_variants(), header_variants(header)), functions[1],
             ('constant', source_constants(CONSTANTS), header_constants(commands)),
             ('length of what is lent', source_constants(LENT), {name: header_constants(header).get(name) for name in LENT}),
             ('function of ' + SCREEN, exports(SCREEN), declarations(screen)),
             ('field of a choice', source_fields_told(SCREEN_RECORDS, SCREEN, 'specs', 'Told.antt'), header_fields_told(screen))]
    wrong = 0
    for what, source, declared in pairs:
        for name in sorted(source.keys() | declared.keys()):
            if source.get(name) != declared.get(name):
                wrong += 1
                print('%s %s: the source has %s, the header %s' % (what, name, source.get(name), declared.get(name)))
        print('%d of kind %s in the source' % (len(source), what))
    if wrong or len(pairs[0][1]) < 14 or not all(source for _, source, _ in pairs):
        sys.exit('%d differ' % wrong)
    print('the headers declare them as they are')


main()
