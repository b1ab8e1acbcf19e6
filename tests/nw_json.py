"""What `nw show --json` writes, beside its schema and the man page, which have each member: nw_json.py HOW PROGRAM.."""
# SPDX-License-Identifier: MIT
import json
import os
import re
import subprocess
import sys

import make_captures as make
import stream_slips as streams

HOW, PROGRAM = sys.argv[1], sys.argv[2:]
ROOT = os.path.join(os.path.dirname(os.path.abspath(__file__)), os.pardir)
with open(os.path.join(ROOT, 'docs', 'nw-show.schema.json'), encoding='ascii') as file:
    SCHEMA = json.load(file)
TYPES = {'object': dict, 'array': list, 'string': str, 'boolean': bool, 'null': type(None), 'integer': int}
KNOWN = {'$schema', 'title', 'description', 'type', 'required', 'properties', '$defs', '$ref', 'items', 'enum', 'const', 'minimum', 'maximum',
         'pattern', 'oneOf'}
seen = set()


def referred(schema):
    """The part of the schema that a $ref names."""
    at = SCHEMA
    for part in schema['$ref'].split('/')[1:]:
        at = at[part]
    return at


def is_of(name, value):
    return isinstance(value, TYPES[name]) and not (name == 'integer' and isinstance(value, bool))


def faults(schema, value, where='it'):
    """What of a value is not as a schema has it, for the keywords that ours has."""
    assert set(schema) <= KNOWN, schema
    if '$ref' in schema:
        yield from faults(referred(schema), value, where)
    types = schema.get('type', [])
    if types and not any(is_of(name, value) for name in ([types] if isinstance(types, str) else types)):
        yield '%s is no %s' % (where, types)
    if 'const' in schema and value != schema['const'] or 'enum' in schema and value not in schema['enum']:
        yield '%s is %r' % (where, value)
    if is_of('integer', value) and not schema.get('minimum', value) <= value <= schema.get('maximum', value):
        yield '%s is %d' % (where, value)
    if isinstance(value, str) and not re.search(schema.get('pattern', ''), value):
        yield '%s is %r' % (where, value)
    if isinstance(value, list):
        for item in value:
            yield from faults(schema.get('items', {}), item, where + '[]')
    if isinstance(value, dict):
        yield from ('%s has no %s' % (where, name) for name in schema.get('required', []) if name not in value)
        for name in set(schema.get('properties', {})) & set(value):
            seen.add((where, name))
            yield from faults(schema['properties'][name], value[name], where + '.' + name)
    if 'oneOf' in schema:
        fit = [one for one in schema['oneOf'] if not list(faults(one, value, where))]
        if len(fit) != 1:
            yield '%s fits %d of oneOf' % (where, len(fit))


def members(schema, where='it'):
    """Each member that a schema has, and where."""
    for part in ([referred(schema)] if '$ref' in schema else []) + schema.get('oneOf', []):
        yield from members(part, where)
    for name, inner in schema.get('properties', {}).items():
        yield where, name
        yield from members(inner, where + '.' + name)
    if 'items' in schema:
        yield from members(schema['items'], where + '[]')


def told(value, where='it'):
    """Each member that a value has, and where."""
    if isinstance(value, dict):
        for name, inner in value.items():
            yield where, name
            yield from told(inner, where + '.' + name)
    if isinstance(value, list):
        for item in value:
            yield from told(item, where + '[]')


def captures():
    for made in make.CAPTURES.values():
        data, words, _, _ = made()
        yield words, data
    yield from (([], data) for data, *_ in list(streams.streams())[::3])
    yield [], b''
    many = [make.section(make.CERTIFICATE, n, 0, 0, 0, b'\0\0\0\0') for n in range(513)]
    yield ['--offset', '0'], b''.join(many + [make.section(make.INDEX, 9, 0, 0, 0, data) for data in (b'\0\0\0', b'\0\0\1', b'')])


def main():
    wrong, documented, count = [], set(members(SCHEMA)), 0
    for words, data in captures():
        done = subprocess.run([*PROGRAM, 'show', '--json', *words, '-'], input=data, capture_output=True, check=False, timeout=300)
        value = json.loads(done.stdout.decode('ascii'))
        wrong += list(faults(SCHEMA, value))
        wrong += ['%s.%s is not in the schema' % pair for pair in sorted(set(told(value)) - documented)]
        count += 1
    with open(os.path.join(ROOT, 'man', 'nw.1.in'), encoding='utf-8') as page:
        text = page.read()
    part = text[text.index('.SH JSON'):text.index('.SH LIMITS')]
    wrong += ['the man page does not name %s' % name for name in sorted({name for _, name in documented}) if not re.search(r'\b%s\b' % name, part)]
    never = sorted('%s.%s' % pair for pair in documented - seen)
    if wrong or never or count < 10:
        sys.exit('%s\n%s: %d faults; never told: %s' % ('\n'.join(wrong[:20]), HOW, len(wrong), ', '.join(never)))
    print('%s: the JSON of %d captures has the %d members that schema and man page have, and no others' % (HOW, count, len(documented)))


main()
