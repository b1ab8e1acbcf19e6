"""The screen box's package against what the library promises: each name of the library that its crates use is offered.

Its code may call what docs/PROMISES.md lists and does not mark as inner, and what the library's export crate calls, since each of these is told to C
by a promise of its own; and it may name the types in which they answer. Its definitions and proofs may cite any definition (`specs`) of the library,
since the promises are stated in them, and of its proofs those of `promises` alone.
"""
# SPDX-License-Identifier: MIT
import glob
import os
import re
import sys

ROOT = os.path.join(os.path.dirname(os.path.abspath(__file__)), os.pardir)
# The types in which offered functions answer, and those that they hold.
TYPES = {'body_formats::Number', 'body_formats::Step', 'body_formats::Part', 'ground_refusal::Refusal',
         'time_fields::Moment', 'time_fields::Showing'}
OWN = re.compile(r'screen_\w+|neapwillow_screen(_c)?')


def read(path):
    with open(path, encoding='utf-8') as file:
        return file.read()


def crates():
    return re.findall(r'^(\w+)(?: staticlib)?:', read(os.path.join(ROOT, 'crates.txt')), flags=re.M)


def offered():
    """The library's functions that are listed as offered, or that its export crate calls."""
    found = set()
    for path in glob.glob(os.path.join(ROOT, 'crates', 'neapwillow', 'src', '*.rt')):
        found.update(re.findall(r'\b([a-z]\w*::[a-z]\w*)\(', read(path)))
    heading = []
    for line in read(os.path.join(ROOT, 'docs', 'PROMISES.md')).splitlines():
        if line.startswith('## '):
            heading = [name.strip() for name in line[3:].split(',')]
        elif line.startswith('| `') and '(inner)' not in line.split('|')[1]:
            crate = None
            for name in re.findall(r'`([\w:]+)`', line.split('|')[1]):
                crate, _, name = name.rpartition('::') if '::' in name else (crate, '', name)
                found.update('%s::%s' % (one, name) for one in ([crate] if crate else heading))
    return found


def used(text, library):
    """The names of the library's crates in a source, a definition or a proof, comments left out."""
    text = re.sub(r'(//|--).*', '', text)
    for crate, name in re.findall(r'\b([a-z]\w*)::(\w+)', text):
        # A tactic's attribute names definitions so, as `Rattle.CRATE.specs` does elsewhere.
        if crate in library and name != 'specs':
            yield '%s::%s' % (crate, name)
    for crate, part in re.findall(r'Rattle\.(\w+)\.(\w+)', text):
        if crate in library and part != 'specs' and crate != 'promises':
            yield 'Rattle.%s.%s' % (crate, part)


def main():
    listed = crates()
    own = [name for name in listed if OWN.fullmatch(name)]
    library, allowed = {name for name in listed if not OWN.fullmatch(name)}, offered() | TYPES
    files = [path for name in own for kind in ('rt', 'antt')
             for path in glob.glob(os.path.join(ROOT, 'crates', name, '**', '*.' + kind), recursive=True)]
    found = [(path, name) for path in files for name in used(read(path), library)]
    faults = sorted({'%s: %s is not offered' % (os.path.relpath(path, ROOT), name) for path, name in found if name not in allowed})
    # a library's crate that needs the package would turn the house upside down
    needs = dict(re.findall(r'^(\w+)(?: staticlib)?:(.*)$', read(os.path.join(ROOT, 'crates.txt')), flags=re.M))
    faults += ['%s needs %s' % (name, need) for name in library for need in needs[name].split() if OWN.fullmatch(need)]
    for fault in faults:
        print(fault)
    if faults or len(own) < 4 or not any('::' in name for _, name in found):
        sys.exit('%d faults in %d crates' % (len(faults), len(own)))
    print('%d names of the library in %d crates are offered' % (len({name for _, name in found}), len(own)))


main()
