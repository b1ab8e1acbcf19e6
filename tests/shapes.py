"""Wrong uses of an answer, which must not compile, and right ones, which must: shapes.py COMPILER.. (with its language and warnings)."""
# SPDX-License-Identifier: MIT
import os
import re
import subprocess
import sys

ROOT = os.path.join(os.path.dirname(os.path.abspath(__file__)), os.pardir)
HEADERS = [os.path.join(ROOT, 'include', name) for name in ('neapwillow.h', 'neapwillow-screen.h')]

# Some function that answers with each shape.
CALLS = {'nw_answer': 'nw_section_count(1)', 'nw_part': 'nw_index_signature(0, 0)', 'nw_date': 'nw_date_of(60000)',
         'nw_time': 'nw_time_unpack(0, 0)', 'nw_heading': 'nw_section_read(0, 0)',
         'nw_written': 'nw_content_write(NW_AUXILIARY_24, 0, 0, 0, 0, 0, 0)', 'nw_salvaged': 'nw_salvage(0, 0, 0, 0, 0, 0)',
         'nw_choice': 'nw_screen_choose(NW_INDEX, 0, 0, 0, 0, 0, 0)'}


def accessors(header):
    """Each function that takes an answer apart: its name, its result's type and its shape."""
    return [(name, kind, shape) for kind, name, shape in re.findall(r'^static inline (\w+) (nw_\w+)\((nw_\w+) a\)', header, re.M)]


def uses(header):
    """Statements, and whether each is right."""
    for name, kind, shape in accessors(header):
        for other, call in CALLS.items():
            yield '%s x = %s(%s); (void)x;' % (kind, name, call), other == shape
        yield '%s x = %s(1); (void)x;' % (kind, name), False
    for shape, call in CALLS.items():
        yield 'unsigned x = NW_REFUSAL(%s); uint64_t y = NW_PLACE(%s); (void)x; (void)y;' % (call, call), True
        yield 'uint64_t x = %s; (void)x;' % call, False
        yield 'uint64_t x = %s >> 8; (void)x;' % call, False
        yield 'if (%s == NW_TAKEN) return;' % call, False
        for other in CALLS:
            yield '%s x = %s; (void)x;' % (other, call), other == shape
    yield 'nw_gathering g = NW_FRESH; (void)g;', True


def refused(statements):
    """The statements that the compiler refuses, each in a function on a line of its own, and what it says."""
    lines = ['#include "neapwillow-screen.h"'] + ['void f%d(void); void f%d(void) { %s }' % (i, i, s) for i, s in enumerate(statements)]
    run = subprocess.run([*sys.argv[1:], '-fsyntax-only', '-I', os.path.dirname(HEADERS[0]), '-'], input='\n'.join(lines) + '\n',
                         stderr=subprocess.PIPE, encoding='utf-8', env={**os.environ, 'LC_ALL': 'C'})
    at = {int(line) - 2 for line in re.findall(r'^<stdin>:(\d+):.*?error:', run.stderr, re.M)}
    return [s for i, s in enumerate(statements) if i in at], run.stderr


def main():
    header = ''
    for path in HEADERS:
        with open(path, encoding='utf-8') as file:
            header += file.read()
    right = [s for s, good in uses(header) if good]
    wrong = [s for s, good in uses(header) if not good]
    said = refused(right)[1]
    if said or set(CALLS) != {shape for _, _, shape in accessors(header)}:
        sys.exit('right uses do not compile: %s' % said)
    taken = sorted(set(wrong) - set(refused(wrong)[0]))
    if taken or len(wrong) < 150:
        sys.exit('wrong uses that compile, %d of %d: %s' % (len(taken), len(wrong), taken[:5]))
    print('%d right uses compile without a warning, %d wrong ones do not compile' % (len(right), len(wrong)))


main()
