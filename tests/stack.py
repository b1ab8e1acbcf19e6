"""The deepest stack of each function that the header declares, found in the archive's own machine code, against the limits that the header states.

stack.py OBJDUMP HEADER PAGE CLANG FOLDER CRATE..: of each crate its archive and its module in FOLDER, which is target/. In each function of a disassembled
archive the stack pointer is followed along every way; what it calls comes on top of where it calls it. Nothing is guessed: a function that calls
itself, over others too, a call through a pointer, and a stack pointer that is moved by no constant are faults. Counted are the return address and what
lies below the stack pointer (the red zone); of the C library's memcpy and its like the return address alone.

A limit is a sentence of the header, `Stack: N bytes.`, for the functions declared after it up to the next such sentence or heading. Each function
has one, meets it, and the deepest of each group lies close below it, so that a buffer which comes in is seen. Each group of the man page says the
largest limit of its functions.

Last the check is put to itself: the module that the archive is compiled from, with a buffer planted in it that a limit has to show.
"""
# SPDX-License-Identifier: MIT
import collections
import os
import re
import subprocess
import sys
import tempfile

RETURN = 8  # bytes: what a call itself puts down
SLACK = 15  # bytes: how far a limit may lie above the deepest function of its group; a stack grows by 8 or 16
RED_ZONE = 128
C_LIBRARY = {'memcpy', 'memmove', 'memset', 'memcmp', 'bcmp'}

Instruction = collections.namedtuple('Instruction', 'at verb words target')


class Fault(Exception):
    """What makes a bound impossible, or a statement wrong."""


# ---- the archive's code

def disassembled(objdump, archive):
    """The functions by their names, each a list of its instructions, and which of them is found at an address of a section."""
    text = subprocess.run([objdump, '-d', '-r', '-w', '--no-show-raw-insn', archive],
                          check=True, capture_output=True, text=True).stdout
    code, where, name = {}, {}, None
    for line in text.splitlines():
        start = re.match(r'([0-9a-f]+) <(.+)>:$', line)
        found = re.match(r' *([0-9a-f]+):\t(.*)$', line)
        if start:
            name = start[2]
            if name in code:
                raise Fault(f'two functions have the name {name}')
            code[name] = []
            where[int(start[1], 16)] = name
        elif found:
            code[name].append(instruction(int(found[1], 16), found[2]))
    return code, where


def instruction(at, text):
    text, *places = re.split(r'\t[0-9a-f]+: R_X86_64_\w+\t', text)
    text = re.sub(r'\s*#.*', '', text)
    words = re.sub(r'^((notrack|bnd|rep|repz|repnz|lock|data16|cs) )+', '', text.strip()).split(None, 1) + ['', '']
    operands = words[1]
    target = None
    if places:
        target = re.sub(r'[-+]0x[0-9a-f]+$', '', places[0]) if words[0].startswith(('call', 'j')) else None
    elif re.match(r'[0-9a-f]+ <', operands):
        target = int(operands.split()[0], 16)
    return Instruction(at, words[0], operands, target)


# ---- one function

def number(text):
    return int(text, 0) - (1 << 64 if int(text, 0) >> 63 else 0)


class Walk:
    """How deep a function goes by itself, and what it calls where: the bytes below its caller's stack pointer, its return address among them."""

    def __init__(self, name, code, where):
        self.name, self.code, self.where = name, code, where
        self.index = {one.at: i for i, one in enumerate(code)}
        self.depths, self.calls, self.deepest = {}, set(), RETURN
        ways = [(0, RETURN, None)]
        while ways:
            ways.extend(self.step(*ways.pop()))

    def fault(self, one, why):
        raise Fault(f'{self.name} at {one.at:x}: {why}: {one.verb} {one.words}')

    def step(self, i, depth, kept):
        """Takes one instruction, and tells the ways on: the next one's index, the depth there, and the depth that %rbp keeps, if it does."""
        if i == len(self.code):
            raise Fault(f'{self.name} runs past its end')
        one = self.code[i]
        if i in self.depths:
            if self.depths[i] != (depth, kept) and self.depths[i][0] != depth:
                self.fault(one, f'two depths, {self.depths[i][0]} and {depth}')
            return []
        self.depths[i] = depth, kept
        for below in re.findall(r'-(0x[0-9a-f]+)\(%rsp', one.words):
            if not one.words.endswith(',%rsp'):
                self.deepest = max(self.deepest, depth + min(int(below, 16), RED_ZONE))
        verb, words = one.verb, one.words
        if verb.startswith('ret'):
            if depth != RETURN:
                self.fault(one, f'returns with {depth - RETURN} bytes left')
            return []
        if verb in ('ud2', 'hlt'):
            return []
        if verb.startswith('call'):
            self.calls.add((depth, self.called(one)))
            return [(i + 1, depth, kept)]
        if verb.startswith('j'):
            return self.jump(i, one, depth, kept)
        depth, kept = self.moved(one, depth, kept)
        self.deepest = max(self.deepest, depth)
        return [(i + 1, depth, kept)]

    def called(self, one):
        if isinstance(one.target, int):
            if one.target not in self.where:
                self.fault(one, 'a call into the midst of a function')
            return self.where[one.target]
        if one.target is None:
            self.fault(one, 'a call through a pointer')
        return re.sub(r'^\.text\.', '', one.target)

    def jump(self, i, one, depth, kept):
        on = [] if one.verb.startswith('jmp') else [(i + 1, depth, kept)]
        if isinstance(one.target, int) and one.target in self.index:
            return on + [(self.index[one.target], depth, kept)]
        if one.target is None:  # by a table of places of this function: all that nothing else leads to
            if '*' not in one.words:
                self.fault(one, 'a jump to nowhere')
            return on + [(k + 1, depth, kept) for k, before in enumerate(self.code[:-1])
                         if before.verb.startswith(('jmp', 'ret', 'ud2')) and k + 1 not in self.depths and not self.led_to(k + 1)]
        if depth != RETURN:
            self.fault(one, 'leaves with bytes on the stack')
        self.calls.add((0, self.called(one)))
        return on

    def led_to(self, k):
        if not hasattr(self, 'targets'):
            self.targets = {one.target for one in self.code if isinstance(one.target, int)}
        return self.code[k].at in self.targets or self.code[k].verb.startswith(('nop', 'int3', 'xchg'))

    def moved(self, one, depth, kept):
        verb, words = one.verb, one.words
        if verb.startswith('push'):
            return depth + 8, kept
        if verb.startswith('pop'):
            return depth - 8, (None if words == '%rbp' else kept)
        if verb == 'leave':
            if kept is None:
                self.fault(one, 'nothing is kept')
            return kept - 8, None
        into = words.rsplit(',', 1)[-1].strip() if ',' in words else words
        if into == '%rsp' and not verb.startswith(('cmp', 'test')):
            by = re.match(r'\$(0x[0-9a-f]+),%rsp$', words)
            at = re.match(r'(-?0x[0-9a-f]+)\((%rsp|%rbp)\),%rsp$', words)
            if by and verb.startswith('sub'):
                return depth + number(by[1]), kept
            if by and verb.startswith('add'):
                return depth - number(by[1]), kept
            if by and verb.startswith('and'):
                return depth - number(by[1]) - 8, kept
            if at and verb.startswith('lea') and at[2] == '%rsp':
                return depth - int(at[1], 16), kept
            if at and verb.startswith('lea') and kept is not None:
                return kept - int(at[1], 16), kept
            if verb.startswith('mov') and words == '%rbp,%rsp' and kept is not None:
                return kept, kept
            self.fault(one, 'the stack pointer is moved')
        if into == '%rbp' and not verb.startswith(('cmp', 'test')):
            return depth, depth if verb.startswith('mov') and words == '%rsp,%rbp' else None
        return depth, kept


# ---- all of them

class Stack:
    """The deepest stack of each function, with all that it calls. All but what C is offered is local to its archive."""

    def __init__(self, objdump, archive):
        code, where = disassembled(objdump, archive)
        self.walks = {name: Walk(name, lines, where) for name, lines in code.items()}
        self.found = {}

    def offers(self, stated):
        """Those of the stated functions that this archive has."""
        return [name for name in stated if name in self.walks]

    def of(self, name, above=()):
        """How many bytes, and the functions on the deepest way."""
        if name in above:
            raise Fault('calls itself: ' + ' '.join(above + (name,)))
        if name not in self.walks:
            if name not in C_LIBRARY:
                raise Fault(f'{above[-1] if above else "the header"} names {name}, which is not in the archive')
            return RETURN, [name]
        if name not in self.found:
            walk = self.walks[name]
            ways = [(walk.deepest, [name])]
            for depth, callee in walk.calls:
                more, way = self.of(callee, above + (name,))
                ways.append((depth + more, [name] + way))
            self.found[name] = max(ways, key=lambda way: way[0])
        return self.found[name]


# ---- what is stated

def limits(header):
    """The functions that the header declares, in its order, with the limit of each and the heading that it stands under."""
    with open(header, encoding='utf-8') as file:
        text = file.read()
    heading, limit, found = 'The version', None, {}
    for part in re.finditer(r'/\*.*?\*/|^(?!static|typedef|extern|#)[a-z]\w* \**(nw_\w+)\(', text, re.S | re.M):
        title = re.match(r'/\* ---- (.*?) -+\n', part[0])
        stated = re.search(r'\bStack: ([\d,]+) bytes\b', part[0].replace('\n *', ''))
        if title:
            heading, limit = title[1], None
        if stated:
            limit = int(stated[1].replace(',', ''))
        if part[1]:
            found[part[1]] = limit, heading
    return found


def said(page, stated):
    """Of each group of the man page that names functions: its title, what it states, and the largest limit of its functions."""
    with open(page, encoding='utf-8') as file:
        text = file.read()
    for group in re.split(r'^\.S[SH] ', text, flags=re.M)[1:]:
        title, _, rest = group.partition('\n')
        names = re.findall(r'^\.BR (nw_\w+?)(\\fI\*\\fP)?(?: ,)?$', rest, re.M)
        own = [limit for name, (limit, _) in stated.items() if any(name == one or more and name.startswith(one) for one, more in names)]
        number = re.search(r'\bStack: ([\d,]+) bytes\b', rest)
        if own:
            yield title, number and int(number[1].replace(',', '')), max(own)


def faults(found, stated, page):
    """What is wrong with the limits."""
    groups = collections.defaultdict(list)
    for name, (limit, heading) in stated.items():
        if limit is None:
            yield f'{name}: the header states no limit'
        elif found[name] > limit:
            yield f'{name}: {found[name]} bytes, and the header allows {limit}'
        groups[heading, limit].append(name)
    for (heading, limit), names in groups.items():
        deepest = max(found[name] for name in names)
        if limit is not None and limit - deepest > SLACK:
            yield f'{heading}: the header allows {limit} bytes, and {deepest} are the deepest of {names[0]} and its group: lower the limit'
    if not any(limit is None for limit, _ in stated.values()):
        for title, number, most in said(page, stated):
            if number != most:
                yield f'the man page, {title}: Stack: {number}, where the header has {most}'


# ---- what the limits have to show

# A crate, a function of its module, the bytes that are planted in it, what these are, and the functions of the header that have to be found too deep.
PLANTED = [
    ('neapwillow', 'body_identifier::read_identifier', 35, 'the digits of an identifier, laid out by its reader',
     ['nw_message_identifier', 'nw_content_identifier']),
    ('neapwillow', 'gathering_state::possible', 524, 'a second copy of the state', ['nw_gathering_feed']),
    ('neapwillow', 'gathering_hand_out::complete', 524, 'a second copy of the state', ['nw_gathering_hand_out', 'nw_gathering_pack']),
    ('neapwillow_rooms', 'rooms_feed::take_free', 1036, "a second copy of a network's part", ['nw_networks_feed']),
    ('neapwillow_screen', 'screen_choice::walked', 255 * 24, 'a list of messages', ['nw_screen_choose']),
]


def as_kit(module, text, code):
    """The words that the kit compiled the module with, for another text and object file: with fewer of them a function takes less stack."""
    with open(re.sub(r'\.bc$', '.words', module), encoding='utf-8') as file:
        words = file.read().splitlines()
    words[words.index('-o') + 1] = code
    return [text if word.endswith('.bc') else word for word in words]


def too_deep(objdump, clang, module, function, size, header):
    """The functions that pass their limits where a buffer of so many bytes stands in a function of the module."""
    with tempfile.TemporaryDirectory() as folder:
        text, code = os.path.join(folder, 'module.ll'), os.path.join(folder, 'module.o')
        own = [clang, '--target=x86_64-unknown-linux-gnu', '-march=x86-64', '-Wno-override-module', '-x', 'ir']
        subprocess.run(own + ['-S', '-emit-llvm', '-Xclang', '-disable-llvm-passes', '-o', text, module], check=True)
        with open(text, encoding='utf-8') as file:
            lines = file.read()
        start = re.search(r'^define [^\n]*@"?%s"?\([^\n]*\{\n\w+:\n' % re.escape(function), lines, re.M)
        if not start:
            raise Fault(f'the module has no {function}')
        buffer = f'  %planted = alloca [{size} x i8], align 4\n  call void asm sideeffect "", "r,~{{memory}}"(ptr %planted)\n'
        with open(text, 'w', encoding='utf-8') as file:
            file.write(lines[:start.end()] + buffer + lines[start.end():])
        subprocess.run([clang] + as_kit(module, text, code) + ['-Wno-error', '-Wno-override-module'], check=True)
        stack, stated = Stack(objdump, code), limits(header)
        return {name for name in stack.offers(stated) if stated[name][0] is not None and stack.of(name)[0] > stated[name][0]}


def main(objdump, header, page, clang, folder, *crates):
    try:
        stated, found = limits(header), {}
        for crate in crates:
            stack = Stack(objdump, os.path.join(folder, 'staticlib', f'lib{crate}.a'))
            found.update({name: stack.of(name) for name in stack.offers(stated)})
        for name in stated.keys() - found.keys():
            raise Fault(f'the header names {name}, which is in no archive')
        heading = None
        for name, (limit, under) in stated.items():
            if under != heading:
                heading = under
                print(heading)
            print(f'  {name:36} {found[name][0]:5} of {limit}, by {" ".join(found[name][1][1:]) or "itself"}')
        wrong = list(faults({name: deep for name, (deep, _) in found.items()}, stated, page))
        for crate, function, size, what, readers in (one for one in PLANTED if one[0] in crates):
            deep = too_deep(objdump, clang, os.path.join(folder, 'native', f'{crate}.bc'), function, size, header)
            print(f'planted in {function}, {what}: {len(deep)} functions pass their limits')
            wrong += [f'{what} in {function} is not seen at {name}' for name in readers if name not in deep]
    except Fault as fault:
        sys.exit(str(fault))
    for one in wrong:
        print(one)
    print(f'{len(found)} functions, the deepest {max(deep for deep, _ in found.values())} bytes, {len(wrong)} faults')
    sys.exit(1 if wrong else 0)


if __name__ == '__main__':
    main(*sys.argv[1:])
