"""docs/RULES.md against the tree: each name that it gives is there, and each refusal and heading of document 01 has its rows.

A name is `crate.name`, a definition, law, function or type; `crate.Record.field`, a part of a record or a case of a type; `crate/fault`, a
fault of an edit in the crate's must-fail/; or the path of a file. What docs/PROMISES.md, DECISIONS.md and COVERAGE.md name is looked for too.
"""
# SPDX-License-Identifier: MIT
import glob
import os
import re
import sys

ROOT = os.path.join(os.path.dirname(os.path.abspath(__file__)), os.pardir)
RULES, PROMISES, DECISIONS, COVERAGE = (os.path.join('docs', name + '.md') for name in ['RULES', 'PROMISES', 'DECISIONS', 'COVERAGE'])

# 01's headings, in its order, and the parts that the page takes apart: each has rows.
HEADINGS = [
    'The part of the standard we build', 'A section on the wire',
    'Refusal numbers', 'Refusal numbers: Places', 'Refusal numbers: Order',
    'Gathering',
    'Bodies', 'Bodies: Index', 'Bodies: Content', 'Bodies: Certificate', 'Bodies: Configuration',
    'Days and times', 'Days and times: Local time', 'Days and times: Text',
    'Values to hold: Proved together', 'Values to hold: Run and compared', 'Values to hold: The programs',
    'Errors that look reasonable', 'The shape of each place', 'Strength of the statements',
]
COLUMNS = ['01', 'Definition', 'Shown by']
# The columns of the other documents' tables that name functions, definitions and promises.
NAMING = ['Function', 'Definition', 'Promise that shuts it out', 'Where it is']
faults = []


def read(path):
    with open(os.path.join(ROOT, path), encoding='utf-8') as file:
        return file.read()


def files(*pattern):
    """The paths of the tree that are like this one."""
    return [os.path.relpath(path, ROOT) for path in glob.glob(os.path.join(ROOT, *pattern), recursive=True)]


def without_ending(path):
    return os.path.splitext(path)[0]


# ---- the names of the tree

class Crate:
    """The names of a crate, the parts of its records and types, its edits."""

    def __init__(self, path):
        self.names, self.parts = set(), {}
        for source in files(path, '**', '*.antt'):
            self.add_definitions(re.sub(r'--.*', '', read(source)))
        for source in files(path, 'src', '*.rt'):
            self.add_code(re.sub(r'//.*', '', read(source)))
        self.edits = {fault for edit in files(path, 'must-fail', '*.edit') for fault in re.findall(r'^fault: (\w+)$', read(edit), flags=re.M)}

    def add_definitions(self, text):
        """Definitions and laws stand at the left, or in a module with `pub`; what is indented under a record or a data type is its part."""
        owner, depth = None, 0
        for line in filter(str.strip, text.splitlines()):
            indent = len(line) - len(line.lstrip())
            owner = owner if indent > depth else None
            found = re.match(r' *((?:(?:unfoldable|abbrev|pub) )*)(record |data )?([^\s:({]+)(?=[\s:({]).*:', line)
            if not found:
                continue
            marks, kind, name = found.groups()
            if owner:
                self.parts[owner].add(name)
            elif marks or not indent:
                self.names.add(name)
            if kind:
                owner, depth = name, indent
                self.parts.setdefault(name, set())

    def add_code(self, text):
        self.names.update(re.findall(r'\b(?:fn|const|type) (\w+)', text))
        for name, body in re.findall(r'\b(?:enum|struct) (\w+) \{(.*?)^\}', text, flags=re.M | re.S):
            self.names.add(name)
            self.parts.setdefault(name, set()).update(re.findall(r'^ +(?:pub )?(\w+)', body, flags=re.M))


CRATES = {os.path.basename(path): Crate(path) for path in files('crates', '*')}

# What the other documents may name: crates, what they define, their edits, and their files as `Table` or `index_fields/proofs/Asked`.
MODULES = [os.path.relpath(without_ending(path), 'crates') for path in files('crates', '*', '*', '*.antt')]
NOT_EDITS = set(CRATES).union(MODULES, map(os.path.basename, MODULES), *[crate.names for crate in CRATES.values()])
KNOWN = NOT_EDITS.union(*[crate.edits.union(*crate.parts.values()) for crate in CRATES.values()])


def is_there(name):
    """Whether the tree has what a name of the page says."""
    crate, _, rest = name.partition('.')
    if '/' not in name and crate in CRATES:
        owner, _, part = rest.partition('.')
        return part in CRATES[crate].parts.get(owner, []) if part else owner in CRATES[crate].names
    crate, _, edit = name.partition('/')
    return crate in CRATES and edit in CRATES[crate].edits or '/' in name and os.path.isfile(os.path.join(ROOT, name))


# ---- tables

def tables(path):
    """Each row of a document's tables: the heading that it stands under, with its part; the columns' names; its cells."""
    heading, where, columns = '', '', None
    for line in read(path).splitlines():
        found = re.match(r'(#+) (.*)', line)
        if found:
            heading = heading if len(found[1]) > 2 else found[2]
            where, columns = heading + (': ' + found[2] if len(found[1]) > 2 else ''), None
        elif not line.startswith('|'):
            columns = None
        else:
            cells = [cell.strip() for cell in re.split(r'(?<!\\)\|', line)[1:-1]]
            if columns is None:
                columns = cells
            elif set(line) - set('|-'):
                yield where, columns, cells


def quoted(cell):
    return re.findall(r'`([^`]+)`', cell)


# ---- the page of rules

def rules():
    """Looks through the page's rows: how many there are, the names in them, and the first name of each refusal's."""
    rows, refusals = {}, {}
    names = {name for line in read(RULES).splitlines() if not line.startswith('|') for name in quoted(line)}
    for where, columns, cells in tables(RULES):
        rows[where] = rows.get(where, 0) + 1
        if columns != COLUMNS or len(cells) != len(COLUMNS) or '"' not in cells[0]:
            faults.append('%s: not a row of 01\'s words, %s and %s: %s' % (where, *COLUMNS[1:], ' | '.join(cells)))
            continue
        for column, cell in list(zip(COLUMNS, cells))[1:]:
            if not quoted(cell):
                faults.append('%s: no name under %s for %s' % (where, column, cells[0]))
            names.update(quoted(cell))
        number = re.match(r'(\d+): ', cells[0])
        if where == 'Refusal numbers' and number:
            refusals.setdefault(int(number[1]), []).append(quoted(cells[1])[:1])
    faults.extend('no row under %s' % where for where in HEADINGS if where not in rows)
    faults.extend('01 has no heading %s' % where for where in rows if where not in HEADINGS)
    if [where for where in HEADINGS if where in rows] != [where for where in rows if where in HEADINGS]:
        faults.append("the headings are not in 01's order")
    faults.extend('not in the tree: %s' % name for name in sorted(names) if not is_there(name))
    return sum(rows.values()), names, refusals


def each_refusal(refusals):
    """Each case of the enum has a number and one row, whose first name is the case. The list may have gaps."""
    numbers = dict(re.findall(r'^refusal_number \(?(\w+).* = (\d+)$', read('crates/ground_refusal/specs/Numbers.antt'), flags=re.M))
    for case, number in numbers.items():
        if refusals.pop(int(number), None) != [['ground_refusal.Refusal.' + case]]:
            faults.append('refusal %s has not one row that begins with ground_refusal.Refusal.%s' % (number, case))
    faults.extend('there is no refusal %d' % number for number in refusals)
    cases = re.search(r'pub enum Refusal \{(.*?)\n\}', read('crates/ground_refusal/src/lib.rt'), re.S)[1]
    if list(numbers) != re.findall(r'^    (\w+)(?:\(usize\))?,$', cases, flags=re.M):
        faults.append('the numbered refusals are not the cases of the enum')


# ---- the other documents

def edits_of_promises():
    """Each edit that a table of the promises names: with its crate, or of one of the crates named above it. Laws stand there too."""
    found = 0
    for where, columns, cells in tables(PROMISES):
        crates = [CRATES[word] for word in re.findall(r'\w+', ' '.join([where] + columns)) if word in CRATES]
        for column, cell in zip(columns, cells):
            for name in quoted(cell) if column in ['Edit', 'Edits'] else []:
                if name in NOT_EDITS:
                    continue
                found += 1
                if not (is_there(name) if '/' in name else any(name in crate.edits for crate in crates)):
                    faults.append('%s, %s: no such edit: %s' % (PROMISES, where, name))
    return found


def names_of(path):
    """Each name alone in parentheses, as in (`body_formats`, `index`), or in a column of names, there without its arguments: the tree has it."""
    cells = re.findall(r'\((`[\w/-]+`(?:,? (?:and )?`[\w/-]+`)*)[);]', read(path))
    cells += [cell for _, columns, row in tables(path) for column, cell in zip(columns, row) if column in NAMING]
    found = [name.split()[0].replace('::', '.') for cell in cells for name in quoted(cell) if '..' not in name]
    faults.extend('%s: not in the tree: %s' % (path, name) for name in found if name not in KNOWN and not is_there(name))
    return len(found)


def main():
    rows, names, refusals = rules()
    each_refusal(refusals)
    others = edits_of_promises() + sum(map(names_of, [PROMISES, DECISIONS, COVERAGE]))
    if faults:
        print(*faults, sep='\n')
        sys.exit('%d faults' % len(faults))
    print('%d rules have %d names, all in the tree, and so are %d in the other documents' % (rows, len(names), others))


if __name__ == '__main__':
    main()
