"""The must-fail edits against what the prover says of them: each fault is refused, and at the declaration that it names.

rt ci applies all replacements of an edit at once, asks of the prover only that it refuses the crate, and tells the first line of why. So that one
check of a crate serves several faults, an edit names for each of them the declaration that can't be admitted because of it:

    fault: NAME
    says: what is wrong
    refused: FILE DECLARATION
    file: .. old: .. new: ..      the replacements, as rt reads them

A declaration is a lemma of a file of proofs/, or a goal of a function, which stands in its proofs/FUNCTION/Answers.antt; a goal that the prover
finds by itself is named so too, though it, or the whole file, is not written. The check must give an error of that declaration in that file
which is its own: not one that says no more than that another declaration was not admitted, or that a name is gone.

edits.py KIT JOBS tries each edit on a copy of its crate, over what `rt check` has kept in the crates' out/, so many at once. What one came to is kept
by the sum of all that its check read, below the user's cache, so that the next run, in another checkout too, tries what changed. With `lacks`
after them nothing is tried: the status is 0 if something would be.
"""
# SPDX-License-Identifier: MIT
import contextlib
import functools
import glob
import hashlib
import io
import json
import os
import re
import shutil
import subprocess
import sys
import tempfile
from concurrent.futures import ThreadPoolExecutor

ROOT = os.path.realpath(os.path.join(os.path.dirname(os.path.abspath(__file__)), os.pardir))
KIT = sys.argv[1]
sys.path.insert(0, os.path.join(KIT, 'bin'))
import rtlib  # noqa: E402 (the kit's, which knows how rt calls the prover)

KEPT = os.path.join(os.environ.get('XDG_CACHE_HOME') or os.path.expanduser('~/.cache'), 'neapwillow', 'edits')
PARTS = ['src', 'specs', 'proofs']
KEYS = ['fault', 'says', 'refused', 'file', 'old', 'new']
# An error of a declaration, by file and name; what one says that only rests on a refused declaration, or names what the edit took away, which tells
# nothing of the contract; a function for which no proof is found.
ERROR = re.compile(r'(?:\./)?(?P<file>\S+?):\d+:\d+: error: `(?P<name>[^`]*)`')
CONSEQUENCE = re.compile('so this cannot be checked|, which was rejected|was not admitted|has no field|is not in scope|has no `')
NOT_FOUND = re.compile(r'fn \S+: no proof: .*?\bin (?:\./)?(?P<file>proofs/\S+?); `search` did not prove (?P<names>.*)')
problems = []


class Fault:
    """A fault of an edit: its name, what it says, where it is refused, and its replacements, each of a file, an old and a new text."""

    def __init__(self, name):
        self.name, self.says, self.refused, self.replacements = name, '', '', []


class Edit:
    """An edit: its faults in their order. A line that is none of its keys' is a problem."""

    def __init__(self, path):
        self.path, self.faults, self.crate = path, [], path.split(os.sep)[1]
        place = old = None
        with open(os.path.join(ROOT, path), encoding='utf-8') as file:
            for number, line in enumerate(file, 1):
                key, colon, value = line.rstrip('\n').partition(':')
                if key == 'fault':
                    self.faults.append(Fault(value.strip()))
                elif not line.strip():
                    continue
                elif not colon or key not in KEYS or not self.faults:
                    problems.append(f'{path}:{number}: neither a fault nor a line of one: {line.strip()}')
                elif key in ['says', 'refused']:
                    setattr(self.faults[-1], key, value.strip())
                elif key == 'file':
                    place = value.strip()
                elif key == 'old':
                    old = value.removeprefix(' ')
                elif place and old is not None:
                    self.faults[-1].replacements.append((place, old, value.removeprefix(' ')))
                    old = None

    def apply(self, folder):
        """Puts the replacements into a copy of the crate; whether each old text stood there once."""
        for place, old, new in (each for fault in self.faults for each in fault.replacements):
            path = os.path.join(folder, place)
            text = read(path) if os.path.isfile(path) else ''
            if text.count(old) != 1:
                problems.append(f'{self.path}: {place} has {text.count(old)} times, and not once: {old}')
                return False
            with open(path, 'w', encoding='utf-8') as file:
                file.write(text.replace(old, new))
        return True


def read(path):
    with open(path, encoding='utf-8') as file:
        return file.read()


# ---- what a check says

@functools.lru_cache(maxsize=None)
def sum_of(crate):
    """The sum of what a check of a crate reads of the crate's own: its line of crates.txt and its files."""
    told = hashlib.sha256(repr((crate.name, sorted(crate.said.items()))).encode())
    for path in sorted(rtlib.files_of(crate.folder)):
        with open(path, 'rb') as file:
            told.update(repr((os.path.relpath(path, crate.folder), file.read())).encode())
    return told.hexdigest()


@functools.lru_cache(maxsize=None)
def sum_of_kit():
    rattle = os.stat(rtlib.RATTLE)
    return repr((read(os.path.join(KIT, 'KIT-ID')), rattle.st_size, rattle.st_mtime_ns))


def kept_as(edit, crate):
    """The file in which it is kept what this edit came to on these texts."""
    changes = [fault.replacements for fault in edit.faults]
    told = repr((sum_of_kit(), CONSEQUENCE.pattern, changes, [(it.name, sum_of(it)) for it in [crate, *crate.below()]]))
    return os.path.join(KEPT, hashlib.sha256(told.encode()).hexdigest())


def known(edit, crate):
    """The errors that an earlier run was told, or None."""
    try:
        found = json.loads(read(kept_as(edit, crate)))
        return {(file, name) for file, name in found}
    except (OSError, ValueError, TypeError):
        return None


def own_errors(said):
    """The file and declaration of each error that is no consequence of another one."""
    errors = set()
    for line in said.splitlines():
        error, missing = ERROR.match(line), NOT_FOUND.match(line)
        if error and not CONSEQUENCE.search(line):
            errors.add((os.path.normpath(error['file']), error['name']))
        elif missing:
            errors.update((os.path.normpath(missing['file']), name) for name in re.findall(r'`([^`]+)`', missing['names']))
    return errors


def linked(one, other):
    """A proof that is kept, under a second name where that can be: a check replaces such a file and changes none."""
    try:
        if one.endswith('.oantt'):
            return os.link(one, other)
    except OSError:
        pass
    return shutil.copy2(one, other)


def tried(edit, crate):
    """The errors of a check of the crate with this edit, or None where it gives no verdict."""
    with tempfile.TemporaryDirectory(dir=os.path.join(ROOT, 'target', 'edits')) as folder:
        for part in PARTS:
            if os.path.isdir(os.path.join(crate.folder, part)):
                shutil.copytree(os.path.join(crate.folder, part), os.path.join(folder, part))
        if not edit.apply(folder):
            return None
        begin, own = os.path.join(crate.folder, 'out', 'incremental'), os.path.join(folder, 'out')
        if os.path.isdir(begin):
            shutil.copytree(begin, own, symlinks=True, copy_function=linked)
        else:
            os.mkdir(own)
        command = [*rtlib.guarded(), rtlib.RATTLE, 'check', *crate.words(['--jobs', '1'], keeps=False), '--incremental', own]
        for _ in range(2):
            ran = subprocess.run(command, cwd=folder, stdin=subprocess.DEVNULL, stdout=subprocess.PIPE, stderr=subprocess.STDOUT, errors='replace')
            if ran.returncode >= 0:  # else it was killed, most likely for memory
                break
    last = ran.stdout.rstrip('\n').rpartition('\n')[2]
    if ran.returncode != 1 or not last.startswith('logic=not-proved'):
        problems.append(f'{edit.path}: its check ended with status {ran.returncode} and said last: {last}')
        return None
    errors = own_errors(ran.stdout)
    with contextlib.suppress(OSError):
        os.makedirs(KEPT, exist_ok=True)
        with tempfile.NamedTemporaryFile('w', dir=KEPT, delete=False, encoding='utf-8') as file:
            json.dump(sorted(errors), file)
        os.replace(file.name, kept_as(edit, crate))
    return errors


# ---- each edit

def check(edit, errors):
    """Holds an edit's faults to the errors that its check gave."""
    places = [fault.refused for fault in edit.faults]
    for fault in edit.faults:
        if not (re.fullmatch(r'\w+', fault.name) and fault.says and fault.replacements and len(fault.refused.split()) == 2):
            problems.append(f'{edit.path}: fault {fault.name} lacks its words, its place or a replacement')
        elif places.count(fault.refused) > 1:
            problems.append(f'{edit.path}: more than one fault at {fault.refused}: which of them was refused?')
        elif errors is not None and tuple(fault.refused.split()) not in errors:
            problems.append(f'{edit.path}: fault {fault.name} is not refused at {fault.refused}; the errors: {sorted(errors)}')
    if not edit.faults:
        problems.append(f'{edit.path}: no fault')


def main():
    with contextlib.redirect_stdout(io.StringIO()):
        crates = {crate.name: crate for crate in rtlib.crates_below(ROOT)}
    paths = sorted(os.path.relpath(path, ROOT) for path in glob.glob(os.path.join(ROOT, 'crates', '*', 'must-fail', '*.edit')))
    edits = [Edit(path) for path in paths]
    told = {edit: known(edit, crates[edit.crate]) for edit in edits}
    new = [edit for edit in edits if told[edit] is None]
    if sys.argv[3:] == ['lacks']:
        sys.exit(0 if new else 1)
    os.makedirs(os.path.join(ROOT, 'target', 'edits'), exist_ok=True)
    rtlib.guarded()  # before threads run: it forks
    with ThreadPoolExecutor(int(sys.argv[2])) as pool:
        told.update(zip(new, pool.map(lambda edit: tried(edit, crates[edit.crate]), new)))
    for edit in edits:
        check(edit, told[edit])
    for crate in sorted({edit.crate for edit in edits}):
        names = [fault.name for edit in edits if edit.crate == crate for fault in edit.faults]
        problems.extend(f'crates/{crate}: two faults are called {name}' for name in sorted(set(names)) if names.count(name) > 1)
    for problem in problems:
        print(problem)
    print(f'{sum(len(edit.faults) for edit in edits)} faults in {len(edits)} edits, {len(new)} of them tried in this run, {len(problems)} problems')
    sys.exit(1 if problems or not edits else 0)


if __name__ == '__main__':
    main()
