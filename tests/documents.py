"""What the README and the man pages say, and what is fuzzed, beside the installed library and the examples: documents.py FOLDER."""
# SPDX-License-Identifier: MIT
import glob
import os
import re
import sys

ROOT = os.path.join(os.path.dirname(os.path.abspath(__file__)), os.pardir)
FOLDER = sys.argv[1]
DRILL, DATES, SHOW = './run drill', './run dates', 'nw show --offset +08:00 received.ts'
SCREEN = "screen index.body 36543200000000303010103 480 '03/11/2024 07:00:00' 7200"
faults = []


def read(*path):
    with open(os.path.join(*path), encoding='utf-8') as file:
        return file.read()


def expect(what, said, real):
    """Notes a fault where two texts differ, with the first line that does."""
    if said == real:
        return
    pairs = zip(said.splitlines() + ['(the end)'], real.splitlines() + ['(the end)'])
    faults.append('%s: it says %r, and really %r' % (what, *next((p for p in pairs if p[0] != p[1]), (said, real))))


def shown_after(readme, command):
    """The README's block after the block that ends with a command."""
    blocks = [re.sub('^    ', '', b, flags=re.M) for b in re.findall(r'(?:^    .*\n)+', readme, flags=re.M)]
    at = [i for i, block in enumerate(blocks) if command in block]
    return blocks[at[0] + 1] if at and at[0] + 1 < len(blocks) else ''


def words_of_page(page):
    """Each refusal of the man page: its number and its words."""
    part = page[page.index('.SH REFUSALS'):page.index('.SH FORMS')]
    return ''.join('%s %s\n' % pair for pair in re.findall(r'^\.TP 5\n\.B (\d+)\n(.*)$', part.replace('\\(aq', "'"), flags=re.M))


def unnamed(page, header):
    """The header's functions that the page names neither whole nor by their beginning."""
    names = set(re.findall(r'\bnw_\w+', page.replace('\\fI*\\fP', '')))
    functions = set(re.findall(r'^\w+ (nw_\w+)\(', header, flags=re.M))
    return sorted(f for f in functions if not any(f == n or (n.endswith('_') and f.startswith(n)) for n in names)), functions


def bare(text):
    """The words of a page or of a comment: without roff's commands and fonts, its signs as they are shown, and without a comment's stars."""
    text = re.sub(r'^\.B ', '', text, flags=re.M)
    text = re.sub(r'\\&|\\f[BIRP]|`|\\\(ga', '', re.sub(r'^\..*$|^/\*|^ \*|\*/$', ' ', text, flags=re.M))
    for sign, shown in [('\\-', '-'), ('\\(aq', "'"), ('\\(ha', '^'), ('\\(ti', '~'), ('\\e', '\\')]:
        text = text.replace(sign, shown)
    return ' '.join(word for word in text.split() if word != '-')


def pages_of_groups(header):
    """Each function of the header stands in the synopsis of one page alone, as it is declared, and each comment whole on a page."""
    pages = {os.path.basename(path): read(path) for path in glob.glob(os.path.join(FOLDER, 'neapwillow*.3'))}
    synopses = {name: bare(page[page.index('.SH SYNOPSIS'):page.index('.SH DESCRIPTION')]) for name, page in pages.items()}
    declared = re.findall(r'^((?:static inline )?[a-z][\w *]*?\b(nw_\w+)\([^)]*\))', header, flags=re.M)
    for declaration, function in declared:
        having = [name for name, synopsis in synopses.items() if bare(declaration) + ';' in synopsis]
        if len(having) != 1:
            faults.append('%s stands on %d man pages: %s' % (function, len(having), ' '.join(having)))
    said = ' | '.join(map(bare, pages.values()))
    parts = header[header.index('/* ----'):]
    for comment in re.findall(r'^/\*.*?\*/$', re.sub(r'^/\* ---- .*$', '/*', parts, flags=re.M), flags=re.M | re.S):
        if bare(comment) not in said:
            faults.append('no man page has the comment %.70s..' % bare(comment))
    listed = set(re.findall(r'^\.BR (neapwillow\S*) \(3\)', pages['neapwillow.3'], flags=re.M))
    expect("neapwillow(3)'s SEE ALSO", ' '.join(sorted(name.replace('\\', '') + '.3' for name in listed)), ' '.join(sorted(set(pages) - {'neapwillow.3'})))
    return len(declared)


def main():
    readme, version = read(ROOT, 'README.md'), read(ROOT, 'VERSION')
    page, header = read(FOLDER, 'neapwillow.3'), read(ROOT, 'include', 'neapwillow.h')
    said = read(FOLDER, 'installed').splitlines(keepends=True)
    listed = set(re.findall(r'= (\d+)', re.search(r'enum nw_refusal \{(.*?)\};', header, re.S)[1]))
    refusals = [line for line in said[3:] if line.split(' ')[0] in listed]
    others = [line.split(' ', 1)[1] for line in said[3:] if line not in refusals]
    major, minor, patch = map(int, version.split('.'))
    number = major * 10000 + minor * 100 + patch
    expect('NW_VERSION', said[0], version)
    expect('NW_VERSION_NUMBER and nw_version', said[1], '%d %d\n' % (number, number))
    expect("pkg-config's version", read(FOLDER, 'modversion'), version)
    expect('the CRC_32 of 123456789', said[2], '0376E6E7\n')
    expect("the man page's refusals", words_of_page(page), ''.join(refusals))
    expect('other refusals', ''.join(others), 'no such refusal\n' * len(others))
    expect("the README's drill", shown_after(readme, DRILL), read(FOLDER, 'shown'))
    expect("the README's dates", shown_after(readme, DATES), read(FOLDER, 'dates'))
    begin = shown_after(readme, SHOW)  # the README shows how the output begins
    expect("the README's nw show", begin or 'nothing', read(FOLDER, 'told')[:len(begin)])
    expect("the README's screen", shown_after(readme, SCREEN), read(FOLDER, 'screened'))
    functions = set()
    for name in ['neapwillow', 'neapwillow-screen']:
        missing, declared = unnamed(read(FOLDER, name + '.3'), read(ROOT, 'include', name + '.h'))
        faults.extend('the man page %s does not name %s' % (name, function) for function in missing)
        functions |= declared
    on_pages = pages_of_groups(header)
    tried = ' '.join(read(path) for path in glob.glob(os.path.join(ROOT, 'fuzz', '*.[ch]')))
    faults.extend('no fuzz target calls %s' % name for name in sorted(functions - set(re.findall(r'\bnw_\w+', tried))))
    if len({line.split(' ', 1)[1] for line in refusals}) != len(listed) or len(functions) < 40 or on_pages < 150:
        faults.append('two refusals have the same words, or few functions are declared')
    if faults:
        sys.exit('\n'.join(faults))
    print('%d functions and %d refusals as the man pages have them, each of %d functions on one page; the README shows what is shown' % (
        len(functions), len(listed) - 1, on_pages))


main()
