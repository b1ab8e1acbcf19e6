"""The pages of `nw show --html` in a real browser, on a screen and on a phone: browser.py BROWSER PROGRAM..

The browser sees the elements that a strict parser sees; nothing is wider than the window, no text of a picture is cut off or lies over another, texts
stand out from what is behind them (4.5 to 1, as WCAG 2 asks), and nothing is loaded.
"""
# SPDX-License-Identifier: MIT
import collections
import html
import json
import os
import re
import subprocess
import sys
import tempfile

import html_tree
import make_captures as make

BROWSER, PROGRAM = sys.argv[1], sys.argv[2:]
WIDTHS = 1200, 360
wrong = []


def expect(what, told, real):
    if told != real:
        wrong.append('%s: %.300r and not %.300r' % (what, told, real))


def captures():
    for name, made in make.CAPTURES.items():
        data, words, _, _ = made()
        yield name, data, words
    nasty = make.Content(make.DRILL, [('eng', 2, '<script>document.title = 1</script>' + 'x' * 500, '\u202E&amp;', [])], 0)
    yield 'signs', b''.join(make.Index([make.DRILL] * 9, 0).sections() + nasty.sections(99)[1:]), ['--offset', '+08:00']
    yield 'a long table', b''.join(make.section(make.CERTIFICATE, 65535, 31, n, 255, b'x') for n in range(0, 256, 2)), []


def shown(name, data, words):
    """The page of a capture."""
    done = subprocess.run([*PROGRAM, 'show', '--html', '-', *words, '-'], input=data, capture_output=True, check=False, timeout=300,
                          env={**os.environ, 'LC_ALL': 'C.UTF-8'})
    expect(name, (done.returncode in (0, 1), done.stderr), (True, b''))
    return done.stdout


def browse(folder, pages):
    """What the browser measures of pages, each in a frame of each width."""
    with open(os.path.join(os.path.dirname(os.path.abspath(__file__)), 'browser.js'), encoding='utf-8') as file:
        script = file.read()
    frames = ''.join('<iframe name="%s" width="%d" height="800" srcdoc="%s"></iframe>\n' % (html.escape(name), width, html.escape(page.decode()))
                     for name, page in pages.items() for width in WIDTHS)
    path = os.path.join(folder, 'frames.html')
    with open(path, 'w', encoding='utf-8') as file:
        file.write('<!DOCTYPE html><meta charset="utf-8"><style>iframe { border: 0 }</style><body>%s<script>%s</script>' % (frames, script))
    words = ['--headless', '--no-sandbox', '--disable-gpu', '--disable-dev-shm-usage', '--user-data-dir=' + os.path.join(folder, 'profile'),
             '--virtual-time-budget=60000', '--dump-dom', 'file://' + path]
    done = subprocess.run([BROWSER, *words], capture_output=True, check=False, timeout=200)
    found = re.search(r'<pre id="result">(.*?)</pre>', done.stdout.decode(), re.S)
    if not found:
        sys.exit('the browser ends with %d and measures nothing: %.2000s' % (done.returncode, done.stderr.decode()))
    return json.loads(html.unescape(found[1]))


def check(pages, measured):
    for one in measured:
        what = '%s at %d' % (one['name'], one['width'])
        names = collections.Counter(element.name for element in html_tree.read(pages[one['name']]).all())
        expect(what + ': elements', {**one['names']}, dict(names))
        expect(what + ': too wide', (one['wide'], one['across'] <= one['width']), ([], True))
        expect(what + ': pictures', one['misplaced'], [])
        expect(what + ': loaded, pictures without a name', (one['loaded'], one['unnamed']), (0, 0))
        if one['faintest'] < 4.5:
            wrong.append('%s: a text has a contrast of %.2f' % (what, one['faintest']))


with tempfile.TemporaryDirectory() as scratch:
    made = {name: shown(name, data, words) for name, data, words in captures()}
    seen = browse(scratch, made)
    expect('pages', len(seen), len(made) * len(WIDTHS))
    check(made, seen)
if wrong:
    sys.exit('%s\n%d faults' % ('\n'.join(wrong[:30]), len(wrong)))
print('%d pages in a browser, %s pixels wide: whole, legible, and nothing is loaded' % (len(made), ' and '.join(map(str, WIDTHS))))
