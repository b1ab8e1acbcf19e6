"""Texts shown in the terminal's own character set, whatever set they came in: nw_terminals.py HOW FOLDER PROGRAM..

FOLDER has the locales. What has to be shown is worked out by Python's codecs: a character of the terminal's set in its bytes, any other as \\u{..}.
"""
# SPDX-License-Identifier: MIT
import os
import subprocess
import sys

import make_captures as make

HOW, FOLDER, PROGRAM = sys.argv[1], sys.argv[2], sys.argv[3:]
CODECS = {'C.UTF-8': 'utf-8', 'C': 'ascii', 'zh_CN.GB18030': 'gb18030', 'zh_CN.GBK': 'gbk', 'zh_CN.GB2312': 'gb2312', 'en_US.ISO-8859-1': 'latin-1'}
TEXTS = {0: '这是演练。', 1: '县應急辦 – café, ¿qué?', 2: '請步行 Ω é ÿ 😀'}


def shown(text, codec):
    """A text in the bytes of a terminal's set."""
    made = b''
    for c in text:
        try:
            made += c.encode(codec)
        except UnicodeEncodeError:
            made += b'\\u{%X}' % ord(c)
    return made


def main():
    wrong, count = [], 0
    content = make.Content(make.DRILL, [('zho', its_set, text, '', []) for its_set, text in TEXTS.items()], 0)
    data = b''.join(make.Index([make.DRILL], 0).sections() + content.sections())
    for name, codec in CODECS.items():
        if not name.startswith('C') and not os.path.isdir(os.path.join(FOLDER, name)):
            continue
        done = subprocess.run([*PROGRAM, 'show', '-'], input=data, capture_output=True, check=False, timeout=100,
                              env={**os.environ, 'LC_ALL': name, 'LOCPATH': FOLDER})
        lines = [line for line in done.stdout.split(b'\n') if line.startswith(b'      | ')]
        wanted = [b'      | ' + shown(text, codec) for text in TEXTS.values()]
        if (done.returncode, done.stderr, lines) != (0, b'', wanted):
            wrong.append('on %s: %d, %.200r, %r and not %r' % (name, done.returncode, done.stderr, lines, wanted))
        count += 1
    if wrong or count < 2:
        sys.exit('\n'.join(wrong) or 'no terminal is there')
    print('%s: texts of %d sets in the characters of %d terminals' % (HOW, len(TEXTS), count))


main()
