"""Every date of 1899 to 2039 and every month and day from 00 to 99 in an identifier: what the library takes, and Python's calendar."""
# SPDX-License-Identifier: MIT
import datetime
import os
import subprocess

TESTS = os.path.dirname(os.path.abspath(__file__))
FIRST, LAST = datetime.date(1900, 3, 1), datetime.date(2038, 4, 22)


def letter(year, month, day):
    """What real_days.c is to say of a date: `.` is taken, `x` refused."""
    try:
        return '.' if FIRST <= datetime.date(year, month, day) <= LAST else 'x'
    except ValueError:
        return 'x'


def lines():
    for year in range(1899, 2040):
        for month in range(100):
            yield '%d %02d %s' % (year, month, ''.join(letter(year, month, day) for day in range(100)))


expected = [*lines()]
days = sum(line.count('.') for line in expected)
assert days == (LAST - FIRST).days + 1
run = subprocess.run([os.path.join(TESTS, os.pardir, 'tools', 'c-side'), os.path.join(TESTS, 'real_days.c')],
                     stdin=subprocess.DEVNULL, stdout=subprocess.PIPE, encoding='ascii')
if run.returncode:
    raise SystemExit(run.returncode)
for got, wanted in zip(run.stdout.splitlines(), expected, strict=True):
    assert got == wanted, (got, wanted)
print("%d dates in an identifier, each put to 15 calls: the %d that Python's calendar has from 1 March 1900 to 22 April 2038 are taken"
      % (len(expected) * 100, days))
