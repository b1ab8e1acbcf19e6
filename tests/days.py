"""Every 16-bit day number, and every date, possible or not, of 1899 to 2039: the library's calendar and Python's."""
# SPDX-License-Identifier: MIT
import datetime
import itertools

import calls

DAY_ZERO = datetime.date(1858, 11, 17)
FIRST, LAST = 15079, 65535
REFUSED = '20 0'
# Numbers that a narrower type would take for a good day, year, month or day of the month.
WIDE_DAYS = [2**16, 2**16 + FIRST, 2**16 + LAST, 2**31, 2**31 + FIRST, 2**32 - 1]
WIDE_DATES = [(2**16 + 2000, 1, 1), (2000, 2**8 + 1, 1), (2000, 1, 2**8 + 1), (2000, 2**16 + 1, 1), (2000, 1, 2**16 + 1),
              (2**32 - 1, 1, 1), (2000, 2**32 - 1, 1), (2000, 1, 2**32 - 1), (0, 0, 0), (0, 1, 1)]


def of_day(n):
    """The answers to date_of and weekday."""
    if not FIRST <= n <= LAST:
        return REFUSED, REFUSED
    date = DAY_ZERO + datetime.timedelta(n)
    return '0 %d' % (date.year * 65536 + date.month * 256 + date.day), '0 %d' % date.isoweekday()


def of_date(year, month, day):
    """The answer to day_of."""
    try:
        n = (datetime.date(year, month, day) - DAY_ZERO).days
    except (ValueError, OverflowError):
        return REFUSED
    return '0 %d' % n if FIRST <= n <= LAST else REFUSED


def cases():
    for n in itertools.chain(range(2**16), WIDE_DAYS):
        date, weekday = of_day(n)
        yield 'date_of %d' % n, date
        yield 'weekday %d' % n, weekday
    for date in itertools.chain(itertools.product(range(1899, 2040), range(14), range(33)), WIDE_DATES):
        yield 'day_of %d %d %d' % date, of_date(*date)


requests, expected = map(list, zip(*cases()))
assert sum(r.startswith('day_of') and e != REFUSED for r, e in zip(requests, expected)) == LAST - FIRST + 1
calls.agree("Python's calendar", requests, calls.answers(requests), expected)
