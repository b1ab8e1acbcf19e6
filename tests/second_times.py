"""The second program for times, which shares no code with the library: the calendar day after day, fields, text and showing.

Times for people are Python's own datetime: a field's moment at an offset, printed.
"""
# SPDX-License-Identifier: MIT
import datetime
import math
import re

from calls import Refused

FIRST, LAST = 15079, 65535
DAY = 86400
LIVE = 0xFFFFFFFFFF


def calendar():
    """The dates of days 0 to LAST, each the day after the one before. Day 0 is 17 November 1858."""
    year, month, day = 1858, 11, 17
    for _ in range(LAST + 1):
        yield year, month, day
        leap = year % 4 == 0 and (year % 100 != 0 or year % 400 == 0)
        length = 28 + leap if month == 2 else 30 if month in (4, 6, 9, 11) else 31
        if day < length:
            day += 1
        elif month < 12:
            month, day = month + 1, 1
        else:
            year, month, day = year + 1, 1, 1


DATES = list(calendar())
DAY_OF = {date: n for n, date in enumerate(DATES) if n >= FIRST}

# A moment is a number of seconds since day 0 began.


def in_range(moment):
    if not FIRST <= moment // DAY <= LAST:
        raise Refused(20)
    return moment


def moment_of(day, hour, minute, second):
    if hour > 23 or minute > 59 or second > 59:
        raise Refused(20)
    return in_range(day * DAY + hour * 3600 + minute * 60 + second)


def clock(moment):
    return moment // 3600 % 24, moment // 60 % 60, moment % 60


def field_of(moment):
    return int('%04X%02d%02d%02d' % (moment // DAY, *clock(moment)), 16)


def read_field(field):
    if field >= 2**40:
        raise Refused(19)
    digits = '%010X' % field
    if not digits[4:].isdecimal():
        raise Refused(18)
    return moment_of(int(digits[:4], 16), int(digits[4:6]), int(digits[6:8]), int(digits[8:]))


def seconds_of(offset):
    if not -720 <= offset <= 840:
        raise Refused(19)
    return offset * 60


# ---- the calls


def time_pack(year, month, day, hour, minute, second, offset):
    east = seconds_of(offset)
    if (year, month, day) not in DAY_OF:
        raise Refused(20)
    return field_of(in_range(moment_of(DAY_OF[year, month, day], hour, minute, second) - east))


def time_unpack(field, offset):
    local = in_range(seconds_of(offset) + read_field(field))
    parts = (*DATES[local // DAY], *clock(local))
    return int('%X%02X%02X%02X%02X%02X' % parts, 16), *parts


def time_read_text(text, offset):
    seconds_of(offset)
    form = re.fullmatch(rb'([0-9]{2})/([0-9]{2})/([0-9]{4}) ([0-9]{2}):([0-9]{2}):([0-9]{2})', text)
    if not form:
        raise Refused(24)
    day, month, *year_and_time = map(int, form.groups())
    return time_pack(year_and_time[0], month, day, *year_and_time[1:], offset)


EPOCH = datetime.datetime(1858, 11, 17)


def printed(characters, out):
    if len(out) < len(characters):
        raise Refused(21, out)
    return len(characters), characters + out[len(characters):]


def local_characters(field, offset, out):
    """The field's moment and its local one by datetime; what is refused leaves the output."""
    try:
        east = seconds_of(offset)
        moment = EPOCH + datetime.timedelta(seconds=read_field(field))
        in_range(read_field(field) + east)
    except Refused as refusal:
        raise Refused(refusal.args[0], out) from None
    return (moment + datetime.timedelta(seconds=east)).strftime('%d/%m/%Y %H:%M:%S').encode()


def time_print_start(field, offset, out):
    return printed(local_characters(field, offset, out), out)


def time_print_end(field, offset, out):
    if -720 <= offset <= 840 and field == LIVE:
        return printed(b'live', out)
    return time_print_start(field, offset, out)


def times_read_text(start, end, live, offset, fields):
    try:
        first = time_read_text(start, offset)
        return 0, [first, LIVE if live else time_read_text(end, offset)]
    except Refused as refusal:
        raise Refused(refusal.args[0], fields) from None


def time_showing(start, end, day, second):
    if not FIRST <= day <= LAST or second >= DAY:
        raise Refused(20)
    now = day * DAY + second
    begins = read_field(start)
    ends = math.inf if end == LIVE else read_field(end)
    return 0 if now < begins else 1 if now < ends else 2
