"""The second program for what a screen box shows, which shares no code with the library."""
# SPDX-License-Identifier: MIT
import second_index
from calls import Refused
from second_times import DAY, FIRST, LAST, read_field, time_showing

DIGITS = 23


def candidates(kind, body, code, day, second):
    """The messages that concern the box and are on: level, start, number, where each begins and its length."""
    if len(code) != DIGITS or max(code) > 9:
        raise Refused(18)
    if not FIRST <= day <= LAST or second >= DAY:
        raise Refused(20)
    table = second_index.read(kind, body)
    own = ''.join(map(str, code))
    for number, (message, record) in enumerate(zip(table['messages'], table['records'])):
        concerned = any(digits == own for _, _, digits in message['resources'])
        if concerned and time_showing(message['start'], message['end'], day, second) == 1:
            yield message['level'], read_field(message['start']), number, record[0], record[1]


def choose(*asked):
    """The message to show, its number, where it begins and its length; or none."""
    on = list(candidates(*asked))
    return min(on)[2:] if on else 'none'
