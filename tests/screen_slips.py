"""Slips in what a screen box's main loop is called with, and tables for it: the words it has to say, and its status."""
# SPDX-License-Identifier: MIT
import random

import make_fields
import make_index
from second_times import DAY, LIVE, field_of

OWN = '36543200000000303010103'
USAGE = 'usage: screen FILE CODE MINUTES [TIME SECONDS]; screen --help says more'
EIGHT = ['480', '03/11/2024 08:00:00']
WANTED = 'FILE, CODE and MINUTES are wanted, and perhaps TIME and SECONDS; words given: %d'
SECONDS = 'SECONDS %s: they have to be a whole number from 1 to 31622400'
MINUTES = 'MINUTES %s: they have to be a whole number from -720 to 840'
CALLS = [([], WANTED % 0), (['table', OWN], WANTED % 2), (['table', OWN, *EIGHT], WANTED % 4), (['table', OWN, *EIGHT, '1', '1'], WANTED % 6),
         *((['table', OWN, n], MINUTES % n) for n in ('-721', '841', '480x', '', '4 8', '99999999999999999999')),
         *((['table', OWN, *EIGHT, n], SECONDS % n) for n in ('0', '-1', '+1', '31622401', '1x', '', '99999999999999999999')),
         (['table', '36543x00000000303010103', '480'], 'CODE 36543x00000000303010103: character 6 is no digit (refusal 18)'),
         (['table', OWN[:22] + ':', '480'], 'CODE %s:: character 23 is no digit (refusal 18)' % OWN[:22]),
         (['table', OWN + ' ', '480'], 'CODE %s : character 24 is no digit (refusal 18)' % OWN),
         *((['table', code, '480'], "CODE %s: a box's code has 23 digits, and these are %d (refusal 18)" % (code, len(code)))
           for code in ('', OWN[:22], OWN + '4', OWN * 3)),
         (['table', OWN, '480', '11/13/2024 08:00:00', '1'], 'TIME 11/13/2024 08:00:00: the day or the time is impossible or out of range (refusal 20)'),
         (['table', OWN, '480', '3/11/2024 08:00:00', '1'], 'TIME 3/11/2024 08:00:00: the text is not dd/mm/yyyy hh:mm:ss (refusal 24)')]

# 3 November 2024, 00:00:00 UTC
NOW = 60617 * DAY
chance = random.Random(8)


def message(level, start, end, code=OWN):
    """A message by its start and end, in seconds from then on."""
    return {**make_index.message(chance, 0, False), 'level': level, 'start': field_of(NOW + start), 'end': LIVE if end is None else field_of(NOW + end),
            'resources': [code]}


def body(*messages):
    return make_fields.body_of(make_index.items({'messages': list(messages), 'signature': b''}))


def said(moment, shown, times):
    return '%s: message %s, level %d, start %s, end %s' % (moment, shown['identifier'], shown['level'], *times)


LONG, SHORT, OTHER, LASTING = message(4, 0, 20), message(2, 5, 10), message(1, 0, None, '4' + OWN[1:]), message(4, 0, None)
TABLE, BROKEN = body(LONG, SHORT, OTHER, LASTING), b'\1'
AT = '03/11/2024 08:00:%02d UTC+08:00'
FIRST = (AT % 0, AT % 20)
TABLES = [
    # from one to the other and back, and a live one after all; in UTC too
    ([OWN, *EIGHT, '30'], TABLE, 0, [said(AT % 0, LONG, FIRST), said(AT % 5, SHORT, (AT % 5, AT % 10)), said(AT % 10, LONG, FIRST),
                                     said(AT % 20, LASTING, (AT % 0, 'live'))]),
    ([OWN, '0', '03/11/2024 00:00:05', '1'], TABLE, 0,
     [said('03/11/2024 00:00:05 UTC', SHORT, ('03/11/2024 00:00:05 UTC', '03/11/2024 00:00:10 UTC'))]),
    ([OWN, *EIGHT, '9'], body(), 0, [AT % 0 + ': nothing to show']),
    ([OWN, '-90', '02/11/2024 22:29:59', '2'], body(SHORT), 0, ['02/11/2024 22:29:59 UTC-01:30: nothing to show']),
    # refused tables, and the day after the last
    ([OWN, *EIGHT, '9'], BROKEN, 1, [AT % 0 + ': nothing, the table is refused: the body ends too early (refusal 14, at byte 1)']),
    ([OWN, *EIGHT, '9'], bytes(1045505), 1, [AT % 0 + ': nothing, the table is refused: a length, a count or a body is too large (refusal 22)']),
    ([OWN, '0', '22/04/2038 23:59:59', '2'], body(), 1, [
        '22/04/2038 23:59:59 UTC: nothing to show', "screen: day 65536 (MJD): the library's days end with 65535, 22/04/2038 UTC"])]
