"""Puts requests to the library through tests/calls.c, and holds its answers to those of a second program."""
# SPDX-License-Identifier: MIT
import os
import subprocess
import sys

TESTS = os.path.dirname(os.path.abspath(__file__))

# What calls.c must say of these if it reads byte strings and numbers as they are written here.
ECHOES = ['- 0 0 0 - -', '00ff0a 4294967295 -2147483648 18446744073709551615 7f80 18446744073709551615,0,7',
          '7f 1 2147483647 1099511627776 - 0']


def version():
    """The version that the file VERSION has."""
    with open(os.path.join(TESTS, os.pardir, 'VERSION'), encoding='ascii') as file:
        return file.read().strip()


def hexadecimal(data):
    """A byte string as a request has it: a last byte that stands there often is given once."""
    before = len(data.rstrip(data[-1:]))
    if len(data) - before > 100:
        return '%s*%d' % (data[:before + 1].hex(), len(data) - before)
    return data.hex() or '-'


def word(argument):
    """A byte string, a tape of numbers or a number as a request has it."""
    if isinstance(argument, list):
        return ','.join(map(str, argument)) or '-'
    return hexadecimal(argument) if isinstance(argument, bytes) else str(argument)


def request(call, *arguments):
    """The line that asks for a call."""
    return ' '.join([call, *map(word, arguments)])


class Refused(Exception):
    """A second program's refusal: its number, then whatever the answer has after the place."""

    def __init__(self, number, *after, place=0):
        super().__init__(number, *after)
        self.place = place


def answer(item):
    """A byte string, a tape of numbers or a number as calls.c prints it."""
    return (item.hex() or '-') if isinstance(item, bytes) else word(item)


def told(call, *arguments):
    """The answer of a second program's function, as calls.c prints the library's."""
    try:
        value = call(*arguments)
        items = (0, *value) if isinstance(value, tuple) else (0, value)
    except Refused as refusal:
        items = (refusal.args[0], refusal.place, *refusal.args[1:])
    return ' '.join(answer(item) for item in items)


def answers(requests):
    """The library's answer to each request. Ends the program where they can't be had."""
    sent = ['echo ' + e for e in ECHOES] + requests
    run = subprocess.run([os.path.join(TESTS, os.pardir, 'tools', 'c-side'), os.path.join(TESTS, 'calls.c')],
                         input='\n'.join(sent) + '\n', stdout=subprocess.PIPE, encoding='ascii')
    if run.returncode == 77:
        sys.exit(77)
    got = run.stdout.splitlines()
    if run.returncode or len(got) != len(sent) or got[:len(ECHOES)] != ECHOES:
        sys.exit('calls: status %d, %d answers to %d requests, the first %s'
                 % (run.returncode, len(got), len(sent), got[:len(ECHOES)]))
    return got[len(ECHOES):]


def agree(second, requests, got, expected):
    """Ends the program unless the library gave each answer that the second program gives."""
    wrong = [i for i in range(len(requests)) if got[i] != expected[i]]
    for i in wrong[:5]:
        print('%.60s: the library says %.120s, %s says %.120s' % (requests[i], got[i], second, expected[i]))
    if wrong or not requests or len(expected) != len(requests):
        sys.exit('%d of %d answers differ from those of %s' % (len(wrong), len(requests), second))
    print('%d answers are those of %s' % (len(requests), second))


def compare(second, program, cases):
    """Puts each case, a call and its arguments, to the library and to a second program's function of that name."""
    requests = [request(*case) for case in cases]
    got = answers(requests)
    agree(second, requests, got, [told(getattr(program, call), *arguments) for call, *arguments in cases])
    return got
