"""Runs a program of this repository on inputs, and holds its whole output to a second program's."""
# SPDX-License-Identifier: MIT
import subprocess
import sys
import time

COMMAND = sys.argv[1:]


def output(pieces):
    """What the program writes when its input comes in these pieces."""
    program = subprocess.Popen(COMMAND, bufsize=0, stdin=subprocess.PIPE, stdout=subprocess.PIPE)
    for piece in pieces[:-1]:
        program.stdin.write(piece)
        time.sleep(0.05)
    written, _ = program.communicate(pieces[-1])
    if program.returncode != 0:
        sys.exit('%.60r: the program ends with status %d' % (b''.join(pieces), program.returncode))
    return written


def compare(inputs, second):
    """Ends with an error unless the program writes what the second one does. An input is the list of its pieces."""
    wrong = 0
    for pieces in inputs:
        data = b''.join(pieces)
        written, expected = output(pieces), second(data)
        if written != expected:
            wrong += 1
            print('%d bytes, %.60r: the program writes %.200r, a second program %.200r'
                  % (len(data), data, written, expected))
    if wrong or not inputs:
        sys.exit('%d of %d outputs differ from those of a second program' % (wrong, len(inputs)))
    print('%d outputs are those of a second program' % len(inputs))
