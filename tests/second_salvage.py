"""The second program for salvaging, which shares no code with the library: the runs of a capture, and what is kept of it."""
# SPDX-License-Identifier: MIT
from calls import Refused
from second_sections import section_length, section_read

MOST = 65536
KEPT, SKIPPED = 1, 0


def good_length(capture, at):
    """The length of the good section that begins at a place, or 0."""
    if not 0xFB <= capture[at] <= 0xFE:
        return 0
    try:
        length = section_length(capture[at:at + 8])
        section_read(capture[at:at + length])
    except Refused:
        return 0
    return length


def runs_of(capture):
    """(kept, first, length) of each run."""
    runs, at = [], 0
    while at < len(capture):
        length = good_length(capture, at)
        if length:
            runs.append((KEPT, at, length))
        elif runs and runs[-1][0] == SKIPPED:
            runs[-1] = (SKIPPED, runs[-1][1], runs[-1][2] + 1)
        else:
            runs.append((SKIPPED, at, 1))
        at += length or 1
    return runs


def kept_of(capture, runs):
    return b''.join(capture[first:first + length] for kept, first, length in runs if kept)


def numbers_of(runs):
    """The list as C has it: three numbers of 32 bits for each run, the low byte first."""
    return b''.join(number.to_bytes(4, 'little') for run in runs for number in run)


def lines_of(runs):
    """The list as the command writes it."""
    words = {KEPT: 'kept', SKIPPED: 'skipped'}
    return 'run first length\n' + ''.join('%s %d %d\n' % (words[kept], first, length) for kept, first, length in runs)


# ---- the call


def salvage(capture, out, listed):
    if len(capture) > MOST:
        raise Refused(36, out, listed)
    runs = runs_of(capture)
    kept, numbers = kept_of(capture, runs), numbers_of(runs)
    if len(out) < len(kept) or len(listed) // 4 < 3 * len(runs):
        raise Refused(21, out, listed)
    return len(runs) << 24 | len(kept), len(runs), len(kept), kept + out[len(kept):], numbers + listed[len(numbers):]
