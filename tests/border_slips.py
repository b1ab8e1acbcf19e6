"""Slips in what the box at a border is called with, and pairs of captures for it: the words it has to say, and its status."""
# SPDX-License-Identifier: MIT
from file_slips import DRILL, LONG, ONE, TWO

USAGE = 'usage: border [--rooms N] FILE1 FILE2; border --help says more'
WANTED = 'FILE1 and FILE2 are wanted; words given: %d'
ROOMS = 'N %s: a store has 1 to 512 rooms'
CALLS = [([], WANTED % 0), (['one'], WANTED % 1), (['one', 'two', 'three'], WANTED % 3), (['--rooms', '3', 'one'], WANTED % 1),
         (['--rooms'], '--rooms: N has to follow, 1 to 512'), (['--hole', 'one', 'two'], 'there is no word --hole'),
         *((['--rooms', n, 'one', 'two'], ROOMS % n) for n in ('0', '513', '-1', '+3', '3x', '', '99999999999999999999'))]


def named(section):
    """A table by the heading of one of its sections."""
    return '%s table, extension %s, version %d' % ({0xFD: 'index', 0xFE: 'content'}[section[0]], section[3:5].hex().upper(), section[5] >> 1 & 31)


def whole(network, sections):
    n, rooms = sum(len(s) - 12 for s in sections), len(sections)
    return 'network %d: %s: whole and accepted, %d bytes out of %d room%s' % (network, named(sections[0]), n, rooms, '' if rooms == 1 else 's')


def counted(network, taken, repeated, for_room):
    return 'network %d: sections: %d taken, %d repeated; %d times no room was free' % (network, taken, repeated, for_room)


def pairs():
    """Words, what came from network 1 and from network 2, the status, and lines in their order."""
    both = [whole(1, [ONE]), whole(2, [ONE]), whole(1, [TWO]), whole(2, [TWO])]
    yield [], DRILL, DRILL, 0, [*both, counted(1, 2, 0, 0), counted(2, 2, 0, 0)]
    # One room is enough where each table has one section. Repeats are taken for what they are.
    yield ['--rooms', '1'], DRILL + DRILL, DRILL, 0, [*both, counted(1, 2, 2, 0), counted(2, 2, 0, 0)]
    # Three rooms for two tables of three sections: network 2 gives way, and comes whole after network 1.
    three = b''.join(LONG)
    assert len(LONG) == 3
    yield ['--rooms', '3'], three, three, 0, [
        'network 2: every room is held; its gathering gives way to that of network 1, and its sections wait', whole(1, LONG), whole(2, LONG),
        counted(1, 3, 0, 2), counted(2, 4, 0, 4)]
    # A table that no store of two rooms can hold, and a network from which nothing comes.
    yield ['--rooms', '2'], three, b'', 1, [
        'network 1: %s: given up, it has 3 sections and the store 2 rooms' % named(LONG[0]), 'network 1: no table has come that is whole and accepted',
        'network 2: no table has come that is whole and accepted', 'faults: 3, each of them named above']
    # A section that never came, and one that is cut off.
    yield [], LONG[0] + LONG[2], DRILL, 1, ['network 1: %s: not whole, 1 of its 3 sections is missing' % named(LONG[0])]
    yield [], DRILL, DRILL[:-5], 1, [
        'network 2: bytes %d to %d of two: no good section begins there' % (len(ONE), len(DRILL) - 6), whole(1, [ONE]), whole(2, [ONE]), whole(1, [TWO])]
