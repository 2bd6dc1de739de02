"""Head cell 5 (paper 02, No. 1) in the calls that were made from paper 01 alone, where it was zero.

A table that is lent last moved at the start or at its last reading, in turns; what is answered is what it was, and
"altered means that a unit cell or the state cell holds another number afterwards".
"""
import struct

STATE, LAST_READING, MOVED, HEAD = 0, 1, 5, 8


def start_of(agreement): return struct.unpack_from("<I", agreement, 4)[0]
def moved(time, table): return table[:MOVED] + [time] + table[MOVED + 1:]


def lent_moved(place, agreement, table, number):
    """The table lent to a reading. What was damaged by something in this cell still is."""
    if 1 <= number <= 6:
        return table
    if table[MOVED]:
        return moved(-abs(table[MOVED]), table)
    return moved(table[LAST_READING] if place % 2 else start_of(agreement), table)


def left_moved(lent, table, reading):
    """The table that an accepted reading leaves."""
    altered = lent[STATE] != table[STATE] or lent[HEAD:] != table[HEAD:]
    return moved(struct.unpack_from("<I", reading, 4)[0] if altered else lent[MOVED], table)
