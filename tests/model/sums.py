"""The water between two faces, from the words of 02's E8.

Beside a state stand sums, for each block of sixteen cells that of its mean depths; the last block is what is left.
Said here is what is read, by lists: which blocks lie whole within a range, and which of its cells no such block
covers.  How a library comes to them is its own matter.

`make` answers ("refused", number) or ("made", sums), `between` ("refused", number) or ("answered", water, cells,
blocks), and `step` as the model's does, with the sums behind the rest: ("accepted", next, W0, Wn, sums).
"""

import model as m

BLOCK_CELLS = 16


def blocks(n):
    """The cells of each block of a reach of n."""
    return [range(first, min(first + BLOCK_CELLS, n)) for first in range(0, n, BLOCK_CELLS)]


def mean_depth(state, bed, i):
    """Of whatever the tables hold: 01's "/" also where the sum of the beds is odd or below nought."""
    return state[i] - m.quo(bed[i] + bed[i + 1], 2)


def sums_of(state, bed):
    return [sum(mean_depth(state, bed, i) for i in block) for block in blocks(len(bed) - 1)]


def water(state, bed, a, b):
    """Of the cells between faces a and b, one by one."""
    return sum(mean_depth(state, bed, i) for i in range(a, b))


# ---- Checks

def check_tables(state, bed, sums_len):
    """1: the bed says how many cells there are, and the other two must fit it."""
    n = len(bed) - 1
    if not 1 <= n <= m.MOST_CELLS:
        raise m.Refused(1, 0, "cells")
    if len(state) != 4 * n:
        raise m.Refused(1, 0, "state length")
    if sums_len != len(blocks(n)):
        raise m.Refused(1, 0, "sums length")


def check_state(state, bed):
    """5 as in 01, of the state as it is lent; 3 has passed before it."""
    for i, cell in enumerate(m.cells_of(state)):
        if not m.in_range(cell, bed[i], bed[i + 1]):
            raise m.Refused(5, i, "present state")


def check_faces(a, b, n):
    if a > b:
        raise m.Refused(10, 0, "a over b")
    if b > n:
        raise m.Refused(10, 0, "b over n")


# ---- Making, asking and keeping; a refusal is raised, so that its check can be told apart

def made(state, bed, sums_len):
    check_tables(state, bed, sums_len)
    m.check_bed(bed)
    check_state(state, bed)
    return sums_of(state, bed)


def read(n, a, b):
    """What is read between faces a and b: the cells that no whole block covers, and the blocks that lie whole there."""
    within, every = range(a, b), blocks(n)
    whole = [k for k, block in enumerate(every) if all(i in within for i in block)]
    covered = {i for k in whole for i in every[k]}
    return [i for i in within if i not in covered], whole


def asked(state, bed, sums, a, b):
    """The water as the numbers stand, and how many cells and blocks were read."""
    n = len(bed) - 1
    check_tables(state, bed, len(sums))
    check_faces(a, b, n)
    cells, whole = read(n, a, b)
    return sum(mean_depth(state, bed, i) for i in cells) + sum(sums[k] for k in whole), len(cells), len(whole)


def worked(now, next_len, bed, friction, sums_len, *numbers):
    """The step; sums of a length that does not fit are a 1 before all other checks."""
    if sums_len != len(blocks(len(friction))):
        raise m.Refused(1, 0, "sums length")
    state, W0, Wn = m.worked(now, next_len, bed, friction, *numbers)
    return state, W0, Wn, sums_of(state, bed)


def make(state, bed, sums_len):
    try:
        return "made", made(state, bed, sums_len)
    except m.Refused as r:
        return "refused", r.number


def between(state, bed, sums, a, b):
    try:
        return ("answered",) + asked(state, bed, sums, a, b)
    except m.Refused as r:
        return "refused", r.number


def step(now, next_len, bed, friction, sums_len, *numbers):
    try:
        return ("accepted",) + worked(now, next_len, bed, friction, sums_len, *numbers)
    except m.Refused as r:
        return "refused", r.number, r.place
