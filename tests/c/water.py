"""The calls of the water between two faces (E8), made from C by serve.c, against the independent model.

    water.py SEED SUMS QUESTIONS STEPS -- COMMAND...

makes so many random calls that make sums, that ask for the water and that step and keep the sums.  COMMAND is serve,
with an emulator before it where one is needed.  How calls are made and compared, and what is a case, is compare.py's.
"""

import itertools
import random
from collections import namedtuple

from compare import MARK, Due, Kind, compare, sum_up, table, words      # which also finds the modules below
import hard
import model as m
import sums

LEAST, MOST = -hard.I32, hard.I32 - 1
U32 = (1 << 32) - 1
# About one block, two and three, so that the last is a whole one, or short by one or by all but one cell.
CELLS = (1, 2, 15, 16, 17, 18, 31, 32, 33, 47, 48, 49)

# What is lent beside the numbers: `fault` says which length is wrong, if one is.
Lent = namedtuple("Lent", "state bed sums fault")


# ---- Tables, and lengths that do not fit

def number_of_cells(rnd):
    if rnd.randrange(40) == 0:
        return rnd.choice((m.MOST_CELLS, m.MOST_CELLS, m.MOST_CELLS - 1))
    return rnd.choice((rnd.choice(CELLS), rnd.randint(1, 100)))


def reach(rnd, n):
    """A bed and a state over it in range, deep ones and dry ones too; some as full as there are, or nearly."""
    if rnd.randrange(15) == 0:
        bed, less = hard.beds(rnd, n), rnd.choice(((0,), (0, 0, 1)))
        deep = [m.DEEPEST - rnd.choice(less) for _ in range(n)]
        return bed, m.table_of(hard.placed(zl, zr, h0, 0, 0, 0) for zl, zr, h0 in zip(bed, bed[1:], deep))
    return hard.reach_of(rnd, n, hard.dry_depths(rnd))


def junk(rnd, count):
    """Numbers as wide as an i32 or small, odd and even, above nought and below."""
    edges = LEAST, LEAST + 1, -3, -2, -1, 0, 1, 3, MOST - 1, MOST
    return [rnd.choice((*edges, rnd.randint(LEAST, MOST))) for _ in range(count)]


def blocks(n):
    return len(sums.blocks(n))


CHANGES = {"too short": lambda t: t[:-1], "too long": lambda t: t + [MOST], "of length 0": lambda t: []}
# The last is 1 in 16 bits.
NO_REACH = {"no cell": 0, "1,025 cells": m.MOST_CELLS + 1, "65,537 cells": (1 << 16) + 1}
ONE_TABLE = ["%s %s" % pair for pair in itertools.product(("state", "bed", "sums"), CHANGES)]
# How often each is drawn, against the others.
FAULTS = {**dict.fromkeys([*ONE_TABLE, "no cell", "1,025 cells"], 3), "65,537 cells": 1}


def misfit(rnd, lent):
    """The tables with one of a wrong length; or all of them right for a number of cells that no reach has."""
    fault = rnd.choices(list(FAULTS), FAULTS.values())[0]
    if fault in NO_REACH:
        n = NO_REACH[fault]
        return Lent([0] * (4 * n), [0] * (n + 1), [0] * blocks(n), fault)
    name, change = fault.split(" ", 1)
    return lent._replace(**{name: CHANGES[change](getattr(lent, name))}, fault=fault)


def spoilt(rnd, lent):
    """The tables with a bed value or a cell out of range, or both."""
    c = {"now": lent.state, "bed": lent.bed}
    which = rnd.randrange(3)
    if which != 1:
        hard.fault_range(rnd, c)
    if which != 0:
        hard.fault_bed(rnd, c)
    return lent._replace(state=c["now"], bed=c["bed"])


def lent_tables(rnd):
    """A state in range and its bed, with their own sums."""
    bed, state = reach(rnd, number_of_cells(rnd))
    return Lent(state, bed, sums.sums_of(state, bed), None)


def ending(n):
    """What the last of several blocks is, or that there is but one."""
    if n <= sums.BLOCK_CELLS:
        return "one block"
    return "a short last block" if n % sums.BLOCK_CELLS else "a whole last block"


# ---- Making

def makings(seed, count):
    rnd = random.Random(seed)
    for _ in range(count):
        lent, how = lent_tables(rnd), rnd.randrange(12)
        if how < 4:
            lent = spoilt(rnd, lent)
        elif how == 4:
            n = len(lent.bed) - 1
            lent = lent._replace(state=junk(rnd, 4 * n), bed=junk(rnd, n + 1))
        yield misfit(rnd, lent) if rnd.randrange(5) == 0 else lent


def making_asked(lent):
    return table("I", (len(lent.state), len(lent.bed), len(lent.sums))) + table("i", lent.state) + table("i", lent.bed)


def in_order(check, *given):
    try:
        check(*given)
        return True
    except m.Refused:
        return False


def making_ways(lent, number):
    """What is particular in a call: what a later check would have refused too, and a sum at the end of its range."""
    if number == 1 and lent.fault.startswith("sums") and not in_order(m.check_bed, lent.bed):
        yield "1 for the sums, and a bed out of range"
    if number == 3 and not in_order(sums.check_state, lent.state, lent.bed):
        yield "3, and a state out of range"
    if number == 0:
        n = len(lent.bed) - 1
        yield "made, " + ending(n)
        if n == m.MOST_CELLS:
            yield "made, longest reach"
        if max(lent.sums) == sums.BLOCK_CELLS * m.DEEPEST:
            yield "made, a full block"


def making_due(lent):
    answer = sums.make(lent.state, lent.bed, len(lent.sums))
    if answer[0] == "refused":
        number = answer[1]
        way = "1, " + lent.fault if number == 1 else str(number)
        return Due(number, way, MARK * (4 * len(lent.sums)), list(making_ways(lent, number)))
    return Due(0, "made", table("i", answer[1]), list(making_ways(lent, 0)))


MAKING_WAYS = {
    "made": 3, "made, one block": 15, "made, a whole last block": 30, "made, a short last block": 5,
    "made, longest reach": 500, "made, a full block": 200, "3": 10, "5": 20, "3, and a state out of range": 20,
    "1 for the sums, and a bed out of range": 150,
    **{"1, " + fault: 500 // often for fault, often in FAULTS.items()},
}


# ---- Questions

Question = namedtuple("Question", "lent a b")


def faces(rnd, n):
    """Two faces in order, most of them at the edge of a block or beside it, or at an end of the reach."""
    def one(end):
        edge = sums.BLOCK_CELLS * rnd.randint(0, blocks(n)) + rnd.choice((0, 0, -1, 1))
        return rnd.choice((end, max(0, min(n, edge)), max(0, min(n, edge)), rnd.randint(0, n), rnd.randint(0, n)))
    a, b = sorted((one(0), one(n)))
    if n > 31 and rnd.randrange(3 if n == m.MOST_CELLS else 12) == 0:
        # the most blocks, the most cells with blocks between them and without, and neither
        return rnd.choice(((0, n), (1, n - 1), (1, 31), (a, a)))
    return a, b


def misplaced(rnd, n, a, b):
    """Faces out of order, just beyond the reach or far, or such that only their lower bits would be in order."""
    wide = rnd.choice((1 << 11, 1 << 16, 1 << 31))
    return rnd.choice(((b + 1, a), (b + 1, b), (a, n + 1), (n + 1, n + 1), (n + 1, n), (n + 2, n + 1), (a, U32),
                       (U32, b), (U32, U32), (U32, U32 - 1), (a, b + wide), (a + wide, b), (a + wide, b + wide)))


def questions(seed, count):
    rnd = random.Random(seed)
    for _ in range(count):
        lent, how = lent_tables(rnd), rnd.randrange(4)
        n = len(lent.bed) - 1
        if how == 0:        # tables of which nothing is in order
            lent = Lent(junk(rnd, 4 * n), junk(rnd, n + 1), junk(rnd, len(lent.sums)), None)
        elif how == 1:      # sums of another state
            lent = lent._replace(sums=[z + rnd.choice((0, -1, 1, 7)) for z in lent.sums])
        a, b = faces(rnd, n)
        if rnd.randrange(8) == 0:
            a, b = misplaced(rnd, n, a, b)
        yield Question(misfit(rnd, lent) if rnd.randrange(8) == 0 else lent, a, b)


def question_asked(q):
    state, bed, kept, _ = q.lent
    return (table("I", (len(state), len(bed), len(kept), q.a, q.b))
            + table("i", state) + table("i", bed) + table("i", kept))


def read_way(cells, whole, a, b):
    """What is read between two faces: cells before the whole blocks, these, cells behind them; or cells alone."""
    if not whole:
        return "answered, cells alone" if cells else "answered, nothing"
    before, behind = ["cells before"] * (a in cells), ["cells behind"] * (b - 1 in cells)
    return "answered, " + ", ".join(before + ["blocks" if len(whole) > 1 else "a block"] + behind)


def question_ways(q, cells, whole, water):
    """What is particular in a question that is answered."""
    state, bed, kept, _ = q.lent
    n = len(bed) - 1
    short = n % sums.BLOCK_CELLS
    if short and blocks(n) - 1 in whole:
        yield "answered, a short last block read"
    if short and q.a < n - short < q.b < n and n > sums.BLOCK_CELLS:
        yield "answered, a short last block cut"
    if len(cells) == 30:
        yield "answered, 30 cells read"
    if len(whole) == 64:
        yield "answered, 64 blocks read"
    if abs(water) > hard.I32:
        yield "answered, more than 32 bits hold"
    if any((bed[i] + bed[i + 1]) % 2 and bed[i] + bed[i + 1] < 0 for i in cells):
        yield "answered, half of an odd sum below nought"
    if q.b > q.a and kept == sums.sums_of(state, bed):
        assert water == sums.water(state, bed, q.a, q.b)
        yield "answered, the water itself"


def question_due(q):
    state, bed, kept, fault = q.lent
    n, (said, *numbers) = len(bed) - 1, sums.between(state, bed, kept, q.a, q.b)
    if said == "refused":
        wrong = [what for what, is_so in (("a over b", q.a > q.b), ("b over n", q.b > n)) if is_so]
        if numbers == [10]:
            return Due(10, "10, " + " and ".join(wrong), MARK * 24)
        return Due(numbers[0], "1, " + fault, MARK * 24, ["1, and faces misplaced"] if wrong else [])
    cells, whole = sums.read(n, q.a, q.b)
    also = list(question_ways(q, cells, whole, numbers[0]))
    return Due(0, read_way(cells, whole, q.a, q.b), table("q", numbers), also)


QUESTION_WAYS = {
    **{"answered, " + way: share for way, share in (
        ("nothing", 20), ("cells alone", 8), ("a block", 30), ("cells before, a block", 40),
        ("a block, cells behind", 60), ("cells before, a block, cells behind", 100), ("blocks", 30),
        ("cells before, blocks", 40), ("blocks, cells behind", 60), ("cells before, blocks, cells behind", 100),
        ("a short last block read", 8), ("a short last block cut", 50), ("30 cells read", 200),
        ("64 blocks read", 1500), ("more than 32 bits hold", 30), ("half of an odd sum below nought", 30),
        ("the water itself", 5))},
    "10, a over b": 60, "10, b over n": 60, "10, a over b and b over n": 300, "1, and faces misplaced": 80,
    **{"1, " + fault: 700 // often for fault, often in FAULTS.items()},
}


# ---- Steps that keep the sums

Kept = namedtuple("Kept", "step sums_len fault")


def ordinary(rnd):
    """A step of blocks that end in each way, mostly accepted: of the other calls few are of so many cells."""
    bed, now = hard.run_reach(rnd, rnd.choice((*CELLS[2:], *CELLS[2:], m.MOST_CELLS)))
    return hard.run_call(rnd, now, bed, rnd.randint(1, 60000))


def kept_steps(seed, count):
    rnd, drawn = random.Random(seed), hard.calls(seed, count)
    for call in drawn:
        if rnd.randrange(4) == 0:
            call = ordinary(rnd)
        fits = blocks(len(call[3]))
        fault = rnd.choice(list(CHANGES)) if rnd.randrange(3) == 0 and fits else None
        length = {None: fits, "too short": fits - 1, "too long": fits + 1, "of length 0": 0}[fault]
        yield Kept(call, length, fault)


def kept_asked(kept):
    now, next_len, bed, friction, *numbers = kept.step
    return (table("I", (len(now), next_len, len(bed), len(friction), *numbers, kept.sums_len))
            + table("i", now) + table("i", bed) + table("H", friction))


def kept_due(kept):
    next_len, n = kept.step[1], len(kept.step[3])
    answer = sums.step(*kept.step[:4], kept.sums_len, *kept.step[4:])
    if answer[0] == "accepted":
        _, state, W0, Wn, own = answer
        also = ["accepted, " + ending(n)] + ["accepted, longest reach"] * (n == m.MOST_CELLS)
        return Due(0, "accepted", table("I", [0]) + table("i", state) + table("q", (W0, Wn)) + table("i", own), also)
    number, place = answer[1:]
    if kept.fault:
        without = m.step(*kept.step)
        also = ["1, sums %s" % kept.fault,
                "1 for the sums, without them %s" % (without[1] if without[0] == "refused" else "accepted")]
    else:
        also = ["%d, with sums that fit" % number]
    return Due(number, str(number), table("I", [place]) + MARK * (4 * next_len + 16 + 4 * kept.sums_len), also)


KEPT_WAYS = {
    "accepted": 5, "accepted, one block": 10, "accepted, a whole last block": 40, "accepted, a short last block": 20,
    "accepted, longest reach": 300, **{"1, sums %s" % fault: 15 for fault in CHANGES},
    **{"%d, with sums that fit" % number: share
       for number, share in enumerate((200, 200, 500, 500, 600, 20, 25, 30), 1)},
    "1 for the sums, without them accepted": 10,
    **{"1 for the sums, without them %d" % number: share
       for number, share in enumerate((500, 500, 800, 1000, 1500, 50, 50, 50), 1)},
}


KINDS = (
    Kind("sums", makings, making_asked, making_due, MAKING_WAYS),
    Kind("between", questions, question_asked, question_due, QUESTION_WAYS),
    Kind("step_sums", kept_steps, kept_asked, kept_due, KEPT_WAYS),
)


def main():
    (seed, *counts), command = words("water.py SEED SUMS QUESTIONS STEPS -- COMMAND...")
    for kind, count in zip(KINDS, counts):
        compare(kind, seed, count, command)
    sum_up()


if __name__ == "__main__":
    main()
