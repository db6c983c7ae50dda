"""The step in doubles (E1), called from C by serve.c, against the independent model, bit for bit.

    double_step.py SEED STEPS RUNS -- COMMAND...

makes so many random steps, and so many runs of some hundred steps, in which what one step wrote is lent to the next.
COMMAND is serve, with an emulator before it where one is needed.  How calls are made and compared, and what is a case,
is compare.py's.
"""

import itertools
import random
import struct
from collections import namedtuple
from math import inf, nextafter

from compare import INDEX_WAYS, MARK, Due, Kind, compare, sum_up, table, words      # which also finds the modules below
import before
import double_hard
import double_places
import double_step as d
import hard

ENDS = list(itertools.product((d.WALL, d.OPEN), repeat=2))
LONG = {d.MOST_CELLS: ", longest reach", hard.SHORT_CELLS: ", 128 cells", hard.SHORT_CELLS + 1: ", 129 cells"}
COLUMNS = ("level mean", "level slope", "discharge mean", "discharge slope")
LEAST_NORMAL = double_hard.LEAST_NORMAL


# ---- Calls

def wide_step(rnd, call):
    """The call with a kind or with lengths that would look right if C's higher bits were lost."""
    now, next_len, bed, friction, *numbers = call
    if rnd.randrange(10) == 0:
        more = 1 << 16
        return (now + [0.0] * (4 * more), next_len + 4 * more, bed + [0.0] * more, friction + [0] * more, *numbers)
    k = rnd.choice((3, 4))
    numbers[k] = (numbers[k] + rnd.choice((1 << 8, 1 << 16, 1 << 31))) % (1 << 32)
    return (now, next_len, bed, friction, *numbers)


def steps(seed, count):
    rnd = random.Random(seed)
    for call in double_hard.calls(seed, count):
        yield wide_step(rnd, call) if rnd.randrange(50) == 0 else call


def step_asked(call):
    now, next_len, bed, friction, dx, dt, jump, left, right = call
    return (table("I", (len(now), next_len, len(bed), len(friction), left, right)) + table("d", (dx, dt, jump))
            + table("d", now) + table("d", bed) + table("H", friction))


# ---- What is due

Answer = namedtuple("Answer", "number place state volumes")


def answered(call):
    """The model's answer, and the check that refused, or None."""
    try:
        state, W0, Wn = d.worked(*call)
        return Answer(0, 0, state, (W0, Wn)), None
    except d.Refused as r:
        return Answer(r.number, r.place, None, None), r.check


def tables_of(answer, next_len):
    """What serve tells behind the number."""
    if answer.number:
        return table("I", [answer.place]) + MARK * (8 * next_len + 16)
    return table("I", [0]) + table("d", answer.state) + table("d", answer.volumes)


def what(x, least, most):
    """What is wrong with a number that is not within its limits."""
    if x != x:
        return "NaN"
    if x in (inf, -inf):
        return "infinite"
    if x < least:
        return "just below" if x == nextafter(least, -inf) else "below"
    return "just above" if x == nextafter(most, inf) else "above"


def number_ways(call):
    """Which number alone is why check 2 refuses a call, and what it is."""
    dx, dt, jump, left, right = call[4:]
    limits = {"dx": (dx, d.LEAST_DX, d.LONGEST_DX), "dt": (dt, d.LEAST_DT, d.LONGEST_DT),
              "jump": (jump, 0.0, d.GREATEST_JUMP)}
    wrong = ["%s %s" % (name, what(*given)) for name, given in limits.items() if not d.within(*given)]
    wrong += ["%s end" % side for side, kind in (("left", left), ("right", right)) if kind > 1]
    if len(wrong) == 1:
        yield "2 numbers, " + wrong[0]


def cell_ways(cells, call, i, way):
    """By what cell i is out of range."""
    reach = d.Call(len(call[3]), call[2], *call[4:])
    cell, bed = cells[i], (reach.bed[i], reach.bed[i + 1])
    for name, x in zip(COLUMNS, cell):
        if not d.finite(x):
            yield "%s, %s %s" % (way, name, "NaN" if x != x else "infinite")
    if all(map(d.finite, cell)):
        for name, shown, most in (("depth", (d.hl(cell, *bed), d.hr(cell, *bed)), d.DEEPEST),
                                  ("discharge", (d.ql(cell), d.qr(cell)), d.GREATEST_Q)):
            least = 0.0 if name == "depth" else -most
            yield from ("%s, %s %s" % (way, name, what(x, least, most)) for x in shown if not d.within(x, least, most))


def face_ways(check, call):
    """What the lowest face that is too fast was chosen from."""
    reach, place = d.Call(len(call[3]), call[2], *call[4:]), min(check.indices)
    lefts, rights, points = (fast(check.cells, reach) for fast in (
        double_places.fast_left_sides, double_places.fast_right_sides, double_places.fast_points))
    if place in lefts - rights:
        yield "by a left side alone"
    if place in rights - lefts:
        yield "by a right side alone"
    if points and min(points) < place:
        yield "above a Gauss point"


def place_ways(call, way, check):
    """Where a call was refused, and what the place was chosen from."""
    place = min(check.indices)
    position = double_places.position(check.name, place, len(call[3]))
    if position:
        yield "%s, %s index" % (way, position)
    if len(check.indices) > 1:
        yield "%s, lowest of several" % way
    if place > 255:
        yield "a place beyond a byte"
    if check.number == 3:
        yield "%s, %s" % (way, what(call[2][place], 0.0, d.HIGHEST_BED))
    elif check.number == 5:
        yield from cell_ways(check.cells, call, place, way)
    elif check.number == 8:
        yield from cell_ways(check.cells[1], call, place, way)
    elif check.name.startswith("face speed"):
        yield from ("%s, %s" % (way, more) for more in face_ways(check, call))


def limit_ways(call):
    """Numbers of an accepted call at their limits, and noughts of either sign."""
    now, _, bed, _, dx, dt, jump, *_ = call
    for name, x, edges in (("dx", dx, (d.LEAST_DX, d.LONGEST_DX)), ("dt", dt, (d.LEAST_DT, d.LONGEST_DT)),
                           ("jump", jump, (0.0, d.GREATEST_JUMP))):
        if x in edges:
            yield "%s at its %s" % (name, ("least", "most")[edges.index(x)])
    if d.HIGHEST_BED in bed:
        yield "bed at its highest"
    signs = {str(x) for x in bed if x == 0.0}
    if "-0.0" in signs:
        yield "bed of -0"
    for i, cell in enumerate(d.cells_of(now)):
        zl, zr = bed[i], bed[i + 1]
        depths = d.hl(cell, zl, zr), d.hr(cell, zl, zr)
        if d.DEEPEST in depths:
            yield "a depth at its greatest"
        if any(0.0 < h < LEAST_NORMAL for h in depths):
            yield "a subnormal depth"
        if "-0.0" in map(str, depths):
            yield "a depth of -0"
        if d.GREATEST_Q in map(abs, (d.ql(cell), d.qr(cell))):
            yield "a discharge at its greatest"
        if d.FASTEST == abs(d.speed(cell.q0, d.h0(cell, zl, zr))):
            yield "a speed at its greatest"
        if d.DRY == d.h0(cell, zl, zr) and cell.q0:
            yield "a discharge at the dry depth"
        if "-0.0" in map(str, cell):
            yield "-0 in a cell"


class Noted:
    """The rules of the model, with what they do noted."""

    def __init__(self):
        self.ways = set()

    def rules(self):
        mended, limited, dried, is_long = d.mended, d.limited, d.dried, d.is_long

        def noted_mended(e1, slope, mean, way):
            found = mended(e1, slope, mean, way)
            self.ways.add("cut at the %s, %s" % ("upper" if way > 0 else "lower", "kept" if found == e1 else "mended"))
            return found

        def noted_limited(cells, i):
            found = limited(cells, i)
            self.ways.add("limited" if found != cells[i] else "marked, and no slope changed")
            return found

        def noted_dried(cell, zl, zr):
            found = dried(cell, zl, zr)
            if found != cell:
                self.ways.add("dried")
            if abs(cell.q0) > d.GREATEST_Q and found.q0 == 0.0:
                self.ways.add("dried, a discharge that is too large")
            return found

        def noted_length(S, call):
            if (2.0 * call.dt) * S == call.dx:
                self.ways.add("a time step at its longest")
            return is_long(S, call)
        return before.replaced(d, mended=noted_mended, limited=noted_limited, dried=noted_dried, is_long=noted_length)


def step_due(call):
    noted = Noted()
    with noted.rules():
        answer, refused_by = answered(call)
    n, (left, right) = len(call[3]), call[7:]
    if answer.number == 0:
        also = {*noted.ways, *limit_ways(call), "ends %d %d" % (left, right)}
        if n == 1:
            also.add("ends %d %d, one cell" % (left, right))
        if answer.volumes != (0.0, 0.0):
            also.add("water at an open end")
        return Due(0, "accepted" + LONG.get(n, ""), tables_of(answer, call[1]), ["accepted, " + way for way in also])
    way, also = "%d %s" % (answer.number, refused_by), []
    if answer.number == 2:
        also += number_ways(call)
    elif answer.number > 2:
        check = double_places.met(call)
        assert (check.number, check.name, min(check.indices)) == (answer.number, refused_by, answer.place)
        also += set(place_ways(call, way, check))
    return Due(answer.number, way, tables_of(answer, call[1]), also)


# ---- How often each must come: once in so many calls

CHECKS = {"1 lengths": 100, "2 numbers": 40, "3 bed": 150, "4 friction": 200, "5 present state": 80,
          "6 friction speed": 80, "6 face speed, stage 1": 60, "6 inner-point speed, stage 1": 500,
          "7 faces, stage 1": 100, "9 stage one, depth": 800, "8 stage one": 40,
          "6 face speed, stage 2": 60, "6 inner-point speed, stage 2": 200, "7 faces, stage 2": 60,
          "9 end state, depth": 500, "8 end state": 300}
# At the first index, at a middle one, at the last, and at the lowest of several.
PLACES = {"3 bed": (300, 900, 400, 800), "4 friction": (500, 1600, 700, 1000), "5 present state": (200, 700, 300, 400),
          "6 friction speed": (300, 200, 500, 300), "6 face speed, stage 1": (400, 100, 400, 300),
          "6 inner-point speed, stage 1": (1600, 2500, 1600, 6000), "7 faces, stage 1": (300, 200, 700, 300),
          "9 stage one, depth": (6000, 1300, 6000, 3000), "8 stage one": (100, 120, 250, 120),
          "6 face speed, stage 2": (300, 100, 500, 200), "6 inner-point speed, stage 2": (500, 800, 700, 900),
          "7 faces, stage 2": (150, 150, 250, 200), "9 end state, depth": (1600, 1400, 1500, 2200),
          "8 end state": (600, 3000, 700, 3000)}
WRONG = ("NaN", "infinite", "just below", "below", "just above", "above")
OUT_OF_RANGE = {
    **{"%s %s" % pair: 2500 for pair in itertools.product(COLUMNS, ("NaN", "infinite"))},
    "depth below": 160, "depth just above": 1200, "depth above": 400, "discharge just below": 2000,
    "discharge below": 1000, "discharge just above": 2000, "discharge above": 1000,
}
FACES = {
    "stage 1, by a left side alone": 150, "stage 1, by a right side alone": 100, "stage 1, above a Gauss point": 120,
    "stage 2, by a left side alone": 100, "stage 2, by a right side alone": 150, "stage 2, above a Gauss point": 220,
}
ACCEPTED = {
    **{"ends %d %d" % kinds: 35 for kinds in ENDS}, **{"ends %d %d, one cell" % kinds: 120 for kinds in ENDS},
    "water at an open end": 15, "limited": 15, "marked, and no slope changed": 40,
    "cut at the upper, kept": 20, "cut at the lower, kept": 20, "cut at the upper, mended": 1000,
    "cut at the lower, mended": 1000,
    "dried": 20, "dried, a discharge that is too large": 450, "a time step at its longest": 60,
    "dx at its least": 80, "dx at its most": 70, "dt at its least": 50, "dt at its most": 45,
    "jump at its least": 30, "jump at its most": 40, "bed at its highest": 800, "bed of -0": 200,
    "a depth at its greatest": 800, "a subnormal depth": 200, "a depth of -0": 400, "-0 in a cell": 50,
    "a discharge at its greatest": 130, "a discharge at the dry depth": 400, "a speed at its greatest": 220,
}

STEP_WAYS = {
    "accepted": 3, "accepted, longest reach": 4000, "accepted, 128 cells": 2500, "accepted, 129 cells": 2500,
    **CHECKS,
    **{"%s, %s" % (check, way): share for check, shares in PLACES.items() for way, share in zip(INDEX_WAYS, shares)},
    "a place beyond a byte": 1500,
    **{"2 numbers, %s %s" % pair: 3000 for pair in itertools.product(("dx", "dt", "jump"), WRONG)},
    "2 numbers, left end": 150, "2 numbers, right end": 150,
    **{"3 bed, " + wrong: 1500 for wrong in WRONG},
    **{"5 present state, " + wrong: share for wrong, share in OUT_OF_RANGE.items()},
    "8 stage one, depth above": 50, "8 stage one, discharge below": 500, "8 stage one, discharge above": 500,
    "8 end state, depth above": 300,
    **{"6 face speed, " + way: share for way, share in FACES.items()},
    **{"accepted, " + way: share for way, share in ACCEPTED.items()},
}


# ---- Runs

Run = namedtuple("Run", "bed start dx steps answers")      # a step is left, right, dt and jump
MOST_STEPS = 300


def drawn_run(rnd):
    n = rnd.choice((1, 2, 3, 5, 9, 16))
    bed, cells, dx = double_hard.run_reach(rnd, n)
    start = now = d.table_of(cells)
    numbers, answers, share = [], [], 1.0
    for _ in range(MOST_STEPS):
        call = double_hard.run_call(rnd, now, bed, dx, share)
        answer, _ = answered(call)
        share = share / 4.0 if answer.number else 1.0       # a refused step is tried again, shorter
        _, dt, jump, left, right = call[4:]
        numbers.append((left, right, dt, jump))
        answers.append(answer)
        now = answer.state or now
    return Run(bed, start, dx, numbers, answers)


def runs(seed, count):
    rnd = random.Random(seed)
    for _ in range(count):
        yield drawn_run(rnd)


def run_asked(run):
    n = len(run.bed) - 1
    return (table("I", (n, len(run.steps))) + table("d", (run.dx, *run.start, *run.bed)) + table("H", [0] * n)
            + b"".join(struct.pack("<IIdd", *step) for step in run.steps))


def run_due(run):
    """The first number, and behind it all that is told of the first step and of those after it."""
    next_len, numbers = len(run.start), [answer.number for answer in run.answers]
    told = b"".join(table("I", [answer.number]) + tables_of(answer, next_len) for answer in run.answers)
    accepted = [answer for answer in run.answers if answer.number == 0]
    also = ["a step refused with %d" % number for number in set(numbers) - {0}]
    if len(accepted) > 200:
        also.append("over 200 steps accepted")
    if any(a.state != b.state for a, b in zip(accepted[-2:], accepted[-1:])):
        also.append("water that still moves")
    if any(d.h0(c, zl, zr) <= d.DRY for a in accepted for c, zl, zr in zip(d.cells_of(a.state), run.bed, run.bed[1:])):
        also.append("a cell that runs dry")
    return Due(numbers[0], "all steps accepted" if not any(numbers) else "some steps refused", told[4:], also)


RUN_WAYS = {"all steps accepted": 4, "some steps refused": 8, "over 200 steps accepted": 2, "water that still moves": 2,
            "a cell that runs dry": 6}

KINDS = (Kind("double_step", steps, step_asked, step_due, STEP_WAYS),
         Kind("double_run", runs, run_asked, run_due, RUN_WAYS))


def main():
    (seed, *counts), command = words("double_step.py SEED STEPS RUNS -- COMMAND...")
    for kind, count in zip(KINDS, counts):
        compare(kind, seed, count, command)
    sum_up()


if __name__ == "__main__":
    main()
