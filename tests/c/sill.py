"""The step over a stepped bed (E10), called from C by serve.c, against the independent model.

    sill.py SEED STEPS -- COMMAND...

makes so many random steps.  COMMAND is serve, with an emulator before it where one is needed.  How calls are made and
compared, and what is a case, is compare.py's.
"""

import itertools
import random

from compare import (       # which also finds the modules below
    DRY_BEYOND, INDEX_WAYS, MARK, Due, Kind, compare, step_asked, sum_up, table, words)
import hard
import model as m
import sill
import sill_hard
import sill_places
from places import refusing

ENDS = list(itertools.product((m.WALL, m.OPEN), repeat=2))
LONG = {m.MOST_CELLS: ", longest reach", hard.SHORT_CELLS: ", 128 cells", hard.SHORT_CELLS + 1: ", 129 cells"}


# ---- Calls

def wide_step(rnd, call):
    """The call with a number or with lengths that would look right if C's higher bits were lost."""
    now, next_len, bed, friction, *numbers = call
    if rnd.randrange(10) == 0:
        more = 1 << 16
        return (now + [0] * (2 * more), next_len + 2 * more, bed + [0] * more, friction + [0] * more, *numbers)
    k = rnd.randrange(len(numbers))
    numbers[k] = (numbers[k] + rnd.choice((1 << 8, 1 << 16, 1 << 31))) % (1 << 32)
    return (now, next_len, bed, friction, *numbers)


def steps(seed, count):
    """sill_hard.py's calls, some of them wide, and some steps of a lake that is at rest."""
    rnd = random.Random(seed)
    for call in sill_hard.calls(seed, count):
        how = rnd.randrange(50)
        if how < 2:
            call = wide_step(rnd, call)
        elif how < 4:
            now, bed = sill_hard.at_rest(rnd, rnd.choice((1, 2, 3, 5, 16)))
            call = sill_hard.run_call(rnd, now, bed, rnd.randint(1, m.LONGEST_DX))
        yield call


# ---- What is due

def numbers_way(call):
    """Which number alone is why check 2 refuses a call, by its name and what it is."""
    names = dict(zip(sill_hard.ORDER[4:], call[4:]))
    good = dict(dx=1, dt=1, dry=1, left=m.WALL, right=m.WALL)
    wrong = [name for name in names if refusing(sill.check_numbers, *{**good, name: names[name]}.values())]
    if len(wrong) == 1:
        yield "2 numbers, %s" % wrong[0]
        if wrong == ["dry"] and names["dry"] in DRY_BEYOND:
            yield "2 numbers, dry depth %d" % names["dry"]
        elif wrong[0] in ("left", "right") and names[wrong[0]] == m.INFLOW:
            yield "2 numbers, an inflow at the %s" % wrong[0]


def place_ways(call, check, way):
    """Where a call was refused, and what the place was chosen from."""
    place = min(check.indices)
    position = sill_places.position(check.name, place, len(call[3]))
    if position:
        yield "%s, %s index" % (way, position)
    if len(check.indices) > 1:
        yield "%s, lowest of several" % way
    if place > 255:
        yield "a place beyond a byte"


def end_ways(call, check):
    """Of what the new state is too large by: in the cell that is told."""
    table_, n, i = check.cells[0], len(call[3]), min(check.indices)
    if table_[i] - call[2][i] > m.DEEPEST:
        yield "8 end state, a depth"
    if abs(table_[n + i]) > m.GREATEST_Q:
        yield "8 end state, a discharge"


def shown_ways(call):
    """What the faces of the present state show: a step higher than the water is deep, with a speed or without, or the water over a step."""
    now, bed, n, dry = call[0], call[2], len(call[3]), call[6]
    depths = [e - z for e, z in zip(now, bed)]
    lefts, rights = sill_places.shown(depths, bed)
    for i, h in enumerate(depths):
        for side, own in (("left", lefts[i]), ("right", rights[i])):
            if own == 0 < h:
                yield "a step over the water, at the %s of a cell" % side
                if m.speed(now[n + i], h, dry):
                    yield "a speed where no depth is shown, at the %s of a cell" % side
            elif own < h:
                yield "water over a step, at the %s of a cell" % side
    if any(own != other for own, other in zip(rights, lefts[1:])):
        yield "two depths at a face"


def accepted_ways(call, check):
    """What is particular in an accepted call."""
    (table_, V0, Vn, undried), (now, _, bed, friction) = check.cells, call[:4]
    dry, left, right, n = *call[6:], len(friction)
    one = ", one cell" if n == 1 else ""
    yield "accepted, ends %d %d" % (left, right)
    yield "accepted, ends %d %d%s" % (left, right, one)
    if dry in (m.LEAST_DRY, m.MOST_DRY):
        yield "accepted, dry depth %d" % dry
    if any(z % 2 for z in bed):
        yield "accepted, an odd bed"
    if any(q and not kept for q, kept in zip(undried, table_[n:])):
        yield "accepted, dried"
    if any(abs(q) > m.GREATEST_Q for q in undried):
        yield "accepted, a discharge dried that is too large"
    if table_ == now:
        yield "accepted, nothing moves" + (", on a bed of several heights" if len(set(bed)) > 1 else "")
    if any(f and e - z > dry and q == 0 for f, e, z, q in zip(friction, now, bed, now[n:])):
        yield "accepted, rough and no discharge"
    if V0 or Vn:
        yield "accepted, water at an open end"
    yield from ("accepted, " + way for way in shown_ways(call))


def step_due(call):
    check = sill_places.last_check(call)
    answer = sill.step(*call)
    assert answer == sill_places.told(check)
    if answer[0] == "accepted":
        _, state, V0, Vn = answer
        way = "accepted" + LONG.get(len(call[3]), "")
        return Due(0, way, table("I", [0]) + table("i", state) + table("q", (V0, Vn)), list(set(accepted_ways(call, check))))
    (_, number, place), also = answer, []
    way = "%d %s" % (number, check.name)
    if number == 2:
        also += numbers_way(call)
    elif number > 2:
        also += place_ways(call, check, way)
    if number == 8:
        also += end_ways(call, check)
    return Due(number, way, table("I", [place]) + MARK * (4 * call[1] + 16), also)


# ---- How often each must come: once in so many calls

# Each check; and where, at the first index, at a middle one, at the last, and at the lowest of several.
CHECKS = {"1 lengths": 50, "2 numbers": 30, "3 bed": 100, "4 friction": 100, "5 present state": 150, "6 friction speed": 80,
          "7 faces": 25, "8 end state": 25}
PLACES = {"3 bed": (300, 1000, 400, 800), "4 friction": (400, 1200, 500, 1000), "5 present state": (400, 1500, 500, 2000),
          "6 friction speed": (300, 300, 300, 500), "7 faces": (60, 60, 250, 80), "8 end state": (80, 100, 100, 100)}
SIDES = ("left", "right")

STEP_WAYS = {
    "accepted": 2, "accepted, longest reach": 4000, "accepted, 128 cells": 1000, "accepted, 129 cells": 1000,
    **CHECKS,
    **{"%s, %s" % (check, way): share for check, shares in PLACES.items() for way, share in zip(INDEX_WAYS, shares)},
    "a place beyond a byte": 1500,
    **dict.fromkeys(["2 numbers, " + name for name in sill_hard.ORDER[4:]], 200),
    **dict.fromkeys(["2 numbers, dry depth %d" % dry for dry in DRY_BEYOND], 1500),
    **dict.fromkeys(["2 numbers, an inflow at the %s" % side for side in SIDES], 800),
    "8 end state, a depth": 40, "8 end state, a discharge": 100,
    **dict.fromkeys(["accepted, ends %d %d" % kinds for kinds in ENDS], 10),
    **dict.fromkeys(["accepted, ends %d %d, one cell" % kinds for kinds in ENDS], 40),
    "accepted, dry depth 1": 80, "accepted, dry depth 64": 60, "accepted, an odd bed": 4, "accepted, dried": 15,
    "accepted, a discharge dried that is too large": 400, "accepted, rough and no discharge": 40,
    "accepted, nothing moves": 100, "accepted, nothing moves, on a bed of several heights": 100,
    "accepted, water at an open end": 10, "accepted, two depths at a face": 4,
    **dict.fromkeys(["accepted, a step over the water, at the %s of a cell" % side for side in SIDES], 15),
    **dict.fromkeys(["accepted, a speed where no depth is shown, at the %s of a cell" % side for side in SIDES], 40),
    **dict.fromkeys(["accepted, water over a step, at the %s of a cell" % side for side in SIDES], 10),
}

STEP = Kind("sill_step", steps, step_asked, step_due, STEP_WAYS)


def main():
    (seed, count), command = words("sill.py SEED STEPS -- COMMAND...")
    compare(STEP, seed, count, command)
    sum_up()


if __name__ == "__main__":
    main()
