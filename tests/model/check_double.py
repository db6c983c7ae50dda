"""What docs/DOUBLE-STEP.md, and 02's E1 and E13, say of the step in doubles, tried on its model.

Numbers that were worked by hand, every limit from both sides, every check at its places, what the page claims, readings
of the list that are wrong and must be told from the right one, the places written a second time, and the whole-number
step of the same water.

Prints a line for each case and last 'N passed, M failed'; the exit status is 1 when something failed.
"""

import itertools
import random
import struct
import sys
from collections import Counter
from fractions import Fraction
from math import copysign, inf, nan, nextafter, sqrt

import before
import check
import double_hard
import double_places
import double_step as d
import hard
import model as m
from check import POSITIONS, case, with_one
from double_hard import TINY, beside
from double_readings import READINGS
from double_step import Cell


def bits(numbers):
    """The numbers to the last bit, and with the sign of a nought: equal doubles may differ in that."""
    return struct.pack("<%dd" % len(numbers), *numbers)


def exact(answer):
    """An answer that is compared bit for bit."""
    return answer if answer[0] == "refused" else ("accepted", bits(answer[1]), bits(answer[2:]))


def refused(number, place):
    return "refused", number, place


def accepted(cells, W0=0.0, Wn=0.0):
    return exact(("accepted", [x for cell in cells for x in cell], W0, Wn))


def step(cells, bed, dx=1.0, dt=0.0625, jump=64.0, ends=(d.WALL, d.WALL), friction=None):
    """A step of cells that are given as rows of four."""
    table = [x for cell in cells for x in cell]
    return d.step(table, len(table), bed, friction or [0] * len(cells), dx, dt, jump, *ends)


def flat(level, discharge=0.0):
    return [level, 0.0, discharge, 0.0]


def up(x):
    return nextafter(x, inf)


def down(x):
    return nextafter(x, -inf)


# ---- Numbers worked by hand

def still_and_steady():
    metre, bed = [flat(1.0)], [0.0, 0.0]
    case("by hand: a metre of still water between walls stays", exact(step(metre, bed)), accepted(metre))
    # S is the root of 9.81; the product is rounded once, so that half a last place over 1 is still 1, a tie to even
    S, most = sqrt(9.81), 1 + Fraction(1, 2 ** 53)
    around = list(itertools.accumulate(range(9), lambda x, _: up(x), initial=0.5 / S - 4 * 2.0 ** -55))
    wanted = ["accepted" if Fraction(2 * dt) * Fraction(S) <= most else "refused" for dt in around]
    case("by hand: the longest time step of it, to the last place", [step(metre, bed, dt=dt)[0] for dt in around],
         wanted)
    case("by hand: these are on both sides of it", set(wanted), {"accepted", "refused"})
    # faster than its waves, so that every face gives what is on its left: F 8, K 1, A 64
    for way in (1.0, -1.0):
        run = [flat(1.0, way * 8.0)] * 3
        case("by hand: a metre at %g m/s through open ends stays, and V is so much times dt/dx" % (8 * way),
             exact(step(run, [0.0] * 4, dx=8.0, dt=0.25, ends=(1, 1))), accepted(run, way * 0.25, way * 0.25))


def one_stage():
    # 10 m and 20 m of water at 24 m/s, faster than their waves: F 240, 240, 480; K 100, 100, 400; A 5760, 5760, 11520
    cells = [Cell(10.0, 0.0, 240.0, 0.0), Cell(20.0, 0.0, 480.0, 0.0)]
    call = d.Call(2, [0.0] * 3, 128.0, 1.0, 64.0, d.OPEN, d.OPEN)
    case("by hand: what crosses the faces", [tuple(d.crossing(*pair))[:3] for pair in d.sides(cells, call)],
         [(240.0, 100.0, 5760.0)] * 2 + [(480.0, 400.0, 11520.0)])
    # E is -300 and 981*300/(200*128) is 11.49609375; g1 and g2 are 11520, D is -900
    case("by hand: a stage of two cells", [tuple(c) for c in d.stage(cells, call, 1)[0]],
         [(10.0, 0.0, 240.0, 0.0), (18.125, 5.625, 423.50390625, 169.48828125)])
    # over a bed of 1 and 3: z0 2, z1 1, h0 18, h1 -1, hl 19 and hr 17
    cell, zl, zr = Cell(20.0, 0.0, 480.0, 1.0), 1.0, 3.0
    left, right = d.Flux(240.0, 100.0, 5760.0, 0.0), d.Flux(480.0, 400.0, 11520.0, 0.0)
    case("by hand: E and D over a sloping bed", (d.push(cell, zl, zr, left, right), d.tilt(cell, zl, zr, left, right)),
         (-300.0 - 36 * 2, 1500.0 - 6 * 324 - 2 - 4))
    case("by hand: the first point is the right one, where there is less water", d.points(cell, zl, zr),
         ((18.0 - d.GAUSS, 480.0 + d.GAUSS), (18.0 + d.GAUSS, 480.0 - d.GAUSS)))


def finished_cells(*cells, bed=None, jump=0.25):
    n = len(cells)
    call = d.Call(n, bed or [0.0] * (n + 1), 1.0, 1.0, jump, d.WALL, d.WALL)
    return [tuple(c) for c in d.finished([Cell(*c) for c in cells], call)]


def finished_by_hand():
    # the levels at the face are 4.25 and 4.5
    water = [(4.0, 0.25, 1.0, 0.5), (5.0, 0.5, 1.25, 0.5)]
    case("by hand: a jump of J is none", finished_cells(*water), water)
    case("by hand: one over J limits both", finished_cells(*water, jump=down(0.25)),
         [(4.0, 0.25, 1.0, 0.25), (5.0, 0.5, 1.25, 0.25)])
    steep = (4.0, 3.0, 1.0, -0.5), (5.0, 0.75, 1.25, 0.5), (5.5, -2.0, 1.0, 0.5)
    case("by hand: of means, not of limited slopes; signs that differ give +0",
         [bits(c) for c in finished_cells(*steep, jump=0.0)],
         [bits(c) for c in ((4.0, 1.0, 1.0, 0.0), (5.0, 0.5, 1.25, 0.0), (5.5, 0.0, 1.0, 0.0))])
    ends = [(4.0, 0.5, 1.0, 0.5), (6.0, 0.0, 3.0, 0.5)]
    case("by hand: an end cell leaves out the neighbour that it lacks", finished_cells(*ends), ends)
    # h0 is 0.5, and h1 is 1, -1 and 0.5
    case("by hand: cut on either side, and q1 with it; not where h1 is h0",
         [finished_cells((2.0, e1, 1.0, 3.0), bed=[1.0, 2.0]) for e1 in (1.5, -0.5, 1.0)],
         [[(2.0, 1.0, 1.0, 0.0)], [(2.0, 0.0, 1.0, 0.0)], [(2.0, 1.0, 1.0, 3.0)]])
    case("by hand: dried at the dry depth and not above it",
         [finished_cells((h, 0.0, 1.0, 3.0))[0][2:] for h in beside(d.DRY)], [(0.0, 0.0), (0.0, 0.0), (1.0, 3.0)])


def noughts():
    """Each nought with its sign: of a dry cell of -0 alone only the level slope keeps it."""
    case("by hand: a dry cell of -0 over a bed of -0", exact(step([[-0.0] * 4], [-0.0, -0.0])),
         accepted([[0.0, -0.0, 0.0, 0.0]]))
    case("by hand: size keeps -0", copysign(1.0, d.size(-0.0)), -1.0)
    apart = [flat(1.0), [2.0, 0.5, 0.0, 0.0]]
    case("by hand: a J of -0 parts what one of 0 parts", exact(step(apart, [0.0] * 3, jump=-0.0)),
         exact(step(apart, [0.0] * 3, jump=0.0)))


# ---- Limits, each on either side

GOOD = "accepted"


def still(depth, q=0.0, z=0.0, **numbers):
    """One flat cell, in a step that is short enough for all."""
    return step([flat(z + depth, q)], [z, z], **{"dx": 256.0, "dt": d.LEAST_DT, **numbers})


def one_cell(*cell):
    return step([cell], [0.0, 0.0], dx=256.0, dt=d.LEAST_DT)


def answers(make, *values):
    """What each value is refused with, or that it is accepted."""
    return [found[1] if found[0] == "refused" else GOOD for found in map(make, values)]


def limits_of_numbers():
    case("limits: dx", answers(lambda x: still(0.01, dx=x), d.LEAST_DX, down(d.LEAST_DX), 256.0, up(256.0)),
         [GOOD, 2, GOOD, 2])
    case("limits: dt", answers(lambda x: still(1.0, dt=x), d.LEAST_DT, down(d.LEAST_DT), 1.0, up(1.0)),
         [GOOD, 2, GOOD, 2])
    case("limits: J", answers(lambda x: still(1.0, jump=x), 0.0, -0.0, -TINY, 64.0, up(64.0)),
         [GOOD, GOOD, 2, GOOD, 2])
    none = [{name: x} for name in ("dx", "dt", "jump") for x in (nan, -nan, inf, -inf, -1.0)]
    case("limits: numbers that are none", answers(lambda x: still(1.0, **x), *none), [2] * 15)
    kinds = list(itertools.product((0, 1, 2, 255, 2 ** 32 - 1), repeat=2))
    case("limits: kinds", answers(lambda x: still(1.0, ends=x), *kinds), [GOOD if max(x) < 2 else 2 for x in kinds])


def limits_of_tables():
    case("limits: bed", answers(lambda z: still(1.0, z=z), 0.0, -0.0, TINY, -TINY, 256.0, up(256.0), nan, inf, -inf),
         [GOOD, GOOD, GOOD, 3, GOOD, 3, 3, 3, 3])
    case("limits: friction", answers(lambda f: still(1.0, friction=[f]), 0, 1, 200, 256, 65535), [GOOD, 4, 4, 4, 4])
    case("limits: depth", answers(still, 0.0, -0.0, -TINY, 64.0, up(64.0)), [GOOD, GOOD, 5, GOOD, 5])
    case("limits: depth over the highest bed, a last place there being 2^-44",
         answers(lambda e: still(e - 256.0, z=256.0), 256.0, down(256.0), 320.0, up(320.0)), [GOOD, 5, GOOD, 5])
    case("limits: depth at a face",
         answers(lambda e1: one_cell(32.0, e1, 0.0, 0.0), 32.0, up(32.0), -32.0, down(-32.0)), [GOOD, 5, GOOD, 5])
    case("limits: discharge, and its speed",
         answers(lambda q: still(64.0, q, ends=(1, 1)), 2048.0, -2048.0, up(2048.0), down(-2048.0)), [GOOD, GOOD, 5, 5])
    over = up(up(1024.0))       # a last place of 2048 is two of 1024
    case("limits: discharge at a face, where the water has no speed",
         answers(lambda q: one_cell(0.0, 0.0, *q), (1024.0, 1024.0), (1024.0, over), (-2048.0, 0.0), (-1024.0, over),
                 (0.0, down(-2048.0))), [GOOD, 5, GOOD, 5, 5])
    case("limits: speed", answers(lambda q: still(1.0, q, ends=(1, 1)), 32.0, -32.0, up(32.0), down(-32.0)),
         [GOOD, GOOD, 6, 6])
    case("limits: the speed of a discharge at the dry depth, and above", [d.speed(5.0, h) for h in beside(d.DRY)],
         [0.0, 0.0, 5.0 / up(d.DRY)])


def lengths():
    def room(now, room_, bed, friction):
        return d.step([0.0] * now, room_, [0.0] * bed, [0] * friction, 1.0, 0.01, 0.0, 0, 0)[:2]
    case("1: 1, 2, 1,024 cells", [room(4 * n, 4 * n, n + 1, n)[0] for n in (1, 2, 1024)], [GOOD] * 3)
    others = [(7, 8, 3, 2), (9, 8, 3, 2), (8, 7, 3, 2), (8, 9, 3, 2), (8, 8, 2, 2), (8, 8, 4, 2), (8, 8, 3, 1),
              (8, 8, 3, 3), (4, 8, 3, 2), (8, 8, 3, 0), (0, 0, 0, 0), (0, 0, 1, 0), (4100, 4100, 1026, 1025)]
    case("1: other lengths", [room(*each) for each in others], [("refused", 1)] * len(others))


# ---- Each check at every place

N = 5
STILL, FLAT = [flat(1.0)] * N, [0.0] * (N + 1)
CELLS, FACES = range(N), range(N + 1)


def with_number(cells, i, k, x):
    return with_one(cells, i, with_one(list(cells[i]), k, x))


def at_each(number, indices, times=1):
    return [refused(number, i) for i in indices] * times


def places_of_tables():
    none = (nan, -nan, inf, -inf)
    case("places: 3 at each bed value", [step(STILL, with_one(FLAT, k, z)) for z in (*none, -TINY) for k in FACES],
         at_each(3, FACES, 5))
    case("places: 4 at each cell", [step(STILL, FLAT, friction=with_one([0] * N, i, 1)) for i in CELLS],
         at_each(4, CELLS))
    case("places: 5 at each cell, by each of its numbers that is none",
         [step(with_number(STILL, i, k, x), FLAT) for x in none for k in range(4) for i in CELLS],
         at_each(5, CELLS, 16))
    beyond = (0, -TINY), (0, 64.5), (1, 1.5), (1, -1.5), (2, 2049.0), (3, -2049.0)
    case("places: 5 at each cell, by depths and discharges",
         [step(with_number(STILL, i, k, x), FLAT) for k, x in beyond for i in CELLS], at_each(5, CELLS, 6))
    case("places: 6 at each cell, by its mean",
         [step(with_number(STILL, i, 2, q), FLAT) for q in (33.0, -33.0) for i in CELLS], at_each(6, CELLS, 2))
    case("places: of several the lowest",
         [step(STILL, [0.0, nan, 0.0, -1.0, 257.0, 0.0]), step(STILL, FLAT, friction=[0, 0, 9, 0, 1]),
          step([*STILL[:3], [nan] * 4, [nan] * 4], FLAT),
          step(with_number(with_number(STILL, 1, 2, 40.0), 3, 2, -40.0), FLAT)],
         [refused(3, 1), refused(4, 2), refused(5, 3), refused(6, 1)])


# One face at 16.25 m/s and the other at 0.25; and a wedge, whose faces have 15 m/s and none, but its points 71 and 19.
ONE_FACE, WEDGE = [1.0, 0.0, 16.5, 16.0], [1.0, 1.0, 30.0, 0.0]


def places_of_stage_one():
    case("places: 6 at the left face of each cell, where a slope alone makes it fast",
         [step(with_number(STILL, i, 3, q), FLAT) for q in (33.0, -33.0) for i in CELLS], at_each(6, CELLS, 2))
    case("places: 6 at the right face of each cell", [step(with_one(STILL, i, ONE_FACE), FLAT) for i in CELLS],
         at_each(6, FACES[1:]))
    wedges = WEDGE, [1.0, -1.0, -30.0, 0.0]
    case("places: 6 at the points of each cell", [step(with_one(STILL, i, w), FLAT) for w in wedges for i in CELLS],
         at_each(6, CELLS, 2))
    case("places: faces before points", step([WEDGE, *STILL[2:], ONE_FACE], FLAT), refused(6, N))
    # of still water the deeper side of a face has the greater S
    case("places: 7 at each face", [step(with_one(STILL, i, flat(2.0)), FLAT, dt=0.51 / sqrt(2 * 9.81)) for i in CELLS],
         at_each(7, CELLS))
    case("places: 7 at the last face", step([*STILL[1:], [1.0, 0.5, 0.0, 0.0]], FLAT, dt=0.132), refused(7, N))


def places_of_eight():
    """One cell is full, and the one beside it runs there."""
    def running(i):
        j = i + 1 if i + 1 < N else i - 1
        return [flat(64.0 if k == i else 63.0, 64.0 * (i - j) if k == j else 0.0) for k in CELLS]
    case("places: 8 at each cell", [step(running(i), FLAT, dt=0.001) for i in CELLS], at_each(8, CELLS))


def order():
    """A call that every check refuses, up to 7, and what the next one says when a fault is taken away."""
    good = dict(now=flat(1.0) * N, next_len=4 * N, bed=FLAT, friction=[0] * N, dx=1.0, dt=0.0625, jump=1.0,
                left=d.WALL, right=d.OPEN)

    def cell(i, k, x):
        return lambda c: dict(now=with_one(c["now"], 4 * i + k, x))
    faults = [(1, 0, dict(next_len=19)), (2, 0, dict(left=2)), (3, 5, dict(bed=with_one(FLAT, 5, nan))),
              (4, 2, dict(friction=[0, 0, 1, 0, 0])), (5, 1, cell(1, 0, nan)), (6, 4, cell(4, 2, 33.0)),
              (6, 3, cell(3, 3, 33.0)), (6, 2, lambda c: dict(now=c["now"][:8] + WEDGE + c["now"][12:])),
              (7, 0, dict(dt=1.0))]
    found = []
    for first in range(len(faults) + 1):
        c = dict(good)
        for _, _, fault in faults[first:]:
            c.update(fault(c) if callable(fault) else fault)
        found.append(exact(d.step(*(c[name] for name in double_hard.ORDER))))
    case("order: each check before those behind it", found,
         [refused(number, place) for number, place, _ in faults] + [accepted([flat(1.0)] * N)])


# ---- 9: a mean depth below nought, which only rounding makes

def below_nought():
    """Cell 0 gives away half of the depth at its right face, which is all that it has: to water that runs before it.

    Over a bed of 2^-54 its mean depth is rounded up to 1, and what is left is less than the bed.
    """
    def emptied(z, more=()):
        cells = [[1.0, 1.0, 32.0, 32.0], flat(4.0, 64.0), *more]
        return step(cells, [z] * (len(cells) + 1), dx=64.0, dt=1.0, ends=(d.WALL, d.OPEN))
    case("9: stage one, over a bed of 2^-54 and not of 0", [emptied(2.0 ** -54), emptied(0.0)[1] == 9],
         [refused(9, 0), False])
    full = [flat(64.0, q) for q in (0.0, 384.0, 0.0)]
    case("9: before an 8 of cells behind it, that run into each other",
         [emptied(2.0 ** -54, full), emptied(0.0, full)[:2]], [refused(9, 0), ("refused", 8)])
    # dry, but with a discharge: stage one fills it from its right, and its own discharge empties it in stage two
    q = float.fromhex("0x1.654c306ffff61p-3")

    def filled(*cells, ends=(d.WALL, d.OPEN)):
        return step(cells, [0.0] * (len(cells) + 1), dx=1.0, dt=1 / 12, ends=ends)
    deep, back = flat(0.25, 0.25), flat(0.25, -0.25)
    case("9: the end state", filled(flat(0.0, q), deep), refused(9, 0))
    case("9: the end state, not with less discharge", filled(flat(0.0, q * (1 - 2.0 ** -40)), deep)[0], "accepted")
    case("9: the end state, at the last cell and at the lower of two",
         [filled(back, flat(0.0, -q), ends=(d.OPEN, d.WALL)), filled(flat(0.0, q), deep, back, flat(0.0, -q))],
         [refused(9, 1), refused(9, 0)])


# ---- Line 14

def mending():
    """The three outcomes of either cut.  The last of them needs a depth smaller than a last place of the bed's slope.

    Of the second: 5 and 3/4 of a last place is rounded up, and less z1 it is a tie, up again and beyond h0.
    """
    u = 2.0 ** -46      # a last place of 96
    for way, name in ((1, "upper"), (-1, "lower")):
        beds = (1.0, 0.5), (2.0 - 3 * 2.0 ** -52, 3.0 + 6 * 2.0 ** -52), (96.0, 0.6 * u)
        case("mending: kept, a last place less, and the bed's own slope, at the %s cut" % name,
             [d.cut_slope(way * 1e3, way * z1, h0) * way for z1, h0 in beds], [1.5, 5.0, 96.0])
    # a last place over 96 is too much, and what is taken away is half a place more: so the test has two sides
    e1 = (96.0 + u) - (96.0 + u) * d.LAST_PLACE
    case("mending: what the upper cut comes to then may lie beyond -h0", (e1 - 96.0, e1 - 96.0 < -0.6 * u), (-u, True))


def over_a_bed(rnd):
    """Two bed values and a level: some last places above the mean of the bed, or about as far as the bed's slope is."""
    zr = rnd.choice((rnd.random() * 256, 2.0 ** rnd.randint(-8, 8) * (1 - rnd.randrange(8) * 2.0 ** -53)))
    zl = rnd.choice((0.0, zr * 2.0 ** -rnd.randint(1, 60), rnd.random() * zr, rnd.uniform(0.2, 0.4) * zr))
    e0 = d.z0(zl, zr)
    if rnd.randrange(2):
        for _ in range(rnd.choice((1, 2, 3, 4, 5, 9))):
            e0 = up(e0)
    else:
        e0 += rnd.choice((d.z1(zl, zr) * rnd.uniform(0.3, 2.5), zr * rnd.random() * 2.0 ** rnd.randint(-50, 6)))
    return *rnd.choice(((zl, zr), (zr, zl))), e0


def mending_of_cells(seed, count):
    """Over a bed the first mending always does: h0 is a whole number of last places of z0, which is no less than z1.

    So what is taken away, two last places of e1 at most, leaves more than -h0; and the last mending is never come to.
    """
    rnd, seen, beyond = random.Random(seed), Counter(), 0
    for _ in range(count):
        zl, zr, e0 = over_a_bed(rnd)
        z1, h0 = d.z1(zl, zr), e0 - d.z0(zl, zr)
        for way in (1, -1):
            e1 = d.cut_slope(way * 1e6, z1, h0)
            seen[way, "kept" if e1 == z1 + way * h0 else "the bed's own slope" if e1 == z1 else "mended"] += 1
            h1 = e1 - z1
            beyond += not (-h0 <= h1 <= h0 and 0 <= h0 - h1 and 0 <= h0 + h1)
    least = min(seen[way, how] for way in (1, -1) for how in ("kept", "mended"))
    case("mending: of %d cells each lies within h0 then, and has depths at or above nought" % (2 * count), beyond, 0)
    case("mending: kept and mended, at either cut %d and more of them, none at the bed's own slope" % least,
         (200 * least >= count, seen[1, "the bed's own slope"], seen[-1, "the bed's own slope"]), (True, 0, 0))


# ---- What the page claims besides

def levels_below_the_bed(seed, count):
    """Why depths come from h0 and h1: by levels at the faces a state in range falls below its bed."""
    rnd, found = random.Random(seed), 0
    for _ in range(count):
        zl, zr, h0 = rnd.random() * 256, rnd.random() * 256, rnd.random()
        cell = double_hard.placed(zl, zr, h0, h0, 0.0, 0.0)
        found += d.in_range(cell, zl, zr) and (cell.e0 - cell.e1 < zl or cell.e0 + cell.e1 < zr)
    case("claims: of %d wedges in range one in a hundred shows a level below its bed, %d of them" % (count, found),
         100 * found >= count, True)


def unfinished(rnd, n):
    """A bed, and cells over it with any slopes, none with a mean depth below nought."""
    bed = [rnd.random() * rnd.choice((1.0, 256.0)) for _ in range(n + 1)]
    cells = []
    for zl, zr in zip(bed, bed[1:]):
        e0 = d.z0(zl, zr) + rnd.choice((0.0, rnd.random() * 2.0 ** rnd.randint(-50, 3)))
        e1 = rnd.uniform(-1, 1) * 2.0 ** rnd.randint(-60, 20)
        cells.append(Cell(e0, e1, rnd.uniform(-9, 9), rnd.uniform(-9, 9)))
    return bed, cells


def finishing_holds(seed, count):
    """h1 within h0 of nought, no face depth below nought, and the mean untouched."""
    rnd, wrong, seen = random.Random(seed), 0, Counter()
    for _ in range(count):
        n = rnd.choice((1, 2, 3, 7))
        bed, cells = unfinished(rnd, n)
        done = d.finished(cells, d.Call(n, bed, 1.0, 1.0, rnd.choice((0.0, 64.0)), d.WALL, d.WALL))
        for old, new, zl, zr in zip(cells, done, bed, bed[1:]):
            h0, h1 = d.h0(new, zl, zr), d.h1(new, zl, zr)
            depths = d.hl(new, zl, zr), d.hr(new, zl, zr)
            wrong += not (-h0 <= h1 <= h0 and min(depths) >= 0 and new.e0 == old.e0)
            seen["slopes"] += new.e1 != old.e1
            seen["dried"] += new.q0 != old.q0
    case("claims: finished, h1 lies within h0 of nought and no depth below it; %d slopes changed, %d cells dried"
         % (seen["slopes"], seen["dried"]), (wrong, min(seen.values()) > count // 4), (0, True))


def face_answers(seed, count):
    """Between sides in range whose speeds are, the face refuses none; and its S is no less than either speed."""
    rnd, wrong, seen = random.Random(seed), 0, Counter()
    for _ in range(count):
        sides = [d.Side(rnd.choice((0.0, -0.0, TINY, 64.0, rnd.random() * 2.0 ** rnd.randint(-1070, 6))),
                        rnd.choice((0.0, -0.0, 32.0, -32.0, rnd.uniform(-32, 32)))) for _ in range(2)]
        flux = d.double_faces.face(*sides[0], *sides[1])
        seen[flux if isinstance(flux, str) else "flux"] += 1
        wrong += flux == "refused" or flux != "dry" and not (flux[3] >= max(abs(s.u) for s in sides) and flux[1] >= 0)
    case("claims: the double face answers all sides in range, %d flows and %d dry" % (seen["flux"], seen["dry"]),
         (wrong, min(seen["flux"], seen["dry"]) > count // 50), (0, True))


def total(seed, count):
    """Any doubles and any lengths: an answer, and no number that is none in what is accepted."""
    rnd, seen, wrong = random.Random(seed), Counter(), 0
    numbers = double_hard.ODD + double_hard.EDGES + (1.0, 0.5, 3.25, 100.0)
    for _ in range(count):
        n = rnd.choice((0, 1, 2, 3))
        bed = [rnd.choice((0.0, 0.0, 1.0, rnd.choice(numbers))) for _ in range(n + 1)]
        now = [rnd.choice(numbers) for _ in range(4 * n)]
        if rnd.randrange(2):
            ground = [z if 0.0 <= z <= 256.0 else 1.0 for z in bed]
            now = d.table_of(double_hard.film(rnd, zl, zr) for zl, zr in zip(ground, ground[1:]))
        given = [rnd.choice((x, x, x, rnd.choice(numbers))) for x in (1.0, 0.01, 0.5)]
        next_len, kinds = rnd.choice((4 * n, 4 * n, 7)), (rnd.choice((0, 1)), rnd.choice((0, 1, 1, 2)))
        answer = d.step(now, next_len, bed, [0] * n, *given, *kinds)
        seen[answer[1] if answer[0] == "refused" else 0] += 1
        wrong += answer[0] == "accepted" and not all(map(d.finite, (*answer[1], *answer[2:])))
    counts = [seen[k] for k in (0, 1, 2, 3, 5)]
    case("claims: any doubles and lengths are answered, %d times; accepted and with 1, 2, 3, 5: %s"
         % (count, ", ".join(map(str, counts))), (wrong, all(counts)), (0, True))


# ---- Beside the whole-number step, and beside exact fractions

def both_steps(rnd):
    """The J of a step, in units; the step of gentle water by 01's rules before E2, without friction; and in doubles."""
    n, jump = rnd.choice((1, 2, 5)), rnd.choice((0, 20, 9999))
    bed, now = hard.gentle(rnd, n, 4)
    numbers, kinds = (rnd.randint(4096, 40000), rnd.randint(10, 200), jump), (rnd.randrange(2), rnd.randrange(2))
    with before.E2():
        whole = m.step(now, 4 * n, bed, [0] * n, *numbers, 4, *kinds, 0, 0)
    metres, cells = double_hard.in_metres(bed, now)
    return jump, whole, d.step(d.table_of(cells), 4 * n, metres, [0] * n, *(x / 4096 for x in numbers), *kinds)


def whole_steps(seed, count):
    """They differ by some units, which 01's truncated divisions are."""
    rnd, worst, seen = random.Random(seed), 0, 0
    for _ in range(count):
        jump, whole, real = both_steps(rnd)
        if whole[0] == real[0] == "accepted":
            n = len(whole[1]) // 4
            cell_by_cell = [whole[1][k * n + i] for i in range(n) for k in range(4)]
            # a mark is made or not by less than a unit, so slopes of a reach with marks are not compared
            pairs = [(x, w) for k, (x, w) in enumerate(zip(real[1], cell_by_cell)) if jump == 9999 or k % 2 == 0]
            worst = max(worst, *(abs(4096 * x - w) for x, w in (*pairs, *zip(real[2:], whole[2:]))))
            seen += 1
    case("beside whole numbers: no number of %d steps is more than 8 units from 01's own (%.1f)" % (seen, worst),
         (worst <= 8, 10 * seen >= 9 * count), (True, True))


def updated_exactly(cell, zl, zr, left, right, dx, dt):
    """A stage of one cell in fractions, from 01's lines with E1's numbers."""
    e0, e1, q0, q1, zl, zr, dx, dt = map(Fraction, (*cell, zl, zr, dx, dt))
    Fl, Kl, Al, Fr, Kr, Ar = map(Fraction, (*left[:3], *right[:3]))
    z1, h0, h1 = (zr - zl) / 2, e0 - (zl + zr) / 2, e1 - (zr - zl) / 2
    r, g = dt / dx, Fraction(d.GAUSS)
    points = [(h0 + s * g * h1, q0 + s * g * q1) for s in (1, -1)]
    gauss = sum(q * q / h for h, q in points if h > Fraction(1, 1024))
    E = Kl - Kr - 2 * h0 * (zr - zl)
    D = 3 * (Kr + Kl) - 6 * h0 ** 2 - 2 * h1 ** 2 + 4 * h1 * z1
    return (e0 + (Fl - Fr) * r, e1 - 3 * (Fr + Fl - 2 * q0) * r, q0 + (Al - Ar) * r + Fraction(981, 200) * E * r,
            q1 - 3 * (Ar + Al - gauss) * r - Fraction(981, 200) * D * r)


def exact_stages(seed, count):
    rnd, worst, large = random.Random(seed), 0.0, 0
    for _ in range(count):
        zl, zr, h0 = rnd.random() * 9, rnd.random() * 9, 0.1 + rnd.random() * 5
        cell = double_hard.placed(zl, zr, h0, h0 * rnd.uniform(-0.9, 0.9), rnd.uniform(-5, 5), rnd.uniform(-2, 2))
        left, right = (d.Flux(rnd.uniform(-5, 5), rnd.random() * 30, rnd.random() * 20, 0.0) for _ in range(2))
        call = d.Call(1, [zl, zr], rnd.uniform(1, 9), rnd.uniform(0.001, 1), 0.0, d.WALL, d.WALL)
        new = d.updated(cell, zl, zr, left, right, call)
        for x, y in zip(new, updated_exactly(cell, zl, zr, left, right, call.dx, call.dt)):
            worst = max(worst, abs(float(Fraction(x) - y)))
            large += abs(y) > 1
    case("beside fractions: a stage of %d cells is within 1e-11 of 01's lines (%.1e)" % (count, worst),
         (worst < 1e-11, large > count), (True, True))


# ---- Readings that are not the list's

def answered(call):
    """The model's answer under some reading, which may leave the face without one."""
    try:
        return exact(d.step(*call))
    except AssertionError:
        return "none"


def wrong_readings_differ(seed, count):
    """Each is told from the right one by some of the random calls, the answers of the one beside those of the other."""
    calls = list(double_hard.calls(seed, count))
    right = [exact(d.step(*call)) for call in calls]
    for name, rules in READINGS.items():
        with before.replaced(d, **rules):
            otherwise = (k for k, call in enumerate(calls) if answered(call) != right[k])
            found = list(itertools.islice(otherwise, 5))
        case("told apart: %s, five times in the first %d random calls" % (name, 1 + max(found, default=-1)),
             len(found), 5)


# ---- The places, written a second time

CHECKS = {(1, "lengths"), (2, "numbers"), (3, "bed"), (4, "friction"), (5, "present state"), (6, "friction speed"),
          (9, "stage one, depth"), (8, "stage one"), (9, "end state, depth"), (8, "end state"),
          *((number, "%s, stage %d" % (name, which)) for which in (1, 2)
            for number, name in ((6, "face speed"), (6, "inner-point speed"), (7, "faces")))}


def told_apart(call):
    """The check that refuses a call, with its number, and its place; or None twice."""
    try:
        d.worked(*call)
        return None, None
    except d.Refused as r:
        return (r.number, r.check), r.place


def places_hold(seed, count):
    wrong, several, seen, checks = 0, Counter(), Counter(), Counter()
    for call in double_hard.calls(seed, count):
        found, met = told_apart(call), double_places.met(call)
        wrong += found != (((met.number, met.name), min(met.indices)) if met else (None, None))
        check_, place = found
        checks[check_] += 1
        if met:
            several[check_] += len(met.indices) > 1
            seen[check_, double_places.position(met.name, place, len(call[3]))] += 1
    placed = sorted(c for c in CHECKS if c[0] > 2)
    case("second writing: the same check, and the lowest of all places, in %d calls, %d accepted"
         % (count, checks[None]), wrong, 0)
    case("second writing: every check refused some call, and a third were accepted",
         ((CHECKS | {None}) ^ set(checks), 3 * checks[None] >= count), (set(), True))
    case("second writing: each check with a place came at the first, a middle and the last index",
         [(c, p) for c in placed for p in POSITIONS if not seen[c, p]], [])
    case("second writing: and at the lowest of several", [c for c in placed if not several[c]], [])


def main():
    still_and_steady()
    one_stage()
    finished_by_hand()
    noughts()
    limits_of_numbers()
    limits_of_tables()
    lengths()
    places_of_tables()
    places_of_stage_one()
    places_of_eight()
    order()
    below_nought()
    mending()
    mending_of_cells(31, 20000)
    levels_below_the_bed(32, 2000)
    finishing_holds(33, 3000)
    face_answers(34, 5000)
    total(35, 3000)
    whole_steps(36, 300)
    exact_stages(37, 1000)
    wrong_readings_differ(38, 4000)
    places_hold(39, 8000)
    print("%d passed, %d failed" % (check.passed, check.failed))
    return 1 if check.failed else 0


if __name__ == "__main__":
    sys.exit(main())
