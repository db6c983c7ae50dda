"""The step in double precision (E1), from the list of docs/DOUBLE-STEP.md, to be compared with the library.

Python's floats are doubles, and each operation on two of them is one of IEEE 754, rounded once; so every line here is a
line of the list, in its order and with its letters.  No sum is left to a library function, and none is contracted.  The
double face is that of tests/reference/double_faces.py, which is written from 01.

`step` answers ("refused", number, place) or ("accepted", next, W0, Wn), for any doubles and any lengths.
"""

import math
import os
import sys
from collections import namedtuple

sys.path.insert(0, os.path.join(os.path.dirname(os.path.abspath(__file__)), "..", "reference"))
import double_faces
from double_faces import size
from model import Refused

# The numbers of the list.
DEEPEST = 64.0
GREATEST_Q = 2048.0
FASTEST = 32.0
HIGHEST_BED = 256.0
LEAST_DX, LONGEST_DX = 0.000244140625, 256.0
LEAST_DT, LONGEST_DT = 0.000244140625, 1.0
GREATEST_JUMP = 64.0
DRY = 0.0009765625
GAUSS = 0.5773502691896258
LAST_PLACE = 2.0 ** -52
MOST_CELLS = 1024
WALL, OPEN = 0, 1

Cell = namedtuple("Cell", "e0 e1 q0 q1")
Side = namedtuple("Side", "h u")            # what a face reads of one side
Flux = namedtuple("Flux", "F K A S")
Call = namedtuple("Call", "n bed dx dt jump left right")

NOTHING = Flux(0.0, 0.0, 0.0, 0.0)


# ---- Doubles

def quotient(x, y):
    """x/y.  Python raises where y is nought, which no line of the list lets it be; IEEE 754 has an answer there too."""
    try:
        return x / y
    except ZeroDivisionError:
        if x == 0 or x != x:
            return math.nan
        return math.copysign(math.inf, x) * math.copysign(1.0, y)


def within(x, least, most):
    """No NaN is within anything."""
    return least <= x and x <= most


def finite(x):
    return x - x == 0


# ---- Lines 1 to 3: one cell over its bed

def z0(zl, zr):
    return (zl + zr) / 2.0


def z1(zl, zr):
    return (zr - zl) / 2.0


def h0(cell, zl, zr):
    return cell.e0 - z0(zl, zr)


def h1(cell, zl, zr):
    return cell.e1 - z1(zl, zr)


def hl(cell, zl, zr):
    return h0(cell, zl, zr) - h1(cell, zl, zr)


def hr(cell, zl, zr):
    return h0(cell, zl, zr) + h1(cell, zl, zr)


def ql(cell):
    return cell.q0 - cell.q1


def qr(cell):
    return cell.q0 + cell.q1


def speed(q, h):
    return 0.0 if h <= DRY else quotient(q, h)


def left_side(cell, zl, zr):
    h = hl(cell, zl, zr)
    return Side(h, speed(ql(cell), h))


def right_side(cell, zl, zr):
    h = hr(cell, zl, zr)
    return Side(h, speed(qr(cell), h))


def in_range(cell, zl, zr):
    return (all(finite(x) for x in cell)
            and within(hl(cell, zl, zr), 0.0, DEEPEST) and within(hr(cell, zl, zr), 0.0, DEEPEST)
            and within(ql(cell), -GREATEST_Q, GREATEST_Q) and within(qr(cell), -GREATEST_Q, GREATEST_Q))


# ---- Lines 4, 5, 16 and 17: one face

def outer(kind, inner):
    return Side(inner.h, -inner.u if kind == WALL else inner.u)


def crossing(left, right):
    flux = double_faces.face(left.h, left.u, right.h, right.u)
    if flux == "dry":
        return NOTHING
    assert flux != "refused"        # which lines 16 and 17 and the ranges see to
    return Flux(*flux)


def volume(F, call):
    return quotient(F * call.dt, call.dx)


def is_long(S, call):
    return not (2.0 * call.dt) * S <= call.dx


def too_fast(u):
    return not within(u, -FASTEST, FASTEST)


# ---- Lines 6 to 11: a stage of one cell, from what crosses its two faces

def level_mean(cell, left, right, call):
    return (cell.e0 + volume(left.F, call)) - volume(right.F, call)


def level_slope(cell, left, right, call):
    return cell.e1 - quotient((3.0 * ((right.F + left.F) - 2.0 * cell.q0)) * call.dt, call.dx)


def push(cell, zl, zr, left, right):
    """E."""
    return (left.K - right.K) - (hr(cell, zl, zr) + hl(cell, zl, zr)) * (zr - zl)


def pressed(x, call):
    """What E or D comes to in a time step."""
    return quotient((981.0 * x) * call.dt, 200.0 * call.dx)


def flow_mean(cell, zl, zr, left, right, call):
    E = push(cell, zl, zr, left, right)
    return (cell.q0 + quotient((left.A - right.A) * call.dt, call.dx)) + pressed(E, call)


def points(cell, zl, zr):
    """The two Gauss points, each as its depth and its discharge."""
    t = GAUSS * h1(cell, zl, zr)
    r = GAUSS * cell.q1
    return (h0(cell, zl, zr) + t, cell.q0 + r), (h0(cell, zl, zr) - t, cell.q0 - r)


def carried(h, q):
    """g of a point."""
    return q * speed(q, h)


def tilt(cell, zl, zr, left, right):
    """D."""
    mean, slope = h0(cell, zl, zr), h1(cell, zl, zr)
    return (((3.0 * right.K + 3.0 * left.K) - 6.0 * (mean * mean)) - 2.0 * (slope * slope)) + (4.0 * slope) * z1(zl, zr)


def flow_slope(cell, zl, zr, left, right, call):
    g1, g2 = (carried(h, q) for h, q in points(cell, zl, zr))
    D = tilt(cell, zl, zr, left, right)
    return (cell.q1 - quotient((3.0 * (((right.A + left.A) - g1) - g2)) * call.dt, call.dx)) - pressed(D, call)


def updated(cell, zl, zr, left, right, call):
    return Cell(level_mean(cell, left, right, call), level_slope(cell, left, right, call),
                flow_mean(cell, zl, zr, left, right, call), flow_slope(cell, zl, zr, left, right, call))


# ---- A stage of the reach

def sides(cells, call):
    """What each face reads on its left, and on its right: faces 0 to n."""
    lefts = [left_side(cell, call.bed[i], call.bed[i + 1]) for i, cell in enumerate(cells)]
    rights = [right_side(cell, call.bed[i], call.bed[i + 1]) for i, cell in enumerate(cells)]
    return list(zip([outer(call.left, lefts[0]), *rights], [*lefts, outer(call.right, rights[-1])]))


def check_face_speeds(shown, which):
    for k, (left, right) in enumerate(shown):
        if too_fast(left.u) or too_fast(right.u):
            raise Refused(6, k, "face speed, stage %d" % which)


def check_point_speeds(cells, call, which):
    for i, cell in enumerate(cells):
        if any(too_fast(speed(q, h)) for h, q in points(cell, call.bed[i], call.bed[i + 1])):
            raise Refused(6, i, "inner-point speed, stage %d" % which)


def check_lengths_of_time(flux, call, which):
    for k, f in enumerate(flux):
        if is_long(f.S, call):
            raise Refused(7, k, "faces, stage %d" % which)


def stage(cells, call, which):
    """The unfinished stage, and V at each face."""
    shown = sides(cells, call)
    check_face_speeds(shown, which)
    check_point_speeds(cells, call, which)
    flux = [crossing(left, right) for left, right in shown]
    check_lengths_of_time(flux, call, which)
    after = [updated(cell, call.bed[i], call.bed[i + 1], flux[i], flux[i + 1], call) for i, cell in enumerate(cells)]
    return after, [volume(f.F, call) for f in flux]


# ---- Lines 12 to 14: finishing

def parted(left, right, jump):
    return jump < size((left.e0 + left.e1) - (right.e0 - right.e1))


def marks(cells, call):
    faces = [parted(a, b, call.jump) for a, b in zip(cells, cells[1:])]
    return [left or right for left, right in zip([False, *faces], [*faces, False])]


def minmod(*values):
    if all(v > 0.0 for v in values):
        return min(values)
    if all(v < 0.0 for v in values):
        return max(values)
    return 0.0


def against(cells, i, own, mean):
    """The slope, and the differences that it is held to."""
    values = [own]
    if i + 1 < len(cells):
        values.append(mean(cells[i + 1]) - mean(cells[i]))
    if i > 0:
        values.append(mean(cells[i]) - mean(cells[i - 1]))
    return values


def limited(cells, i):
    cell = cells[i]
    return cell._replace(e1=minmod(*against(cells, i, cell.e1, lambda c: c.e0)),
                         q1=minmod(*against(cells, i, cell.q1, lambda c: c.q0)))


def kept(e1, slope, mean):
    """Whether e1 over a bed of such a slope leaves h1 within the mean depth of nought."""
    return within(e1 - slope, -mean, mean)


def mended(e1, slope, mean, way):
    """e1 after the upper cut (way 1) or the lower one (way -1), which rounding may have undone."""
    if kept(e1, slope, mean):
        return e1
    e1 = e1 - size(e1) * LAST_PLACE if way > 0 else e1 + size(e1) * LAST_PLACE
    return e1 if kept(e1, slope, mean) else slope


def cut_slope(e1, slope, mean):
    if e1 - slope > mean:
        return mended(slope + mean, slope, mean, 1)
    if e1 - slope < -mean:
        return mended(slope - mean, slope, mean, -1)
    return e1


def cut(cell, zl, zr):
    e1 = cut_slope(cell.e1, z1(zl, zr), h0(cell, zl, zr))
    return cell._replace(e1=e1, q1=0.0) if e1 != cell.e1 else cell


def dried(cell, zl, zr):
    return cell._replace(q0=0.0, q1=0.0) if h0(cell, zl, zr) <= DRY else cell


def finished(cells, call):
    marked, done = marks(cells, call), []
    for i, cell in enumerate(cells):
        zl, zr = call.bed[i], call.bed[i + 1]
        done.append(dried(cut(limited(cells, i) if marked[i] else cell, zl, zr), zl, zr))
    return done


# ---- The whole step

def check_lengths(now, next_len, bed, friction):
    n = len(friction)
    if not 1 <= n <= MOST_CELLS or len(now) != 4 * n or next_len != 4 * n or len(bed) != n + 1:
        raise Refused(1, 0, "lengths")


def check_numbers(dx, dt, jump, left, right):
    if not (within(dx, LEAST_DX, LONGEST_DX) and within(dt, LEAST_DT, LONGEST_DT) and within(jump, 0.0, GREATEST_JUMP)
            and left in (WALL, OPEN) and right in (WALL, OPEN)):
        raise Refused(2, 0, "numbers")


def check_bed(bed):
    for k, z in enumerate(bed):
        if not within(z, 0.0, HIGHEST_BED):
            raise Refused(3, k, "bed")


def check_friction(friction):
    for i, f in enumerate(friction):
        if f != 0:
            raise Refused(4, i, "friction")


def check_range(cells, call, number, check):
    for i, cell in enumerate(cells):
        if not in_range(cell, call.bed[i], call.bed[i + 1]):
            raise Refused(number, i, check)


def check_mean_speeds(cells, call):
    """01's friction speeds, though nothing is rough here."""
    for i, cell in enumerate(cells):
        if too_fast(speed(cell.q0, h0(cell, call.bed[i], call.bed[i + 1]))):
            raise Refused(6, i, "friction speed")


def check_depths(cells, call, check):
    """9, of a state that is not finished."""
    for i, cell in enumerate(cells):
        if not 0.0 <= h0(cell, call.bed[i], call.bed[i + 1]):
            raise Refused(9, i, check + ", depth")


def ended(cells, call, check):
    """A state once it is finished, with the checks before and after."""
    check_depths(cells, call, check)
    done = finished(cells, call)
    check_range(done, call, 8, check)
    return done


def across(V1, V2):
    """W at each face."""
    return [(a + b) / 2.0 for a, b in zip(V1, V2)]


def joined(old, two, Wl, Wr):
    return Cell((old.e0 + Wl) - Wr, (old.e1 + two.e1) / 2.0, (old.q0 + two.q0) / 2.0, (old.q1 + two.q1) / 2.0)


def cells_of(table):
    return [Cell(*table[k:k + 4]) for k in range(0, len(table), 4)]


def table_of(cells):
    return [number for cell in cells for number in cell]


def worked(now, next_len, bed, friction, dx, dt, jump, left, right):
    """The step; a refusal is raised, so that its check can be told apart."""
    check_lengths(now, next_len, bed, friction)
    check_numbers(dx, dt, jump, left, right)
    check_bed(bed)
    check_friction(friction)
    call = Call(len(friction), bed, dx, dt, jump, left, right)
    cells = cells_of(now)
    check_range(cells, call, 5, "present state")
    check_mean_speeds(cells, call)
    one, V1 = stage(cells, call, 1)
    one = ended(one, call, "stage one")
    two, V2 = stage(one, call, 2)
    W = across(V1, V2)
    end = ended([joined(cells[i], two[i], W[i], W[i + 1]) for i in range(call.n)], call, "end state")
    return table_of(end), W[0], W[-1]


def step(now, next_len, bed, friction, dx, dt, jump, left, right):
    try:
        return ("accepted",) + worked(now, next_len, bed, friction, dx, dt, jump, left, right)
    except Refused as r:
        return "refused", r.number, r.place
