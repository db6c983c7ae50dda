"""The rules of document 01, as 02's requests amend them, in plain whole numbers, to be
compared with the library.

Exact integers throughout, in 01's order and with 01's letters.  It shares nothing
with the library, so an answer that both give was worked twice.  Where 01 has a depth
of 4 the argument `dry` stands (E3), an end may be given a discharge Q into the reach (E4),
nothing is taken from a face level that lies below the bed (E6), a lent state is four
columns (E7), and a refusal has a place (E13).  What a rule said before a request is in before.py.

Public rules answer None where 01 refuses them "with no number".  `step` answers
("refused", number, place) or ("accepted", next, W0, Wn).  Labels such as S7 are those of
docs/DECISIONS.md.
"""

from collections import namedtuple
from math import isqrt

# The numbers of 01 that the rules share.
UNIT = 4096             # one metre, second, m/s or m2/s
DEEPEST = 262144        # greatest depth
GREATEST_Q = 8388608    # greatest size of a discharge
FASTEST = 131072        # greatest size of a speed
HIGHEST_BED = 1048576
ROUGHEST = 200
LONGEST_DX = 1048576
LONGEST_DT = 4096
GREATEST_JUMP = 262144
LEAST_DRY, MOST_DRY = 1, 64     # of the dry depth, which E3 makes an argument
MOST_CELLS = 1024
WALL, OPEN, INFLOW = 0, 1, 2    # kinds of end; E4 adds the third

Cell = namedtuple("Cell", "e0 e1 q0 q1")
Side = namedtuple("Side", "h u")        # what a face reads of one side
Flux = namedtuple("Flux", "F K A S")
Call = namedtuple("Call", "n bed friction dx dt jump dry left right left_q right_q")


class Refused(Exception):
    """A refusal of the step: its number, its place, and which check gave it (for statistics).

    The place is "the lowest to which it applies within the check that refused" (E13): a bed value,
    a cell or a face by its index, and 0 where the check is of none of them.
    """

    def __init__(self, number, place, check):
        super().__init__(number, place, check)
        self.number = number
        self.place = place
        self.check = check


# ---- Whole numbers

def quo(a, b):
    """01's "/": division truncated toward nought.  Python's // rounds downward."""
    q = abs(a) // abs(b)
    return q if (a < 0) == (b < 0) else -q


def within(x, most):
    return -most <= x <= most


# ---- One face

def dry_in_list(dry):
    return LEAST_DRY <= dry <= MOST_DRY


def speed(q, h, dry):
    """Speed of a discharge: 0 when h is at most the dry depth, "else q*4096/h"."""
    if not (0 <= h <= DEEPEST and within(q, GREATEST_Q) and dry_in_list(dry)):
        return None
    if h <= dry:
        return 0
    return quo(q * UNIT, h)


def wave_speed(h):
    """a(h): "the largest a with 100*a*a at most 4,018,176*h"."""
    if not 0 <= h <= DEEPEST:
        return None
    # 100*a*a <= y holds for whole a exactly when a*a <= y // 100
    return isqrt(4018176 * h // 100)


def cube_root(h):
    """c: "the largest number whose cube is at most 16,777,216*h0"."""
    if not 0 <= h <= DEEPEST:
        return None
    c, bit = 0, 1 << 15                 # 16,777,216 * 262,144 = 2^42, so c < 2^15
    while bit:
        if (c + bit) ** 3 <= 16777216 * h:
            c += bit
        bit >>= 1
    return c


def wave_bounds(hL, uL, hR, uR):
    """sL and sR of a face that is not dry on both sides."""
    aL, aR = wave_speed(hL), wave_speed(hR)
    u = quo(uL + uR, 2) + aL - aR                       # u*; F2
    a = abs(quo(2 * (aL + aR) + uL - uR, 4))            # a*; F1
    sL = uR - 2 * aR if hL == 0 else min(uL - aL, u - a)
    sR = uL + 2 * aL if hR == 0 else max(uR + aR, u + a)
    return sL, sR


def face(hL, uL, hR, uR):
    """F, K, A, S of a face; a speed at depth 0 is answered like any other (F5)."""
    if not (0 <= hL <= DEEPEST and 0 <= hR <= DEEPEST):
        return None
    if not (within(uL, FASTEST) and within(uR, FASTEST)):
        return None
    if hL == 0 and hR == 0:
        return Flux(0, 0, 0, 0)
    sL, sR = wave_bounds(hL, uL, hR, uR)
    mL = quo(hL * uL, UNIT)
    mR = quo(hR * uR, UNIT)
    S = max(abs(sL), abs(sR), abs(uL), abs(uR))         # F7
    if sL >= 0:
        return Flux(mL, hL * hL, quo(mL * uL, UNIT), S)
    if sR <= 0:
        return Flux(mR, hR * hR, quo(mR * uR, UNIT), S)
    s = sR - sL
    F = quo(sR * hL * uL - sL * hR * uR + sL * sR * (hR - hL), UNIT * s)
    K = quo(sR * hL * hL - sL * hR * hR, s)
    A = quo(sR * mL * uL - sL * mR * uR + sL * sR * (mR - mL), UNIT * s)    # F6
    return Flux(F, K, A, S)


def outer_side(kind, inner):
    """As deep as the inner side; at a wall its speed is the opposite one, at an open end the same."""
    return Side(inner.h, -inner.u if kind == WALL else inner.u)


def inflow_S(uQ, inner):
    """The speed of Q, or the inner speed's size with the wave speed added, if that is more (E4)."""
    return max(uQ, abs(inner.u) + wave_speed(inner.h))


def inflow(Q, inner, dry, inward):
    """An end face where Q is given (E4): it has no outer side, and at depth 0 F is still Q.

    `inward` is the way into the reach there: 1 at the left end, -1 at the right.  F turns with it;
    A does not, since of Q and its speed both turn.
    """
    uQ = speed(Q, inner.h, dry)
    return Flux(inward * Q, inner.h * inner.h, quo(Q * uQ, UNIT), inflow_S(uQ, inner))


def left_end(kind, Q, inner, dry):
    if kind == INFLOW:
        return inflow(Q, inner, dry, 1)
    out = outer_side(kind, inner)
    return face(out.h, out.u, inner.h, inner.u)


def right_end(kind, Q, inner, dry):
    if kind == INFLOW:
        return inflow(Q, inner, dry, -1)
    out = outer_side(kind, inner)
    return face(inner.h, inner.u, out.h, out.u)


# ---- A cell over its bed

def bed_mean(zl, zr):
    """z0, exact once check 3 has passed; the page's "/" before that."""
    return quo(zl + zr, 2)


def bed_slope(zl, zr):
    return quo(zr - zl, 2)


def depth_mean(cell, zl, zr):
    return cell.e0 - bed_mean(zl, zr)


def depth_slope(cell, zl, zr):
    return cell.e1 - bed_slope(zl, zr)


def in_range(cell, zl, zr):
    """Both face depths from 0 to 262,144, both face discharges within 8,388,608 of nought."""
    h0, h1 = depth_mean(cell, zl, zr), depth_slope(cell, zl, zr)
    return (0 <= h0 - h1 <= DEEPEST and 0 <= h0 + h1 <= DEEPEST
            and within(cell.q0 - cell.q1, GREATEST_Q)
            and within(cell.q0 + cell.q1, GREATEST_Q))


Faces = namedtuple("Faces", "hl ql hr qr")


def cell_faces(cell, zl, zr):
    """The cell's own depth and discharge at its left face, then at its right."""
    h0, h1 = depth_mean(cell, zl, zr), depth_slope(cell, zl, zr)
    return Faces(h0 - h1, cell.q0 - cell.q1, h0 + h1, cell.q0 + cell.q1)


def gauss_points(cell, zl, zr):
    """The two (depth, discharge): "h0 +- 37837*h1/65536 (the division first)", S2."""
    h0, h1 = depth_mean(cell, zl, zr), depth_slope(cell, zl, zr)
    th = quo(37837 * h1, 65536)
    tq = quo(37837 * cell.q1, 65536)
    return (h0 + th, cell.q0 + tq), (h0 - th, cell.q0 - tq)


# ---- One stage

def checked_speed(q, h, dry, place, check):
    u = speed(q, h, dry)
    if not within(u, FASTEST):          # the truncated speed is what is checked, S1
        raise Refused(6, place, check)
    return u


def check_inflow_speed(kind, Q, inner, dry, place, which):
    """E4: the speed of Q at the end's inner depth is one of the speeds of that face."""
    if kind == INFLOW:
        checked_speed(Q, inner.h, dry, place, "inflow speed, stage %d" % which)


def face_speeds(cells, call, which):
    """Each cell's two sides.  All faces are tried, the lowest first, before the Gauss points are (E13).

    A face shows the right side of the cell on its left and the left side of the cell on its right.
    """
    shown = [cell_faces(cell, call.bed[i], call.bed[i + 1]) for i, cell in enumerate(cells)]

    def side(h, q, k):
        return Side(h, checked_speed(q, h, call.dry, k, "face speed, stage %d" % which))
    lefts, rights = [], []
    for k in range(call.n + 1):
        if k > 0:
            rights.append(side(shown[k - 1].hr, shown[k - 1].qr, k))
        if k < call.n:
            lefts.append(side(shown[k].hl, shown[k].ql, k))
        if k == 0:
            check_inflow_speed(call.left, call.left_q, lefts[0], call.dry, k, which)
        if k == call.n:
            check_inflow_speed(call.right, call.right_q, rights[-1], call.dry, k, which)
    return list(zip(lefts, rights))


def gauss_sums(cells, call, which):
    """g1 + g2 of each cell, "each giving discharge*speed/4096"."""
    sums = []
    for i, cell in enumerate(cells):
        total = 0
        for h, q in gauss_points(cell, call.bed[i], call.bed[i + 1]):
            u = checked_speed(q, h, call.dry, i, "inner-point speed, stage %d" % which)
            total += quo(q * u, UNIT)
        sums.append(total)
    return sums


def fluxes(sides, call, which):
    """F, K, A, S at faces 0 to n, with check 7."""
    found = [left_end(call.left, call.left_q, sides[0][0], call.dry)]
    for i in range(call.n - 1):
        L, R = sides[i][1], sides[i + 1][0]
        found.append(face(L.h, L.u, R.h, R.u))
    found.append(right_end(call.right, call.right_q, sides[-1][1], call.dry))
    for k, f in enumerate(found):
        if 2 * call.dt * f.S > UNIT * call.dx:
            raise Refused(7, k, "faces, stage %d" % which)
    return found


def volume(F, call):
    return quo(F * call.dt, call.dx)


def push(cell, zl, zr, left, right):
    """E of a cell, from the fluxes at its two faces."""
    own = cell_faces(cell, zl, zr)
    return left.K - right.K - (own.hr + own.hl) * (zr - zl)


def updated(cell, zl, zr, left, right, gauss, call):
    """One cell after a stage, unfinished; every product is whole before its division."""
    dt, dx = call.dt, call.dx
    h0, h1 = depth_mean(cell, zl, zr), depth_slope(cell, zl, zr)
    z1 = bed_slope(zl, zr)
    E = push(cell, zl, zr, left, right)
    D = 3 * right.K + 3 * left.K - 6 * h0 * h0 - 2 * h1 * h1 + 4 * h1 * z1
    e0 = cell.e0 + volume(left.F, call) - volume(right.F, call)
    e1 = cell.e1 - quo(3 * (right.F + left.F - 2 * cell.q0) * dt, dx)
    q0 = cell.q0 + quo((left.A - right.A) * dt, dx) + quo(981 * E * dt, 819200 * dx)
    q1 = cell.q1 - quo(3 * (right.A + left.A - gauss) * dt, dx) - quo(981 * D * dt, 819200 * dx)
    return Cell(e0, e1, q0, q1)


def stage(cells, call, which):
    """The unfinished stage and V at each face."""
    sides = face_speeds(cells, call, which)
    gauss = gauss_sums(cells, call, which)
    flux = fluxes(sides, call, which)
    after = [updated(cells[i], call.bed[i], call.bed[i + 1], flux[i], flux[i + 1], gauss[i], call)
             for i in range(call.n)]
    return after, [volume(f.F, call) for f in flux]


# ---- Finishing

def marks(cells, jump):
    """(1) "Where the levels two cells show at an inner face differ by more than J"."""
    marked = [False] * len(cells)
    for i in range(len(cells) - 1):
        if abs((cells[i].e0 + cells[i].e1) - (cells[i + 1].e0 - cells[i + 1].e1)) > jump:
            marked[i] = marked[i + 1] = True
    return marked


def spared(cells, call):
    """E2: a cell with mean depth at most the dry depth, and a cell next to one, "isn't limited".

    "After the stage": the depths are those of the state being finished, as the marks are (R1).
    """
    shallow = [depth_mean(cell, call.bed[i], call.bed[i + 1]) <= call.dry for i, cell in enumerate(cells)]
    return [any(shallow[max(0, i - 1):i + 2]) for i in range(len(cells))]


def minmod(*values):
    """Of numbers of one sign the one nearest nought; 0 where the signs differ or one is 0."""
    if all(v > 0 for v in values):
        return min(values)
    if all(v < 0 for v in values):
        return max(values)
    return 0


def limited(cells, i):
    """(2) Both slopes of a marked cell that is not spared, from the unfinished stage only (S11, S12)."""
    def slope(own, mean):
        against = [own]
        if i + 1 < len(cells):
            against.append(mean(cells[i + 1]) - mean(cells[i]))
        if i > 0:
            against.append(mean(cells[i]) - mean(cells[i - 1]))
        return minmod(*against)
    cell = cells[i]
    return cell._replace(e1=slope(cell.e1, lambda c: c.e0), q1=slope(cell.q1, lambda c: c.q0))


def cut(cell, zl, zr):
    """(3) "h1 is cut to lie within h0 of nought"; q1 goes where the cut changes e1 (S10)."""
    h0, h1 = depth_mean(cell, zl, zr), depth_slope(cell, zl, zr)
    e1 = bed_slope(zl, zr) + max(-h0, min(h0, h1))
    return cell if e1 == cell.e1 else cell._replace(e1=e1, q1=0)


def dried(cell, zl, zr, dry):
    """(4) Where h0 is at most the dry depth, "q0 and q1 become 0"."""
    return cell._replace(q0=0, q1=0) if depth_mean(cell, zl, zr) <= dry else cell


def finished(cells, call):
    marked, kept = marks(cells, call.jump), spared(cells, call)
    done = []
    for i, cell in enumerate(cells):
        zl, zr = call.bed[i], call.bed[i + 1]
        if marked[i] and not kept[i]:
            cell = limited(cells, i)
        done.append(dried(cut(cell, zl, zr), zl, zr, call.dry))
    return done


# ---- Friction

def friction_x(u, h0, f, dt):
    return quo(256 * 981 * dt * f * f * abs(u), 390625 * h0 * cube_root(h0))


def slowed(q, x):
    return quo(q * (65536 + x), 65536 + 2 * x)


def friction(q0, q1, h0, f, dt, dry):
    """x, q0 and q1 of one cell after friction; x is 0 where the depth is at most the dry depth.

    Besides the limits of its arguments it refuses a speed beyond 131,072, as the
    step does before any x is formed (S18).
    """
    u = speed(q0, h0, dry)
    if u is None or not within(u, FASTEST) or not within(q1, GREATEST_Q):
        return None
    if not (0 <= f <= ROUGHEST and 1 <= dt <= LONGEST_DT):
        return None
    x = friction_x(u, h0, f, dt) if h0 > dry else 0
    return x, slowed(q0, x), slowed(q1, x)


def check_friction_speeds(cells, call):
    """Every cell deeper than the dry depth is checked, whatever its friction."""
    for i, cell in enumerate(cells):
        h0 = depth_mean(cell, call.bed[i], call.bed[i + 1])
        if h0 > call.dry:
            checked_speed(cell.q0, h0, call.dry, i, "friction speed")


def after_friction(cells, call):
    """The whole reach's speeds are checked before any cell is slowed."""
    check_friction_speeds(cells, call)
    slow = []
    for i, cell in enumerate(cells):
        h0 = depth_mean(cell, call.bed[i], call.bed[i + 1])
        _, q0, q1 = friction(cell.q0, cell.q1, h0, call.friction[i], call.dt, call.dry)
        slow.append(cell._replace(q0=q0, q1=q1))
    return slow


# ---- The whole step

def check_lengths(now, next_len, bed, friction):
    n = len(friction)
    if not 1 <= n <= MOST_CELLS or len(now) != 4 * n or next_len != 4 * n or len(bed) != n + 1:
        raise Refused(1, 0, "lengths")


def kind_in_list(kind):
    return kind in (WALL, OPEN, INFLOW)


def inflow_in_list(kind, Q):
    """E4: in its range where an inflow is given, and 0 at an end of another kind."""
    return 0 <= Q <= GREATEST_Q if kind == INFLOW else Q == 0


def check_numbers(dx, dt, jump, dry, left, right, left_q, right_q):
    if not (1 <= dx <= LONGEST_DX and 1 <= dt <= LONGEST_DT and 0 <= jump <= GREATEST_JUMP
            and dry_in_list(dry) and kind_in_list(left) and kind_in_list(right)
            and inflow_in_list(left, left_q) and inflow_in_list(right, right_q)):
        raise Refused(2, 0, "numbers")


def check_bed(bed):
    for k, z in enumerate(bed):
        if not 0 <= z <= HIGHEST_BED or z % 2 != 0:
            raise Refused(3, k, "bed")


def check_friction(friction):
    for i, f in enumerate(friction):
        if not 0 <= f <= ROUGHEST:
            raise Refused(4, i, "friction")


def check_range(cells, call, number, check):
    for i, cell in enumerate(cells):
        if not in_range(cell, call.bed[i], call.bed[i + 1]):
            raise Refused(number, i, check)


def cells_of(table):
    """The n cells of a lent state: four columns of n, in the order of a cell's numbers (E7)."""
    n = len(table) // 4
    e0, e1, q0, q1 = table[:n], table[n:2 * n], table[2 * n:3 * n], table[3 * n:]
    return [Cell(*numbers) for numbers in zip(e0, e1, q0, q1)]


def table_of(cells):
    """The level means, then the level slopes, the discharge means and the discharge slopes."""
    return [number for column in zip(*cells) for number in column]


def halves(cells, slow, two, W):
    """The unfinished end state: levels move by W, the rest are averaged (S15)."""
    return [Cell(cells[i].e0 + W[i] - W[i + 1],
                 quo(slow[i].e1 + two[i].e1, 2),
                 quo(slow[i].q0 + two[i].q0, 2),
                 quo(slow[i].q1 + two[i].q1, 2))
            for i in range(len(cells))]


def worked(now, next_len, bed, friction, dx, dt, jump, dry, left, right, left_q, right_q):
    """The step; a refusal is raised, so that its check can be told apart."""
    check_lengths(now, next_len, bed, friction)
    check_numbers(dx, dt, jump, dry, left, right, left_q, right_q)
    check_bed(bed)
    check_friction(friction)
    call = Call(len(friction), bed, friction, dx, dt, jump, dry, left, right, left_q, right_q)
    cells = cells_of(now)
    check_range(cells, call, 5, "present state")
    slow = after_friction(cells, call)
    one, V1 = stage(slow, call, 1)
    one = finished(one, call)
    check_range(one, call, 8, "stage one")
    two, V2 = stage(one, call, 2)
    W = [quo(a + b, 2) for a, b in zip(V1, V2)]
    end = finished(halves(cells, slow, two, W), call)
    check_range(end, call, 8, "end state")
    return table_of(end), W[0], W[-1]


def step(now, next_len, bed, friction, dx, dt, jump, dry, left, right, left_q, right_q):
    try:
        return ("accepted",) + worked(now, next_len, bed, friction, dx, dt, jump, dry, left, right, left_q, right_q)
    except Refused as r:
        return "refused", r.number, r.place
