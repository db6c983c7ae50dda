"""The step over a stepped bed, from the words of 02's E10, to be compared with the library.

Each cell has one bed value, one level and one discharge, and there is one stage.  What crosses a face, the speed of a
discharge and friction are those of 01, and so the model's; all else is written here, in 02's order and with its
letters.  The checks are 01's, written again over this reach's own tables.

`step` answers ("refused", number, place) or ("accepted", next, V0, Vn).
"""

from collections import namedtuple

import model as m

Cell = namedtuple("Cell", "e q")            # level and discharge
Call = namedtuple("Call", "n bed friction dx dt dry left right")


# ---- A cell over its bed, and what it shows at a face

def depth(cell, z):
    """The cell's own depth, over its own bed."""
    return cell.e - z


def face_bed(bed, k):
    """The bed that counts at face k: the higher of the two beside it, and at an end that of the end cell."""
    if k == 0:
        return bed[0]
    if k == len(bed):
        return bed[-1]
    return max(bed[k - 1], bed[k])


def shown_depth(cell, z):
    """The reconstructed depth: over the bed that counts at the face, and none where the level lies below it."""
    return max(0, cell.e - z)


def shown_speed(cell, i, k, call):
    """Of the cell's own depth, not of the one that it shows: so a side of depth 0 may have a speed."""
    return m.speed(cell.q, depth(cell, call.bed[i]), call.dry)


def side(cells, i, k, call):
    """What face k reads of cell i."""
    return m.Side(shown_depth(cells[i], face_bed(call.bed, k)), shown_speed(cells[i], i, k, call))


# ---- Friction comes first

def check_friction_speeds(cells, call):
    for i, cell in enumerate(cells):
        h = depth(cell, call.bed[i])
        if h > call.dry and not m.within(m.speed(cell.q, h, call.dry), m.FASTEST):
            raise m.Refused(6, i, "friction speed")


def after_friction(cells, call):
    """01's, by the cell's own depth; there is no slope to slow."""
    check_friction_speeds(cells, call)
    slow = []
    for i, cell in enumerate(cells):
        _, q, _ = m.friction(cell.q, 0, depth(cell, call.bed[i]), call.friction[i], call.dt, call.dry)
        slow.append(cell._replace(q=q))
    return slow


# ---- The stage

def check_face_speeds(cells, call):
    """Of the slowed water, the lowest face first.  Friction makes no water faster, so none is ever seen to be refused here."""
    for k in range(call.n + 1):
        for i in (k - 1, k):
            if 0 <= i < call.n and not m.within(shown_speed(cells[i], i, k, call), m.FASTEST):
                raise m.Refused(6, k, "face speed")


def flux_at(cells, k, call):
    """F, K, A, S of face k; an end takes its outer side from the inner, as in 01."""
    L = side(cells, k - 1, k, call) if k > 0 else None
    R = side(cells, k, k, call) if k < call.n else None
    if L is None:
        L = m.outer_side(call.left, R)
    if R is None:
        R = m.outer_side(call.right, L)
    return m.face(L.h, L.u, R.h, R.u)


def fluxes(cells, call):
    """Those of faces 0 to n, with check 7."""
    found = [flux_at(cells, k, call) for k in range(call.n + 1)]
    for k, f in enumerate(found):
        if 2 * call.dt * f.S > m.UNIT * call.dx:
            raise m.Refused(7, k, "faces")
    return found


def volume(F, call):
    return m.quo(F * call.dt, call.dx)


def push(hl, hr, left, right):
    """E of a cell that shows the depths hl and hr at its two faces."""
    return (left.K - hl * hl) - (right.K - hr * hr)


def gain(E, left, right, call):
    """What the discharge gains: two divisions, each by itself."""
    return m.quo((left.A - right.A) * call.dt, call.dx) + m.quo(981 * E * call.dt, 819200 * call.dx)


def updated(cells, i, left, right, call):
    """Cell i after the stage, not yet dried, from the fluxes at its two faces."""
    hl, hr = (shown_depth(cells[i], face_bed(call.bed, k)) for k in (i, i + 1))
    return Cell(cells[i].e + volume(left.F, call) - volume(right.F, call),
                cells[i].q + gain(push(hl, hr, left, right), left, right, call))


def dried(old, new, z, dry):
    """By the depth that the stage leaves, not by the one that it found."""
    return new._replace(q=0) if depth(new, z) <= dry else new


def ended(old, new, call):
    """The end state, which check 8 is of."""
    end = [dried(o, c, z, call.dry) for o, c, z in zip(old, new, call.bed)]
    check_range(end, call, 8, "end state")
    return end


# ---- The whole step

def check_lengths(now, next_len, bed, friction):
    n = len(friction)
    if not 1 <= n <= m.MOST_CELLS or len(now) != 2 * n or next_len != 2 * n or len(bed) != n:
        raise m.Refused(1, 0, "lengths")


def check_numbers(dx, dt, dry, left, right):
    """A wall or an open end: E4's third kind is not in this reach's list, and there is no J."""
    if not (1 <= dx <= m.LONGEST_DX and 1 <= dt <= m.LONGEST_DT and m.dry_in_list(dry)
            and left in (m.WALL, m.OPEN) and right in (m.WALL, m.OPEN)):
        raise m.Refused(2, 0, "numbers")


def check_bed(bed):
    """Its range alone: a bed value may be odd."""
    for i, z in enumerate(bed):
        if not 0 <= z <= m.HIGHEST_BED:
            raise m.Refused(3, i, "bed")


def in_range(cell, z):
    return 0 <= depth(cell, z) <= m.DEEPEST and m.within(cell.q, m.GREATEST_Q)


def check_range(cells, call, number, check):
    for i, cell in enumerate(cells):
        if not in_range(cell, call.bed[i]):
            raise m.Refused(number, i, check)


def cells_of(table):
    """Of n levels and behind them n discharges."""
    n = len(table) // 2
    return [Cell(e, q) for e, q in zip(table[:n], table[n:])]


def table_of(cells):
    return [c.e for c in cells] + [c.q for c in cells]


def worked(now, next_len, bed, friction, dx, dt, dry, left, right):
    """The step; a refusal is raised, so that its check can be told apart."""
    check_lengths(now, next_len, bed, friction)
    check_numbers(dx, dt, dry, left, right)
    check_bed(bed)
    m.check_friction(friction)
    call = Call(len(friction), bed, friction, dx, dt, dry, left, right)
    cells = cells_of(now)
    check_range(cells, call, 5, "present state")
    slow = after_friction(cells, call)
    check_face_speeds(slow, call)
    flux = fluxes(slow, call)
    end = ended(slow, [updated(slow, i, flux[i], flux[i + 1], call) for i in range(call.n)], call)
    return table_of(end), volume(flux[0].F, call), volume(flux[-1].F, call)


def step(now, next_len, bed, friction, dx, dt, dry, left, right):
    try:
        return ("accepted",) + worked(now, next_len, bed, friction, dx, dt, dry, left, right)
    except m.Refused as r:
        return "refused", r.number, r.place
