"""What refuses a step over a stepped bed and where, written a second time to be held to sill.py (E13).

The model stops at the first index to which a check applies.  Here each check gathers all of them, and the lowest is the
place.  Depths are worked once, by cell, and what a cell shows at a face by how far the neighbour's bed stands over its
own; a fraction is cut where the model divides.  What crosses a face and what friction leaves are the model's.
"""

from fractions import Fraction
from math import trunc

import model as m
import sill
from places import Check, fast, refusing

BED, DEPTHS = range(m.HIGHEST_BED + 1), range(m.DEEPEST + 1)


def out_of_range(depths, discharges):
    return {i for i, (h, q) in enumerate(zip(depths, discharges)) if h not in DEPTHS or abs(q) > m.GREATEST_Q}


def fast_cells(depths, discharges, dry):
    return {i for i, (h, q) in enumerate(zip(depths, discharges)) if fast(q, h, dry)}


def shown(depths, bed):
    """What each cell shows at its left face, then at its right: an end has no neighbour, so all of the depth."""
    def less(i, neighbour):
        over = bed[neighbour] - bed[i] if 0 <= neighbour < len(bed) else 0
        return depths[i] if over <= 0 else max(0, depths[i] - over)
    cells = range(len(bed))
    return [less(i, i - 1) for i in cells], [less(i, i + 1) for i in cells]


def beyond(kind, h, u):
    """What stands on the outer side of an end."""
    return (h, u) if kind == m.OPEN else (h, -u)


def crossing(lefts, rights, speeds, call):
    """What crosses each face, from the sides on its left and those on its right."""
    before = [beyond(call.left, lefts[0], speeds[0]), *zip(rights, speeds)]
    behind = [*zip(lefts, speeds), beyond(call.right, rights[-1], speeds[-1])]
    return [m.face(*L, *R) for L, R in zip(before, behind)]


def unended(depths, discharges, lefts, rights, flux, call):
    """Depths, discharges and volumes once the stage is over; nothing is dried."""
    r = Fraction(call.dt, call.dx)
    V = [trunc(f.F * r) for f in flux]
    pushes = [a.K - hl ** 2 - b.K + hr ** 2 for hl, hr, a, b in zip(lefts, rights, flux, flux[1:])]
    gains = [trunc((a.A - b.A) * r) + trunc(E * r * Fraction(981, 819200)) for E, a, b in zip(pushes, flux, flux[1:])]
    return [h + a - b for h, a, b in zip(depths, V, V[1:])], [q + more for q, more in zip(discharges, gains)], V


def state_checks(levels, discharges, call):
    """Those from the present state on; each state is worked once the checks before it have passed.

    With the last of them stand the new table and the volumes, and the discharges before they were dried.
    """
    depths = [e - z for e, z in zip(levels, call.bed)]
    yield Check(5, "present state", out_of_range(depths, discharges))
    yield Check(6, "friction speed", fast_cells(depths, discharges, call.dry))
    slow = [m.friction(q, 0, h, f, call.dt, call.dry)[1] for q, h, f in zip(discharges, depths, call.friction)]
    too_fast = fast_cells(depths, slow, call.dry)
    yield Check(6, "face speed", too_fast | {i + 1 for i in too_fast})
    lefts, rights = shown(depths, call.bed)
    flux = crossing(lefts, rights, [m.speed(q, h, call.dry) for q, h in zip(slow, depths)], call)
    yield Check(7, "faces", {k for k, f in enumerate(flux) if Fraction(f.S * call.dt, call.dx) > m.UNIT // 2})
    new, undried, V = unended(depths, slow, lefts, rights, flux, call)
    end = [q if h > call.dry else 0 for h, q in zip(new, undried)]
    table = [h + z for h, z in zip(new, call.bed)] + end
    yield Check(8, "end state", out_of_range(new, end), (table, V[0], V[-1], undried))


def checks(now, next_len, bed, friction, *numbers):
    """Every check of a call in its order, as far as those before it have passed."""
    yield Check(1, "lengths", refusing(sill.check_lengths, now, next_len, bed, friction))
    yield Check(2, "numbers", refusing(sill.check_numbers, *numbers))
    yield Check(3, "bed", {i for i, z in enumerate(bed) if z not in BED})
    yield Check(4, "friction", {i for i, f in enumerate(friction) if f > m.ROUGHEST})
    n = len(friction)
    yield from state_checks(now[:n], now[n:], sill.Call(n, bed, friction, *numbers))


def last_check(call):
    """The check that refuses a call; or the last one, which found nothing."""
    for check in checks(*call):
        if check.indices:
            break
    return check


def told(check):
    """What the step answers whose last check this is."""
    if check.indices:
        return "refused", check.number, min(check.indices)
    table, V0, Vn, _ = check.cells
    return "accepted", table, V0, Vn


def position(check, place, n):
    """Whether the place that a check of such a name gave is the first, the last or one between; None where there is but one."""
    count = n + 1 if check.startswith(("face speed", "faces")) else n
    if count == 1:
        return None
    return "first" if place == 0 else "last" if place == count - 1 else "middle"
