"""What refuses a step and where, written a second time to be held to the model (E13).

The model stops at the first index to which a check applies.  Here each check gathers all of them,
faces from the cells that show them, and the lowest is the place.  Only where checks look is written
again: the states that they look at, and what crosses a face, are the model's.
"""

from collections import namedtuple

import model as m

BED = range(0, m.HIGHEST_BED + 1, 2)

# A check that was made: its number and name, every index to which it applies, and the cells that it read.  It has the
# name that the model has for it, but that inflows are among the face speeds.
Check = namedtuple("Check", "number name indices cells", defaults=(None,))


def fast(q, h, dry):
    return h > dry and abs(q) * m.UNIT // h > m.FASTEST


def sides(cells, call):
    """Of each cell its left side, then its right: the face, the depth and the discharge there."""
    lefts = [(i, c.e0 - c.e1 - call.bed[i], c.q0 - c.q1) for i, c in enumerate(cells)]
    rights = [(i + 1, c.e0 + c.e1 - call.bed[i + 1], c.q0 + c.q1) for i, c in enumerate(cells)]
    return lefts, rights


def fast_left_sides(cells, call):
    return {k for k, h, q in sides(cells, call)[0] if fast(q, h, call.dry)}


def fast_right_sides(cells, call):
    return {k for k, h, q in sides(cells, call)[1] if fast(q, h, call.dry)}


def fast_inflows(cells, call):
    lefts, rights = sides(cells, call)
    ends = (call.left, call.left_q, lefts[0]), (call.right, call.right_q, rights[-1])
    return {k for kind, Q, (k, h, _) in ends if kind == m.INFLOW and fast(Q, h, call.dry)}


def fast_faces(cells, call):
    return fast_left_sides(cells, call) | fast_right_sides(cells, call) | fast_inflows(cells, call)


def fast_points(cells, call):
    """The cells with a Gauss point that is too fast."""
    return {i for i, c in enumerate(cells)
            for h, q in m.gauss_points(c, call.bed[i], call.bed[i + 1]) if fast(q, h, call.dry)}


def fast_means(cells, call):
    return {i for i, c in enumerate(cells) if fast(c.q0, c.e0 - (call.bed[i] + call.bed[i + 1]) // 2, call.dry)}


def busy_faces(cells, call, which):
    """The faces for whose S the time step is too long, in a stage whose speeds have passed."""
    flux = m.fluxes(m.face_speeds(cells, call, which), call._replace(dt=0), which)     # a dt of nought passes check 7
    return {k for k, f in enumerate(flux) if 2 * call.dt * f.S > m.UNIT * call.dx}


def out_of_range(cells, call):
    lefts, rights = sides(cells, call)
    return {i for i, shown in enumerate(zip(lefts, rights)) for _, h, q in shown
            if not 0 <= h <= m.DEEPEST or abs(q) > m.GREATEST_Q}


def refusing(check, *given):
    """The place 0, if a check that is of no index refuses."""
    try:
        check(*given)
        return set()
    except m.Refused:
        return {0}


def stage_checks(cells, call, which):
    yield Check(6, "face speed, stage %d" % which, fast_faces(cells, call), cells)
    yield Check(6, "inner-point speed, stage %d" % which, fast_points(cells, call), cells)
    yield Check(7, "faces, stage %d" % which, busy_faces(cells, call, which), cells)


def state_checks(cells, call):
    """Those from the present state on; each state is worked once the checks before it have passed."""
    yield Check(5, "present state", out_of_range(cells, call), cells)
    yield Check(6, "friction speed", fast_means(cells, call), cells)
    slow = m.after_friction(cells, call)
    yield from stage_checks(slow, call, 1)
    unfinished, V1 = m.stage(slow, call, 1)
    one = m.finished(unfinished, call)
    yield Check(8, "stage one", out_of_range(one, call), one)
    yield from stage_checks(one, call, 2)
    two, V2 = m.stage(one, call, 2)
    W = [m.quo(a + b, 2) for a, b in zip(V1, V2)]
    end = m.finished(m.halves(cells, slow, two, W), call)
    yield Check(8, "end state", out_of_range(end, call), end)


def checks(now, next_len, bed, friction, *numbers):
    """Every check of a call in its order, as far as those before it have passed."""
    yield Check(1, "lengths", refusing(m.check_lengths, now, next_len, bed, friction))
    yield Check(2, "numbers", refusing(m.check_numbers, *numbers))
    yield Check(3, "bed", {k for k, z in enumerate(bed) if z not in BED})
    yield Check(4, "friction", {i for i, f in enumerate(friction) if f > m.ROUGHEST})
    yield from state_checks(m.cells_of(now), m.Call(len(friction), bed, friction, *numbers))


def met(call):
    """The check that refuses a call, or None."""
    return next((check for check in checks(*call) if check.indices), None)


# ---- Where in the reach

# The checks whose place is a bed value or a face, of which there is one more than cells.
OF_FACES = ("bed", "face speed", "inflow speed", "faces")


def position(check, place, n):
    """Whether the place that a check of such a name gave is the first, the last or one between; None where there is but one."""
    count = n + 1 if check.startswith(OF_FACES) else n
    if count == 1:
        return None
    return "first" if place == 0 else "last" if place == count - 1 else "middle"
