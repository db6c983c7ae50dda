"""What refuses a step in doubles and where, written a second time to be held to double_step.py (E13).

The model stops at the first index to which a check applies.  Here each check gathers all of them, faces from the cells
that show them, and the lowest is the place.  Only where checks look is written again: the states that they look at, and
what crosses a face, are the model's.
"""

from math import isfinite

import double_step as d
from places import Check, position, refusing       # position is given on from here


def out(x, least, most):
    """Whether a number is beyond its limits, or is none."""
    return x != x or x < least or x > most


def fast(q, h):
    return h > d.DRY and out(q / h, -d.FASTEST, d.FASTEST)


def beds(call):
    return list(zip(call.bed, call.bed[1:]))


def depths(cells, call):
    """Of each cell the mean depth and half of what it is deeper at its right face than at its left."""
    return [(c.e0 - (zl + zr) / 2, c.e1 - (zr - zl) / 2) for c, (zl, zr) in zip(cells, beds(call))]


def fast_left_sides(cells, call):
    return {i for i, (c, (h, s)) in enumerate(zip(cells, depths(cells, call))) if fast(c.q0 - c.q1, h - s)}


def fast_right_sides(cells, call):
    return {i + 1 for i, (c, (h, s)) in enumerate(zip(cells, depths(cells, call))) if fast(c.q0 + c.q1, h + s)}


def fast_points(cells, call):
    """The cells with a Gauss point that is too fast."""
    found = set()
    for i, (c, (h, s)) in enumerate(zip(cells, depths(cells, call))):
        s, q = 0.5773502691896258 * s, 0.5773502691896258 * c.q1
        if fast(c.q0 + q, h + s) or fast(c.q0 - q, h - s):
            found.add(i)
    return found


def fast_means(cells, call):
    return {i for i, (c, (h, _)) in enumerate(zip(cells, depths(cells, call))) if fast(c.q0, h)}


def busy_faces(cells, call):
    """The faces for whose S the time step is too long, in a stage whose speeds have passed."""
    flux = [d.crossing(*pair) for pair in d.sides(cells, call)]
    return {k for k, f in enumerate(flux) if 2.0 * call.dt * f.S > call.dx}


def out_of_range(cells, call):
    return {i for i, (c, (h, s)) in enumerate(zip(cells, depths(cells, call)))
            if not all(map(isfinite, c)) or out(h - s, 0.0, 64.0) or out(h + s, 0.0, 64.0)
            or out(c.q0 - c.q1, -2048.0, 2048.0) or out(c.q0 + c.q1, -2048.0, 2048.0)}


def below(cells, call):
    """The cells whose mean depth is below nought."""
    return {i for i, (h, _) in enumerate(depths(cells, call)) if h < 0.0}


def stage_checks(cells, call, which):
    yield Check(6, "face speed, stage %d" % which, fast_left_sides(cells, call) | fast_right_sides(cells, call), cells)
    yield Check(6, "inner-point speed, stage %d" % which, fast_points(cells, call), cells)
    yield Check(7, "faces, stage %d" % which, busy_faces(cells, call), cells)


def end_checks(cells, call, name):
    """Those of a state before it is finished, with which it stands, and after."""
    yield Check(9, name + ", depth", below(cells, call), cells)
    done = d.finished(cells, call)
    yield Check(8, name, out_of_range(done, call), (cells, done))


def state_checks(cells, call):
    """Those from the present state on; each state is worked once the checks before it have passed."""
    yield Check(5, "present state", out_of_range(cells, call), cells)
    yield Check(6, "friction speed", fast_means(cells, call), cells)
    yield from stage_checks(cells, call, 1)
    unfinished, V1 = d.stage(cells, call, 1)
    yield from end_checks(unfinished, call, "stage one")
    one = d.finished(unfinished, call)
    yield from stage_checks(one, call, 2)
    two, V2 = d.stage(one, call, 2)
    W = d.across(V1, V2)
    yield from end_checks([d.joined(*each) for each in zip(cells, two, W, W[1:])], call, "end state")


def checks(now, next_len, bed, friction, *numbers):
    """Every check of a call in its order, as far as those before it have passed."""
    yield Check(1, "lengths", refusing(d.check_lengths, now, next_len, bed, friction))
    dx, dt, jump, left, right = numbers
    wrong = (out(dx, 1 / 4096, 256.0), out(dt, 1 / 4096, 1.0), out(jump, 0.0, 64.0), left > 1, right > 1)
    yield Check(2, "numbers", {0} if any(wrong) else set())
    yield Check(3, "bed", {k for k, z in enumerate(bed) if out(z, 0.0, 256.0)})
    yield Check(4, "friction", {i for i, f in enumerate(friction) if f})
    yield from state_checks(d.cells_of(now), d.Call(len(friction), bed, *numbers))


def met(call):
    """The check that refuses a call, or None."""
    return next((check for check in checks(*call) if check.indices), None)
