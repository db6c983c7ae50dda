"""Readings of E2, E3, E4, E7 and E13 that are not their own, each a context in which the model follows it.

A case whose line is another under one of them tells that reading from the rule.
"""
import contextlib
import itertools
import os
import sys

sys.path.insert(0, os.path.join(os.path.dirname(os.path.abspath(__file__)), "..", "model"))
import before
import model as m
import places
from before import replaced


# ---- Which cells are spared

def lesser_face(cell, zl, zr):
    return m.depth_mean(cell, zl, zr) - abs(m.depth_slope(cell, zl, zr))


def greater_face(cell, zl, zr):
    return m.depth_mean(cell, zl, zr) + abs(m.depth_slope(cell, zl, zr))


def sparing(depth=m.depth_mean, over=0, places=(-1, 0, 1)):
    """A cell is spared where such a depth at one of these places beside it is at most so much over the dry depth."""
    def spared(cells, call):
        shallow = [depth(cell, call.bed[i], call.bed[i + 1]) <= call.dry + over for i, cell in enumerate(cells)]
        return [any(shallow[i + k] for k in places if 0 <= i + k < len(cells)) for i in range(len(cells))]
    return replaced(spared=spared)


def sparing_once():
    """A cell is spared at the end where the depths of stage one spare it."""
    rule, first = m.spared, []

    def spared(cells, call):
        first.append(rule(cells, call))
        return first[0]
    return replaced(spared=spared)


@contextlib.contextmanager
def sparing_early():
    """The depths are those of the state that the stage began from."""
    stage, spared, begun = m.stage, m.spared, []

    def noted(cells, call, which):
        begun.append(cells)
        return stage(cells, call, which)
    with replaced(stage=noted, spared=lambda cells, call: spared(begun[-1], call)):
        yield


# ---- What becomes of a spared cell and its neighbours

def finishing(otherwise):
    """Finishing in which `otherwise` says what becomes of a cell; where it says None the rule does."""
    rule = m.finished

    def finished(cells, call):
        kept, done = m.spared(cells, call), rule(cells, call)
        return [otherwise(cells, call, kept, i) or done[i] for i in range(len(cells))]
    return replaced(finished=finished)


def uncut(cells, call, kept, i):
    return m.dried(cells[i], call.bed[i], call.bed[i + 1], call.dry) if kept[i] else None


def undried(cells, call, kept, i):
    return m.cut(cells[i], call.bed[i], call.bed[i + 1]) if kept[i] else None


def unmarked(cells, call, kept, i):
    """A face beside a spared cell marks neither of its cells."""
    beside = [k for k in (i - 1, i) if 0 <= k < len(cells) - 1 and not (kept[k] or kept[k + 1])]
    if any(m.marks(cells[k:k + 2], call.jump)[0] for k in beside):
        return None
    zl, zr = call.bed[i], call.bed[i + 1]
    return m.dried(m.cut(cells[i], zl, zr), zl, zr, call.dry)


# ---- A 4 left standing in one place, whatever the call's dry depth

def with_four(name):
    """The rule of that name, which is given the cells of a reach and the call, with a 4."""
    rule = getattr(m, name)
    return {name: lambda cells, call, *which: rule(cells, call._replace(dry=4), *which)}


def rubbing(over):
    """Friction over some depth, which takes any speed: a check that reads a 4 may let one through."""
    def friction(q0, q1, h0, f, dt, dry):
        x = m.friction_x(m.quo(q0 * m.UNIT, h0), h0, f, dt) if h0 > over(dry) else 0
        return x, m.slowed(q0, x), m.slowed(q1, x)
    return {"friction": friction}


def four_drying(turn):
    """A 4 in the drying of the first or of the second state that is finished."""
    finished, dried, turns = m.finished, m.dried, itertools.count()

    def rule(cells, call):
        four = next(turns) == turn
        with replaced(dried=lambda cell, zl, zr, dry: dried(cell, zl, zr, 4 if four else dry)):
            return finished(cells, call)
    return replaced(finished=rule)


def dry_list(least, most):
    """The list of dry depths has other ends."""
    return replaced(dry_in_list=lambda dry: least <= dry <= most)


# ---- What an end face is where Q is given

def ends(flux):
    """Such an end with another flux: of Q, the inner side, the dry depth, the way inward and the rule's own flux."""
    rule = m.inflow
    return replaced(inflow=lambda Q, inner, dry, inward: flux(Q, inner, dry, inward, rule(Q, inner, dry, inward)))


def at_the_right(flux):
    """Another flux at the right end alone."""
    return ends(lambda Q, inner, dry, inward, own: own if inward == 1 else flux(own))


def at_the_left(flux):
    return ends(lambda Q, inner, dry, inward, own: own if inward == -1 else flux(own))


def carrying(speed):
    """A is Q times another speed: of Q, the inner side and the dry depth."""
    return ends(lambda Q, inner, dry, inward, own: own._replace(A=m.quo(Q * speed(Q, inner, dry), m.UNIT)))


def topped(S):
    """S is another: of the speed of Q, the inner speed's size and the wave speed."""
    return replaced(inflow_S=lambda uQ, inner: S(uQ, abs(inner.u), m.wave_speed(inner.h)))


def inflow_speed(speed):
    """The speed of Q is another, in A, S and 6: of Q, the depth and the dry depth."""
    def flux(Q, inner, dry, inward):
        uQ = speed(Q, inner.h, dry)
        return m.Flux(inward * Q, inner.h * inner.h, m.quo(Q * uQ, m.UNIT), m.inflow_S(uQ, inner))

    def checked(kind, Q, inner, dry, place, which):
        if kind == m.INFLOW and speed(Q, inner.h, dry) > m.FASTEST:
            raise m.Refused(6, place, "inflow speed, stage %d" % which)
    return replaced(inflow=flux, check_inflow_speed=checked)


def speed_over(Q, h, over):
    return m.quo(Q * m.UNIT, h) if h > over else 0


def speed_of_stage_one():
    """The speed of Q is that of stage one in both, in A, S and 6."""
    first = {}

    def flux(Q, inner, dry, inward):
        uQ = first.setdefault(inward, m.speed(Q, inner.h, dry))
        return m.Flux(inward * Q, inner.h * inner.h, m.quo(Q * uQ, m.UNIT), m.inflow_S(uQ, inner))
    rule = m.check_inflow_speed
    return replaced(inflow=flux, check_inflow_speed=lambda *end: end[-1] == 1 and rule(*end))


def by_mean_depth():
    """K, A and S are of the end cell's mean depth."""
    rule = m.fluxes

    def mean(cell, side):
        return side._replace(h=(cell[0].h + cell[1].h) // 2)

    def fluxes(sides, call, which):
        means = list(sides)
        if call.left == m.INFLOW:
            means[0] = mean(sides[0], sides[0][0]), means[0][1]
        if call.right == m.INFLOW:
            means[-1] = means[-1][0], mean(sides[-1], sides[-1][1])
        return rule(means, call, which)
    return replaced(fluxes=fluxes)


def outer_water(Q, inner, dry, inward, own):
    """The face rule, with water outside that is as deep as the inner side and has the speed of Q."""
    out = inward * m.speed(Q, inner.h, dry)
    return m.face(inner.h, out, *inner) if inward == 1 else m.face(*inner, inner.h, out)


def wall_without(Q, inner, dry, inward, own):
    """With a Q of 0 the end is a wall."""
    return own if Q else m.left_end(m.WALL, 0, inner, dry) if inward == 1 else m.right_end(m.WALL, 0, inner, dry)


def exactly_fast(kind, Q, inner, dry, place, which):
    """The exact quotient is checked, not the speed that is cut toward nought."""
    if kind == m.INFLOW and inner.h > dry and Q * m.UNIT > m.FASTEST * inner.h:
        raise m.Refused(6, place, "inflow speed, stage %d" % which)


# ---- Where and when Q stands

def in_stage(which):
    """Q is given in one stage alone, and is 0 in the other."""
    rule = m.stage

    def stage(cells, call, number):
        return rule(cells, call if number == which else call._replace(left_q=0, right_q=0), number)
    return replaced(stage=stage)


def let_through(free):
    """Any Q of the range is let through at an end of a kind that has none, and not used."""
    rule = m.inflow_in_list
    return replaced(inflow_in_list=lambda kind, Q: rule(m.INFLOW if kind == free else kind, Q))


def inflow_list(most):
    """The list of Q has another end; the speed rule then has no limits, as Q may be beyond them."""
    return replaced(speed=speed_over, inflow_in_list=lambda kind, Q: Q <= most if kind == m.INFLOW else Q == 0)


def exchanged():
    """Each end is given the other's Q."""
    rule = m.stage

    def stage(cells, call, which):
        return rule(cells, call._replace(left_q=call.right_q, right_q=call.left_q), which)
    return replaced(stage=stage)


def kinds_to(most):
    return replaced(kind_in_list=lambda kind: kind <= most)


# ---- Where number k of cell i stands in a lent state of n cells

def by_cells(k, i, n):
    return 4 * i + k


def read(place):
    """Numbers of the present state are read at other places; beyond the table's end 0 is found."""
    def cells_of(table):
        n = len(table) // 4
        places = [[place(k, i, n) for k in range(4)] for i in range(n)]
        return [m.Cell(*(table[p] if p < 4 * n else 0 for p in four)) for four in places]
    return {"cells_of": cells_of}


def written(place):
    """The next state is written to other places, each number to one of its own."""
    def table_of(cells):
        n = len(cells)
        found = {place(k, i, n): number for i, cell in enumerate(cells) for k, number in enumerate(cell)}
        return [found[p] for p in range(4 * n)]
    return {"table_of": table_of}


def ordered(*columns):
    """The columns stand in another order, both in the present state and in the next."""
    def place(k, i, n):
        return columns.index(k) * n + i
    return replaced(**read(place), **written(place))


def old_stride(column):
    """One column is still read at every fourth place."""
    return replaced(**read(lambda k, i, n: 4 * i + k if k == column else k * n + i))


def columns_apart(more):
    """Each column is read from so many places more than n after the one before it."""
    return replaced(**read(lambda k, i, n: k * (n + more) + i))


# ---- Where a refusal is

def placed(place):
    """The place is another: of all indices to which the refusing check applies, that check and the call."""
    rule = m.step

    def step(*call):
        answer = rule(*call)
        if answer[0] == "accepted":
            return answer
        check = places.met(call)
        return (*answer[:2], place(check.indices, check, m.Call(len(call[3]), *call[2:])))
    return replaced(step=step)


def of_check(name, place):
    """The place of those checks alone whose name begins so is another."""
    return placed(lambda indices, check, call: place(indices, check, call) if check.name.startswith(name) else min(indices))


def of_faces(left=0, right=0, right_q=0):
    """A fast left side, a fast right side or a fast inflow at the right is said to be so much beyond its face."""
    def place(indices, check, call):
        inflows = places.fast_inflows(check.cells, call)
        return min({k + left for k in places.fast_left_sides(check.cells, call)}
                   | {k + right for k in places.fast_right_sides(check.cells, call)}
                   | {k + right_q if k else k for k in inflows})
    return of_check("face speed", place)


def tried_first(some):
    """Of the faces of 6 those that `some` gives of the cells and the call are tried before the others."""
    return of_check("face speed", lambda indices, check, call: min(some(check.cells, call) or indices))


def sides_alone(cells, call):
    return places.fast_left_sides(cells, call) | places.fast_right_sides(cells, call)


def ends_first(indices, check, call):
    return min(indices & {0, call.n} or indices)


def busiest(indices, check, call):
    """The face with the greatest S, and of several the lowest."""
    flux = m.fluxes(m.face_speeds(check.cells, call, 1), call._replace(dt=0), 1)
    return max(indices, key=lambda k: (flux[k].S, -k))


def by_stage_one(indices, check, call):
    """In stage two the place is looked for where it was in stage one, and none is found."""
    return 0 if check.name.endswith(("stage 2", "end state")) else min(indices)


PLACES = {
    "no place": before.E13,
    "the highest": lambda: placed(lambda indices, check, call: max(indices)),
    "one too high": lambda: placed(lambda indices, check, call: min(indices) + (check.number > 2)),
    "n for 1 and 2": lambda: placed(lambda indices, check, call: call.n if check.number <= 2 else min(indices)),
    "a bed value by its cell": lambda: of_check("bed", lambda indices, check, call: min(call.n - 1, min(indices))),
    "Gauss points before faces": lambda: tried_first(places.fast_points),
    "the cell of a fast side": lambda: of_faces(right=-1, right_q=-1),
    "left of a fast right side": lambda: of_faces(right=-1),
    "right of a fast left side": lambda: of_faces(left=1),
    "a right Q at the last cell": lambda: of_faces(right_q=-1),
    "sides before inflows": lambda: tried_first(sides_alone),
    "inflows before sides": lambda: tried_first(places.fast_inflows),
    "the cell left of a face": lambda: of_check("faces", lambda indices, check, call: max(0, min(indices) - 1)),
    "the cell right of a face": lambda: of_check("faces", lambda indices, check, call: min(call.n - 1, min(indices))),
    "ends before inner faces": lambda: of_check("faces", ends_first),
    "the busiest face": lambda: of_check("faces", busiest),
    "stage one's place in stage two": lambda: placed(by_stage_one),
}

COLUMNS = {
    "cell by cell": before.E7,
    "read cell by cell": lambda: replaced(**read(by_cells)),
    "written cell by cell": lambda: replaced(**written(by_cells)),
    "level columns exchanged": lambda: ordered(1, 0, 2, 3),
    "discharge columns exchanged": lambda: ordered(0, 1, 3, 2),
    "mean columns exchanged": lambda: ordered(2, 1, 0, 3),
    "slope columns exchanged": lambda: ordered(0, 3, 2, 1),
    "outer columns exchanged": lambda: ordered(3, 1, 2, 0),
    "means before slopes": lambda: ordered(0, 2, 1, 3),
    "slopes before means": lambda: ordered(1, 0, 3, 2),
    "discharges before levels": lambda: ordered(2, 3, 0, 1),
    "level means every fourth": lambda: old_stride(0),
    "level slopes every fourth": lambda: old_stride(1),
    "discharge means every fourth": lambda: old_stride(2),
    "discharge slopes every fourth": lambda: old_stride(3),
    "columns n - 1 apart": lambda: columns_apart(-1),
    "columns n + 1 apart": lambda: columns_apart(1),
}

READINGS = {
    "none spared": before.E2,
    "itself alone": lambda: sparing(places=(0,)),
    "neighbours alone": lambda: sparing(places=(-1, 1)),
    "left and itself": lambda: sparing(places=(-1, 0)),
    "right and itself": lambda: sparing(places=(0, 1)),
    "two cells away": lambda: sparing(places=(-2, -1, 0, 1, 2)),
    "below the dry depth": lambda: sparing(over=-1),
    "one over the dry depth": lambda: sparing(over=1),
    "by either face": lambda: sparing(depth=lesser_face),
    "by both faces": lambda: sparing(depth=greater_face),
    "before the stage": sparing_early,
    "by stage one alone": sparing_once,
    "not cut": lambda: finishing(uncut),
    "not dried": lambda: finishing(undried),
    "not marking": lambda: finishing(unmarked),
    "4 in friction's check": lambda: replaced(**with_four("check_friction_speeds"), **rubbing(lambda dry: dry)),
    "4 in friction": lambda: replaced(**rubbing(lambda dry: 4)),
    "4 in face speeds": lambda: replaced(**with_four("face_speeds")),
    "4 in Gauss points": lambda: replaced(**with_four("gauss_sums")),
    "4 in drying stage one": lambda: four_drying(0),
    "4 in drying the end": lambda: four_drying(1),
    "4 in sparing": lambda: replaced(**with_four("spared")),
    "dry depth from 0": lambda: dry_list(0, 64),
    "dry depth from 2": lambda: dry_list(2, 64),
    "dry depth to 63": lambda: dry_list(1, 63),
    "dry depth to 65": lambda: dry_list(1, 65),
    "dry depth without end": lambda: dry_list(1, 2 ** 32),
    "no dry depth": before.E3,
    "F outward at the left": lambda: at_the_left(lambda own: own._replace(F=-own.F)),
    "F outward at the right": lambda: at_the_right(lambda own: own._replace(F=-own.F)),
    "A turned at the left": lambda: at_the_left(lambda own: own._replace(A=-own.A)),
    "A turned at the right": lambda: at_the_right(lambda own: own._replace(A=-own.A)),
    "no K": lambda: ends(lambda Q, inner, dry, inward, own: own._replace(K=0)),
    "K of the wet alone": lambda: ends(lambda Q, inner, dry, inward, own: own if inner.h > dry else own._replace(K=0)),
    "A by the inner speed": lambda: carrying(lambda Q, inner, dry: abs(inner.u)),
    "A by both speeds": lambda: carrying(lambda Q, inner, dry: m.quo(m.speed(Q, inner.h, dry) + abs(inner.u), 2)),
    "no A": lambda: carrying(lambda Q, inner, dry: 0),
    "S without the speed of Q": lambda: topped(lambda uQ, u, a: u + a),
    "S without the inner speed": lambda: topped(lambda uQ, u, a: max(uQ, a)),
    "S of the greater speed": lambda: topped(lambda uQ, u, a: max(uQ, u) + a),
    "S of the speed of Q": lambda: topped(lambda uQ, u, a: uQ),
    "no 6 of an inflow": lambda: replaced(check_inflow_speed=before.none_to_check),
    "6 of the exact speed": lambda: replaced(check_inflow_speed=exactly_fast),
    "speed at every depth": lambda: inflow_speed(lambda Q, h, dry: speed_over(Q, h, 0)),
    "speed at the dry depth": lambda: inflow_speed(lambda Q, h, dry: speed_over(Q, h, dry - 1)),
    "4 in the speed of Q": lambda: inflow_speed(lambda Q, h, dry: speed_over(Q, h, 4)),
    "speed of stage one": speed_of_stage_one,
    "by the mean depth": by_mean_depth,
    "nothing at depth 0": lambda: ends(lambda Q, inner, dry, inward, own: own if inner.h else own._replace(F=0)),
    "nothing at the dry depth": lambda: ends(lambda Q, inner, dry, inward, own: own if inner.h > dry else own._replace(F=0)),
    "water outside": lambda: ends(outer_water),
    "a wall without Q": lambda: ends(wall_without),
    "Q in stage one": lambda: in_stage(1),
    "Q in stage two": lambda: in_stage(2),
    "Qs exchanged": exchanged,
    "Q at a wall": lambda: let_through(m.WALL),
    "Q at an open end": lambda: let_through(m.OPEN),
    "Q to 8388607": lambda: inflow_list(m.GREATEST_Q - 1),
    "Q to 8388609": lambda: inflow_list(m.GREATEST_Q + 1),
    "Q without end": lambda: inflow_list(2 ** 32),
    "kinds to 3": lambda: kinds_to(3),
    "kinds without end": lambda: kinds_to(2 ** 32),
    "no inflow": before.E4,
    **COLUMNS,
    **PLACES,
}


def same_under(names, line):
    """Those of the readings of these names under which the model gives the same line."""
    own, found = line(), []
    for name in names:
        with READINGS[name]():
            if line() == own:
                found.append(name)
    return found
