"""What rules said before a request amended them, to be compared with the model as it stands.

`before.E2()` is a context in which the model's finishing is document 01's own, at whatever dry
depth.  `before.E3()` is one in which the model knows no dry depth: the argument is not looked at,
and a fixed 4 stands in every place.  `before.E4()` is one in which it knows no inflow: the two Qs
are not looked at, and an end is a wall or open.  `before.E6()` is one in which the papers'
correction of a face level below the bed is made.  `before.E7()` is one in which a lent state lies
cell by cell; `into_cells` and `into_columns` exchange the two ways.  `before.E13()` is one in which
a refusal has no place.  Each leaves the other requests as they stand.  Where E2's and E3's are both
wanted, E2's is the inner one.
"""

import contextlib

import model as m


@contextlib.contextmanager
def replaced(of=m, **rules):
    """The model, or the module that is given, with other functions of these names."""
    kept = {name: getattr(of, name) for name in rules}
    vars(of).update(rules)
    try:
        yield
    finally:
        vars(of).update(kept)


# ---- E2

def none_spared(cells, call):
    return [False] * len(cells)


def E2():
    """No cell is spared: a marked one is limited beside dry land too."""
    return replaced(spared=none_spared)


# ---- E3: each rule with the number that it had

FIXED_DRY = 4


def speed(q, h, dry):
    if not (0 <= h <= m.DEEPEST and m.within(q, m.GREATEST_Q)):
        return None
    return 0 if h <= FIXED_DRY else m.quo(q * m.UNIT, h)


def spared(cells, call):
    shallow = [m.depth_mean(cell, call.bed[i], call.bed[i + 1]) <= FIXED_DRY for i, cell in enumerate(cells)]
    return [any(shallow[max(0, i - 1):i + 2]) for i in range(len(cells))]


def dried(cell, zl, zr, dry):
    return cell._replace(q0=0, q1=0) if m.depth_mean(cell, zl, zr) <= FIXED_DRY else cell


def friction(q0, q1, h0, f, dt, dry):
    u = speed(q0, h0, dry)
    if u is None or not m.within(u, m.FASTEST) or not m.within(q1, m.GREATEST_Q):
        return None
    if not (0 <= f <= m.ROUGHEST and 1 <= dt <= m.LONGEST_DT):
        return None
    x = m.friction_x(u, h0, f, dt) if h0 > FIXED_DRY else 0
    return x, m.slowed(q0, x), m.slowed(q1, x)


def check_friction_speeds(cells, call):
    for i, cell in enumerate(cells):
        h0 = m.depth_mean(cell, call.bed[i], call.bed[i + 1])
        if h0 > FIXED_DRY:
            m.checked_speed(cell.q0, h0, call.dry, i, "friction speed")


def any_dry(dry):
    return True


def E3():
    """01 has a depth of 4 in every place, and the step is given no other."""
    return replaced(speed=speed, spared=spared, dried=dried, friction=friction,
                    check_friction_speeds=check_friction_speeds, dry_in_list=any_dry)


# ---- E4: ends that take all from the inner side

def wall_or_open(kind):
    return kind in (m.WALL, m.OPEN)


def any_inflow(kind, Q):
    return True


def none_to_check(kind, Q, inner, dry, place, which):
    pass


def left_end(kind, Q, inner, dry):
    return m.face(inner.h, inner.u if kind == m.OPEN else -inner.u, inner.h, inner.u)


def right_end(kind, Q, inner, dry):
    return m.face(inner.h, inner.u, inner.h, inner.u if kind == m.OPEN else -inner.u)


def E4():
    """01 has two kinds of end, and the step is given no Q."""
    return replaced(kind_in_list=wall_or_open, inflow_in_list=any_inflow, check_inflow_speed=none_to_check,
                    left_end=left_end, right_end=right_end)


# ---- E6: the papers' correction

def shortfall(level, z):
    """How far a face level falls below the bed there."""
    return max(0, z - level)


def corrected(level, z):
    """Level and bed after the shortfall was taken from both, F9.

    The level is first lifted to the bed, so both end at the level as it stood.
    """
    d = shortfall(level, z)
    return max(level, z) - d, z - d


def corrected_faces(cell, zl, zr):
    """Level and bed at the left face, then at the right."""
    return (*corrected(cell.e0 - cell.e1, zl), *corrected(cell.e0 + cell.e1, zr))


def cell_faces(cell, zl, zr):
    el, zl, er, zr = corrected_faces(cell, zl, zr)
    return m.Faces(el - zl, cell.q0 - cell.q1, er - zr, cell.q0 + cell.q1)


def push(cell, zl, zr, left, right):
    el, zl, er, zr = corrected_faces(cell, zl, zr)
    return left.K - right.K - (er - zr + el - zl) * (zr - zl)


def E6():
    """Depths at faces, and E, are of level and bed after any shortfall was taken from both."""
    return replaced(cell_faces=cell_faces, push=push)


# ---- E7: a lent state cell by cell

def cells_of(table):
    return [m.Cell(*table[k:k + 4]) for k in range(0, len(table), 4)]


def table_of(cells):
    return [number for cell in cells for number in cell]


def E7():
    """The four numbers of a cell stand together, those of cell 0 first."""
    return replaced(cells_of=cells_of, table_of=table_of)


def into_columns(n, table):
    """What lies cell by cell, in four columns of n; a table of another length is left as it is."""
    return [table[4 * i + k] for k in range(4) for i in range(n)] if len(table) == 4 * n else table


def into_cells(n, table):
    """What lies in four columns of n, cell by cell; a table of another length is left as it is."""
    return [table[k * n + i] for i in range(n) for k in range(4)] if len(table) == 4 * n else table


# ---- E13: a bare number

def face_speeds(cells, call, which):
    """The sides are tried cell by cell and the inflows after them, since nobody asks where."""
    sides = []
    for i, cell in enumerate(cells):
        f = m.cell_faces(cell, call.bed[i], call.bed[i + 1])
        ul, ur = (m.checked_speed(q, h, call.dry, None, "face speed, stage %d" % which) for h, q in ((f.hl, f.ql), (f.hr, f.qr)))
        sides.append((m.Side(f.hl, ul), m.Side(f.hr, ur)))
    m.check_inflow_speed(call.left, call.left_q, sides[0][0], call.dry, None, which)
    m.check_inflow_speed(call.right, call.right_q, sides[-1][1], call.dry, None, which)
    return sides


def bare(answer):
    """What a step answers, if a refusal without its place."""
    return answer[:2] if answer[0] == "refused" else answer


def E13():
    """A refused step answers its number alone."""
    step = m.step
    return replaced(face_speeds=face_speeds, step=lambda *call: bare(step(*call)))
