"""Readings of docs/DOUBLE-STEP.md that are not its own, each as the rules of double_step.py that it replaces.

Every one groups a line otherwise, or takes a word of 01, E1 or E13 for another; the random calls must tell each from
the list.  Not here are readings that no call can tell apart, as each gives the same bits: doubling and halving are
exact, so 2*z1 for zr - zl and V/2 + V'/2 for (V + V')/2 are the same but at subnormal numbers; cutting and drying
change different numbers of a cell by what neither changes, so their order is free; q1 is cleared wherever a cell is
cut, since a slope that is cut is never the old one; what is not finite is out of range by its depths or discharges too;
and the last mending of line 14 is never come to in a cell over its bed (check_double.py).
"""

from math import copysign, inf, nextafter, sqrt

import before
import double_step as d
from double_step import Cell, Refused, quotient

# The rules as they stand, for readings that change one and go on with it.
MARKS, MINMOD, AGAINST, LIMITED, MENDED, FINISHED = d.marks, d.minmod, d.against, d.limited, d.mended, d.finished
CROSSING, POINTS, STAGE, JOINED, WORKED, CHECK_NUMBERS, CHECK_DEPTHS = (
    d.crossing, d.points, d.stage, d.joined, d.worked, d.check_numbers, d.check_depths)


# ---- Lines 1 to 3

def shown(left, right):
    """Other depths at the two faces: each of the cell's level there and of the bed."""
    return dict(hl=lambda c, zl, zr: left(c.e0 - c.e1, zl), hr=lambda c, zl, zr: right(c.e0 + c.e1, zr))


def less(level, z):
    return level - z


def less_or_none(level, z):
    return max(0.0, level - z)


def speed_over(dry):
    """No speed at depths of which `dry` says so."""
    return dict(speed=lambda q, h: 0.0 if dry(h) else quotient(q, h))


# ---- Line 4

def sign_kept(left, right):
    """A depth of -0 is not read as +0, which shows where its side alone decides: what crosses is then -0."""
    flux = CROSSING(left, right)
    if flux.F == 0.0 and flux.K == 0.0:
        dry = left if left.h == 0.0 else right
        return flux._replace(F=dry.h * dry.u, A=(dry.h * dry.u) * dry.u)
    return flux


# ---- Lines 6 to 11

def level_slope(rule):
    return dict(level_slope=lambda c, left, right, call: rule(c.e1, left.F, right.F, c.q0, call))


def level_mean(rule):
    return dict(level_mean=lambda c, left, right, call: rule(c.e0, d.volume(left.F, call), d.volume(right.F, call)))


def thrice(x, call):
    return quotient((3.0 * x) * call.dt, call.dx)


def push(rule):
    return dict(push=lambda c, zl, zr, left, right: rule(left.K, right.K, d.hl(c, zl, zr), d.hr(c, zl, zr), zr - zl))


def by_the_mean(c, zl, zr, left, right):
    return (left.K - right.K) - (2.0 * d.h0(c, zl, zr)) * (zr - zl)


def flow_mean(rule):
    """Of q0, what is carried and what is pressed in."""
    return dict(flow_mean=lambda c, zl, zr, left, right, call: rule(
        c.q0, quotient((left.A - right.A) * call.dt, call.dx), d.pressed(d.push(c, zl, zr, left, right), call)))


def by_the_root_of_3(c, zl, zr):
    t, r = d.h1(c, zl, zr) / sqrt(3.0), c.q1 / sqrt(3.0)
    return (d.h0(c, zl, zr) + t, c.q0 + r), (d.h0(c, zl, zr) - t, c.q0 - r)


def tilt(rule):
    return dict(tilt=lambda c, zl, zr, left, right: rule(
        3.0 * left.K, 3.0 * right.K, d.h0(c, zl, zr), d.h1(c, zl, zr), d.z1(zl, zr)))


def thrice_both(c, zl, zr, left, right):
    h0, h1 = d.h0(c, zl, zr), d.h1(c, zl, zr)
    return ((3.0 * (right.K + left.K) - 6.0 * (h0 * h0)) - 2.0 * (h1 * h1)) + (4.0 * h1) * d.z1(zl, zr)


def flow_slope(rule):
    """Of q1, the momenta at the two faces and at the two points, what is tilted in, and the call."""
    def changed(c, zl, zr, left, right, call):
        g1, g2 = (d.carried(h, q) for h, q in d.points(c, zl, zr))
        return rule(c.q1, left.A, right.A, g1, g2, d.pressed(d.tilt(c, zl, zr, left, right), call), call)
    return dict(flow_slope=changed)


# ---- Lines 12 to 14

def parted(rule):
    return dict(parted=lambda a, b, jump: rule(jump, a, b))


def left_cell_alone(cells, call):
    return [*(d.parted(a, b, call.jump) for a, b in zip(cells, cells[1:])), False]


def spared(cells, call):
    """E2's: a cell that is dry, or next to one, is not limited."""
    shallow = [d.h0(c, zl, zr) <= d.DRY for c, zl, zr in zip(cells, call.bed, call.bed[1:])]
    return [mark and not any(shallow[max(0, i - 1):i + 2]) for i, mark in enumerate(MARKS(cells, call))]


def exchanged(*values):
    return max(values) if all(v > 0 for v in values) else min(values) if all(v < 0 for v in values) else 0.0


def levels_alone(cells, i):
    return LIMITED(cells, i)._replace(q1=cells[i].q1)


def missing_is_level(cells, i, own, mean):
    right, left = cells[min(i + 1, len(cells) - 1)], cells[max(i - 1, 0)]
    return own, mean(right) - mean(cells[i]), mean(cells[i]) - mean(left)


def halves(cells, i, own, mean):
    return [own, *(x / 2.0 for x in AGAINST(cells, i, own, mean)[1:])]


def over_beds(rule, cells, call):
    return [rule(c, zl, zr) for c, zl, zr in zip(cells, call.bed, call.bed[1:])]


def in_turn(cells, call):
    """Each cell is limited by what the one before it has become."""
    cells, marked = list(cells), MARKS(cells, call)
    for i, cell in enumerate(cells):
        zl, zr = call.bed[i], call.bed[i + 1]
        cells[i] = d.dried(d.cut(LIMITED(cells, i) if marked[i] else cell, zl, zr), zl, zr)
    return cells


def marked_in_turn(cells, call):
    """A face is looked at with the slope that its left cell has once it is limited."""
    done = list(cells)
    for i in range(len(cells)):
        if any(d.parted(done[k], done[k + 1], call.jump) for k in (i - 1, i) if 0 <= k < len(cells) - 1):
            done[i] = LIMITED(cells, i)
    return over_beds(d.dried, over_beds(d.cut, done, call), call)


def cut_first(cells, call):
    trimmed = over_beds(d.cut, cells, call)
    done = [LIMITED(trimmed, i) if mark else trimmed[i] for i, mark in enumerate(MARKS(cells, call))]
    return over_beds(d.dried, done, call)


def dried_first(cells, call):
    return FINISHED(over_beds(d.dried, cells, call), call)


def unmended(e1, slope, mean, way):
    return e1


def mended_away(e1, slope, mean, way):
    return MENDED(e1, slope, mean, -way)


def mended_to_bed(e1, slope, mean, way):
    return e1 if d.kept(e1, slope, mean) else slope


def mended_by_next(e1, slope, mean, way):
    return e1 if d.kept(e1, slope, mean) else nextafter(e1, -way * inf)


def mended_by_bed(e1, slope, mean, way):
    return e1 if d.kept(e1, slope, mean) else e1 - way * d.size(slope) * d.LAST_PLACE


def cut_at_h0(cell, zl, zr):
    """Where h1 is h0 it is cut already, and q1 goes though e1 stays."""
    h0, h1 = d.h0(cell, zl, zr), d.h1(cell, zl, zr)
    return cell if -h0 < h1 < h0 else cell._replace(e1=d.cut_slope(cell.e1, d.z1(zl, zr), h0), q1=0.0)


def q1_kept(cell, zl, zr):
    return cell._replace(e1=d.cut_slope(cell.e1, d.z1(zl, zr), d.h0(cell, zl, zr)))


def cut_to_bed(cell, zl, zr):
    z1 = d.z1(zl, zr)
    return cell if d.kept(cell.e1, z1, d.h0(cell, zl, zr)) else cell._replace(e1=z1, q1=0.0)


def uncut(cell, zl, zr):
    return cell


def cleared_by_limiter(cells, i):
    """Where the limiter changes e1, q1 goes too, as at a cut."""
    cell = LIMITED(cells, i)
    return cell if cell.e1 == cells[i].e1 else cell._replace(q1=0.0)


# ---- Line 15 and the two stages

def halves_in_cells(old, two, Wl, Wr):
    return JOINED(old, two, Wl, Wr)._replace(e0=(old.e0 + two.e0) / 2.0)


def volumes_first(old, two, Wl, Wr):
    return JOINED(old, two, Wl, Wr)._replace(e0=old.e0 + (Wl - Wr))


def second_slope_alone(old, two, Wl, Wr):
    return JOINED(old, two, Wl, Wr)._replace(e1=two.e1)


def second_from(k):
    """Stage two runs from the present state (0), or from stage one as it is before it is finished (1)."""
    def worked(*call):
        begun = []

        def stage(cells, reach, which):
            if which == 2:
                return STAGE(begun[k], reach, 2)
            after, V = STAGE(cells, reach, 1)
            begun.extend((cells, after))
            return after, V
        with before.replaced(d, stage=stage):
            return WORKED(*call)
    return dict(worked=worked)


def second_finished(cells, call, which):
    after, V = STAGE(cells, call, which)
    return (d.finished(after, call) if which == 2 else after), V


# ---- Refusals

def with_limits(name, within):
    """A check that holds its numbers to their limits by another rule."""
    rule = getattr(d, name)

    def check(*given):
        with before.replaced(d, within=within):
            return rule(*given)
    return {name: check}


def unless_beyond(x, least, most):
    """A NaN is beyond nothing."""
    return not (x < least or x > most)


def sign_counts(x, least, most):
    """-0 is below nought."""
    return least <= x <= most and not (least == 0.0 and copysign(1.0, x) < 0)


def any_finite(x):
    return True


def by_means(cell, zl, zr):
    return d.within(d.h0(cell, zl, zr), 0.0, d.DEEPEST) and d.within(cell.q0, -d.GREATEST_Q, d.GREATEST_Q)


def any_kind_open(dx, dt, jump, left, right):
    CHECK_NUMBERS(dx, dt, jump, min(left, 1), min(right, 1))


def friction_as_01(friction):
    for i, f in enumerate(friction):
        if f > 200:
            raise Refused(4, i, "friction")


def unchecked(*given):
    pass


def points_first(cells, call, which):
    d.check_point_speeds(cells, call, which)
    return STAGE(cells, call, which)


def points_last(cells, call, which):
    seen = d.sides(cells, call)
    d.check_face_speeds(seen, which)
    d.check_lengths_of_time([d.crossing(*pair) for pair in seen], call, which)
    return STAGE(cells, call, which)


def nine_last(cells, call, check):
    done = d.finished(cells, call)
    d.check_range(done, call, 8, check)
    d.check_depths(cells, call, check)
    return done


def eight_first_of_all(cells, call, check):
    d.check_depths(cells, call, check)
    d.check_range(cells, call, 8, check)
    return d.finished(cells, call)


def nine_of(name):
    return dict(check_depths=lambda cells, call, check: CHECK_DEPTHS(cells, call, check) if check == name else None)


def nine_at_nought(cells, call, check):
    for i, (cell, zl, zr) in enumerate(zip(cells, call.bed, call.bed[1:])):
        if not 0.0 < d.h0(cell, zl, zr):
            raise Refused(9, i, check)


# ---- Tables and places

def columns_read(table):
    n = len(table) // 4
    return [Cell(*table[i::n]) for i in range(n)]


def columns_written(cells):
    return [number for column in zip(*cells) for number in column]


def placed(number, name, place):
    """The place of one check is another: of the right one and the number of cells."""
    def worked(*call):
        try:
            return WORKED(*call)
        except Refused as r:
            if r.number == number and r.check.startswith(name):
                raise Refused(number, place(r.place, len(call[3])), r.check) from None
            raise
    return dict(worked=worked)


READINGS = {
    "1: z0 from the left face": dict(z0=lambda zl, zr: zl + (zr - zl) / 2.0),
    "2: depths by face levels": shown(less, less),
    "2: depths by face levels, or none": shown(less_or_none, less_or_none),
    "3: a speed at the dry depth": speed_over(lambda h: h < d.DRY),
    "3: a dry depth of a millimetre": speed_over(lambda h: h <= 0.001),
    "3: a speed at every depth": speed_over(lambda h: h <= 0.0),
    "ends exchanged": dict(outer=lambda kind, s: d.Side(s.h, s.u if kind == d.WALL else -s.u)),
    "no water before an open end":
        dict(outer=lambda kind, s: d.Side(s.h, -s.u) if kind == d.WALL else d.Side(0.0, 0.0)),
    "4: a depth of -0 keeps its sign": dict(crossing=sign_kept),
    "5: dt/dx first": dict(volume=lambda F, call: F * quotient(call.dt, call.dx)),
    "5: F/dx first": dict(volume=lambda F, call: quotient(F, call.dx) * call.dt),
    "16: too long at the limit": dict(is_long=lambda S, call: not (2.0 * call.dt) * S < call.dx),
    "16: without the 2": dict(is_long=lambda S, call: not call.dt * S <= call.dx),
    "16: by a quotient": dict(is_long=lambda S, call: not S <= quotient(call.dx, 2.0 * call.dt)),
    "17: too fast at the limit": dict(too_fast=lambda u: not -d.FASTEST < u < d.FASTEST),
    "6: the volumes first": level_mean(lambda e0, Vl, Vr: e0 + (Vl - Vr)),
    "6: the right volume first": level_mean(lambda e0, Vl, Vr: (e0 - Vr) + Vl),
    "6: one division": dict(level_mean=lambda c, left, right, call: c.e0 + d.volume(left.F - right.F, call)),
    "7: dt/dx first": level_slope(lambda e1, Fl, Fr, q0, c: e1 - (3.0 * ((Fr + Fl) - 2.0 * q0)) * quotient(c.dt, c.dx)),
    "7: the 3 last": level_slope(lambda e1, Fl, Fr, q0, c: e1 - 3.0 * quotient(((Fr + Fl) - 2.0 * q0) * c.dt, c.dx)),
    "7: each less q0": level_slope(lambda e1, Fl, Fr, q0, c: e1 - thrice((Fr - q0) + (Fl - q0), c)),
    "7: the mean before the left": level_slope(lambda e1, Fl, Fr, q0, c: e1 - thrice((Fr - 2.0 * q0) + Fl, c)),
    "7: by volumes": level_slope(
        lambda e1, Fl, Fr, q0, c: e1 - 3.0 * ((d.volume(Fr, c) + d.volume(Fl, c)) - d.volume(2.0 * q0, c))),
    "8: the bed before the right": push(lambda Kl, Kr, hl, hr, rise: (Kl - (hr + hl) * rise) - Kr),
    "8: right and bed together": push(lambda Kl, Kr, hl, hr, rise: Kl - (Kr + (hr + hl) * rise)),
    "8: each depth by the bed": push(lambda Kl, Kr, hl, hr, rise: (Kl - Kr) - (hr * rise + hl * rise)),
    "8: twice the mean depth": dict(push=by_the_mean),
    "8: the gains first": flow_mean(lambda q0, a, p: q0 + (a + p)),
    "8: the pressure first": flow_mean(lambda q0, a, p: (q0 + p) + a),
    "8 and 11: 981 last": dict(pressed=lambda x, c: 981.0 * quotient(x * c.dt, 200.0 * c.dx)),
    "8 and 11: 981/200 first": dict(pressed=lambda x, c: quotient((4.905 * x) * c.dt, c.dx)),
    "8 and 11: dt/dx first": dict(pressed=lambda x, c: ((981.0 * x) / 200.0) * quotient(c.dt, c.dx)),
    "8 and 11: 200, then dx": dict(pressed=lambda x, c: quotient(((981.0 * x) * c.dt) / 200.0, c.dx)),
    "9: the points exchanged": dict(points=lambda c, zl, zr: POINTS(c, zl, zr)[::-1]),
    "9: a last place less": dict(GAUSS=nextafter(d.GAUSS, 0.0)),
    "9: divided by the root of 3": dict(points=by_the_root_of_3),
    "9: the square over the depth": dict(carried=lambda h, q: 0.0 if h <= d.DRY else (q * q) / h),
    "10: 3 by both": dict(tilt=thrice_both),
    "10: 6 by h0 first": tilt(
        lambda Kl, Kr, h0, h1, z1: (((Kr + Kl) - (6.0 * h0) * h0) - 2.0 * (h1 * h1)) + (4.0 * h1) * z1),
    "10: the squares together": tilt(
        lambda Kl, Kr, h0, h1, z1: ((Kr + Kl) - (6.0 * (h0 * h0) + 2.0 * (h1 * h1))) + (4.0 * h1) * z1),
    "10: the slopes together": tilt(
        lambda Kl, Kr, h0, h1, z1: ((Kr + Kl) - 6.0 * (h0 * h0)) - (2.0 * (h1 * h1) - (4.0 * h1) * z1)),
    "10: the bed's slope before": tilt(
        lambda Kl, Kr, h0, h1, z1: (((Kr + Kl) - 6.0 * (h0 * h0)) + (4.0 * h1) * z1) - 2.0 * (h1 * h1)),
    "10: the square before the left": tilt(
        lambda Kl, Kr, h0, h1, z1: (((Kr - 6.0 * (h0 * h0)) + Kl) - 2.0 * (h1 * h1)) + (4.0 * h1) * z1),
    "11: the points together": flow_slope(
        lambda q1, Al, Ar, g1, g2, p, c: (q1 - thrice((Ar + Al) - (g1 + g2), c)) - p),
    "11: the second point first": flow_slope(
        lambda q1, Al, Ar, g1, g2, p, c: (q1 - thrice(((Ar + Al) - g2) - g1, c)) - p),
    "11: each face less a point": flow_slope(
        lambda q1, Al, Ar, g1, g2, p, c: (q1 - thrice((Ar - g1) + (Al - g2), c)) - p),
    "11: both changes first": flow_slope(
        lambda q1, Al, Ar, g1, g2, p, c: q1 - (thrice(((Ar + Al) - g1) - g2, c) + p)),
    "11: the tilt first": flow_slope(
        lambda q1, Al, Ar, g1, g2, p, c: (q1 - p) - thrice(((Ar + Al) - g1) - g2, c)),
    "11: the 3 last": flow_slope(
        lambda q1, Al, Ar, g1, g2, p, c: (q1 - 3.0 * quotient((((Ar + Al) - g1) - g2) * c.dt, c.dx)) - p),
    "12: a mark at J": parted(lambda jump, a, b: jump <= d.size((a.e0 + a.e1) - (b.e0 - b.e1))),
    "12: means and slopes apart": parted(lambda jump, a, b: jump < d.size((a.e0 - b.e0) + (a.e1 + b.e1))),
    "12: of means": parted(lambda jump, a, b: jump < d.size(a.e0 - b.e0)),
    "12: without a size": parted(lambda jump, a, b: jump < (a.e0 + a.e1) - (b.e0 - b.e1)),
    "12: the left cell alone": dict(marks=left_cell_alone),
    "12: by a limited slope": dict(finished=marked_in_turn),
    "13: dry neighbours spared (E2)": dict(marks=spared),
    "13: min and max exchanged": dict(minmod=exchanged),
    "13: the least of any sign": dict(minmod=lambda *values: min(values, key=abs)),
    "13: -0 where signs differ": dict(minmod=lambda *values: MINMOD(*values) or -0.0),
    "13: levels alone": dict(limited=levels_alone),
    "13: a missing neighbour is level": dict(against=missing_is_level),
    "13: half the difference": dict(against=halves),
    "13: the finished neighbour": dict(finished=in_turn),
    "14: q1 cleared by the limiter": dict(limited=cleared_by_limiter),
    "14: cut before it is limited": dict(finished=cut_first),
    "14: dried before it is limited": dict(finished=dried_first),
    "14: not cut": dict(cut=uncut),
    "14: cut to the bed": dict(cut=cut_to_bed),
    "14: cut where h1 is h0": dict(cut=cut_at_h0),
    "14: q1 kept": dict(cut=q1_kept),
    "14: not mended": dict(mended=unmended),
    "14: mended the wrong way": dict(mended=mended_away),
    "14: mended to the bed at once": dict(mended=mended_to_bed),
    "14: mended by the next double": dict(mended=mended_by_next),
    "14: mended by the bed's last place": dict(mended=mended_by_bed),
    "14: dried below the dry depth alone":
        dict(dried=lambda c, zl, zr: c._replace(q0=0.0, q1=0.0) if d.h0(c, zl, zr) < d.DRY else c),
    "14: q0 alone dried": dict(dried=lambda c, zl, zr: c._replace(q0=0.0) if d.h0(c, zl, zr) <= d.DRY else c),
    "15: halves in cells": dict(joined=halves_in_cells),
    "15: the volumes first": dict(joined=volumes_first),
    "15: the slope of stage two alone": dict(joined=second_slope_alone),
    "15: volumes of stage one": dict(across=lambda V1, V2: V1),
    "15: volumes of stage two": dict(across=lambda V1, V2: V2),
    "15: volumes not halved": dict(across=lambda V1, V2: [a + b for a, b in zip(V1, V2)]),
    "stage two from the present state": second_from(0),
    "stage two from what is not finished": second_from(1),
    "stage two finished": dict(stage=second_finished),
    "2: a NaN let through": with_limits("check_numbers", unless_beyond),
    "2: a J of -0 refused": with_limits("check_numbers", sign_counts),
    "2: any kind but 0 is open": dict(check_numbers=any_kind_open),
    "3: a NaN let through": with_limits("check_bed", unless_beyond),
    "3: -0 refused": with_limits("check_bed", sign_counts),
    "4: up to 200, as in 01": dict(check_friction=friction_as_01),
    "5: a NaN let through": {**with_limits("in_range", unless_beyond), "finite": any_finite},
    "5: -0 refused": with_limits("in_range", sign_counts),
    "5 and 8: by the means": dict(in_range=by_means),
    "6: no friction speeds": dict(check_mean_speeds=unchecked),
    "6: no points": dict(check_point_speeds=unchecked),
    "6: points before faces": dict(stage=points_first),
    "6: points after 7": dict(stage=points_last),
    "8: before it is finished": dict(ended=eight_first_of_all),
    "9: after 8": dict(ended=nine_last),
    "9: of stage one alone": nine_of("stage one"),
    "9: of the end state alone": nine_of("end state"),
    "9: at nought": dict(check_depths=nine_at_nought),
    "columns read": dict(cells_of=columns_read),
    "columns written": dict(table_of=columns_written),
    "place of 3: the cell": placed(3, "bed", lambda k, n: min(k, n - 1)),
    "place of 6: the cell of a side": placed(6, "face speed", lambda k, n: min(k, n - 1)),
    "place of 7: the cell on the left": placed(7, "faces", lambda k, n: max(0, k - 1)),
    "place of 8: none": placed(8, "", lambda k, n: 0),
    "place of 9: none": placed(9, "", lambda k, n: 0),
}
