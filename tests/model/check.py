"""Document 01's table, its run cases, demand 3 and what 02's requests say, tried on the model.

Prints a line for each row or case and last 'N passed, M failed'; the exit status
is 1 when something failed.
"""

import itertools
import random
import sys
from collections import Counter

import before
import both_ways
import hard
import model as m
import places
import sums
from turned import can_turn, lengths_fit, turned, turned_answer, turned_table

DRY = 4     # the dry depth of 01's own numbers, which were fixed before E3
DRY_DEPTHS = range(m.LEAST_DRY, m.MOST_DRY + 1)
NOT_IN_LIST = (0, 65, 4294967295)
PAIRS = hard.PAIRS

passed = failed = 0


def case(name, found, wanted):
    global passed, failed
    if found == wanted:
        passed += 1
        print("passed  %s" % name)
    else:
        failed += 1
        print("FAILED  %s: found %s, wanted %s" % (name, found, wanted))


# ---- "Numbers on either side", at the dry depth that they were written for

def rows():
    case("row 1: a(0), a(1), a(4096)", [m.wave_speed(h) for h in (0, 1, 4096)], [0, 200, 12829])
    case("row 2: c at h0 = 5, 4096", [m.cube_root(h) for h in (5, 4096)], [437, 4096])
    case("row 3: speed of 5000 at 4, of 160 at 5", [m.speed(5000, 4, DRY), m.speed(160, 5, DRY)], [0, 131072])
    fast = m.step([5, 0, 161, 0], 4, [0, 0], [0], 4096, 1, 0, DRY, 0, 0, 0, 0)
    case("row 4: speed of 161 at 5, so refusal 6", [m.speed(161, 5, DRY), fast], [131891, ("refused", 6, 0)])
    case("row 5: (0,0 | 0,0)", tuple(m.face(0, 0, 0, 0)), (0, 0, 0, 0))
    case("row 6: (4096,0 | 4096,0)", tuple(m.face(4096, 0, 4096, 0)), (0, 16777216, 0, 12829))
    case("row 7: (4096,0 | 0,0)", tuple(m.face(4096, 0, 0, 0)), (8552, 11184810, 0, 25658))
    case("row 8: (0,0 | 4096,0)", tuple(m.face(0, 0, 4096, 0)), (-8552, 11184810, 0, 25658))
    case("row 9: (4096,4096 | 4096,-4096)", tuple(m.face(4096, 4096, 4096, -4096)), (0, 16777216, 18973, 14877))
    case("row 10: (4096,20480 | 4096,20480)", tuple(m.face(4096, 20480, 4096, 20480)), (20480, 16777216, 102400, 33309))
    case("row 11: friction on q 4096, h0 4096, value 30, dt 4096", m.friction(4096, 0, 4096, 30, 4096, DRY), (578, 4060, 0))
    case("row 12: minmod(3,5,2), minmod(3,-1,2)", [m.minmod(3, 5, 2), m.minmod(3, -1, 2)], [2, 0])


# ---- "Run by a program"

def still(n, level, z, dx, dt, dry=DRY, ends=(0, 0, 0, 0)):
    """n flat cells of one level on a flat bed, between walls or ends of other kinds, with their Qs."""
    now = [level] * n + [0] * (3 * n)
    return now, m.step(now, 4 * n, [z] * (n + 1), [0] * n, dx, dt, 0, dry, *ends)


def runs():
    now, answer = still(1, 4096, 0, 4096, 653)
    case("run: one flat cell, dt 653 accepted and unchanged", answer, ("accepted", now, 0, 0))
    case("run: one flat cell, dt 654", still(1, 4096, 0, 4096, 654)[1], ("refused", 7, 0))
    # 01 leaves the ends of this case open: the inner face decides, whatever they are
    dam = [4096, 0, 0, 0, 0, 0, 0, 0]
    case("run: levels 4096 and 0, dt 327", [m.step(dam, 8, [0] * 3, [0] * 2, 4096, 327, 0, DRY, *kinds, 0, 0) for kinds in PAIRS],
         [("refused", 7, 1)] * 9)
    now, answer = still(1024, 4096, 0, 4096, 653)
    case("run: 1,024 cells", answer, ("accepted", now, 0, 0))
    case("run: 1,025 cells", still(1025, 4096, 0, 4096, 653)[1], ("refused", 1, 0))
    now, answer = still(1, 1048576 + 4096, 1048576, 4096, 653)
    case("run: bed 1,048,576", answer, ("accepted", now, 0, 0))
    for z in (1048575, 1048578):
        case("run: bed %d" % z, still(1, z + 4096, z, 4096, 653)[1], ("refused", 3, 0))


# ---- Limits of the public rules

def limits():
    h, q, u = 262144, 8388608, 131072
    case("limits: speed", [m.speed(*a, DRY) for a in ((q, h), (-q, h), (q + 1, h), (-q - 1, h), (0, -1), (0, h + 1))],
         [131072, -131072, None, None, None, None])
    case("limits: wave speed and cube root",
         [f(x) for f in (m.wave_speed, m.cube_root) for x in (-1, h, h + 1)], [None, 102632, None, None, 16384, None])
    case("limits: face, depths", [m.face(a, 0, b, 0) is None for a, b in ((-1, 0), (0, -1), (h + 1, 0), (0, h + 1), (h, h))],
         [True, True, True, True, False])
    case("limits: face, speeds", [m.face(9, a, 9, b) is None for a, b in ((-u - 1, 0), (0, u + 1), (u + 1, 0), (0, -u - 1), (u, -u))],
         [True, True, True, True, False])
    case("limits: face, speeds at depth 0", tuple(m.face(0, u, 0, -u)), (0, 0, 0, 0))
    # q 161 at depth 5 is too fast; at depth 4 it has no speed
    case("limits: friction", [m.friction(*a, DRY) for a in ((160, 0, 5, 0, 1), (161, 0, 5, 0, 1), (161, 0, 4, 200, 1), (0, q + 1, 9, 0, 1),
                                                            (0, 0, 9, 201, 1), (0, 0, 9, 0, 0), (0, 0, 9, 0, 4097), (0, 0, h + 1, 0, 1))],
         [(0, 160, 0), None, (0, 161, 0)] + [None] * 5)


# ---- E2: who is spared, and what becomes of the cells

def spared_at(*depths, dry=DRY):
    """Which of some flat cells on a flat bed are spared: an s for one that is."""
    n = len(depths)
    kept = m.spared([m.Cell(h, 0, 0, 0) for h in depths], m.Call(n, [0] * (n + 1), [0] * n, 1, 1, 0, dry, 0, 0, 0, 0))
    return "".join("s" if k else "-" for k in kept)


def turned_cells(cells):
    return m.cells_of(turned_table(m.table_of(cells), len(cells)))


def bank(depth, on_the_left=False):
    """Water that slopes down to a bank of some depth on its right, finished; or both turned round, and back."""
    cells, bed = [m.Cell(1000, -20, 7, 3), m.Cell(1100 + depth, 202, 5, 1)], [400, 900, 1300]
    if on_the_left:
        cells, bed = turned_cells(cells), bed[::-1]
    done = m.finished(cells, m.Call(2, bed, [0, 0], 1, 1, 0, DRY, 0, 0, 0, 0))
    return [tuple(c) for c in (turned_cells(done) if on_the_left else done)]


def sparing():
    case("E2: a depth of 0, 4, 5", [spared_at(h) for h in (0, 4, 5)], ["s", "s", "-"])
    case("E2: the cells beside it and no others", spared_at(5, 5, 5, 4, 5, 5, 5), "--sss--")
    case("E2: at the ends", [spared_at(*h) for h in ((4, 5, 5), (5, 5, 4), (5, 4), (4, 5), (4, 5, 5, 4))],
         ["ss-", "-ss", "ss", "ss", "ssss"])
    # the ground is higher than the water, so the limiter flattens it; the bank's h1 is 2, which a depth of 1 cuts
    wanted = [[(1000, -20, 7, 3), (1101, 201, 0, 0)],
              [(1000, -20, 7, 3), (1104, 202, 0, 0)],
              [(1000, 0, 7, 0), (1105, 195, 5, 0)]]
    case("E2: a bank on the right, 1, 4, 5 deep", [bank(h) for h in (1, 4, 5)], wanted)
    case("E2: a bank on the left, 1, 4, 5 deep", [bank(h, True) for h in (1, 4, 5)], wanted)


def held(finished, seen):
    """finished, counting the cells and states of each kind and those not as E2 says."""
    def watch(cells, call):
        done = finished(cells, call)
        with before.E2():
            old = finished(cells, call)
        bed, marked = call.bed, m.marks(cells, call.jump)
        depths = [cell.e0 - (bed[i] + bed[i + 1]) // 2 for i, cell in enumerate(cells)]
        for i, cell in enumerate(cells):
            if min(depths[max(0, i - 1):i + 2]) > call.dry:
                seen["limited"] += marked[i]
                seen["not as before"] += done[i] != old[i]
            else:
                seen["spared"] += marked[i]
                seen["otherwise than before"] += done[i] != old[i]
                seen["not kept"] += done[i] != m.dried(m.cut(cell, bed[i], bed[i + 1]), bed[i], bed[i + 1], call.dry)
        if min(depths) > call.dry:
            seen["deep states"] += 1
            seen["not as before"] += done != old
        return done
    return watch


def sparing_holds(seed, count):
    seen = Counter()
    with before.replaced(finished=held(m.finished, seen)):
        for call in hard.calls(seed, count):
            m.step(*call)
    case("E2: %d marked cells by a shallow one keep their slopes but for the cut and the drying, %d otherwise than before"
         % (seen["spared"], seen["otherwise than before"]), seen["not kept"], 0)
    case("E2: %d other marked cells and %d states without a shallow cell are finished as before"
         % (seen["limited"], seen["deep states"]), seen["not as before"], 0)
    case("E2: both kinds came often",
         min(seen["spared"], seen["otherwise than before"], seen["limited"], seen["deep states"]) >= count // 10, True)


# ---- E3: the list of dry depths, each place where one stands, and the step as it was with 4

def dry_list():
    case("E3: a step with a dry depth of 0, 65, 4294967295", [still(2, 900, 0, 4096, 653, d)[1] for d in NOT_IN_LIST],
         [("refused", 2, 0)] * 3)
    still_there = [still(2, 900, 0, 4096, 653, d) for d in DRY_DEPTHS]
    case("E3: a step with a dry depth of 1 to 64", [answer for _, answer in still_there],
         [("accepted", now, 0, 0) for now, _ in still_there])
    case("E3: speed and friction refuse the same", [(m.speed(0, 900, d), m.friction(0, 0, 900, 0, 1, d)) for d in (-1, *NOT_IN_LIST)],
         [(None, None)] * 4)


def at_and_over(rule):
    """What a rule of a depth and a dry depth says of each dry depth and of one unit more."""
    return [(rule(d, d), rule(d + 1, d)) for d in DRY_DEPTHS]


def one_cell(h, q, dry):
    """A cell of some depth and discharge on a flat bed, as the rules of a stage are given it."""
    return [m.Cell(h, 0, q, 0)], m.Call(1, [0, 0], [m.ROUGHEST], 4096, m.LONGEST_DT, 0, dry, 1, 1, 0, 0)


def passes(check, *given):
    try:
        check(*given)
        return True
    except m.Refused:
        return False


def dry_places():
    case("E3: speed at each dry depth and one over it", at_and_over(lambda h, d: m.speed(-5000, h, d)),
         [(0, -(20480000 // (d + 1))) for d in DRY_DEPTHS])
    case("E3: face speeds likewise", at_and_over(lambda h, d: m.face_speeds(*one_cell(h, 30, d), 1)[0][1].u),
         [(0, 122880 // (d + 1)) for d in DRY_DEPTHS])
    case("E3: Gauss points likewise", at_and_over(lambda h, d: m.gauss_sums(*one_cell(h, 30, d), 1)[0]),
         [(0, 2 * (122880 // (d + 1) * 30 // 4096)) for d in DRY_DEPTHS])
    case("E3: friction likewise", at_and_over(lambda h, d: m.after_friction(*one_cell(h, 30, d))[0].q0 < 30), [(False, True)] * 64)
    case("E3: the check of its speed likewise", at_and_over(lambda h, d: passes(m.check_friction_speeds, *one_cell(h, 33 * h, d))),
         [(True, False)] * 64)
    case("E3: drying likewise", at_and_over(lambda h, d: m.finished(*one_cell(h, 30, d))[0].q0), [(0, 30)] * 64)
    case("E3: sparing likewise", at_and_over(lambda h, d: spared_at(900, h, dry=d)), [("ss", "--")] * 64)


def greatest_x():
    """Friction is strongest in the thinnest water that has a speed, at the greatest speed that passes check 6."""
    x, q0, q1 = m.friction(64, 8388544, 2, 200, 4096, 1)
    case("E3: the greatest x of friction, at a dry depth of 1 and a depth of 2", (x, q0, q1), (21438427962, 32, 4194278))
    others = [m.friction_x(m.FASTEST, h, m.ROUGHEST, m.LONGEST_DT) for h in [*range(3, 3000), *range(3000, m.DEEPEST + 1, 101)]]
    case("E3: no deeper water has so great an x", max(others) < x, True)
    case("E3: x is at most 21474836480, and its product with a discharge at most 1.8e17",
         (x <= 21474836480, m.GREATEST_Q * (65536 + x) <= 18 * 10 ** 16), (True, True))


def with_dry(call, dry):
    return call[:7] + (dry,) + call[8:]


def four_holds(seed, count):
    seen = Counter()
    for call in hard.calls(seed, count):
        found = m.step(*with_dry(call, DRY))
        with before.E3():
            old = m.step(*call)
        seen["otherwise"] += found != old
        seen["accepted"] += old[0] == "accepted"
        decided = m.step(*call) != old
        seen["decided"] += decided and m.dry_in_list(call[7])
        seen["refused"] += decided and not m.dry_in_list(call[7])
    case("E3: with 4 the step answers as before it, in %d calls, of which %d accepted" % (count, seen["accepted"]), seen["otherwise"], 0)
    case("E3: their own dry depth decides %d of the calls, and its being outside the list %d" % (seen["decided"], seen["refused"]),
         seen["decided"] >= count // 20 and seen["refused"] >= count // 200, True)


# ---- E4: the lists, the end face, its speed under 6, and the step as it was without

def at_either_end(kind, Q, level, dx, dt, dry=DRY):
    """A still cell with an end of some kind and Q at its left and a wall at its right, and the other way round."""
    return [still(1, level, 0, dx, dt, dry, ends)[1] for ends in ((kind, 0, Q, 0), (0, kind, 0, Q))]


def end_list():
    case("E4: ends of each pair of kinds", [still(1, 900, 0, 4096, 653, ends=(*kinds, 0, 0))[1] for kinds in PAIRS],
         [("accepted", [900, 0, 0, 0], 0, 0)] * 9)
    case("E4: an end of kind 3 and 4294967295", [at_either_end(kind, 0, 900, 4096, 653) for kind in (3, 4294967295)],
         [[("refused", 2, 0)] * 2] * 2)
    # dry ground, on which the greatest brings 8 in, and at that dry depth has no speed
    case("E4: Q of 0, 1 and 8388608", [at_either_end(2, Q, 0, 1048576, 1, 64) for Q in (0, 1, 8388608)],
         [[("accepted", [0, 0, 0, 0], 0, 0)] * 2] * 2 + [[("accepted", [8, -8, 0, 0], 8, 0), ("accepted", [8, 8, 0, 0], 0, -8)]])
    case("E4: Q of 8388609 and 4294967295", [at_either_end(2, Q, 0, 1048576, 1, 64) for Q in (8388609, 4294967295)],
         [[("refused", 2, 0)] * 2] * 2)
    case("E4: a Q at a wall or an open end", [at_either_end(kind, Q, 900, 4096, 100) for kind in (0, 1) for Q in (1, 8388608, 8388609)],
         [[("refused", 2, 0)] * 2] * 6)


def both_ends(Q, h, u, dry=DRY):
    """The end face at the left and at the right, with the inner side's speed turned with the end."""
    left, right = m.left_end(m.INFLOW, Q, m.Side(h, u), dry), m.right_end(m.INFLOW, Q, m.Side(h, -u), dry)
    return tuple(left), tuple(right)


def both(F, K, A, S):
    return (F, K, A, S), (-F, K, A, S)


def end_faces():
    case("E4: Q 4096 into still water of 4096", both_ends(4096, 4096, 0), both(4096, 16777216, 4096, 12829))
    case("E4: the inner speed counts by its size", [both_ends(4096, 4096, u) for u in (5000, -5000)],
         [both(4096, 16777216, 4096, 17829)] * 2)
    # a is 4482, and not added to the speed of Q
    case("E4: a Q faster than the waves", both_ends(4096, 500, -600), both(4096, 250000, 33554, 33554))
    case("E4: a Q of 0 is no wall", both_ends(0, 4096, 600), both(0, 16777216, 0, 13429))
    case("E4: at the dry depth and one over it", [both_ends(90, h, 0, 20) for h in (20, 21)],
         [both(90, 400, 0, 896), both(90, 441, 385, 17554)])
    case("E4: at depth 0 and at depth 1", [both_ends(8388608, h, 0) for h in (0, 1)], [both(8388608, 0, 0, 0), both(8388608, 1, 0, 200)])


def told_apart(call):
    """The check that refuses a call, with its number, and its place; or None, and what an accepted one gives."""
    try:
        return None, m.worked(*call)
    except m.Refused as r:
        return (r.number, r.check), r.place


def fast_inflow(Q, h, dry, side):
    """Which check refuses Q at one end of a still cell, or None."""
    ends = (2, 0, Q, 0) if side == 0 else (0, 2, 0, Q)
    return told_apart(([h, 0, 0, 0], 4, [0, 0], [0], 1048576, 1, 0, dry, *ends))[0]


def inflow_speed():
    """The speed is cut toward nought before it is checked: that of 160,001 at 5000 is 131,072."""
    six = 6, "inflow speed, stage 1"
    limit = ((160, 5), (161, 5), (160001, 5000), (160002, 5000), (8388608, 262143), (8388608, 262142))
    case("E4: the speed of Q at the limit and beyond it", [[fast_inflow(Q, h, DRY, side) for Q, h in limit] for side in (0, 1)],
         [[None, six, None, six, (8, "stage one"), six]] * 2)
    ends = [(d, side) for d in DRY_DEPTHS for side in (0, 1)]
    case("E4: Q has no speed at the dry depth", [fast_inflow(8388608, d, d, side) != six for d, side in ends], [True] * 128)
    case("E4: and one over it the limit", [[fast_inflow(32 * (d + 1) + more, d + 1, d, side) for more in (0, 1)] for d, side in ends],
         [[None, six]] * 128)


def without_inflow_holds(seed, count):
    """Between walls and open ends the step is what it was; the third kind was outside the list."""
    seen = Counter()
    for call in hard.calls(seed, count):
        found = m.step(*call)
        with before.E4():
            old = m.step(*call)
        if m.INFLOW in call[8:10]:
            seen["new"] += found != old
            seen["not a 2"] += old not in (("refused", 1, 0), ("refused", 2, 0))
        elif call[10:] == (0, 0):
            seen["otherwise"] += found != old
            seen["accepted"] += old[0] == "accepted"
        else:
            # one that has no Q to give would have been stepped
            seen["refused"] += found == ("refused", 2, 0) and old != found
    case("E4: without inflow the step answers as before it, %d calls accepted" % seen["accepted"], seen["otherwise"], 0)
    case("E4: an end of the third kind was a 2 before it, unless a 1", seen["not a 2"], 0)
    case("E4: that kind decides %d of %d calls, and a Q where none belongs %d" % (seen["new"], count, seen["refused"]),
         seen["accepted"] >= count // 8 and seen["new"] >= count // 3 and seen["refused"] >= count // 400, True)


CHECKS = {(1, "lengths"), (2, "numbers"), (3, "bed"), (4, "friction"), (5, "present state"), (6, "friction speed"),
          (8, "stage one"), (8, "end state"),
          *((number, "%s, stage %d" % (check, which)) for which in (1, 2)
            for number, check in ((6, "face speed"), (6, "inflow speed"), (6, "inner-point speed"), (7, "faces")))}


def inflow_holds(seed, count):
    """What comes in at such an end is known before the step: W is Q*dt/dx, V being that in both stages."""
    seen, refusing, wrong = Counter(), set(), 0
    for call in hard.calls(seed, count):
        n, (dx, dt), (left, right, left_q, right_q) = len(call[3]), call[4:6], call[8:]
        check, given = told_apart(call)
        if check:
            if m.INFLOW in (left, right):
                refusing.add(check)
            continue
        _, W0, Wn = given
        seen[left, right] += 1
        seen["one cell", left, right] += n == 1
        for kind, Q, W in ((left, left_q, W0), (right, right_q, -Wn)):
            if kind == m.INFLOW:
                wrong += W != Q * dt // dx
                seen["came in"] += W > 0
    case("E4: W at such an end is Q*dt/dx, in %d accepted steps more than nought" % seen["came in"],
         (wrong, seen["came in"] >= count // 10), (0, True))
    case("E4: each pair of kinds is accepted in one of 50 calls, and in one of 200 on one cell",
         [kinds for kinds in PAIRS if seen[kinds] < count // 50 or seen[("one cell", *kinds)] < count // 200], [])
    case("E4: every check refuses some call with such an end", sorted(CHECKS ^ refusing), [])


# ---- E6

# Of cells over a bed from 100 to 140, by level mean and slope: face depths without the correction, then depths and bed with it.
CORRECTED = {
    (130, 40): ((-10, 30), (0, 30), (90, 140)), (150, -20): ((70, -10), (70, 0), (100, 130)), (90, 5): ((-15, -45), (0, 0), (85, 95)),
    (120, 20): ((0, 0), (0, 0), (100, 140)), (150, 10): ((40, 20), (40, 20), (100, 140)),
}


def correction():
    """What the correction does where a level lies below the bed, as the random calls below never show it."""
    def shown(cell):
        faces = m.cell_faces(cell, 100, 140)
        return (faces.hl, faces.hr), m.push(cell, 100, 140, m.Flux(0, 9, 0, 0), m.Flux(0, 2, 0, 0))
    for (e0, e1), (without, depths, (zl, zr)) in CORRECTED.items():
        cell = m.Cell(e0, e1, 0, 0)
        case("E6: depths and E of levels %d and %d over a bed of 100 and 140" % (e0 - e1, e0 + e1),
             shown(cell), (without, 7 - 40 * sum(without)))
        with before.E6():
            case("E6: the same with the correction", shown(cell), (depths, 7 - (zr - zl) * sum(depths)))


def short_of_bed(stage, seen):
    """stage, noting a face level below the bed in the state that it starts from."""
    def watch(cells, call, which):
        for i, cell in enumerate(cells):
            seen["faces, stage %d" % which] += 2
            seen["short"] += before.shortfall(cell.e0 - cell.e1, call.bed[i]) > 0
            seen["short"] += before.shortfall(cell.e0 + cell.e1, call.bed[i + 1]) > 0
        return stage(cells, call, which)
    return watch


def uncorrected_holds(seed, count):
    """No stage starts from a level below the bed, so with the correction every answer is the same."""
    seen, otherwise, checks = Counter(), 0, Counter()
    for call in hard.calls(seed, count):
        found = told_apart(call)
        with before.E6(), before.replaced(stage=short_of_bed(m.stage, seen)):
            otherwise += told_apart(call) != found
        checks[found[0]] += 1
    case("E6: no shortfall at %d faces that stage one starts from and %d of stage two" % (seen["faces, stage 1"], seen["faces, stage 2"]),
         seen["short"], 0)
    case("E6: with the correction the answer is the same, in %d random calls" % count, otherwise, 0)
    case("E6: at least a quarter of these accepted, and some refused by each check",
         (4 * checks[None] >= count, sorted(CHECKS - set(checks))), (True, []))


# ---- E7: the columns, their exchange with what lay cell by cell, and the step as it was on that

def columns():
    # the tens tell the cell, the ones which of its numbers
    cells = [(11, 12, 13, 14), (21, 22, 23, 24), (31, 32, 33, 34)]
    by_column = [11, 21, 31, 12, 22, 32, 13, 23, 33, 14, 24, 34]
    by_cell = [11, 12, 13, 14, 21, 22, 23, 24, 31, 32, 33, 34]
    case("E7: three cells in columns, read and written", (m.cells_of(by_column), m.table_of(cells)), (cells, by_column))
    with before.E7():
        case("E7: and cell by cell", (m.cells_of(by_cell), m.table_of(cells)), (cells, by_cell))
    into_columns, into_cells = before.into_columns, before.into_cells
    case("E7: one exchanged for the other", (into_columns(3, by_cell), into_cells(3, by_column)), (by_column, by_cell))
    tables = [(n, list(range(4 * n))) for n in range(m.MOST_CELLS + 2)]
    case("E7: exchanged there and back, tables of 0 to 1,025 cells",
         [n for n, t in tables if not into_columns(n, into_cells(n, t)) == t == into_cells(n, into_columns(n, t))], [])
    others = [(n, list(range(k))) for n in (0, 1, 2, 3, 16) for k in range(4 * n + 9) if k != 4 * n]
    case("E7: %d tables of another length are left as they are" % len(others),
         [(n, len(t)) for n, t in others if not into_columns(n, t) == t == into_cells(n, t)], [])


def columns_hold(seed, count):
    """On columns the step gives the columns of what it gave cell by cell, or the refusal of the same check and place."""
    answers, otherwise, decided, exchanged = Counter(), 0, 0, 0
    for now, *others in hard.calls(seed, count):
        n = len(others[2])
        found = told_apart((now, *others))
        with before.E7():
            check, given = told_apart((before.into_cells(n, now), *others))
            decided += told_apart((now, *others)) != found      # the columns taken for what lay cell by cell
        if check is None:
            state, W0, Wn = given
            given = before.into_columns(n, state), W0, Wn
            exchanged += given[0] != state
        otherwise += (check, given) != found
        answers[check[0] if check else 0] += 1
    case("E7: the step on columns gives the columns of the former answer and the same refusals, in %d calls" % count,
         otherwise, 0)
    case("E7: of these %d accepted, and refused with 1 to 8: %s"
         % (answers[0], ", ".join(str(answers[k]) for k in range(1, 9))), [k for k in range(9) if answers[k] == 0], [])
    case("E7: the layout decides the answer of %d of them, and where %d put what they write" % (decided, exchanged),
         decided >= count // 3 and exchanged >= count // 8, True)


# ---- E8: the sums, what a question reads, the refusals, and the step that keeps the sums

def stairs(n):
    """A state of n cells on a flat bed whose mean depths are 1, 2, 3 and so on."""
    return [*range(1, n + 1)] + [0] * (3 * n), [0] * (n + 1)


def question(n, a, b):
    """The water between two faces of such a state, with its own sums."""
    state, bed = stairs(n)
    return sums.between(state, bed, sums.sums_of(state, bed), a, b)[1:]


def blocks_of_sixteen():
    case("E8: the sums of 1, 15, 16, 17, 32 and 33 cells, 1, 2, 3 and so on deep",
         [sums.make(*stairs(n), count)[1] for n, count in ((1, 1), (15, 1), (16, 1), (17, 2), (32, 2), (33, 3))],
         [[1], [120], [136], [136, 17], [136, 392], [136, 392, 33]])
    # face 1 of the bed is 40, so cells 0 and 1 have 20 of it each, whatever their slopes
    case("E8: a depth is the level mean less the bed's mean",
         sums.make([120, 130, 110, 20, -20, 0, 9, 9, 9, 0, 0, 0], [0, 40, 0, 0], 1), ("made", [100 + 110 + 110]))


def what_is_read():
    # of 18 cells 0 to 15 are a block, and 16 and 17 are a short one
    wanted = {(0, 0): (0, 0, 0), (5, 5): (0, 0, 0), (16, 16): (0, 0, 0), (18, 18): (0, 0, 0),
              (0, 1): (1, 1, 0), (0, 15): (120, 15, 0), (0, 16): (136, 0, 1), (0, 17): (153, 1, 1),
              (0, 18): (171, 0, 2), (1, 16): (135, 15, 0), (1, 17): (152, 16, 0), (1, 18): (170, 15, 1),
              (15, 17): (33, 2, 0), (15, 18): (51, 1, 1), (16, 17): (17, 1, 0), (16, 18): (35, 0, 1),
              (17, 18): (18, 1, 0)}
    case("E8: the water, the cells and the blocks of %d ranges of 18 cells" % len(wanted),
         {ab: question(18, *ab) for ab in wanted}, wanted)
    case("E8: one cell is a block, and 32 are two",
         [question(1, 0, 1), question(32, 0, 32), question(32, 1, 32), question(32, 0, 31)],
         [(1, 0, 1), (528, 0, 2), (527, 15, 1), (496, 15, 1)])
    case("E8: of 1,024 cells all, all but the outer two, and the most cells without a block",
         [question(1024, *ab) for ab in ((0, 1024), (1, 1023), (1, 31))],
         [(524800, 0, 64), (523775, 30, 62), (495, 30, 0)])
    most = [len(sums.read(n, a, b)[0])
            for n in (31, 32, 33, 47, 48, 49) for a in range(n + 1) for b in range(a, n + 1)]
    case("E8: never more than 30 cells, in all %d ranges of 31 to 33 and of 47 to 49 cells" % len(most), max(most), 30)


LEAST, MOST = -hard.I32, hard.I32 - 1


def as_they_stand():
    """Tables that no check has seen."""
    def first(e0, zl, zr):
        """Of two cells the first, so that the cell is read and not its block."""
        return sums.between([e0] + [0] * 7, [zl, zr, 0], [0], 0, 1)
    beds = {(0, 1): 0, (1, 0): 0, (1, 2): 1, (-1, 0): 0, (0, -1): 0, (-1, -1): -1, (-1, -2): -1, (-3, 0): -1,
            (-7, 2): -2, (7, -2): 2}
    case("E8: the mean of beds of odd sum or below nought is cut toward nought", {z: first(100, *z) for z in beds},
         {z: ("answered", 100 - mean, 1, 0) for z, mean in beds.items()})
    widest = (LEAST, MOST, MOST), (MOST, LEAST, LEAST), (MOST, LEAST, MOST), (LEAST, LEAST, LEAST)
    case("E8: a cell of the widest numbers", [first(*cell) for cell in widest],
         [("answered", water, 1, 0) for water in (-4294967295, 4294967295, 2147483647, 0)])
    state, bed = stairs(1024)
    # the outer cells of 1 to 1,023 are 2 to 16 and 1,009 to 1,023 deep, 135 and 15,240 together
    for z in (LEAST, MOST):
        case("E8: sums that are not the state's, all %d" % z,
             [sums.between(state, bed, [z] * 64, *ab) for ab in ((0, 1024), (1, 1023))],
             [("answered", 64 * z, 0, 64), ("answered", 62 * z + 135 + 15240, 30, 62)])
    case("E8: one cell's own numbers are not read, its block's are",
         sums.between([LEAST, 1, 2, 3], [MOST, 5], [77], 0, 1), ("answered", 77, 0, 1))


def sums_refused():
    """Each check alone and at its edge, and tables that more than one of them refuses."""
    state, bed = stairs(17)
    odd, low = with_one(bed, 17, 1), with_one(state, 16, -1)
    tables = [(table, bed, 2) for table in ([], state[:-1], state + [0])]
    tables += [(state, table, 2) for table in (bed[:-1], bed + [0])]
    tables += [(state, bed, length) for length in (0, 1, 3)]
    case("E8: making with a table that does not fit", [sums.make(*t) for t in tables], [("refused", 1)] * 8)
    case("E8: a question of the same", [sums.between(*t[:2], [0] * t[2], 0, 0) for t in tables], [("refused", 1)] * 8)
    for what, n in (("no bed", -1), ("no cell", 0), ("1,025 cells", 1025)):
        lent, room = ([0] * (4 * n), [0] * (n + 1)), max(0, n + 15) // 16
        case("E8: " + what, [sums.make(*lent, room), sums.between(*lent, [0] * room, 0, 0)], [("refused", 1)] * 2)
    case("E8: 1 before 3 and 5, 3 before 5",
         [sums.make(*t) for t in ((low, odd, 3), (low, odd, 2), (low, bed, 2), (state, bed, 2))],
         [("refused", 1), ("refused", 3), ("refused", 5), ("made", [136, 17])])
    deep = with_one(state, 16, m.DEEPEST)
    edges = [deep, with_one(state, 16, m.DEEPEST + 1), with_one(deep, 33, 1)]
    edges += [with_one(state, 67, q) for q in (m.GREATEST_Q, m.GREATEST_Q + 1)]
    case("E8: the range of a state at its edge", [sums.make(edge, bed, 2)[0] for edge in edges],
         ["made", "refused", "refused", "made", "refused"])
    top = 2 ** 32 - 1
    faces = (0, 17), (17, 17), (1, 0), (17, 16), (0, 18), (18, 18), (18, 17), (0, top), (top, 0), (top, top)
    case("E8: a over b, b over n", [sums.between(low, odd, [0, 0], *ab)[0] for ab in faces],
         ["answered"] * 2 + ["refused"] * 8)
    case("E8: and 10 is its number, after 1",
         [sums.between(low, odd, [0, 0], 18, 18), sums.between(low, odd, [0], 18, 18)],
         [("refused", 10), ("refused", 1)])


def sums_kept(seed, count):
    """The step with sums: its own answer and the sums of what it writes; the length of the sums before all else."""
    still = [4096] * 17 + [0] * 51
    case("E8: a step of 17 still cells keeps their sums",
         sums.step(still, 68, [0] * 18, [0] * 17, 2, 4096, 653, 0, DRY, 0, 0, 0, 0),
         ("accepted", still, 0, 0, [65536, 4096]))
    rnd, wrong, answers, early, asked = random.Random(seed), 0, Counter(), Counter(), 0
    for now, room, bed, friction, *given in hard.calls(seed, count):
        n = len(friction)
        answer, fits = m.step(now, room, bed, friction, *given), (n + 15) // 16
        found = sums.step(now, room, bed, friction, fits, *given)
        wrong += found[:4] != answer
        answers[answer[1] if answer[0] == "refused" else 0] += 1
        for length in {max(0, fits - 1), fits + 1} - {fits}:
            wrong += sums.step(now, room, bed, friction, length, *given) != ("refused", 1, 0)
            early[answer[1] if answer[0] == "refused" else 0] += 1
        if answer[0] == "accepted":
            state, kept = found[1], found[4]
            wrong += sums.make(state, bed, fits) != ("made", kept)
            a, b = sorted(rnd.randint(0, n) for _ in range(2))
            wrong += sums.between(state, bed, kept, a, b)[1] != sum(depths(state, bed)[a:b])
            wrong += sums.between(state, bed, kept, 0, n) != ("answered", water(state, bed), 0, fits)
            asked += 1
    case("E8: the step with sums answers as the step, and its sums are those of the new state, %d accepted of %d"
         % (asked, count), (wrong, asked >= count // 4), (0, True))
    case("E8: all of 0 to 8 came, and each also with sums of a wrong length, a 1",
         [k for k in range(9) if min(answers[k], early[k]) < count // 500], [])


# ---- E9: turning, the step from the other end, and rules that would break the law

def turning():
    # the tens tell the cell, the ones which of its numbers
    table = [11, 21, 31, 12, 22, 32, 13, 23, 33, 14, 24, 34]
    other = [31, 21, 11, -32, -22, -12, -33, -23, -13, 34, 24, 14]
    call = table, 12, [2, 4, 6, 8], [1, 2, 3], 4096, 60, 50, 7, 1, 2, 0, 900
    case("E9: a call of three cells, turned", turned(call),
         (other, 12, [8, 6, 4, 2], [3, 2, 1], 4096, 60, 50, 7, 2, 1, 900, 0))
    case("E9: what it must be answered", [turned_answer(answer) for answer in (("accepted", table, 5, -6), ("refused", 7, 3))],
         [("accepted", other, 6, -5), ("refused", 7)])
    fits = [[can_turn((with_one(table, k, odd), *call[1:])) for k in range(12)] for odd in (-hard.I32, -hard.I32 + 1, hard.I32 - 1)]
    case("E9: the least i32 as a level slope or a discharge mean, and no other number, rules turning out",
         fits, [[True] * 3 + [False] * 6 + [True] * 3, [True] * 12, [True] * 12])


def model_answers(calls):
    return [m.step(*call) for call in calls]


def wrong_rules():
    """Each rule by what is wrong with it.  A u* of one division for both waves would turn with the call, and be no case of E9."""
    bounds, minmod, right_end = m.wave_bounds, m.minmod, m.right_end

    def one_sum_for_sL(hL, uL, hR, uR):
        aL, aR = m.wave_speed(hL), m.wave_speed(hR)
        u, a = m.quo(uL + uR + 2 * (aL - aR), 2), abs(m.quo(2 * (aL + aR) + uL - uR, 4))
        sL, sR = bounds(hL, uL, hR, uR)
        return sL if hL == 0 else min(uL - aL, u - a), sR

    def left_neighbour_wins(*values):
        """The difference from the left neighbour is the last, where there is one."""
        return values[-1] if minmod(*values) else 0

    def outward_A(kind, Q, inner, dry):
        end = right_end(kind, Q, inner, dry)
        return end._replace(A=-end.A) if kind == m.INFLOW else end

    return {
        "u* of sL divided as one sum": before.replaced(wave_bounds=one_sum_for_sL),
        "the left neighbour preferred by the limiter": before.replaced(minmod=left_neighbour_wins),
        "V rounded downward": before.replaced(volume=lambda F, call: F * call.dt // call.dx),
        "A of the other sign where Q comes in at the right": before.replaced(right_end=outward_A),
    }


def wrong_rules_break(calls):
    """E9's law would tell each of them: some of the calls are answered otherwise from the other end."""
    for name, rule in wrong_rules().items():
        with rule:
            otherwise = (k for k, call in enumerate(calls) if not both_ways.alike(m.step(*call), m.step(*turned(call))))
            found = list(itertools.islice(otherwise, 5))
        case("E9: broken by %s, five times in the first %d of these calls" % (name, 1 + max(found, default=-1)), len(found), 5)


def turning_holds(seed, count):
    drawn = list(hard.calls(seed, count))
    calls, seen, wrong = list(filter(can_turn, drawn)), Counter(), 0
    case("E9: turned twice the call is the same, in %d calls" % len(calls), sum(turned(turned(call)) != call for call in calls), 0)
    for call, (answer, other) in zip(calls, both_ways.from_both_ends(model_answers, calls)):
        wrong += not both_ways.alike(answer, other)
        if answer[0] == "refused":
            seen[answer[1]] += 1
            seen["elsewhere"] += answer[2] != other[2]
        else:
            seen["accepted"] += 1
            seen[call[8:10]] += all(Q > 0 for kind, Q in zip(call[8:10], call[10:]) if kind == m.INFLOW)
    case("E9: from the other end the turned answer, or the same number, in %d calls" % len(calls), wrong, 0)
    case("E9: lengths that do not fit are a 1, and no others", (seen[1], {m.step(*call) for call in drawn if not lengths_fit(call)}),
         (0, {("refused", 1, 0)}))
    case("E9: accepted %d, refused with 2 to 8 each in one of 150 calls: %s; at another place %d"
         % (seen["accepted"], ", ".join(str(seen[k]) for k in range(2, 9)), seen["elsewhere"]),
         (3 * seen["accepted"] >= count, [k for k in range(2, 9) if 150 * seen[k] < count], 10 * seen["elsewhere"] >= count),
         (True, [], True))
    case("E9: accepted with each pair of kinds of end, an inflow bringing water, in one of 60 calls",
         [kinds for kinds in PAIRS if 60 * seen[kinds] < count], [])
    wrong_rules_break(calls)


def turned_runs_hold(seed, count):
    runs = both_ways.runs(model_answers, random.Random(seed), count)
    steps = Counter(kinds for run in runs for kinds in run.kinds)
    whole, refused = sum(len(run.kinds) == both_ways.MOST_STEPS for run in runs), sum(any(run.numbers) for run in runs)
    case("E9: from the other end the turned state, volumes and last number, %d accepted steps in %d runs" % (sum(steps.values()), count),
         sum(not run.alike() for run in runs), 0)
    case("E9: of the runs %d came to %d steps and %d to a refusal; every pair of kinds of end in one of 20 steps"
         % (whole, both_ways.MOST_STEPS, refused),
         (3 * whole >= count, 10 * refused >= count, [kinds for kinds in PAIRS if 20 * steps[kinds] < sum(steps.values())]),
         (True, True, []))


# ---- E13: the place of each check at the first, a middle and the last index, the lowest of several, and random calls

SHORT_REACH = 5
# One cell among still ones of some depth, on a flat bed between walls: the check that refuses, how far its place lies
# beyond the cell's index, the depth of the others, the cell, and dx, dt and J.  A cell's right side is at the face beyond it.
ODD_CELLS = (
    (5, "present state", 0, 1000, (1000, 1001, 0, 0), 4096, 1, 0),
    (6, "friction speed", 0, 1000, (1000, 0, 32001, 0), 4096, 1, 0),
    (6, "face speed, stage 1", 0, 1000, (1000, 0, -16000, 17000), 4096, 1, 0),
    (6, "face speed, stage 1", 1, 1000, (1000, 0, 16000, 17000), 4096, 1, 0),
    (6, "inner-point speed, stage 1", 0, 1000, (1000, 996, 31000, 0), 4096, 1, 0),
    (7, "faces, stage 1", 0, 1000, (3000, -1000, 0, 0), 4096, 700, 0),
    (7, "faces, stage 1", 1, 1000, (3000, 1000, 0, 0), 4096, 700, 0),
    (8, "stage one", 0, 262144, (262144, 0, 60000, 0), 1000, 1, 0),
    (6, "face speed, stage 2", 0, 100, (50, 50, -500, 0), 4096, 10, 262144),
    (6, "face speed, stage 2", 1, 4, (10, -10, 160, 0), 1000, 10, 262144),
    (6, "inner-point speed, stage 2", 0, 6, (20, 0, 640, 0), 100, 1, 262144),
    (7, "faces, stage 2", 0, 0, (50, -50, 0, -375), 10, 1, 0),
    (7, "faces, stage 2", 1, 6, (5, -5, 80, 40), 100, 10, 262144),
)


def odd_reach(odd, depth, dx=4096, dt=1, jump=0, ends=(0, 0, 0, 0), n=SHORT_REACH):
    """Still cells of some depth, and others at some of their indices."""
    cells = [odd.get(i, (depth, 0, 0, 0)) for i in range(n)]
    return m.table_of(cells), 4 * n, [0] * (n + 1), [0] * n, dx, dt, jump, DRY, *ends


def at_each_cell():
    for number, check, beyond, depth, cell, dx, dt, jump in ODD_CELLS:
        def place(n, *indices):
            return told_apart(odd_reach(dict.fromkeys(indices, cell), depth, dx, dt, jump, n=n))
        what = "%d %s, %s" % (number, check, ("at the cell or its left face", "at its right face")[beyond])
        case("E13: %s, by each cell of 1, 3 and 5" % what, [place(n, i) for n in (1, 3, 5) for i in range(n)],
             [((number, check), i + beyond) for n in (1, 3, 5) for i in range(n)])
        case("E13: %s, by two and three cells of 9: the lowest" % what, [place(9, *indices) for indices in ((1, 8), (4, 8), (0, 4, 8))],
             [((number, check), i + beyond) for i in (1, 4, 0)])


def with_one(table, k, odd):
    return table[:k] + [odd] + table[k + 1:]


def pit_call(full, moving):
    """A lake at rest, one cell of which is full; one two cells beside it runs toward it, which stage one does not tell it."""
    bed = [1000] * (SHORT_REACH + 1)
    bed[full] = bed[full + 1] = 0
    cells = [(m.DEEPEST, 0, 10000 * (full - moving) if i == moving else 0, 0) for i in range(SHORT_REACH)]
    return m.table_of(cells), 4 * SHORT_REACH, bed, [0] * SHORT_REACH, 1000, 10, m.GREATEST_JUMP, DRY, 0, 0, 0, 0


def at_each_other():
    now, room, bed, friction, *given = odd_reach({}, 1000)
    indices = range(SHORT_REACH + 1)
    case("E13: 3 at each bed value", [m.step(now, room, with_one(bed, k, z), friction, *given) for z in (-2, 1, 1048578) for k in indices],
         [("refused", 3, k) for k in indices] * 3)
    case("E13: 4 at each friction value", [m.step(now, room, bed, with_one(friction, i, 201), *given) for i in indices[:-1]],
         [("refused", 4, i) for i in indices[:-1]])
    case("E13: of several bed or friction values the lowest", [m.step(now, room, [0, 0, 1, 0, -2, 3], friction, *given),
                                                               m.step(now, room, bed, [0, 201, 0, 999, 201], *given)],
         [("refused", 3, 2), ("refused", 4, 1)])
    pits = (0, 2), (1, 3), (2, 0), (2, 4), (3, 1), (4, 2)
    case("E13: 8 of the end state at each cell", [told_apart(pit_call(*pit)) for pit in pits],
         [((8, "end state"), full) for full, _ in pits])
    case("E13: 6 of an inflow at either end, in stage one and in stage two",
         [told_apart(odd_reach({}, depth, ends=ends)) for depth, Q in ((1000, 32002), (0, 368640))
          for ends in ((2, 0, Q, 0), (0, 2, 0, Q))],
         [((6, "inflow speed, stage %d" % which), k) for which in (1, 2) for k in (0, SHORT_REACH)])
    case("E13: 1 and 2 have place 0", [m.step(now, room + 1, bed, friction, *given), m.step(now, room, bed, friction, *given[:-1], 1)],
         [("refused", 1, 0), ("refused", 2, 0)])


# A cell that is too fast at its left face alone, at its right face, at both, at a Gauss point, at its right face and a point.
LEFT, RIGHT, BOTH_SIDES = (1000, 0, -16000, 17000), (1000, 0, 16000, 17000), (1000, 0, 0, 33000)
POINT, RIGHT_AND_POINT = (1000, 996, 31000, 0), (1000, 0, 16000, 28000)
FAST = 70000        # as an inflow


def faces_in_order():
    """Of the faces the lowest, and a Gauss point after all of them: F for a cell's side, Q for an inflow, G for a Gauss point."""
    def shown(odd, left_q=0, right_q=0):
        (_, check), place = told_apart(odd_reach(odd, 1000, ends=(2, 2, left_q, right_q)))
        return {"face": "F", "inflow": "Q", "inner-point": "G"}[check.split()[0]] + str(place)
    case("E13: a cell's left face before its right", [shown({2: cell}) for cell in (LEFT, RIGHT, BOTH_SIDES)], ["F2", "F3", "F2"])
    case("E13: faces with a cell on either side", [shown(odd) for odd in ({2: RIGHT, 3: LEFT}, {2: LEFT, 3: LEFT}, {1: LEFT, 2: RIGHT})],
         ["F3", "F2", "F1"])
    odd = {1: POINT, 3: LEFT}, {0: POINT, 4: RIGHT}, {2: RIGHT_AND_POINT}, {3: POINT, 1: LEFT}, {1: POINT}, {3: POINT, 1: POINT}
    case("E13: faces before Gauss points", [shown(each) for each in odd], ["F3", "F5", "F3", "F1", "G1", "G1"])
    case("E13: an inflow at the left before every other face", [shown(each, FAST) for each in ({3: RIGHT}, {1: POINT}, {})]
         + [shown({4: LEFT}, FAST, FAST)], ["Q0"] * 4)
    case("E13: an inflow at the right after every other face",
         [shown(each, 0, FAST) for each in ({3: RIGHT}, {4: LEFT}, {4: POINT}, {})], ["F4", "F4", "Q5", "Q5"])
    case("E13: an inflow and a cell's side at one face", [shown({0: LEFT}, FAST), shown({4: RIGHT}, 0, FAST)], ["F0", "F5"])


POSITIONS = ("first", "middle", "last")


def places_hold(seed, count):
    """The second writing, and the first without places, on random calls."""
    wrong, numbers, several, seen = 0, 0, Counter(), Counter()
    for call in hard.calls(seed, count):
        (refused, given), check = told_apart(call), places.met(call)
        with before.E13():
            numbers += m.step(*call) != (("refused", refused[0]) if refused else ("accepted", *given))
        wrong += (refused and (refused[0], given)) != (check and (check.number, min(check.indices)))
        if refused and check:
            number, name = refused
            several[number] += len(check.indices) > 1
            seen[name, places.position(name, given, len(call[3]))] += 1
    case("E13: the place is the lowest of all to which the check applies, in %d calls; of several for 3 to 8: %s"
         % (count, ", ".join(str(several[k]) for k in range(3, 9))), (wrong, [k for k in range(3, 9) if several[k] == 0]), (0, []))
    case("E13: the number is that of before it, same calls", numbers, 0)
    wanted = {(name, position) for number, name in CHECKS for position in POSITIONS
              if number > 2 and not (name.startswith("inflow") and position == "middle")}
    case("E13: every check came at the first, a middle and the last index, an inflow at the first and the last",
         sorted(wanted - set(seen)), [])


# ---- Demand 3 on random calls

def depths(now, bed):
    """The mean depth of each cell."""
    return [now[i] - (bed[i] + bed[i + 1]) // 2 for i in range(len(bed) - 1)]


def water(now, bed):
    return sum(depths(now, bed))


def watched(check_range, seen):
    """check_range, noting a depth below nought in a state that is finished."""
    def check(cells, call, number, name):
        if number == 8:
            for i, cell in enumerate(cells):
                low = min(cell.e0 - cell.e1 - call.bed[i], cell.e0 + cell.e1 - call.bed[i + 1])
                seen["depths"] += 1
                seen["below"] += low < 0
        check_range(cells, call, number, name)
    return check


def calls_hold(seed, count):
    accepted = unbalanced = leaking = taking = 0
    seen = Counter()
    with before.replaced(check_range=watched(m.check_range, seen)):
        for call in hard.calls(seed, count):
            now, bed, (left, right) = call[0], call[2], call[8:10]
            answer = m.step(*call)
            if answer[0] == "accepted":
                accepted += 1
                _, new, W0, Wn = answer
                unbalanced += water(new, bed) != water(now, bed) + W0 - Wn
                leaking += (left == 0 and W0 != 0) or (right == 0 and Wn != 0)
                taking += (left == m.INFLOW and W0 < 0) or (right == m.INFLOW and Wn > 0)
    case("demand 3: water sum over %d accepted of %d random calls" % (accepted, count), unbalanced, 0)
    case("demand 3: nothing passes a wall, same calls", leaking, 0)
    case("demand 3: nothing leaves where an inflow is given, same calls", taking, 0)
    case("demand 3: no depth below nought in %d finished cells, refused ones too" % seen["depths"], seen["below"], 0)
    case("random calls: at least three in ten accepted", 10 * accepted >= 3 * count, True)


def at_rest(rnd, n):
    """A state at rest: pools whose shores are exactly at faces, dry ground between them."""
    bed, levels = [0] * (n + 1), []
    at, wet = 0, rnd.randrange(2)
    while at < n:
        k = rnd.randint(1, n - at)
        level = 2 * rnd.randint(0, m.HIGHEST_BED // 2)
        low = max(0, level - m.DEEPEST) if wet else 0
        if wet and rnd.randrange(2):
            low = max(low, level - rnd.choice((20000, 40)))      # the second, with depths about a dry depth
        high = level if wet else m.HIGHEST_BED
        for j in range(at + (at > 0), at + k + 1):
            bed[j] = 2 * rnd.randint((low + 1) // 2, high // 2)
        if wet and at > 0:
            bed[at] = level
        if wet and at + k < n:
            bed[at + k] = level
        elif wet and at == 0:
            level = min(level + rnd.randrange(2), min(bed) + m.DEEPEST)   # no shore: the level may be odd
        levels += [(level, wet)] * k
        at, wet = at + k, not wet
    cells = [[level, 0, 0, 0] if covered else hard.dry_cell(zl, zr)
             for (level, covered), zl, zr in zip(levels, bed, bed[1:])]
    return m.table_of(cells), bed


def rest_holds(seed, count):
    rnd = random.Random(seed)
    accepted = moved = otherwise = shallow = given = 0
    for _ in range(count):
        n = rnd.choice((1, 2, 3, 5, 16))
        now, bed = at_rest(rnd, n)
        dx = rnd.choice((1, 4096, rnd.randint(1, m.LONGEST_DX)))
        for _ in range(3):
            dt = rnd.choice((1, rnd.randint(1, m.LONGEST_DT)))
            friction = [rnd.randint(0, m.ROUGHEST) for _ in range(n)]
            jump, dry = rnd.choice((0, 0, rnd.randint(0, m.GREATEST_JUMP))), hard.dry_depths(rnd)
            kinds = rnd.choice(PAIRS)
            answer = m.step(now, 4 * n, bed, friction, dx, dt, jump, dry, *kinds, 0, 0)
            if answer[0] == "accepted":
                accepted += 1
                given += m.INFLOW in kinds
                shallow += any(0 < h <= dry for h in depths(now, bed))
                moved += answer != ("accepted", now, 0, 0)
            else:
                otherwise += answer[1] != 7
    case("demand 3: lake at rest stays, %d accepted of %d steps, %d with water no deeper than the dry depth, %d with a Q of 0"
         % (accepted, 3 * count, shallow, given), moved, 0)
    case("demand 3: a lake at rest is refused by 7 alone", otherwise, 0)
    case("lakes at rest: at least half accepted, of those one in ten so shallow, two in five with a Q of 0",
         2 * accepted >= 3 * count and 10 * shallow >= accepted and 5 * given >= 2 * accepted, True)


def stepped(rnd, now, bed, dx, seen):
    """The state after at most twelve steps, and what the ends brought in all."""
    brought = 0
    for _ in range(12):
        call = hard.run_call(rnd, now, bed, dx)
        answer, kinds = m.step(*call), call[8:10]
        if answer[0] == "refused":
            break
        seen["steps"] += 1
        seen["decided"] += m.step(*with_dry(call, DRY)) != answer
        _, now, W0, Wn = answer
        seen["inflows"] += (kinds[0] == m.INFLOW and W0 > 0) + (kinds[1] == m.INFLOW and Wn < 0)
        brought += W0 - Wn
    return now, brought


def runs_hold(seed, count):
    """Several steps of one bed, n and dx; dt, J, dry depth, friction, ends and Q differ from step to step."""
    rnd, seen, wrong = random.Random(seed), Counter(), 0
    with before.replaced(check_range=watched(m.check_range, seen)):
        for _ in range(count):
            bed, now = hard.run_reach(rnd, rnd.choice((1, 2, 3, 16)))
            end, brought = stepped(rnd, now, bed, rnd.randint(1, 60000), seen)
            wrong += water(end, bed) != water(now, bed) + brought
    case("demand 3: water sum over runs, %d accepted steps in %d runs, the dry depth, the ends and Q others in each"
         % (seen["steps"], count), wrong, 0)
    case("demand 3: no depth below nought in their %d finished cells, refused ones too" % seen["depths"], seen["below"], 0)
    case("runs: of the steps, six and more a run, the dry depth decides %d and an inflow comes in %d times, each at least one in ten"
         % (seen["decided"], seen["inflows"]),
         seen["steps"] >= 6 * count and 10 * min(seen["decided"], seen["inflows"]) >= seen["steps"], True)


def main():
    rows()
    runs()
    limits()
    sparing()
    sparing_holds(6, 1500)
    dry_list()
    dry_places()
    greatest_x()
    four_holds(7, 2000)
    end_list()
    end_faces()
    inflow_speed()
    without_inflow_holds(9, 2000)
    inflow_holds(10, 6000)
    correction()
    uncorrected_holds(11, 3000)
    columns()
    columns_hold(12, 4000)
    blocks_of_sixteen()
    what_is_read()
    as_they_stand()
    sums_refused()
    sums_kept(15, 3000)
    turning()
    turning_holds(8, 4000)
    turned_runs_hold(14, 150)
    at_each_cell()
    at_each_other()
    faces_in_order()
    places_hold(13, 4000)
    calls_hold(3, 3000)
    rest_holds(4, 800)
    runs_hold(5, 250)
    print("%d passed, %d failed" % (passed, failed))
    return 1 if failed else 0


if __name__ == "__main__":
    sys.exit(main())
