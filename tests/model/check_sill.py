"""What 02's E10 says of the step over a stepped bed, tried on its model.

Numbers that were worked by hand, every check at its places, readings of E10 that are wrong and must be told from the
right one, a second writing of the whole, and demand 3 on random calls and runs.

Prints a line for each case and last 'N passed, M failed'; the exit status is 1 when something failed.
"""

import itertools
import random
import sys
from collections import Counter

import before
import check
import hard
import model as m
import sill
import sill_hard
import sill_places
from check import DRY, NOT_IN_LIST, POSITIONS, case, with_one

FLAT = [0, 0]


def step(levels, discharges, bed, dx=4096, dt=100, dry=DRY, ends=(m.WALL, m.WALL), friction=None):
    """A step of smooth cells, or of rough ones."""
    n = len(bed)
    return sill.step(levels + discharges, 2 * n, bed, friction or [0] * n, dx, dt, dry, *ends)


def told_apart(call):
    """The check that refuses a call, with its number, and its place; or None, and what an accepted one gives."""
    try:
        return None, sill.worked(*call)
    except m.Refused as r:
        return (r.number, r.check), r.place


# ---- Numbers worked by hand; the fluxes of the first three are rows 6, 7 and 9 of 01's table, or as short to work

def worked_by_hand():
    # E is 5592406 on the left: what the water presses on the upright face goes to the bed and not into the discharge
    case("by hand: a metre of water over a sill onto dry ground", step([8192, 4096], [0, 0], [0, 4096]),
         ("accepted", [7984, 4304, 163, 326], 0, 0))
    # A is -12829 at the left wall, from which the water runs, and 18973 at the right one
    case("by hand: one cell that runs between walls", step([4096], [4096], [0]), ("accepted", [4096, 3320], 0, 0))
    # K is 60000 and F -169 of (0,0 | 300,0), S is 6942
    case("by hand: 300 over a step of 10000, 5000 deep below it", step([5000, 10300], [0, 0], [0, 10000]),
         ("accepted", [5004, 10296, -1, 0], 0, 0))
    # the speed is 20000 where no depth is shown, so that sR is 13264 and not 3471; F is -333 and K 30920
    case("by hand: the same, the water below running against the step",
         step([5000, 10300], [24415, 0], [0, 10000], ends=(m.OPEN, m.WALL)), ("accepted", [5604, 10292, 27325, -1], 596, 0))
    case("by hand: from the other side",
         step([10300, 5000], [0, -24415], [10000, 0], ends=(m.WALL, m.OPEN)), ("accepted", [10292, 5604, 1, -27325], 0, -596))
    # x is 578 as in row 11 of 01's table, and 4060 goes on: A is -12716 and 18752
    case("by hand: the cell between walls, rough", step([4096], [4096], [0], dt=4096, dx=65536, friction=[30]),
         ("accepted", [4096, 2094], 0, 0))


def dried_by_hand():
    # V is 2, and the push 3
    dam = [4096, 0], [0, 0], FLAT
    case("by hand: a depth of 2 is dried, and runs where the dry depth is 1", [step(*dam, dt=1, dry=d) for d in (4, 2, 1)],
         [("accepted", [4094, 2, 1, 0], 0, 0)] * 2 + [("accepted", [4094, 2, 1, 3], 0, 0)])
    # 20 deep and fast, onto dry ground: V is 7, A -10 and 125, and depths of 13 and 7 are left, with discharges of 31 and 18
    case("by hand: the depth after the step decides", [step([20, 0], [50, 0], FLAT, dt=600, dry=d)[1] for d in (6, 7, 12, 13, 19)],
         [[13, 7, 31, 18]] + [[13, 7, 31, 0]] * 2 + [[13, 7, 0, 0]] * 2)


# ---- A lake

def lakes():
    """Every number stays, with water on either side of a sill, above it or not, and around an island."""
    bed = [0, 3000, 0, 9001, 0, 500, 4096, 7]
    still = [max(z, 4096) for z in bed] + [0] * 8
    for kinds in itertools.product((m.WALL, m.OPEN), repeat=2):
        case("lake: over sills and around an island, ends %d %d" % kinds, step(still[:8], still[8:], bed, dt=653, ends=kinds),
             ("accepted", still, 0, 0))
    apart = [300, 300, 500, 450, 450], [0, 100, 500, 0, 449]
    case("lake: two levels, parted by dry ground", step(apart[0], [0] * 5, apart[1]), ("accepted", apart[0] + [0] * 5, 0, 0))
    case("lake: the same, the ground a unit under water", step([300, 300, 501, 450, 450], [0] * 5, apart[1])[0], "accepted")
    case("lake: at rest by definition, or not", [sill_hard.rests(levels + [0] * 5, apart[1]) for levels in
                                                 (apart[0], [300, 300, 501, 450, 450], [300, 301, 500, 450, 450])], [True, False, False])


# ---- The lists, and each check at every place

def lists():
    good = [4096, 4096], [0, 0], FLAT
    case("2: a dry depth of 0, 65, 4294967295", [step(*good, dry=d) for d in NOT_IN_LIST], [("refused", 2, 0)] * 3)
    case("2: a dry depth of 1 to 64", {step(*good, dry=d)[0] for d in check.DRY_DEPTHS}, {"accepted"})
    beyond = [(kind, m.WALL) for kind in (m.INFLOW, 3, 4294967295)]
    case("2: an end of kind 2, 3 and 4294967295, at either end",
         [step(*good, ends=ends) for pair in beyond for ends in (pair, pair[::-1])], [("refused", 2, 0)] * 6)
    case("2: dx and dt at the ends of their lists and beyond", [step(*good, dx=dx, dt=dt) for dx, dt in
         ((1, 1), (1048576, 4096), (0, 1), (1048577, 1), (4096, 0), (1048576, 4097))],
         [("refused", 7, 0), ("accepted", [4096, 4096, 0, 0], 0, 0)] + [("refused", 2, 0)] * 4)
    edges = (0, 1, 1048575, 1048576), (-1, 1048577)
    case("3: bed values at the ends of their range, odd ones too, and beyond",
         [[step([z + 4096, z + 4096], [0, 0], [z, z])[0] for z in each] for each in edges], [["accepted"] * 4, ["refused"] * 2])
    case("5: depth and discharge at the ends of their range, and beyond",
         [step([h], [q], [3], dx=1048576, dt=1)[0] for h, q in ((3, 0), (262147, 8388608), (262147, -8388608))]
         + [step([h], [q], [3], dx=1048576, dt=1) for h, q in ((2, 0), (262148, 0), (262147, 8388609), (262147, -8388609))],
         ["accepted"] * 3 + [("refused", 5, 0)] * 4)
    case("6: the speed at its limit and beyond", [step([5], [q], [0], dx=1048576, dt=1)[:2] for q in (160, -160, 161, -161)],
         [("accepted", [5, 160]), ("accepted", [5, -160])] + [("refused", 6)] * 2)
    case("6: none at the dry depth", step([4], [8388608], [0], dx=1048576, dt=1), ("accepted", [4, 0], 0, 0))
    case("7: one metre of still water, dt 653 and 654", [step([4096], [0], [0], dt=dt)[:2] for dt in (653, 654)],
         [("accepted", [4096, 0]), ("refused", 7)])


def lengths():
    """What fits, each table one too long or too short, tables of the other reach, none and too many."""
    def room(now, room_, bed, friction):
        return sill.step([0] * now, room_, [0] * bed, [0] * friction, 4096, 1, DRY, 0, 0)[:2]
    case("1: 1, 2, 1,024 cells", [room(2 * n, 2 * n, n, n)[0] for n in (1, 2, 1024)], ["accepted"] * 3)
    others = [(3, 4, 2, 2), (5, 4, 2, 2), (4, 3, 2, 2), (4, 5, 2, 2), (4, 4, 1, 2), (4, 4, 3, 2), (4, 4, 2, 1), (4, 4, 2, 3),
              (8, 8, 3, 2), (8, 8, 2, 2), (4, 4, 3, 2), (0, 0, 0, 0), (2050, 2050, 1025, 1025)]
    case("1: other lengths", [room(*each) for each in others], [("refused", 1)] * len(others))


def lake_with(low, n):
    """A lake over a bed of 3000, but for some cells that are 4096 deep."""
    return [4096] * n, [0] * n, [0 if i in low else 3000 for i in range(n)]


def full_cell(i, n):
    """A lake with a cell that is full, toward which a cell beside it runs."""
    j = i + 1 if i + 1 < n else i - 1
    return ([m.DEEPEST] * n, [60000 * (i - j) if k == j else 0 for k in range(n)], [0 if k == i else 1000 for k in range(n)])


def full_flow(i, n, way):
    """Deep water that runs as fast as it may, a unit less deep in one cell, which so gains more than it gives on."""
    return [m.DEEPEST - (k == i) for k in range(n)], [way * m.GREATEST_Q] * n, [0] * n


def every_place():
    n = 5
    still, calm, flat = [1000] * n, [0] * n, [0] * n
    cells = range(n)
    case("places: 3 at each bed value", [step(still, calm, with_one(flat, i, z)) for z in (-1, 1048577) for i in cells],
         [("refused", 3, i) for i in cells] * 2)
    case("places: 4 at each cell", [step(still, calm, flat, friction=with_one(flat, i, 201)) for i in cells],
         [("refused", 4, i) for i in cells])
    case("places: 5 at each cell, by depth and by discharge",
         [step(with_one(still, i, e), with_one(calm, i, q), flat) for e, q in ((-1, 0), (262145, 0), (1000, 8388609)) for i in cells],
         [("refused", 5, i) for i in cells] * 3)
    case("places: 6 at each cell", [step(still, with_one(calm, i, q), flat) for q in (32008, -32008) for i in cells],
         [("refused", 6, i) for i in cells] * 2)
    # two cells that are deep show all of it to each other, and one at an end to its end
    faces = {0: {0}, 2: {1, 2}, 3: {2, 3}, 4: {3, 4}, 5: {4}}
    case("places: 7 at faces of still water", [step(*lake_with(low, n), dt=654) for low in faces.values()],
         [("refused", 7, k) for k in faces])
    case("places: the same with a dt of 653", {step(*lake_with(low, n), dt=653)[0] for low in faces.values()}, {"accepted"})
    case("places: 7 at each inner face, water beside dry ground",
         [step([4096] * k + [0] * (n - k), calm, flat, dt=327) for k in range(1, n)], [("refused", 7, k) for k in range(1, n)])
    case("places: 8 at each cell, by depth", [step(*full_cell(i, n), dx=1000, dt=1) for i in cells], [("refused", 8, i) for i in cells])
    open_ends = m.OPEN, m.OPEN
    case("places: 8 at each cell, by discharge",
         [step(*full_flow(i, n, 1), dx=1000, dt=1, ends=open_ends) for i in range(1, n)]
         + [step(*full_flow(i, n, -1), dx=1000, dt=1, ends=open_ends) for i in range(n - 1)],
         [("refused", 8, i) for i in [*range(1, n), *range(n - 1)]])
    case("places: 8 of one cell", step([m.DEEPEST], [60000], [0], dx=1000, dt=1, ends=(m.OPEN, m.WALL)), ("refused", 8, 0))
    case("places: of several the lowest", [
        step(still, calm, [0, -1, 0, 1048577, -1]), step(still, calm, flat, friction=[0, 0, 201, 999, 0]),
        step([1000, 1000, 1000, -1, -1], calm, flat), step(still, [0, 40000, 0, -40000, 0], flat),
        step([4096] * n, calm, [3000, 0, 0, 0, 0], dt=654)],
        [("refused", number, place) for number, place in ((3, 1), (4, 2), (5, 3), (6, 1), (7, 2))])


def undried_eight():
    """Water without a speed that has the greatest discharge and is pushed further: too much, unless it is dried."""
    def pushed(deep, idle, dry):
        levels, discharges = [0, 0, 0], [0, 0, 0]
        levels[deep], discharges[idle] = 4096, (idle - deep) * m.GREATEST_Q
        return step(levels, discharges, [0, 0, 0], dt=1, dry=dry)
    for deep, idle in ((0, 1), (1, 2), (1, 0), (2, 1)):
        answer = pushed(deep, idle, DRY)
        case("8: cell %d, pushed by cell %d, is dried before it is looked at, and refused where it is not dried" % (idle, deep),
             (answer[0], answer[1][3 + idle], pushed(deep, idle, 1)), ("accepted", 0, ("refused", 8, idle)))


def order():
    """A call that every check refuses, and what the next one says when a fault is taken away."""
    good = dict(now=[4096, 0, 1000, 1000, 1000, 0, m.GREATEST_Q, 0, 0, 0], next_len=10, bed=[0] * 5, friction=[0] * 5,
                dx=4096, dt=1, dry=1, left=m.WALL, right=m.OPEN)
    faults = (1, 0, dict(next_len=9)), (2, 0, dict(left=m.INFLOW)), (3, 4, dict(bed=[0, 0, 0, 0, -1])), \
        (4, 2, dict(friction=[0, 0, 201, 0, 0])), (5, 3, lambda c: dict(now=with_one(c["now"], 3, -1))), \
        (6, 4, lambda c: dict(now=with_one(c["now"], 9, 40000))), (7, 1, dict(dt=500))
    found = []
    for first in range(len(faults) + 1):
        c = dict(good)
        for _, _, fault in faults[first:]:
            c.update(fault(c) if callable(fault) else fault)
        found.append(sill.step(*(c[name] for name in sill_hard.ORDER)))
    case("order: each check before those behind it", found,
         [("refused", number, place) for number, place, _ in faults] + [("refused", 8, 1)])


# ---- Readings that are not E10's

def wrong_readings():
    """Each by what is wrong with it."""
    face_bed, shown_speed, friction = sill.face_bed, sill.shown_speed, sill.after_friction

    def no_deeper(cell, z):
        """So that the face has an answer where the lower bed shows it more than there is."""
        return max(0, min(m.DEEPEST, cell.e - z))

    def neighbour_at_end(bed, k):
        return max(bed[:2]) if k == 0 else max(bed[-2:]) if k == len(bed) else face_bed(bed, k)

    def shown_alone(cell, i, k, call):
        return m.speed(cell.q, sill.shown_depth(cell, sill.face_bed(call.bed, k)), call.dry)

    def none_at_depth_0(cell, i, k, call):
        return shown_speed(cell, i, k, call) if sill.shown_depth(cell, sill.face_bed(call.bed, k)) else 0

    def one_division(E, left, right, call):
        return m.quo((819200 * (left.A - right.A) + 981 * E) * call.dt, 819200 * call.dx)

    def one_volume(cells, i, left, right, call):
        hl, hr = (sill.shown_depth(cells[i], sill.face_bed(call.bed, k)) for k in (i, i + 1))
        return sill.Cell(cells[i].e + m.quo((left.F - right.F) * call.dt, call.dx),
                         cells[i].q + sill.gain(sill.push(hl, hr, left, right), left, right, call))

    def face_by_face(cells, i, left, right, call):
        hl, hr = (sill.shown_depth(cells[i], sill.face_bed(call.bed, k)) for k in (i, i + 1))
        none = m.Flux(0, 0, 0, 0)
        apart = sill.gain(left.K - hl * hl, none, none, call) - sill.gain(right.K - hr * hr, none, none, call)
        return sill.Cell(cells[i].e + sill.volume(left.F, call) - sill.volume(right.F, call),
                         cells[i].q + m.quo((left.A - right.A) * call.dt, call.dx) + apart)

    def checked_first(old, new, call):
        sill.check_range(new, call, 8, "end state")
        return [sill.dried(o, c, z, call.dry) for o, c, z in zip(old, new, call.bed)]

    def rubbed_by_shown(cells, call):
        """Friction by the lesser of the depths that the cell shows."""
        friction(cells, call)       # which refuses what is too fast
        depths = [min(sill.shown_depth(c, sill.face_bed(call.bed, k)) for k in (i, i + 1)) for i, c in enumerate(cells)]
        slow = (m.friction(c.q, 0, h, f, call.dt, call.dry) for c, h, f in zip(cells, depths, call.friction))
        return [c._replace(q=s[1]) if s else c for c, s in zip(cells, slow)]

    return {
        "the lower bed at a face": dict(face_bed=lambda bed, k: min(bed[max(0, k - 1):k + 1]), shown_depth=no_deeper),
        "the neighbour's bed at an end": dict(face_bed=neighbour_at_end),
        "the speed of the depth that is shown": dict(shown_speed=shown_alone),
        "no speed where no depth is shown": dict(shown_speed=none_at_depth_0),
        "E without the square on the left": dict(push=lambda hl, hr, left, right: left.K - right.K + hr * hr),
        "E without the square on the right": dict(push=lambda hl, hr, left, right: left.K - hl * hl - right.K),
        "E without either": dict(push=lambda hl, hr, left, right: left.K - right.K),
        "one division for both gains": dict(gain=one_division),
        "E divided face by face": dict(updated=face_by_face),
        "one division for both volumes": dict(updated=one_volume),
        "V rounded downward": dict(volume=lambda F, call: F * call.dt // call.dx),
        "dried by the old depth": dict(dried=lambda old, new, z, dry: new._replace(q=0) if old.e - z <= dry else new),
        "dried below the dry depth alone": dict(dried=lambda old, new, z, dry: new._replace(q=0) if new.e - z < dry else new),
        "not dried": dict(dried=lambda old, new, z, dry: new),
        "8 of what is not yet dried": dict(ended=checked_first),
        "no friction": dict(after_friction=lambda cells, call: (sill.check_friction_speeds(cells, call), cells)[1]),
        "friction by a depth that is shown": dict(after_friction=rubbed_by_shown),
        "an odd bed refused": dict(check_bed=m.check_bed),
    }


def wrong_readings_differ(seed, count):
    """Each is told from the right one by some of the random calls, the answers of the one beside those of the other."""
    calls = list(sill_hard.calls(seed, count))
    right = [sill.step(*call) for call in calls]
    for name, rules in wrong_readings().items():
        with before.replaced(sill, **rules):
            otherwise = (k for k, call in enumerate(calls) if sill.step(*call) != right[k])
            found = list(itertools.islice(otherwise, 5))
        case("told apart: %s, five times in the first %d random calls" % (name, 1 + max(found, default=-1)), len(found), 5)


# ---- The second writing, on random calls

CHECKS = {(1, "lengths"), (2, "numbers"), (3, "bed"), (4, "friction"), (5, "present state"), (6, "friction speed"),
          (7, "faces"), (8, "end state")}


def places_hold(seed, count):
    wrong, several, seen, answers = 0, Counter(), Counter(), Counter()
    for call in sill_hard.calls(seed, count):
        (refused, given), last = told_apart(call), sill_places.last_check(call)
        answer = ("refused", refused[0], given) if refused else ("accepted", *given)
        wrong += answer != sill_places.told(last) or bool(refused and refused[1] != last.name)
        answers[refused] += 1
        if refused:
            several[refused[0]] += len(last.indices) > 1
            seen[refused[1], sill_places.position(refused[1], given, len(call[3]))] += 1
    case("second writing: the same answer, and the lowest of all places, in %d calls, %d accepted; of several for 3 to 8: %s"
         % (count, answers[None], ", ".join(str(several[k]) for k in range(3, 9))),
         (wrong, [k for k in range(3, 9) if several[k] == 0]), (0, []))
    case("second writing: every check refused some call and half were accepted; none was refused for the speed at a face",
         ((CHECKS | {None}) ^ set(answers), 2 * answers[None] >= count), (set(), True))
    case("second writing: every check with a place came at the first, a middle and the last index",
         sorted({(name, position) for number, name in CHECKS for position in POSITIONS if number > 2} - set(seen)), [])


def never_faster(seed, count):
    """Why the check of the face speeds is never met: friction leaves no cell faster than it was."""
    rnd, faster, fastest, rubbed = random.Random(seed), 0, 0, 0
    for _ in range(count):
        dry = hard.dry_depths(rnd)
        h = rnd.choice((dry + 1, rnd.randint(dry + 1, dry + 40), rnd.randint(dry + 1, 4000), rnd.randint(dry + 1, m.DEEPEST)))
        most = min(m.GREATEST_Q, hard.fastest_inflow(h))
        q = rnd.choice((-1, 1)) * rnd.choice((most, most - rnd.randint(0, min(most, 40)), rnd.randint(0, most)))
        x, slow, _ = m.friction(q, 0, h, rnd.choice((0, 1, rnd.randint(0, 200), 200)), rnd.randint(1, 4096), dry)
        faster += abs(m.speed(slow, h, dry)) > abs(m.speed(q, h, dry)) or slow * q < 0
        fastest += abs(m.speed(q, h, dry)) == m.FASTEST
        rubbed += slow != q
    case("6 at a face: of %d cells friction makes none faster or turns it round; %d at the greatest speed, %d slowed"
         % (count, fastest, rubbed), (faster, 10 * fastest >= count, 3 * rubbed >= count), (0, True, True))


# ---- Demand 3, and the other end

def water(now, bed):
    return sum(now[:len(bed)]) - sum(bed)


def watched(check_range, seen):
    """check_range, noting a depth below nought in the end state."""
    def check_(cells, call, number, name):
        if number == 8:
            seen["depths"] += len(cells)
            seen["below"] += sum(sill.depth(c, z) < 0 for c, z in zip(cells, call.bed))
        check_range(cells, call, number, name)
    return check_


def hidden(call):
    """How many sides of inner faces show no depth, though their cell has some: the step is higher than the water is deep."""
    n, bed, cells = len(call[3]), call[2], sill.cells_of(call[0])
    return sum(sill.shown_depth(cells[i], sill.face_bed(bed, k)) == 0 < sill.depth(cells[i], bed[i])
               for k in range(1, n) for i in (k - 1, k))


def calls_hold(seed, count):
    seen, unbalanced, leaking = Counter(), 0, 0
    with before.replaced(sill, check_range=watched(sill.check_range, seen)):
        for call in sill_hard.calls(seed, count):
            answer, (left, right) = sill.step(*call), call[7:]
            if answer[0] == "accepted":
                _, new, V0, Vn = answer
                unbalanced += water(new, call[2]) != water(call[0], call[2]) + V0 - Vn
                leaking += (left == m.WALL and V0 != 0) or (right == m.WALL and Vn != 0)
                seen["accepted"] += 1
                seen["hidden"] += hidden(call) > 0
    case("demand 3: water sum over %d accepted of %d random calls, %d with a step higher than the water beside it is deep"
         % (seen["accepted"], count, seen["hidden"]), (unbalanced, 10 * seen["hidden"] >= count), (0, True))
    case("demand 3: nothing passes a wall, same calls", leaking, 0)
    case("demand 3: no depth below nought in %d cells of end states, refused ones too" % seen["depths"], seen["below"], 0)


def rest_holds(seed, count):
    rnd, seen, wrong = random.Random(seed), Counter(), 0
    for _ in range(count):
        n = rnd.choice((1, 2, 3, 5, 16))
        now, bed = sill_hard.at_rest(rnd, n)
        dx = rnd.choice((1, 4096, rnd.randint(1, m.LONGEST_DX)))
        seen["not at rest"] += not sill_hard.rests(now, bed)
        seen["dry ground"] += any(e == z for e, z in zip(now, bed))
        seen["levels"] += len({e for e, z in zip(now, bed) if e > z}) > 1
        seen["sills"] += any(now[i] == now[i + 1] and bed[i] != bed[i + 1] for i in range(n - 1))
        for _ in range(3):
            friction, dry, kinds = [rnd.randint(0, 200) for _ in range(n)], hard.dry_depths(rnd), (rnd.randrange(2), rnd.randrange(2))
            answer = sill.step(now, 2 * n, bed, friction, dx, rnd.choice((1, rnd.randint(1, m.LONGEST_DT))), dry, *kinds)
            seen["accepted"] += answer[0] == "accepted"
            wrong += answer != ("accepted", now, 0, 0) and answer[:2] != ("refused", 7)
    case("demand 3: a lake at rest keeps every number or is refused with 7, %d accepted of %d steps" % (seen["accepted"], 3 * count),
         (wrong, seen["not at rest"]), (0, 0))
    case("lakes: half accepted; over sills %d, with dry ground %d, pools of several levels %d, each in a fifth"
         % (seen["sills"], seen["dry ground"], seen["levels"]),
         2 * seen["accepted"] >= 3 * count and 5 * min(seen["sills"], seen["dry ground"], seen["levels"]) >= count, True)


def turned_table(table, n):
    return table[:n][::-1] + [-q for q in table[n:][::-1]]


def turned(call):
    """The call as surveyed from the other end: E9 does not ask for it here, but the rules have no side."""
    now, next_len, bed, friction, dx, dt, dry, left, right = call
    return turned_table(now, len(friction)), next_len, bed[::-1], friction[::-1], dx, dt, dry, right, left


def turned_answer(answer):
    if answer[0] == "refused":
        return answer[:2]
    _, table, V0, Vn = answer
    return "accepted", turned_table(table, len(table) // 2), -Vn, -V0


def turning_holds(seed, count):
    wrong, seen = 0, Counter()
    for call in sill_hard.calls(seed, count):
        if len(call[0]) == 2 * len(call[3]) and -hard.I32 not in call[0][len(call[3]):]:
            answer, other = sill.step(*call), sill.step(*turned(call))
            wrong += before.bare(other) != turned_answer(answer)
            seen[answer[1] if answer[0] == "refused" else 0] += 1
    case("from the other end: the turned answer or the same number, in %d calls; accepted and refused with 2 to 8: %s"
         % (sum(seen.values()), ", ".join(str(seen[k]) for k in (0, *range(2, 9)))),
         (wrong, [k for k in (0, *range(2, 9)) if 150 * seen[k] < count]), (0, []))


def runs_hold(seed, count):
    """Several steps of one bed, n and dx; dt, dry depth, friction and ends differ from step to step."""
    rnd, seen, wrong = random.Random(seed), Counter(), 0
    with before.replaced(sill, check_range=watched(sill.check_range, seen)):
        for _ in range(count):
            bed, now = sill_hard.run_reach(rnd, rnd.choice((1, 2, 3, 16)))
            dx, begun, brought = rnd.randint(1, 60000), water(now, bed), 0
            for _ in range(12):
                answer = sill.step(*sill_hard.run_call(rnd, now, bed, dx))
                if answer[0] == "refused":
                    seen["refused"] += 1
                    break
                _, now, V0, Vn = answer
                brought += V0 - Vn
                seen["steps"] += 1
            wrong += water(now, bed) != begun + brought
    case("demand 3: water sum over runs, %d accepted steps in %d runs, and %d refused" % (seen["steps"], count, seen["refused"]),
         (wrong, seen["steps"] >= 6 * count, 20 * seen["refused"] >= count), (0, True, True))
    case("demand 3: no depth below nought in their %d cells, refused ones too" % seen["depths"], seen["below"], 0)


def main():
    worked_by_hand()
    dried_by_hand()
    lakes()
    lists()
    lengths()
    every_place()
    undried_eight()
    order()
    wrong_readings_differ(21, 3000)
    places_hold(22, 5000)
    never_faster(23, 20000)
    calls_hold(24, 4000)
    rest_holds(25, 800)
    turning_holds(26, 3000)
    runs_hold(27, 300)
    print("%d passed, %d failed" % (check.passed, check.failed))
    return 1 if check.failed else 0


if __name__ == "__main__":
    sys.exit(main())
