"""Seeded random calls of the step over a stepped bed, chosen to be hard, as hard.py's are for the other reach.

calls(seed, count) yields the arguments of sill.step.  at_rest draws a state at rest; run_reach draws a reach to be
stepped several times, run_call each of its calls.  Every table value fits its lent type, every other argument a u32.

Run as a script it prints how the answers are spread:  sill_hard.py [seed [count]]
"""

import random
import sys
import time
from collections import Counter

import hard
import model as m
import sill
from hard import I32, with_cell


# ---- Beds: one value a cell, odd ones too

def within_bed(z):
    return max(0, min(m.HIGHEST_BED, z))


def flat(rnd, n):
    return [rnd.randint(0, m.HIGHEST_BED)] * n


def rolling(rnd, n):
    most, bed = rnd.choice((1, 8, 80, 2000)), [rnd.randint(0, m.HIGHEST_BED)]
    while len(bed) < n:
        bed.append(within_bed(bed[-1] + rnd.randint(-most, most)))
    return bed


def weirs(rnd, n):
    """A floor with sills on it, each a cell long."""
    floor, high = rnd.randrange(40000), rnd.choice((60, 900, 6000, 30000))
    return [floor + (rnd.randint(1, high) if rnd.randrange(3) == 0 else 0) for _ in range(n)]


def stairs(rnd, n):
    """Down, or up, by a step at every few cells."""
    bed, fall = [rnd.randint(0, 30000)], rnd.randint(1, 4000)
    while len(bed) < n:
        bed.append(within_bed(bed[-1] + (fall if rnd.randrange(2) else 0)))
    return bed[::rnd.choice((-1, 1))]


def anywhere(rnd, n):
    return [rnd.randint(0, m.HIGHEST_BED) for _ in range(n)]


def limits(rnd, n):
    return [rnd.choice((0, 0, 1, m.HIGHEST_BED, m.HIGHEST_BED - 1)) for _ in range(n)]


BEDS = (flat, rolling, rolling, weirs, weirs, weirs, stairs, anywhere, limits)


def beds(rnd, n):
    return rnd.choice(BEDS)(rnd, n)


# ---- Cells, given as depth and discharge

def idle(rnd, fast, dry):
    """Water without a speed that has about the greatest discharge, so that any push would be too much if it is not dried."""
    return rnd.randint(0, dry), rnd.choice((-1, 1)) * (m.GREATEST_Q - rnd.choice((0, 0, 1)))


def sloped(kind):
    """The mean depth and discharge of one of hard.py's kinds."""
    def cell(rnd, fast, dry):
        h, _, q, _ = kind(rnd, fast, dry)
        return h, q
    return cell


MIXES = tuple(tuple(map(sloped, mix)) for mix in hard.MIXES)
MIXES += ((idle, sloped(hard.ordinary), sloped(hard.shallow)), (idle, sloped(hard.ordinary)))


def placed(z, h, q):
    """The cell's two numbers over its bed, brought within the present state's range."""
    return [z + max(0, min(m.DEEPEST, h)), max(-m.GREATEST_Q, min(m.GREATEST_Q, q))]


def columns(cells):
    """A state of some cells: the levels, then the discharges."""
    return [number for column in zip(*cells) for number in column]


# ---- States

def lake(rnd, bed):
    """One level over every cell that it covers, dry ground elsewhere; sometimes one cell moves."""
    low, high = min(bed), max(bed)
    level = min(low + m.DEEPEST, rnd.choice((high, high + rnd.randrange(5000), rnd.randint(low, high))))
    cells = [[max(level, z), 0] for z in bed]
    if rnd.randrange(2):
        cells[rnd.randrange(len(bed))][1] = rnd.randint(-3, 3)
    return columns(cells)


def about_steps(rnd, bed, dry):
    """Water about as deep as the step to a neighbour is high, so that a side shows nothing, or hardly anything."""
    fast, cells = rnd.choice((0, 2000, 9000, 30000)), []
    for i, z in enumerate(bed):
        step = max(0, bed[max(0, min(len(bed) - 1, i + rnd.choice((-1, 1))))] - z)
        h = rnd.choice((step, step + rnd.choice((-1, 1, 3, 60)), rnd.randint(0, step + 300)))
        cells.append(placed(z, h, h * rnd.randint(-fast, fast) // m.UNIT))
    return columns(cells)


def mixed(rnd, bed, dry):
    mix, fast = rnd.choice(MIXES), rnd.choice((0, 60, 2000, 2000, 9000, 30000, m.FASTEST))
    return columns([placed(z, *rnd.choice(mix)(rnd, fast, dry)) for z in bed])


def states(rnd, bed, dry):
    how = rnd.randrange(12)
    if how == 0:
        return lake(rnd, bed)
    return about_steps(rnd, bed, dry) if how < 5 else mixed(rnd, bed, dry)


def gentle(rnd, n):
    """A reach with nothing extreme in it but low sills, as a long random one is refused nearly always."""
    floor, deep, fast = rnd.randrange(40000), rnd.randint(300, 12000), rnd.choice((200, 3000))
    bed = [floor + rnd.randint(0, 40) + (deep // 4 if rnd.randrange(20) == 0 else 0) for _ in range(n)]
    level = floor + deep
    return bed, columns([placed(z, level + rnd.randint(-deep // 20, deep // 20) - z,
                                (level - z) * rnd.randint(-fast, fast) // m.UNIT) for z in bed])


# ---- dx and dt, chosen against the state

def greatest_S(now, bed, friction, dt, dry, left, right):
    """The greatest S, or None where the state is refused earlier."""
    call = sill.Call(len(friction), bed, friction, m.LONGEST_DX, dt, dry, left, right)
    try:
        cells = sill.cells_of(now)
        sill.check_range(cells, call, 5, "")
        slow = sill.after_friction(cells, call)
        # a dt of nought keeps check 7 silent while S is looked for
        return max(f.S for f in sill.fluxes(slow, call._replace(dt=0)))
    except m.Refused:
        return None


def lengths_and_times(rnd, *reach):
    """dx and dt at the limit of check 7, a little beside it, well within it, or free."""
    now, bed, friction, dry, left, right = reach
    dt = hard.times(rnd)
    dx, dt = hard.beside_S(rnd, dt, greatest_S(now, bed, friction, dt, dry, left, right))
    return max(1, min(m.LONGEST_DX, dx)), dt


# ---- Faults, one or several at once, so that their order is tried

def fault_lengths(rnd, c):
    how, n = rnd.randrange(9), len(c["friction"])
    if how == 0:
        c["next_len"] = rnd.choice((0, 1, c["next_len"] + 1, c["next_len"] - 1, 2 * c["next_len"]))
    elif how == 1:
        c["now"] = c["now"][:-1]
    elif how == 2:
        c["now"] = c["now"] + [0]
    elif how == 3:
        c["bed"] = c["bed"][:-1]
    elif how == 4:
        c["bed"] = c["bed"] + [0]
    elif how == 5:
        c["friction"] = []
    elif how == 6:
        c["friction"] = c["friction"] + [0]
    elif how == 7:
        # what the other reach is lent
        c["now"], c["next_len"], c["bed"] = c["now"] + [0] * (2 * n), 4 * n, c["bed"] + [0]
    else:
        # every table fits, but there is no cell or one too many
        n = rnd.choice((0, m.MOST_CELLS + 1))
        c["friction"], c["bed"], c["now"], c["next_len"] = [0] * n, [0] * n, [0] * (2 * n), 2 * n


BEYOND = {"dx": (0, m.LONGEST_DX + 1, I32 - 1), "dt": (0, m.LONGEST_DT + 1, 65535),
          "dry": (m.LEAST_DRY - 1, m.MOST_DRY + 1, 2 * I32 - 1), "left": (m.INFLOW, m.INFLOW, 3, 255, 2 * I32 - 1)}
BEYOND["right"] = BEYOND["left"]


def fault_numbers(rnd, c):
    name = rnd.choice(sorted(BEYOND))
    c[name] = rnd.choice(BEYOND[name])


def fault_bed(rnd, c):
    bed = list(c["bed"])
    for i in hard.spots(rnd, len(bed)):
        bed[i] = rnd.choice((-1, -2, m.HIGHEST_BED + 1, m.HIGHEST_BED + 2, -I32, I32 - 1))
    c["bed"] = bed


def out_of_range(rnd, z):
    """A cell with its depth or discharge one beyond its range, or as wide as an i32."""
    return rnd.choice(((z - 1, 0), (z + m.DEEPEST + 1, 0), (z, m.GREATEST_Q + 1), (z + m.DEEPEST, -m.GREATEST_Q - 1),
                       (rnd.choice((-I32, I32 - 1)), 0), (z, rnd.choice((-I32, I32 - 1)))))


def fault_range(rnd, c):
    for i in hard.spots(rnd, len(c["bed"])):
        c["now"] = with_cell(c["now"], len(c["bed"]), i, out_of_range(rnd, c["bed"][i]))


def fault_speed(rnd, c):
    """A cell just beyond the limit of speed, or at it."""
    for i in hard.spots(rnd, len(c["bed"])):
        h = rnd.randint(c["dry"] + 1, 3000)
        q = rnd.choice((-1, 1)) * (32 * h + h // m.UNIT + rnd.choice((0, 1, 1, 1)))
        c["now"] = with_cell(c["now"], len(c["bed"]), i, placed(c["bed"][i], h, q))


FAULTS = (fault_lengths, fault_numbers, fault_bed, hard.fault_friction, fault_range, fault_speed)


def spoiled(rnd, c):
    # speeds and ranges are set by the bed and the dry depth as they are, so those are spoilt after them
    chosen = rnd.sample(FAULTS + (fault_numbers,), rnd.choice((1, 1, 2, 3)))
    for fault in sorted(chosen, key=FAULTS.index, reverse=True):
        fault(rnd, c)
    return c


# ---- Whole calls

ORDER = ("now", "next_len", "bed", "friction", "dx", "dt", "dry", "left", "right")


def reach_of(rnd, n, dry):
    if rnd.randrange(4) < (3 if n > 16 else 0):
        return gentle(rnd, n)
    bed = beds(rnd, n)
    return bed, states(rnd, bed, dry)


def brimming(rnd, c):
    """A lake with a cell of the greatest depth, and what may fill it further: a cell beside it that runs toward it, or is higher."""
    n = len(c["friction"])
    if n == 1:
        c["left"], c["now"], c["bed"] = m.OPEN, [m.DEEPEST, rnd.randint(1, 90000)], [0]
    else:
        i, step = hard.spot(rnd, n), rnd.randint(1, 9000)
        c["bed"] = [0 if k == i else step for k in range(n)]
        cells = [[m.DEEPEST + (0 if k == i else rnd.choice((0, rnd.randint(1, step)))), 0] for k in range(n)]
        j = i + (1 if i == 0 or (i < n - 1 and rnd.randrange(2)) else -1)
        cells[j][1] = (i - j) * rnd.choice((0, rnd.randint(1, 90000)))
        c["now"] = columns(cells)
    c["dx"], c["dt"] = rnd.randint(200, 4000), rnd.randint(1, 3)


def pushed(rnd, c):
    """Water without a speed and with about the greatest discharge, beside deeper water that pushes it on, by little."""
    n, dry = len(c["friction"]), c["dry"]
    c["bed"] = [rnd.randrange(3)] * n
    i = hard.spot(rnd, n)
    j = i + (1 if i == 0 or (i < n - 1 and rnd.randrange(2)) else -1)
    cells = [placed(c["bed"][0], rnd.randint(0, dry), 0) for _ in range(n)]
    cells[i][1] = (i - j) * (m.GREATEST_Q - rnd.choice((0, 0, 1)))
    if n > 1:
        cells[j][0] = c["bed"][0] + rnd.randint(dry, 6000)
    c["now"], c["dx"], c["dt"] = columns(cells), rnd.randint(2000, 9000), rnd.randint(1, 4)


def lock(rnd, c):
    """A lake over a high bed with one deep cell, or two beside each other: their face, or the end that they are at, has the
    greatest S, and the time step is just too long for it, or just not."""
    n = len(c["friction"])
    i, level = hard.spot(rnd, n), rnd.randint(2000, 40000)
    low = {i} if i in (0, n - 1) else {i, i + 1}
    c["bed"] = [0 if k in low else rnd.randint(level // 2, level) for k in range(n)]
    c["now"] = [level] * n + [0] * n
    S = m.wave_speed(level)
    c["dx"] = max(1, -(-2 * c["dt"] * S // m.UNIT) - rnd.randrange(2))


def far_call(rnd):
    """A long reach that nothing but a fault refuses: so its place may be far along (E13)."""
    n, dry = rnd.choice((hard.SHORT_CELLS + 1, 300, m.MOST_CELLS)), hard.dry_depths(rnd)
    bed, now = gentle(rnd, n)
    c = dict(now=now, next_len=2 * n, bed=bed, friction=hard.roughnesses(rnd, n), dx=m.UNIT, dt=1, dry=dry,
             left=rnd.randrange(2), right=rnd.randrange(2))
    rnd.choice((fault_bed, hard.fault_friction, fault_range, fault_speed))(rnd, c)
    return c


def hard_call(rnd):
    if rnd.randrange(120) == 0:
        return far_call(rnd)
    n, dry, left, right = hard.number_of_cells(rnd), hard.dry_depths(rnd), rnd.randrange(2), rnd.randrange(2)
    bed, now = reach_of(rnd, n, dry)
    friction = hard.roughnesses(rnd, n)
    dx, dt = lengths_and_times(rnd, now, bed, friction, dry, left, right)
    c = dict(now=now, next_len=2 * n, bed=bed, friction=friction, dx=dx, dt=dt, dry=dry, left=left, right=right)
    if n <= 16 and rnd.randrange(10) == 0:
        rnd.choice((brimming, pushed, lock))(rnd, c)
    return spoiled(rnd, c) if rnd.randrange(6) == 0 else c


def calls(seed, count):
    rnd = random.Random(seed)
    for _ in range(count):
        c = hard_call(rnd)
        yield tuple(c[name] for name in ORDER)


# ---- Rest: no discharge, and at each inner face both sides show one depth

def at_rest(rnd, n):
    """Pools over sills and beside islands; two pools of other levels stand beside each other where dry ground parts them.

    A shore is where the next bed is no lower than the level: that cell is dry, or the pool goes on over it.
    """
    level, bed, levels = rnd.randint(0, m.HIGHEST_BED), [], []
    for _ in range(n):
        if bed and levels[-1] == bed[-1] and rnd.randrange(2):      # beyond dry ground a pool of its own begins
            level = rnd.randint(0, bed[-1])
        least = max(0, level - rnd.choice((m.DEEPEST, 20000, 40)))   # the last, with depths about a dry depth
        z = rnd.randint(least, min(level, m.HIGHEST_BED)) if rnd.randrange(4) else rnd.randint(min(level, m.HIGHEST_BED), m.HIGHEST_BED)
        bed.append(z)
        levels.append(max(z, level))
    return levels + [0] * n, bed


def rests(now, bed):
    """Whether a state is at rest."""
    cells = sill.cells_of(now)
    return all(c.q == 0 for c in cells) and all(
        sill.shown_depth(cells[k - 1], sill.face_bed(bed, k)) == sill.shown_depth(cells[k], sill.face_bed(bed, k))
        for k in range(1, len(bed)))


# ---- Runs: a reach, and one call after another from what the one before wrote

def run_reach(rnd, n):
    """A bed of sills and a state over it: ordinary water, or water about as deep as the dry depths are."""
    least, most, fast, high = rnd.choice(((600, 9000, 4000, 3000), (0, 9000, 2000, 6000), (0, 90, 2000, 60)))
    bed = [rnd.randint(0, high) for _ in range(n)]
    cells = []
    for z in bed:
        h = rnd.randint(least, most)
        cells.append(placed(z, h, h * rnd.randint(-fast, fast) // m.UNIT))
    return bed, columns(cells)


def run_call(rnd, now, bed, dx):
    """A step from some state, with its own dt, dry depth, friction and ends."""
    n = len(bed)
    friction = [rnd.randint(0, 60) for _ in range(n)]
    dt = rnd.randint(1, 1 + dx // rnd.choice((6, 20)) % m.LONGEST_DT)
    return now, 2 * n, bed, friction, dx, dt, hard.dry_depths(rnd), rnd.randrange(2), rnd.randrange(2)


# ---- Statistics

def answered(call):
    try:
        sill.worked(*call)
        return "accepted"
    except m.Refused as r:
        return "%d %s" % (r.number, r.check)


def main():
    seed = int(sys.argv[1]) if len(sys.argv) > 1 else 1
    count = int(sys.argv[2]) if len(sys.argv) > 2 else 4000
    start = time.time()
    made = list(calls(seed, count))
    middle = time.time()
    by_answer, by_n = Counter(), Counter()
    for call in made:
        answer = answered(call)
        by_answer[answer] += 1
        if answer == "accepted":
            by_n[len(call[3])] += 1
    for answer in sorted(by_answer):
        print("%6d  %5.1f %%  %s" % (by_answer[answer], 100 * by_answer[answer] / count, answer))
    print("accepted by number of cells: " + ", ".join("%d: %d" % (n, by_n[n]) for n in sorted(by_n)))
    print("%d calls of seed %d: made in %.1f s, answered in %.1f s"
          % (count, seed, middle - start, time.time() - middle))


if __name__ == "__main__":
    main()
