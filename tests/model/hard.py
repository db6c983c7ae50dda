"""Seeded random calls chosen to be hard, to compare the library with the model.

calls(seed, count) yields the arguments of model.step, faces(seed, count) those of
model.face.  run_reach draws a reach to be stepped several times, run_call each of its calls.
Every table value fits its lent type (i32, u16), every other argument of the step a u32 and of a
face an i32, so that each call can be made of the library.

Run as a script it prints how the answers are spread:  hard.py [seed [count]]
"""

import itertools
import random
import sys
import time
from collections import Counter
from math import gcd

import model as m

I32 = 2 ** 31
SHORT_CELLS = 128       # the longest reach that the library works on short tables


# ---- Indices

def spot(rnd, count):
    """The first of so many indices, the last, or any."""
    return rnd.choice((0, count - 1, rnd.randrange(count)))


def spots(rnd, count):
    """One index or two, as of several the lowest is a refusal's place (E13)."""
    return [spot(rnd, count) for _ in range(rnd.choice((1, 1, 2)))] if count else []


# ---- Dry depths

def dry_depths(rnd):
    """That of before E3, one beside it or at an end of the list, or any."""
    return rnd.choice((4, rnd.choice((1, 2, 3, 5, 63, 64)),
                       rnd.randint(m.LEAST_DRY, m.MOST_DRY), rnd.randint(m.LEAST_DRY, m.MOST_DRY)))


def about(rnd, dry):
    """A depth just above the dry depth, just below, or the same."""
    return rnd.randint(dry - 1, dry + 2)


# ---- Beds

def beds(rnd, n):
    """n + 1 even face values: flat, rolling, broken, steep, or the limits in turn."""
    kind = rnd.choice((0, 0, 1, 2, 1, 2, 3, 3, 4, 5))
    if kind == 0:
        return [2 * rnd.randrange(m.HIGHEST_BED // 2 + 1)] * (n + 1)
    if kind in (1, 2):
        most = rnd.choice((1, 4, 40, 1000))
        z = [2 * rnd.randrange(m.HIGHEST_BED // 2 + 1)]
        for _ in range(n):
            z.append(min(m.HIGHEST_BED, max(0, z[-1] + 2 * rnd.randint(-most, most))))
        return z
    if kind == 3:
        low = 2 * rnd.randrange(20000)
        return [low + 2 * rnd.randrange(3000) * rnd.randrange(2) for _ in range(n + 1)]
    if kind == 4:
        return [2 * rnd.randrange(m.HIGHEST_BED // 2 + 1) for _ in range(n + 1)]
    return [rnd.choice((0, 0, 2, m.HIGHEST_BED, m.HIGHEST_BED - 2)) for _ in range(n + 1)]


# ---- Cells of a reach with some dry depth, given as depth mean and slope, discharge mean and slope

def flowing(rnd, h0, h1, fast):
    """Discharges that give each face a speed of at most about `fast`."""
    ql = (h0 - h1) * rnd.randint(-fast, fast) // m.UNIT
    qr = (h0 + h1) * rnd.randint(-fast, fast) // m.UNIT
    if rnd.randrange(3) == 0:           # one direction, as in a steady flow
        qr = (h0 + h1) * ql // max(1, h0 - h1)
    q0 = (ql + qr) // 2
    return h0, h1, q0, qr - q0 if rnd.randrange(4) else 0


def still_bed(rnd, fast, dry):
    """Depth 0; sometimes with a discharge that no face can show."""
    if rnd.randrange(8):
        return 0, 0, 0, 0
    return 0, 0, rnd.randint(-m.GREATEST_Q // 2, m.GREATEST_Q // 2), rnd.randint(-99, 99)


def thin(rnd, fast, dry):
    h0 = rnd.choice((about(rnd, dry), rnd.randint(0, dry + 8)))
    return flowing(rnd, h0, rnd.randint(-h0, h0), fast)


def shallow(rnd, fast, dry):
    h0 = rnd.randint(dry + 1, 400)
    h1 = rnd.choice((0, h0, -h0, rnd.randint(-h0, h0), rnd.randint(-h0, h0)))
    return flowing(rnd, h0, h1, fast)


def ordinary(rnd, fast, dry):
    h0 = rnd.randint(400, 20000)
    most = h0 // rnd.choice((1, 4, 50))
    return flowing(rnd, h0, rnd.randint(-most, most), fast)


def deep(rnd, fast, dry):
    """Near the depth limit at one face or both."""
    top = m.DEEPEST - rnd.choice((0, 1, 3, 500, 9000))
    h1 = rnd.choice((0, 0, rnd.randint(-top // 2, top // 2)))
    return flowing(rnd, top - abs(h1), h1, fast)


def brimming(rnd, fast, dry):
    """Nearly still, and at the depth limit at one face, so that a little more is an 8: after stage one, or at the end alone."""
    h1 = rnd.choice((0, rnd.randint(-m.DEEPEST // 2, m.DEEPEST // 2)))
    return m.DEEPEST - abs(h1) - rnd.choice((0, 0, 1, 3)), h1, rnd.choice((0, rnd.randint(-3000, 3000))), 0


def full(rnd, fast, dry):
    """Near the discharge limit: deep enough that the speed still fits."""
    h0 = rnd.randint(m.DEEPEST // 4, m.DEEPEST)
    q1 = rnd.randint(-9, 9)
    most = min(m.GREATEST_Q - abs(q1), 32 * h0)
    return h0, 0, rnd.choice((-1, 1)) * (most - rnd.choice((0, 1, 5, 4000))), q1


def racing(rnd, fast, dry):
    """Mean, face or Gauss speed at 131,072 or a little to either side of it."""
    h0 = rnd.randint(dry + 1, rnd.choice((dry + 36, 4000, 200000)))
    h1 = rnd.choice((0, 0, rnd.randint(-h0 // 2, h0 // 2)))
    q0 = 32 * h0 + rnd.choice((-40, -1, 0, 0, 0, h0 // m.UNIT, 1 + h0 // m.UNIT))
    q1 = 32 * h1 + rnd.choice((0, 0, -1, 1))
    sign = rnd.choice((-1, 1))
    return h0, h1, sign * q0, sign * q1


KINDS = (still_bed, thin, shallow, ordinary, deep, brimming, full, racing)
MIXES = (
    (shallow, shallow, thin, still_bed),
    (ordinary,),
    (ordinary, ordinary, shallow),
    (ordinary, shallow, still_bed),
    (ordinary, ordinary, ordinary, ordinary, racing, full),
    (thin, still_bed),
    (ordinary, ordinary, thin),
    (deep,),
    (deep, ordinary),
    (brimming,),
    (full,),
    (full, deep, racing),
    (racing, shallow),
    (still_bed,),
    KINDS,
)


def placed(zl, zr, h0, h1, q0, q1):
    """The cell's four numbers over its bed, brought within the present state's range."""
    h0 = min(h0, m.DEEPEST)
    h1 = max(-h0, min(h0, h1))
    h0 = min(h0, m.DEEPEST - abs(h1))
    h1 = max(-h0, min(h0, h1))
    q1 = max(-m.GREATEST_Q, min(m.GREATEST_Q, q1))
    most = m.GREATEST_Q - abs(q1)
    q0 = max(-most, min(most, q0))
    return [h0 + (zl + zr) // 2, h1 + (zr - zl) // 2, q0, q1]


def dry_cell(zl, zr):
    return [(zl + zr) // 2, (zr - zl) // 2, 0, 0]


# ---- States: the four columns of some cells

def lake(rnd, bed):
    """One level over every cell it covers, dry ground elsewhere."""
    low, high = min(bed), max(bed)
    level = min(low + m.DEEPEST, rnd.choice((high, high + rnd.randrange(5000), rnd.randint(low, high))))
    cells = []
    for zl, zr in zip(bed, bed[1:]):
        covered = level >= max(zl, zr) and level - min(zl, zr) <= m.DEEPEST
        cells.append([level, 0, 0, 0] if covered else dry_cell(zl, zr))
    return m.table_of(cells)


def states(rnd, bed, dry):
    n = len(bed) - 1
    if rnd.randrange(12) == 0:
        now = lake(rnd, bed)
        if rnd.randrange(2):
            now[2 * n + rnd.randrange(n)] += rnd.randint(-3, 3)
        return now
    mix = rnd.choice(MIXES)
    fast = rnd.choice((0, 60, 2000, 2000, 9000, 30000, m.FASTEST))
    return m.table_of(placed(zl, zr, *rnd.choice(mix)(rnd, fast, dry)) for zl, zr in zip(bed, bed[1:]))


def gentle(rnd, n, dry):
    """A reach with nothing extreme in it, as a long random one is refused nearly always."""
    bed = [2 * rnd.randrange(20000)]
    for _ in range(n):
        bed.append(max(0, bed[-1] + 2 * rnd.randint(-20, 20)))
    deep_, fast, cells = rnd.randint(300, 12000), rnd.choice((200, 3000)), []
    for zl, zr in zip(bed, bed[1:]):
        h0 = deep_ + rnd.randint(-deep_ // 20, deep_ // 20)
        cells.append(placed(zl, zr, *flowing(rnd, h0, rnd.randint(-h0 // 30, h0 // 30), fast)))
    return bed, m.table_of(cells)


def shore(rnd, n, dry):
    """Water sloping evenly down to a bank, which is dry or about as deep as the dry depth."""
    # the whole rise stays within what a cell may be deep, in the longest reach too
    bed, rise = [2 * rnd.randrange(20000)], min(rnd.choice((0, 10, 100, 1000)), 100000 // n)
    for _ in range(n):
        bed.append(bed[-1] + 2 * rnd.randint(rise // 2, rise))
    edge, fast = rnd.randint(1, n), rnd.choice((0, 60, 2000))
    level, fall, cells = bed[edge] + rnd.choice((2, 20, 60, 300)), rnd.choice((0, 1, 5, 20)), []
    for i, (zl, zr) in enumerate(zip(bed, bed[1:])):
        if i < edge:
            h0, h1 = level + fall * (2 * (edge - i) - 1) - (zl + zr) // 2, -fall - (zr - zl) // 2
        else:
            h0 = rnd.choice((0, about(rnd, dry)))
            h1 = rnd.randint(-h0, h0)
        cells.append(placed(zl, zr, *flowing(rnd, h0, h1, fast)))
    if rnd.randrange(2):        # the bank on the left
        bed.reverse()
        cells = [[e0, -e1, -q0, q1] for e0, e1, q0, q1 in reversed(cells)]
    return bed, m.table_of(cells)


def pit(rnd, n, dry):
    """A lake at rest but for one cell, two cells from the deepest one, which is full.

    Stage one leaves the deepest cell as it is, and stage two does not: it may be too full at the end alone.
    """
    low, i = 2 * rnd.randrange(20000), spot(rnd, n)
    bed = [low + 2 * rnd.randint(5000, 40000) for _ in range(n + 1)]
    bed[i] = bed[i + 1] = low
    cells = [[low + m.DEEPEST, 0, 0, 0] for _ in range(n)]
    moving = rnd.choice([k for k in (i - 2, i + 2) if 0 <= k < n] or [i])
    most = rnd.choice((90000, 2000000))
    cells[moving][2] = rnd.randint(-most, most)
    return bed, m.table_of(cells)


def with_cell(now, n, i, cell):
    """The state with other numbers in cell i of its n."""
    now = list(now)
    now[i::n] = cell
    return now


# ---- Ends: their kinds and what is given there, left, right, left_q and right_q

def thin_end(rnd, now, bed, dry):
    """The state with a cell at one end that is dry, or about as deep as the dry depth."""
    n = len(bed) - 1
    i = rnd.choice((0, n - 1))
    h0 = rnd.choice((0, 1, about(rnd, dry), about(rnd, dry)))
    return with_cell(now, n, i, placed(bed[i], bed[i + 1], h0, 0, 0, 0))


def inner_depths(now, bed):
    """The depths that the first and the last cell show at the ends of the reach."""
    n = len(bed) - 1
    return now[0] - now[n] - bed[0], now[n - 1] + now[2 * n - 1] - bed[n]


def fastest_inflow(h):
    """The greatest Q whose speed at depth h, cut toward nought, is within its limit."""
    return ((m.FASTEST + 1) * h - 1) // m.UNIT


def inflow_at(rnd, h):
    """A Q: none, little, one of ordinary water of depth h or of any, about the fastest, or about the greatest."""
    how = rnd.randrange(24)
    if how < 3:
        Q = 0
    elif how < 5:
        Q = rnd.choice((1, rnd.randint(1, 60)))
    elif how < 16:
        deep_ = h if h > m.MOST_DRY else rnd.choice((h, 400, 4000))
        Q = deep_ * rnd.randint(0, rnd.choice((300, 2000, 9000, 30000))) // m.UNIT + rnd.randrange(3)
    elif how < 19:
        Q = rnd.randint(1, rnd.choice((900, 20000)))
    elif how < 21:
        Q = fastest_inflow(h) + rnd.choice((-1, 0, 0, 0, 1))
    elif how < 23:
        Q = rnd.randint(0, rnd.choice((400000, m.GREATEST_Q)))
    else:
        Q = m.GREATEST_Q - rnd.choice((0, 0, 1))
    return max(0, min(m.GREATEST_Q, Q))


def ends_of(rnd, now, bed):
    kinds = rnd.randrange(3), rnd.randrange(3)
    return kinds + tuple(inflow_at(rnd, h) if kind == m.INFLOW else 0 for kind, h in zip(kinds, inner_depths(now, bed)))


def onto_dry(rnd, now, bed, dx, dt, ends):
    """The ends, with a Q that brings a whole volume in where the ground is dry, in half the calls.

    With any other the depth that stage one leaves there is a little less than Q asks for, and stage two
    nearly always refuses the speed of Q with a 7; or with a 6, where dx is more than 64*dt.
    """
    def even(kind, Q, h):
        whole = dx // gcd(dx, dt)
        return max(whole, Q // whole * whole) if kind == m.INFLOW and h == 0 and Q and whole <= m.GREATEST_Q else Q
    if rnd.randrange(2):
        return ends
    left, right, left_q, right_q = ends
    hl, hr = inner_depths(now, bed)
    return left, right, even(left, left_q, hl), even(right, right_q, hr)


# ---- dx, dt and J, chosen against the state and the ends

def greatest_S(now, bed, friction, dt, dry, ends):
    """The greatest S of stage one, or None where it refuses earlier."""
    n = len(friction)
    call = m.Call(n, bed, friction, m.LONGEST_DX, dt, 0, dry, *ends)
    try:
        cells = m.cells_of(now)
        m.check_range(cells, call, 5, "")
        slow = m.after_friction(cells, call)
        # a dt of nought keeps check 7 silent while S is looked for
        return max(f.S for f in m.fluxes(m.face_speeds(slow, call, 1), call._replace(dt=0), 1))
    except m.Refused:
        return None


def filled(rnd, now, bed, dry, ends, dx, dt):
    """dx, or a longer one where an inflow onto thin water, whose speed no check bounds, would bring too much in."""
    thin_ = [Q for Q, h in zip(ends[2:], inner_depths(now, bed)) if h <= dry]
    if max(thin_, default=0) == 0 or rnd.randrange(5) == 0:
        return dx
    most = rnd.choice((rnd.randint(1, 99), rnd.randint(1, 20000), rnd.randint(1, 20000), m.DEEPEST // 2 + rnd.randint(-9, 9)))
    return max(dx, max(thin_) * dt // most)


def lengths_and_times(rnd, now, bed, friction, dry, ends):
    """dx and dt at the limit of check 7, a little beside it, well within it, or free."""
    dx, dt = drawn_lengths_and_times(rnd, now, bed, friction, dry, ends)
    return max(1, min(m.LONGEST_DX, filled(rnd, now, bed, dry, ends, dx, dt))), dt


def drawn_lengths_and_times(rnd, now, bed, friction, dry, ends):
    dt = times(rnd)
    return beside_S(rnd, dt, greatest_S(now, bed, friction, dt, dry, ends))


def times(rnd):
    return rnd.choice((1, rnd.randint(1, 60), rnd.randint(1, 700), rnd.randint(1, m.LONGEST_DT), m.LONGEST_DT))


def beside_S(rnd, dt, S):
    """dx and dt where the greatest S at that dt is so much, or unknown."""
    how = rnd.randrange(20)
    if how == 0 or not S:
        return rnd.choice((1, rnd.randint(1, 99), rnd.randint(1, m.LONGEST_DX), m.LONGEST_DX)), dt
    if how <= 4:
        # the least dx that check 7 allows at this dt, and one to either side
        dx = -(-2 * dt * S // m.UNIT) + rnd.choice((-1, 0, 0, 0, 0, 1))
    elif how <= 7:
        # 4096*dx/(2S) at a dx chosen first; friction moves S a little with dt
        dx = rnd.randint(1 + 2 * S // m.UNIT, 5 + 8000 * S // m.UNIT)
        dt = max(1, min(m.LONGEST_DT, m.UNIT * dx // (2 * S) + rnd.choice((-1, 0, 0, 1))))
    else:
        dx = (2 * dt * S // m.UNIT + 1) * rnd.choice((1, 2, 2, 3, 5, 20, 200)) + rnd.randrange(3)
    return dx, dt


def jumps(rnd, now, bed, friction, dx, dt, dry, ends):
    """J: nought, free, or the very difference that an inner face of stage one shows."""
    how = rnd.randrange(8)
    if how < 2:
        return 0
    if how < 4:
        return rnd.choice((1, rnd.randrange(50), rnd.randrange(3000), m.GREATEST_JUMP))
    n = len(friction)
    if n == 1:
        return rnd.randrange(m.GREATEST_JUMP + 1)
    call = m.Call(n, bed, friction, dx, dt, 0, dry, *ends)
    try:
        cells = m.cells_of(now)
        m.check_range(cells, call, 5, "")
        one, _ = m.stage(m.after_friction(cells, call), call, 1)
    except m.Refused:
        return rnd.randrange(500)
    i = rnd.randrange(n - 1)
    d = abs((one[i].e0 + one[i].e1) - (one[i + 1].e0 - one[i + 1].e1)) - rnd.choice((0, 0, 1))
    return max(0, min(m.GREATEST_JUMP, d))


# ---- Faults, one or several at once, so that their order is tried

def fault_lengths(rnd, c):
    how = rnd.randrange(8)
    if how == 0:
        c["next_len"] = rnd.choice((0, 1, c["next_len"] + 1, c["next_len"] - 1, c["next_len"] + 4))
    elif how == 1:
        c["now"] = c["now"][:-1]
    elif how == 2:
        c["now"] = c["now"] + [0]
    elif how == 3:
        c["bed"] = c["bed"][:-1]
    elif how == 4:
        c["bed"] = c["bed"] + [0]
    elif how == 5:
        c["friction"] = []
    elif how == 6:
        c["friction"] = c["friction"] + [0]
    else:
        # every table fits, but there is no cell or one too many
        n = rnd.choice((0, m.MOST_CELLS + 1))
        c["friction"], c["bed"], c["now"], c["next_len"] = [0] * n, [0] * (n + 1), [0] * (4 * n), 4 * n


def fault_numbers(rnd, c):
    beyond = {"dx": (0, m.LONGEST_DX + 1, I32 - 1), "dt": (0, m.LONGEST_DT + 1, 65535),
              "jump": (m.GREATEST_JUMP + 1, I32 - 1), "dry": (m.LEAST_DRY - 1, m.MOST_DRY + 1, 2 * I32 - 1),
              "left": (3, 4, 255, 2 * I32 - 1), "left_q": (m.GREATEST_Q + 1, I32, 2 * I32 - 1)}
    beyond["right"], beyond["right_q"] = beyond["left"], beyond["left_q"]
    name = rnd.choice((*sorted(beyond), "dry"))     # twice, so that each value is seen in a few thousand calls
    c[name] = rnd.choice(beyond[name])
    if name.endswith("_q") and rnd.randrange(2):
        # in its range, and where none belongs
        c[name[:-2]] = rnd.choice((m.WALL, m.OPEN))
        c[name] = rnd.choice((1, rnd.randint(1, 9000), m.GREATEST_Q))


def fault_bed(rnd, c):
    bed = list(c["bed"])
    for k in spots(rnd, len(bed)):
        bed[k] = rnd.choice((-1, -2, 1, m.HIGHEST_BED - 1, m.HIGHEST_BED + 1, m.HIGHEST_BED + 2,
                             bed[k] | 1, -I32, I32 - 1))
    c["bed"] = bed


def fault_friction(rnd, c):
    friction = list(c["friction"])
    for i in spots(rnd, len(friction)):
        friction[i] = rnd.choice((m.ROUGHEST + 1, 255, 65535))
    c["friction"] = friction


def out_of_range(rnd, cell, zl, zr):
    """The cell with one face depth or discharge one beyond its range, or a number as wide as an i32."""
    cell, how = list(cell), rnd.randrange(6)
    if how == 0:
        cell[rnd.randrange(4)] = rnd.choice((-I32, I32 - 1, -I32 + 1))
        return cell
    z0, z1 = (zl + zr) // 2, (zr - zl) // 2
    h0, h1, q0, q1 = cell[0] - z0, cell[1] - z1, cell[2], cell[3]
    sign = rnd.choice((-1, 1))
    if how == 1:
        h1 = sign * (h0 + 1)
    elif how == 2:
        h0, h1 = m.DEEPEST - 7, sign * 8
    elif how == 3:
        h0, h1 = -1, 0
    elif how == 4:
        q0, q1 = sign * (m.GREATEST_Q + 1), 0
    else:
        q0, q1 = sign * (m.GREATEST_Q - 7), rnd.choice((-8, 8))
    return [max(-I32, min(I32 - 1, v)) for v in (h0 + z0, h1 + z1, q0, q1)]


def fault_range(rnd, c):
    bed, n = c["bed"], len(c["bed"]) - 1
    for i in spots(rnd, n):
        c["now"] = with_cell(c["now"], n, i, out_of_range(rnd, c["now"][i::n], bed[i], bed[i + 1]))


def too_fast(rnd, dry):
    """Of a cell in range, a mean, face or Gauss speed beyond the limit, and either way round."""
    h0 = rnd.randint(dry + 1, 3000)
    h1, q0, q1 = rnd.choice((
        (0, 32 * h0 + 1 + h0 // 4096, 0),       # mean
        (h0 - dry - 1, 31 * h0, 0),             # the shallow face alone
        (0, 16 * h0, 17 * h0),                  # a face alone
        (0, 16 * h0, 28 * h0),                  # face and Gauss point
        (h0 - dry, 31 * h0, 0),                 # the Gauss point alone: the face has no speed
    ))
    return rnd.choice(((h0, h1, q0, q1), (h0, -h1, -q0, q1)))


def fault_speed(rnd, c):
    bed, n, same = c["bed"], len(c["bed"]) - 1, too_fast(rnd, c["dry"])
    for i in spots(rnd, n):
        cell = rnd.choice((same, too_fast(rnd, c["dry"])))
        c["now"] = with_cell(c["now"], n, i, placed(bed[i], bed[i + 1], *cell))


def fault_inflow(rnd, c):
    """An inflow whose speed is beyond the limit, just or by far, or would be if the water there were deeper than the dry depth.

    In half of them some cell is too fast too, and the lower face counts.
    """
    if rnd.randrange(2):
        fault_speed(rnd, c)
    end = rnd.randrange(2)
    name = ("left", "right")[end]
    h = max(0, inner_depths(c["now"], c["bed"])[end])
    c[name], c[name + "_q"] = m.INFLOW, min(m.GREATEST_Q, fastest_inflow(h) + rnd.choice((1, 1, 9, 5000)))


FAULTS = (fault_lengths, fault_numbers, fault_bed, fault_friction, fault_inflow, fault_range, fault_speed)


def spoiled(rnd, c):
    # speeds and ranges are set by the bed and the dry depth as they are, and an inflow by the state too, so those
    # are spoilt after them
    chosen = rnd.sample(FAULTS + (fault_numbers,), rnd.choice((1, 1, 2, 3)))    # there are many numbers
    for fault in sorted(chosen, key=FAULTS.index, reverse=True):
        fault(rnd, c)
    return c


# ---- The most that can come in

def flooded(rnd, c):
    """Dry ground, where S is 0 and nothing but check 8 bounds what comes in: 2^35 at most from each end."""
    bed = c["bed"]
    c["now"] = m.table_of(dry_cell(zl, zr) for zl, zr in zip(bed, bed[1:]))
    c["dx"], c["dt"] = rnd.choice((1, 1, 2, 1000)), m.LONGEST_DT - rnd.choice((0, 0, 1))
    c["left"], c["right"] = rnd.choice(((m.INFLOW, m.WALL), (m.OPEN, m.INFLOW), (m.INFLOW, m.INFLOW)))
    for name in ("left", "right"):
        c[name + "_q"] = m.GREATEST_Q - rnd.choice((0, 0, 1, 4000000)) if c[name] == m.INFLOW else 0


# ---- Whole calls

ORDER = ("now", "next_len", "bed", "friction", "dx", "dt", "jump", "dry", "left", "right", "left_q", "right_q")


def number_of_cells(rnd):
    if rnd.randrange(400) == 0:
        return m.MOST_CELLS
    if rnd.randrange(100) == 0:
        return SHORT_CELLS + rnd.randrange(2)   # the longest reach on short tables, and the shortest on long ones
    return rnd.choice((1, 1, 1, 2, 2, 2, 3, 3, 3, 16, 16, rnd.randint(4, 12)))


def reach_of(rnd, n, dry):
    """A bed and a state over it: few of the short ones are chosen whole, and most of the long ones."""
    if 3 <= n <= 16 and rnd.randrange(20) == 0:
        return pit(rnd, n, dry)
    if rnd.randrange(4) < (3 if n > 16 else 1):
        return rnd.choice((gentle, shore))(rnd, n, dry)
    bed = beds(rnd, n)
    return bed, states(rnd, bed, dry)


def roughnesses(rnd, n):
    rough = rnd.choice((0, 0, 1, 30, m.ROUGHEST))
    return [rnd.randint(0, rough) if rnd.randrange(2) else rough for _ in range(n)]


def far_call(rnd):
    """A long reach that nothing but a fault refuses, and that before stage one is over: so its place may be far along (E13)."""
    n, dry = rnd.choice((SHORT_CELLS + 1, 300, m.MOST_CELLS)), dry_depths(rnd)
    bed, now = gentle(rnd, n, dry)
    c = dict(now=now, next_len=4 * n, bed=bed, friction=roughnesses(rnd, n), dx=m.UNIT, dt=1, jump=0, dry=dry,
             left=rnd.randrange(2), right=rnd.randrange(2), left_q=0, right_q=0)
    rnd.choice((fault_bed, fault_friction, fault_range, fault_speed))(rnd, c)
    return c


def hard_call(rnd):
    if rnd.randrange(120) == 0:
        return far_call(rnd)
    n, dry = number_of_cells(rnd), dry_depths(rnd)
    bed, now = reach_of(rnd, n, dry)
    if rnd.randrange(6) == 0:
        now = thin_end(rnd, now, bed, dry)
    friction = roughnesses(rnd, n)
    ends = ends_of(rnd, now, bed)
    dx, dt = lengths_and_times(rnd, now, bed, friction, dry, ends)
    ends = onto_dry(rnd, now, bed, dx, dt, ends)
    jump = jumps(rnd, now, bed, friction, dx, dt, dry, ends)
    left, right, left_q, right_q = ends
    c = dict(now=now, next_len=4 * n, bed=bed, friction=friction, dx=dx, dt=dt, jump=jump, dry=dry,
             left=left, right=right, left_q=left_q, right_q=right_q)
    if rnd.randrange(150) == 0:
        flooded(rnd, c)
    return spoiled(rnd, c) if rnd.randrange(8) == 0 else c


def calls(seed, count):
    rnd = random.Random(seed)
    for _ in range(count):
        c = hard_call(rnd)
        yield tuple(c[name] for name in ORDER)


# ---- Runs: a reach, and one call after another from what the one before wrote

PAIRS = tuple(itertools.product((m.WALL, m.OPEN, m.INFLOW), repeat=2))     # kinds of end


def run_reach(rnd, n):
    """A bed and a state over it: ordinary water, or water about as deep as the dry depths are."""
    bed = [2 * rnd.randrange(300) for _ in range(n + 1)]
    least, most, fast = rnd.choice(((600, 9000, 4000), (0, 90, 2000), (0, 90, 2000)))
    cells = []
    for zl, zr in zip(bed, bed[1:]):
        h = rnd.randint(least, most)
        cells.append(placed(zl, zr, *flowing(rnd, h, rnd.randint(-h // 9, h // 9), fast)))
    return bed, m.table_of(cells)


def run_call(rnd, now, bed, dx):
    """A step from some state, with its own dt, J, dry depth, friction, ends and Qs."""
    n = len(bed) - 1
    friction = [rnd.randint(0, 60) for _ in range(n)]
    kinds = rnd.choice(PAIRS)
    inflows = [rnd.choice((0, rnd.randint(1, 40), rnd.randint(1, 900))) if kind == m.INFLOW else 0 for kind in kinds]
    return (now, 4 * n, bed, friction, dx, rnd.randint(1, 1 + dx // 20 % 4096), rnd.choice((0, 10, 999)),
            dry_depths(rnd), *kinds, *inflows)


# ---- Single faces

def hard_face(rnd):
    how = rnd.randrange(12)
    h, u = m.DEEPEST, m.FASTEST

    def speed_():
        most = rnd.choice((1, 300, 9000, u))
        return rnd.randint(-most, most)

    def depth_():
        return rnd.randint(0, rnd.choice((1, 4, 12, 500, 20000, h)))

    if how == 0:
        return 0, speed_(), 0, speed_()
    if how == 1:
        return 0, speed_(), depth_(), speed_()
    if how == 2:
        return depth_(), speed_(), 0, speed_()
    if how == 3:
        # about the critical speed, where the side's own bound crosses nought
        d = 1 + depth_() % h
        a = m.wave_speed(d)
        sign = rnd.choice((-1, 1))
        near = [sign * min(u, a + rnd.randint(-2, 2)) for _ in range(2)]
        return (d, near[0], rnd.choice((d, depth_())), near[1])
    if how == 4:
        sign = rnd.choice((-1, 1))
        return depth_() % 5000, sign * rnd.randint(30000, u), depth_() % 5000, sign * rnd.randint(30000, u)
    if how == 5:
        # drawn apart, so that the bracket of a* falls below nought
        return depth_() % 2000, -rnd.randint(0, u), depth_() % 2000, rnd.randint(0, u)
    if how == 6:
        # driven together
        return depth_(), rnd.randint(0, u), depth_(), -rnd.randint(0, u)
    if how == 7:
        d, v = depth_(), speed_()
        return d, v, d, rnd.choice((v, -v, 0))
    if how == 8:
        corner_h, corner_u = (0, 1, 4, 5, h - 1, h), (-u, 1 - u, -1, 0, 1, u - 1, u)
        return rnd.choice(corner_h), rnd.choice(corner_u), rnd.choice(corner_h), rnd.choice(corner_u)
    if how == 9:
        numbers = [depth_(), speed_(), depth_(), speed_()]
        k = rnd.randrange(4)
        numbers[k] = rnd.choice((-1, h + 1, I32 - 1, -I32) if k % 2 == 0 else (u + 1, -u - 1, I32 - 1, -I32))
        return tuple(numbers)
    return depth_(), speed_(), depth_(), speed_()


def faces(seed, count):
    rnd = random.Random(seed)
    for _ in range(count):
        yield hard_face(rnd)


def branch(hL, uL, hR, uR):
    """Which line of the face rule answers."""
    if m.face(hL, uL, hR, uR) is None:
        return "refused"
    if hL == 0 and hR == 0:
        return "both dry" + (", with a speed" if uL or uR else "")
    sL, sR = m.wave_bounds(hL, uL, hR, uR)
    side = "left dry, " if hL == 0 else "right dry, " if hR == 0 else ""
    name = "left side alone" if sL >= 0 else "right side alone" if sR <= 0 else "middle"
    return side + name + (", with a speed at depth 0" if hL == 0 and uL or hR == 0 and uR else "")


# ---- Statistics

def answered(call):
    try:
        m.worked(*call)
        return "accepted"
    except m.Refused as r:
        return "%d %s" % (r.number, r.check)


def main():
    seed = int(sys.argv[1]) if len(sys.argv) > 1 else 1
    count = int(sys.argv[2]) if len(sys.argv) > 2 else 4000
    start = time.time()
    made = list(calls(seed, count))
    middle = time.time()
    by_answer, by_n, by_ends = Counter(), Counter(), Counter()
    for call in made:
        answer = answered(call)
        by_answer[answer] += 1
        if answer == "accepted":
            by_n[len(call[3])] += 1
            by_ends[call[8:10]] += 1
    for answer in sorted(by_answer):
        print("%6d  %5.1f %%  %s" % (by_answer[answer], 100 * by_answer[answer] / count, answer))
    print("accepted by number of cells: " + ", ".join("%d: %d" % (n, by_n[n]) for n in sorted(by_n)))
    print("accepted by kinds of end: " + ", ".join("%d %d: %d" % (*kinds, by_ends[kinds]) for kinds in sorted(by_ends)))
    print("%d calls of seed %d: made in %.1f s, answered in %.1f s"
          % (count, seed, middle - start, time.time() - middle))
    by_branch = Counter(branch(*f) for f in faces(seed, count))
    for name in sorted(by_branch):
        print("%6d  %5.1f %%  face: %s" % (by_branch[name], 100 * by_branch[name] / count, name))


if __name__ == "__main__":
    main()
