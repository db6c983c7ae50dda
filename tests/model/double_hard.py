"""Seeded random calls of the step in doubles, chosen to be hard, as hard.py's are for whole numbers.

calls(seed, count) yields the arguments of double_step.step.  Most reaches are hard.py's in metres, some of them as they
are and some roughened, so that every bit is in use; others are made here, for what only doubles have: depths of a few
last places of a level, subnormal ones, noughts with a sign, numbers beside each limit, infinities and NaNs, and mean
depths that end below nought (9).  run_reach draws a reach to be stepped several times, run_call each of its calls.

Run as a script it prints how the answers are spread:  double_hard.py [seed [count]]
"""

import random
import sys
import time
from collections import Counter
from math import inf, nan, nextafter, sqrt

import double_step as d
import hard
import model as m
from hard import SHORT_CELLS, spot, spots

UNIT = float(m.UNIT)
TINY = 5e-324                       # the least double above nought
LEAST_NORMAL = 2.0 ** -1022
GREATEST = sys.float_info.max


def beside(x):
    """The doubles on either side of x, and x."""
    return nextafter(x, -inf), x, nextafter(x, inf)


def signed(rnd, x):
    return rnd.choice((-x, x))


# Doubles that no ordinary water has: as they are, those of either sign, and those beside the limits of any number.
ODD = tuple(s * x for x in (nan, inf, GREATEST, 2.0 ** 1023, 1e300, LEAST_NORMAL, nextafter(LEAST_NORMAL, 0), TINY, 0.0)
            for s in (1, -1))
LIMITS = d.DEEPEST, d.GREATEST_Q, d.FASTEST, d.HIGHEST_BED, d.LONGEST_DT, d.LEAST_DX, d.DRY, 0.0
EDGES = tuple(s * x for edge in LIMITS for x in beside(edge) for s in (1, -1))


# ---- Cells, given as depth mean and slope, discharge mean and slope

def placed(zl, zr, h0, h1, q0, q1):
    """The cell over its bed, brought within range: by its slope, by ever more of it, and else it is dry."""
    z0, z1 = d.z0(zl, zr), d.z1(zl, zr)
    for share in (1.0, 1 - 2.0 ** -50, 1 - 2.0 ** -30, 0.9, 0.0):
        cell = d.Cell(z0 + h0, z1 + share * h1, q0, share * q1)
        if d.in_range(cell, zl, zr):
            return cell
    return dry_cell(zl, zr)


def dry_cell(zl, zr, q0=0.0, q1=0.0):
    return d.Cell(d.z0(zl, zr), d.z1(zl, zr), q0, q1)


def some_discharge(rnd):
    """For water at or below the dry depth, which has no speed: any, and any sign of nought."""
    return rnd.choice((0.0, -0.0, 0.0, rnd.uniform(-1, 1), rnd.uniform(-1, 1) * 2.0 ** rnd.randint(-60, 11),
                       signed(rnd, d.GREATEST_Q), signed(rnd, rnd.choice((TINY, LEAST_NORMAL)))))


def film(rnd, zl, zr):
    """Hardly any water: some last places of the level, a subnormal depth, or about the dry depth.

    Its discharge tilts it, without end by its speed: it has none.  So it is cut on either side.
    """
    z0 = d.z0(zl, zr)
    how = rnd.randrange(4)
    if how == 0:
        e0 = z0
        for _ in range(rnd.choice((1, 1, 2, 3, rnd.randint(1, 40)))):
            e0 = nextafter(e0, inf)
    elif how == 1:
        e0 = z0 + rnd.random() * 2.0 ** rnd.randint(-60, -11)
    elif how == 2:
        e0 = z0 + rnd.choice((*beside(d.DRY), d.DRY * rnd.uniform(0.5, 2)))
    else:
        e0 = z0 + rnd.choice((TINY, LEAST_NORMAL, LEAST_NORMAL * rnd.random(), rnd.randint(1, 99) * TINY))
    h0, z1 = e0 - z0, d.z1(zl, zr)
    q0 = some_discharge(rnd)
    q1 = some_discharge(rnd) if abs(q0) < 1 else 0.0
    for h1 in (h0, -h0, 0.0, h0 * rnd.uniform(-1, 1)) if rnd.randrange(2) else (h0 * rnd.uniform(-1, 1), 0.0):
        cell = d.Cell(e0, z1 + h1, q0, q1)
        if d.in_range(cell, zl, zr):
            return cell
    return dry_cell(zl, zr, q0, q1 if abs(q1) < 1 else 0.0)


def racing(rnd, zl, zr):
    """At the greatest speed in every place, as q is 32 times h to the last bit; or a last place beside it."""
    cell = placed(zl, zr, rnd.uniform(0.001, rnd.choice((0.01, 1, 30))), 0.0, 0.0, 0.0)
    h0 = d.h0(cell, zl, zr)
    cell = cell._replace(e1=d.cut_slope(d.z1(zl, zr) + h0 * rnd.choice((0.0, 0.0, 2.0, -2.0, rnd.uniform(-1, 1))),
                                        d.z1(zl, zr), h0))
    q0, q1 = (signed(rnd, d.FASTEST) * h for h in (h0, 0.0)) if rnd.randrange(4) == 0 else (
        d.FASTEST * h for h in (h0, d.h1(cell, zl, zr)))
    s = rnd.choice((-1, 1))
    fast = cell._replace(q0=s * rnd.choice((q0, *beside(q0))), q1=s * q1)
    return fast if d.in_range(fast, zl, zr) else cell


# ---- hard.py's reaches in metres

def in_metres(bed, now):
    """As they are: every number is a whole number of 1/4096, and so exact."""
    n = len(bed) - 1
    return [z / UNIT for z in bed], [d.Cell(*(now[k * n + i] / UNIT for k in range(4))) for i in range(n)]


def rough(rnd, x, by):
    return x * (1.0 + by * (rnd.random() - 0.5))


def roughened(rnd, bed, now):
    """The same, with all the bits that a double has; within range, and dry where it was."""
    n, by = len(bed) - 1, rnd.choice((1e-15, 1e-9, 1e-3))
    new = [min(d.HIGHEST_BED, rough(rnd, z / UNIT, by)) for z in bed]
    cells = []
    for i in range(n):
        z0, z1 = (bed[i] + bed[i + 1]) // 2, (bed[i + 1] - bed[i]) // 2
        h0, h1, q0, q1 = now[i] - z0, now[n + i] - z1, now[2 * n + i], now[3 * n + i]
        h1 = h0 * rnd.choice((-1, 1)) if h0 and rnd.randrange(12) == 0 else h1
        cells.append(placed(new[i], new[i + 1], *(rough(rnd, x / UNIT, by) for x in (h0, h1, q0, q1))))
    return new, cells


def with_films(rnd, bed, cells):
    """The reach with hardly any water in some of its cells, or some at the greatest speed."""
    kind = rnd.choice((film, film, film, racing))
    for i in range(len(cells)):
        if rnd.randrange(3) == 0:
            cells[i] = kind(rnd, bed[i], bed[i + 1])
    return bed, cells


def steep(rnd, n):
    """A shore on a steep bed, whose cells are cut: films, and cells that are dry at one face."""
    high = rnd.choice((1.0, 9.0, 100.0, d.HIGHEST_BED))
    bed = [rnd.random() * high for _ in range(n + 1)]
    cells = []
    for zl, zr in zip(bed, bed[1:]):
        h0 = rnd.random() * rnd.choice((0.002, 0.1, 1.0, min(20.0, high)))
        wedge = placed(zl, zr, h0, signed(rnd, h0), h0 * rnd.uniform(-2, 2), 0.0)
        cells.append(rnd.choice((wedge, wedge, film(rnd, zl, zr), dry_cell(zl, zr, some_discharge(rnd)))))
    return bed, cells


def wedges(rnd, n):
    """Water that ends at the low side of each cell of a steep bed, and runs away from there, so that every cell is cut.

    The bed's slope is about half its mean, and so has a place more behind the point; the depth is about as large as the
    slope, and their sum has that place no more: so the cut is often undone by rounding, and mended.
    """
    high, last = 2.0 ** rnd.uniform(-3, 5), rnd.randrange(2)
    bed = [high * (rnd.uniform(0.8, 1) if k % 2 == last else rnd.uniform(0.2, 0.4)) for k in range(n + 1)]
    cells = []
    for zl, zr in zip(bed, bed[1:]):
        z1 = d.z1(zl, zr)
        h0 = abs(z1) * rnd.uniform(0.3, 2.5)
        way = 1.0 if z1 > 0 else -1.0
        cells.append(placed(zl, zr, h0, way * h0, way * 2.0 * h0 * rnd.uniform(0, 3), 0.0))
    return bed, cells


def ties(rnd, n):
    """Depths at two faces of which one is rounded from half way between two doubles, and their sum so again.

    That is where twice the mean depth is another number: the mean has an odd last place, and the slope one place less.
    """
    high = 2.0 ** rnd.randint(-8, 5)
    bed = [high * (k % 2) for k in range(n + 1)]
    cells = []
    for zl, zr in zip(bed, bed[1:]):
        mean = (2 * rnd.randint(int(0.9 * 2 ** 52), 2 ** 52) - 1) * 2.0 ** -53      # of a level, 0.9 to 1
        slope = rnd.randint(int(0.75 * 2 ** 52), int(0.89 * 2 ** 52)) * 2.0 ** -52
        way = 1.0 if zr > zl else -1.0
        cell = d.Cell(2.0 * high * mean, way * 2.0 * high * slope, high * rnd.uniform(-1, 1), 0.0)
        cells.append(cell if d.in_range(cell, zl, zr) else dry_cell(zl, zr))
    return bed, cells


def flat_films(rnd, n):
    """Films and dry ground on a bed of nought, or of the least that there is, where no level hides their last bits.

    Noughts have any sign.
    """
    bed = [rnd.choice((0.0, 0.0, 0.0, -0.0, TINY, LEAST_NORMAL, 2.0 ** -30)) for _ in range(n + 1)]
    cells = [rnd.choice((film(rnd, zl, zr), film(rnd, zl, zr), dry_cell(zl, zr))) for zl, zr in zip(bed, bed[1:])]
    cells = [d.Cell(*(x or rnd.choice((0.0, -0.0)) for x in cell)) for cell in cells]
    return run_away(rnd, bed, cells) if n > 1 and rnd.randrange(3) == 0 else (bed, cells)


def run_away(rnd, bed, cells):
    """The reach with water that runs away from dry ground, faster than its waves.

    What crosses between them is nought times nought, whose sign is that of the depth, if -0 is not read as +0.
    """
    i, h0 = rnd.randrange(1, len(cells)), rnd.uniform(0.002, 1)
    bed[i - 1:i + 2] = [0.0] * 3
    cells[i - 1] = d.Cell(h0, 0.0, -h0 * rnd.uniform(2.1, 3) * sqrt(9.81 * h0), 0.0)
    cells[i] = d.Cell(-0.0, *(rnd.choice((0.0, 0.0, -0.0)) for _ in range(3)))
    for k in (i - 2, i + 1):
        if 0 <= k < len(cells):
            cells[k] = dry_cell(bed[k], bed[k + 1])
    return bed, cells


def reach_of(rnd, n):
    how = rnd.randrange(24)
    if how < 8 and n <= 16:
        return (steep, steep, flat_films, flat_films, wedges, wedges, wedges, ties)[how](rnd, n)
    whole = hard.reach_of(rnd, n, 4)
    bed, cells = in_metres(*whole) if rnd.randrange(3) == 0 else roughened(rnd, *whole)
    return with_films(rnd, bed, cells) if rnd.randrange(6) == 0 else (bed, cells)


# ---- dx, dt and J, chosen against the state

def greatest_S(cells, call):
    """The greatest S of stage one, or None where a side is too fast for the face."""
    shown = d.sides(cells, call)
    if any(d.too_fast(side.u) for pair in shown for side in pair):
        return None
    return max(d.crossing(*pair).S for pair in shown)


def times(rnd):
    return rnd.choice((1.0, 0.5, d.LEAST_DT, rnd.uniform(0.001, 0.1), rnd.uniform(0.01, 1),
                       rnd.randint(1, 4096) / UNIT))


def within_dx(x):
    return max(d.LEAST_DX, min(d.LONGEST_DX, x))


def lengths_and_times(rnd, cells, bed, left, right):
    """dx and dt at the limit of check 7, a last place beside it, well within it, or free."""
    dt, how = times(rnd), rnd.randrange(20)
    S = greatest_S(cells, d.Call(len(cells), bed, 1.0, dt, 0.0, left, right))
    if how == 0 or not S:
        return rnd.choice((d.LEAST_DX, d.LONGEST_DX, 1.0, rnd.uniform(0.01, 256))), dt
    least = (2.0 * dt) * S
    if how <= 4:
        return within_dx(rnd.choice((*beside(least), least, least))), dt
    return within_dx(least * rnd.choice((1, 1.0001, 1.5, 2, 2, 3, 5, 20, 200)) * rnd.uniform(1, 1.3)), dt


def jumps(rnd, cells, call):
    """J: nought, free, or the very difference that an inner face of stage one shows, or a last place beside it."""
    how = rnd.randrange(8)
    if how < 2:
        return rnd.choice((0.0, 0.0, -0.0))
    if how < 4 or call.n == 1:
        return rnd.choice((rnd.random(), rnd.random() * 0.01, TINY, d.GREATEST_JUMP))
    try:
        one, _ = d.stage(cells, call, 1)
    except d.Refused:
        return rnd.random()
    i = rnd.randrange(call.n - 1)
    shown = abs((one[i].e0 + one[i].e1) - (one[i + 1].e0 - one[i + 1].e1))
    return max(0.0, min(d.GREATEST_JUMP, rnd.choice((*beside(shown), shown))))


# ---- Faults, one or several at once, so that their order is tried

def fault_lengths(rnd, c):
    how = rnd.randrange(8)
    if how == 0:
        c["next_len"] = rnd.choice((0, 1, c["next_len"] + 1, c["next_len"] - 1, c["next_len"] + 4))
    elif how == 1:
        c["now"] = c["now"][:-1]
    elif how == 2:
        c["now"] = c["now"] + [0.0]
    elif how == 3:
        c["bed"] = c["bed"][:-1]
    elif how == 4:
        c["bed"] = c["bed"] + [0.0]
    elif how == 5:
        c["friction"] = []
    elif how == 6:
        c["friction"] = c["friction"] + [0]
    else:
        # every table fits, but there is no cell or one too many
        n = rnd.choice((0, m.MOST_CELLS + 1))
        c["friction"], c["bed"], c["now"], c["next_len"] = [0] * n, [0.0] * (n + 1), [0.0] * (4 * n), 4 * n


KINDS_BEYOND = 2, 2, 3, 255, 2 ** 32 - 1
BEYOND = {
    "dx": (nextafter(d.LEAST_DX, 0), nextafter(d.LONGEST_DX, inf), 0.0, -0.0, -1.0, nan, inf, -inf, TINY, GREATEST),
    "dt": (nextafter(d.LEAST_DT, 0), nextafter(d.LONGEST_DT, inf), 0.0, -0.0, -1.0, nan, inf, -inf, TINY, GREATEST),
    "jump": (-TINY, nextafter(d.GREATEST_JUMP, inf), -1.0, nan, nan, inf, -inf, GREATEST),
    "left": KINDS_BEYOND, "right": KINDS_BEYOND,
}


def fault_numbers(rnd, c):
    name = rnd.choice(sorted(BEYOND))
    c[name] = rnd.choice(BEYOND[name])


BAD_BEDS = -TINY, nextafter(d.HIGHEST_BED, inf), nan, -nan, inf, -inf, -1.0, 257.0, -LEAST_NORMAL, GREATEST


def fault_bed(rnd, c):
    bed = list(c["bed"])
    for k in spots(rnd, len(bed)):
        bed[k] = rnd.choice(BAD_BEDS)
    c["bed"] = bed


def fault_friction(rnd, c):
    friction = list(c["friction"])
    for i in spots(rnd, len(friction)):
        friction[i] = rnd.choice((1, 30, 200, 255, 256, 32768, 65535))
    c["friction"] = friction


def with_cell(now, i, cell):
    now = list(now)
    now[4 * i:4 * i + 4] = cell
    return now


def out_of_range(rnd, cell, zl, zr):
    """The cell with a number that is none or beyond all, or with a depth or discharge a last place beyond its range."""
    how, (z0, z1), way = rnd.randrange(6), (d.z0(zl, zr), d.z1(zl, zr)), rnd.choice((-1, 1))
    if how < 2:
        numbers = list(cell)
        numbers[rnd.randrange(4)] = rnd.choice((nan, -nan, inf, -inf, signed(rnd, GREATEST)))
        return d.Cell(*numbers)
    if how == 2:
        h0 = d.h0(cell, zl, zr)
        return cell._replace(e1=z1 + way * nextafter(max(h0, 1e-9), inf) * (1 + 2.0 ** -44))
    if how == 3:
        return cell._replace(e0=z0 + nextafter(d.DEEPEST, inf) if way > 0 else nextafter(z0, -inf), e1=z1)
    if how == 4:
        return d.Cell(z0 + 32.0, z1 + way * rnd.choice((nextafter(32.0, inf), 32.5)), 0.0, 0.0)
    q0, q1 = rnd.choice(((nextafter(d.GREATEST_Q, inf), 0.0), (2047.0, signed(rnd, 1.5))))
    return cell._replace(q0=way * q0, q1=q1)


def fault_range(rnd, c):
    bed = c["bed"]
    for i in spots(rnd, len(bed) - 1):
        cell = d.Cell(*c["now"][4 * i:4 * i + 4])
        c["now"] = with_cell(c["now"], i, out_of_range(rnd, cell, bed[i], bed[i + 1]))


def too_fast(rnd):
    """One of hard.py's fast cells, or one fast at a Gauss point alone: of its faces one is slower, one is dry."""
    if rnd.randrange(3):
        return tuple(x / UNIT for x in hard.too_fast(rnd, 4))
    h0, way = rnd.uniform(0.002, 1), rnd.choice((-1, 1))
    return h0, way * h0, rnd.choice((-1, 1)) * h0 * rnd.uniform(14, 32), 0.0


def fault_speed(rnd, c):
    """Cells that are too fast, of one kind or of several; or one a last place beyond the limit."""
    bed, same = c["bed"], too_fast(rnd)
    for i in spots(rnd, len(bed) - 1) + spots(rnd, len(bed) - 1)[:rnd.randrange(2)]:
        zl, zr = bed[i], bed[i + 1]
        cell = placed(zl, zr, *rnd.choice((same, same, too_fast(rnd))))
        if rnd.randrange(3) == 0:
            cell = racing(rnd, zl, zr)
            cell = cell._replace(q0=nextafter(cell.q0, signed(rnd, inf)))
        c["now"] = with_cell(c["now"], i, cell)


def odd_number(rnd, c):
    """Any number of the call, table or not, is an odd one or stands beside a limit; it may be in order there."""
    where = rnd.randrange(9)
    x = rnd.choice((rnd.choice(ODD), rnd.choice(EDGES)))
    if where < 3:
        c[("dx", "dt", "jump")[where]] = x
    elif where < 5:
        k = spot(rnd, len(c["bed"]))
        c["bed"] = [x if j == k else z for j, z in enumerate(c["bed"])]
    else:
        k = rnd.randrange(len(c["now"]))
        c["now"] = [x if j == k else number for j, number in enumerate(c["now"])]


FAULTS = (fault_lengths, fault_numbers, fault_bed, fault_friction, odd_number, fault_range, fault_speed)


def spoiled(rnd, c):
    # speeds and ranges are set by the bed as it is, so that is spoilt after them; there are many numbers and cells
    chosen = rnd.sample(FAULTS + (fault_numbers, fault_numbers, fault_range, fault_range), rnd.choice((1, 1, 1, 2, 3)))
    for fault in sorted(chosen, key=FAULTS.index, reverse=True):
        fault(rnd, c)
    return c


# ---- Mean depths below nought (9), which only rounding makes

def mirrored(bed, cells):
    """The reach as it is from its other end."""
    return bed[::-1], [d.Cell(c.e0, -c.e1, -c.q0, c.q1) for c in reversed(cells)]


def turned_or_twice(rnd, bed, cells):
    """The reach, its mirror image, or both beside each other: then of two cells the lower one is the place."""
    how = rnd.randrange(4)
    other_bed, other = mirrored(bed, cells)
    if how == 0 and len(cells) <= 8:
        return bed + other_bed[1:], cells + other
    return (other_bed, other) if how < 3 else (bed, cells)


def emptied(rnd):
    """A cell that gives all of its water away in stage one.

    At a face it gives no more than S allows, half of the depth there, and as S is mostly the speed of a wave before
    the water, less.  But beside deep water that runs away more slowly S is the cell's own speed: at 32 m/s and a dx of
    64*dt the cell gives exactly half of each, and rounding decides on which side of nought it ends.
    """
    n, both = rnd.choice((2, 2, 3, 4, 6)), rnd.randrange(2)
    i = rnd.randrange(1, n - 1) if both and n > 2 else rnd.randrange(n - 1)
    both = both and i > 0
    low, rise = rnd.choice((0.0, rnd.uniform(0, 2), rnd.uniform(100, 250))), rnd.choice((0.0, 0.01, 0.5))
    bed = [low + rise * rnd.random() for _ in range(n + 1)]
    deep, fast = rnd.uniform(1, 8), rnd.uniform(12, 22)
    thin = rnd.choice((rnd.uniform(0.002, 0.1), rnd.uniform(0.01, 2)))
    cells = []
    for k, (zl, zr) in enumerate(zip(bed, bed[1:])):
        z0, z1 = d.z0(zl, zr), d.z1(zl, zr)
        if k > i or k < i and both:
            cells.append(d.Cell(z0 + deep, z1, (k - i) / abs(k - i) * deep * fast, 0.0))
        elif k < i:
            cells.append(dry_cell(zl, zr))
        else:
            cell = d.Cell(z0 + thin, z1, 0.0, 0.0)
            h0 = d.h0(cell, zl, zr)
            if both:
                cell = cell._replace(q1=32.0 * h0)
            else:
                cell = cell._replace(e1=d.cut_slope(z1 + 99.0, z1, h0), q0=32.0 * h0)
                cell = cell._replace(q1=32.0 * d.h1(cell, zl, zr))
            cells.append(cell)
    bed, cells = turned_or_twice(rnd, bed, cells)
    dt = rnd.choice((1.0, 0.5, 1.0, rnd.uniform(0.1, 1)))
    return whole_call(bed, cells, dx=64.0 * dt, dt=dt, jump=rnd.choice((64.0, 64.0, 1.0)), left=rnd.randrange(2),
                      right=d.OPEN)


def tuned(call, cells, i, u):
    """Such a discharge for dry cell i that stage one leaves the speed u at its right face, or a last place less.

    The discharge of a dry cell has no speed, so nothing but that cell depends on it in stage one.  Of those that
    check 7 lets pass in stage two it is one that gives more away than there is, if there is one, which is told with it.
    """
    def after(q0):
        one, _ = d.stage([*cells[:i], cells[i]._replace(q0=q0), *cells[i + 1:]], call, 1)
        cell = d.finished(one, call)[i]
        h = d.hr(cell, call.bed[i], call.bed[i + 1])
        return d.qr(cell), h
    q0 = 0.15
    for _ in range(3):
        q, h = after(q0)
        q0 += h * u - q
    q0, found = nextafter(nextafter(q0, inf), inf), []
    for _ in range(8):
        q, h = after(q0)
        v = d.speed(q, h)
        if not d.is_long(v, call):
            found.append((d.volume(h * v, call) > h / 2.0, q0))
        q0 = nextafter(q0, 0.0)
    return max(found, default=(False, q0))


def basin(rnd):
    """A dry cell with deep water on its right, which runs away from it; and a speed that is the limit of check 7."""
    n = rnd.choice((2, 2, 3, 5))
    i = rnd.randrange(n - 1)
    low, rise = rnd.choice((0.0, 0.0, 0.0, rnd.uniform(0, 1), rnd.uniform(100, 250))), rnd.choice((0.0, 0.0, 0.0, 0.01))
    bed = [low + rise * rnd.random() for _ in range(n + 1)]
    deep, speed = rnd.uniform(0.1, 0.4), rnd.uniform(0.2, 1.5)
    # just above a power of two a last place is the largest part of a number, and the limit of check 7 the widest
    u, dx = rnd.uniform(5.2, 6.7), 2.0 ** rnd.randint(-3, 3) * rnd.uniform(1, 1.1)
    cells = [placed(zl, zr, deep, 0.0, deep * speed, 0.0) if k > i else dry_cell(zl, zr)
             for k, (zl, zr) in enumerate(zip(bed, bed[1:]))]
    return i, u, cells, d.Call(n, bed, dx, dx / (2.0 * u), 64.0, d.WALL, d.OPEN)


def filled_and_emptied(rnd):
    """A dry cell that is filled in stage one and emptied in stage two, as `emptied` is: so it ends below nought.

    Its water comes from the deep cell on its right, and goes back there, since its own discharge has turned it round.
    """
    for _ in range(4):
        i, u, cells, call = basin(rnd)
        try:
            below, q0 = tuned(call, cells, i, u)
        except d.Refused:
            continue
        cells[i] = cells[i]._replace(q0=q0)
        if below:
            break
    bed, cells = turned_or_twice(rnd, call.bed, cells)
    return whole_call(bed, cells, dx=call.dx, dt=call.dt, jump=64.0, left=d.OPEN, right=d.OPEN)


# ---- Values that grow too large (8)

def brimming(rnd):
    """Water at the greatest depth, or about to be: one cell, or a lake with a cell that runs."""
    n = rnd.choice((1, 2, 3, 5))
    bed = [rnd.choice((0.0, rnd.random()))] * (n + 1)
    i = spot(rnd, n)
    cells = []
    for k, (zl, zr) in enumerate(zip(bed, bed[1:])):
        h0 = rnd.choice((d.DEEPEST, nextafter(d.DEEPEST, 0), d.DEEPEST - rnd.random() * 0.01))
        cells.append(placed(zl, zr, h0, 0.0, rnd.uniform(-20, 20) if k == i else 0.0, 0.0))
    dt = rnd.choice((d.LEAST_DT, rnd.uniform(0.0003, 0.01)))
    return whole_call(bed, cells, dx=within_dx(60.0 * dt * rnd.choice((1, 1, 3, 50))), dt=dt,
                      jump=rnd.choice((0.0, 64.0)), left=rnd.randrange(2), right=rnd.randrange(2))


def pit(rnd):
    """hard.py's pit, where a cell that is full may be too full at the end alone."""
    n = rnd.choice((3, 3, 4, 5, 6))
    whole = hard.pit(rnd, n, 4)
    bed, cells = in_metres(*whole) if rnd.randrange(2) else roughened(rnd, *whole)
    dt, left, right = times(rnd), rnd.randrange(2), rnd.randrange(2)
    S = greatest_S(cells, d.Call(n, bed, 1.0, dt, 0.0, left, right)) or 1.0
    return whole_call(bed, cells, dx=within_dx(2.0 * dt * S * rnd.choice((1, 2, 5, 20)) * rnd.uniform(1, 1.2)), dt=dt,
                      jump=rnd.choice((0.0, 64.0)), left=left, right=right)


def pushed(rnd):
    """Water without a speed and with about the greatest discharge, beside deeper water that pushes it on, by little."""
    n = rnd.choice((2, 3, 5))
    bed = [rnd.choice((0.0, rnd.random()))] * (n + 1)
    i = spot(rnd, n)
    j = i + (1 if i == 0 or (i < n - 1 and rnd.randrange(2)) else -1)
    cells = [placed(zl, zr, d.DRY * rnd.random(), 0.0, 0.0, 0.0) for zl, zr in zip(bed, bed[1:])]
    about = rnd.choice((d.GREATEST_Q, nextafter(d.GREATEST_Q, 0), d.GREATEST_Q - 1e-4))
    cells[i] = cells[i]._replace(q0=(i - j) * about)
    cells[j] = placed(bed[j], bed[j + 1], 2.0 ** rnd.uniform(-10, 1), 0.0, 0.0, 0.0)
    dt = rnd.uniform(0.0003, 0.05)
    return whole_call(bed, cells, dx=within_dx(dt * rnd.uniform(10, 60)), dt=dt, jump=rnd.choice((0.0, 64.0)),
                      left=rnd.randrange(2), right=rnd.randrange(2))


# ---- Whole calls

ORDER = ("now", "next_len", "bed", "friction", "dx", "dt", "jump", "left", "right")


def whole_call(bed, cells, **numbers):
    n = len(cells)
    return dict(now=d.table_of(cells), next_len=4 * n, bed=bed, friction=[0] * n, **numbers)


def number_of_cells(rnd):
    if rnd.randrange(500) == 0:
        return m.MOST_CELLS
    if rnd.randrange(150) == 0:
        return SHORT_CELLS + rnd.randrange(2)
    return rnd.choice((1, 1, 1, 2, 2, 2, 3, 3, 3, 16, rnd.randint(4, 12), rnd.randint(4, 12)))


def far_call(rnd):
    """A long reach that nothing but a fault refuses: so its place may be far along (E13)."""
    n = rnd.choice((SHORT_CELLS + 1, 300, m.MOST_CELLS))
    bed, cells = roughened(rnd, *hard.gentle(rnd, n, 4))
    c = whole_call(bed, cells, dx=1.0, dt=d.LEAST_DT, jump=0.0, left=rnd.randrange(2), right=rnd.randrange(2))
    rnd.choice((fault_bed, fault_friction, fault_range, fault_speed))(rnd, c)
    return c


def drawn_call(rnd):
    n, left, right = number_of_cells(rnd), rnd.randrange(2), rnd.randrange(2)
    bed, cells = reach_of(rnd, n)
    dx, dt = lengths_and_times(rnd, cells, bed, left, right)
    jump = jumps(rnd, cells, d.Call(n, bed, dx, dt, 0.0, left, right))
    return whole_call(bed, cells, dx=dx, dt=dt, jump=jump, left=left, right=right)


def hard_call(rnd):
    if rnd.randrange(150) == 0:
        return far_call(rnd)
    how = rnd.randrange(50)
    own = emptied, emptied, emptied, filled_and_emptied, filled_and_emptied, brimming, pit, pit, pushed
    c = own[how](rnd) if how < len(own) else drawn_call(rnd)
    return spoiled(rnd, c) if rnd.randrange(5) == 0 else c


def calls(seed, count):
    rnd = random.Random(seed)
    for _ in range(count):
        c = hard_call(rnd)
        yield tuple(c[name] for name in ORDER)


# ---- Runs: a reach, and one call after another from what the one before wrote

def run_reach(rnd, n):
    """A bed and a state over it: ordinary water, water that runs up a shore, or hardly any; and a dx."""
    high, least, most, fast = rnd.choice(((0.1, 0.2, 2.0, 1.0), (0.5, 0.0, 0.6, 0.5), (0.01, 0.0, 0.02, 0.2),
                                          (20.0, 0.5, 3.0, 0.3)))
    low = rnd.choice((0.0, rnd.uniform(0, 200)))
    bed = [low + high * rnd.random() for _ in range(n + 1)]
    cells = []
    for zl, zr in zip(bed, bed[1:]):
        h0 = 0.0 if least == 0 and rnd.randrange(3) == 0 else rnd.uniform(least, most)
        q0 = h0 * rnd.uniform(-fast, fast)
        cells.append(placed(zl, zr, h0, rnd.uniform(-0.3, 0.3) * h0, q0, rnd.uniform(-0.1, 0.1) * q0))
    return bed, cells, rnd.uniform(0.5, 20)


def run_call(rnd, now, bed, dx, share=1.0):
    """A step from some state, with its own J and ends: a third of the longest that its waves allow, or a share."""
    n = len(bed) - 1
    cells = d.cells_of(now)
    S = max(abs(d.speed(c.q0, h)) + 2.0 * sqrt(9.81 * h) for c, h in
            ((c, d.h0(c, zl, zr)) for c, zl, zr in zip(cells, bed, bed[1:])))
    dt = min(1.0, max(d.LEAST_DT, share * dx / (rnd.uniform(2.5, 6) * max(S, 0.1))))
    left, right = rnd.choice((0, 0, 0, 1)), rnd.choice((0, 0, 0, 1))
    return now, 4 * n, bed, [0] * n, dx, dt, rnd.choice((0.0, 0.01, 0.1, 64.0)), left, right


# ---- Statistics

def answered(call):
    try:
        d.worked(*call)
        return "accepted"
    except d.Refused as r:
        return "%d %s" % (r.number, r.check)


def main():
    seed = int(sys.argv[1]) if len(sys.argv) > 1 else 1
    count = int(sys.argv[2]) if len(sys.argv) > 2 else 4000
    start = time.time()
    made = list(calls(seed, count))
    middle = time.time()
    by_answer, by_n = Counter(), Counter()
    for call in made:
        answer = answered(call)
        by_answer[answer] += 1
        if answer == "accepted":
            by_n[len(call[3])] += 1
    for answer in sorted(by_answer):
        print("%6d  %5.1f %%  %s" % (by_answer[answer], 100 * by_answer[answer] / count, answer))
    print("accepted by number of cells: " + ", ".join("%d: %d" % (n, by_n[n]) for n in sorted(by_n)))
    print("%d calls of seed %d: made in %.1f s, answered in %.1f s"
          % (count, seed, middle - start, time.time() - middle))


if __name__ == "__main__":
    main()
