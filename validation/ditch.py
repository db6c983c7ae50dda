"""Ordinary ditch flow: uniform flow down a slope in the middle of a long reach, held to Manning's discharge.

There every cell has the same depth and discharge.  The library steps nine such cells, and before each step all of
them are given what the middle one has (reach.c, `alike`): that one never meets an end.  What rounding leaves of the
discharge follows from the push P of one step, which is how much the slope adds to the discharge, in the library's
units: only its whole part acts, and friction takes up to one unit too much.  So flow stands still where friction
takes a number between the whole part of P less one and the whole part of P.
"""

from math import sqrt

from picture import BLACK, BLUE, ORANGE, Picture
from reach import DITCH_DRY, GRAVITY, INFLOW, OPEN, UNIT, Reach, stepped, stood, units
from tables import table

FINEST = 2048                                   # 1 in so much is the least slope that cells of 1 m can draw
SLOPES = tuple(k / FINEST for k in (1, 2, 4, 8, 16, 40))
DEPTHS = (0.1, 0.3, 1, 2)                       # m
WIDTHS = (1, 2, 4, 8, 16)                       # m: the cells
EARTH = 0.030                                   # the Manning value of an earth ditch
JUMP, LONGEST_DT = 64, 4096
ALIKE, MOST_STEPS = 9, 20000
MORE = 1.5                                      # the discharge at the start, over Manning's; or none
COMMON = 2 / FINEST, 0.3                        # the ditch that the smaller tables are about

# Of each row of the table of steps: the cells (m), the parts of a cell in a step, and the Manning value.
STEPS = ((1, 3, EARTH), (1, 6, EARTH), (2, 3, EARTH), (4, 3, EARTH), (4, 12, EARTH), (6, 3, EARTH), (8, 3, EARTH),
         (16, 3, EARTH), (1, 3, 0.015), (1, 3, 0.060), (6, 3, 0.015), (6, 3, 0.060))

# The long reach: its cells, the steps, and how many cells in its middle are looked at; of each row the slope, the
# depth and the cells (m). A wave from an end runs a third of a cell a step.
LONG, LONG_STEPS, MIDDLE = 512, 600, 40
LONGS = ((2 / FINEST, 0.3, 1), (1 / 1000, 0.3, 1), (1 / 1500, 0.3, 1), (1 / 4096, 1, 1), (1 / 4096, 1, 4))

# The ditch below an inflow, with a chute at its end (m), the chute's slope, and the seconds.
LENGTH, CHUTE, STEEP, SECONDS = 240, 40, 1 / 40, 600
CHUTE_PARTS = 4                                 # parts of a cell in a step: the water is faster on the chute
LOOKED = (0, 80)                                # m: the upper part, which is held to the exact depths
DEPTH_PIECES = 10000                            # of the exact curve, from the critical depth to Manning's


class Ditch:
    """Uniform flow of a depth (m) down a slope, in cells of `width` metres, a step being one of `parts` of a cell."""

    def __init__(self, slope, depth, width, manning=EARTH, parts=3):
        self.slope, self.width, self.manning = slope, width, manning
        self.h = units(depth) / UNIT
        self.speed = self.h ** (2 / 3) * sqrt(slope) / manning
        self.q = self.h * self.speed
        self.dx = width * UNIT
        self.dt = min(LONGEST_DT, int(self.dx / (parts * (self.speed + sqrt(GRAVITY * self.h)))))
        self.push = GRAVITY * self.h * slope * self.dt          # P; dt is in 1/4096 s, so this is in 1/4096 m2/s
        self.drag = self.push / units(self.q)                   # what friction takes in a step, of the discharge

    def bed(self, n):
        """The nearest even numbers: at a gentle slope a staircase."""
        return [2 * round(self.slope * (n - i) * self.dx / 2) for i in range(n + 1)]

    def reach(self, n, share=1.0, left=OPEN):
        """So much of Manning's discharge at Manning's depth; an inflow brings the same."""
        bed, q = self.bed(n), round(share * self.q * UNIT)
        cells = [((low + high) // 2 + units(self.h), (high - low) // 2, q, 0) for low, high in zip(bed, bed[1:])]
        return Reach(self.dx, self.dt, JUMP, DITCH_DRY, left, OPEN, bed, [round(1000 * self.manning)] * n, cells,
                     [(q if left == INFLOW else 0, 0)])

    def pushes(self, n):
        """The whole part of each cell's push, as the library has it."""
        bed = self.bed(n)
        return [981 * 2 * units(self.h) * (low - high) * self.dt // (819200 * self.dx)
                for low, high in zip(bed, bed[1:])]

    def by_law(self, taken):
        """The discharge of which friction takes so many units in a step, over Manning's.

        Friction takes drag/(1 + 2 drag) of a discharge, and drag is as the discharge: r r = share (1 + 2 r drag)."""
        share = max(0, taken) / self.push
        return share * self.drag + sqrt((share * self.drag) ** 2 + share)

    def law(self):
        whole = self.pushes(1)[0]
        return self.by_law(whole - 1), self.by_law(whole)

    def over_manning(self, q):
        return q / UNIT / self.q

    def stands(self, command):
        """The discharges over Manning's at which flow comes to a stand from rest, and from more."""
        cells = [stood(command, self.reach(ALIKE, share), MOST_STEPS) for share in (0, MORE)]
        return tuple(self.over_manning(q) for _, _, q, _ in cells)


def percents(low, high):
    texts = ["%.0f" % (100 * x) for x in (low, high)]
    return texts[0] if texts[0] == texts[1] else " to ".join(texts)


def tenths(low, high):
    return "%.1f to %.1f" % (100 * low, 100 * high)


def slope_text(slope):
    return "1 in " + format(1 / slope, ",g")


def by_slope(grid):
    rows = []
    for slope in SLOPES:
        for depth in DEPTHS:
            found = [percents(*grid[slope, depth, width][1]) for width in WIDTHS]
            q = grid[slope, depth, WIDTHS[0]][0].q
            rows.append([slope_text(slope), "%g" % depth, "%.3f" % q] + found)
    return table(["slope", "depth (m)", "Manning's discharge (m2/s)"] + ["cells of %d m (%%)" % w for w in WIDTHS], rows)


def by_step(command):
    rows = []
    for width, parts, manning in STEPS:
        ditch = Ditch(*COMMON, width, manning, parts)
        rows.append(("%d" % width, "1/%d" % parts, "%.3f" % manning, "%.3f" % (ditch.dt / UNIT), "%.2f" % ditch.push,
                     "%.1f" % (100 * ditch.drag), tenths(*ditch.law()), tenths(*ditch.stands(command))))
    heads = ("cells (m)", "step, of a cell (at most 1 s)", "Manning value", "time step (s)", "P", "g·S·dt/u (%)",
             "by the law (%)", "measured (%)")
    return table(heads, rows)


def falls_text(bed):
    """How many units the cells fall, with the share of each."""
    falls = [low - high for low, high in zip(bed, bed[1:])]
    kinds = sorted(set(falls))
    shares = ["%d (%.0f %%)" % (fall, 100 * falls.count(fall) / len(falls)) for fall in kinds]
    return str(kinds[0]) if len(kinds) == 1 else " or ".join(shares)


def above_bed(cells, bed):
    """The depth and its slope in place of the level's."""
    return [(e0 - (low + high) // 2, e1 - (high - low) // 2, q0, q1)
            for (e0, e1, q0, q1), low, high in zip(cells, bed, bed[1:])]


def long_row(command, slope, depth, width):
    """The row, and how many cells of the middle are not what a reach without ends has; None on a staircase."""
    ditch = Ditch(slope, depth, width)
    bed, pushes = ditch.bed(LONG), ditch.pushes(LONG)
    state = stepped(command, ditch.reach(LONG, left=INFLOW), LONG_STEPS, LONG_STEPS)[-1]
    first = (LONG - MIDDLE) // 2
    middle = above_bed(state.cells, bed)[first:first + MIDDLE]
    shares = [ditch.over_manning(q) for _, _, q, _ in middle]
    row = [slope_text(slope), "%g" % depth, str(width), falls_text(bed), "%.2f" % ditch.push,
           "%.2f" % (sum(pushes) / LONG), tenths(min(shares), max(shares))]
    if len(set(pushes)) > 1:
        return row + ["a staircase"], None
    one = stood(command, ditch.reach(ALIKE), MOST_STEPS)
    alike = above_bed([one] * ALIKE, ditch.bed(ALIKE))[ALIKE // 2]
    unlike = sum(cell != alike for cell in middle)
    return row + ["%d of %d" % (MIDDLE - unlike, MIDDLE)], unlike


def in_long_reach(command):
    rows, unlikes = zip(*(long_row(command, *case) for case in LONGS))
    heads = ("slope", "depth (m)", "cells (m)", "fall of a cell (units)", "P", "whole parts of P, mean",
             "discharge of the middle (%)", "cells as without ends")
    return table(heads, rows), sum(unlike for unlike in unlikes if unlike is not None)


class Backwater:
    """The ditch below an inflow: to a brink, and down a chute.  Exact depths by the equation of gradual flow."""

    def __init__(self, width):
        self.ditch = Ditch(*COMMON, width, parts=CHUTE_PARTS)
        self.width, self.q = width, self.ditch.q
        self.n, self.down = (LENGTH + CHUTE) // width, CHUTE // width

    def reach(self):
        """The exact depths at first, and Manning's on the chute."""
        ditch, steep = self.ditch, 2 * round(STEEP * self.width * UNIT / 2)
        fall = round(ditch.slope * ditch.dx)
        falls = [fall] * (self.n - self.down) + [steep] * self.down
        bed = [sum(falls[i:]) for i in range(self.n + 1)]
        thin = units((ditch.manning * self.q / sqrt(STEEP)) ** 0.6)
        depths = [units(depth) for depth in self.exact_depths()] + [thin] * self.down
        cells = [((low + high) // 2 + depth, (high - low) // 2, units(self.q), 0)
                 for low, high, depth in zip(bed, bed[1:], depths)]
        return Reach(ditch.dx, ditch.dt, JUMP, DITCH_DRY, INFLOW, OPEN, bed, [round(1000 * ditch.manning)] * self.n,
                     cells, [(units(self.q), 0)])

    def exact_depths(self):
        """At mid-cells of the ditch, from the critical depth at the brink upward.

        The way to a little more depth is worked, and not the other way round: at the brink the level is upright."""
        ditch, h, way, depths = self.ditch, (self.q ** 2 / GRAVITY) ** (1 / 3), 0.0, []
        rise = (ditch.h - h) / DEPTH_PIECES
        for i in range(self.n - self.down):
            while way < (i + 0.5) * self.width and h + rise < ditch.h:
                h += rise / 2
                slower = 1 - self.q ** 2 / (GRAVITY * h ** 3)
                way += rise * slower / ((ditch.manning * self.q) ** 2 / h ** (10 / 3) - ditch.slope)
                h += rise / 2
            depths.insert(0, h)
        return depths

    def measured(self, command):
        """The mean depth of the upper part and the exact one."""
        reach, steps = self.reach(), round(SECONDS * UNIT / self.ditch.dt)
        cells = above_bed(stepped(command, reach, steps, steps)[-1].cells, reach.bed)
        first, last = (place // self.width for place in LOOKED)
        depths = [cell[0] / UNIT for cell in cells]
        return [sum(row[first:last]) / (last - first) for row in (depths, self.exact_depths())]


def below_inflow(command):
    rows, errors = [], {}
    for width in WIDTHS[:4]:
        backwater = Backwater(width)
        depth, exact = backwater.measured(command)
        errors[width] = depth / exact - 1
        rows.append((str(width), "%.3f" % (backwater.ditch.dt / UNIT), "%.2f" % backwater.ditch.push, "%.4f" % depth,
                     "%.4f" % exact, ("%+.1f" % (100 * errors[width])).replace("-", "\u2212")))
    return table(("cells (m)", "time step (s)", "P", "depth (m)", "exact (m)", "error (%)"), rows), errors


def drawing(grid):
    picture = Picture("What uniform flow keeps of Manning's discharge", "P, the push of one step (units of discharge)",
                      "discharge (% of Manning's)", (0, 20, 2), (0, 120, 20))
    upper, lower = [(0, 0), (1, 0)], [(0, 0), (1, 0)]
    for m in range(1, 20):
        ends = m, m + 1
        upper += [(p, 100 * sqrt(m / p)) for p in ends]
        lower += [(p, 100 * sqrt((m - 1) / p)) for p in ends]
    picture.line(upper, BLACK, "the law, from more", width=1.2)
    picture.line(lower, BLACK, "the law, from rest", width=1.2, dash="3 3")
    near = [(ditch.push, stands) for ditch, stands in grid.values() if ditch.push <= 20]
    picture.dots([(p, 100 * high) for p, (_, high) in near], BLUE, "measured, from more", radius=2.6)
    picture.dots([(p, 100 * low) for p, (low, _) in near], ORANGE, "measured, from rest", radius=2.6)
    return picture.svg("foot")


def from_law(grid):
    """The farthest that a measured discharge is from the law, in hundredths of Manning's."""
    return max(100 * abs(a - b) for ditch, stands in grid.values() for a, b in zip(stands, ditch.law()))


def report(command):
    grid = {}
    for slope in SLOPES:
        for depth in DEPTHS:
            for width in WIDTHS:
                ditch = Ditch(slope, depth, width)
                grid[slope, depth, width] = ditch, ditch.stands(command)
    long_table, unlike = in_long_reach(command)
    inflow_table, errors = below_inflow(command)
    low, high = grid[COMMON + (16,)][1]
    figures = {"ditch flow: farthest from the law (% of Manning's)": from_law(grid),
               "ditch flow, cells of 16 m: from rest (%)": 100 * low,
               "ditch flow, cells of 16 m: from more (%)": 100 * high,
               "ditch flow: middle cells that are not as without ends": unlike,
               "ditch flow below an inflow, cells of 1 m: depth error (%)": 100 * errors[1],
               "ditch flow below an inflow, cells of 8 m: depth error (%)": 100 * errors[8]}
    tables = {"ditch": by_slope(grid), "ditch-steps": by_step(command), "ditch-long": long_table,
              "ditch-inflow": inflow_table}
    return tables, {"ditch.svg": drawing(grid)}, figures
