"""A small standing wave in a closed basin, held to linear theory.

The level is H + a cos(pi x/L) cos(2 pi t/T) with T = 2L/sqrt(gH).  As with the dam break, the case
is run in the size of a ditch and 16 times as large, where rounding counts 16 times less.
"""

from math import cos, pi, sin, sqrt

from picture import BLACK, BLUE, GREEN, ORANGE, Picture
from reach import DITCH_DRY, GRAVITY, UNIT, WALL, Reach, refusal_of, stepped, units
from tables import count_text, order_text, orders, table

LENGTH, DEPTH, HEIGHT = 64, 2, 0.02         # of the ditch, in metres
COUNTS = (4, 8, 16, 32, 64, 128, 256)
HEIGHTS = (0.01, 0.02, 0.05, 0.10)
TRAVELS = (0.25, 0.30, 0.33, 0.36, 0.40, 0.45)
UNLIMITED = 262144                          # J at its greatest: no slope is limited
LONGEST_DT = 4096


class Basin:
    """A basin with its wave: n cells, times `size` the ditch.

    travel is how much of a cell a wave runs through in a step; the scheme is stable below a third."""

    def __init__(self, n, size, height=HEIGHT, travel=0.25):
        self.n, self.size = n, size
        self.length, self.depth, self.height = LENGTH * size, DEPTH * size, height * size
        self.speed = sqrt(GRAVITY * self.depth)
        self.period = 2 * self.length / self.speed
        self.dx = self.length * UNIT // n
        self.dt = min(LONGEST_DT, int(travel * self.dx / self.speed))

    def steps(self, periods):
        return round(periods * self.period * UNIT / self.dt)

    def phase(self, steps):
        return 2 * pi * steps * self.dt / UNIT / self.period

    def shape(self, i):
        """The mean of cos(pi x/L) over cell i."""
        k = pi / self.n
        return (sin(k * (i + 1)) - sin(k * i)) / k

    def reach(self):
        k = pi / self.n
        cells = [(units(self.depth + self.height * self.shape(i)),
                  units(self.height * (cos(k * (i + 1)) - cos(k * i)) / 2), 0, 0) for i in range(self.n)]
        bed, friction = [0] * (self.n + 1), [0] * self.n
        return Reach(self.dx, self.dt, UNLIMITED, DITCH_DRY, WALL, WALL, bed, friction, cells)

    def rise(self, level):
        """How far a level is above the still level, in wave heights."""
        return (level / UNIT - self.depth) / self.height

    def mean_error(self, state, steps):
        """In wave heights."""
        swing = cos(self.phase(steps))
        return sum(abs(self.rise(c[0]) - self.shape(i) * swing) for i, c in enumerate(state.cells)) / self.n

    def first_mode(self, state):
        """How much of cos(pi x/L) is in the level, in wave heights."""
        parts = [(self.rise(c[0]), self.shape(i)) for i, c in enumerate(state.cells)]
        return sum(a * b for a, b in parts) / sum(b * b for _, b in parts)


def measured(command, basin):
    """Mean error after one period, the height that is left, and the period over that of theory."""
    last = basin.steps(1)
    states = stepped(command, basin.reach(), last, 1)
    modes = [basin.first_mode(state) for state in states]
    return (basin.mean_error(states[last], last), modes[last] / modes[0] / cos(basin.phase(last)),
            2 * half_period(modes) * basin.dt / UNIT / basin.period)


def half_period(modes):
    """Steps between the first two times that the mode passes through nought."""
    passed = [k + a / (a - b) for k, (a, b) in enumerate(zip(modes, modes[1:])) if a != 0 and a * b <= 0]
    return passed[1] - passed[0] if len(passed) > 1 else float("nan")


def percent(x):
    return ("%.1f" % (100 * x)).replace("-", "\u2212")


def period_text(x):
    return "none" if x != x else "%.4f" % x


def by_cells(ditch, large):
    rows = []
    for n, d, g, order in zip(COUNTS, ditch, large, orders([g[0] for g in large])):
        rows.append((count_text(n), percent(d[0]), percent(d[1]), period_text(d[2]), "%.2f" % (100 * g[0]),
                     order_text(order), percent(g[1]), period_text(g[2])))
    heads = ("cells", "ditch: mean error (%)", "height left (%)", "period / theory",
             "16 times as large: mean error (%)", "order", "height left (%)", "period / theory")
    return table(heads, rows)


def by_height(command):
    rows = []
    for height in HEIGHTS:
        row = ["%.0f" % (100 * height)]
        for n in (16, 64):
            left = measured(command, Basin(n, 1, height))[1]
            row += [percent(left), "%.1f" % (1000 * height * (1 - left))]
        rows.append(row)
    heads = ("wave height a (cm)", "16 cells: height left (%)", "lost (mm)", "64 cells: height left (%)", "lost (mm)")
    return table(heads, rows)


def by_time_step(command):
    """What becomes of three periods in 64 cells, in the ditch with 10 cm and in the large basin.

    The table, and the longest travel up to which all steps are accepted in both."""
    rows, accepted = [], {}
    for travel in TRAVELS:
        row = ["%.2f" % travel]
        for basin in (Basin(64, 1, 0.10, travel), Basin(64, 16, HEIGHT, travel)):
            steps = basin.steps(3)
            refused = refusal_of(command, basin.reach(), steps)
            accepted[travel] = accepted.get(travel, True) and refused is None
            row.append("step %d is refused with %d" % refused if refused else
                       "%s steps accepted" % count_text(steps))
        rows.append(row)
    heads = ("dt·√(gH)/dx", "ditch, a = 10 cm", "16 times as large, a = 32 cm")
    refused = [travel for travel in TRAVELS if not accepted[travel]]
    return table(heads, rows), max((travel for travel in TRAVELS if travel < min(refused, default=1)), default=0)


def shapes(command):
    basin = Basin(16, 16)
    states = stepped(command, basin.reach(), basin.steps(0.5), 1)
    picture = Picture("Standing wave at every eighth of a period, 32 m deep, 16 cells",
                      "distance x (m)", "level above still water (m)", (0, 1024, 128), (-0.4, 0.4, 0.1))
    for k in range(5):
        steps = basin.steps(k / 8)
        swing = basin.height * cos(basin.phase(steps))
        picture.line([(x, swing * cos(pi * x / 1024)) for x in range(0, 1025, 8)], BLACK,
                     None if k else "linear theory", width=1.2)
        picture.dots([(64 * (i + 0.5), basin.height * basin.rise(cell[0]))
                      for i, cell in enumerate(states[steps].cells)], BLUE, None if k else "computed cell means")
    return picture.svg("middle")


def wall_levels(command, basin, periods, every):
    """Time in periods and rise at the left wall in wave heights; the cell's slope is counted in."""
    states = stepped(command, basin.reach(), basin.steps(periods), every)
    wall = [state.cells[0][0] - state.cells[0][1] for state in states]
    return [(basin.phase(k * every) / (2 * pi), basin.rise(level)) for k, level in enumerate(wall)]


def at_the_wall(command):
    picture = Picture("Level at the wall over three periods", "time (periods of theory)",
                      "level above still water / a", (0, 3, 0.5), (-1.5, 2.5, 0.5))
    picture.line([(k / 100, cos(2 * pi * k / 100)) for k in range(301)], BLACK, "linear theory", width=1.2)
    picture.dots(wall_levels(command, Basin(16, 16), 3, 4), BLUE, "32 m deep, a = 32 cm, 16 cells", radius=2.6)
    picture.line(wall_levels(command, Basin(16, 1), 3, 1), GREEN, "2 m deep, a = 2 cm, 16 cells", dash="7 3")
    picture.line(wall_levels(command, Basin(64, 1), 3, 4), ORANGE, "2 m deep, a = 2 cm, 64 cells", dash="2 2")
    return picture.svg()


def figures_of(ditch, large, travel):
    """Of the large basin in 8 and 16 cells, where the scheme counts, and of the ditch, where rounding does."""
    ditch, large = dict(zip(COUNTS, ditch)), dict(zip(COUNTS, large))
    figures = {"standing wave, 16 times as large: order, 4 to 8 cells": orders([large[4][0], large[8][0]])[1],
               "time step: longest accepted, of a cell": travel}
    for name, n, basin in (("standing wave, 16 times as large", 8, large), ("standing wave, 16 times as large", 16, large),
                           ("standing wave, ditch", 16, ditch), ("standing wave, ditch", 64, ditch)):
        error, left, period = basin[n]
        figures["%s, %d cells: mean error (%%)" % (name, n)] = 100 * error
        figures["%s, %d cells: height left (%%)" % (name, n)] = 100 * left
        figures["%s, %d cells: period / theory" % (name, n)] = period
    return figures


def report(command):
    ditch, large = ([measured(command, Basin(n, size)) for n in COUNTS] for size in (1, 16))
    steps, travel = by_time_step(command)
    tables = {"standing-wave": by_cells(ditch, large), "standing-wave-heights": by_height(command), "time-step": steps}
    pictures = {"standing-wave.svg": shapes(command), "standing-wave-wall.svg": at_the_wall(command)}
    return tables, pictures, figures_of(ditch, large, travel)
