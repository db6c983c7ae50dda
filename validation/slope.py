"""Uniform flow down a slope, held to Manning's depth.

The slope is so steep that the water runs faster than its waves, and the inflow comes in on a level piece
above it: an end with a given inflow sets the discharge and not the depth, which fast water needs as well.
To tell rounding from the scheme the flow is run deeper, as in bank.py: heights times d, times through the
root of d and Manning values times d^(2/3).
"""

from math import sqrt

from picture import BLACK, BLUE, GREEN, ORANGE, Picture
from reach import DITCH_DRY, GRAVITY, INFLOW, OPEN, UNIT, Reach, ended, stepped, units
from tables import count_text, table

LENGTH, BRINK, LAST = 160, 20, 40               # m: the reach, its level piece, and what is held to Manning
FALL, MANNING, DISCHARGE = 0.02, 0.020, 1       # the discharge in m2/s
SECONDS, JUMP = 240, 64
DEEP = 8                                        # so that the Manning value is whole: 0.080
COUNTS = (40, 80, 160, 320)
PIECES, SHORTER = 41120, 32896                  # dt is one of these over the cells
START = 0.7, 0.4                                # m: the depth at the start, on the level and on the slope
NORMAL = (MANNING * DISCHARGE / sqrt(FALL)) ** 0.6
CRITICAL = (DISCHARGE ** 2 / GRAVITY) ** (1 / 3)


class Slope:
    """The reach in n cells, run `deep` times as deep; it is given and answers as the shallow flow."""

    def __init__(self, n, deep=1, pieces=PIECES, brink=BRINK, start=START):
        self.n, self.deep, self.width = n, deep, LENGTH / n
        self.pace, self.flow = sqrt(deep), deep ** 1.5
        self.dt = round(pieces // n / self.pace)
        self.steps = round(SECONDS * UNIT / self.pace / self.dt)
        self.bed = [2 * round(deep * FALL * (LENGTH - max(i * self.width, brink)) * UNIT / 2) for i in range(n + 1)]
        self.first = [start[0] if (i + 1) * self.width <= brink else start[1] for i in range(n)]

    def reach(self):
        q = round(self.flow * DISCHARGE * UNIT)
        cells = [((low + high) // 2 + units(self.deep * depth), (high - low) // 2, q, 0)
                 for low, high, depth in zip(self.bed, self.bed[1:], self.first)]
        friction = round(1000 * MANNING * self.deep ** (2 / 3))
        return Reach(LENGTH * UNIT // self.n, self.dt, self.deep * JUMP, self.deep * DITCH_DRY, INFLOW, OPEN, self.bed,
                     [friction] * self.n, cells, [(q, 0)])

    def run(self, command):
        return stepped(command, self.reach(), self.steps, self.steps)[-1]

    def depths(self, state):
        grounds = [(low + high) // 2 for low, high in zip(self.bed, self.bed[1:])]
        return [(cell[0] - ground) / UNIT / self.deep for cell, ground in zip(state.cells, grounds)]

    def last_depths(self, state):
        return self.depths(state)[-round(LAST / self.width):]

    def discharges(self, state):
        return [cell[2] / UNIT / self.flow for cell in state.cells]

    def places(self):
        return [(i + 0.5) * self.width for i in range(self.n)]


def range_text(numbers):
    return "%.4f to %.4f" % (min(numbers), max(numbers))


def percent(ratio):
    return ("%+.2f" % (100 * (ratio - 1))).replace("-", "\u2212")


def over_normal(slope, state):
    """The mean depth of the last cells over Manning's."""
    depths = slope.last_depths(state)
    return sum(depths) / len(depths) / NORMAL


def error_text(slope, state):
    return percent(over_normal(slope, state))


def told(slope, state):
    """The depths and discharges of the last cells, with the error."""
    depths = slope.last_depths(state)
    return [range_text(depths), error_text(slope, state), range_text(slope.discharges(state)[-len(depths):])]


def by_cells(command, shallow, deep):
    rows = []
    for (slope, state), (deeper, deeper_state) in zip(shallow, deep):
        shorter = Slope(slope.n, pieces=SHORTER)
        rows.append([count_text(slope.n), "%.4f" % (slope.dt / UNIT)] + told(slope, state)
                    + [error_text(shorter, shorter.run(command))] + told(deeper, deeper_state))
    heads = ("cells", "time step (s)", "depth (m)", "error (%)", "discharge (m2/s)", "a fifth shorter step: error (%)",
             "%d times as deep: depth (m)" % DEEP, "error (%)", "discharge (m2/s)")
    return table(heads, rows)


def without_level(command):
    """The inflow straight onto the slope, from Manning's depth: the answer, and the depth of the first cell."""
    rows = []
    for n in COUNTS:
        slope = Slope(n, brink=0, start=(NORMAL, NORMAL))
        state, refused = ended(command, slope.reach(), slope.steps)
        if refused:
            rows.append((count_text(n), "step %d is refused with %d" % refused, ""))
        else:
            rows.append((count_text(n), "%s steps accepted" % count_text(slope.steps), "%.3f" % slope.depths(state)[0]))
    return table(("cells", "no level piece, Manning's depth at the start", "depth at the inflow (m)"), rows)


def drawing(runs):
    picture = Picture("Down a slope of 1 in 50, after %d s" % SECONDS, "distance (m)", "depth (m)",
                      (0, LENGTH, 20), (0.2, 0.8, 0.1))
    picture.line([(BRINK, NORMAL), (LENGTH, NORMAL)], BLACK, "Manning's depth", width=1.2)
    picture.line([(0, CRITICAL), (LENGTH, CRITICAL)], BLACK, "critical depth", width=1.2, dash="2 3")
    for (slope, state), colour in zip(runs, (BLUE, ORANGE, GREEN)):
        name = "%d cells" % slope.n if slope.deep == 1 else "%d cells, %d times as deep" % (slope.n, slope.deep)
        picture.line(list(zip(slope.places(), slope.depths(state))), colour, name)
    return picture.svg()


def report(command):
    shallow, deep = ([(slope, slope.run(command)) for slope in (Slope(n, d) for n in COUNTS)] for d in (1, DEEP))
    tables = {"slope": by_cells(command, shallow, deep), "slope-steep": without_level(command)}
    errors, deep_errors = ([100 * abs(over_normal(*run) - 1) for run in runs] for runs in (shallow, deep))
    figures = {"slope, 40 cells: depth error (%)": errors[0], "slope, 160 cells: depth error (%)": errors[2],
               "slope, 320 cells: depth error (%)": errors[3],
               "slope, 8 times as deep: greatest depth error (%)": max(deep_errors)}
    return tables, {"slope.svg": drawing((shallow[1], shallow[3], deep[3]))}, figures
