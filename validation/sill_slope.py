"""The uniform flow of slope.py down a staircase (E10), held to Manning's depth.

That reach has no inflow.  So the water comes from a level and smooth piece at the top, where it is faster than its waves:
nothing from below reaches it there, and without friction its cells keep their numbers and their discharge.
"""

from math import sqrt

from reach import DITCH_DRY, OPEN, UNIT, Sills, stepped, units
from slope import COUNTS, DEEP, DISCHARGE, FALL, LAST, LENGTH, MANNING, NORMAL, SECONDS
from tables import count_text, order_text, orders, overall_order, table

TOP, DEPTH = 8, 0.3     # m: the level piece, and the water on it, which is that of the start everywhere
COURANT = 16            # dt is dx/16 in its own size, so that Q dt/dx is whole: 256


class Stairs:
    """The reach in n cells, run `deep` times as deep, as in slope.py; it is given and answers as the shallow flow."""

    def __init__(self, n, deep=1):
        self.n, self.deep, self.width = n, deep, LENGTH / n
        self.pace, self.q = sqrt(deep), round(deep ** 1.5 * DISCHARGE * UNIT)
        self.dx = LENGTH * UNIT // n
        self.dt = round(self.dx / (COURANT * self.pace))
        self.steps = round(SECONDS * UNIT / self.pace / self.dt)
        middles = [(i + 0.5) * self.width for i in range(n)]
        self.bed = [units(deep * FALL * (LENGTH - max(x, TOP))) for x in middles]
        self.friction = [0 if x < TOP else round(1000 * MANNING * deep ** (2 / 3)) for x in middles]

    def run(self, command):
        """The last cells, each with its depth and its discharge."""
        cells = [(z + units(self.deep * DEPTH), self.q) for z in self.bed]
        reach = Sills(self.dx, self.dt, self.deep * DITCH_DRY, OPEN, OPEN, self.bed, self.friction, cells)
        end = stepped(command, reach, self.steps, self.steps)[-1].cells
        found = [((e - z) / UNIT / self.deep, q / self.q * DISCHARGE) for (e, q), z in zip(end, self.bed)]
        return found[-round(LAST / self.width):]


def depth_error(found):
    """Of the mean depth, in percent of Manning's."""
    return 100 * (sum(depth for depth, _ in found) / len(found) / NORMAL - 1)


def texts(found):
    """Depths, their error and discharges."""
    depths, discharges = zip(*found)
    return ["%.4f to %.4f" % (min(depths), max(depths)), ("%+.2f" % depth_error(found)).replace("-", "\u2212"),
            "%.4f to %.4f" % (min(discharges), max(discharges))]


def report(command):
    own = [Stairs(n).run(command) for n in COUNTS]
    deep = [Stairs(n, DEEP).run(command) for n in COUNTS]
    errors, deep_errors = [depth_error(found) for found in own], [depth_error(found) for found in deep]
    rows = [[count_text(n), "%.1f" % (1000 * FALL * LENGTH / n)] + texts(a) + texts(b) + [order_text(order)]
            for n, a, b, order in zip(COUNTS, own, deep, orders(deep_errors))]
    heads = ("cells", "height of a step (mm)", "depth (m)", "error (%)", "discharge (m2/s)",
             "%d times as deep: depth (m)" % DEEP, "error (%)", "discharge (m2/s)", "order of the error")
    figures = {"sills, slope, 80 cells: depth error (%)": errors[1],
               "sills, slope, 320 cells: depth error (%)": errors[3],
               "sills, slope, 8 times as deep, 320 cells: depth error (%)": deep_errors[3],
               "sills, slope, 8 times as deep: order, 40 to 320 cells": overall_order(deep_errors)}
    return {"sill-slope": table(heads, rows)}, {}, figures
