"""The standing wave of standing_wave.py by the step in doubles (E1), beside the one in whole numbers.

Both have the ditch's cells, time step and J, and start from the same numbers.  As those are rounded to 1/4096 m, the
doubles also start from the wave itself; and from one so low that linear theory is exact for it.  After a whole period
the wave stands at its height, where a wrong period does not show; so the low one runs on for a quarter.
"""

from collections import namedtuple
from math import cos, pi

from picture import BLACK, BLUE, ORANGE, Picture
from reach import in_doubles, in_metres, stepped
from standing_wave import COUNTS, Basin, wall_levels
from tables import count_text, order_text, orders, overall_order, sizes, table

LOW = 2e-6      # m: a ten-thousandth of the ditch's wave
DRAWN = 64      # cells


def rounded_start(basin):
    return in_doubles(basin.reach())


def own_start(basin):
    """The wave's own means and slopes, not rounded."""
    k, a = pi / basin.n, basin.height
    cells = [(basin.depth + a * basin.shape(i), a * (cos(k * (i + 1)) - cos(k * i)) / 2, 0.0, 0.0)
             for i in range(basin.n)]
    return rounded_start(basin)._replace(cells=cells)


def rises(basin, state):
    """How far each cell's level is above the still one, in wave heights."""
    return [(cell[0] - basin.depth) / basin.height for cell in state.cells]


def after(command, basin, reach, periods=1):
    steps = basin.steps(periods)
    return stepped(command, reach, steps, steps)[-1]


def theory(basin, periods=1):
    swing = cos(basin.phase(basin.steps(periods)))
    return [basin.shape(i) * swing for i in range(basin.n)]


Errors = namedtuple("Errors", "doubles whole apart own low later")


def measured(command, n):
    """Errors after one period in wave heights: of the doubles, of the whole numbers and between the two; then of the
    doubles from the wave's own start, and of those of the low wave, for which also a quarter of a period later."""
    basin, low = Basin(n, 1), Basin(n, 1, LOW)
    doubles = rises(basin, after(command, basin, rounded_start(basin)))
    whole = rises(basin, in_metres(after(command, basin, basin.reach())))
    own = rises(basin, after(command, basin, own_start(basin)))
    lowest = [rises(low, after(command, low, own_start(low), periods)) for periods in (1, 1.25)]
    return Errors(sizes(doubles, theory(basin)), sizes(whole, theory(basin)), sizes(doubles, whole),
                  sizes(own, theory(basin)), sizes(lowest[0], theory(low)), sizes(lowest[1], theory(low, 1.25)))


def sizes_text(x, digits):
    return "%.*f / %.*f" % (digits, 100 * x.rms, digits, 100 * x.greatest)


def by_cells(errors):
    rows = []
    low_orders, later_orders = orders([e.low.mean for e in errors]), orders([e.later.mean for e in errors])
    for n, e, low_order, later_order in zip(COUNTS, errors, low_orders, later_orders):
        rows.append((count_text(n), count_text(Basin(n, 1).steps(1)), sizes_text(e.doubles, 2), sizes_text(e.whole, 1),
                     sizes_text(e.apart, 1), "%.3f" % (100 * e.own.mean), "%.5f" % (100 * e.low.mean),
                     order_text(low_order), "%.5f" % (100 * e.later.mean), order_text(later_order)))
    heads = ("cells", "steps", "doubles \u2212 theory: rms / greatest (%)", "whole \u2212 theory (%)",
             "doubles \u2212 whole (%)", "doubles, start not rounded: mean error (%)",
             "and a = 0.002 mm: mean error (%)", "order", "a quarter of a period later (%)", "order")
    return table(heads, rows)


def at_the_wall(command):
    picture = Picture("Level at the wall over three periods, a = 2 cm, 64 cells", "time (periods of theory)",
                      "level above still water / a", (0, 3, 0.5), (-1.5, 2, 0.5))
    basin = Basin(DRAWN, 1)
    states = stepped(command, rounded_start(basin), basin.steps(3), 16)
    doubles = [(basin.phase(16 * k) / (2 * pi), (s.cells[0][0] - s.cells[0][1] - basin.depth) / basin.height)
               for k, s in enumerate(states)]
    picture.line([(k / 100, cos(2 * pi * k / 100)) for k in range(301)], BLACK, "linear theory", width=1.2)
    picture.line(wall_levels(command, basin, 3, 4), ORANGE, "whole numbers", dash="6 3")
    picture.dots(doubles, BLUE, "doubles", radius=2.6)
    return picture.svg()


def report(command):
    errors = [measured(command, n) for n in COUNTS]
    middle = dict(zip(COUNTS, errors))[64]
    figures = {"doubles, standing wave, 64 cells: mean error (%)": 100 * middle.doubles.mean,
               "doubles, standing wave, start not rounded, 64 cells: mean error (%)": 100 * middle.own.mean,
               "doubles less whole, standing wave, 64 cells: mean (%)": 100 * middle.apart.mean,
               "doubles, low standing wave: order, 4 to 256 cells": overall_order([e.low.mean for e in errors]),
               "doubles, low standing wave, a quarter later: order, 4 to 256 cells":
                   overall_order([e.later.mean for e in errors])}
    return {"double-wave": by_cells(errors)}, {"double-wave.svg": at_the_wall(command)}, figures
