"""A dam break on a wet bed, held to Stoker's exact solution.

The case is run in the size of a ditch and 16 times as large.  Water knows no size of its own
when nothing rubs: with lengths times 16 and times times 4 the exact solution is the same picture.
The library's unit stays 1/4096 m, so in the large case rounding counts 16 times less.
"""

from picture import BLACK, BLUE, ORANGE, Picture
from reach import DITCH_DRY, UNIT, WALL, Reach, Sills, stepped
from stoker import DamBreak
from tables import count_text, order_text, orders, overall_order, table

LENGTH, HIGH, LOW, SECONDS = 64, 2, 1, 4
JUMP = 64
COURANT = 16            # dt is dx/16 in the ditch, in seconds and metres
COUNTS = (64, 128, 256, 512, 1024)
EXACT = DamBreak(HIGH, LOW)


def broken(command, n, size, pace, sills=False):
    """The levels after the run, in metres of the ditch; size and pace are 1, 1 or 16, 4.  With `sills` the reach is
    that of E10, in first order."""
    dx = LENGTH * size * UNIT // n
    dt = dx // (COURANT * pace)
    steps = SECONDS * pace * UNIT // dt
    levels = [(HIGH if i < n // 2 else LOW) * size * UNIT for i in range(n)]
    if sills:
        reach = Sills(dx, dt, DITCH_DRY, WALL, WALL, [0] * n, [0] * n, [(level, 0) for level in levels])
    else:
        cells = [(level, 0, 0, 0) for level in levels]
        reach = Reach(dx, dt, JUMP * size, DITCH_DRY, WALL, WALL, [0] * (n + 1), [0] * n, cells)
    last = stepped(command, reach, steps, steps)[-1]
    return [cell[0] / UNIT / size for cell in last.cells]


def middles(n):
    return [-LENGTH / 2 + (i + 0.5) * LENGTH / n for i in range(n)]


def exact_means(n):
    w = LENGTH / n
    return [EXACT.volume(x - w / 2, x + w / 2, SECONDS) / w for x in middles(n)]


def mean_error(levels, exact):
    return sum(abs(a - b) for a, b in zip(levels, exact)) / len(levels)


def drawing(levels):
    picture = Picture("Dam break on a wet bed after 4 s", "distance from the dam (m)", "water level (m)",
                      (-32, 32, 8), (0.8, 2.2, 0.2))
    exact = [(x / 20, EXACT.depth(x / 20, SECONDS)) for x in range(-640, 641)]
    picture.line(exact, BLACK, "exact (Stoker)", width=1.2)
    picture.line(list(zip(middles(256), levels[256])), BLUE, "256 cells", width=1.8, dash="6 3")
    picture.dots(list(zip(middles(64), levels[64])), ORANGE, "64 cells")
    return picture.svg()


def report(command):
    ditch = {n: broken(command, n, 1, 1) for n in COUNTS}
    large = {n: broken(command, n, 16, 4) for n in COUNTS}
    means = [mean_error(ditch[n], exact_means(n)) for n in COUNTS]
    points = [mean_error(ditch[n], [EXACT.depth(x, SECONDS) for x in middles(n)]) for n in COUNTS]
    larges = [mean_error(large[n], exact_means(n)) for n in COUNTS]
    rows = [(count_text(n), "1/%d" % (COURANT * n // LENGTH), "%.5f" % a, order_text(b), "%.5f" % c,
             "%.5f" % d, order_text(e))
            for n, a, b, c, d, e in zip(COUNTS, means, orders(means), points, larges, orders(larges))]
    heads = ("cells", "time step (s)", "mean error (m)", "order", "mean error at mid-cells (m)",
             "16 times as large: mean error / 16 (m)", "order")
    figures = {"dam break, 64 cells: mean error (m)": means[0], "dam break, 256 cells: mean error (m)": means[2],
               "dam break, 16 times as large, 1,024 cells: mean error / 16 (m)": larges[-1],
               "dam break, 16 times as large: order, 64 to 1,024 cells": overall_order(larges)}
    return {"dam-break": table(heads, rows)}, {"dam-break.svg": drawing(ditch)}, figures
