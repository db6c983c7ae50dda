"""The dam break of dam_break.py by the step in doubles (E1), beside the one in whole numbers.

Both start from the same numbers, and dx, dt and J are the same ones: the doubles differ from the exact solution by the
error of the scheme, and from the whole numbers by rounding to 1/4096 m.
"""

from dam_break import COUNTS, COURANT, EXACT, JUMP, LENGTH, SECONDS, dam, exact_means, middles
from picture import BLACK, BLUE, ORANGE, Picture
from reach import in_doubles, in_metres, stepped
from tables import count_text, order_text, orders, overall_order, sizes, table

JUMPS = ((0, "0"), (JUMP, "1/64"), (262144, "none limited"))
JUMP_COUNTS = (64, 256, 1024)
DRAWN = 1024
HIGHEST_ERROR = 12      # mm, of the picture; the two or three cells of the bore are beyond


def levels_of(command, n, jump=JUMP):
    """The levels after the run in m, in doubles and in whole numbers."""
    reach, steps = dam(n, 1, 1)
    reach = reach._replace(jump=jump)
    doubles = stepped(command, in_doubles(reach), steps, steps)[-1]
    whole = in_metres(stepped(command, reach, steps, steps)[-1])
    return [[cell[0] for cell in state.cells] for state in (doubles, whole)]


def bore(levels):
    """Where the level passes the middle of the bore, between two mid-cells (m)."""
    height, places = (EXACT.hm + EXACT.hr) / 2, middles(len(levels))
    i = max(k for k, level in enumerate(levels) if level > height)
    return places[i] + (places[i + 1] - places[i]) * (levels[i] - height) / (levels[i] - levels[i + 1])


def late(levels):
    """How far the bore is behind the exact one (m)."""
    return EXACT.bends(SECONDS)[2] - bore(levels)


def millimetres(x):
    return "%.2f" % (1000 * x)


def signed(x):
    return ("%.0f" % x).replace("-", "\u2212")


def sizes_text(x):
    return "%.2f / %.1f" % (1000 * x.rms, 1000 * x.greatest)


def by_cells(runs, errors):
    """errors: for each number of cells those of the doubles, of the whole numbers, and between the two."""
    rows = []
    for (n, levels), (doubles, whole, apart), order in zip(runs.items(), errors, orders([e[0].mean for e in errors])):
        rows.append((count_text(n), "1/%d" % (COURANT * n // LENGTH), millimetres(doubles.mean), order_text(order),
                     sizes_text(doubles), millimetres(whole.mean), sizes_text(whole), millimetres(apart.mean),
                     sizes_text(apart), *(signed(1000 * late(some)) for some in levels)))
    heads = ("cells", "time step (s)", "doubles \u2212 exact: mean (mm)", "order", "rms / greatest (mm)",
             "whole \u2212 exact: mean (mm)", "rms / greatest (mm)", "doubles \u2212 whole: mean (mm)",
             "rms / greatest (mm)", "bore late by, doubles (mm)", "whole (mm)")
    return table(heads, rows)


def by_jump(command):
    rows = []
    for jump, name in JUMPS:
        row = [name]
        for n in JUMP_COUNTS:
            row += [millimetres(sizes(levels, exact_means(n)).mean) for levels in levels_of(command, n, jump)]
        rows.append(row)
    heads = ["J (m)"]
    for n in JUMP_COUNTS:
        heads += ["%s cells: doubles (mm)" % count_text(n), "whole (mm)"]
    return table(heads, rows)


def pieces(levels, exact):
    """The errors in mm against distance, without those that are beyond the picture."""
    lines = [[]]
    for x, a, b in zip(middles(len(levels)), levels, exact):
        if abs(1000 * (a - b)) > HIGHEST_ERROR:
            lines.append([])
        else:
            lines[-1].append((x, 1000 * (a - b)))
    return [line for line in lines if line]


def errors_drawn(doubles, whole):
    picture = Picture("Dam break after 4 s, 1,024 cells: how far off the level is", "distance from the dam (m)",
                      "level less the exact one (mm)", (-32, 32, 8), (-HIGHEST_ERROR, HIGHEST_ERROR, 4))
    exact = exact_means(DRAWN)
    for levels, colour, name in ((whole, ORANGE, "whole numbers"), (doubles, BLUE, "doubles")):
        for k, line in enumerate(pieces(levels, exact)):
            picture.line(line, colour, None if k else name, width=1.2)
    return picture.svg()


def bore_drawn(doubles, whole):
    picture = Picture("The bore of the dam break after 4 s, 1,024 cells", "distance from the dam (m)",
                      "water level (m)", (15, 18, 0.5), (0.9, 1.6, 0.1))
    places = [15 + k / 200 for k in range(601)]
    picture.line([(x, EXACT.depth(x, SECONDS)) for x in places], BLACK, "exact (Stoker)", width=1.2)
    for levels, colour, name in ((whole, ORANGE, "whole numbers"), (doubles, BLUE, "doubles")):
        picture.dots([(x, h) for x, h in zip(middles(DRAWN), levels) if 15 <= x <= 18], colour, name)
    return picture.svg()


def report(command):
    runs = {n: levels_of(command, n) for n in COUNTS}
    errors = [(sizes(doubles, exact_means(n)), sizes(whole, exact_means(n)), sizes(doubles, whole))
              for n, (doubles, whole) in runs.items()]
    means = [e[0].mean for e in errors]
    finest = runs[COUNTS[-1]]
    figures = {"doubles, dam break, 64 cells: mean error (mm)": 1000 * means[0],
               "doubles, dam break, 1,024 cells: mean error (mm)": 1000 * means[-1],
               "doubles, dam break: order, 64 to 1,024 cells": overall_order(means),
               "doubles, dam break, 1,024 cells: bore late by (mm)": 1000 * late(finest[0]),
               "doubles less whole, dam break, 64 cells: mean (mm)": 1000 * errors[0][2].mean,
               "doubles less whole, dam break, 1,024 cells: mean (mm)": 1000 * errors[-1][2].mean}
    tables = {"double-dam-break": by_cells(runs, errors), "double-dam-break-jump": by_jump(command)}
    return tables, {"double-dam-break.svg": errors_drawn(*finest), "double-bore.svg": bore_drawn(*finest)}, figures
