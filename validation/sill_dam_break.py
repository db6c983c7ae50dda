"""The dam break of dam_break.py in the reach of E10, which is of first order, beside the one of two stages."""

from dam_break import COUNTS, COURANT, EXACT, LENGTH, SECONDS, broken, exact_means, mean_error, middles
from picture import BLACK, BLUE, ORANGE, Picture
from tables import count_text, order_text, orders, overall_order, table


def errors(command, size, pace, sills):
    return [mean_error(broken(command, n, size, pace, sills), exact_means(n)) for n in COUNTS]


def drawing(command):
    picture = Picture("Dam break on a wet bed after 4 s, 64 cells", "distance from the dam (m)", "water level (m)",
                      (-32, 32, 8), (0.8, 2.2, 0.2))
    exact = [(x / 20, EXACT.depth(x / 20, SECONDS)) for x in range(-640, 641)]
    picture.line(exact, BLACK, "exact (Stoker)", width=1.2)
    picture.dots(list(zip(middles(64), broken(command, 64, 1, 1))), ORANGE, "two stages, slopes")
    picture.dots(list(zip(middles(64), broken(command, 64, 1, 1, sills=True))), BLUE, "first order")
    return picture.svg()


def report(command):
    first, second = errors(command, 1, 1, True), errors(command, 1, 1, False)
    large, large_second = errors(command, 16, 4, True), errors(command, 16, 4, False)
    rows = [(count_text(n), "1/%d" % (COURANT * n // LENGTH), "%.5f" % a, order_text(b), "%.5f" % c, "%.5f" % d,
             order_text(e), "%.5f" % f)
            for n, a, b, c, d, e, f in zip(COUNTS, first, orders(first), second, large, orders(large), large_second)]
    heads = ("cells", "time step (s)", "first order: mean error (m)", "order", "two stages: mean error (m)",
             "16 times as large, first order: / 16 (m)", "order", "16 times as large, two stages: / 16 (m)")
    figures = {"sills, dam break, 64 cells: mean error (m)": first[0],
               "sills, dam break, 256 cells: mean error (m)": first[2],
               "sills, dam break, 16 times as large, 1,024 cells: mean error / 16 (m)": large[-1],
               "sills, dam break, 16 times as large: order, 64 to 1,024 cells": overall_order(large)}
    return {"sill-dam-break": table(heads, rows)}, {"sill-dam-break.svg": drawing(command)}, figures
