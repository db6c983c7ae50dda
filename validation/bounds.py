"""Between which numbers the key figures of docs/VALIDATION.md have to lie, and why.

The page says what the library gives, so after a change for the worse it would only be out of date, and be made anew.
These bounds are not made anew.  Each lies a little beyond the figure that was measured when it was written down; where
a change betters a figure, bring its bound after it.  `bash validation/worse` shows which of them worse schemes break.
"""

from collections import namedtuple

Bound = namedtuple("Bound", "least most why")
ANY = float("inf")


def most(number, why):
    return Bound(-ANY, number, why)


def least(number, why):
    return Bound(number, ANY, why)


BOUNDS = {
    "dam break, 64 cells: mean error (m)": most(0.0080, "0.0073: the bore is two or three cells wide"),
    "dam break, 256 cells: mean error (m)": most(0.0027, "0.0024: the same, before rounding counts"),
    "dam break, 16 times as large, 1,024 cells: mean error / 16 (m)": most(0.0007, "0.00055: no rounding to speak of"),
    "dam break, 16 times as large: order, 64 to 1,024 cells": least(0.85, "0.94; a jump and two kinks allow 1"),

    "lake: steps that changed a number": most(0, "none, as is proved of every lake at rest"),

    "bank: at the shore, worst run (mm)": most(16.5, "15.2, in 16 cells"),
    "bank: 128 m below it, worst run (mm)": most(19.5, "18.0, in 16 cells"),
    "bank: 128 m above it, worst run (mm)": most(7.2, "6.5, in 16 cells"),
    "bank, 64 cells: at the shore (mm)": most(9.5, "8.6"),
    "bank, 64 cells: 128 m above it (mm)": most(1.4, "1.1"),
    "bank: runs nearer at the shore than before E2": least(5, "all five: what E2 is for"),
    "bank: water passes the shore, farthest off (s)": most(12, "12, two samples"),
    "bank: smoother runs accepted": least(4, "4 of 6; the others are refused with 6 at the whole step"),

    "standing wave, 16 times as large, 8 cells: mean error (%)": most(0.55, "0.46"),
    "standing wave, 16 times as large, 8 cells: height left (%)": Bound(99.1, 100.1, "99.3; a wave never grows"),
    "standing wave, 16 times as large, 8 cells: period / theory": Bound(0.999, 1.004, "1.0032"),
    "standing wave, 16 times as large, 16 cells: mean error (%)": most(0.22, "0.17"),
    "standing wave, 16 times as large, 16 cells: height left (%)": Bound(99.6, 100.1, "99.7"),
    "standing wave, 16 times as large, 16 cells: period / theory": Bound(0.999, 1.0025, "1.0019"),
    "standing wave, 16 times as large: order, 4 to 8 cells": least(2, "2.54; the scheme is of second order"),
    "standing wave, ditch, 16 cells: mean error (%)": most(7.6, "6.9, all of it rounding"),
    "standing wave, ditch, 16 cells: height left (%)": Bound(88, 100.1, "89.2"),
    "standing wave, ditch, 16 cells: period / theory": Bound(0.999, 1.058, "1.052"),
    "standing wave, ditch, 64 cells: mean error (%)": most(34, "31.8"),
    "standing wave, ditch, 64 cells: height left (%)": Bound(47, 100.1, "50.3"),
    "standing wave, ditch, 64 cells: period / theory": Bound(0.999, 1.15, "1.134"),

    "time step: longest accepted, of a cell": least(0.33, "a third, as README advises"),

    "basin: steps after which the count was wrong": most(0, "none, as the balance is proved"),
    "basin: level a quarter of an hour later, greatest less least (mm)": most(2.8, "2.4: what rounding leaves"),

    "bump, 50 cells: mean error (mm)": most(0.9, "0.69"),
    "bump, 100 cells: mean error (mm)": most(1.9, "1.50"),
    "bump, 400 cells: mean error (mm)": most(6.5, "5.23"),
    "bump, 16 times as large, 100 cells: mean error / 16 (mm)": most(0.38, "0.33"),
    "bump, 16 times as large: order, 50 to 100 cells": least(1.9, "2.01; the flow is smooth"),
    "bump: discharge, farthest off (% of Q)": most(0.3, "0.25: a unit of volume in a step is 0.4"),

    "ditch flow: farthest from the law (% of Manning's)": most(3.5, "2.9: friction's x is cut too, which adds up to q/(32 P)"),
    "ditch flow, cells of 16 m: from rest (%)": Bound(93, 103, "93.9"),
    "ditch flow, cells of 16 m: from more (%)": Bound(97.5, 103, "98.5"),
    "ditch flow: middle cells that are not as without ends": most(0, "none, before a wave from an end can have come"),
    "ditch flow below an inflow, cells of 1 m: depth error (%)": Bound(-2, 18, "16.2, all of it rounding"),
    "ditch flow below an inflow, cells of 8 m: depth error (%)": Bound(-1, 1.9, "1.4"),

    "slope, 40 cells: depth error (%)": most(0.6, "0.42"),
    "slope, 160 cells: depth error (%)": most(2.2, "1.77"),
    "slope, 320 cells: depth error (%)": most(5.5, "4.67"),
    "slope, 8 times as deep: greatest depth error (%)": most(0.4, "0.28"),

    "dry depth: waves that ran": least(18, "18 of 37"),
    "dry depth: inflows that ran": least(13, "13 of 40"),
    "dry depth 16: 0.3 m of water came (m)": Bound(110, 160, "120; 140 with less rounding"),
    "dry depth 4: left on the slope (mm)": most(11, "9.8: what rounding holds"),
    "dry depth 4: left on the slope, 16 times as deep (mm)": most(1.2, "1.0"),

    "sills, lake: steps that changed a number": most(0, "none, as is proved of every such lake at rest"),

    "sills, dam break, 64 cells: mean error (m)": most(0.032, "0.0291: four times that of two stages"),
    "sills, dam break, 256 cells: mean error (m)": most(0.0125, "0.0112"),
    "sills, dam break, 16 times as large, 1,024 cells: mean error / 16 (m)": most(0.0042, "0.0037: no rounding to speak of"),
    "sills, dam break, 16 times as large: order, 64 to 1,024 cells": least(0.7, "0.75, as first order has it at kinks"),

    "weir, 120 cells: head / Bernoulli's": Bound(1.14, 1.18, "1.165"),
    "weir, 16 times as large, 480 cells: head / Bernoulli's": Bound(1.14, 1.17, "1.159, what an upright side costs"),
    "weir, 16 times as large, 480 cells: depth on the crest / critical": Bound(0.97, 1.02, "0.988"),
    "weir: discharge through a face, farthest off (% of Q)": most(0.05, "none: the flow is steady"),
    "weir, staircase of 4 m, 480 cells: head / Bernoulli's": Bound(0.995, 1.015, "1.010"),
    "weir, staircase of 4 m: order, 60 to 480 cells": least(0.7, "0.80; first order"),
    "weir: head over a drowned crest / over a free one": Bound(1.55, 1.7, "1.62; the tail water decides"),

    "sills, slope, 80 cells: depth error (%)": Bound(0, 3.3, "2.87, two thirds of it the scheme's"),
    "sills, slope, 320 cells: depth error (%)": Bound(0, 5.2, "4.49, nearly all of it rounding"),
    "sills, slope, 8 times as deep, 320 cells: depth error (%)": Bound(0, 0.75, "0.63"),
    "sills, slope, 8 times as deep: order, 40 to 320 cells": least(0.8, "0.90; first order"),
}


def is_met(bound, figure):
    """Never by a figure that is no number."""
    return bound.least <= figure <= bound.most


def text_of(bound):
    if bound.least == -ANY:
        return "at most %g" % bound.most
    return "at least %g" % bound.least if bound.most == ANY else "%g to %g" % (bound.least, bound.most)


def broken(figures, bounds):
    """A line for each of the bounds that is not met, or of which there is no figure, and for a figure without one."""
    lines = []
    for name, bound in bounds.items():
        if name not in figures:
            lines.append("%s: no figure" % name)
        elif not is_met(bound, figures[name]):
            lines.append("%s: %.6g, where it may be %s (%s)" % (name, figures[name], text_of(bound), bound.why))
    return lines + ["%s: no bound" % name for name in figures if name not in bounds]
