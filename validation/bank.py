"""A long wave running up a gentle bank and down again, by E2's rule and by the rule before it.

A wave of this kind has no exact solution, so the reference is the same flow four times as deep, in
more cells and with no slope limited.  Heights times d, times through the root of d and Manning values
times d^(2/3) leave the flow the same picture; a unit counts d times less then.
"""

from math import cos, pi, sin, sqrt

from former import stepped_before_e2
from picture import BLACK, BLUE, EARTH, ORANGE, Picture
from reach import DITCH_DRY, UNIT, WALL, Reach, refusal_of, stepped, units
from tables import count_text, table

LENGTH, FOOT, SHORE, STRIP = 2048, 1024, 1792, 128      # m; the strip is that of one cell of 16
DEPTH, HUMP, WAVE = 2, 0.3, 512                         # m; the hump stands at the left wall
MANNING = 0.040
SAMPLE, SAMPLES = 6, 150                                # s between samples, and how many of them
RUNS = ((16, 0), (32, 0), (16, 64), (32, 64), (64, 64))             # cells and J
SMOOTHER = ((0.030, 32), (0.020, 16), (0.020, 32))                  # Manning values and cells
UNLIMITED = 262144                                      # J at its greatest: no slope is limited
ARRIVAL = 66                                            # the sample of the profile, when the wave comes
BELOW, ABOVE = SHORE - STRIP, SHORE


class Bank:
    """The reach in n cells, `deep` times as deep, with so many steps from sample to sample."""

    def __init__(self, n, jump, manning=MANNING, deep=1, every=SAMPLE):
        self.n, self.jump, self.deep, self.every = n, jump, deep, every
        self.friction = round(1000 * manning * deep ** (2 / 3))
        self.width = LENGTH / n
        self.dt = round(SAMPLE * UNIT / sqrt(deep) / every)
        self.steps = SAMPLES * every
        self.bed = [2 * round(self.height(i * self.width) * UNIT / 2) for i in range(n + 1)]

    def height(self, x):
        return self.deep * DEPTH * max(0, x - FOOT) / (SHORE - FOOT)

    def still_or_dry(self, i):
        """The cell at rest; the shore is a face, so no cell is half wet."""
        low, high = self.bed[i], self.bed[i + 1]
        level = self.deep * DEPTH * UNIT
        return (level, 0, 0, 0) if high <= level else ((low + high) // 2, (high - low) // 2, 0, 0)

    def with_wave(self, i):
        """The cell with its part of the hump, HUMP cos^2 from the wall to the hump's end."""
        level, slope, _, _ = self.still_or_dry(i)
        a, b = i * self.width, (i + 1) * self.width
        if b > WAVE:
            return level, slope, 0, 0
        k, top = pi / WAVE, self.deep * HUMP
        mean = 0.5 + (sin(k * b) - sin(k * a)) / (2 * k * self.width)
        return level + units(top * mean), units(top * (cos(k * b) - cos(k * a)) / 4), 0, 0

    def reach(self):
        cells = [self.with_wave(i) for i in range(self.n)]
        return Reach(LENGTH * UNIT // self.n, self.dt, self.jump, DITCH_DRY, WALL, WALL, self.bed,
                     [self.friction] * self.n, cells)

    def depths(self, states, start):
        """The mean depth over the strip from `start` in each state, in metres of the shallow reach."""
        cells = range(round(start / self.width), round((start + STRIP) / self.width))
        sums = [sum(2 * s.cells[i][0] - self.bed[i] - self.bed[i + 1] for i in cells) for s in states]
        return [total / (2 * len(cells) * UNIT * self.deep) for total in sums]

    def shore_levels(self, states):
        """The level over the still one that the last cell below the shore shows there, in metres."""
        last = round(SHORE / self.width) - 1
        return [(s.cells[last][0] + s.cells[last][1]) / UNIT / self.deep - DEPTH for s in states]

    def rises(self, states):
        """At the shore, and over the strips below and above it: three rows of rises over the start."""
        rows = self.shore_levels(states), self.depths(states, BELOW), self.depths(states, ABOVE)
        return [[x - row[0] for x in row] for row in rows]


def states_now(command, bank):
    return stepped(command, bank.reach(), bank.steps, bank.every)


def states_before(bank):
    states, refused = stepped_before_e2(bank.reach(), bank.steps, bank.every)
    if refused:
        raise SystemExit("bank: before E2 step %d is refused with %d" % refused)
    return states


def millimetres(metres):
    return "%.1f" % (1000 * metres)


def mean_errors(rises, reference):
    """At the shore, below it and above it."""
    return [sum(abs(a - b) for a, b in zip(x, y)) / len(x) for x, y in zip(rises, reference)]


def error_texts(rises, reference):
    return [millimetres(error) for error in mean_errors(rises, reference)]


def passed(rises):
    """When the bank above the shore first has a millimetre of water (s)."""
    return SAMPLE * next((i for i, rise in enumerate(rises[2]) if rise > 0.001), float("inf"))


def tops(rises):
    """When the water passes the shore, and the highest rise below it."""
    return [str(passed(rises)), millimetres(max(rises[1]))]


def paired(names, before, now):
    return list(names) + [text for pair in zip(before, now) for text in pair]


def error_table(runs, reference, others):
    rows = [paired((count_text(n), str(jump)), error_texts(before, reference), error_texts(now, reference))
            for (n, jump), (before, now) in runs.items()]
    rows += [paired((name, "none limited"), ("", "", ""), error_texts(rises, reference))
             for name, rises in others.items()]
    heads = ("cells", "J", "at the shore: before (mm)", "after (mm)", "128 m below it: before (mm)", "after (mm)",
             "128 m above it: before (mm)", "after (mm)")
    return table(heads, rows)


def top_table(runs, reference):
    rows = [paired((count_text(n), str(jump)), tops(before), tops(now)) for (n, jump), (before, now) in runs.items()]
    rows.append(paired(("256, the reference", "none limited"), ("", ""), tops(reference)))
    heads = ("cells", "J", "water passes the shore: before (s)", "after (s)",
             "highest rise below the shore: before (mm)", "after (mm)")
    return table(heads, rows)


def answer_text(steps, refused):
    return "step %d is refused with %d" % refused if refused else "%s steps accepted" % count_text(steps)


def refusal_table(command):
    """The table, and how many of the runs with E2 were accepted."""
    rows, accepted = [], 0
    for manning, n in SMOOTHER:
        bank, halved = Bank(n, 64, manning), Bank(n, 64, manning, every=2 * SAMPLE)
        before = stepped_before_e2(bank.reach(), bank.steps, bank.every)[1]
        now = [(b.steps, refusal_of(command, b.reach(), b.steps)) for b in (bank, halved)]
        accepted += sum(refused is None for _, refused in now)
        rows.append(["%.3f" % manning, count_text(n), answer_text(bank.steps, before)] + [answer_text(*b) for b in now])
    return table(("Manning value", "cells", "before", "after", "after, time step 0.5 s"), rows), accepted


def figures_of(runs, reference, accepted):
    """The worst of the runs with E2, and those in the most cells."""
    errors = {key: [1000 * error for error in mean_errors(now, reference)] for key, (_, now) in runs.items()}
    nearer = sum(mean_errors(now, reference)[0] < mean_errors(before, reference)[0] for before, now in runs.values())
    late = max(abs(passed(now) - passed(reference)) for _, now in runs.values())
    worst = [max(column) for column in zip(*errors.values())]
    finest = errors[RUNS[-1]]
    return {"bank: at the shore, worst run (mm)": worst[0], "bank: 128 m below it, worst run (mm)": worst[1],
            "bank: 128 m above it, worst run (mm)": worst[2], "bank, 64 cells: at the shore (mm)": finest[0],
            "bank, 64 cells: 128 m above it (mm)": finest[2], "bank: runs nearer at the shore than before E2": nearer,
            "bank: water passes the shore, farthest off (s)": late, "bank: smoother runs accepted": accepted}


def lines_of_cells(bank, state):
    """Each cell's own level line, and so the steps between them; dry cells are left out."""
    points = []
    for i, (mean, slope, _, _) in enumerate(state.cells):
        if mean - (bank.bed[i] + bank.bed[i + 1]) // 2 > DITCH_DRY:
            points += [(i * bank.width, (mean - slope) / UNIT / bank.deep),
                       ((i + 1) * bank.width, (mean + slope) / UNIT / bank.deep)]
    return [(x, level) for x, level in points if x >= FOOT]


def profile(bank, old, new, deep, reference):
    picture = Picture("The wave comes to the bank: %d s, 16 cells, J = 0" % (ARRIVAL * SAMPLE),
                      "distance (m)", "height (m)", (FOOT, LENGTH, STRIP), (1.6, 2.4, 0.1))
    bank_at = [(FOOT + (SHORE - FOOT) * height / DEPTH, height) for height in (1.6, 2.4)]
    picture.area(bank_at + [(LENGTH, 2.4)], EARTH, "bank")
    picture.line(lines_of_cells(deep, reference[ARRIVAL]), BLACK, "reference", width=1.2)
    picture.line(lines_of_cells(bank, old[ARRIVAL]), ORANGE, "before", width=1.8, dash="6 3")
    picture.line(lines_of_cells(bank, new[ARRIVAL]), BLUE, "after", width=1.8)
    return picture.svg("middle")


def over_time(before, now, reference):
    picture = Picture("Water at the shore, 16 cells, J = 0", "time (s)", "rise (m)",
                      (300, 900, 100), (0, 0.2, 0.02))
    for k, name, dash in ((0, "level at the shore", None), (2, "128 m above it", "5 3")):
        for rises, colour, which in ((reference, BLACK, "reference"), (before, ORANGE, "before"),
                                     (now, BLUE, "after")):
            points = [(SAMPLE * i, rise) for i, rise in enumerate(rises[k]) if SAMPLE * i >= 300]
            picture.line(points, colour, "%s, %s" % (name, which), dash=dash)
    return picture.svg()


def report(command):
    deep = Bank(256, UNLIMITED, deep=4, every=16)
    checks = {"256, 6 times as deep": Bank(256, UNLIMITED, deep=6, every=38),
              "256, 4 times as deep, half the step": Bank(256, UNLIMITED, deep=4, every=32)}
    fine = states_now(command, deep)
    reference = deep.rises(fine)
    states, rises = {}, {}
    for n, jump in RUNS:
        bank = Bank(n, jump)
        states[n, jump] = states_before(bank), states_now(command, bank)
        rises[n, jump] = [bank.rises(some) for some in states[n, jump]]
    others = {name: check.rises(states_now(command, check)) for name, check in checks.items()}
    refusals, accepted = refusal_table(command)
    tables = {"bank": error_table(rises, reference, others),
              "bank-tops": top_table(rises, reference), "bank-refusals": refusals}
    pictures = {"bank.svg": profile(Bank(16, 0), *states[16, 0], deep, fine),
                "bank-shore.svg": over_time(*rises[16, 0], reference)}
    return tables, pictures, figures_of(rises, reference, accepted)
