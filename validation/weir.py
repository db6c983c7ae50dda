"""Steady flow over a weir with upright sides (E10), held to Bernoulli and the critical depth on its crest.

The ends of that reach are walls or open, and none brings a discharge in or holds a level.  So the water shoots in from a
ledge, faster than its waves: nothing from below reaches the ledge, its cells stay as they are, and their discharge is
given.  A second, lower sill near the end holds the tail water, and from there the water falls and leaves faster than its
waves.  As with the dam break, the case is run in its own size and 16 times as large, where rounding counts 16 times less.
"""

from picture import BLACK, BLUE, EARTH, GREEN, ORANGE, WATER, Picture
from reach import DITCH_DRY, GRAVITY, OPEN, UNIT, Sills, stepped, units
from tables import count_text, order_text, overall_order, table

LENGTH, FLOOR, LEDGE = 60, 1.0, 2.0                 # m; all heights but the floor's own are over the floor
LEDGE_END, POOL_GAUGE, TAIL_GAUGE = 2, 15, 45       # m
WEIR, TAIL_SILL = (25, 30), (50, 53)                # m: from, to
CREST, TAIL_CREST, AT_START = 0.6, 0.3, 0.2         # m: heights, and the depth on both crests at the start
Q, JET = 0.5, 0.125                                 # m2/s, and m of water on the ledge
COURANT = 16                                        # dt is dx/16 in its own size; Q dt/dx is then whole, 128
SECONDS, LAST = 300, 20                             # the run, and its last part, over which discharges are taken
COUNTS = (60, 120, 240, 480)
SIDES = (0, 1, 2, 4)                                # m: how long the upstream side is
CRESTS = (0.2, 0.4, 0.6, 0.8)
TAIL_CRESTS = (0.3, 0.45, 0.55, 0.65, 0.75, 0.85)
CRITICAL = (Q * Q / GRAVITY) ** (1 / 3)
HEAD = 1.5 * CRITICAL                               # Bernoulli's, over a crest


class Weir:
    """The reach in n cells, `size` times as large and its times `pace` times as long; it answers in its own size."""

    def __init__(self, n, size=1, pace=1, crest=CREST, tail_crest=TAIL_CREST, side=0):
        self.n, self.size, self.pace, self.crest, self.tail_crest, self.side = n, size, pace, crest, tail_crest, side
        self.width = LENGTH / n
        self.dx = LENGTH * size * UNIT // n
        self.dt = self.dx // (COURANT * pace)
        self.last = LAST * pace * UNIT // self.dt
        self.steps = SECONDS // LAST * self.last
        self.q = units(Q) * size * size // pace
        self.bed = [units(size * (FLOOR + self.height(x))) for x in self.middles()]

    def middles(self):
        return [(i + 0.5) * self.width for i in range(self.n)]

    def height(self, x):
        """Of the bed over the floor; the upstream side of the weir is upright, or a staircase with a step a cell."""
        start, end = WEIR
        if x < LEDGE_END:
            return LEDGE
        if start - self.side < x < start:
            return self.crest * (x - start + self.side) / self.side
        if start <= x < end:
            return self.crest
        if x < TAIL_SILL[0]:
            return 0.0
        return self.tail_crest if x < TAIL_SILL[1] else -FLOOR

    def start_depth(self, x, height):
        """Both pools are still, and stand so much over their crests; behind the last sill there is fast water."""
        if x < LEDGE_END or x >= TAIL_SILL[1]:
            return JET if x < LEDGE_END else AT_START
        return max(0.0, (self.crest if x < WEIR[1] else self.tail_crest) + AT_START - height)

    def start(self):
        cells = []
        for x, z in zip(self.middles(), self.bed):
            moves = x < LEDGE_END or x >= TAIL_SILL[1]
            cells.append((z + units(self.size * self.start_depth(x, self.height(x))), self.q if moves else 0))
        return cells

    def run(self, command):
        """The states LAST seconds before the end and at it."""
        reach = Sills(self.dx, self.dt, DITCH_DRY, OPEN, OPEN, self.bed, [0] * self.n, self.start())
        return stepped(command, reach, self.steps, self.last)[-2:]

    def levels(self, state):
        """Over the floor."""
        return [cell[0] / UNIT / self.size - FLOOR for cell in state.cells]

    def level_at(self, state, x):
        return self.levels(state)[int(x / self.width)]

    def head(self, state):
        """Over the crest: the level in the pool and what the speed there adds."""
        level = self.level_at(state, POOL_GAUGE)
        return level + (Q / level) ** 2 / (2 * GRAVITY) - self.crest

    def crest_depth(self, state):
        """In the middle of the crest."""
        return self.level_at(state, sum(WEIR) / 2) - self.crest

    def tail_water(self, state):
        """Over the weir's crest."""
        return self.level_at(state, TAIL_GAUGE) - self.crest

    def swell(self, state):
        """How much higher the last cell before the weir stands than the pool."""
        return self.level_at(state, WEIR[0] - self.width / 2) - self.level_at(state, POOL_GAUGE)

    def through_faces(self, before, after):
        """The mean discharge through each face from one state to the other, as a part of Q: what came in at the left,
        less what stayed."""
        volume = after.crossed[0] - before.crossed[0]
        volumes = [volume]
        for old, new in zip(before.cells, after.cells):
            volume -= new[0] - old[0]
            volumes.append(volume)
        if volume != after.crossed[1] - before.crossed[1]:
            raise SystemExit("weir: water is missing")
        return [v * self.dx / self.dt / self.last / self.q for v in volumes]

    def farthest_off(self, before, after):
        """Of the discharge through all faces, in percent of Q."""
        return max(abs(100 * part - 100) for part in self.through_faces(before, after))

    def shown(self, state, beside):
        """The least and the greatest discharge that cells show, those beside an upright side or the others."""
        risers = [i for i, (a, b) in enumerate(zip(self.bed, self.bed[1:])) if a != b]
        near = {i + k for i in risers for k in (-1, 0, 1, 2)}
        found = [cell[1] / self.q * Q for i, cell in enumerate(state.cells) if (i in near) == beside]
        return min(found), max(found)


def large(n, **shape):
    return Weir(n, 16, 4, **shape)


def range_text(numbers):
    return "%.3f to %.3f" % numbers


def by_cells(weirs, runs, larges, large_runs):
    rows = []
    for weir, (before, after), big, (_, big_after) in zip(weirs, runs, larges, large_runs):
        rows.append((count_text(weir.n), "%.4f" % (weir.dt / UNIT), "%.3f" % weir.head(after),
                     "%.3f" % (weir.head(after) / HEAD), "%.3f" % (weir.crest_depth(after) / CRITICAL),
                     "%.3f" % (weir.level_at(after, TAIL_GAUGE)), "%.2f" % weir.farthest_off(before, after),
                     range_text(weir.shown(after, False)), range_text(weir.shown(after, True)),
                     "%.3f" % (big.head(big_after) / HEAD), "%.3f" % (big.crest_depth(big_after) / CRITICAL)))
    heads = ("cells", "time step (s)", "head over the crest (m)", "/ Bernoulli's", "depth on the crest / critical",
             "tail water (m)", "discharge through the faces, farthest off (%)", "discharge of the cells (m2/s)",
             "of those beside an upright side (m2/s)", "16 times as large: head / Bernoulli's", "depth on the crest / critical")
    return table(heads, rows)


def by_side(parts):
    rows = []
    for side in SIDES:
        row = ["a staircase, %d m long" % side if side else "upright"]
        rows.append(row + ["%.3f" % part for part in parts[side]] + [order_text(overall_order([p - 1 for p in parts[side]]))])
    return table(["upstream side"] + ["%d cells: head / Bernoulli's" % n for n in COUNTS] + ["order of what is over 1"], rows)


def by_crest(command):
    rows = []
    for crest in CRESTS:
        weir = large(120, crest=crest, tail_crest=0.0)
        after = weir.run(command)[1]
        head = weir.head(after)
        rows.append(("%.1f" % crest, "%.2f" % (crest / HEAD), "%.3f" % (head / HEAD), "%.2f" % ((HEAD / head) ** 1.5),
                     "%.0f" % (1000 * weir.swell(after))))
    return table(("crest over the floor (m)", "/ Bernoulli's head", "head / Bernoulli's", "discharge / that of the same head by "
                  "Bernoulli", "the cell before the weir stands higher by (mm)"), rows)


def by_tail(command):
    rows, heads = [], []
    for tail_crest in TAIL_CRESTS:
        weir = large(120, tail_crest=tail_crest)
        after = weir.run(command)[1]
        heads.append(weir.head(after))
        rows.append(("%.2f" % tail_crest, "%.3f" % weir.tail_water(after), "%.3f" % heads[-1],
                     "%.2f" % (weir.tail_water(after) / heads[-1]), "%.3f" % (heads[-1] / heads[0])))
    return table(("tail sill (m)", "tail water over the weir's crest (m)", "head over it (m)", "tail water / head",
                  "head / that of the first row"), rows), heads


def drawing(weir, state):
    picture = Picture("Steady flow over a weir, %d cells" % weir.n, "distance (m)", "height over the floor (m)",
                      (0, LENGTH, 10), (-1, 2.5, 0.5))
    places = [i * weir.width for i in range(weir.n + 1)]

    def outline(heights):
        return [(x, height) for height, a, b in zip(heights, places, places[1:]) for x in (a, b)]
    level = outline(weir.levels(state))
    picture.area(level, WATER, "water after %d s" % SECONDS)
    picture.line(level, BLUE)
    picture.area(outline([z / UNIT - FLOOR for z in weir.bed]), EARTH, "bed")
    picture.line([(LEDGE_END, CREST + HEAD), (WEIR[1], CREST + HEAD)], BLACK, "Bernoulli's head", width=1.2, dash="6 3")
    for name, height, (a, b) in (("critical depth", CREST, WEIR), (None, TAIL_CREST, TAIL_SILL)):
        picture.line([(a, height + CRITICAL), (b, height + CRITICAL)], GREEN, name, width=1.4, dash="2 3")
    picture.line([(LEDGE_END, CREST + AT_START), (WEIR[1], CREST + AT_START)], ORANGE, "level at the start", width=1.2, dash="3 3")
    picture.line([(WEIR[1], TAIL_CREST + AT_START), (TAIL_SILL[1], TAIL_CREST + AT_START)], ORANGE, width=1.2, dash="3 3")
    return picture.svg()


def report(command):
    weirs, larges = [Weir(n) for n in COUNTS], [large(n) for n in COUNTS]
    runs, large_runs = [weir.run(command) for weir in weirs], [big.run(command) for big in larges]
    upright = [big.head(run[1]) / HEAD for big, run in zip(larges, large_runs)]
    parts = {0: upright}
    for side in SIDES[1:]:
        parts[side] = [big.head(big.run(command)[1]) / HEAD for big in (large(n, side=side) for n in COUNTS)]
    tail, drowned = by_tail(command)
    tables = {"weir": by_cells(weirs, runs, larges, large_runs), "weir-sides": by_side(parts),
              "weir-crests": by_crest(command), "weir-tail": tail}
    figures = {"weir, 120 cells: head / Bernoulli's": weirs[1].head(runs[1][1]) / HEAD,
               "weir, 16 times as large, 480 cells: head / Bernoulli's": upright[-1],
               "weir, 16 times as large, 480 cells: depth on the crest / critical":
                   larges[-1].crest_depth(large_runs[-1][1]) / CRITICAL,
               "weir: discharge through a face, farthest off (% of Q)":
                   max(weir.farthest_off(*run) for weir, run in zip(weirs + larges, runs + large_runs)),
               "weir, staircase of 4 m, 480 cells: head / Bernoulli's": parts[4][-1],
               "weir, staircase of 4 m: order, 60 to 480 cells": overall_order([part - 1 for part in parts[4]]),
               "weir: head over a drowned crest / over a free one": drowned[-1] / drowned[0]}
    return tables, {"weir-flow.svg": drawing(weirs[1], runs[1][1])}, figures
