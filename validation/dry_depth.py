"""What the dry depth does to a wave and to an inflow that run onto dry ground, and to a slope that drains.

Rounding holds thin water as the dry depth does.  To tell the two apart some rows are the same flow
deeper: heights times d, times through the root of d and Manning values times d^(2/3) leave it the same
picture, as in bank.py.  A unit counts d times less then, so the dry depth is taken d times as large.
"""

from math import sqrt

from reach import INFLOW, UNIT, WALL, Reach, ended, units
from tables import table

DRY_DEPTHS, LARGEST = (1, 4, 16, 64), 64
MANNING = 0.030
FILM = 0.001                    # m; water no deeper is not counted as having come

# The wave: cells, metres of each and seconds; of each row the water's depth (m), the time step (s) and d.
WAVE_CELLS, WAVE_WIDTH, WAVE_SECONDS = 40, 10, 300
WAVES = [(depth, dt, 1) for dt in (0.3, 0.03) for depth in (0.1, 0.3, 1, 3)]
WAVES += [(0.1, 0.3, 16), (0.3, 0.3, 4)]

# The inflow, onto the wave's ground without its water: seconds; of each row the discharge (m2/s), the time in which it
# rises to that (s), and the time step (s).
INFLOW_SECONDS = 120
INFLOWS = [(q, rise, 0.3) for rise in (0, 60) for q in (0.02, 0.1, 0.5, 1, 3)]

# The slope: the same, its fall and the water at first (m); of each row the time step (s) and d.
SLOPE_CELLS, SLOPE_WIDTH, SLOPE_SECONDS = 32, 5, 1800
FALL, SLOPE_DEPTH = 1 / 200, 0.05
SLOPES = ((1, 1), (0.25, 1), (1, 4), (1, 16))


class Flow:
    """Still water between walls, run `deep` times as deep; it is given and answers as the shallow flow.

    Where inflows are given, a discharge for each step, they come in at the left end."""

    def __init__(self, width, bed, depths, dt, deep, inflows=None):
        self.width, self.depths, self.deep, self.inflows = width, depths, deep, inflows
        self.dt = round(dt * UNIT / sqrt(deep))
        self.bed = [2 * round(deep * height * UNIT / 2) for height in bed]
        self.grounds = [(low + high) // 2 for low, high in zip(self.bed, self.bed[1:])]

    def reach(self, dry):
        cells = [(self.grounds[i] + units(self.deep * depth), (self.bed[i + 1] - self.bed[i]) // 2, 0, 0)
                 for i, depth in enumerate(self.depths)]
        friction = round(1000 * MANNING * self.deep ** (2 / 3))
        left, inflows = (INFLOW, self.inflows) if self.inflows else (WALL, [0])
        return Reach(self.width * UNIT, self.dt, 0, self.deep * dry, left, WALL, self.bed,
                     [friction] * len(cells), cells, [(units(q), 0) for q in inflows])

    def mean_depths(self, state):
        return [(cell[0] - ground) / UNIT / self.deep for cell, ground in zip(state.cells, self.grounds)]

    def answer(self, command, dry, seconds, told):
        """What is told of the depths at the end, or the refusal; nothing where the dry depth is too large."""
        if self.deep * dry > LARGEST:
            return ""
        steps = round(seconds * UNIT / sqrt(self.deep) / self.dt)
        state, refused = ended(command, self.reach(dry), steps)
        return "step %d: %d" % refused if refused else told(self.mean_depths(state))

    def answers(self, command, seconds, told):
        return [self.answer(command, dry, seconds, told) for dry in DRY_DEPTHS]


def wave(depth, dt, deep):
    half = WAVE_CELLS // 2
    return Flow(WAVE_WIDTH, [0] * (WAVE_CELLS + 1), [depth] * half + [0] * half, dt, deep)


def inflow(q, rise, dt):
    steps = round(INFLOW_SECONDS / dt)
    inflows = [q * min(1, (k + 1) * dt / rise) if rise else q for k in range(steps)]
    return Flow(WAVE_WIDTH, [0] * (WAVE_CELLS + 1), [0] * WAVE_CELLS, dt, 1, inflows)


def slope(dt, deep):
    bed = [FALL * SLOPE_WIDTH * (SLOPE_CELLS - i) for i in range(SLOPE_CELLS + 1)]
    return Flow(SLOPE_WIDTH, bed, [SLOPE_DEPTH] * SLOPE_CELLS, dt, deep)


def wet_cells(depths):
    return 1 + max(i for i, depth in enumerate(depths) if depth > FILM)


def come(depths):
    """How far from the dam the last cell with water ends."""
    return "ran, %d m" % ((wet_cells(depths) - WAVE_CELLS // 2) * WAVE_WIDTH)


def come_in(depths):
    """The same from the left end."""
    return "ran, %d m" % (wet_cells(depths) * WAVE_WIDTH)


def millimetres(metres):
    return "%.1f" % (1000 * metres)


def left(depths):
    """The mean over the upper half; in the lower one stands the pool at the foot."""
    upper = depths[:SLOPE_CELLS // 2]
    return millimetres(sum(upper) / len(upper))


def left_by_theory():
    """The same of a kinematic wave, whose mean depth from the top down to x is 2/5 of that at x."""
    x, speed = SLOPE_WIDTH * SLOPE_CELLS / 2, 5 / 3 * sqrt(FALL) / MANNING
    return millimetres(2 / 5 * (x / (speed * SLOPE_SECONDS)) ** (3 / 2))


def named(number, deep):
    return "%g" % number if deep == 1 else "%g, %d times as deep" % (number, deep)


def dry_heads(unit):
    return tuple("dry depth %d%s" % (dry, unit) for dry in DRY_DEPTHS)


def wave_table(waves):
    rows = [[named(depth, deep), "%g" % dt] + answers for (depth, dt, deep), answers in waves.items()]
    return table(("water (m)", "time step (s)") + dry_heads(""), rows)


def inflow_table(inflows):
    rows = [["%g" % q, "from the first step on" if rise == 0 else "rising for %d s" % rise] + answers
            for (q, rise, _), answers in inflows.items()]
    return table(("inflow (m2/s)", "given") + dry_heads(""), rows)


def slope_table(slopes):
    rows = [[named(dt, deep)] + answers + [left_by_theory()] for (dt, deep), answers in slopes.items()]
    return table(("time step (s)",) + dry_heads(" (mm)") + ("kinematic wave (mm)",), rows)


def ran(rows):
    return sum(answer.startswith("ran") for answers in rows.values() for answer in answers)


def told_number(answer):
    """The metres that water came, or the millimetres that were left; no number where a step was refused."""
    return float("nan") if answer.startswith("step") else float(answer.replace("ran, ", "").replace(" m", ""))


def figures_of(waves, inflows, slopes):
    four, sixteen = DRY_DEPTHS.index(4), DRY_DEPTHS.index(16)
    return {"dry depth: waves that ran": ran(waves), "dry depth: inflows that ran": ran(inflows),
            "dry depth 16: 0.3 m of water came (m)": told_number(waves[0.3, 0.3, 1][sixteen]),
            "dry depth 4: left on the slope (mm)": told_number(slopes[1, 1][four]),
            "dry depth 4: left on the slope, 16 times as deep (mm)": told_number(slopes[1, 16][four])}


def report(command):
    waves = {row: wave(*row).answers(command, WAVE_SECONDS, come) for row in WAVES}
    inflows = {row: inflow(*row).answers(command, INFLOW_SECONDS, come_in) for row in INFLOWS}
    slopes = {row: slope(*row).answers(command, SLOPE_SECONDS, left) for row in SLOPES}
    tables = {"dry-wave": wave_table(waves), "dry-inflow": inflow_table(inflows), "dry-slope": slope_table(slopes)}
    return tables, {}, figures_of(waves, inflows, slopes)
