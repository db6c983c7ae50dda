"""Steady flow over a bump, slower than its waves before the crest and faster behind it, held to Bernoulli.

The bump is that of SWASHES (Delestre et al. 2013), section 3.1.4.  As with the dam break, the case is run in
its own size and 16 times as large, where rounding counts 16 times less.
"""

from math import sqrt

from picture import BLACK, BLUE, EARTH, GREEN, ORANGE, Picture
from reach import DITCH_DRY, GRAVITY, INFLOW, OPEN, UNIT, Reach, State, ended, refusal_of, stepped, units
from tables import count_text, order_text, orders, table

LENGTH, CREST, HALF, HEIGHT = 25, 10, 2, 0.2        # m: the reach, and the bump's place, half length and height
Q = 6272                                            # 1.53125 m2/s, of which some time steps cut nothing off
OWN_Q = 6267                                        # 1.53 m2/s, SWASHES' own
SECONDS, HOUR = 40, 3600
UNLIMITED = 262144                                  # J at its greatest: no slope is limited
JUMPS = (0, 64, UNLIMITED)
COUNTS = (50, 100, 200, 400)
PIECES = 4400                                       # dt is this over the cells: Q dt/dx is 269.5
TRIED = range(36, 61, 2)                            # time steps in 100 cells, 0.2 to 0.34 of a cell
DEEPER = 0.05                                       # m
GUESS = 1.1, 0.4                                    # m: level before the crest and depth behind it
POOLS = (0.5, 1.0, 1.5)                             # m: levels of a pool at rest


def bed_height(x):
    return max(0.0, HEIGHT * (1 - ((x - CREST) / HALF) ** 2))


class Bernoulli:
    """h + z + q^2/(2 g h^2) is the same everywhere, and the flow is critical at the crest."""

    def __init__(self, q):
        self.q = q
        self.critical = (q * q / GRAVITY) ** (1 / 3)
        self.head = HEIGHT + 1.5 * self.critical

    def level(self, x):
        """By bisection, from the critical depth upward before the crest and downward behind it."""
        near, far = self.critical, self.head if x < CREST else 0.01
        for _ in range(60):
            h = (near + far) / 2
            if h + bed_height(x) + self.q ** 2 / (2 * GRAVITY * h * h) > self.head:
                far = h
            else:
                near = h
        return near + bed_height(x)

    def mean_level(self, a, b):
        """Over a cell, by Gauss's three points in each half; the bump's ends and its crest are faces."""
        total, w = 0.0, (b - a) / 4
        for c in (a + w, b - w):
            points = (c - sqrt(0.6) * w, 5), (c, 8), (c + sqrt(0.6) * w, 5)
            total += sum(weight * self.level(x) for x, weight in points) / 36
        return total


class Bump:
    """The reach in n cells, `size` times as large and its times `pace` times as long; it answers in its own size."""

    def __init__(self, n, pieces=PIECES, size=1, pace=1, jump=UNLIMITED, q=Q):
        self.n, self.size, self.jump = n, size, min(size * jump, UNLIMITED)
        self.own_q, self.exact = q, Bernoulli(q / UNIT)
        self.width = LENGTH / n
        self.dx, self.dt = LENGTH * size * UNIT // n, pieces * pace // n
        self.q = q * size * size // pace
        self.steps = round(SECONDS * pace * UNIT / self.dt)
        self.bed = [2 * round(size * bed_height(i * self.width) * UNIT / 2) for i in range(n + 1)]
        self.means = [self.exact.mean_level(i * self.width, (i + 1) * self.width) for i in range(n)]

    def reach(self, cells, inflows=None):
        return Reach(self.dx, self.dt, self.jump, DITCH_DRY, INFLOW, OPEN, self.bed, [0] * self.n, cells,
                     inflows or [(self.q, 0)])

    def exact_cells(self, deeper=0.0):
        """The exact profile, or one that is deeper before the bump."""
        cells = []
        for i, mean in enumerate(self.means):
            a, b = i * self.width, (i + 1) * self.width
            lift = deeper if b <= CREST - HALF else 0
            slope = (self.exact.level(b) - self.exact.level(a)) / 2
            cells.append((units(self.size * (mean + lift)), units(self.size * slope), self.q, 0))
        return cells

    def guessed_cells(self):
        """A level before the crest, a depth behind it."""
        level, depth = (units(self.size * metres) for metres in GUESS)
        cells = []
        for i, (low, high) in enumerate(zip(self.bed, self.bed[1:])):
            behind = (low + high) // 2 + depth, (high - low) // 2, self.q, 0
            cells.append(behind if i * self.width >= CREST else (level, 0, self.q, 0))
        return cells

    def pool_cells(self, level):
        return [(units(self.size * level), 0, 0, 0)] * self.n

    def levels(self, state):
        return [cell[0] / UNIT / self.size for cell in state.cells]

    def discharges(self, state):
        return [cell[2] / self.q * self.own_q / UNIT for cell in state.cells]

    def errors(self, state):
        """The mean and the greatest of the level's errors."""
        sizes = [abs(level - mean) for level, mean in zip(self.levels(state), self.means)]
        return sum(sizes) / self.n, max(sizes)

    def carried(self):
        """Inflows that owe nothing: what a step's cut leaves is added to what the next has to bring."""
        rest, inflows = 0, []
        for _ in range(self.steps):
            volume, rest = divmod(self.q * self.dt + rest, self.dx)
            inflows.append((-(-volume * self.dx // self.dt), 0))     # the least Q that brings this volume
        return inflows

    def run(self, command, cells, inflows=None):
        return stepped(command, self.reach(cells, inflows), self.steps, self.steps)[-1]


def is_still(command, bump, state):
    """Whether a step changes no number; it then never does."""
    return stepped(command, bump.reach(state.cells), 1, 1)[-1].cells == state.cells


def error_text(errors):
    return "%.2f / %.1f" % tuple(1000 * error for error in errors)


def range_text(numbers):
    return "%.4f to %.4f" % (min(numbers), max(numbers))


def kept(command, bump):
    """Where the exact profile comes to; it must have come to a stand."""
    state = bump.run(command, bump.exact_cells())
    if not is_still(command, bump, state):
        raise SystemExit("bump: from the exact profile, %d cells do not come to a stand" % bump.n)
    return state


def by_cells(command, bumps, guessed, larges, large_states):
    mean_errors = [large.errors(state)[0] for large, state in zip(larges, large_states)]
    rows = []
    for bump, state, large, large_state, order in zip(bumps, guessed, larges, large_states, orders(mean_errors)):
        exact = kept(command, bump)
        deeper = bump.run(command, bump.exact_cells(DEEPER))
        rows.append((count_text(bump.n), "%.4f" % (bump.dt / UNIT), error_text(bump.errors(exact)),
                     error_text(bump.errors(deeper)), error_text(bump.errors(state)),
                     range_text(bump.discharges(state)), error_text(large.errors(large_state)), order_text(order),
                     range_text(large.discharges(large_state))))
    heads = ("cells", "time step (s)", "from the exact profile (mm)", "from 5 cm deeper (mm)", "from a guess (mm)",
             "discharge (m2/s)", "16 times as large, from a guess: / 16 (mm)", "order", "discharge / 64 (m2/s)")
    return table(heads, rows)


def with_own_q(command):
    """SWASHES' own discharge, of which every time step cuts something off."""
    rows = []
    for n in COUNTS[1:]:
        bump = Bump(n, q=OWN_Q)
        exact, deeper = kept(command, bump), bump.run(command, bump.exact_cells(DEEPER))
        rows.append((count_text(n), "%.2f" % (bump.q * bump.dt / bump.dx), error_text(bump.errors(exact)),
                     error_text(bump.errors(deeper)), range_text(bump.discharges(deeper))))
    heads = ("cells", "Q·dt/dx", "from the exact profile (mm)", "from 5 cm deeper (mm)", "discharge (m2/s)")
    return table(heads, rows)


def step_row(command, bump, carry=False):
    """What of Q is cut off, and where each start comes to."""
    inflows = bump.carried() if carry else None
    brought = "%g" % (bump.q * bump.dt / bump.dx)
    cut = 0 if carry else bump.q * bump.dt % bump.dx / bump.dx
    hourly = cut * bump.width * HOUR / bump.dt
    starts = bump.exact_cells(), bump.exact_cells(DEEPER), bump.guessed_cells()
    states = [bump.run(command, cells, inflows) for cells in starts]
    return [str(bump.dt), brought + ", carried on" if carry else brought, "%g" % cut, "%.1f" % hourly] + [
        error_text(bump.errors(state)) for state in states]


def by_time_step(command):
    rows = [step_row(command, Bump(100, 100 * dt)) for dt in TRIED]
    rows.append(step_row(command, Bump(100), carry=True))
    heads = ("time step (1/4096 s)", "Q·dt/dx", "cut off in a step (units)", "in an hour (m2)",
             "from the exact profile (mm)", "from 5 cm deeper (mm)", "from a guess (mm)")
    return table(heads, rows)


def refusal_text(refused):
    return "step %d is refused with %d" % refused


def by_jump(command):
    rows = []
    for jump in JUMPS:
        row = ["none limited" if jump == UNLIMITED else str(jump)]
        for n in COUNTS[:3]:
            large = Bump(n, size=16, pace=4, jump=jump)
            state, refused = ended(command, large.reach(large.guessed_cells()), large.steps)
            row.append(refusal_text(refused) if refused else error_text(large.errors(state)))
        rows.append(row)
    return table(["J / 16"] + ["%d cells: / 16 (mm)" % n for n in COUNTS[:3]], rows)


def by_pool(command):
    rows = []
    for level in POOLS:
        bump = Bump(100)
        refused = refusal_of(command, bump.reach(bump.pool_cells(level)), bump.steps)
        rows.append(("%.1f" % level, refusal_text(refused) if refused else
                     "%s steps accepted" % count_text(bump.steps)))
    return table(("pool at rest, level (m)", "100 cells"), rows)


def figures_of(bumps, guessed, larges, large_states):
    """Of the starts from the guess; of the discharge how far it is off, of Q."""
    errors = [1000 * bump.errors(state)[0] for bump, state in zip(bumps, guessed)]
    large_errors = [1000 * large.errors(state)[0] for large, state in zip(larges, large_states)]
    off = max(abs(q / (bump.own_q / UNIT) - 1) for bump, state in zip(bumps, guessed) for q in bump.discharges(state))
    return {"bump, 50 cells: mean error (mm)": errors[0], "bump, 100 cells: mean error (mm)": errors[1],
            "bump, 400 cells: mean error (mm)": errors[3],
            "bump, 16 times as large, 100 cells: mean error / 16 (mm)": large_errors[1],
            "bump, 16 times as large: order, 50 to 100 cells": orders(large_errors)[1],
            "bump: discharge, farthest off (% of Q)": 100 * off}


def middles(bump):
    return [(i + 0.5) * bump.width for i in range(bump.n)]


def profile(bump, state):
    picture = Picture("Steady flow over a bump, 100 cells", "distance (m)", "height (m)", (0, LENGTH, 5), (0, 1.4, 0.2))
    places = [k / 20 for k in range(20 * LENGTH + 1)]
    guess = State((0, 0), bump.guessed_cells())
    picture.area([(x, bed_height(x)) for x in places], EARTH, "bed")
    critical = [(x, bed_height(x) + bump.exact.critical) for x in places]
    picture.line(critical, GREEN, "critical depth", width=1.2, dash="2 3")
    picture.line([(x, bump.exact.level(x)) for x in places], BLACK, "exact (Bernoulli)", width=1.2)
    picture.line(list(zip(middles(bump), bump.levels(guess))), ORANGE, "level at the start", dash="6 3")
    picture.dots(list(zip(middles(bump), bump.levels(state))), BLUE, "level after %d s" % SECONDS, radius=2.2)
    return picture.svg()


def discharge_drawing(bumps, states, large, large_state):
    picture = Picture("Discharge along the reach after %d s" % SECONDS, "distance (m)", "discharge (m2/s)",
                      (0, LENGTH, 5), (1.525, 1.545, 0.005))
    picture.line([(0, Q / UNIT), (LENGTH, Q / UNIT)], BLACK, "Q", width=1.2)
    for bump, state, colour in zip(bumps, states, (BLUE, ORANGE)):
        picture.line(list(zip(middles(bump), bump.discharges(state))), colour, "%d cells" % bump.n, dash="6 3")
    picture.line(list(zip(middles(large), large.discharges(large_state))), GREEN,
                 "%d cells, 16 times as large, / 64" % large.n)
    return picture.svg()


def report(command):
    bumps, larges = [Bump(n) for n in COUNTS], [Bump(n, size=16, pace=4) for n in COUNTS]
    guessed = [bump.run(command, bump.guessed_cells()) for bump in bumps]
    large_states = [large.run(command, large.guessed_cells()) for large in larges]
    tables = {"bump": by_cells(command, bumps, guessed, larges, large_states), "bump-own": with_own_q(command),
              "bump-steps": by_time_step(command), "bump-jump": by_jump(command), "bump-pool": by_pool(command)}
    pictures = {"bump.svg": profile(bumps[1], guessed[1]),
                "bump-discharge.svg": discharge_drawing(bumps[1::2], guessed[1::2], larges[1], large_states[1])}
    return tables, pictures, figures_of(bumps, guessed, larges, large_states)
