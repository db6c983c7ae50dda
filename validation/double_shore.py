"""Still water and a shore by the step in doubles (E1): what it does not share with the one in whole numbers.

Its lakes are at rest to a few last bits and not to every number, and it limits cells beside dry ground, as the whole
numbers did before E2.
"""

from bank import FOOT, LENGTH, SAMPLE, SHORE, Bank, states_now
from former import stepped_before_e2
from lake import CELLS, STEPS, bed_and_levels, still_cells
from lake import LENGTH as LAKE_LENGTH
from picture import BLACK, BLUE, EARTH, ORANGE, Picture
from reach import DITCH_DRY, OPEN, UNIT, WALL, Reach, ended, in_doubles, in_metres, stepped
from tables import count_text, table

# Name, time step in s, J in units and ends of each lake
LAKES = (("walls", 0.75, 64, WALL), ("walls", 0.75, 0, WALL), ("open ends", 0.25, 64, OPEN), ("walls", 1, 64, WALL))

# Cells, J and sample of each start at the bank, when the wave comes to the shore.
STARTS = ((16, 0, 66), (32, 0, 66), (32, 0, 72), (64, 64, 72))
DRAWN = STARTS[0]


def moved(state, cells):
    """The farthest that a mean level is from where it was, and the largest discharge."""
    return max(abs(a[0] - b[0]) for a, b in zip(state.cells, cells)), max(abs(cell[2]) for cell in state.cells)


def lakes(command):
    """The table, and how far the levels moved in each run."""
    bed, level = bed_and_levels()
    rows, levels = [], []
    for name, dt, jump, end in LAKES:
        reach = in_doubles(Reach(LAKE_LENGTH * UNIT // CELLS, round(dt * UNIT), jump, DITCH_DRY, end, end, bed,
                                 [0] * CELLS, still_cells(bed, level)))
        last, refused = ended(command, reach, STEPS)
        far = (float("inf"), float("inf")) if refused else moved(last, reach.cells)
        levels.append(far[0])
        rows.append((name, "%.2f" % dt, "1/64" if jump else "0",
                     "step %d is refused with %d" % refused if refused else "%s steps accepted" % count_text(STEPS),
                     *("" if refused else power_text(x) for x in far)))
    heads = ("ends", "time step (s)", "J (m)", "", "a level moved by (m)", "a discharge of (m2/s)")
    return table(heads, rows), levels


def power_text(x):
    """One digit and a power of ten."""
    digit, power = ("%.0e" % x).split("e")
    return ("%s·10^%d" % (digit, int(power))).replace("-", "\u2212") if float(digit) else "0"


def one_step(command, n, jump, sample):
    """The start, and what one step without friction makes of it: by E2's rule, by the one before it, in doubles."""
    bank = Bank(n, jump)
    start = states_now(command, bank)[sample]
    reach = bank.reach()._replace(cells=start.cells, friction=[0] * n)
    before, refused = stepped_before_e2(reach, 1, 1)
    if refused:
        raise SystemExit("double_shore: before E2 step %d is refused with %d" % refused)
    after = [in_metres(stepped(command, reach, 1, 1)[-1]), in_metres(before[-1]),
             stepped(command, in_doubles(reach), 1, 1)[-1]]
    return bank, in_metres(start), after


def shown(state):
    """The levels that the cells show at their faces."""
    return [level for mean, slope, _, _ in state.cells for level in (mean - slope, mean + slope)]


def apart(state, other):
    return max(abs(a - b) for a, b in zip(shown(state), shown(other)))


def shore(bank, state):
    """The level over the still one that the last cell below the shore shows there."""
    return shown(state)[2 * round(SHORE / bank.width) - 1] - 2


def shores(steps):
    rows = []
    for (n, jump, sample), (bank, start, after) in steps.items():
        whole, before, doubles = after
        rows.append([count_text(n), "1/64" if jump else "0", str(SAMPLE * sample)]
                    + ["%.1f" % (1000 * shore(bank, state)) for state in (start, whole, before, doubles)]
                    + ["%.1f" % (1000 * apart(doubles, other)) for other in (whole, before)])
    heads = ("cells", "J (m)", "at (s)", "level at the shore (mm)", "a step later, whole (mm)",
             "whole, before E2 (mm)", "doubles (mm)", "doubles \u2212 whole, farthest (mm)",
             "doubles \u2212 whole before E2, farthest (mm)")
    return table(heads, rows)


def level_lines(bank, state):
    """Each cell's own level line from the bank's foot on, and so the steps between them; dry cells are left out."""
    points = []
    for i, (mean, slope, _, _) in enumerate(state.cells):
        depth = mean - (bank.bed[i] + bank.bed[i + 1]) / 2 / UNIT
        if depth > DITCH_DRY / UNIT and i * bank.width >= FOOT:
            points += [(i * bank.width, mean - slope), ((i + 1) * bank.width, mean + slope)]
    return points


def drawing(bank, start, after):
    picture = Picture("One step at the shore: 16 cells, J = 0, %d s" % (SAMPLE * DRAWN[2]),
                      "distance (m)", "height (m)", (FOOT, LENGTH, 128), (1.6, 2.4, 0.1))
    bank_at = [(FOOT + (SHORE - FOOT) * height / 2, height) for height in (1.6, 2.4)]
    picture.area(bank_at + [(LENGTH, 2.4)], EARTH, "bank")
    picture.line(level_lines(bank, start), BLACK, "before the step", width=1.2)
    picture.line(level_lines(bank, after[0]), BLUE, "whole numbers", width=2.4, dash="3 4")
    picture.line(level_lines(bank, after[2]), ORANGE, "doubles", width=1.8, dash="6 3")
    return picture.svg("middle")


def report(command):
    steps = {start: one_step(command, *start) for start in STARTS}
    lake_table, levels = lakes(command)
    figures = {"doubles, lake between walls: a level moved by (m)": max(levels[:2]),
               "doubles, lake with open ends: a level moved by (m)": levels[2],
               "doubles less whole, one step at the shore: farthest (mm)":
                   1000 * max(apart(after[2], after[0]) for _, _, after in steps.values()),
               "doubles less whole before E2, one step at the shore: farthest (mm)":
                   1000 * max(apart(after[2], after[1]) for _, _, after in steps.values())}
    tables = {"double-lake": lake_table, "double-shore": shores(steps)}
    return tables, {"double-shore.svg": drawing(*steps[DRAWN])}, figures
