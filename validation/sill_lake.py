"""The lake of lake.py over a stepped bed (E10): upright sills, islands and hollows of odd heights, wet and dry."""

from lake import CELLS, LENGTH, STEPS, bed_height, changed_lines, pool_level
from picture import BLUE, EARTH, WATER, Picture
from reach import OPEN, UNIT, WALL, Sills, lines_of, units
from tables import count_text, table

# Cells that are sills, and how high they stand over the ground (m).
SILLS = ((7, 0.1), (11, 1.3), (17, 3.4), (36, 0.9), (52, 5.1), (57, 6.3), (58, 6.0))

PUDDLE = 68     # the lowest cell of the dry hollow; it has one unit of water, no more than any dry depth
UNEVEN = 1201   # units: the ground goes up and down by as much from cell to cell, 0.3 m


def uneven(i):
    """A number of cell i, without order."""
    return 37 * i * i + 11 * i


def middles():
    return [(i + 0.5) * LENGTH / CELLS for i in range(CELLS)]


def bed():
    """The lake's own bed at mid-cell, made uneven, and the sills on it; every height is odd."""
    rises = dict(SILLS)
    return [(units(bed_height(x) + rises.get(i, 0)) + uneven(i) % UNEVEN) | 1 for i, x in enumerate(middles())]


def still_cells(heights):
    """Each pool at its level, which is odd, and ground above it dry."""
    cells = [(max(z, units(pool_level(x)) + 1), 0) for z, x in zip(heights, middles())]
    cells[PUDDLE] = heights[PUDDLE] + 1, 0
    return cells


def runs():
    """Name, Manning values, time step, dry depth and ends of each run."""
    rough = [uneven(i) % 201 for i in range(CELLS)]
    return (("smooth, walls", [0] * CELLS, UNIT, 4, WALL, WALL),
            ("Manning 0.030, walls", [30] * CELLS, 2731, 1, WALL, WALL),
            ("Manning 0 to 0.200, cell by cell, wall and open end", rough, 1024, 64, WALL, OPEN),
            ("Manning 0 to 0.200, cell by cell, open ends", rough, 37, 4, OPEN, OPEN))


def outline(numbers):
    """A flat piece for each cell, with upright steps between."""
    places = [i * LENGTH / CELLS for i in range(CELLS + 1)]
    return [(x, number / UNIT) for number, a, b in zip(numbers, places, places[1:]) for x in (a, b)]


def drawing(heights, cells):
    picture = Picture("A lake over sills and among islands, before and after %s steps" % count_text(STEPS),
                      "distance (m)", "height (m)", (0, LENGTH, 250), (0, 12, 1))
    level = outline([cell[0] for cell in cells])
    picture.area(level, WATER, "water")
    picture.line(level, BLUE, "level")
    picture.area(outline(heights), EARTH, "bed")
    return picture.svg()


def report(command):
    heights = bed()
    cells = still_cells(heights)
    dx = LENGTH * UNIT // CELLS
    rows, changed = [], 0
    for name, friction, dt, dry, left, right in runs():
        lines = lines_of(command, Sills(dx, dt, dry, left, right, heights, friction, cells), STEPS, 1)
        if len(lines) != STEPS + 1 or not lines[0].startswith("0 0 "):
            raise SystemExit("sill lake: %d lines came back" % len(lines))
        changed += changed_lines(lines)
        rows.append((name, "%.3f" % (dt / UNIT), str(dry), count_text(STEPS), count_text(changed_lines(lines))))
    heads = ("run", "time step (s)", "dry depth", "steps", "steps after which any number had changed")
    return ({"sill-lake": table(heads, rows)}, {"sill-lake.svg": drawing(heights, cells)},
            {"sills, lake: steps that changed a number": changed})
