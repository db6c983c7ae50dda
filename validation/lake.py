"""A lake at rest among islands, as in section 4.1 of Kesserwani and Liang (2012)."""

from picture import BLUE, EARTH, WATER, Picture
from reach import DITCH_DRY, OPEN, UNIT, WALL, Reach, lines_of, units
from tables import count_text, table

LENGTH, CELLS, STEPS = 1500, 80, 5000

# Distance and height of the bed's kinks (m).
KINKS = ((0, 0), (60, 0.4), (150, 5), (250, 5.2), (300, 3), (360, 5), (420, 7.6), (470, 9), (530, 9),
         (560, 6.8), (600, 5), (700, 3.1), (760, 3), (790, 7), (840, 7.4), (870, 4), (950, 0.4),
         (1100, 0), (1150, 6.9), (1200, 7.4), (1260, 3.5), (1330, 4.2), (1380, 7), (1430, 7.8), (1500, 8.5))

# The still level of each pool (m), and how far it reaches; the last hollow is dry.
POOLS = ((6.0, 500), (5.5, 815), (6.0, 1175), (0.0, 1500))


def face_places():
    return [i * LENGTH / CELLS for i in range(CELLS + 1)]


def bed_height(x):
    for (x0, z0), (x1, z1) in zip(KINKS, KINKS[1:]):
        if x <= x1:
            return z0 + (z1 - z0) * (x - x0) / (x1 - x0)


def pool_level(x):
    return next(level for level, end in POOLS if x <= end)


def even(metres):
    return 2 * round(metres * UNIT / 2)


def bed_and_levels():
    """The bed at the faces, with each shore brought to the nearer face, and each face's pool level.

    A shore inside a cell is not at rest on this mesh, so at a shore the bed has the level itself."""
    bed = [even(bed_height(x)) for x in face_places()]
    level = [units(pool_level(x)) for x in face_places()]
    for i in range(CELLS):
        a, b = bed[i] - level[i], bed[i + 1] - level[i + 1]
        if a * b < 0:
            shore = i if abs(a) <= abs(b) else i + 1
            bed[shore] = level[shore]
    return bed, level


def still_cells(bed, level):
    """Flat water where both faces are at or below the level, else dry ground."""
    cells = []
    for i in range(CELLS):
        wet = bed[i] <= level[i] and bed[i + 1] <= level[i + 1]
        mean, slope = (bed[i] + bed[i + 1]) // 2, (bed[i + 1] - bed[i]) // 2
        cells.append((level[i], 0, 0, 0) if wet else (mean, slope, 0, 0))
    return cells


def runs():
    """Name, Manning values, J, ends and time step of each run."""
    rough = [(37 * i * i + 11 * i) % 201 for i in range(CELLS)]
    return (("smooth, walls", [0] * CELLS, 64, WALL, UNIT),
            ("Manning 0.030, walls", [30] * CELLS, 64, WALL, UNIT),
            ("Manning 0 to 0.200, cell by cell, walls", rough, 0, WALL, UNIT),
            ("Manning 0 to 0.200, cell by cell, open ends", rough, 64, OPEN, UNIT // 4))


def changed_lines(lines):
    """How many states differ from the first, in a number or in what crossed the ends."""
    return sum(line != lines[0] for line in lines[1:])


def drawing(bed, cells):
    picture = Picture("A lake among islands, before and after %s steps" % count_text(STEPS),
                      "distance (m)", "height (m)", (0, LENGTH, 250), (0, 11, 1))
    places = face_places()
    level = []
    for i, (mean, slope, _, _) in enumerate(cells):
        level += [(places[i], (mean - slope) / UNIT), (places[i + 1], (mean + slope) / UNIT)]
    picture.area(level, WATER, "water")
    picture.line(level, BLUE, "level")
    picture.area([(x, z / UNIT) for x, z in zip(places, bed)], EARTH, "bed")
    return picture.svg()


def report(command):
    bed, level = bed_and_levels()
    cells = still_cells(bed, level)
    dx = LENGTH * UNIT // CELLS
    rows, changed = [], 0
    for name, friction, jump, end, dt in runs():
        reach = Reach(dx, dt, jump, DITCH_DRY, end, end, bed, friction, cells)
        lines = lines_of(command, reach, STEPS, 1)
        if len(lines) != STEPS + 1 or not lines[0].startswith("0 0 "):
            raise SystemExit("lake: %d lines came back" % len(lines))
        changed += changed_lines(lines)
        rows.append((name, "%g" % (dt / UNIT), str(jump), count_text(STEPS), count_text(changed_lines(lines))))
    heads = ("run", "time step (s)", "J", "steps", "steps after which any number had changed")
    return {"lake": table(heads, rows)}, {"lake.svg": drawing(bed, cells)}, {"lake: steps that changed a number": changed}
