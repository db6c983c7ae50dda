"""A reach of the library, stepped by the C program reach.

Metres and seconds become the library's whole numbers here and nowhere else, and cells its columns.
"""

import re
import subprocess
from collections import namedtuple

UNIT = 4096             # one metre, second or m2/s
GRAVITY = 9.81
WALL, OPEN, INFLOW = 0, 1, 2
DITCH_DRY = 4           # the dry depth of an ordinary ditch, about 1 mm

# bed: n + 1 numbers; friction: n; cells: n times (level, its slope, discharge, its slope);
# inflows: for each step the Q of the left end and that of the right, the last pair for all later steps too
Reach = namedtuple("Reach", "dx dt jump dry left right bed friction cells inflows", defaults=([(0, 0)],))

# A reach with a stepped bed (E10).  bed: n numbers, one a cell; cells: n times (level, discharge); no inflows
Sills = namedtuple("Sills", "dx dt dry left right bed friction cells")

# What crossed the two ends since the start, and the cells, after some number of steps.
State = namedtuple("State", "crossed cells")


def units(metres):
    """The nearest whole number of 1/4096."""
    return round(metres * UNIT)


def table_of(cells):
    """The library's table of a state: its columns, one for each number of a cell."""
    return [number for column in zip(*cells) for number in column]


def cells_of(table, columns=4):
    n = len(table) // columns
    return [tuple(table[i::n]) for i in range(n)]


def text_of(reach):
    jump, inflows = (0, []) if isinstance(reach, Sills) else (reach.jump, reach.inflows)
    numbers = [len(reach.cells), reach.dx, reach.dt, jump, reach.dry, reach.left, reach.right]
    numbers += reach.bed + reach.friction + table_of(reach.cells)
    for pair in inflows:
        numbers += pair
    return " ".join(map(str, numbers)) + "\n"


def run(command, reach, steps, every):
    words = [str(steps), str(every)] + ["sills"] * isinstance(reach, Sills)
    return subprocess.run(command + words, input=text_of(reach), capture_output=True, text=True)


def lines_of(command, reach, steps, every):
    """One line a state, as the program writes it; the first is the start."""
    done = run(command, reach, steps, every)
    if done.returncode != 0:
        raise SystemExit(done.stderr)
    return done.stdout.splitlines()


def ended(command, reach, steps):
    """The last state and None, or None and the first refused step with its number."""
    done = run(command, reach, steps, steps)
    if done.returncode == 0:
        return state_of(done.stdout.splitlines()[-1], len(reach.cells[0])), None
    found = re.search(r"step (\d+) is refused with (\d+)", done.stderr)
    if found is None:
        raise SystemExit(done.stderr)
    return None, (int(found.group(1)), int(found.group(2)))


def stood(command, reach, most):
    """The middle cell of a reach without ends, of cells that are all alike, when a step changes it no more."""
    cells = state_of(lines_of(command, reach, most, "alike")[0]).cells
    return cells[len(cells) // 2]


def refusal_of(command, reach, steps):
    """The first step that is refused and its number, or None where all are accepted."""
    return ended(command, reach, steps)[1]


def state_of(line, columns=4):
    first, last, *table = [int(word) for word in line.split()]
    return State((first, last), cells_of(table, columns))


def stepped(command, reach, steps, every):
    return [state_of(line, len(reach.cells[0])) for line in lines_of(command, reach, steps, every)]
