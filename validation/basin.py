"""A basin filled by a given inflow: what came in is counted before each step and found in the water after it."""

from reach import DITCH_DRY, INFLOW, UNIT, WALL, Reach, stepped, units
from tables import count_text, table

CELLS, WIDTH, DEPTH = 32, 2, 1                  # cells, metres of each, metres of still water at first
DX, DT, JUMP = WIDTH * UNIT, UNIT // 8, 64      # so Q dt/dx is Q/16
FILLING, SETTLING = 480, 7200                   # steps: a minute of inflow, and a quarter of an hour without
RISE, FLOOD = 160, 1                            # steps to the top of the flood, and its discharge there (m2/s)


def volume(q):
    """What comes in by Q in one step, as depth over one cell."""
    return q * DT // DX


def flood():
    """Discharges that rise and fall in straight lines, at the middle of each step."""
    up = [(k + 0.5) / RISE for k in range(RISE)]
    down = [1 - (k + 0.5) / (FILLING - RISE) for k in range(FILLING - RISE)]
    return [units(FLOOD * part) for part in up + down]


def carried(discharges):
    """The same with nothing lost: what a step's cut leaves is added to what the next has to bring."""
    rest, given = 0, []
    for q in discharges:
        brought, rest = divmod(q * DT + rest, DX)
        given.append(-(-brought * DX // DT))        # the least Q that brings it
    return given


def runs():
    """Of each run its name, what each step should bring at both ends together, and what it is given at each."""
    none, half, quarter = [0] * FILLING, [units(0.5)] * FILLING, [units(0.25)] * FILLING
    odd = [units(0.5) - 1] * FILLING
    return (("0.5 m2/s at the left end", half, half, none), ("0.5 m2/s at the right end", half, none, half),
            ("0.5 m2/s left, 0.25 right", [a + b for a, b in zip(half, quarter)], half, quarter),
            ("0.49976 m2/s left", odd, odd, none), ("a flood to 1 m2/s left", flood(), flood(), none),
            ("the flood, cuts carried on", flood(), carried(flood()), none))


def water(state):
    return sum(cell[0] for cell in state.cells)


def differences(states, left, right):
    """After how many steps the water, or what crossed an end, is not what was counted beforehand."""
    came, gone, wrong = 0, 0, 0
    for state, left_q, right_q in zip(states[1:], left, right):
        came, gone = came + volume(left_q), gone - volume(right_q)
        wrong += state.crossed != (came, gone) or water(state) != water(states[0]) + came - gone
    return wrong


def filled(command, left, right):
    kinds = [INFLOW if any(discharges) else WALL for discharges in (left, right)]
    reach = Reach(DX, DT, JUMP, DITCH_DRY, *kinds, [0] * (CELLS + 1), [0] * CELLS, [(DEPTH * UNIT, 0, 0, 0)] * CELLS,
                  list(zip(left, right)))
    states = stepped(command, reach, FILLING, 1)
    settled = stepped(command, reach._replace(cells=states[-1].cells, inflows=[(0, 0)]), SETTLING, SETTLING)[-1]
    if water(settled) != water(states[-1]):
        raise SystemExit("basin: water came or went without an inflow")
    return states, settled


def metres(level):
    return "%.4f" % (level / UNIT)


def report(command):
    rows, wrong, uneven = [], 0, 0
    for name, wanted, left, right in runs():
        states, settled = filled(command, left, right)
        due, came = sum(wanted) * DT / DX, water(states[-1]) - water(states[0])
        levels = [cell[0] for cell in settled.cells]
        miscounted = differences(states, left, right)
        wrong, uneven = wrong + miscounted, max(uneven, max(levels) - min(levels))
        rows.append((name, count_text(round(due)), count_text(came), "%.2f" % (100 * (1 - came / due)),
                     str(miscounted), metres(water(settled) / CELLS),
                     "%s to %s" % (metres(min(levels)), metres(max(levels)))))
    heads = ("inflow for a minute", "Q brings (units)", "came in (units)", "cut off (%)",
             "steps after which the count was wrong", "mean level (m)", "level a quarter of an hour later (m)")
    figures = {"basin: steps after which the count was wrong": wrong,
               "basin: level a quarter of an hour later, greatest less least (mm)": 1000 * uneven / UNIT}
    return {"basin": table(heads, rows)}, {}, figures
