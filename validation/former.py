"""A reach stepped by the rules as they were before E2, which the library no longer has.

The steps are those of tests/model, which gives the library's own numbers, with the rule put back.
"""

import sys
from pathlib import Path

from reach import State, cells_of, table_of

# Found here, and not among the files beside this one.
sys.path.append(str(Path(__file__).resolve().parent.parent / "tests" / "model"))

import before
import model


def stepped_before_e2(reach, steps, every):
    """The states as reach.stepped gives them, and None, or the first refused step and its number.

    No end has an inflow, which came later."""
    now = table_of(reach.cells)
    crossed, states = [0, 0], [State((0, 0), list(reach.cells))]
    with before.E2():
        for k in range(1, steps + 1):
            answer = model.step(now, len(now), reach.bed, reach.friction, reach.dx, reach.dt, reach.jump,
                                reach.dry, reach.left, reach.right, 0, 0)
            if answer[0] == "refused":
                return states, (k, answer[1])
            _, now, first, last = answer
            crossed = [crossed[0] + first, crossed[1] + last]
            if k % every == 0:
                states.append(State(tuple(crossed), cells_of(now)))
    return states, None
