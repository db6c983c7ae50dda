"""A call as surveyed from the other end, by the words of 02's E9.

Cells, bed and friction are reversed, level slopes and discharge means change their sign, and the ends are exchanged.
The step must then give the reversed state under the same rule, with the two volumes exchanged and of the other sign,
or the same refusal number.
"""

import model as m

NO_OTHER_SIGN = -2 ** 31        # the one i32 whose other sign is none


def turned_table(table, n):
    """A state of n cells: each of its four columns is reversed (E7)."""
    e0, e1, q0, q1 = (table[k * n:(k + 1) * n][::-1] for k in range(4))
    return e0 + [-e for e in e1] + [-q for q in q0] + q1


def turned(call):
    now, next_len, bed, friction, dx, dt, jump, dry, left, right, left_q, right_q = call
    return turned_table(now, len(friction)), next_len, bed[::-1], friction[::-1], dx, dt, jump, dry, right, left, right_q, left_q


def turned_answer(answer):
    """What the turned call must be answered.  A refusal has no place here: of several the lowest is another from the other end."""
    if answer[0] == "refused":
        return answer[:2]
    _, table, W0, Wn = answer
    return "accepted", turned_table(table, len(table) // 4), -Wn, -W0


def lengths_fit(call):
    now, next_len, bed, friction, *_ = call
    n = len(friction)
    return 1 <= n <= m.MOST_CELLS and len(now) == next_len == 4 * n and len(bed) == n + 1


def signs_fit(call):
    """Whether each number that is to change its sign has another within an i32; for tables whose lengths fit."""
    now, n = call[0], len(call[3])
    return NO_OTHER_SIGN not in now[n:3 * n]


def can_turn(call):
    return lengths_fit(call) and signs_fit(call)
