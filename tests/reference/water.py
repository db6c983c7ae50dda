#!/usr/bin/env python3
"""What crates/water must write, from the model of the water between two faces.

    python3 tests/reference/water.py > crates/water/stdout

It draws the same reaches as the program, and the model makes the sums, answers the questions and works the step that
keeps them. How the answers are spread goes to standard error. It is an error if some answer never comes, or if the
water of a whole reach does not change by what came in.
"""
import collections
import os
import sys

sys.path.insert(0, os.path.join(os.path.dirname(os.path.abspath(__file__)), "..", "model"))
import sums

WORD = (1 << 64) - 1
CELLS = (1, 2, 15, 16, 17, 31, 32, 33, 48, 129, 1023, 1024)
FAULTS = 8
SUMS_SHORT, SUMS_LONG, STATE_SHORT, BED_LONG, ODD_BED, LOW_LEVEL, ANY_NUMBERS = range(1, FAULTS)


# ---- Numbers

def following(x):
    x ^= x << 13 & WORD
    x ^= x >> 7
    return (x ^ x << 17) & WORD


def drawn(r, column, i):
    return following(following(following(88172645463325252 ^ r << 40 ^ column << 24 ^ i)))


def pick(x, m):
    return (x >> 33) % (m + 1)


def either(x, m):
    return pick(x, 2 * m) - m


def any_number(x):
    return (-2 ** 31, 2 ** 31 - 1, -1, -3)[x % 8] if x % 8 < 4 else either(x, 0x3fffffff)


def mixed(total, table):
    for number in table:
        total = following(total ^ number & WORD)
    return total


# ---- A reach: its tables, with its fault

def bed_and_state(r, n, fault):
    x = drawn(r, 1, 0)
    place = (0, n - 1, pick(x, n - 1))[x % 3]
    if fault == ANY_NUMBERS:
        columns = [[any_number(drawn(r, column, i)) for i in range(n)] for column in (3, 4, 5, 6)]
        return [any_number(drawn(r, 2, i)) for i in range(n + 1)], [number for column in columns for number in column]
    half = [pick(drawn(r, 2, i), 200) for i in range(n + 1)]
    h0 = [1500 + pick(drawn(r, 3, i), 3000) for i in range(n)]
    h1 = [either(drawn(r, 4, i), 60) for i in range(n)]
    q0 = [either(drawn(r, 5, i), 300) for i in range(n)]
    if fault == LOW_LEVEL:
        h0[place], h1[place], q0[place] = -1, 0, 0
    levels = [h + zl + zr for h, zl, zr in zip(h0, half, half[1:])]
    slopes = [h + zr - zl for h, zl, zr in zip(h1, half, half[1:])]
    return [2 * z + (fault == ODD_BED and i == place) for i, z in enumerate(half)], levels + slopes + q0 + [0] * n


def pattern(length, x):
    return [(x >> 34) + i for i in range(length)]


def faces(r, n, j):
    x, y = drawn(r, 7, j), drawn(r, 8, j)
    return ((0, n), (14 + pick(x, 3), n - pick(y, min(n // 2, 17))),
            (pick(x, n // 2), n // 2 + pick(y, n // 2)), (pick(x, n + 2), pick(y, n + 2)))[j]


# ---- Answers

seen = collections.Counter()


def said(what, answer):
    seen[(what, *answer[:2 if answer[0] == "refused" else 1])] += 1
    return answer


def questions(r, n, state, bed, kept):
    """What the four questions of a reach are answered, in words."""
    told = []
    for j in range(4):
        a, b = faces(r, n, j)
        answered, *numbers = said("question", sums.between(state, bed, kept, a, b))
        form = "refused %d" if answered == "refused" else "%d by %d and %d"
        told.append("%d to %d %s" % (a, b, form % tuple(numbers)))
    return told


def line(r):
    n, fault = CELLS[r % len(CELLS)], r // len(CELLS) % FAULTS
    bed, state = bed_and_state(r, n, fault)
    bed, state = bed + [0] * (fault == BED_LONG), state[:len(state) - (fault == STATE_SHORT)]
    after, kept = pattern(4104, drawn(r, 9, 0)), pattern(72, drawn(r, 10, 0))
    room = (n + 15) // 16 - (fault == SUMS_SHORT) + (fault == SUMS_LONG)
    made = said("making", sums.make(state, bed, room))
    if made[0] == "made":
        kept[:room] = made[1]
    total = mixed(1, kept)
    told = ["%d cells, fault %d: %s" % (n, fault, "made" if made[0] == "made" else "refused %d" % made[1])]
    told += questions(r, n, state, bed, kept[:room])
    # an inflow at the left and a wall at the right
    answer = said("step", sums.step(state, 4 * n, bed, [30] * n, room, 4096, 41, 64, 4, 2, 0, 300, 0))
    if answer[0] == "accepted":
        _, after[:4 * n], W0, Wn, kept[:room] = answer
        assert sum(kept[:room]) == sums.water(state, bed, 0, n) + W0 - Wn
        told.append("step accepted %d %d" % (W0, Wn))
    else:
        told.append("step refused %d at %d" % answer[1:])
    told += questions(r, n, after[:4 * n], bed, kept[:room])
    return "; ".join(told + ["%016x" % mixed(mixed(total, after), kept)])


def main():
    for r in range(len(CELLS) * FAULTS):
        print(line(r))
    wanted = [("making", "made"), ("making", "refused", 1), ("making", "refused", 3), ("making", "refused", 5),
              ("question", "answered"), ("question", "refused", 1), ("question", "refused", 10),
              ("step", "accepted"), ("step", "refused", 1), ("step", "refused", 3), ("step", "refused", 5)]
    assert set(wanted) <= set(seen), seen
    for answer, count in sorted(seen.items(), key=str):
        print("%4d  %s" % (count, " ".join(map(str, answer))), file=sys.stderr)


if __name__ == "__main__":
    main()
