#!/usr/bin/env python3
"""What crates/sills must write, from the model of the step over a stepped bed.

    python3 tests/reference/sills.py > crates/sills/stdout

It draws the same reaches as the program, and the model steps them. How the answers are spread goes to standard error. It
is an error if some answer never comes, or not at the first place, between and at the last; if a step accepted changes the
water by another amount than what came in; or if a lake does not stay as it is.
"""
import collections
import os
import sys

sys.path.insert(0, os.path.join(os.path.dirname(os.path.abspath(__file__)), "..", "model"))
import model
import sill
import sill_hard
import sill_places

WORD = (1 << 64) - 1
CELLS = (1, 1, 1, 2, 2, 3, 3, 4, 8, 16, 17, 33, 128, 128, 129, 1024)
KINDS = 36
ONE_STEP, RUNS, LIMITS, LAKES, FAULTS = range(12), range(12, 15), range(15, 17), range(17, 20), range(20, KINDS)


# ---- Numbers

def following(x):
    x ^= x << 13 & WORD
    x ^= x >> 7
    return (x ^ x << 17) & WORD


def mixed(total, numbers):
    for number in numbers:
        total = following(total ^ number & WORD)
    return total


def above(x, low, most):
    return low + (x >> 16) % (most + 1)


def either(x, most):
    return above(x, -most, 2 * most)


def turned(number, side):
    return -number if side % 2 else number


# ---- A reach: what it is drawn from, its cells and its faults

class Reach:
    def __init__(self, r):
        self.r, self.n, self.kind = r, CELLS[r % len(CELLS)], r // len(CELLS)
        # each by the number that it is refused with
        self.faults = {1 + self.kind % 8, 1 + self.drawn(1, 0) % 16} if self.kind in FAULTS else set()
        x = self.drawn(2, 0)
        self.places = {(0, self.n - 1, above(x, 0, self.n - 1))[x % 3]} | ({self.n - 1} if r % 3 == 0 else set())
        self.dry = above(self.drawn(3, 0), 1, 63)
        self.many = self.kind in RUNS or self.kind in LAKES
        self.times = 1 if not self.many else 300 if self.n <= 33 else 8

    def drawn(self, column, i):
        return following(following(following(88172645463325252 ^ self.r << 40 ^ column << 24 ^ i))) % 0xb504f333f9df

    def numbers(self):
        """dx, dt, the dry depth and the kinds of the two ends."""
        x, y = self.drawn(4, 0), self.drawn(5, 0)
        dx = above(x, 1, 255 << (x >> 8) % 13) if self.kind in ONE_STEP and x % 4 == 0 else model.UNIT
        longest = (200, 400, 800, 4095)[y % 4] if self.kind in ONE_STEP or 7 in self.faults else 300 if self.many else 30
        given = [dx, above(y, 1, longest), self.dry, self.drawn(13, 0) % 2, self.drawn(13, 1) % 2]
        if 2 in self.faults:
            x = self.drawn(12, 0) % 10
            given[x // 2] = (0, model.LONGEST_DX + 1, 0, model.LONGEST_DT + 1, 0, model.MOST_DRY + 1, 2, WORD >> 32, 2, 3)[x]
        return given

    def lengths(self):
        """Of the lent state, next, bed and friction."""
        n, x = self.n, self.drawn(11, 0) % 10
        if 1 in self.faults and x > 7:
            n = (0, model.MOST_CELLS + 1)[x - 8]
        lengths = [2 * n, 2 * n, n, n]
        if 1 in self.faults and x < 8:
            lengths[x // 2] += (-1, 1)[x % 2]
        return lengths

    def friction(self):
        def rough(i):
            x = self.drawn(6, i)
            return (201, 256, 65535)[x % 3] if 4 in self.faults and i in self.places else above(x, 0, (0, 1, 60, 200)[self.r % 4])
        return [rough(i) for i in range(self.n)]

    # Each cell as its bed, depth and discharge

    def sills(self, i):
        k, floor, x = self.kind % 4, above(self.drawn(7, 5000), 0, 900000), self.drawn(7, i)
        z = above(x, floor, (900, 6000, 90, 90000)[k] // 64 ** (x % 4))
        h = max(0, above(self.drawn(8, i), floor + (3000, 3000, 10, 0)[k], (400, 400, 80, 9000)[k]) - z)
        if 8 in self.faults and i % 3 == 1:
            return z, above(x, 0, self.dry), turned(model.GREATEST_Q, x >> 8)
        return z, h, either(self.drawn(9, i), h * 4 ** (self.drawn(9, 5000) % 4) // 16)

    def lake(self, i):
        z = above(self.drawn(7, i), 8001 if i % 8 == 7 else 0, 9000)
        return z, max(0, above(self.drawn(8, i // 8), 2001, 6000) - z), 0

    def limits(self, i):
        x = self.drawn(7, i)
        h = (0, 1, model.DEEPEST - 1, model.DEEPEST)[x // 4 % 4]
        q = model.GREATEST_Q if h < 2 else 32 * h
        return (0, 1, model.HIGHEST_BED - 1, model.HIGHEST_BED)[x % 4], h, turned(q if x & 16 else 0, x >> 5)

    def sound(self, i):
        if self.kind in LIMITS or 8 in self.faults and self.r % 2 == 0:
            return self.limits(i)
        return self.lake(i) if self.kind in LAKES else self.sills(i)

    def spoilt(self, z, h, q):
        """The cell with the faults, as bed, level and discharge."""
        x = self.drawn(10, 0)
        if 6 in self.faults:
            h = above(x, 65, 3000)
            q = turned(32 * h + 1, x)
        if 5 in self.faults:
            over, far = model.GREATEST_Q + 1, 2 ** 31
            h, q = ((-1, 0), (model.DEEPEST + 1, 0), (model.DEEPEST, over), (model.DEEPEST, -over), (0, far - 1), (-far - z, 0))[x % 6]
        return (-1, model.HIGHEST_BED + 1, 2 ** 31 - 1, -2 ** 31)[x % 4] if 3 in self.faults else z, z + h, q

    def tables(self):
        """Bed and state."""
        bed, levels, discharges = [], [], []
        for i in range(self.n):
            z, h, q = self.sound(i)
            z, e, q = self.spoilt(z, h, q) if i in self.places else (z, z + h, q)
            bed.append(z)
            levels.append(e)
            discharges.append(q)
        return bed, levels + discharges


# ---- Answers

seen, positions = collections.Counter(), collections.Counter()


def answer(n, *call):
    """The model's, counted."""
    try:
        said = ("accepted", *sill.worked(*call))
        seen["ends %d and %d" % call[-2:]] += 1
    except model.Refused as r:
        said = "refused", r.number, r.place
        positions[r.number, sill_places.position(r.check, r.place, n)] += 1
    seen[said[1] if said[0] == "refused" else 0] += 1
    return said


def lent(table, length):
    return (table + [0] * 2064)[:length]


def line(r):
    reach = Reach(r)
    bed, start = reach.tables()
    friction, numbers, lengths = reach.friction(), reach.numbers(), reach.lengths()
    n, state, made, came, went, total, refusal = reach.n, start, 0, 0, 0, 1, ""
    for i in range(reach.times):
        after = [reach.drawn(14, i) >> 17] * (lengths[1] + 8)
        said = answer(n, lent(state, lengths[0]), lengths[1], lent(bed, lengths[2]), lent(friction, lengths[3]), *numbers)
        if said[0] == "refused":
            total = mixed(mixed(total, said[1:]), after)
            refusal = ", refused %d at %d" % said[1:]
            break
        state, V, W = said[1:]
        after[:2 * n] = state
        made, came, went, total = made + 1, came + V, went + W, mixed(mixed(total, (V, W)), after)
    waters = [sum(e - z for e, z in zip(table, bed)) for table in (start, state)]
    assert waters[1] == waters[0] + came - went
    if reach.kind in LAKES:
        assert sill_hard.rests(start, bed) and state == start and made == reach.times
    if reach.kind in RUNS:
        seen["runs that end" if refusal == "" else "runs refused"] += 1
    ending = refusal or (", as it was" if state == start else "")
    return "cells %d, steps %d: %d + %d - %d = %d%s; %016x" % (n, made, waters[0], came, went, waters[1], ending, total)


def main():
    for r in range(len(CELLS) * KINDS):
        print(line(r))
    for answered, count in sorted(seen.items(), key=str):
        print("%6d  %s" % (count, answered), file=sys.stderr)
    for number in range(3, 9):
        found = [positions[number, where] for where in ("first", "middle", "last")]
        print("%d: %d at the first place, %d between, %d at the last" % (number, *found), file=sys.stderr)
        assert all(found), number
    assert all(seen[number] for number in (*range(9), "runs that end")), seen


if __name__ == "__main__":
    main()
