#!/usr/bin/env python3
"""What crates/double_steps must write, from the model of the step in doubles.

    python3 tests/reference/double_steps.py > crates/double_steps/stdout

It draws the same reaches as the program, and the model steps them. How the answers are spread goes to standard error.
It is an error if some number of refusal never comes, or less than a quarter of the steps is accepted.
"""
import collections
import math
import os
import struct
import sys

sys.path.insert(0, os.path.join(os.path.dirname(os.path.abspath(__file__)), "..", "model"))
import double_step

WORD = (1 << 64) - 1
REACHES = 240
LEAST_BED = 2.0 ** -54
LOW, HIGH, SHORE, FILMS, FAST, NO_JUMP = range(6)       # kinds of water
FAULT = 5                                               # and this plus the number that a reach is to be refused with


def following(x):
    x ^= x << 13 & WORD
    x ^= x >> 7
    return (x ^ x << 17) & WORD


def mixed(total, b):
    return (total << 1 & WORD) ^ (total >> 63) ^ b


def bits(x):
    return struct.unpack(">Q", struct.pack(">d", x))[0]


def unit(x):
    return (x >> 32) / 4294967295.0


def about(x):
    return unit(x) - 0.5


class Reach:
    def __init__(self, r):
        self.r, self.n, self.kind = r, 1 + r % 8, r // 8 % 15
        self.spot = self.drawn(90) % self.n
        self.late = r >= REACHES // 2       # each kind comes twice

    def drawn(self, i):
        return following(following(following(88172645463325252 ^ self.r << 40 & WORD ^ i << 20)))

    def spoilt(self, number, i):
        return self.kind == FAULT + number and self.spot == i

    def wrong_number(self, i):
        """dx, dt, J, left or right."""
        return self.kind == FAULT + 2 and self.drawn(91) % 5 == i

    def ground(self, i):
        x = self.drawn(64 + i)
        if self.spoilt(3, i):
            return math.nan if self.late else -1.0
        if self.kind in (FILMS, FAULT + 8):
            return 0.0
        if self.kind == FAULT + 9:
            return LEAST_BED
        return 200.0 + 0.5 * unit(x) if self.kind == HIGH else 4.0 * unit(x) if self.kind == SHORE else 0.5 * unit(x)

    def depth(self, c):
        x = self.drawn(c)
        if self.kind == SHORE:
            return (0.0, 0.01 * unit(x), unit(x))[x % 3]
        if self.kind == FILMS:
            return 0.002 * unit(x)
        if self.kind == FAST:
            return 0.1 + unit(x)
        return 63.9 + 0.1 * unit(x) if self.kind == FAULT + 8 else 1.0 + 2.0 * unit(x)

    def flow(self, c, h):
        a = about(self.drawn(16 + c))
        if h <= double_step.DRY:
            return a
        if self.spoilt(6, c):
            return 40.0 * h
        return 40.0 * a * h if self.kind == FAST else 2.0 * a * h

    def emptied(self, c):
        if c < self.spot:
            return [LEAST_BED, 0.0, 0.0, 0.0]
        return [1.0, 1.0, 32.0, 32.0] if c == self.spot else [4.0, 0.0, 64.0, 0.0]

    def cell(self, c):
        if self.kind == FAULT + 9:
            return self.emptied(c)
        h, zl, zr = self.depth(c), self.ground(c), self.ground(c + 1)
        tilt, q = 0.0 if self.kind == FAULT + 8 else h * about(self.drawn(32 + c)), self.flow(c, h)
        numbers = [(zl + zr) / 2.0 + h, (zr - zl) / 2.0 + tilt, q, 0.5 * q * about(self.drawn(48 + c))]
        if self.spoilt(5, c):
            numbers[self.r % 4] = math.inf if self.late else math.nan
        return numbers

    def numbers(self):
        last = self.kind == FAULT + 9
        dx = 20.0 if self.kind == FAULT + 8 else 64.0 if last else 2.0
        dt = 1.0 if self.kind == FAULT + 7 or last else 0.001 + 0.1 * unit(self.drawn(92))
        jump = 0.0 if self.kind == NO_JUMP else 64.0 if last else unit(self.drawn(93))
        left, right = (0, 1) if last else (self.drawn(95) % 2, self.drawn(94) % 2)
        given = [dx, dt, jump, left, right]
        for i, wrong in enumerate((math.nan, 0.0, 65.0, 2, 2)):
            if self.wrong_number(i):
                given[i] = wrong
        return given

    def lengths(self):
        """Of state, next, bed and friction; at a fault one of them is wrong by one."""
        found, x = [4 * self.n, 4 * self.n, self.n + 1, self.n], self.drawn(96) % 8
        if self.kind == FAULT + 1:
            found[x // 2] += (-1, 1)[x % 2]
        return found


seen = collections.Counter()


def line(r):
    reach = Reach(r)
    state = [x for c in range(9) for x in reach.cell(c)]
    bed, friction = [reach.ground(i) for i in range(10)], [int(reach.spoilt(4, i)) for i in range(9)]
    a, b, c, d = reach.lengths()
    after = [-77.5] * 36
    answer = double_step.step(state[:a], b, bed[:c], friction[:d], *reach.numbers())
    if answer[0] == "accepted":
        after[:b] = answer[1]
        told = "0 %016x %016x" % tuple(map(bits, answer[2:]))
    else:
        told = "%d %d" % answer[1:]
    seen[answer[1] if answer[0] == "refused" else 0] += 1
    total = 0
    for x in after:
        total = mixed(total, bits(x))
    return "%s %016x" % (told, total)


def main():
    for r in range(REACHES):
        print(line(r))
    print(", ".join("%d: %d" % pair for pair in sorted(seen.items())), file=sys.stderr)
    assert all(seen[number] for number in range(10)) and 4 * seen[0] >= REACHES, seen


if __name__ == "__main__":
    main()
