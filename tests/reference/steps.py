#!/usr/bin/env python3
"""What crates/steps must write, from the model of document 01's step.

    python3 tests/reference/steps.py > crates/steps/stdout

It draws the same calls as the program, and the model answers each. A number with a sign is one here,
where the program keeps its 64 bits. How the answers are spread goes to standard error. It is an error
if some check refuses no call that has an inflow, if some pair of ends is not accepted on one cell, or
if some check never refuses at the first, a middle or the last index of those that it has.
"""
import collections
import itertools
import os
import sys

sys.path.insert(0, os.path.join(os.path.dirname(os.path.abspath(__file__)), "..", "model"))
import model
import places

BLOCKS, CALLS = 100, 200
WORD = (1 << 64) - 1


# ---- Numbers

def following(x):
    x ^= x << 13 & WORD
    x ^= x >> 7
    return (x ^ x << 17) & WORD


def mixed(total, b):
    return following(total ^ b & WORD)


def pick(x, m):
    return (x >> 33) % (m + 1)


def either(x, m):
    return pick(x, 2 * m) - m


def above(x, low, m):
    return low + pick(x, m)


def below(x, high, m):
    return high - pick(x, m)


def turned(x, side):
    return -x if side % 2 else x


# ---- A reach, a face of its bed, a cell of its state

Reach = collections.namedtuple("Reach", "n bed mix flow fast dry base rough seed")


def cells(x):
    k = x % 128
    return 1 if k < 30 else 2 if k < 66 else 3 if k < 100 else 16 if k < 127 else 1024


def dry_depth(x):
    return 4 if x % 4 == 0 else above(x, 1, 63)


def shared(dry, x):
    k = x % 16
    if k == 0:
        return pick(x, 12)
    if k < 4:
        return above(x, dry, 60)
    if k < 8:
        return pick(x, 1000)
    if k < 13:
        return above(x, 400, 8000)
    if k < 15:
        return above(x, 400, 60000)
    return below(x, 262144, 40)


def drawn(x):
    n = cells(x)
    a = following(x)
    b = following(a)
    calm = n > 16 and a % 8 != 0
    dry = dry_depth(a >> 16)
    return Reach(
        n,
        a % 7 if calm else a % 16,
        9 if calm else (a >> 4) % 16,
        3 + a % 2 if calm else (a >> 8) % 16,
        b % 6 if calm else b % 10,
        dry,
        shared(dry, b >> 4),
        (0, 0, 0, 1, 30, 30, 200, 200)[(a >> 12) % 8],
        following(b),
    )


def rolled(z, x, m):
    return max(0, min(524288, z + either(x, m)))


def bed_after(kind, z, x):
    if kind < 5:
        return z
    if kind < 7:
        return rolled(z, x, 2)
    if kind < 9:
        return rolled(z, x, 40)
    if kind < 11:
        return rolled(z, x, 1000)
    if kind < 13:
        return above(x, 9000, 3000) if x % 2 else 9000
    if kind < 15:
        return pick(x, 524288)
    return (0, 1, 524287, 524288)[x % 4]


def kind_in(mix, x):
    return (x % 2, 1 + x % 2, 2, 3, x % 4, 2 + x % 2, 4, 3 + x % 2, 5, 6, 6, 6, 7, 8, 8, x % 9)[mix]


def depth(kind, dry, base, z, x):
    if kind == 0:
        return 0
    if kind == 1:
        return above(x, max(0, dry - 4), 12)
    if kind == 2:
        return pick(x, 400)
    if kind == 3:
        return above(x, 400, 19600)
    if kind == 4:
        return below(x, 262144, 3000)
    if kind == 5:
        return below(x, 262144, 196608)
    if kind == 6:
        return above(x, base, base // 32)
    if kind == 7:
        return base
    return max(0, base + 18000 - 2 * z)


def discharge(flow, fast, h, x, all_):
    if flow < 3:
        return 0
    if flow < 10:
        return either(x, (h << fast) >> 4)
    if flow < 13:
        return either(all_, (h << fast) >> 4)
    if flow < 15:
        return turned(below(x, 32 * h, 3) + (x >> 9) % 8 // 7, all_)
    return turned(below(x, min(32 * h, 8388608), 2), all_)


def right_depth(kind, left, own, x):
    if kind > 7:
        return own
    k = x % 8
    return left if k < 3 else 0 if k == 3 and kind < 4 else own


def drawn_cell(r, zl, zr, x):
    a = following(x)
    b = following(a)
    c = following(b)
    d = following(c)
    k = kind_in(r.mix, x)
    hl = depth(k, r.dry, r.base, zl, a)
    hr = right_depth(k, hl, depth(k, r.dry, r.base, zr, b), c)
    h0 = (hl + hr + 1) >> 1
    ql = discharge(r.flow, r.fast, hl, c, r.seed)
    qr = discharge(r.flow, r.fast, hr, d, r.seed)
    q0 = (ql + qr) >> 1
    return [h0 + zl + zr, hr - h0 + zr - zl, q0, 0 if d % 4 == 0 else qr - q0]


# ---- Tables

def fill_bed(bed, halves, r):
    x = r.seed
    z = pick(x, 9000 if r.mix > 7 else 524288)
    for i in range(r.n + 1):
        x = following(x)
        z = bed_after(r.bed, z, x)
        bed[i], halves[i] = 2 * z, z


def fill_friction(friction, r):
    x = following(r.seed ^ 1)
    for i in range(r.n):
        x = following(x)
        friction[i] = pick(x, r.rough) if x % 2 else r.rough


def put_cell(state, n, i, cell):
    """Cell i of n: a number in each of the four columns."""
    state[i:4 * n:n] = cell


def fill_state(state, halves, r):
    x = following(r.seed ^ 2)
    for i in range(r.n):
        x = following(x)
        put_cell(state, r.n, i, drawn_cell(r, halves[i], halves[i + 1], x))


# ---- Ends

def at(table, i):
    return table[i] if i < len(table) else 0


def shown_depth(h):
    return h if 0 <= h <= 262144 else 262144


def depth_at_left(state, bed, n):
    return shown_depth(at(state, 0) - at(state, n) - at(bed, 0))


def depth_at_right(state, bed, n):
    return shown_depth(at(state, n - 1) + at(state, 2 * n - 1) - at(bed, n))


def inflow(h, x):
    k = x % 32
    if k < 4:
        q = 0
    elif k < 7:
        q = above(x, 1, 60)
    elif k < 26:
        q = pick(x, (h << (x >> 8) % 7) >> 4)
    elif k < 28:
        q = pick(x, 9000)
    elif k < 30:
        q = above(x, 32 * h, 3 + h // 4096)
    elif k == 30:
        q = pick(x, 8388608)
    else:
        q = below(x, 8388608, 1)
    return min(q, 8388608)


def ends(state, bed, n, x):
    """The kinds of the two ends and the Q of each."""
    a = following(x)
    b = following(a)
    left, right = (x >> 8) % 3, (x >> 16) % 3
    return (left, right, inflow(depth_at_left(state, bed, n), a) if left == 2 else 0,
            inflow(depth_at_right(state, bed, n), b) if right == 2 else 0)


# ---- Faults

Lent = collections.namedtuple("Lent", "state next bed friction")
Given = collections.namedtuple("Given", "dx dt jump dry left right left_q right_q")
LENGTHS, NUMBERS, BED, FRICTION, STATE = 1, 2, 4, 8, 16


def faults(x):
    return 0 if x % 12 else 1 << (x >> 3) % 5 | 1 << (x >> 8) % 16


def wrong_length(a, x):
    k = x % 8
    return a - 1 if k < 3 else a + 1 if k < 6 else a + 4 if k == 6 else 0


def wrong_lengths(l, x):
    k = x % 8
    if k < 2:
        return l._replace(state=wrong_length(l.state, x >> 3))
    if k < 4:
        return l._replace(next=wrong_length(l.next, x >> 3))
    if k == 4:
        return l._replace(bed=wrong_length(l.bed, x >> 3))
    if k == 5:
        return l._replace(friction=wrong_length(l.friction, x >> 3))
    return Lent(0, 0, 1, 0) if k == 6 else Lent(4100, 4100, 1026, 1025)


def wrong_number(g, x):
    much = x & 8
    k = x % 13
    if k == 0:
        return g._replace(dx=0)
    if k == 1:
        return g._replace(dx=2**31 if much else 1048577)
    if k == 2:
        return g._replace(dt=0)
    if k == 3:
        return g._replace(dt=65536 if much else 4097)
    if k == 4:
        return g._replace(jump=2**32 - 1 if much else 262145)
    if k == 5:
        return g._replace(dry=260 if much else 0)
    if k == 6:
        return g._replace(dry=2**32 - 1 if much else 65)
    if k == 7:
        return g._replace(left=2**31 + 2 if much else 3)
    if k == 8:
        return g._replace(right=2**32 - 1 if much else 3)
    if k == 9:
        return g._replace(left_q=2**32 - 1 if much else 8388609)
    if k == 10:
        return g._replace(right_q=2**31 if much else 8388609)
    # in its range, and wrong where none belongs
    if k == 11:
        return g._replace(left_q=4096 if much else 1)
    return g._replace(right_q=8388608 if much else 1)


def place(n, x):
    k = x % 4
    return 0 if k == 0 else n if k == 1 else pick(x, n)


def wrong_bed(z, x):
    return (-2, 1048575, 1048578, 1048577, -(2**31), 2**31 - 1, 2 * z | 1, 2 * z | 1)[x % 8]


def over(zl, zr, h0, h1, q0, q1):
    return [h0 + zl + zr, h1 + zr - zl, q0, q1]


def wrong_cell(zl, zr, x):
    h = above(x, 8, 3000)
    k = x % 8
    if k < 2:
        return over(zl, zr, h, turned(h + 1, x), 0, 0)
    if k == 2:
        return over(zl, zr, 262136, turned(9, x >> 3), 0, 0)
    if k == 3:
        return over(zl, zr, -1, 0, 0, 0)
    if k == 4:
        return over(zl, zr, 262144, 0, turned(8388609, x >> 3), 0)
    if k == 5:
        return over(zl, zr, 262144, 0, turned(8388600, x >> 3), turned(9, x >> 4))
    if k == 6:
        return [-(2**31), zr - zl, 0, 0]
    return [h + zl + zr, zr - zl, 2**31 - 1, 2**31 - 1]


def racing_cell(dry, zl, zr, x):
    h = above(x, dry + 4, 3000)
    k = x % 4
    if k == 0:
        return over(zl, zr, h, 0, turned(32 * h + 1, x >> 3), 0)
    if k == 1:
        return over(zl, zr, h, h - dry - 1, 31 * h, 0)
    if k == 2:
        return over(zl, zr, h, 0, 16 * h, 17 * h)
    return over(zl, zr, h, h - dry, turned(31 * h, x >> 3), 0)


class Tables:
    """The lent tables, and half of each bed value."""

    def __init__(self):
        self.state, self.bed = [0] * 4112, [0] * 1032
        self.halves, self.friction = [0] * 1032, [0] * 1032

    def fill(self, r):
        fill_bed(self.bed, self.halves, r)
        fill_friction(self.friction, r)
        fill_state(self.state, self.halves, r)

    def spoil(self, f, n, dry, x):
        if f & BED:
            k = place(n, x >> 3)
            self.bed[k] = wrong_bed(self.halves[k], x)
        if f & FRICTION:
            self.friction[place(n - 1, x >> 3)] = (65535, 256, 201, 201)[x % 4]
        if f & STATE:
            k = place(n - 1, x >> 3)
            zl, zr = self.halves[k], self.halves[k + 1]
            put_cell(self.state, n, k, racing_cell(dry, zl, zr, x) if (x >> 32) % 2 else wrong_cell(zl, zr, x))


# ---- Calls

Search = collections.namedtuple("Search", "n dry tries dx low high dt")


def begun(n, dry, x):
    a = following(x)
    b = following(a)
    k = a % 8
    dt = 1 + (0 if k < 2 else pick(a, 19) if k < 5 else pick(a, 199) if k < 6 else pick(a, 4095) if k < 7 else 4095)
    tries = 1 if n > 16 else (1, 3, 6, 14)[(b >> 8) % 4]
    return Search(n, dry, tries, 1 + pick(a, 255 << b % 12), 0, 4097, dt)


def next_dt(low, high):
    return high >> 4 if low == 0 and high > 16 else (low + high) >> 1


def after(s, number):
    tries = s.tries - 1 if number in (0, 7, 8) else s.tries >> 1 if number == 6 else 0
    low, high = (s.dt, s.high) if number == 0 else (s.low, s.dt)
    dt = next_dt(low, high)
    return s._replace(tries=0 if dt == low else tries, low=low, high=high, dt=dt)


def given(s, f, state, bed, x):
    k = x % 8
    jump = (0, 0, 1, pick(x, 10), pick(x, 50), pick(x, 3000), pick(x, 262144), 262144)[k]
    g = Given(s.dx, s.dt, jump, s.dry, *ends(state, bed, s.n, following(x)))
    return wrong_number(g, x >> 10) if f & NUMBERS else g


def lent(n, f, x):
    l = Lent(4 * n, 4 * n, n + 1, n)
    return wrong_lengths(l, x) if f & LENGTHS else l


PAIRS = list(itertools.product((model.WALL, model.OPEN, model.INFLOW), repeat=2))
INFLOW = "with an inflow, "
checks = collections.Counter()
sizes = collections.Counter()
pairs = collections.Counter()
positions = collections.Counter()


def counted_step(now, next_len, bed, friction, *given):
    """What model.step gives, counted."""
    g, n = Given(*given), len(friction)
    try:
        answer, check = ("accepted", *model.worked(now, next_len, bed, friction, *given)), "accepted"
    except model.Refused as r:
        answer, check = ("refused", r.number, r.place), "%d %s" % (r.number, r.check)
        if r.number > 2:
            positions[check, places.position(r.check, r.place, n)] += 1
    checks[check] += 1
    pairs[g.left, g.right, n == 1] += answer[0] == "accepted"
    if model.INFLOW in (g.left, g.right):
        checks[INFLOW + check] += 1
    sizes[n, answer[0]] += 1
    return answer


def one(t, s, total, x, step):
    """One call: its number, and the sum after it."""
    a = following(x)
    b = following(a)
    c = following(b)
    f = faults(a)
    t.spoil(f, s.n, s.dry, b)
    l = lent(s.n, f, c)
    after_call = [(b >> 34) + i for i in range(min(l.next + 8, 4104))]
    now, bed, friction = t.state[:l.state], t.bed[:l.bed], t.friction[:l.friction]
    answer = step(now, l.next, bed, friction, *given(s, f, now, bed, c))
    if answer[0] == "accepted":
        _, after_call[:l.next], w, v = answer
        number, total = 0, mixed(mixed(mixed(total, 0), w), v)
    else:
        number = answer[1]
        for said in answer[1:]:     # its place after it
            total = mixed(total, said)
    for y in after_call:
        total = mixed(total, y)
    return number, total


def lines(step):
    """What the program writes, a line at a time, if `step` answers each call as model.step does."""
    t = Tables()
    for block in range(BLOCKS):
        x = 88172645463325252 ^ block << 32
        s, total, counts = None, 1, [0] * 9
        for _ in range(CALLS):
            x = following(x)
            if s is None or s.tries == 0:
                r = drawn(x)
                t.fill(r)
                s = begun(r.n, r.dry, r.seed)
            number, total = one(t, s, total, x, step)
            counts[number] += 1
            s = after(s, number)
        yield " ".join(map(str, ["steps", block, *counts, "%016x" % total]))


def main():
    for line in lines(counted_step):
        print(line)
    seen = {check for check in checks if not check.startswith(INFLOW)}
    assert all(INFLOW + check in checks for check in seen), seen
    assert all(pairs[left, right, True] for left, right in PAIRS), pairs
    for check in sorted({check for check, _ in positions}):
        found = [positions[check, position] for position in ("first", "middle", "last")]
        assert found[0] and found[2] and (found[1] or "inflow speed" in check), (check, found)
        print("%s: %d at the first index, %d between, %d at the last" % (check, *found), file=sys.stderr)
    for check in sorted(checks):
        print("%6d  %5.1f %%  %s" % (checks[check], 100 * checks[check] / (BLOCKS * CALLS), check), file=sys.stderr)
    for n in sorted({n for n, _ in sizes}):
        print("n = %4d: %5d accepted, %5d refused" % (n, sizes[n, "accepted"], sizes[n, "refused"]), file=sys.stderr)
    for left, right in PAIRS:
        print("ends %d %d: %5d accepted, %5d of them on one cell"
              % (left, right, pairs[left, right, False] + pairs[left, right, True], pairs[left, right, True]), file=sys.stderr)


if __name__ == "__main__":
    main()
