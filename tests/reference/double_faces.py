#!/usr/bin/env python3
"""What crates/double_faces must write, from document 01's double face.

    python3 tests/reference/double_faces.py > crates/double_faces/stdout

Every operation is one of Python's on doubles, so it is rounded once, in 01's order and grouping. The
wave speed's root is that of roots.py's rule: whole numbers, and the nearer of two squares.
How many faces took each way goes to standard error.
"""
import collections
import math
import struct
import sys

WORD = (1 << 64) - 1
ways = collections.Counter()


def bits(x):
    return struct.unpack(">Q", struct.pack(">d", x))[0]


def root(x):
    """The double nearest the root of a finite x at or above nought."""
    if x == 0:
        return x
    m, e = math.frexp(x)  # x = n * 2 ** e from here on, n whole and of 106 or 107 bits, e even
    n, e = int(m * 2**53) << 53, e - 106
    if e % 2:
        n, e = n * 2, e - 1
    low = math.isqrt(n)
    drop = low.bit_length() - 53
    low >>= drop
    near = low if 4 * n < (2 * low + 1) ** 2 << 2 * drop else low + 1
    return math.ldexp(near, e // 2 + drop)


def size(x):
    return -x if x < 0 else x


def lesser(x, y):
    return y if y < x else x


def greater(x, y):
    return y if x < y else x


def face(hL, uL, hR, uR):
    if hL == 0 and hR == 0 and not (-32 <= uL <= 32 and -32 <= uR <= 32):
        ways["refused: both depths nought"] += 1
        return "refused"
    for h, u in ((hL, uL), (hR, uR)):
        if not 0 <= h <= 64:
            ways["refused: depth " + ("NaN" if h != h else "out of range")] += 1
            return "refused"
        if not -32 <= u <= 32:
            ways["refused: speed " + ("NaN" if u != u else "out of range")] += 1
            return "refused"
    if hL == 0 and hR == 0:
        ways["dry"] += 1
        return "dry"
    minus = "".join(s for s, h in (("L", hL), ("R", hR)) if bits(h) == 1 << 63)
    if minus:
        ways["a depth of -0, " + minus] += 1
    hL, hR = hL + 0.0, hR + 0.0  # -0 + 0 is +0
    aL, aR = root(9.81 * hL), root(9.81 * hR)
    assert aL == math.sqrt(9.81 * hL) and aR == math.sqrt(9.81 * hR)
    u = 0.5 * (uL + uR) + (aL - aR)
    a = size(0.5 * (aL + aR) + 0.25 * (uL - uR))
    sL = uR - 2.0 * aR if hL == 0 else lesser(uL - aL, u - a)
    sR = uL + 2.0 * aL if hR == 0 else greater(uR + aR, u + a)
    top = greater(greater(greater(size(sL), size(sR)), size(uL)), size(uR))
    mL, mR = hL * uL, hR * uR
    where = "left dry" if hL == 0 else "right dry" if hR == 0 else "wet"
    if sL >= 0:
        ways[where + ": sL >= 0"] += 1
        return mL, hL * hL, mL * uL, top
    if sR <= 0:
        ways[where + ": sR <= 0"] += 1
        return mR, hR * hR, mR * uR, top
    ways[where + ": both sides"] += 1
    s = sR - sL
    mass = ((sR * mL - sL * mR) + (sL * sR) * (hR - hL)) / s
    pressure = (sR * (hL * hL) - sL * (hR * hR)) / s
    advection = ((sR * (mL * uL) - sL * (mR * uR)) + (sL * sR) * (mR - mL)) / s
    return mass, pressure, advection, top


def following(x):
    x ^= x << 13 & WORD
    x ^= x >> 7
    return (x ^ x << 17) & WORD


def mixed(total, b):
    return (total << 1 & WORD) ^ (total >> 63) ^ b


def unit(x):
    return (x >> 12) / 2**52


def chosen(x, table):
    for end, make in table:
        if x % 128 < end:
            return make(x)


DEPTHS = [
    (7, lambda x: 0.0),
    (14, lambda x: -0.0),
    (15, lambda x: 64.0),
    (16, lambda x: math.nextafter(64.0, 65.0)),
    (17, lambda x: 2.0**-1074),
    (18, lambda x: -(2.0**-1074)),
    (19, lambda x: math.nan),
    (20, lambda x: math.inf),
    (26, lambda x: 1.0),
    (77, lambda x: 0.5 * unit(x) * unit(following(x))),
    (128, lambda x: 64.0 * unit(x)),
]
SPEEDS = [
    (6, lambda x: 0.0),
    (10, lambda x: -0.0),
    (11, lambda x: 32.0),
    (12, lambda x: -32.0),
    (13, lambda x: math.nextafter(32.0, 33.0)),
    (14, lambda x: math.nextafter(-32.0, -33.0)),
    (15, lambda x: math.nan),
    (16, lambda x: -math.inf),
    (61, lambda x: unit(x) - 0.5),
    (128, lambda x: 64.0 * unit(x) - 32.0),
]


def drawn(x, count):
    """The depths and speeds of `count` faces, drawn from the number x on."""
    for _ in range(count):
        sides = []
        for table in (DEPTHS, SPEEDS, DEPTHS, SPEEDS):
            x = following(x)
            sides.append(chosen(x, table))
        yield sides


def main():
    for block in range(20):
        fluxes = dry = refused = total = 0
        for sides in drawn(88172645463325252 ^ block << 32, 1000):
            answer = face(*sides)
            if answer == "dry":
                dry, total = dry + 1, mixed(total, 1)
            elif answer == "refused":
                refused, total = refused + 1, mixed(total, 3)
            else:
                fluxes += 1
                for value in answer:
                    assert value == value
                    total = mixed(total, bits(value))
        print(f"faces {block} {fluxes} {dry} {refused} {total:016x}")
    for way in sorted(ways):
        print(f"{way}: {ways[way]}", file=sys.stderr)


if __name__ == "__main__":
    main()
