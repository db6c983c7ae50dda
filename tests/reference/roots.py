#!/usr/bin/env python3
"""What crates/roots must write, from document 01's rule of the root and by no digit of the crate's code.

    python3 tests/reference/roots.py > crates/roots/stdout

A double is taken apart into a whole number and a power of two, its exact root is put between two
whole numbers by math.isqrt, and the nearer of the two doubles there is found by comparing squares.
Counts of what was rooted go to standard error.
"""
import collections
import math
import sys

WORD = (1 << 64) - 1
TOP = 0x7FF0000000000000
SIGN = 1 << 63
FRACTION = (1 << 52) - 1
counts = collections.Counter()


def value(b):
    """The finite double with the bits b, without its sign, as m * 2 ** e."""
    field, fraction = b >> 52 & 0x7FF, b & FRACTION
    return (fraction, -1074) if field == 0 else (fraction | 1 << 52, field - 1075)


def pattern(m, e):
    """The bits of m * 2 ** e, for an m of 53 bits and an e from -1074 on."""
    assert m >> 52 == 1 and e >= -1074
    return (e + 1075) << 52 | m & FRACTION


def root(b):
    """The bits of the nearest double to the root, or 1 where 01 refuses."""
    size = b & ~SIGN
    if size == 0:
        counts["nought"] += 1
        return b
    if b & SIGN or size >= TOP:
        counts["refused"] += 1
        return 1
    m, e = value(size)
    counts["subnormal" if size <= FRACTION else "normal"] += 1
    # scaled so that the exponent is even and the whole root has 53 bits: root(m * 2 ** e) = root(n) * 2 ** f
    f = (e - (106 - m.bit_length())) // 2
    n = m << (e - 2 * f)
    low = math.isqrt(n)
    if low.bit_length() == 54:
        f += 1
        n = m << (e - 2 * f)
        low = math.isqrt(n)
    assert low.bit_length() == 53 and low * low <= n < (low + 1) ** 2
    middle = (2 * low + 1) ** 2
    assert 4 * n != middle, "a root half way between two doubles"
    near = low if 4 * n < middle else low + 1
    if low * low == n:
        counts["exact"] += 1
    if near.bit_length() == 54:
        near, f = near >> 1, f + 1
    return pattern(near, f)


def following(x):
    x ^= x << 13 & WORD
    x ^= x >> 7
    return (x ^ x << 17) & WORD


def mixed(total, b):
    return (total << 1 & WORD) ^ (total >> 63) ^ b


def exponent(block, i, x):
    ends = [0, 1, FRACTION - 1, FRACTION]
    fraction = ends[i // 32] if i // 32 < 4 else x >> 12
    return (32 * block + i % 32) << 52 | fraction


def subnormal(block, x):
    length = 52 - block % 52
    return 1 << (length - 1) | (x >> 13) >> (52 - length)


def square(x):
    """The bits of (m * 2 ** e) ** 2 for an m of 26 bits."""
    m, e = 1 << 25 | x >> 39, 512 + x % 1022 - 1023 - 25
    n = m * m
    shift = 53 - n.bit_length()
    return pattern(n << shift, 2 * e - shift)


def item(block, i, x):
    if block < 64:
        return root(exponent(block, i, x))
    if block < 116:
        return root(subnormal(block, x))
    if block < 126:
        b = square(x)
        counts["squares"] += 1
        return mixed(mixed(root(b - 1), root(b)), root(b + 1))
    return root(SIGN | x >> 1)


def name(block):
    return "exponents" if block < 64 else "subnormals" if block < 116 else "squares" if block < 126 else "negatives"


EDGES = [0, SIGN, 1, FRACTION, FRACTION + 1, 0x3FF0 << 48, 0x4000 << 48, TOP - 1, TOP, TOP | SIGN, TOP + 1, WORD, 0xBFF0 << 48, SIGN + 1]


def main():
    for block in range(128):
        x, total = 88172645463325252 ^ block << 32, 0
        for i in range(1000):
            x = following(x)
            total = mixed(total, item(block, i, x))
        print(f"{name(block)} {block} {total:016x}")
    for b in EDGES:
        print(f"root of {b:016x} {root(b):016x}")
    print(dict(counts), file=sys.stderr)


if __name__ == "__main__":
    main()
