"""20,000 whole-number faces in 100 blocks of 200, with a hash after each block.

The program whole_faces makes the same walk over the library; its stored text is made by

    python3 tests/reference/whole_faces.py > crates/whole_faces/stdout

All of it is additions, remainders by constants, shifts and xor:

  x, h are u64, x starts at 88172645463325252, h at 0, c (a class, 0 to 9) at 0.

  draw:   a = x ^ (x << 13);  b = a ^ (a >> 7);  x = b ^ (b << 17)    (mod 2^64)
          the number drawn is x >> 33, so 0 to 2^31 - 1

  a face: r1, r2, r3, r4 are four draws, in this order, for every class.

     c   hL                  uL                    hR                  uR
     0   r1 % 262145         r2 % 262145 - 131072  r3 % 262145         r4 % 262145 - 131072
     1   0                   r2 % 262145 - 131072  r3 % 262145         r4 % 262145 - 131072
     2   r1 % 262145         r2 % 262145 - 131072  0                   r4 % 262145 - 131072
     3   r1 % 9              r2 % 8193 - 4096      r3 % 9              r4 % 8193 - 4096
     4   r1 % 16385          r2 % 8193 - 4096      r3 % 16385          r4 % 8193 - 4096
     5   r1 % 4097           r2 % 131073           r3 % 4097           r4 % 131073
     6   r1 % 4097           -(r2 % 131073)        r3 % 4097           -(r4 % 131073)
     7   r1 % 2 * 262144     r2 % 3 * 131072 - 131072   r3 % 2 * 262144     r4 % 3 * 131072 - 131072
     8   262142 + r1 % 4     131070 + r2 % 4       262142 + r3 % 4     -(131070 + r4 % 4)
     9   r1 % 16 - 1         r2 % 262147 - 131073  r3 % 16 - 1         r4 % 262147 - 131073

     then c = c + 1, and 0 again after 9 (each block has 20 faces of each class).
     Classes: any, left dry, right dry, thin, slow, rightward, leftward, at the limits,
     about the upper limits, about the lower depth limit.

  a value v is mixed in by  h = (h << 1) ^ (h >> 63) ^ v    (mod 2^64)
     an answered face mixes in F, K, A, S in this order, each in two's complement
     (below nought 2^64 + v, which is also the complement of -v - 1 as a u64);
     a refused face mixes in 1 alone.

  After each 200 faces h is printed as a decimal number on a line; x, h and c run on.
"""

import os
import sys

sys.path.insert(0, os.path.join(os.path.dirname(os.path.abspath(__file__)), "..", "model"))

import model as m

MASK = 2 ** 64 - 1
BLOCKS, BLOCK = 100, 200


def drawn(x):
    a = x ^ (x << 13) & MASK
    b = a ^ (a >> 7)
    return b ^ (b << 17) & MASK


def chosen(c, r1, r2, r3, r4):
    """hL, uL, hR, uR of class c."""
    if c == 0:
        return r1 % 262145, r2 % 262145 - 131072, r3 % 262145, r4 % 262145 - 131072
    if c == 1:
        return 0, r2 % 262145 - 131072, r3 % 262145, r4 % 262145 - 131072
    if c == 2:
        return r1 % 262145, r2 % 262145 - 131072, 0, r4 % 262145 - 131072
    if c == 3:
        return r1 % 9, r2 % 8193 - 4096, r3 % 9, r4 % 8193 - 4096
    if c == 4:
        return r1 % 16385, r2 % 8193 - 4096, r3 % 16385, r4 % 8193 - 4096
    if c == 5:
        return r1 % 4097, r2 % 131073, r3 % 4097, r4 % 131073
    if c == 6:
        return r1 % 4097, -(r2 % 131073), r3 % 4097, -(r4 % 131073)
    if c == 7:
        return r1 % 2 * 262144, r2 % 3 * 131072 - 131072, r3 % 2 * 262144, r4 % 3 * 131072 - 131072
    if c == 8:
        return 262142 + r1 % 4, 131070 + r2 % 4, 262142 + r3 % 4, -(131070 + r4 % 4)
    return r1 % 16 - 1, r2 % 262147 - 131073, r3 % 16 - 1, r4 % 262147 - 131073


def mixed(h, value):
    return (h << 1) & MASK ^ (h >> 63) ^ (value & MASK)


def walk():
    """(hL, uL, hR, uR) of each face, in order."""
    x, c = 88172645463325252, 0
    for _ in range(BLOCKS * BLOCK):
        r = []
        for _ in range(4):
            x = drawn(x)
            r.append(x >> 33)
        yield chosen(c, *r)
        c = 0 if c == 9 else c + 1


def main():
    h = 0
    for i, sides in enumerate(walk(), 1):
        answer = m.face(*sides)
        for value in ((1,) if answer is None else answer):
            h = mixed(h, value)
        if i % BLOCK == 0:
            print(h)


if __name__ == "__main__":
    main()
