"""The wave speed of every depth, out of the library's face.

    waves.py COMMAND...

COMMAND is serve, with an emulator before it where one is needed.  Between two sides of one depth without a
speed the top speed S is the wave speed, and beside dry ground it is twice that; so each depth from 0 to 262,144
is asked three times: on both sides, on the left and on the right.  What is due is found by counting: the wave
speed grows with the depth, and the next whole number is tried until its square, times 100, is too large.

The last line is 'N passed, M failed'; the exit status is 1 when something failed.
"""

import struct
import sys

from compare import case, served, sum_up

DEEPEST = 262144
SHOWN = 3               # wrong depths shown of a kind
ANSWER = struct.Struct("<Iqqqq")


def wave_speeds():
    """The largest a with 100 a a at most 4018176 h, for each depth h."""
    a = 0
    for h in range(DEEPEST + 1):
        while 100 * (a + 1) * (a + 1) <= 4018176 * h:
            a += 1
        yield a


def compare(name, sides, times, command):
    """Holds S of each depth, between these sides, to so many times its wave speed."""
    ran = served("face", "end", (struct.pack("<qqqq", *sides(h)) for h in range(DEEPEST + 1)), command)
    if ran.returncode != 0 or len(ran.stdout) != (DEEPEST + 1) * ANSWER.size:
        return case(False, "wave speed %s: serve ended with %d and gave %d bytes" % (name, ran.returncode, len(ran.stdout)))
    wrong = [(h, told[0], told[4], times * a)
             for h, (told, a) in enumerate(zip(ANSWER.iter_unpack(ran.stdout), wave_speeds()))
             if told[0] != 0 or told[4] != times * a]
    for h, answer, top, due in wrong[:SHOWN]:
        print("wrong: depth %d %s: answer %d, S %d, and 0 and %d are due" % (h, name, answer, top, due))
    case(not wrong, "wave speed of each depth from 0 to %d, %s: %d wrong" % (DEEPEST, name, len(wrong)))


def main():
    if len(sys.argv) < 2:
        sys.exit("usage: waves.py COMMAND...")
    for name, sides, times in (("on both sides", lambda h: (h, 0, h, 0), 1),
                               ("on the left of dry ground", lambda h: (h, 0, 0, 0), 2),
                               ("on the right of dry ground", lambda h: (0, 0, h, 0), 2)):
        compare(name, sides, times, sys.argv[1:])
    sum_up()


if __name__ == "__main__":
    main()
