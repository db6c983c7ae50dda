"""The example's pond that spills over a weir (E10): more than a thousand steps over a stepped bed.

    weir.py COMMAND...

COMMAND is examples/weir.c's program, with an emulator before it where one is needed.  What it prints and its picture must
be README's byte for byte.  Whatever README has, no water may be missing, the pond must fall to no less than its crest and
the pool rise, what went over must be what the pond lost, and the section must show the weir with upright sides and the
water over it.  The last line is 'N passed, M failed'; the exit status is 1 when something failed.
"""

import os
import sys
import tempfile

from compare import case, sum_up
from readme import fenced, gives, ran, section, text_of

WEIR, POOL, CELLS = 32, 36, 64      # the first cells of the weir and of the pool below it
POND_CELLS = WEIR                   # of 1 m
EVERY = 10                          # seconds, from line to line
HEIGHT = len("1.875 ")              # before each line of the drawing


def table_of(printed):
    """The lines of numbers."""
    return [[float(word) for word in line.split()] for line in printed.split("\n\n")[0].splitlines()[3:]]


def drawing_of(printed):
    """The signs of each line of the section, by its height, as wide as the reach."""
    lines = printed.split("\n\n")[1].splitlines()[1:-1]
    return {float(line[:HEIGHT]): line[HEIGHT:].ljust(CELLS) for line in lines}


def column(drawing, i):
    """The signs over cell i, from the top."""
    return "".join(drawing[height][i] for height in sorted(drawing, reverse=True))


def balance_holds(rows):
    times, pond, over, went, pool, water, missing = zip(*rows)
    case(len(rows) > 5 and list(times) == [EVERY * k for k in range(len(rows))] and set(missing) == {0} and len(set(water)) == 1,
         "weir: the same water in each of %d lines, and none is missing" % len(rows))
    case(all(a > b for a, b in zip(pond, pond[1:])) and over[-1] > 0,
         "weir: the pond falls, from %.3f to %.3f m" % (pond[0], pond[-1]))
    case(all(a < b for a, b in zip(pool, pool[1:])), "weir: the pool rises, from %.3f to %.3f m" % (pool[0], pool[-1]))
    lost = POND_CELLS * (pond[0] - pond[-1])
    case(abs(EVERY * sum(went) - lost) < 0.06, "weir: %.2f m2 went over, and the pond lost %.2f" % (EVERY * sum(went), lost))


def section_holds(drawing):
    signs = [column(drawing, i) for i in range(CELLS)]
    ground = [column_signs.count("#") for column_signs in signs]
    pieces = [set(ground[:WEIR]), set(ground[WEIR:POOL]), set(ground[POOL:])]
    case([len(piece) for piece in pieces] == [1, 1, 1] and max(pieces[1]) > max(pieces[0]) > max(pieces[2]),
         "weir: the section has a pond, a weir with upright sides and a lower pool")
    heights = [next((k for k, sign in enumerate(column_signs) if sign in "~="), None) for column_signs in signs]
    case(None not in heights and max(heights[:WEIR]) < min(heights[WEIR:POOL]) and max(heights[WEIR:POOL]) < min(heights[POOL:])
         and all(signs[i][heights[i] + 1:].lstrip(" -") == "#" * ground[i] for i in range(CELLS)),
         "weir: the water stands on the bed everywhere, and goes down over the weir")


def readme_holds(command):
    (drawn,) = fenced(section("A weir"))
    with tempfile.TemporaryDirectory() as folder:
        path = os.path.join(folder, "weir.svg")
        gives(ran(command + [path]).stdout, drawn, "README: the weir's output")
        with open(path, encoding="utf-8") as picture:
            gives(picture.read(), text_of("docs", "pictures", "weir.svg"), "README: the weir's picture")
        wrong = ran(command + [os.path.join(folder, "none", "weir.svg")])
        case(wrong.returncode == 1 and "could not be written" in wrong.stderr, "weir: a picture that cannot be written is told")


def main():
    command = sys.argv[1:]
    if not command:
        sys.exit("usage: weir.py COMMAND...")
    told = ran(command)
    case(told.returncode == 0 and told.stderr == "", "weir: every step is accepted")
    balance_holds(table_of(told.stdout))
    section_holds(drawing_of(told.stdout))
    readme_holds(command)
    case(ran(command + ["--dt"]).returncode == 2, "weir: words that are not understood are told")
    sum_up()


if __name__ == "__main__":
    main()
