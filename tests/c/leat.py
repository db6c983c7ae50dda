"""The example's leat entered from its upper end and from its lower one (E9): a flood of over a thousand steps.

    leat.py COMMAND...

COMMAND is examples/leat.c's program, with an emulator before it where one is needed.  The balance and the
water between the markers must be the same line for line, the drawn section its mirror image, and a step
that is refused must be refused with the same number.  The last line is 'N passed, M failed'; the exit
status is 1 when something failed.
"""

import re
import subprocess
import sys

from compare import case, sum_up

CELLS = 64
HEIGHT = len("1.875 ")      # before each line of the drawing


def told(command):
    """What a run prints, parted: how it was entered, the balance, the drawing; and what it says is wrong."""
    ran = subprocess.run(command, stdout=subprocess.PIPE, stderr=subprocess.PIPE, text=True)
    balance, drawing = ran.stdout.split("\n\n")
    entered, *balance = balance.splitlines()
    return entered, balance, drawing.splitlines(), ran.stderr


def mirrored(line):
    height, signs = line[:HEIGHT].ljust(HEIGHT), line[HEIGHT:].ljust(CELLS)
    return (height + signs[::-1]).rstrip()


def section(drawing):
    """The lines of the drawing that show the leat, without its legend and what stands under it."""
    return [line for line in drawing if re.match(r"\d\.\d{3}", line)]


def main():
    command = sys.argv[1:]
    if not command:
        sys.exit("usage: leat.py COMMAND...")
    above, below = told(command), told(command + ["--from-below"])
    case(above[0] != below[0] and above[1] == below[1] and len(above[1]) > 10 and above[3] == below[3] == "",
         "leat: the balance is the same from both ends, %d lines" % len(above[1]))
    between = re.search(r" (\S+) m3 stand between (\d+) m and (\d+) m", above[1][-1])
    whole = int(above[1][-2].split()[4]) / 4096
    case(between is not None and 0 < float(between[1]) < whole,
         "leat: the water between the markers is told, %s of %.3f m3" % (between and between[1], whole))
    lines = section(above[2])
    case(section(below[2]) == [mirrored(line) for line in lines] and any(line != mirrored(line) for line in lines),
         "leat: the section drawn from below is the mirror image, %d lines" % len(lines))
    refused = [re.search(r"at (\S+ s refused \d)", told(command + ["--dt", "500"] + way)[3]) for way in ([], ["--from-below"])]
    case(all(refused) and refused[0][1] == refused[1][1], "leat: too long a step is refused alike from both ends, at %s"
         % (refused[0] and refused[0][1]))
    sum_up()


if __name__ == "__main__":
    main()
