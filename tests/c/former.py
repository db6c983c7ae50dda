"""The stored outputs of before E7, when a state lay cell by cell, out of the library on columns.

    former.py COMMAND...

COMMAND is serve, with an emulator before it where one is needed.  The calls of the programs answers
and steps are made again, one at a time, as steps draws the next by the answer.  What comes back in
`next` is exchanged into cells, and the lines of both programs are written from it: they must be those
of tests/former, byte for byte.  Cases that are new since have no line there and are left out, and
so is the place of a refusal, which had none.  A refused call must leave serve's marks in next and
volumes.

The last line is 'N passed, M failed'; the exit status is 1 when something failed.
"""

import contextlib
import os
import subprocess
import sys

from compare import case, step_answer, step_asked, step_size, sum_up      # which also finds the modules below
import answers
import before
import steps

FORMER = os.path.join(os.path.dirname(os.path.abspath(__file__)), "..", "former")
SHOWN = 3               # wrong lines shown of a text


class Serve:
    """The library, asked as model.step is; what it writes is given back cell by cell."""

    def __init__(self, command):
        self.program = subprocess.Popen(command + ["step", "end"], stdin=subprocess.PIPE, stdout=subprocess.PIPE)
        self.refused = self.touched = self.exchanged = 0

    def taken(self, size):
        given = self.program.stdout.read(size)
        if len(given) != size:
            raise EOFError
        return given

    def step(self, *call):
        self.program.stdin.write(step_asked(call))
        self.program.stdin.flush()
        answer, untouched = step_answer(call, self.taken(step_size(call)))
        if answer[0] == "refused":
            self.refused += 1
            self.touched += not untouched
            return before.bare(answer)      # a place came with E13, later
        _, state, W0, Wn = answer
        cells = before.into_cells(len(call[3]), state)
        self.exchanged += cells != state
        return "accepted", cells, W0, Wn

    def ended(self):
        """Its exit status, once it has been told that no call comes any more."""
        with contextlib.suppress(BrokenPipeError):
            self.program.stdin.close()
        return self.program.wait()


def former(name):
    with open(os.path.join(FORMER, name), encoding="ascii", newline="") as text:
        return text.read()


def answer_lines(step, text):
    """A line for each case that the former text has."""
    names = {line.split(": ", 1)[0] for line in text.splitlines()}
    return (answers.line(each, step) for each in answers.cases() if each.name in names)


def come_again(name, command, lines):
    """`lines` gives a program's lines from a step and the former text."""
    serve, text, found = Serve(command), former(name), []
    with contextlib.suppress(EOFError, BrokenPipeError):        # of a serve that has ended before its time
        for line in lines(serve.step, text):
            found.append(line)
    status, wanted = serve.ended(), text.splitlines()
    wrong = [pair for pair in zip(found, wanted) if pair[0] != pair[1]]
    for pair in wrong[:SHOWN]:
        print("wrong: found  %s\nwrong: wanted %s" % pair)
    case(status == 0 and "".join(line + "\n" for line in found) == text, "%s: %d lines of %d are the former ones, "
         "serve ended with %d" % (name, len(found) - len(wrong), len(wanted), status))
    case(serve.exchanged > 0, "%s: %d calls wrote what is another cell by cell" % (name, serve.exchanged))
    case(serve.refused > 0 and serve.touched == 0, "%s: %d calls refused, of which %d wrote something"
         % (name, serve.refused, serve.touched))


def main():
    command = sys.argv[1:]
    if not command:
        sys.exit("usage: former.py COMMAND...")
    come_again("answers.txt", command, answer_lines)
    come_again("steps.txt", command, lambda step, text: steps.lines(step))
    sum_up()


if __name__ == "__main__":
    main()
