"""Calls and runs made from both ends of a reach, to be held to E9.

Who answers is the caller's choice: `ask` is given some calls, and answers each as model.step does.
"""

import before
import hard
from turned import turned, turned_answer, turned_table

MOST_STEPS = 8          # of a run


def answered(ask, pairs):
    """The two answers of each pair of calls."""
    answers = ask([call for pair in pairs for call in pair])
    return zip(answers[::2], answers[1::2])


def from_both_ends(ask, calls):
    """Of each call its answer, and that of the turned call."""
    return answered(ask, [(call, turned(call)) for call in calls])


def alike(answer, other):
    """Whether a call and the turned call are answered as E9 says."""
    return before.bare(other) == turned_answer(answer)


class Run:
    """One bed and dx, stepped from both ends: each is lent what was written from that end, and adds up its own volumes."""

    def __init__(self, rnd):
        self.bed, now = hard.run_reach(rnd, rnd.choice((1, 2, 3, 5, 16, rnd.choice((16, hard.SHORT_CELLS, hard.SHORT_CELLS + 1)))))
        self.dx = rnd.randint(1, 60000)
        self.states = [now, turned_table(now, len(self.bed) - 1)]
        self.volumes = [(0, 0), (0, 0)]
        self.numbers = [0, 0]           # what the last step answered from either end
        self.kinds = []                 # of end, in each accepted step

    def calls(self, rnd):
        """The next step from either end, with numbers of its own."""
        call = hard.run_call(rnd, self.states[0], self.bed, self.dx)
        return call, (self.states[1], *turned(call)[1:])

    def take(self, kinds, answers):
        for end, answer in enumerate(answers):
            if answer[0] == "refused":
                self.numbers[end] = answer[1]
            else:
                _, self.states[end], W0, Wn = answer
                self.volumes[end] = self.volumes[end][0] + W0, self.volumes[end][1] + Wn
        if not any(self.numbers):
            self.kinds.append(kinds)

    def alike(self):
        """Whether both ends have come to one state, with one sum of volumes at each end, and were refused one number if any."""
        (state, other), (W0, Wn) = self.states, self.volumes[0]
        return (self.numbers[0] == self.numbers[1] and other == turned_table(state, len(self.bed) - 1)
                and self.volumes[1] == (-Wn, -W0))


def runs(ask, rnd, count):
    """So many runs, each as far as its first refused step; a step of all of them is asked at a time."""
    made = [Run(rnd) for _ in range(count)]
    for _ in range(MOST_STEPS):
        going = [run for run in made if not any(run.numbers)]
        pairs = [run.calls(rnd) for run in going]
        for run, (call, _), answers in zip(going, pairs, answered(ask, pairs)):
            run.take(call[8:10], answers)
    return made
