"""The library, called from C by serve.c, against itself from the other end of the reach (E9).

    turned.py SEED CALLS RUNS -- COMMAND...

makes so many of compare.py's random steps, each together with the turned call, and so many runs of
steps from both ends of a reach.  COMMAND is serve, with an emulator before it where one is needed.
The two answers of a pair are held to each other: the number, and of an accepted step every number of
next and both volumes.  No answer of the model's is used.  Calls that cannot be turned are counted and
left out.

Each way a call can be answered is one case more, passed where it came often enough.  The last line is
'N passed, M failed'; the exit status is 1 when something failed.
"""

import itertools
import random
import sys
from collections import Counter

from compare import (       # which also finds the modules below
    SHOWN, blocks, case, served, step_answer, step_asked, step_size, steps, sum_up, words)
import both_ways
import hard
from turned import NO_OTHER_SIGN, lengths_fit, signs_fit, turned

WIDEST = 2 ** 31 - 1    # a number of an i32 whose other sign is one too


class Library:
    """Answers as both_ways.py asks, and counts the calls that it refuses and those among them that wrote something."""

    def __init__(self, command):
        self.command = command
        self.refused = self.touched = 0

    def answers(self, calls):
        ran, at, found = served("step", "end", map(step_asked, calls), self.command), 0, []
        if ran.returncode != 0 or len(ran.stdout) != sum(map(step_size, calls)):
            raise EOFError("serve ended with %d and told %d bytes of %d calls" % (ran.returncode, len(ran.stdout), len(calls)))
        for call in calls:
            answer, untouched = step_answer(call, ran.stdout[at:at + step_size(call)])
            at += step_size(call)
            self.refused += answer[0] == "refused"
            self.touched += not untouched
            found.append(answer)
        return found


# ---- Calls

def widest(rnd, call):
    """The call with a level slope or a discharge mean so wide that the other sign just fits, or does not."""
    now, n = list(call[0]), len(call[3])
    now[rnd.randrange(n, 3 * n)] = rnd.choice((WIDEST, -WIDEST, NO_OTHER_SIGN))
    return (now, *call[1:])


LENGTHS, SIGN = "lengths that do not fit", "a level slope or discharge mean of %d" % NO_OTHER_SIGN


def turnable(seed, left_out):
    """compare.py's calls without end, but for those that cannot be turned."""
    rnd = random.Random(seed)
    for call in steps(seed, sys.maxsize):
        if not lengths_fit(call):
            left_out[LENGTHS] += 1
            continue
        if rnd.randrange(100) == 0:
            call = widest(rnd, call)
        if signs_fit(call):
            yield call
        else:
            left_out[SIGN] += 1


COLUMNS = ("level mean", "level slope", "discharge mean", "discharge slope")
WIDE = list(itertools.product((1, 2), (WIDEST, -WIDEST)))       # columns, and what one of their numbers is

# Each way that a pair can be answered, and once in how many calls it must be; and each reason to leave a call out.
LEFT_OUT = {LENGTHS: 100, SIGN: 600}
WAYS = {
    "accepted": 4, **dict(zip(["refused with %d" % number for number in range(2, 9)], (30, 100, 150, 150, 8, 12, 15))),
    **dict.fromkeys(["accepted, ends %d %d" % kinds for kinds in hard.PAIRS], 60),
    "refused at two indices": 5, "refused at two places of the reach": 20,
    **dict.fromkeys(["refused with 5, a %s of %d" % (COLUMNS[k], wide) for k, wide in WIDE], 3000),
}


def from_the_other_end(number, place, n):
    """The place as an index from the other end; None for a 2, which has none, and for a 6, of a cell or of a face."""
    return {3: n - place, 7: n - place, 4: n - 1 - place, 5: n - 1 - place, 8: n - 1 - place}.get(number)


def ways(call, answer, other):
    if answer[0] == "accepted":
        yield "accepted"
        yield "accepted, ends %d %d" % call[8:10]
        return
    (_, number, place), n = answer, len(call[3])
    yield "refused with %d" % number
    if other[2] != place:
        yield "refused at two indices"
    if from_the_other_end(number, place, n) not in (None, other[2]):
        yield "refused at two places of the reach"
    if number == 5:
        yield from ("refused with 5, a %s of %d" % (COLUMNS[k], wide) for k, wide in WIDE if wide in call[0][k * n:(k + 1) * n])


def calls_hold(library, seed, count):
    seen, left_out, wrong, same = Counter(), Counter(), 0, 0
    for block in blocks(itertools.islice(turnable(seed, left_out), count)):
        for call, (answer, other) in zip(block, both_ways.from_both_ends(library.answers, block)):
            same += turned(call) == call
            if both_ways.alike(answer, other):
                seen.update(ways(call, answer, other))
                continue
            wrong += 1
            if wrong <= SHOWN:
                print("wrong: answered %s, turned %s; asked %s" % (str(answer)[:200], str(other)[:200], str(call)[:400]))
    case(wrong == 0, "calls: %d and as many turned, %d answered otherwise" % (count, wrong))
    case(20 * same <= count, "calls: %d are the same when turned, at most one in 20 wanted" % same)
    for way, share in WAYS.items():
        least = max(1, count // share)
        case(seen[way] >= least, "calls, %s: %d, %.2f %%, at least %d wanted" % (way, seen[way], 100 * seen[way] / max(1, count), least))
    for why, share in LEFT_OUT.items():
        least = max(1, count // share)
        case(left_out[why] >= least, "calls left out for %s: %d beside the others, at least %d wanted" % (why, left_out[why], least))


# ---- Runs

def runs_hold(library, seed, count):
    runs = both_ways.runs(library.answers, random.Random(seed), count)
    taken = Counter(kinds for run in runs for kinds in run.kinds)
    wrong, whole = sum(not run.alike() for run in runs), sum(len(run.kinds) == both_ways.MOST_STEPS for run in runs)
    refused, accepted = Counter(run.numbers[0] for run in runs if any(run.numbers)), sum(taken.values())
    case(wrong == 0, "runs: %d from either end, %d accepted steps, %d with another last state, sum of volumes or last number"
         % (count, accepted, wrong))
    case(2 * whole >= count, "runs: %d come to %d steps, at least half wanted" % (whole, both_ways.MOST_STEPS))
    case(20 * sum(refused.values()) >= count, "runs: %d come to a refusal, at least one in 20 wanted; its number %s"
         % (sum(refused.values()), ", ".join("%d: %d" % pair for pair in sorted(refused.items()))))
    case(all(20 * taken[kinds] >= accepted for kinds in hard.PAIRS), "runs: steps with each pair of ends, one in 20 of each wanted: %s"
         % ", ".join("%d %d: %d" % (*kinds, taken[kinds]) for kinds in hard.PAIRS))


def main():
    (seed, calls, runs), command = words("turned.py SEED CALLS RUNS -- COMMAND...")
    library = Library(command)
    try:
        calls_hold(library, seed, calls)
        runs_hold(library, seed, runs)
    except EOFError as broken:
        case(False, str(broken))
    case(library.refused > 0 and library.touched == 0, "%d calls refused, of which %d wrote to next or the volumes"
         % (library.refused, library.touched))
    sum_up()


if __name__ == "__main__":
    main()
