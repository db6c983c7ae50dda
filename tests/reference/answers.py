#!/usr/bin/env python3
"""What crates/answers must write to the cases in crates/answers/stdin, from the model of document 01's step.

    python3 tests/reference/answers.py > crates/answers/stdout

The check that gave each refusal goes to standard error. Where a name says that one refusal comes
before another, both are looked for here, and it is an error if either does not apply. So it is where
a case has the same line under a reading of E2, E3, E4, E7 or E13 that it is to tell from the rule, and
where a name that begins with a refusal and its place, such as "7 at 2", is not what is answered.
"""
import collections
import contextlib
import itertools
import os
import re
import sys

sys.path.insert(0, os.path.join(os.path.dirname(os.path.abspath(__file__)), "..", "model"))
import model
import variants

CASES = os.path.join(os.path.dirname(os.path.abspath(__file__)), "..", "..", "crates", "answers", "stdin")
UNTOUCHED = -77
MOST_SHOWN = 16     # of a longer `next` the sum is shown

# the check that answers, and a later one that applies too
BOTH = {
    "friction 6 before 7": ("friction speed", "faces, stage 1"),
    "friction 6 before 8": ("friction speed", "stage one"),
    "face 6 before 7": ("face speed, stage 1", "faces, stage 1"),
    "face 6 before 8": ("face speed, stage 1", "end state"),
    "point 6 before 7": ("inner-point speed, stage 1", "faces, stage 1"),
    "point 6 before 8": ("inner-point speed, stage 1", "stage one"),
    "7 before 8": ("faces, stage 1", "stage one"),
    "7 before face 6": ("faces, stage 1", "face speed, stage 2"),
    "7 before point 6": ("faces, stage 1", "inner-point speed, stage 2"),
    "8 before face 6": ("stage one", "face speed, stage 2"),
    "8 before 7": ("stage one", "faces, stage 2"),
    "face 6 before 7, two": ("face speed, stage 2", "faces, stage 2"),
    "face 6 before 8, end": ("face speed, stage 2", "end state"),
    "point 6 before 7, two": ("inner-point speed, stage 2", "faces, stage 2"),
    "point 6 before 8, end": ("inner-point speed, stage 2", "end state"),
    "7 before 8, end": ("faces, stage 2", "end state"),
    "inflow 6 before 7, left": ("inflow speed, stage 1", "faces, stage 1"),
    "inflow 6 before 7, right": ("inflow speed, stage 1", "faces, stage 1"),
    "inflow 6 before 8, left": ("inflow speed, stage 1", "stage one"),
    "inflow 6 before 8, right": ("inflow speed, stage 1", "stage one"),
    "inflow 6 before 7, two, left": ("inflow speed, stage 2", "faces, stage 2"),
    "inflow 6 before 7, two, right": ("inflow speed, stage 2", "faces, stage 2"),
    "7 before inflow 6": ("faces, stage 1", "inflow speed, stage 2"),
    "8 before inflow 6": ("stage one", "inflow speed, stage 2"),
}

# the readings of E2, E3, E4, E7 and E13 that a case tells from the rule
TOLD = {
    "bank on the right": ("none spared", "itself alone", "left and itself"),
    "bank on the left": ("none spared", "itself alone", "right and itself"),
    "left end by a bank": ("none spared", "left and itself", "not dried"),
    "right end by a bank": ("none spared", "right and itself", "not dried"),
    "spared and cut": ("none spared", "not cut"),
    "bank 4 deep": ("none spared", "neighbours alone", "below the dry depth"),
    "bank 5 deep": ("one over the dry depth",),
    "bank 4, then 5 deep": ("none spared", "by stage one alone", "before the stage"),
    "bank 5, then 4 deep": ("none spared", "by stage one alone", "before the stage"),
    "thin at a face": ("by either face",),
    "thin in the mean": ("none spared", "by both faces"),
    "marked beside a spared": ("not marking", "two cells away"),
    "1024 cells, half shallow": ("none spared", "itself alone"),
    "dry 0": ("dry depth from 0", "no dry depth"),
    "dry 1": ("dry depth from 2",),
    "dry 64": ("dry depth to 63",),
    "dry 65": ("dry depth to 65", "no dry depth"),
    "dry 4294967295": ("dry depth without end", "no dry depth"),
    "dry 65 before 3": ("dry depth to 65", "no dry depth"),
    "fast at 12, dry 20": ("4 in friction's check",),
    "fast at 3, dry 1": ("4 in friction's check",),
    "rubbed at 12, dry 20": ("4 in friction",),
    "rubbed at 3, dry 1": ("4 in friction",),
    "face 18, dry 20": ("4 in face speeds",),
    "face 3, dry 1": ("4 in face speeds",),
    "point 12, dry 20": ("4 in Gauss points",),
    "point 3, dry 1": ("4 in Gauss points",),
    "dried at 12, dry 20": ("4 in drying stage one", "4 in drying the end"),
    "kept at 3, dry 1": ("4 in drying stage one", "4 in drying the end"),
    "bank 20, dry 20": ("4 in sparing", "below the dry depth"),
    "bank 21, dry 20": ("one over the dry depth",),
    "bank 12, dry 20": ("4 in sparing", "neighbours alone"),
    "bank 3, dry 1": ("4 in sparing", "no dry depth"),
    "1024 cells, half 12 deep": ("4 in sparing", "4 in drying the end", "none spared"),
    "ends 2 0": ("F outward at the left", "A turned at the left", "no K", "no inflow"),
    "ends 2 1": ("F outward at the left", "A turned at the left", "no A", "no inflow"),
    "ends 2 2": ("F outward at the right", "A turned at the right", "Qs exchanged", "Q in stage one", "Q in stage two"),
    "ends 0 2": ("F outward at the right", "A turned at the right", "no K", "no inflow"),
    "ends 1 2": ("F outward at the right", "A turned at the right", "no A", "A by the inner speed"),
    "ends 3 0": ("kinds to 3", "kinds without end"),
    "ends 0 3": ("kinds to 3", "kinds without end"),
    "ends 4294967295 0": ("kinds without end",),
    "ends 0 4294967295": ("kinds without end",),
    "Q 1 left": ("F outward at the left", "nothing at depth 0", "water outside"),
    "Q 1 right": ("F outward at the right", "nothing at depth 0", "water outside"),
    "Q 8388608 left": ("Q to 8388607", "speed at every depth", "no inflow"),
    "Q 8388608 right": ("Q to 8388607", "speed at every depth", "no inflow"),
    "Q 8388609 left": ("Q to 8388609", "Q without end"),
    "Q 8388609 right": ("Q to 8388609", "Q without end"),
    "Q 4294967295 left": ("Q without end",),
    "Q 4294967295 right": ("Q without end",),
    "Q 1 at a left wall": ("Q at a wall",),
    "Q 1 at a right wall": ("Q at a wall",),
    "Q 1 at a left open": ("Q at an open end",),
    "Q 1 at a right open": ("Q at an open end",),
    "Q 8388608 at a wall": ("Q at a wall", "no inflow"),
    "Q 8388608 at an open": ("Q at an open end", "no inflow"),
    "Q 8388609 before 3": ("Q to 8388609", "Q without end"),
    "filled, left": ("A turned at the left", "nothing at depth 0", "S of the greater speed", "speed of stage one"),
    "filled, right": ("A turned at the right", "nothing at depth 0", "S of the greater speed", "speed of stage one"),
    "overfilled, left": ("nothing at depth 0", "Q in stage two"),
    "overfilled, right": ("nothing at depth 0", "Q in stage two"),
    "flooded, both": ("F outward at the left", "F outward at the right", "nothing at depth 0"),
    "dry, Q 4097, left": ("S without the speed of Q", "speed of stage one", "Q in stage one"),
    "dry, Q 4097, right": ("S without the speed of Q", "speed of stage one", "Q in stage one"),
    "film, Q 4097, left": ("speed at every depth", "nothing at the dry depth", "A by both speeds"),
    "film, Q 4097, right": ("speed at every depth", "nothing at the dry depth", "A by both speeds"),
    "dry end": ("nothing at depth 0", "by the mean depth"),
    "Q at 20, dry 20, left": ("speed at the dry depth", "4 in the speed of Q", "nothing at the dry depth"),
    "Q at 20, dry 20, right": ("speed at the dry depth", "4 in the speed of Q", "nothing at the dry depth"),
    "Q at 12, dry 20": ("speed at every depth", "4 in the speed of Q"),
    "Q at 3, dry 1": ("4 in the speed of Q",),
    "Q at 60 of 100, dry 64": ("K of the wet alone", "by the mean depth"),
    "fast Q, dt 250, left": ("S of the greater speed",),
    "fast Q, dt 250, right": ("S of the greater speed",),
    "fast Q, dt 251, left": ("S without the speed of Q",),
    "fast Q, dt 251, right": ("S without the speed of Q",),
    "slow Q, dt 607, left": ("S without the inner speed", "S of the speed of Q"),
    "slow Q, dt 607, right": ("S without the inner speed", "S of the speed of Q"),
    "Q 161 at 5, left": ("no 6 of an inflow",),
    "Q 161 at 5, right": ("no 6 of an inflow",),
    "Q 161 at 5, dry 5": ("speed at the dry depth", "4 in the speed of Q"),
    "Q 160001 at 5000, left": ("6 of the exact speed",),
    "Q 160001 at 5000, right": ("6 of the exact speed",),
    "Q 160002 at 5000, left": ("no 6 of an inflow",),
    "Q 160002 at 5000, right": ("no 6 of an inflow",),
    "inflow, stage two, left": ("no 6 of an inflow", "speed of stage one"),
    "inflow, stage two, right": ("no 6 of an inflow", "speed of stage one"),
    "3 cells, Q 900 700": ("A turned at the left", "A turned at the right", "by the mean depth", "Qs exchanged"),
    "64 cells, Q 900 700": ("F outward at the left", "F outward at the right", "A turned at the left", "A turned at the right"),
    "65 cells, Q 900 700": ("F outward at the left", "F outward at the right", "A turned at the left", "A turned at the right"),
    "1024 cells, Q 900 700": ("F outward at the left", "F outward at the right", "A turned at the left", "A turned at the right"),
    "lake, Q 0": ("no K", "no inflow"),
    "moving, Q 0": ("a wall without Q", "water outside"),
    "3 cells, columns": tuple(variants.COLUMNS),
    "64 cells, columns": tuple(variants.COLUMNS),
    "65 cells, columns": tuple(variants.COLUMNS),
    "1024 cells, columns": tuple(variants.COLUMNS),
    "1024 cells, sum": ("read cell by cell", "means before slopes", "columns n - 1 apart", "columns n + 1 apart"),
    "5 by a level slope": ("level slopes every fourth", "slope columns exchanged", "cell by cell"),
    "6 by a discharge mean": ("discharge means every fourth", "mean columns exchanged", "cell by cell"),
    "7 by a discharge slope": ("discharge slopes every fourth", "slope columns exchanged"),
    "8 by a level mean": ("level means every fourth", "mean columns exchanged", "cell by cell"),
    "state short": ("n for 1 and 2", "no place"),
    "faults 2 2": ("n for 1 and 2", "no place"),
    "3 at 0": ("one too high", "no place"),
    "3 at 2": ("one too high", "no place"),
    "3 at 3": ("one too high", "a bed value by its cell"),
    "3 at 1, of two": ("the highest", "one too high"),
    "3 at 11, 1024 cells": ("the highest", "one too high"),
    "4 at 1, of two": ("the highest", "one too high"),
    "5 at 1, of two": ("the highest", "one too high"),
    "6 at 1, friction, of two": ("the highest", "one too high"),
    "6 at 0, left side": ("right of a fast left side", "one too high"),
    "6 at 1, left side": ("right of a fast left side", "one too high"),
    "6 at 2, left side": ("right of a fast left side", "one too high"),
    "6 at 1, right side": ("left of a fast right side", "the cell of a fast side"),
    "6 at 2, right side": ("left of a fast right side", "the cell of a fast side"),
    "6 at 3, right side": ("left of a fast right side", "the cell of a fast side"),
    "6 at 1, point, of two": ("the highest", "one too high"),
    "6 at 1, both sides": ("the highest", "right of a fast left side"),
    "6 at 2, of one face": ("left of a fast right side", "the cell of a fast side"),
    "6 at 1, of two sides": ("the highest", "right of a fast left side"),
    "6 at 2, above a point": ("Gauss points before faces",),
    "6 at 3, beside a point": ("Gauss points before faces", "left of a fast right side"),
    "6 at 3, right Q": ("a right Q at the last cell",),
    "6 at 0, left Q and a side": ("the highest", "sides before inflows"),
    "6 at 2, a side and right Q": ("the highest", "inflows before sides"),
    "6 at 0, both Qs": ("the highest",),
    "6 at 3, right Q, a point": ("Gauss points before faces", "a right Q at the last cell"),
    "6 at 64, right Q": ("a right Q at the last cell",),
    "6 at 65, right Q": ("a right Q at the last cell",),
    "6 at 1024, right Q": ("a right Q at the last cell",),
    "7 at 1, left face": ("the cell left of a face", "one too high"),
    "7 at 1, right face": ("the cell left of a face", "one too high"),
    "7 at 3, right face": ("the cell left of a face", "the cell right of a face"),
    "7 at 1, and the last": ("the highest", "ends before inner faces"),
    "7 at 1, less busy": ("the highest", "the busiest face"),
    "7 at 1024, right Q": ("the cell left of a face", "the cell right of a face"),
    "8 at 1, of three": ("the highest", "one too high"),
    "8 at 1023": ("one too high",),
    "6 at 1, two, left side": ("right of a fast left side", "stage one's place in stage two"),
    "6 at 2, two, left side": ("right of a fast left side", "stage one's place in stage two"),
    "6 at 1, two, right side": ("left of a fast right side", "stage one's place in stage two"),
    "6 at 3, two, right side": ("left of a fast right side", "stage one's place in stage two"),
    "6 at 1, two, of two": ("the highest", "stage one's place in stage two"),
    "6 at 1, two, point": ("the highest", "stage one's place in stage two"),
    "6 at 2, two, point": ("stage one's place in stage two",),
    "6 at 1, two, of three points": ("the highest", "stage one's place in stage two"),
    "6 at 4, two, above a point": ("Gauss points before faces", "stage one's place in stage two"),
    "6 at 3, two, right Q": ("a right Q at the last cell", "stage one's place in stage two"),
    "7 at 1, two, left face": ("the cell left of a face", "stage one's place in stage two"),
    "7 at 3, two, right face": ("the cell right of a face", "stage one's place in stage two"),
    "7 at 1, two, of two": ("the highest", "stage one's place in stage two"),
    "8 at 2, end": ("stage one's place in stage two",),
    "8 at 4, end": ("stage one's place in stage two",),
    "8 at 0, end, of four": ("the highest",),
}


@contextlib.contextmanager
def without_limits(found):
    """The model works on past its checks of speeds and faces; those that apply are found."""
    kept = model.DEEPEST, model.GREATEST_Q, model.FASTEST, model.checked_speed, model.fluxes

    def checked_speed(q, h, dry, place, check):
        u = model.speed(q, h, dry)
        if abs(u) > kept[2]:
            found.append(check)
        return u

    def fluxes(sides, call, which):
        some = kept[4](sides, call._replace(dt=0), which)
        if any(2 * call.dt * f.S > model.UNIT * call.dx for f in some):
            found.append("faces, stage %d" % which)
        return some

    model.DEEPEST = model.GREATEST_Q = model.FASTEST = 10**15
    model.checked_speed, model.fluxes = checked_speed, fluxes
    try:
        yield
    finally:
        model.DEEPEST, model.GREATEST_Q, model.FASTEST, model.checked_speed, model.fluxes = kept


def applying(now, bed, friction, *given):
    """Every check after the fifth that applies, each as if those before it had passed."""
    call = model.Call(len(friction), bed, friction, *given)
    cells, found = model.cells_of(now), []
    ends = []
    with without_limits(found):
        slow = model.after_friction(cells, call)
        unfinished, V1 = model.stage(slow, call, 1)
        one = model.finished(unfinished, call)
        ends.append((one, "stage one"))
        # with a dt that is too long a depth can fall below nought, and stage two has no meaning
        if all(model.depth_mean(c, bed[i], bed[i + 1]) >= 0 for i, c in enumerate(one)):
            two, V2 = model.stage(one, call, 2)
            W = [model.quo(a + b, 2) for a, b in zip(V1, V2)]
            ends.append((model.finished(model.halves(cells, slow, two, W), call), "end state"))
    for state, check in ends:
        if not all(model.in_range(c, bed[i], bed[i + 1]) for i, c in enumerate(state)):
            found.append(check)
    return found


def numbers(text):
    return [int(x) for x in re.findall(r"-?\b\d+", text)]


def lent(values, count):
    """So many of a table whose values are repeated as far as it is lent."""
    return list(itertools.islice(itertools.cycle(values), count))


# A case: its name, the call that it asks for, and how many numbers of `next` are shown.
Case = collections.namedtuple("Case", "name call shown")


def case_of(text):
    """A line of the cases. The columns of the state are as long as the friction; what is lent beyond them is 0."""
    name, rest = text.split(": ", 1)
    *columns, bed, friction, given, lengths = map(numbers, rest.split(";"))
    states, nexts, beds, frictions, shown = lengths
    state = [number for column in columns for number in lent(column, frictions)] + [0] * states
    return Case(name, (state[:states], nexts, lent(bed, beds), lent(friction, frictions), *given), shown)


def cases():
    with open(CASES, encoding="ascii") as lines:
        return [case_of(text) for text in lines if not text.startswith("#")]


def faults(name):
    """The checks that a case with faults must meet, of those that `applying` looks for."""
    kinds = {6: "friction speed", 7: "faces, stage 1", 8: "stage one"}
    found = [int(k) for k in re.findall(r"\d", name)] if name.startswith("faults ") else [0]
    return [kinds[k] for k in found if k in kinds] if min(found) > 5 else []


def line(case, step):
    """What the program writes to a case, if `step` answers it as model.step does."""
    name, call, shown = case
    room = call[1]
    answer = step(*call)
    table = [UNTOUCHED] * max(room, shown)
    if answer[0] == "accepted":
        _, table[:room], w, v = answer
        said = "%s: accepted %d %d" % (name, w, v)
    else:
        said = "%s: refused %s" % (name, " at ".join(map(str, answer[1:])))
    if shown > MOST_SHOWN:
        return "%s, sum of next %d" % (said, sum(map(abs, table[:shown])))
    return " ".join([said + ", next", *map(str, table[:shown])])


def report(case):
    """Which check gave the refusal, on standard error."""
    try:
        model.worked(*case.call)
        print("%-30s accepted" % case.name, file=sys.stderr)
    except model.Refused as r:
        print("%-30s %d at %d, %s" % (case.name, r.number, r.place, r.check), file=sys.stderr)


def hold(case):
    """An error where the case does not show what its name says, or does not tell what it is to tell."""
    name, (now, _, bed, friction, *given), _ = case
    wanted = list(BOTH.get(name, ())) + faults(name)
    if wanted:
        found = applying(now, bed, friction, *given)
        for check in wanted:
            assert check in found, (name, check, found)
    if said := re.match(r"(\d) at (\d+)\b", name):
        assert model.step(*case.call) == ("refused", *map(int, said.groups())), name
    if name in TOLD:
        untold = variants.same_under(TOLD[name], lambda: line(case, model.step))
        assert not untold, (name, untold)


def main():
    names = [case.name for case in cases()]
    assert len(names) == len(set(names)), "two cases of one name"
    claimed = set(BOTH) | set(TOLD)
    assert claimed <= set(names), claimed - set(names)
    untold = set(variants.READINGS).difference(*TOLD.values())
    assert not untold, untold
    for case in cases():
        report(case)
        hold(case)
        print(line(case, model.step))


if __name__ == "__main__":
    main()
