"""The library, called from C by serve.c, against the independent model, number for number.

    compare.py SEED FACES STEPS DOUBLES ROOTS -- COMMAND...

makes so many random calls of each kind from the seed.  COMMAND is serve, with an emulator before
it where one is needed.  Every call is made twice, with its tables at the end of their pages and at
their start, and everything that comes back is compared: the answer, and each table that the call
may write, which after a refusal must hold serve's marks, but for the place of a step.  That is
written in every call, 0 where it is accepted.

A kind of call with its tables at one edge is one case.  Each way a call can be answered is one more,
passed where it came often enough: calls that never reach a check do not test it.  The last line is
'N passed, M failed'; the exit status is 1 when something failed.
"""

import itertools
import os
import random
import struct
import subprocess
import sys
from collections import Counter, namedtuple

HERE = os.path.dirname(os.path.abspath(__file__))
sys.path[:0] = [os.path.join(HERE, "..", "model"), os.path.join(HERE, "..", "reference")]
import before
import double_faces
import hard
import model as m
import places
import roots

MARK = b"\xa5"          # serve's, in every byte that a call may write
EDGES = ("end", "start")
BLOCK = 2000            # calls at a time, so that memory does not grow with their number
SHOWN = 3               # wrong calls shown of a block

# What is due: the library's number, the way it came about, the tables that the call may write, and
# further ways that are counted too.
Due = namedtuple("Due", "answer way tables also", defaults=((),))

# `calls` draws calls from a seed, `asked` writes one for serve, `due` asks the model.  `ways` has
# each way of answering with an n: it must come at least once in n calls.
Kind = namedtuple("Kind", "name calls asked due ways")


def table(form, numbers):
    return struct.pack("<%d%s" % (len(numbers), form), *numbers)


# ---- Steps

def wide_step(rnd, call):
    """The call with a number or with lengths that would look right if C's higher bits were lost."""
    now, next_len, bed, friction, *numbers = call
    if rnd.randrange(10) == 0:
        more = 1 << 16
        return (now + [0] * (4 * more), next_len + 4 * more, bed + [0] * more, friction + [0] * more, *numbers)
    k = rnd.randrange(len(numbers))
    numbers[k] = (numbers[k] + rnd.choice((1 << 8, 1 << 16, 1 << 31))) % (1 << 32)
    return (now, next_len, bed, friction, *numbers)


def steps(seed, count):
    rnd = random.Random(seed)
    for call in hard.calls(seed, count):
        yield wide_step(rnd, call) if rnd.randrange(25) == 0 else call


def step_asked(call):
    now, next_len, bed, friction, *numbers = call
    return (table("I", (len(now), next_len, len(bed), len(friction), *numbers))
            + table("i", now) + table("i", bed) + table("H", friction))


def step_size(call):
    """How many bytes serve tells of a step: its number and place, next and the volumes."""
    return 8 + 4 * call[1] + 16


def step_answer(call, told):
    """What serve tells of a step as model.step says it, and whether next and the volumes hold serve's marks if it is refused."""
    number, place = struct.unpack("<2I", told[:8])
    if number:
        return ("refused", number, place), told[8:] == MARK * (len(told) - 8)
    *state, W0, Wn = struct.unpack("<%di2q" % call[1], told[8:])
    return ("accepted", state, W0, Wn), True


# Dry depths just outside their list, and the greatest number there is.
DRY_BEYOND = (m.LEAST_DRY - 1, m.MOST_DRY + 1, (1 << 32) - 1)

# The longest reach; the longest that is worked on short tables, and the next.
SHORT = hard.SHORT_CELLS
LONG = {m.MOST_CELLS: ", longest reach", SHORT: ", longest on short tables", SHORT + 1: ", shortest on long tables"}


def worked(call):
    """The model's number, then what it worked, or the check that refused the call and its place."""
    try:
        return 0, m.worked(*call)
    except m.Refused as r:
        return r.number, (r.check, r.place)


def otherwise(call, found):
    """Whether `worked` gives another now, in more than the place."""
    def bare(number, given):
        return (number, given[0]) if number else (number, given)
    return bare(*worked(call)) != bare(*found)


def worked_and_decided(call):
    """What `worked` gives, and whether E2 decides it: whether it was another before."""
    rule, sparing = m.spared, []

    def spared(cells, reach):
        kept = rule(cells, reach)
        if any(kept):
            sparing.append(any(a and b for a, b in zip(kept, m.marks(cells, reach.jump))))
        return kept
    with before.replaced(spared=spared):
        found = worked(call)
    if not any(sparing):        # no marked cell was spared: the same before E2, and not worked again
        return found, False
    with before.E2():
        return found, otherwise(call, found)


def decided_by_e3(call, found):
    """Whether the answer was another when a fixed 4 was the dry depth."""
    if call[7] == before.FIXED_DRY:
        return False
    with before.E3():
        return otherwise(call, found)


def decided_by_e4(call, found):
    """Whether the answer was another when an end was a wall or open, and no Q was given."""
    if m.INFLOW not in call[8:10] and call[10:] == (0, 0):
        return False
    with before.E4():
        return otherwise(call, found)


def decided_by_e7(call, found):
    """Whether the answer would have been another if the lent states lay cell by cell."""
    if len(call[3]) == 1:       # the columns of one cell are the cell
        return False
    with before.E7():
        return otherwise(call, found)


def dry_way(dry, number, decided):
    """How a dry depth at an edge of its list was answered, or None."""
    if number == 0 and dry in (m.LEAST_DRY, m.MOST_DRY):
        return "accepted, dry depth %d" % dry
    if number == 2 and decided and dry in DRY_BEYOND:
        return "2 numbers, dry depth %d" % dry
    return None


def ends(call):
    """Of each end its kind, its Q and the depth that the present state shows there."""
    now, _, bed, *_, left, right, left_q, right_q = call
    return zip((left, right), (left_q, right_q), hard.inner_depths(now, bed))


def wrong_inflow_ways(call):
    """Which Q alone is why check 2 refuses a call: one beyond its list, or one where none belongs."""
    try:
        m.check_numbers(*call[4:10], 0, 0)
    except m.Refused:
        return
    for kind, Q, _ in ends(call):
        if Q > m.GREATEST_Q:
            yield "2 numbers, Q beyond its list"
        elif not m.inflow_in_list(kind, Q):
            yield "2 numbers, Q at %s" % ("a wall" if kind == m.WALL else "an open end")


def inflow_ways(call):
    """What is particular in the inflows of an accepted call that bring water in."""
    dx, dt, _, dry = call[4:8]
    for kind, Q, h in ends(call):
        if kind == m.INFLOW and Q * dt >= dx:
            if h <= dry:
                yield "accepted, inflow onto dry ground" if h == 0 else "accepted, inflow without a speed"
            elif m.speed(Q, h, dry) > m.wave_speed(h):
                yield "accepted, inflow faster than its waves"
            else:
                yield "accepted, slow inflow"


def end_ways(call, number, way):
    """How a call was answered with its kinds of end and Qs."""
    left, right = call[8:10]
    one = ", one cell" if len(call[3]) == 1 else ""
    if m.INFLOW in (left, right):
        yield "with an inflow, %s" % way
    if number == 0:
        yield "accepted, ends %d %d" % (left, right)
        yield "accepted, ends %d %d%s" % (left, right, one)
        yield from inflow_ways(call)
    elif number == 2:
        yield from wrong_inflow_ways(call)
    elif number == 8 and m.INFLOW in (left, right) and max(call[10:]) * call[5] // call[4] >= 1 << 32:
        yield "8 stage one, more comes in than 32 bits hold"


def face_ways(met, call):
    """What the lowest face that is too fast was chosen from, in the stage that refuses."""
    reach, place = m.Call(len(call[3]), *call[2:]), min(met.indices)
    lefts, rights = places.fast_left_sides(met.cells, reach), places.fast_right_sides(met.cells, reach)
    inflows, points = places.fast_inflows(met.cells, reach), places.fast_points(met.cells, reach)
    if place in lefts - rights:
        yield "by a left side alone"
    if place in rights - lefts:
        yield "by a right side alone"
    if 0 in inflows and (lefts | rights) - {0}:
        yield "left inflow, and a side elsewhere"
    if place < reach.n and reach.n in inflows:
        yield "right inflow, and a lower face"
    if points and min(points) < place:
        yield "above a Gauss point"


def place_ways(call, way, check, place):
    """Where a call was refused, and what the place was chosen from."""
    position, met = places.position(check, place, len(call[3])), places.met(call)
    if position:
        yield "%s, %s index" % (way, position)
    if len(met.indices) > 1:
        yield "%s, lowest of several" % way
    if place > 255:
        yield "a place beyond a byte"
    if met.name.startswith("face speed"):
        yield from ("6 %s, %s" % (met.name, way) for way in face_ways(met, call))


def calm_ways(call):
    """Of rough cells deeper than the dry depth, whether one has no discharge, and one a slope of it alone: friction leaves the first."""
    now, bed, friction, dry = call[0], call[2], call[3], call[7]
    n = len(friction)
    for i, rough in enumerate(friction):
        if rough and now[i] - (bed[i] + bed[i + 1]) // 2 > dry and now[2 * n + i] == 0:
            yield "accepted, rough and " + ("a slope of discharge alone" if now[3 * n + i] else "no discharge")


def step_due(call):
    next_len, friction, dry = call[1], call[3], call[7]
    (number, given), by_e2 = worked_and_decided(call)
    by_e3, by_e4, by_e7 = (decided(call, (number, given)) for decided in (decided_by_e3, decided_by_e4, decided_by_e7))
    size = ", long tables" if len(friction) > SHORT else ""
    check, place = given if number else (None, 0)
    way = "%d %s" % (number, check) if number else "accepted"
    also = [each for each in (by_e2 and "decided by E2" + size, by_e3 and "decided by E3" + size, by_e4 and "decided by E4" + size,
                              by_e7 and "decided by E7" + size, dry_way(dry, number, by_e3), *set(end_ways(call, number, way))) if each]
    if number > 2:
        also += place_ways(call, way, check, place)
    if number:
        return Due(number, way, table("I", [place]) + MARK * (4 * next_len + 16), also)
    state, left, right = given
    also += set(calm_ways(call))
    return Due(0, way + LONG.get(len(friction), ""), table("I", [place]) + table("i", state) + table("q", (left, right)), also)


# Each check, and once in how many calls it must refuse one.
CHECKS = {
    "1 lengths": 100, "2 numbers": 100, "3 bed": 200, "4 friction": 200, "5 present state": 500,
    "6 friction speed": 100, "6 face speed, stage 1": 100, "6 inflow speed, stage 1": 50, "6 inner-point speed, stage 1": 500,
    "7 faces, stage 1": 50, "8 stage one": 50,
    "6 face speed, stage 2": 100, "6 inflow speed, stage 2": 150, "6 inner-point speed, stage 2": 200,
    "7 faces, stage 2": 50, "8 end state": 1000,
}

# Once in how many calls each must refuse at the first index, at a middle one, at the last, and at the lowest of several.
# An inflow is at an end.
INDEX_WAYS = ("first index", "middle index", "last index", "lowest of several")
PLACES = {
    "3 bed": (300, 1000, 500, 600), "4 friction": (500, 1200, 800, 1200), "5 present state": (600, 1500, 800, 1200),
    "6 friction speed": (500, 150, 600, 500), "6 face speed, stage 1": (500, 150, 800, 800),
    "6 inflow speed, stage 1": (100, None, 100, 1000), "6 inner-point speed, stage 1": (1200, 1000, 1700, 5000),
    "7 faces, stage 1": (100, 100, 300, 100), "8 stage one": (50, 100, 100, 50),
    "6 face speed, stage 2": (150, 100, 300, 100), "6 inflow speed, stage 2": (200, None, 250, 1700),
    "6 inner-point speed, stage 2": (400, 1000, 500, 600),
    "7 faces, stage 2": (60, 150, 100, 100), "8 end state": (1000, 2500, 1200, 2500),
}
FACES = {
    "6 face speed, stage 1, by a left side alone": 200, "6 face speed, stage 2, by a left side alone": 100,
    "6 face speed, stage 1, by a right side alone": 200, "6 face speed, stage 2, by a right side alone": 150,
    "6 face speed, stage 1, above a Gauss point": 500, "6 face speed, stage 2, above a Gauss point": 150,
    "6 face speed, stage 1, left inflow, and a side elsewhere": 1700, "6 face speed, stage 2, left inflow, and a side elsewhere": 5000,
    "6 face speed, stage 1, right inflow, and a lower face": 800, "6 face speed, stage 2, right inflow, and a lower face": 1700,
}
PAIRS = ["accepted, ends %d %d" % pair for pair in hard.PAIRS]

STEP_WAYS = {
    "accepted": 4, "accepted, longest reach": 5000, "accepted, longest on short tables": 1000,
    "accepted, shortest on long tables": 1000,
    "accepted, rough and no discharge": 100, "accepted, rough and a slope of discharge alone": 1000,
    **CHECKS,
    **{"%s, %s" % (check, way): share for check, shares in PLACES.items() for way, share in zip(INDEX_WAYS, shares) if share},
    **FACES, "a place beyond a byte": 1000,
    "decided by E2": 50, "decided by E2, long tables": 2500,
    "decided by E3": 25, "decided by E3, long tables": 2500,
    "decided by E4": 4, "decided by E4, long tables": 500,
    "decided by E7": 4, "decided by E7, long tables": 300,
    "accepted, dry depth 1": 100, "accepted, dry depth 64": 100,
    **dict.fromkeys(["2 numbers, dry depth %d" % dry for dry in DRY_BEYOND], 2500),
    **dict.fromkeys(PAIRS, 50), **dict.fromkeys([pair + ", one cell" for pair in PAIRS], 200),
    "with an inflow, accepted": 10, **{"with an inflow, " + check: 4 * share for check, share in CHECKS.items()},
    "accepted, inflow onto dry ground": 200, "accepted, inflow without a speed": 250,
    "accepted, slow inflow": 50, "accepted, inflow faster than its waves": 100,
    "2 numbers, Q beyond its list": 500, "2 numbers, Q at a wall": 1500, "2 numbers, Q at an open end": 1500,
    "8 stage one, more comes in than 32 bits hold": 500,
}


# ---- Faces in whole numbers

def faces(seed, count):
    """hard.py's faces, some of one depth on both sides or at rest too, and some with a number that only 64 bits hold."""
    rnd = random.Random(seed)
    for sides in map(list, hard.faces(seed, count)):
        if rnd.randrange(10) == 0:
            sides[2] = sides[0]
            sides[1], sides[3] = rnd.choice(((0, 0), (0, sides[3]), (sides[1], 0), (sides[1], sides[3])))
        if rnd.randrange(25) == 0:
            k = rnd.randrange(4)
            sides[k] = rnd.choice((sides[k] + (1 << 32), sides[k] - (1 << 32), (1 << 63) - 1, -(1 << 63)))
        yield sides


def level_way(hl, ul, hr, ur):
    """Of two sides of one depth, whether they move: such sides share a root, and those at rest need no division."""
    return "one depth, " + ("a speed on both sides" if ul and ur else "a speed on one side" if ul or ur else "at rest")


def face_due(sides):
    flux, way = m.face(*sides), hard.branch(*sides).split(", with a speed")[0]
    also = [level_way(*sides)] if sides[0] == sides[2] > 0 else []
    return Due(1, way, MARK * 32) if flux is None else Due(0, way, table("q", flux), also)


FACE_WAYS = dict.fromkeys(
    ["refused", "both dry"]
    + [dry + way for dry in ("", "left dry, ", "right dry, ") for way in ("left side alone", "right side alone", "middle")]
    + ["one depth, " + way for way in ("at rest", "a speed on one side", "a speed on both sides")],
    100)


# ---- Faces in double precision

def doubles(seed, count):
    return double_faces.drawn(random.Random(seed).getrandbits(64) | 1, count)


def double_due(sides):
    double_faces.ways.clear()
    flux = double_faces.face(*sides)
    way = list(double_faces.ways)[-1]   # the way out is noted last
    if flux in ("dry", "refused"):
        return Due(1 if flux == "dry" else 2, way, MARK * 32)
    return Due(0, way, table("d", flux))


DOUBLE_WAYS = dict.fromkeys(
    ["dry"] + ["refused: %s %s" % why for why in itertools.product(("depth", "speed"), ("NaN", "out of range"))]
    + ["%s: %s" % way for way in itertools.product(("wet", "left dry", "right dry"), ("sL >= 0", "sR <= 0", "both sides"))],
    200)


# ---- Roots, of doubles given by their bits

def root_calls(seed, count):
    """Any bits, any length of a subnormal, squares and their neighbours, and the edges."""
    rnd = random.Random(seed)
    for _ in range(count):
        x = rnd.getrandbits(64)
        yield rnd.choice((x, x >> 1, roots.subnormal(x % 52, x), roots.square(x) + rnd.randint(-1, 1),
                          rnd.choice(roots.EDGES)))


def root_due(b):
    root = roots.root(b)
    if root == 1:       # roots.py's sign of a refusal; these bits are nothing's root
        return Due(1, "refused", MARK * 8)
    return Due(0, "root of a subnormal" if 0 < b <= roots.FRACTION else "root", table("Q", [root]))


ROOT_WAYS = {"root": 4, "root of a subnormal": 20, "refused": 20}


# ---- Comparing

KINDS = (
    Kind("face", faces, lambda sides: table("q", sides), face_due, FACE_WAYS),
    Kind("step", steps, step_asked, step_due, STEP_WAYS),
    Kind("double", doubles, lambda sides: table("d", sides), double_due, DOUBLE_WAYS),
    Kind("root", root_calls, lambda b: table("Q", [b]), root_due, ROOT_WAYS),
)

cases = []              # of each, whether it passed


def case(good, text):
    cases.append(good)
    print("%s  %s" % ("passed" if good else "FAILED", text), flush=True)


def blocks(calls):
    calls = iter(calls)
    while block := list(itertools.islice(calls, BLOCK)):
        yield block


def differing(due, given):
    """The index and the answer of each call whose answer or tables are not what is due."""
    at = 0
    for k, d in enumerate(due):
        wanted = table("I", [d.answer]) + d.tables
        found = given[at:at + len(wanted)]
        at += len(wanted)
        if found != wanted:
            yield k, found
    if at < len(given):
        yield len(due) - 1, given[at:]


def show(kind, edge, number, call, due, found):
    answer = struct.unpack("<I", found[:4])[0] if len(found) >= 4 else "none"
    right = len(os.path.commonprefix([found[4:], due.tables]))
    print("wrong: %s %d, tables at the %s: answer %d due, %s given; of the %d bytes it may write the first %d are right; "
          "asked %s" % (kind.name, number, edge, due.answer, answer, len(due.tables), right, str(call)[:400]))


def served(name, edge, asked, command):
    """serve, run to its end on calls of one kind."""
    return subprocess.run(command + [name, edge], input=b"".join(asked), stdout=subprocess.PIPE)


def wrong_calls(kind, edge, first, block, due, command):
    """How many calls of the block were answered wrongly; a serve that fails is one more."""
    ran = served(kind.name, edge, map(kind.asked, block), command)
    wrong = list(differing(due, ran.stdout))
    for k, found in wrong[:SHOWN]:
        show(kind, edge, first + k, block[k], due[k], found)
    if ran.returncode != 0:
        print("wrong: %s ended with %d in calls %d to %d" % (kind.name, ran.returncode, first, first + len(block) - 1))
    return len(wrong) + (ran.returncode != 0)


def compare(kind, seed, count, command):
    first, answers, ways, wrong = 0, Counter(), Counter(), Counter()
    for block in blocks(kind.calls(seed, count)):
        due = [kind.due(call) for call in block]
        answers.update(d.answer for d in due)
        ways.update(way for d in due for way in (d.way, *d.also))
        for edge in EDGES:
            wrong[edge] += wrong_calls(kind, edge, first, block, due, command)
        first += len(block)
    spread = ", ".join("%d: %d" % pair for pair in sorted(answers.items()))
    for edge in EDGES:
        case(first == count and wrong[edge] == 0, "%s, tables at the %s: %d calls, %d wrong; answers %s"
             % (kind.name, edge, first, wrong[edge], spread))
    for way, share in kind.ways.items():
        least = max(1, count // share)
        case(ways[way] >= least, "%s, %s: %d calls, at least %d wanted" % (kind.name, way, ways[way], least))


def words(usage):
    """The numbers before the dashes and the command after them, as many numbers as the usage has words for."""
    try:
        dash = sys.argv.index("--")
        numbers, command = list(map(int, sys.argv[1:dash])), sys.argv[dash + 1:]
        if command and len(numbers) == usage.split().index("--") - 1:
            return numbers, command
    except ValueError:
        pass
    sys.exit("usage: " + usage)


def sum_up():
    print("%d passed, %d failed" % (sum(cases), len(cases) - sum(cases)))
    sys.exit(not all(cases))


def main():
    (seed, *counts), command = words("compare.py SEED FACES STEPS DOUBLES ROOTS -- COMMAND...")
    for kind, count in zip(KINDS, counts):
        compare(kind, seed, count, command)
    sum_up()


if __name__ == "__main__":
    main()
