"""Puts worse schemes in the library's place and says which bounds of bounds.py they break.

    worse.py COMPILER

The schemes are bench/plain.c, which gives the library's own numbers, with a mistake in each.  It is linked with reach.c
under the names of the library's calls, by this machine's own compiler.  Each scheme is a case: plain.c as it stands must
break no bound, each of the others at least one.  The last line is 'N passed, M failed'.
"""

import subprocess
import sys
from concurrent.futures import ThreadPoolExecutor
from pathlib import Path

import bank
import bounds
import reach
import report

ROOT = Path(__file__).resolve().parent.parent
PLACE = ROOT / "target" / "worse"
PUSH = "981 * E * dt / (819200 * dx),\n"
LIMIT = "if (marked(r, unfinished, i) && !spared(r, unfinished, i))\n            limit(r, unfinished, i, &c);"
VOLUME = "(one[i].F * r->dt / r->dx + two[i].F * r->dt / r->dx) / 2;"
SILL_BED = "greatest(r->bed[k == 0 ? 0 : k - 1], r->bed[k == r->n ? k - 1 : k]);"
SILL_FACE = "face(depth_over(&cells[k - 1], z), cells[k - 1].u, depth_over(&cells[k], z), cells[k].u);"
SILL_E = "(left->K - hl * hl) - (right->K - hr * hr);"

# Of each scheme its name, and what stands in plain.c with what is put in its place.
SCHEMES = (
    ("as it stands", []),
    ("stage one is handed out", [
        ("cells[i].e1 = (c->e1 + cells[i].e1) / 2;", "cells[i].e1 = half[i].e1;"),
        ("cells[i].q0 = (c->q0 + cells[i].q0) / 2;", "cells[i].q0 = half[i].q0;"),
        ("cells[i].q1 = (c->q1 + cells[i].q1) / 2;", "cells[i].q1 = half[i].q1;"),
        (VOLUME, "one[i].F * r->dt / r->dx + 0 * two[i].F;"),
        ("const Flux *two, Cell *cells)\n", "const Flux *two, const Cell *half, Cell *cells)\n"),
        ("join(r, cells, one, two, unfinished);", "join(r, cells, one, two, half, unfinished);")]),
    ("no cell has a slope", [(LIMIT, "c.e1 = c.q1 = 0;")]),
    ("every cell is limited", [("return llabs(left->e0 + left->e1 - (right->e0 - right->e1)) > r->jump;",
                                "return (void)r, (void)left, (void)right, true;")]),
    ("no cell is spared (before E2)", [("&& !spared(r, unfinished, i)", "")]),
    ("a time step of 99 %", [("bed, friction, dx, dt, jump,", "bed, friction, dx, (99 * dt + 50) / 100, jump,")]),
    ("pressure is cut at each face", [(PUSH, "981 * left->K * dt / (819200 * dx) - 981 * right->K * dt / (819200 * dx)"
                                             " - 981 * (E - left->K + right->K) * dt / (-819200 * dx),\n")]),
    ("the push is cut once more", [(PUSH, "981 * E / 819200 * dt / dx,\n")]),
    ("levels are halved in cells", [("cells[i].e0 = c->e0 + left - right;", "cells[i].e0 = (c->e0 + cells[i].e0) / 2;")]),
    ("friction is 3 % too strong", [("/ (390625 * h * cube_root(h));", "* 103 / 100 / (390625 * h * cube_root(h));")]),
    ("friction acts in both stages", [("    refusal = stage(r, half, two, unfinished, place);",
                                       "    rub(r, half);\n    refusal = stage(r, half, two, unfinished, place);")]),
    ("sills: the lower bed counts", [(SILL_BED, SILL_BED.replace("greatest", "least"))]),
    ("sills: the left bed counts", [(SILL_BED, "r->bed[k == 0 ? 0 : k - 1];")]),
    ("sills: a speed is that of the reconstructed depth", [
        (SILL_FACE, "face(depth_over(&cells[k - 1], z), speed(r, cells[k - 1].q, depth_over(&cells[k - 1], z)),"
                    " depth_over(&cells[k], z), speed(r, cells[k].q, depth_over(&cells[k], z)));")]),
    ("sills: no speed before an upright side", [
        (SILL_FACE, SILL_FACE.replace("cells[k - 1].u", "(z > r->bed[k - 1] ? 0 : cells[k - 1].u)")
                             .replace("cells[k].u", "(z > r->bed[k] ? 0 : cells[k].u)"))]),
    ("sills: E lacks the left square", [(SILL_E, SILL_E.replace(" - hl * hl", ""))]),
    ("sills: E lacks the right square", [(SILL_E, SILL_E.replace(" - hr * hr", ""))]),
    ("sills: E lacks both squares", [(SILL_E, "left->K - right->K;")]),
    ("sills: the cell's own depth is squared", [(SILL_E, SILL_E.replace("hl", "(c->e - r->bed[i])"))]),
    ("sills: nothing is carried along", [("(left->A - right->A) * dt / dx + 981 * E * dt / (819200 * dx);",
                                          "981 * E * dt / (819200 * dx);")]),
    ("sills: no friction", [("    sill_rub(&r, cells);\n", "")]),
    ("sills: a time step of 99 %", [("friction, dx, dt, 0, dry,", "friction, dx, (99 * dt + 50) / 100, 0, dry,")]),
)


def program_of(compiler, k, edits):
    """reach with this scheme; each text must stand in plain.c once."""
    text = (ROOT / "bench" / "plain.c").read_text(encoding="utf-8")
    for old, new in edits:
        if text.count(old) != 1:
            raise SystemExit("worse: %d places in plain.c for %r" % (text.count(old), old))
        text = text.replace(old, new)
    source, program = PLACE / ("%d.c" % k), PLACE / ("reach%d" % k)
    source.write_text(text, encoding="utf-8")
    names = ["-D", "plain_step=bassoonsun_step", "-D", "plain_sill_step=bassoonsun_sill_step"]
    subprocess.run([compiler, "-std=c11", "-O2", "-I", ROOT / "include", "-I", ROOT / "bench", *names,
                    ROOT / "validation" / "reach.c", source, "-o", program, "-lm"], check=True)
    return [str(program)]


def remembered(step):
    """The rule before E2 is not the library's and the same for all schemes; it is slow, so it is stepped once, and the
    sections are worked by threads, which share what it gave."""
    found = {}

    def answer(case, steps, every):
        key = reach.text_of(case), steps, every
        if key not in found:
            found[key] = step(case, steps, every)
        return found[key]
    return answer


def main(words):
    PLACE.mkdir(parents=True, exist_ok=True)
    bank.stepped_before_e2 = remembered(bank.stepped_before_e2)
    failed = 0
    for k, (name, edits) in enumerate(SCHEMES):
        _, _, figures, stopped = report.made(program_of(words[0], k, edits), ThreadPoolExecutor)
        broken = [line for line in bounds.broken(figures, bounds.BOUNDS) if not line.endswith("no figure")]
        print("%s: %d sections stopped, %d bounds broken in the others" % (name, len(stopped), len(broken)),
              *stopped, *broken, sep="\n    ", flush=True)
        failed += bool(edits) != bool(stopped + broken)
    print("%d passed, %d failed" % (len(SCHEMES) - failed, failed))
    return 1 if failed else 0


if __name__ == "__main__":
    sys.exit(main(sys.argv[1:]))
