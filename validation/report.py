"""Runs every case, puts its tables into docs/VALIDATION.md and its pictures into docs/pictures, and holds its key
figures to their bounds.

    report.py [--check] PROGRAM...     PROGRAM is how to run reach, an emulator's words first

With --check nothing is written; the page and each picture is a case, failed where it is not the one just made.
Each section is a case too, failed where it stops, and so is each bound in bounds.py, with --check and without.
Where one of these has failed, nothing is written.  The last line is 'N passed, M failed', and the exit status is 1
when one failed.
"""

import os
import re
import sys
from concurrent.futures import ProcessPoolExecutor
from functools import partial
from pathlib import Path

import bank
import basin
import bounds
import bump
import dam_break
import ditch
import dry_depth
import lake
import sill_dam_break
import sill_lake
import sill_slope
import slope
import standing_wave
import weir

DOCS = Path(__file__).resolve().parent.parent / "docs"
PAGE = DOCS / "VALIDATION.md"
SECTIONS = (dam_break, lake, bank, standing_wave, basin, bump, ditch, slope, dry_depth,
            sill_lake, sill_dam_break, weir, sill_slope)


def worked(command, k):
    """The tables, pictures and figures of section k, and a line where it stopped."""
    try:
        return (*SECTIONS[k].report(command), [])
    except SystemExit as stop:
        return {}, {}, {}, ["%s stopped: %s" % (SECTIONS[k].__name__, str(stop).strip())]


def made(command, workers=ProcessPoolExecutor):
    """Tables, pictures and figures of all sections, and a line for each that stopped; they are worked beside each other."""
    tables, pictures, figures, stopped = {}, {}, {}, []
    with workers(os.cpu_count()) as pool:
        for some_tables, some_pictures, some_figures, stop in pool.map(partial(worked, command), range(len(SECTIONS))):
            tables.update(some_tables)
            pictures.update(some_pictures)
            figures.update(some_figures)
            stopped += stop
    return tables, pictures, figures, stopped


def with_tables(page, tables):
    """The page with each table between its markers."""
    for name, text in tables.items():
        marked = re.compile("(<!-- table %s -->\n).*?(<!-- end -->)" % name, re.DOTALL)
        page, count = marked.subn(lambda m: m.group(1) + text + "\n" + m.group(2), page)
        if count != 1:
            raise SystemExit("report: %s has %d places for the table %s" % (PAGE.name, count, name))
    return page


def differing(contents):
    """The files that do not hold what they should."""
    return [path for path, text in contents.items()
            if not path.exists() or path.read_text(encoding="utf-8") != text]


def write(contents):
    for path, text in contents.items():
        print("written: %s" % path.relative_to(DOCS.parent))
        path.parent.mkdir(exist_ok=True)
        path.write_text(text, encoding="utf-8")


def main(words):
    check = words[:1] == ["--check"]
    tables, pictures, figures, stopped = made(words[1:] if check else words)
    for name, text in tables.items():
        print("%s\n\n%s\n" % (name, text))
    contents = {PAGE: with_tables(PAGE.read_text(encoding="utf-8"), tables)}
    contents.update((DOCS / "pictures" / name, text) for name, text in pictures.items())
    stale, bad = differing(contents), stopped + bounds.broken(figures, bounds.BOUNDS)
    cases = len(SECTIONS) + len(bounds.BOUNDS.keys() | figures.keys())
    if check:
        cases += len(contents)
        bad += ["differs: %s" % path.relative_to(DOCS.parent) for path in stale]
    elif not bad:
        write({path: contents[path] for path in stale})
    for line in bad:
        print(line)
    print("%d passed, %d failed" % (cases - len(bad), len(bad)))
    return 1 if bad else 0


if __name__ == "__main__":
    sys.exit(main(sys.argv[1:]))
