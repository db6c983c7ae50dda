"""The pages held to the tree: what they cite is there, and docs/RULES.md leaves out none of the rules.

- On README.md and the pages of docs/ each path from the root of the repository is there, and each single word that
  is set as code stands somewhere in the tree beside the pages.
- On docs/RULES.md, docs/PROMISES.md and docs/DECISIONS.md each short file name (Laws/Ends.antt, worked.rt)
  ends the path of some file, and a definition that stands with its file, as in "`a`, `b` in Reach.antt" or
  "`a` Reach.antt", is defined there.  On docs/RULES.md every name has to stand so, and a file without a folder
  is one of the rules'; elsewhere a short name may be that of several files, and one has to define it.
- Each label (S7, R14) of docs/RULES.md and docs/DECISIONS.md is an entry of the latter.
- Each name of C that README.md has, as BASSOONSUN_WALL or bassoonsun_step, is in the header.
- An edit that stands with its crate, as in "`a`, `b` crates/rules", is in that crate's must-fail. Every edit says in
  its first line what it tries, docs/PROMISES.md names it, and each text that it replaces stands in its file once.
- docs/RULES.md names every public definition of the files of WHOLE, the rules of both reaches and what else it takes
  whole. Its limits are those of Limits.antt, and its twelve rows of numbers those that Numbers.antt proves.
- The files that docs/PROMISES.md lists as to be believed are those whose first line says so, and those that the
  promises and the contracts speak of (spoken.py).

Not looked at: whether what a page says of a name is so; where a name stands that has no file or crate beside it, or
other words between; links from one page to another.  docs/LANDINGS.md is left out, as it speaks of files that have
gone. What waits as text, in the files of crates/ that end in .txt, is no part of the tree, and a word that stands nowhere
but in docs/ or tools/, which keep names that have gone, is none of its words.

Prints a line for each fact that does not hold; the last line is 'N passed, M failed', and the exit status is 1
when something failed.
"""

import functools
import os
import re
import sys

import spoken
from spoken import ROOT, there

RULES, PROMISES, DECISIONS = "docs/RULES.md", "docs/PROMISES.md", "docs/DECISIONS.md"
PAGES = ("README.md", RULES, PROMISES, DECISIONS, "docs/VALIDATION.md")
RULES_FILES = "crates/rules/specs/"
WHOLE = re.compile(r"crates/((sill_)?rules/specs/\w+|survey/specs/Turned|double/specs/(Face|Constants)|root/specs/Root)\.antt")
BELIEVED = "## What has to be believed"
PATTERNS = {"src/m.rt"}                             # of PROMISES.md, for any module m
TOOLCHAINS = {"nat_abs"}                            # stands in a row of names, but is the toolchain's
LOGGED = {"logic-built", "libraries-built"}         # stand in the toolchain's log
WAITING = re.compile(r"crates/.*\.txt$")            # unfinished work, which waits as text
FORMER = re.compile(r"(docs|tools)/")               # has names that have gone: patches, tables of what was renamed

PATH = re.compile(r"(?<![\w./-])(?:crates|docs|tests|examples|include|bench|validation)/[\w./-]*\w")
SHORT = re.compile(r"(?<![\w./-])(?:[\w-]+/)*\w+\.(?:antt|rt|py)\b")
LABEL = re.compile(r"\b[FSRBL]\d+\b")
NAME_OF_C = re.compile(r"\b(?:BASSOONSUN|bassoonsun)_\w+")
NAMES = r"(`[^`\s]+`(?:(?:, | and )`[^`\s]+`)*)"
CITED = re.compile(NAMES + r"(?:,| in)? ((?:[\w-]+/)*\w+\.antt)")
WORD = re.compile(r"`(\w[\w'-]*)`")
EDITS = re.compile(NAMES + r" (crates/\w+)(?![\w/])")
DEFINED = re.compile(r"^[ ]*(?:(?:abbrev|unfoldable|pub) )*(?:(?:record|data) (\S+)|(\S+) :)(?= |$)", re.M)
PUBLIC = re.compile(r"^(?:(?:abbrev|unfoldable) )?pub (?:record |data )?(?!mod )(\S+)", re.M)

passed = failed = 0


def case(holds, text):
    global passed, failed
    if holds:
        passed += 1
    else:
        failed += 1
        print("FAILED  %s" % text)


def cases(what, facts):
    """Each fact a case; and that there are some, so that nothing is passed over when a page is written otherwise."""
    print("%s: %d" % (what, len(facts)))
    case(facts, "%s: there are none" % what)
    for holds, text in facts:
        case(holds, text)


# ---- The tree

@functools.lru_cache(None)
def read(path):
    with open(os.path.join(ROOT, path), encoding="utf-8") as file:
        return file.read()


@functools.lru_cache(None)
def tree():
    found = []
    for folder, inner, files in os.walk(ROOT):
        inner[:] = [name for name in inner if name not in (".git", "target", "out", "__pycache__")]
        found += [os.path.relpath(os.path.join(folder, name), ROOT) for name in files]
    return [path for path in found if not WAITING.match(path)]


@functools.lru_cache(None)
def ending(short):
    return [path for path in tree() if ("/" + path).endswith("/" + short)]


@functools.lru_cache(None)
def defined(path):
    """The names that a file defines: definitions, fields, constructors, records and data."""
    return {a or b for a, b in DEFINED.findall(read(path))}


def public(path):
    return PUBLIC.findall(read(path))


# ---- What a page cites

def unique(found):
    return list(dict.fromkeys(found))


def paths(page):
    return [(there(path), "%s: %s is not there" % (page, path)) for path in unique(PATH.findall(read(page)))]


def shorts(page):
    files = [file for file in unique(SHORT.findall(read(page))) if not PATH.match(file) and file not in PATTERNS]
    return [(ending(file), "%s: no file is called %s" % (page, file)) for file in files]


def labels(page):
    entries = re.findall(r"^\*\*(%s)\. " % LABEL.pattern, read(DECISIONS), re.M)
    return [(label in entries, "%s: %s is no entry of %s" % (page, label, DECISIONS)) for label in unique(LABEL.findall(read(page)))]


def names_of_c():
    """The names that the header has to have."""
    header = set(NAME_OF_C.findall(read("include/bassoonsun.h")))
    return [(name in header, "README.md: the header has no %s" % name) for name in unique(NAME_OF_C.findall(read("README.md")))]


def parted(row):
    """The names of a row of them."""
    return re.findall(r"`([^`]+)`", row)


def cited(page):
    """Each name with the file that it stands with."""
    found = ((name, file) for row, file in CITED.findall(read(page)) for name in parted(row))
    return unique((name, file) for name, file in found if name not in TOOLCHAINS)


def meant(page, file):
    """The files that the page may mean."""
    if page == RULES and not file.startswith("crates/"):
        file = RULES_FILES + file
    return [file] if there(file) else ending(file)


def definitions(page):
    return [(any(name in defined(path) for path in meant(page, file)), "%s: %s is not defined in %s" % (page, name, file))
            for name, file in cited(page)]


@functools.lru_cache(None)
def words():
    """Every word of the tree but for its pages and what keeps former names, and every name of a file."""
    texts = [read(path) for path in tree() if not path.endswith((".md", ".svg")) and not FORMER.match(path)]
    return {word for text in texts for word in re.findall(r"\w[\w'-]*", text)} | {
        os.path.splitext(os.path.basename(path))[0] for path in tree()}


def stale(page):
    """Each word that is set as code; a name that has gone from the tree stands nowhere in it."""
    return [(word in words(), "%s: `%s` is no word of the tree" % (page, word))
            for word in unique(WORD.findall(read(page))) if word not in LOGGED]


def edits(page):
    found = unique((name, crate) for row, crate in EDITS.findall(read(page)) for name in parted(row))
    return [(there("%s/must-fail/%s.edit" % (crate, name)), "%s: %s has no edit %s" % (page, crate, name)) for name, crate in found]


def amiss(path):
    """The first text of an edit that does not stand in its file once, or none; its pairs are applied one after another."""
    texts, file, old = {}, None, None
    for line in read(path).splitlines():
        if line.startswith("file: "):
            file = path.split("must-fail/")[0] + line[6:]
            texts.setdefault(file, read(file))
        elif line.startswith("old: "):
            old = line[5:]
        elif line.startswith("new:"):
            if texts[file].count(old) != 1:
                return old
            texts[file] = texts[file].replace(old, line[4:].removeprefix(" "))
    return None


def told():
    """Every edit that must fail, with a first line of its own and named on the page of promises."""
    named = set(parted(read(PROMISES)))
    files = [path for path in sorted(tree()) if re.match(r"crates/\w+/must-fail/.*\.edit$", path)]
    return ([(not re.match(r"(file|old|new):|$", read(path)), "%s does not say in its first line what it tries" % path) for path in files]
            + [(os.path.basename(path)[:-5] in named, "%s: %s is not named" % (PROMISES, path)) for path in files]
            + [(not amiss(path), "%s: not once in its file: %s" % (path, amiss(path))) for path in files])


# ---- The page of rules is whole

def lonely():
    """Names on the page of rules that stand without a file."""
    return unique(parted(CITED.sub("", read(RULES))))


def whole():
    named = {(name, path) for name, file in cited(RULES) for path in meant(RULES, file)}
    files = [path for path in sorted(tree()) if WHOLE.fullmatch(path)]
    return [((name, path) in named, "%s: %s of %s is left out" % (RULES, name, path)) for path in files for name in public(path)]


def limits():
    """Each limit's number stands in a row with its name."""
    found = re.findall(r"^(\w+) = (?:pos )?(\d+)$", read(RULES_FILES + "Limits.antt"), re.M)
    shown = [(name, r"(?<![\d,])%s(?!,?\d)" % format(int(number), ",")) for name, number in found]
    rows = read(RULES).splitlines()
    return [(any("`%s`" % name in row and re.search(number, row) for row in rows), "%s: the number of %s is another" % (RULES, name))
            for name, number in shown]


def proved():
    """The rows of values that the one statement of Numbers.antt has."""
    stated = re.search(r"^pub numbers_on_either_side :(.*?)^unfolding", read(RULES_FILES + "Numbers.antt"), re.M | re.S)[1]
    return [[-int(size) if minus else int(size) for minus, size in re.findall(r"(neg_ℤ \()?pos (\d+)", line)]
            for line in stated.splitlines() if "pos" in line]


def numbers():
    rows = re.findall(r"^\| (\d+) \| .* \| ((?:-?\d+, )*-?\d+) \|$", read(RULES), re.M)
    page = {int(row): [int(value) for value in values.split(", ")] for row, values in rows}
    return [(page.get(row) == values, "%s: row %d of the numbers is another" % (RULES, row)) for row, values in enumerate(proved(), 1)]


# ---- What has to be believed

def listed():
    section = re.search(r"^%s$(.*?)(?=^## |\Z)" % re.escape(BELIEVED), read(PROMISES), re.M | re.S)
    return set(re.findall(r"[\w./-]+\.antt\b", section[1])) if section else set()


def marked():
    files = [path for path in tree() if re.match(r"crates/\w+/specs/.*\.antt$", path)]
    return {path for path in files if "To be believed" in read(path).split("\n", 1)[0]}


def believed():
    lists, marks, words = listed(), marked(), spoken.files()
    return ([(path in marks, "%s: the first line of %s does not say 'To be believed'" % (PROMISES, path)) for path in sorted(lists)]
            + [(path in words, "%s: no promise and no contract speaks of %s" % (PROMISES, path)) for path in sorted(lists)]
            + [(path in lists, "%s: %s says 'To be believed' and is not in the list" % (PROMISES, path)) for path in sorted(marks)]
            + [(path in lists, "%s: a promise or a contract speaks of %s" % (PROMISES, path)) for path in sorted(words)])


def main():
    for page in PAGES:
        cases("%s: files by their path" % page, paths(page))
        cases("%s: words set as code" % page, stale(page))
    for page in (RULES, PROMISES, DECISIONS):
        cases("%s: files by a short name" % page, shorts(page))
        cases("%s: definitions with their file" % page, definitions(page))
    for page in (RULES, DECISIONS):
        cases("%s: labels" % page, labels(page))
    cases("README.md: names of C", names_of_c())
    cases("%s: edits with their crate" % PROMISES, edits(PROMISES))
    cases("edits", told())
    case(not lonely(), "%s: without a file stand %s" % (RULES, ", ".join(lonely())))
    cases("%s: public definitions" % RULES, whole())
    cases("%s: limits" % RULES, limits())
    cases("%s: rows of numbers" % RULES, numbers())
    cases("%s: files to be believed" % PROMISES, believed())
    print("%d passed, %d failed" % (passed, failed))
    return 1 if failed else 0


if __name__ == "__main__":
    sys.exit(main())
