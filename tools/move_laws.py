#!/usr/bin/env python3
"""Moves the theorems of the crates without functions from specs/ to proofs/, and follows them in every import.

    python3 tools/move_laws.py          at the top of the repository; it may be run again, on any later state

An edit of a definition must be refused because a theorem no longer holds. Where the theorem stands in specs/, the check says of those
that rest on it that they were not checked, in words that it also has for a text that it cannot read, and so the edit counts for nothing.
In proofs/ it counts.

Each file of PLAN moves whole, from specs/X.antt to proofs/X.antt, but for the names that are listed with it: definitions that contracts
or other definitions cite. Those stay in specs/X.antt. Names and statements stay as they are.
"""
import os
import re
import sys

# crate: module: what stays in specs/ (with the constructors of a `data` that stays). '*' is every other file in specs/Laws/.
PLAN = {
    "tables": {
        "Some": ["some", "lowest", "IsLowest"],
        "Scan": [],
        "Filling": ["FillSays"],
        "Cells": ["Cell", "as_list", "as_cell", "seen", "Holds", "columns_of", "table_of", "cell_in", "put_cell"],
    },
    "rules": {
        "Laws.Sizes": ["Sound", "Sized"],
        "Laws.Summing": ["Has"],
        "Laws.Blocks": ["Ended", "Cut"],
        "Laws.Agree": ["Same"],
        "Laws.Rest": ["NoInflow"],
        "Laws.Chain": ["Chain", "stop", "step"],
        "Laws.StateAndBed": ["StateFits"],
        "Laws.*": [],
    },
    "before": {"Laws.*": []},
    "survey": {"Laws.*": []},
    "sill_rules": {"Laws.*": []},
    "promises": {
        "Outcomes": ["Taken", "reach_at", "One", "AStep", "ShutStep"],
        "OtherEnd": [],
        "Promises": [],
        "Sums": [],
        "SillTables": ["reach_at", "One"],
        "Sill": [],
        "Changed": [],
        "FromC": [],
        "SumsFromC": [],
        "SillFromC": [],
        "Cases": ["uneven", "moved", "two_cells", "rising", "shore", "lake", "brimming", "flat", "seventeen", "two_sums", "tells"],
    },
}

# What a definition inside a `module _ (..) where` that stays in specs/ takes from outside that module: (crate, module): [(pattern, replacement)]
OUTSIDE = {
    ("tables", "Filling"): [(r"\bFillSays (?!d n p f\b)", "FillSays d n p f ")],
    ("rules", "Laws.Summing"): [(r"\bHas (?=true\b|false\b)", "Has p ")],
    ("tables", "Cells"): [(r"\bput_cell (?=t\b)", "put_cell n ")],
    ("promises", "Outcomes"): [(r"\b(AStep|ShutStep)(?= s t\b)", r"(\1 bed n dx)")],
}

# The first lines of a file of which only a part moves: (in specs/, in proofs/)
HEADS = {
    ("tables", "Some"): (
        "-- To be believed: `some`, `lowest` and `IsLowest`.\n-- Tests of every place below n: whether some place has a property, and the lowest that has.\n",
        "-- What tests of every place below n say: whether some place has a property, and the lowest that has.\n-- Assumes nothing.\n",
    ),
    ("tables", "Filling"): (
        "-- To be believed: `FillSays`.\n-- A loop that fills a table and stops at the lowest place with a property: what it says where it stops and where it ends.\n",
        "-- A loop that fills a table and stops at the lowest place with a property:\n-- what it has done so far, and that it says so where it stops and where it ends.\n-- Assumes nothing.\n",
    ),
    ("tables", "Cells"): (
        "-- To be believed: `Cell`, `as_list`, `as_cell`, `seen`, `columns_of`, `table_of`, `cell_in` and `put_cell`.\n-- Cells of four whole numbers: as the code holds them, and in lent tables, a column for each of the four.\n",
        "-- Cells of four whole numbers, as the code holds them and in lent tables: the one shows the other.\n-- Assumes nothing.\n",
    ),
    ("rules", "Laws.Sizes"): ("-- To be believed: `Sound` and `Sized`.\n-- Sides and faces within the limits.\n", None),
    ("rules", "Laws.Summing"): ("-- To be believed: `Has`.\n-- Places in a row that have a property.\n", None),
    ("rules", "Laws.Blocks"): ("-- To be believed: `Ended` and `Cut`.\n-- Which blocks lie whole between two faces, and which cells are in none of those.\n", None),
    ("rules", "Laws.Agree"): ("-- To be believed: `Same`.\n-- States that agree in the reach.\n", None),
    ("rules", "Laws.Rest"): ("-- To be believed: `NoInflow`.\n-- Calls that bring no water in.\n", None),
    ("rules", "Laws.Chain"): (
        "-- To be believed: `Chain`.\n-- Any number of calls one after another, of any reach. No reach is named here.\n",
        "-- Any number of calls one after another, of any reach: what holds of each of them, said of them all. No reach is named here.\n-- Assumes nothing.\n",
    ),
    ("rules", "Laws.StateAndBed"): ("-- To be believed: `StateFits`.\n-- The lengths of a state that passed the checks that need no call.\n", None),
    ("promises", "Outcomes"): (
        "-- What an accepted call is to the rules: its number, its volumes and its table, and the step that it makes.\n-- Assumes nothing.\n",
        None,
    ),
    ("promises", "SillTables"): ("-- What an accepted call over a stepped bed is to its rules: the step that it makes.\n-- Assumes nothing.\n", None),
    ("promises", "Cases"): (
        "-- Calls small enough for the checker to work them, and the state and the sums that are asked of; what each gives is in proofs/Cases.\n"
        "-- Assumes nothing.\n",
        None,
    ),
}


def read(path):
    with open(path, encoding="utf-8") as it:
        return it.read()


def write(path, text):
    os.makedirs(os.path.dirname(path) or ".", exist_ok=True)
    with open(path, "w", encoding="utf-8") as it:
        it.write(text)


def path_of(crate, part, module):
    return f"crates/{crate}/{part}/{module.replace('.', '/')}.antt"


def modules_of(crate):
    """Returns what PLAN says of each module of the crate, those of '*' by the files that are there."""
    plan = {it: stays for it, stays in PLAN[crate].items() if not it.endswith("*")}
    if "Laws.*" in PLAN[crate]:
        for part in ("specs", "proofs"):
            folder = f"crates/{crate}/{part}/Laws"
            for name in sorted(os.listdir(folder)) if os.path.isdir(folder) else []:
                if name.endswith(".antt"):
                    plan.setdefault(f"Laws.{name[:-5]}", [])
    return plan


# ---- a file's parts
DECLARED = re.compile(r"( *)((?:abbrev |unfoldable |pub |data |record )*)([^\s(){}]+)(?= )(?=.* : |.* where$| \()")
USE = re.compile(r"^use (\S+?)(?:\.\{([^}]*)\}| as (\S+))?$", re.M)


def names_in(lines, indent):
    """Returns the names that these lines declare at this indent."""
    names = []
    for line in lines:
        found = DECLARED.match(line)
        if found and len(found[1]) == indent and " = " not in line.split(" : ")[0]:
            names.append(found[3])
    return names


def items_of(lines, indent):
    """Splits lines into items, at blank lines: (names, lines), or for a `module .. where` (head, items)."""
    items, at = [], 0
    while at < len(lines):
        if not lines[at].strip():
            at += 1
            continue
        end = at
        while end < len(lines) and (lines[end].strip() == "" or end == at or lines[end].startswith(" " * (indent + 1)) or lines[end - 1].strip()):
            end += 1
        piece = lines[at:end]
        while not piece[-1].strip():
            piece.pop()
        module = next((k for k, it in enumerate(piece) if re.match(" " * indent + r"module .* where$", it)), None)
        if module is not None and all(it.strip().startswith("--") for it in piece[:module]):
            items.append((piece[: module + 1], items_of(piece[module + 1 :], indent + 2)))
        else:
            items.append((names_in(piece, indent), piece))
        at = end
    return items


def is_module(item):
    return bool(item[1]) and isinstance(item[1][0], tuple)


def parted(items, stays):
    """Returns the items that stay and those that move."""
    here, there = [], []
    for item in items:
        if is_module(item):
            a, b = parted(item[1], stays)
            here += [(item[0], a)] if a else []
            there += [(item[0], b)] if b else []
        elif any(it in stays for it in item[0]):
            if not all(it in stays for it in item[0]):
                sys.exit(f"one item declares {item[0]}, of which only some stay")
            here.append((item[0], opened(item[1])))
        else:
            there.append(item)
    return here, there


def text_of(items):
    out = []
    for item in items:
        if is_module(item):
            out.append("\n".join(item[0]) + "\n" + text_of(item[1]))
        else:
            out.append("\n".join(item[1]))
    return "\n\n".join(out)


def is_used(name, words, text):
    name = name.split(" as ")[-1].strip()
    return all(it in words or it in "[]" and it in text for it in name.split("◌") if it)


def opened(lines):
    """Returns a definition that stays with the words that let the other file cite it."""
    first = next(k for k, it in enumerate(lines) if not it.strip().startswith("--"))
    is_private = not re.search(r"\bpub\b", lines[first])
    out = [re.sub(r"^( *)(abbrev|unfoldable) (?!pub )", r"\1\2 pub ", it) if k == first else it for k, it in enumerate(lines)]
    if is_private and re.match(r" *record ", out[first]):
        out[first] = re.sub(r"^( *)record ", r"\1pub record ", out[first])
        out = out[: first + 1] + [re.sub(r"^( +)(?=\w+ : )", r"\1pub ", it) for it in out[first + 1 :]]
    return out


def imports_for(uses, text):
    """Returns those of the imports of which the text has a word."""
    bare = "\n".join(it for it in text.split("\n") if not it.strip().startswith("--"))
    words, lines = set(re.split(r"[\s(){},;.]+", bare)), []
    for path, names, alias in uses:
        if names is None:
            name = alias or path.rsplit(".", 1)[1]
            if f"{name}." in bare:
                lines.append(f"use {path} as {alias}" if alias else f"use {path}")
            continue
        kept = [it.strip() for it in names.split(",") if is_used(it.strip(), words, text)]
        if kept:
            lines.append(f"use {path}.{{{', '.join(kept)}{' ' * kept[-1].endswith('!')}}}")
    return lines


def split(crate, module, stays):
    """Moves the items of specs/ that are not to stay to a file of proofs/, and returns whether any was there."""
    old, new = path_of(crate, "specs", module), path_of(crate, "proofs", module)
    if not os.path.isfile(old):
        return
    text = read(old)
    if not stays:
        os.makedirs(os.path.dirname(new), exist_ok=True)
        if os.path.exists(new):
            sys.exit(f"both {old} and {new} are there: put what was added to the first into the second")
        write(new, text)
        os.remove(old)
        return
    uses = [(it[1], it[2], it[3]) for it in USE.finditer(text)]
    body = text[list(USE.finditer(text))[-1].end() :] if uses else text
    head = text[: USE.search(text).start()] if uses else ""
    here, there = parted(items_of(body.split("\n"), 0), stays)
    if not there:
        return
    if os.path.exists(new):
        sys.exit(f"both {old} and {new} have theorems: put what was added to the first into the second")
    heads = HEADS.get((crate, module), (None, None))
    for path, first, items, is_proof in ((old, heads[0], here, False), (new, heads[1], there, True)):
        part = text_of(items)
        if is_proof:
            for pattern, put in OUTSIDE.get((crate, module), []):
                part = "\n".join(it if it.strip().startswith("--") else re.sub(pattern, put, it) for it in part.split("\n"))
        lines = imports_for(uses, part)
        if is_proof:
            lines += imports_for([(f"Rattle.{crate}.specs.{module}", ", ".join(stays), None)], part)
        write(path, (first or head) + "\n".join(lines) + "\n\n" + part + "\n")


# ---- what declares them
def declare(crate, plan):
    """Brings Lib.antt and Laws.antt of both parts up to the files that are there."""
    laws = [it for it in plan if it.startswith("Laws.")]
    if laws:
        old, new = f"crates/{crate}/specs/Laws.antt", f"crates/{crate}/proofs/Laws.antt"
        if not os.path.exists(new):
            write(new, read(old))
        stay = [it for it in laws if os.path.exists(path_of(crate, "specs", it))]
        if stay:
            write(old, "-- What the laws speak of, where contracts and other definitions cite it.\n" + "".join(f"pub mod {it[5:]}\n" for it in stay))
        elif os.path.exists(old):
            os.remove(old)
    tops = ["Laws"] * bool(laws) + [it for it in plan if "." not in it]
    lib = f"crates/{crate}/specs/Lib.antt"
    lines = [it for it in read(lib).split("\n") if not (it.startswith("pub mod ") and it[8:] in tops and not os.path.exists(path_of(crate, "specs", it[8:])))]
    write(lib, "\n".join(lines))
    lib = f"crates/{crate}/proofs/Lib.antt"
    text = read(lib) if os.path.exists(lib) else "-- What follows from the definitions.\n"
    for it in tops:
        if f"pub mod {it}\n" not in text:
            text += f"pub mod {it}\n"
    write(lib, text)


# ---- what cites them
def followed(text, plans):
    """Returns the text with each import of what moved from its new place."""

    def one(found):
        lead, crate, module, tail = found[1], found[2], found[3], found[4]
        stays = plans.get(crate, {}).get(module)
        if stays is None:
            return found[0]
        there = f"Rattle.{crate}.proofs.{module}"
        if not tail.startswith(".{"):
            # (an alias of a whole module: of one of which only a part moved, its laws; what stayed has an alias of its own)
            if tail.rstrip(";").endswith("-words"):
                return found[0]
            return f"{lead}{there}{tail}"
        names = [it.strip() for it in re.match(r"\.\{([^}]*)\}", tail)[1].split(",")]
        rest = tail[tail.index("}") + 1 :]
        here = [it for it in names if it.split(" as ")[0].strip() in stays]
        gone = [it for it in names if it not in here]
        out = []
        if here:
            out.append(f"{lead}Rattle.{crate}.specs.{module}.{{{', '.join(here)}}}{rest}")
        if gone:
            out.append(f"{lead}{there}.{{{', '.join(gone)}}}{rest}")
        return "\n".join(out)

    return re.sub(r"^((?:old: |new: )?[ ]*(?:ghost |pub )*use )Rattle\.(\w+)\.specs\.([\w.]*\w)((?:\.\{[^}]*\})?(?: as \S+?)?;?)$", one, text, flags=re.M)


def by_alias(text, plans):
    """Returns the text with what stayed in specs/, where an alias of the whole module reached for it, under a second alias."""
    for found in list(re.finditer(r"^[ ]*((?:ghost |pub )*use )Rattle\.(\w+)\.proofs\.([\w.]*\w)(?: as (\S+?))?(;?)$", text, flags=re.M)):
        stays = plans.get(found[2], {}).get(found[3], [])
        alias = found[4] or found[3].rsplit(".", 1)[-1]
        reach = re.compile(rf"(?<![\w.-]){re.escape(alias)}\.(?=(?:{'|'.join(map(re.escape, stays)) or '(?!)'})(?![\w-]))")
        if reach.search(text):
            text = reach.sub(f"{alias}-words.", text)
            text = text.replace(found[0], f"{found[0]}\n{found[1]}Rattle.{found[2]}.specs.{found[3]} as {alias}-words{found[5]}", 1)
    return text


def follow_edit(crate, text):
    """Returns an edit with each `file:` line naming the part where its old texts stand."""
    out, lines = [], text.split("\n")
    for at, line in enumerate(lines):
        found = re.match(r"file: (specs|proofs)/(.*)\.antt$", line)
        old = next((it[5:] for it in lines[at + 1 :] if it.startswith("old: ")), None)
        if found and old:
            places = {it: f"crates/{crate}/{it}/{found[2]}.antt" for it in ("specs", "proofs")}
            has = [it for it, path in places.items() if os.path.isfile(path) and old in read(path)]
            there = [it for it, path in places.items() if os.path.isfile(path)]
            if len(has) == 1 or len(there) == 1:
                line = f"file: {(has if len(has) == 1 else there)[0]}/{found[2]}.antt"
        out.append(line)
    return "\n".join(out)


def follow_page(path, text, plans):
    """Returns a page with the new path of each file that moved whole, and says where it names one of which only a part moved."""

    def one(found):
        crate, module = found[1], found[2].replace("/", ".")
        if module == "Laws.":
            return f"crates/{crate}/proofs/Laws/" if crate in plans else found[0]
        module = module[: -len(".antt")] if module.endswith(".antt") else None
        stays = plans.get(crate, {}).get(module)
        if stays:
            line = text[: found.start()].count("\n") + 1
            print(f"{path}:{line}: {found[0]} keeps {', '.join(stays)}; the rest is in proofs/")
        return f"crates/{crate}/proofs/{found[2]}" if stays == [] else found[0]

    return re.sub(r"crates/(\w+)/specs/(Laws/(?!\w)|[\w/]+\.antt)", one, text)


def main():
    if not os.path.isfile("crates.txt"):
        sys.exit("run this at the top of the repository")
    for crate in PLAN:
        if not os.path.isdir(f"crates/{crate}"):
            continue
        plan = modules_of(crate)
        for module, stays in plan.items():
            split(crate, module, stays)
        declare(crate, plan)
    plans = {crate: modules_of(crate) for crate in PLAN if os.path.isdir(f"crates/{crate}")}
    changed = 0
    for at, folders, files in os.walk("crates"):
        folders[:] = sorted(it for it in folders if it != "out")
        for name in sorted(files):
            if not name.endswith((".antt", ".rt", ".edit", ".antt.txt")):
                continue
            path = f"{at}/{name}"
            text = read(path)
            new = by_alias(followed(text, plans), plans)
            if name.endswith(".edit"):
                new = follow_edit(at.split("/")[1], new)
            if new != text:
                write(path, new)
                changed += 1
    for folder in sorted(it for it in (os.listdir("tests/harmless") if os.path.isdir("tests/harmless") else []) if os.path.isdir(f"tests/harmless/{it}")):
        for name in sorted(os.listdir(f"tests/harmless/{folder}")):
            path = f"tests/harmless/{folder}/{name}"
            text = read(path)
            new = follow_edit(folder, followed(text, plans))
            if new != text:
                write(path, new)
                changed += 1
    pages = ["README.md", *(f"docs/{it}" for it in sorted(os.listdir("docs")) if it.endswith(".md") and it not in ("LANDINGS.md", "PORT.md"))]
    for path in pages:
        text = read(path)
        new = follow_page(path, text, plans)
        if new != text:
            write(path, new)
            changed += 1
    print(f"{changed} files follow")


main()
