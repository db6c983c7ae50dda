#!/usr/bin/env python3
"""Brings the definitions and lemmas of the crates to today's spelling: words in snake case.

usage: python3 tools/respell.py        at the top of the repository, once, after the toolchain's own scripts

Each row of tools/respelled.tsv has a name, its new spelling and, where only some files mean that name, those files.
A name that ends in _lem is a lemma that would else have the name of the function that it is about. Behind a dot in
proofs/ such a name is a step of a function's code, and keeps the plain spelling.
Pages are turned where a name stands between backticks; there the names that the toolchain's scripts respelled follow too.
"""
import os
import re

ROOT = os.path.dirname(os.path.dirname(os.path.realpath(__file__)))
TOKEN = re.compile(r"[^\s(){}.;,@\"«»`·]+")
QUOTED = re.compile(r"`[^`\n]*`")
DECLARED = re.compile(r"(?m)^ *(?:(?:unfoldable|abbrev|pub) )*(?:(?:data|record) )?([^\s(){}.;,@\"«»:]+)(?: [({].*)? :")


def rows():
    everywhere, somewhere = {}, {}
    with open(os.path.join(ROOT, "tools", "respelled.tsv"), encoding="utf-8") as table:
        for line in table:
            old, new, *files = line.rstrip("\n").split("\t")
            if files:
                for path in files[0].split():
                    somewhere.setdefault(path, {})[old] = new
            else:
                everywhere[old] = new
    return everywhere, somewhere


def snake(name):
    if name[:1].isupper():
        return name
    return re.sub(r"(?<=[a-z0-9])[A-Z]", lambda m: "_" + m[0].lower(), name.replace("-", "_"))


def declared():
    found = set()
    for folder, folders, files in os.walk(os.path.join(ROOT, "crates")):
        folders[:] = [it for it in folders if it != "out"]
        for name in files:
            if name.endswith(".antt"):
                with open(os.path.join(folder, name), encoding="utf-8") as f:
                    found.update(DECLARED.findall(f.read()))
    return found


def turned(text, names, steps):
    def spelled(match):
        name = match[0]
        new = names.get(name, name)
        behind = match.start() > 0 and text[match.start() - 1] == "."
        if new.endswith("_lem") and steps and behind:
            return name.replace("-", "_")
        return new

    return TOKEN.sub(spelled, text)


def main():
    everywhere, somewhere = rows()
    pages = []
    for folder, folders, files in os.walk(ROOT):
        folders[:] = [it for it in folders if it not in (".git", "out", "target", "tools")]
        for name in files:
            path = os.path.join(folder, name)
            short = os.path.relpath(path, ROOT)
            if not name.endswith((".antt", ".rt", ".edit", ".md")):
                continue
            with open(path, encoding="utf-8") as f:
                text = f.read()
            names = {**everywhere, **somewhere.get(short, {})}
            if name.endswith(".md"):
                pages.append(path)
                new = QUOTED.sub(lambda m: turned(m[0], names, False), text)
            else:
                new = turned(text, names, "/proofs/" in short or name.endswith(".edit"))
            if new != text:
                with open(path, "w", encoding="utf-8") as f:
                    f.write(new)
    spelled = declared()
    for path in pages:
        with open(path, encoding="utf-8") as f:
            text = f.read()
        follow = lambda m: snake(m[0]) if snake(m[0]) in spelled else m[0]
        new = QUOTED.sub(lambda m: TOKEN.sub(follow, m[0]), text)
        if new != text:
            with open(path, "w", encoding="utf-8") as f:
                f.write(new)


main()
