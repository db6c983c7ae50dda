"""What the promises and the contracts speak of: the files that define a word of theirs, directly or through another.

The statements are the public laws of the pages PAGES, with the heads of the modules that they stand in, and what the
public functions ensure. Of a law only what it states is followed, and of a definition all of it. A name is followed
where the file's `use` lines say, and through a file that hands it on; names of the toolchain are not, nor what the
source itself declares, its enums and records. A word that only sounds like an imported name is followed too, so the
answer may have a file too many.
"""

import functools
import os
import re

ROOT = os.path.join(os.path.dirname(os.path.abspath(__file__)), "..")
NAMES = ("Promises", "Sums", "Sill", "FromC", "SumsFromC", "SillFromC", "Changed", "Cases")
PROMISES = ["crates/promises/proofs/%s.antt" % name for name in NAMES]
CALLS = "crates/promises/specs/Cases.antt"           # a part of the page Cases: the calls that the checker works there
PAGES = PROMISES + ["crates/rules/specs/Numbers.antt", "crates/sill_rules/specs/Numbers.antt"]

USE = re.compile(r"^(?:ghost |unfoldable )?(?:pub )?use Rattle\.(\w+)\.((?:specs|proofs)\.[^\s{;]*[^\s{;.])(?:\.\{([^}]*)\}| as (\S+?))?;?$", re.M)
STARTS = re.compile(r"^ {0,4}(abbrev |unfoldable )?(pub )?(record |data )?([^\s(:]+) (?=.*:|$)")
HEAD = re.compile(r"^ *module _ .*?where$", re.M | re.S)
# a public function or method up to its body, and what a conversion says of its answer
FUNCTION = re.compile(r"^(?: {4})?pub (?:extern \"C\" )?fn .*?^(?: {4})?\{|^ {4}ghost from_gives = .*?;$", re.M | re.S)
WORD = re.compile(r"[^\s(){},;\[\]]+")
KEYWORDS = {"use", "module", "infixl", "infixr", "infix", "let", "in", "unfolding", "where", "→", "×", "⊎", "∷", "≡"}


@functools.lru_cache(None)
def read(path):
    with open(os.path.join(ROOT, path), encoding="utf-8") as file:
        return re.sub(r"--.*|//.*", "", file.read())


def there(path):
    return os.path.exists(os.path.join(ROOT, path))


@functools.lru_cache(None)
def imports(path):
    """What the file's `use` lines bring in: each name with its file and its name there, and each module's other name."""
    names, modules = {}, {}
    for crate, module, group, other in USE.findall(read(path)):
        file = "crates/%s/%s.antt" % (crate, module.replace(".", "/"))
        if not group:
            modules[other or module.rpartition(".")[2]] = file
        for entry in filter(None, (part.strip() for part in group.split(","))):
            name, _, alias = entry.partition(" as ")
            names[alias or name] = (file, name)
    return names, modules


@functools.lru_cache(None)
def definitions(path):
    """Each definition's name, with whether it is a public law and with the words that it speaks by."""
    found, name, inside, lines = {}, None, None, []
    for line in read(path).splitlines():
        start, indent = STARTS.match(line), len(line) - len(line.lstrip())
        if line.strip() and inside is not None and indent <= inside:
            inside = None
        if inside is None and start and start[4] not in KEYWORDS and (start[1] or start[2] or start[3] or " : " in line):
            name, lines = start[4], []
            inside = indent if start[3] else None # the fields or the cases of a record or a data type are its own
            found[name] = (bool(start[2]) and not (start[1] or start[3]), bool(start[1] or start[3]), lines)
        lines.append(line)
    return {name: (law, stated(name, lines, whole)) for name, (law, whole, lines) in found.items()}


def stated(name, lines, whole):
    """All of a definition; of a law what stands before its proof."""
    kept = []
    for line in lines:
        if not whole and kept and re.match(r"\s*(unfolding\b|%s\b)" % re.escape(name), line):
            break
        kept.append(line)
    return " ".join(kept)


def followed(path, text):
    """The definitions that the words of a text may mean in that file; of `x.field` those of x, and of `⊕` those of `◌⊕◌`."""
    names, modules = imports(path)
    for word in WORD.findall(text):
        first, *rest = word.split(".")
        if first in modules and rest:
            yield modules[first], rest[0]
            continue
        for name in {word, first, "◌%s◌" % word}:
            if name in names:
                yield names[name]
            elif path.endswith(".antt") and name in definitions(path):
                yield path, name


def whole(path, name):
    """What a definition speaks by; of a field or a case, what its record or data type does; of a name that the file only
    hands on, the name."""
    if name in definitions(path):
        return definitions(path)[name][1]
    if name in imports(path)[0]:
        return name
    return next((text for _, text in definitions(path).values() if re.search(r" %s :" % re.escape(name), text)), "")


def public_modules():
    """The source files of the library's crates whose functions can be called from outside."""
    for crate in sorted(os.listdir(os.path.join(ROOT, "crates"))):
        library = "crates/%s/src/lib.rt" % crate
        if there(library):
            yield library
            yield from ("crates/%s/src/%s.rt" % (crate, module) for module in re.findall(r"^pub mod (\w+);", read(library), re.M))


def contracts():
    """Each of those files, with what its public functions and conversions ensure."""
    for path in public_modules():
        yield path, " ".join(text.partition("ensures" if " fn " in text else "=")[2] for text in FUNCTION.findall(read(path)))


def files():
    """The files of what is spoken of, without the promises' own pages."""
    texts = list(contracts())
    for page in PAGES:
        texts += [(page, text) for law, text in definitions(page).values() if law]
        texts += [(page, head) for head in HEAD.findall(read(page))]
    seen, found = set(), [word for path, text in texts for word in followed(path, text)]
    while found:
        path, name = found.pop()
        if (path, name) not in seen and there(path):
            seen.add((path, name))
            found += followed(path, whole(path, name))
    return {path for path, _ in seen} - {*PROMISES, CALLS}


if __name__ == "__main__":
    print("\n".join(sorted(files())))
