"""What README.md shows, against what the example, the C program that it prints and the library give.

    readme.py COMPILER PROGRAMS -- [EMULATOR...]

COMPILER stands for README's cc, PROGRAMS is the directory with the programs leat and serve, and EMULATOR
runs them where one is needed.  The example's output, the line of a refused step and the picture must be
README's byte for byte; the C program is taken out of README, compiled with the command shown there and
run; the numbers of the Rattle one are lent to the library through C.  Declarations that README shows
must stand in the header and in the crate.  The last line is 'N passed, M failed'; the exit status is 1
when something failed.
"""

import os
import re
import shlex
import subprocess
import sys
import tempfile

from compare import case, served, step_answer, step_asked, sum_up

ROOT = os.path.join(os.path.dirname(os.path.abspath(__file__)), "..", "..")


def text_of(*path):
    with open(os.path.join(ROOT, *path), encoding="utf-8") as text:
        return text.read()


def section(title):
    """README's section of that title, with the subtitle before it."""
    return re.search(r"^## %s\n(.*?)(?=^## |\Z)" % re.escape(title), text_of("README.md"), re.M | re.S)[1]


def fenced(text, language=""):
    """The blocks of a text between fences, of one language."""
    return re.findall(r"^```%s\n(.*?)^```$" % language, text, re.M | re.S)


def indented(text):
    """The lines of a text that are set in by four, outside of fences."""
    bare = re.sub(r"^```.*?^```$", "", text, flags=re.M | re.S)
    return re.findall(r"^    (\S.*)$", bare, re.M)


FROM_C = section("Calling it from C")


def program():
    """The C program of README."""
    return next(block for block in fenced(FROM_C, "c") if "int main" in block)


def shown():
    """The command that compiles it, and the line that it prints."""
    command, printed = indented(FROM_C)
    return command, printed + "\n"


def ran(command, **more):
    return subprocess.run(command, stdout=subprocess.PIPE, stderr=subprocess.PIPE, text=True, **more)


def compiles(command, what, **more):
    """A case: that a compiler takes what it is given, without a word."""
    built = ran(command, **more)
    print(built.stderr, end="")
    case(built.returncode == 0 and built.stderr == "", what)


def gives(found, due, what):
    """A case: that what was found is due."""
    if found != due:
        print("wrong: found  %r\nwrong: wanted %r" % (found[-400:], due[-400:]))
    case(found == due, what)


def example_holds(leat):
    """The example of README's first section."""
    text = section("Two commands")
    (drawn,), lines = fenced(text), indented(text)
    (refused,) = [line for line in lines if line.startswith("leat: ")]
    with tempfile.TemporaryDirectory() as folder:
        path = os.path.join(folder, "leat.svg")
        gives(ran(leat + [path]).stdout, drawn, "README: the example's output")
        with open(path, encoding="utf-8") as picture:
            gives(picture.read(), text_of("docs", "pictures", "leat.svg"), "README: the example's picture")
    gives(ran(leat + ["--dt", "500"]).stderr.split("\n")[0], refused, "README: what the example says of a refused step")
    answers = [line for line in lines if line.startswith("flat, ")]
    case(len(answers) == 2 and set(answers) <= set(text_of("crates", "answers", "stdout").splitlines()),
         "README: the lines of the program answers")


def program_holds(compiler, emulator):
    """README's C program, by README's command in a directory that has what the command names."""
    command, printed = shown()
    first, *words = shlex.split(command)
    with tempfile.TemporaryDirectory() as folder:
        for name in ("include", "target"):
            os.symlink(os.path.join(ROOT, name), os.path.join(folder, name))
        with open(os.path.join(folder, "wave.c"), "w", encoding="utf-8") as source:
            source.write(program())
        compiles([compiler if first == "cc" else first, *words], "README: %s" % command, cwd=folder)
        gives(ran(emulator + ["./" + words[-1]], cwd=folder).stdout, printed, "README: what the C program prints")


def table(snippet, name):
    """The table of that name in a Rattle snippet, written [a, b, c] or [a; n]."""
    values, _, times = re.search(r"let (?:mut )?%s = \[(.*?)\];" % name, snippet)[1].partition(";")
    return [int(re.match(r" *(-?\d+)", value)[1]) for value in values.split(",")] * int(times or 1)


def snippet_holds(serve):
    """The numbers of README's Rattle snippet, lent through C; its comments say what comes back."""
    snippet = next(block for block in fenced(section("Calling it from Rattle"), "rust") if "let state" in block)
    numbers = re.search(r"Given { dx: (\d+), dt: (\d+), jump: (\d+), dry: (\d+), left, right }", snippet).groups()
    ends = [re.search(r"let %s = step::End { kind: (\d+), q: (\d+) }" % end, snippet).groups() for end in ("left", "right")]
    *volumes, state = re.search(r"Ok\(Volumes { first: (\S+), last: (\S+) }\), next is (.*)", snippet).groups()
    call = (table(snippet, "state"), len(table(snippet, "next")), table(snippet, "bed"), table(snippet, "friction"),
            *map(int, numbers), *(int(kind) for kind, _ in ends), *(int(q) for _, q in ends))
    answer, _ = step_answer(call, served("step", "end", [step_asked(call)], serve).stdout)
    gives(answer, ("accepted", [int(number) for number in state.split()], *map(int, volumes)), "README: the Rattle snippet")


def plain(code):
    """Code without comments, and one blank for any number of them."""
    return re.sub(r"\s+", " ", re.sub(r"/\*.*?\*/|//[^\n]*", "", code, flags=re.S)).strip()


def declarations_hold():
    """Each declaration that README shows, in the header or in the crates."""
    declared, header = plain(fenced(FROM_C, "c")[1]).split(";")[:-1], plain(text_of("include", "bassoonsun.h"))
    case(len(declared) == 6 and all(each.strip() + ";" in header for each in declared),
         "README: declarations of the header")
    sources = (("step", "lib.rt"), ("reach", "lib.rt"), ("reach", "answer.rt"))
    code = "".join(plain(text_of("crates", crate, "src", file)) for crate, file in sources)
    items = plain(fenced(section("Calling it from Rattle"), "rust")[0])
    loose = [re.sub(r"[\s,]", "", each) for each in re.split(r" (?=pub (?:enum|struct|type|fn) )", items)]
    case(len(loose) == 7 and all(each in re.sub(r"[\s,]", "", code) for each in loose), "README: declarations of the crates")


def main():
    words, dash = sys.argv[1:], sys.argv.index("--") - 1 if "--" in sys.argv else -1
    if dash != 2:
        sys.exit("usage: readme.py COMPILER PROGRAMS -- [EMULATOR...]")
    (compiler, programs), emulator = words[:dash], words[dash + 1:]
    example_holds(emulator + [os.path.join(programs, "leat")])
    program_holds(compiler, emulator)
    snippet_holds(emulator + [os.path.join(programs, "serve")])
    declarations_hold()
    sum_up()


if __name__ == "__main__":
    main()
