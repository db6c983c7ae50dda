"""The archive and the shared object as README says they are; and README's C program, linked with them where they are installed.

    installed.py COMPILER BINUTILS -- [EMULATOR...]

COMPILER stands for README's cc; BINUTILS is what stands before the names nm, readelf and size, and may be
empty; EMULATOR runs programs where one is needed.  `make install` is made into a directory of its own, and
README's program is compiled with the flags that pkg-config gives, once with the shared object and once with
the archive.  The last line is 'N passed, M failed'; the exit status is 1 when something failed.
"""

import os
import re
import shlex
import shutil
import sys
import tempfile

from compare import case, sum_up
from readme import ROOT, compiles, gives, indented, program, ran, section, shown, text_of

ARCHIVE = os.path.join(ROOT, "target", "libbassoonsun.a")
SECTION = section("The archive, and installing it")
HEADER = text_of("include", "bassoonsun.h")
VERSION = re.search(r'#define BASSOONSUN_VERSION "(.*)"', HEADER)[1]
SONAME = "libbassoonsun.so." + VERSION.rpartition(".")[0]
FUNCTIONS = set(re.findall(r"^uint32_t (bassoonsun_\w+)\(", HEADER, re.M))
FILES = ["include/bassoonsun.h", "lib/libbassoonsun.a", "lib/libbassoonsun.so", "lib/" + SONAME, "lib/pkgconfig/bassoonsun.pc"]


def told(*command):
    """What a command prints; the test ends where it fails."""
    done = ran(list(command))
    if done.returncode != 0:
        print(done.stdout + done.stderr)
        sys.exit("%s: exit status %d" % (" ".join(command), done.returncode))
    return done.stdout


# ---- What README says of the archive

def names(nm, kind):
    """The names of the archive that nm's option tells: those that it defines, or needs."""
    return {line.split()[0] for line in told(nm, "-P", kind, ARCHIVE).splitlines() if not line.endswith("]:")}


def archive_holds(binutils):
    nm, readelf, size = (binutils + name for name in ("nm", "readelf", "size"))
    needed = names(nm, "--undefined-only") - names(nm, "--defined-only")
    case(needed <= {"memcpy", "memset"}, "archive: it needs %s, and at most memcpy and memset" % ", ".join(sorted(needed)))
    sections = set(re.findall(r"^  \[ *\d+\] (\S+)", told(readelf, "-SW", ARCHIVE), re.M))
    case(".eh_frame" not in sections and ".text" in "".join(sections), "archive: no unwind data among its %d sections" % len(sections))
    text, data, bss = map(int, told(size, "-t", ARCHIVE).splitlines()[-1].split()[:3])
    said = int(re.search(r"take (\d+) KB", SECTION)[1])
    case(said == round(text / 1000), "archive: %d bytes of code and constants, %d KB in README" % (text, said))
    case(data == bss == 0, "archive: %d bytes of writable data" % (data + bss))


def shared_holds(binutils, path):
    readelf = binutils + "readelf"
    symbols = [line.split() for line in told(readelf, "-W", "--dyn-syms", path).splitlines()]
    shows = {words[7] for words in symbols if len(words) > 7 and words[6].isdigit()}      # UND: a name that it needs
    case(shows == FUNCTIONS, "shared object: it shows %s" % ", ".join(sorted(shows)))
    dynamic, segments = told(readelf, "-dW", path), told(readelf, "-lW", path)
    case("[%s]" % SONAME in dynamic and "TEXTREL" not in dynamic, "shared object: its name is %s, and its code is not moved" % SONAME)
    case(re.search(r"GNU_STACK.* RW ", segments) is not None, "shared object: no stack that runs code")


# ---- Installing, and a program that is linked with what is installed

def files_in(folder):
    return sorted(os.path.relpath(os.path.join(where, name), folder) for where, _, held in os.walk(folder) for name in held)


def make(*words):
    return told("make", "-s", "-C", ROOT, *words)


def flags_by_hand(path):
    """What pkg-config would say, where there is none: the variables put in, then Cflags and Libs."""
    with open(path, encoding="utf-8") as lines:
        text = lines.read()
    for name in re.findall(r"^(\w+)=", text, re.M):
        text = text.replace("${%s}" % name, re.search(r"^%s=(.*)$" % name, text, re.M)[1])
    return shlex.split(" ".join(re.findall(r"^(?:Cflags|Libs): (.*)$", text, re.M)))


def flags(folder):
    if shutil.which("pkg-config") is None:
        return flags_by_hand(os.path.join(folder, "bassoonsun.pc"))
    os.environ["PKG_CONFIG_PATH"] = folder
    case(told("pkg-config", "--modversion", "bassoonsun").strip() == VERSION, "installed: pkg-config finds version %s" % VERSION)
    return shlex.split(told("pkg-config", "--cflags", "--libs", "bassoonsun"))


def linked_holds(build, run, readelf, prefix, what, needs):
    """README's program, linked with what is installed, prints README's line; it needs the shared object, or does not."""
    wave, lib = os.path.join(prefix, "wave"), os.path.join(prefix, "lib")
    compiles([*build, "-o", wave], "installed, %s: the program is compiled" % what)
    gives(ran(run + [wave], env={**os.environ, "LD_LIBRARY_PATH": lib}).stdout, shown()[1], "installed, %s: what it prints" % what)
    case((SONAME in told(readelf, "-dW", wave)) == needs, "installed, %s: whether it needs %s" % (what, SONAME))


def staged_holds(stage):
    """As a packager installs: below DESTDIR, with a bassoonsun.pc that does not name it."""
    make("install", "DESTDIR=" + stage, "PREFIX=/usr")
    with open(os.path.join(stage, "usr", "lib", "pkgconfig", "bassoonsun.pc"), encoding="utf-8") as text:
        said = text.read()
    case(said.startswith("prefix=/usr\n") and stage not in said and files_in(stage) == ["usr/" + each for each in FILES],
         "installed in a DESTDIR")
    make("uninstall", "DESTDIR=" + stage, "PREFIX=/usr")
    case(files_in(stage) == [], "uninstalled: no file is left")


def install_holds(compiler, binutils, emulator, prefix):
    make("install", "PREFIX=" + prefix)
    gives(files_in(prefix), FILES, "installed: the header, the archive, the shared object and bassoonsun.pc")
    shared_holds(binutils, os.path.join(prefix, "lib", "libbassoonsun.so"))
    source = os.path.join(prefix, "wave.c")
    with open(source, "w", encoding="utf-8") as text:
        text.write(program())
    build = [compiler, source, *flags(os.path.join(prefix, "lib", "pkgconfig"))]
    linked_holds(build, emulator, binutils + "readelf", prefix, "shared", True)
    linked_holds(build + ["-static"], emulator, binutils + "readelf", prefix, "static", False)


def main():
    words, dash = sys.argv[1:], sys.argv.index("--") - 1 if "--" in sys.argv else -1
    if dash != 2:
        sys.exit("usage: installed.py COMPILER BINUTILS -- [EMULATOR...]")
    (compiler, binutils), emulator = words[:dash], words[dash + 1:]
    case({"make shared", "make install PREFIX=/usr/local"} <= set(indented(SECTION)) and VERSION in SECTION and SONAME in SECTION,
         "README: how to install, and version %s" % VERSION)
    archive_holds(binutils)
    with tempfile.TemporaryDirectory() as folder:
        install_holds(compiler, binutils, emulator, os.path.join(folder, "prefix"))
        staged_holds(os.path.join(folder, "stage"))
    sum_up()


if __name__ == "__main__":
    main()
