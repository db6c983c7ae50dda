# Read by every script that builds a C program against the library and runs it.
# The library is x86-64 code. On another machine Debian's cross compiler links it and qemu runs it.
root=$(cd "$(dirname "${BASH_SOURCE[0]}")/.." && pwd)

if [ "$(uname -m)" = x86_64 ]; then
    compiler=cc compiler_cpp=g++ binutils='' emulator=()
    command -v cc >/dev/null 2>&1 || compiler=gcc
else
    compiler=x86_64-linux-gnu-gcc compiler_cpp=x86_64-linux-gnu-g++ binutils=x86_64-linux-gnu-
    emulator=(qemu-x86_64 -L /usr/x86_64-linux-gnu)
fi

# Sees to it that command $1 is there, from Debian's packages $2...
need() {
    command -v "$1" >/dev/null 2>&1 && return
    echo "$1 is missing; installing Debian's ${*:2}" >&2
    { apt-get update && apt-get install -y --no-install-recommends "${@:2}"; } >/dev/null ||
        { echo "install ${*:2} first" >&2; exit 2; }
}

# Sees to it that C programs can be built and run here.
need_c() {
    if [ "${#emulator[@]}" -eq 0 ]; then
        need "$compiler" gcc libc6-dev
    else
        need "$compiler" gcc-x86-64-linux-gnu libc6-dev-amd64-cross
        need "${emulator[0]}" qemu-user
    fi
}

# Sees to it that C++ programs can be built here, too.
need_cpp() {
    if [ "${#emulator[@]}" -eq 0 ]; then
        need "$compiler_cpp" g++
    else
        need "$compiler_cpp" g++-x86-64-linux-gnu
    fi
}

# Of what rt says, read from standard input, shows each crate that had to be proved, with its time. rt proves the
# last one, editor_c, in every build: it is shown where another was, or where $1 is not empty.
show_proved() {
    local line crate='' shown=$1 since=$SECONDS
    while IFS= read -r line; do
        case $line in
            "rt: chose --jobs "*" for "*) crate=${line##* } since=$SECONDS ;;
            "logic=proved "*)
                { [ "$crate" = editor_c ] && [ -z "$shown" ]; } || echo "$crate proved ($((SECONDS - since)) s)"
                shown=yes
                ;;
        esac
    done
}

# Builds target/libbassoonsun.a and shows on standard error what is proved for it; nothing, where nothing has changed.
# All that rt says is kept in target/staticlib.log, and is shown where it fails. What rt keeps of its proofs, in the
# folders out of the crates, is no source.
build_library() {
    local library=$root/target/libbassoonsun.a said=$root/target/staticlib.log exports=$root/crates/editor_c changed=''
    command -v rt >/dev/null 2>&1 || { echo "the Rattle toolchain's command rt is not on PATH" >&2; exit 2; }
    mkdir -p "$root/target"
    if [ ! -f "$library" ] ||
        [ -n "$(find "$root/crates.txt" "$root"/crates/*/* -name out -prune -o -newer "$library" -print -quit)" ]; then
        changed=yes
        echo "building target/libbassoonsun.a; what has changed is proved first (from nothing, some minutes)" >&2
    fi
    (cd "$exports" && rt lib) 2>&1 | tee "$said" | show_proved "$changed" >&2
    [ "${PIPESTATUS[0]}" -eq 0 ] || { cat "$said" >&2; echo "rt lib failed in crates/editor_c" >&2; exit 2; }
    cp "$exports/out/libeditor_c.a" "$library" || exit 2
}

# Makes target/libbassoonsun.so of the archive, under the name $1 by which programs will ask for it. It shows the header's
# functions and nothing else, and is not made at all where the code is not position independent or a name is missing.
build_shared() {
    need_c
    echo '{ global: bassoonsun_*; local: *; };' >"$root/target/exports.map" || exit 2
    "$compiler" -shared -nostartfiles -Wl,-soname,"$1" -Wl,--version-script="$root/target/exports.map" \
        -Wl,-z,text -Wl,-z,defs -Wl,-z,noexecstack \
        -Wl,--whole-archive "$root/target/libbassoonsun.a" -Wl,--no-whole-archive -o "$root/target/libbassoonsun.so" || exit 2
}

# Compiles the C file $1 and links it with the library, as $2; more arguments go to the compiler.
build_program() {
    need_c
    "$compiler" -std=c11 -O2 -Wall -Wextra -Werror -I "$root/include" "${@:3}" \
        "$1" "$root/target/libbassoonsun.a" -o "$2" -lm || exit 2
}

# Runs the program $1 with the arguments after it.
run_program() {
    "${emulator[@]}" "$@"
}
