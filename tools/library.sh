# shellcheck shell=bash disable=SC2154 # `me`, `usage` and `called_from` are the script's
# How a program in C is built over the library and run. Sourced, by scripts that have gone to the root of the repository and have set `me`,
# the name that they speak under.
#
#     at_most_numbers N WORD..    where the words are something else than that many numbers, or a number has over 18 digits, says `usage`, exit 2;
#                                 `help` says it too, exit 0
#     find_tools                  the compiler for x86-64 and, on another processor, the emulator; or says what to install, exit 2
#     find_library                the library, built where it is not there or is older than crates/; exit 1 where it cannot be
#     find_kit                    the Rattle toolchain: `kit`, and `kit_clang`, its clang; or says what to install, exit 2
#     build_program               the program replay, proved and built, as target/bin/replay
#     compile PROGRAM FILE..      with warnings as errors, linked with the library; the header stands in include/
#     try_header                  as C++, where a compiler for it is there
#     start PROGRAM WORD..        runs it
#
# TEWENNOS_LIBRARY=PATH, an object or an archive for x86-64 with the functions of include/tewennos.h, stands in for the library: then
# nothing is built, and the Rattle toolchain is not needed. A path that is not absolute is taken from the folder that the script is called
# from, which it has in `called_from`. What tools/progress.sh has comes with this file.

. tools/progress.sh

if [ -n "${TEWENNOS_LIBRARY:-}" ]; then
    case $TEWENNOS_LIBRARY in
    /*) ;;
    *) TEWENNOS_LIBRARY=$called_from/$TEWENNOS_LIBRARY ;;
    esac
fi

stop() {
    echo "$me: $1" >&2
    exit "${2:-1}"
}

need() { # COMMAND PACKAGE
    command -v "$1" >/dev/null 2>&1 ||
        stop "the command '$1' is missing; install it (on Debian: apt-get install $2) and run this again" 2
}

at_most_numbers() { # N WORD..
    local word
    case "${2:-}" in help | --help | -h) echo "$usage" && exit ;; esac
    for word in "${@:2}"; do
        case $word in *[!0-9]* | '' | ???????????????????*) echo "$me: '$word' is no number of 1 to 18 digits"$'\n'"$usage" >&2 && exit 2 ;; esac
    done
    if [ $# -gt $(($1 + 1)) ]; then echo "$usage" >&2 && exit 2; fi
}

find_tools() {
    emulator=()
    if [ "$(uname -m)" = x86_64 ]; then
        need gcc "gcc libc6-dev"
        compiler=(gcc -no-pie)
    else
        # Linked as one piece, so that the emulator needs no libraries of the other processor.
        need x86_64-linux-gnu-gcc "gcc-x86-64-linux-gnu libc6-dev-amd64-cross"
        need qemu-x86_64 qemu-user
        compiler=(x86_64-linux-gnu-gcc -static)
        emulator=(qemu-x86_64)
    fi
}

need_rt() {
    command -v rt >/dev/null 2>&1 ||
        stop "the command 'rt' is not on the PATH; install the Rattle toolchain (README.md, \"Try it\") and run this again" 2
}

find_kit() {
    need_rt
    kit=$(dirname "$(rt doc)")
    kit_clang=$kit/toolchain/bin/clang
    [ -x "$kit_clang" ] || stop "the Rattle toolchain at $kit has no clang for this machine at $kit_clang: get one that has" 2
}

# What was built is there, and nothing of what it is made from is newer.
is_current() { is_newer "$library"; }
is_newer() { [ -f "$1" ] && [ -z "$(find crates crates.txt -regex 'crates/[^/]*/out' -prune -o -newer "$1" -print -quit)" ]; }

# The archive of tewennos_c under the name that C's users know.
build_library() {
    (cd crates/tewennos_c && "${rt[@]}" lib) && mkdir -p target/staticlib &&
        cp crates/tewennos_c/out/libtewennos_c.a target/staticlib/libtewennos.a
}
rt=(rt)

# Proved, built, and tested: on the calls of its stdin it writes what its stdout has.
build_program() {
    mkdir -p target/bin target/log
    (cd crates/replay && rt run <stdin >../../target/log/replay.stdout) && cmp target/log/replay.stdout crates/replay/stdout &&
        cp crates/replay/out/replay target/bin/replay.$$ && mv target/bin/replay.$$ target/bin/replay
}

find_library() {
    library=${TEWENNOS_LIBRARY:-target/staticlib/libtewennos.a}
    if [ -n "${TEWENNOS_LIBRARY:-}" ]; then
        [ -f "$library" ] || stop "TEWENNOS_LIBRARY names $library, and there is no such file" 2
        return
    fi
    if is_current; then return; fi
    need_rt
    prove target/log/library.out tewennos_c build_library || stop "the library is not proved, or not built: see above"
    [ -f "$library" ] || stop "'rt lib' in crates/tewennos_c ended well and left no $library: target/log/library.out has what it said"
    # One that was current for rt keeps its old date.
    touch "$library"
}

compile() { # PROGRAM FILE..
    local program=$1
    shift
    mkdir -p "$(dirname "$program")"
    "${compiler[@]}" -std=c11 -O2 -Wall -Wextra -Wpedantic -Wconversion -Wshadow -Werror -Iinclude -o "$program" "$@" "$library" ||
        stop "$program does not build: the compiler says why above" 1
}

try_header() {
    if command -v g++ >/dev/null 2>&1; then
        g++ -std=c++11 -Wall -Wextra -Wpedantic -Wconversion -Wshadow -Werror -fsyntax-only -x c++ include/tewennos.h ||
            stop "include/tewennos.h is not good C++: the compiler says why above"
    else
        echo "$me: there is no g++, so that the header is good C++ as well was not tried" >&2
    fi
}

start() { # PROGRAM WORD..
    "${emulator[@]}" "$@"
}
