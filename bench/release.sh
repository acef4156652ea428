#!/bin/sh
# Remakes dist/: the program, the one that plays the rows and the libraries for C, proved and built from the sources as they are, and
# beside them the sources' hash, and a line on the tools that compiled C.
#
# Usage: bench/release.sh; wants Rattle's kit and a C compiler
[ $# -eq 0 ] || { sed -n '2,5s/^# \{0,1\}//p' "$0" && exit 64; }
set -u
cd "$(dirname "$0")/.." || exit 1

is_built() {
    [ -x "$1" ] &&
        [ -z "$(find crates.txt crates/*/src crates/*/specs crates/*/proofs -newer "$1" -print -quit 2>/dev/null)" ]
}

# Without words a program only says how it is used, or that a table is missing; nothing is built that is not proved.
release() {
    program=crates/$1/out/$1
    if ! is_built "$program"; then
        rm -f "$program"
        (cd "crates/$1" && rt run </dev/null)
        [ -x "$program" ] || exit 1
    fi
    mkdir -p dist
    cp "$program" "dist/$2-x86_64-linux" || exit 1
    chmod 755 "dist/$2-x86_64-linux"
}

# The archive of proved calls, and of it the libraries for C (bench/libraries.sh).
release_libraries() {
    calls=crates/q_c_library/out/libq_c_library.a
    is_built "$calls" || (cd crates/q_c_library && rt lib) || exit 1
    bench/libraries.sh "$calls" dist || exit 1
}

before=$(bench/sources.sh)
release q_main celdrinn
release q_tests rows
release_libraries
if [ "$(bench/sources.sh)" != "$before" ]; then
    echo "release: the sources changed meanwhile" >&2
    exit 1
fi
echo "$before" >dist/SOURCES
