#!/usr/bin/env bash
# Holds the released libraries for C to what is built here, byte by byte. Run it behind `rt ci`, which proves their crate and builds no archive of
# it. It ends with 1 only where bytes differ; what can't be built here, or was compiled by other tools, is left out, and it says so.
# Usage: .ci/libraries.sh [ARCHIVE], of an archive of the proved calls, else it is built
set -u
cd "$(dirname "$0")/.." || exit 1
work=$(mktemp -d) || exit 0
trap 'rm -rf "$work"' EXIT
leave() { echo "note: $*" && exit 0; }
differs() { echo "$1 is not what was built here: run bench/release.sh" && exit 1; }

for tool in "${CC:-cc}" make ar; do
    command -v "$tool" >/dev/null || leave "the libraries for C are not compared: $tool is not here"
done
calls=${1:-crates/q_c_library/out/libq_c_library.a}
if [ $# -eq 0 ]; then
    bench/calls.sh >"$work/said" 2>&1 || leave "the libraries for C are not compared: the proved calls are not built here ($(tail -n 1 "$work/said"))"
fi
[ -f "$calls" ] || leave "the libraries for C are not compared: the proved calls are not built here"
bench/libraries.sh "$calls" "$work/built" >"$work/said" 2>&1 || leave "the libraries for C are not compared: they are not built here ($(tail -n 1 "$work/said"))"

# the proved calls are the same whatever compiles C
archive=libceldrinn-x86_64-linux.a
calls_of() { ar p "$1/$archive" q_c_library.o 2>/dev/null | sha256sum; }
[ "$(calls_of dist)" = "$(calls_of "$work/built")" ] || differs "dist/$archive"
if ! cmp -s dist/TOOLS "$work/built/TOOLS"; then
    leave "what C compiles to is not compared: dist/ has it by $(cat dist/TOOLS 2>/dev/null), and here is $(cat "$work/built/TOOLS")"
fi
for file in "$archive" libceldrinn-x86_64-linux.so.1; do
    cmp -s "dist/$file" "$work/built/$file" || differs "dist/$file"
done
