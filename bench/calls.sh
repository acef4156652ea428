#!/bin/sh
# Builds the archive of the proved calls for C, crates/q_c_library/out/libq_c_library.a, over libraries that are proved already.
#
# `rt check` and `rt lib` leave a stamp at each library that they build, and then `rt lib` is all. `rt ci` leaves none where none was: what it has
# just proved stands there, but `rt lib` would prove it all again. So then the compiler is called as `rt lib` calls it; it proves the crate
# itself anew. Where some stamps are missing or old nothing is built.
#
# Usage: bench/calls.sh; wants Rattle's kit
[ $# -eq 0 ] || { sed -n '2,8s/^# \{0,1\}//p' "$0" && exit 64; }
set -u
cd "$(dirname "$0")/../crates/q_c_library" || exit 1
rm -f out/libq_c_library.a

# The libraries that crates.txt names behind a crate.
named() { sed -n "s/^$1\( staticlib\)\{0,1\}: *//p" ../../crates.txt; }

# All below a crate of ours: each new name, and what that names, up to the end.
below=
more=$(named q_c_library)
while [ -n "$more" ]; do
    next=
    for name in $more; do
        [ -d "../$name" ] || continue
        case " $below " in *" $name "*) continue ;; esac
        below="$below $name"
        next="$next $(named "$name")"
    done
    more=${next# }
done

stop() { echo "calls: $*" >&2 && exit 1; }
all=0 stamps=0 old=
for name in $below; do
    all=$((all + 1))
    stamp=../$name/out/rlib/stamp
    [ -f "$stamp" ] || continue
    stamps=$((stamps + 1))
    [ -z "$(find ../../crates.txt "../$name/src" "../$name/specs" "../$name/proofs" -newer "$stamp" -print -quit 2>/dev/null)" ] || old=$name
done
if [ $stamps -gt 0 ]; then
    [ $stamps -eq $all ] || stop "$((all - stamps)) of the libraries below have no stamp"
    [ -z "$old" ] || stop "the library $old was built before its sources"
    rt lib
    exit
fi

kit=$(dirname "$(rt doc)")
set -- --crate-name q_c_library src/lib.rt --extern "std=$kit/rlibs/std.rlib" -L "dependency=$kit/rlibs"
for name in $(named q_c_library); do set -- "$@" --extern "$name=$PWD/../$name/out/rlib/$name.rlib"; done
for name in $below; do
    [ -d "../$name/out/rlib/$name.rlib" ] || stop "the library $name is not built here"
    set -- "$@" -L "dependency=$PWD/../$name/out/rlib"
done
mkdir -p out
"$kit/bin/rattle" build "$@" --antt-project "$kit/rattle/logic/antt-project.json" --logic-built "$kit/logic_built" --jobs 1 \
    --links q_c_library= --crate-type staticlib --toolchain "$kit/toolchain" --backend llvm -o out/libq_c_library.a
