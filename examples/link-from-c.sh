#!/bin/sh
# Compiles linked.c with the library that a release has, and simplifies a formula and checks its log by it, all in memory.
# CELDRINN_LIBRARY names the folder of libceldrinn.a and celdrinn.h where they are not installed.
# Usage: examples/link-from-c.sh [IN]
set -u
here=$(cd "$(dirname "$0")" && pwd)
. "$here/common.sh"
take "${1:-$here/random.qdimacs}" && in=$file
cc=
for name in cc gcc clang; do
    has $name && cc=$name && break
done
[ -n "$cc" ] || skip "a C compiler" gcc

# In a checkout the library is in dist/, where it is installed in lib/ beside include/.
library='' header=''
for folder in "${CELDRINN_LIBRARY:-}" "$here/../dist" "$here/../../../../lib" /usr/local/lib /usr/lib; do
    for archive in "$folder/libceldrinn.a" "$folder/libceldrinn-x86_64-linux.a"; do
        [ -n "$library" ] || { [ -f "$archive" ] && library=$archive; }
    done
done
for folder in "${CELDRINN_LIBRARY:-}" "$here/../packaging" "$here/../../../../include" /usr/local/include /usr/include; do
    [ -n "$header" ] || { [ -f "$folder/celdrinn.h" ] && header=$folder; }
done
if [ -z "$library" ] || [ -z "$header" ]; then
    echo "skipped: libceldrinn.a and celdrinn.h are not installed"
    exit 0
fi

"$cc" -O2 -I "$header" -o "$work/linked" "$here/linked.c" "$library" || exit 1
"$work/linked" <"$in" >"$work/out" 2>"$work/lines"
status=$?
cat "$work/lines"

# The program makes the same formula of it.
"$celdrinn" simplify "$in" "$work/same" "$work/log" >"$work/line"
if [ $status -eq $? ] && cmp -s "$work/out" "$work/same"; then
    echo "ok: the library and the program made the same formula"
else
    echo "wrong: the library and the program made different formulas"
    exit 1
fi
