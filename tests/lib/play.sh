#!/bin/sh
# Builds the library for C of the released archive, and plays what it promises: `ok NAME`, `wrong NAME: why` or `skipped: what is missing`.
# Usage: tests/lib/play.sh [NAME], where NAME is calls, symbols, memory, room, valgrind or python; all, if nothing is said
set -u
here=$(cd "$(dirname "$0")" && pwd)
top=$(cd "$here/../.." && pwd)
part=${1:-}
work=$(mktemp -d) || exit 1
trap 'rm -rf "$work"' EXIT
is_right=0
: "${CC:=cc}"
for tool in "$CC" make ar; do
    command -v "$tool" >/dev/null || { echo "skipped: $tool is not here" && exit 0; }
done
archive=${CELDRINN_ARCHIVE:-$top/dist/libceldrinn-x86_64-linux.a} # of the proved calls
[ -f "$archive" ] || { echo "skipped: dist/libceldrinn-x86_64-linux.a is not here" && exit 0; }

# Builds the library into a folder, and the test against it.
build() {
    make -s -C "$top/packaging/lib" ARCHIVE="$archive" OUT="$1" CC="$CC" CFLAGS="-O2 $2" all >"$work/built" 2>&1 || { echo "wrong the library is built: $(head -n 1 "$work/built")" && exit 1; }
    "$CC" -O1 -g -I "$top/packaging/lib" -I "$top/packaging" -o "$1/test" "$here/test.c" "$here/commands.c" -L "$1" -lceldrinn -lpthread -Wl,-rpath,"$1" || exit 1
}
is_asked() { [ -z "$part" ] || [ "$part" = "$1" ]; }
say() { # NAME, and why it is wrong
    if [ -z "$2" ]; then echo "ok $1"; else echo "wrong $1: $2" && is_right=1; fi
}

build "$work/lib" ''
if is_asked calls; then "$work/lib/test" || is_right=1; fi

if is_asked symbols && command -v nm >/dev/null; then
    nm -D --defined-only "$work/lib/libceldrinn.so.1" | sed -n 's/.* T \(.*\)@@CELDRINN_1$/\1/p' | sort >"$work/symbols"
    say "the shared object has the names of its list" "$(diff "$here/symbols" "$work/symbols" | sed -n 2p)"
fi

# Each piece of memory refused in turn: the call says so, or could do without.
if is_asked memory; then
    "$CC" -O1 -fPIC -shared -o "$work/refuse.so" "$here/refuse.c" || exit 1
    k=1 why='' noticed=0 done=0
    "$work/lib/test" once || why="the call ends with another status than 0 where nothing is refused"
    while [ $done -lt 10 ] && [ -z "$why" ]; do
        LD_PRELOAD=$work/refuse.so REFUSE=$k "$work/lib/test" once
        status=$?
        case $status in
            0) done=$((done + 1)) ;;
            6) noticed=$((noticed + 1)) && done=0 ;;
            *) why="piece $k refused ends with $status" ;;
        esac
        k=$((k + 1))
    done
    [ -n "$why" ] || [ $noticed -gt 100 ] || why="only $noticed refused pieces were noticed"
    say "each piece of memory is refused in turn" "$why"
fi

# Where the system gives little room for results a call is made again.
if is_asked room; then
    build "$work/short" -DCELDRINN_ROOM=4096
    "$work/short/test" small >"$work/said"
    say "little room for results" "$(grep -v '^ok' "$work/said" | head -n 1)"
fi

if is_asked valgrind; then
    if command -v valgrind >/dev/null; then
        valgrind -q --error-exitcode=99 --leak-check=full --errors-for-leak-kinds=definite "$work/lib/test" small >"$work/said" 2>"$work/errors"
        say "nothing is lost or read beyond its end" "$(sed -n 1p "$work/errors")"
    else
        echo "skipped: valgrind is not here"
    fi
fi

if is_asked python; then
    if command -v python3 >/dev/null; then
        CELDRINN_LIBRARY=$work/lib/libceldrinn.so.1 PYTHONDONTWRITEBYTECODE=1 PYTHONPATH=$top/packaging/python python3 "$top/tests/python/test.py" 60 || is_right=1
    else
        echo "skipped: python3 is not here"
    fi
fi
exit $is_right
