#!/bin/sh
# Makes the libraries for C in a folder, of an archive of the proved calls as `rt lib` makes it:
#   libceldrinn-x86_64-linux.a       these calls, and what gives them memory from malloc
#   libceldrinn-x86_64-linux.so.1    the shared library of packaging/lib over them
#   TOOLS                            one line on what compiled and linked them; the same tools make the same bytes
#
# Usage: bench/libraries.sh ARCHIVE FOLDER; wants a C compiler, ar and make
[ $# -eq 2 ] || { sed -n '2,7s/^# \{0,1\}//p' "$0" && exit 64; }
set -u
calls=$(realpath "$1") && mkdir -p "$2" && to=$(cd "$2" && pwd) || exit 1
cd "$(dirname "$0")/.." || exit 1
: "${CC:=cc}"
work=$(mktemp -d) || exit 1
trap 'rm -rf "$work"' EXIT

archive=$to/libceldrinn-x86_64-linux.a
"$CC" -O2 -fPIC -c -o "$work/celdrinn_memory.o" packaging/celdrinn_memory.c &&
    cp "$calls" "$archive" && chmod 644 "$archive" && ar rDs "$archive" "$work/celdrinn_memory.o" || exit 1

# what a caller of this script has set is not to change the bytes
make -s -C packaging/lib ARCHIVE="$archive" OUT="$work/lib" CC="$CC" CFLAGS='-O2 -Wall -Wextra' LDFLAGS= all >&2 || exit 1
cp "$work/lib/libceldrinn.so.1" "$to/libceldrinn-x86_64-linux.so.1" && chmod 755 "$to/libceldrinn-x86_64-linux.so.1" || exit 1

# the compiler, the linker, and the system's own objects that go into each shared library
parts=
for name in crti.o crtbeginS.o crtendS.o crtn.o libgcc.a; do parts="$parts $("$CC" -print-file-name="$name")"; done
# shellcheck disable=SC2086
echo "$("$CC" --version | head -n 1); $("$CC" -Wl,--version 2>/dev/null | head -n 1); $(cat $parts 2>/dev/null | sha256sum | cut -c 1-16)" >"$to/TOOLS"
